//! Every slip that the rules warn of, each shown not to have been made, in the
//! order in which they stand there.

use reference::bench::Bench;
use reference::codes::{code_and_finding, Finding, Refusal};
use reference::command::{Command, Kind};
use reference::run::{records_of, shown, Record, KIT, PUPIL};
use reference::wire::{bytes_of, extent, read_command, sealed, unsealed};

const FLUSH: [u32; 2] = [0x015a_0002, 0x015a_0002];

fn record(sender: u8, code: u8, number: u32) -> Record {
    Record {
        sender,
        code,
        parameter: 0,
        number,
        value: 0,
    }
}

#[test]
fn the_flag_is_no_part_of_the_length() {
    let appended_wait = bytes_of(&[0x7f04_8003, 0x0002_0000, 0x7f06_8003]);
    assert_eq!(extent(&appended_wait), Ok(12));
    let command = read_command(&appended_wait).expect("the rules give it as taken");
    assert!(command.appended);
    assert_eq!((command.kind, command.arguments[0]), (Kind::Wait, 2));
}

#[test]
fn each_sender_has_its_own_numbers() {
    let list = bytes_of(&[FLUSH, FLUSH].concat());
    let records = records_of(&mut Bench::default(), &list, &list);
    let expected = [(KIT, 1), (KIT, 2), (PUPIL, 1), (PUPIL, 2)];
    assert_eq!(
        records,
        expected.map(|(sender, number)| record(sender, 0, number))
    );
}

#[test]
fn codes_2_and_3_end_their_list() {
    for (first, code) in [(0x015a_0001, 2), (0x015a_0021, 2), (0x015a_0020, 3)] {
        let list = bytes_of(&[&FLUSH[..], &[first], &FLUSH].concat());
        let records = records_of(&mut Bench::default(), &list, &bytes_of(&FLUSH));
        let expected = [record(KIT, 0, 1), record(KIT, code, 2), record(PUPIL, 0, 1)];
        assert_eq!(records, expected);
        assert_eq!(shown(&list, &[], KIT, 2), &list[8..]);
        assert_eq!(shown(&list, &[], KIT, 3), &[0u8; 0]);
    }
}

#[test]
fn a_time_of_65535_stays() {
    let mut bench = Bench::default();
    let power_on = Command::new(false, Kind::ImgPwr, [1, 0]);
    let image = Command::new(false, Kind::ImgImage, [65535, 1]);
    let track = Command::new(false, Kind::ImgTrack, [65534, 1]);
    assert_eq!(bench.carry_out(&power_on), Ok(()));
    assert_eq!(bench.carry_out(&image), Ok(()));
    assert_eq!(bench.carry_out(&track), Ok(()));
    (0..66_000).for_each(|_| assert_eq!(bench.second(), []));
    assert_eq!((bench.image.time, bench.image.images), (65535, 464));
    assert_eq!((bench.track.time, bench.track.images), (0, 65534));
}

#[test]
fn no_not_a_number_is_a_goal() {
    for bits in [0x7fc0_0000, 0x7f80_0001, 0xffc0_0000, 0xffff_ffff] {
        for (arguments, position) in [([bits, 0], 1), ([0, bits], 2), ([bits; 2], 1)] {
            let goal = Command::new(false, Kind::TrkGoal, arguments);
            let finding = Finding {
                parameter: position,
                value: bits,
                low: 0,
                high: 0x447f_ffff,
            };
            assert_eq!(goal.judge(), Err(Refusal::out_of_range(finding)));
            let words = [0x0153_0004, arguments[0], arguments[1]];
            let read = read_command(&sealed(&words));
            assert_eq!(code_and_finding(&read), (8, finding));
        }
    }
}

#[test]
fn a_macro_s_image_is_counted_one_second_later() {
    let mut bench = Bench::default();
    let sent = [
        (false, Kind::ImgPwr, [1, 0]),
        (false, Kind::Open, [0, 0]),
        (true, Kind::ImgImage, [1, 1]),
        (true, Kind::Wait, [1, 0]),
        (false, Kind::Close, [0, 0]),
        (false, Kind::Run, [0, 0]),
    ];
    for (appended, kind, arguments) in sent {
        let command = Command::new(appended, kind, arguments);
        assert_eq!(bench.carry_out_bytes(&sealed(&unsealed(&command))), Ok(()));
    }
    assert_eq!(bench.second().len(), 1);
    assert_eq!(bench.image.images, 0);
    assert_eq!(bench.second(), []);
    assert_eq!(bench.image.images, 1);
}
