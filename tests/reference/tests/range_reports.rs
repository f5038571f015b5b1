//! What was wrong with a number, as it is reported: records of 12 bytes and the room for
//! them, and what the programs print. Every number expected here is written by hand.

use reference::bench::Bench;
use reference::codes::{Placed, Refusal};
use reference::command::Kind;
use reference::comparison::items::{
    assemble, command, decoded, list_text, raw, read, run, typed as typed_item,
};
use reference::list::listing;
use reference::programs::{assembler, lister, typed};
use reference::replay::transcript;
use reference::run::{run_lists, Counts};
use reference::typed::run_typed;
use reference::wire::{bytes_of, sealed};

const FILL: u8 = 0xaa;

fn flush() -> Vec<u8> {
    bytes_of(&[0x015a_0002, 0x015a_0002])
}

/// A run of two lists into a room of this size, and the room.
fn run_into(size: usize, kit: &[u8], pupil: &[u8]) -> (Result<Counts, Refusal>, Vec<u8>) {
    let mut room = vec![FILL; size];
    let answer = run_lists(&mut Bench::default(), kit, pupil, &mut room);
    (answer, room)
}

#[test]
fn a_record_has_12_bytes_the_last_four_the_value() {
    let kit = [
        sealed(&[0x0117_0003, 0x1234_0001]),
        flush(),
        sealed(&[0x0153_0004, 0, 0xfedc_ba98]),
    ];
    let pupil = [
        sealed(&[0x0150_0003, 0x0005_0000]),
        sealed(&[0x0150_0003, 0x0005_0001]),
        sealed(&[0x7f04_0003, 0x0259_0000]),
        vec![1, 2, 3],
    ];
    let (answer, room) = run_into(12_288, &kit.concat(), &pupil.concat());
    assert_eq!(answer, Ok(Counts { kit: 3, pupil: 4 }));
    let records: [[u8; 12]; 7] = [
        [1, 8, 1, 0, 0, 0, 0, 1, 0, 0, 0x12, 0x34],
        [1, 0, 0, 0, 0, 0, 0, 2, 0, 0, 0, 0],
        [1, 8, 2, 0, 0, 0, 0, 3, 0xfe, 0xdc, 0xba, 0x98],
        [2, 8, 2, 0, 0, 0, 0, 1, 0, 0, 0, 0],
        [2, 26, 0, 0, 0, 0, 0, 2, 0, 0, 0, 0],
        [2, 8, 1, 0, 0, 0, 0, 3, 0, 0, 0x02, 0x59],
        [2, 1, 0, 0, 0, 0, 0, 4, 0, 0, 0, 0],
    ];
    assert_eq!(room[..84], records.concat());
    assert!(room[84..].iter().all(|byte| *byte == FILL));
}

#[test]
fn a_report_needs_room_for_12288_bytes() {
    for size in [0, 8192, 12_287] {
        let (answer, room) = run_into(size, &flush(), &flush());
        assert_eq!(answer, Err(Refusal::plain(21)), "{size}");
        assert!(room.iter().all(|byte| *byte == FILL));
        let mut bench = Bench::default();
        let answer = run_typed(&mut bench, &flush(), b"tlm_flush", &mut vec![FILL; size]);
        assert_eq!(answer, Err(Placed::from(Refusal::plain(21))), "{size}");
        assert_eq!(bench, Bench::default());
    }
    for size in [12_288, 12_289] {
        let (answer, _) = run_into(size, &flush(), &flush());
        assert_eq!(answer, Ok(Counts { kit: 1, pupil: 1 }));
        let room = &mut vec![FILL; size];
        let answer = run_typed(&mut Bench::default(), &flush(), b"run 1", room);
        assert_eq!(answer, Ok(Counts { kit: 1, pupil: 1 }));
    }
}

#[test]
fn two_lists_of_512_commands_fill_the_room() {
    let full = flush().repeat(512);
    let (answer, room) = run_into(12_290, &full, &full);
    assert_eq!(
        answer,
        Ok(Counts {
            kit: 512,
            pupil: 512
        })
    );
    for (index, record) in room[..12_288].chunks(12).enumerate() {
        let sender = 1 + (index / 512) as u8;
        let number = (index % 512 + 1) as u32;
        let expected = [[sender, 0, 0, 0], number.to_be_bytes(), [0; 4]].concat();
        assert_eq!(record, expected, "{index}");
    }
    assert_eq!(room[12_288..], [FILL; 2]);
    let room = &mut vec![FILL; 12_288];
    let text = b"tlm_flush\n".repeat(512);
    let answer = run_typed(&mut Bench::default(), &full, &text, room);
    assert_eq!(
        answer,
        Ok(Counts {
            kit: 512,
            pupil: 512
        })
    );
    assert_eq!(room[12_276..], [2, 0, 0, 0, 0, 0, 2, 0, 0, 0, 0, 0]);
}

#[test]
fn the_list_programs_print_a_fifth_column() {
    let pupil = [
        sealed(&[0x0117_0003, 0x0005_ffff]),
        flush(),
        sealed(&[0x0153_0004, 0xffc0_0001, 0]),
        sealed(&[0x7f04_8003, 0]),
    ];
    let kit = "from no code par val\nkit 1 0 0 0\nkit 2 0 0 0\nkit 3 0 0 0\nkit 4 0 0 0\n";
    let own = "pupil 1 8 2 65535\npupil 2 0 0 0\npupil 3 8 1 4290772993\npupil 4 8 1 0\n";
    assert_eq!(listing(&pupil.concat()), format!("{kit}{own}"));
    let own = "pupil 2 18 0 0\n";
    assert_eq!(
        typed(b"#\nrun 5\n").output,
        format!("{kit}{own}").as_bytes()
    );
}

#[test]
fn refusals_in_words() {
    let line = "refused 8 line 2 par 2 val 70000 from 1 to 65535\n".as_bytes();
    assert_eq!(typed(b"#\nimg_image 5 70000").output, line);
    assert_eq!(assembler(b"#\nimg_image 5 70000").errors, line);
    let line = "refused 8 line 1 par 1 val 1149239296 from 0 to 1149239295\n".as_bytes();
    assert_eq!(typed(b"trk_goal 1024 0").output, line);
    assert_eq!(assembler(b"trk_goal 1024 0").errors, line);
    let list = [flush(), sealed(&[0x0153_0004, 1, 0x7f80_0001])].concat();
    let line = "refused 8 number 2 par 2 val 2139095041 from 0 to 1149239295\n";
    assert_eq!(lister(&list).errors, line.as_bytes());
    assert_eq!(
        lister(&raw(true, Kind::Wait, [0, 0])).errors,
        b"refused 8 number 1 par 1 val 0 from 1 to 600\n"
    );
    assert_eq!(typed(b"wait 600").output, b"refused 10 line 1\n");
}

#[test]
fn what_replay_prints() {
    let goal = raw(false, Kind::TrkGoal, [0, 0xffff_ffff]);
    let wait = raw(true, Kind::Wait, [601, 0]);
    let items = [
        command(&goal),
        read(16, &goal),
        decoded(0, 6, [0, 0xffff_ffff]),
        decoded(1, 12, [0x0001_0000, 0]),
        read(12, &wait),
        assemble(65_535, b"\nimg_region 99999 0"),
        list_text(0, &[flush(), wait.clone()].concat()),
        typed_item(12_288, &goal, b"run 70000"),
        typed_item(12_288, &goal, b"stop"),
        run(65_535, &wait, &[]),
    ];
    let expected = "command 8 2 4294967295 0 1149239295\n\
                    read 8 2 4294967295 0 1149239295\n\
                    decoded 8 2 2143289344 0 1149239295 8\n\
                    decoded 8 1 0 1 600 8\n\
                    read 8 1 601 1 600\n\
                    assembled 8 2 1 99999 0 1023\nrest same\n\
                    listed 8 2 1 601 1 600\nrest same\n\
                    typed 8 1 1 70000 0 7 0 0\nrest same\n\
                    typed 0 0 0 0 0 0 1 1\nrecord 0108020000000001ffffffff\n\
                    record 020000000000000100000000\nrest same\n\
                    run 0 1 0\nrecord 010801000000000100000259\nrest same\n";
    assert_eq!(transcript(&items.concat()), expected);
}
