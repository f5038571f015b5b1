//! Small scripts for the replay program for the four-seat bench, with the transcript each must
//! give, written by hand.

use reference::bench::Bench;
use reference::command::Kind;
use reference::comparison::items::{fresh, queue, raw, second, status, turn};
use reference::replay::Script;
use reference::seats_replay::{transcript, SeatsReplay};
use reference::wire::bytes_of;

fn answer(items: &[Vec<u8>]) -> String {
    transcript(&items.concat())
}

fn flush() -> Vec<u8> {
    bytes_of(&[0x015a_0002, 0x015a_0002])
}

fn power(mode: u32) -> Vec<u8> {
    raw(false, Kind::ImgPwr, [mode, 0])
}

/// The line of a status of which these digits stand from the place of byte 24 on.
fn status_with(end: &str) -> String {
    let digits = "000000010000000100000000000000000000000000000000";
    format!("status {digits}{end}\n")
}

const TAKEN: &str = "queued 0 0 0 0 0\n";
const NONE: &str = "turn 0 none\n";

#[test]
fn by_its_bytes() {
    let script = [
        1, 2, 8, 1, 0x5a, 0, 2, 1, 0x5a, 0, 2, 3, 3, 1, 4, 0, 1, 0, 1, 9, 0, 2, 4, 3,
    ];
    let expected = [
        TAKEN,
        "turn 0 record 020000000000000100000000\n",
        NONE,
        "queued 51 0 0 0 0\n",
        "queued 1 0 0 0 0\n",
        "second 0 0\n",
        &status_with("0001ffff00000000"),
        NONE,
    ];
    assert_eq!(transcript(&script), expected.concat());
}

#[test]
fn commands_queued_and_refused() {
    let sent = [
        (3, flush()),
        (4, flush()),
        (255, vec![]),
        (0, vec![]),
        (0, bytes_of(&[0x015a_0021, 0])),
        (0, bytes_of(&[0x015a_0003, 0])),
        (0, bytes_of(&[0x015a_0002, 0])),
        (0, bytes_of(&[0x015b_0002, 0x015b_0002])),
        (0, bytes_of(&[0x7f02_0003, 0, 0x7f02_0003])),
        (0, bytes_of(&[0x7f03_0003, 0x0100_0100, 0x7e03_0103])),
        (0, raw(false, Kind::ImgRegion, [1023, 2000])),
        (0, raw(true, Kind::TrkGoal, [0x8000_0001, 0x7fc0_0001])),
        (0, raw(true, Kind::Clear, [0; 2])),
        (0, raw(false, Kind::Wait, [600, 0])),
        (0, flush().repeat(2)),
        (0, [&flush()[..], &[0]].concat()),
    ];
    let items = sent.map(|(seat, bytes)| queue(seat, &bytes));
    let expected = "queued 0 0 0 0 0\nqueued 51 0 0 0 0\nqueued 51 0 0 0 0\nqueued 1 0 0 0 0\n\
                    queued 2 0 0 0 0\nqueued 3 0 0 0 0\nqueued 4 0 0 0 0\nqueued 5 0 0 0 0\n\
                    queued 6 0 0 0 0\nqueued 7 0 0 0 0\nqueued 8 2 2000 0 1023\n\
                    queued 8 1 2147483649 0 1149239295\nqueued 9 0 0 0 0\nqueued 10 0 0 0 0\n\
                    queued 53 0 0 0 0\nqueued 53 0 0 0 0\n";
    assert_eq!(answer(&items), expected);
}

#[test]
fn a_queue_takes_32_commands() {
    let mut items = vec![queue(1, &flush()); 33];
    items.extend([turn(), queue(1, &flush()), queue(1, &flush())]);
    let expected = [
        &TAKEN.repeat(32),
        "queued 52 0 0 0 0\n",
        "turn 0 record 010000000000000100000000\n",
        TAKEN,
        "queued 52 0 0 0 0\n",
    ];
    assert_eq!(answer(&items), expected.concat());
}

#[test]
fn turns_go_round() {
    let mut items = vec![turn()];
    items.extend([2, 0, 0, 3].map(|seat| queue(seat, &flush())));
    items.extend(vec![turn(); 2]);
    items.push(queue(1, &raw(false, Kind::Run, [7, 0])));
    items.extend(vec![turn(); 4]);
    let expected = [
        NONE,
        &TAKEN.repeat(4),
        "turn 0 record 000000000000000100000000\nturn 0 record 020000000000000100000000\n",
        TAKEN,
        "turn 0 record 030000000000000100000000\nturn 0 record 000000000000000200000000\n",
        "turn 0 record 011200000000000100000000\n",
        NONE,
    ];
    assert_eq!(answer(&items), expected.concat());
}

#[test]
fn seconds_hand_over_what_the_seats_wrote() {
    let commands = [
        (0, raw(false, Kind::Open, [4, 0])),
        (1, raw(true, Kind::ImgImage, [9, 2])),
        (2, raw(true, Kind::ImgPwr, [1, 0])),
        (3, raw(true, Kind::Wait, [1, 0])),
        (0, raw(true, Kind::TrkGoal, [0x3f80_0000, 0])),
        (1, raw(false, Kind::Close, [0; 2])),
        (2, raw(false, Kind::Run, [4, 0])),
    ];
    let mut items: Vec<Vec<u8>> = Vec::new();
    for (seat, bytes) in &commands {
        items.extend([queue(*seat, bytes), turn()]);
    }
    items.extend([second(), second(), second()]);
    let records = [
        "00000000000000100000000",
        "10000000000000100000000",
        "20000000000000100000000",
        "30000000000000100000000",
        "00000000000000200000000",
        "10000000000000200000000",
        "20000000000000200000000",
    ];
    let mut expected = String::new();
    for record in records {
        expected += &format!("{TAKEN}turn 0 record 0{record}\n");
    }
    expected += "second 0 2\nhanded 26 img_image 9 2\nhanded 0 img_pwr 1\n";
    expected += "second 0 1\nhanded 0 trk_goal 1065353216 0\nsecond 0 0\n";
    assert_eq!(answer(&items), expected);
}

#[test]
fn the_status_is_that_of_the_shared_bench() {
    let items = [
        status(),
        queue(2, &power(1)),
        queue(0, &flush()),
        status(),
        turn(),
        status(),
        turn(),
        status(),
    ];
    let expected = [
        &status_with("0000ffff00000000"),
        TAKEN,
        TAKEN,
        &status_with("0000ffff00000000"),
        "turn 0 record 000000000000000100000000\n",
        &status_with("0001ffff00000000"),
        "turn 0 record 020000000000000100000000\n",
        &status_with("0101ffff00000000"),
    ];
    assert_eq!(answer(&items), expected.concat());
}

#[test]
fn a_fresh_bench_has_four_empty_queues_and_numbers_from_1() {
    let items = [
        queue(1, &power(1)),
        turn(),
        queue(1, &flush()),
        queue(2, &flush()),
        fresh(),
        status(),
        turn(),
        queue(2, &flush()),
        queue(0, &flush()),
        turn(),
        turn(),
        turn(),
        fresh(),
        fresh(),
    ];
    let expected = [
        TAKEN,
        "turn 0 record 010000000000000100000000\n",
        TAKEN,
        TAKEN,
        &status_with("0000ffff00000000"),
        NONE,
        TAKEN,
        TAKEN,
        "turn 0 record 000000000000000100000000\nturn 0 record 020000000000000100000000\n",
        NONE,
    ];
    assert_eq!(answer(&items), expected.concat());
}

#[test]
fn seats_that_are_not_sound_are_told_with_27_everywhere() {
    let mut replay = SeatsReplay::default();
    replay.seats.last = 4;
    let mut told = |item: Vec<u8>| replay.item(&mut Script::new(&item));
    assert_eq!(told(queue(4, &[])), Some("queued 27 0 0 0 0\n".into()));
    assert_eq!(told(turn()), Some("turn 27 none\n".into()));
    assert_eq!(told(second()), Some("second 27 0\n".into()));
    assert_eq!(told(status()), Some("status 27\n".into()));
    assert_eq!(told(fresh()), Some(String::new()));
    assert_eq!(told(turn()), Some(NONE.into()));
    assert_eq!(replay.seats.bench, Bench::default());
}

#[test]
fn scripts_that_end_badly() {
    assert_eq!(answer(&[]), "");
    for first in 5..=255 {
        let items = [turn(), vec![first], turn()];
        assert_eq!(answer(&items), "turn 0 none\nbad script\n", "{first}");
    }
    for item in [queue(0, &flush()), queue(0, &[0; 255]), queue(9, &[1])] {
        for length in 1..item.len() {
            let items = [turn(), item[..length].to_vec()];
            assert_eq!(answer(&items), "turn 0 none\nbad script\n", "{length}");
        }
    }
    // What is cut off is not queued, and nothing follows.
    let items = [queue(0, &flush()), queue(1, &flush())[..10].to_vec()];
    assert_eq!(answer(&items), format!("{TAKEN}bad script\n"));
}

#[test]
fn scripts_above_65536_bytes_are_too_long() {
    let mut items = vec![turn(); 65_536];
    assert_eq!(answer(&items), NONE.repeat(65_536));
    items.push(turn());
    assert_eq!(answer(&items), "too long\n");
    // Queueings have 11 bytes each, and 65,536 are 5,957 of them and 9.
    let mut items = vec![queue(7, &flush()); 5957];
    items.extend(vec![fresh(); 9]);
    assert_eq!(answer(&items), "queued 51 0 0 0 0\n".repeat(5957));
    items.push(fresh());
    assert_eq!(answer(&items), "too long\n");
}
