//! What was wrong with a number: the value found and the ends of its range, for every
//! argument past each of its limits, in every way in; and that all of it is 0 with every
//! other code. Every number expected here is written by hand.

use reference::bench::Bench;
use reference::codes::{code_and_finding, Finding, Placed, Refusal};
use reference::command::{Command, Kind};
use reference::comparison::items::raw;
use reference::text::{assemble, list_text};
use reference::typed::run_typed;
use reference::wire::{bytes_of, read_command, sealed, write_command};

/// Parameter, value, low and high.
type Numbers = (u8, u32, u32, u32);

const NONE: Numbers = (0, 0, 0, 0);
const FILL: u8 = 0xaa;
const LAST_GOAL: u32 = 0x447f_ffff;
const QUIET_NAN: u32 = 0x7fc0_0000;

/// One argument one past one limit: the words but for their XOR, the decoded command,
/// the line, and what is told of it.
type Case = (&'static [u32], Kind, [u32; 2], &'static str, Numbers);

const CASES: [Case; 14] = [
    (
        &[0x0114_0003, 0x0200_0000],
        Kind::ImgPwr,
        [2, 0],
        "img_pwr 2",
        (1, 2, 0, 1),
    ),
    (
        &[0x0117_0003, 0x0400_0007],
        Kind::ImgRegion,
        [1024, 7],
        "img_region 1024 7",
        (1, 1024, 0, 1023),
    ),
    (
        &[0x0117_0003, 0x0007_0400],
        Kind::ImgRegion,
        [7, 1024],
        "img_region 7 1024",
        (2, 1024, 0, 1023),
    ),
    (
        &[0x0118_0003, 0x0005_0000],
        Kind::ImgTrack,
        [5, 0],
        "img_track 5 0",
        (2, 0, 1, 65535),
    ),
    (
        &[0x0148_0003, 0x0300_0000],
        Kind::TrkAlg,
        [3, 0],
        "trk_alg 3",
        (1, 3, 0, 2),
    ),
    (
        &[0x014b_0003, 0x0200_0000],
        Kind::TrkLoop,
        [2, 0],
        "trk_loop 2",
        (1, 2, 0, 1),
    ),
    (
        &[0x0150_0003, 0x0005_0000],
        Kind::ImgImage,
        [5, 0],
        "img_image 5 0",
        (2, 0, 1, 65535),
    ),
    (
        &[0x0153_0004, 0x4480_0000, 0x3f80_0000],
        Kind::TrkGoal,
        [0x4480_0000, 0x3f80_0000],
        "trk_goal 1024 1",
        (1, 0x4480_0000, 0, 0x447f_ffff),
    ),
    (
        &[0x0153_0004, 0x3f80_0000, 0x4480_0000],
        Kind::TrkGoal,
        [0x3f80_0000, 0x4480_0000],
        "trk_goal 1 1024",
        (2, 0x4480_0000, 0, 0x447f_ffff),
    ),
    (
        &[0x015c_0003, 0x0200_0000],
        Kind::FlushAuto,
        [2, 0],
        "flush_auto 2",
        (1, 2, 0, 1),
    ),
    (
        &[0x7f01_0003, 0x0800_0000],
        Kind::Open,
        [8, 0],
        "open 8",
        (1, 8, 0, 7),
    ),
    (
        &[0x7f03_0003, 0x0800_0000],
        Kind::Run,
        [8, 0],
        "run 8",
        (1, 8, 0, 7),
    ),
    (
        &[0x7f04_8003, 0x0000_0000],
        Kind::Wait,
        [0, 0],
        "+wait 0",
        (1, 0, 1, 600),
    ),
    (
        &[0x7f04_8003, 0x0259_0000],
        Kind::Wait,
        [601, 0],
        "+wait 601",
        (1, 601, 1, 600),
    ),
];

fn numbers(finding: Finding) -> Numbers {
    let Finding {
        parameter,
        value,
        low,
        high,
    } = finding;
    (parameter, value, low, high)
}

/// Code and numbers of an answer.
fn told<T>(answer: &Result<T, Refusal>) -> (u8, Numbers) {
    let (code, finding) = code_and_finding(answer);
    (code, numbers(finding))
}

/// The same, and the place.
fn told_at<T>(answer: &Result<T, Placed>) -> (u8, u32, Numbers) {
    match answer {
        Ok(_) => (0, 0, NONE),
        Err(Placed { place, refusal }) => (refusal.code, *place, numbers(refusal.finding)),
    }
}

/// What carrying out these words tells; a refusal must change nothing.
fn sent(bench: &mut Bench, words: &[u32]) -> (u8, Numbers) {
    let before = bench.clone();
    let answer = bench.carry_out_bytes(&sealed(words));
    if answer.is_err() {
        assert_eq!(*bench, before, "{words:x?}");
    }
    told(&answer)
}

/// What a decoded command tells when it is carried out, and when it is written.
fn carried_out(bench: &mut Bench, flag: bool, kind: Kind, set: [u32; 2]) -> (u8, Numbers) {
    told(&bench.carry_out(&Command::new(flag, kind, set).through_singles()))
}

fn written(flag: bool, kind: Kind, set: [u32; 2]) -> (u8, Numbers) {
    let command = Command::new(flag, kind, set).through_singles();
    told(&write_command(&command, &mut [FILL; 16]))
}

/// What a text tells when it is assembled; a refusal must leave the room alone.
fn assembled(text: &str) -> (u8, u32, Numbers) {
    let mut room = [FILL; 100];
    let answer = assemble(text.as_bytes(), &mut room);
    let written = answer.unwrap_or(0);
    assert!(room[written..].iter().all(|byte| *byte == FILL), "{text}");
    told_at(&answer)
}

fn listed(raw: &[u8]) -> (u8, u32, Numbers) {
    told_at(&list_text(raw, &mut [FILL; 100]))
}

fn flush() -> Vec<u8> {
    bytes_of(&[0x015a_0002, 0x015a_0002])
}

#[test]
fn every_argument_past_a_limit_from_bytes() {
    for (words, _, _, line, expected) in CASES {
        assert_eq!(told(&read_command(&sealed(words))), (8, expected), "{line}");
        assert_eq!(sent(&mut Bench::default(), words), (8, expected), "{line}");
        let list = [flush(), sealed(words)].concat();
        assert_eq!(listed(&list), (8, 2, expected), "{line}");
    }
}

#[test]
fn every_argument_past_a_limit_decoded() {
    for (_, kind, set, line, expected) in CASES {
        let flag = line.starts_with('+');
        let answer = carried_out(&mut Bench::default(), flag, kind, set);
        assert_eq!(answer, (8, expected), "{line}");
        assert_eq!(written(flag, kind, set), (8, expected), "{line}");
    }
}

#[test]
fn every_argument_past_a_limit_typed() {
    let only_typed = [
        ("img_track 65536 7", (1, 65536, 0, 65535)),
        ("img_track 7 65536", (2, 65536, 1, 65535)),
        ("img_image 65536 7", (1, 65536, 0, 65535)),
        ("img_image 7 65536", (2, 65536, 1, 65535)),
    ];
    let on_the_wire_too = CASES.map(|(_, _, _, line, expected)| (line, expected));
    for (line, expected) in on_the_wire_too.into_iter().chain(only_typed) {
        let text = format!("stop\n#\n{line}\nrun 9\n");
        assert_eq!(assembled(&text), (8, 3, expected), "{line}");
        let (mut bench, mut room) = (Bench::default(), vec![FILL; 12_288]);
        let answer = run_typed(&mut bench, &flush(), text.as_bytes(), &mut room);
        assert_eq!(told_at(&answer), (8, 3, expected), "{line}");
        assert_eq!(bench, Bench::default());
    }
}

#[test]
fn at_the_ends_themselves_nothing_is_told() {
    let sets: [(Kind, [u32; 2], &str); 10] = [
        (Kind::ImgPwr, [1, 0], "img_pwr 1"),
        (Kind::ImgRegion, [1023, 1023], "img_region 1023 1023"),
        (Kind::ImgTrack, [65535, 65535], "img_track 65535 65535"),
        (Kind::ImgImage, [0, 1], "img_image 0 1"),
        (Kind::TrkAlg, [2, 0], "trk_alg 2"),
        (Kind::TrkLoop, [1, 0], "trk_loop 1"),
        (Kind::FlushAuto, [1, 0], "flush_auto 1"),
        (Kind::Open, [7, 0], "open 7"),
        (Kind::Wait, [1, 0], "+wait 1"),
        (Kind::Wait, [600, 0], "+wait 600"),
    ];
    for (kind, set, line) in sets {
        let flag = line.starts_with('+');
        let bytes = raw(flag, kind, set);
        assert_eq!(told(&read_command(&bytes)), (0, NONE), "{line}");
        assert_eq!(written(flag, kind, set), (0, NONE), "{line}");
        assert_eq!(assembled(line), (0, 0, NONE), "{line}");
        assert_eq!(listed(&bytes), (0, 0, NONE), "{line}");
    }
}

#[test]
fn goals_are_told_as_bits_and_from_bytes_as_the_very_bits() {
    for bits in [0, LAST_GOAL, 0x8000_0000] {
        let words = [0x0153_0004, bits, bits];
        let mut bench = Bench::default();
        assert_eq!(sent(&mut bench, &words), (0, NONE), "{bits:x}");
        assert_eq!(bench.goal, [bits; 2]);
        assert_eq!(written(false, Kind::TrkGoal, [bits; 2]), (0, NONE));
    }
    let refused = [
        (0x4480_0000, 0x4480_0000),
        (0x7f80_0000, 0x7f80_0000),
        (0x7f80_0001, QUIET_NAN),
        (0x7fbf_ffff, QUIET_NAN),
        (0x7fc0_0000, QUIET_NAN),
        (0x7fff_ffff, QUIET_NAN),
        (0x8000_0001, 0x8000_0001),
        (0xbf80_0000, 0xbf80_0000),
        (0xff80_0000, 0xff80_0000),
        (0xff80_0001, QUIET_NAN),
        (0xffc0_0000, QUIET_NAN),
        (0xffff_ffff, QUIET_NAN),
    ];
    for (bits, once_decoded) in refused {
        for (position, set) in [(1, [bits, 0]), (2, [0, bits])] {
            let expected = (position, bits, 0, LAST_GOAL);
            let words = [0x0153_0004, set[0], set[1]];
            assert_eq!(told(&read_command(&sealed(&words))), (8, expected));
            assert_eq!(sent(&mut Bench::default(), &words), (8, expected));
            assert_eq!(listed(&sealed(&words)), (8, 1, expected));
            let expected = (position, once_decoded, 0, LAST_GOAL);
            let answer = carried_out(&mut Bench::default(), true, Kind::TrkGoal, set);
            assert_eq!(answer, (8, expected));
            assert_eq!(written(false, Kind::TrkGoal, set), (8, expected));
        }
    }
}

#[test]
fn typed_goals_are_told_as_the_bits_of_their_singles() {
    let cases = [
        ("1024", 0x4480_0000),
        ("01024", 0x4480_0000),
        ("1024.25", 0x4480_0800),
        ("1024.5", 0x4480_1000),
        ("1024.75", 0x4480_1800),
        ("2048", 0x4500_0000),
        ("70000", 0x4788_b800),
        ("99999", 0x47c3_4f80),
        ("99999.75", 0x47c3_4fe0),
    ];
    for (word, bits) in cases {
        let line = format!("trk_goal {word} 2048");
        assert_eq!(assembled(&line), (8, 1, (1, bits, 0, LAST_GOAL)), "{line}");
        let line = format!("+trk_goal 1023.75 {word}");
        assert_eq!(assembled(&line), (8, 1, (2, bits, 0, LAST_GOAL)), "{line}");
    }
}

#[test]
fn of_two_bad_arguments_the_first_is_told() {
    let corner = (8, (1, 1025, 0, 1023));
    let words = [0x0117_0003, 0x0401_ffff];
    assert_eq!(sent(&mut Bench::default(), &words), corner);
    let bench = &mut Bench::default();
    assert_eq!(
        carried_out(bench, false, Kind::ImgRegion, [1025, 65535]),
        corner
    );
    assert_eq!(assembled("img_region 1025 99999"), (8, 1, corner.1));
    assert_eq!(assembled("img_image 65536 0"), (8, 1, (1, 65536, 0, 65535)));
    let goal = (8, (1, 0xffff_ffff, 0, LAST_GOAL));
    assert_eq!(sent(bench, &[0x0153_0004, 0xffff_ffff, 0x4480_0000]), goal);
    let goal = (8, (1, QUIET_NAN, 0, LAST_GOAL));
    let set = [0xffff_ffff, 0x4480_0000];
    assert_eq!(carried_out(bench, false, Kind::TrkGoal, set), goal);
}

#[test]
fn a_typed_number_is_told_as_it_was_typed() {
    let cases = [
        ("img_pwr 256", (1, 256, 0, 1)),
        ("img_pwr 00257", (1, 257, 0, 1)),
        ("run 70000", (1, 70000, 0, 7)),
        ("run 99999", (1, 99999, 0, 7)),
        ("img_region 65536 0", (1, 65536, 0, 1023)),
        ("img_region 0 99999", (2, 99999, 0, 1023)),
        ("img_track 70000 1", (1, 70000, 0, 65535)),
        ("img_track 1 70000", (2, 70000, 1, 65535)),
        ("img_image 99999 99999", (1, 99999, 0, 65535)),
        ("+wait 65537", (1, 65537, 1, 600)),
        ("trk_alg 00003", (1, 3, 0, 2)),
    ];
    for (line, expected) in cases {
        assert_eq!(assembled(line), (8, 1, expected), "{line}");
    }
}

#[test]
fn a_decoded_number_is_cut_before_it_is_told() {
    let bench = &mut Bench::default();
    let answer = carried_out(bench, false, Kind::ImgPwr, [0x0001_0002, 0]);
    assert_eq!(answer, (8, (1, 2, 0, 1)));
    let answer = carried_out(bench, true, Kind::Wait, [0x0001_0000, 0]);
    assert_eq!(answer, (8, (1, 0, 1, 600)));
    let answer = carried_out(bench, false, Kind::ImgRegion, [0x0005_0000, 0x0001_ffff]);
    assert_eq!(answer, (8, (2, 65535, 0, 1023)));
}

#[test]
fn eight_is_told_where_9_or_10_is_due_and_26_and_11_too() {
    let bench = &mut Bench::default();
    assert_eq!(sent(bench, &[0x7f01_8003, 0x0800_0000]), (8, (1, 8, 0, 7)));
    assert_eq!(sent(bench, &[0x7f04_0003, 0]), (8, (1, 0, 1, 600)));
    assert_eq!(
        carried_out(bench, true, Kind::Open, [9, 0]),
        (8, (1, 9, 0, 7))
    );
    assert_eq!(
        carried_out(bench, false, Kind::Wait, [601, 0]),
        (8, (1, 601, 1, 600))
    );
    assert_eq!(assembled("+open 8"), (8, 1, (1, 8, 0, 7)));
    assert_eq!(assembled("wait 0"), (8, 1, (1, 0, 1, 600)));
    assert_eq!(
        sent(bench, &[0x0150_0003, 0x0005_0000]),
        (8, (2, 0, 1, 65535))
    );
    assert_eq!(sent(bench, &[0x0114_8003, 0x0900_0000]), (8, (1, 9, 0, 1)));
}

#[test]
fn with_9_or_10_all_is_0() {
    let bench = &mut Bench::default();
    assert_eq!(sent(bench, &[0x7f01_8003, 0x0700_0000]), (9, NONE));
    assert_eq!(sent(bench, &[0x7f04_0003, 0x0258_0000]), (10, NONE));
    assert_eq!(carried_out(bench, true, Kind::Open, [7, 0]), (9, NONE));
    assert_eq!(carried_out(bench, false, Kind::Wait, [600, 0]), (10, NONE));
    assert_eq!(written(true, Kind::Open, [7, 0]), (9, NONE));
    assert_eq!(written(false, Kind::Wait, [600, 0]), (10, NONE));
    assert_eq!(assembled("+open 7"), (9, 1, NONE));
    assert_eq!(assembled("wait 600"), (10, 1, NONE));
}

#[test]
fn with_every_code_before_8_all_is_0() {
    let bytes = sealed(&[0x7f01_0003, 0x0900_0000]);
    assert_eq!(told(&read_command(&bytes[..7])), (1, NONE));
    assert_eq!(
        told(&read_command(&sealed(&[0x7f01_0021, 0x0900_0000]))),
        (2, NONE)
    );
    assert_eq!(told(&read_command(&bytes[..11])), (3, NONE));
    let broken = bytes_of(&[0x7f01_0003, 0x0900_0000, 0]);
    assert_eq!(told(&read_command(&broken)), (4, NONE));
    assert_eq!(
        told(&read_command(&sealed(&[0x7f07_0003, 0x0900_0000]))),
        (5, NONE)
    );
    assert_eq!(
        told(&read_command(&sealed(&[0x7f01_0004, 0x0900_0000, 0]))),
        (6, NONE)
    );
    assert_eq!(
        told(&read_command(&sealed(&[0x7f01_0003, 0x0900_0001]))),
        (7, NONE)
    );
    assert_eq!(assembled("opens 9"), (30, 1, NONE));
    assert_eq!(assembled("open 9x"), (31, 1, NONE));
    assert_eq!(assembled("img_region 9999 x"), (31, 1, NONE));
    assert_eq!(assembled("open 9 9"), (32, 1, NONE));
}

#[test]
fn with_every_code_of_the_bench_all_is_0() {
    let bench = &mut Bench::default();
    let mut answer = |flag, kind, set| carried_out(bench, flag, kind, set);
    assert_eq!(answer(false, Kind::ImgImage, [300, 7]), (26, NONE));
    assert_eq!(answer(true, Kind::ImgRegion, [9, 9]), (11, NONE));
    assert_eq!(answer(false, Kind::Run, [3, 0]), (18, NONE));
    assert_eq!(answer(false, Kind::Open, [3, 0]), (0, NONE));
    assert_eq!(answer(false, Kind::Open, [4, 0]), (12, NONE));
    assert_eq!(answer(true, Kind::Run, [5, 0]), (17, NONE));
    assert_eq!(answer(true, Kind::Wait, [2, 0]), (0, NONE));
    assert_eq!(answer(false, Kind::Close, [0, 0]), (0, NONE));
    assert_eq!(answer(false, Kind::Open, [3, 0]), (13, NONE));
    assert_eq!(answer(false, Kind::Run, [3, 0]), (0, NONE));
    assert_eq!(answer(false, Kind::Run, [3, 0]), (19, NONE));
    assert_eq!(answer(false, Kind::Open, [6, 0]), (0, NONE));
    (0..191).for_each(|_| assert_eq!(answer(true, Kind::Wait, [600, 0]), (0, NONE)));
    assert_eq!(answer(true, Kind::ImgRegion, [9, 9]), (16, NONE));
    assert_eq!(answer(false, Kind::Close, [0, 0]), (15, NONE));
}

#[test]
fn without_room_or_without_a_word_for_a_goal_all_is_0() {
    let command = Command::new(false, Kind::ImgRegion, [9, 9]);
    assert_eq!(told(&write_command(&command, &mut [FILL; 11])), (24, NONE));
    assert_eq!(told_at(&assemble(b"run 7", &mut [FILL; 11])), (24, 0, NONE));
    assert_eq!(
        listed(&sealed(&[0x0153_0004, 0x8000_0000, 1])),
        (33, 1, NONE)
    );
    assert_eq!(listed(&[0; 4097]), (20, 0, NONE));
}
