//! Every example that the rules give, on each side of its line. Words are
//! copied from the rules, not made by the writer under test.

use reference::bench::Bench;
use reference::codes::{code_and_finding, Refusal, ACCEPTED};
use reference::command::{goal_is_allowed, Command, Kind};
use reference::list::listing;
use reference::wire::{bytes_of, read_command, sealed, unsealed, write_command};

const FLUSH: &[u32] = &[0x015a_0002, 0x015a_0002];
const POWER_ON: &[u32] = &[0x0114_0003, 0x0100_0000, 0x0014_0003];
const REGION: &[u32] = &[0x0117_0003, 0x0200_0100, 0x0317_0103];
const IMAGE: &[u32] = &[0x0150_0003, 0x0005_0002, 0x0155_0001];
const BAD_IMAGE: &[u32] = &[0x0150_0003, 0x0005_0000, 0x0155_0003];
const GOAL: &[u32] = &[0x0153_0004, 0x43ff_c000, 0, 0x42ac_c004];
const OPEN_3: &[u32] = &[0x7f01_0003, 0x0300_0000, 0x7c01_0003];
const WAIT_2: &[u32] = &[0x7f04_8003, 0x0002_0000, 0x7f06_8003];

/// Code and parameter of an answer.
fn code_and_parameter<T>(answer: &Result<T, Refusal>) -> (u8, u8) {
    let (code, finding) = code_and_finding(answer);
    (code, finding.parameter)
}

/// Carries out the words and answers with code and parameter.
fn send(bench: &mut Bench, words: &[u32]) -> (u8, u8) {
    code_and_parameter(&bench.carry_out_bytes(&bytes_of(words)))
}

fn command(appended: bool, kind: Kind, first: u32, second: u32) -> Command {
    Command::new(appended, kind, [first, second])
}

/// Carries out a command that must be taken.
fn take(bench: &mut Bench, appended: bool, kind: Kind, argument: u32) {
    let answer = bench.carry_out(&command(appended, kind, argument, 0));
    assert_eq!(answer, Ok(()), "{kind:?} {argument}");
}

fn code(bench: &mut Bench, appended: bool, kind: Kind, argument: u32) -> (u8, u8) {
    code_and_parameter(&bench.carry_out(&command(appended, kind, argument, 0)))
}

fn goal_code(bits: u32) -> (u8, u8) {
    let goal = command(false, Kind::TrkGoal, bits, 0);
    code_and_parameter(&read_command(&sealed(&unsealed(&goal))))
}

#[test]
fn flush_is_taken_but_not_with_the_flag_on_a_fresh_bench() {
    let mut bench = Bench::default();
    assert_eq!(send(&mut bench, FLUSH), (0, 0));
    assert_eq!(bench.flushes, 1);
    let mut bench = Bench::default();
    assert_eq!(send(&mut bench, &[0x015a_8002, 0x015a_8002]), (11, 0));
    assert_eq!(bench, Bench::default());
}

#[test]
fn power_on() {
    let mut bench = Bench::default();
    assert_eq!(send(&mut bench, POWER_ON), (0, 0));
    assert!(bench.power);
}

#[test]
fn region_512_256() {
    let mut bench = Bench::default();
    assert_eq!(send(&mut bench, REGION), (0, 0));
    assert_eq!(bench.corner, [512, 256]);
}

#[test]
fn images_come_in_seconds_1_3_and_5() {
    let mut bench = Bench::default();
    assert_eq!(send(&mut bench, POWER_ON), (0, 0));
    assert_eq!(send(&mut bench, IMAGE), (0, 0));
    let counts: Vec<u16> = (0..7)
        .map(|_| {
            assert_eq!(bench.second(), []);
            bench.image.images
        })
        .collect();
    assert_eq!(counts, [1, 1, 2, 2, 3, 3, 3]);
}

#[test]
fn an_interval_of_0_is_argument_2() {
    let mut bench = Bench::default();
    assert_eq!(send(&mut bench, BAD_IMAGE), (8, 2));
    assert_eq!(bench, Bench::default());
}

#[test]
fn goal_511_and_a_half_and_0() {
    let mut bench = Bench::default();
    assert_eq!(send(&mut bench, GOAL), (0, 0));
    assert_eq!(bench.goal.map(f32::from_bits), [511.5, 0.0]);
}

#[test]
fn goal_bits_on_each_side_of_1024() {
    assert_eq!(goal_code(0x447f_ffff), (0, 0));
    assert_eq!(goal_code(0x4480_0000), (8, 1));
    assert_eq!(goal_code(0x7fc0_0000), (8, 1));
    assert!(goal_is_allowed(0x8000_0000));
    assert!(!goal_is_allowed(0x8000_0001));
}

#[test]
fn open_3_and_an_appended_wait_2() {
    let mut bench = Bench::default();
    assert_eq!(send(&mut bench, OPEN_3), (0, 0));
    assert_eq!(bench.macros.open, Some(3));
    assert_eq!(send(&mut bench, WAIT_2), (0, 0));
    assert_eq!(bench.macros.open_outline().length(), 2);
}

#[test]
fn every_example_comes_back_equal_when_written() {
    for words in [FLUSH, POWER_ON, REGION, IMAGE, GOAL, OPEN_3, WAIT_2] {
        let command = read_command(&bytes_of(words)).expect("an example that is taken");
        let mut room = [0xaa; 20];
        let written = write_command(&command, &mut room).expect("room enough");
        assert_eq!(room[..written], bytes_of(words)[..]);
        assert!(room[written..].iter().all(|byte| *byte == 0xaa));
    }
}

/// Macro 0 is FLUSH, WAIT 2; macro 1 is RUN 0, power off, RUN 0.
fn two_macros() -> Bench {
    let mut bench = Bench::default();
    take(&mut bench, false, Kind::Open, 0);
    take(&mut bench, true, Kind::TlmFlush, 0);
    take(&mut bench, true, Kind::Wait, 2);
    take(&mut bench, false, Kind::Close, 0);
    take(&mut bench, false, Kind::Open, 1);
    take(&mut bench, true, Kind::Run, 0);
    take(&mut bench, true, Kind::ImgPwr, 0);
    take(&mut bench, true, Kind::Run, 0);
    take(&mut bench, false, Kind::Close, 0);
    bench
}

#[test]
fn a_macro_that_starts_another_twice_is_written_out() {
    let mut bench = two_macros();
    assert_eq!(bench.macros.written_out(0).len(), 2);
    assert_eq!(bench.macros.written_out(1).len(), 4);
    take(&mut bench, false, Kind::ImgPwr, 1);
    take(&mut bench, false, Kind::Run, 1);
    for second in 1..=4 {
        let handed = bench.second();
        let handed: Vec<Kind> = handed.iter().map(|it| it.command.kind).collect();
        let expected: &[Kind] = match second {
            1 => &[Kind::TlmFlush],
            3 => &[Kind::ImgPwr, Kind::TlmFlush],
            _ => &[],
        };
        assert_eq!(handed, expected, "second {second}");
        assert_eq!(bench.seconds_left(), 4 - second);
        assert_eq!(bench.running.is_some(), second < 4);
        assert_eq!(bench.power, second < 3);
    }
    assert_eq!((bench.flushes, bench.second()), (2, vec![]));
}

#[test]
fn wait_600_closes_and_one_flush_more_does_not() {
    let mut bench = Bench::default();
    take(&mut bench, false, Kind::Open, 0);
    take(&mut bench, true, Kind::Wait, 600);
    take(&mut bench, false, Kind::Close, 0);
    take(&mut bench, false, Kind::Open, 1);
    take(&mut bench, true, Kind::Wait, 600);
    take(&mut bench, true, Kind::TlmFlush, 0);
    assert_eq!(code(&mut bench, false, Kind::Close, 0), (15, 0));
    assert_eq!(code(&mut bench, true, Kind::Wait, 601), (8, 1));
}

#[test]
fn entry_192_is_appended_and_entry_193_is_not() {
    let mut bench = Bench::default();
    take(&mut bench, false, Kind::Open, 0);
    for _ in 1..=192 {
        assert_eq!(code(&mut bench, true, Kind::TlmFlush, 0).0, ACCEPTED);
    }
    assert_eq!(code(&mut bench, true, Kind::TlmFlush, 0), (16, 0));
    assert_eq!(bench.macros.open_entries(), 192);
}

#[test]
fn the_list_program_prints_the_given_lines() {
    let pupil = bytes_of(&[REGION, BAD_IMAGE, &[0x015a_0002]].concat());
    let expected = "from no code par val\n\
                    kit 1 0 0 0\nkit 2 0 0 0\nkit 3 0 0 0\nkit 4 0 0 0\n\
                    pupil 1 0 0 0\npupil 2 8 2 0\npupil 3 1 0 0\n";
    assert_eq!(listing(&pupil), expected);
}

#[test]
fn a_list_of_4097_bytes_is_refused_and_one_of_4096_is_not() {
    assert_eq!(listing(&[0; 4097]), "refused 20\n");
    assert!(listing(&[0; 4096]).ends_with("kit 4 0 0 0\npupil 1 2 0 0\n"));
}
