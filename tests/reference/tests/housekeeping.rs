//! Housekeeping: which numbers a run leaves on the bench and what leaves them alone, the
//! free entries, and the frame of tagged items, read and written. Every number expected
//! here is written by hand.

use reference::bench::{Bench, Latest};
use reference::codes::{code_and_finding, Refusal};
use reference::command::{Command, Kind};
use reference::comparison::items::raw;
use reference::housekeeping::Housekeeping;
use reference::run::run_lists;
use reference::typed::run_typed;
use reference::wire::{bytes_of, sealed};

const FILL: u8 = 0xaa;
const ENOUGH: usize = 12_288;

/// No two bytes of the numbers are the same.
const GOOD: [u8; 18] = [
    0x12, 4, 0x01, 0x23, 0x45, 0x67, 0x13, 4, 0x89, 0xab, 0xcd, 0xef, 0x14, 1, 0x1a, 0x15, 1, 0xc0,
];
const GOOD_VALUES: Housekeeping = Housekeeping {
    received: 0x0123_4567,
    failed: 0x89ab_cdef,
    failed_code: 26,
    free: 192,
};
/// Where the items start, the tag first and then the length.
const STARTS: [usize; 4] = [0, 6, 12, 15];

fn flush() -> Vec<u8> {
    bytes_of(&[0x015a_0002, 0x015a_0002])
}

/// A command that has code 8 on any bench.
fn past() -> Vec<u8> {
    sealed(&[0x0117_0003, 0x0400_0000])
}

/// A command that has code 9 on any bench.
fn flagged() -> Vec<u8> {
    sealed(&[0x7f05_8002])
}

/// Runs both lists into room for their report and says what the bench keeps.
fn run(bench: &mut Bench, kit: &[Vec<u8>], pupil: &[Vec<u8>]) -> [u32; 3] {
    let mut room = vec![FILL; ENOUGH];
    let answer = run_lists(bench, &kit.concat(), &pupil.concat(), &mut room);
    assert!(answer.is_ok());
    kept(bench)
}

fn run_text(bench: &mut Bench, kit: &[Vec<u8>], text: &str) -> [u32; 3] {
    let mut room = vec![FILL; ENOUGH];
    let answer = run_typed(bench, &kit.concat(), text.as_bytes(), &mut room);
    assert!(answer.is_ok());
    kept(bench)
}

/// Last received, last failed and its code.
fn kept(bench: &Bench) -> [u32; 3] {
    let told = bench.housekeeping();
    [told.received, told.failed, told.failed_code.into()]
}

fn code_of(bytes: &[u8]) -> u8 {
    code_and_finding(&Housekeeping::read(bytes)).0
}

/// Carries out a command by its first argument.
fn carry_out(bench: &mut Bench, appended: bool, kind: Kind, argument: u32) -> u8 {
    let command = Command::new(appended, kind, [argument, 0]);
    code_and_finding(&bench.carry_out(&command)).0
}

/// A bench that has had a run of three commands, the second failing with 8.
fn after_a_failure() -> Bench {
    let mut bench = Bench::default();
    assert_eq!(run(&mut bench, &[], &[flush(), past(), flush()]), [3, 2, 8]);
    bench
}

#[test]
fn a_fresh_bench_tells_zeros_and_192_free() {
    let told = Bench::default().housekeeping();
    assert_eq!(kept(&Bench::default()), [0, 0, 0]);
    assert_eq!(told.free, 192);
    let bytes = [
        0x12, 4, 0, 0, 0, 0, 0x13, 4, 0, 0, 0, 0, 0x14, 1, 0, 0x15, 1, 192,
    ];
    assert_eq!(told.bytes(), bytes);
}

#[test]
fn a_run_without_a_failure() {
    let bench = &mut Bench::default();
    assert_eq!(run(bench, &[], &[flush()]), [1, 0, 0]);
    assert_eq!(run(bench, &[], &[flush(), flush(), flush()]), [3, 0, 0]);
    assert_eq!(run_text(bench, &[], "stop\n#\nstop\n"), [3, 0, 0]);
    assert_eq!(run(&mut after_a_failure(), &[], &[flush()]), [1, 0, 0]);
}

#[test]
fn a_run_with_only_failures() {
    let bench = &mut Bench::default();
    assert_eq!(run(bench, &[], &[past()]), [1, 1, 8]);
    assert_eq!(run(bench, &[], &[past(), past(), flagged()]), [3, 3, 9]);
    assert_eq!(run(bench, &[], &[flagged(), past()]), [2, 2, 8]);
    assert_eq!(run_text(bench, &[], "\nclose\nrun 3"), [3, 3, 18]);
}

#[test]
fn the_last_failure_counts_wherever_it_stands() {
    let bench = &mut Bench::default();
    let (good, eight, nine) = (flush, past, flagged);
    assert_eq!(run(bench, &[], &[nine(), good(), good()]), [3, 1, 9]);
    assert_eq!(run(bench, &[], &[good(), nine(), good()]), [3, 2, 9]);
    assert_eq!(run(bench, &[], &[good(), good(), nine()]), [3, 3, 9]);
    assert_eq!(run(bench, &[], &[nine(), eight(), good()]), [3, 2, 8]);
    assert_eq!(
        run(bench, &[], &[eight(), good(), nine(), good()]),
        [4, 3, 9]
    );
}

#[test]
fn lists_that_end_early_end_with_a_failure() {
    let bench = &mut Bench::default();
    let ends = [
        (vec![1, 2, 3], 1),
        (vec![0; 8], 2),
        (bytes_of(&[0x015a_0003, 0]), 3),
    ];
    for (end, code) in ends {
        assert_eq!(run(bench, &[], &[flush(), end.clone()]), [2, 2, code]);
        assert_eq!(run(bench, &[], &[end]), [1, 1, code]);
    }
}

#[test]
fn an_empty_pupil_s_list_sets_all_to_0() {
    assert_eq!(run(&mut after_a_failure(), &[], &[]), [0, 0, 0]);
    assert_eq!(
        run(&mut after_a_failure(), &[flush(), past()], &[]),
        [0, 0, 0]
    );
    for text in ["", "\n", "# nothing\n\n#"] {
        assert_eq!(run_text(&mut after_a_failure(), &[], text), [0, 0, 0]);
        assert_eq!(run_text(&mut after_a_failure(), &[past()], text), [0, 0, 0]);
    }
}

#[test]
fn the_kit_has_no_part_in_it() {
    let bench = &mut Bench::default();
    for kit in [vec![past()], vec![flush(); 9], vec![flush(), vec![1, 2, 3]]] {
        assert_eq!(run(bench, &kit, &[flush()]), [1, 0, 0]);
        assert_eq!(run(bench, &kit, &[flagged(), flush()]), [2, 1, 9]);
        assert_eq!(run_text(bench, &kit, "#\nstop"), [2, 0, 0]);
        assert_eq!(run_text(bench, &kit, "#\nclose\n\nstop"), [4, 2, 11]);
    }
}

#[test]
fn numbers_of_typed_lists_are_lines() {
    let bench = &mut Bench::default();
    assert_eq!(
        run_text(bench, &[], "# one\n\nclose\n#\nstop\n\n#\n"),
        [5, 3, 11]
    );
    assert_eq!(run_text(bench, &[], "\n\n\nstop\n#\nclose"), [6, 6, 11]);
    let far = "\n".repeat(32_763) + "close";
    assert_eq!(run_text(bench, &[], &far), [32_764, 32_764, 11]);
    let list = [vec![past()], vec![flush(); 510]].concat();
    assert_eq!(run(bench, &[], &list), [511, 1, 8]);
}

#[test]
fn runs_refused_by_20_and_21_set_nothing() {
    let long = flush().repeat(513)[..4097].to_vec();
    for bench in [Bench::default(), after_a_failure()] {
        for (kit, pupil) in [(&long, vec![]), (&vec![], long.clone()), (&long, flush())] {
            refuses(&bench, 20, kit, &pupil, ENOUGH);
        }
        for pupil in [vec![], flush(), flagged()] {
            refuses(&bench, 21, &[], &pupil, ENOUGH - 1);
            refuses(&bench, 21, &flagged(), &pupil, 0);
        }
    }
    // Just long enough, and just enough room.
    let list = &mut after_a_failure();
    assert_eq!(run(list, &[], &[flush().repeat(512)]), [512, 0, 0]);
}

/// The run must be refused with this code, and the bench stays as it was.
fn refuses(bench: &Bench, code: u8, kit: &[u8], pupil: &[u8], room: usize) {
    let mut tried = bench.clone();
    let answer = run_lists(&mut tried, kit, pupil, &mut vec![FILL; room]);
    assert_eq!(answer, Err(Refusal::plain(code)));
    assert_eq!(&tried, bench);
}

#[test]
fn refused_typed_runs_set_nothing() {
    let long = flush().repeat(513)[..4097].to_vec();
    let many = "stop\n".repeat(513);
    let too_long = "#".repeat(32_769);
    let none = Vec::new();
    let bad = [
        (&long, "close", 20, ENOUGH),
        (&none, &many[..], 20, ENOUGH),
        (&none, &too_long[..], 20, ENOUGH),
        (&none, "close\nstops", 30, ENOUGH),
        (&none, "close\nstop 1", 32, ENOUGH),
        (&none, "close\nrun x", 31, ENOUGH),
        (&none, "close\nrun 8", 8, ENOUGH),
        (&none, "close\n+stop", 9, ENOUGH),
        (&none, "close\nwait 1", 10, ENOUGH),
        (&none, "", 21, ENOUGH - 1),
        (&none, "close", 21, ENOUGH - 1),
    ];
    for bench in [Bench::default(), after_a_failure()] {
        for (kit, text, code, room) in bad {
            let mut tried = bench.clone();
            let answer = run_typed(&mut tried, kit, text.as_bytes(), &mut vec![FILL; room]);
            assert_eq!(answer.map_err(|placed| placed.refusal.code), Err(code));
            assert_eq!(tried, bench, "{text}");
        }
    }
}

#[test]
fn single_commands_and_seconds_set_nothing() {
    for mut bench in [Bench::default(), after_a_failure()] {
        let before = bench.latest;
        assert!(bench.carry_out_bytes(&flush()).is_ok());
        assert!(bench.carry_out_bytes(&past()).is_err());
        assert!(bench.carry_out_bytes(&[]).is_err());
        assert_eq!(carry_out(&mut bench, false, Kind::Close, 0), 11);
        assert_eq!(carry_out(&mut bench, false, Kind::Open, 1), 0);
        let image = raw(true, Kind::ImgImage, [5, 1]);
        assert!(bench.carry_out_bytes(&image).is_ok());
        assert_eq!(carry_out(&mut bench, false, Kind::Close, 0), 0);
        assert_eq!(carry_out(&mut bench, false, Kind::Run, 1), 0);
        // Handed over in the dark, which is no failure of the list.
        assert_eq!(bench.second()[0].code, 26);
        assert_eq!(carry_out(&mut bench, false, Kind::Clear, 0), 0);
        assert_eq!(bench.latest, before);
    }
    assert_eq!(Bench::default().latest, Latest::default());
}

#[test]
fn free_entries_from_192_to_0_and_back() {
    let mut bench = after_a_failure();
    assert_eq!(carry_out(&mut bench, false, Kind::Open, 6), 0);
    assert_eq!(bench.housekeeping().free, 192);
    assert_eq!(carry_out(&mut bench, true, Kind::Wait, 1), 0);
    assert_eq!(carry_out(&mut bench, false, Kind::Close, 0), 0);
    assert_eq!(carry_out(&mut bench, false, Kind::Open, 2), 0);
    for free in (0..=190).rev() {
        assert_eq!(carry_out(&mut bench, true, Kind::TlmFlush, 0), 0);
        assert_eq!(bench.housekeeping().free, free);
    }
    assert_eq!(carry_out(&mut bench, true, Kind::TlmFlush, 0), 16);
    assert_eq!(bench.housekeeping().free, 0);
    assert_eq!(carry_out(&mut bench, false, Kind::Clear, 0), 0);
    assert_eq!(bench.housekeeping().free, 192);
    assert_eq!(kept(&bench), [3, 2, 8]);
}

#[test]
fn of_0_to_19_bytes_only_18_are_taken() {
    let longer = [&GOOD[..], &[0x12]].concat();
    for length in 0..18 {
        assert_eq!(code_of(&longer[..length]), 47, "{length}");
    }
    assert_eq!(Housekeeping::read(&longer[..18]), Ok(GOOD_VALUES));
    assert_eq!(code_of(&longer), 50);
    assert_eq!(code_of(&GOOD.repeat(2)), 50);
}

#[test]
fn each_tag_and_each_length_broken_alone() {
    for start in STARTS {
        for by in 1..=255u8 {
            let mut bytes = GOOD;
            bytes[start] = GOOD[start].wrapping_add(by);
            assert_eq!(code_of(&bytes), 48, "{start} {by}");
            let mut bytes = GOOD;
            bytes[start + 1] = GOOD[start + 1].wrapping_add(by);
            assert_eq!(code_of(&bytes), 49, "{start} {by}");
        }
    }
}

#[test]
fn of_two_faults_the_first_item_s_counts_and_there_the_tag() {
    let places: Vec<usize> = STARTS.iter().flat_map(|at| [*at, at + 1]).collect();
    for (index, second) in places.iter().enumerate() {
        for first in &places[..index] {
            let mut bytes = GOOD;
            bytes[*first] ^= 1;
            bytes[*second] ^= 1;
            let expected = if STARTS.contains(first) { 48 } else { 49 };
            assert_eq!(code_of(&bytes), expected, "{first} {second}");
            assert_eq!(code_of(&[&bytes[..], &[0]].concat()), expected);
        }
    }
}

#[test]
fn a_cut_comes_before_the_faults_of_its_own_item_and_behind_earlier_ones() {
    let ends = [6, 12, 15, 18];
    for (item, start) in STARTS.into_iter().enumerate() {
        for place in [start, start + 1] {
            let mut bytes = GOOD;
            bytes[place] ^= 1;
            let fault = if place == start { 48 } else { 49 };
            for length in 0..=18 {
                let expected = if length < ends[item] { 47 } else { fault };
                assert_eq!(code_of(&bytes[..length]), expected, "{place} {length}");
            }
        }
    }
}

#[test]
fn exchanged_items_are_refused_at_the_first_one() {
    let items = [&GOOD[..6], &GOOD[6..12], &GOOD[12..15], &GOOD[15..]];
    let in_order = |order: [usize; 4]| order.map(|item| items[item]).concat();
    assert_eq!(code_of(&in_order([0, 1, 2, 3])), 0);
    for order in [[1, 0, 2, 3], [0, 2, 1, 3], [0, 1, 3, 2], [0, 0, 2, 3]] {
        assert_eq!(code_of(&in_order(order)), 48, "{order:?}");
    }
    // An item of 3 bytes where 6 are needed, with enough behind it and without.
    assert_eq!(code_of(&in_order([2, 1, 0, 3])), 48);
    assert_eq!(code_of(&[items[0], items[2]].concat()), 47);
    assert_eq!(code_of(items[2]), 47);
}

#[test]
fn an_item_of_another_length_is_refused_even_if_it_is_whole() {
    let longer = [&[0x12, 5, 0][..], &GOOD[2..]].concat();
    let shorter = [&[0x12, 3][..], &GOOD[3..]].concat();
    let long_code = [&GOOD[..12], &[0x14, 2, 0], &GOOD[14..]].concat();
    let no_free = [&GOOD[..15], &[0x15, 0]].concat();
    let no_free_but_more = [&GOOD[..15], &[0x15, 0, 9]].concat();
    assert_eq!(code_of(&longer), 49);
    assert_eq!(code_of(&shorter), 49);
    assert_eq!(code_of(&long_code), 49);
    assert_eq!(code_of(&no_free), 47);
    assert_eq!(code_of(&no_free_but_more), 49);
}

#[test]
fn any_values_are_taken_and_written_back() {
    let numbers = [0, 1, 255, 256, 0x0001_0000, 0x8000_0000, u32::MAX];
    for received in numbers {
        for failed in numbers {
            for byte in 0..=255 {
                let told = Housekeeping {
                    received,
                    failed,
                    failed_code: byte,
                    free: 255 - byte,
                };
                let bytes = told.bytes();
                assert_eq!(bytes.len(), 18);
                assert_eq!(Housekeeping::read(&bytes), Ok(told));
            }
        }
    }
}

#[test]
fn what_was_read_is_written_as_the_same_bytes() {
    for place in [2, 3, 4, 5, 8, 9, 10, 11, 14, 17] {
        for value in 0..=255 {
            let mut bytes = GOOD;
            bytes[place] = value;
            let told = Housekeeping::read(&bytes).expect("any values are taken");
            assert_eq!(told.bytes(), bytes);
        }
    }
}

#[test]
fn writing_needs_18_bytes_and_touches_no_more() {
    for size in [0, 1, 17] {
        let mut room = vec![FILL; size];
        assert_eq!(GOOD_VALUES.write(&mut room), Err(Refusal::plain(24)));
        assert!(room.iter().all(|byte| *byte == FILL));
    }
    for size in [18, 19, 255] {
        let mut room = vec![FILL; size];
        assert_eq!(GOOD_VALUES.write(&mut room), Ok(18));
        assert_eq!(room[..18], GOOD);
        assert!(room[18..].iter().all(|byte| *byte == FILL));
    }
}
