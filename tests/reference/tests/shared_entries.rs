//! The 192 entries that the macros share: which appends are the last to be taken,
//! in one macro and in all, what CLEAR gives back, and that no macro's entries
//! are touched by appends to another.

use reference::bench::Bench;
use reference::codes::code_and_finding;
use reference::command::{Command, Kind};
use reference::run::{records_of, Record, KIT, PUPIL};
use reference::text::commands_typed;
use reference::typed::typed_records;
use reference::wire::{sealed, unsealed};

fn code(bench: &mut Bench, appended: bool, kind: Kind, arguments: [u32; 2]) -> u8 {
    code_and_finding(&bench.carry_out(&Command::new(appended, kind, arguments))).0
}

fn execute(bench: &mut Bench, kind: Kind, argument: u32) -> u8 {
    code(bench, false, kind, [argument, 0])
}

fn append(bench: &mut Bench, kind: Kind, argument: u32) -> u8 {
    code(bench, true, kind, [argument, 0])
}

/// Each eighth entry is a WAIT, so that no second is too full.
const EACH: u32 = 8;

/// Appends an entry that tells its macro and its place there, or that WAIT.
fn append_place(bench: &mut Bench, number: u32, place: u32) -> u8 {
    if place % EACH == EACH - 1 {
        return append(bench, Kind::Wait, 1);
    }
    code(bench, true, Kind::ImgRegion, [number, place])
}

/// Appends so many entries, all of which must be taken.
fn fill(bench: &mut Bench, number: u32, count: u32) {
    for place in 0..count {
        let answer = append_place(bench, number, place);
        assert_eq!(answer, 0, "macro {number}, entry {place}");
    }
}

fn store(bench: &mut Bench, number: u32, count: u32) {
    assert_eq!(execute(bench, Kind::Open, number), 0);
    fill(bench, number, count);
    assert_eq!(execute(bench, Kind::Close, 0), 0);
}

/// Lets a second pass, which must hand over the entries from this place up to the
/// next WAIT or the end, in order.
fn second_hands_over(bench: &mut Bench, number: u32, start: u32, count: u32) {
    let handed = bench.second().into_iter().map(|it| it.command.arguments);
    let end = count.min(start + EACH - 1);
    let expected = (start..end).map(|place| [number, place]);
    assert!(handed.eq(expected), "macro {number} from entry {start}");
}

/// Runs the macro to its end: it must hand over all of so many entries.
fn hands_over(bench: &mut Bench, number: u32, count: u32) {
    assert_eq!(execute(bench, Kind::Run, number), 0);
    for start in (0..count).step_by(EACH as usize) {
        let left = (count - start).div_ceil(EACH);
        assert_eq!(bench.seconds_left() as u32, left);
        second_hands_over(bench, number, start, count);
    }
    assert_eq!(bench.seconds_left(), 0);
}

fn bytes(appended: bool, kind: Kind, argument: u32) -> Vec<u8> {
    sealed(&unsealed(&Command::new(appended, kind, [argument, 0])))
}

/// How many records of this sender have this code.
fn counted(records: &[Record], sender: u8, code: u8) -> usize {
    let found = records.iter();
    found
        .filter(|it| it.sender == sender && it.code == code)
        .count()
}

#[test]
fn one_macro_may_have_all_entries_and_no_more() {
    for number in 0..8 {
        let mut bench = Bench::default();
        assert_eq!(execute(&mut bench, Kind::Open, number), 0);
        for free in (1..=192).rev() {
            assert_eq!(bench.macros.free_entries(), free);
            let place = 192 - free as u32;
            assert_eq!(append_place(&mut bench, number, place), 0);
        }
        let full = bench.clone();
        assert_eq!(append_place(&mut bench, number, 192), 16);
        assert_eq!(append(&mut bench, Kind::Wait, 1), 16);
        assert_eq!(bench, full);
        assert_eq!(execute(&mut bench, Kind::Close, 0), 0);
        hands_over(&mut bench, number, 192);
    }
}

#[test]
fn seven_macros_of_one_and_a_long_one_in_many_orders() {
    let rising: Vec<u32> = (0..8).collect();
    let falling: Vec<u32> = (0..8).rev().collect();
    for start in 0..8 {
        for mut order in [rising.clone(), falling.clone()] {
            order.rotate_left(start);
            (0..8).for_each(|long| one_long(&order, long));
        }
    }
}

/// Opens the macros in this order; the last one is given an entry too many.
fn one_long(order: &[u32], long: u32) {
    let mut bench = Bench::default();
    let count = |number| if number == long { 185 } else { 1 };
    for number in &order[..7] {
        store(&mut bench, *number, count(*number));
    }
    assert_eq!(execute(&mut bench, Kind::Open, order[7]), 0);
    fill(&mut bench, order[7], count(order[7]));
    assert_eq!(append_place(&mut bench, order[7], 999), 16);
    assert_eq!(execute(&mut bench, Kind::Close, 0), 0);
    (0..8).for_each(|number| hands_over(&mut bench, number, count(number)));
}

#[test]
fn what_clear_drops_can_be_used_again() {
    let mut bench = Bench::default();
    store(&mut bench, 6, 100);
    store(&mut bench, 1, 92);
    assert_eq!(bench.macros.free_entries(), 0);
    assert_eq!(execute(&mut bench, Kind::Run, 1), 0);
    assert_eq!(execute(&mut bench, Kind::Clear, 0), 19);
    assert_eq!(execute(&mut bench, Kind::Stop, 0), 0);
    assert_eq!(bench.macros.free_entries(), 0);
    assert_eq!(execute(&mut bench, Kind::Clear, 0), 0);
    assert_eq!(bench, Bench::default());
    store(&mut bench, 0, 192);
    hands_over(&mut bench, 0, 192);
}

#[test]
fn clear_drops_the_open_macro_s_entries_too() {
    let mut bench = Bench::default();
    store(&mut bench, 2, 50);
    assert_eq!(execute(&mut bench, Kind::Open, 1), 0);
    fill(&mut bench, 1, 142);
    assert_eq!(append_place(&mut bench, 1, 142), 16);
    assert_eq!(execute(&mut bench, Kind::Clear, 0), 0);
    assert_eq!(bench.macros.free_entries(), 192);
    assert_eq!(append_place(&mut bench, 1, 0), 11);
    store(&mut bench, 3, 192);
    assert_eq!(execute(&mut bench, Kind::Open, 1), 0);
    assert_eq!(append_place(&mut bench, 1, 0), 16);
}

#[test]
fn a_macro_may_be_opened_where_no_entry_is_free() {
    let mut bench = Bench::default();
    store(&mut bench, 4, 192);
    assert_eq!(execute(&mut bench, Kind::Open, 2), 0);
    assert_eq!(append(&mut bench, Kind::TlmFlush, 0), 16);
    assert_eq!(execute(&mut bench, Kind::Close, 0), 14);
    assert_eq!(execute(&mut bench, Kind::TlmFlush, 0), 0);
    hands_over(&mut bench, 4, 192);
}

#[test]
fn sixteen_stands_behind_8_9_and_11_and_before_17_and_18() {
    let mut bench = Bench::default();
    store(&mut bench, 5, 192);
    assert_eq!(append(&mut bench, Kind::TlmFlush, 0), 11);
    assert_eq!(execute(&mut bench, Kind::Open, 3), 0);
    assert_eq!(append(&mut bench, Kind::Wait, 601), 8);
    assert_eq!(append(&mut bench, Kind::Clear, 0), 9);
    for number in [0, 3, 5, 7] {
        assert_eq!(append(&mut bench, Kind::Run, number), 16);
    }
}

#[test]
fn a_refused_append_takes_no_entry() {
    let mut bench = Bench::default();
    assert_eq!(execute(&mut bench, Kind::Open, 3), 0);
    for place in 0..192 {
        assert_eq!(append(&mut bench, Kind::Run, 3), 17);
        assert_eq!(append(&mut bench, Kind::Run, 2), 18);
        assert_eq!(append(&mut bench, Kind::Wait, 0), 8);
        assert_eq!(append_place(&mut bench, 3, place), 0);
    }
    assert_eq!(append(&mut bench, Kind::TlmFlush, 0), 16);
    assert_eq!(execute(&mut bench, Kind::Close, 0), 0);
    hands_over(&mut bench, 3, 192);
}

#[test]
fn open_close_run_and_seconds_leave_the_free_entries_as_they_are() {
    let mut bench = Bench::default();
    store(&mut bench, 7, 3);
    assert_eq!(bench.macros.free_entries(), 189);
    for (kind, argument) in [(Kind::Open, 0), (Kind::Run, 7), (Kind::TlmFlush, 0)] {
        assert_eq!(execute(&mut bench, kind, argument), 0);
        assert_eq!(bench.macros.free_entries(), 189);
    }
    (0..4).for_each(|_| {
        bench.second();
        assert_eq!(bench.macros.free_entries(), 189);
    });
}

#[test]
fn an_append_leaves_every_other_macro_as_it_was() {
    let mut bench = Bench::default();
    for (number, count) in [(7, 4), (4, 1), (2, 5)] {
        store(&mut bench, number, count);
    }
    for number in [3, 0, 6] {
        assert_eq!(execute(&mut bench, Kind::Open, number), 0);
        for place in 0..10 {
            assert_eq!(append_place(&mut bench, number, place), 0);
            hands_over(&mut bench, 7, 4);
            hands_over(&mut bench, 4, 1);
            hands_over(&mut bench, 2, 5);
        }
        assert_eq!(execute(&mut bench, Kind::Close, 0), 0);
    }
    for number in [3, 0, 6] {
        hands_over(&mut bench, number, 10);
    }
}

#[test]
fn a_macro_runs_on_while_others_are_appended_to() {
    for number in [0, 7] {
        let mut bench = Bench::default();
        store(&mut bench, 4, 60);
        assert_eq!(execute(&mut bench, Kind::Open, number), 0);
        assert_eq!(execute(&mut bench, Kind::Run, 4), 0);
        for step in 0..8 {
            assert_eq!(append_place(&mut bench, number, step), 0);
            second_hands_over(&mut bench, 4, EACH * step, 60);
        }
        assert_eq!(bench.running, None);
        assert_eq!(execute(&mut bench, Kind::Close, 0), 0);
        hands_over(&mut bench, number, 8);
    }
}

/// Macro 0 is WAIT alone; macro 7 starts it as often as entries are free.
fn starts_of_a_wait(seconds: u32) -> Bench {
    let mut bench = Bench::default();
    assert_eq!(execute(&mut bench, Kind::Open, 0), 0);
    assert_eq!(append(&mut bench, Kind::Wait, seconds), 0);
    assert_eq!(execute(&mut bench, Kind::Close, 0), 0);
    assert_eq!(execute(&mut bench, Kind::Open, 7), 0);
    (0..191).for_each(|_| assert_eq!(append(&mut bench, Kind::Run, 0), 0));
    assert_eq!(append(&mut bench, Kind::Run, 0), 16);
    bench
}

#[test]
fn a_wait_of_3_started_191_times_closes_and_one_of_4_does_not() {
    let mut bench = starts_of_a_wait(3);
    assert_eq!(execute(&mut bench, Kind::Close, 0), 0);
    assert_eq!(execute(&mut bench, Kind::Run, 7), 0);
    assert_eq!(bench.seconds_left(), 573);
    (0..573).for_each(|_| assert_eq!(bench.second(), []));
    assert_eq!(bench.running, None);
    let mut bench = starts_of_a_wait(4);
    assert_eq!(execute(&mut bench, Kind::Close, 0), 15);
}

#[test]
fn of_512_appends_in_a_list_192_are_taken() {
    let mut bench = Bench::default();
    let open = bytes(false, Kind::Open, 5);
    let appends = bytes(true, Kind::TlmFlush, 0).repeat(512);
    let records = records_of(&mut bench, &open, &appends);
    assert_eq!(counted(&records, KIT, 0), 1);
    assert_eq!(counted(&records, PUPIL, 0), 192);
    assert_eq!(counted(&records, PUPIL, 16), 320);
    assert!(records[1..=192].iter().all(|record| record.code == 0));
}

#[test]
fn kit_and_pupil_share_the_entries_also_where_the_pupil_s_list_is_typed() {
    let mut bench = Bench::default();
    let kit = [bytes(false, Kind::Open, 5), bytes(true, Kind::Wait, 1)].concat();
    let text = "+tlm_flush\n+tlm_flush\n+wait 1\n".repeat(64) + "close\nrun 5\n";
    let commands = commands_typed(text.as_bytes()).expect("every line is good");
    let records = typed_records(&mut bench, &kit, &commands);
    let refused: Vec<u32> = records
        .iter()
        .filter(|record| record.code != 0)
        .map(|record| record.number)
        .collect();
    assert_eq!((refused, counted(&records, PUPIL, 16)), (vec![192], 1));
    assert_eq!(bench.seconds_left(), 65);
    let flushed: usize = (0..65).map(|_| bench.second().len()).sum();
    assert_eq!((flushed, bench.running), (128, None));
}
