//! Fixed episodes about the entries that the macros share: the last free one and
//! what comes behind it, in one macro and in all, in every sort of item; CLEAR;
//! and appends to macros below others, whose entries must stay theirs.

use super::fixed_bench::TOP;
use super::items::{
    append, command, decoded, now, passed, raw, run, second, status, typed, watched, Item,
};
use crate::command::{Kind, TABLE};
use crate::macros::{MACROS, SHARED_ENTRIES};
use crate::run::LONGEST_LIST;

const REPORT_ROOM: u16 = 12_288;
/// The long macro beside seven macros of one entry each.
const ALL_BUT_SEVEN: usize = SHARED_ENTRIES + 1 - MACROS;
/// One entry in so many is a WAIT, so that no second is too full.
const EACH: usize = 16;

const RISING: [u32; MACROS] = [0, 1, 2, 3, 4, 5, 6, 7];
const FALLING: [u32; MACROS] = [7, 6, 5, 4, 3, 2, 1, 0];
/// Orders in which the macros are opened, each with the macro that is long.
const ORDERS: [([u32; MACROS], u32); 8] = [
    (RISING, 0),
    (RISING, 4),
    (RISING, 7),
    (FALLING, 7),
    (FALLING, 3),
    (FALLING, 0),
    ([3, 7, 0, 5, 1, 6, 2, 4], 0),
    ([4, 0, 6, 2, 7, 1, 5, 3], 7),
];

pub fn episodes() -> Vec<Vec<Item>> {
    let mut episodes = vec![one_by_one(), none_free(), refused_between(), two_senders()];
    for count in [SHARED_ENTRIES - 1, SHARED_ENTRIES, SHARED_ENTRIES + 1] {
        episodes.extend([one_list(count), one_text(count)]);
    }
    episodes.extend(ORDERS.map(|(order, long)| one_long(&order, long)));
    episodes.extend([whole_list(&flushes(1)), whole_list(&spaced_flushes())]);
    episodes.push(cleared());
    episodes.extend([
        many_runs(Kind::Wait, 3),
        many_runs(Kind::Wait, 4),
        many_runs(Kind::TlmFlush, 0),
    ]);
    episodes.extend([below_closed_ones(), beside_a_running_one()]);
    episodes
}

pub(super) fn open(number: u32) -> Vec<u8> {
    raw(false, Kind::Open, [number, 0])
}

pub(super) fn close() -> Vec<u8> {
    raw(false, Kind::Close, [0; 2])
}

/// An entry that tells its macro and its place there, or the WAIT of that place.
pub(super) fn entry(number: u32, place: u32) -> Vec<u8> {
    if place as usize % EACH == EACH - 1 {
        return raw(true, Kind::Wait, [1, 0]);
    }
    raw(true, Kind::ImgRegion, [number, place])
}

pub(super) fn entries(number: u32, count: usize) -> Vec<u8> {
    let places = 0..count as u32;
    places.flat_map(|place| entry(number, place)).collect()
}

/// A macro of so many entries, as a list.
pub(super) fn stored(number: u32, count: usize) -> Vec<u8> {
    [open(number), entries(number, count), close()].concat()
}

/// A list of the pupil's alone.
fn listed(list: &[u8]) -> Vec<Item> {
    vec![run(REPORT_ROOM, &[], list), status()]
}

/// Runs a macro of so many entries to its end, and looks at each.
fn handed_over(number: u32, count: usize) -> Vec<Item> {
    let mut items = vec![now(Kind::Run, number)];
    items.extend(vec![second(); count.div_ceil(EACH)]);
    items.push(status());
    items
}

/// Appended one by one, beside a macro that may be started. Behind the last free
/// entry no kind of command is appended, and every kind may still be executed.
fn one_by_one() -> Vec<Item> {
    let mut items = listed(&stored(3, 1));
    items.push(now(Kind::Open, TOP));
    let places = 0..SHARED_ENTRIES as u32 - 1;
    items.extend(places.map(|place| command(&entry(TOP, place))));
    items.push(status());
    for row in &TABLE {
        items.push(command(&raw(true, row.kind, [1, 1])));
        items.push(decoded(1, row.kind as u8, [1, 1]));
    }
    // 16 stands before 17 and 18.
    items.extend([TOP, 2, 3].map(|number| append(Kind::Run, number)));
    for row in &TABLE[..Kind::Open as usize] {
        items.extend([command(&raw(false, row.kind, [1, 2])), status()]);
    }
    items.extend([now(Kind::Close, 0), status(), now(Kind::Run, TOP)]);
    items.extend(watched(SHARED_ENTRIES / EACH + 1));
    items
}

/// A macro may be opened where no entry is free, but nothing can be done in it.
fn none_free() -> Vec<Item> {
    let mut items = listed(&stored(6, SHARED_ENTRIES));
    items.extend([now(Kind::Open, 2), status(), append(Kind::Wait, 1)]);
    items.extend([now(Kind::Close, 0), now(Kind::Open, 5), status()]);
    items.extend(handed_over(6, 2));
    items.extend([append(Kind::TlmFlush, 0), now(Kind::Clear, 0)]);
    items.extend([now(Kind::Stop, 0), now(Kind::Clear, 0), status()]);
    items.extend([append(Kind::TlmFlush, 0), now(Kind::Open, 2)]);
    items.extend([append(Kind::Wait, 1), now(Kind::Close, 0), status()]);
    items
}

/// Appends that are refused take no entry, whatever refuses them.
fn refused_between() -> Vec<Item> {
    let refused = [
        raw(true, Kind::Run, [4, 0]),
        raw(true, Kind::Run, [1, 0]),
        raw(true, Kind::Wait, [601, 0]),
        raw(true, Kind::Clear, [0; 2]),
        raw(false, Kind::Wait, [1, 0]),
    ];
    let mut list = open(4);
    for place in 0..SHARED_ENTRIES as u32 {
        list.extend(entry(4, place));
        if place % 8 == 0 {
            list.extend(&refused[place as usize / 8 % refused.len()]);
        }
    }
    list.extend([entry(4, 0), close()].concat());
    let mut items = listed(&list);
    items.extend(handed_over(4, SHARED_ENTRIES));
    items
}

/// The kit's list begins a macro and leaves two entries free for the pupil's.
fn two_senders() -> Vec<Item> {
    let kit = [open(2), entries(2, SHARED_ENTRIES - 2)].concat();
    let pupil = [entries(5, 4), close(), raw(false, Kind::Run, [2, 0])].concat();
    let mut items = vec![run(REPORT_ROOM, &kit, &pupil), status()];
    items.extend([passed((SHARED_ENTRIES / EACH) as u16 - 2), status()]);
    items.extend(watched(4));
    items
}

fn one_list(count: usize) -> Vec<Item> {
    let mut items = listed(&stored(TOP, count));
    items.extend(handed_over(TOP, count + 1));
    items
}

fn one_text(count: usize) -> Vec<Item> {
    let places = (0..count).map(|place| match place % EACH == EACH - 1 {
        true => "+wait 1\n".into(),
        false => format!("+img_region 0 {place}\n"),
    });
    let text = format!("open 0\n{}close\nrun 0\n", places.collect::<String>());
    vec![
        typed(REPORT_ROOM, &[], text.as_bytes()),
        status(),
        passed((SHARED_ENTRIES / EACH) as u16 - 1),
        second(),
        status(),
        second(),
        status(),
    ]
}

/// Seven macros of one entry and a long one, opened in this order; the last one
/// opened is given an entry too many.
fn one_long(order: &[u32; MACROS], long: u32) -> Vec<Item> {
    let count = |number| if number == long { ALL_BUT_SEVEN } else { 1 };
    let mut list = Vec::new();
    for number in order {
        let more = usize::from(*number == order[MACROS - 1]);
        list.extend(stored(*number, count(*number) + more));
    }
    let mut items = listed(&list);
    for number in RISING {
        items.extend(handed_over(number, count(number)));
    }
    items
}

fn flushes(count: usize) -> Vec<u8> {
    raw(true, Kind::TlmFlush, [0; 2]).repeat(count)
}

/// Flushes with a WAIT behind them.
fn spaced_flushes() -> Vec<u8> {
    [flushes(EACH - 1), raw(true, Kind::Wait, [1, 0])].concat()
}

/// The same appends for as long as a list may be.
fn whole_list(appends: &[u8]) -> Vec<Item> {
    let appends = appends.repeat(LONGEST_LIST / appends.len());
    let mut items = vec![run(REPORT_ROOM, &open(5), &appends), status()];
    items.extend([now(Kind::Close, 0), now(Kind::Run, 5)]);
    items.extend([passed(SHARED_ENTRIES as u16), status()]);
    items
}

/// CLEAR with the pool full in one open macro, in two closed ones, and with one
/// open beside a closed one; each time all entries are free again.
fn cleared() -> Vec<Item> {
    let mut items = listed(&[open(0), entries(0, SHARED_ENTRIES + 1)].concat());
    items.extend([now(Kind::Clear, 0), status(), append(Kind::TlmFlush, 0)]);
    items.push(run(REPORT_ROOM, &stored(6, 93), &stored(1, 100)));
    items.extend([status(), now(Kind::Run, 6), second(), now(Kind::Clear, 0)]);
    items.extend([now(Kind::Stop, 0), now(Kind::Clear, 0), status()]);
    let begun = [open(3), entries(3, 20)].concat();
    items.push(run(REPORT_ROOM, &stored(4, 150), &begun));
    items.extend([now(Kind::Clear, 0), status()]);
    items.extend(listed(&stored(5, SHARED_ENTRIES + 1)));
    items.extend(handed_over(5, SHARED_ENTRIES));
    items
}

/// A macro of one entry, started by another as often as entries are free, and
/// once more; 191 times 3 seconds are not too long, 191 times 4 are, and 191
/// flushes are too many for a second.
fn many_runs(kind: Kind, argument: u32) -> Vec<Item> {
    let small = [open(0), raw(true, kind, [argument, 0]), close()].concat();
    let starts = raw(true, Kind::Run, [0; 2]).repeat(SHARED_ENTRIES);
    let large = [open(TOP), starts, close()].concat();
    let mut items = vec![run(REPORT_ROOM, &small, &large), status()];
    items.extend([now(Kind::Run, TOP), status(), passed(190), status()]);
    items.extend(watched(2));
    items.extend([passed(379), status()]);
    items.extend(watched(3));
    items
}

/// Appends to macros that have closed ones above them, each of which is run
/// between the appends.
fn below_closed_ones() -> Vec<Item> {
    let closed = [(7, 4), (4, 1), (2, 5)];
    let lists = closed.map(|(number, count)| stored(number, count));
    let mut items = listed(&lists.concat());
    for number in [3, 0, 6] {
        items.push(now(Kind::Open, number));
        for place in 0..3 {
            items.push(command(&entry(number, place)));
            items.extend(closed.iter().flat_map(|it| handed_over(it.0, it.1)));
        }
        items.push(now(Kind::Close, 0));
    }
    items.extend([3, 0, 6].iter().flat_map(|it| handed_over(*it, 3)));
    items
}

/// A macro runs while its own entries, or others, have to make room.
fn beside_a_running_one() -> Vec<Item> {
    let runs = raw(true, Kind::Run, [2, 0]).repeat(15);
    let long = [open(4), runs, close()].concat();
    let mut items = listed(&[stored(2, EACH), long, stored(7, 5)].concat());
    for number in [3, 6, 0] {
        items.extend([now(Kind::Run, 4), now(Kind::Open, number)]);
        for place in 0..15 {
            items.extend([second(), status(), command(&entry(number, place))]);
        }
        items.push(now(Kind::Close, 0));
        items.extend(handed_over(7, 5));
        items.extend(handed_over(number, 15));
    }
    items
}
