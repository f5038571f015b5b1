//! Fixed episodes about what was wrong with a number: every argument past each of its
//! limits by every sort of item, both arguments at once, other faults beside, and the
//! rooms for records that tell of it.

use super::fixed_wire::{faulty, flush, good};
use super::items::{
    append, command, decoded, list_text, now, passed, raw, read, run, status, typed, Item,
};
use super::past::{Past, ON_THE_WIRE};
use crate::command::{Command, Kind, Row, TABLE};
use crate::run::LONGEST_LIST;
use crate::wire::{sealed, unsealed};

pub(super) const REPORT_ROOM: u16 = 12_288;
const ROOM: u8 = 16;
/// Room for any few lines or commands.
pub(super) const SMALL_ROOM: u16 = 60;

/// Values that every second argument may have, and every first one where there are two.
const BESIDE: [u32; 3] = [1, 0x3ff, 0x100];

/// A command with arguments of which one is past a limit or both are.
type Bad = (Kind, [u32; 2]);

pub fn episodes() -> Vec<Vec<Item>> {
    let mut episodes = vec![sent(&one_past()), sent(&both_past()), allowed()];
    episodes.extend([appended_to_a_macro(), in_runs(), in_listings()]);
    episodes.extend([with_other_faults(), other_codes(), decoded_cut()]);
    episodes.extend([report_rooms(), full_reports()]);
    episodes
}

/// Whether the command has two arguments.
pub(super) fn two(kind: Kind) -> bool {
    kind.row().arguments.len() == 2
}

/// Each argument past each limit, the other one allowed.
fn one_past() -> Vec<Bad> {
    let mut all = Vec::new();
    for (kind, place, values) in ON_THE_WIRE {
        let beside = if two(kind) { &BESIDE[..] } else { &[0] };
        for value in values {
            all.extend(beside.iter().map(|other| {
                let mut set = [*other; 2];
                set[place] = *value;
                (kind, set)
            }));
        }
    }
    all
}

/// The past values of a command's argument; none where it has no such argument.
pub(super) fn past_of<T>(table: &[Past<T>], kind: Kind, place: usize) -> &'static [T] {
    let mut rows = table.iter();
    rows.find(|row| row.0 == kind && row.1 == place)
        .map_or(&[], |row| row.2)
}

/// Both arguments past a limit, of which the first is to be told.
fn both_past() -> Vec<Bad> {
    let mut all = Vec::new();
    for row in TABLE.iter().filter(|row| two(row.kind)) {
        for first in past_of(&ON_THE_WIRE, row.kind, 0) {
            for second in past_of(&ON_THE_WIRE, row.kind, 1) {
                all.push((row.kind, [*first, *second]));
            }
        }
    }
    all
}

/// As bytes, read and decoded, with the flag and without, on a dark bench and on one
/// with power and an open macro.
fn sent(all: &[Bad]) -> Vec<Item> {
    let mut items = Vec::new();
    for prepared in [vec![], vec![now(Kind::ImgPwr, 1), now(Kind::Open, 7)]] {
        items.extend(prepared);
        for (kind, set) in all {
            for flag in [false, true] {
                let bytes = raw(flag, *kind, *set);
                items.extend([command(&bytes), read(ROOM, &bytes)]);
                items.push(decoded(flag.into(), *kind as u8, *set));
            }
        }
        items.push(status());
    }
    items
}

/// The ends themselves, and minus zero, in every way in: all values are 0.
fn allowed() -> Vec<Item> {
    let sets = [
        (Kind::ImgPwr, [1, 0]),
        (Kind::ImgRegion, [1023, 0]),
        (Kind::ImgTrack, [65535, 65535]),
        (Kind::TrkAlg, [2, 0]),
        (Kind::ImgImage, [0, 1]),
        (Kind::TrkGoal, [0x447f_ffff, 0x8000_0000]),
        (Kind::Open, [7, 0]),
        (Kind::Wait, [600, 0]),
        (Kind::Wait, [1, 0]),
    ];
    let mut items = Vec::new();
    for (kind, set) in sets {
        let bytes = raw(kind == Kind::Wait, kind, set);
        items.extend([command(&bytes), read(ROOM, &bytes), read(7, &bytes)]);
        items.push(decoded(u8::from(kind == Kind::Wait), kind as u8, set));
        items.extend([list_text(SMALL_ROOM, &bytes), list_text(3, &bytes)]);
        items.extend([run(REPORT_ROOM, &bytes, &bytes), status()]);
    }
    items
}

/// Between entries that are taken; the macro then has these alone.
fn appended_to_a_macro() -> Vec<Item> {
    let mut items = vec![now(Kind::Open, 2)];
    for (kind, set) in one_past() {
        let bytes = raw(true, kind, set);
        items.extend([command(&bytes), append(Kind::Wait, 1)]);
    }
    items.extend([append(Kind::TlmFlush, 0), now(Kind::Close, 0)]);
    items.extend([now(Kind::Run, 2), status(), passed(200), status()]);
    items
}

/// All of them, each with these bytes behind it.
fn list_with(flag: bool, behind: &[u8]) -> Vec<u8> {
    let mut list = Vec::new();
    for (kind, set) in one_past() {
        list.extend(raw(flag, kind, set));
        list.extend(behind);
    }
    list
}

/// A list in which commands with a value stand beside commands with another code.
pub fn list() -> Vec<u8> {
    let others = [
        flush(),
        faulty(Kind::ImgRegion.row(), 64),
        raw(true, Kind::Open, [3, 0]),
        raw(false, Kind::Wait, [5, 0]),
        raw(true, Kind::ImgRegion, [9, 9]),
        raw(false, Kind::Run, [4, 0]),
    ];
    let mut list = Vec::new();
    for ((kind, set), other) in one_past().into_iter().zip(others.iter().cycle()) {
        list.extend(raw(false, kind, set));
        list.extend(other);
    }
    list.extend([1, 2, 3]);
    list
}

/// Records of both senders, with nothing between them that is taken, with flushes, and
/// with commands of other codes.
fn in_runs() -> Vec<Item> {
    let alone = list_with(false, &[]);
    let flushes = list_with(true, &flush());
    let mut items = Vec::new();
    for pupil in [&flush(), &alone, &flushes, &list()] {
        for kit in [&[], &list()[..]] {
            items.extend([run(REPORT_ROOM, kit, pupil), status()]);
        }
    }
    items.extend([run(REPORT_ROOM, &flushes, &alone), status()]);
    items
}

/// Alone and as the third command of a list, with room and without.
fn in_listings() -> Vec<Item> {
    let mut items = Vec::new();
    for (kind, set) in one_past().into_iter().chain(both_past()) {
        let bytes = raw(kind == Kind::Wait, kind, set);
        let list = [flush(), flush(), bytes.clone(), flush()].concat();
        items.extend([list_text(0, &bytes), list_text(SMALL_ROOM, &list)]);
    }
    items
}

/// The faults that stand before 8, each together with it: 7, 6, 5, 4 and 3.
fn with_other_faults() -> Vec<Item> {
    let mut items = Vec::new();
    for (kind, set) in one_past() {
        let words = unsealed(&Command::new(true, kind, set));
        let mut padded = words.clone();
        padded[1] |= u32::from(kind.row().words == 3 && !two(kind));
        let mut longer = [&words[..], &[0]].concat();
        longer[0] += 1;
        let mut unknown = words.clone();
        unknown[0] ^= 0x0080_0000;
        let mut broken = sealed(&words);
        broken[4] ^= 1;
        let cut = broken[..9].to_vec();
        for bytes in [
            sealed(&padded),
            sealed(&longer),
            sealed(&unknown),
            broken,
            cut,
        ] {
            items.extend([command(&bytes), read(ROOM, &bytes)]);
            items.push(list_text(SMALL_ROOM, &bytes));
        }
    }
    items.push(status());
    items
}

/// Numbers that are allowed. Power stays off, and macros are those of the stages below.
fn harmless(row: &Row) -> [u32; 2] {
    match row.kind {
        Kind::ImgPwr => [0, 0],
        Kind::Open | Kind::Run => [5, 0],
        _ => good(row),
    }
}

/// Every other code that a command with numbers can get, as single commands, decoded
/// and in a run: on a dark bench, with a macro open, with one running, with one open
/// besides, with none closed, and with no entry free.
fn other_codes() -> Vec<Item> {
    let full = raw(true, Kind::TlmFlush, [0; 2]).repeat(192);
    let stages = [
        vec![],
        vec![now(Kind::Open, 5)],
        vec![],
        vec![now(Kind::Open, 6)],
        vec![now(Kind::Stop, 0), now(Kind::Clear, 0), now(Kind::Open, 3)],
        vec![run(REPORT_ROOM, &raw(false, Kind::Open, [7, 0]), &full)],
    ];
    let mut items = Vec::new();
    for stage in stages {
        items.extend(stage);
        for row in TABLE.iter().filter(|row| row.kind != Kind::Stop) {
            items.extend(judged(row, true));
            items.extend(judged(row, false));
        }
        items.push(status());
    }
    items
}

/// The command in every way in, and with a bit changed behind its arguments.
fn judged(row: &Row, flag: bool) -> Vec<Item> {
    let set = harmless(row);
    let bytes = raw(flag, row.kind, set);
    let mut padded = bytes.clone();
    let last = padded.len() - 1;
    padded[last - 4] ^= 2;
    padded[last] ^= 2;
    vec![
        command(&bytes),
        command(&padded),
        read(ROOM, &padded),
        decoded(flag.into(), row.kind as u8, set),
        run(REPORT_ROOM, &padded, &bytes),
    ]
}

/// Rooms about the smallest for a report and about the largest of all.
fn report_rooms() -> Vec<Item> {
    let bad = raw(false, Kind::ImgRegion, [3, 4000]);
    let near = [0, 12, 24, 8191, 8192, 9000, 12286, 12287, 12288, 12289];
    let mut items = Vec::new();
    for room in near.into_iter().chain([12999, 13000, 13001, 24576, 65535]) {
        items.extend([run(room, &bad, &bad), typed(room, &bad, b"stop")]);
        items.extend([typed(room, &bad, b"run 8"), run(room, &[], &[])]);
    }
    items.push(status());
    items
}

/// As many records as there can be, and as many with a value of their own as there can
/// be, into rooms that just suffice and into one that does not.
fn full_reports() -> Vec<Item> {
    let most = flush().repeat(LONGEST_LIST / flush().len());
    let corners = (1024..).map(|x| raw(false, Kind::ImgRegion, [x, 1]));
    let mut corners: Vec<u8> = corners.take(LONGEST_LIST / 12).flatten().collect();
    corners.resize(LONGEST_LIST, 0);
    let goals = (0xff80_0000..).map(|y| raw(true, Kind::TrkGoal, [1, y]));
    let goals: Vec<u8> = goals.take(LONGEST_LIST / 16).flatten().collect();
    let mut items = Vec::new();
    for (kit, pupil) in [(&most, &most), (&corners, &goals), (&most, &corners)] {
        for room in [12_287, REPORT_ROOM] {
            items.extend([run(room, kit, pupil), status()]);
        }
    }
    items
}

/// Decoded arguments with bits above their fields, which the remainder takes off before
/// anything is told of them.
fn decoded_cut() -> Vec<Item> {
    let mut items = Vec::new();
    for row in &TABLE {
        for high in [0x100, 0x0001_0000, 0x0100_0000, 0xffff_0000] {
            for low in [0, 1, 8, 601, 1024] {
                items.push(decoded(1, row.kind as u8, [high | low, good(row)[1]]));
                items.push(decoded(0, row.kind as u8, [good(row)[0], high | low]));
            }
        }
    }
    items
}

/// The first and the last of these.
pub(super) fn ends<T: Copy>(of: &[T]) -> [T; 2] {
    [of[0], of[of.len() - 1]]
}

/// Raw lists for the program that reads one: a command with each argument just past a
/// limit, and far away.
pub fn raw_lists() -> Vec<Vec<u8>> {
    let mut lists = Vec::new();
    for (kind, place, values) in ON_THE_WIRE {
        let not_a_number = (kind == Kind::TrkGoal).then_some(0x7f80_0001);
        for value in ends(values).into_iter().chain(not_a_number) {
            let mut set = [1; 2];
            set[place] = value;
            lists.push([flush(), raw(true, kind, set)].concat());
        }
    }
    lists
}
