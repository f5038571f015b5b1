//! Fixed items about lists on a card: raw lists with every code in every sort of place and
//! every argument about its limits, the stored ones of `fixed_stored`, rooms that just
//! suffice and do not, scripts that end badly; whole inputs; and lists that go and come back.

use super::cards::{list, raw_of, stored, stored_of};
use super::damage::GOALS;
use super::fixed::batches;
use super::fixed_index::flushes;
use super::fixed_stored::{self, every_command};
use super::fixed_wire::{faulty, flush, good};
use super::items::{from_card, index, raw, to_card, Item};
use super::past::ON_THE_WIRE;
use super::texts::fitting_flag;
use super::trips::{Form, Trip};
use crate::command::{Command, Kind, Row, TABLE};
use crate::run::LONGEST_LIST;
use crate::wire::bytes_of;

/// Room for every list of either form.
const ROOM: u16 = 4096;

/// Rooms that are none, small, about the longest list, and about the most that there are.
const ROOMS: [u16; 11] = [0, 1, 2, 3, 4095, 4096, 4097, 12_999, 13_000, 13_001, 65_535];

/// A command for each of the codes 1 to 10.
pub(super) fn bad(code: u8) -> Vec<u8> {
    match code {
        1 => vec![1, 0x5a, 0, 2, 1],
        2 => bytes_of(&[0x015a_0001, 0x015a_0001]),
        3 => bytes_of(&[0x0117_0020, 0x0200_0100, 0x0317_0120]),
        4 => bytes_of(&[0x015a_0002, 0x015a_0003]),
        5 => bytes_of(&[0x015b_0002, 0x015b_0002]),
        6 => bytes_of(&[0x015a_0003, 0, 0x015a_0003]),
        7 => bytes_of(&[0x0114_0003, 0x0100_0001, 0x0014_0002]),
        8 => raw(false, Kind::ImgRegion, [5, 1024]),
        9 => raw(true, Kind::Stop, [0; 2]),
        _ => raw(false, Kind::Wait, [1, 0]),
    }
}

/// All fixed scripts about lists on a card, but for those of lists that come back.
pub fn scripts() -> Vec<Vec<Item>> {
    let mut items: Vec<Item> = raw_lists().iter().map(|list| to_card(ROOM, list)).collect();
    let stored_lists = fixed_stored::lists();
    items.extend(stored_lists.iter().map(|list| from_card(ROOM, list)));
    items.extend(rooms());
    items.extend(rooms_of_refused_lists());
    let mut scripts = batches(items, Vec::len);
    scripts.extend(bad_scripts());
    scripts
}

fn raw_lists() -> Vec<Vec<u8>> {
    let mut lists = lengths();
    lists.extend(every_code());
    lists.extend(two_codes());
    lists.extend(fault_sets());
    lists.extend(values());
    lists.extend(long_lists());
    lists
}

/// Lists of every length where something changes, of flushes, zeros and ones; and so many
/// flushes that their number needs another group.
pub(super) fn lengths() -> Vec<Vec<u8>> {
    let mut lists = Vec::new();
    for length in (0..=17).chain([4088, 4089, 4095, 4096, 4097, 4104, 8192, 40_000]) {
        lists.extend([flushes(length), vec![0; length], vec![0xff; length]]);
    }
    lists.extend([126, 127, 128, 129, 255, 256, 257, 511].map(|count| flush().repeat(count)));
    lists
}

/// Each code at the first command, at the last, and between, in lists of few and of many.
pub(super) fn every_code() -> Vec<Vec<u8>> {
    let mut lists = Vec::new();
    for code in 1..=10 {
        for before in [0, 1, 2, 3, 300] {
            let start = [flush().repeat(before), bad(code)].concat();
            lists.extend([0, 1, 3].map(|behind| [&start[..], &flush().repeat(behind)].concat()));
        }
    }
    lists
}

/// Each code before each, of which the first in the list is told.
pub(super) fn two_codes() -> Vec<Vec<u8>> {
    let mut lists = Vec::new();
    for first in 1..=10 {
        for second in 1..=10 {
            lists.push([flush(), bad(first), flush(), bad(second), flush()].concat());
        }
    }
    lists
}

/// Every set of faults that a command can have at once, behind a flush.
fn fault_sets() -> Vec<Vec<u8>> {
    let mut lists = Vec::new();
    for row in &TABLE {
        lists.extend((0..128).map(|faults| [flush(), faulty(row, faults)].concat()));
    }
    lists
}

/// Every argument at and past its limits, and where a number needs another group.
fn values() -> Vec<Vec<u8>> {
    let mut sets = Vec::new();
    for (kind, place, values) in ON_THE_WIRE {
        sets.extend(values.iter().map(|value| set_of(kind.row(), place, *value)));
    }
    let about_groups = [0, 1, 127, 128, 16_383, 16_384, 65_535];
    let about_goals = [0x001f_ffff, 0x0020_0000, 0x0fff_ffff, 0x1000_0000];
    for row in &TABLE {
        for place in 0..row.arguments.len() {
            let ends = row.arguments[place].ends();
            let own = about_groups.into_iter().chain(ends);
            sets.extend(own.map(|value| set_of(row, place, value)));
        }
    }
    for goal in GOALS.into_iter().chain(about_goals) {
        sets.extend([0, 1].map(|place| set_of(Kind::TrkGoal.row(), place, goal)));
    }
    let both = |(kind, set): &(Kind, [u32; 2])| [false, true].map(|flag| raw(flag, *kind, *set));
    let commands = sets.iter().flat_map(both);
    commands
        .map(|one| [flush(), one, flush()].concat())
        .collect()
}

pub(super) fn set_of(row: &Row, place: usize, value: u32) -> (Kind, [u32; 2]) {
    let mut set = good(row);
    set[place] = value;
    (row.kind, set)
}

/// Lists as long as they may be, and longer, with and without a bad command.
fn long_lists() -> Vec<Vec<u8>> {
    let mut lists = Vec::new();
    for code in 1..=10 {
        let one = bad(code);
        let full = flushes(LONGEST_LIST);
        lists.push([&one[..], &full].concat());
        lists.push([&one[..], &full[one.len()..]].concat());
        lists.push([&full[..8 * (511 - one.len() / 8)], &one].concat());
        lists.push([&full[..], &one].concat());
    }
    lists.extend(full_lists().iter().map(|commands| raw_of(commands)));
    lists
}

/// Allowed commands of up to 4,096 bytes: goals, which are the longest in either form, and
/// others.
fn full_lists() -> Vec<Vec<Command>> {
    let goals = [0x447f_ffff, 0x8000_0000];
    let one = |kind, arguments| Command::new(true, kind, arguments);
    let mut ended = vec![one(Kind::ImgPwr, [1, 0]); 340];
    ended.push(one(Kind::TrkGoal, [0; 2]));
    vec![
        vec![one(Kind::TrkGoal, goals); 256],
        vec![one(Kind::ImgImage, [65_535; 2]); 341],
        vec![one(Kind::Wait, [600, 0]); 341],
        vec![Command::new(false, Kind::Clear, [0; 2]); 512],
        ended,
    ]
}

/// Every command with each flag that it may have.
pub(super) fn each_command() -> Vec<Command> {
    let each = TABLE.iter().flat_map(|row| {
        [false, true].map(|flag| Command::new(fitting_flag(row.kind, flag), row.kind, good(row)))
    });
    each.collect()
}

/// Allowed lists of none, one, several and as many commands as can be.
pub(super) fn allowed_lists() -> Vec<Vec<Command>> {
    let each = each_command();
    let mut lists = vec![Vec::new(), each.clone()];
    lists.extend(each.iter().map(|one| vec![*one]));
    lists.extend((2..6).map(|count| each[count..2 * count].to_vec()));
    lists.extend([127, 128, 512].map(|count| {
        let flush = Command::new(false, Kind::TlmFlush, [0; 2]);
        vec![flush; count]
    }));
    lists.extend(full_lists());
    lists
}

/// Both ways into rooms of every size, and into just enough, one more and one less.
fn rooms() -> Vec<Item> {
    let mut items = Vec::new();
    for commands in allowed_lists() {
        let (raw, stored) = (raw_of(&commands), stored_of(&commands));
        let about = |needed: usize| {
            let needed = needed as u16;
            let near = [needed.saturating_sub(1), needed, needed + 1, needed / 2];
            near.into_iter().chain(ROOMS)
        };
        items.extend(about(stored.len()).map(|room| to_card(room, &raw)));
        items.extend(about(raw.len()).map(|room| from_card(room, &stored)));
    }
    items
}

/// Lists that are refused for another reason, into no room and into little.
fn rooms_of_refused_lists() -> Vec<Item> {
    let mut raw_lists: Vec<Vec<u8>> = (1..=10).map(bad).collect();
    raw_lists.push(flushes(LONGEST_LIST + 1));
    raw_lists.push([bad(4), flushes(LONGEST_LIST)].concat());
    let mut items = Vec::new();
    for room in [0, 1, 4095] {
        items.extend(raw_lists.iter().map(|list| to_card(room, list)));
        let stored_lists = refused_lists();
        items.extend(stored_lists.iter().map(|list| from_card(room, list)));
    }
    items
}

/// A stored list for each refusal but 24, and some for two at once.
fn refused_lists() -> Vec<Vec<u8>> {
    let one = |numbers: &[u64]| stored(&list(&[numbers.to_vec()]));
    let too_long = stored(&list(&vec![vec![fixed_stored::FLUSH, 0]; 513]));
    vec![
        vec![],
        vec![1],
        vec![1, 0x80],
        vec![2],
        vec![2, 1, 0],
        vec![0x81, 0],
        vec![1, 0x80, 0],
        vec![1, 0, 0],
        one(&[0x0113]),
        one(&[0x1_0114, 0, 1]),
        one(&[0x015a, 2]),
        one(&[0x015a]),
        one(&[0x0114, 0, 300]),
        one(&[0x0117, 1, 5, 1024]),
        one(&[0x0153, 0, 0, 0x7fc0_0000]),
        one(&[0x7f05, 1]),
        one(&[0x7f01, 1, 3]),
        one(&[0x7f04, 0, 2]),
        one(&[0x7f04, 0]),
        [&too_long[..], &[0]].concat(),
        too_long,
    ]
}

/// Both items cut off at every byte, behind an item that is answered.
fn bad_scripts() -> Vec<Vec<Item>> {
    let good = index(4, &[0, 8], &flushes(16));
    let items = [to_card(20, &flush()), from_card(20, &[1, 1, 0xda, 2, 0])];
    let cut = |item: &Item| -> Vec<Vec<Item>> {
        let lengths = 1..item.len();
        let ends = lengths.map(|length| vec![good.clone(), item[..length].to_vec()]);
        ends.collect()
    };
    items.iter().flat_map(cut).collect()
}

/// Whole raw lists for the program that stores one.
pub fn raw_inputs() -> Vec<Vec<u8>> {
    let mut lists = vec![Vec::new(), raw_of(&each_command())];
    lists.extend((1..=10).map(|code| [flush(), bad(code)].concat()));
    lists.extend((1..=10).map(|code| [bad(code), flush()].concat()));
    lists.extend(full_lists().iter().map(|commands| raw_of(commands)));
    lists.extend([4095, 4096, 4097, 4104, 9000].map(flushes));
    lists.push([bad(4), flushes(LONGEST_LIST)].concat());
    lists
}

/// Whole stored lists for the program that reads one, up to the longest of which something
/// is promised.
pub fn stored_inputs() -> Vec<Vec<u8>> {
    let mut lists = refused_lists();
    lists.push(stored(&every_command()));
    lists.push(vec![1, 0]);
    lists.extend(full_lists().iter().map(|commands| stored_of(commands)));
    lists.extend([512, 513, 514].map(|count| stored(&fixed_stored::flushes(count))));
    lists.extend(longest_inputs());
    lists
}

/// Of just 65,536 bytes: a list whose last flag is none, one whose last flag has no end,
/// one with bytes left over, a number without an end, and a list that would be too long.
fn longest_inputs() -> [Vec<u8>; 5] {
    let most = stored(&fixed_stored::flushes(21_844));
    let fewer = stored(&fixed_stored::flushes(21_843));
    let before = &most[..most.len() - 1];
    [
        [before, &[2]].concat(),
        [before, &[0x80]].concat(),
        [&fewer[..], &[0; 3]].concat(),
        [&[1, 1], &[0x80; 65_534][..]].concat(),
        most,
    ]
}

/// Allowed lists that go to a card and come back, and come off a card and go back there.
pub fn trips() -> Vec<Trip> {
    let mut lists = allowed_lists();
    let goals = GOALS.into_iter();
    lists.extend(goals.map(|goal| vec![Command::new(false, Kind::TrkGoal, [goal, goal])]));
    let both = |commands: &Vec<Command>| {
        [
            Trip {
                form: Form::Raw,
                list: raw_of(commands),
            },
            Trip {
                form: Form::Stored,
                list: stored_of(commands),
            },
        ]
    };
    lists.iter().flat_map(both).collect()
}
