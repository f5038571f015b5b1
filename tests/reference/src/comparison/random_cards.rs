//! Random lists on a card: raw ones of good, damaged and cut commands, stored ones that are
//! good, that have a byte changed, put in or taken out, that are cut, or that have a number
//! disturbed; and lists of either form that go and come back.

use super::cards::{command, groups, list, longer, pieces, raw_of, stored_of};
use super::damage::{any_argument, any_kind, arguments, damaged, random_list};
use super::fixed::batches;
use super::items::{from_card, raw, to_card, Item};
use super::past::past_arguments;
use super::rng::Rng;
use super::shrink::numbers;
use super::texts::fitting_flag;
use super::trips::{Form, Trip};
use crate::card::{raw_form, stored_form};
use crate::command::{Command, Kind, TABLE};
use crate::run::LONGEST_LIST;

/// How often each sort of list is sent.
const TIMES: usize = 2;
/// Room asked for where a list is refused anyway.
const SOME_ROOM: usize = 40;

/// So many times a few lists of either form, in scripts.
pub fn scripts(rng: &mut Rng, lists: usize) -> Vec<Vec<Item>> {
    let items = (0..lists).flat_map(|_| items(rng)).collect();
    batches(items, Vec::len)
}

fn items(rng: &mut Rng) -> Vec<Item> {
    let mut items = Vec::new();
    for _ in 0..TIMES {
        let raw = raw_list(rng);
        let needed = stored_form(&raw).map(|stored| stored.len());
        items.push(to_card(room_near(rng, needed.unwrap_or(SOME_ROOM)), &raw));
        let stored = stored_list(rng);
        let needed = raw_form(&stored).map(|raw| raw.len());
        let room = room_near(rng, needed.unwrap_or(SOME_ROOM));
        items.push(from_card(room, &stored));
    }
    items
}

/// A list of either form, mostly one that is allowed.
pub fn trip(rng: &mut Rng) -> Trip {
    let commands = good_commands(rng);
    let bad = rng.percent(10);
    match rng.percent(50) {
        true => Trip {
            form: Form::Raw,
            list: if bad {
                raw_list(rng)
            } else {
                raw_of(&commands)
            },
        },
        false => Trip {
            form: Form::Stored,
            list: if bad {
                stored_list(rng)
            } else {
                stored_of(&commands)
            },
        },
    }
}

/// Mostly with one bad command at most, now and then about as long as it may be.
pub fn raw_list(rng: &mut Rng) -> Vec<u8> {
    let good = good_commands(rng);
    let mut list = raw_of(&good);
    match rng.below(10) {
        0..=4 => {}
        5..=7 => {
            let behind = good_commands(rng);
            list.extend(bad_command(rng));
            list.extend(raw_of(&behind));
        }
        8 => list.truncate(rng.below(list.len() + 1)),
        _ => {
            let count = rng.below(30);
            return random_list(rng, count, 10, LONGEST_LIST + 1);
        }
    }
    list.truncate(LONGEST_LIST + rng.below(2));
    list
}

/// With bytes damaged, with numbers past a limit, or with any flag.
fn bad_command(rng: &mut Rng) -> Vec<u8> {
    let kind = any_kind(rng);
    let flag = rng.percent(50);
    let values = match rng.percent(40) {
        true => past_arguments(rng, kind),
        false => arguments(rng, kind, 0),
    };
    let bytes = raw(flag, kind, values);
    match rng.percent(50) {
        true => damaged(rng, &bytes),
        false => bytes,
    }
}

/// Stored as it should be, or with damage of one sort.
pub fn stored_list(rng: &mut Rng) -> Vec<u8> {
    let commands = good_commands(rng);
    let stored = stored_of(&commands);
    match rng.below(10) {
        0..=3 => stored,
        4..=6 => with_odd_command(rng, &commands),
        7 => disturbed(rng, numbers(&stored)),
        8 => changed(rng, stored),
        _ => {
            let once = changed(rng, stored);
            changed(rng, once)
        }
    }
}

/// A byte changed, put in or taken out, some put behind, or all behind some place cut off.
fn changed(rng: &mut Rng, mut stored: Vec<u8>) -> Vec<u8> {
    let place = rng.below(stored.len() + 1);
    let any = rng.byte();
    let other = rng.pick(&[0, 1, 2, 0x7f, 0x80, 0x81, 0xff, any]);
    match (rng.below(6), stored.get(place).copied()) {
        (0, Some(_)) => stored[place] = other,
        (1, Some(byte)) => stored[place] = byte ^ 1 << rng.below(8),
        (2, Some(_)) => drop(stored.remove(place)),
        (3, _) => stored.insert(place, other),
        (4, _) => stored.truncate(place),
        _ => stored.push(other),
    }
    stored
}

/// Good commands and one with any opcode, any flag or any argument.
fn with_odd_command(rng: &mut Rng, commands: &[Command]) -> Vec<u8> {
    let plain = |one: &Command| command(one.appended.into(), one.kind, one.arguments);
    let mut all: Vec<Vec<u64>> = commands.iter().map(plain).collect();
    let place = rng.below(all.len() + 1);
    all.insert(place, odd_command(rng));
    pieces(&list(&all)).concat()
}

/// Often of a kind that may not have both flags.
fn odd_command(rng: &mut Rng) -> Vec<u64> {
    let any = any_kind(rng);
    let kind = rng.pick(&[any, any, any, Kind::Open, Kind::Stop, Kind::Wait]);
    let mut numbers = command(rng.below(2) as u64, kind, arguments(rng, kind, 0));
    for (place, argument) in kind.row().arguments.iter().enumerate() {
        if rng.percent(40) {
            numbers[2 + place] = any_argument(rng, argument).into();
        }
    }
    match rng.below(6) {
        0 => numbers[0] = any_opcode(rng).into(),
        1 => numbers[1] = rng.pick(&[2, 3, 128, 129, 256, 257, 0xffff_ffff]),
        2 => {
            numbers.pop();
        }
        _ => {}
    }
    numbers
}

fn any_opcode(rng: &mut Rng) -> u32 {
    let near = u32::from(rng.pick(&TABLE).opcode);
    match rng.below(3) {
        0 => near ^ 1 << rng.below(32),
        1 => near.wrapping_add(1),
        _ => rng.word() >> rng.below(32),
    }
}

/// One of the numbers is another one, longer than it needs to be, too wide, gone, or there
/// twice. It is often one of the first two.
fn disturbed(rng: &mut Rng, mut numbers: Vec<Item>) -> Vec<u8> {
    let last = if rng.percent(40) { 2 } else { numbers.len() };
    let place = rng.below(last);
    let number = value_of(&numbers[place]);
    let shift = rng.below(32) as u32;
    numbers[place] = match rng.below(9) {
        0 => groups(number + 1),
        1 => groups(number.saturating_sub(1)),
        2 => groups((rng.word() >> shift).into()),
        3 => groups(number ^ 1 << shift),
        4 => longer(number, 1),
        5 => longer(number, rng.within(1, 12)),
        6 => groups(number | 1 << (32 + shift)),
        7 => [numbers[place].clone(), numbers[place].clone()].concat(),
        _ => Vec::new(),
    };
    numbers.concat()
}

/// The number in these groups, of which there are no more than a number of 32 bits has.
fn value_of(groups: &[u8]) -> u64 {
    let places = (0..).step_by(7);
    let parts = groups.iter().zip(places);
    parts
        .map(|(group, place)| u64::from(group & 0x7f) << place)
        .sum()
}

/// Allowed commands, now and then as many as a list may have, or a few more.
fn good_commands(rng: &mut Rng) -> Vec<Command> {
    let count = match rng.below(40) {
        0 => return vec![Command::new(false, Kind::TlmFlush, [0; 2]); rng.within(511, 514)],
        1 => rng.within(330, 350),
        2..=5 => rng.within(20, 150),
        _ => rng.below(9),
    };
    (0..count).map(|_| good_command(rng)).collect()
}

fn good_command(rng: &mut Rng) -> Command {
    let kind = any_kind(rng);
    let appended = fitting_flag(kind, rng.percent(35));
    Command::new(appended, kind, arguments(rng, kind, 0))
}

/// A room that just suffices, is one short or one longer, or any.
pub(super) fn room_near(rng: &mut Rng, needed: usize) -> u16 {
    let room = match rng.below(12) {
        0 => needed.saturating_sub(1),
        1..=3 => needed,
        4 => needed + 1,
        5 => rng.below(needed + 1),
        6 => rng.pick(&[0, 4096, 13_000, u16::MAX.into()]),
        _ => needed + rng.below(100),
    };
    room as u16
}

/// Inputs for the program that stores a list.
pub fn raw_inputs(rng: &mut Rng, random: usize) -> Vec<Vec<u8>> {
    (0..random).map(|_| raw_list(rng)).collect()
}

/// Inputs for the program that reads a stored list.
pub fn stored_inputs(rng: &mut Rng, random: usize) -> Vec<Vec<u8>> {
    (0..random).map(|_| stored_list(rng)).collect()
}
