//! Random items about the index of a list, and random lists that grow: of good, damaged and
//! cut commands, with offsets that are mostly those of the list when it was shorter,
//! sometimes with one disturbed, sometimes any.

use super::damage::random_list;
use super::fixed::batches;
use super::growths::{growths, index_of, Growth};
use super::items::{index, look_up, Item};
use super::rng::Rng;
use crate::index;
use crate::lists_replay::{LARGEST_ROOM, MOST_SENT};
use crate::run::LONGEST_LIST;

/// How often each list is indexed and looked up.
const TIMES: usize = 3;
/// Room asked for where an index is refused anyway.
const SOME_ROOM: usize = 5;
/// About as many bytes as a command has.
const A_COMMAND: usize = 16;

/// So many lists, each indexed and looked up a few times, in scripts.
pub fn scripts(rng: &mut Rng, lists: usize) -> Vec<Vec<Item>> {
    let items = (0..lists).flat_map(|_| items(rng)).collect();
    batches(items, Vec::len)
}

/// A list that grows; of a long one a part of its numbers.
pub fn growth(rng: &mut Rng) -> Growth {
    let list = some_list(rng);
    let (start, more) = list.split_at(some_place(rng, list.len()));
    let mut all = growths(start, more);
    all.swap_remove(rng.below(all.len()))
}

fn items(rng: &mut Rng) -> Vec<Item> {
    let list = some_list(rng);
    let mut items = Vec::new();
    for _ in 0..TIMES {
        let offsets = some_offsets(rng, &list);
        let room = some_room(rng, &list, &offsets);
        let number = some_number(rng, offsets.len());
        items.push(index(room, &offsets, &list));
        items.push(look_up(&offsets, &list, number));
    }
    items
}

/// Now and then as long as it may be, or longer by one.
fn some_list(rng: &mut Rng) -> Vec<u8> {
    let commands = match rng.below(40) {
        0 => 520,
        1..=4 => rng.within(30, 200),
        _ => rng.below(12),
    };
    let damage = rng.pick(&[0, 3, 30]);
    let limit = LONGEST_LIST + rng.below(2);
    let mut list = random_list(rng, commands, damage, limit);
    if rng.percent(40) {
        list.truncate(some_place(rng, list.len()));
    }
    list
}

/// A place up to the end, often within the last command.
fn some_place(rng: &mut Rng, length: usize) -> usize {
    match rng.percent(60) {
        true => length.saturating_sub(rng.below(A_COMMAND)),
        false => rng.below(length + 1),
    }
}

fn some_offsets(rng: &mut Rng, list: &[u8]) -> Vec<u16> {
    let earlier = index_of(&list[..some_place(rng, list.len())]);
    match rng.below(20) {
        0..=10 => earlier,
        11..=15 => disturbed(rng, earlier, list.len()),
        16 | 17 => index_of(&some_list(rng)),
        _ => any_offsets(rng, list.len()),
    }
}

/// One of the offsets is another one, is gone, or stands there twice.
fn disturbed(rng: &mut Rng, mut offsets: Vec<u16>, length: usize) -> Vec<u16> {
    let Some(last) = offsets.len().checked_sub(1) else {
        return vec![rng.below(length + 2) as u16];
    };
    let place = rng.below(last + 1);
    let one = offsets[place];
    match rng.below(8) {
        0 => offsets[place] = one + 1,
        1 => offsets[place] = one.saturating_sub(1),
        2 => offsets[place] = rng.below(length + 2) as u16,
        3 => offsets[last] = (length + rng.below(3)) as u16 - 1,
        4 => offsets.insert(place, one),
        5 => offsets.swap(place, last),
        6 => offsets.push((length + rng.below(3)) as u16 - 1),
        _ => drop(offsets.remove(place)),
    }
    offsets
}

/// Mostly rising from 0, now and then as many as can be sent.
fn any_offsets(rng: &mut Rng, length: usize) -> Vec<u16> {
    let count = match rng.percent(10) {
        true => rng.within(MOST_SENT - 100, MOST_SENT),
        false => rng.below(9),
    };
    let mut offsets: Vec<u16> = (0..count).map(|_| rng.below(length + 1) as u16).collect();
    if rng.percent(80) {
        offsets.push(0);
        offsets.sort_unstable();
        offsets.dedup();
    }
    offsets.truncate(MOST_SENT);
    offsets
}

/// A room that just suffices, is one short or one longer, or any.
fn some_room(rng: &mut Rng, list: &[u8], offsets: &[u16]) -> u16 {
    let needed = index::index(list, offsets, &mut [0; LARGEST_ROOM]).unwrap_or(SOME_ROOM);
    let room = match rng.below(10) {
        0 | 1 => needed.saturating_sub(1),
        2..=4 => needed,
        5 => needed + 1,
        6 => rng.below(needed + 1),
        7 => rng.pick(&[0, LARGEST_ROOM, u16::MAX.into()]),
        _ => needed + rng.below(60),
    };
    room as u16
}

/// Mostly one that there is, or next to these.
fn some_number(rng: &mut Rng, count: usize) -> u32 {
    let near = rng.below(count + 2) as u32;
    match rng.below(12) {
        0 => rng.word(),
        1 => near + (1 << rng.within(8, 31)),
        _ => near,
    }
}
