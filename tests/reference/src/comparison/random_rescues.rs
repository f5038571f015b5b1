//! Random damaged lists: good commands with a length or another byte broken, with bytes put
//! in and taken out, with noise between them, with commands within others, or cut, of up to
//! 4,096 bytes and one more; and rooms for what is rescued of them.

use super::damage::{any_kind, arguments, damaged, random_list};
use super::fixed::batches;
use super::items::{raw, rescue, Item};
use super::random_cards::room_near;
use super::rng::Rng;
use super::salvages::Salvage;
use crate::command::{Kind, LARGEST_GOAL_BITS};
use crate::rescue::{rescued, STRETCH_BYTES};
use crate::run::LONGEST_LIST;
use crate::wire::words_of;

/// How often each list is rescued, into rooms of any size.
const TIMES: usize = 2;
/// Room asked for where a list is refused anyway.
const SOME_ROOM: usize = 40;

/// So many lists, each rescued a few times, in scripts.
pub fn scripts(rng: &mut Rng, lists: usize) -> Vec<Vec<Item>> {
    let items = (0..lists).flat_map(|_| items(rng)).collect();
    batches(items, Vec::len)
}

fn items(rng: &mut Rng) -> Vec<Item> {
    let list = damaged_list(rng);
    let needed = rescued(&list).map_or([SOME_ROOM; 2], |rescued| {
        [rescued.kept.len(), STRETCH_BYTES * rescued.stretches.len()]
    });
    let rooms = (0..TIMES).map(|_| needed.map(|needed| room_near(rng, needed)));
    rooms
        .map(|[room, beside]| rescue(room, beside, &list))
        .collect()
}

/// A list that is rescued, and what was kept of it again.
pub fn salvage(rng: &mut Rng) -> Salvage {
    Salvage {
        list: damaged_list(rng),
    }
}

/// Inputs for the program that rescues a list.
pub fn inputs(rng: &mut Rng, random: usize) -> Vec<Vec<u8>> {
    (0..random).map(|_| damaged_list(rng)).collect()
}

/// Mostly with damage in one place or in several, now and then about as long as it may be.
pub fn damaged_list(rng: &mut Rng) -> Vec<u8> {
    let mut list = some_list(rng);
    for _ in 0..rng.pick(&[0, 1, 1, 2, 3, 8, 30]) {
        damage(rng, &mut list);
    }
    if rng.percent(15) {
        list.truncate(rng.below(list.len() + 1));
    }
    list.truncate(LONGEST_LIST + rng.below(2));
    list
}

/// Commands of which most are whole, each with any flag.
fn some_list(rng: &mut Rng) -> Vec<u8> {
    let commands = match rng.below(40) {
        0 => rng.within(330, 520),
        1..=6 => rng.within(20, 150),
        _ => rng.below(14),
    };
    match rng.below(8) {
        0 => random_list(rng, commands, 30, LONGEST_LIST + 1),
        1 => (0..commands).flat_map(|_| covering_command(rng)).collect(),
        _ => (0..commands).flat_map(|_| good_command(rng)).collect(),
    }
}

fn good_command(rng: &mut Rng) -> Vec<u8> {
    let kind = any_kind(rng);
    raw(rng.percent(35), kind, arguments(rng, kind, 0))
}

/// A goal that has words of other commands for its own, as far as a goal may have them:
/// often those of a whole flush.
fn covering_command(rng: &mut Rng) -> Vec<u8> {
    let flush = raw(rng.percent(35), Kind::TlmFlush, [0; 2]);
    let within = [flush, good_command(rng)].concat();
    let last = if rng.percent(50) { 0 } else { within.len() - 8 };
    let words = words_of(&within[rng.within(0, last)..]);
    let goal = [words[0], words[1]].map(|word| word.min(LARGEST_GOAL_BITS));
    raw(rng.percent(35), Kind::TrkGoal, goal)
}

/// Damage of one sort somewhere in the list.
fn damage(rng: &mut Rng, list: &mut Vec<u8>) {
    let place = rng.below(list.len() + 1);
    match (rng.below(8), list.get_mut(place)) {
        (0 | 1, _) => broken_length(rng, list),
        (2, Some(byte)) => *byte ^= 1 << rng.below(8),
        (3, Some(byte)) => *byte = rng.byte(),
        (4, Some(_)) => {
            let end = list.len().min(place + rng.within(1, 12));
            list.drain(place..end);
        }
        _ => {
            let noise = noise(rng);
            list.splice(place..place, noise);
        }
    }
}

/// What gets between the bytes of a list: a command, whole or damaged, or any bytes.
fn noise(rng: &mut Rng) -> Vec<u8> {
    let command = good_command(rng);
    let length = rng.within(1, 30);
    match rng.below(4) {
        0 => command,
        1 => damaged(rng, &command),
        2 => rng.bytes(length),
        _ => vec![rng.pick(&[0, 1, 0x5a, 0xff]); length],
    }
}

/// One of the words, which may well be the first of a command, gets another L.
fn broken_length(rng: &mut Rng, list: &mut [u8]) {
    let word = 4 * rng.below(list.len() / 4 + 1);
    let [high, low] = match rng.below(4) {
        0 => [rng.byte(), rng.byte()],
        1 => [0, rng.pick(&[0, 1, 32, 33, 255])],
        _ => [0, rng.within(2, 8) as u8],
    };
    if let Some([_, _, a, b]) = list.get_mut(word..word + 4) {
        (*a, *b) = (high, low);
    }
}
