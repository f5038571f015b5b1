//! Random frames for the gas valve: good ones with any flags, most of them with the right code,
//! and damage of every sort to them, with the sum corrected afterwards or left wrong; items with
//! them in any order, and walks.

use super::fixed::batches;
use super::items::{fresh_valve, valve, valve_frame, Item, LONGEST_PART};
use super::rng::Rng;
use super::valve_frames::{
    arming, bytes, firing, mended, Words, AT_SUM, FLAGS, IDENTIFIER, RIGHT, WORDS,
};
use super::walks::{Walk, ROOM};

/// How many items a valve of its own takes.
const ITEMS: usize = 20;
/// The most steps that a walk has.
const MOST_STEPS: usize = 30;
/// Words that mean something somewhere in a frame.
const ODD_WORDS: [u16; 8] = [0, 1, 2, IDENTIFIER, RIGHT, 0x4000, 0x8000, 0xffff];

/// So many parts, each of items in any order on a valve of its own, in scripts.
pub fn scripts(rng: &mut Rng, parts: usize) -> Vec<Vec<Item>> {
    let parts = (0..parts).map(|_| part(rng)).collect();
    let batches = batches(parts, |part: &Vec<Item>| part.iter().map(Vec::len).sum());
    batches.into_iter().map(|batch| batch.concat()).collect()
}

fn part(rng: &mut Rng) -> Vec<Item> {
    let mut items = vec![fresh_valve()];
    items.extend((0..ITEMS).map(|_| match rng.below(40) {
        0 => fresh_valve(),
        1..=22 => valve(&frame(rng, 40)),
        _ => {
            let room = room(rng);
            valve_frame(room, &frame(rng, 40))
        }
    }));
    items
}

/// Mostly enough, often just so.
fn room(rng: &mut Rng) -> u8 {
    let (any, few) = (rng.byte(), rng.below(64) as u8);
    rng.pick(&[ROOM, ROOM, ROOM, ROOM + 1, 255, ROOM - 1, any, few])
}

/// A walk of which no frame, some or most are damaged.
pub fn walk(rng: &mut Rng) -> Walk {
    let damaged = rng.pick(&[0, 0, 20, 50, 80]);
    let steps = (0..rng.within(1, MOST_STEPS)).map(|_| match rng.percent(7) {
        true => fresh_valve(),
        false => valve(&frame(rng, damaged)),
    });
    Walk {
        steps: steps.collect(),
    }
}

/// A frame that is damaged so many times in a hundred.
pub fn frame(rng: &mut Rng, damaged: usize) -> Vec<u8> {
    let words = good_words(rng);
    match rng.percent(damaged) {
        true => damaged_frame(rng, words),
        false => bytes(&words),
    }
}

fn good_words(rng: &mut Rng) -> Words {
    let flags = rng.pick(&FLAGS);
    match rng.below(10) {
        0..=3 => arming(flags),
        4..=7 => firing(flags, RIGHT),
        _ => {
            let code = any_word(rng, RIGHT);
            firing(flags, code)
        }
    }
}

/// Any word at all, often one that differs little from the one that was there.
fn any_word(rng: &mut Rng, before: u16) -> u16 {
    match rng.below(5) {
        0 => rng.word() as u16,
        1 => rng.pick(&ODD_WORDS),
        2 => before.wrapping_add(rng.pick(&[1, 2, 0x0100, 0xff00, 0xfffe, 0xffff])),
        _ => before ^ 1 << rng.below(16),
    }
}

/// Damage of one sort: to some words, to the order of bytes, or to the length; now and then
/// any bytes.
fn damaged_frame(rng: &mut Rng, words: Words) -> Vec<u8> {
    match rng.below(12) {
        0 => other_length(rng, bytes(&words)),
        1 => {
            let changed = bytes(&changed(rng, words));
            other_length(rng, changed)
        }
        2 => {
            let swapped = words.map(u16::swap_bytes);
            resummed(rng, swapped)
        }
        3 => rng.bytes(WORDS * 2),
        _ => bytes(&changed(rng, words)),
    }
}

/// One word or several are others; mostly the sum is right again.
fn changed(rng: &mut Rng, mut words: Words) -> Words {
    for _ in 0..rng.pick(&[1, 1, 1, 2, 3]) {
        let place = match rng.below(4) {
            0 => rng.within(AT_SUM + 1, WORDS - 1),
            _ => rng.within(0, AT_SUM),
        };
        words[place] = any_word(rng, words[place]);
    }
    if rng.percent(65) {
        words = mended(words);
    }
    words
}

fn resummed(rng: &mut Rng, words: Words) -> Vec<u8> {
    match rng.percent(50) {
        true => bytes(&mended(words)),
        false => bytes(&words),
    }
}

/// Cut, or with bytes behind it, mostly by few.
fn other_length(rng: &mut Rng, mut frame: Vec<u8>) -> Vec<u8> {
    let whole = frame.len();
    let length = match rng.below(4) {
        0 => rng.below(LONGEST_PART + 1),
        1 => rng.below(whole),
        _ => rng.pick(&[whole - 2, whole - 1, whole + 1, whole + 2, 2 * whole]),
    };
    frame.resize(length, rng.pick(&[0, 0xaa, 0xff]));
    frame
}
