//! Random commands, and damage of every kind to their bytes, with the XOR
//! corrected afterwards or left wrong.

use super::rng::Rng;
use crate::command::{Allowed, Argument, Kind, LARGEST_GOAL_BITS, MINUS_ZERO_BITS, TABLE};
use crate::wire::{
    bytes_of, sealed, words_of, FLAG_BIT, LENGTH_BITS, MOST_WORDS, OPCODE_SHIFT, WORD_BITS,
    WORD_BYTES,
};

/// Singles worth sending: both ends of the allowed ones, their neighbours,
/// infinities, and both sorts of not-a-number with either sign.
pub const GOALS: [u32; 17] = [
    0,
    1,
    0x3f80_0000,
    0x43ff_c000,
    LARGEST_GOAL_BITS - 1,
    LARGEST_GOAL_BITS,
    LARGEST_GOAL_BITS + 1,
    0x7f80_0000,
    0x7f80_0001,
    0x7fc0_0000,
    0x7fff_ffff,
    MINUS_ZERO_BITS,
    MINUS_ZERO_BITS + 1,
    0xbf80_0000,
    0xff80_0000,
    0xff80_0001,
    0xffff_ffff,
];

/// An argument that is allowed, often at an end of its range.
pub fn good_argument(rng: &mut Rng, argument: &Argument) -> u32 {
    let Allowed::Range(low, high) = argument.allowed else {
        let odd = [0, 1, LARGEST_GOAL_BITS, MINUS_ZERO_BITS, 0x43ff_c000];
        let any = rng.below(LARGEST_GOAL_BITS as usize + 1) as u32;
        return if rng.percent(50) { rng.pick(&odd) } else { any };
    };
    match rng.below(4) {
        0 => low,
        1 => high,
        2 => low + rng.below((high - low).min(7) as usize + 1) as u32,
        _ => rng.within(low as usize, high as usize) as u32,
    }
}

/// Any argument at all, often just past an end of its range.
pub fn any_argument(rng: &mut Rng, argument: &Argument) -> u32 {
    match (argument.allowed, rng.below(4)) {
        (Allowed::Goal, 0 | 1) => rng.pick(&GOALS),
        (Allowed::Range(low, _), 0) => low.wrapping_sub(1),
        (Allowed::Range(_, high), 1) => high.wrapping_add(1),
        (_, 2) => rng.word(),
        _ => good_argument(rng, argument),
    }
}

pub fn arguments(rng: &mut Rng, kind: Kind, bad_percent: usize) -> [u32; 2] {
    let mut values = [0; 2];
    for (value, argument) in values.iter_mut().zip(kind.row().arguments) {
        *value = if rng.percent(bad_percent) {
            any_argument(rng, argument)
        } else {
            good_argument(rng, argument)
        };
    }
    values
}

pub fn any_kind(rng: &mut Rng) -> Kind {
    rng.pick(&TABLE).kind
}

/// A kind whose entry in a macro does something when it is handed over.
pub fn acting_kind(rng: &mut Rng) -> Kind {
    rng.pick(&TABLE[..Kind::Open as usize]).kind
}

/// Damages the bytes of one whole command.
pub fn damaged(rng: &mut Rng, bytes: &[u8]) -> Vec<u8> {
    let words = words_of(bytes);
    let inner = words[..words.len() - 1].to_vec();
    match rng.below(12) {
        0 => flipped(rng, bytes),
        1 => bytes[..rng.below(bytes.len())].to_vec(),
        2 => {
            let more = rng.within(1, 12);
            [bytes, &rng.bytes(more)].concat()
        }
        3 => resized(rng, inner),
        4 => reordered(rng, bytes),
        5 => {
            let length = rng.below(24);
            rng.bytes(length)
        }
        kind => {
            let changed = changed(rng, inner, kind);
            if rng.percent(85) {
                sealed(&changed)
            } else {
                bytes_of(&[&changed[..], &words[words.len() - 1..]].concat())
            }
        }
    }
}

/// Damage that leaves the number of words as it is.
fn changed(rng: &mut Rng, mut inner: Vec<u32>, kind: usize) -> Vec<u32> {
    let place = rng.below(inner.len());
    match kind {
        6 => inner[place] ^= 1 << rng.below(WORD_BITS as usize),
        7 => inner[0] ^= FLAG_BIT,
        8 => inner[0] = inner[0] & !LENGTH_BITS | any_length(rng),
        9 => {
            let opcode = any_opcode(rng);
            inner[0] = inner[0] & !(u32::MAX << OPCODE_SHIFT) | opcode << OPCODE_SHIFT;
        }
        // The lowest bits of an argument word are pad wherever there is any.
        10 if inner.len() > 1 => inner[1] |= 1 << rng.below(24),
        _ if inner.len() > 1 => *inner.last_mut().unwrap_or(&mut 0) = rng.word(),
        _ => inner[0] = rng.word(),
    }
    inner
}

fn any_length(rng: &mut Rng) -> u32 {
    match rng.below(4) {
        0 => rng.word() & LENGTH_BITS,
        1 => rng.pick(&[0, 1, MOST_WORDS as u32, MOST_WORDS as u32 + 1, LENGTH_BITS]),
        _ => rng.below(7) as u32,
    }
}

fn any_opcode(rng: &mut Rng) -> u32 {
    let near = u32::from(rng.pick(&TABLE).opcode);
    match rng.below(4) {
        0 => near,
        1 => near ^ 1 << rng.below(16),
        2 => near.wrapping_add(1),
        _ => rng.word() >> OPCODE_SHIFT,
    }
}

fn flipped(rng: &mut Rng, bytes: &[u8]) -> Vec<u8> {
    let mut flipped = bytes.to_vec();
    let place = rng.below(bytes.len());
    flipped[place] ^= 1 << rng.below(8);
    flipped
}

/// A command of another length that owns up to it: words come or go, and L follows.
fn resized(rng: &mut Rng, mut inner: Vec<u32>) -> Vec<u8> {
    let most = if rng.percent(20) { MOST_WORDS } else { 6 };
    let words = rng.within(1, most);
    inner.resize(words, 0);
    inner[0] = inner[0] & !LENGTH_BITS | (words as u32 + 1);
    sealed(&inner)
}

/// The same bytes with the order turned round inside each word.
fn reordered(rng: &mut Rng, bytes: &[u8]) -> Vec<u8> {
    let mut turned = bytes.to_vec();
    let width = rng.pick(&[2, WORD_BYTES]);
    turned.chunks_mut(width).for_each(|part| part.reverse());
    turned
}

/// A list of commands, most of them whole, that never takes more than the limit.
pub fn random_list(rng: &mut Rng, commands: usize, damage_percent: usize, limit: usize) -> Vec<u8> {
    let mut list = Vec::new();
    for _ in 0..commands {
        let kind = any_kind(rng);
        let appended = rng.percent(35);
        let bytes = super::items::raw(appended, kind, arguments(rng, kind, 12));
        if rng.percent(damage_percent) {
            list.extend(damaged(rng, &bytes));
        } else {
            list.extend(bytes);
        }
    }
    list.truncate(limit);
    list
}
