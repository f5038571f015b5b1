//! Fixed damaged lists: with every code in every sort of place, with bytes and lengths broken,
//! put in and taken out everywhere, with noise between lists, with commands within others, and
//! with stretches of every number and length.

use super::fixed_cards::{bad, every_code, lengths, set_of, two_codes};
use super::fixed_index::flushes;
use super::fixed_wire::{faulty, flush, of_length};
use super::items::raw;
use super::past::ON_THE_WIRE;
use crate::command::{Kind, TABLE};
use crate::run::LONGEST_LIST;
use crate::wire::{bytes_of, FLAG_BIT, LENGTH_BITS};

/// As many stretches as a list can have: one byte each, with a flush between each two.
pub(super) const MOST_STRETCHES: usize = 456;

/// What is put in somewhere. 01 may well begin a command.
const PUT_IN: [&[u8]; 4] = [&[0], &[1], &[0xff; 3], &[0; 4]];

/// The commands of a list that is as it should be.
const KINDS: [Kind; 5] = [
    Kind::TlmFlush,
    Kind::TrkGoal,
    Kind::ImgImage,
    Kind::Wait,
    Kind::Stop,
];

/// That list, command by command.
pub fn whole() -> [Vec<u8>; 5] {
    let arguments = [[0; 2], [0x43ff_c000, 0x8000_0000], [5, 2], [600, 0], [0; 2]];
    let appended = [false, false, true, true, false];
    std::array::from_fn(|place| raw(appended[place], KINDS[place], arguments[place]))
}

/// The same list with these bytes instead of the command at this place.
fn with(place: usize, bytes: &[u8]) -> Vec<u8> {
    let mut commands = whole();
    commands[place] = bytes.to_vec();
    commands.concat()
}

pub fn lists() -> Vec<Vec<u8>> {
    let mut lists = lengths();
    lists.extend(every_code());
    lists.extend(two_codes());
    lists.extend(neighbours());
    lists.extend(faults());
    lists.extend(limits());
    lists.extend(bytes_broken());
    lists.extend(bytes_put_in());
    lists.extend(bytes_taken_out());
    lists.extend(cut());
    lists.extend(stretches());
    lists.extend(astray());
    lists
}

/// Those that lead astray: their lengths are wrong, or commands begin where none should.
pub fn astray() -> Vec<Vec<u8>> {
    let mut lists = lengths_broken();
    lists.extend(noise());
    lists.extend(commands_within());
    lists
}

/// Each code right before each, so that their stretches are one.
fn neighbours() -> Vec<Vec<u8>> {
    let mut lists = Vec::new();
    for first in 1..=10 {
        lists.extend((1..=10).map(|second| [bad(first), bad(second), flush()].concat()));
    }
    lists
}

/// Every command with each fault and with every two, between flushes.
fn faults() -> Vec<Vec<u8>> {
    let few = |faults: &u32| faults.count_ones() <= 2;
    let mut lists = Vec::new();
    for row in &TABLE {
        let sets = (0..128).filter(few);
        lists.extend(sets.map(|faults| [flush(), faulty(row, faults), flush()].concat()));
    }
    lists
}

/// Every argument at its ends and past them.
fn limits() -> Vec<Vec<u8>> {
    let mut sets = Vec::new();
    for (kind, place, values) in ON_THE_WIRE {
        sets.extend(values.iter().map(|value| set_of(kind.row(), place, *value)));
    }
    for row in &TABLE {
        for (place, argument) in row.arguments.iter().enumerate() {
            sets.extend(argument.ends().map(|value| set_of(row, place, value)));
        }
    }
    let one = |(kind, set): &(Kind, [u32; 2])| [raw(true, *kind, *set), flush()].concat();
    sets.iter().map(one).collect()
}

/// Each byte of the list with its lowest bit and its highest changed, 0 and 255.
fn bytes_broken() -> Vec<Vec<u8>> {
    let list = whole().concat();
    let broken = |place: usize| {
        let byte = list[place];
        [byte ^ 1, byte ^ 0x80, 0, 0xff].map(|other| {
            let mut broken = list.clone();
            broken[place] = other;
            broken
        })
    };
    (0..list.len()).flat_map(broken).collect()
}

/// A byte or more put in at each place.
fn bytes_put_in() -> Vec<Vec<u8>> {
    let list = whole().concat();
    let put = |place: usize| {
        let (before, behind) = list.split_at(place);
        PUT_IN.map(|more| [before, more, behind].concat())
    };
    (0..=list.len()).flat_map(put).collect()
}

/// A byte, two, or a word taken out at each place.
fn bytes_taken_out() -> Vec<Vec<u8>> {
    let list = whole().concat();
    let out = |place: usize| {
        let (before, behind) = list.split_at(place);
        [1, 2, 4].map(|count| [before, &behind[count.min(behind.len())..]].concat())
    };
    (0..list.len()).flat_map(out).collect()
}

/// The list without its first bytes, and without its last ones.
fn cut() -> Vec<Vec<u8>> {
    let list = whole().concat();
    let both = |place: usize| [&list[place..], &list[..place]].map(<[u8]>::to_vec);
    (0..=list.len()).flat_map(both).collect()
}

/// Every command of the list with each L in turn, and those that have as many words as they
/// say.
fn lengths_broken() -> Vec<Vec<u8>> {
    let mut lists = Vec::new();
    for (place, command) in whole().iter().enumerate() {
        for length in (0..=34).chain([0x7ffe, 0x7fff]) {
            let mut broken = command.clone();
            broken[2..4].copy_from_slice(&u16::to_be_bytes(length));
            lists.push(with(place, &broken));
        }
        let row = KINDS[place].row();
        lists.extend((2..=33).map(|length| with(place, &of_length(row, 0, length))));
    }
    lists
}

/// Two lists with none to twelve bytes between them, and one with as many on either side:
/// zeros, ones, and bytes that look like a command's.
fn noise() -> Vec<Vec<u8>> {
    let list = whole().concat();
    let sorts = [vec![0; 12], vec![0xff; 12], flush().repeat(2)];
    let mut lists = Vec::new();
    for length in 0..=12 {
        for sort in &sorts {
            let noise = &sort[..length];
            lists.push([&list[..], noise, &list].concat());
            lists.push([noise, &list, noise].concat());
        }
    }
    lists
}

/// Commands with commands among their words: whole, so that these are part of them, and
/// damaged, so that they come to light.
fn commands_within() -> Vec<Vec<u8>> {
    let mut lists = Vec::new();
    for outer in outer_commands() {
        lists.push(outer.clone());
        for place in 0..outer.len() {
            let mut broken = outer.clone();
            broken[place] ^= 0x10;
            lists.extend([[&broken[..], &flush()].concat(), broken]);
        }
        let last = outer.len() - 1;
        lists.extend([1, 2, 4, last].map(|from| outer[from..].to_vec()));
        lists.extend([last, last - 4].map(|to| outer[..to].to_vec()));
    }
    lists.extend(covering());
    lists
}

/// Goals that hold a flush, at a word and beside one; a region that holds the first half of
/// one.
fn outer_commands() -> [Vec<u8>; 3] {
    [
        raw(true, Kind::TrkGoal, [0x015a_0002, 0x015a_0002]),
        raw(false, Kind::TrkGoal, [0x0101_5a00, 0x0201_5a00]),
        [raw(false, Kind::ImgRegion, [0x015a, 2]), flush()].concat(),
    ]
}

/// Commands that claim more words than they should: with others among these words, and with
/// fewer words than they claim.
fn covering() -> Vec<Vec<u8>> {
    let long = of_length(Kind::TlmFlush.row(), 0, 32);
    let first = bytes_of(&[0x0117_0003, 0x015a_0002]);
    let mut lists = vec![[&first[..], &flush()].concat()];
    for length in [3, 4, 7, 32] {
        let word = bytes_of(&[0x015a_0000 | length]);
        lists.push([&word[..], &whole().concat(), &flush()].concat());
        lists.push([&word[..], &flushes(124), &flush()].concat());
    }
    for place in [4, 5, 8, 116] {
        let mut one = long.clone();
        one[place..place + 8].copy_from_slice(&flush());
        lists.push([&one[..], &flush()].concat());
    }
    let claims =
        [2, 31, 32, 33, LENGTH_BITS].map(|length| bytes_of(&[0x015a_0000 | FLAG_BIT | length]));
    lists.extend(claims.map(|word| [&flush()[..], &word, &flushes(120)].concat()));
    lists
}

/// So many bytes that are skipped, with a flush between each two.
pub fn stretches_of_one(count: usize) -> Vec<u8> {
    vec![[0x99]; count].join(&flush()[..])
}

/// So many bytes that are skipped, between flushes that fill the list up to its end.
fn stretch_of(start: usize, length: usize, end: usize) -> Vec<u8> {
    let noise = vec![0x55; length];
    [flushes(start), noise, flushes(end - start - length)].concat()
}

/// Many stretches, long ones, and some that begin and end far down.
fn stretches() -> Vec<Vec<u8>> {
    let counts = [1, 2, 255, 256, MOST_STRETCHES];
    let mut lists: Vec<Vec<u8>> = counts.map(stretches_of_one).to_vec();
    for length in [1, 7, 255, 256, 257, 511, 512, 4080, 4087, 4088] {
        lists.push(stretch_of(0, length, LONGEST_LIST));
        lists.push(stretch_of(8, length, length + 16));
        let start = (LONGEST_LIST - length) / 8 * 8;
        lists.push(stretch_of(start, length, start + length));
    }
    for start in [248, 256, 264, 2048, 4080, 4088] {
        lists.push(stretch_of(start, 8, LONGEST_LIST));
        lists.push(stretch_of(start, 1, LONGEST_LIST));
    }
    lists
}
