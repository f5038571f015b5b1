//! Fixed lists that grow: ended by codes 1, 2 and 3 or between two commands, by one to
//! twelve bytes that complete a command or are anything; and the longest lists.

use super::fixed_housekeeping::list;
use super::fixed_index::flushes;
use super::fixed_wire::of_length;
use super::growths::{growths as in_scripts, Growth};
use super::items::raw;
use crate::command::Kind;
use crate::run::LONGEST_LIST;
use crate::wire::bytes_of;

/// By how many bytes a list grows.
const MORE: std::ops::RangeInclusive<usize> = 1..=12;

/// What stands before the end of a list: nothing, and a command that is taken, one that is
/// not, and both.
const BEFORE: [&str; 4] = ["", ".", "4", "8."];

/// First words of a command whose L is too small or too large, for ever.
const BAD_WORDS: [u32; 5] = [
    0x015a_0000,
    0x015a_0001,
    0x015a_0021,
    0x015a_7fff,
    0x015a_8000,
];

pub fn growths() -> Vec<Growth> {
    let mut all = Vec::new();
    for (start, rest) in starts() {
        for tail in tails(&rest) {
            all.extend(MORE.flat_map(|more| in_scripts(&start, &tail[..more])));
        }
        all.extend(in_scripts(&start, &[]));
        all.extend(in_scripts(&start, &[&rest[..], &list(".8")].concat()));
    }
    all.extend(every_cut());
    all.extend(long_lists());
    all
}

/// Lists with each sort of end, and what would complete the last command of each, if
/// anything would.
fn starts() -> Vec<(Vec<u8>, Vec<u8>)> {
    let mut all = Vec::new();
    for (before, (end, rest)) in BEFORE.iter().cycle().zip(ends()) {
        all.push(([list(before), end].concat(), rest));
    }
    for before in BEFORE {
        all.push((list(before), Vec::new()));
    }
    all
}

/// Ends by code 1 (with 1 to 7 bytes), by 3 and by 2.
fn ends() -> Vec<(Vec<u8>, Vec<u8>)> {
    let goal = raw(false, Kind::TrkGoal, [0x43ff_c000, 0]);
    let longest = of_length(Kind::TlmFlush.row(), 0, 32);
    let mut all = Vec::new();
    for one in [list("."), list("8"), goal] {
        all.extend((1..one.len()).map(|length| split(&one, length)));
    }
    all.extend([3, 8, 116, 120, 124, 127].map(|length| split(&longest, length)));
    for word in BAD_WORDS {
        let bytes = bytes_of(&[word, 0x015a_0002, 0x015a_0002]);
        all.extend([7, 8, 12].map(|length| split(&bytes, length)));
    }
    all
}

fn split(bytes: &[u8], length: usize) -> (Vec<u8>, Vec<u8>) {
    (bytes[..length].to_vec(), bytes[length..].to_vec())
}

/// What completes the command and then more of them; and garbage of several sorts.
fn tails(rest: &[u8]) -> [Vec<u8>; 4] {
    [
        [rest, &list(".8")].concat(),
        vec![0; 12],
        vec![0xff; 12],
        vec![0, 2, 0, 3, 0, 2, 0, 3, 0, 2, 0, 3],
    ]
}

/// A list cut in every place, within its commands too.
fn every_cut() -> Vec<Growth> {
    let all = [list(".849.83"), list("8..91"), list("..8.2.")];
    let cut = |list: &Vec<u8>| {
        let places = 0..=list.len();
        let parts = places.map(|place| in_scripts(&list[..place], &list[place..]));
        parts.flatten().collect::<Vec<Growth>>()
    };
    all.iter().flat_map(cut).collect()
}

/// Lists that grow to the most bytes and past them; of those with 512 commands each number
/// is looked up once.
fn long_lists() -> Vec<Growth> {
    let longer = flushes(LONGEST_LIST + 8);
    let mut all = in_scripts(&longer[..8], &longer[8..LONGEST_LIST]);
    for (before, behind) in [
        (2048, 4096),
        (2051, 4096),
        (4088, 4096),
        (4091, 4095),
        (4095, 4096),
        (4096, 4096),
        (4088, 4097),
        (4096, 4097),
        (4097, 4104),
    ] {
        let last = behind as u32 / 8;
        all.push(Growth {
            start: longer[..before].to_vec(),
            more: longer[before..behind].to_vec(),
            numbers: vec![0, 1, last / 2, last, last + 1],
        });
    }
    all.extend(ended_late());
    all
}

/// Lists of 4,096 bytes whose last command has code 1, 2 or 3, from when it was shorter.
fn ended_late() -> Vec<Growth> {
    let mut all = Vec::new();
    for end in ["1", "2", "3"].map(list) {
        let bytes = [flushes(LONGEST_LIST - 8 * end.len().div_ceil(8)), end].concat();
        let before = bytes.len() - 2;
        let last = bytes.len().div_ceil(8) as u32;
        all.push(Growth {
            start: bytes[..before].to_vec(),
            more: bytes[before..].to_vec(),
            numbers: vec![1, last - 1, last, last + 1],
        });
    }
    all
}
