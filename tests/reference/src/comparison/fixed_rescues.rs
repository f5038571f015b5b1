//! Fixed items about the rescue of damaged lists: the lists of `fixed_damaged`, rooms that
//! just suffice and do not, either of both, scripts that end badly; whole inputs; and lists
//! of which all that is told of a rescue is held together.

use super::cards::raw_of;
use super::fixed::batches;
use super::fixed_cards::{allowed_lists, bad, each_command};
use super::fixed_damaged::{astray, lists, stretches_of_one, whole, MOST_STRETCHES};
use super::fixed_index::flushes;
use super::fixed_wire::flush;
use super::items::{index, rescue, Item};
use super::salvages::{Salvage, BESIDE, ROOM};
use crate::rescue::{rescued, STRETCH_BYTES};
use crate::run::LONGEST_LIST;

/// Rooms that are none, small, about the most bytes that are kept or that stretches take, and
/// about the most that there are.
const ROOMS: [u16; 12] = [
    0, 1, 4, 1823, 1824, 4095, 4096, 4097, 12_999, 13_000, 13_001, 65_535,
];

/// All fixed scripts about rescues, but for those of salvages.
pub fn scripts() -> Vec<Vec<Item>> {
    let lists = lists();
    let mut items: Vec<Item> = lists.iter().map(|it| rescue(ROOM, BESIDE, it)).collect();
    let allowed = allowed_lists();
    items.extend(allowed.iter().map(|it| rescue(ROOM, 0, &raw_of(it))));
    items.extend(rooms());
    items.extend(rooms_of_long_lists());
    let mut scripts = batches(items, Vec::len);
    scripts.extend(bad_scripts());
    scripts
}

/// Lists of which nothing is kept, nothing is skipped, neither, and of which both are.
fn lists_for_rooms() -> Vec<Vec<u8>> {
    vec![
        Vec::new(),
        flush(),
        vec![0],
        whole().concat(),
        [&flush()[..], &[0; 3]].concat(),
        [&[0; 3][..], &flush()].concat(),
        [&flush()[..], &[0xff], &flush()].concat(),
        [bad(4), flush(), bad(8), bad(9), bad(10), bad(1)].concat(),
    ]
}

/// Both rooms just enough, one more, one less, half and none, each with each; and each of
/// every size with enough beside it.
fn rooms() -> Vec<Item> {
    let mut items = Vec::new();
    for list in lists_for_rooms() {
        let [kept, told] = needed(&list);
        for room in about(kept) {
            items.extend(about(told).map(|beside| rescue(room, beside, &list)));
        }
        items.extend(ROOMS.map(|room| rescue(room, told, &list)));
        items.extend(ROOMS.map(|beside| rescue(kept, beside, &list)));
        items.extend([LONGEST_LIST as u16, u16::MAX].map(|both| rescue(both, both, &list)));
    }
    items
}

/// How many bytes both rooms need; none where the list is refused.
fn needed(list: &[u8]) -> [u16; 2] {
    rescued(list).map_or([0; 2], |rescued| {
        let told = STRETCH_BYTES * rescued.stretches.len();
        [rescued.kept.len() as u16, told as u16]
    })
}

fn about(needed: u16) -> [u16; 5] {
    let less = needed.saturating_sub(1);
    [needed, needed + 1, less, needed / 2, 0]
}

/// The lists that need the most room, with one byte less in either, in both, and in neither;
/// and lists that are too long, whatever rooms they have.
fn rooms_of_long_lists() -> Vec<Item> {
    let mut items = Vec::new();
    for list in [
        flushes(4096),
        stretches_of_one(MOST_STRETCHES),
        vec![0; 4096],
    ] {
        let [kept, told] = needed(&list);
        let less = [kept, told].map(|needed| needed.saturating_sub(1));
        items.push(rescue(kept, told, &list));
        items.push(rescue(less[0], told, &list));
        items.push(rescue(kept, less[1], &list));
        items.push(rescue(less[0], less[1], &list));
    }
    for list in [flushes(4097), vec![0; 4097], flushes(9000)] {
        items.extend([[0, 0], [0, ROOM], [ROOM, 0]].map(|[a, b]| rescue(a, b, &list)));
    }
    items
}

/// The item cut off at every byte, behind an item that is answered.
fn bad_scripts() -> Vec<Vec<Item>> {
    let good = index(4, &[0, 8], &flushes(16));
    let item = rescue(20, 8, &[flush(), vec![0; 2]].concat());
    let lengths = 1..item.len();
    lengths
        .map(|length| vec![good.clone(), item[..length].to_vec()])
        .collect()
}

/// Whole lists for the program that rescues one.
pub fn inputs() -> Vec<Vec<u8>> {
    let mut lists = vec![Vec::new(), whole().concat(), raw_of(&each_command())];
    lists.extend((1..8).map(flushes));
    lists.extend((1..=10).map(|code| [bad(code), flush()].concat()));
    lists.extend((1..=10).map(|code| [flush(), bad(code), flush(), bad(code)].concat()));
    lists.extend([vec![0; 9], vec![0; LONGEST_LIST], vec![0; LONGEST_LIST + 1]]);
    lists.extend([1, 2, 256, MOST_STRETCHES].map(stretches_of_one));
    lists.extend([4095, 4096, 4097, 4104, 9000].map(flushes));
    lists
}

/// Lists that are damaged somewhere, lists that are not, and lists that are too long.
pub fn salvages() -> Vec<Salvage> {
    let mut lists = astray();
    lists.extend(allowed_lists().iter().map(|commands| raw_of(commands)));
    lists.push(stretches_of_one(MOST_STRETCHES));
    lists.extend((1..=10).map(|code| [flush(), bad(code), flush()].concat()));
    lists.extend([0, 1, 7, 4095, 4096, 4097].map(flushes));
    lists.into_iter().map(|list| Salvage { list }).collect()
}
