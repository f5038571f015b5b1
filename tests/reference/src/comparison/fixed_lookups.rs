//! Fixed items about commands looked up through offsets: numbers at every end, offsets at
//! every place of a list and past it, and offsets of every sort, none of which is judged.

use super::fixed_housekeeping::list;
use super::fixed_index::{apart, dense, flushes, LISTS};
use super::growths::index_of;
use super::items::{look_up, Item};

/// A command of each length, one that is damaged, and an end.
const MIXED: &str = "8.49.8";

/// Numbers that no list has, among them some that look like one of a list when they are cut.
const FAR: [u32; 11] = [
    255,
    256,
    257,
    513,
    65_535,
    65_536,
    65_537,
    0x0100_0001,
    0x8000_0001,
    u32::MAX - 1,
    u32::MAX,
];

pub fn items() -> Vec<Item> {
    let mut items = every_number();
    items.extend(lengths());
    items.extend(every_place());
    items.extend(ends_of_a_list());
    items.extend(not_judged());
    items.extend(many_offsets());
    items.extend(of_another_list());
    items
}

/// All numbers of each list, of a command cut off at every byte, and numbers far from them.
fn every_number() -> Vec<Item> {
    let mut lists: Vec<Vec<u8>> = LISTS.map(list).to_vec();
    let mixed = list(MIXED);
    lists.extend((1..mixed.len()).map(|length| mixed[..length].to_vec()));
    let mut items = Vec::new();
    for list in lists {
        let offsets = index_of(&list);
        let near = 0..=offsets.len() as u32 + 2;
        items.extend(
            near.chain(FAR)
                .map(|number| look_up(&offsets, &list, number)),
        );
    }
    items
}

/// Lists of every length where something changes; the last is looked up, the first, and
/// one past the last.
fn lengths() -> Vec<Item> {
    let lengths = (0..=17usize).chain([4088, 4089, 4095, 4096, 4097, 4104]);
    let mut items = Vec::new();
    for length in lengths {
        let offsets = apart(length.div_ceil(8) as u16);
        let last = offsets.len() as u32;
        for number in [0, 1, last, last + 1, u32::MAX] {
            items.push(look_up(&offsets, &flushes(length), number));
        }
    }
    items
}

/// One offset at every place, most of them within a command, and two past the list.
fn every_place() -> Vec<Item> {
    let mut items = Vec::new();
    for list in [
        list(MIXED),
        list("..2"),
        list("8.3"),
        list("91"),
        vec![0xff; 20],
    ] {
        for place in 0..list.len() as u16 + 2 {
            items.extend([look_up(&[place], &list, 1), look_up(&[0, place], &list, 2)]);
        }
    }
    items
}

/// Offsets one below the length, at it, and past it.
fn ends_of_a_list() -> Vec<Item> {
    let mut items = Vec::new();
    for length in [0u16, 1, 7, 8, 9, 255, 256, 4095, 4096, 4097] {
        let list = flushes(length.into());
        for place in [length.saturating_sub(1), length, length + 1, 0x8000, 65_535] {
            items.extend([1, 2, 3].map(|number| look_up(&[0, place, 0], &list, number)));
        }
    }
    items
}

/// Offsets that an index never has: only the one that is asked for counts.
fn not_judged() -> Vec<Item> {
    let list = list(MIXED);
    let sorts: [&[u16]; 7] = [
        &[1],
        &[8, 0],
        &[0, 0, 0],
        &[0, 12, 12, 20],
        &[36, 28, 20, 12, 0],
        &[65_535, 12, 4096, 20],
        &[],
    ];
    let mut items = Vec::new();
    for offsets in sorts {
        let numbers = 0..=offsets.len() as u32 + 1;
        items.extend(numbers.map(|number| look_up(offsets, &list, number)));
    }
    items
}

/// More offsets than an index has, and as many as can be sent.
fn many_offsets() -> Vec<Item> {
    let full = flushes(4096);
    let mut items = Vec::new();
    for count in [511, 512, 513, 599, 600] {
        for number in [1, 2, 511, 512, 513, 514, 599, 600, 601, 65_537] {
            items.push(look_up(&dense(count), &full[..800], number));
        }
    }
    for number in [1, 257, 511, 512, 513] {
        items.push(look_up(&apart(512), &full, number));
    }
    items
}

/// The index of each list for each: of the same one when it was shorter or longer, or of
/// another.
fn of_another_list() -> Vec<Item> {
    let mixed = list(MIXED);
    let parts = [0, 5, 12, 20, 24, 40, mixed.len()].map(|length| mixed[..length].to_vec());
    let mut items = Vec::new();
    for own in &parts {
        for other in LISTS.map(list).iter().chain(&parts) {
            let offsets = index_of(other);
            let numbers = 1..=offsets.len() as u32;
            items.extend(numbers.map(|number| look_up(&offsets, own, number)));
        }
    }
    items
}
