//! Fixed episodes about frames of tagged items that are read: of every length, with each
//! tag and length broken alone and two at once, cut at every place, with items in another
//! order or of another length, and with any values.

use super::fixed_housekeeping::ROOM;
use super::items::{tags, Item};

/// By hand, so that a mistake of the writer does not change what is sent. No two bytes
/// of the numbers are the same.
pub(super) const GOOD: [u8; 18] = [
    0x12, 4, 0x01, 0x23, 0x45, 0x67, 0x13, 4, 0x89, 0xab, 0xcd, 0xef, 0x14, 1, 0x1a, 0x15, 1, 0xc0,
];
/// Where the tags and the lengths stand.
const HEADINGS: [usize; 8] = [0, 1, 6, 7, 12, 13, 15, 16];
/// Where the bytes of the two long numbers stand.
const LONG_VALUES: [usize; 8] = [2, 3, 4, 5, 8, 9, 10, 11];
/// Where the values of one byte stand.
const SHORT_VALUES: [usize; 2] = [14, 17];
/// Where each item starts, and the end of the last.
pub(super) const STARTS: [usize; 5] = [0, 6, 12, 15, 18];
pub(super) const ITEMS: usize = 4;

/// Past the whole frame by one, so that bytes left over meet every fault.
const LENGTHS: std::ops::RangeInclusive<usize> = 0..=19;

pub fn episodes() -> Vec<Vec<Item>> {
    vec![
        sizes(),
        rooms(),
        every_byte(&HEADINGS),
        every_byte(&SHORT_VALUES),
        edges(),
        one_broken(),
        two_broken(),
        all_broken(),
        any_four_items(),
        other_lengths(),
        other_tags(),
    ]
}

fn ask(bytes: &[u8]) -> Item {
    tags(ROOM, bytes)
}

/// The frame with more behind it, cut to this length.
fn cut(bytes: &[u8], length: usize) -> Item {
    let longer = [bytes, &GOOD].concat();
    ask(&longer[..length])
}

/// From none to all that an item can carry: the frame again and again, and zeros.
fn sizes() -> Vec<Item> {
    let again = GOOD.repeat(15);
    let lengths = (0..=60).chain([90, 254, 255]);
    let both = lengths.flat_map(|length| [ask(&again[..length]), ask(&vec![0; length])]);
    both.collect()
}

fn rooms() -> Vec<Item> {
    let mut items = Vec::new();
    for room in (0..=40).chain([254, 255]) {
        items.extend([tags(room, &GOOD), tags(room, &GOOD[1..])]);
        items.push(tags(room, &[&GOOD[..], &[0]].concat()));
    }
    items
}

/// Every value of each of these bytes.
fn every_byte(places: &[usize]) -> Vec<Item> {
    let mut items = Vec::new();
    for place in places {
        for value in 0..=255 {
            let mut bytes = GOOD;
            bytes[*place] = value;
            items.push(ask(&bytes));
        }
    }
    items
}

/// Numbers at their ends and where a byte begins, and code and free at theirs: no value
/// is refused, alone or with others.
fn edges() -> Vec<Item> {
    let mut items = Vec::new();
    for place in LONG_VALUES {
        for value in [0, 1, 0x7f, 0x80, 0xff] {
            let mut bytes = GOOD;
            bytes[place] = value;
            items.push(ask(&bytes));
        }
    }
    let numbers = [0, 1, 255, 256, 512, 0x0001_0000, 0x8000_0000, u32::MAX];
    for received in numbers {
        for failed in numbers {
            for (code, free) in [(0, 192), (27, 0), (50, 193), (255, 255)] {
                items.push(ask(&frame(received, failed, code, free)));
            }
        }
    }
    items
}

fn frame(received: u32, failed: u32, code: u8, free: u8) -> [u8; 18] {
    let mut bytes = GOOD;
    bytes[2..6].copy_from_slice(&received.to_be_bytes());
    bytes[8..12].copy_from_slice(&failed.to_be_bytes());
    bytes[14] = code;
    bytes[17] = free;
    bytes
}

/// The frame with these bytes changed by so much.
fn broken(places: &[usize], by: u8) -> [u8; 18] {
    let mut bytes = GOOD;
    for place in places {
        bytes[*place] = bytes[*place].wrapping_add(by);
    }
    bytes
}

/// Each tag and each length one more, one less and far off, cut at every place.
fn one_broken() -> Vec<Item> {
    let mut items = Vec::new();
    for place in HEADINGS {
        for by in [1, 255, 100] {
            items.extend(LENGTHS.map(|length| cut(&broken(&[place], by), length)));
        }
    }
    items
}

/// Each two of them, cut at every place.
fn two_broken() -> Vec<Item> {
    let mut items = Vec::new();
    for (index, first) in HEADINGS.iter().enumerate() {
        for second in &HEADINGS[..index] {
            for by in [1, 255] {
                let bytes = broken(&[*first, *second], by);
                items.extend(LENGTHS.map(|length| cut(&bytes, length)));
            }
        }
    }
    items
}

fn all_broken() -> Vec<Item> {
    LENGTHS
        .map(|length| cut(&broken(&HEADINGS, 1), length))
        .collect()
}

/// Any item in each of the four places, so in every order; whole, one byte short, and
/// with one byte more.
fn any_four_items() -> Vec<Item> {
    let mut items = Vec::new();
    for choice in 0..ITEMS.pow(4) {
        let chosen = (0..4).map(|place| choice / ITEMS.pow(place) % ITEMS);
        let parts = chosen.map(|item| &GOOD[STARTS[item]..STARTS[item + 1]]);
        let bytes = parts.collect::<Vec<_>>().concat();
        items.extend([ask(&bytes), ask(&bytes[..bytes.len() - 1])]);
        items.push(ask(&[&bytes[..], &[0]].concat()));
    }
    items
}

/// Each item with another length and as many bytes as that says, alone and with the next
/// one; and with the four lengths exchanged.
fn other_lengths() -> Vec<Item> {
    let mut items = Vec::new();
    for item in 0..ITEMS {
        for length in 0..=9 {
            let mut lengths = [4, 4, 1, 1];
            lengths[item] = length;
            items.push(ask(&of_lengths(lengths)));
            lengths[(item + 1) % ITEMS] = 9 - length;
            items.push(ask(&of_lengths(lengths)));
        }
    }
    items.extend([[1, 1, 4, 4], [4, 1, 4, 1], [1, 4, 1, 4]].map(|it| ask(&of_lengths(it))));
    items
}

fn of_lengths(lengths: [u8; ITEMS]) -> Vec<u8> {
    let mut bytes = Vec::new();
    for (start, length) in STARTS.iter().zip(lengths) {
        bytes.extend([GOOD[*start], length]);
        bytes.extend((1..=length).map(|byte| 0x30 + byte));
    }
    bytes
}

/// All tags moved up or down together, and tags and lengths exchanged.
fn other_tags() -> Vec<Item> {
    let places: Vec<usize> = HEADINGS.iter().step_by(2).copied().collect();
    let mut items: Vec<Item> = [1, 2, 255, 254].map(|by| ask(&broken(&places, by))).into();
    let mut exchanged = GOOD;
    places
        .iter()
        .for_each(|place| exchanged.swap(*place, place + 1));
    items.push(ask(&exchanged));
    items
}
