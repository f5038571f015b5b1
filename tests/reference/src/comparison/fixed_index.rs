//! Fixed items about the index of a list, on both sides of every border: of the list, of the
//! offsets handed in, of the room, and of the index itself; and the scripts that end badly.

use super::fixed::batches;
use super::fixed_housekeeping::list;
use super::fixed_lookups;
use super::fixed_wire::flush;
use super::growths::{index_of, ROOM};
use super::items::{index, look_up, Item};
use crate::lists_replay::MOST_SENT;
use crate::replay::LONGEST_SCRIPT;
use crate::run::LONGEST_LIST;

/// The bytes of a flush, the shortest command.
pub(super) const FLUSH_BYTES: u16 = 8;
/// As many of them as the longest list holds.
const MOST: u16 = 512;

/// Lists in the letters of `list`, ended by nothing, by each code, and by each behind others.
pub(super) const LISTS: [&str; 10] = ["", ".", "8.", "..49.", "1", "2", "3", ".8.1", "8..2", "9.3"];

/// Rooms that are none, small, about the most that an index takes, and about the most
/// that there are.
const ROOMS: [u16; 12] = [0, 1, 2, 3, 510, 511, 512, 513, 599, 600, 601, 65_535];

/// All fixed scripts about the index of a list, but for those of growing lists.
pub fn scripts() -> Vec<Vec<Item>> {
    let mut items = lengths();
    items.extend(numbers_of_offsets());
    items.extend(indexes_about_512());
    items.extend(other_starts());
    items.extend(neighbours());
    items.extend(outside());
    items.extend(empty_list());
    items.extend(huge_lists());
    items.extend(rooms());
    items.extend(foreign());
    items.extend(orders());
    items.extend(fixed_lookups::items());
    let mut scripts = batches(items, Vec::len);
    scripts.push(Vec::new());
    scripts.extend(bad_scripts());
    scripts.push(just_long_enough());
    scripts.push(too_long());
    scripts
}

/// As many flushes as it takes, cut to this length.
pub(super) fn flushes(length: usize) -> Vec<u8> {
    let mut list = flush().repeat(length / usize::from(FLUSH_BYTES) + 1);
    list.truncate(length);
    list
}

/// So many offsets, each a flush behind the one before.
pub(super) fn apart(count: u16) -> Vec<u16> {
    (0..count).map(|place| FLUSH_BYTES * place).collect()
}

/// So many offsets without a gap.
pub(super) fn dense(count: u16) -> Vec<u16> {
    (0..count).collect()
}

/// Lists of every length where something changes, of flushes, zeros and ones; anew and
/// from the first offset.
fn lengths() -> Vec<Item> {
    let lengths = (0..=17).chain([4088, 4089, 4095, 4096, 4097, 4104]);
    let mut items = Vec::new();
    for length in lengths {
        for list in [flushes(length), vec![0; length], vec![0xff; length]] {
            items.extend([index(ROOM, &[], &list), index(ROOM, &[0], &list)]);
        }
    }
    items
}

/// From none to as many as can be sent, rising by one and by a flush, and one too many of
/// each.
fn numbers_of_offsets() -> Vec<Item> {
    let full = flushes(LONGEST_LIST);
    let mut items = Vec::new();
    for count in [0, 1, 2, 255, 256, 257, 510, 511, 512, 513, 514, 599, 600] {
        for offsets in [dense(count), apart(count)] {
            items.extend([0, MOST - 1, MOST, ROOM].map(|room| index(room, &offsets, &full)));
        }
    }
    items
}

/// Offsets that were not built for the list and lead into more commands behind their last:
/// together one fewer than 512, just these, one more and many more.
fn indexes_about_512() -> Vec<Item> {
    let mut items = Vec::new();
    for kept in [MOST - 3, MOST - 2, MOST - 1, MOST] {
        for behind in 1..=5 {
            let zeros = vec![0; usize::from(kept) - 1];
            let list = [zeros, flush().repeat(behind)].concat();
            let rooms = [MOST - 1, MOST, MOST + 1, ROOM];
            items.extend(rooms.map(|room| index(room, &dense(kept), &list)));
        }
        items.push(index(ROOM, &dense(kept), &flushes(LONGEST_LIST)));
    }
    let (last, full) = (dense(MOST), flushes(LONGEST_LIST));
    let led_on = [&vec![0; usize::from(MOST) - 1], &full[..800]].concat();
    items.extend([index(ROOM, &last, &led_on), index(0, &last, &led_on)]);
    items
}

/// Offsets that do not start at 0, alone and with others behind them.
fn other_starts() -> Vec<Item> {
    let four = flushes(32);
    let starts: [&[u16]; 9] = [
        &[0],
        &[1],
        &[8],
        &[31],
        &[1, 8],
        &[1, 8, 16],
        &[8, 16, 24],
        &[256],
        &[65_535],
    ];
    starts.map(|offsets| index(ROOM, offsets, &four)).to_vec()
}

/// Two neighbours that are equal, that fall, or that rise by one, in every place of a few
/// offsets and in some places of as many as there may be.
fn neighbours() -> Vec<Item> {
    let mut items = Vec::new();
    for (count, places) in [(4, vec![1, 2, 3]), (MOST, vec![1, 2, 255, 256, 510, 511])] {
        let list = flushes(usize::from(FLUSH_BYTES * count));
        for place in places {
            let before = apart(count)[place - 1];
            for other in [0, before.saturating_sub(1), before, before + 1] {
                let mut offsets = apart(count);
                offsets[place] = other;
                items.push(index(ROOM, &offsets, &list));
                offsets.truncate(place + 1);
                items.push(index(ROOM, &offsets, &list));
            }
        }
    }
    let four = flushes(32);
    let falling: [&[u16]; 5] = [
        &[0, 0],
        &[8, 0],
        &[0, 24, 8, 16],
        &[24, 16, 8, 0],
        &[0, 8, 8],
    ];
    items.extend(falling.map(|offsets| index(ROOM, offsets, &four)));
    items
}

/// A last offset one below the list's length, at it, and past it; and one in the midst of
/// others that lies outside.
fn outside() -> Vec<Item> {
    let mut items = Vec::new();
    for length in [1, 2, 7, 8, 9, 16, 255, 256, 257, 4095, 4096] {
        let list = flushes(length.into());
        for last in [length - 1, length, length + 1, 4096, 0x8000, 65_535] {
            items.extend([index(ROOM, &[0, last], &list), index(ROOM, &[last], &list)]);
            items.push(index(ROOM, &[0, last, last.saturating_add(1)], &list));
        }
    }
    items
}

/// Any offset lies outside an empty list.
fn empty_list() -> Vec<Item> {
    let offsets: [&[u16]; 6] = [&[], &[0], &[1], &[0, 8], &[65_535], &[0; 600]];
    let mut items = Vec::new();
    for room in ROOMS {
        items.extend(offsets.map(|offsets| index(room, offsets, &[])));
    }
    items
}

/// Lists far longer than they may be, some with a length that has the sixteenth bit.
fn huge_lists() -> Vec<Item> {
    let lists = [8192, 16_384, 32_768, 40_000, 58_000].map(flushes);
    let both = |list: &Vec<u8>| [index(ROOM, &[0, 8], list), look_up(&[0, 8], list, 2)];
    lists.iter().flat_map(both).collect()
}

/// Every list with rooms of every size and with just enough, one more and one fewer, anew
/// and from every part of its index.
fn rooms() -> Vec<Item> {
    let mut lists: Vec<Vec<u8>> = LISTS.map(list).to_vec();
    lists.extend([4088, 4096].map(flushes));
    let mut items = Vec::new();
    for list in lists {
        let offsets = index_of(&list);
        let count = offsets.len() as u16;
        let near = [count.saturating_sub(1), count, count + 1];
        for room in ROOMS.into_iter().chain(near) {
            for kept in [0, 1, offsets.len() / 2, offsets.len()] {
                let earlier = &offsets[..offsets.len().min(kept)];
                items.push(index(room, earlier, &list));
            }
        }
    }
    items
}

/// Offsets of another list, which nobody can tell from the list's own: each list's for each
/// that is long enough, every two offsets, and rising ones within commands.
fn foreign() -> Vec<Item> {
    let mut items = Vec::new();
    for own in LISTS.map(list) {
        for other in LISTS.map(list) {
            items.push(index(ROOM, &index_of(&other), &own));
        }
    }
    let mixed = list("8.9.1");
    for last in 1..=mixed.len() as u16 {
        items.extend([
            index(ROOM, &[0, last], &mixed),
            index(ROOM, &[0, 1, last], &mixed),
        ]);
    }
    for offsets in [dense(9), vec![0, 4, 8, 12, 16], vec![0, 3, 8, 20, 21]] {
        items.push(index(ROOM, &offsets, &mixed));
        items.push(index(offsets.len() as u16, &offsets, &mixed));
    }
    items
}

/// Codes 20, 54 and 24 by themselves, each two of them at once, and all three; with each
/// cause of 54.
fn orders() -> Vec<Item> {
    let offsets = [
        apart(2),
        vec![1, 8],
        vec![0, 8, 8],
        vec![0, 8, 4097],
        dense(513),
        Vec::new(),
    ];
    let mut items = Vec::new();
    for length in [LONGEST_LIST, LONGEST_LIST + 1] {
        for offsets in &offsets {
            for room in [0, MOST - 1, MOST] {
                items.push(index(room, offsets, &flushes(length)));
            }
        }
    }
    items
}

/// Items cut off at every byte, too many offsets, and first bytes that start no item, each
/// behind an item that is answered and before another one.
fn bad_scripts() -> Vec<Vec<Item>> {
    let good = index(4, &[0, 8], &list(".1"));
    let mut ends = Vec::new();
    for item in [good.clone(), look_up(&[0, 8], &list(".1"), 2)] {
        ends.extend((1..item.len()).map(|length| vec![item[..length].to_vec()]));
    }
    let too_many = vec![0; MOST_SENT + 1];
    for item in [index(4, &too_many, &[]), look_up(&too_many, &[], 1)] {
        ends.push(vec![item, good.clone()]);
    }
    let firsts = [0x05, 0x06, 0x13, 0x80, 0x81, 0x82, 0x83, 0x84, 0xff];
    for first in firsts {
        ends.push(vec![vec![first], good.clone()]);
        ends.push(vec![vec![first, 0, 0, 0, 0], good.clone()]);
        ends.push(vec![[&[first], &good[1..]].concat()]);
    }
    let behind_good = ends
        .into_iter()
        .map(|end| [vec![good.clone()], end].concat());
    behind_good.collect()
}

/// A script of exactly the longest length.
fn just_long_enough() -> Vec<Item> {
    let wide = look_up(&[0], &flushes(4000), 1);
    let mut items = vec![wide.clone(); LONGEST_SCRIPT / wide.len()];
    let left = LONGEST_SCRIPT % wide.len();
    let empty = index(ROOM, &[], &[]).len();
    items.push(index(ROOM, &[], &flushes(left - empty)));
    items
}

fn too_long() -> Vec<Item> {
    let mut items = just_long_enough();
    items.push(vec![0x03]);
    items
}
