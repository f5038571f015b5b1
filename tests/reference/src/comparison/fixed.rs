//! The fixed scripts, for what chance misses: the list of all their episodes,
//! how these are packed into scripts, and the scripts that end badly.

use super::items::{fresh, read, status, Item};
use super::{
    fixed_bench, fixed_dark, fixed_groups, fixed_housekeeping, fixed_lines, fixed_pool,
    fixed_range, fixed_range_lines, fixed_tags, fixed_text, fixed_wire,
};
use crate::replay::LONGEST_SCRIPT;

/// Scripts are filled up to here; the rest is slack for one more item.
pub const SCRIPT_AIM: usize = 60_000;

/// All fixed scripts, each a list of items.
pub fn scripts() -> Vec<Vec<Item>> {
    let mut episodes = fixed_bench::episodes();
    episodes.extend(fixed_pool::episodes());
    episodes.extend(fixed_groups::episodes());
    episodes.extend(fixed_dark::episodes());
    episodes.extend(fixed_range::episodes());
    episodes.extend(fixed_range_lines::episodes());
    episodes.extend(fixed_wire::episodes());
    episodes.extend(fixed_lines::episodes());
    episodes.extend(fixed_text::episodes());
    episodes.extend(fixed_housekeeping::episodes());
    episodes.extend(fixed_tags::episodes());
    let mut scripts = packed(episodes);
    scripts.push(Vec::new());
    scripts.extend(bad_scripts());
    scripts.extend(
        about_the_longest(read(0, &[0; 255]), status())
            .into_iter()
            .take(2),
    );
    scripts
}

/// Each episode on a fresh bench.
fn packed(mut episodes: Vec<Vec<Item>>) -> Vec<Vec<Item>> {
    for episode in &mut episodes {
        episode.insert(0, fresh());
    }
    let batches = batches(episodes, |episode| episode.iter().map(Vec::len).sum());
    batches.into_iter().map(|batch| batch.concat()).collect()
}

/// Starting a program is slow, so as many share a script as it has bytes for.
pub fn batches<T>(all: Vec<T>, bytes: impl Fn(&T) -> usize) -> Vec<Vec<T>> {
    let mut batches = vec![Vec::new()];
    let mut filled = 0;
    for one in all {
        let more = bytes(&one);
        if filled + more > SCRIPT_AIM {
            batches.push(Vec::new());
            filled = 0;
        }
        filled += more;
        if let Some(batch) = batches.last_mut() {
            batch.push(one);
        }
    }
    batches
}

/// Items cut off at every sort of place, and first bytes that start no item.
fn bad_scripts() -> Vec<Vec<Item>> {
    let ends: [&[u8]; 22] = [
        &[0x01],
        &[0x01, 5, 1, 0x5a, 0, 2],
        &[0x03, 0x30, 0x00, 0, 0],
        &[0x03, 0x30, 0x00, 0, 0, 0, 1],
        &[0x05, 0, 0, 0, 0, 1, 0, 0, 0],
        &[0x06, 32],
        &[0x06, 32, 32, 0, 0],
        &[0x07, 16, 8, 1, 0x5a, 0, 2, 1, 0x5a, 0],
        &[0x08, 1],
        &[0x09, 0, 7, 0, 0, 0, 0, 0, 0, 0],
        &[0x0a],
        &[0x0a, 0, 9, 0, 2, b'#'],
        &[0x0b, 0, 9, 0],
        &[0x0b, 0, 9, 0, 8, 1, 0x5a, 0, 2, 1, 0x5a, 0],
        &[0x0c, 0x30, 0x00, 0, 0, 0, 1],
        &[0x0d, 0, 1, b'#', 0, 0, 0],
        &[0x0d, 0, 2, b'#'],
        &[0x0e],
        &[0x0f, 18],
        &[0x0f, 18, 6, 0x12, 4, 0, 0, 0],
        &[0x10],
        &[0xff],
    ];
    ends.iter()
        .map(|end| vec![status(), end.to_vec()])
        .collect()
}

/// A script of exactly the longest length, of one item again and again and another, of a byte,
/// behind it; one with a byte more; and one that is twice as long.
pub(super) fn about_the_longest(wide: Item, narrow: Item) -> [Vec<Item>; 3] {
    let mut items = vec![wide.clone(); LONGEST_SCRIPT / wide.len()];
    items.resize(items.len() + LONGEST_SCRIPT % wide.len(), narrow.clone());
    let one_more = [&items[..], &[narrow]].concat();
    let twice = [&items[..], &items].concat();
    [items, one_more, twice]
}
