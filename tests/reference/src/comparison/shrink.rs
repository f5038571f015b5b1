//! Makes a script that shows a difference smaller, by dropping whole items for
//! as long as the difference remains; and the pieces of inputs that are no script.

use std::time::{Duration, Instant};

use super::items::Item;
use crate::run::commands_of;

/// Each try starts a program, which may be slow; a script that is small enough
/// to read is the aim, not the smallest of all.
const MOST_TRIES: usize = 400;
const TIME_LIMIT: Duration = Duration::from_secs(60);

/// A list in pieces, of which a smaller one may lack some.
pub fn commands(list: &[u8]) -> Vec<Item> {
    commands_of(list).iter().map(|part| part.to_vec()).collect()
}

/// A text in pieces, each with its line feed.
pub fn lines(text: &[u8]) -> Vec<Item> {
    let lines = text.split_inclusive(|byte| *byte == b'\n');
    lines.map(|line| line.to_vec()).collect()
}

/// A stored list in pieces, a number to each.
pub fn numbers(stored: &[u8]) -> Vec<Item> {
    let numbers = stored.split_inclusive(|byte| byte & 0x80 == 0);
    numbers.map(|number| number.to_vec()).collect()
}

/// A damaged list in pieces, a byte to each: nobody can tell where its commands begin.
pub fn bytes(list: &[u8]) -> Vec<Item> {
    list.iter().map(|byte| vec![*byte]).collect()
}

/// Counts the tries and asks whether a script still shows the difference.
struct Trial<'a> {
    differs: &'a mut dyn FnMut(&[Item]) -> bool,
    tries: usize,
    started: Instant,
}

impl Trial<'_> {
    fn is_over(&self) -> bool {
        self.tries >= MOST_TRIES || self.started.elapsed() >= TIME_LIMIT
    }

    fn still_differs(&mut self, items: &[Item]) -> bool {
        self.tries += 1;
        !self.is_over() && (self.differs)(items)
    }
}

/// The smallest found of what is made of pieces, with fewer of them, that still differs.
pub fn smallest<T>(
    pieces: &[Item],
    of: impl Fn(&[Item]) -> T,
    differs: &mut dyn FnMut(&T) -> bool,
) -> T {
    let mut still_differs = |fewer: &[Item]| differs(&of(fewer));
    of(&shrunk(pieces, pieces.len(), &mut still_differs))
}

/// The smallest script found. `last` is the item that gave the first differing
/// line: whatever follows it goes first.
pub fn shrunk(items: &[Item], last: usize, differs: &mut dyn FnMut(&[Item]) -> bool) -> Vec<Item> {
    let mut trial = Trial {
        differs,
        tries: 0,
        started: Instant::now(),
    };
    let mut best = items.to_vec();
    let cut = &items[..items.len().min(last + 1)];
    if trial.still_differs(cut) {
        best = cut.to_vec();
    }
    let mut chunk = best.len().div_ceil(2);
    while chunk > 0 && !trial.is_over() {
        let before = best.len();
        best = without_chunks(best, chunk, &mut trial);
        // A dropped item often makes an earlier one needless, so the smallest
        // chunks are tried until none goes any more.
        if chunk > 1 || best.len() == before {
            chunk /= 2;
        }
    }
    best
}

/// Tries to drop each run of so many items, from the front: what came long
/// before the difference is the least likely to matter.
fn without_chunks(mut items: Vec<Item>, chunk: usize, trial: &mut Trial) -> Vec<Item> {
    let mut start = 0;
    while start < items.len() && !trial.is_over() {
        let end = items.len().min(start + chunk);
        let mut fewer = items.clone();
        fewer.drain(start..end);
        if trial.still_differs(&fewer) {
            items = fewer;
        } else {
            start = end;
        }
    }
    items
}
