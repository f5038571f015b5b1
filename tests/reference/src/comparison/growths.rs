//! A list that grows at its end: what is sent of it to both replay programs, whether their
//! own answers agree, whatever the reference says, and a smaller one of the same sort.

use std::str::Lines;

use super::agreement::{Disagreement, REST_SAME};
use super::evenings::placed;
use super::fixed::SCRIPT_AIM;
use super::items::{index, look_up, shown, Item};
use super::shrink::{commands, smallest};
use crate::index::{self, MOST_OFFSETS};
use crate::run::{KIT, PUPIL};

/// Room in which an index leaves some places as they were.
pub(super) const ROOM: u16 = 600;

/// What the sender has whose commands are not asked for: one flush.
const OTHER: [u8; 8] = [0x01, 0x5a, 0x00, 0x02, 0x01, 0x5a, 0x00, 0x02];
/// The bytes of an item that asks for bytes shown, but for the list itself.
const SHOWN_BYTES: usize = 10 + OTHER.len();

/// Where a piece belongs, in the byte before it.
const START: u8 = 0;
const MORE: u8 = 1;
const NUMBER: u8 = 2;

#[derive(Clone, Debug, Default, PartialEq, Eq)]
pub struct Growth {
    /// The list before it grows.
    pub start: Vec<u8>,
    /// What comes behind it.
    pub more: Vec<u8>,
    /// Which commands of the grown list are looked up.
    pub numbers: Vec<u32>,
}

/// The index of a list as the reference builds it; none where that is refused.
pub fn index_of(list: &[u8]) -> Vec<u16> {
    let mut room = vec![0; MOST_OFFSETS];
    let count = index::index(list, &[], &mut room).unwrap_or_default();
    room.truncate(count);
    room
}

/// The same growth as often as scripts need to look up every number, from 0 to one past
/// the last.
pub fn growths(start: &[u8], more: &[u8]) -> Vec<Growth> {
    let list = [start, more].concat();
    let last = index_of(&list).len() as u32;
    let numbers: Vec<u32> = (0..=last + 1).collect();
    let in_a_script = SCRIPT_AIM / (2 * (list.len() + SHOWN_BYTES));
    let parts = numbers.chunks(in_a_script.max(1));
    let growth = |numbers: &[u32]| Growth {
        start: start.to_vec(),
        more: more.to_vec(),
        numbers: numbers.to_vec(),
    };
    parts.map(growth).collect()
}

impl Growth {
    pub fn list(&self) -> Vec<u8> {
        [&self.start[..], &self.more].concat()
    }

    /// For the replay program for lists: the index of the start, that of the grown list
    /// built anew and extended, and the numbers looked up through it.
    pub fn index_items(&self) -> Vec<Item> {
        let (list, earlier) = (self.list(), index_of(&self.start));
        let mut items = vec![
            index(ROOM, &[], &self.start),
            index(ROOM, &[], &list),
            index(ROOM, &earlier, &list),
        ];
        let offsets = index_of(&list);
        let numbers = self.numbers.iter();
        items.extend(numbers.map(|number| look_up(&offsets, &list, *number)));
        items
    }

    /// For the other one: each number of the grown list shown, as the kit's and as the
    /// pupil's.
    pub fn shown_items(&self) -> Vec<Item> {
        let list = self.list();
        let both = self.numbers.iter().flat_map(|number| {
            let kit = shown(&list, &OTHER, KIT, *number);
            [kit, shown(&OTHER, &list, PUPIL, *number)]
        });
        both.collect()
    }

    /// The bytes of the longer of both scripts.
    pub fn script_bytes(&self) -> usize {
        let bytes = |items: Vec<Item>| items.iter().map(Vec::len).sum();
        usize::max(bytes(self.index_items()), bytes(self.shown_items()))
    }

    /// The smallest found that still differs: with fewer commands and numbers.
    pub fn smallest(&self, differs: &mut dyn FnMut(&Growth) -> bool) -> Growth {
        smallest(&self.pieces(), Growth::of_pieces, differs)
    }

    /// All that can be left out by itself, each behind a byte that says where it belongs.
    fn pieces(&self) -> Vec<Item> {
        let numbers = self.numbers.iter();
        let numbers: Vec<Item> = numbers.map(|one| one.to_be_bytes().to_vec()).collect();
        let mut all = placed(START, &commands(&self.start));
        all.extend(placed(MORE, &commands(&self.more)));
        all.extend(placed(NUMBER, &numbers));
        all
    }

    fn of_pieces(pieces: &[Item]) -> Growth {
        let mut growth = Growth::default();
        for piece in pieces {
            match piece[..] {
                [START, ref bytes @ ..] => growth.start.extend(bytes),
                [MORE, ref bytes @ ..] => growth.more.extend(bytes),
                [NUMBER, a, b, c, d] => growth.numbers.push(u32::from_be_bytes([a, b, c, d])),
                _ => {}
            }
        }
        growth
    }
}

/// Takes the answers to a growth off the front of both programs' lines, and tells of the
/// first that disagrees with another one; none where all agree.
pub fn disagreement(
    growth: &Growth,
    lists: &mut Lines,
    replay: &mut Lines,
) -> Option<Disagreement> {
    match pairs(growth, lists, replay) {
        Err(unreadable) => Some(unreadable),
        Ok(pairs) => pairs.into_iter().find(|pair| pair.foretold != pair.found),
    }
}

/// What must be the same, in pairs.
fn pairs(
    growth: &Growth,
    lists: &mut Lines,
    replay: &mut Lines,
) -> Result<Vec<Disagreement>, Disagreement> {
    let (start, anew) = (with_same_rest(lists)?, with_same_rest(lists)?);
    let extended = with_same_rest(lists)?;
    let handed_in = [&growth.start, &growth.list()].map(|list| counted(&index_of(list)));
    let mut pairs = vec![
        // The offsets that the program was handed are those that it finds by itself.
        Disagreement::new(&handed_in[0], without_code(start)),
        Disagreement::new(&handed_in[1], without_code(anew)),
        Disagreement::new(anew, extended),
    ];
    for _ in &growth.numbers {
        let found = next(lists)?;
        for _ in [KIT, PUPIL] {
            let shown = shown_bytes(next(replay)?)?;
            pairs.push(Disagreement::new(&format!("found{shown}"), found));
        }
    }
    Ok(pairs)
}

pub(super) fn next<'a>(lines: &mut Lines<'a>) -> Result<&'a str, Disagreement> {
    let no_line = || Disagreement::new("an answer to every item", "(no line)");
    lines.next().ok_or_else(no_line)
}

/// The first line about what was written into a room, which is as it was behind that.
pub(super) fn with_same_rest<'a>(lines: &mut Lines<'a>) -> Result<&'a str, Disagreement> {
    let (first, rest) = (next(lines)?, next(lines)?);
    match rest {
        REST_SAME => Ok(first),
        _ => Err(Disagreement::new(REST_SAME, rest)),
    }
}

/// How many offsets, and each of them, as an answer has them.
fn counted(offsets: &[u16]) -> String {
    let each = offsets.iter().map(|offset| format!(" {offset}"));
    format!("{}{}", offsets.len(), each.collect::<String>())
}

/// Whatever the code of an answer: where it is a refusal, there are no offsets.
fn without_code(line: &str) -> &str {
    line.splitn(3, ' ').nth(2).unwrap_or_default()
}

/// What follows the word in the line about bytes shown.
fn shown_bytes(line: &str) -> Result<&str, Disagreement> {
    let other_line = || Disagreement::new("shown", line);
    line.strip_prefix("shown").ok_or_else(other_line)
}
