//! A list that goes to a card and comes back, or comes off a card and goes back there: what
//! is sent of it, whether it comes back as it was, whatever the reference says, and a
//! smaller one of the same sort. The way back is begun with what the program itself made of
//! the list on the way out.

use std::str::Lines;

use super::agreement::Disagreement;
use super::growths::with_same_rest;
use super::items::{from_card, to_card, Item};
use super::shrink::{commands, numbers, smallest};
use crate::codes::ACCEPTED;
use crate::replay::hex;
use crate::run::LONGEST_LIST;

/// Enough for every list of either form.
const ROOM: u16 = 4096;
/// The bytes of an item, but for the list itself.
const ITEM_BYTES: usize = 5;
/// A flush has three bytes on a card and eight off it, and no command grows more.
const MOST_GROWTH: usize = 3;

#[derive(Clone, Copy, Debug, PartialEq, Eq)]
pub enum Form {
    Raw,
    Stored,
}

#[derive(Clone, Debug, PartialEq, Eq)]
pub struct Trip {
    /// In which form the list is at first.
    pub form: Form,
    pub list: Vec<u8>,
}

impl Form {
    fn other(self) -> Form {
        match self {
            Form::Raw => Form::Stored,
            Form::Stored => Form::Raw,
        }
    }

    /// The item that turns a list of this form into the other one.
    fn item(self, list: &[u8]) -> Item {
        match self {
            Form::Raw => to_card(ROOM, list),
            Form::Stored => from_card(ROOM, list),
        }
    }

    fn name(self) -> &'static str {
        match self {
            Form::Raw => "raw",
            Form::Stored => "stored",
        }
    }

    /// The line that hands out this list in this form.
    fn told(self, list: &[u8]) -> String {
        let line = format!("{} 0 0 0 0 0 0 {}", self.name(), hex(list));
        line.trim_end().into()
    }

    /// The list that an answer hands out in this form; none where it is a refusal.
    fn handed_out(self, answer: &str) -> Result<Option<Vec<u8>>, Disagreement> {
        let unreadable = || Disagreement::new(&format!("{} and a list", self.name()), answer);
        if let Some(digits) = answer.strip_prefix(&self.told(&[])) {
            return bytes_in(digits.trim_start())
                .map(Some)
                .ok_or_else(unreadable);
        }
        match answer.split(' ').collect::<Vec<&str>>()[..] {
            [name, code, ..] if name == self.name() && is_refusal(code) => Ok(None),
            _ => Err(unreadable()),
        }
    }

    fn pieces(self, list: &[u8]) -> Vec<Item> {
        match self {
            Form::Raw => commands(list),
            Form::Stored => numbers(list),
        }
    }
}

impl Trip {
    /// The item for the way out.
    pub fn out(&self) -> Item {
        self.form.item(&self.list)
    }

    /// The item for the way back, by the answer to the way out; none where that is a
    /// refusal, or nothing that can be read.
    pub fn back(&self, answer: &str) -> Option<Item> {
        let other = self.form.other();
        let list = other.handed_out(answer).ok()??;
        Some(other.item(&list))
    }

    /// The bytes of the longer of both items, or more.
    pub fn script_bytes(&self) -> usize {
        let length = self.list.len();
        let longest = length.max(LONGEST_LIST);
        ITEM_BYTES + longest.min(MOST_GROWTH * length)
    }

    /// The smallest found that still differs: with fewer commands or numbers.
    pub fn smallest(&self, differs: &mut dyn FnMut(&Trip) -> bool) -> Trip {
        let of = |pieces: &[Item]| Trip {
            form: self.form,
            list: pieces.concat(),
        };
        smallest(&self.form.pieces(&self.list), of, differs)
    }
}

/// The items for the way back of all these, by the answers to their way out.
pub fn backs(trips: &[Trip], answers: &str) -> Vec<Item> {
    // Behind each answer stands a line about the rest of the room.
    let answers = answers.lines().step_by(2);
    let backs = trips.iter().zip(answers);
    backs
        .filter_map(|(trip, answer)| trip.back(answer))
        .collect()
}

/// Takes the answers to a trip off the front of the lines about both ways, and tells how
/// the list does not come back as it was; none where it does, or never went.
pub fn disagreement(trip: &Trip, out: &mut Lines, back: &mut Lines) -> Option<Disagreement> {
    pair(trip, out, back).map_or_else(Some, |pair| pair.filter(|pair| pair.foretold != pair.found))
}

/// What must be the same, where the list was not refused on the way out.
fn pair(
    trip: &Trip,
    out: &mut Lines,
    back: &mut Lines,
) -> Result<Option<Disagreement>, Disagreement> {
    let answer = with_same_rest(out)?;
    if trip.form.other().handed_out(answer)?.is_none() {
        return Ok(None);
    }
    let found = with_same_rest(back)?;
    let foretold = trip.form.told(&trip.list);
    Ok(Some(Disagreement::new(&foretold, found)))
}

fn is_refusal(code: &str) -> bool {
    code.parse().is_ok_and(|code: u8| code != ACCEPTED)
}

pub(super) fn bytes_in(digits: &str) -> Option<Vec<u8>> {
    let places = (0..digits.len()).step_by(2);
    places
        .map(|at| u8::from_str_radix(digits.get(at..at + 2)?, 16).ok())
        .collect()
}
