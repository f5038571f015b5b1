//! A list split over several evenings: every plan that joins some of its parts, what is
//! sent of each, when the plans are bound to agree, and a smaller one of the same sort.

use super::fixed_housekeeping::ROOM as FRAME_ROOM;
use super::items::{fresh, housekeeping, now, passed, run, second, status, typed, Item};
use super::shrink::{commands, lines, smallest};
use crate::command::Kind;
use crate::macros::MACROS;
use crate::run::{rests, LONGEST_LIST};

#[derive(Clone, Copy, Debug, PartialEq, Eq)]
pub enum Sort {
    Raw,
    Typed,
}

#[derive(Clone, Debug, PartialEq, Eq)]
pub struct Evenings {
    pub sort: Sort,
    /// The bytes of room that each run gets.
    pub room: u16,
    /// What the bench gets before the first evening.
    pub before: Vec<Item>,
    /// The list of each evening.
    pub parts: Vec<Vec<u8>>,
    /// What the bench gets behind the last evening; the answers to it are to agree.
    pub behind: Vec<Item>,
}

/// Lists that are run one after another, without a second between them.
pub type Plan = Vec<Vec<u8>>;

/// Where a piece belongs, in the byte before it.
const BEFORE: u8 = 0;
const BEHIND: u8 = 1;
const FIRST_PART: u8 = 2;

/// Shows what a bench shows of itself, at once and after seconds.
pub fn look(seconds: u16) -> Vec<Item> {
    vec![
        status(),
        housekeeping(FRAME_ROOM),
        second(),
        passed(seconds),
        status(),
    ]
}

/// Shows what is in the macros, in the open one too where it can be closed.
pub fn rummage(seconds: u16) -> Vec<Item> {
    let mut items = vec![now(Kind::Stop, 0), now(Kind::Close, 0)];
    for number in 0..MACROS as u32 {
        items.extend([now(Kind::Run, number), passed(seconds), status()]);
    }
    items
}

impl Evenings {
    /// Every way to join neighbours, from each part by itself to all of them in one list.
    pub fn plans(&self) -> Vec<Plan> {
        let seams = self.parts.len().saturating_sub(1);
        (0..1 << seams).map(|joined| self.plan(joined)).collect()
    }

    /// Bit k of `joined` says that part k + 1 is joined to the one before it.
    fn plan(&self, joined: usize) -> Plan {
        let mut plan = Plan::new();
        for (index, part) in self.parts.iter().enumerate() {
            match plan.last_mut() {
                Some(last) if joined >> (index - 1) & 1 == 1 => last.extend(part),
                _ => plan.push(part.clone()),
            }
        }
        plan
    }

    /// All plans one after another.
    pub fn items(&self) -> Vec<Item> {
        let plans = self.plans();
        plans.iter().flat_map(|plan| self.episode(plan)).collect()
    }

    /// The bytes of all plans.
    pub fn script_bytes(&self) -> usize {
        self.items().iter().map(Vec::len).sum()
    }

    /// A plan on a fresh bench.
    pub fn episode(&self, plan: &Plan) -> Vec<Item> {
        let mut items = vec![fresh()];
        items.extend(self.before.clone());
        items.extend(plan.iter().map(|list| self.evening(list)));
        items.extend(self.behind.clone());
        items
    }

    /// The kit's list is empty on every evening.
    fn evening(&self, list: &[u8]) -> Item {
        match self.sort {
            Sort::Raw => run(self.room, &[], list),
            Sort::Typed => typed(self.room, &[], list),
        }
    }

    /// Whether the plans are bound to agree: only the last part may end within a command
    /// or a line, and raw lists are together no longer than one may be.
    pub fn must_agree(&self) -> bool {
        let Some((_, first)) = self.parts.split_last() else {
            return true;
        };
        match self.sort {
            Sort::Raw => first.iter().all(|list| rests(list)) && self.bytes() <= LONGEST_LIST,
            Sort::Typed => first.iter().all(|text| ends_between_lines(text)),
        }
    }

    pub fn bytes(&self) -> usize {
        self.parts.iter().map(Vec::len).sum()
    }

    /// The smallest found that still differs: with less before and behind, and with fewer
    /// commands or lines in its parts.
    pub fn smallest(&self, differs: &mut dyn FnMut(&Evenings) -> bool) -> Evenings {
        smallest(&self.pieces(), |fewer| self.of_pieces(fewer), differs)
    }

    /// All that can be left out by itself, each behind a byte that says where it belongs.
    fn pieces(&self) -> Vec<Item> {
        let mut all = placed(BEFORE, &self.before);
        for (place, part) in (FIRST_PART..).zip(&self.parts) {
            let pieces = match self.sort {
                Sort::Raw => commands(part),
                Sort::Typed => lines(part),
            };
            all.extend(placed(place, &pieces));
        }
        all.extend(placed(BEHIND, &self.behind));
        all
    }

    fn of_pieces(&self, pieces: &[Item]) -> Evenings {
        let mut evenings = Evenings {
            sort: self.sort,
            room: self.room,
            before: Vec::new(),
            parts: vec![Vec::new(); self.parts.len()],
            behind: Vec::new(),
        };
        for piece in pieces {
            let bytes = &piece[1..];
            match piece[0] {
                BEFORE => evenings.before.push(bytes.to_vec()),
                BEHIND => evenings.behind.push(bytes.to_vec()),
                part => evenings.parts[usize::from(part - FIRST_PART)].extend(bytes),
            }
        }
        evenings
    }
}

pub(super) fn placed(place: u8, pieces: &[Item]) -> Vec<Item> {
    let with_place = pieces.iter().map(|piece| [&[place], &piece[..]].concat());
    with_place.collect()
}

fn ends_between_lines(text: &[u8]) -> bool {
    text.is_empty() || text.ends_with(b"\n")
}
