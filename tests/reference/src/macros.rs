//! The macro store: which macro is open, which are closed, their entries, how
//! many more they may have together, and the seconds of each written out.

use crate::command::{Command, Kind};
use crate::outline::Outline;

pub const MACROS: usize = 8;
/// What the macros share; none of them has a limit of its own.
pub const SHARED_ENTRIES: usize = 192;
/// In seconds.
pub const LONGEST_MACRO: usize = 600;
/// The most entries that a second may hand over.
pub const FULLEST_SECOND: usize = 64;

/// No closed macro has more with its RUNs replaced: full seconds, and a WAIT to each.
const MOST_ENTRIES: usize = LONGEST_MACRO * (FULLEST_SECOND + 1);

/// What one second hands over, in order.
pub type Group = Vec<Command>;

#[derive(Clone, Debug, Default, PartialEq, Eq)]
pub struct MacroStore {
    pub open: Option<usize>,
    pub closed: [bool; MACROS],
    pub entries: [Vec<Command>; MACROS],
}

impl MacroStore {
    pub fn start(&mut self, number: usize) {
        self.entries[number].clear();
        self.open = Some(number);
    }

    /// Stores the entry in the open macro, which the caller has seen to be there.
    pub fn append(&mut self, command: &Command) {
        if let Some(number) = self.open {
            self.entries[number].push(*command);
        }
    }

    pub fn close(&mut self) {
        if let Some(number) = self.open.take() {
            self.closed[number] = true;
        }
    }

    /// How many entries the open macro has; 0 when none is open.
    pub fn open_entries(&self) -> usize {
        self.open.map_or(0, |number| self.entries[number].len())
    }

    /// The entries of the open and the closed macros. Any other macro has none,
    /// for CLEAR drops the entries with the macros.
    pub fn entries_in_use(&self) -> usize {
        self.entries.iter().map(Vec::len).sum()
    }

    /// How many more appends an open macro would take.
    pub fn free_entries(&self) -> usize {
        SHARED_ENTRIES.saturating_sub(self.entries_in_use())
    }

    /// The outline of the open macro; an empty one when none is open.
    pub fn open_outline(&self) -> Outline {
        self.open.map_or(Outline::default(), |it| self.outline(it))
    }

    /// Made from the lowest macro upwards, each once, so that no nest takes long: a
    /// RUN names a lower macro, whose outline is there already.
    pub fn outline(&self, number: usize) -> Outline {
        let mut outlines = [Outline::default(); MACROS];
        for (lower, entries) in self.entries[..=number].iter().enumerate() {
            let parts = entries.iter().map(|entry| match entry.kind {
                Kind::Run => outlines[entry.arguments[0] as usize],
                Kind::Wait => Outline::wait(entry.arguments[0] as usize),
                _ => Outline::entry(),
            });
            outlines[lower] = parts.fold(Outline::default(), Outline::then);
        }
        outlines[number]
    }

    /// The seconds really written out: each WAIT closes one, and is followed by
    /// empty ones until it is over.
    pub fn written_out(&self, number: usize) -> Vec<Group> {
        let mut seconds = Vec::new();
        let mut group = Group::new();
        for entry in self.runs_replaced(number) {
            if entry.kind == Kind::Wait {
                let waited = seconds.len() + entry.arguments[0] as usize;
                seconds.push(std::mem::take(&mut group));
                seconds.resize(waited, Group::new());
            } else {
                group.push(entry);
            }
        }
        if !group.is_empty() {
            seconds.push(group);
        }
        seconds
    }

    /// The entries with each RUN replaced by its target's, so that only WAITs and
    /// commands to hand over are left. The list breaks off where no closed macro
    /// gets to, so that no nest can make it explode.
    fn runs_replaced(&self, number: usize) -> Vec<Command> {
        let mut list = Vec::new();
        for entry in &self.entries[number] {
            match entry.kind {
                Kind::Run => list.extend(self.runs_replaced(entry.arguments[0] as usize)),
                _ => list.push(*entry),
            }
            if list.len() > MOST_ENTRIES {
                break;
            }
        }
        list
    }

    /// One bit for each closed macro, bit m for macro m.
    pub fn closed_bits(&self) -> u8 {
        let bits = self.closed.iter().enumerate();
        bits.map(|(number, closed)| u8::from(*closed) << number)
            .sum()
    }
}
