//! Which bench states are sound, clause by clause of the rules. A state reached from a fresh
//! one always is, so only states made by hand are not.

use crate::bench::{Bench, Running, Series};
use crate::command::{Command, Kind};
use crate::macros::{MacroStore, FULLEST_SECOND, LONGEST_MACRO, MACROS, SHARED_ENTRIES};

impl Bench {
    pub fn is_sound(&self) -> bool {
        self.names_macros()
            && self.frame().judge().is_ok()
            && self.image.is_sound()
            && self.track.is_sound()
            && self.macros.is_sound()
            && self.running.iter().all(|run| self.macros.may_be_left(run))
    }

    /// Whether what runs and what is open are macros at all.
    fn names_macros(&self) -> bool {
        let running = self.running.as_ref().map(|run| run.number);
        let mut named = [running, self.macros.open].into_iter().flatten();
        named.all(|number| number < MACROS)
    }
}

impl Series {
    fn is_sound(&self) -> bool {
        self.time == 0 || (1..=self.interval).contains(&self.next)
    }
}

impl MacroStore {
    /// The entries are judged before any macro is written out.
    fn is_sound(&self) -> bool {
        let mut closed = (0..MACROS).filter(|number| self.closed[*number]);
        self.entries_in_use() <= SHARED_ENTRIES
            && (0..MACROS).all(|number| self.entries_are_sound(number))
            && closed.all(|number| self.may_be_closed(number))
    }

    fn entries_are_sound(&self, number: usize) -> bool {
        let mut entries = self.entries[number].iter();
        entries.all(|entry| entry.appended && entry.judge().is_ok() && self.may_run(number, entry))
    }

    /// Codes 17 and 18, of an entry in its own macro.
    fn may_run(&self, number: usize, entry: &Command) -> bool {
        let target = entry.arguments[0] as usize;
        entry.kind != Kind::Run || target < number && self.closed[target]
    }

    fn may_be_closed(&self, number: usize) -> bool {
        let outline = self.outline(number);
        !self.entries[number].is_empty()
            && (1..=LONGEST_MACRO).contains(&outline.length())
            && outline.fullest <= FULLEST_SECOND
    }

    /// Whether a macro that runs is closed and has no more seconds left than it has.
    fn may_be_left(&self, run: &Running) -> bool {
        let length = self.outline(run.number).length();
        self.closed[run.number] && (1..=length).contains(&run.ahead.len())
    }
}
