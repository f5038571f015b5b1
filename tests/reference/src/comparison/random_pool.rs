//! The random scripts' items about the shared entries: macros that together take
//! the last free one or ask for more, in any order and by every sort of item.

use super::damage::{acting_kind, arguments};
use super::items::{command, decoded, now, raw, run, second, status, typed};
use super::random::Maker;
use super::texts;
use crate::command::{Command, Kind};
use crate::macros::{MACROS, SHARED_ENTRIES};
use crate::run::SMALLEST_REPORT_ROOM;

/// A refused run would leave the pool as it is, so its room always suffices.
const REPORT_ROOM: u16 = SMALLEST_REPORT_ROOM as u16;

impl Maker {
    /// Fills the pool and runs what is in it, now and then once more after CLEAR.
    pub(super) fn pool_episode(&mut self) {
        for _ in 0..self.rng.within(1, 2) {
            for (number, count) in self.shares() {
                let commands = self.macro_of(number, count);
                self.send(&commands);
            }
            self.run_through();
            self.run_a_macro();
            self.push_all([now(Kind::Stop, 0), now(Kind::Clear, 0), status()]);
        }
    }

    /// Which macros are opened, in this order, and how many entries each is to
    /// have: together one less than there are, just as many, or more.
    fn shares(&mut self) -> Vec<(u32, usize)> {
        let macros = self.rng.pick(&[1, 2, 4, MACROS]);
        let most = self.rng.pick(&[1, 4, 40]);
        let mut counts: Vec<usize> = (0..macros).map(|_| self.rng.within(1, most)).collect();
        let long = self.rng.below(macros);
        counts[long] = 0;
        let aim = SHARED_ENTRIES - 1 + self.rng.pick(&[0, 1, 2, 9]);
        counts[long] = aim.saturating_sub(counts.iter().sum()).max(1);
        self.opening_order().into_iter().zip(counts).collect()
    }

    /// All macros, rising, falling, or in any order.
    fn opening_order(&mut self) -> Vec<u32> {
        let mut order: Vec<u32> = (0..MACROS as u32).collect();
        match self.rng.below(3) {
            0 => {}
            1 => order.reverse(),
            _ => {
                for place in 1..MACROS {
                    order.swap(place, self.rng.below(place + 1));
                }
            }
        }
        order
    }

    fn macro_of(&mut self, number: u32, count: usize) -> Vec<Command> {
        let mut commands = vec![Command::new(false, Kind::Open, [number, 0])];
        commands.extend((0..count).map(|_| self.pool_entry(number)));
        commands.push(Command::new(false, Kind::Close, [0; 2]));
        commands
    }

    /// An entry that only a full pool refuses, with WAITs often enough for a macro of
    /// many to be closed.
    fn pool_entry(&mut self, number: u32) -> Command {
        let closed = self.shadow.bench.macros.closed;
        let below: Vec<u32> = (0..number).filter(|it| closed[*it as usize]).collect();
        match self.rng.below(40) {
            0 if !below.is_empty() => Command::new(true, Kind::Run, [self.rng.pick(&below), 0]),
            1..=4 => Command::new(true, Kind::Wait, [self.rng.within(1, 4) as u32, 0]),
            _ => {
                let kind = acting_kind(&mut self.rng);
                Command::new(true, kind, arguments(&mut self.rng, kind, 0))
            }
        }
    }

    /// By single commands, decoded ones, a run or a typed run.
    pub(super) fn send(&mut self, commands: &[Command]) {
        match self.rng.below(4) {
            0 => self.send_singly(commands),
            1 => self.push_all(commands.iter().map(|one| {
                let flag = u8::from(one.appended);
                decoded(flag, one.kind as u8, one.arguments)
            })),
            2 => self.send_as_lists(commands),
            _ => self.send_as_text(commands),
        }
        self.push(status());
        if self.rng.percent(50) {
            self.ask();
        }
    }

    fn send_singly(&mut self, commands: &[Command]) {
        for one in commands {
            self.push(command(&bytes_of(one)));
            if self.rng.percent(1) {
                self.disturb();
            }
        }
    }

    /// As a run, in which the kit has some of the commands, all or none.
    fn send_as_lists(&mut self, commands: &[Command]) {
        let (kit, pupil) = commands.split_at(self.rng.below(commands.len() + 1));
        self.push(run(REPORT_ROOM, &list_of(kit), &list_of(pupil)));
    }

    fn send_as_text(&mut self, commands: &[Command]) {
        let most = self.rng.pick(&[0, commands.len()]);
        let (kit, typed_ones) = commands.split_at(self.rng.below(most + 1));
        let mut text = Vec::new();
        for one in typed_ones {
            let line = texts::line_for(&mut self.rng, one.appended, one.kind, one.arguments);
            text.extend(line.bytes());
            text.push(b'\n');
        }
        self.push(typed(REPORT_ROOM, &list_of(kit), &text));
    }

    /// Runs a macro to its end, each second by itself.
    fn run_through(&mut self) {
        let number = self.likely_number();
        self.push_all([now(Kind::Run, number), status()]);
        for _ in 0..self.shadow.bench.seconds_left() {
            self.push(second());
            if self.rng.percent(5) {
                self.push(status());
            }
        }
    }
}

pub(super) fn bytes_of(command: &Command) -> Vec<u8> {
    raw(command.appended, command.kind, command.arguments)
}

fn list_of(commands: &[Command]) -> Vec<u8> {
    commands.iter().flat_map(bytes_of).collect()
}
