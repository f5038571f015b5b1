//! The random scripts' items about what was wrong with a number: arguments past a limit,
//! among others, by every sort of item.

use super::damage::damaged;
use super::items::{assemble, command, decoded, list_text, raw, read, run, status, typed};
use super::past::{numbered_kind, past_arguments};
use super::random::Maker;
use super::texts;
use crate::command::Kind;
use crate::replay::DECODED_ROOM;

/// Room for whatever a few lines or commands give.
const ROOM: u16 = 600;

impl Maker {
    pub(super) fn range_episode(&mut self) {
        for _ in 0..self.rng.within(10, 60) {
            match self.rng.below(24) {
                0..=5 => self.send_past(),
                6..=10 => self.decode_past(),
                11..=13 => self.read_past(),
                14..=16 => self.assemble_past(),
                17..=19 => self.list_past(),
                20 => self.run_past(),
                _ => self.type_past(),
            }
        }
        self.push(status());
    }

    /// Flag, kind and arguments, mostly past a limit; otherwise mostly such as another
    /// code is given to, so that nothing is told of their numbers.
    fn mostly_past(&mut self) -> (bool, Kind, [u32; 2]) {
        match self.rng.below(8) {
            0 => self.likely(0),
            1 => {
                let one = self.light_or_image(false);
                (one.appended, one.kind, one.arguments)
            }
            _ => {
                let kind = numbered_kind(&mut self.rng);
                let values = past_arguments(&mut self.rng, kind);
                (self.rng.percent(40), kind, values)
            }
        }
    }

    /// As bytes, now and then damaged.
    fn past_bytes(&mut self) -> Vec<u8> {
        let (flag, kind, values) = self.mostly_past();
        let bytes = raw(flag, kind, values);
        match self.rng.percent(10) {
            true => damaged(&mut self.rng, &bytes),
            false => bytes,
        }
    }

    fn send_past(&mut self) {
        let bytes = self.past_bytes();
        self.push(command(&bytes));
    }

    fn decode_past(&mut self) {
        let (flag, kind, values) = self.mostly_past();
        self.push(decoded(flag.into(), kind as u8, values));
    }

    fn read_past(&mut self) {
        let bytes = self.past_bytes();
        self.push(read(DECODED_ROOM as u8, &bytes));
    }

    fn assemble_past(&mut self) {
        let text = self.past_text();
        self.push(assemble(ROOM, &text));
    }

    fn list_past(&mut self) {
        let commands = self.rng.below(5);
        let mut list = texts::raw_list(&mut self.rng, commands, 0);
        list.extend(self.past_bytes());
        self.push(list_text(ROOM, &list));
    }

    /// A few good lines, then one that is mostly past a limit, and what follows it.
    fn past_text(&mut self) -> Vec<u8> {
        let before = self.rng.below(4);
        let mut text = texts::text(&mut self.rng, before, 0);
        text.push(b'\n');
        text.extend(texts::past_line(&mut self.rng));
        text.push(b'\n');
        text.extend(texts::text(&mut self.rng, 1, 50));
        text
    }

    fn past_list(&mut self, most: usize) -> Vec<u8> {
        let mut list = Vec::new();
        for _ in 0..self.rng.below(most + 1) {
            list.extend(self.past_bytes());
        }
        list
    }

    fn run_past(&mut self) {
        let (kit, pupil) = (self.past_list(30), self.past_list(30));
        let room = self.report_room();
        self.push_all([run(room, &kit, &pupil), status()]);
        self.ask();
    }

    /// A kit with values in its records, before a text that is taken or is not.
    fn type_past(&mut self) {
        let kit = self.past_list(6);
        let text = match self.rng.percent(70) {
            true => self.past_text(),
            false => texts::text(&mut self.rng, 3, 0),
        };
        let room = self.report_room();
        self.push_all([typed(room, &kit, &text), status()]);
        self.ask();
    }
}
