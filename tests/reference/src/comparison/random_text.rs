//! The random scripts' items about typed lists: texts assembled, lists listed,
//! typed runs and lines shown, with rooms and numbers aimed at their limits.

use super::damage::random_list;
use super::items::{assemble, command, line, list_text, raw, status, typed};
use super::random::Maker;
use super::texts;
use crate::replay::Script;
use crate::run::LONGEST_LIST;
use crate::text::{commands_typed, lines_of, raw_list, text_of};

/// Room asked for where a text or list is refused anyway.
const SOME_ROOM: usize = 40;

impl Maker {
    pub(super) fn assemble_episode(&mut self) {
        for _ in 0..self.rng.within(5, 40) {
            let text = self.some_text();
            let needed = commands_typed(&text).map(|commands| raw_list(&commands).len());
            let room = self.room_near(needed.unwrap_or(SOME_ROOM));
            self.push(assemble(room, &text));
        }
    }

    pub(super) fn list_episode(&mut self) {
        for _ in 0..self.rng.within(5, 40) {
            let raw = self.some_raw_list();
            let needed = text_of(&raw).map(|text| text.len());
            let room = self.room_near(needed.unwrap_or(SOME_ROOM));
            self.push(list_text(room, &raw));
        }
    }

    pub(super) fn typed_episode(&mut self) {
        for _ in 0..self.rng.within(1, 4) {
            let (kit, text) = self.kit_and_text();
            let room = self.report_room();
            self.push_all([typed(room, &kit, &text), status()]);
            self.ask();
        }
    }

    pub(super) fn line_episode(&mut self) {
        for _ in 0..self.rng.within(1, 4) {
            let text = self.some_text();
            let last = lines_of(&text).len() as u32;
            let any = self.rng.below(last as usize + 1) as u32;
            for number in [0, 1, any, last, last + 1, u32::MAX, self.rng.word()] {
                self.push(line(&text, number));
            }
        }
    }

    /// A text around its longest, in one item of each sort.
    pub(super) fn long_text_episode(&mut self) {
        let text = texts::long_text(&mut self.rng);
        let last = lines_of(&text).len() as u32;
        let item = match self.rng.below(3) {
            0 => assemble(u16::MAX, &text),
            1 => typed(u16::MAX, &[], &text),
            _ => line(&text, last),
        };
        self.push(item);
    }

    fn some_text(&mut self) -> Vec<u8> {
        let damage = self.rng.pick(&[0, 5, 40]);
        let lines = match self.rng.below(60) {
            0 => self.rng.within(300, 520),
            1..=5 => self.rng.within(10, 40),
            _ => self.rng.below(6),
        };
        texts::text(&mut self.rng, lines, damage)
    }

    fn some_raw_list(&mut self) -> Vec<u8> {
        let commands = match self.rng.below(60) {
            0 => self.rng.within(300, 520),
            1..=5 => self.rng.within(10, 40),
            _ => self.rng.below(6),
        };
        if self.rng.percent(25) {
            let damage = self.rng.pick(&[0, 20]);
            return random_list(&mut self.rng, commands, damage, LONGEST_LIST + 1);
        }
        let odd = self.rng.pick(&[0, 3, 20]);
        texts::raw_list(&mut self.rng, commands, odd)
    }

    /// A room that just suffices, is one short, or one longer, or anything.
    fn room_near(&mut self, needed: usize) -> u16 {
        let room = match self.rng.below(12) {
            0 | 1 => needed.saturating_sub(1),
            2 | 3 => needed,
            4 | 5 => needed + 1,
            6 => self.rng.below(needed + 1),
            7 => self.rng.pick(&[0, 8192, 9000, 12287, 12288, 13000, 65535]),
            _ => needed + self.rng.below(100),
        };
        room as u16
    }

    /// A kit's list of any sort and a text, aimed at the state that the
    /// commands before leave; the shadow only tries them out.
    fn kit_and_text(&mut self) -> (Vec<u8>, Vec<u8>) {
        let before = self.shadow.clone();
        let damage = self.rng.pick(&[0, 1, 10]);
        let kit = match self.rng.below(12) {
            0 => self.some_raw_list(),
            1 => Vec::new(),
            _ => self.aimed_list(damage),
        };
        let text = self.aimed_text();
        self.shadow = before;
        (kit, text)
    }

    fn aimed_text(&mut self) -> Vec<u8> {
        let lines = self.rng.below(50);
        self.aimed_lines(lines)
    }

    /// So many good lines, each aimed at the state that those before it leave; now and
    /// then two more that may be bad.
    pub(super) fn aimed_lines(&mut self, lines: usize) -> Vec<u8> {
        let mut text = Vec::new();
        for _ in 0..lines {
            let (flag, kind, values) = self.likely(0);
            let flag = texts::fitting_flag(kind, flag);
            let bytes = raw(flag, kind, values);
            self.shadow.item(&mut Script::new(&command(&bytes)));
            text.extend(texts::filler(&mut self.rng));
            text.extend(texts::line_for(&mut self.rng, flag, kind, values).bytes());
            text.push(b'\n');
        }
        if self.rng.percent(15) {
            text.extend(texts::text(&mut self.rng, 2, 50));
        }
        texts::ended(&mut self.rng, text)
    }
}
