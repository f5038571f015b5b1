//! The random scripts' items about housekeeping: short runs that fail or do not, refused
//! or not, with other items between; and frames of tagged items, broken in every way.

use super::damage::{arguments, damaged};
use super::fixed_tags::{GOOD, ITEMS, STARTS};
use super::items::{command, housekeeping, passed, raw, run, second, tags, typed};
use super::random::Maker;
use super::texts;
use crate::command::Kind;
use crate::housekeeping::Housekeeping;
use crate::run::LONGEST_LIST;

/// How many commands a short list has; of the pupil's lists one in four is empty.
const FEW: [usize; 8] = [0, 0, 1, 1, 2, 3, 4, 9];
/// How many in a hundred of them are to fail.
const FAILING: [usize; 5] = [0, 0, 30, 60, 100];
/// Kinds that every bench takes.
const HARMLESS: [Kind; 7] = [
    Kind::ImgPwr,
    Kind::ImgRegion,
    Kind::TrkAlg,
    Kind::TrkLoop,
    Kind::TrkGoal,
    Kind::TlmFlush,
    Kind::FlushAuto,
];
/// Lines that assemble and then mostly fail.
const FAILING_LINES: [&str; 6] = [
    "close",
    "run 7",
    "run 0",
    "+tlm_flush",
    "img_image 5 1",
    "img_track 65535 9",
];

impl Maker {
    /// Asks the bench, mostly with room enough.
    pub(super) fn ask(&mut self) {
        let room = self.frame_room();
        self.push(housekeeping(room));
    }

    fn frame_room(&mut self) -> u8 {
        let any = self.rng.byte();
        let few = self.rng.below(18) as u8;
        self.rng
            .pick(&[18, 18, 18, 18, 18, 18, 19, 255, any, 17, few])
    }

    pub(super) fn housekeeping_episode(&mut self) {
        for _ in 0..self.rng.within(5, 40) {
            match self.rng.below(20) {
                0..=6 => self.short_run(),
                7..=13 => self.short_typed_run(),
                14 => self.run_too_long(),
                15 => self.push(second()),
                16 => {
                    let seconds = self.rng.below(9) as u16;
                    self.push(passed(seconds));
                }
                17 => self.take_entries(),
                _ => self.disturb(),
            }
            self.ask();
        }
    }

    fn short_run(&mut self) {
        let (kit, pupil) = (self.short_list(), self.short_list());
        let room = self.report_room();
        self.push(run(room, &kit, &pupil));
    }

    fn short_typed_run(&mut self) {
        let (kit, text) = (self.short_list(), self.short_text());
        let room = self.report_room();
        self.push(typed(room, &kit, &text));
    }

    /// Refused with 20; not often, for such a list takes much of a script.
    fn run_too_long(&mut self) {
        if self.rng.percent(80) {
            return;
        }
        let short = self.short_list();
        let long = vec![0; LONGEST_LIST + 1];
        let item = match self.rng.below(3) {
            0 => run(u16::MAX, &short, &long),
            1 => run(u16::MAX, &long, &short),
            _ => typed(u16::MAX, &long, b"close"),
        };
        self.push(item);
    }

    /// A macro is opened, or the open one takes a few entries more.
    fn take_entries(&mut self) {
        let number = self.rng.below(8) as u32;
        self.push(command(&raw(false, Kind::Open, [number, 0])));
        for _ in 0..self.rng.pick(&[1, 2, 5, 30]) {
            self.push(command(&raw(true, Kind::TlmFlush, [0; 2])));
        }
    }

    /// A list of which no command fails, some do, or all; now and then it ends early.
    fn short_list(&mut self) -> Vec<u8> {
        let failing = self.rng.pick(&FAILING);
        let mut list = Vec::new();
        for _ in 0..self.rng.pick(&FEW) {
            let bytes = match self.rng.percent(failing) {
                true => self.failing_command(),
                false => self.harmless_command(),
            };
            list.extend(bytes);
        }
        list
    }

    fn harmless_command(&mut self) -> Vec<u8> {
        let kind = self.rng.pick(&HARMLESS);
        let values = arguments(&mut self.rng, kind, 0);
        raw(false, kind, values)
    }

    /// With 8, 9, 10, or mostly something else.
    fn failing_command(&mut self) -> Vec<u8> {
        match self.rng.below(6) {
            0 => raw(false, Kind::ImgRegion, [self.rng.word() >> 16 | 1024, 0]),
            1 => raw(true, Kind::Stop, [0; 2]),
            2 => raw(false, Kind::Wait, [1, 0]),
            3 => raw(false, Kind::Run, [self.likely_number(), 0]),
            4 => raw(false, Kind::Close, [0; 2]),
            _ => {
                let bytes = self.harmless_command();
                damaged(&mut self.rng, &bytes)
            }
        }
    }

    /// The same as a text, with lines before, between and behind that carry no command;
    /// one in seven has a bad line as well.
    fn short_text(&mut self) -> Vec<u8> {
        let failing = self.rng.pick(&FAILING);
        let mut text = Vec::new();
        for _ in 0..self.rng.pick(&FEW) {
            text.extend(texts::filler(&mut self.rng));
            let line: Vec<u8> = match self.rng.percent(failing) {
                true => self.rng.pick(&FAILING_LINES).into(),
                false => self.harmless_line(),
            };
            text.extend(line);
            text.push(b'\n');
        }
        text.extend(texts::filler(&mut self.rng));
        if self.rng.percent(15) {
            text.extend(texts::past_line(&mut self.rng));
            text.push(b'\n');
        }
        texts::ended(&mut self.rng, text)
    }

    fn harmless_line(&mut self) -> Vec<u8> {
        let kind = self.rng.pick(&HARMLESS);
        let values = arguments(&mut self.rng, kind, 0);
        texts::line_for(&mut self.rng, false, kind, values).bytes()
    }

    /// Frames with none, one or several things wrong.
    pub(super) fn tags_episode(&mut self) {
        for _ in 0..self.rng.within(20, 120) {
            let mut bytes = self.some_frame();
            for _ in 0..self.rng.pick(&[0, 0, 1, 1, 1, 2, 3]) {
                bytes = self.changed_frame(bytes);
            }
            let room = self.frame_room();
            self.push(tags(room, &bytes));
        }
    }

    /// The bench's own frame, one made by hand, or one of any numbers.
    fn some_frame(&mut self) -> Vec<u8> {
        let shift = self.rng.below(32);
        let any = Housekeeping {
            received: self.rng.word() >> shift,
            failed: self.rng.word(),
            failed_code: self.rng.byte(),
            free: self.rng.byte(),
        };
        match self.rng.below(8) {
            0 => GOOD.to_vec(),
            1 => self.shadow.bench.housekeeping().bytes(),
            _ => any.bytes(),
        }
    }

    fn changed_frame(&mut self, mut bytes: Vec<u8>) -> Vec<u8> {
        match self.rng.below(11) {
            0..=4 => self.change_heading(&mut bytes),
            5 | 6 => {
                let length = self.rng.below(bytes.len() + 1);
                bytes.truncate(length);
            }
            7 | 8 => {
                let more = self.rng.pick(&[1, 1, 2, 3, 6, 18]);
                bytes.extend(self.rng.bytes(more));
            }
            9 => bytes = self.items_moved(&bytes),
            _ => {
                if let Some(place) = bytes.len().checked_sub(1) {
                    bytes[self.rng.below(place + 1)] ^= 1 << self.rng.below(8);
                }
            }
        }
        bytes
    }

    /// A tag or a length becomes the next one, that of another item, or anything.
    fn change_heading(&mut self, bytes: &mut [u8]) {
        let length = self.rng.below(2);
        let place = STARTS[self.rng.below(ITEMS)] + length;
        let other = GOOD[STARTS[self.rng.below(ITEMS)] + length];
        let any = self.rng.byte();
        if let Some(byte) = bytes.get_mut(place) {
            let near = [byte.wrapping_add(1), byte.wrapping_sub(1)];
            *byte = self.rng.pick(&[near[0], near[1], other, any]);
        }
    }

    /// Any of the items in each place, or one of them left out.
    fn items_moved(&mut self, bytes: &[u8]) -> Vec<u8> {
        let mut order = [0, 1, 2, 3];
        order.swap(self.rng.below(ITEMS), self.rng.below(ITEMS));
        if self.rng.percent(30) {
            order[self.rng.below(ITEMS)] = self.rng.below(ITEMS);
        }
        let kept = self.rng.pick(&[ITEMS, ITEMS, ITEMS - 1]);
        let part = |item: &usize| bytes.get(STARTS[*item]..STARTS[item + 1]);
        let parts: Vec<&[u8]> = order[..kept].iter().filter_map(part).collect();
        parts.concat()
    }
}
