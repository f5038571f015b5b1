//! Random scripts. A shadow bench follows what is sent, so that a command can
//! be aimed: at a macro that is closed, at the 600 limit, at the last free entry,
//! at the fullest second.

use super::damage::{acting_kind, any_kind, arguments, damaged, random_list};
use super::fixed::SCRIPT_AIM;
use super::items::{
    append, command, decoded, frame, fresh, now, passed, raw, read, run, second, shown, status,
    watched, Item,
};
use super::rng::Rng;
use crate::command::Kind;
use crate::frame::{AT_CLOSED, AT_CLOSED_COUNT, AT_RUNNING, FRAME_BYTES, NO_MACRO};
use crate::macros::{LONGEST_MACRO, MACROS};
use crate::replay::{Replay, Script, DECODED_ROOM, LONGEST_SCRIPT};
use crate::run::{KIT, LONGEST_LIST, PUPIL, SMALLEST_REPORT_ROOM};
use crate::wire::MOST_WORDS;

/// Of a macro that runs so many entries are shown one by one; what is handed over
/// behind them is counted.
const MOST_SHOWN: usize = 150;

pub(super) struct Maker {
    pub(super) rng: Rng,
    pub(super) shadow: Replay,
    pub(super) items: Vec<Item>,
    bytes: usize,
}

/// One random script of about 60 KB, always the same for the same generator.
pub fn script(rng: Rng) -> Vec<Item> {
    let mut maker = Maker::new(rng);
    while maker.bytes < SCRIPT_AIM {
        maker.first_light();
        maker.episode();
        maker.push(fresh());
    }
    maker.items
}

/// A list for the list program, now and then as long as it may be.
pub fn list(rng: &mut Rng) -> Vec<u8> {
    let commands = if rng.percent(5) { 400 } else { rng.below(40) };
    let damage = rng.pick(&[0, 2, 20]);
    random_list(rng, commands, damage, LONGEST_LIST)
}

impl Maker {
    pub(super) fn new(rng: Rng) -> Self {
        Maker {
            rng,
            shadow: Replay::default(),
            items: Vec::new(),
            bytes: 0,
        }
    }

    pub(super) fn push(&mut self, item: Item) {
        if self.bytes + item.len() > LONGEST_SCRIPT {
            return;
        }
        self.bytes += item.len();
        self.shadow.item(&mut Script::new(&item));
        self.items.push(item);
    }

    pub(super) fn push_all(&mut self, items: impl IntoIterator<Item = Item>) {
        items.into_iter().for_each(|item| self.push(item));
    }

    fn episode(&mut self) {
        match self.rng.below(215) {
            0..=29 => self.macros_episode(),
            30..=49 => self.chatter_episode(),
            50..=59 => self.decoded_episode(),
            60..=69 => self.lists_episode(),
            70..=79 => self.frames_episode(),
            80..=89 => self.reads_episode(),
            90..=99 => self.shown_episode(),
            100..=108 => self.assemble_episode(),
            109..=114 => self.list_episode(),
            115..=124 => self.typed_episode(),
            125..=128 => self.line_episode(),
            129..=134 => self.pool_episode(),
            135..=154 => self.groups_episode(),
            155..=159 => self.many_runs_episode(),
            160..=171 => self.dark_episode(),
            172..=199 => self.range_episode(),
            200..=206 => self.housekeeping_episode(),
            207..=213 => self.tags_episode(),
            _ => self.long_text_episode(),
        }
    }

    /// Macros in rising order, each closed where it can be, then run.
    fn macros_episode(&mut self) {
        let tight = self.rng.percent(40);
        for number in 0..MACROS as u32 {
            if self.rng.percent(20) {
                continue;
            }
            self.push(now(Kind::Open, number));
            self.fill_macro(tight);
            self.push_all([now(Kind::Close, 0), status()]);
            if self.shadow.bench.macros.open.is_some() && self.rng.percent(70) {
                break;
            }
            if self.rng.percent(30) {
                self.disturb();
            }
        }
        for _ in 0..self.rng.within(1, 3) {
            self.run_a_macro();
        }
    }

    fn fill_macro(&mut self, tight: bool) {
        let free = self.shadow.bench.macros.free_entries();
        let entries = match self.rng.below(60) {
            0..=5 => self.rng.below(2),
            6..=9 => self.rng.within(20, 40),
            10 => free + self.rng.below(20),
            _ => self.rng.within(1, 6),
        };
        for _ in 0..entries {
            let entry = self.entry(tight);
            self.push(entry);
            if self.rng.percent(8) {
                self.disturb();
            }
        }
        // Aimed at one below the limit, the limit, or one past it.
        let aim = LONGEST_MACRO + self.rng.below(3) - 1;
        let waited = self.shadow.bench.macros.open_outline().waited;
        if tight && self.rng.percent(60) && waited < aim {
            self.push(append(Kind::Wait, (aim - waited) as u32));
        }
    }

    fn entry(&mut self, tight: bool) -> Item {
        match self.rng.below(10) {
            0..=3 => append(Kind::Run, self.likely_number()),
            4 if tight => append(Kind::Wait, self.rng.within(1, 300) as u32),
            4 | 5 => append(Kind::Wait, self.rng.within(1, 4) as u32),
            _ => {
                let kind = acting_kind(&mut self.rng);
                let values = arguments(&mut self.rng, kind, 2);
                command(&raw(true, kind, values))
            }
        }
    }

    /// A macro's number, mostly that of a closed one if there is any.
    pub(super) fn likely_number(&mut self) -> u32 {
        let closed = self.shadow.bench.macros.closed;
        let known: Vec<usize> = (0..MACROS).filter(|number| closed[*number]).collect();
        if known.is_empty() || self.rng.percent(15) {
            return self.rng.below(MACROS + 1) as u32;
        }
        self.rng.pick(&known) as u32
    }

    pub(super) fn run_a_macro(&mut self) {
        let number = self.likely_number();
        self.run_macro(number);
    }

    /// Runs a macro, mostly to its end, with commands between the seconds.
    pub(super) fn run_macro(&mut self, number: u32) {
        self.push_all([now(Kind::Run, number), status()]);
        let left = self.shadow.bench.seconds_left();
        let stepped = self.rng.below(left.min(60) + 4);
        let mut shown = 0;
        for _ in 0..stepped {
            let (empty, group) = self.coming();
            shown += group;
            let seconds = match shown {
                0..=MOST_SHOWN if empty < 9 => second(),
                _ => passed(self.rng.within(1, empty.max(1)) as u16),
            };
            self.push(seconds);
            if self.rng.percent(25) {
                self.push(status());
            }
            if self.rng.percent(8) {
                self.disturb();
            }
        }
        if self.rng.percent(60) {
            let left = self.shadow.bench.seconds_left();
            let seconds = left.saturating_sub(2) + self.rng.below(4);
            self.push_all([passed(seconds as u16), status(), second(), status()]);
        }
    }

    /// How many seconds to come are empty, and how many entries the next one has.
    fn coming(&self) -> (usize, usize) {
        let Some(running) = &self.shadow.bench.running else {
            return (0, 0);
        };
        let ahead = &running.ahead;
        let empty = ahead.iter().take_while(|group| group.is_empty());
        (empty.count(), ahead.front().map_or(0, Vec::len))
    }

    /// One or two commands from outside, most of them whole; now and then power and
    /// images.
    pub(super) fn disturb(&mut self) {
        if self.rng.percent(6) {
            self.switch_and_ask();
        }
        for _ in 0..self.rng.within(1, 2) {
            let bytes = self.likely_command();
            let damage = self.rng.percent(15);
            let bytes = if damage {
                damaged(&mut self.rng, &bytes)
            } else {
                bytes
            };
            self.push(command(&bytes));
        }
        if self.rng.percent(60) {
            self.push(status());
        }
    }

    /// A command that stands a fair chance in the bench's state.
    pub(super) fn likely_command(&mut self) -> Vec<u8> {
        let (flag, kind, values) = self.likely(10);
        raw(flag, kind, values)
    }

    /// Flag, kind and arguments of such a command.
    pub(super) fn likely(&mut self, bad_percent: usize) -> (bool, Kind, [u32; 2]) {
        if self.rng.percent(6) {
            let one = self.light_or_image(false);
            return (one.appended, one.kind, one.arguments);
        }
        let kind = any_kind(&mut self.rng);
        let mut values = arguments(&mut self.rng, kind, bad_percent);
        if kind == Kind::Run && self.rng.percent(80) {
            values[0] = self.likely_number();
        }
        let open = self.shadow.bench.macros.open.is_some();
        let chance = match kind {
            Kind::Open | Kind::Close | Kind::Stop | Kind::Clear => 5,
            Kind::Wait => 85,
            _ if open => 60,
            _ => 10,
        };
        (self.rng.percent(chance), kind, values)
    }

    fn chatter_episode(&mut self) {
        for _ in 0..self.rng.within(20, 160) {
            match self.rng.below(10) {
                0 | 1 => self.push(second()),
                2 => {
                    let seconds = self.rng.below(12) as u16;
                    self.push_all([passed(seconds), status()]);
                }
                _ => self.disturb(),
            }
        }
    }

    fn decoded_episode(&mut self) {
        for _ in 0..self.rng.within(20, 120) {
            let kind = any_kind(&mut self.rng);
            // Power is to be switched often enough for the images.
            let bad_percent = if kind == Kind::ImgPwr { 10 } else { 40 };
            let mut values = arguments(&mut self.rng, kind, bad_percent);
            if kind == Kind::Run && self.rng.percent(50) {
                values[0] = self.likely_number();
            }
            for value in &mut values {
                // Bits above the field's width, which the remainder takes off.
                if kind != Kind::TrkGoal && self.rng.percent(20) {
                    *value |= self.rng.word() << 16;
                }
            }
            let turns = 15 * self.rng.below(16) as u8;
            let flag = self.rng.byte();
            self.push(decoded(flag, kind as u8 + turns, values));
            if self.rng.percent(70) {
                self.push(status());
            }
            if self.rng.percent(25) {
                self.push(second());
            }
        }
    }

    fn lists_episode(&mut self) {
        for _ in 0..self.rng.within(1, 4) {
            let (kit, pupil) = self.aimed_lists();
            let room = self.report_room();
            self.push_all([run(room, &kit, &pupil), status()]);
            self.ask();
            let seconds = self.rng.below(6);
            self.push_all(watched(seconds));
        }
    }

    /// Two lists whose commands are aimed at the state that those before them
    /// leave; the shadow only tries them out, for the run may yet be refused.
    pub(super) fn aimed_lists(&mut self) -> (Vec<u8>, Vec<u8>) {
        let before = self.shadow.clone();
        let damage = self.rng.pick(&[0, 1, 10]);
        let lists = [(); 2].map(|_| self.aimed_list(damage));
        self.shadow = before;
        let [kit, pupil] = lists;
        (kit, pupil)
    }

    pub(super) fn aimed_list(&mut self, damage_percent: usize) -> Vec<u8> {
        let commands = self.rng.below(60);
        self.aimed_commands(commands, damage_percent)
    }

    /// So many commands, each aimed at the state that those before it leave.
    pub(super) fn aimed_commands(&mut self, commands: usize, damage_percent: usize) -> Vec<u8> {
        let mut list = Vec::new();
        for _ in 0..commands {
            let mut bytes = self.likely_command();
            if self.rng.percent(damage_percent) {
                bytes = damaged(&mut self.rng, &bytes);
            }
            self.shadow.item(&mut Script::new(&command(&bytes)));
            list.extend(bytes);
        }
        list.truncate(LONGEST_LIST);
        list
    }

    pub(super) fn report_room(&mut self) -> u16 {
        let enough = SMALLEST_REPORT_ROOM;
        let room = match self.rng.below(8) {
            0 => self.rng.below(enough),
            1 => self.rng.within(enough, u16::MAX.into()),
            2 => enough - 1,
            3 => enough,
            _ => self.rng.within(enough, 13_100),
        };
        room as u16
    }

    /// The shadow's own frame or one of random fields, then rules broken.
    fn frames_episode(&mut self) {
        for _ in 0..self.rng.within(5, 60) {
            self.disturb();
            let mut bytes = vec![0; FRAME_BYTES];
            // A shadow that a mistake has made unwritable still gives a frame: zeros.
            let _ = self.shadow.bench.frame().write(&mut bytes);
            for _ in 0..self.rng.below(4) {
                self.change_frame(&mut bytes);
            }
            if self.rng.percent(60) {
                bytes[AT_CLOSED_COUNT] = bytes[AT_CLOSED].count_ones() as u8;
            }
            if self.rng.percent(6) {
                let length = self.rng.below(FRAME_BYTES + 20);
                bytes.resize(length, 0);
            }
            let sizes = [FRAME_BYTES, FRAME_BYTES, FRAME_BYTES - 1, 40, 255];
            let room = match self.rng.percent(10) {
                true => self.rng.below(2 * FRAME_BYTES),
                false => self.rng.pick(&sizes),
            };
            self.push(frame(room as u8, &bytes));
        }
    }

    fn change_frame(&mut self, bytes: &mut [u8]) {
        match self.rng.below(5) {
            0 => {
                let place = self.rng.below(FRAME_BYTES);
                bytes[place] = self.rng.byte();
            }
            1 => {
                let place = self.rng.below(FRAME_BYTES);
                bytes[place] ^= 1 << self.rng.below(8);
            }
            2 => {
                let macros = [0, 3, 7, 8, 254, NO_MACRO];
                let seconds = self.rng.pick(&[0, 1, 600, 601, 255, 256]) as u16;
                bytes[AT_RUNNING] = self.rng.pick(&macros);
                bytes[AT_RUNNING + 1] = self.rng.pick(&macros);
                bytes[AT_RUNNING + 2..AT_CLOSED].copy_from_slice(&seconds.to_be_bytes());
            }
            3 => bytes[AT_CLOSED] = self.rng.byte(),
            _ => {
                let half = 2 * self.rng.below(12);
                let value = self
                    .rng
                    .pick(&[0u16, 1, 0x3ff, 0x400, 0x447f, 0x4480, 0x8000]);
                bytes[half..half + 2].copy_from_slice(&value.to_be_bytes());
            }
        }
    }

    fn reads_episode(&mut self) {
        for _ in 0..self.rng.within(20, 120) {
            let mut bytes = self.likely_command();
            if self.rng.percent(45) {
                bytes = damaged(&mut self.rng, &bytes);
            }
            let room = match self.rng.percent(25) {
                true => self.rng.below(2 * MOST_WORDS),
                false => DECODED_ROOM,
            };
            self.push(read(room as u8, &bytes));
        }
    }

    fn shown_episode(&mut self) {
        for _ in 0..self.rng.within(3, 12) {
            let commands = self.rng.below(8);
            let kit = random_list(&mut self.rng, commands, 20, LONGEST_LIST);
            let pupil = random_list(&mut self.rng, 8 - commands, 20, LONGEST_LIST);
            for sender in [KIT, PUPIL, self.rng.byte()] {
                let number = match self.rng.percent(10) {
                    true => self.rng.word(),
                    false => self.rng.below(10) as u32,
                };
                self.push(shown(&kit, &pupil, sender, number));
            }
        }
    }
}
