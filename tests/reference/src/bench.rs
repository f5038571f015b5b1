//! The bench state: judging a command against it (codes 8 to 19, 25, 26), carrying
//! the command out, letting a second pass, and the two frames that show the state.

use std::collections::VecDeque;

use crate::codes::{
    code_and_finding, refuse_if, Refusal, CLOSE_TOO_FULL, CLOSE_TOO_LONG, CLOSE_WITHOUT_ENTRIES,
    MACRO_RUNS, NO_ENTRY_FREE, NO_MACRO_OPEN, OPEN_OF_CLOSED, OPEN_WHILE_OPEN, POWER_OFF,
    TARGET_NOT_BELOW, TARGET_NOT_CLOSED,
};
use crate::command::{Command, Kind};
use crate::frame::Frame;
use crate::housekeeping::Housekeeping;
use crate::macros::{Group, MacroStore, FULLEST_SECOND, LONGEST_MACRO};
use crate::wire::read_command;

/// A time that never falls.
pub const FOREVER: u16 = 65535;

/// A series of images: the seconds it still lasts, the seconds between two
/// images, the seconds to the next one, and how many were counted so far.
#[derive(Clone, Debug, PartialEq, Eq)]
pub struct Series {
    pub time: u16,
    pub interval: u16,
    pub next: u16,
    pub images: u16,
}

/// A macro that runs, with those of its seconds still to come.
#[derive(Clone, Debug, PartialEq, Eq)]
pub struct Running {
    pub number: usize,
    pub ahead: VecDeque<Group>,
}

/// An entry that a second handed over: with code 0, or with the code for which it
/// had no effect.
#[derive(Clone, Copy, Debug, PartialEq, Eq)]
pub struct Handed {
    pub code: u8,
    pub command: Command,
}

/// What is kept of the latest run that was not refused: the number of the pupil's last
/// record, and number and code of the last one that is no acceptance. All are 0 where
/// there is no such record, and until a run has ended.
#[derive(Clone, Copy, Debug, Default, PartialEq, Eq)]
pub struct Latest {
    pub received: u32,
    pub failed: u32,
    pub failed_code: u8,
}

#[derive(Clone, Debug, PartialEq, Eq)]
pub struct Bench {
    pub image: Series,
    pub track: Series,
    pub corner: [u16; 2],
    pub goal: [u32; 2],
    pub power: bool,
    pub auto_flush: bool,
    pub closed_loop: bool,
    pub algorithm: u8,
    pub flushes: u8,
    pub macros: MacroStore,
    pub running: Option<Running>,
    pub latest: Latest,
}

impl Series {
    fn fresh() -> Self {
        Series {
            time: 0,
            interval: 1,
            next: 0,
            images: 0,
        }
    }

    /// Supersedes whatever series there was; the count of images goes on.
    fn begin(&mut self, [time, interval]: [u32; 2]) {
        self.time = time as u16;
        self.interval = interval as u16;
        self.next = 1;
    }

    fn pass_second(&mut self) {
        if self.time == 0 {
            return;
        }
        self.next -= 1;
        if self.next == 0 {
            self.images = self.images.wrapping_add(1);
            self.next = self.interval;
        }
        if self.time != FOREVER {
            self.time -= 1;
        }
    }
}

impl Default for Bench {
    fn default() -> Self {
        Bench {
            image: Series::fresh(),
            track: Series::fresh(),
            corner: [0; 2],
            goal: [0; 2],
            power: false,
            auto_flush: false,
            closed_loop: false,
            algorithm: 0,
            flushes: 0,
            macros: MacroStore::default(),
            running: None,
            latest: Latest::default(),
        }
    }
}

impl Bench {
    /// Carries out the first command of these bytes (codes 1 to 19, 25, 26).
    pub fn carry_out_bytes(&mut self, bytes: &[u8]) -> Result<(), Refusal> {
        let command = read_command(bytes)?;
        self.carry_out(&command)
    }

    /// Carries out a decoded command (codes 8 to 10, 26, then 11 to 19 and 25).
    pub fn carry_out(&mut self, command: &Command) -> Result<(), Refusal> {
        command.judge()?;
        if !command.appended {
            self.judge_power(command)?;
        }
        self.judge_macro_commands(command)?;
        self.judge_runs(command)?;
        if command.appended {
            self.macros.append(command);
        } else {
            self.execute(command);
        }
        Ok(())
    }

    /// Code 26, of a command that is about to be executed. It is no use to begin a
    /// series in the dark, but one that was begun before goes on there.
    fn judge_power(&self, command: &Command) -> Result<(), Refusal> {
        refuse_if(command.asks_for_images() && !self.power, POWER_OFF)
    }

    /// Codes 11 to 13, those of CLOSE, and 16.
    fn judge_macro_commands(&self, command: &Command) -> Result<(), Refusal> {
        let opens = command.kind == Kind::Open;
        let closes = command.kind == Kind::Close;
        let number = command.arguments[0] as usize;
        let some_open = self.macros.open.is_some();
        let free = self.macros.free_entries();
        refuse_if((command.appended || closes) && !some_open, NO_MACRO_OPEN)?;
        refuse_if(opens && some_open, OPEN_WHILE_OPEN)?;
        refuse_if(opens && self.macros.closed[number], OPEN_OF_CLOSED)?;
        if closes {
            self.judge_close()?;
        }
        refuse_if(command.appended && free == 0, NO_ENTRY_FREE)
    }

    /// Codes 14, 15 and 25.
    fn judge_close(&self) -> Result<(), Refusal> {
        let outline = self.macros.open_outline();
        refuse_if(self.macros.open_entries() == 0, CLOSE_WITHOUT_ENTRIES)?;
        refuse_if(outline.length() > LONGEST_MACRO, CLOSE_TOO_LONG)?;
        refuse_if(outline.fullest > FULLEST_SECOND, CLOSE_TOO_FULL)
    }

    /// Codes 17 to 19.
    fn judge_runs(&self, command: &Command) -> Result<(), Refusal> {
        let runs = command.kind == Kind::Run;
        let clears = command.kind == Kind::Clear;
        let number = command.arguments[0] as usize;
        let below = self.macros.open.is_some_and(|open| number < open);
        let busy = self.running.is_some();
        refuse_if(runs && command.appended && !below, TARGET_NOT_BELOW)?;
        refuse_if(runs && !self.macros.closed[number], TARGET_NOT_CLOSED)?;
        refuse_if(runs && !command.appended && busy, MACRO_RUNS)?;
        refuse_if(clears && busy, MACRO_RUNS)
    }

    fn execute(&mut self, command: &Command) {
        let [first, second] = command.arguments;
        match command.kind {
            Kind::ImgPwr => self.power = first == 1,
            Kind::ImgRegion => self.corner = [first as u16, second as u16],
            Kind::ImgTrack => self.track.begin(command.arguments),
            Kind::TrkAlg => self.algorithm = first as u8,
            Kind::TrkLoop => self.closed_loop = first == 1,
            Kind::ImgImage => self.image.begin(command.arguments),
            Kind::TrkGoal => self.goal = [first, second],
            Kind::TlmFlush => self.flushes = self.flushes.wrapping_add(1),
            Kind::FlushAuto => self.auto_flush = first == 1,
            Kind::Open => self.macros.start(first as usize),
            Kind::Close => self.macros.close(),
            Kind::Run => self.start_running(first as usize),
            // Only ever appended, and then it ends a second instead.
            Kind::Wait => {}
            Kind::Stop => self.running = None,
            Kind::Clear => self.macros = MacroStore::default(),
        }
    }

    fn start_running(&mut self, number: usize) {
        let ahead = self.macros.written_out(number).into();
        self.running = Some(Running { number, ahead });
    }

    /// One second; the answer is what was handed over. The series come first,
    /// so that an image asked for in a second is taken one second later.
    pub fn second(&mut self) -> Vec<Handed> {
        self.image.pass_second();
        self.track.pass_second();
        self.hand_over()
    }

    fn hand_over(&mut self) -> Vec<Handed> {
        let Some(running) = &mut self.running else {
            return Vec::new();
        };
        let group = running.ahead.pop_front().unwrap_or_default();
        if running.ahead.is_empty() {
            self.running = None;
        }
        group.iter().map(|entry| self.hand_entry(entry)).collect()
    }

    /// Power is looked at as the entries before this one have left it.
    fn hand_entry(&mut self, entry: &Command) -> Handed {
        let answer = self.judge_power(entry);
        if answer.is_ok() {
            self.execute(entry);
        }
        let (code, _) = code_and_finding(&answer);
        Handed {
            code,
            command: *entry,
        }
    }

    pub fn seconds_left(&self) -> usize {
        self.running.as_ref().map_or(0, |run| run.ahead.len())
    }

    /// The state as the status frame shows it.
    pub fn frame(&self) -> Frame {
        Frame {
            image_time: self.image.time,
            image_interval: self.image.interval,
            track_time: self.track.time,
            track_interval: self.track.interval,
            images: self.image.images,
            track_images: self.track.images,
            corner: self.corner,
            goal: self.goal,
            power: self.power,
            auto_flush: self.auto_flush,
            closed_loop: self.closed_loop,
            algorithm: self.algorithm,
            flushes: self.flushes,
            running: self.running.as_ref().map(|run| run.number as u8),
            open: self.macros.open.map(|open| open as u8),
            seconds_left: self.seconds_left() as u16,
            closed: self.macros.closed_bits(),
        }
    }

    pub fn housekeeping(&self) -> Housekeeping {
        Housekeeping {
            received: self.latest.received,
            failed: self.latest.failed,
            failed_code: self.latest.failed_code,
            free: self.macros.free_entries() as u8,
        }
    }
}
