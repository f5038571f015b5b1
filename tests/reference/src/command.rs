//! The table of the fifteen commands, row by row, and a decoded command with
//! the checks that need no bench: argument ranges (8) and the macro flag (9, 10).

use crate::codes::{refuse_if, Finding, Refusal, NEVER_APPENDED, ONLY_APPENDED};
use FlagRule::{Either, NeverAppended, OnlyAppended};

#[derive(Clone, Copy, Debug, PartialEq, Eq)]
pub enum Kind {
    ImgPwr,
    ImgRegion,
    ImgTrack,
    TrkAlg,
    TrkLoop,
    ImgImage,
    TrkGoal,
    TlmFlush,
    FlushAuto,
    Open,
    Close,
    Run,
    Wait,
    Stop,
    Clear,
}

/// What values an argument may have.
#[derive(Clone, Copy, Debug)]
pub enum Allowed {
    /// From the first to the second, both included.
    Range(u32, u32),
    /// The bits of a single that is a place on the image.
    Goal,
}

#[derive(Clone, Copy, Debug)]
pub struct Argument {
    pub bits: u32,
    pub allowed: Allowed,
}

#[derive(Clone, Copy, Debug, PartialEq, Eq)]
pub enum FlagRule {
    Either,
    NeverAppended,
    OnlyAppended,
}

/// One row of the command table. Whatever the arguments leave of the words
/// between the first and the last is pad, so the pad needs no column.
#[derive(Clone, Copy, Debug)]
pub struct Row {
    pub opcode: u16,
    pub kind: Kind,
    pub name: &'static str,
    pub words: usize,
    pub arguments: &'static [Argument],
    pub flag: FlagRule,
}

pub const COMMANDS: usize = 15;

/// The first word and the XOR, which every command has besides its arguments.
pub const FRAMING_WORDS: usize = 2;

const fn row(
    opcode: u16,
    kind: Kind,
    name: &'static str,
    words: usize,
    arguments: &'static [Argument],
    flag: FlagRule,
) -> Row {
    Row {
        opcode,
        kind,
        name,
        words,
        arguments,
        flag,
    }
}

const fn field(bits: u32, low: u32, high: u32) -> Argument {
    Argument {
        bits,
        allowed: Allowed::Range(low, high),
    }
}

const NOTHING: &[Argument] = &[];
const MODE_0_1: &[Argument] = &[field(8, 0, 1)];
const MODE_0_2: &[Argument] = &[field(8, 0, 2)];
const CORNER: &[Argument] = &[field(16, 0, LARGEST_CORNER), field(16, 0, LARGEST_CORNER)];
const SERIES: &[Argument] = &[field(16, 0, 65535), field(16, 1, 65535)];
const MACRO: &[Argument] = &[field(8, 0, 7)];
const SECONDS: &[Argument] = &[field(16, 1, 600)];
const GOAL: &[Argument] = &[ANY_GOAL, ANY_GOAL];
const ANY_GOAL: Argument = Argument {
    bits: 32,
    allowed: Allowed::Goal,
};

/// The largest X or Y of a region.
pub const LARGEST_CORNER: u32 = 1023;

pub const TABLE: [Row; COMMANDS] = [
    row(0x0114, Kind::ImgPwr, "img_pwr", 3, MODE_0_1, Either),
    row(0x0117, Kind::ImgRegion, "img_region", 3, CORNER, Either),
    row(0x0118, Kind::ImgTrack, "img_track", 3, SERIES, Either),
    row(0x0148, Kind::TrkAlg, "trk_alg", 3, MODE_0_2, Either),
    row(0x014b, Kind::TrkLoop, "trk_loop", 3, MODE_0_1, Either),
    row(0x0150, Kind::ImgImage, "img_image", 3, SERIES, Either),
    row(0x0153, Kind::TrkGoal, "trk_goal", 4, GOAL, Either),
    row(0x015a, Kind::TlmFlush, "tlm_flush", 2, NOTHING, Either),
    row(0x015c, Kind::FlushAuto, "flush_auto", 3, MODE_0_1, Either),
    row(0x7f01, Kind::Open, "open", 3, MACRO, NeverAppended),
    row(0x7f02, Kind::Close, "close", 2, NOTHING, NeverAppended),
    row(0x7f03, Kind::Run, "run", 3, MACRO, Either),
    row(0x7f04, Kind::Wait, "wait", 3, SECONDS, OnlyAppended),
    row(0x7f05, Kind::Stop, "stop", 2, NOTHING, NeverAppended),
    row(0x7f06, Kind::Clear, "clear", 2, NOTHING, NeverAppended),
];

/// The single just below 1024, and minus zero, which equals zero as a number
/// but has bits far above every allowed positive single.
pub const LARGEST_GOAL_BITS: u32 = 0x447f_ffff;
pub const MINUS_ZERO_BITS: u32 = 0x8000_0000;

/// Bits that every not-a-number counts as once a command is decoded.
pub const NAN_BITS: u32 = 0x7fc0_0000;

pub fn goal_is_allowed(bits: u32) -> bool {
    bits <= LARGEST_GOAL_BITS || bits == MINUS_ZERO_BITS
}

impl Argument {
    pub fn allows(&self, value: u32) -> bool {
        match self.allowed {
            Allowed::Range(low, high) => low <= value && value <= high,
            Allowed::Goal => goal_is_allowed(value),
        }
    }

    /// The lowest and the highest value allowed. (Minus zero is allowed besides, but
    /// does not count as an end.)
    pub fn ends(&self) -> [u32; 2] {
        match self.allowed {
            Allowed::Range(low, high) => [low, high],
            Allowed::Goal => [0, LARGEST_GOAL_BITS],
        }
    }

    /// Code 8, of a value found in this argument, which has the position from 0.
    pub(crate) fn refusal(&self, position: usize, value: u32) -> Refusal {
        let [low, high] = self.ends();
        Refusal::out_of_range(Finding {
            parameter: position as u8 + 1,
            value,
            low,
            high,
        })
    }

    /// The value cut to the field's width by the remainder.
    pub fn cut(&self, value: u32) -> u32 {
        (u64::from(value) % (1 << self.bits)) as u32
    }
}

/// A decoded command. Arguments that its kind does not have are 0.
#[derive(Clone, Copy, Debug, PartialEq, Eq)]
pub struct Command {
    pub appended: bool,
    pub kind: Kind,
    pub arguments: [u32; 2],
}

impl Kind {
    pub fn row(self) -> &'static Row {
        &TABLE[self as usize]
    }
}

impl Command {
    /// Cuts each argument to its field, so that any numbers give a command.
    pub fn new(appended: bool, kind: Kind, given: [u32; 2]) -> Self {
        let mut arguments = [0; 2];
        for (position, argument) in kind.row().arguments.iter().enumerate() {
            arguments[position] = argument.cut(given[position]);
        }
        Command {
            appended,
            kind,
            arguments,
        }
    }

    /// The same command once its goals have been singles, where only one
    /// not-a-number is told from the numbers.
    pub fn through_singles(mut self) -> Self {
        if self.kind == Kind::TrkGoal {
            self.arguments = self.arguments.map(single_bits);
        }
        self
    }

    /// The arguments that this kind really has.
    pub fn own_arguments(&self) -> &[u32] {
        &self.arguments[..self.kind.row().arguments.len()]
    }

    /// Whether it begins a series, when it is executed. With a time of 0 it does not:
    /// it ends the one under way.
    pub fn asks_for_images(&self) -> bool {
        let [time, _] = self.arguments;
        matches!(self.kind, Kind::ImgImage | Kind::ImgTrack) && time > 0
    }

    /// Codes 8, 9 and 10, in this order.
    pub fn judge(&self) -> Result<(), Refusal> {
        let row = self.kind.row();
        for (position, argument) in row.arguments.iter().enumerate() {
            let value = self.arguments[position];
            if !argument.allows(value) {
                return Err(argument.refusal(position, value));
            }
        }
        let rule = row.flag;
        refuse_if(self.appended && rule == NeverAppended, NEVER_APPENDED)?;
        refuse_if(!self.appended && rule == OnlyAppended, ONLY_APPENDED)
    }
}

fn single_bits(bits: u32) -> u32 {
    if f32::from_bits(bits).is_nan() {
        NAN_BITS
    } else {
        bits
    }
}
