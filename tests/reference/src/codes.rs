//! The numbered answers of the rules, in the order in which they are tried (but
//! 25 stands behind 15, 26 between 10 and 11, of a stored list 34 to 38 stand about
//! 5 to 10 and before 20, and of a queueing 27 and 51 stand before 1, 53 before 52), the
//! refusal that carries one of them with what was wrong with a number, and the place in a
//! text or a list where it was found.

use std::fmt;

pub const ACCEPTED: u8 = 0;
pub const TOO_SHORT: u8 = 1;
pub const BAD_LENGTH: u8 = 2;
pub const CUT_OFF: u8 = 3;
pub const BAD_XOR: u8 = 4;
pub const UNKNOWN_OPCODE: u8 = 5;
pub const WRONG_LENGTH: u8 = 6;
pub const PAD_NOT_ZERO: u8 = 7;
pub const OUT_OF_RANGE: u8 = 8;
pub const NEVER_APPENDED: u8 = 9;
pub const ONLY_APPENDED: u8 = 10;
pub const NO_MACRO_OPEN: u8 = 11;
pub const OPEN_WHILE_OPEN: u8 = 12;
pub const OPEN_OF_CLOSED: u8 = 13;
pub const CLOSE_WITHOUT_ENTRIES: u8 = 14;
pub const CLOSE_TOO_LONG: u8 = 15;
pub const NO_ENTRY_FREE: u8 = 16;
pub const TARGET_NOT_BELOW: u8 = 17;
pub const TARGET_NOT_CLOSED: u8 = 18;
pub const MACRO_RUNS: u8 = 19;
pub const LIST_TOO_LONG: u8 = 20;
pub const REPORT_ROOM_TOO_SMALL: u8 = 21;
pub const NOT_A_FRAME: u8 = 22;
pub const BAD_FIELD: u8 = 23;
pub const TOO_LITTLE_ROOM: u8 = 24;
pub const CLOSE_TOO_FULL: u8 = 25;
pub const POWER_OFF: u8 = 26;
pub const UNSOUND: u8 = 27;
pub const UNKNOWN_NAME: u8 = 30;
pub const MALFORMED_ARGUMENT: u8 = 31;
pub const WRONG_NUMBER_OF_ARGUMENTS: u8 = 32;
pub const GOAL_NOT_SAID: u8 = 33;
pub const NUMBER_CUT_OFF: u8 = 34;
pub const BAD_NUMBER: u8 = 35;
pub const OTHER_FORM: u8 = 36;
pub const LIST_LEFT_OVER: u8 = 37;
pub const BAD_FLAG: u8 = 38;
pub const NOT_64_BYTES: u8 = 40;
pub const BAD_SUM: u8 = 41;
pub const OTHER_IDENTIFIER: u8 = 42;
pub const UNUSED_NOT_ZERO: u8 = 43;
pub const NEITHER_PATTERN: u8 = 44;
pub const NOT_ARMED: u8 = 45;
pub const WRONG_FIRING_CODE: u8 = 46;
pub const ITEM_CUT_OFF: u8 = 47;
pub const UNEXPECTED_TAG: u8 = 48;
pub const WRONG_ITEM_LENGTH: u8 = 49;
pub const BYTES_LEFT_OVER: u8 = 50;
pub const NO_SUCH_SEAT: u8 = 51;
pub const QUEUE_FULL: u8 = 52;
pub const BYTES_FOLLOW: u8 = 53;
pub const BAD_OFFSETS: u8 = 54;

/// Whether one of the replay programs can show the code. 27 is left out on purpose: a state
/// reached from a fresh bench is always sound, and replay reaches no other.
pub fn can_be_shown(code: u8) -> bool {
    matches!(
        code,
        ACCEPTED..=POWER_OFF
            | UNKNOWN_NAME..=BAD_FLAG
            | NOT_64_BYTES..=WRONG_FIRING_CODE
            | ITEM_CUT_OFF..=BAD_OFFSETS
    )
}

/// What was wrong with a number: the first bad argument by its position from 1, the
/// value found there, and the lowest and highest allowed. Those of a goal are bits. All
/// four are 0 unless the code is 8.
#[derive(Clone, Copy, Debug, Default, PartialEq, Eq)]
pub struct Finding {
    pub parameter: u8,
    pub value: u32,
    pub low: u32,
    pub high: u32,
}

/// The four numbers as a transcript has them.
impl fmt::Display for Finding {
    fn fmt(&self, line: &mut fmt::Formatter) -> fmt::Result {
        let Finding {
            parameter,
            value,
            low,
            high,
        } = self;
        write!(line, "{parameter} {value} {low} {high}")
    }
}

/// Why something was not taken.
#[derive(Clone, Copy, Debug, PartialEq, Eq)]
pub struct Refusal {
    pub code: u8,
    pub finding: Finding,
}

impl Refusal {
    pub fn plain(code: u8) -> Self {
        Refusal {
            code,
            finding: Finding::default(),
        }
    }

    /// Code 8.
    pub fn out_of_range(finding: Finding) -> Self {
        Refusal {
            code: OUT_OF_RANGE,
            finding,
        }
    }
}

/// A refusal and the number, from 1, of the line or the command at which it was
/// found; 0 where it is about the whole.
#[derive(Clone, Copy, Debug, PartialEq, Eq)]
pub struct Placed {
    pub place: u32,
    pub refusal: Refusal,
}

impl From<Refusal> for Placed {
    fn from(refusal: Refusal) -> Self {
        Placed { place: 0, refusal }
    }
}

impl Refusal {
    pub fn at(self, place: u32) -> Placed {
        Placed {
            place,
            refusal: self,
        }
    }
}

/// One row of the order of checks: lets a list of calls read like the table.
pub fn refuse_if(condition: bool, code: u8) -> Result<(), Refusal> {
    if condition {
        Err(Refusal::plain(code))
    } else {
        Ok(())
    }
}

/// Code and finding of any answer, acceptance being zeros throughout.
pub fn code_and_finding<T>(answer: &Result<T, Refusal>) -> (u8, Finding) {
    match answer {
        Ok(_) => (ACCEPTED, Finding::default()),
        Err(refusal) => (refusal.code, refusal.finding),
    }
}
