//! The status frame of 32 bytes: reading one (codes 22, 23), writing one
//! (23, 24), and the rules that both hold its fields to.

use crate::codes::{refuse_if, Refusal, BAD_FIELD, NOT_A_FRAME, TOO_LITTLE_ROOM};
use crate::command::{goal_is_allowed, LARGEST_CORNER};
use crate::macros::{LONGEST_MACRO, MACROS};

pub const FRAME_BYTES: usize = 32;
pub const AT_IMAGE_TIME: usize = 0;
pub const AT_IMAGE_INTERVAL: usize = 2;
pub const AT_TRACK_TIME: usize = 4;
pub const AT_TRACK_INTERVAL: usize = 6;
pub const AT_IMAGES: usize = 8;
pub const AT_TRACK_IMAGES: usize = 10;
pub const AT_X: usize = 12;
pub const AT_Y: usize = 14;
pub const AT_GOAL_X: usize = 16;
pub const AT_GOAL_Y: usize = 20;
pub const AT_MODES: usize = 24;
pub const AT_FLUSHES: usize = 25;
pub const AT_RUNNING: usize = 26;
pub const AT_OPEN: usize = 27;
pub const AT_SECONDS_LEFT: usize = 28;
pub const AT_CLOSED: usize = 30;
pub const AT_CLOSED_COUNT: usize = 31;

/// Stands in bytes 26 and 27 for "no macro".
pub const NO_MACRO: u8 = 255;

const POWER: u8 = 0b0000_0001;
const AUTO_FLUSH: u8 = 0b0000_0010;
const CLOSED_LOOP: u8 = 0b0000_0100;
const ALGORITHM: u8 = 0b0011_0000;
const ALGORITHM_SHIFT: u32 = 4;
const ALWAYS_ZERO: u8 = 0b1100_1000;
const HIGHEST_ALGORITHM: u8 = 2;

/// The frame's fields. How many closed bits are ones is no field: the writer
/// counts them and the reader checks the count.
#[derive(Clone, Debug, PartialEq, Eq)]
pub struct Frame {
    pub image_time: u16,
    pub image_interval: u16,
    pub track_time: u16,
    pub track_interval: u16,
    pub images: u16,
    pub track_images: u16,
    pub corner: [u16; 2],
    pub goal: [u32; 2],
    pub power: bool,
    pub auto_flush: bool,
    pub closed_loop: bool,
    pub algorithm: u8,
    pub flushes: u8,
    pub running: Option<u8>,
    pub open: Option<u8>,
    pub seconds_left: u16,
    pub closed: u8,
}

fn half(bytes: &[u8], at: usize) -> u16 {
    u16::from_be_bytes([bytes[at], bytes[at + 1]])
}

fn word(bytes: &[u8], at: usize) -> u32 {
    u32::from(half(bytes, at)) << 16 | u32::from(half(bytes, at + 2))
}

fn ones(bits: u8) -> u8 {
    (0..8).map(|bit| bits >> bit & 1).sum()
}

/// Byte 26 or 27: a macro's number, or 255 for none.
fn macro_at(bytes: &[u8], at: usize) -> Result<Option<u8>, Refusal> {
    match bytes[at] {
        NO_MACRO => Ok(None),
        number if usize::from(number) < MACROS => Ok(Some(number)),
        _ => Err(Refusal::plain(BAD_FIELD)),
    }
}

impl Frame {
    pub fn read(bytes: &[u8]) -> Result<Frame, Refusal> {
        refuse_if(bytes.len() != FRAME_BYTES, NOT_A_FRAME)?;
        let modes = bytes[AT_MODES];
        refuse_if(modes & ALWAYS_ZERO != 0, BAD_FIELD)?;
        refuse_if(bytes[AT_CLOSED_COUNT] != ones(bytes[AT_CLOSED]), BAD_FIELD)?;
        let frame = Frame {
            image_time: half(bytes, AT_IMAGE_TIME),
            image_interval: half(bytes, AT_IMAGE_INTERVAL),
            track_time: half(bytes, AT_TRACK_TIME),
            track_interval: half(bytes, AT_TRACK_INTERVAL),
            images: half(bytes, AT_IMAGES),
            track_images: half(bytes, AT_TRACK_IMAGES),
            corner: [half(bytes, AT_X), half(bytes, AT_Y)],
            goal: [word(bytes, AT_GOAL_X), word(bytes, AT_GOAL_Y)],
            power: modes & POWER != 0,
            auto_flush: modes & AUTO_FLUSH != 0,
            closed_loop: modes & CLOSED_LOOP != 0,
            algorithm: (modes & ALGORITHM) >> ALGORITHM_SHIFT,
            flushes: bytes[AT_FLUSHES],
            running: macro_at(bytes, AT_RUNNING)?,
            open: macro_at(bytes, AT_OPEN)?,
            seconds_left: half(bytes, AT_SECONDS_LEFT),
            closed: bytes[AT_CLOSED],
        };
        frame.judge()?;
        Ok(frame)
    }

    /// The rules that speak of fields rather than of single bytes.
    pub(crate) fn judge(&self) -> Result<(), Refusal> {
        let bad = |broken: bool| refuse_if(broken, BAD_FIELD);
        bad(self.image_interval < 1)?;
        bad(self.track_interval < 1)?;
        bad(u32::from(self.corner[0]) > LARGEST_CORNER)?;
        bad(u32::from(self.corner[1]) > LARGEST_CORNER)?;
        bad(!goal_is_allowed(self.goal[0]))?;
        bad(!goal_is_allowed(self.goal[1]))?;
        bad(self.algorithm > HIGHEST_ALGORITHM)?;
        bad((self.seconds_left == 0) != self.running.is_none())?;
        bad(usize::from(self.seconds_left) > LONGEST_MACRO)?;
        bad(self.running.is_some_and(|number| !self.is_closed(number)))?;
        bad(self.open.is_some_and(|number| self.is_closed(number)))
    }

    fn is_closed(&self, number: u8) -> bool {
        self.closed >> number & 1 == 1
    }

    /// Byte 24, all modes in one.
    fn modes(&self) -> u8 {
        let mut modes = self.algorithm << ALGORITHM_SHIFT;
        if self.power {
            modes |= POWER;
        }
        if self.auto_flush {
            modes |= AUTO_FLUSH;
        }
        if self.closed_loop {
            modes |= CLOSED_LOOP;
        }
        modes
    }

    fn bytes(&self) -> Vec<u8> {
        let mut bytes = Vec::with_capacity(FRAME_BYTES);
        bytes.extend(self.image_time.to_be_bytes());
        bytes.extend(self.image_interval.to_be_bytes());
        bytes.extend(self.track_time.to_be_bytes());
        bytes.extend(self.track_interval.to_be_bytes());
        bytes.extend(self.images.to_be_bytes());
        bytes.extend(self.track_images.to_be_bytes());
        bytes.extend(self.corner[0].to_be_bytes());
        bytes.extend(self.corner[1].to_be_bytes());
        bytes.extend(self.goal[0].to_be_bytes());
        bytes.extend(self.goal[1].to_be_bytes());
        bytes.push(self.modes());
        bytes.push(self.flushes);
        bytes.push(self.running.unwrap_or(NO_MACRO));
        bytes.push(self.open.unwrap_or(NO_MACRO));
        bytes.extend(self.seconds_left.to_be_bytes());
        bytes.push(self.closed);
        bytes.push(ones(self.closed));
        bytes
    }

    /// Writes the frame at the start of the room.
    pub fn write(&self, room: &mut [u8]) -> Result<usize, Refusal> {
        self.judge()?;
        refuse_if(room.len() < FRAME_BYTES, TOO_LITTLE_ROOM)?;
        room[..FRAME_BYTES].copy_from_slice(&self.bytes());
        Ok(FRAME_BYTES)
    }
}
