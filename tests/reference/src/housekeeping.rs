//! The housekeeping frame of 18 bytes, four items of tag, length and value: reading one
//! (codes 47 to 50) and writing one (24).

use std::fmt;

use crate::codes::{
    refuse_if, Refusal, BYTES_LEFT_OVER, ITEM_CUT_OFF, TOO_LITTLE_ROOM, UNEXPECTED_TAG,
    WRONG_ITEM_LENGTH,
};

/// What stands before an item's value: its tag, and how many bytes the value has.
pub type Heading = [u8; HEADING_BYTES];

pub const HEADING_BYTES: usize = 2;
pub const RECEIVED: Heading = [0x12, 4];
pub const FAILED: Heading = [0x13, 4];
pub const FAILED_CODE: Heading = [0x14, 1];
pub const FREE: Heading = [0x15, 1];
pub const HOUSEKEEPING_BYTES: usize = 18;

/// The values of the four items. None is judged: a frame may come from any bench.
#[derive(Clone, Copy, Debug, PartialEq, Eq)]
pub struct Housekeeping {
    pub received: u32,
    pub failed: u32,
    pub failed_code: u8,
    pub free: u8,
}

/// The four numbers as a transcript has them.
impl fmt::Display for Housekeeping {
    fn fmt(&self, line: &mut fmt::Formatter) -> fmt::Result {
        let Housekeeping {
            received,
            failed,
            failed_code,
            free,
        } = self;
        write!(line, "{received} {failed} {failed_code} {free}")
    }
}

/// Takes the item with this heading off the front of what is left; the answer is its
/// value. How long the item is to be is known beforehand, whatever its length byte says.
fn value<'a>(left: &mut &'a [u8], [tag, length]: Heading) -> Result<&'a [u8], Refusal> {
    let whole = HEADING_BYTES + usize::from(length);
    refuse_if(left.len() < whole, ITEM_CUT_OFF)?;
    refuse_if(left[0] != tag, UNEXPECTED_TAG)?;
    refuse_if(left[1] != length, WRONG_ITEM_LENGTH)?;
    let (item, rest) = left.split_at(whole);
    *left = rest;
    Ok(&item[HEADING_BYTES..])
}

fn number(value: &[u8]) -> u32 {
    let bytes = value.iter().map(|byte| u32::from(*byte));
    bytes.fold(0, |number, byte| number << 8 | byte)
}

impl Housekeeping {
    pub fn read(bytes: &[u8]) -> Result<Self, Refusal> {
        let mut left = bytes;
        let told = Housekeeping {
            received: number(value(&mut left, RECEIVED)?),
            failed: number(value(&mut left, FAILED)?),
            failed_code: value(&mut left, FAILED_CODE)?[0],
            free: value(&mut left, FREE)?[0],
        };
        refuse_if(!left.is_empty(), BYTES_LEFT_OVER)?;
        Ok(told)
    }

    pub fn bytes(&self) -> Vec<u8> {
        let mut bytes = Vec::with_capacity(HOUSEKEEPING_BYTES);
        bytes.extend(RECEIVED);
        bytes.extend(self.received.to_be_bytes());
        bytes.extend(FAILED);
        bytes.extend(self.failed.to_be_bytes());
        bytes.extend(FAILED_CODE);
        bytes.push(self.failed_code);
        bytes.extend(FREE);
        bytes.push(self.free);
        bytes
    }

    /// Writes the frame at the start of the room.
    pub fn write(&self, room: &mut [u8]) -> Result<usize, Refusal> {
        refuse_if(room.len() < HOUSEKEEPING_BYTES, TOO_LITTLE_ROOM)?;
        room[..HOUSEKEEPING_BYTES].copy_from_slice(&self.bytes());
        Ok(HOUSEKEEPING_BYTES)
    }
}
