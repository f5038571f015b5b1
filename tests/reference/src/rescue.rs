//! The rescue of a damaged list: which of its bytes are commands that pass 1 to 8, and so are
//! kept, which stretches between them are skipped, and both written, each into its own room
//! (20, 24).

use crate::codes::{
    code_and_finding, refuse_if, Refusal, LIST_TOO_LONG, OUT_OF_RANGE, TOO_LITTLE_ROOM, TOO_SHORT,
};
use crate::run::LONGEST_LIST;
use crate::wire::{extent, read_command};

/// A stretch in its room: start and length, in two bytes each.
pub const STRETCH_BYTES: usize = 4;

/// Skipped bytes one behind another, with kept ones or an end of the list on either side.
#[derive(Clone, Copy, Debug, PartialEq, Eq)]
pub struct Stretch {
    pub start: u16,
    pub length: u16,
}

/// What becomes of the bytes of a list.
#[derive(Clone, Debug, Default, PartialEq, Eq)]
pub struct Rescued {
    pub kept: Vec<u8>,
    pub stretches: Vec<Stretch>,
}

/// How much was written: bytes of commands, and stretches.
#[derive(Clone, Copy, Debug, Default, PartialEq, Eq)]
pub struct Written {
    pub kept: usize,
    pub stretches: usize,
}

impl Stretch {
    fn bytes(&self) -> [u8; STRETCH_BYTES] {
        let ([a, b], [c, d]) = (self.start.to_be_bytes(), self.length.to_be_bytes());
        [a, b, c, d]
    }

    /// The stretch that these four bytes of its room tell.
    pub fn read(bytes: &[u8]) -> Self {
        Stretch {
            start: u16::from_be_bytes([bytes[0], bytes[1]]),
            length: u16::from_be_bytes([bytes[2], bytes[3]]),
        }
    }

    /// The line that tells of it.
    pub fn line(&self) -> String {
        let Stretch { start, length } = self;
        format!("skipped {start} {length}\n")
    }
}

impl Rescued {
    /// The byte at this place goes into the last stretch where it stands right behind it,
    /// and begins one of its own where it does not.
    fn skip(&mut self, at: u16) {
        match self.stretches.last_mut() {
            Some(last) if last.start + last.length == at => last.length += 1,
            _ => self.stretches.push(Stretch {
                start: at,
                length: 1,
            }),
        }
    }
}

/// The command at the front of what is left, where reading it gives none of the codes 1 to
/// 8. Nothing is asked of its flag: 9 and 10 are no damage.
fn kept_command(left: &[u8]) -> Option<&[u8]> {
    let (code, _) = code_and_finding(&read_command(left));
    match code {
        TOO_SHORT..=OUT_OF_RANGE => None,
        _ => Some(&left[..extent(left).ok()?]),
    }
}

/// What is kept of a list and what is skipped, or why it is refused before any room is
/// looked at.
pub fn rescued(list: &[u8]) -> Result<Rescued, Refusal> {
    refuse_if(list.len() > LONGEST_LIST, LIST_TOO_LONG)?;
    let mut rescued = Rescued::default();
    let mut at = 0;
    while at < list.len() {
        match kept_command(&list[at..]) {
            Some(command) => {
                rescued.kept.extend(command);
                at += command.len();
            }
            None => {
                rescued.skip(at as u16);
                at += 1;
            }
        }
    }
    Ok(rescued)
}

/// Writes what is kept to the front of the room, and the stretches to the front of the one
/// beside it. Nothing is written before both are known to suffice.
pub fn rescue(list: &[u8], room: &mut [u8], beside: &mut [u8]) -> Result<Written, Refusal> {
    let Rescued { kept, stretches } = rescued(list)?;
    let told: Vec<u8> = stretches.iter().flat_map(Stretch::bytes).collect();
    refuse_if(kept.len() > room.len(), TOO_LITTLE_ROOM)?;
    refuse_if(told.len() > beside.len(), TOO_LITTLE_ROOM)?;
    room[..kept.len()].copy_from_slice(&kept);
    beside[..told.len()].copy_from_slice(&told);
    Ok(Written {
        kept: kept.len(),
        stretches: stretches.len(),
    })
}
