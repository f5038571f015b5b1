//! The index of a list: the offset where the bytes of each command begin, built anew or
//! extended from an earlier one (20, 54, 24), and a command looked up through it.

use crate::codes::{refuse_if, Refusal, BAD_OFFSETS, LIST_TOO_LONG, TOO_LITTLE_ROOM};
use crate::run::LONGEST_LIST;
use crate::wire::extent;

/// As many commands as the longest list can have.
pub const MOST_OFFSETS: usize = 512;

/// Writes the index of the list to the front of the room, extended from these offsets or,
/// where there are none, built anew; the answer is the number of offsets.
pub fn index(list: &[u8], earlier: &[u16], room: &mut [u16]) -> Result<usize, Refusal> {
    refuse_if(list.len() > LONGEST_LIST, LIST_TOO_LONG)?;
    judge(list, earlier)?;
    let offsets = extended(list, earlier);
    refuse_if(offsets.len() > MOST_OFFSETS, TOO_LITTLE_ROOM)?;
    refuse_if(offsets.len() > room.len(), TOO_LITTLE_ROOM)?;
    write(&offsets, room);
    Ok(offsets.len())
}

/// Code 54, one rule after another; no offsets at all are fine.
fn judge(list: &[u8], offsets: &[u16]) -> Result<(), Refusal> {
    let starts_elsewhere = offsets.first().is_some_and(|first| *first != 0);
    let does_not_rise = offsets.windows(2).any(|pair| pair[1] <= pair[0]);
    let lies_outside = offsets.iter().any(|one| usize::from(*one) >= list.len());
    refuse_if(offsets.len() > MOST_OFFSETS, BAD_OFFSETS)?;
    refuse_if(starts_elsewhere, BAD_OFFSETS)?;
    refuse_if(does_not_rise, BAD_OFFSETS)?;
    refuse_if(lies_outside, BAD_OFFSETS)
}

/// All offsets but the last stay as they are. The list is walked from the last one, whose
/// command may have had code 1, 2 or 3 while the list was shorter.
fn extended(list: &[u8], earlier: &[u16]) -> Vec<u16> {
    let mut offsets = earlier.to_vec();
    let mut at = offsets.pop().map_or(0, usize::from);
    while at < list.len() {
        offsets.push(at as u16);
        at += span(&list[at..]);
    }
    offsets
}

/// How many bytes belong to the command at the front of what is left: with code 1, 2 or 3
/// all of them.
fn span(left: &[u8]) -> usize {
    extent(left).unwrap_or(left.len())
}

fn write(offsets: &[u16], room: &mut [u16]) {
    for (place, offset) in room.iter_mut().zip(offsets) {
        *place = *offset;
    }
}

/// The bytes of the command of this number, from 1, which begins where the offset of that
/// number says. Nothing is asked of the other offsets.
pub fn found<'a>(list: &'a [u8], offsets: &[u16], number: u32) -> &'a [u8] {
    if list.len() > LONGEST_LIST {
        return &[];
    }
    let mut numbered = (1..).zip(offsets);
    let offset = numbered.find(|(n, _)| *n == number).map(|it| *it.1);
    let left = offset.and_then(|offset| list.get(offset.into()..));
    left.map_or(&[], |left| &left[..span(left)])
}
