//! Lists on a memory card: a raw list in its stored form (20, 1 to 10, 24), a stored one as
//! a raw list again (34 to 38, 5, 8 to 10, 20, 24), and the groups of seven bits in which
//! every number is stored.

use crate::codes::{
    refuse_if, Placed, Refusal, BAD_FLAG, BAD_NUMBER, LIST_LEFT_OVER, LIST_TOO_LONG,
    NUMBER_CUT_OFF, OTHER_FORM, UNKNOWN_OPCODE,
};
use crate::command::{Argument, Command, Row, TABLE};
use crate::run::{commands_of, LONGEST_LIST};
use crate::text::put;
use crate::wire::{read_command, sealed, unsealed};

/// The number that every stored list begins with.
pub const FORM: u32 = 1;
/// The longest stored list of which a program says what becomes of it.
pub const LONGEST_CARD: usize = 65_536;

const GROUP_BITS: u32 = 7;
/// The bit of a group that another one follows.
const MORE: u8 = 0x80;
/// As many groups as 32 bits need.
const MOST_GROUPS: usize = 5;

/// A number in its groups, the lowest first, as many as it needs.
fn groups(number: u32) -> Vec<u8> {
    let mut groups = Vec::new();
    let mut left = number;
    while left >= u32::from(MORE) {
        groups.push(left as u8 | MORE);
        left >>= GROUP_BITS;
    }
    groups.push(left as u8);
    groups
}

/// The number in these groups, of which only the last has no other behind it (35).
fn number_in(groups: &[u8]) -> Result<u32, Refusal> {
    let needless = groups.len() > 1 && groups.ends_with(&[0]);
    refuse_if(needless, BAD_NUMBER)?;
    refuse_if(groups.len() > MOST_GROUPS, BAD_NUMBER)?;
    let mut number: u64 = 0;
    for group in groups.iter().rev() {
        number = number << GROUP_BITS | u64::from(group & !MORE);
    }
    refuse_if(number > u64::from(u32::MAX), BAD_NUMBER)?;
    Ok(number as u32)
}

/// What is left of a stored list.
struct Stored<'a> {
    left: &'a [u8],
}

impl Stored<'_> {
    /// Takes the next number off. It ends before anything is asked of it (34, then 35).
    fn number(&mut self) -> Result<u32, Refusal> {
        let last = self.left.iter().position(|byte| byte & MORE == 0);
        let last = last.ok_or(Refusal::plain(NUMBER_CUT_OFF))?;
        let (groups, left) = self.left.split_at(last + 1);
        self.left = left;
        number_in(groups)
    }

    /// Takes the next command off, each of its numbers judged before the next is read.
    fn command(&mut self) -> Result<Command, Refusal> {
        let row = row_of(self.number()?)?;
        let appended = flag_of(self.number()?)?;
        let mut arguments = [0; 2];
        for (position, argument) in row.arguments.iter().enumerate() {
            arguments[position] = allowed(argument, position, self.number()?)?;
        }
        let command = Command {
            appended,
            kind: row.kind,
            arguments,
        };
        // Of 8, 9 and 10 the first cannot be due any more.
        command.judge()?;
        Ok(command)
    }
}

/// The row of an opcode, whatever bits the number has (5).
fn row_of(opcode: u32) -> Result<&'static Row, Refusal> {
    let row = TABLE.iter().find(|row| u32::from(row.opcode) == opcode);
    row.ok_or(Refusal::plain(UNKNOWN_OPCODE))
}

/// Whether a flag says that the command is to be appended (38).
fn flag_of(number: u32) -> Result<bool, Refusal> {
    match number {
        0 => Ok(false),
        1 => Ok(true),
        _ => Err(Refusal::plain(BAD_FLAG)),
    }
}

/// The number found for an argument, which is not cut to any width (8).
fn allowed(argument: &Argument, position: usize, value: u32) -> Result<u32, Refusal> {
    match argument.allows(value) {
        true => Ok(value),
        false => Err(argument.refusal(position, value)),
    }
}

/// The stored form of a raw list, or why it is refused before any room is looked at.
pub fn stored_form(raw: &[u8]) -> Result<Vec<u8>, Placed> {
    refuse_if(raw.len() > LONGEST_LIST, LIST_TOO_LONG)?;
    let commands = commands_of(raw);
    let mut stored = groups(FORM);
    stored.extend(groups(commands.len() as u32));
    for (number, bytes) in (1..).zip(commands) {
        let command = read_command(bytes).map_err(|refusal| refusal.at(number))?;
        stored.extend(stored_command(&command));
    }
    Ok(stored)
}

/// Opcode, flag, and as many arguments as the command has.
fn stored_command(command: &Command) -> Vec<u8> {
    let mut numbers = vec![command.kind.row().opcode.into(), command.appended.into()];
    numbers.extend(command.own_arguments());
    numbers.into_iter().flat_map(groups).collect()
}

/// The raw list of a stored one, or why it is refused before any room is looked at.
pub fn raw_form(stored: &[u8]) -> Result<Vec<u8>, Placed> {
    let mut stored = Stored { left: stored };
    refuse_if(stored.number()? != FORM, OTHER_FORM)?;
    // A number that is too large comes to the end of the bytes, one that is too small
    // leaves some over; by itself it may be any.
    let count = stored.number()?;
    let mut list = Vec::new();
    for number in 1..=count {
        let command = stored.command().map_err(|refusal| refusal.at(number))?;
        list.extend(sealed(&unsealed(&command)));
    }
    refuse_if(!stored.left.is_empty(), LIST_LEFT_OVER)?;
    refuse_if(list.len() > LONGEST_LIST, LIST_TOO_LONG)?;
    Ok(list)
}

/// Writes the stored form of a raw list and says how many bytes it took.
pub fn to_card(raw: &[u8], room: &mut [u8]) -> Result<usize, Placed> {
    put(&stored_form(raw)?, room)
}

/// Writes the raw list of a stored one and says how many bytes it took.
pub fn from_card(stored: &[u8], room: &mut [u8]) -> Result<usize, Placed> {
    put(&raw_form(stored)?, room)
}
