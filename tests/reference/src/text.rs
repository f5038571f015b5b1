//! Typed lists: the lines of a text, the command on a line (30 to 32, 8 to 10),
//! a text assembled into a raw list (20, 24), and a raw list as text (33).

use crate::codes::{
    refuse_if, Placed, Refusal, GOAL_NOT_SAID, LIST_TOO_LONG, MALFORMED_ARGUMENT, TOO_LITTLE_ROOM,
    UNKNOWN_NAME, WRONG_NUMBER_OF_ARGUMENTS,
};
use crate::command::{Command, TABLE};
use crate::numbers::{value_said, value_typed};
use crate::run::{commands_of, LONGEST_LIST};
use crate::wire::{read_command, sealed, unsealed};

pub const LONGEST_TEXT: usize = 32_768;

const LINE_FEED: u8 = b'\n';
const BLANK: u8 = b' ';
const REMARK: u8 = b'#';
const FLAG: u8 = b'+';

/// A command and the number of the line that it was typed on.
#[derive(Clone, Copy, Debug, PartialEq, Eq)]
pub struct TypedCommand {
    pub line: u32,
    pub command: Command,
}

/// The lines without their line feeds. Behind the last line feed there is a
/// line only if there is a byte.
pub fn lines_of(text: &[u8]) -> Vec<&[u8]> {
    let mut lines: Vec<&[u8]> = text.split(|byte| *byte == LINE_FEED).collect();
    if lines.last().is_some_and(|last| last.is_empty()) {
        lines.pop();
    }
    lines
}

/// The line of this number, empty where the text has none or is too long.
pub fn line_shown(text: &[u8], number: u32) -> &[u8] {
    if text.len() > LONGEST_TEXT {
        return &[];
    }
    let mut numbered = (1..).zip(lines_of(text));
    numbered.find(|(n, _)| *n == number).map_or(&[], |it| it.1)
}

/// The command on a line, none where the line is empty or a remark.
fn command_on(line: &[u8]) -> Result<Option<Command>, Refusal> {
    if line.is_empty() || line[0] == REMARK {
        return Ok(None);
    }
    let appended = line[0] == FLAG;
    let rest = if appended { &line[1..] } else { line };
    let mut words = rest.split(|byte| *byte == BLANK);
    let name = words.next().unwrap_or_default();
    let row = TABLE.iter().find(|row| row.name.as_bytes() == name);
    let row = row.ok_or(Refusal::plain(UNKNOWN_NAME))?;
    let words: Vec<&[u8]> = words.collect();
    let counted = words.len() == row.arguments.len();
    refuse_if(!counted, WRONG_NUMBER_OF_ARGUMENTS)?;
    let mut arguments = [0; 2];
    for (position, argument) in row.arguments.iter().enumerate() {
        let value = value_typed(argument, words[position]);
        arguments[position] = value.ok_or(Refusal::plain(MALFORMED_ARGUMENT))?;
    }
    let command = Command {
        appended,
        kind: row.kind,
        arguments,
    };
    command.judge()?;
    Ok(Some(command))
}

/// All commands of a text, or why it is refused before any room is looked at.
pub fn commands_typed(text: &[u8]) -> Result<Vec<TypedCommand>, Placed> {
    refuse_if(text.len() > LONGEST_TEXT, LIST_TOO_LONG)?;
    let mut commands = Vec::new();
    for (line, bytes) in (1..).zip(lines_of(text)) {
        let found = command_on(bytes).map_err(|refusal| refusal.at(line))?;
        commands.extend(found.map(|command| TypedCommand { line, command }));
    }
    refuse_if(raw_list(&commands).len() > LONGEST_LIST, LIST_TOO_LONG)?;
    Ok(commands)
}

/// The commands' bytes, one command after another.
pub fn raw_list(commands: &[TypedCommand]) -> Vec<u8> {
    let each = commands.iter();
    each.flat_map(|typed| sealed(&unsealed(&typed.command)))
        .collect()
}

/// Writes the raw list of a text and says how many bytes it took.
pub fn assemble(text: &[u8], room: &mut [u8]) -> Result<usize, Placed> {
    put(&raw_list(&commands_typed(text)?), room)
}

/// A command as its line, with its line feed.
fn line_of(command: &Command) -> Result<String, Refusal> {
    let row = command.kind.row();
    let flag = if command.appended { "+" } else { "" };
    let mut line = format!("{flag}{}", row.name);
    for (argument, value) in row.arguments.iter().zip(command.arguments) {
        let word = value_said(argument, value);
        line += &format!(" {}", word.ok_or(Refusal::plain(GOAL_NOT_SAID))?);
    }
    Ok(line + "\n")
}

/// The text of a raw list, or why it is refused before any room is looked at.
pub fn text_of(raw: &[u8]) -> Result<String, Placed> {
    refuse_if(raw.len() > LONGEST_LIST, LIST_TOO_LONG)?;
    let mut text = String::new();
    for (number, bytes) in (1..).zip(commands_of(raw)) {
        let line = read_command(bytes).and_then(|command| line_of(&command));
        text += &line.map_err(|refusal| refusal.at(number))?;
    }
    Ok(text)
}

/// Writes the text of a raw list and says how many bytes it took.
pub fn list_text(raw: &[u8], room: &mut [u8]) -> Result<usize, Placed> {
    put(text_of(raw)?.as_bytes(), room)
}

/// Writes the bytes at the start of the room and says how many there are.
pub(crate) fn put(bytes: &[u8], room: &mut [u8]) -> Result<usize, Placed> {
    refuse_if(bytes.len() > room.len(), TOO_LITTLE_ROOM)?;
    room[..bytes.len()].copy_from_slice(bytes);
    Ok(bytes.len())
}
