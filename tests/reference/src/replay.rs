//! The replay program: a script of items in, a transcript of one line for each
//! answer out. An item that is cut off changes nothing before it ends the replay.

use crate::bench::{Bench, Handed};
use crate::codes::{code_and_finding, Placed, Refusal};
use crate::command::{Command, COMMANDS, TABLE};
use crate::frame::{Frame, FRAME_BYTES};
use crate::housekeeping::Housekeeping;
use crate::run::{run_lists, shown, Counts, RECORD_BYTES};
use crate::text::{assemble, line_shown, list_text};
use crate::typed::run_typed;
use crate::wire::{read_command, write_command};

pub const LONGEST_SCRIPT: usize = 65_536;
pub const LARGEST_ROOM: usize = 13_000;
/// What a room holds before anything is written into it.
pub const ROOM_FILL: u8 = 0xaa;
/// Room for a decoded command: the longest of the table just fits.
pub const DECODED_ROOM: usize = 16;

pub const SECOND: u8 = 0x00;
pub const COMMAND: u8 = 0x01;
pub const STATUS: u8 = 0x02;
pub const RUN: u8 = 0x03;
pub const FRESH: u8 = 0x04;
pub const SHOWN: u8 = 0x05;
pub const FRAME: u8 = 0x06;
pub const READ: u8 = 0x07;
pub const PASSED: u8 = 0x08;
pub const DECODED: u8 = 0x09;
pub const ASSEMBLE: u8 = 0x0a;
pub const LIST: u8 = 0x0b;
pub const TYPED: u8 = 0x0c;
pub const LINE: u8 = 0x0d;
pub const HOUSEKEEPING: u8 = 0x0e;
pub const TAGS: u8 = 0x0f;

/// What is left of a script; each taking is none where the script is cut off.
pub struct Script<'a> {
    rest: &'a [u8],
}

impl<'a> Script<'a> {
    pub fn new(bytes: &'a [u8]) -> Self {
        Script { rest: bytes }
    }

    fn part(&mut self, length: usize) -> Option<&'a [u8]> {
        let (part, rest) = self.rest.split_at_checked(length)?;
        self.rest = rest;
        Some(part)
    }

    pub(crate) fn byte(&mut self) -> Option<u8> {
        Some(self.part(1)?[0])
    }

    pub(crate) fn half(&mut self) -> Option<usize> {
        let part = self.part(2)?;
        Some(usize::from(part[0]) << 8 | usize::from(part[1]))
    }

    pub(crate) fn word(&mut self) -> Option<u32> {
        Some((self.half()? as u32) << 16 | self.half()? as u32)
    }

    /// A room as long as the script says, up to the limit.
    pub(crate) fn room(&mut self) -> Option<Vec<u8>> {
        let length = self.half()?.min(LARGEST_ROOM);
        Some(vec![ROOM_FILL; length])
    }

    /// A part whose length stands before it in one byte.
    pub(crate) fn short_part(&mut self) -> Option<&'a [u8]> {
        let length = self.byte()?;
        self.part(length.into())
    }

    /// A part whose length stands before it in two bytes.
    pub(crate) fn long_part(&mut self) -> Option<&'a [u8]> {
        let length = self.half()?;
        self.part(length)
    }
}

pub fn hex(bytes: &[u8]) -> String {
    bytes.iter().map(|byte| format!("{byte:02x}")).collect()
}

/// The whole transcript of a script.
pub fn transcript(script: &[u8]) -> String {
    let mut replay = Replay::default();
    transcript_by(script, |left| replay.item(left))
}

/// The same for any replay program, by what takes one item off its scripts.
pub(crate) fn transcript_by(
    script: &[u8],
    mut item: impl FnMut(&mut Script) -> Option<String>,
) -> String {
    if script.len() > LONGEST_SCRIPT {
        return "too long\n".into();
    }
    let mut left = Script::new(script);
    let mut text = String::new();
    while !left.rest.is_empty() {
        match item(&mut left) {
            Some(lines) => text += &lines,
            None => return text + "bad script\n",
        }
    }
    text
}

/// A bench that takes one item of a script after another.
#[derive(Clone, Default)]
pub struct Replay {
    pub bench: Bench,
}

impl Replay {
    /// Takes one item off the script and answers with its lines.
    pub fn item(&mut self, script: &mut Script) -> Option<String> {
        match script.byte()? {
            SECOND => Some(second_lines(&self.bench.second())),
            COMMAND => Some(self.command(script.short_part()?)),
            STATUS => Some(status_line(Ok(self.bench.frame()))),
            RUN => self.run(script),
            FRESH => {
                self.bench = Bench::default();
                Some(String::new())
            }
            SHOWN => shown_line(script),
            FRAME => Some(frame_line(script.byte()?.into(), script.short_part()?)),
            READ => Some(read_line(script.byte()?.into(), script.short_part()?)),
            PASSED => Some(self.passed(script.half()?)),
            DECODED => self.decoded(script),
            ASSEMBLE => written_lines("assembled", assemble, script),
            LIST => written_lines("listed", list_text, script),
            TYPED => self.typed(script),
            LINE => line_line(script),
            HOUSEKEEPING => Some(self.housekeeping(script.byte()?.into())),
            TAGS => Some(tags_line(script.byte()?.into(), script.short_part()?)),
            _ => None,
        }
    }

    fn command(&mut self, bytes: &[u8]) -> String {
        let (code, finding) = code_and_finding(&self.bench.carry_out_bytes(bytes));
        format!("command {code} {finding}\n")
    }

    fn housekeeping(&self, room: usize) -> String {
        let mut room = vec![ROOM_FILL; room];
        let told = self.bench.housekeeping();
        match told.write(&mut room) {
            Ok(length) => format!("housekeeping 0 {told} {}\n", hex(&room[..length])),
            Err(refusal) => format!("housekeeping {}\n", refusal.code),
        }
    }

    fn run(&mut self, script: &mut Script) -> Option<String> {
        let mut room = script.room()?;
        let (kit, pupil) = (script.long_part()?, script.long_part()?);
        let answer = run_lists(&mut self.bench, kit, pupil, &mut room);
        let (code, _) = code_and_finding(&answer);
        let counts = answer.unwrap_or_default();
        Some(report_lines(&format!("run {code}"), counts, &room))
    }

    fn typed(&mut self, script: &mut Script) -> Option<String> {
        let mut room = script.room()?;
        let (kit, text) = (script.long_part()?, script.long_part()?);
        let answer = run_typed(&mut self.bench, kit, text, &mut room);
        let start = format!("typed {}", placed_words(&answer));
        Some(report_lines(&start, answer.unwrap_or_default(), &room))
    }

    fn passed(&mut self, seconds: usize) -> String {
        let handed = (0..seconds).map(|_| self.bench.second().len());
        format!("passed {}\n", handed.sum::<usize>())
    }

    fn decoded(&mut self, script: &mut Script) -> Option<String> {
        let (flag, row) = (script.byte()?, script.byte()?);
        let arguments = [script.word()?, script.word()?];
        let kind = TABLE[usize::from(row) % COMMANDS].kind;
        let command = Command::new(flag % 2 == 1, kind, arguments).through_singles();
        let (code, finding) = code_and_finding(&self.bench.carry_out(&command));
        let mut room = [ROOM_FILL; DECODED_ROOM];
        let written = write_command(&command, &mut room);
        let words = written_words(&written, &room);
        Some(format!("decoded {code} {finding} {words}\n"))
    }
}

/// A writer's code and, where it is 0, the bytes it wrote.
pub(crate) fn written_words(written: &Result<usize, Refusal>, room: &[u8]) -> String {
    match written {
        Ok(length) => format!("0 {}", hex(&room[..*length])),
        Err(refusal) => refusal.code.to_string(),
    }
}

/// The frame as it is written, or why there is none.
pub(crate) fn status_line(frame: Result<Frame, Refusal>) -> String {
    let mut room = [ROOM_FILL; FRAME_BYTES];
    match frame.and_then(|frame| frame.write(&mut room)) {
        Ok(_) => format!("status {}\n", hex(&room)),
        Err(refusal) => format!("status {}\n", refusal.code),
    }
}

/// How many entries a second handed over, and a line to each with its code.
pub(crate) fn second_lines(handed: &[Handed]) -> String {
    let mut lines = format!("second 0 {}\n", handed.len());
    for Handed { code, command } in handed {
        lines += &format!("handed {code} {}", command.kind.row().name);
        for argument in command.own_arguments() {
            lines += &format!(" {argument}");
        }
        lines += "\n";
    }
    lines
}

/// The lines of a run, whose first begins with these words.
fn report_lines(start: &str, counts: Counts, room: &[u8]) -> String {
    let records = RECORD_BYTES * (counts.kit + counts.pupil);
    let mut lines = format!("{start} {} {}\n", counts.kit, counts.pupil);
    for record in room[..records].chunks_exact(RECORD_BYTES) {
        lines += &format!("record {}\n", hex(record));
    }
    lines + &rest_line(room, ROOM_FILL, records)
}

/// Whether the places of a room behind what was written are filled as they were.
pub(crate) fn rest_line<T: PartialEq>(room: &[T], fill: T, written: usize) -> String {
    let mut rest = room.iter().enumerate().skip(written);
    match rest.find(|(_, held)| **held != fill) {
        None => "rest same\n".into(),
        Some((place, _)) => format!("rest {place}\n"),
    }
}

/// Code, place and finding of any answer, acceptance being zeros throughout.
fn placed_words<T>(answer: &Result<T, Placed>) -> String {
    match answer {
        Ok(_) => "0 0 0 0 0 0".into(),
        Err(Placed { place, refusal }) => format!("{} {place} {}", refusal.code, refusal.finding),
    }
}

/// The lines of a writer that takes a whole text or list.
pub(crate) fn written_lines(
    name: &str,
    writer: fn(&[u8], &mut [u8]) -> Result<usize, Placed>,
    script: &mut Script,
) -> Option<String> {
    let mut room = script.room()?;
    let answer = writer(script.long_part()?, &mut room);
    let words = placed_words(&answer);
    let written = answer.unwrap_or_default();
    let first = with_bytes(&format!("{name} {words}"), &room[..written]);
    Some(first + &rest_line(&room, ROOM_FILL, written))
}

/// A line of words and then bytes in hex, without a blank where there are none.
pub(crate) fn with_bytes(words: &str, bytes: &[u8]) -> String {
    let blank = if bytes.is_empty() { "" } else { " " };
    format!("{words}{blank}{}\n", hex(bytes))
}

fn shown_line(script: &mut Script) -> Option<String> {
    let (kit, pupil) = (script.long_part()?, script.long_part()?);
    let (sender, number) = (script.byte()?, script.word()?);
    Some(with_bytes("shown", shown(kit, pupil, sender, number)))
}

fn line_line(script: &mut Script) -> Option<String> {
    let (text, number) = (script.long_part()?, script.word()?);
    Some(with_bytes("line", line_shown(text, number)))
}

fn frame_line(room: usize, bytes: &[u8]) -> String {
    match Frame::read(bytes) {
        Err(refusal) => format!("frame {}\n", refusal.code),
        Ok(frame) => {
            let mut room = vec![ROOM_FILL; room];
            let written = frame.write(&mut room);
            format!("frame 0 {}\n", written_words(&written, &room))
        }
    }
}

fn read_line(room: usize, bytes: &[u8]) -> String {
    match read_command(bytes) {
        Err(refusal) => format!("read {} {}\n", refusal.code, refusal.finding),
        Ok(command) => {
            let mut room = vec![ROOM_FILL; room];
            let written = write_command(&command, &mut room);
            format!("read 0 0 0 0 0 {}\n", written_words(&written, &room))
        }
    }
}

fn tags_line(room: usize, bytes: &[u8]) -> String {
    match Housekeeping::read(bytes) {
        Err(refusal) => format!("tags {}\n", refusal.code),
        Ok(told) => {
            let mut room = vec![ROOM_FILL; room];
            let written = told.write(&mut room);
            format!("tags 0 {told} {}\n", written_words(&written, &room))
        }
    }
}
