//! The replay program for the four-seat bench: a script of items in, a transcript of their
//! answers out. Its items are queueings and turns; a second, the status and a fresh bench are
//! written as those of the other replay program.

use crate::codes::code_and_finding;
use crate::replay::{hex, second_lines, status_line, transcript_by, Script, FRESH, SECOND, STATUS};
use crate::seats::Seats;

pub const QUEUE: u8 = 0x01;
pub const TURN: u8 = 0x03;

/// The whole transcript of a script.
pub fn transcript(script: &[u8]) -> String {
    let mut replay = SeatsReplay::default();
    transcript_by(script, |left| replay.item(left))
}

/// Seats that take one item of a script after another.
#[derive(Clone, Default)]
pub struct SeatsReplay {
    pub seats: Seats,
}

impl SeatsReplay {
    /// Takes one item off the script and answers with its lines.
    pub fn item(&mut self, script: &mut Script) -> Option<String> {
        match script.byte()? {
            SECOND => Some(self.second()),
            QUEUE => Some(self.queue(script.byte()?, script.short_part()?)),
            STATUS => Some(status_line(self.seats.status())),
            TURN => Some(self.turn()),
            FRESH => {
                self.seats = Seats::default();
                Some(String::new())
            }
            _ => None,
        }
    }

    fn second(&mut self) -> String {
        match self.seats.second() {
            Ok(handed) => second_lines(&handed),
            Err(refusal) => format!("second {} 0\n", refusal.code),
        }
    }

    fn queue(&mut self, seat: u8, bytes: &[u8]) -> String {
        let (code, finding) = code_and_finding(&self.seats.queue(seat, bytes));
        format!("queued {code} {finding}\n")
    }

    fn turn(&mut self) -> String {
        match self.seats.turn() {
            Ok(Some(record)) => format!("turn 0 record {}\n", hex(&record.bytes())),
            Ok(None) => "turn 0 none\n".into(),
            Err(refusal) => format!("turn {} none\n", refusal.code),
        }
    }
}
