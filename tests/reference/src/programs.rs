//! The programs for typed lists, for lists on a card and for damaged ones: what each
//! writes to standard output and to standard error for its whole input; and how any program
//! is served.

use std::io::{Read, Write};

use crate::bench::Bench;
use crate::card::{raw_form, stored_form};
use crate::codes::{Finding, Placed, OUT_OF_RANGE};
use crate::list::{kit_list, report_lines};
use crate::rescue::{rescued, Stretch};
use crate::text::{commands_typed, raw_list, text_of};
use crate::typed::typed_records;

/// All that a program writes.
#[derive(Clone, Debug, Default, PartialEq, Eq)]
pub struct Streams {
    pub output: Vec<u8>,
    pub errors: Vec<u8>,
}

impl Streams {
    fn output(bytes: impl Into<Vec<u8>>) -> Self {
        Streams {
            output: bytes.into(),
            errors: Vec::new(),
        }
    }

    fn errors(bytes: impl Into<Vec<u8>>) -> Self {
        Streams {
            output: Vec::new(),
            errors: bytes.into(),
        }
    }

    /// Both streams in words, one line for each of theirs. Two that differ in
    /// any byte differ in words.
    pub fn in_words(&self) -> String {
        let mut words = String::new();
        for (name, bytes) in [("output", &self.output), ("errors", &self.errors)] {
            for line in bytes.split_inclusive(|byte| *byte == b'\n') {
                words += &format!("{name} {}\n", line.escape_ascii());
            }
        }
        words
    }
}

/// The one line that tells of a refusal.
fn refused(placed: &Placed, what: &str) -> String {
    let Placed { place, refusal } = *placed;
    let mut line = format!("refused {}", refusal.code);
    if place > 0 {
        line += &format!(" {what} {place}");
    }
    if refusal.code == OUT_OF_RANGE {
        let Finding {
            parameter,
            value,
            low,
            high,
        } = refusal.finding;
        line += &format!(" par {parameter} val {value} from {low} to {high}");
    }
    line + "\n"
}

/// A typed list in, its report out. A refusal is for the pupil to see, and
/// there is no file that it could spoil.
pub fn typed(text: &[u8]) -> Streams {
    match commands_typed(text) {
        Err(placed) => Streams::output(refused(&placed, "line")),
        Ok(commands) => {
            let records = typed_records(&mut Bench::default(), &kit_list(), &commands);
            Streams::output(report_lines(&records))
        }
    }
}

/// A typed list in, the raw list out.
pub fn assembler(text: &[u8]) -> Streams {
    match commands_typed(text) {
        Err(placed) => Streams::errors(refused(&placed, "line")),
        Ok(commands) => Streams::output(raw_list(&commands)),
    }
}

/// A raw list in, the text out.
pub fn lister(raw: &[u8]) -> Streams {
    from_list(text_of(raw))
}

/// A raw list in, its stored form out.
pub fn to_card(raw: &[u8]) -> Streams {
    from_list(stored_form(raw))
}

/// A stored list in, the raw one out.
pub fn from_card(stored: &[u8]) -> Streams {
    from_list(raw_form(stored))
}

/// What was made of a list, or the number of the command that was refused.
fn from_list(made: Result<impl Into<Vec<u8>>, Placed>) -> Streams {
    match made {
        Err(placed) => Streams::errors(refused(&placed, "number")),
        Ok(bytes) => Streams::output(bytes),
    }
}

/// A damaged list in, the commands kept out, and a line about each stretch skipped where
/// it spoils no file.
pub fn rescue_list(list: &[u8]) -> Streams {
    match rescued(list) {
        Err(refusal) => Streams::errors(refused(&refusal.into(), "number")),
        Ok(rescued) => {
            let lines: String = rescued.stretches.iter().map(Stretch::line).collect();
            Streams {
                output: rescued.kept,
                errors: lines.into(),
            }
        }
    }
}

/// Is a program that answers its whole input with one text.
pub fn serve_text(limit: usize, program: fn(&[u8]) -> String) -> std::io::Result<()> {
    serve(limit, |input| Streams::output(program(input)))
}

/// Is such a program: reads standard input and writes both streams.
pub fn serve(limit: usize, program: impl Fn(&[u8]) -> Streams) -> std::io::Result<()> {
    let mut input = Vec::new();
    // One byte past the limit is enough to know that the input is too long.
    let mut source = std::io::stdin().take(limit as u64 + 1);
    source.read_to_end(&mut input)?;
    let streams = program(&input);
    std::io::stdout().write_all(&streams.output)?;
    std::io::stderr().write_all(&streams.errors)
}
