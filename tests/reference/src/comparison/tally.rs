//! Which codes a transcript holds, how often each occurred, and the first line
//! in which two transcripts differ.

use std::collections::BTreeMap;

use crate::codes::{can_be_shown, ACCEPTED, POWER_OFF};

/// The codes that an entry can have as a second shows it.
const HANDED: [u8; 2] = [ACCEPTED, POWER_OFF];

/// How often each code occurred: as an answer, and beside entries handed over.
#[derive(Clone, Debug, Default)]
pub struct Tally {
    counts: BTreeMap<u8, u64>,
    handed: BTreeMap<u8, u64>,
}

impl Tally {
    pub fn add(&mut self, transcript: &str) {
        for code in transcript.lines().flat_map(codes_in) {
            *self.counts.entry(code).or_default() += 1;
        }
        for code in transcript.lines().filter_map(handed_code) {
            *self.handed.entry(code).or_default() += 1;
        }
    }

    /// The codes that could have occurred and did not, be it as an answer or beside an
    /// entry handed over.
    pub fn missing(&self) -> Vec<u8> {
        let lacking = |counts: &BTreeMap<u8, u64>, code| !counts.contains_key(&code);
        codes()
            .filter(|code| {
                lacking(&self.counts, *code)
                    || HANDED.contains(code) && lacking(&self.handed, *code)
            })
            .collect()
    }

    pub fn table(&self) -> String {
        rows("code occurred", codes(), &self.counts)
            + &rows("code beside an entry", HANDED, &self.handed)
    }
}

fn rows(heading: &str, codes: impl IntoIterator<Item = u8>, counts: &BTreeMap<u8, u64>) -> String {
    let mut rows = format!("{heading}\n");
    for code in codes {
        let count = counts.get(&code).copied().unwrap_or_default();
        rows += &format!("{code:4} {:>8}\n", grouped(count));
    }
    rows
}

fn codes() -> impl Iterator<Item = u8> {
    (0..=u8::MAX).filter(|code| can_be_shown(*code))
}

/// All codes that one line of a transcript shows.
fn codes_in(line: &str) -> Vec<u8> {
    let words: Vec<&str> = line.split(' ').collect();
    let places: &[usize] = match words[0] {
        "command" | "run" | "assembled" | "listed" | "typed" | "housekeeping" | "indexed"
        | "stored" | "raw" | "rescued" | "valve" | "queued" | "turn" => &[1],
        "frame" => frame_places(words.get(3)),
        "read" | "decoded" | "tags" => &[1, 6],
        _ => &[],
    };
    let found = places.iter().filter_map(|place| words.get(*place));
    let codes = found.filter_map(|word| word.parse().ok());
    codes.chain(record_code(&words)).collect()
}

/// Where a frame has its codes: one for the valve has its flags and its order between them.
fn frame_places(order: Option<&&str>) -> &'static [usize] {
    match order {
        Some(&"arm") => &[1, 4],
        Some(&"fire") => &[1, 5],
        _ => &[1, 2],
    }
}

/// The code beside an entry that was handed over.
fn handed_code(line: &str) -> Option<u8> {
    let (code, _) = line.strip_prefix("handed ")?.split_once(' ')?;
    code.parse().ok()
}

/// The code is the second byte of a record, which is all of a line or stands behind a turn.
fn record_code(words: &[&str]) -> Option<u8> {
    let (["record", digits] | ["turn", _, "record", digits]) = words else {
        return None;
    };
    u8::from_str_radix(digits.get(2..4)?, 16).ok()
}

/// A number with a comma before each three digits.
pub fn grouped(number: u64) -> String {
    let digits = number.to_string();
    let mut text = String::new();
    for (place, digit) in digits.chars().enumerate() {
        if place > 0 && (digits.len() - place).is_multiple_of(3) {
            text.push(',');
        }
        text.push(digit);
    }
    text
}

/// The first line in which two texts differ: its number from 1, and both.
pub fn first_difference(reference: &str, program: &str) -> Option<(usize, String, String)> {
    if reference == program {
        return None;
    }
    let mut ours = reference.split_inclusive('\n');
    let mut theirs = program.split_inclusive('\n');
    let mut number = 1;
    loop {
        let (one, other) = (ours.next(), theirs.next());
        if one != other {
            return Some((number, quoted(one), quoted(other)));
        }
        // Both cannot end together: the texts would have been equal.
        one?;
        number += 1;
    }
}

fn quoted(line: Option<&str>) -> String {
    line.map_or("(no line)".into(), |line| {
        line.strip_suffix('\n')
            .map_or(format!("{line} (without line feed)"), String::from)
    })
}
