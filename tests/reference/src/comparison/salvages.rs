//! A damaged list that is rescued, and what was kept of it rescued again and run: what is
//! sent of it to both replay programs, whether their own answers agree, whatever the
//! reference says, and a smaller one of the same sort. What was kept is what the program
//! itself handed out.

use std::str::Lines;

use super::agreement::{Disagreement, REST_SAME};
use super::growths::next;
use super::items::{rescue, run, Item};
use super::shrink::{bytes, smallest};
use super::trips::bytes_in;
use crate::codes::{ACCEPTED, OUT_OF_RANGE, TOO_SHORT};
use crate::replay::with_bytes;

/// Room for the commands of every list, and for the stretches of every one.
pub(super) const ROOM: u16 = 4096;
pub(super) const BESIDE: u16 = 1824;
const REPORT_ROOM: u16 = 12_288;

/// The bytes of the items that run a list and what was kept of it, but for these themselves.
const RUN_BYTES: usize = 14;

/// Where the code stands in a record in hex.
const CODE: std::ops::Range<usize> = 2..4;

#[derive(Clone, Debug, PartialEq, Eq)]
pub struct Salvage {
    pub list: Vec<u8>,
}

/// What was kept of a list; none where its rescue was refused, or told nothing that can be
/// read.
pub type Kept = Option<Vec<u8>>;

/// The lines with which the rescues, those of what was kept, and the runs were answered.
pub struct Answers<'a> {
    pub rescues: Lines<'a>,
    pub again: Lines<'a>,
    pub runs: Lines<'a>,
}

impl<'a> Answers<'a> {
    pub fn new(rescues: &'a str, again: &'a str, runs: &'a str) -> Self {
        Answers {
            rescues: rescues.lines(),
            again: again.lines(),
            runs: runs.lines(),
        }
    }
}

/// Skipped bytes, as the line about them says.
#[derive(Clone, Copy)]
struct Stretch<'a> {
    line: &'a str,
    start: usize,
    end: usize,
}

/// The answer to one rescue.
struct Told<'a> {
    first: &'a str,
    stretches: Vec<Stretch<'a>>,
}

/// The answer to one run: its code, and the first record with a code from 1 to 8.
struct Report<'a> {
    code: &'a str,
    damaged: Option<&'a str>,
}

impl Salvage {
    /// The item for the replay program for lists.
    pub fn item(&self) -> Item {
        rescue(ROOM, BESIDE, &self.list)
    }

    /// The bytes of the longest script, or more.
    pub fn script_bytes(&self) -> usize {
        RUN_BYTES + 2 * self.list.len()
    }

    /// The smallest found that still differs, with fewer bytes.
    pub fn smallest(&self, differs: &mut dyn FnMut(&Salvage) -> bool) -> Salvage {
        let of = |pieces: &[Item]| Salvage {
            list: pieces.concat(),
        };
        smallest(&bytes(&self.list), of, differs)
    }

    /// The list without what was skipped.
    fn without(&self, stretches: &[Stretch]) -> Vec<u8> {
        let mut left = self.list.clone();
        for stretch in stretches.iter().rev() {
            left.drain(stretch.start..stretch.end);
        }
        left
    }
}

/// What was kept of each of these, by the answers to their rescues.
pub fn kept_lists(salvages: &[Salvage], answers: &str) -> Vec<Kept> {
    let mut firsts = answers.lines().filter(|line| line.starts_with("rescued"));
    let kept = salvages.iter().map(|_| kept_in(firsts.next()?));
    kept.collect()
}

/// The bytes behind the code and both numbers.
fn kept_in(first: &str) -> Kept {
    match first.split(' ').collect::<Vec<&str>>()[..] {
        ["rescued", "0", _, _] => Some(Vec::new()),
        ["rescued", "0", _, _, digits] => bytes_in(digits),
        _ => None,
    }
}

/// The items that rescue again what was kept.
pub fn again(kept: &[Kept]) -> Vec<Item> {
    let lists = kept.iter().flatten();
    lists.map(|list| rescue(ROOM, BESIDE, list)).collect()
}

/// For the other replay program: each list, and what was kept of it, run as the pupil's.
pub fn runs(salvages: &[Salvage], kept: &[Kept]) -> Vec<Item> {
    let both = salvages.iter().zip(kept);
    let lists = both.flat_map(|(one, kept)| [Some(&one.list), kept.as_ref()]);
    let runs = lists.flatten().map(|list| run(REPORT_ROOM, &[], list));
    runs.collect()
}

/// Takes the answers to a salvage off the front of all lines, and tells of the first that
/// disagrees with another one; none where all agree.
pub fn disagreement(salvage: &Salvage, answers: &mut Answers) -> Option<Disagreement> {
    match pairs(salvage, answers) {
        Err(unreadable) => Some(unreadable),
        Ok(pairs) => pairs.into_iter().find(|pair| pair.foretold != pair.found),
    }
}

/// What must be the same, in pairs.
fn pairs(salvage: &Salvage, answers: &mut Answers) -> Result<Vec<Disagreement>, Disagreement> {
    let told = Told::read(&mut answers.rescues)?;
    let report = Report::read(&mut answers.runs)?;
    let Some(kept) = kept_in(told.first) else {
        // Enough room was lent, so it is refused for the reason for which the run is.
        let foretold = format!("rescued {} 0 0", report.code);
        return Ok(vec![Disagreement::new(&foretold, told.first)]);
    };
    told.lie_apart(salvage.list.len())?;
    let outside = salvage.without(&told.stretches);
    let kept_again = Told::read(&mut answers.again)?;
    let mut pairs = vec![
        Disagreement::new(&first_line(&outside, told.stretches.len()), told.first),
        Disagreement::new(&first_line(&kept, 0), kept_again.first),
        Report::read(&mut answers.runs)?.undamaged(),
    ];
    pairs.extend(loss(salvage, &told, &report));
    Ok(pairs)
}

/// A list loses something exactly where a record of its run tells of damage.
fn loss(salvage: &Salvage, told: &Told, report: &Report) -> Option<Disagreement> {
    match report.damaged {
        None => Some(Disagreement::new(&first_line(&salvage.list, 0), told.first)),
        Some(record) => {
            let foretold = format!("something skipped, for there is {record}");
            let lossless = told.stretches.is_empty();
            lossless.then(|| Disagreement::new(&foretold, told.first))
        }
    }
}

/// The line that hands out what was kept beside so many stretches.
fn first_line(kept: &[u8], stretches: usize) -> String {
    let words = format!("rescued {ACCEPTED} {} {stretches}", kept.len());
    with_bytes(&words, kept).trim_end().into()
}

fn same_rest(lines: &mut Lines) -> Result<(), Disagreement> {
    match next(lines)? {
        REST_SAME => Ok(()),
        rest => Err(Disagreement::new(REST_SAME, rest)),
    }
}

impl<'a> Told<'a> {
    fn read(lines: &mut Lines<'a>) -> Result<Self, Disagreement> {
        let first = next(lines)?;
        let words: Vec<&str> = first.split(' ').collect();
        let count = words.get(3).and_then(|word| word.parse().ok());
        let count: u16 = count.ok_or(Disagreement::new("rescued", first))?;
        let stretches = (0..count).map(|_| Stretch::read(next(lines)?));
        let told = Told {
            first,
            stretches: stretches.collect::<Result<_, _>>()?,
        };
        // Of the commands, then of the stretches.
        same_rest(lines)?;
        same_rest(lines)?;
        Ok(told)
    }

    /// No stretch is empty or goes past the list's end, and each is behind the one before
    /// and does not touch it.
    fn lie_apart(&self, length: usize) -> Result<(), Disagreement> {
        let mut next_start = 0;
        for Stretch { line, start, end } in &self.stretches {
            if *start < next_start || end <= start || *end > length {
                return Err(Disagreement::new("a stretch by itself in the list", line));
            }
            next_start = end + 1;
        }
        Ok(())
    }
}

impl<'a> Stretch<'a> {
    fn read(line: &'a str) -> Result<Self, Disagreement> {
        let number = |word: &str| word.parse::<u16>().ok().map(usize::from);
        let stretch = match line.split(' ').collect::<Vec<&str>>()[..] {
            ["skipped", start, length] => number(start).zip(number(length)),
            _ => None,
        };
        let (start, length) = stretch.ok_or(Disagreement::new("skipped", line))?;
        let end = start + length;
        Ok(Stretch { line, start, end })
    }
}

impl<'a> Report<'a> {
    fn read(lines: &mut Lines<'a>) -> Result<Self, Disagreement> {
        let first = next(lines)?;
        let ["run", code, "0", count] = first.split(' ').collect::<Vec<&str>>()[..] else {
            return Err(Disagreement::new("run", first));
        };
        let count: u16 = count.parse().map_err(|_| Disagreement::new("run", first))?;
        let mut damaged = None;
        for _ in 0..count {
            let record = next(lines)?;
            if (TOO_SHORT..=OUT_OF_RANGE).contains(&code_in(record)?) {
                damaged = damaged.or(Some(record));
            }
        }
        same_rest(lines)?;
        Ok(Report { code, damaged })
    }

    /// That it is the report on a list without damage.
    fn undamaged(&self) -> Disagreement {
        let found = self.damaged.unwrap_or("none");
        let foretold = "run 0, records with a code from 1 to 8: none";
        let words = format!(
            "run {}, records with a code from 1 to 8: {found}",
            self.code
        );
        Disagreement::new(foretold, &words)
    }
}

fn code_in(record: &str) -> Result<u8, Disagreement> {
    let digits = record.strip_prefix("record ").and_then(|it| it.get(CODE));
    let code = digits.and_then(|it| u8::from_str_radix(it, 16).ok());
    code.ok_or(Disagreement::new("record", record))
}
