//! Whether a program's own answers to all plans for a list's evenings agree: what each
//! plan was answered foretells the answer to the whole list in one evening. No answer of
//! the reference is looked at.

use std::str::Lines;

use super::evenings::{Evenings, Plan, Sort};
use super::items::{fresh, Item};
use super::shrink;
use super::tally::first_difference;
use crate::run::LONGEST_LIST;
use crate::text::LONGEST_TEXT;

/// No command takes more bytes, so a list of this many lines is never too long.
const LONGEST_COMMAND: usize = 16;
const LINES_THAT_FIT: usize = LONGEST_LIST / LONGEST_COMMAND;

/// Where the number stands in the line of a record: behind `record` and four bytes in hex.
const NUMBER_FROM: usize = 15;
const NUMBER_TO: usize = 23;

/// Where the item of the free entries begins in a housekeeping frame in hex.
const FREE_FROM: usize = 30;

pub(super) const REST_SAME: &str = "rest same";

/// A line of the answer to the whole list in one evening, and what the answer to some plan
/// foretells for it.
#[derive(Clone, Debug, PartialEq, Eq)]
pub struct Disagreement {
    pub foretold: String,
    pub found: String,
}

/// What a program answered to a plan: a report for each evening, then the lines about what
/// came behind, as far as they are compared.
struct Told<'a> {
    reports: Vec<Report<'a>>,
    behind: Vec<String>,
}

/// The answer to one run.
struct Report<'a> {
    lines: Vec<&'a str>,
    name: &'a str,
    /// The words between the name and the counts: the code and, of a typed list, the line
    /// and what was wrong with a number.
    refusal: Vec<&'a str>,
    /// How many records the kit has, and how many the pupil.
    counts: [usize; 2],
    records: Vec<Record<'a>>,
}

/// The line of a record, taken apart at its number.
struct Record<'a> {
    before: &'a str,
    number: u32,
    behind: &'a str,
}

/// Takes the answers to all items of the evenings off the front of a program's lines, and
/// tells of the first line that disagrees; none where all agree, or need not.
pub fn disagreement(evenings: &Evenings, lines: &mut Lines) -> Option<Disagreement> {
    let plans = evenings.plans();
    let told = plans.iter().map(|plan| told(evenings, plan, lines));
    match told.collect::<Result<Vec<Told>, Disagreement>>() {
        Err(unreadable) => Some(unreadable),
        Ok(told) if evenings.must_agree() => first_disagreement(evenings, &plans, &told),
        Ok(_) => None,
    }
}

fn first_disagreement(evenings: &Evenings, plans: &[Plan], told: &[Told]) -> Option<Disagreement> {
    let in_one = told.last()?;
    if may_be_too_long(evenings) && in_one.is_too_long() {
        return None;
    }
    plans.iter().zip(told).find_map(|(plan, told)| {
        let foretold = foretold(evenings, plan, told);
        let mut found = in_one.lines();
        if told.names_a_line() {
            // The evenings before that line were carried out, so the states need not agree.
            found.truncate(foretold.len());
        }
        let (_, foretold, found) = first_difference(&text(&foretold), &text(&found))?;
        Some(Disagreement { foretold, found })
    })
}

/// Whether texts that are not too long by themselves may be so together.
fn may_be_too_long(evenings: &Evenings) -> bool {
    let lines = evenings.parts.iter().map(|text| lines_in(text));
    let many = evenings.bytes() > LONGEST_TEXT || lines.sum::<usize>() > LINES_THAT_FIT;
    evenings.sort == Sort::Typed && many
}

fn lines_in(text: &[u8]) -> usize {
    shrink::lines(text).len()
}

/// What the whole list in one evening is to be answered, by the answers to this plan.
fn foretold(evenings: &Evenings, plan: &Plan, told: &Told) -> Vec<String> {
    let mut raise = 0;
    let mut records = Vec::new();
    for (list, report) in plan.iter().zip(&told.reports) {
        if report.bad_line() > 0 {
            return report.refused_further_down(raise);
        }
        records.extend(report.records.iter().map(|record| record.raised(raise)));
        raise += match evenings.sort {
            Sort::Raw => report.counts[1],
            Sort::Typed => lines_in(list),
        };
    }
    let mut lines = vec![told.first_line()];
    lines.extend(records);
    lines.push(REST_SAME.into());
    lines.extend(told.behind.clone());
    lines
}

fn text(lines: &[String]) -> String {
    lines.iter().map(|line| format!("{line}\n")).collect()
}

/// Reads the answers to a plan off the front of a program's lines.
fn told<'a>(
    evenings: &Evenings,
    plan: &Plan,
    lines: &mut Lines<'a>,
) -> Result<Told<'a>, Disagreement> {
    let mut answers = Vec::new();
    for item in evenings.episode(plan) {
        answers.push(answer(&item, lines)?);
    }
    let behind = answers.split_off(answers.len() - evenings.behind.len());
    let reports = answers.split_off(answers.len() - plan.len());
    let reports: Result<Vec<Report>, Disagreement> =
        reports.into_iter().map(Report::read).collect();
    Ok(Told {
        reports: reports?,
        behind: behind.concat().into_iter().map(compared).collect(),
    })
}

/// The lines that this item was answered with, as many as the first of them says.
pub(super) fn answer<'a>(item: &Item, lines: &mut Lines<'a>) -> Result<Vec<&'a str>, Disagreement> {
    if *item == fresh() {
        return Ok(Vec::new());
    }
    let no_line = || Disagreement::new("an answer to every item", "(no line)");
    let first = lines.next().ok_or_else(no_line)?;
    let mut all = vec![first];
    for _ in 0..lines_behind(first) {
        all.push(lines.next().ok_or_else(no_line)?);
    }
    Ok(all)
}

/// How many lines follow this one in the same answer, by what it says itself.
fn lines_behind(first: &str) -> usize {
    let words: Vec<&str> = first.split(' ').collect();
    let number = |word: &str| word.parse::<usize>().unwrap_or_default();
    match words[..] {
        ["run" | "typed", .., kit, pupil] => {
            let records = number(kit).saturating_add(number(pupil));
            records.saturating_add(1)
        }
        ["second", _, entries] => number(entries),
        ["assembled" | "listed", ..] => 1,
        _ => 0,
    }
}

/// A line as far as it is compared: of housekeeping, nothing that is told of the latest run.
fn compared(line: &str) -> String {
    let words: Vec<&str> = line.split(' ').collect();
    match words[..] {
        ["housekeeping", code, _, _, _, free, digits] => {
            let item = digits.get(FREE_FROM..).unwrap_or(digits);
            format!("housekeeping {code} .. {free} ..{item}")
        }
        _ => line.into(),
    }
}

impl Disagreement {
    pub(super) fn new(foretold: &str, found: &str) -> Self {
        Disagreement {
            foretold: foretold.into(),
            found: found.into(),
        }
    }
}

impl Told<'_> {
    fn lines(&self) -> Vec<String> {
        let reports = self.reports.iter().flat_map(|report| &report.lines);
        let mut lines: Vec<String> = reports.map(|line| line.to_string()).collect();
        lines.extend(self.behind.clone());
        lines
    }

    fn names_a_line(&self) -> bool {
        self.reports.iter().any(|report| report.bad_line() > 0)
    }

    fn is_too_long(&self) -> bool {
        let mut codes = self.reports.iter().map(|report| report.refusal.first());
        codes.any(|code| code == Some(&"20"))
    }

    /// The first line of one report instead of these: the same refusal, or all of them
    /// where they differ, and the counts added up.
    fn first_line(&self) -> String {
        let each = self.reports.iter();
        let mut refusals: Vec<String> = each.clone().map(|one| one.refusal.join(" ")).collect();
        refusals.dedup();
        let count = |sender: usize| each.clone().map(|one| one.counts[sender]).sum::<usize>();
        let name = self.reports.first().map_or("", |one| one.name);
        let (kit, pupil) = (count(0), count(1));
        format!("{name} {} {kit} {pupil}", refusals.join(" and "))
    }
}

impl<'a> Report<'a> {
    fn read(lines: Vec<&'a str>) -> Result<Self, Disagreement> {
        let (first, rest) = (lines[0], lines[lines.len() - 1]);
        if rest != REST_SAME {
            return Err(Disagreement::new(REST_SAME, rest));
        }
        Report::of(lines).ok_or(Disagreement::new("a report", first))
    }

    fn of(lines: Vec<&'a str>) -> Option<Self> {
        let words: Vec<&str> = lines[0].split(' ').collect();
        let [name @ ("run" | "typed"), ref refusal @ .., kit, pupil] = words[..] else {
            return None;
        };
        let records = lines[1..lines.len() - 1].iter();
        Some(Report {
            name,
            refusal: refusal.to_vec(),
            counts: [kit.parse().ok()?, pupil.parse().ok()?],
            records: records
                .map(|line| Record::read(line))
                .collect::<Option<_>>()?,
            lines,
        })
    }

    /// The line for which the text was refused; 0 where it was not, or for no line.
    fn bad_line(&self) -> usize {
        let line = self.refusal.get(1).and_then(|word| word.parse().ok());
        line.unwrap_or_default()
    }

    /// The same refusal of a text that has so many lines before this one.
    fn refused_further_down(&self, raise: usize) -> Vec<String> {
        let mut refusal: Vec<String> = self.refusal.iter().map(|word| word.to_string()).collect();
        refusal[1] = (self.bad_line() + raise).to_string();
        let [kit, pupil] = self.counts;
        let mut lines = vec![format!("{} {} {kit} {pupil}", self.name, refusal.join(" "))];
        lines.extend(self.lines[1..].iter().map(|line| line.to_string()));
        lines
    }
}

impl<'a> Record<'a> {
    fn read(line: &'a str) -> Option<Self> {
        let digits = line.get(NUMBER_FROM..NUMBER_TO)?;
        Some(Record {
            before: &line[..NUMBER_FROM],
            number: u32::from_str_radix(digits, 16).ok()?,
            behind: &line[NUMBER_TO..],
        })
    }

    fn raised(&self, raise: usize) -> String {
        let number = self.number.wrapping_add(raise as u32);
        format!("{}{number:08x}{}", self.before, self.behind)
    }
}
