//! A sitting at the four-seat bench: what the seats send from a fresh bench on, and then each
//! of their queueings by itself; whether the program's own answers agree, with each other and
//! with those of the other replay program to the commands that were served, whatever the
//! reference says; and a smaller one of the same sort.

use std::collections::{BTreeMap, BTreeSet};
use std::str::Lines;

use super::agreement::{answer, Disagreement};
use super::growths::next;
use super::items::{command, fresh, Item};
use super::shrink::smallest;
use super::walks::agree;
use crate::replay::FRESH;
use crate::seats_replay::{QUEUE, TURN};

/// By hand, so that a mistake of the reference does not change what is asked.
const SEATS: usize = 4;
/// As many commands as a seat may have waiting.
const MOST_WAITING: usize = 32;

const TAKEN: &str = "queued 0 0 0 0 0";
const FULL: &str = "queued 52 0 0 0 0";
const NO_SEAT: &str = "queued 51 0 0 0 0";

#[derive(Clone, Debug, PartialEq, Eq)]
pub struct Sitting {
    pub events: Vec<Item>,
}

/// What a seat was answered since the bench was fresh.
#[derive(Default)]
struct Seat<'a> {
    /// The commands that it got into its queue.
    taken: Vec<&'a [u8]>,
    /// How many of them were served.
    served: usize,
    /// Which seats were served while this one waited, since it was served itself.
    passed_by: Vec<usize>,
}

/// An item for the other replay program, and what the answers about the seats foretell for it.
struct Carried {
    item: Item,
    foretold: Vec<String>,
}

/// What is known of a sitting by the program's answers to it.
#[derive(Default)]
struct Told<'a> {
    seats: [Seat<'a>; SEATS],
    /// The answers to each queueing.
    queueings: BTreeMap<&'a Item, Vec<&'a str>>,
    carried: Vec<Carried>,
}

impl Sitting {
    /// From a fresh bench on; then each queueing once, alone on a fresh bench.
    pub fn items(&self) -> Vec<Item> {
        let queueings = self.events.iter().filter(|event| event[0] == QUEUE);
        let queueings: BTreeSet<&Item> = queueings.collect();
        let alone = queueings.into_iter().flat_map(|one| [fresh(), one.clone()]);
        let mut items = vec![fresh()];
        items.extend(self.events.iter().cloned().chain(alone));
        items
    }

    pub fn script_bytes(&self) -> usize {
        self.items().iter().map(Vec::len).sum()
    }

    /// The smallest found that still differs, with fewer events.
    pub fn smallest(&self, differs: &mut dyn FnMut(&Sitting) -> bool) -> Sitting {
        let of = |events: &[Item]| Sitting {
            events: events.to_vec(),
        };
        smallest(&self.events, of, differs)
    }
}

/// What the other replay program is to be sent of all these: the commands that were served, in
/// their order, with the seconds, the status and the fresh benches between them.
pub fn carried(all: &[Sitting], answers: &str) -> Vec<Item> {
    let mut lines = answers.lines();
    let told = all.iter().flat_map(|one| Told::of(one, &mut lines));
    let carried = told.flat_map(|told| told.carried);
    carried.map(|one| one.item).collect()
}

/// Takes the answers to a sitting off the front of both programs' lines, and tells of the first
/// that disagrees with others; none where all agree.
pub fn disagreement(
    sitting: &Sitting,
    seats: &mut Lines,
    replay: &mut Lines,
) -> Option<Disagreement> {
    let told = match Told::of(sitting, seats) {
        Ok(told) => told,
        Err(disagreement) => return Some(disagreement),
    };
    let mut each = told.carried.iter();
    each.find_map(|carried| carried.agrees(replay).err())
}

impl Carried {
    fn agrees(&self, replay: &mut Lines) -> Result<(), Disagreement> {
        let found = answer(&self.item, replay)?;
        agree(&self.foretold.join(", "), &found.join(", "))
    }
}

impl<'a> Seat<'a> {
    fn waiting(&self) -> usize {
        self.taken.len() - self.served
    }

    /// The command that is served next, and its number; none where the seat does not wait.
    fn serve(&mut self) -> Option<(&'a [u8], usize)> {
        let bytes = self.taken.get(self.served)?;
        self.served += 1;
        self.passed_by.clear();
        Some((bytes, self.served))
    }
}

impl<'a> Told<'a> {
    /// Reads the answers to a sitting off the front of the program's lines.
    fn of<'l: 'a>(sitting: &'a Sitting, lines: &mut Lines<'l>) -> Result<Self, Disagreement> {
        let mut told = Told::default();
        told.carry(fresh(), Vec::new());
        for event in &sitting.events {
            let answer = answer(event, lines)?;
            told.event(event, &answer)?;
        }
        for answers in told.queueings.values() {
            let alone = next(lines)?;
            answers.iter().try_for_each(|one| agree_alone(one, alone))?;
        }
        Ok(told)
    }

    fn carry(&mut self, item: Item, foretold: Vec<String>) {
        self.carried.push(Carried { item, foretold });
    }

    fn event(&mut self, event: &'a Item, answer: &[&'a str]) -> Result<(), Disagreement> {
        match (&event[..], answer) {
            ([QUEUE, seat, _, bytes @ ..], [line]) => {
                self.queueings.entry(event).or_default().push(line);
                self.queue(usize::from(*seat), bytes, line)?;
            }
            ([TURN], [line]) => self.turn(line)?,
            _ => {
                if event[..] == [FRESH] {
                    self.seats = Default::default();
                }
                let lines = answer.iter().map(|line| line.to_string());
                self.carry(event.clone(), lines.collect());
            }
        }
        Ok(())
    }

    /// 51 is for every seat that there is not, and 52 exactly for one with all places taken;
    /// whether other bytes are refused as they should shows where they are queued alone.
    fn queue(&mut self, seat: usize, bytes: &'a [u8], line: &str) -> Result<(), Disagreement> {
        let Some(seat) = self.seats.get_mut(seat) else {
            return agree(NO_SEAT, line);
        };
        let full = seat.waiting() == MOST_WAITING;
        match line {
            TAKEN if full => Err(Disagreement::new(FULL, line)),
            TAKEN => {
                seat.taken.push(bytes);
                Ok(())
            }
            FULL if full => Ok(()),
            FULL | NO_SEAT => Err(Disagreement::new(TAKEN, line)),
            _ if is_refusal_of_bytes(line) => Ok(()),
            _ => Err(Disagreement::new("queued with 1 to 10 or 53", line)),
        }
    }

    /// None is told exactly where no seat waits; otherwise the record has the next number of
    /// its seat.
    fn turn(&mut self, line: &str) -> Result<(), Disagreement> {
        if self.seats.iter().all(|seat| seat.waiting() == 0) {
            return agree("turn 0 none", line);
        }
        let other = || Disagreement::new("the record of a seat that waits", line);
        let (seat, code) = seat_and_code(line).ok_or_else(other)?;
        let (bytes, number) = self.seats[seat].serve().ok_or_else(other)?;
        let record = format!("turn 0 record {seat:02x}{code:02x}0000{number:08x}00000000");
        agree(&record, line)?;
        self.pass_by(seat, line)?;
        self.carry(command(bytes), vec![format!("command {code} 0 0 0 0")]);
        Ok(())
    }

    /// No seat that waits is passed by twice by the same one, so that each is served within
    /// four turns.
    fn pass_by(&mut self, served: usize, line: &str) -> Result<(), Disagreement> {
        for (number, seat) in self.seats.iter_mut().enumerate() {
            if number == served || seat.waiting() == 0 {
                continue;
            }
            if seat.passed_by.contains(&served) {
                let foretold = format!("the record of seat {number}");
                return Err(Disagreement::new(&foretold, line));
            }
            seat.passed_by.push(served);
        }
        Ok(())
    }
}

/// Whether a queueing was refused for its bytes.
fn is_refusal_of_bytes(line: &str) -> bool {
    let code = line.split(' ').nth(1).and_then(|word| word.parse().ok());
    line.starts_with("queued ") && matches!(code, Some(1..=10 | 53))
}

/// What a queueing is answered on a fresh bench, by what it was answered before: the same, but
/// that no place can be lacking there.
fn agree_alone(before: &str, alone: &str) -> Result<(), Disagreement> {
    let foretold = if before == FULL { TAKEN } else { before };
    agree(foretold, alone)
}

/// Whose record it is, and a code that the bench can have answered with.
fn seat_and_code(line: &str) -> Option<(usize, u8)> {
    let digits = line.strip_prefix("turn 0 record ")?;
    let seat = usize::from_str_radix(digits.get(..2)?, 16).ok()?;
    let code = u8::from_str_radix(digits.get(2..4)?, 16).ok()?;
    (seat < SEATS && matches!(code, 0 | 11..=19 | 25 | 26)).then_some((seat, code))
}
