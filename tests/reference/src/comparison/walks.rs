//! A gas valve that takes one frame after another, each read before it is carried out, with
//! fresh valves between: what is sent of it, whether the program's own answers agree, whatever
//! the reference says, and a smaller one of the same sort. What a frame asks for is what the
//! program itself reads in it.

use std::str::Lines;

use super::agreement::Disagreement;
use super::growths::next;
use super::items::{fresh_valve, valve_frame, Item};
use super::shrink::smallest;
use crate::replay::hex;

/// Just enough for a frame.
pub const ROOM: u8 = 64;

#[derive(Clone, Debug, PartialEq, Eq)]
pub struct Walk {
    /// The items that change the valve: a frame carried out, or a fresh valve.
    pub steps: Vec<Item>,
}

/// What the program took since the valve was fresh: a frame that arms, and behind it one that
/// fires with the right code.
#[derive(Clone, Copy, Default)]
struct Taken {
    armed: bool,
    fired: bool,
}

/// What the program reads in a frame: a refusal's code, or an order.
enum Reading<'a> {
    Refused(&'a str),
    Arm,
    Fire(&'a str),
}

/// The frame of a step; none where it is a fresh valve.
fn frame_of(step: &Item) -> Option<&[u8]> {
    (*step != fresh_valve()).then(|| &step[2..])
}

impl Walk {
    /// From a fresh valve on.
    pub fn items(&self) -> Vec<Item> {
        let mut items = vec![fresh_valve()];
        for step in &self.steps {
            items.extend(frame_of(step).map(|frame| valve_frame(ROOM, frame)));
            items.push(step.clone());
        }
        items
    }

    pub fn script_bytes(&self) -> usize {
        self.items().iter().map(Vec::len).sum()
    }

    /// The smallest found that still differs, with fewer steps.
    pub fn smallest(&self, differs: &mut dyn FnMut(&Walk) -> bool) -> Walk {
        let of = |steps: &[Item]| Walk {
            steps: steps.to_vec(),
        };
        smallest(&self.steps, of, differs)
    }
}

/// Takes the answers to a walk off the front of a program's lines, and tells of the first that
/// disagrees with those before it; none where all agree.
pub fn disagreement(walk: &Walk, lines: &mut Lines) -> Option<Disagreement> {
    let mut taken = Taken::default();
    walk.steps.iter().find_map(|step| match frame_of(step) {
        Some(frame) => taken.step(frame, lines).err(),
        None => {
            taken = Taken::default();
            None
        }
    })
}

impl Taken {
    /// The code that a frame with this reading is to have. One that is refused by itself is
    /// refused by every valve.
    fn code<'a>(&self, reading: &Reading<'a>) -> &'a str {
        match reading {
            Reading::Refused(code) => code,
            Reading::Arm => "0",
            Reading::Fire(_) if !self.armed => "45",
            Reading::Fire("6160") => "0",
            Reading::Fire(_) => "46",
        }
    }

    /// No bit is set before the frame for it was taken, and none is lost.
    fn status(&self) -> &'static str {
        match (self.armed, self.fired) {
            (_, true) => "c000",
            (true, false) => "4000",
            (false, false) => "0000",
        }
    }

    fn step(&mut self, frame: &[u8], lines: &mut Lines) -> Result<(), Disagreement> {
        let reading = Reading::of(frame, next(lines)?)?;
        let code = self.code(&reading);
        match reading {
            Reading::Arm => self.armed = true,
            Reading::Fire(_) if code == "0" => self.fired = true,
            _ => {}
        }
        agree(&format!("valve {code} {}", self.status()), next(lines)?)
    }
}

impl<'a> Reading<'a> {
    /// By the line about this frame, which is written again as it was.
    fn of(frame: &[u8], line: &'a str) -> Result<Self, Disagreement> {
        let words: Vec<&str> = line.split(' ').collect();
        let (flags, order, reading) = match words[..] {
            ["frame", code @ ("40" | "41" | "42" | "43" | "44")] => {
                return Ok(Reading::Refused(code));
            }
            ["frame", "0", flags, "arm", ..] => (flags, "arm".into(), Reading::Arm),
            ["frame", "0", flags, "fire", code, ..] => {
                (flags, format!("fire {code}"), Reading::Fire(code))
            }
            _ => return Err(Disagreement::new("frame", line)),
        };
        agree(&format!("frame 0 {flags} {order} 0 {}", hex(frame)), line)?;
        Ok(reading)
    }
}

pub(super) fn agree(foretold: &str, found: &str) -> Result<(), Disagreement> {
    match foretold == found {
        true => Ok(()),
        false => Err(Disagreement::new(foretold, found)),
    }
}
