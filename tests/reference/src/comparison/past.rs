//! Numbers past a limit, by hand, so that they stay what they are whatever the table
//! says: those that the wire can carry, and those that only a text can say; and random
//! ones.

use super::damage::{arguments, good_argument};
use super::rng::Rng;
use super::texts::{quarters_word, QUARTERS_BELOW_1024};
use crate::command::{Allowed, Argument, Kind, LARGEST_GOAL_BITS, MINUS_ZERO_BITS, TABLE};

/// A command, the place of one of its arguments from 0, and what it may not have there.
pub type Past<T> = (Kind, usize, &'static [T]);

/// Just past 1023.99.. and minus zero, infinities, and not-a-numbers of both sorts and
/// signs, with few bits and with many.
const PAST_GOALS: &[u32] = &[
    0x4480_0000,
    0x4480_0001,
    0x7f7f_ffff,
    0x7f80_0000,
    0x7f80_0001,
    0x7fbf_ffff,
    0x7fc0_0000,
    0x7fc0_0001,
    0x7fff_ffff,
    0x8000_0001,
    0xbf80_0000,
    0xff80_0000,
    0xff80_0001,
    0xffc0_0000,
    0xffff_ffff,
];

pub const ON_THE_WIRE: [Past<u32>; 13] = [
    (Kind::ImgPwr, 0, &[2, 3, 128, 255]),
    (Kind::ImgRegion, 0, &[1024, 1025, 32768, 65535]),
    (Kind::ImgRegion, 1, &[1024, 1280, 32767, 65535]),
    (Kind::ImgTrack, 1, &[0]),
    (Kind::TrkAlg, 0, &[3, 4, 255]),
    (Kind::TrkLoop, 0, &[2, 129, 255]),
    (Kind::ImgImage, 1, &[0]),
    (Kind::TrkGoal, 0, PAST_GOALS),
    (Kind::TrkGoal, 1, PAST_GOALS),
    (Kind::FlushAuto, 0, &[2, 4, 255]),
    (Kind::Open, 0, &[8, 9, 255]),
    (Kind::Run, 0, &[8, 16, 255]),
    (Kind::Wait, 0, &[0, 601, 856, 32768, 65535]),
];

const PAST_MODES: &[&str] = &["2", "3", "00002", "255", "256", "257", "65536", "99999"];
const PAST_CORNERS: &[&str] = &["1024", "01024", "65535", "65536", "66559", "70000", "99999"];
const PAST_TIMES: &[&str] = &["65536", "65537", "70000", "99999"];
const PAST_INTERVALS: &[&str] = &["0", "00000", "65536", "65537", "70000", "99999"];
const PAST_MACROS: &[&str] = &["8", "00008", "255", "256", "263", "65536", "70000", "99999"];
const PAST_WAITS: &[&str] = &[
    "0", "601", "00601", "65535", "65536", "65537", "66136", "70000", "99999",
];
const PAST_PLACES: &[&str] = &[
    "1024", "01024", "1024.25", "1024.5", "1024.75", "1025", "2048", "65535.75", "65536",
    "65536.5", "70000", "99999", "99999.75",
];

pub const TYPED: [Past<&str>; 15] = [
    (Kind::ImgPwr, 0, PAST_MODES),
    (Kind::ImgRegion, 0, PAST_CORNERS),
    (Kind::ImgRegion, 1, PAST_CORNERS),
    (Kind::ImgTrack, 0, PAST_TIMES),
    (Kind::ImgTrack, 1, PAST_INTERVALS),
    (Kind::TrkAlg, 0, &["3", "255", "256", "258", "99999"]),
    (Kind::TrkLoop, 0, PAST_MODES),
    (Kind::ImgImage, 0, PAST_TIMES),
    (Kind::ImgImage, 1, PAST_INTERVALS),
    (Kind::TrkGoal, 0, PAST_PLACES),
    (Kind::TrkGoal, 1, PAST_PLACES),
    (Kind::FlushAuto, 0, PAST_MODES),
    (Kind::Open, 0, PAST_MACROS),
    (Kind::Run, 0, PAST_MACROS),
    (Kind::Wait, 0, PAST_WAITS),
];

/// The largest whole number that can be typed.
const LARGEST_TYPED: u32 = 99_999;
const MOST_QUARTERS_TYPED: u32 = 4 * LARGEST_TYPED + 3;

/// A kind that has arguments, those with two twice as often.
pub fn numbered_kind(rng: &mut Rng) -> Kind {
    let each = TABLE.iter().map(|row| vec![row.kind; row.arguments.len()]);
    rng.pick(&each.collect::<Vec<_>>().concat())
}

/// Arguments of which one is past a limit or both are, as far as the wire can carry such.
/// (An only argument is left allowed one time in three.)
pub fn past_arguments(rng: &mut Rng, kind: Kind) -> [u32; 2] {
    let mut values = arguments(rng, kind, 0);
    let which = rng.below(3);
    for (position, argument) in kind.row().arguments.iter().enumerate() {
        if which != position {
            values[position] = past_argument(rng, argument);
        }
    }
    values
}

/// A value just past an end, the last that the field holds, or any that is too large;
/// an allowed one where the field has no other.
fn past_argument(rng: &mut Rng, argument: &Argument) -> u32 {
    let Allowed::Range(low, high) = argument.allowed else {
        return past_goal(rng);
    };
    let last = argument.cut(u32::MAX);
    match rng.below(4) {
        0 if low > 0 => low - 1,
        _ if last == high => low
            .checked_sub(1)
            .unwrap_or_else(|| good_argument(rng, argument)),
        0 | 1 => high + 1,
        2 => last,
        _ => rng.within(high as usize + 1, last as usize) as u32,
    }
}

fn past_goal(rng: &mut Rng) -> u32 {
    let few = rng.below(9) as u32;
    match rng.below(6) {
        0 => LARGEST_GOAL_BITS + 1 + few,
        1 => MINUS_ZERO_BITS + 1 + few,
        // A not-a-number of either sign, or an infinity.
        2 => rng.word() | f32::INFINITY.to_bits(),
        3 => rng.word() | (MINUS_ZERO_BITS + 1),
        _ => rng.pick(PAST_GOALS),
    }
}

/// A word that says a number past a limit: just past it, one that the field's width
/// would cut to an allowed one, or any.
pub fn past_word(rng: &mut Rng, argument: &Argument) -> String {
    let Allowed::Range(low, high) = argument.allowed else {
        let just_past = QUARTERS_BELOW_1024 + 3;
        let most = rng.pick(&[just_past, MOST_QUARTERS_TYPED]);
        let quarters = rng.within(QUARTERS_BELOW_1024 as usize, most as usize);
        return quarters_word(quarters as u32);
    };
    let wider = good_argument(rng, argument) + (1 << argument.bits);
    let value = match rng.below(5) {
        0 if low > 0 => low - 1,
        0 | 1 => high + 1,
        2 => wider.min(LARGEST_TYPED),
        3 => rng.pick(&[70_000, LARGEST_TYPED]),
        _ => rng.within(high as usize + 1, LARGEST_TYPED as usize) as u32,
    };
    value.to_string()
}
