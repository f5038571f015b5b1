//! Sums: a series and the seconds in which its pictures are to be counted. Fixed ones
//! lie about every end, random ones mostly do.

use super::rng::Rng;
use crate::bench::FOREVER;

/// The seconds begin as the series does.
#[derive(Clone, Copy, Debug, PartialEq, Eq)]
pub struct Sum {
    pub time: u16,
    pub interval: u16,
    pub seconds: u32,
}

/// The reference counts second by second, so a series that never ends gets no more
/// than these. Any other ends by itself, whatever it gets.
pub const MOST_FOR_EVER: u32 = 200_000;

const MOST_SECONDS: u32 = u32::MAX;

const END_TIMES: [u16; 6] = [0, 1, 2, FOREVER - 2, FOREVER - 1, FOREVER];
const END_INTERVALS: [u16; 6] = [0, 1, 2, 3, 65534, 65535];
/// Ends of a time, of a count, of two counts, and of the seconds.
const END_SECONDS: [u32; 16] = [
    0,
    1,
    2,
    65533,
    65534,
    65535,
    65536,
    65537,
    70_000,
    131_070,
    131_071,
    131_072,
    131_073,
    MOST_FOR_EVER,
    1 << 31,
    MOST_SECONDS,
];

/// Intervals whose multiples lie below the longest time, or just past it.
const INTERVALS: [u16; 9] = [1, 2, 3, 7, 255, 256, 1000, 21845, 32767];

/// The fixed sums, then so many random ones.
pub fn sums(rng: &mut Rng, random: usize) -> Vec<Sum> {
    let mut all = fixed();
    all.extend((0..random).map(|_| random_sum(rng)));
    all
}

/// The lines that ask for these sums, each with its number from 1 as its label.
pub fn input(sums: &[Sum]) -> Vec<u8> {
    let mut text = String::new();
    for (index, sum) in sums.iter().enumerate() {
        let Sum {
            time,
            interval,
            seconds,
        } = sum;
        let label = index + 1;
        text += &format!("pictures {label}: {time:04x} {interval:04x} {seconds:08x}\n");
    }
    text.into_bytes()
}

fn fixed() -> Vec<Sum> {
    let mut all: Vec<Sum> = (0..9).map(|seconds| sum(5, 2, seconds)).collect();
    all.extend(ends());
    all.extend(multiples());
    all.retain(|sum| sum.time != FOREVER || sum.seconds <= MOST_FOR_EVER);
    all
}

fn sum(time: u16, interval: u16, seconds: u32) -> Sum {
    Sum {
        time,
        interval,
        seconds,
    }
}

fn ends() -> Vec<Sum> {
    let mut all = Vec::new();
    for time in END_TIMES {
        for interval in END_INTERVALS {
            all.extend(END_SECONDS.map(|seconds| sum(time, interval, seconds)));
        }
    }
    all
}

/// Multiples of an interval and the numbers beside them: as seconds of a time that
/// outlasts them, and as times with just these seconds, one more and the most.
fn multiples() -> Vec<Sum> {
    let mut all = Vec::new();
    for interval in INTERVALS {
        for multiple in [1, 2, 3, 10].map(|times| u32::from(interval) * times) {
            for seconds in multiple - 1..=multiple + 1 {
                all.extend([FOREVER - 1, FOREVER].map(|time| sum(time, interval, seconds)));
                if let Ok(time) = u16::try_from(seconds) {
                    let given = [seconds, seconds + 1, MOST_SECONDS];
                    all.extend(given.map(|seconds| sum(time, interval, seconds)));
                }
            }
        }
    }
    all
}

fn random_sum(rng: &mut Rng) -> Sum {
    let time = some_number(rng);
    let interval = match rng.percent(40) {
        true => time / rng.within(1, 9) as u16,
        false => some_number(rng),
    };
    let seconds = match rng.below(5) {
        0 | 1 => near(rng, time.into()),
        2 | 3 => near_multiple(rng, time, interval),
        _ => rng.word() >> rng.below(32),
    };
    match time {
        FOREVER => sum(time, interval, seconds % (MOST_FOR_EVER + 1)),
        _ => sum(time, interval, seconds),
    }
}

/// A time or an interval: at either end, small, or any.
fn some_number(rng: &mut Rng) -> u16 {
    match rng.below(4) {
        0 => rng.below(4) as u16,
        1 => u16::MAX - rng.below(4) as u16,
        2 => rng.below(300) as u16,
        _ => rng.word() as u16,
    }
}

/// Up to two less or two more.
fn near(rng: &mut Rng, number: u32) -> u32 {
    (number + rng.below(5) as u32).saturating_sub(2)
}

/// About a multiple of the interval, mostly within the time.
fn near_multiple(rng: &mut Rng, time: u16, interval: u16) -> u32 {
    let within = time / interval.max(1);
    let times = rng.below(usize::from(within) + 2) as u32;
    near(rng, u32::from(interval) * times)
}
