//! How many pictures a series brings in so many seconds, counted second by second, and
//! the cases program's answers to lines that ask for it.

use crate::bench::FOREVER;

/// A series by itself, without a bench or a count.
struct Series {
    time: u16,
    interval: u16,
    next: u16,
}

impl Series {
    fn begun(time: u16, interval: u16) -> Self {
        Series {
            time,
            interval,
            next: 1,
        }
    }

    /// One second of a series with time left; the answer is whether it brings a picture.
    fn second(&mut self) -> bool {
        self.next -= 1;
        let picture = self.next == 0;
        if picture {
            self.next = self.interval;
        }
        if self.time != FOREVER {
            self.time -= 1;
        }
        picture
    }
}

/// The pictures that so many seconds bring, all of them, however many a bench can count.
/// An interval of 0, which no command has, brings none.
pub fn pictures(time: u16, interval: u16, seconds: u32) -> u32 {
    if interval == 0 {
        return 0;
    }
    let mut series = Series::begun(time, interval);
    let mut counted = 0;
    for _ in 0..seconds {
        if series.time == 0 {
            break;
        }
        counted += u32::from(series.second());
    }
    counted
}

/// One line for each that asks for a number of pictures; nothing for any other.
pub fn answers(input: &[u8]) -> String {
    let text = String::from_utf8_lossy(input);
    text.lines().filter_map(answer).collect()
}

/// A label, then time, interval and seconds in hex.
fn answer(line: &str) -> Option<String> {
    let (label, numbers) = line.strip_prefix("pictures ")?.split_once(": ")?;
    let words: Vec<&str> = numbers.split(' ').collect();
    let [time, interval, seconds] = words[..] else {
        return None;
    };
    let time = u16::from_str_radix(time, 16).ok()?;
    let interval = u16::from_str_radix(interval, 16).ok()?;
    let seconds = u32::from_str_radix(seconds, 16).ok()?;
    let number = pictures(time, interval, seconds);
    Some(format!("pictures {label}: {number}\n"))
}
