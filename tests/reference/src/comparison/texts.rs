//! Random typed lists: good lines, lines without a command, and damage to a line
//! of every sort that the rules name; and raw lists for the way back.

use super::damage::{any_kind, arguments, damaged};
use super::items::raw;
use super::past::{numbered_kind, past_arguments, past_word};
use super::rng::Rng;
use crate::command::{Allowed, Argument, FlagRule, Kind, LARGEST_GOAL_BITS, MINUS_ZERO_BITS};
use crate::numbers::{MOST_DIGITS, QUARTERS};
use crate::text::LONGEST_TEXT;

/// Words that are malformed for every argument: signs, other bases, points with
/// too few, too many or other digits, six digits, letters, other scripts.
pub const MALFORMED: [&str; 30] = [
    "", "x", "-1", "+1", "-0", "1x", "x1", "0x1", "1e1", "000000", "000001", "100000", "123456",
    "1.", ".5", ".25", "1.50", "1.125", "1.0", "1.00", "1.2", "1.7", "1.52", "1.750", "1.255",
    "1,5", "1..5", "1.5.", "000001.5", "\u{661}",
];

/// Words at some limit or just past one, of a field, of its width or of five
/// digits, with and without leading zeros; and goals.
pub const LIMITS: [&str; 36] = [
    "0", "1", "2", "3", "7", "8", "255", "256", "257", "263", "599", "600", "601", "1023", "1024",
    "1025", "65535", "65536", "65537", "70000", "66136", "99999", "00000", "00001", "00007",
    "01023", "0.25", "1.5", "1023.75", "1024.25", "00000.5", "99999.75", "65536.5", "32768", "9",
    "10",
];

/// Goals that are allowed and that no text says, the last two next to one that
/// a text does say.
pub const UNSAID_GOALS: [u32; 9] = [
    MINUS_ZERO_BITS,
    1,
    0x3dff_ffff,
    0x3e00_0000,
    0x3f90_0000,
    0x43ff_d001,
    LARGEST_GOAL_BITS,
    0x447f_f001,
    0x447f_efff,
];

/// Lines that carry no command.
const FILLERS: [&str; 6] = ["", "#", "# a remark", "#open 1", "#\t\r\u{e9}\0", "##"];

/// How many quarters the allowed goals have that a text can say.
pub const QUARTERS_BELOW_1024: u32 = 4096;

/// A line in parts, so that each can be damaged by itself.
#[derive(Clone, Debug)]
pub struct Line {
    pub flag: Vec<u8>,
    pub name: Vec<u8>,
    pub arguments: Vec<Vec<u8>>,
}

impl Line {
    pub fn new(appended: bool, kind: Kind, arguments: Vec<Vec<u8>>) -> Self {
        let flag: &[u8] = if appended { b"+" } else { b"" };
        Line {
            flag: flag.to_vec(),
            name: kind.row().name.into(),
            arguments,
        }
    }

    /// The line without a line feed.
    pub fn bytes(&self) -> Vec<u8> {
        let mut bytes = [&self.flag[..], &self.name].concat();
        for argument in &self.arguments {
            bytes.push(b' ');
            bytes.extend(argument);
        }
        bytes
    }
}

/// So many quarters as a goal is typed.
pub fn quarters_word(quarters: u32) -> String {
    let ending = QUARTERS[quarters as usize % QUARTERS.len()];
    format!("{}{ending}", quarters / QUARTERS.len() as u32)
}

/// A value as it is typed; a goal as the quarter below it.
fn word_for(argument: &Argument, value: u32) -> String {
    match argument.allowed {
        Allowed::Range(..) => value.to_string(),
        Allowed::Goal => quarters_word((f32::from_bits(value) * 4.0) as u32),
    }
}

/// Leading zeros, now and then and as far as the digits allow.
fn padded(rng: &mut Rng, word: String) -> String {
    let digits = word.find('.').unwrap_or(word.len());
    let free = MOST_DIGITS.saturating_sub(digits);
    let zeros = if rng.percent(15) {
        rng.below(free + 1)
    } else {
        0
    };
    "0".repeat(zeros) + &word
}

/// The line that says this command, or as nearly as a text can.
pub fn line_for(rng: &mut Rng, appended: bool, kind: Kind, values: [u32; 2]) -> Line {
    let words = kind.row().arguments.iter().zip(values);
    let words = words.map(|(argument, value)| padded(rng, word_for(argument, value)).into());
    Line::new(appended, kind, words.collect())
}

/// The flag if the kind may have it so, otherwise the other one.
pub fn fitting_flag(kind: Kind, flag: bool) -> bool {
    match kind.row().flag {
        FlagRule::Either => flag,
        FlagRule::NeverAppended => false,
        FlagRule::OnlyAppended => true,
    }
}

/// Allowed values, goals in quarters.
fn sayable_values(rng: &mut Rng, kind: Kind) -> [u32; 2] {
    if kind == Kind::TrkGoal {
        let mut goal = || rng.below(QUARTERS_BELOW_1024 as usize) as f32 / 4.0;
        return [goal().to_bits(), goal().to_bits()];
    }
    arguments(rng, kind, 0)
}

fn good_line(rng: &mut Rng) -> Line {
    let kind = any_kind(rng);
    let flag = rng.percent(35);
    let values = sayable_values(rng, kind);
    line_for(rng, fitting_flag(kind, flag), kind, values)
}

/// A line with a number past a limit in one place or in both. (An only argument is left
/// allowed one time in three.)
pub fn past_line(rng: &mut Rng) -> Vec<u8> {
    let kind = numbered_kind(rng);
    let flag = rng.percent(35);
    let values = sayable_values(rng, kind);
    let mut line = line_for(rng, fitting_flag(kind, flag), kind, values);
    let which = rng.below(3);
    for (position, argument) in kind.row().arguments.iter().enumerate() {
        if which != position {
            let word = past_word(rng, argument);
            line.arguments[position] = padded(rng, word).into();
        }
    }
    line.bytes()
}

/// A line with one fault, or with a change that turns out to be none.
fn damaged_line(rng: &mut Rng, mut line: Line) -> Vec<u8> {
    match rng.below(4) {
        0 => change_name(rng, &mut line),
        1 => change_arguments(rng, &mut line),
        2 => return past_line(rng),
        _ => return changed_bytes(rng, line.bytes()),
    }
    line.bytes()
}

fn change_name(rng: &mut Rng, line: &mut Line) {
    let place = rng.below(line.name.len());
    match rng.below(9) {
        0 => line.name.make_ascii_uppercase(),
        1 => line.name[place].make_ascii_uppercase(),
        2 => line.name.truncate(place),
        3 => line.name.push(rng.pick(b"xe_1+\r")),
        4 => line.name[place] = rng.pick(b"abcdefghijklmnopqrstuvwxyz_-"),
        5 => line.flag.push(b' '),
        6 => line.flag.push(b'+'),
        7 if line.flag.is_empty() => line.flag.push(b'+'),
        _ => line.flag.clear(),
    }
}

fn change_arguments(rng: &mut Rng, line: &mut Line) {
    let words = [rng.pick(&MALFORMED), rng.pick(&LIMITS)];
    let word: Vec<u8> = rng.pick(&words).into();
    let count = line.arguments.len();
    match rng.below(6) {
        0 => line.arguments.push(word),
        1 => {
            line.arguments.pop();
        }
        _ if count > 0 => line.arguments[rng.below(count)] = word,
        _ => line.arguments.push(b"1".to_vec()),
    }
}

fn changed_bytes(rng: &mut Rng, mut bytes: Vec<u8>) -> Vec<u8> {
    let place = rng.below(bytes.len());
    let blank = bytes.iter().position(|byte| *byte == b' ');
    match (rng.below(11), blank) {
        (0, _) => bytes.insert(0, b' '),
        (1, Some(blank)) => bytes.insert(blank, b' '),
        (2, Some(blank)) => bytes[blank] = b'\t',
        (1..=3, _) => bytes.push(b' '),
        (4, _) => bytes.push(b'\r'),
        (5, _) => bytes.push(b'\t'),
        (6, _) => bytes.insert(0, b'#'),
        (7, _) => bytes.insert(place, rng.pick(&[0, b'\t', b'\r', 0x7f, 0x80, 0xff])),
        (8, _) => bytes.insert(place, rng.byte() | 0x80),
        (9, _) => bytes[place] = rng.byte(),
        _ => bytes = rng.pick(&["\r", " ", "\t", "+", "+#", " #"]).into(),
    }
    bytes
}

/// None to three lines without a command, mostly none.
pub fn filler(rng: &mut Rng) -> Vec<u8> {
    let lines = if rng.percent(25) { rng.within(1, 3) } else { 0 };
    let filler = (0..lines).map(|_| format!("{}\n", rng.pick(&FILLERS)));
    filler.collect::<String>().into()
}

/// A text of so many commands, each line damaged so many times in a hundred.
pub fn text(rng: &mut Rng, commands: usize, damage_percent: usize) -> Vec<u8> {
    let mut text = Vec::new();
    for _ in 0..commands {
        text.extend(filler(rng));
        let line = good_line(rng);
        text.extend(if rng.percent(damage_percent) {
            damaged_line(rng, line)
        } else {
            line.bytes()
        });
        text.push(b'\n');
    }
    ended(rng, text)
}

/// The last line feed gone or doubled, or a carriage return before every one.
pub fn ended(rng: &mut Rng, mut text: Vec<u8>) -> Vec<u8> {
    match rng.below(20) {
        0..=3 => {
            text.pop();
        }
        4 | 5 => text.push(b'\n'),
        6 => {
            text = text
                .split(|byte| *byte == b'\n')
                .collect::<Vec<_>>()
                .join(&b"\r\n"[..])
        }
        _ => {}
    }
    text
}

/// The text with a remark before it that makes it so long.
pub fn lengthened(text: &[u8], length: usize) -> Vec<u8> {
    let remark = length.saturating_sub(text.len() + 1);
    [&b"#".repeat(remark)[..], b"\n", text].concat()
}

/// A text as long as it may be, one byte less or one byte more.
pub fn long_text(rng: &mut Rng) -> Vec<u8> {
    let length = LONGEST_TEXT + rng.below(3) - 1;
    let damage = rng.pick(&[0, 2]);
    let commands = rng.below(60);
    lengthened(&text(rng, commands, damage), length)
}

/// A raw list, mostly of what a text can say.
pub fn raw_list(rng: &mut Rng, commands: usize, odd_percent: usize) -> Vec<u8> {
    let mut list = Vec::new();
    for _ in 0..commands {
        let kind = any_kind(rng);
        let flag = rng.percent(35);
        let mut values = sayable_values(rng, kind);
        if kind == Kind::TrkGoal && rng.percent(2 * odd_percent) {
            values[rng.below(2)] = match rng.percent(70) {
                true => rng.pick(&UNSAID_GOALS),
                false => rng.word(),
            };
        }
        if rng.percent(odd_percent / 2) {
            values = past_arguments(rng, kind);
        }
        let bytes = raw(fitting_flag(kind, flag), kind, values);
        list.extend(if rng.percent(odd_percent) {
            damaged(rng, &bytes)
        } else {
            bytes
        });
    }
    list
}
