//! Numbers as a pupil types them: whole numbers of one to five digits, goals in
//! quarters, and both written again without leading zeros.

use crate::command::{Allowed, Argument, MINUS_ZERO_BITS};

pub const MOST_DIGITS: usize = 5;

/// What stands behind the whole number for none to three quarters.
pub const QUARTERS: [&str; 4] = ["", ".25", ".5", ".75"];

/// The value typed for this argument, none where the word is malformed. It is
/// not cut to the field's width: that would hide a value that is too large.
pub fn value_typed(argument: &Argument, word: &[u8]) -> Option<u32> {
    match argument.allowed {
        Allowed::Range(..) => whole_number(word),
        Allowed::Goal => goal_bits(word),
    }
}

fn whole_number(word: &[u8]) -> Option<u32> {
    let counted = (1..=MOST_DIGITS).contains(&word.len());
    if !counted || !word.iter().all(u8::is_ascii_digit) {
        return None;
    }
    let digits = word.iter().map(|digit| u32::from(digit - b'0'));
    Some(digits.fold(0, |value, digit| 10 * value + digit))
}

/// The bits of the single that a goal names. All that can be typed are exact:
/// 100,000 times four is far below the 2^24 that a single can count to.
fn goal_bits(word: &[u8]) -> Option<u32> {
    let point = word.iter().position(|byte| *byte == b'.');
    let (whole, ending) = word.split_at(point.unwrap_or(word.len()));
    let quarters = QUARTERS.iter().position(|one| one.as_bytes() == ending)?;
    let goal = whole_number(whole)? as f32 + quarters as f32 / 4.0;
    Some(goal.to_bits())
}

/// How an allowed value of this argument is typed, none where no text says it.
pub fn value_said(argument: &Argument, value: u32) -> Option<String> {
    match argument.allowed {
        Allowed::Range(..) => Some(value.to_string()),
        Allowed::Goal => goal_said(value),
    }
}

fn goal_said(bits: u32) -> Option<String> {
    let quarters = f64::from(f32::from_bits(bits)) * 4.0;
    if quarters.fract() != 0.0 || bits == MINUS_ZERO_BITS {
        return None;
    }
    let quarters = quarters as usize;
    Some(format!("{}{}", quarters / 4, QUARTERS[quarters % 4]))
}
