//! Stored lists by their numbers, written in a way of their own, so that a mistake in the
//! reference does not change what is sent; and single numbers that are stored badly.

use super::items::{raw, Item};
use crate::command::{Command, Kind};

/// The bit of a group that another one follows.
const MORE: u8 = 0x80;

/// The groups of a number, which may have more than the 32 bits that are allowed.
pub fn groups(number: u64) -> Item {
    let bits = u64::BITS - number.leading_zeros();
    let last = bits.div_ceil(7).max(1) - 1;
    let group = |place: u32| (number >> (7 * place)) as u8 & !MORE;
    let before = (0..last).map(|place| group(place) | MORE);
    before.chain([group(last)]).collect()
}

/// The same groups and so many more that hold nothing.
pub fn longer(number: u64, more: usize) -> Item {
    let mut groups = endless(number, more);
    *groups.last_mut().expect("a number has a group") &= !MORE;
    groups
}

/// The same groups and so many more that hold nothing, each with another to follow.
pub fn endless(number: u64, more: usize) -> Item {
    let mut groups = groups(number);
    *groups.last_mut().expect("a number has a group") |= MORE;
    groups.resize(groups.len() + more, MORE);
    groups
}

/// The bytes of each number.
pub fn pieces(numbers: &[u64]) -> Vec<Item> {
    numbers.iter().map(|number| groups(*number)).collect()
}

/// The numbers one after another.
pub fn stored(numbers: &[u64]) -> Vec<u8> {
    pieces(numbers).concat()
}

/// The same with other bytes for the number at this place.
pub fn replaced(numbers: &[u64], place: usize, by: &[u8]) -> Vec<u8> {
    let mut all = pieces(numbers);
    all[place] = by.to_vec();
    all.concat()
}

/// The opcode, the flag and the arguments that the kind has, whether allowed or not.
pub fn command(flag: u64, kind: Kind, arguments: [u32; 2]) -> Vec<u64> {
    let row = kind.row();
    let own = arguments.iter().take(row.arguments.len());
    let mut numbers = vec![row.opcode.into(), flag];
    numbers.extend(own.map(|argument| u64::from(*argument)));
    numbers
}

/// The form, the number of commands, and the numbers of each.
pub fn list(commands: &[Vec<u64>]) -> Vec<u64> {
    let mut numbers = vec![1, commands.len() as u64];
    numbers.extend(commands.concat());
    numbers
}

/// The stored form of these commands.
pub fn stored_of(commands: &[Command]) -> Vec<u8> {
    let numbers = |one: &Command| command(one.appended.into(), one.kind, one.arguments);
    let all: Vec<Vec<u64>> = commands.iter().map(numbers).collect();
    stored(&list(&all))
}

/// The raw list of these commands.
pub fn raw_of(commands: &[Command]) -> Vec<u8> {
    let each = commands.iter();
    each.flat_map(|one| raw(one.appended, one.kind, one.arguments))
        .collect()
}
