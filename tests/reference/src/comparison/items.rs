//! Builders for the items of replay scripts, and for the commands they carry,
//! allowed or not.

use crate::command::{Command, Kind};
use crate::lists_replay::{FROM_CARD, INDEX, LOOK_UP, RESCUE, TO_CARD};
use crate::replay::{
    ASSEMBLE, COMMAND, DECODED, FRAME, FRESH, HOUSEKEEPING, LINE, LIST, PASSED, READ, RUN, SECOND,
    SHOWN, STATUS, TAGS, TYPED,
};
use crate::seats_replay::{QUEUE, TURN};
use crate::valve_replay;
use crate::wire::{sealed, unsealed};

/// One item of a script, as its bytes.
pub type Item = Vec<u8>;

/// Most bytes that items with a one-byte length can carry.
pub const LONGEST_PART: usize = 255;

pub fn second() -> Item {
    vec![SECOND]
}

pub fn status() -> Item {
    vec![STATUS]
}

pub fn fresh() -> Item {
    vec![FRESH]
}

pub fn passed(seconds: u16) -> Item {
    let [high, low] = seconds.to_be_bytes();
    vec![PASSED, high, low]
}

/// A part behind its length in one byte; what does not fit is cut off.
fn short_part(item: &mut Item, bytes: &[u8]) {
    let part = &bytes[..bytes.len().min(LONGEST_PART)];
    item.push(part.len() as u8);
    item.extend(part);
}

fn long_part(item: &mut Item, bytes: &[u8]) {
    item.extend((bytes.len() as u16).to_be_bytes());
    item.extend(bytes);
}

pub fn command(bytes: &[u8]) -> Item {
    let mut item = vec![COMMAND];
    short_part(&mut item, bytes);
    item
}

pub fn run(room: u16, kit: &[u8], pupil: &[u8]) -> Item {
    let mut item = vec![RUN];
    item.extend(room.to_be_bytes());
    long_part(&mut item, kit);
    long_part(&mut item, pupil);
    item
}

pub fn shown(kit: &[u8], pupil: &[u8], sender: u8, number: u32) -> Item {
    let mut item = vec![SHOWN];
    long_part(&mut item, kit);
    long_part(&mut item, pupil);
    item.push(sender);
    item.extend(number.to_be_bytes());
    item
}

pub fn frame(room: u8, bytes: &[u8]) -> Item {
    let mut item = vec![FRAME, room];
    short_part(&mut item, bytes);
    item
}

pub fn read(room: u8, bytes: &[u8]) -> Item {
    let mut item = vec![READ, room];
    short_part(&mut item, bytes);
    item
}

pub fn decoded(flag: u8, row: u8, arguments: [u32; 2]) -> Item {
    let mut item = vec![DECODED, flag, row];
    item.extend(arguments[0].to_be_bytes());
    item.extend(arguments[1].to_be_bytes());
    item
}

pub fn assemble(room: u16, text: &[u8]) -> Item {
    let mut item = vec![ASSEMBLE];
    item.extend(room.to_be_bytes());
    long_part(&mut item, text);
    item
}

pub fn list_text(room: u16, raw: &[u8]) -> Item {
    let mut item = vec![LIST];
    item.extend(room.to_be_bytes());
    long_part(&mut item, raw);
    item
}

pub fn typed(room: u16, kit: &[u8], text: &[u8]) -> Item {
    let mut item = vec![TYPED];
    item.extend(room.to_be_bytes());
    long_part(&mut item, kit);
    long_part(&mut item, text);
    item
}

pub fn line(text: &[u8], number: u32) -> Item {
    let mut item = vec![LINE];
    long_part(&mut item, text);
    item.extend(number.to_be_bytes());
    item
}

pub fn housekeeping(room: u8) -> Item {
    vec![HOUSEKEEPING, room]
}

pub fn tags(room: u8, bytes: &[u8]) -> Item {
    let mut item = vec![TAGS, room];
    short_part(&mut item, bytes);
    item
}

fn long_offsets(item: &mut Item, offsets: &[u16]) {
    item.extend((offsets.len() as u16).to_be_bytes());
    item.extend(offsets.iter().flat_map(|offset| offset.to_be_bytes()));
}

/// An item of the replay program for lists, as the next ones.
pub fn to_card(room: u16, raw: &[u8]) -> Item {
    let mut item = vec![TO_CARD];
    item.extend(room.to_be_bytes());
    long_part(&mut item, raw);
    item
}

pub fn from_card(room: u16, stored: &[u8]) -> Item {
    let mut item = vec![FROM_CARD];
    item.extend(room.to_be_bytes());
    long_part(&mut item, stored);
    item
}

/// The first room is for the commands, the one beside it for the stretches.
pub fn rescue(room: u16, beside: u16, list: &[u8]) -> Item {
    let mut item = vec![RESCUE];
    item.extend(room.to_be_bytes());
    item.extend(beside.to_be_bytes());
    long_part(&mut item, list);
    item
}

pub fn index(room: u16, offsets: &[u16], list: &[u8]) -> Item {
    let mut item = vec![INDEX];
    item.extend(room.to_be_bytes());
    long_offsets(&mut item, offsets);
    long_part(&mut item, list);
    item
}

pub fn look_up(offsets: &[u16], list: &[u8], number: u32) -> Item {
    let mut item = vec![LOOK_UP];
    long_offsets(&mut item, offsets);
    long_part(&mut item, list);
    item.extend(number.to_be_bytes());
    item
}

/// An item of the replay program for the valve, as the next ones: a fresh valve.
pub fn fresh_valve() -> Item {
    vec![valve_replay::FRESH]
}

/// A frame carried out.
pub fn valve(bytes: &[u8]) -> Item {
    let mut item = vec![valve_replay::CARRY_OUT];
    short_part(&mut item, bytes);
    item
}

/// A frame read and written again.
pub fn valve_frame(room: u8, bytes: &[u8]) -> Item {
    let mut item = vec![valve_replay::READ, room];
    short_part(&mut item, bytes);
    item
}

/// An item of the replay program for the four-seat bench, as the next one: a seat queues a
/// command. (A second, the status and a fresh bench are the same items in both programs.)
pub fn queue(seat: u8, bytes: &[u8]) -> Item {
    let mut item = vec![QUEUE, seat];
    short_part(&mut item, bytes);
    item
}

pub fn turn() -> Item {
    vec![TURN]
}

/// A command's bytes with a right XOR, whether or not it would be taken.
pub fn raw(appended: bool, kind: Kind, arguments: [u32; 2]) -> Vec<u8> {
    sealed(&unsealed(&Command::new(appended, kind, arguments)))
}

/// A command to execute, by its first argument.
pub fn now(kind: Kind, argument: u32) -> Item {
    command(&raw(false, kind, [argument, 0]))
}

/// A command to append, by its first argument.
pub fn append(kind: Kind, argument: u32) -> Item {
    command(&raw(true, kind, [argument, 0]))
}

/// So many seconds, each with the status after it.
pub fn watched(seconds: usize) -> Vec<Item> {
    (0..seconds).flat_map(|_| [second(), status()]).collect()
}
