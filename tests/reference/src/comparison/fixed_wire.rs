//! Fixed episodes about bytes: every limit of every argument, every L, faults
//! together, list ends, oversized lists, rooms, and frames broken rule by rule.

use super::damage::GOALS;
use super::items::{command, decoded, frame, now, raw, read, run, shown, status, watched, Item};
use crate::bench::Bench;
use crate::command::{Allowed, Argument, Command, FlagRule, Kind, Row, TABLE};
use crate::frame::{
    AT_CLOSED, AT_CLOSED_COUNT, AT_GOAL_X, AT_GOAL_Y, AT_IMAGE_INTERVAL, AT_MODES, AT_OPEN,
    AT_RUNNING, AT_SECONDS_LEFT, AT_TRACK_INTERVAL, AT_X, AT_Y, FRAME_BYTES, NO_MACRO,
};
use crate::replay::DECODED_ROOM;
use crate::run::{KIT, LONGEST_LIST, PUPIL};
use crate::wire::{bytes_of, sealed, unsealed, FLAG_BIT, LENGTH_BITS, OPCODE_SHIFT};

const ROOM: u8 = DECODED_ROOM as u8;
const REPORT_ROOM: u16 = 12_288;

pub fn episodes() -> Vec<Vec<Item>> {
    let mut episodes: Vec<Vec<Item>> = TABLE.iter().flat_map(limits).collect();
    episodes.extend(TABLE.iter().map(lengths));
    episodes.extend(TABLE.iter().map(fault_sets));
    episodes.extend([
        unknown_opcodes(),
        list_ends(),
        list_tails(),
        numbers_shown(),
    ]);
    episodes.extend([oversized_lists(), full_lists()]);
    episodes.extend([report_rooms(), read_rooms(), decoded_rows()]);
    for base in [idle_frame(), busy_frame()] {
        episodes.extend(every_byte_value(&base));
        episodes.extend([every_closed_byte(&base), field_edges(&base)]);
    }
    episodes.push(frame_sizes());
    episodes
}

/// The ends of a field's range, one past each, and the ends of its width.
fn edges(argument: &Argument) -> Vec<u32> {
    let Allowed::Range(low, high) = argument.allowed else {
        return GOALS.to_vec();
    };
    let widest = argument.cut(u32::MAX);
    let near = [0, low.saturating_sub(1), low, low + 1, high - 1, high];
    let mut edges = near.to_vec();
    edges.extend([(high + 1).min(widest), widest]);
    edges.sort_unstable();
    edges.dedup();
    edges
}

/// A row's arguments with all of them allowed.
pub(super) fn good(row: &Row) -> [u32; 2] {
    let mut values = [0; 2];
    for (value, argument) in values.iter_mut().zip(row.arguments) {
        *value = u32::from(argument.allows(1));
    }
    values
}

/// Every argument set of a row in which one value is an edge or both are.
pub(super) fn edge_sets(row: &Row) -> Vec<[u32; 2]> {
    let mut sets = vec![good(row)];
    for (position, argument) in row.arguments.iter().enumerate() {
        for value in edges(argument) {
            let mut set = good(row);
            set[position] = value;
            sets.push(set);
            sets.push([value; 2]);
        }
    }
    sets
}

/// Each edge sent to a bench with no macro, then appended to one and handed over, all
/// with power on, so that nothing but the edge can be refused.
fn limits(row: &Row) -> [Vec<Item>; 2] {
    let mut alone = vec![now(Kind::ImgPwr, 1)];
    let mut stored = vec![now(Kind::ImgPwr, 1), now(Kind::Open, 5)];
    for set in edge_sets(row) {
        for appended in [false, true] {
            let bytes = raw(appended, row.kind, set);
            alone.extend([command(&bytes), status(), read(ROOM, &bytes)]);
            alone.extend([decoded(appended.into(), row.kind as u8, set), status()]);
        }
        stored.extend([command(&raw(true, row.kind, set)), status()]);
    }
    stored.extend([now(Kind::Close, 0), now(Kind::Run, 5), status()]);
    stored.extend(watched(26));
    [alone, stored]
}

/// Each L that is judged differently from its neighbours somewhere, and some.
pub(super) fn every_length() -> Vec<usize> {
    let mut lengths: Vec<usize> = (0..=33).collect();
    lengths.push(LENGTH_BITS as usize);
    lengths
}

/// A command of this row that claims and has L words (as far as it can), sealed.
pub(super) fn of_length(row: &Row, flag: u32, length: usize) -> Vec<u8> {
    let mut words = unsealed(&Command::new(false, row.kind, good(row)));
    words.resize(length.clamp(2, 34) - 1, 0);
    words[0] = u32::from(row.opcode) << OPCODE_SHIFT | flag | length as u32;
    sealed(&words)
}

fn lengths(row: &Row) -> Vec<Item> {
    let mut items = Vec::new();
    for length in every_length() {
        let bytes = of_length(row, 0, length);
        items.push(command(&bytes));
        if !(6..=30).contains(&length) {
            let flagged = of_length(row, FLAG_BIT, length);
            items.extend([command(&flagged), read(ROOM, &flagged)]);
            items.push(read(ROOM, &bytes[..bytes.len() - 1]));
            items.push(read(ROOM, &[&bytes[..], &[0xff; 5]].concat()));
        }
    }
    items.push(status());
    items
}

/// Opcodes next to each known one, or known ones with one bit off.
fn unknown_opcodes() -> Vec<Item> {
    let mut items = Vec::new();
    for row in &TABLE {
        let mut opcodes: Vec<u16> = (0..16).map(|bit| row.opcode ^ 1 << bit).collect();
        opcodes.extend([row.opcode - 1, row.opcode + 1, row.opcode.swap_bytes()]);
        for opcode in opcodes {
            let mut words = unsealed(&Command::new(false, row.kind, good(row)));
            words[0] = u32::from(opcode) << OPCODE_SHIFT | row.words as u32;
            items.push(command(&sealed(&words)));
        }
    }
    items.push(status());
    items
}

/// Every set of faults that a command of this row can have at once.
fn fault_sets(row: &Row) -> Vec<Item> {
    let mut items = Vec::new();
    for faults in 0..128 {
        let bytes = faulty(row, faults);
        items.extend([command(&bytes), read(ROOM, &bytes)]);
    }
    items.push(status());
    items
}

/// One bit of `faults` for each fault; where a row cannot have it, it has none.
pub(super) fn faulty(row: &Row, faults: u32) -> Vec<u8> {
    let has = |fault: u32| faults >> fault & 1 == 1;
    let mut set = good(row);
    for (position, argument) in row.arguments.iter().enumerate() {
        if has(position as u32) {
            set[position] = if argument.allows(0) { u32::MAX } else { 0 };
        }
    }
    let appended = has(2) != (row.flag == FlagRule::OnlyAppended);
    let mut words = unsealed(&Command::new(appended, row.kind, set));
    let argument_bits: u32 = row.arguments.iter().map(|argument| argument.bits).sum();
    if has(3) && words.len() == 2 && argument_bits < 32 {
        words[1] |= 1;
    }
    if has(4) {
        words.push(0);
        words[0] += 1;
    }
    if has(5) {
        words[0] ^= 0x0080 << OPCODE_SHIFT;
    }
    let mut bytes = sealed(&words);
    if has(6) {
        *bytes.last_mut().expect("two words or more") ^= 1;
    }
    bytes
}

pub(super) fn flush() -> Vec<u8> {
    raw(false, Kind::TlmFlush, [0; 2])
}

/// Lists whose second command has each L in turn, on either side of a run.
fn list_ends() -> Vec<Item> {
    let mut items = Vec::new();
    for length in every_length() {
        let odd = of_length(Kind::TlmFlush.row(), 0, length);
        let list = [flush(), odd, flush()].concat();
        items.push(run(REPORT_ROOM, &list, &flush()));
        items.push(run(REPORT_ROOM, &flush(), &list));
        items.push(shown(&list, &[], KIT, 2));
        items.push(shown(&[], &list, PUPIL, 3));
    }
    items.push(status());
    items
}

/// Lists with 0 to 12 bytes behind their last whole command.
fn list_tails() -> Vec<Item> {
    let mut items = Vec::new();
    for tail in 0..=12 {
        let rest = raw(false, Kind::ImgPwr, [1, 0]);
        let list = [&flush(), &rest[..tail]].concat();
        for part in [&list[..], &rest[..tail]] {
            items.push(run(REPORT_ROOM, part, part));
            items.push(shown(part, &[], KIT, 1));
            items.push(shown(&[], part, PUPIL, 2));
        }
        items.push(status());
    }
    items
}

fn numbers_shown() -> Vec<Item> {
    let goal = raw(false, Kind::TrkGoal, [1, 0]);
    let damaged = of_length(Kind::TlmFlush.row(), 0, 5);
    let kit = [&flush()[..], &goal, &damaged, &[1, 2, 3]].concat();
    let pupil = [&goal[..], &bytes_of(&[0x015a_0021, 0]), &goal].concat();
    let mut items = Vec::new();
    for sender in [0, KIT, PUPIL, 3, 255] {
        for number in [0, 1, 2, 3, 4, 5, 256, 0x0001_0001, 0x0100_0000, u32::MAX] {
            items.push(shown(&kit, &pupil, sender, number));
            items.push(shown(&[], &kit, sender, number));
        }
    }
    items
}

/// One byte too many on either side of a run and of shown.
fn oversized_lists() -> Vec<Item> {
    let full = flush().repeat(LONGEST_LIST / flush().len());
    let big = [&full[..], &[0]].concat();
    let mut items = vec![
        run(13_000, &big, &[]),
        run(13_000, &[], &big),
        run(100, &big, &[]),
        run(100, &[], &big),
        status(),
    ];
    for sender in [KIT, PUPIL] {
        items.push(shown(&big, &flush(), sender, 1));
        items.push(shown(&flush(), &big, sender, 1));
    }
    items.extend([shown(&full, &[], KIT, 512), shown(&full, &[], KIT, 513)]);
    items.extend([shown(&[], &full, PUPIL, 512), status()]);
    items
}

/// Both lists as long as they may be, into a room that they just fill, into a
/// larger one, and into one that is a byte too small.
fn full_lists() -> Vec<Item> {
    let full = flush().repeat(LONGEST_LIST / flush().len());
    let goals = raw(false, Kind::TrkGoal, [2, 1]).repeat(LONGEST_LIST / 16);
    vec![
        run(REPORT_ROOM, &full, &full),
        status(),
        run(13_000, &goals, &full[..LONGEST_LIST - 1]),
        status(),
        run(REPORT_ROOM - 1, &full, &goals),
        status(),
    ]
}

fn report_rooms() -> Vec<Item> {
    let mut items = Vec::new();
    let small = [0, 1, 11, 12, 24, 8191, 8192, 8193, 9000, 12276, 12286];
    let large = [
        12287, 12288, 12289, 12999, 13000, 13001, 16384, 32768, 65535,
    ];
    for room in small.into_iter().chain(large) {
        items.extend([run(room, &flush(), &flush()), status()]);
    }
    items
}

fn read_rooms() -> Vec<Item> {
    let mut items = Vec::new();
    for row in &TABLE {
        let bytes = raw(row.flag == FlagRule::OnlyAppended, row.kind, good(row));
        for room in (0..=17).chain([255]) {
            items.push(read(room, &bytes));
        }
    }
    items
}

/// Every row number and several flags, so that both remainders are seen.
fn decoded_rows() -> Vec<Item> {
    let mut items = Vec::new();
    for row in 0..=255 {
        items.push(decoded(row / 7, row, [0x0001_0101, 0x0002_0102]));
        items.push(status());
    }
    items
}

/// The frame of a fresh bench.
fn idle_frame() -> Vec<u8> {
    let mut room = [0; FRAME_BYTES];
    let written = Bench::default().frame().write(&mut room);
    room[..written.unwrap_or(0)].to_vec()
}

/// A frame in which everything is going on: macro 3 runs, 5 is open, and no
/// field has the value of another.
fn busy_frame() -> Vec<u8> {
    vec![
        0xff, 0xff, 0x00, 0x07, 0x12, 0x34, 0x56, 0x78, 0x9a, 0xbc, 0xde, 0xf0, 0x03, 0xff, 0x02,
        0x01, 0x44, 0x7f, 0xff, 0xff, 0x80, 0x00, 0x00, 0x00, 0x27, 0xc8, 0x03, 0x05, 0x01, 0x2c,
        0x4f, 0x05,
    ]
}

/// Each value of bytes 24 and 26 to 31, the others left as they are.
fn every_byte_value(base: &[u8]) -> Vec<Vec<Item>> {
    let places = [AT_MODES].into_iter().chain(AT_RUNNING..FRAME_BYTES);
    places.map(|place| byte_values(base, place)).collect()
}

fn byte_values(base: &[u8], place: usize) -> Vec<Item> {
    let mut items = Vec::new();
    for value in 0..=255 {
        let mut bytes = base.to_vec();
        bytes[place] = value;
        items.push(frame(FRAME_BYTES as u8, &bytes));
    }
    items
}

/// Each set of closed macros with its count right.
fn every_closed_byte(base: &[u8]) -> Vec<Item> {
    let mut items = Vec::new();
    for closed in 0..=255u8 {
        let mut bytes = base.to_vec();
        bytes[AT_CLOSED] = closed;
        bytes[AT_CLOSED_COUNT] = closed.count_ones() as u8;
        items.push(frame(FRAME_BYTES as u8, &bytes));
    }
    items
}

/// The ends of each field, and running and seconds left in every combination.
fn field_edges(base: &[u8]) -> Vec<Item> {
    let mut items = Vec::new();
    let mut send = |changes: &[(usize, u16)]| {
        let mut bytes = base.to_vec();
        for (place, value) in changes {
            bytes[*place..place + 2].copy_from_slice(&value.to_be_bytes());
        }
        items.push(frame(FRAME_BYTES as u8, &bytes));
    };
    for value in [0, 1, 255, 256, 599, 600, 601, 1023, 1024, 0x8000, 65535] {
        for place in (0..AT_GOAL_X).step_by(2) {
            send(&[(place, value)]);
        }
        for running in [0, 3, 7, 8, NO_MACRO] {
            let macros = u16::from(running) << 8 | u16::from(base[AT_OPEN]);
            send(&[(AT_RUNNING, macros), (AT_SECONDS_LEFT, value)]);
        }
    }
    for goal in GOALS {
        for place in [AT_GOAL_X, AT_GOAL_Y] {
            send(&[(place, (goal >> 16) as u16), (place + 2, goal as u16)]);
        }
    }
    for place in [AT_IMAGE_INTERVAL, AT_TRACK_INTERVAL, AT_X, AT_Y] {
        send(&[(place, 0x0400)]);
    }
    items
}

/// Frames of each length around the right one, and rooms of each size.
fn frame_sizes() -> Vec<Item> {
    let wide = busy_frame().repeat(7);
    let mut items = Vec::new();
    for length in (0..=40).chain([64, 224]) {
        items.push(frame(FRAME_BYTES as u8, &wide[..length]));
    }
    for room in 0..=255 {
        items.push(frame(room, &wide[..FRAME_BYTES]));
    }
    items
}
