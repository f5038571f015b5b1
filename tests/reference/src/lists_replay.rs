//! The replay program for what is done to lists without a bench: a script of items in, a
//! transcript of their answers out. Its items are about the stored form, the rescue and the
//! index.

use crate::card::{from_card, to_card};
use crate::codes::code_and_finding;
use crate::index::{found, index};
use crate::replay::{self, rest_line, transcript_by, with_bytes, written_lines, Script};
use crate::rescue::{rescue, Stretch, Written, STRETCH_BYTES};

pub const TO_CARD: u8 = 0x00;
pub const FROM_CARD: u8 = 0x01;
pub const RESCUE: u8 = 0x02;
pub const INDEX: u8 = 0x03;
pub const LOOK_UP: u8 = 0x04;

/// More offsets than these are never sent.
pub const MOST_SENT: usize = 600;
pub const LARGEST_ROOM: usize = 600;
/// What a room of offsets holds before anything is written into it.
pub const ROOM_FILL: u16 = 0xaaaa;

/// The whole transcript of a script.
pub fn transcript(script: &[u8]) -> String {
    transcript_by(script, item)
}

/// Takes one item off the script and answers with its lines.
pub fn item(script: &mut Script) -> Option<String> {
    match script.byte()? {
        TO_CARD => written_lines("stored", to_card, script),
        FROM_CARD => written_lines("raw", from_card, script),
        RESCUE => rescued_lines(script),
        INDEX => index_lines(script),
        LOOK_UP => found_line(script),
        _ => None,
    }
}

/// Both rooms hold bytes. The stretches are told as they stand in the second one.
fn rescued_lines(script: &mut Script) -> Option<String> {
    let (mut room, mut beside) = (script.room()?, script.room()?);
    let answer = rescue(script.long_part()?, &mut room, &mut beside);
    let (code, _) = code_and_finding(&answer);
    let Written { kept, stretches } = answer.unwrap_or_default();
    let words = format!("rescued {code} {kept} {stretches}");
    let mut lines = with_bytes(&words, &room[..kept]);
    for bytes in beside.chunks_exact(STRETCH_BYTES).take(stretches) {
        lines += &Stretch::read(bytes).line();
    }
    lines += &rest_line(&room, replay::ROOM_FILL, kept);
    lines += &rest_line(&beside, replay::ROOM_FILL, STRETCH_BYTES * stretches);
    Some(lines)
}

/// Offsets whose number stands before them in two bytes.
fn offsets(script: &mut Script) -> Option<Vec<u16>> {
    let count = script.half()?;
    if count > MOST_SENT {
        return None;
    }
    (0..count).map(|_| offset(script)).collect()
}

fn offset(script: &mut Script) -> Option<u16> {
    Some(script.half()? as u16)
}

fn index_lines(script: &mut Script) -> Option<String> {
    let mut room = vec![ROOM_FILL; script.half()?.min(LARGEST_ROOM)];
    let (earlier, list) = (offsets(script)?, script.long_part()?);
    let answer = index(list, &earlier, &mut room);
    let (code, _) = code_and_finding(&answer);
    let count = answer.unwrap_or_default();
    let mut lines = format!("indexed {code} {count}");
    for offset in room.iter().take(count) {
        lines += &format!(" {offset}");
    }
    Some(lines + "\n" + &rest_line(&room, ROOM_FILL, count))
}

fn found_line(script: &mut Script) -> Option<String> {
    let (offsets, list) = (offsets(script)?, script.long_part()?);
    let number = script.word()?;
    Some(with_bytes("found", found(list, &offsets, number)))
}
