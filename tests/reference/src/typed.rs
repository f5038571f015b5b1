//! The run of the kit's raw list and then a typed one (20, 30 to 32, 8 to 10,
//! 21), whose records carry the numbers of the text's lines.

use crate::bench::Bench;
use crate::codes::{refuse_if, Placed, LIST_TOO_LONG, REPORT_ROOM_TOO_SMALL};
use crate::run::{end_run, records_of, Counts, Record, LONGEST_LIST, PUPIL, SMALLEST_REPORT_ROOM};
use crate::text::{commands_typed, TypedCommand};

/// Both lists in turn, recorded but not yet reported anywhere.
pub fn typed_records(bench: &mut Bench, kit: &[u8], commands: &[TypedCommand]) -> Vec<Record> {
    let mut records = records_of(bench, kit, &[]);
    for typed in commands {
        let answer = bench.carry_out(&typed.command);
        records.push(Record::new(PUPIL, typed.line, &answer));
    }
    records
}

/// Runs both lists and writes the records one after another into the room.
pub fn run_typed(
    bench: &mut Bench,
    kit: &[u8],
    text: &[u8],
    room: &mut [u8],
) -> Result<Counts, Placed> {
    refuse_if(kit.len() > LONGEST_LIST, LIST_TOO_LONG)?;
    let commands = commands_typed(text)?;
    refuse_if(room.len() < SMALLEST_REPORT_ROOM, REPORT_ROOM_TOO_SMALL)?;
    let records = typed_records(bench, kit, &commands);
    Ok(end_run(bench, &records, room))
}
