//! The run of two lists, the kit's and then the pupil's, with one record for
//! each command (codes 20, 21), what the bench keeps of it, and the bytes shown
//! for a record.

use crate::bench::{Bench, Latest};
use crate::codes::{
    code_and_finding, refuse_if, Refusal, ACCEPTED, LIST_TOO_LONG, REPORT_ROOM_TOO_SMALL,
};
use crate::wire::extent;

pub const LONGEST_LIST: usize = 4096;
pub const SMALLEST_REPORT_ROOM: usize = 12_288;
pub const RECORD_BYTES: usize = 12;
pub const KIT: u8 = 1;
pub const PUPIL: u8 = 2;

#[derive(Clone, Copy, Debug, PartialEq, Eq)]
pub struct Record {
    pub sender: u8,
    pub code: u8,
    pub parameter: u8,
    pub number: u32,
    /// What was found where an argument was out of range; otherwise 0.
    pub value: u32,
}

/// How many records each sender got.
#[derive(Clone, Copy, Debug, Default, PartialEq, Eq)]
pub struct Counts {
    pub kit: usize,
    pub pupil: usize,
}

impl Record {
    /// The record of the sender's command of this number, which was answered so.
    pub fn new(sender: u8, number: u32, answer: &Result<(), Refusal>) -> Self {
        let (code, finding) = code_and_finding(answer);
        Record {
            sender,
            code,
            parameter: finding.parameter,
            number,
            value: finding.value,
        }
    }

    pub fn bytes(&self) -> Vec<u8> {
        let mut bytes = vec![self.sender, self.code, self.parameter, 0];
        bytes.extend(self.number.to_be_bytes());
        bytes.extend(self.value.to_be_bytes());
        bytes
    }
}

/// Where each command of the list starts. Codes 1 to 3 take all that is left,
/// because nobody can tell where another command would start.
fn starts_of(list: &[u8]) -> Vec<usize> {
    let mut starts = Vec::new();
    let mut at = 0;
    while at < list.len() {
        starts.push(at);
        at += extent(&list[at..]).unwrap_or(list.len() - at);
    }
    starts
}

/// The bytes of each command of the list, one after another.
pub fn commands_of(list: &[u8]) -> Vec<&[u8]> {
    let rests = starts_of(list).into_iter().map(|start| &list[start..]);
    rests
        .map(|rest| &rest[..extent(rest).unwrap_or(rest.len())])
        .collect()
}

/// Whether a list comes to its end between two commands: none of its bytes has code 1, 2
/// or 3, so that another list may be joined to it.
pub fn rests(list: &[u8]) -> bool {
    commands_of(list).iter().all(|one| extent(one).is_ok())
}

fn run_one(bench: &mut Bench, sender: u8, list: &[u8], records: &mut Vec<Record>) {
    for start in starts_of(list) {
        let own = records.iter().filter(|record| record.sender == sender);
        let number = own.count() as u32 + 1;
        let answer = bench.carry_out_bytes(&list[start..]);
        records.push(Record::new(sender, number, &answer));
    }
}

/// Both lists in turn, recorded but not yet reported anywhere.
pub fn records_of(bench: &mut Bench, kit: &[u8], pupil: &[u8]) -> Vec<Record> {
    let mut records = Vec::new();
    run_one(bench, KIT, kit, &mut records);
    run_one(bench, PUPIL, pupil, &mut records);
    records
}

/// Runs both lists and writes the records one after another into the room.
pub fn run_lists(
    bench: &mut Bench,
    kit: &[u8],
    pupil: &[u8],
    room: &mut [u8],
) -> Result<Counts, Refusal> {
    refuse_if(either_too_long(kit, pupil), LIST_TOO_LONG)?;
    refuse_if(room.len() < SMALLEST_REPORT_ROOM, REPORT_ROOM_TOO_SMALL)?;
    let records = records_of(bench, kit, pupil);
    Ok(end_run(bench, &records, room))
}

/// The end of a run that was not refused: the bench keeps what housekeeping tells of
/// it, and the records are reported.
pub fn end_run(bench: &mut Bench, records: &[Record], room: &mut [u8]) -> Counts {
    bench.latest = latest_of(records);
    report(records, room)
}

/// Of the pupil's records alone, whatever the kit's have.
fn latest_of(records: &[Record]) -> Latest {
    let own: Vec<&Record> = records.iter().filter(|one| one.sender == PUPIL).collect();
    let last = own.last();
    let last_failed = own.iter().rfind(|one| one.code != ACCEPTED);
    Latest {
        received: last.map_or(0, |one| one.number),
        failed: last_failed.map_or(0, |one| one.number),
        failed_code: last_failed.map_or(ACCEPTED, |one| one.code),
    }
}

/// Writes the records one after another into the room, which has enough of it.
fn report(records: &[Record], room: &mut [u8]) -> Counts {
    for (record, place) in records.iter().zip(room.chunks_exact_mut(RECORD_BYTES)) {
        place.copy_from_slice(&record.bytes());
    }
    let count = |sender| records.iter().filter(|one| one.sender == sender).count();
    Counts {
        kit: count(KIT),
        pupil: count(PUPIL),
    }
}

fn either_too_long(kit: &[u8], pupil: &[u8]) -> bool {
    kit.len() > LONGEST_LIST || pupil.len() > LONGEST_LIST
}

/// The bytes of a sender's command by its number; empty where none has it.
pub fn shown<'a>(kit: &'a [u8], pupil: &'a [u8], sender: u8, number: u32) -> &'a [u8] {
    if either_too_long(kit, pupil) {
        return &[];
    }
    let list = match sender {
        KIT => kit,
        PUPIL => pupil,
        _ => return &[],
    };
    let mut numbered = (1..).zip(commands_of(list));
    numbered.find(|(n, _)| *n == number).map_or(&[], |it| it.1)
}
