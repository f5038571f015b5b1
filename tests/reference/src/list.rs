//! The list program: a fixed kit list, the pupil's list from the input, and
//! one line for each record.

use crate::bench::Bench;
use crate::codes::LIST_TOO_LONG;
use crate::command::{Command, Kind};
use crate::run::{records_of, Record, KIT, LONGEST_LIST};
use crate::wire::{sealed, unsealed};

/// Power on, region 0 0, algorithm 0, auto flush 1.
const KIT_LIST: [(Kind, [u32; 2]); 4] = [
    (Kind::ImgPwr, [1, 0]),
    (Kind::ImgRegion, [0, 0]),
    (Kind::TrkAlg, [0, 0]),
    (Kind::FlushAuto, [1, 0]),
];

/// The kit's list as bytes.
pub fn kit_list() -> Vec<u8> {
    KIT_LIST
        .iter()
        .flat_map(|(kind, arguments)| sealed(&unsealed(&Command::new(false, *kind, *arguments))))
        .collect()
}

/// All that the program prints for this input.
pub fn listing(pupil: &[u8]) -> String {
    if pupil.len() > LONGEST_LIST {
        return format!("refused {LIST_TOO_LONG}\n");
    }
    report_lines(&records_of(&mut Bench::default(), &kit_list(), pupil))
}

/// The heading and one line for each record.
pub fn report_lines(records: &[Record]) -> String {
    let mut text = String::from("from no code par val\n");
    for record in records {
        let from = if record.sender == KIT { "kit" } else { "pupil" };
        let Record {
            number,
            code,
            parameter,
            value,
            ..
        } = record;
        text += &format!("{from} {number} {code} {parameter} {value}\n");
    }
    text
}
