//! Fixed episodes about what was wrong with a typed number: every argument past each of
//! its limits in words, both at once, other faults beside, and typed runs.

use super::fixed_range::{ends, list, past_of, two, REPORT_ROOM, SMALL_ROOM};
use super::fixed_wire::flush;
use super::items::{assemble, status, typed, Item};
use super::past::TYPED;
use super::texts::Line;
use crate::command::{Kind, TABLE};
use crate::run::LONGEST_LIST;

/// Words that are allowed beside another one.
const BESIDE: [&str; 2] = ["1", "1023"];

pub fn episodes() -> Vec<Vec<Item>> {
    vec![
        typed_words(),
        typed_pairs(),
        typed_runs(),
        other_faults_of_lines(),
        full_typed_reports(),
    ]
}

/// A line with this word in this place and the other in the other.
fn line(flag: bool, kind: Kind, place: usize, word: &str, other: &str) -> Vec<u8> {
    let mut words = vec![other.into(); kind.row().arguments.len()];
    words[place] = word.into();
    Line::new(flag, kind, words).bytes()
}

/// All bad lines, with the flag and without.
fn bad_lines() -> Vec<Vec<u8>> {
    let mut lines = Vec::new();
    for (kind, place, words) in TYPED {
        let beside = if two(kind) { &BESIDE[..] } else { &[""] };
        for word in words {
            for flag in [false, true] {
                let forms = beside.iter();
                lines.extend(forms.map(|other| line(flag, kind, place, word, other)));
            }
        }
    }
    lines
}

fn typed_words() -> Vec<Item> {
    let mut items = Vec::new();
    for line in bad_lines() {
        items.push(assemble(SMALL_ROOM, &line));
        items.push(assemble(0, &[b"stop\n#\n", &line[..], b"\nx"].concat()));
    }
    items
}

/// Both words past a limit.
fn typed_pairs() -> Vec<Item> {
    let mut items = Vec::new();
    for row in TABLE.iter().filter(|row| two(row.kind)) {
        for first in past_of(&TYPED, row.kind, 0) {
            for second in past_of(&TYPED, row.kind, 1) {
                let text = line(false, row.kind, 0, first, second);
                items.push(assemble(SMALL_ROOM, &text));
            }
        }
    }
    items
}

/// Kits with values before texts that are taken, and before texts that are not.
fn typed_runs() -> Vec<Item> {
    let kit = list();
    let mut items = vec![
        typed(REPORT_ROOM, &kit, b"\nstop\n#\nclose\nimg_track 300 7\n"),
        status(),
    ];
    for line in bad_lines() {
        items.push(typed(REPORT_ROOM, &flush(), &[b"#\n", &line[..]].concat()));
    }
    items.extend([typed(0, &kit, b"run 8"), status()]);
    items
}

/// Lines whose fault is another one, beside numbers past a limit or allowed ones.
fn other_faults_of_lines() -> Vec<Item> {
    let mut items = Vec::new();
    for row in &TABLE {
        for word in ["1", "70000", "99999", "0"] {
            let words = vec![Vec::from(word); row.arguments.len()];
            let whole = Line::new(false, row.kind, words).bytes();
            let flagged = [b"+", &whole[..]].concat();
            let ends: [&[u8]; 4] = [b"", b" 1", b"x", b".5"];
            for line in [whole, flagged] {
                items.extend(ends.map(|end| assemble(SMALL_ROOM, &[&line[..], end].concat())));
            }
        }
    }
    items
}

/// As many records as there can be, into a room that just suffices and into one that
/// does not.
fn full_typed_reports() -> Vec<Item> {
    let kit = flush().repeat(LONGEST_LIST / flush().len());
    let text = b"tlm_flush\n".repeat(512);
    let mut items = Vec::new();
    for room in [12_287, REPORT_ROOM] {
        items.extend([typed(room, &kit, &text), status()]);
    }
    items
}

/// Texts for the programs that read one: a line with each argument just past a limit,
/// and one far away.
pub fn texts() -> Vec<Vec<u8>> {
    let mut texts = Vec::new();
    for (kind, place, words) in TYPED {
        for (word, flag) in ends(words).into_iter().zip([false, true]) {
            let line = line(flag, kind, place, word, "1");
            texts.push([b"stop\n\n", &line[..], b"\nstop\n"].concat());
        }
    }
    texts
}
