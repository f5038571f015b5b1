//! Fixed episodes about single lines of a typed list: every form of a bad line
//! for each name, faults together, every limit in words, and every byte.

use super::items::{assemble, Item};
use super::texts::{Line, LIMITS, MALFORMED};
use crate::command::{Allowed, Argument, FlagRule, Row, TABLE};

/// Room for any one command.
const ROOM: u16 = 24;

pub fn episodes() -> Vec<Vec<Item>> {
    let mut episodes: Vec<Vec<Item>> = TABLE.iter().map(bad_lines).collect();
    episodes.extend(TABLE.iter().map(fault_sets));
    episodes.extend(TABLE.iter().map(limits));
    episodes.extend(TABLE.iter().map(odd_words));
    episodes.push(every_byte());
    episodes
}

/// The line as the second of a text, so that its number is not the first.
fn sent(line: &[u8]) -> Item {
    assemble(ROOM, &[b"\n", line, b"\n"].concat())
}

/// A row's line with all arguments allowed.
fn good(row: &Row, appended: bool) -> Line {
    Line::new(appended, row.kind, vec![b"1".to_vec(); row.arguments.len()])
}

fn bad_lines(row: &Row) -> Vec<Item> {
    let mut items = Vec::new();
    for appended in [false, true] {
        let line = good(row, appended);
        let lines = [
            spaced(&line),
            misnamed(&line),
            miscounted(&line),
            ended(&line),
        ];
        items.extend(lines.concat().iter().map(|line| sent(line)));
    }
    items
}

/// Blanks where none or only one belongs, and tabs in place of them.
fn spaced(line: &Line) -> Vec<Vec<u8>> {
    let whole = line.bytes();
    let behind = |bytes: &[u8]| [&whole[..], bytes].concat();
    let before = |bytes: &[u8]| [bytes, &whole[..]].concat();
    let between = |blank: &[u8]| {
        let arguments = line.arguments.iter();
        let spaced = arguments.map(|argument| [blank, argument].concat());
        [
            &line.flag[..],
            &line.name,
            &spaced.collect::<Vec<_>>().concat(),
        ]
        .concat()
    };
    vec![
        whole.clone(),
        before(b" "),
        before(b"\t"),
        behind(b" "),
        behind(b"  "),
        behind(b"\t"),
        between(b"  "),
        between(b"\t"),
        between(b" \t"),
        between(b""),
    ]
}

/// Names that are none, and flags that are not right before the name.
fn misnamed(line: &Line) -> Vec<Vec<u8>> {
    let named = |flag: &[u8], name: &[u8]| {
        let (flag, name) = (flag.to_vec(), name.to_vec());
        let arguments = line.arguments.clone();
        Line {
            flag,
            name,
            arguments,
        }
        .bytes()
    };
    let (flag, name) = (&line.flag[..], &line.name[..]);
    let mut capital = name.to_vec();
    capital[0].make_ascii_uppercase();
    vec![
        named(flag, &name.to_ascii_uppercase()),
        named(flag, &capital),
        named(flag, &name[1..]),
        named(flag, &name[..name.len() - 1]),
        named(flag, &[name, b"s"].concat()),
        named(flag, &[name, b"+"].concat()),
        named(flag, &[name, b"\r"].concat()),
        named(flag, &[name, b"\0"].concat()),
        named(flag, b""),
        named(b"+ ", name),
        named(b"++", name),
        named(b"-", name),
        named(b"#", name),
        named(b"+#", name),
        named(b" #", name),
    ]
}

/// One argument fewer and one more, well-formed, malformed and empty.
fn miscounted(line: &Line) -> Vec<Vec<u8>> {
    let whole = line.bytes();
    let more = ["1", "x", "0.5", "99999", "1 1", "1 x"];
    let mut lines: Vec<Vec<u8>> = more
        .iter()
        .map(|word| [&whole[..], b" ", word.as_bytes()].concat())
        .collect();
    for count in 0..line.arguments.len() {
        let mut fewer = line.clone();
        fewer.arguments.truncate(count);
        lines.push(fewer.bytes());
    }
    lines
}

/// Bytes that a line's end does not swallow.
fn ended(line: &Line) -> Vec<Vec<u8>> {
    let whole = line.bytes();
    let ends: [&[u8]; 5] = [b"\r", b"\0", b"#", b" #", b"\x80"];
    ends.iter().map(|end| [&whole[..], end].concat()).collect()
}

/// Every malformed word in each place, with the other argument right and out of
/// range, and with and without the flag.
fn odd_words(row: &Row) -> Vec<Item> {
    let mut items = Vec::new();
    for position in 0..row.arguments.len() {
        for word in MALFORMED {
            for (other, appended) in [("1", false), ("1", true), ("99999", false)] {
                let mut line = good(row, appended);
                line.arguments.fill(other.into());
                line.arguments[position] = word.into();
                items.push(sent(&line.bytes()));
            }
        }
    }
    items
}

/// The words on each side of each end of a range and of the field's width.
fn edges(argument: &Argument) -> Vec<String> {
    let mut edges: Vec<String> = LIMITS.iter().map(|word| word.to_string()).collect();
    if let Allowed::Range(low, high) = argument.allowed {
        let width = 1 << argument.bits;
        let near = [low.saturating_sub(1), low, high, high + 1];
        edges.extend(near.iter().map(u32::to_string));
        edges.extend(near.iter().map(|value| (value + width).to_string()));
    }
    edges
}

/// Each edge in each place, with the other argument right and the same edge.
fn limits(row: &Row) -> Vec<Item> {
    let mut items = Vec::new();
    for appended in [false, true] {
        for (position, argument) in row.arguments.iter().enumerate() {
            for edge in edges(argument) {
                let mut line = good(row, appended);
                line.arguments[position] = edge.clone().into();
                items.push(sent(&line.bytes()));
                line.arguments.fill(edge.into());
                items.push(sent(&line.bytes()));
            }
        }
    }
    items
}

/// Every set of faults that a line of this row can have at once, with room and
/// without.
fn fault_sets(row: &Row) -> Vec<Item> {
    let mut items = Vec::new();
    for faults in 0..32 {
        let line = faulty(row, faults).bytes();
        for room in [0, ROOM] {
            items.push(assemble(room, &line));
        }
    }
    items
}

/// One bit of `faults` for each fault; where a row cannot have it, it has none.
fn faulty(row: &Row, faults: u32) -> Line {
    let has = |fault: u32| faults >> fault & 1 == 1;
    let mut line = good(row, has(0) != (row.flag == FlagRule::OnlyAppended));
    if has(1) {
        line.arguments.fill(b"99999".to_vec());
    }
    if let (true, Some(last)) = (has(2), line.arguments.last_mut()) {
        *last = b"1x".to_vec();
    }
    if has(3) {
        line.arguments.push(b"1".to_vec());
    }
    if has(4) {
        line.name.push(b'x');
    }
    line
}

/// Every byte alone on a line and in each sort of place in it.
fn every_byte() -> Vec<Item> {
    let mut items = Vec::new();
    for byte in 0..=255u8 {
        let forms: [(&[u8], &[u8]); 8] = [
            (b"", b""),
            (b"", b"open 1"),
            (b"o", b"en 1"),
            (b"open", b"1"),
            (b"open 1", b""),
            (b"+img_region 1", b"2 3"),
            (b"trk_goal 1.", b" 1"),
            (b"trk_goal 1", b"5 1"),
        ];
        for (before, behind) in forms {
            items.push(assemble(ROOM, &[before, &[byte], behind].concat()));
        }
    }
    items
}
