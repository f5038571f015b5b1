//! Fixed episodes about the housekeeping that a bench tells: behind runs of every sort,
//! raw and typed, one after another, with refused ones and everything else between
//! them, and with macros that take the free entries.

use super::fixed_bench::TOP;
use super::fixed_pool::{close, entries, entry, open, stored};
use super::fixed_tags::GOOD;
use super::fixed_wire::{faulty, flush};
use super::items::{
    append, assemble, command, decoded, frame, fresh, housekeeping, line, list_text, now, passed,
    raw, read, run, second, shown, status, tags, typed, Item,
};
use super::texts::lengthened;
use crate::command::Kind;
use crate::macros::SHARED_ENTRIES;
use crate::run::{LONGEST_LIST, PUPIL};
use crate::text::LONGEST_TEXT;
use crate::wire::bytes_of;

const REPORT_ROOM: u16 = 12_288;
const SMALL_REPORT_ROOM: u16 = REPORT_ROOM - 1;
/// Just enough. By hand, so that a mistake about the frame does not change what is sent.
pub(super) const ROOM: u8 = 18;

/// Lists in the letters of `list`: nothing, no failure, failures alone, the first, the
/// last or another one failing, two codes in either order, and ends by 1, 2 and 3.
const LISTS: [&str; 14] = [
    "", ".", "...", "9", "489", "9..", ".9.", "..9", "8.4.", "4.8.", ".1", "..2.", "9.3", "48.",
];

/// The same for typed lists, with lines between that carry no command, on a dark bench
/// without macros.
const TEXTS: [&str; 13] = [
    "",
    "\n",
    "# nothing\n\n#",
    "stop",
    "\nstop\n\n",
    "stop\n\nstop\n#\n",
    "close",
    "#\nclose\n",
    "run 0\n\n\nclose",
    "close\n\nrun 7\nstop\n\n",
    "#\n\nclose\n#\nstop",
    "stop\n#\nstop\n#\nclose\n#\n",
    "img_image 5 1\n#\nimg_track 0 1",
];

pub fn episodes() -> Vec<Vec<Item>> {
    let mut episodes = vec![rooms(), lists_in_turn(), texts_in_turn(), both_in_turn()];
    episodes.extend([kits(), every_code(), far_numbers()]);
    episodes.extend(far_lines());
    for start in starts() {
        episodes.push(refused_between(&start));
        episodes.push(anything_between(&start));
    }
    episodes.push(text_too_long());
    episodes.extend([taken_one_by_one(), filled_by_runs(), filled_by_texts()]);
    episodes
}

fn ask() -> Item {
    housekeeping(ROOM)
}

/// A list with a letter to each command: a digit stands for one that has this code on
/// any bench, a point for a flush. Of 1, 2 and 3 each ends the list.
pub(super) fn list(letters: &str) -> Vec<u8> {
    let command = |letter| match letter {
        '1' => vec![1, 2, 3],
        '2' => vec![0; 8],
        '3' => bytes_of(&[0x015a_0003, 0x015a_0003]),
        '4' => bytes_of(&[0x015a_0002, 0x015a_0003]),
        '8' => raw(false, Kind::ImgRegion, [5, 1024]),
        '9' => raw(true, Kind::Stop, [0; 2]),
        _ => flush(),
    };
    letters.chars().flat_map(command).collect()
}

/// A run of the pupil's list alone.
fn pupil(letters: &str) -> Item {
    run(REPORT_ROOM, &[], &list(letters))
}

fn text(lines: &str) -> Item {
    typed(REPORT_ROOM, &[], lines.as_bytes())
}

/// Rooms of each size, on a fresh bench and behind a run.
fn rooms() -> Vec<Item> {
    let mut items = Vec::new();
    for before in [vec![], vec![pupil(".8.")], vec![fresh()]] {
        items.extend(before);
        items.extend((0..=40).chain([254, 255]).map(housekeeping));
    }
    items
}

/// Each sort of list behind each.
fn lists_in_turn() -> Vec<Item> {
    let mut items = Vec::new();
    for first in LISTS {
        for second in LISTS {
            items.extend([pupil(first), ask(), pupil(second), ask()]);
        }
    }
    items
}

fn texts_in_turn() -> Vec<Item> {
    let mut items = Vec::new();
    for first in TEXTS {
        for second in TEXTS {
            items.extend([text(first), ask(), text(second), ask()]);
        }
    }
    items
}

/// Raw and typed lists by turns.
fn both_in_turn() -> Vec<Item> {
    let mut items = Vec::new();
    for letters in LISTS {
        for lines in TEXTS {
            items.extend([pupil(letters), text(lines), ask()]);
        }
    }
    items
}

/// Kits of every sort, which leave nothing behind, before lists and texts.
fn kits() -> Vec<Item> {
    let mut items = Vec::new();
    for kit in LISTS.map(list) {
        for letters in ["", ".", "8", ".4.", "9."] {
            items.extend([run(REPORT_ROOM, &kit, &list(letters)), ask()]);
        }
        for lines in ["", "#\nstop", "close\n", "\nrun 1\n\nstop"] {
            items.extend([typed(REPORT_ROOM, &kit, lines.as_bytes()), ask()]);
        }
    }
    items
}

/// Lists in which a command has each code from 1 on, in their order, then 25 and 26.
fn lists_of_codes() -> Vec<Vec<u8>> {
    let wait = |seconds| raw(true, Kind::Wait, [seconds, 0]);
    let start = |number| raw(false, Kind::Run, [number, 0]);
    let flushes = raw(true, Kind::TlmFlush, [0; 2]).repeat(65);
    let mut lists = ["1", "2", "3", "4"].map(list).to_vec();
    lists.extend([5, 4, 3, 0].map(|fault| faulty(Kind::ImgPwr.row(), 1 << fault)));
    lists.extend([list("9"), raw(false, Kind::Wait, [1, 0]), close()]);
    lists.extend([
        [open(1), open(2)].concat(),
        [stored(1, 1), open(1)].concat(),
        [open(1), close()].concat(),
        [open(1), wait(600), wait(1), close()].concat(),
        [open(1), entries(1, SHARED_ENTRIES + 1)].concat(),
        [open(1), raw(true, Kind::Run, [1, 0])].concat(),
        start(3),
        [stored(1, 20), start(1), start(1)].concat(),
        [open(1), flushes, close()].concat(),
        raw(false, Kind::ImgImage, [5, 1]),
    ]);
    lists
}

/// Each code at the end of the pupil's list, with a flush behind it, and in the kit's.
fn every_code() -> Vec<Item> {
    let mut items = Vec::new();
    for list in lists_of_codes() {
        let (before, behind) = ([flush(), list.clone()], [list.clone(), flush()]);
        for pupil in [before.concat(), behind.concat()] {
            items.extend([fresh(), run(REPORT_ROOM, &[], &pupil), ask()]);
        }
        items.extend([fresh(), run(REPORT_ROOM, &list, &flush()), ask()]);
    }
    items
}

/// Numbers that take more than a byte, of the pupil's and of the kit's.
fn far_numbers() -> Vec<Item> {
    let far = list(&(".".repeat(255) + "8..."));
    let last = list(&(".".repeat(511) + "9"));
    vec![
        run(REPORT_ROOM, &[], &far),
        ask(),
        run(REPORT_ROOM, &far, &list(".4")),
        ask(),
        run(REPORT_ROOM, &[], &last),
        ask(),
    ]
}

/// Lines far down a text, one of them as far as one that fails can be.
fn far_lines() -> Vec<Vec<Item>> {
    let apart = "\n".repeat(299) + "close\n" + &"\n".repeat(20_000) + "stop\n#";
    let last = "\n".repeat(LONGEST_TEXT - 5) + "close";
    vec![
        vec![text(&apart), ask()],
        vec![text(&last), ask(), text("#"), ask()],
    ]
}

/// What may have been before: nothing, and runs of every sort.
fn starts() -> [Vec<Item>; 5] {
    [
        vec![],
        vec![pupil("...")],
        vec![pupil("8.4.")],
        vec![text("#\nclose\n\nstop")],
        vec![pupil("9"), pupil("")],
    ]
}

/// Runs that are refused by 20, 21 or a bad line leave all as it was, be their lists
/// empty or such as would have left other numbers.
fn refused_between(start: &[Item]) -> Vec<Item> {
    let long = flush().repeat(LONGEST_LIST)[..=LONGEST_LIST].to_vec();
    let many = "stop\n".repeat(LONGEST_LIST / flush().len() + 1);
    let (none, some) = (list(""), list("8.9.."));
    let mut refused = vec![
        run(REPORT_ROOM, &long, &some),
        run(REPORT_ROOM, &none, &long),
        run(SMALL_REPORT_ROOM, &none, &none),
        run(SMALL_REPORT_ROOM, &some, &some),
        run(0, &none, &list(".")),
        typed(REPORT_ROOM, &long, b"\nclose"),
        text(&many),
        typed(SMALL_REPORT_ROOM, &none, b""),
        typed(SMALL_REPORT_ROOM, &some, b"#\n\n#\nclose\nstop"),
    ];
    let bad_lines = ["stops", "run", "run x", "run 8", "+stop", "wait 1"];
    refused.extend(bad_lines.map(text));
    refused.extend(bad_lines.map(|bad| text(&format!("close\n#\nstop\n{bad}\nclose"))));
    let mut items = [start, &[ask()]].concat();
    items.extend(refused.into_iter().flat_map(|item| [item, ask()]));
    items
}

/// A text above 32,768 bytes takes half a script.
fn text_too_long() -> Vec<Item> {
    let long = lengthened(b"close\nstop\n", LONGEST_TEXT + 1);
    vec![
        pupil(".8."),
        typed(REPORT_ROOM, &list("4"), &long),
        ask(),
        text("close\n"),
        ask(),
    ]
}

/// Single commands, seconds and whatever knows no bench: none of them is a run. One of
/// the seconds hands over an entry with 26.
fn anything_between(start: &[Item]) -> Vec<Item> {
    let image = [5, 1];
    let others = [
        command(&flush()),
        command(&list("8")),
        command(&list("4")),
        command(&[]),
        now(Kind::Close, 0),
        decoded(0, Kind::TlmFlush as u8, [0; 2]),
        decoded(1, Kind::Stop as u8, [0; 2]),
        decoded(0, Kind::ImgRegion as u8, [0, 1024]),
        decoded(0, Kind::ImgImage as u8, image),
        read(16, &flush()),
        read(16, &list("8")),
        now(Kind::Open, 3),
        command(&raw(true, Kind::ImgImage, image)),
        append(Kind::Wait, 2),
        append(Kind::TlmFlush, 0),
        append(Kind::Run, 3),
        now(Kind::Close, 0),
        now(Kind::Run, 3),
        now(Kind::Run, 3),
        status(),
        second(),
        second(),
        passed(3),
        now(Kind::Stop, 0),
        shown(&list("4"), &list(".8"), PUPIL, 2),
        assemble(60, b"#\nclose"),
        assemble(60, b"#\nrun 8"),
        list_text(60, &list(".8")),
        line(b"#\nclose", 2),
        frame(32, &[0; 32]),
        tags(ROOM, &GOOD),
        tags(ROOM, &[]),
        housekeeping(0),
        now(Kind::Clear, 0),
    ];
    let mut items = start.to_vec();
    items.extend(others.into_iter().flat_map(|item| [item, ask()]));
    items
}

/// By an open macro beside a closed one, until no entry is free, and once more.
fn taken_one_by_one() -> Vec<Item> {
    let mut items = vec![ask(), now(Kind::Open, 3), ask(), append(Kind::Wait, 1)];
    items.extend([ask(), now(Kind::Close, 0), ask(), now(Kind::Open, TOP)]);
    for place in 0..SHARED_ENTRIES as u32 {
        items.extend([ask(), command(&entry(TOP, place))]);
    }
    for kind in [Kind::Close, Kind::Run, Kind::Clear, Kind::Stop, Kind::Clear] {
        let argument = if kind == Kind::Run { TOP } else { 0 };
        items.extend([ask(), now(kind, argument), second()]);
    }
    items.push(ask());
    items
}

/// Open and closed macros, of the kit and of the pupil, and then CLEAR.
fn filled_by_runs() -> Vec<Item> {
    let all = SHARED_ENTRIES;
    let lists = [
        (vec![], stored(0, all)),
        (stored(7, all), vec![]),
        (stored(2, 100), stored(5, all - 100)),
        (stored(5, 1), [open(1), entries(1, all - 1)].concat()),
        (stored(4, all - 1), stored(3, 2)),
        ([open(6), entries(6, all - 2)].concat(), entries(6, 1)),
        (open(0), vec![]),
    ];
    let mut items = Vec::new();
    for (kit, pupil) in lists {
        items.extend([run(REPORT_ROOM, &kit, &pupil), ask()]);
        items.extend([now(Kind::Clear, 0), ask()]);
    }
    items
}

fn filled_by_texts() -> Vec<Item> {
    let mut items = Vec::new();
    for count in [1, SHARED_ENTRIES - 1, SHARED_ENTRIES, SHARED_ENTRIES + 1] {
        let appends = "+tlm_flush\n".repeat(count);
        items.extend([text(&format!("# all\nopen 2\n\n{appends}")), ask()]);
        items.extend([text("clear"), ask()]);
    }
    items
}
