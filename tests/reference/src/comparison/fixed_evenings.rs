//! Fixed lists split over evenings: cut at every place from benches of every sort, every
//! sort of list behind every other, at the ends of a list, of the entries and of a room,
//! typed ones with a bad line here and there, and some that need not agree.

use super::evenings::{look, rummage, Evenings, Sort};
use super::fixed_housekeeping::list;
use super::fixed_pool::{close, entry, open, stored};
use super::items::{passed, raw, run, typed, Item};
use super::shrink::lines;
use crate::command::Kind;
use crate::macros::SHARED_ENTRIES;
use crate::run::LONGEST_LIST;
use crate::text::{commands_typed, raw_list};
use crate::wire::bytes_of;

const REPORT_ROOM: u16 = 12_288;
/// Room for reports: none, one byte too few, just enough, and more.
const ROOMS: [u16; 6] = [0, REPORT_ROOM - 1, REPORT_ROOM, 12_289, 13_000, 65_535];
/// After so many seconds the macros of this file have ended.
const SECONDS: u16 = 12;
/// In so many seconds they have shown what is in them.
const FEW_SECONDS: u16 = 4;

/// A list in which nearly every command hangs on one before it.
const EVENING: &str =
    "img_pwr 1\nopen 1\n+tlm_flush\n+wait 2\n+img_image 9 2\nclose\nrun 1\nopen 2\n\
    +run 1\n+img_region 5 6\nclose\nrun 2\nclear\nstop\nrun 2\nimg_track 65535 3\nimg_pwr 0\n\
    img_image 5 1\nopen 3\n+wait 4\nclose\nclose\nstop\nclear\n+tlm_flush\n";

/// Such a list as it is typed, with lines that carry no command.
const TYPED_EVENING: &str =
    "# first\nimg_pwr 1\n\nopen 1\n+tlm_flush\n#\n+wait 2\n\n\n+img_image 9 2\n\
    close\nrun 1\nrun 1\n# last\nclear\nstop\nimg_pwr 0\n\nimg_image 5 1\n+tlm_flush\n#";

const SHORT: &str = "open 0\n+tlm_flush\n+wait 1\nclose\nrun 0\nopen 1\n+run 0\nclose\nrun 1\n";

/// Lists in the letters of `list`: for an evening that ends between two commands, and for
/// one that may end anyhow.
const FIRST: [&str; 8] = ["", ".", "8", "4", "9", ".8", "4.", "9.8."];
const LAST: [&str; 10] = ["", ".", "8", "4", "9", "..9", "1", "2.", "3", ".8.3"];

/// Texts for an evening that ends between two lines, and for one that may end anyhow; some
/// have bad lines.
const FIRST_TEXTS: [&str; 10] = [
    "",
    "\n",
    "#\n",
    "stop\n",
    "\n#\nclose\n\n",
    "open 1\n+wait 2\n",
    "run 8\n\n",
    "#\nstops\nstop\n",
    "stop\n\n+stop\n",
    "run x\nrun\n",
];
const LAST_TEXTS: [&str; 9] = [
    "",
    "\n\n",
    "# nothing",
    "stop",
    "close\n\nrun 1\n",
    "\n#\n+tlm_flush",
    "stop\nimg_region 0 1024\n",
    "wait 1\nrun\n",
    "\nstop \n",
];

pub fn evenings() -> Vec<Evenings> {
    let mut all = cut_everywhere();
    all.extend(cut_twice());
    all.extend(each_behind_each());
    all.extend(long_lists());
    all.extend(ended_early());
    all.extend(shared_entries());
    all.extend(rooms());
    all.extend(texts_behind_texts());
    all.extend(long_texts());
    all.extend(cut_off());
    all
}

/// What a bench may have had before the first evening: nothing, a run with failures,
/// series under way, a macro open, one closed, one running, and all of these at once.
pub(super) fn starts() -> [Vec<Item>; 7] {
    let text = |lines: &str| typed(REPORT_ROOM, &[], lines.as_bytes());
    let failures = run(REPORT_ROOM, &list("9"), &list(".8...4."));
    let series = "img_pwr 1\nimg_image 65535 3\nimg_track 90 4\n";
    let opened = "open 4\n+trk_alg 2\n+wait 2\n";
    let closed = "open 0\n+tlm_flush\n+wait 3\n+img_region 7 8\n+wait 9\nclose\n";
    let running = format!("{closed}run 0\n");
    let all = format!("{series}{running}{opened}");
    [
        vec![],
        vec![failures.clone()],
        vec![text(series), passed(2)],
        vec![text(opened)],
        vec![text(closed)],
        vec![text(&running), passed(1)],
        vec![text(&all), failures, passed(2)],
    ]
}

fn raw_parts(before: &[Item], parts: Vec<Vec<u8>>) -> Evenings {
    Evenings {
        sort: Sort::Raw,
        room: REPORT_ROOM,
        before: before.to_vec(),
        parts,
        behind: [look(SECONDS), rummage(FEW_SECONDS)].concat(),
    }
}

fn typed_parts(before: &[Item], parts: Vec<Vec<u8>>) -> Evenings {
    Evenings {
        sort: Sort::Typed,
        ..raw_parts(before, parts)
    }
}

/// The commands of a text without a bad line, one by one.
fn commands(text: &str) -> Vec<Item> {
    let each = lines(text.as_bytes()).into_iter();
    each.map(|line| raw_list(&commands_typed(&line).unwrap_or_default()))
        .collect()
}

/// The commands of letters, one by one.
fn of_letters(letters: &str) -> Vec<Item> {
    let each = letters.split_inclusive(|_: char| true);
    each.map(list).collect()
}

/// All pieces in order, cut before those of these places.
fn cut(pieces: &[Item], places: &[usize]) -> Vec<Vec<u8>> {
    let mut parts = Vec::new();
    let mut from = 0;
    for to in places.iter().copied().chain([pieces.len()]) {
        parts.push(pieces[from..to].concat());
        from = to;
    }
    parts
}

/// From every start; of a text the last line has no line feed, so nothing follows it.
fn cut_everywhere() -> Vec<Evenings> {
    let pieces = commands(EVENING);
    let typed_pieces = lines(TYPED_EVENING.as_bytes());
    let mut all = Vec::new();
    for start in starts() {
        all.extend((0..=pieces.len()).map(|place| raw_parts(&start, cut(&pieces, &[place]))));
        let places = 0..typed_pieces.len();
        all.extend(places.map(|place| typed_parts(&start, cut(&typed_pieces, &[place]))));
    }
    all
}

/// In three parts, of which any may be empty.
fn cut_twice() -> Vec<Evenings> {
    let [fresh, .., busy] = starts();
    let (pieces, typed_pieces) = (commands(SHORT), lines(SHORT.as_bytes()));
    let mut all = Vec::new();
    for last in 0..=pieces.len() {
        for first in 0..=last {
            let parts = cut(&pieces, &[first, last]);
            all.extend([fresh.clone(), busy.clone()].map(|it| raw_parts(&it, parts.clone())));
            all.push(typed_parts(&busy, cut(&typed_pieces, &[first, last])));
        }
    }
    all
}

/// One of the last lists says of a command that it is longer than all behind it.
fn each_behind_each() -> Vec<Evenings> {
    let mut last = LAST.map(list).to_vec();
    last.push([bytes_of(&[0x015a_0020, 0x015a_0020]), list("..")].concat());
    let mut all = Vec::new();
    for first in FIRST.map(list) {
        let pairs = last.iter().map(|last| vec![first.clone(), last.clone()]);
        all.extend(pairs.map(|parts| raw_parts(&[], parts)));
    }
    all
}

/// 512 commands, as many as 4,096 bytes can hold; half of them fail.
fn long_lists() -> Vec<Evenings> {
    let pieces = of_letters(&".4.9".repeat(128));
    let places: [&[usize]; 10] = [
        &[0],
        &[1],
        &[255],
        &[256],
        &[257],
        &[511],
        &[512],
        &[1, 511],
        &[170, 340],
        &[256, 256],
    ];
    let all = places.map(|places| raw_parts(&[], cut(&pieces, places)));
    all.into_iter().map(briefly).collect()
}

/// With nothing behind that a list without macros does not need.
fn briefly(evenings: Evenings) -> Evenings {
    Evenings {
        behind: look(SECONDS),
        ..evenings
    }
}

/// Long lists whose last bytes have code 1, 2 or 3.
fn ended_early() -> Vec<Evenings> {
    let mut all = Vec::new();
    for end in ["1", "2", "3"] {
        let pieces = of_letters(&(".9".repeat(255) + "." + end));
        all.extend([255, 511].map(|place| briefly(raw_parts(&[], cut(&pieces, &[place])))));
    }
    all
}

/// One evening begins a macro, and the other takes the last entries for it and asks for
/// one more; or none is free from the start.
fn shared_entries() -> Vec<Evenings> {
    let mut pieces = vec![open(5)];
    pieces.extend((0..=SHARED_ENTRIES as u32).map(|place| entry(5, place)));
    pieces.extend([close(), raw(false, Kind::Run, [5, 0])]);
    let places = [1, 100, 192, 193, 194, 195];
    let filled = places.map(|place| raw_parts(&[], cut(&pieces, &[place])));
    let none_free = [run(REPORT_ROOM, &[], &stored(6, SHARED_ENTRIES))];
    let pieces = commands("open 2\n+wait 1\nrun 6\nclear\nstop\nclear\nopen 2\n+wait 1\n");
    let mut all = filled.to_vec();
    let places = 0..=pieces.len();
    all.extend(places.map(|place| raw_parts(&none_free, cut(&pieces, &[place]))));
    all
}

/// Every evening has the same room.
fn rooms() -> Vec<Evenings> {
    let [.., busy] = starts();
    let (pieces, typed_pieces) = (commands(SHORT), lines(SHORT.as_bytes()));
    let bad = [&b"stop\n"[..], b"#\nstops\n"].map(<[u8]>::to_vec);
    let mut all = Vec::new();
    for room in ROOMS {
        let each = [
            raw_parts(&busy, cut(&pieces, &[3])),
            raw_parts(&busy, cut(&pieces, &[3, 6])),
            typed_parts(&busy, cut(&typed_pieces, &[3])),
            typed_parts(&busy, bad.to_vec()),
        ];
        all.extend(each.map(|one| Evenings { room, ..one }));
    }
    all
}

fn texts_behind_texts() -> Vec<Evenings> {
    let mut all = Vec::new();
    for first in FIRST_TEXTS {
        all.extend(LAST_TEXTS.map(|last| typed_parts(&[], vec![first.into(), last.into()])));
    }
    for bad in [
        ["stops\n", "", ""],
        ["", "stops\n", ""],
        ["", "", "stops\n"],
        [""; 3],
    ] {
        let parts = bad.map(|bad| format!("close\n#\n{bad}stop\n").into_bytes());
        all.push(typed_parts(&[], parts.to_vec()));
    }
    all
}

/// Lines far down, as many commands as a list may have, and one more, for which the texts
/// are refused only where they are joined.
fn long_texts() -> Vec<Evenings> {
    let far = |lines: usize, last: &str| ("\n".repeat(lines) + last).into_bytes();
    let flushes = |lines: usize| "tlm_flush\n".repeat(lines).into_bytes();
    let parts = [
        vec![far(300, "close\n"), far(1, "close\n")],
        vec![far(9_000, "close\n"), far(6_000, "close")],
        vec![far(255, "stop\n"), far(0, "stop\n"), far(300, "stops")],
        vec![flushes(300), flushes(LONGEST_LIST / 8 - 300)],
        vec![flushes(300), flushes(LONGEST_LIST / 8 - 299)],
    ];
    let all = parts.map(|parts| briefly(typed_parts(&[], parts)));
    all.to_vec()
}

/// A first evening that ends within a command (with 1, 2 and 3) or within a line.
fn cut_off() -> Vec<Evenings> {
    let lists = [
        [bytes_of(&[0x015a_0002]), bytes_of(&[0x015a_0002])],
        [bytes_of(&[0, 0]), bytes_of(&[0x015a_0002, 0x015a_0002])],
        [
            bytes_of(&[0x0114_0003, 0x0100_0000]),
            bytes_of(&[0x0014_0003]),
        ],
    ];
    let texts = [
        ["#", "tlm_flush\n"],
        ["stop", "stop\n"],
        ["img_region 1 2", "3\ntlm_flush\n"],
    ];
    let mut all = lists.map(|parts| raw_parts(&[], parts.to_vec())).to_vec();
    all.extend(texts.map(|parts| {
        let parts = parts.map(|part| part.as_bytes().to_vec());
        typed_parts(&[], parts.to_vec())
    }));
    all
}
