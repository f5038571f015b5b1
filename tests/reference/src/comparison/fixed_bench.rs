//! Fixed episodes about the bench: wraps of every count, series second by
//! second, nests at the 600 limit, and checks that meet.

use super::items::{append, command, now, passed, raw, run, second, status, watched, Item};
use crate::command::{Kind, TABLE};
use crate::macros::{LONGEST_MACRO, MACROS};
use crate::wire::bytes_of;

pub(super) const TOP: u32 = MACROS as u32 - 1;
pub(super) const FOREVER: u32 = 65535;

pub fn episodes() -> Vec<Vec<Item>> {
    let mut episodes = vec![
        examples(),
        flush_wraps(),
        endless(1, 65534),
        endless(65535, 65535),
    ];
    episodes.extend([series_table(), superseded(), image_from_macro()]);
    for length in [LONGEST_MACRO - 1, LONGEST_MACRO, LONGEST_MACRO + 1] {
        episodes.push(nest(chain(length)));
        episodes.push(nest(doubling(length)));
        episodes.push(nest(fan(length)));
    }
    episodes.extend([longest_waits(), meeting_checks()]);
    episodes.extend([stop_and_clear(), busy_bench()]);
    episodes
}

fn words(words: &[u32]) -> Item {
    command(&bytes_of(words))
}

pub(super) fn series(kind: Kind, time: u32, interval: u32) -> Item {
    command(&raw(false, kind, [time, interval]))
}

/// The examples of the rules that are given in words.
fn examples() -> Vec<Item> {
    let sent = [
        words(&[0x015a_0002, 0x015a_0002]),
        words(&[0x015a_8002, 0x015a_8002]),
        words(&[0x0114_0003, 0x0100_0000, 0x0014_0003]),
        words(&[0x0117_0003, 0x0200_0100, 0x0317_0103]),
        words(&[0x0150_0003, 0x0005_0002, 0x0155_0001]),
        words(&[0x0150_0003, 0x0005_0000, 0x0155_0003]),
        words(&[0x0153_0004, 0x43ff_c000, 0, 0x42ac_c004]),
        words(&[0x7f01_0003, 0x0300_0000, 0x7c01_0003]),
        words(&[0x7f04_8003, 0x0002_0000, 0x7f06_8003]),
        words(&[0x015a_0002]),
    ];
    let mut items: Vec<Item> = sent.into_iter().flat_map(|item| [item, status()]).collect();
    items.extend(watched(7));
    items
}

/// The 8-bit count of flushes past its end.
fn flush_wraps() -> Vec<Item> {
    let flushes = raw(false, Kind::TlmFlush, [0; 2]).repeat(254);
    let mut items = vec![run(12_288, &flushes, &[]), status()];
    for _ in 255..=257 {
        items.extend([now(Kind::TlmFlush, 0), status()]);
    }
    items
}

/// 66,000 seconds: the counts of images wrap, an endless time stays, and a
/// time one below it runs out.
fn endless(interval: u32, track_time: u32) -> Vec<Item> {
    let mut items = vec![
        now(Kind::ImgPwr, 1),
        series(Kind::ImgImage, FOREVER, interval),
        series(Kind::ImgTrack, track_time, 1),
        passed(65533),
        status(),
    ];
    items.extend(watched(4));
    items.extend([passed(463), status()]);
    items
}

fn series_table() -> Vec<Item> {
    let mut items = vec![now(Kind::ImgPwr, 1)];
    for time in 0..=6 {
        for interval in 1..=4 {
            items.push(series(Kind::ImgImage, time, interval));
            items.push(series(Kind::ImgTrack, 6 - time, 5 - interval));
            items.extend(watched(8));
        }
    }
    items
}

/// A series asked for again while an earlier one still lasts.
fn superseded() -> Vec<Item> {
    let mut items = vec![now(Kind::ImgPwr, 1)];
    for pause in 0..6 {
        for (time, interval) in [(9, 4), (4, 3), (0, 7), (FOREVER, 2)] {
            items.push(series(Kind::ImgImage, time, interval));
            items.extend(watched(pause));
            items.push(series(Kind::ImgTrack, time, interval));
            items.extend(watched(2));
        }
    }
    items
}

/// The image asked for by a macro's entry comes one second later.
fn image_from_macro() -> Vec<Item> {
    let entry = |kind, time, interval| command(&raw(true, kind, [time, interval]));
    let mut items = vec![
        now(Kind::ImgPwr, 1),
        now(Kind::Open, 2),
        entry(Kind::ImgImage, 3, 1),
        entry(Kind::ImgTrack, 1, 1),
        append(Kind::Wait, 2),
        entry(Kind::ImgImage, 2, 2),
        now(Kind::Close, 0),
        now(Kind::Run, 2),
        status(),
    ];
    items.extend(watched(9));
    items
}

/// The entries of one macro, besides those that start others.
fn defined(number: u32, entries: Vec<Item>) -> Vec<Item> {
    let mut items = vec![now(Kind::Open, number)];
    items.extend(entries);
    items.extend([now(Kind::Close, 0), status()]);
    items
}

/// Each macro starts the one below, with an entry of its own on either side and a
/// WAIT before the latter.
fn chain(length: usize) -> Vec<Item> {
    let wait = length as u32 - TOP - 1;
    let mut items = defined(0, vec![append(Kind::TlmFlush, 0), append(Kind::Wait, wait)]);
    for number in 1..=TOP {
        let before = append(Kind::TrkAlg, number % 3);
        let after = append(Kind::ImgPwr, number % 2);
        let below = append(Kind::Run, number - 1);
        let entries = vec![before, below, append(Kind::Wait, 1), after];
        items.extend(defined(number, entries));
    }
    items
}

/// Each macro starts the one below twice, whose last entry and first one then share
/// a second; the last macro fills up the length.
fn doubling(length: usize) -> Vec<Item> {
    let seed = (0..3).map(|mode| append(Kind::FlushAuto, mode % 2));
    let mut seed: Vec<Item> = seed.collect();
    seed.insert(1, append(Kind::Wait, 2));
    let mut items = defined(0, seed);
    for number in 1..=TOP {
        let mut entries = vec![append(Kind::Run, number - 1); 2];
        if number == TOP {
            entries.insert(1, append(Kind::Wait, length as u32 - (2 << TOP) - 1));
        }
        items.extend(defined(number, entries));
    }
    items
}

/// The last macro starts all others, several times over; each ends with a WAIT.
fn fan(length: usize) -> Vec<Item> {
    let mut items = Vec::new();
    for number in 0..TOP {
        let mut entries = vec![append(Kind::TlmFlush, 0); number as usize + 1];
        entries.extend([append(Kind::TrkLoop, number % 2), append(Kind::Wait, 1)]);
        items.extend(defined(number, entries));
    }
    let runs = (0..TOP).chain(0..TOP).chain(0..TOP);
    let mut entries: Vec<Item> = runs.map(|number| append(Kind::Run, number)).collect();
    let waited = entries.len();
    entries.insert(9, append(Kind::Wait, (length - waited) as u32));
    items.extend(defined(TOP, entries));
    items
}

/// Runs the last macro to its end, with commands between the seconds that must
/// not disturb it, and then once more with nothing between.
fn nest(mut items: Vec<Item>) -> Vec<Item> {
    items.extend([now(Kind::Run, TOP), status()]);
    let between = [
        now(Kind::TlmFlush, 0),
        now(Kind::Run, 0),
        now(Kind::Open, TOP),
        append(Kind::Wait, 1),
        now(Kind::Clear, 0),
        command(&[]),
    ];
    for step in 0..=LONGEST_MACRO + 1 {
        items.push(second());
        items.push(between[step % between.len()].clone());
        if step % 3 == 0 {
            items.push(status());
        }
    }
    items.extend([now(Kind::Run, TOP), passed(598), status()]);
    items.extend(watched(4));
    items.extend([now(Kind::Clear, 0), status()]);
    items
}

fn longest_waits() -> Vec<Item> {
    let mut items = vec![
        now(Kind::Open, 1),
        now(Kind::Close, 0),
        append(Kind::Wait, 601),
    ];
    items.extend([append(Kind::Wait, 0), append(Kind::Wait, 600), status()]);
    items.extend([now(Kind::Close, 0), status(), now(Kind::Open, 4)]);
    items.extend([append(Kind::Wait, 600), append(Kind::TlmFlush, 0)]);
    items.extend([
        now(Kind::Close, 0),
        status(),
        now(Kind::Run, 4),
        now(Kind::Run, 1),
    ]);
    items.extend([status(), passed(599), status()]);
    items.extend(watched(2));
    items.extend([now(Kind::Clear, 0), status(), now(Kind::Open, 4), status()]);
    items.extend([
        append(Kind::Run, 1),
        append(Kind::Run, 4),
        append(Kind::Run, 5),
    ]);
    items
}

/// Commands that two or more codes would fit, so that the first must win.
fn meeting_checks() -> Vec<Item> {
    let kinds = [Kind::Open, Kind::Close, Kind::Stop, Kind::Clear];
    let mut all: Vec<Item> = (0..=TOP).flat_map(run_and_open).collect();
    all.extend(kinds.map(|kind| append(kind, 0)));
    all.extend([
        now(Kind::Wait, 1),
        now(Kind::Wait, 0),
        append(Kind::Wait, 0),
    ]);
    all.extend([now(Kind::Close, 0), status()]);
    let stages = [
        vec![],
        vec![
            now(Kind::Open, 2),
            append(Kind::Wait, 9),
            now(Kind::Close, 0),
        ],
        vec![
            now(Kind::Open, 6),
            append(Kind::Wait, 5),
            now(Kind::Close, 0),
        ],
        vec![now(Kind::Open, 4)],
        vec![now(Kind::Run, 6), second()],
        vec![now(Kind::Stop, 0), now(Kind::Clear, 0)],
    ];
    let mut items = Vec::new();
    for stage in stages {
        items.extend(stage);
        items.extend(all.clone());
    }
    items
}

fn run_and_open(number: u32) -> Vec<Item> {
    vec![
        now(Kind::Run, number),
        append(Kind::Run, number),
        second(),
        now(Kind::Open, number),
        status(),
    ]
}

/// STOP when idle and when not, RUN from the first entry again, and CLEAR with
/// a macro open.
fn stop_and_clear() -> Vec<Item> {
    let mut items = vec![now(Kind::Stop, 0), status(), now(Kind::Clear, 0), status()];
    let entries = (0..5).flat_map(|x| [append(Kind::ImgRegion, x), append(Kind::Wait, 1)]);
    items.extend(defined(1, entries.collect()));
    for seconds in 0..=6 {
        items.extend([now(Kind::Run, 1), status()]);
        items.extend(watched(seconds));
        items.extend([now(Kind::Clear, 0), now(Kind::Stop, 0), status(), second()]);
        items.extend(defined(
            1,
            vec![append(Kind::TrkAlg, 2), append(Kind::Wait, 4)],
        ));
    }
    items.extend([now(Kind::Open, 3), append(Kind::TlmFlush, 0), status()]);
    items.extend([now(Kind::Clear, 0), status(), append(Kind::TlmFlush, 0)]);
    items.extend([now(Kind::Open, 3), now(Kind::Close, 0), status()]);
    items
}

/// A macro is written and closed while another runs, and each field set by
/// the running one is set from outside as well.
fn busy_bench() -> Vec<Item> {
    let acting = || TABLE[..Kind::Open as usize].iter().map(|row| row.kind);
    let mut items = vec![now(Kind::Open, 0)];
    items.extend(acting().flat_map(|kind| {
        let entry = command(&raw(true, kind, [1, 1]));
        [entry, append(Kind::Wait, 1)]
    }));
    items.extend([
        append(Kind::Wait, 3),
        now(Kind::Close, 0),
        now(Kind::Run, 0),
    ]);
    items.push(now(Kind::Open, 7));
    for kind in acting() {
        items.extend([
            command(&raw(false, kind, [0, 2])),
            status(),
            second(),
            status(),
        ]);
        items.extend([
            command(&raw(true, kind, [1, 3])),
            append(Kind::Run, 0),
            status(),
        ]);
    }
    items.extend([now(Kind::Close, 0), status(), now(Kind::Run, 7)]);
    items.extend(watched(6));
    items.extend([now(Kind::Run, 7), status()]);
    items.extend(watched(30));
    items
}
