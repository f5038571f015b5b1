//! Fixed episodes about several commands in the same second: where a WAIT ends it,
//! groups around the fullest one in one macro and over several, lengths around the
//! longest by waits, and nests that come to millions of entries.

use super::fixed_bench::{series, TOP};
use super::items::{append, decoded, now, passed, raw, run, second, status, typed, watched, Item};
use crate::command::{Kind, TABLE};
use crate::macros::{FULLEST_SECOND, LONGEST_MACRO};

pub(super) const REPORT_ROOM: u16 = 12_288;
const LONGEST: u32 = LONGEST_MACRO as u32;

/// Entries of a macro, as their bytes.
pub(super) type Entries = Vec<u8>;

pub fn episodes() -> Vec<Vec<Item>> {
    let mut episodes = vec![example(), waits(), edges(), in_order(), images()];
    episodes.extend([stopped(), refused(), open_beside_a_running_one()]);
    for total in LONGEST - 2..=LONGEST + 1 {
        episodes.push(lengths(total));
    }
    for count in FULLEST_SECOND - 1..=FULLEST_SECOND + 1 {
        episodes.push(crowds(count));
        episodes.push(otherwise_sent(count));
    }
    episodes.extend([both_due(), wrapped_counts(), wrapped_lengths()]);
    episodes.extend([millions(), full_seconds()]);
    episodes
}

/// So many entries that tell their places.
pub(super) fn places(count: usize) -> Entries {
    let places = 0..count as u32;
    places
        .flat_map(|place| raw(true, Kind::ImgRegion, [place, 1]))
        .collect()
}

pub(super) fn flush() -> Entries {
    raw(true, Kind::TlmFlush, [0; 2])
}

pub(super) fn power(mode: u32) -> Entries {
    raw(true, Kind::ImgPwr, [mode, 0])
}

pub(super) fn wait(seconds: u32) -> Entries {
    raw(true, Kind::Wait, [seconds, 0])
}

pub(super) fn starts(number: u32, times: usize) -> Entries {
    raw(true, Kind::Run, [number, 0]).repeat(times)
}

pub(super) fn stored(number: u32, entries: &[u8]) -> Vec<u8> {
    let open = raw(false, Kind::Open, [number, 0]);
    let close = raw(false, Kind::Close, [0; 2]);
    [&open, entries, &close].concat()
}

/// Macros from 0 on in one list, the last of them then started.
pub(super) fn nest(macros: &[Entries]) -> Vec<Item> {
    let lists = (0..).zip(macros);
    let lists: Vec<u8> = lists.flat_map(|(number, it)| stored(number, it)).collect();
    let last = macros.len() as u32 - 1;
    vec![
        run(REPORT_ROOM, &[], &lists),
        now(Kind::Run, last),
        status(),
    ]
}

/// The same on a bench that has no macro, watched for so many seconds.
pub(super) fn watched_nest(macros: &[Entries], seconds: usize) -> Vec<Item> {
    let mut items = vec![now(Kind::Stop, 0), now(Kind::Clear, 0)];
    items.extend(nest(macros));
    items.extend(watched(seconds));
    items
}

/// The two macros of the rules.
fn example() -> Vec<Item> {
    let macros = [
        [flush(), wait(2)].concat(),
        [starts(0, 1), power(0), starts(0, 1)].concat(),
    ];
    let mut items = vec![now(Kind::ImgPwr, 1)];
    items.extend(watched_nest(&macros, 5));
    items.extend([now(Kind::Run, 1), passed(3), status(), passed(9)]);
    items.extend([now(Kind::Run, 0), passed(1), status(), passed(1), status()]);
    items
}

/// WAITs at the start, at the end, in a row, and nothing else but WAITs.
fn waits() -> Vec<Item> {
    let one = || places(1);
    let alone = [
        wait(1),
        wait(2),
        [wait(1), wait(1)].concat(),
        [wait(1), one()].concat(),
        [wait(3), places(2)].concat(),
        [one(), wait(1)].concat(),
        [one(), wait(3)].concat(),
        [
            one(),
            wait(1),
            wait(2),
            wait(1),
            places(2),
            wait(1),
            wait(1),
        ]
        .concat(),
        [wait(2), wait(1), one(), wait(1), wait(2), one()].concat(),
    ];
    let mut items = Vec::new();
    for entries in &alone {
        items.extend(watched_nest(std::slice::from_ref(entries), 9));
        // The same between two entries of another macro, and started twice over.
        let between = [flush(), starts(0, 1), flush()].concat();
        items.extend(watched_nest(&[entries.clone(), between], 10));
        items.extend(watched_nest(&[entries.clone(), starts(0, 2)], 14));
    }
    items
}

/// Groups that run across the edges of nested macros.
fn edges() -> Vec<Item> {
    let inner = [flush(), wait(1), power(1)].concat();
    let outer = [places(2), starts(0, 1), power(0), starts(0, 2), wait(2)].concat();
    let again = [starts(1, 1), flush(), starts(0, 1), places(1), starts(1, 2)].concat();
    let mut chain = vec![flush()];
    for number in 0..TOP {
        let before = raw(true, Kind::TrkAlg, [number % 3, 0]);
        let behind = raw(true, Kind::ImgRegion, [number, 2]);
        chain.push([before, starts(number, 1), behind].concat());
    }
    let mut items = watched_nest(&[flush(), starts(0, 2)], 2);
    items.extend(watched_nest(&[inner, outer, again], 20));
    items.extend(watched_nest(&chain, 2));
    items
}

/// Fields set again and again in one second, of which the last ones stay.
fn in_order() -> Vec<Item> {
    let modes = [power(1), flush(), power(0), places(3), flush(), power(1)].concat();
    let acting = TABLE[..Kind::Open as usize].iter();
    let acting = acting.flat_map(|row| [[0, 2], [1, 3]].map(|it| raw(true, row.kind, it)));
    let all = acting.collect::<Vec<Entries>>().concat();
    let entries = [modes, wait(1), power(0), wait(2), all, wait(1), power(1)].concat();
    watched_nest(&[entries], 7)
}

/// Series begun in one second, superseded in the same, and by a later one.
fn images() -> Vec<Item> {
    let image = |time, interval| raw(true, Kind::ImgImage, [time, interval]);
    let track = |time, interval| raw(true, Kind::ImgTrack, [time, interval]);
    let begun = [image(9, 4), track(3, 1), image(4, 1), wait(2)].concat();
    let again = [track(2, 2), image(0, 1), image(3, 2), wait(1), image(0, 9)].concat();
    let mut items = vec![now(Kind::ImgPwr, 1), series(Kind::ImgImage, 3, 1)];
    items.extend(watched_nest(&[[begun, again].concat()], 9));
    items
}

/// STOP before, between and behind the groups; then all from the start again.
fn stopped() -> Vec<Item> {
    let entries = [places(2), wait(1), flush(), power(1), wait(3), places(3)].concat();
    let mut items = nest(&[entries]);
    for seconds in 0..=5 {
        items.extend(watched(seconds));
        items.extend([now(Kind::Stop, 0), status(), second(), status()]);
        items.extend([now(Kind::Run, 0), status()]);
    }
    items.extend(watched(6));
    items
}

/// Behind a refused CLOSE the macro is still open, cannot be started, and no WAIT
/// makes it better.
fn refused() -> Vec<Item> {
    let mut items = nest(&[places(2), places(FULLEST_SECOND + 1)]);
    items.extend([now(Kind::Open, 2), status(), now(Kind::Run, 1)]);
    items.extend([now(Kind::Close, 0), append(Kind::Wait, 1), status()]);
    items.extend([now(Kind::Close, 0), append(Kind::Wait, LONGEST), status()]);
    items.extend([now(Kind::Close, 0), now(Kind::Clear, 0), status()]);
    items.extend(watched_nest(&[places(FULLEST_SECOND), starts(0, 1)], 2));
    items
}

/// An open macro that could not be closed, while seconds pass.
fn open_beside_a_running_one() -> Vec<Item> {
    let lower = [places(30), wait(4), flush(), wait(2), flush()].concat();
    let mut items = nest(&[lower]);
    items.push(now(Kind::Open, 3));
    for _ in 0..7 {
        let appends = [append(Kind::Run, 0), append(Kind::Run, 0)];
        items.extend(appends);
        items.extend([now(Kind::Close, 0), status(), second(), status()]);
        items.extend([append(Kind::Wait, 200), status()]);
    }
    items
}

/// WAITs of so many seconds in all, by themselves and with entries around them.
fn lengths(total: u32) -> Vec<Item> {
    let half = total / 2;
    let spread = [wait(1), places(2), wait(total - 3), flush(), wait(2)].concat();
    let mut waits = vec![
        vec![[wait(half), wait(total - half)].concat()],
        vec![spread],
        vec![wait(half), [starts(0, 1), wait(total - half)].concat()],
        vec![
            wait(100),
            starts(0, 2),
            [starts(1, 2), wait(total - 400)].concat(),
        ],
    ];
    if total <= LONGEST {
        waits.push(vec![wait(total)]);
    }
    let mut items = Vec::new();
    for macros in waits {
        let (last, lower) = macros.split_last().expect("each has a macro");
        for behind in [Vec::new(), flush(), places(3)] {
            let ended = [lower, &[[&flush()[..], last, &behind].concat()]].concat();
            items.extend([now(Kind::Stop, 0), now(Kind::Clear, 0)]);
            items.extend(nest(&ended));
            items.extend([passed(total as u16 - 2), status(), passed(1), status()]);
            items.extend([passed(1), status(), second(), status()]);
        }
    }
    items
}

/// A group of so many entries in one macro, over two, and over eight.
fn nests_of(count: usize) -> Vec<Vec<Entries>> {
    let two = [starts(0, 2), places(count - 2 * (count / 3))].concat();
    let mut eight = vec![places(1)];
    for number in 0..TOP - 1 {
        eight.push([starts(number, 1), places(8)].concat());
    }
    let more = count - 8 * eight.len() + 7;
    eight.push([flush(), starts(TOP - 1, 1), places(more - 1)].concat());
    vec![vec![places(count)], vec![places(count / 3), two], eight]
}

/// The group by itself, before a WAIT, behind one, and between two.
fn crowds(count: usize) -> Vec<Item> {
    let none = Vec::new();
    let before = [flush(), wait(2)].concat();
    let behind = [wait(1), flush(), wait(2)].concat();
    let around = [
        (&none, &none),
        (&none, &behind),
        (&before, &none),
        (&before, &behind),
    ];
    let mut items = Vec::new();
    for mut macros in nests_of(count) {
        let group = macros.pop().unwrap_or_default();
        for (before, behind) in around {
            let whole = [&before[..], &group, behind].concat();
            let all = [&macros[..], &[whole]].concat();
            items.extend(watched_nest(&all, 3));
            items.extend([passed(9), now(Kind::Close, 0), status()]);
        }
    }
    items
}

/// The same group by single commands, decoded, typed, and by both senders.
fn otherwise_sent(count: usize) -> Vec<Item> {
    let mut items = vec![now(Kind::Open, 5)];
    items.extend(vec![append(Kind::TlmFlush, 0); count]);
    items.extend([now(Kind::Close, 0), now(Kind::Run, 5), second(), status()]);
    items.push(now(Kind::Clear, 0));
    items.push(decoded(0, Kind::Open as u8, [6, 0]));
    items.extend((0..count).map(|place| decoded(1, Kind::ImgPwr as u8, [place as u32 % 2, 0])));
    items.push(decoded(0, Kind::Close as u8, [0; 2]));
    items.extend([now(Kind::Run, 6), second(), status(), now(Kind::Clear, 0)]);
    let lines = "+tlm_flush\n".repeat(count);
    let text = format!("open 7\n+wait 1\n{lines}close\nrun 7\n");
    items.push(typed(REPORT_ROOM, &[], text.as_bytes()));
    items.extend([
        passed(1),
        status(),
        passed(1),
        status(),
        now(Kind::Clear, 0),
    ]);
    let list = stored(4, &places(count));
    let (kit, pupil) = list.split_at(list.len() / 24 * 12);
    items.extend([run(REPORT_ROOM, kit, pupil), status()]);
    items.extend([now(Kind::Run, 4), passed(2), status()]);
    items
}

/// Macros that are too long and have a second too full as well, or only one of it.
fn both_due() -> Vec<Item> {
    let crowd = || places(FULLEST_SECOND + 1);
    let tried = [
        [crowd(), wait(LONGEST), flush()].concat(),
        [wait(LONGEST), crowd()].concat(),
        [wait(300), crowd(), wait(301)].concat(),
        [wait(300), crowd(), wait(300)].concat(),
        [wait(LONGEST - 1), crowd()].concat(),
        [crowd(), wait(LONGEST)].concat(),
        [wait(1), places(3), wait(1), crowd(), wait(1), places(3)].concat(),
        [crowd(), crowd(), wait(1)].concat(),
    ];
    let mut items = Vec::new();
    for entries in tried {
        items.extend([
            now(Kind::Clear, 0),
            run(REPORT_ROOM, &[], &stored(2, &entries)),
        ]);
        items.extend([now(Kind::Run, 2), status(), now(Kind::Close, 0), status()]);
    }
    items
}

/// Groups whose size would seem small to a byte.
fn wrapped_counts() -> Vec<Item> {
    let tried = [(2, 0), (3, 63), (4, 0), (4, 1), (5, 0), (128, 0)];
    let mut items = Vec::new();
    for (times, more) in tried {
        for behind in [Vec::new(), wait(1)] {
            let crowd = [starts(1, times), places(more), behind].concat();
            let macros = [places(8), starts(0, 8), crowd];
            items.extend(watched_nest(&macros, 1));
        }
    }
    items
}

/// Lengths that would seem small to two bytes.
fn wrapped_lengths() -> Vec<Item> {
    let mut items = Vec::new();
    for more in [wait(1), wait(LONGEST), flush(), wait(20)] {
        let long = [starts(0, 128), more].concat();
        items.extend(watched_nest(&[wait(512), long], 1));
    }
    items
}

/// Each second of a macro as full as it may be, for as long as it may last.
fn full_macros() -> Vec<Entries> {
    let full = [places(FULLEST_SECOND), wait(1)].concat();
    vec![full, starts(0, 24), starts(1, 25)]
}

/// A macro that starts another as often as entries are free, which comes to
/// millions of entries, or to one second of thousands.
fn millions() -> Vec<Item> {
    let free = 192;
    let mut items = Vec::new();
    for mut macros in [full_macros(), vec![places(FULLEST_SECOND)]] {
        let target = macros.len() as u32 - 1;
        macros.push(starts(target, free));
        items.extend(watched_nest(&macros, 1));
        items.extend(vec![now(Kind::Close, 0); 20]);
        items.extend([decoded(0, Kind::Close as u8, [0; 2]), status()]);
    }
    // Twice as many from macro to macro: 64 in the seventh, 128 in the last.
    let mut doubled = vec![flush()];
    doubled.extend((0..TOP).map(|number| starts(number, 2)));
    items.extend(watched_nest(&doubled, 1));
    items.extend([now(Kind::Run, TOP - 1), second(), status()]);
    items
}

fn full_seconds() -> Vec<Item> {
    let mut items = nest(&full_macros());
    items.extend(watched(2));
    items.extend([passed(LONGEST as u16 - 3), status()]);
    items.extend(watched(2));
    items.extend([now(Kind::Run, 2), passed(LONGEST as u16), status()]);
    items
}
