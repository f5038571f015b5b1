//! How many pictures so many seconds bring: the number by itself against the sum that
//! pupils work out on paper, and what a bench has counted after these seconds, whatever
//! else happens to it.

use reference::bench::{Bench, FOREVER};
use reference::codes::code_and_finding;
use reference::command::{Command, Kind};
use reference::comparison::items::raw;
use reference::pictures::{answers, pictures};
use reference::run::{run_lists, SMALLEST_REPORT_ROOM};

const SERIES: [Kind; 2] = [Kind::ImgImage, Kind::ImgTrack];
const TIMES: [u16; 4] = [0, 1, 65534, 65535];
const INTERVALS: [u16; 3] = [1, 2, 65535];

type Entry = (Kind, [u32; 2]);

const ON: Entry = (Kind::ImgPwr, [1, 0]);
const OFF: Entry = (Kind::ImgPwr, [0, 0]);
const FLUSH: Entry = (Kind::TlmFlush, [0, 0]);
const WAIT: Entry = (Kind::Wait, [1, 0]);

/// The seconds of the table, for a time.
fn table_seconds(time: u16) -> [u32; 5] {
    let time = u32::from(time);
    [0, 1, time, time + 1, 70_000]
}

/// The sum on paper.
fn sum(time: u16, interval: u16, seconds: u32) -> u64 {
    let (time, interval, seconds) = (u64::from(time), u64::from(interval), u64::from(seconds));
    let counting = if time == 65535 {
        seconds
    } else {
        seconds.min(time)
    };
    counting.div_ceil(interval)
}

fn code(bench: &mut Bench, appended: bool, (kind, arguments): Entry) -> u8 {
    let one = Command::new(appended, kind, arguments);
    code_and_finding(&bench.carry_out(&one)).0
}

/// Executes a command that must be taken.
fn take(bench: &mut Bench, entry: Entry) {
    assert_eq!(code(bench, false, entry), 0, "{entry:?}");
}

fn lit_bench() -> Bench {
    let mut bench = Bench::default();
    take(&mut bench, ON);
    bench
}

/// Closes a macro of these entries.
fn store(bench: &mut Bench, number: u32, entries: &[Entry]) {
    take(bench, (Kind::Open, [number, 0]));
    for entry in entries {
        assert_eq!(code(bench, true, *entry), 0, "{entry:?}");
    }
    take(bench, (Kind::Close, [0; 2]));
}

fn asking(kind: Kind, time: u16, interval: u16) -> Entry {
    (kind, [time.into(), interval.into()])
}

/// The count of this series as the status frame shows it.
fn count(bench: &Bench, kind: Kind) -> u16 {
    let frame = bench.frame();
    match kind {
        Kind::ImgImage => frame.images,
        _ => frame.track_images,
    }
}

fn other(kind: Kind) -> Kind {
    match kind {
        Kind::ImgImage => Kind::ImgTrack,
        _ => Kind::ImgImage,
    }
}

fn pass(bench: &mut Bench, seconds: u32) {
    for _ in 0..seconds {
        bench.second();
    }
}

/// What the count must be, so many seconds after it was `before`.
fn counted(before: u16, time: u16, interval: u16, seconds: u32) -> u16 {
    ((u64::from(before) + sum(time, interval, seconds)) % 65536) as u16
}

#[test]
fn five_seconds_every_two_bring_pictures_in_seconds_1_3_and_5() {
    let counts = [0, 1, 1, 2, 2, 3, 3];
    for (seconds, count) in (0..).zip(counts) {
        assert_eq!(pictures(5, 2, seconds), count);
        assert_eq!(sum(5, 2, seconds), count.into());
    }
    for kind in SERIES {
        let mut bench = lit_bench();
        take(&mut bench, (kind, [5, 2]));
        let shown = counts.map(|_| {
            let shown = count(&bench, kind);
            bench.second();
            u32::from(shown)
        });
        assert_eq!(shown, counts);
    }
}

#[test]
fn the_number_is_the_sum_at_every_end() {
    for time in TIMES {
        for interval in INTERVALS {
            for seconds in table_seconds(time) {
                let number = u64::from(pictures(time, interval, seconds));
                let case = (time, interval, seconds);
                assert_eq!(number, sum(time, interval, seconds), "{case:?}");
            }
        }
    }
}

#[test]
fn the_number_is_the_sum_for_all_small_numbers() {
    for time in (0..25).chain([65534, 65535]) {
        for interval in 1..13 {
            for seconds in 0..30 {
                let number = u64::from(pictures(time, interval, seconds));
                let case = (time, interval, seconds);
                assert_eq!(number, sum(time, interval, seconds), "{case:?}");
            }
        }
    }
}

#[test]
fn a_time_runs_out_however_many_seconds_there_are() {
    for time in [0, 1, 2, 65533, 65534] {
        for interval in INTERVALS {
            let number = pictures(time, interval, u32::MAX);
            assert_eq!(u64::from(number), sum(time, interval, time.into()));
        }
    }
}

#[test]
fn the_number_goes_on_where_a_count_begins_again() {
    assert_eq!(pictures(FOREVER, 1, 65_536), 65_536);
    assert_eq!(pictures(FOREVER, 1, 200_000), 200_000);
    assert_eq!(pictures(FOREVER, 2, 131_073), 65_537);
}

#[test]
fn an_interval_of_0_brings_none() {
    for time in TIMES {
        for seconds in table_seconds(time) {
            assert_eq!(pictures(time, 0, seconds), 0);
        }
    }
}

#[test]
fn a_bench_counts_the_sum_at_every_end() {
    for kind in SERIES {
        for time in TIMES {
            for interval in INTERVALS {
                for seconds in table_seconds(time) {
                    let mut bench = lit_bench();
                    take(&mut bench, asking(kind, time, interval));
                    pass(&mut bench, seconds);
                    let case = (time, interval, seconds);
                    let expected = counted(0, time, interval, seconds);
                    assert_eq!(count(&bench, kind), expected, "{case:?}");
                    assert_eq!(count(&bench, other(kind)), 0);
                }
            }
        }
    }
}

#[test]
fn the_count_begins_again_at_65536() {
    for kind in SERIES {
        let mut bench = lit_bench();
        take(&mut bench, asking(kind, FOREVER, 1));
        pass(&mut bench, 65_535);
        assert_eq!(count(&bench, kind), 65_535);
        pass(&mut bench, 1);
        assert_eq!(count(&bench, kind), 0);
        pass(&mut bench, 65_534);
        // From here on the sum is added to a count that is nearly full.
        take(&mut bench, asking(kind, 9, 2));
        pass(&mut bench, 5);
        assert_eq!(count(&bench, kind), counted(65_534, 9, 2, 5));
        assert_eq!(count(&bench, kind), 1);
    }
}

/// Something that happens before the second of this number, from 0, and is not to change
/// the count of the series of this kind.
type Happening = fn(&mut Bench, Kind, u32);

fn nothing(_: &mut Bench, _: Kind, _: u32) {}

/// The series' own commands, refused with 8, 4, 11 and, with power off, 26.
fn refused_commands(bench: &mut Bench, kind: Kind, _: u32) {
    assert_eq!(code(bench, false, (kind, [9, 0])), 8);
    let mut damaged = raw(false, kind, [9, 1]);
    damaged[11] ^= 1;
    assert_eq!(code_and_finding(&bench.carry_out_bytes(&damaged)).0, 4);
    assert_eq!(code(bench, true, (kind, [9, 1])), 11);
    take(bench, OFF);
    assert_eq!(code(bench, false, (kind, [9, 1])), 26);
    take(bench, ON);
}

/// Off after one second, on after another, and so on.
fn power(bench: &mut Bench, _: Kind, second: u32) {
    take(bench, if second.is_multiple_of(2) { OFF } else { ON });
}

/// The entries of a macro that asks for this series, but only in the dark.
fn dark_entries(kind: Kind) -> [Entry; 5] {
    [OFF, (kind, [9, 1]), ON, WAIT, FLUSH]
}

fn run_if_idle(bench: &mut Bench, number: u32) {
    if bench.running.is_none() {
        take(bench, (Kind::Run, [number, 0]));
    }
}

/// A macro that runs all the time, and one left open that would begin the series.
fn macros(bench: &mut Bench, kind: Kind, second: u32) {
    if second == 0 {
        store(bench, 0, &dark_entries(kind));
        take(bench, (Kind::Open, [1, 0]));
        assert_eq!(code(bench, true, (kind, [9, 1])), 0);
    }
    run_if_idle(bench, 0);
}

/// A run of both lists, with much in them but nothing that begins this series. Macro 7 is
/// closed behind it.
fn lists(bench: &mut Bench, kind: Kind, _: u32) {
    let refused = raw(false, kind, [3, 0]);
    let entries = dark_entries(kind).map(|(kind, arguments)| raw(true, kind, arguments));
    let kit = [
        raw(false, Kind::ImgPwr, [1, 0]),
        refused.clone(),
        raw(false, Kind::Clear, [0; 2]),
        raw(false, Kind::Open, [7, 0]),
        entries.concat(),
        raw(false, Kind::Close, [0; 2]),
        raw(false, Kind::TrkAlg, [2, 0]),
    ];
    let pupil = [
        raw(false, Kind::ImgPwr, [0, 0]),
        raw(false, kind, [3, 1]),
        raw(false, Kind::ImgRegion, [5, 6]),
        raw(false, Kind::Stop, [0; 2]),
        refused[..8].to_vec(),
    ];
    let mut room = vec![0; SMALLEST_REPORT_ROOM];
    let counts = run_lists(bench, &kit.concat(), &pupil.concat(), &mut room);
    let counts = counts.expect("the lists are short and the room is enough");
    assert_eq!((counts.kit, counts.pupil), (11, 5));
}

/// The other series, begun again and again, and ended.
fn other_series(bench: &mut Bench, kind: Kind, second: u32) {
    take(bench, ON);
    take(bench, (other(kind), [second % 4, 1]));
}

/// All of these in turn.
fn everything(bench: &mut Bench, kind: Kind, second: u32) {
    match second % 5 {
        0 => lists(bench, kind, second),
        1 => run_if_idle(bench, 7),
        2 => other_series(bench, kind, second),
        3 => refused_commands(bench, kind, second),
        _ => power(bench, kind, second),
    }
}

const HAPPENINGS: [Happening; 7] = [
    nothing,
    refused_commands,
    power,
    macros,
    lists,
    other_series,
    everything,
];

/// Lets seconds pass, with what happens before each, and looks at the count after each.
fn watch(bench: &mut Bench, kind: Kind, [time, interval]: [u16; 2], happening: Happening) {
    let before = count(bench, kind);
    for second in 0..40 {
        happening(bench, kind, second);
        assert_eq!(
            count(bench, kind),
            counted(before, time, interval, second),
            "{kind:?} {time} {interval} {second}"
        );
        bench.second();
    }
    happening(bench, kind, 40);
    assert_eq!(count(bench, kind), counted(before, time, interval, 40));
}

#[test]
fn whatever_else_happens_leaves_the_sum_alone() {
    for kind in SERIES {
        for happening in HAPPENINGS {
            for time in [0, 1, 20, 39, 40, 41, 65534, 65535] {
                for interval in [1, 2, 7, 20, 65535] {
                    let mut bench = lit_bench();
                    take(&mut bench, asking(kind, time, interval));
                    watch(&mut bench, kind, [time, interval], happening);
                }
            }
        }
    }
}

#[test]
fn a_series_of_a_macro_counts_from_the_second_after_it_was_handed_over() {
    for kind in SERIES {
        for happening in [nothing, refused_commands, other_series] {
            for [time, interval] in [[0, 1], [5, 2], [40, 3], [65535, 1], [65535, 65535]] {
                let mut bench = lit_bench();
                let entries = [FLUSH, WAIT, asking(kind, time, interval), WAIT, WAIT, FLUSH];
                store(&mut bench, 3, &entries);
                take(&mut bench, (Kind::Run, [3, 0]));
                pass(&mut bench, 1);
                let handed = bench.second();
                assert_eq!(handed.len(), 1);
                assert_eq!((handed[0].code, handed[0].command.kind), (0, kind));
                assert_eq!(count(&bench, kind), 0);
                watch(&mut bench, kind, [time, interval], happening);
            }
        }
    }
}

#[test]
fn a_series_of_a_macro_that_asks_again_begins_the_sum_anew() {
    for kind in SERIES {
        let mut bench = lit_bench();
        take(&mut bench, (kind, [65535, 10]));
        store(&mut bench, 0, &[WAIT, (kind, [65535, 4])]);
        take(&mut bench, (Kind::Run, [0, 0]));
        // The second that hands the entry over is one of the earlier series.
        pass(&mut bench, 2);
        assert_eq!(count(&bench, kind), 1);
        watch(&mut bench, kind, [65535, 4], nothing);
        assert_eq!(count(&bench, kind), 11);
    }
}

#[test]
fn a_series_that_supersedes_begins_the_sum_anew() {
    let all = [[0, 9], [5, 2], [9, 65535], [65534, 3], [65535, 1]];
    for kind in SERIES {
        for [time, interval] in all {
            for seconds in [0, 1, 4, 5, 6, 300] {
                for next in all {
                    let mut bench = lit_bench();
                    take(&mut bench, asking(kind, time, interval));
                    pass(&mut bench, seconds);
                    assert_eq!(count(&bench, kind), counted(0, time, interval, seconds));
                    take(&mut bench, asking(kind, next[0], next[1]));
                    watch(&mut bench, kind, next, nothing);
                }
            }
        }
    }
}

#[test]
fn each_line_is_answered_with_its_label_and_the_number() {
    let lines = "pictures sheet: 0005 0002 00000006\n\
        pictures 2 s every 1 s: 0002 0001 ffffffff\n\
        pictures for ever: ffff 0001 00011170\n\
        pictures none: FFFF 0000 00011170\n";
    let expected = "pictures sheet: 3\n\
        pictures 2 s every 1 s: 2\n\
        pictures for ever: 70000\n\
        pictures none: 0\n";
    assert_eq!(answers(lines.as_bytes()), expected);
    assert_eq!(answers(b""), "");
}

#[test]
fn a_line_of_another_form_stops_nothing() {
    let others = [
        "",
        "pictures",
        "pictures a",
        "pictures a: ",
        "pictures a: 0005 0002",
        "pictures a: 10000 0002 00000006",
        "pictures a: 0005 0002 00000006 0",
        "flush a: 00",
        "\u{fffd}",
    ];
    for other in others {
        let input = format!("{other}\npictures b: 0001 0001 00000001\n");
        assert_eq!(answers(input.as_bytes()), "pictures b: 1\n", "{other}");
    }
    assert_eq!(answers(&[0xff, b'\n']), "");
}
