//! Images with the power off: which commands are refused for it and in which
//! order, what a macro's second shows of them, and what goes on in the dark.

use reference::bench::{Bench, Handed, Series};
use reference::codes::{code_and_finding, Refusal};
use reference::command::{Command, Kind, TABLE};
use reference::comparison::items::{
    append, command, decoded, now, passed, raw, run, second, typed,
};
use reference::list::listing;
use reference::programs::{assembler, typed as typed_program};
use reference::replay::transcript;
use reference::run::{records_of, KIT, PUPIL};
use reference::text::commands_typed;
use reference::typed::typed_records;

const SERIES: [Kind; 2] = [Kind::ImgImage, Kind::ImgTrack];
const ASKING_TIMES: [u32; 5] = [1, 2, 300, 65534, 65535];

/// Entries of a macro, in short.
const ON: (Kind, [u32; 2]) = (Kind::ImgPwr, [1, 0]);
const OFF: (Kind, [u32; 2]) = (Kind::ImgPwr, [0, 0]);
const IMAGE: (Kind, [u32; 2]) = (Kind::ImgImage, [5, 2]);
const TRACK: (Kind, [u32; 2]) = (Kind::ImgTrack, [65535, 1]);
const END: (Kind, [u32; 2]) = (Kind::ImgImage, [0, 9]);
const FLUSH: (Kind, [u32; 2]) = (Kind::TlmFlush, [0, 0]);

type Entry = (Kind, [u32; 2]);

fn wait(seconds: u32) -> Entry {
    (Kind::Wait, [seconds, 0])
}

fn start(number: u32) -> Entry {
    (Kind::Run, [number, 0])
}

/// Code and parameter of an answer.
fn code_and_parameter<T>(answer: &Result<T, Refusal>) -> (u8, u8) {
    let (code, finding) = code_and_finding(answer);
    (code, finding.parameter)
}

/// Code and parameter of one command; a refused one must change nothing.
fn send(bench: &mut Bench, appended: bool, (kind, arguments): Entry) -> (u8, u8) {
    let before = bench.clone();
    let one = Command::new(appended, kind, arguments);
    let answer = code_and_parameter(&bench.carry_out(&one));
    let mut from_bytes = before.clone();
    let bytes = raw(appended, kind, arguments);
    let read = code_and_parameter(&from_bytes.carry_out_bytes(&bytes));
    assert_eq!((read, &from_bytes), (answer, &*bench), "{kind:?}");
    if answer.0 != 0 {
        assert_eq!(*bench, before, "{kind:?}");
    }
    answer
}

fn execute(bench: &mut Bench, entry: Entry) -> (u8, u8) {
    send(bench, false, entry)
}

fn append_to(bench: &mut Bench, entry: Entry) -> (u8, u8) {
    send(bench, true, entry)
}

/// Closes a macro of these entries, all of which must be taken.
fn store(bench: &mut Bench, number: u32, entries: &[Entry]) {
    assert_eq!(execute(bench, (Kind::Open, [number, 0])), (0, 0));
    for entry in entries {
        assert_eq!(append_to(bench, *entry), (0, 0));
    }
    assert_eq!(execute(bench, (Kind::Close, [0; 2])), (0, 0));
}

fn lit_bench() -> Bench {
    let mut bench = Bench::default();
    assert_eq!(execute(&mut bench, ON), (0, 0));
    bench
}

/// The entries that a second shows, each with its code, in order.
fn shown(handed: &[Handed]) -> Vec<(u8, Entry)> {
    let entries = handed.iter().map(|it| {
        assert!(it.command.appended);
        (it.code, (it.command.kind, it.command.arguments))
    });
    entries.collect()
}

/// The codes that one second of a fresh bench's macro shows.
fn codes_of(bench: &mut Bench, entries: &[Entry]) -> Vec<u8> {
    store(bench, 0, entries);
    assert_eq!(execute(bench, start(0)), (0, 0));
    bench.second().iter().map(|it| it.code).collect()
}

fn of(bench: &Bench, kind: Kind) -> &Series {
    match kind {
        Kind::ImgImage => &bench.image,
        _ => &bench.track,
    }
}

#[test]
fn an_executed_series_is_refused_in_the_dark_and_taken_in_the_light() {
    for kind in SERIES {
        for time in ASKING_TIMES {
            for interval in [1, 2, 65535] {
                let asked = (kind, [time, interval]);
                assert_eq!(execute(&mut Bench::default(), asked), (26, 0));
                let mut bench = lit_bench();
                assert_eq!(execute(&mut bench, asked), (0, 0));
                assert_eq!(u32::from(of(&bench, kind).time), time);
                assert_eq!(execute(&mut bench, OFF), (0, 0));
                assert_eq!(execute(&mut bench, asked), (26, 0));
            }
        }
    }
}

#[test]
fn the_image_of_the_rules_has_power_on() {
    let image = (Kind::ImgImage, [5, 2]);
    assert_eq!(execute(&mut Bench::default(), image), (26, 0));
    let mut bench = lit_bench();
    assert_eq!(execute(&mut bench, image), (0, 0));
    let counts: Vec<u16> = (0..6)
        .map(|_| {
            bench.second();
            bench.image.images
        })
        .collect();
    assert_eq!(counts, [1, 1, 2, 2, 3, 3]);
}

#[test]
fn a_time_of_0_is_taken_in_the_dark_and_ends_a_series() {
    for kind in SERIES {
        let mut bench = lit_bench();
        assert_eq!(execute(&mut bench, (kind, [65535, 1])), (0, 0));
        bench.second();
        assert_eq!(execute(&mut bench, OFF), (0, 0));
        assert_eq!(execute(&mut bench, (kind, [0, 7])), (0, 0));
        let series = of(&bench, kind).clone();
        assert_eq!((series.time, series.interval), (0, 7));
        bench.second();
        assert_eq!(*of(&bench, kind), series);
        assert_eq!(series.images, 1);
        // On a fresh bench it is taken as well.
        assert_eq!(execute(&mut Bench::default(), (kind, [0, 1])), (0, 0));
    }
}

#[test]
fn a_bad_interval_comes_first() {
    for kind in SERIES {
        for time in [0, 1, 65535] {
            for appended in [false, true] {
                let mut bench = Bench::default();
                assert_eq!(send(&mut bench, appended, (kind, [time, 0])), (8, 2));
            }
        }
    }
}

#[test]
fn faults_of_the_bytes_come_first() {
    for kind in SERIES {
        let whole = raw(false, kind, [5, 1]);
        let mut bench = Bench::default();
        let mut code = |bytes: &[u8]| code_and_parameter(&bench.carry_out_bytes(bytes)).0;
        assert_eq!(code(&whole), 26);
        assert_eq!(code(&whole[..7]), 1);
        assert_eq!(code(&whole[..11]), 3);
        let changed = |place: usize, bits: u8| {
            let mut bytes = whole.clone();
            bytes[place] ^= bits;
            bytes
        };
        assert_eq!(code(&changed(3, 2)), 2);
        assert_eq!(code(&changed(4, 1)), 4);
        let both = |place: usize, bits: u8| {
            let mut bytes = changed(place, bits);
            bytes[place % 4 + 8] ^= bits;
            bytes
        };
        assert_eq!(code(&both(0, 0x40)), 5);
        let longer = [&changed(3, 7)[..8], &[0; 4], &both(3, 7)[8..]].concat();
        assert_eq!(code(&longer), 6);
    }
}

#[test]
fn an_appended_series_is_stored_in_the_dark() {
    for kind in SERIES {
        for time in [0, 1, 65535] {
            let mut bench = Bench::default();
            assert_eq!(append_to(&mut bench, (kind, [time, 1])), (11, 0));
            assert_eq!(execute(&mut bench, (Kind::Open, [2, 0])), (0, 0));
            assert_eq!(append_to(&mut bench, (kind, [time, 1])), (0, 0));
            assert_eq!(bench.macros.open_entries(), 1);
            assert_eq!(of(&bench, kind).time, 0);
        }
    }
}

#[test]
fn an_append_past_the_last_free_entry_gets_16_and_an_executed_one_26() {
    let mut bench = Bench::default();
    assert_eq!(execute(&mut bench, (Kind::Open, [2, 0])), (0, 0));
    (0..192).for_each(|_| assert_eq!(append_to(&mut bench, IMAGE), (0, 0)));
    assert_eq!(append_to(&mut bench, IMAGE), (16, 0));
    assert_eq!(execute(&mut bench, IMAGE), (26, 0));
}

#[test]
fn with_a_macro_open_or_running_it_is_26_too() {
    let mut bench = Bench::default();
    store(&mut bench, 1, &[FLUSH, wait(3)]);
    for prepared in [(Kind::Open, [4, 0]), start(1)] {
        assert_eq!(execute(&mut bench, prepared), (0, 0));
        for asked in [IMAGE, TRACK] {
            assert_eq!(execute(&mut bench, asked), (26, 0));
        }
        assert_eq!(execute(&mut bench, END), (0, 0));
    }
    bench.second();
    assert_eq!(execute(&mut bench, IMAGE), (26, 0));
    assert_eq!(execute(&mut bench, ON), (0, 0));
    assert_eq!(execute(&mut bench, IMAGE), (0, 0));
}

#[test]
fn no_other_kind_minds_the_dark() {
    let others = TABLE.iter().filter(|row| !SERIES.contains(&row.kind));
    for row in others {
        for appended in [false, true] {
            for prepared in [None, Some((Kind::Open, [2, 0]))] {
                let (mut dark, mut lit) = (Bench::default(), lit_bench());
                for bench in [&mut dark, &mut lit] {
                    prepared.map(|entry| execute(bench, entry));
                }
                let entry = (row.kind, [1, 1]);
                let answer = send(&mut lit, appended, entry);
                assert_eq!(send(&mut dark, appended, entry), answer);
            }
        }
    }
}

#[test]
fn a_dark_entry_has_no_effect_is_shown_with_26_and_the_macro_goes_on() {
    let mut bench = Bench::default();
    store(&mut bench, 0, &[FLUSH, IMAGE, FLUSH, TRACK, wait(1), FLUSH]);
    assert_eq!(execute(&mut bench, start(0)), (0, 0));
    let first = bench.second();
    let expected = [(0, FLUSH), (26, IMAGE), (0, FLUSH), (26, TRACK)];
    assert_eq!(shown(&first), expected);
    let fresh = Bench::default();
    assert_eq!((&bench.image, &bench.track), (&fresh.image, &fresh.track));
    assert_eq!((bench.flushes, bench.seconds_left()), (2, 1));
    assert_eq!(shown(&bench.second()), [(0, FLUSH)]);
    assert_eq!((bench.flushes, &bench.running), (3, &None));
}

#[test]
fn every_time_of_both_kinds_is_judged_as_it_is_handed_over() {
    for kind in SERIES {
        for time in [0, 1, 2, 65534, 65535] {
            let code = if time == 0 { 0 } else { 26 };
            let entries = [(kind, [time, 3])];
            let mut dark = Bench::default();
            assert_eq!(codes_of(&mut dark, &entries), [code]);
            let interval = if time == 0 { 3 } else { 1 };
            assert_eq!(of(&dark, kind).interval, interval);
            let mut lit = lit_bench();
            assert_eq!(codes_of(&mut lit, &entries), [0]);
            let series = of(&lit, kind);
            assert_eq!((u32::from(series.time), series.interval), (time, 3));
        }
    }
}

#[test]
fn power_switched_on_inside_a_group_counts_for_what_follows() {
    let mut bench = Bench::default();
    let codes = codes_of(&mut bench, &[IMAGE, ON, IMAGE, TRACK]);
    assert_eq!(codes, [26, 0, 0, 0]);
    assert_eq!((bench.image.time, bench.track.time), (5, 65535));
}

#[test]
fn power_switched_off_inside_a_group_counts_for_what_follows() {
    let mut bench = lit_bench();
    let codes = codes_of(&mut bench, &[IMAGE, OFF, TRACK, (Kind::ImgImage, [9, 9])]);
    assert_eq!(codes, [0, 0, 26, 26]);
    assert_eq!((bench.image.time, bench.image.interval), (5, 2));
    assert_eq!((bench.power, bench.track.time), (false, 0));
}

#[test]
fn power_switched_again_and_again_inside_a_group() {
    let group = [
        OFF, IMAGE, ON, TRACK, OFF, END, TRACK, FLUSH, IMAGE, ON, OFF, IMAGE, ON,
    ];
    let expected = [0, 26, 0, 0, 0, 0, 26, 0, 26, 0, 0, 26, 0];
    for mut bench in [Bench::default(), lit_bench()] {
        assert_eq!(codes_of(&mut bench, &group), expected);
        assert_eq!((bench.image.time, bench.image.interval), (0, 9));
        assert_eq!((bench.track.time, bench.flushes), (65535, 1));
    }
}

#[test]
fn power_is_looked_at_as_the_entry_is_handed_over() {
    let mut bench = Bench::default();
    let each_second = [IMAGE, wait(1), IMAGE, wait(1), IMAGE, wait(1), IMAGE];
    store(&mut bench, 0, &each_second);
    assert_eq!(execute(&mut bench, start(0)), (0, 0));
    let mut codes = Vec::new();
    for switch in [OFF, ON, OFF, ON] {
        assert_eq!(execute(&mut bench, switch), (0, 0));
        codes.extend(bench.second().iter().map(|it| it.code));
    }
    assert_eq!(codes, [26, 0, 26, 0]);
}

#[test]
fn a_group_across_nested_macros() {
    let mut bench = Bench::default();
    store(&mut bench, 0, &[OFF]);
    store(&mut bench, 1, &[IMAGE, TRACK]);
    store(&mut bench, 2, &[ON]);
    store(
        &mut bench,
        3,
        &[start(1), start(2), start(1), start(0), start(1)],
    );
    store(
        &mut bench,
        4,
        &[start(3), FLUSH, wait(1), start(2), start(3)],
    );
    assert_eq!(execute(&mut bench, start(4)), (0, 0));
    let asked = |code| [(code, IMAGE), (code, TRACK)];
    let third = |first| {
        let parts = [
            &asked(first)[..],
            &[(0, ON)],
            &asked(0),
            &[(0, OFF)],
            &asked(26),
        ];
        parts.concat()
    };
    assert_eq!(
        shown(&bench.second()),
        [&third(26)[..], &[(0, FLUSH)]].concat()
    );
    assert_eq!(shown(&bench.second()), [&[(0, ON)], &third(0)[..]].concat());
    assert_eq!(bench.running, None);
}

#[test]
fn a_macro_whose_every_entry_is_dark_ends_in_its_second() {
    for count in [1, 2, 63, 64] {
        let mut bench = Bench::default();
        let entries: Vec<Entry> = (0..count).map(|at| [IMAGE, TRACK][at % 2]).collect();
        store(&mut bench, 6, &entries);
        assert_eq!(execute(&mut bench, start(6)), (0, 0));
        assert_eq!(bench.seconds_left(), 1);
        let handed = bench.second();
        assert_eq!(handed.len(), count);
        assert!(handed.iter().all(|it| it.code == 26));
        assert_eq!((bench.running.is_none(), bench.seconds_left()), (true, 0));
        assert_eq!(bench.second(), []);
        assert_eq!(bench.image.images, 0);
    }
}

#[test]
fn dark_entries_take_their_place_in_the_length_and_in_a_second() {
    let mut bench = Bench::default();
    store(&mut bench, 0, &[IMAGE, wait(3), TRACK, wait(2), IMAGE]);
    assert_eq!(execute(&mut bench, start(0)), (0, 0));
    let sizes: Vec<usize> = (0..7).map(|_| bench.second().len()).collect();
    assert_eq!(sizes, [1, 0, 0, 1, 0, 1, 0]);
    assert_eq!(execute(&mut bench, (Kind::Open, [1, 0])), (0, 0));
    (0..65).for_each(|_| assert_eq!(append_to(&mut bench, IMAGE), (0, 0)));
    assert_eq!(execute(&mut bench, (Kind::Close, [0; 2])), (25, 0));
}

#[test]
fn a_series_under_way_goes_on_as_power_goes_and_comes() {
    for kind in SERIES {
        let mut bench = lit_bench();
        assert_eq!(execute(&mut bench, (kind, [7, 2])), (0, 0));
        let mut undisturbed = bench.clone();
        for switch in [None, Some(OFF), None, Some(ON), Some(OFF), None, None, None] {
            switch.map(|entry| execute(&mut bench, entry));
            bench.second();
            undisturbed.second();
            assert_eq!(of(&bench, kind), of(&undisturbed, kind));
        }
        assert_eq!((of(&bench, kind).images, of(&bench, kind).time), (4, 0));
    }
}

#[test]
fn a_series_goes_on_as_a_macro_switches_power_off() {
    let mut bench = Bench::default();
    let image = (Kind::ImgImage, [3, 1]);
    assert_eq!(codes_of(&mut bench, &[ON, image, OFF, wait(4)]), [0, 0, 0]);
    let counts: Vec<u16> = (0..4)
        .map(|_| {
            bench.second();
            bench.image.images
        })
        .collect();
    assert_eq!((counts, bench.power), (vec![1, 2, 3, 3], false));
}

#[test]
fn an_endless_series_is_counted_in_the_dark() {
    let mut bench = lit_bench();
    assert_eq!(execute(&mut bench, TRACK), (0, 0));
    assert_eq!(execute(&mut bench, OFF), (0, 0));
    (0..66_000).for_each(|_| drop(bench.second()));
    assert_eq!((bench.track.time, bench.track.images), (65535, 464));
}

#[test]
fn a_superseding_series_refused_in_the_dark_leaves_the_earlier_one() {
    for kind in SERIES {
        let mut bench = lit_bench();
        assert_eq!(execute(&mut bench, (kind, [9, 4])), (0, 0));
        bench.second();
        bench.second();
        let earlier = of(&bench, kind).clone();
        assert_eq!(execute(&mut bench, OFF), (0, 0));
        assert_eq!(execute(&mut bench, (kind, [5, 1])), (26, 0));
        assert_eq!(*of(&bench, kind), earlier);
        // The same by a macro, in whose second the series goes on.
        assert_eq!(codes_of(&mut bench, &[(kind, [5, 1])]), [26]);
        let series = of(&bench, kind);
        assert_eq!(
            (series.time, series.next),
            (earlier.time - 1, earlier.next - 1)
        );
        assert_eq!(series.interval, 4);
    }
}

#[test]
fn a_time_of_0_handed_over_in_the_dark_ends_a_series() {
    let mut bench = lit_bench();
    assert_eq!(execute(&mut bench, (Kind::ImgImage, [65535, 1])), (0, 0));
    assert_eq!(
        codes_of(&mut bench, &[OFF, IMAGE, END, IMAGE]),
        [0, 26, 0, 26]
    );
    bench.second();
    assert_eq!((bench.image.time, bench.image.images), (0, 1));
}

/// Power off, both kinds asked for in vain, one ended, power on, asked for again.
fn switched_list() -> Vec<u8> {
    let entries = [
        IMAGE,
        OFF,
        IMAGE,
        TRACK,
        END,
        (Kind::ImgTrack, [1, 0]),
        ON,
        TRACK,
    ];
    let bytes = entries.map(|(kind, arguments)| raw(false, kind, arguments));
    bytes.concat()
}

#[test]
fn records_of_a_run() {
    let mut bench = Bench::default();
    let records = records_of(&mut bench, &switched_list(), &switched_list());
    let codes = |sender| {
        let own = records.iter().filter(move |it| it.sender == sender);
        own.map(|it| (it.code, it.parameter)).collect::<Vec<_>>()
    };
    let behind = [(0, 0), (26, 0), (26, 0), (0, 0), (8, 2), (0, 0), (0, 0)];
    assert_eq!(codes(KIT), [&[(26, 0)], &behind[..]].concat());
    assert_eq!(codes(PUPIL), [&[(0, 0)], &behind[..]].concat());
    assert_eq!((bench.image.interval, bench.track.time), (9, 65535));
}

const TEXT: &str = "img_pwr 0\n\nimg_image 5 2\n# dark\nimg_track 65535 1\n\
                    img_image 0 9\n+img_image 1 1\nimg_pwr 1\nimg_image 1 1\n";

#[test]
fn records_of_a_typed_run() {
    let commands = commands_typed(TEXT.as_bytes()).expect("the dark is no fault of a text");
    let kit = raw(false, Kind::ImgTrack, [2, 1]);
    let records = typed_records(&mut Bench::default(), &kit, &commands);
    let codes: Vec<(u32, u8)> = records.iter().map(|it| (it.number, it.code)).collect();
    let pupil = [(1, 0), (3, 26), (5, 26), (6, 0), (7, 11), (8, 0), (9, 0)];
    assert_eq!(codes, [&[(1, 26)], &pupil[..]].concat());
    assert!(records.iter().all(|it| it.parameter == 0 && it.value == 0));
}

#[test]
fn the_programs_show_26_in_their_reports_only() {
    let expected = "from no code par val\nkit 1 0 0 0\nkit 2 0 0 0\nkit 3 0 0 0\nkit 4 0 0 0\n\
                    pupil 1 0 0 0\npupil 2 0 0 0\npupil 3 26 0 0\npupil 4 26 0 0\n\
                    pupil 5 0 0 0\npupil 6 8 2 0\npupil 7 0 0 0\npupil 8 0 0 0\n";
    assert_eq!(listing(&switched_list()), expected);
    let streams = typed_program(TEXT.as_bytes());
    let report = String::from_utf8_lossy(&streams.output).into_owned();
    assert!(report.ends_with(
        "pupil 1 0 0 0\npupil 3 26 0 0\npupil 5 26 0 0\npupil 6 0 0 0\n\
         pupil 7 11 0 0\npupil 8 0 0 0\npupil 9 0 0 0\n"
    ));
    assert!(assembler(TEXT.as_bytes()).errors.is_empty());
}

#[test]
fn what_replay_prints() {
    let image = raw(false, Kind::ImgImage, [5, 2]);
    let items = [
        command(&image),
        decoded(0, Kind::ImgTrack as u8, [1, 65535]),
        now(Kind::Open, 4),
        command(&raw(true, Kind::ImgImage, [65535, 2])),
        append(Kind::ImgPwr, 1),
        command(&raw(true, Kind::ImgTrack, [1, 3])),
        now(Kind::Close, 0),
        now(Kind::Run, 4),
        second(),
        now(Kind::ImgPwr, 0),
        now(Kind::Run, 4),
        passed(3),
        now(Kind::ImgPwr, 0),
        run(12_288, &image, &[]),
        typed(12_288, &[], b"#\nimg_track 7 1"),
    ];
    let expected = "command 26 0 0 0 0\ndecoded 26 0 0 0 0 0 011800030001ffff0119fffc\n".to_owned()
        + &"command 0 0 0 0 0\n".repeat(6)
        + "second 0 3\nhanded 26 img_image 65535 2\nhanded 0 img_pwr 1\n\
           handed 0 img_track 1 3\n"
        + &"command 0 0 0 0 0\n".repeat(2)
        + "passed 3\ncommand 0 0 0 0 0\n\
           run 0 1 0\nrecord 011a00000000000100000000\nrest same\n\
           typed 0 0 0 0 0 0 0 1\nrecord 021a00000000000200000000\nrest same\n";
    assert_eq!(transcript(&items.concat()), expected);
}
