//! The comparison's own tools: that its scripts are what they should be, that
//! it sees differences and codes, and that it makes a script smaller.

use std::collections::{BTreeMap, BTreeSet};

use reference::bench::FOREVER;
use reference::comparison::items::{command, fresh, second, status, Item};
use reference::comparison::rng::Rng;
use reference::comparison::shrink::shrunk;
use reference::comparison::sums::{input, sums, Sum, MOST_FOR_EVER};
use reference::comparison::tally::{first_difference, grouped, Tally};
use reference::comparison::{fixed, random};
use reference::macros::MACROS;
use reference::outline::Outline;
use reference::pictures::answers;
use reference::replay::{transcript, Replay, Script, LONGEST_SCRIPT};

#[test]
fn random_scripts_are_whole_and_the_same_again() {
    for index in 0..3 {
        let script = random::script(Rng::stream(7, index)).concat();
        assert!(script.len() <= LONGEST_SCRIPT);
        assert!(!transcript(&script).contains("bad script"));
        assert_eq!(script, random::script(Rng::stream(7, index)).concat());
    }
}

#[test]
fn most_random_scripts_fill_the_pool() {
    let scripts = (0..20).map(|index| random::script(Rng::stream(7, index)));
    assert!(scripts.filter(|script| fills_the_pool(script)).count() > 10);
}

/// Whether there is a time at which no entry is free.
fn fills_the_pool(script: &[Item]) -> bool {
    let mut replay = Replay::default();
    script.iter().any(|item| {
        replay.item(&mut Script::new(item));
        replay.bench.macros.free_entries() == 0
    })
}

#[test]
fn random_macros_lie_on_both_sides_of_their_limits() {
    let mut fullest = BTreeSet::new();
    let mut lengths = BTreeSet::new();
    for index in 0..20 {
        for outline in outlines(&random::script(Rng::stream(7, index))) {
            fullest.insert(outline.fullest);
            lengths.insert((outline.length(), outline.last > 0));
        }
    }
    assert!([63, 64, 65].iter().all(|count| fullest.contains(count)));
    assert!(fullest.iter().any(|count| *count > 1000), "{fullest:?}");
    for length in [599, 600, 601] {
        let ends = [(length, false), (length, true)];
        assert!(ends.iter().all(|end| lengths.contains(end)), "{length}");
    }
    assert!(lengths.iter().any(|(length, _)| *length > 10_000));
}

/// The outlines of all macros that a script makes, whether they can be closed or not.
fn outlines(script: &[Item]) -> Vec<Outline> {
    let mut replay = Replay::default();
    let mut all = Vec::new();
    for item in script {
        replay.item(&mut Script::new(item));
        let macros = &replay.bench.macros;
        all.extend((0..MACROS).map(|number| macros.outline(number)));
        all.dedup();
    }
    all
}

/// What becomes of images that are asked for, each sort with how often it occurs.
#[derive(Default)]
struct Images {
    /// The sort of line and its code, where it has 26.
    refused: BTreeMap<String, usize>,
    /// By name, time and whether power was on, of entries handed over.
    handed: BTreeMap<(String, u32, bool), usize>,
    /// Seconds in which an image was counted, by whether power was on.
    counted: BTreeMap<bool, usize>,
}

impl Images {
    fn watch(&mut self, script: &[Item]) {
        let mut replay = Replay::default();
        for item in script {
            let before = replay.bench.clone();
            let lines = replay.item(&mut Script::new(item)).unwrap_or_default();
            let mut power = before.power;
            for line in lines.lines() {
                self.line(line, &mut power);
            }
            if item == &second() && replay.bench.image.images != before.image.images {
                *self.counted.entry(before.power).or_default() += 1;
            }
        }
    }

    fn line(&mut self, line: &str, power: &mut bool) {
        let words: Vec<&str> = line.split(' ').collect();
        let record = words[0] == "record" && &words[1][2..4] == "1a";
        if record || words.get(1) == Some(&"26") {
            *self.refused.entry(words[0].into()).or_default() += 1;
        }
        match words[..] {
            ["handed", _, "img_pwr", mode] => *power = mode == "1",
            ["handed", code, name @ ("img_image" | "img_track"), time, _] => {
                let time = time.parse().expect("a time is a number");
                assert_eq!(code == "26", time > 0 && !*power, "{line}");
                let sort = (name.into(), time, *power);
                *self.handed.entry(sort).or_default() += 1;
            }
            _ => {}
        }
    }
}

#[test]
fn random_scripts_ask_for_images_with_power_on_and_off() {
    let mut images = Images::default();
    for index in 0..20 {
        images.watch(&random::script(Rng::stream(7, index)));
    }
    for line in ["command", "decoded", "record", "handed"] {
        let times = images.refused.get(line).copied().unwrap_or_default();
        assert!(times > 100, "{line} {times}");
    }
    for name in ["img_image", "img_track"] {
        for time in [0, 1, 65535] {
            for power in [false, true] {
                let sort = (name.into(), time, power);
                let times = images.handed.get(&sort).copied().unwrap_or_default();
                assert!(times > 10, "{sort:?} {times}");
            }
        }
    }
    for power in [false, true] {
        let times = images.counted.get(&power).copied().unwrap_or_default();
        assert!(times > 200, "{power} {times}");
    }
}

/// The values told with code 8, by the sort of line and the parameter.
type Told = BTreeMap<(String, u8), Vec<u32>>;

fn tell_of(script: &[Item], told: &mut Told) {
    for line in transcript(&script.concat()).lines() {
        let words: Vec<&str> = line.split(' ').collect();
        let (parameter, value) = match words[..] {
            ["command" | "read" | "decoded", "8", parameter, value, ..] => {
                (parameter, value.parse())
            }
            ["assembled" | "listed" | "typed", "8", _, parameter, value, ..] => {
                (parameter, value.parse())
            }
            ["record", digits] if &digits[2..4] == "08" => {
                (&digits[5..6], u32::from_str_radix(&digits[16..], 16))
            }
            _ => continue,
        };
        let sort = (words[0].into(), parameter.parse().expect("1 or 2"));
        told.entry(sort).or_default().push(value.expect("a number"));
    }
}

#[test]
fn random_scripts_tell_of_numbers_in_every_sort_of_line() {
    let mut told = Told::new();
    for index in 0..20 {
        tell_of(&random::script(Rng::stream(7, index)), &mut told);
    }
    // Seven sorts of lines, each with both parameters.
    assert_eq!(told.len(), 14, "{:?}", told.keys());
    for (sort, values) in told {
        assert!(values.len() > 30, "{sort:?} {}", values.len());
        // Goals among them, as bits.
        assert!(values.iter().any(|value| *value > 99_999), "{sort:?}");
    }
}

/// What random scripts ask for about housekeeping, and how often.
#[derive(Default)]
struct Asked {
    /// Of the bench: whether anything was received, whether it failed, and whether it
    /// was the last one that did.
    runs: BTreeMap<(bool, bool, bool), usize>,
    /// The failed commands' codes, and the free entries.
    codes: BTreeSet<u8>,
    free: BTreeSet<u8>,
    /// Lists that set nothing because they were refused, and empty ones behind a failure.
    refused: usize,
    emptied: usize,
    /// Of frames read: how often each code was given.
    frames: BTreeMap<u8, usize>,
}

impl Asked {
    fn watch(&mut self, script: &[Item]) {
        let mut replay = Replay::default();
        for item in script {
            let before = replay.bench.latest;
            let lines = replay.item(&mut Script::new(item)).unwrap_or_default();
            let words: Vec<&str> = lines.split_whitespace().collect();
            let code = words.get(1).and_then(|word| word.parse().ok());
            match (words.first(), code) {
                (Some(&"housekeeping"), Some(0)) => self.told(&replay),
                (Some(&"run" | &"typed"), Some(0)) => {
                    let emptied = before.failed > 0 && replay.bench.latest.received == 0;
                    self.emptied += usize::from(emptied);
                }
                (Some(&"run" | &"typed"), _) => self.refused += usize::from(before.failed > 0),
                (Some(&"tags"), Some(code)) => *self.frames.entry(code).or_default() += 1,
                _ => {}
            }
        }
    }

    fn told(&mut self, replay: &Replay) {
        let told = replay.bench.housekeeping();
        let (received, failed) = (told.received, told.failed);
        let sort = (received > 0, failed > 0, received == failed);
        *self.runs.entry(sort).or_default() += 1;
        self.codes.insert(told.failed_code);
        self.free.insert(told.free);
    }
}

#[test]
fn random_scripts_ask_for_housekeeping_in_every_sort_of_case() {
    let mut asked = Asked::default();
    for index in 0..20 {
        asked.watch(&random::script(Rng::stream(7, index)));
    }
    // Nothing received, no failure, the last one failing, and an earlier one.
    let sorts = [(false, false, true), (true, false, false)];
    for sort in sorts
        .into_iter()
        .chain([(true, true, true), (true, true, false)])
    {
        let times = asked.runs.get(&sort).copied().unwrap_or_default();
        assert!(times > 50, "{sort:?} {times}");
    }
    assert_eq!(asked.runs.len(), 4, "{:?}", asked.runs);
    assert!(asked.codes.len() > 15, "{:?}", asked.codes);
    assert!([0, 192].iter().all(|free| asked.free.contains(free)));
    assert!(asked.free.len() > 50, "{:?}", asked.free);
    assert!(asked.refused > 30, "{}", asked.refused);
    assert!(asked.emptied > 10, "{}", asked.emptied);
    for code in [0, 47, 48, 49, 50] {
        let times = asked.frames.get(&code).copied().unwrap_or_default();
        assert!(times > 80, "{code} {times}");
    }
}

#[test]
fn fixed_scripts_ask_for_housekeeping_with_every_code_and_every_number_of_free_entries() {
    let mut asked = Asked::default();
    for script in fixed::scripts() {
        asked.watch(&script);
    }
    let codes: BTreeSet<u8> = (0..=19).chain([25, 26]).collect();
    assert_eq!(asked.codes, codes);
    assert_eq!(asked.free, (0..=192).collect());
    assert_eq!(
        asked.frames.keys().collect::<Vec<_>>(),
        [&0, &47, &48, &49, &50]
    );
}

#[test]
fn one_fixed_script_is_too_long_and_twenty_two_are_bad() {
    let transcripts: Vec<String> = fixed::scripts()
        .iter()
        .map(|script| transcript(&script.concat()))
        .collect();
    let ending = |end: &str| {
        transcripts
            .iter()
            .filter(|text| text.ends_with(end))
            .count()
    };
    assert_eq!(ending("too long\n"), 1);
    assert_eq!(ending("bad script\n"), 22);
}

/// The most bytes that the cases program is sure to read.
const LONGEST_CASES: usize = 500_000;

#[test]
fn sums_are_whole_and_the_same_again() {
    let all = sums(&mut Rng::new(7), 400);
    assert_eq!(all, sums(&mut Rng::new(7), 400));
    let lines = input(&all);
    assert!(lines.len() < LONGEST_CASES);
    let answers = answers(&lines);
    assert_eq!(answers.lines().count(), all.len());
    for (number, line) in (1..).zip(answers.lines()) {
        assert!(line.starts_with(&format!("pictures {number}: ")), "{line}");
    }
    let for_ever = all.iter().filter(|sum| sum.time == FOREVER);
    assert!(for_ever.map(|sum| sum.seconds).max() <= Some(MOST_FOR_EVER));
}

#[test]
fn fixed_sums_have_the_example_every_end_and_intervals_of_0() {
    let fixed = sums(&mut Rng::new(7), 0);
    let sent = |time, interval, seconds| {
        fixed.contains(&Sum {
            time,
            interval,
            seconds,
        })
    };
    assert!((0..7).all(|seconds| sent(5, 2, seconds)));
    for time in [0, 1, 65534, 65535] {
        let end = u32::from(time);
        for interval in [0, 1, 2, 65535] {
            for seconds in [0, 1, end, end + 1, 70_000] {
                assert!(sent(time, interval, seconds), "{time} {interval} {seconds}");
            }
            assert_eq!(sent(time, interval, u32::MAX), time != FOREVER);
        }
    }
}

#[test]
fn random_sums_lie_mostly_about_an_end() {
    let fixed = sums(&mut Rng::new(7), 0).len();
    let random = &sums(&mut Rng::new(7), 400)[fixed..];
    let often = |what: &str, least: usize, holds: &dyn Fn(&Sum) -> bool| {
        let times = random.iter().filter(|sum| holds(sum)).count();
        assert!(times > least, "{what} {times}");
    };
    often("about the time", 150, &|sum| {
        u32::from(sum.time).abs_diff(sum.seconds) <= 2
    });
    often("about a multiple", 150, &|sum| {
        let interval = u64::from(sum.interval);
        interval > 4 && (u64::from(sum.seconds) + 2) % interval <= 4
    });
    often("seconds end it", 50, &|sum| {
        sum.seconds > u32::from(sum.interval) && sum.seconds < u32::from(sum.time)
    });
    often("time ends it", 80, &|sum| {
        sum.time > sum.interval && u32::from(sum.time) < sum.seconds
    });
    often("for ever", 10, &|sum| sum.time == FOREVER);
    often("an interval of 0", 10, &|sum| sum.interval == 0);
    often("many seconds", 10, &|sum| sum.seconds > MOST_FOR_EVER);
}

#[test]
fn shrinking_keeps_the_items_that_matter() {
    let wanted = [command(&[1]), command(&[2])];
    let mut items: Vec<Item> = vec![status(); 40];
    items[3] = wanted[0].clone();
    items[31] = wanted[1].clone();
    items[38] = fresh();
    let mut differs = |fewer: &[Item]| wanted.iter().all(|item| fewer.contains(item));
    assert_eq!(shrunk(&items, 35, &mut differs), wanted);
    // Where the guess about the last item is wrong, nothing is lost by it.
    assert_eq!(shrunk(&items, 5, &mut differs), wanted);
    assert_eq!(shrunk(&[second()], 0, &mut |_| true), [[0u8; 0]; 0]);
}

#[test]
fn codes_are_counted_wherever_a_line_shows_one() {
    let mut tally = Tally::default();
    tally.add("command 5 0 0 0 0\nrecord 021300000000000100000000\nrun 20 0 0\n");
    tally.add("read 0 0 0 0 0 24\ndecoded 11 0 0 0 0 9\n");
    tally.add("frame 0 24\nframe 22\npassed 7\nstatus 27\nsecond 0 0\n");
    tally.add("assembled 30 2 0 0 0 0\nlisted 33 1 0 0 0 0\ntyped 31 1 0 0 0 0 0 0\nline 6162\n");
    tally.add("housekeeping 24\ntags 47\ntags 0 1 2 50 9 21\nhousekeeping 0 32 49 48 50 12\n");
    tally.add("stored 20 0 0 0 0 0\nraw 34 1 0 0 0 0\nraw 38 35 36 37 32 54\nfound 36\n");
    tally.add("rescued 24 0 0\nrescued 0 35 37\nskipped 35 36\n");
    tally.add("valve 46 4000\nframe 41\nframe 0 1 arm 24\nframe 0 2 arm 0 44\n");
    tally.add("frame 0 3 fire 45 40\nframe 0 2 fire 43 0 42\nvalve 0 0042\n");
    tally.add("queued 53 0 0 0 0\nqueued 0 51 52 0 0\nturn 0 none\n");
    tally.add("turn 0 record 030f00000000003400000000\n");
    let missing = [
        1, 2, 3, 4, 6, 7, 8, 10, 12, 13, 14, 16, 17, 18, 23, 25, 26, 32, 35, 36, 37, 42, 43, 44,
        45, 48, 49, 50, 51, 52, 54,
    ];
    // 0 did not occur beside an entry.
    assert_eq!(tally.missing(), [&[0], &missing[..]].concat());
    tally.add("second 0 2\nhanded 0 tlm_flush\nhanded 26 img_image 1 1\n");
    assert_eq!(tally.missing(), missing);
    tally.add("command 26 0 0 0 0\n");
    let missing: Vec<u8> = missing.into_iter().filter(|code| *code != 26).collect();
    assert_eq!(tally.missing(), missing);
    let mut answers_only = Tally::default();
    answers_only.add("command 26 0 0 0 0\n");
    assert!(answers_only.missing().contains(&26));
    assert_eq!(grouped(1_234_567), "1,234,567");
}

#[test]
fn a_missing_line_is_a_difference() {
    let (line, expected, found) = first_difference("a\nb\n", "a\n").expect("they differ");
    assert_eq!((line, &expected[..], &found[..]), (2, "b", "(no line)"));
    assert!(first_difference("a\n", "a").is_some());
    assert!(first_difference("a\n", "a\n").is_none());
}
