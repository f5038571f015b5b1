//! The comparison's own tools for lists split over evenings: that the plans are what they
//! should be, that a wrong answer in any one place is noticed, and which evenings are sent.

use std::collections::{BTreeMap, BTreeSet};

use reference::bench::Bench;
use reference::comparison::agreement::{disagreement, Disagreement};
use reference::comparison::evenings::{look, rummage, Evenings, Sort};
use reference::comparison::fixed::batches;
use reference::comparison::items::{command, passed, run, second, Item};
use reference::comparison::rng::Rng;
use reference::comparison::{fixed_evenings, random_evenings};
use reference::replay::{transcript, Replay, Script, LONGEST_SCRIPT};
use reference::text::{commands_typed, raw_list};
use reference::wire::{bytes_of, sealed};

const ROOM: u16 = 12_288;

fn flush() -> Vec<u8> {
    bytes_of(&[0x015a_0002, 0x015a_0002])
}

/// A command with code 8, parameter 1 and the value 1024.
fn past() -> Vec<u8> {
    sealed(&[0x0117_0003, 0x0400_0000])
}

fn evenings(sort: Sort, parts: &[&[u8]]) -> Evenings {
    Evenings {
        sort,
        room: ROOM,
        before: vec![],
        parts: parts.iter().map(|part| part.to_vec()).collect(),
        behind: look(5),
    }
}

/// Four commands, then three; the macro is closed and started on the second evening.
fn raw_pair() -> Evenings {
    let list = |text: &str| raw_list(&commands_typed(text.as_bytes()).expect("no bad line"));
    let first = list("open 0\n+tlm_flush\n+wait 2\n+trk_alg 2\n");
    let second = [past(), list("close\nrun 0\n")].concat();
    evenings(Sort::Raw, &[&first, &second])
}

/// Lines 2 and 3 of four have commands, then 1, 3 and 4; joined they are 2, 3, 5, 7 and 8.
fn typed_pair() -> Evenings {
    evenings(
        Sort::Typed,
        &[b"#\nopen 0\n+tlm_flush\n\n", b"close\n\nrun 0\nrun 1"],
    )
}

/// One command, two, and one.
fn triple() -> Evenings {
    let both = [past(), flush()].concat();
    evenings(Sort::Raw, &[&flush(), &both, &past()])
}

/// The answers of the reference, line by line.
fn answers(evenings: &Evenings) -> Vec<String> {
    let text = transcript(&evenings.items().concat());
    text.lines().map(String::from).collect()
}

fn found_in(evenings: &Evenings, answers: &[String]) -> Option<Disagreement> {
    disagreement(evenings, &mut answers.join("\n").lines())
}

/// Demands that the answers are noticed once the line of this number, from 0, among those
/// that begin so is another one.
fn notice(evenings: &Evenings, start: &str, which: usize, other: impl Fn(&str) -> String) {
    let mut answers = answers(evenings);
    assert_eq!(found_in(evenings, &answers), None);
    let mut lines = answers.iter_mut().filter(|line| line.starts_with(start));
    let line = lines.nth(which).expect("there is such a line");
    let changed = other(line);
    assert_ne!(*line, changed);
    *line = changed;
    assert!(found_in(evenings, &answers).is_some(), "{answers:#?}");
}

/// The line with another digit at this place of its last word.
fn digit_changed(line: &str, place: usize) -> String {
    let from = line.rfind(' ').map_or(0, |blank| blank + 1) + place;
    let old = &line[from..from + 1];
    let new = if old == "0" { "1" } else { "0" };
    format!("{}{new}{}", &line[..from], &line[from + 1..])
}

#[test]
fn two_parts_have_two_plans_and_three_have_four() {
    let two = evenings(Sort::Raw, &[b"a", b"bc"]);
    assert_eq!(two.plans(), [vec![&b"a"[..], b"bc"], vec![b"abc"]]);
    let three = evenings(Sort::Raw, &[b"a", b"bc", b"d"]);
    let plans = [
        vec![&b"a"[..], b"bc", b"d"],
        vec![b"abc", b"d"],
        vec![b"a", b"bcd"],
        vec![b"abcd"],
    ];
    assert_eq!(three.plans(), plans);
}

#[test]
fn every_plan_is_sent_to_a_fresh_bench_with_the_same_before_and_behind() {
    let mut pair = evenings(Sort::Raw, &[&flush(), &past()]);
    pair.before = vec![passed(3)];
    pair.behind = vec![second()];
    let joined = [flush(), past()].concat();
    let (fresh, before, behind) = (vec![4], passed(3), second());
    let items = [
        fresh.clone(),
        before.clone(),
        run(ROOM, &[], &flush()),
        run(ROOM, &[], &past()),
        behind.clone(),
        fresh,
        before,
        run(ROOM, &[], &joined),
        behind,
    ];
    assert_eq!(pair.items(), items);
}

#[test]
fn the_reference_s_own_answers_agree() {
    for one in [raw_pair(), typed_pair(), triple()] {
        assert!(one.must_agree());
        assert_eq!(found_in(&one, &answers(&one)), None);
    }
}

#[test]
fn the_answers_to_many_are_taken_one_after_another() {
    let all = [raw_pair(), triple(), typed_pair(), raw_pair()];
    let mut lines: Vec<String> = all.iter().flat_map(answers).collect();
    lines.push("the next line".into());
    let text = lines.join("\n");
    let mut left = text.lines();
    assert!(all.iter().all(|one| disagreement(one, &mut left).is_none()));
    assert_eq!(left.next(), Some("the next line"));
}

/// The line of a record with another number.
fn numbered(number: u32) -> impl Fn(&str) -> String {
    move |line| format!("{}{number:08x}{}", &line[..15], &line[23..])
}

#[test]
fn a_number_that_is_not_raised_is_noticed() {
    // Seven records apart, and then seven joined.
    let pair = raw_pair();
    for (record, right) in (7..14).zip(1..) {
        for wrong in [right - 1, right + 1, right + 256] {
            notice(&pair, "record", record, numbered(wrong));
        }
    }
    for (record, own) in (4..7).zip(1..) {
        notice(&pair, "record", record, numbered(own + 4));
        notice(&pair, "record", record + 7, numbered(own));
    }
    let all = [1, 1, 2, 1, 1, 2, 3, 1, 1, 1, 2, 3, 1, 2, 3, 4];
    for (record, right) in all.into_iter().enumerate() {
        notice(&triple(), "record", record, numbered(right + 1));
        notice(&triple(), "record", record, numbered(right - 1));
    }
}

#[test]
fn a_typed_number_that_is_not_raised_by_the_lines_is_noticed() {
    let pair = typed_pair();
    let all = [2, 3, 1, 3, 4, 2, 3, 5, 7, 8];
    for (record, right) in all.into_iter().enumerate() {
        for wrong in [right - 1, right + 1] {
            notice(&pair, "record", record, numbered(wrong));
        }
    }
    // Raised by the commands instead of the lines.
    for (record, wrong) in [(7, 3), (8, 5), (9, 6)] {
        notice(&pair, "record", record, numbered(wrong));
    }
}

#[test]
fn another_byte_of_a_record_is_noticed() {
    for (one, records) in [(raw_pair(), 14), (typed_pair(), 10), (triple(), 16)] {
        for record in 0..records {
            for digit in 0..24 {
                notice(&one, "record", record, |line| digit_changed(line, digit));
            }
        }
    }
}

/// Demands that answers without this line, or with it twice, are noticed, whether the
/// count of its report is adapted to that or not.
fn notice_without_and_twice(evenings: &Evenings, record: usize) {
    let right = answers(evenings);
    let is_record = |line: &usize| right[*line].starts_with("record");
    let at = (0..right.len())
        .filter(is_record)
        .nth(record)
        .expect("it is there");
    let first = (0..at)
        .rfind(|line| !is_record(line))
        .expect("a report begins");
    let (head, count) = right[first].rsplit_once(' ').expect("a count");
    let count: usize = count.parse().expect("a number");
    for (lines, count) in [(vec![], count - 1), (vec![right[at].clone(); 2], count + 1)] {
        let mut wrong = right.clone();
        wrong.splice(at..=at, lines);
        assert!(found_in(evenings, &wrong).is_some(), "{wrong:#?}");
        wrong[first] = format!("{head} {count}");
        assert!(found_in(evenings, &wrong).is_some(), "{wrong:#?}");
    }
}

#[test]
fn a_record_that_is_missing_or_there_twice_is_noticed() {
    for (one, records) in [(raw_pair(), 14), (typed_pair(), 10), (triple(), 16)] {
        (0..records).for_each(|record| notice_without_and_twice(&one, record));
    }
}

#[test]
fn records_in_another_order_are_noticed() {
    for one in [raw_pair(), typed_pair(), triple()] {
        let right = answers(&one);
        for at in 1..right.len() {
            let mut wrong = right.clone();
            wrong.swap(at - 1, at);
            let records = [&right[at - 1], &right[at]]
                .iter()
                .all(|line| line.starts_with("record"));
            if records && wrong != right {
                assert!(found_in(&one, &wrong).is_some(), "{wrong:#?}");
            }
        }
    }
}

/// The first line of a report with other counts of the kit's and the pupil's records.
fn counted(line: &str, [kit, pupil]: [i32; 2]) -> String {
    let words: Vec<&str> = line.rsplitn(3, ' ').collect();
    let number = |word: &str| word.parse::<i32>().expect("a count");
    let (kit, pupil) = (number(words[1]) + kit, number(words[0]) + pupil);
    format!("{} {kit} {pupil}", words[2])
}

#[test]
fn counts_that_do_not_add_up_are_noticed() {
    let all = [
        (raw_pair(), "run", 3),
        (typed_pair(), "typed", 3),
        (triple(), "run", 8),
    ];
    for (one, name, reports) in all {
        for report in 0..reports {
            for more in [[0, 1], [0, -1], [1, 0], [1, -1]] {
                notice(&one, name, report, |line| counted(line, more));
            }
        }
    }
}

#[test]
fn another_code_of_a_run_is_noticed() {
    for report in 0..3 {
        notice(&raw_pair(), "run", report, |line| {
            line.replacen("run 0", "run 21", 1)
        });
        notice(&typed_pair(), "typed", report, |line| {
            line.replacen("typed 0", "typed 21", 1)
        });
    }
}

#[test]
fn a_rest_that_is_not_the_same_is_noticed() {
    for rest in 0..3 {
        notice(&raw_pair(), "rest", rest, |_| "rest 96".into());
        notice(&typed_pair(), "rest", rest, |_| "rest 60".into());
    }
    let mut everywhere = answers(&raw_pair());
    for line in everywhere
        .iter_mut()
        .filter(|line| line.starts_with("rest"))
    {
        *line = "rest 12287".into();
    }
    assert!(found_in(&raw_pair(), &everywhere).is_some());
}

#[test]
fn another_byte_of_a_status_frame_is_noticed() {
    for one in [raw_pair(), typed_pair()] {
        for frame in 0..4 {
            for digit in 0..64 {
                notice(&one, "status", frame, |line| digit_changed(line, digit));
            }
        }
        notice(&one, "status", 0, |_| "status 27".into());
    }
    for frame in 0..8 {
        notice(&triple(), "status", frame, |line| digit_changed(line, 51));
    }
}

#[test]
fn another_number_of_free_entries_is_noticed() {
    for plan in 0..2 {
        notice(&raw_pair(), "housekeeping", plan, |line| {
            line.replace(" 189 ", " 190 ")
        });
        notice(&raw_pair(), "housekeeping", plan, |line| {
            line.replace("1501bd", "1501be")
        });
        notice(&raw_pair(), "housekeeping", plan, |_| {
            "housekeeping 24".into()
        });
    }
}

#[test]
fn the_numbers_of_the_latest_run_are_not_compared() {
    let right = answers(&raw_pair());
    let told = right.iter().filter(|line| line.starts_with("housekeeping"));
    let apart = "housekeeping 0 3 1 8 189 1204000000031304000000011401081501bd";
    let joined = "housekeeping 0 7 5 8 189 1204000000071304000000051401081501bd";
    assert_eq!(told.collect::<Vec<_>>(), [apart, joined]);
    assert_eq!(found_in(&raw_pair(), &right), None);
}

#[test]
fn other_seconds_behind_the_evenings_are_noticed() {
    for plan in 0..2 {
        notice(&raw_pair(), "second", plan, |_| "second 0 0".into());
        notice(&raw_pair(), "handed", plan, |_| {
            "handed 26 tlm_flush".into()
        });
        notice(&raw_pair(), "passed", plan, |_| "passed 2".into());
    }
}

#[test]
fn answers_that_end_early_are_noticed() {
    for one in [raw_pair(), typed_pair(), triple()] {
        let right = answers(&one);
        for length in 0..right.len() {
            assert!(found_in(&one, &right[..length]).is_some(), "{length}");
        }
    }
    for odd in [
        "",
        "run",
        "run 0",
        "typed 0 0",
        "run 0 99999999999999999999 0",
        "\u{e9}",
    ] {
        notice(&raw_pair(), "run", 0, |_| odd.into());
        notice(&raw_pair(), "record", 7, |_| odd.into());
    }
}

/// Texts of which the second or the first has a bad line.
fn bad_lines() -> [Evenings; 3] {
    [
        evenings(Sort::Typed, &[b"stop\n#\n", b"close\nimg_region 0 1024\n"]),
        evenings(Sort::Typed, &[b"stop\nimg_region 0 1024\n", b"close\n"]),
        evenings(Sort::Typed, &[b"stop\nrun\n", b"stops\n"]),
    ]
}

#[test]
fn another_bad_line_is_noticed() {
    for (one, apart) in bad_lines().iter().zip([1, 0, 0]) {
        assert_eq!(found_in(one, &answers(one)), None);
        for report in [apart, 2] {
            for word in 1..9 {
                notice(one, "typed", report, |line| {
                    let mut words: Vec<String> = line.split(' ').map(String::from).collect();
                    words[word] = format!("1{}", words[word]);
                    words.join(" ")
                });
            }
            notice(one, "typed", report, |_| "typed 0 0 0 0 0 0 0 0".into());
        }
    }
    let [second, ..] = bad_lines();
    let joined = answers(&second)
        .iter()
        .rfind(|line| line.starts_with("typed"))
        .cloned();
    assert_eq!(joined.as_deref(), Some("typed 8 4 2 1024 0 1023 0 0"));
}

#[test]
fn texts_that_are_too_long_together_need_not_agree() {
    let flushes = |lines: usize| b"tlm_flush\n".repeat(lines);
    let long = evenings(Sort::Typed, &[&flushes(300), &flushes(213)]);
    assert_eq!(found_in(&long, &answers(&long)), None);
    let too_long = "typed 20 0 0 0 0 0 0 0".to_string();
    assert!(answers(&long).contains(&too_long));
    // Two lines cannot be too long, so for them it is a wrong answer.
    let short = evenings(Sort::Typed, &[b"#\n", b"#\n"]);
    notice(&short, "typed", 2, |_| too_long.clone());
    let fitting = evenings(Sort::Typed, &[&flushes(300), &flushes(212)]);
    notice(&fitting, "record", 512 + 300, numbered(1));
}

#[test]
fn raw_lists_are_not_too_long_for_bytes_that_look_like_line_feeds() {
    let feeds = sealed(&[0x0153_0004, 0x0a0a_0a0a, 0x0a0a_0a0a]).repeat(64);
    let pair = evenings(Sort::Raw, &[&feeds, &feeds]);
    let mut answers = answers(&pair);
    assert_eq!(found_in(&pair, &answers), None);
    let report = answers.iter().rposition(|line| line.starts_with("run"));
    let report = report.expect("the joined list was run");
    answers.splice(report..=report + 128, ["run 20 0 0".into()]);
    assert!(found_in(&pair, &answers).is_some());
}

#[test]
fn only_parts_that_end_between_commands_or_lines_must_agree() {
    let must = |sort, parts: &[&[u8]]| evenings(sort, parts).must_agree();
    let half = &flush()[..4];
    assert!(must(Sort::Raw, &[&flush(), half]));
    assert!(!must(Sort::Raw, &[half, half]));
    assert!(!must(Sort::Raw, &[&flush(), half, half]));
    assert!(!must(Sort::Raw, &[&[0; 8], &flush()]));
    assert!(must(Sort::Raw, &[&flush().repeat(511), &flush()]));
    assert!(!must(Sort::Raw, &[&flush().repeat(512), &[0]]));
    assert!(must(Sort::Typed, &[b"", b"stop\n", b"stop"]));
    assert!(!must(Sort::Typed, &[b"stop", b"\n"]));
    let cut_off = evenings(Sort::Raw, &[half, half]);
    assert_eq!(found_in(&cut_off, &answers(&cut_off)), None);
}

#[test]
fn the_smallest_keeps_what_matters_in_its_place() {
    let wanted = [command(&flush())];
    let noise = vec![passed(1); 5];
    let mut large = evenings(Sort::Raw, &[&flush().repeat(9), &flush().repeat(7)]);
    large.before = [&noise[..], &wanted].concat();
    large.behind = [&wanted[..], &noise].concat();
    large.parts[1].extend(past());
    let mut differs = |fewer: &Evenings| {
        let parts = !fewer.parts[0].is_empty() && fewer.parts[1].ends_with(&past());
        parts && fewer.before.contains(&wanted[0]) && fewer.behind.contains(&wanted[0])
    };
    let smallest = large.smallest(&mut differs);
    assert_eq!(smallest.before, wanted);
    assert_eq!(smallest.behind, wanted);
    assert_eq!(smallest.parts, [flush(), past()]);
    let typed = evenings(Sort::Typed, &[b"#\nstop\n", b"stop\nclose"]);
    let smallest = typed.smallest(&mut |fewer| fewer.parts[1].ends_with(b"close"));
    assert_eq!(smallest.parts, [&b""[..], b"close"]);
}

fn random(count: u64, parts: usize) -> Vec<Evenings> {
    let each = (0..count).map(|index| random_evenings::evenings(Rng::stream(7, index), parts));
    each.collect()
}

#[test]
fn batches_are_whole_scripts_and_lose_nothing() {
    let mut all = fixed_evenings::evenings();
    all.extend(random(100, 2));
    all.extend(random(50, 3));
    let batches = batches(all.clone(), Evenings::script_bytes);
    assert_eq!(batches.concat(), all);
    for batch in &batches {
        let script: Vec<Item> = batch.iter().flat_map(Evenings::items).collect();
        let script = script.concat();
        assert!(script.len() <= LONGEST_SCRIPT);
        let text = transcript(&script);
        assert!(!text.contains("bad script"));
        let mut lines = text.lines();
        assert!(batch
            .iter()
            .all(|one| disagreement(one, &mut lines).is_none()));
        assert_eq!(lines.next(), None);
    }
}

#[test]
fn random_evenings_are_bound_to_agree_and_the_same_again() {
    for one in random(300, 2).iter().chain(&random(150, 3)) {
        assert!(one.must_agree());
    }
    assert_eq!(random(20, 2), random(20, 2));
    assert!(random(300, 2).iter().all(|one| one.parts.len() == 2));
    assert!(random(300, 3).iter().all(|one| one.parts.len() == 3));
}

/// What random evenings are like, and how often.
#[derive(Default)]
struct Seen {
    sorts: BTreeMap<&'static str, usize>,
    /// Codes of records of the first evening, and of the last one.
    first: BTreeSet<u8>,
    last: BTreeSet<u8>,
}

impl Seen {
    fn note(&mut self, sort: &'static str, holds: bool) {
        *self.sorts.entry(sort).or_default() += usize::from(holds);
    }

    fn watch(&mut self, evenings: &Evenings) {
        let mut replay = Replay::default();
        let mut reports = Vec::new();
        self.note("typed", evenings.sort == Sort::Typed);
        self.note("long", evenings.bytes() > 1000);
        self.note("first empty", evenings.parts[0].is_empty());
        for item in evenings.episode(&evenings.parts) {
            let is_run = item[0] == 3 || item[0] == 12;
            reports.extend(replay.item(&mut Script::new(&item)).filter(|_| is_run));
            if is_run {
                self.seam(&replay.bench);
            }
        }
        let reports = reports.split_off(reports.len() - evenings.parts.len());
        self.first.extend(codes(&reports[0]));
        self.last.extend(codes(&reports[1]));
        let words = reports.iter().flat_map(|report| report.split(' ').nth(1));
        let words: Vec<&str> = words.collect();
        self.note("room too small", words.contains(&"21"));
        self.note("first accepted", words[0] == "0");
        self.note("bad line in the first", words[0] != "0" && words[0] != "21");
        self.note("bad line in the last", words[0] == "0" && words[1] != "0");
    }

    /// What the bench is like as a run ends.
    fn seam(&mut self, bench: &Bench) {
        self.note("a macro open", bench.macros.open_entries() > 0);
        self.note("a macro running", bench.running.is_some());
        self.note("a series under way", bench.image.time > 0);
        self.note("entries in use", bench.macros.free_entries() < 192);
    }
}

/// The codes of a report's records.
fn codes(report: &str) -> Vec<u8> {
    let records = report
        .lines()
        .filter_map(|line| line.strip_prefix("record "));
    let codes = records.map(|digits| u8::from_str_radix(&digits[2..4], 16));
    codes.map(|code| code.expect("a code in hex")).collect()
}

#[test]
fn random_evenings_are_of_every_sort() {
    let mut seen = Seen::default();
    for evenings in random(400, 2) {
        seen.watch(&evenings);
    }
    for (sort, times) in &seen.sorts {
        assert!(*times >= 10, "{sort} {times}");
    }
    assert_eq!(seen.sorts.len(), 11);
    for code in 1..=3 {
        assert!(!seen.first.contains(&code) && seen.last.contains(&code));
    }
    assert!(seen.first.len() > 14, "{:?}", seen.first);
    assert!(seen.last.len() > 17, "{:?}", seen.last);
}

#[test]
fn rummaging_shows_what_is_in_the_macros() {
    let list = |entry: &str| {
        let text = format!("open 3\n+{entry}\nclose\n");
        raw_list(&commands_typed(text.as_bytes()).expect("no bad line"))
    };
    let shown = |entry: &str, behind: Vec<Item>| {
        let items = [vec![run(ROOM, &[], &list(entry))], behind].concat();
        transcript(&items.concat())
    };
    let (one, other) = ("trk_alg 1", "trk_alg 2");
    assert_eq!(shown(one, look(3)), shown(other, look(3)));
    assert_ne!(shown(one, rummage(3)), shown(other, rummage(3)));
}
