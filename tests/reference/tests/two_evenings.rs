//! Two evenings or one: lists that are run one after another, without a second between
//! them, against the same lists joined: state, counts, every byte of the reports, and what
//! the bench does later. And that a list which ends within a command or a line is not so.

use reference::bench::{Bench, Latest};
use reference::codes::Placed;
use reference::comparison::damage::random_list;
use reference::comparison::evenings::{Evenings, Sort};
use reference::comparison::rng::Rng;
use reference::comparison::{fixed_evenings, random_evenings};
use reference::replay::{Replay, Script};
use reference::run::{commands_of, rests, run_lists};
use reference::text::{commands_typed, raw_list};
use reference::typed::run_typed;
use reference::wire::{bytes_of, sealed};

const FILL: u8 = 0xaa;
const ENOUGH: usize = 12_288;
const RECORD: usize = 12;

/// What the run of one evening gave.
struct Evening {
    refusal: Option<Placed>,
    count: usize,
    room: Vec<u8>,
}

impl Evening {
    fn codes(&self) -> Vec<u8> {
        let records = self.room[..RECORD * self.count].chunks(RECORD);
        records.map(|record| record[1]).collect()
    }
}

/// Runs a list, with an empty one of the kit's, into a room of its own.
fn run(bench: &mut Bench, sort: Sort, list: &[u8], room: usize) -> Evening {
    let mut room = vec![FILL; room];
    let answer = match sort {
        Sort::Raw => run_lists(bench, &[], list, &mut room).map_err(Placed::from),
        Sort::Typed => run_typed(bench, &[], list, &mut room),
    };
    let counts = answer.unwrap_or_default();
    assert_eq!(counts.kit, 0);
    Evening {
        refusal: answer.err(),
        count: counts.pupil,
        room,
    }
}

fn run_all(bench: &mut Bench, sort: Sort, lists: &[Vec<u8>], room: usize) -> Vec<Evening> {
    let each = lists.iter().map(|list| run(bench, sort, list, room));
    each.collect()
}

/// How many numbers a list takes: one for each command, or one for each line.
fn numbers(sort: Sort, list: &[u8]) -> u32 {
    let count = match sort {
        Sort::Raw => commands_of(list).len(),
        Sort::Typed => list.iter().filter(|byte| **byte == b'\n').count(),
    };
    count as u32
}

/// The evenings' reports in one room, with every number raised by those of the lists before.
fn joined_reports(sort: Sort, lists: &[Vec<u8>], evenings: &[Evening]) -> Vec<u8> {
    let mut all = Vec::new();
    let mut raise = 0;
    for (list, evening) in lists.iter().zip(evenings) {
        let (records, rest) = evening.room.split_at(RECORD * evening.count);
        assert!(rest.iter().all(|byte| *byte == FILL));
        for record in records.chunks(RECORD) {
            let number = [record[4], record[5], record[6], record[7]];
            let raised = u32::from_be_bytes(number) + raise;
            all.extend([&record[..4], &raised.to_be_bytes(), &record[8..]].concat());
        }
        raise += numbers(sort, list);
    }
    all.resize(evenings[0].room.len(), FILL);
    all
}

/// Everything but the numbers of the latest run.
fn compared(bench: &Bench) -> Bench {
    Bench {
        latest: Latest::default(),
        ..bench.clone()
    }
}

/// The ways to run two or three lists, but for all of them joined.
fn groupings(parts: &[Vec<u8>]) -> Vec<Vec<Vec<u8>>> {
    let mut all = vec![parts.to_vec()];
    if let [first, second, third] = parts {
        all.push(vec![[&first[..], second].concat(), third.clone()]);
        all.push(vec![first.clone(), [&second[..], third].concat()]);
    }
    all
}

/// Demands that lists in every grouping give and leave what they do joined; the answer is
/// what the joined list gave.
fn agree(start: &Bench, sort: Sort, parts: &[Vec<u8>], room: usize) -> Evening {
    let mut joined_bench = start.clone();
    let joined = run(&mut joined_bench, sort, &parts.concat(), room);
    for lists in groupings(parts) {
        let mut bench = start.clone();
        let evenings = run_all(&mut bench, sort, &lists, room);
        match joined.refusal {
            Some(refused) if refused.place > 0 => refused_alike(&lists, &evenings, refused),
            Some(refused) if sort == Sort::Typed && refused.refusal.code == 20 => {}
            refusal => {
                assert!(evenings.iter().all(|evening| evening.refusal == refusal));
                let count: usize = evenings.iter().map(|evening| evening.count).sum();
                assert_eq!(count, joined.count);
                assert_eq!(joined_reports(sort, &lists, &evenings), joined.room);
                assert_eq!(compared(&bench), compared(&joined_bench));
            }
        }
    }
    joined
}

/// Demands that the evening which has the bad line of the joined text names it.
fn refused_alike(texts: &[Vec<u8>], evenings: &[Evening], joined: Placed) {
    let mut line = joined.place;
    for (text, evening) in texts.iter().zip(evenings) {
        let within_a_line = text.last().is_some_and(|byte| *byte != b'\n');
        let own = numbers(Sort::Typed, text) + u32::from(within_a_line);
        if line <= own {
            assert_eq!(evening.refusal, Some(joined.refusal.at(line)));
            assert!(evening.room.iter().all(|byte| *byte == FILL));
            return;
        }
        assert!(evening.refusal.is_none_or(|other| other.place == 0));
        line -= own;
    }
    panic!("no text has line {}", joined.place);
}

fn agree_raw(start: &Bench, parts: &[Vec<u8>]) -> Evening {
    assert!(parts.concat().len() <= 4096);
    assert!(parts[..parts.len() - 1].iter().all(|list| rests(list)));
    agree(start, Sort::Raw, parts, ENOUGH)
}

fn agree_typed(start: &Bench, parts: &[&str]) -> Evening {
    let parts: Vec<Vec<u8>> = parts.iter().map(|text| text.as_bytes().to_vec()).collect();
    agree(start, Sort::Typed, &parts, ENOUGH)
}

/// The raw list of a text.
fn list(text: &str) -> Vec<u8> {
    raw_list(&commands_typed(text.as_bytes()).expect("no line of it is bad"))
}

fn flush() -> Vec<u8> {
    bytes_of(&[0x015a_0002, 0x015a_0002])
}

/// A bench behind these lines.
fn after(text: &str) -> Bench {
    let mut bench = Bench::default();
    run(&mut bench, Sort::Raw, &list(text), ENOUGH);
    bench
}

/// A bench with a macro that runs, one that is open, and both series under way.
fn busy_bench() -> Bench {
    let mut bench = after(
        "img_pwr 1\nimg_image 65535 3\nimg_track 40 7\nopen 0\n+tlm_flush\n+wait 3\n\
         +img_region 7 8\n+wait 30\n+trk_alg 1\nclose\nrun 0\nopen 4\n+trk_loop 1\n",
    );
    for _ in 0..2 {
        bench.second();
    }
    bench
}

/// The list cut before each of these commands, counted from 0.
fn cut(list: &[u8], places: &[usize]) -> Vec<Vec<u8>> {
    let commands = commands_of(list);
    let mut parts = Vec::new();
    let mut from = 0;
    for to in places.iter().copied().chain([commands.len()]) {
        parts.push(commands[from..to].concat());
        from = to;
    }
    parts
}

#[test]
fn records_are_those_of_the_first_list_and_then_those_of_the_second_with_raised_numbers() {
    let first = [flush(), sealed(&[0x0117_0003, 0x0400_0000])].concat();
    let second = [sealed(&[0x0117_0003, 0x0000_0401]), flush(), vec![1, 2, 3]].concat();
    let joined = agree_raw(&Bench::default(), &[first, second]);
    let records = [
        [2, 0, 0, 0, 0, 0, 0, 1, 0, 0, 0, 0],
        [2, 8, 1, 0, 0, 0, 0, 2, 0, 0, 4, 0],
        [2, 8, 2, 0, 0, 0, 0, 3, 0, 0, 4, 1],
        [2, 0, 0, 0, 0, 0, 0, 4, 0, 0, 0, 0],
        [2, 1, 0, 0, 0, 0, 0, 5, 0, 0, 0, 0],
    ];
    assert_eq!(joined.count, 5);
    assert_eq!(joined.room[..60], records.concat());
    assert!(joined.room[60..].iter().all(|byte| *byte == FILL));
}

#[test]
fn an_empty_list_is_no_evening() {
    let some = list("img_pwr 1\nclose\nimg_image 5 2\n");
    for start in [Bench::default(), busy_bench()] {
        assert_eq!(agree_raw(&start, &[vec![], vec![]]).count, 0);
        assert_eq!(agree_raw(&start, &[some.clone(), vec![]]).count, 3);
        assert_eq!(agree_raw(&start, &[vec![], some.clone()]).count, 3);
        assert_eq!(agree_raw(&start, &[vec![], some.clone(), vec![]]).count, 3);
        assert_eq!(agree_raw(&start, &[vec![], vec![], vec![]]).count, 0);
        for texts in [["", ""], ["\n", ""], ["", "\n"], ["#\n\n", "#"]] {
            assert_eq!(agree_typed(&start, &texts).count, 0);
        }
        assert_eq!(agree_typed(&start, &["", "stop"]).count, 1);
        assert_eq!(agree_typed(&start, &["stop\n", ""]).count, 1);
    }
}

/// Lists whose last command has the code, 4 to 19, then 25 and 26, on a fresh bench.
fn lists_of_codes() -> Vec<(u8, Vec<u8>)> {
    let words: [(u8, &[u32]); 6] = [
        (5, &[0x0222_0002]),
        (6, &[0x015a_0003, 0]),
        (7, &[0x0114_0003, 0x0100_0001]),
        (8, &[0x0117_0003, 0x0400_0000]),
        (9, &[0x7f05_8002]),
        (10, &[0x7f04_0003, 0x0001_0000]),
    ];
    let (all, full) = ("+tlm_flush\n".repeat(193), "+tlm_flush\n".repeat(65));
    let texts = [
        (11, "close".into()),
        (12, "open 1\nopen 2".into()),
        (13, "open 1\n+wait 1\nclose\nopen 1".into()),
        (14, "open 1\nclose".into()),
        (15, "open 1\n+wait 600\n+wait 1\nclose".into()),
        (16, format!("open 1\n{all}")),
        (17, "open 1\n+run 1".into()),
        (18, "run 3".into()),
        (19, "open 1\n+wait 9\nclose\nrun 1\nrun 1".into()),
        (25, format!("open 1\n{full}close")),
        (26, "img_image 5 1".into()),
    ];
    let mut lists = vec![(4, bytes_of(&[0x015a_0002, 0x015a_0003]))];
    lists.extend(words.map(|(code, words)| (code, sealed(words))));
    lists.extend(texts.map(|(code, text)| (code, list(&text))));
    lists
}

#[test]
fn every_code_but_1_2_and_3_may_end_the_first_list() {
    let second = list("tlm_flush\nopen 3\n+wait 1\nclose\nrun 3\nstop\nrun 1\n");
    let lists = lists_of_codes();
    assert_eq!(lists.len(), 18);
    for (code, first) in lists {
        let alone = run(&mut Bench::default(), Sort::Raw, &first, ENOUGH);
        assert_eq!(alone.codes().last(), Some(&code));
        agree_raw(&Bench::default(), &[first.clone(), second.clone()]);
        agree_raw(&Bench::default(), &[second.clone(), first.clone()]);
        agree_raw(&busy_bench(), &[first.clone(), second.clone(), first]);
    }
}

/// Codes of the lists run apart, then of the list that they are joined, with the benches.
fn codes_apart_and_joined(lists: [Vec<u8>; 2]) -> (Vec<Vec<u8>>, Bench, Vec<u8>, Bench) {
    let (mut apart, mut joined) = (Bench::default(), Bench::default());
    let evenings = run_all(&mut apart, Sort::Raw, &lists, ENOUGH);
    let codes = evenings.iter().map(Evening::codes).collect();
    let one = run(&mut joined, Sort::Raw, &lists.concat(), ENOUGH);
    (codes, apart, one.codes(), joined)
}

#[test]
fn code_1_in_the_first_list_makes_a_difference() {
    let half = bytes_of(&[0x015a_0002]);
    assert!(!rests(&half));
    let (codes, apart, joined_codes, joined) = codes_apart_and_joined([half.clone(), half]);
    assert_eq!(codes, [[1], [1]]);
    assert_eq!(joined_codes, [0]);
    assert_eq!((apart.flushes, joined.flushes), (0, 1));
}

#[test]
fn code_2_in_the_first_list_makes_a_difference() {
    let zeros = bytes_of(&[0, 0]);
    assert!(!rests(&zeros));
    let (codes, apart, joined_codes, joined) = codes_apart_and_joined([zeros, flush()]);
    assert_eq!(codes, [[2], [0]]);
    assert_eq!(joined_codes, [2]);
    assert_eq!((apart.flushes, joined.flushes), (1, 0));
}

#[test]
fn code_3_in_the_first_list_makes_a_difference() {
    let begun = bytes_of(&[0x0114_0003, 0x0100_0000]);
    assert!(!rests(&begun));
    let end = bytes_of(&[0x0014_0003]);
    let (codes, apart, joined_codes, joined) = codes_apart_and_joined([begun.clone(), end]);
    assert_eq!(codes, [[3], [1]]);
    assert_eq!(joined_codes, [0]);
    assert_eq!((apart.power, joined.power), (false, true));
    let (codes, apart, joined_codes, joined) = codes_apart_and_joined([begun, flush()]);
    assert_eq!(codes, [vec![3], vec![0]]);
    assert_eq!(joined_codes, [4, 1]);
    assert_eq!((apart.flushes, joined.flushes), (1, 0));
}

#[test]
fn codes_1_2_and_3_may_end_the_last_list() {
    let ends = [vec![9], bytes_of(&[0, 0]), bytes_of(&[0x0114_0003, 0])];
    for (code, end) in (1..).zip(ends) {
        let last = [flush(), end.clone()].concat();
        let joined = agree_raw(&busy_bench(), &[flush(), last.clone()]);
        assert_eq!(joined.codes(), [0, 0, code]);
        agree_raw(&Bench::default(), &[flush(), flush(), last]);
        agree_raw(&Bench::default(), &[vec![], end]);
    }
}

#[test]
fn a_list_rests_where_no_record_has_1_2_or_3() {
    let mut rng = Rng::new(12);
    let mut resting = 0;
    for _ in 0..3000 {
        let commands = rng.below(12);
        let damage = rng.pick(&[0, 5, 30]);
        let list = random_list(&mut rng, commands, damage, 4096);
        let codes = run(&mut Bench::default(), Sort::Raw, &list, ENOUGH).codes();
        let whole = !codes.iter().any(|code| (1..=3).contains(code));
        assert_eq!(rests(&list), whole, "{list:?}");
        resting += usize::from(whole);
    }
    assert!((500..2500).contains(&resting), "{resting}");
}

/// A list in which nearly every command hangs on one before it.
const HANGING: &str = "img_pwr 1\nopen 1\n+tlm_flush\n+wait 2\n+img_image 9 2\nclose\nrun 1\n\
    run 1\nopen 2\n+run 1\nclose\nclear\nstop\nrun 2\nimg_pwr 0\nimg_track 9 1\nstop\nclear\n\
    +tlm_flush\nrun 2\n";

#[test]
fn a_list_may_be_cut_at_every_command() {
    let hanging = list(HANGING);
    let count = commands_of(&hanging).len();
    for start in [Bench::default(), busy_bench(), after("open 3\n+wait 1\n")] {
        for last in 0..=count {
            agree_raw(&start, &cut(&hanging, &[last]));
            for first in 0..=last {
                agree_raw(&start, &cut(&hanging, &[first, last]));
            }
        }
    }
}

#[test]
fn a_list_of_512_commands_may_be_cut_anywhere() {
    let pattern = [
        flush(),
        bytes_of(&[0x015a_0002, 0]),
        sealed(&[0x7f05_8002]),
        flush(),
    ];
    let whole = pattern.concat().repeat(128);
    assert_eq!((whole.len(), commands_of(&whole).len()), (4096, 512));
    for place in [0, 1, 2, 128, 255, 256, 257, 400, 510, 511, 512] {
        let joined = agree_raw(&Bench::default(), &cut(&whole, &[place]));
        assert_eq!(joined.count, 512);
        assert_eq!(
            joined.room[6120..6132],
            [2, 9, 0, 0, 0, 0, 1, 255, 0, 0, 0, 0]
        );
    }
    for places in [[0, 512], [1, 511], [170, 340], [256, 256]] {
        agree_raw(&Bench::default(), &cut(&whole, &places));
    }
}

#[test]
fn lists_of_more_than_4096_bytes_together_are_refused_joined_only() {
    let lists = [
        flush().repeat(256),
        [flush().repeat(255), vec![0; 9]].concat(),
    ];
    let evenings = run_all(&mut Bench::default(), Sort::Raw, &lists, ENOUGH);
    assert!(evenings.iter().all(|evening| evening.refusal.is_none()));
    let joined = run(&mut Bench::default(), Sort::Raw, &lists.concat(), ENOUGH);
    assert_eq!(joined.refusal.map(|refused| refused.refusal.code), Some(20));
    let fitting = [
        flush().repeat(256),
        [flush().repeat(255), vec![0; 8]].concat(),
    ];
    assert_eq!(
        agree_raw(&Bench::default(), &fitting).codes().last(),
        Some(&2)
    );
}

#[test]
fn the_second_list_finds_the_macros_as_the_first_left_them() {
    let opened = list("open 2\n+tlm_flush\n+wait 2\n");
    let closing = list("close\nrun 2\nrun 2\n");
    let joined = agree_raw(&Bench::default(), &[opened.clone(), closing.clone()]);
    assert_eq!(joined.codes(), [0, 0, 0, 0, 0, 19]);
    let alone = agree_raw(&Bench::default(), &[vec![], closing.clone()]);
    assert_eq!(alone.codes(), [11, 18, 18]);
    let stored = [opened, list("close\n")].concat();
    let starting = list("run 2\nopen 2\nclear\n");
    let joined = agree_raw(&Bench::default(), &[stored, starting]);
    assert_eq!(joined.codes(), [0, 0, 0, 0, 0, 13, 19]);
}

#[test]
fn the_second_list_takes_the_last_entries() {
    let appends = "+tlm_flush\n+wait 1\n".repeat(97);
    let whole = list(&format!("open 7\n{appends}close\nrun 7\n"));
    for place in [0, 1, 96, 192, 193, 194, 195, 196, 197] {
        let joined = agree_raw(&Bench::default(), &cut(&whole, &[place]));
        let codes = joined.codes();
        assert_eq!(codes[..193], [0; 193]);
        assert_eq!(codes[193..], [16, 16, 0, 0]);
    }
}

#[test]
fn a_macro_runs_on_over_both_lists() {
    let start = busy_bench();
    let left = start.seconds_left();
    assert_eq!(left, 32);
    let lists = [
        list("run 0\nimg_image 3 1\n"),
        list("clear\n+wait 2\nrun 0\n"),
    ];
    let joined = agree_raw(&start, &lists);
    assert_eq!(joined.codes(), [19, 0, 19, 0, 19]);
    let mut bench = start.clone();
    run_all(&mut bench, Sort::Raw, &lists, ENOUGH);
    assert_eq!(bench.seconds_left(), left);
    let stopping = [list("stop\nrun 0\n"), list("run 0\nstop\nclear\n")];
    assert_eq!(agree_raw(&start, &stopping).codes(), [0, 0, 19, 0, 0]);
}

#[test]
fn rooms_of_the_same_length_suffice_or_do_not_on_every_evening() {
    let lists = [
        list("img_pwr 1\nopen 1\n"),
        list("+wait 1\nclose\nrun 1\n"),
        flush(),
    ];
    let texts = ["img_pwr 1\n\n", "open 1\n+wait 1\n#\n", "close"].map(|text| text.into());
    for (room, code) in [
        (0, Some(21)),
        (12_287, Some(21)),
        (12_288, None),
        (13_000, None),
    ] {
        for start in [Bench::default(), busy_bench()] {
            for (sort, parts) in [(Sort::Raw, &lists), (Sort::Typed, &texts)] {
                for parts in [&parts[..2], &parts[..]] {
                    let joined = agree(&start, sort, parts, room);
                    assert_eq!(joined.refusal.map(|refused| refused.refusal.code), code);
                    assert_eq!(joined.count == 0, code.is_some());
                }
            }
        }
    }
}

#[test]
fn the_numbers_of_the_latest_run_are_those_of_the_last_evening() {
    let lists = [
        list("close\ntlm_flush\n"),
        list("tlm_flush\nrun 1\ntlm_flush\n"),
    ];
    let (mut apart, mut joined) = (Bench::default(), Bench::default());
    run_all(&mut apart, Sort::Raw, &lists, ENOUGH);
    run(&mut joined, Sort::Raw, &lists.concat(), ENOUGH);
    let numbers = |received, failed| Latest {
        received,
        failed,
        failed_code: 18,
    };
    assert_eq!(apart.latest, numbers(3, 2));
    assert_eq!(joined.latest, numbers(5, 4));
    assert_eq!(compared(&apart), compared(&joined));
}

#[test]
fn a_typed_list_s_numbers_rise_by_the_lines_of_the_first_text() {
    let joined = agree_typed(
        &Bench::default(),
        &["# first\n\nstop\n\n", "\nclose\n#\nstop"],
    );
    let records = [
        [2, 0, 0, 0, 0, 0, 0, 3, 0, 0, 0, 0],
        [2, 11, 0, 0, 0, 0, 0, 6, 0, 0, 0, 0],
        [2, 0, 0, 0, 0, 0, 0, 8, 0, 0, 0, 0],
    ];
    assert_eq!(joined.room[..36], records.concat());
    let far = "\n".repeat(10_000);
    let joined = agree_typed(&Bench::default(), &[&far, &far, "stop"]);
    assert_eq!(joined.room[4..8], [0, 0, 0x4e, 0x21]);
}

#[test]
fn a_text_may_be_cut_behind_every_line() {
    let text = format!(
        "# remark\n\n{}\n\n#\n",
        HANGING.replace("close\n", "close\n\n# closed\n")
    );
    let lines: Vec<&str> = text.split_inclusive('\n').collect();
    for start in [Bench::default(), busy_bench()] {
        for last in 0..=lines.len() {
            let joined = agree_typed(&start, &[&lines[..last].concat(), &lines[last..].concat()]);
            assert_eq!(joined.count, 20);
            let (first, second) = lines[..last].split_at(last / 2);
            let parts = [first.concat(), second.concat(), lines[last..].concat()];
            agree_typed(&start, &parts.each_ref().map(|part| &part[..]));
        }
    }
}

/// Which line the joined texts are refused for, with which code.
fn refused(start: &Bench, parts: &[&str]) -> (u32, u8) {
    let refusal = agree_typed(start, parts)
        .refusal
        .expect("it has a bad line");
    (refusal.place, refusal.refusal.code)
}

#[test]
fn a_bad_line_is_named_by_the_evening_that_has_it() {
    let bench = &busy_bench();
    assert_eq!(refused(bench, &["stop\nstops\n", "close\n"]), (2, 30));
    assert_eq!(
        refused(bench, &["stop\n\n#\n", "close\n\nstops\n"]),
        (6, 30)
    );
    assert_eq!(refused(bench, &["stop\n", "run\n"]), (2, 32));
    assert_eq!(refused(bench, &["run x\n", "run\n"]), (1, 31));
    assert_eq!(refused(bench, &["\n", "img_region 0 1024"]), (2, 8));
    assert_eq!(refused(bench, &["+stop\n", ""]), (1, 9));
    assert_eq!(refused(bench, &["", "#\nwait 1"]), (2, 10));
    assert_eq!(
        refused(bench, &["stop\n", "stop\nstops\n", "run\n"]),
        (3, 30)
    );
    assert_eq!(refused(bench, &["stop\n", "stop\n", "#\nrun 8\n"]), (4, 8));
}

#[test]
fn a_bad_line_comes_before_a_small_room_on_every_evening() {
    for parts in [["stop\nstops\n", "stop\n"], ["stop\n", "#\nstops\n"]] {
        let parts = parts.map(|text| text.as_bytes().to_vec());
        let joined = agree(&Bench::default(), Sort::Typed, &parts, ENOUGH - 1);
        assert_eq!(joined.refusal.map(|refused| refused.refusal.code), Some(30));
    }
}

#[test]
fn a_text_that_ends_within_a_line_makes_a_difference() {
    let records = |texts: &[&str]| {
        let mut bench = Bench::default();
        let texts: Vec<Vec<u8>> = texts.iter().map(|text| text.as_bytes().to_vec()).collect();
        let evenings = run_all(&mut bench, Sort::Typed, &texts, ENOUGH);
        let counts: Vec<Option<usize>> = evenings
            .iter()
            .map(|evening| evening.refusal.is_none().then_some(evening.count))
            .collect();
        (counts, bench.flushes)
    };
    assert_eq!(records(&["#", "tlm_flush\n"]), (vec![Some(0), Some(1)], 1));
    assert_eq!(records(&["#tlm_flush\n"]), (vec![Some(0)], 0));
    assert_eq!(
        records(&["tlm_flush", "tlm_flush\n"]),
        (vec![Some(1), Some(1)], 2)
    );
    assert_eq!(records(&["tlm_flushtlm_flush\n"]), (vec![None], 0));
    assert_eq!(
        records(&["img_region 1 2", "3\n"]),
        (vec![Some(1), None], 0)
    );
    assert_eq!(records(&["img_region 1 23\n"]), (vec![Some(1)], 0));
}

#[test]
fn texts_may_be_too_long_together_though_neither_is() {
    let refusal = |texts: &[Vec<u8>]| {
        let evenings = run_all(&mut Bench::default(), Sort::Typed, texts, ENOUGH);
        assert!(evenings.iter().all(|evening| evening.refusal.is_none()));
        let joined = agree(&Bench::default(), Sort::Typed, texts, ENOUGH);
        joined
            .refusal
            .map(|refused| (refused.place, refused.refusal.code))
    };
    let flushes = |lines: usize| b"tlm_flush\n".repeat(lines);
    let remark = |bytes: usize| [&b"#".repeat(bytes - 1)[..], b"\n"].concat();
    assert_eq!(refusal(&[flushes(300), flushes(212)]), None);
    assert_eq!(refusal(&[flushes(300), flushes(213)]), Some((0, 20)));
    assert_eq!(refusal(&[remark(20_000), remark(12_768)]), None);
    assert_eq!(refusal(&[remark(20_000), remark(12_769)]), Some((0, 20)));
}

/// The bench behind what comes before the first evening.
fn start_of(evenings: &Evenings) -> Bench {
    let mut replay = Replay::default();
    for item in &evenings.before {
        replay.item(&mut Script::new(item)).expect("a whole item");
    }
    replay.bench
}

#[test]
fn fixed_evenings_agree_where_they_must() {
    let all = fixed_evenings::evenings();
    let (must, need_not): (Vec<_>, Vec<_>) = all.iter().partition(|one| one.must_agree());
    for one in &must {
        let room = usize::from(one.room.min(13_000));
        agree(&start_of(one), one.sort, &one.parts, room);
    }
    assert!(must.len() > 500, "{}", must.len());
    assert_eq!(need_not.len(), 6);
}

/// Random evenings in so many parts, with the bench from which each starts.
fn random(parts: usize, count: u64) -> impl Iterator<Item = (Bench, Evenings)> {
    let all = (0..count).map(move |index| {
        let rng = Rng::stream(12, index + ((parts as u64) << 32));
        random_evenings::evenings(rng, parts)
    });
    all.map(|evenings| (start_of(&evenings), evenings))
}

#[test]
fn random_pairs_and_triples_agree() {
    for (start, evenings) in random(2, 2000).chain(random(3, 1000)) {
        assert!(evenings.must_agree());
        let room = usize::from(evenings.room.min(13_000));
        agree(&start, evenings.sort, &evenings.parts, room);
    }
}

/// Demands that both benches hand over and count the same for so many seconds, and answer
/// the same to one more list.
fn go_on_alike(mut one: Bench, mut other: Bench, seconds: usize) {
    for _ in 0..seconds {
        assert_eq!(one.second(), other.second());
        assert_eq!(one.frame(), other.frame());
    }
    assert_eq!(one.housekeeping().free, other.housekeeping().free);
    let later =
        list("stop\nclose\nrun 0\nrun 1\nopen 7\n+tlm_flush\nimg_image 9 2\nrun 4\nrun 2\n");
    let lists = [&mut one, &mut other].map(|bench| run(bench, Sort::Raw, &later, ENOUGH).room);
    assert_eq!(lists[0], lists[1]);
    // Now both have the same latest run.
    assert_eq!(one, other);
}

#[test]
fn seconds_behind_the_lists_hand_over_and_count_the_same() {
    let opened = "open 5\n+img_image 20 3\n+wait 4\n+tlm_flush\n+img_pwr 0\n";
    let second = "close\nrun 5\nimg_track 65535 7\nimg_image 65535 2\n";
    let lists = [list(&format!("img_pwr 1\n{opened}")), list(second)];
    let (mut apart, mut joined) = (Bench::default(), Bench::default());
    run_all(&mut apart, Sort::Raw, &lists, ENOUGH);
    run(&mut joined, Sort::Raw, &lists.concat(), ENOUGH);
    go_on_alike(apart.clone(), joined.clone(), 200);
    let handed: Vec<usize> = (0..20).map(|_| joined.second().len()).collect();
    assert_eq!(handed[..6], [1, 0, 0, 0, 2, 0]);
    for _ in 0..20 {
        apart.second();
    }
    // The first second takes an image of the list's own series, then comes the macro's.
    assert_eq!((apart.frame().images, joined.frame().images), (8, 8));
    assert_eq!(
        (apart.frame().track_images, joined.frame().track_images),
        (3, 3)
    );
    assert_eq!((apart.flushes, apart.power), (1, false));
}

#[test]
fn random_evenings_go_on_alike() {
    for (start, evenings) in random(2, 600).chain(random(3, 300)) {
        let room = usize::from(evenings.room.min(13_000));
        let (mut apart, mut joined) = (start.clone(), start);
        let each = run_all(&mut apart, evenings.sort, &evenings.parts, room);
        let one = run(&mut joined, evenings.sort, &evenings.parts.concat(), room);
        if one.refusal.is_none() {
            assert!(each.iter().all(|evening| evening.refusal.is_none()));
            go_on_alike(apart, joined, 40);
        }
    }
}
