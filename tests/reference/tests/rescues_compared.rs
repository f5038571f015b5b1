//! The comparison's own tools for damaged lists: which lists are sent, that answers to a
//! rescue that do not fit together are noticed, and that every sort of answer is had often.

use std::collections::{BTreeMap, BTreeSet};

use reference::command::{Command, Kind};
use reference::comparison::agreement::Disagreement;
use reference::comparison::fixed::batches;
use reference::comparison::items::{rescue, run, Item};
use reference::comparison::rng::Rng;
use reference::comparison::salvages::{
    again, disagreement, kept_lists, runs, Answers, Kept, Salvage,
};
use reference::comparison::{fixed_damaged, fixed_rescues, random_rescues};
use reference::lists_replay::transcript;
use reference::replay::{self, LONGEST_SCRIPT};
use reference::rescue::{rescued, Rescued, STRETCH_BYTES};
use reference::run::LONGEST_LIST;
use reference::wire::{bytes_of, read_command, sealed, unsealed};

const ROOM: u16 = 4096;
const BESIDE: u16 = 1824;

fn raw(appended: bool, kind: Kind, arguments: [u32; 2]) -> Vec<u8> {
    sealed(&unsealed(&Command::new(appended, kind, arguments)))
}

fn flushes(count: usize) -> Vec<u8> {
    bytes_of(&[0x015a_0002; 2]).repeat(count)
}

fn salvage(list: &[u8]) -> Salvage {
    Salvage {
        list: list.to_vec(),
    }
}

/// Noise, a flush, noise, a command with code 9, one with code 10, and noise.
fn damaged() -> Salvage {
    let never = raw(true, Kind::Stop, [0; 2]);
    let only = raw(false, Kind::Wait, [1, 0]);
    let noise = [0x99, 0x99];
    salvage(&[&noise[..], &flushes(1), &noise, &never, &only, &noise].concat())
}

/// The answers of the reference to the rescue, the one of what was kept, and the runs.
type Three = [Vec<String>; 3];

fn kept_of(one: &Salvage) -> Vec<Kept> {
    kept_lists(std::slice::from_ref(one), &transcript(&one.item()))
}

fn answers(one: &Salvage) -> Three {
    let kept = kept_of(one);
    let runs = runs(std::slice::from_ref(one), &kept).concat();
    let texts = [
        transcript(&one.item()),
        transcript(&again(&kept).concat()),
        replay::transcript(&runs),
    ];
    texts.map(|text| text.lines().map(String::from).collect())
}

fn found_in(one: &Salvage, answers: &Three) -> Option<Disagreement> {
    let [rescues, again, runs] = answers.each_ref().map(|lines| lines.join("\n"));
    disagreement(one, &mut Answers::new(&rescues, &again, &runs))
}

/// What is told of the salvage where one line of these answers is another one.
fn found_with(one: &Salvage, way: usize, place: usize, other: &str) -> Option<Disagreement> {
    let mut answers = answers(one);
    answers[way][place] = other.into();
    found_in(one, &answers)
}

#[test]
fn a_salvage_sends_again_what_the_program_kept() {
    let one = damaged();
    assert_eq!(one.item(), rescue(ROOM, BESIDE, &one.list));
    let kept = kept_of(&one);
    let list = rescued(&one.list).expect("it is short").kept;
    assert_eq!(kept, [Some(list.clone())]);
    assert_eq!(again(&kept), [rescue(ROOM, BESIDE, &list)]);
    let all = [one.clone(), salvage(&[])];
    let kept = [Some(list.clone()), None];
    assert_eq!(again(&kept), [rescue(ROOM, BESIDE, &list)]);
    let lists: [&[u8]; 3] = [&one.list, &list, &[]];
    assert_eq!(
        runs(&all, &kept),
        lists.map(|list| run(12_288, &[], list)).to_vec()
    );
    let told = "rescued 0 2 1 0102\nskipped 0 1\nrest same\nrest same\nrescued 20 0 0\n";
    assert_eq!(kept_lists(&all, told), [Some(vec![1, 2]), None]);
    for other in [
        "",
        "rescued",
        "rescued 24 0 0",
        "rescued 0 1 0 x",
        "raw 0 0 0",
    ] {
        assert_eq!(kept_lists(&all[..1], other), [None], "{other}");
    }
    assert_eq!(kept_lists(&all[..1], "rescued 0 0 0"), [Some(vec![])]);
}

#[test]
fn the_references_answers_fit_together() {
    let too_long = vec![0; LONGEST_LIST + 1];
    let whole = fixed_damaged::whole().concat();
    for list in [
        &damaged().list,
        &vec![],
        &vec![1],
        &flushes(512),
        &whole,
        &too_long,
    ] {
        let one = salvage(list);
        assert_eq!(found_in(&one, &answers(&one)), None);
    }
    assert_eq!(answers(&salvage(&too_long))[1], Vec::<String>::new());
}

#[test]
fn a_line_that_is_gone_or_cannot_be_read_is_noticed() {
    let one = damaged();
    let right = answers(&one);
    for (way, lines) in right.iter().enumerate() {
        for place in 0..lines.len() {
            for other in ["", "x", "rest 3", "skipped 1", "run 0 0 x", "record 02"] {
                assert!(found_with(&one, way, place, other).is_some(), "{other}");
            }
            let mut fewer = right.clone();
            fewer[way].remove(place);
            assert!(found_in(&one, &fewer).is_some(), "{fewer:#?}");
        }
    }
}

#[test]
fn bytes_that_are_not_the_whole_list_are_noticed() {
    let one = damaged();
    let right = answers(&one)[0][0].clone();
    let digits = right.rsplit_once(' ').expect("it has digits").1;
    for other in [
        right.replace("rescued 0 28 3", "rescued 0 27 3"),
        right.replace("rescued 0 28 3", "rescued 0 3 3"),
        right.replace("rescued 0 28 3", "rescued 0 28 12"),
        right.replace("rescued 0 28 3", "rescued 24 28 3"),
        right.replacen("5a", "5b", 1),
        right.clone() + "00",
        right[..right.len() - 2].into(),
        right.replace(digits, ""),
        format!("{right} 00"),
        "rescued 20 0 0".into(),
    ] {
        assert!(found_with(&one, 0, 0, &other).is_some(), "{other}");
    }
    // The same commands in another order.
    let (first, second) = digits.split_at(16);
    let turned = right.replace(digits, &[second, first].concat());
    let found = found_with(&one, 0, 0, &turned).expect("they differ");
    assert_eq!((found.foretold, found.found), (right, turned));
}

#[test]
fn a_stretch_that_is_not_what_was_skipped_is_noticed() {
    let one = damaged();
    assert_eq!(
        answers(&one)[0][1..4],
        ["skipped 0 2", "skipped 10 2", "skipped 32 2"]
    );
    let length = one.list.len();
    assert_eq!(length, 34);
    for (place, other) in [
        (1, "skipped 1 2"),
        (1, "skipped 0 1"),
        (1, "skipped 0 3"),
        (1, "skipped 0 0"),
        (1, "skipped 2 0"),
        (2, "skipped 10 12"),
        (2, "skipped 0 2"),
        (2, "skipped 2 10"),
        (2, "skipped 11 1"),
        (2, "skipped 32 2"),
        (3, "skipped 32 3"),
        (3, "skipped 33 1"),
        (3, "skipped 33 2"),
        (3, "skipped 10 2"),
        (3, "skipped 65535 2"),
        (3, "skipped 65568 2"),
    ] {
        assert!(found_with(&one, 0, place, other).is_some(), "{other}");
    }
}

/// The answers to a list of noise alone, with these lines about it.
fn noise_told(lines: &[&str]) -> Option<Disagreement> {
    let noise = salvage(&[0x99; 6]);
    let mut answers = answers(&noise);
    answers[0] = lines.iter().map(|line| line.to_string()).collect();
    found_in(&noise, &answers)
}

#[test]
fn stretches_in_pieces_out_of_order_or_empty_are_noticed_though_they_add_up() {
    let rests = ["rest same", "rest same"];
    let told =
        |first, stretches: &[&'static str]| noise_told(&[&[first], stretches, &rests].concat());
    assert_eq!(told("rescued 0 0 1", &["skipped 0 6"]), None);
    for stretches in [
        ["skipped 0 3", "skipped 3 3"],
        ["skipped 3 3", "skipped 0 3"],
        ["skipped 0 0", "skipped 0 6"],
        ["skipped 0 6", "skipped 6 0"],
        ["skipped 0 6", "skipped 7 0"],
    ] {
        let found = told("rescued 0 0 2", &stretches).expect("one is not by itself");
        assert_eq!(found.foretold, "a stretch by itself in the list");
        assert!(stretches.contains(&found.found.as_str()));
    }
}

#[test]
fn a_rescue_of_what_was_kept_that_loses_something_is_noticed() {
    let one = damaged();
    let right = answers(&one)[1][0].clone();
    for other in [
        "rescued 0 0 1".into(),
        "rescued 20 0 0".into(),
        right.replace("rescued 0 28 0", "rescued 0 28 1"),
        right.replacen("5a", "5b", 1),
        right.clone() + "00",
    ] {
        assert!(found_with(&one, 1, 0, &other).is_some(), "{other}");
    }
    let mut answers = answers(&one);
    answers[1][0] = right.replace(" 28 0", " 28 1");
    answers[1].insert(1, "skipped 0 1".into());
    let found = found_in(&one, &answers).expect("they differ");
    assert_eq!(found.foretold, right);
}

#[test]
fn a_record_of_damage_in_what_was_kept_is_noticed() {
    let one = damaged();
    let runs = answers(&one)[2].clone();
    // Noise ends the list before its first command, which has code 2; what was kept has
    // three commands.
    let expected = ["run 0 0 1", "record 020200000000000100000000", "rest same"];
    assert_eq!(runs[..3], expected);
    assert_eq!(runs[3], "run 0 0 3");
    for code in 0..=30 {
        let record = format!("record 02{code:02x}00000000000200000000");
        let found = found_with(&one, 2, 5, &record);
        assert_eq!(found.is_some(), (1..=8).contains(&code), "{code}");
        let told = found.map_or(record.clone(), |it| it.found);
        assert!(told.ends_with(&record), "{told}");
    }
    for other in [
        "run 20 0 0",
        "run 21 0 3",
        "run 0 3 0",
        "run 0 0 2",
        "run 0 0 4",
    ] {
        assert!(found_with(&one, 2, 3, other).is_some(), "{other}");
    }
}

#[test]
fn damage_in_the_list_itself_is_told_by_a_stretch_and_the_other_way_round() {
    let one = damaged();
    // Were the list whole, nothing might be lost.
    let whole_run = "record 020900000000000100000000";
    let found = found_with(&one, 2, 1, whole_run).expect("it lost something");
    assert!(found.foretold.starts_with("rescued 0 34 0 9999015a"));
    // Were it damaged, something would have to be.
    let two = salvage(&flushes(2));
    assert_eq!(found_in(&two, &answers(&two)), None);
    for code in 0..=30 {
        let record = format!("record 02{code:02x}00000000000100000000");
        let found = found_with(&two, 2, 1, &record);
        assert_eq!(found.is_some(), (1..=8).contains(&code), "{code}");
        let foretold = found.map_or(record.clone(), |it| it.foretold);
        assert!(foretold.ends_with(&record), "{foretold}");
    }
}

#[test]
fn both_programs_find_the_same_lists_too_long() {
    let list = vec![0; LONGEST_LIST + 1];
    let too_long = salvage(&list);
    assert_eq!(answers(&too_long)[0][0], "rescued 20 0 0");
    assert_eq!(answers(&too_long)[2][0], "run 20 0 0");
    for other in [
        "rescued 24 0 0",
        "rescued 20 1 0",
        "rescued 0 0 0",
        "rescued 20 0 0 00",
    ] {
        assert!(found_with(&too_long, 0, 0, other).is_some(), "{other}");
    }
    assert!(found_with(&too_long, 2, 0, "run 0 0 0").is_some());
}

#[test]
fn shrinking_keeps_the_bytes_that_matter() {
    let long = salvage(&[flushes(20), vec![0x99; 9], flushes(20)].concat());
    let loses = |one: &Salvage| rescued(&one.list).is_ok_and(|it| !it.stretches.is_empty());
    let smallest = long.smallest(&mut |fewer| loses(fewer));
    assert_eq!(smallest.list.len(), 1);
    let keeps = |one: &Salvage| rescued(&one.list).is_ok_and(|it| !it.kept.is_empty());
    assert_eq!(long.smallest(&mut |fewer| keeps(fewer)).list, flushes(1));
}

/// Fixed salvages, then random ones.
fn all_salvages() -> Vec<Salvage> {
    let mut rng = Rng::new(7);
    let mut all = fixed_rescues::salvages();
    all.extend((0..600).map(|_| random_rescues::salvage(&mut rng)));
    all
}

#[test]
fn salvages_are_whole_scripts_that_lose_nothing_and_agree() {
    let all = all_salvages();
    assert_eq!(all, all_salvages());
    let batches = batches(all.clone(), Salvage::script_bytes);
    assert_eq!(batches.concat(), all);
    for batch in &batches {
        let items: Vec<Item> = batch.iter().map(Salvage::item).collect();
        let rescues = transcript(&items.concat());
        let kept = kept_lists(batch, &rescues);
        let (again, runs) = (again(&kept), runs(batch, &kept));
        assert!([&items, &again, &runs]
            .iter()
            .all(|it| it.concat().len() <= LONGEST_SCRIPT));
        let (again, runs) = (
            transcript(&again.concat()),
            replay::transcript(&runs.concat()),
        );
        let mut answers = Answers::new(&rescues, &again, &runs);
        for one in batch {
            assert_eq!(disagreement(one, &mut answers), None);
        }
        let Answers {
            mut rescues,
            mut again,
            mut runs,
        } = answers;
        let left = [rescues.next(), again.next(), runs.next()];
        assert_eq!(left, [None; 3]);
    }
}

#[test]
fn salvages_lose_nothing_little_much_and_all() {
    let mut sorts: BTreeMap<(bool, usize), usize> = BTreeMap::new();
    let mut refused = 0;
    for one in all_salvages() {
        match rescued(&one.list) {
            Err(_) => refused += 1,
            Ok(Rescued { kept, stretches }) => {
                let sort = (kept.is_empty(), stretches.len().min(5));
                *sorts.entry(sort).or_default() += 1;
            }
        }
    }
    let often = |keeps: bool, stretches: usize| sorts.get(&(!keeps, stretches)).copied();
    for stretches in 0..=5 {
        assert!(often(true, stretches) > Some(10), "{stretches} {sorts:?}");
    }
    assert!(often(false, 1) > Some(10), "{sorts:?}");
    assert!(refused > 3, "{refused}");
}

/// The items of all fixed scripts about rescues.
fn fixed_items() -> BTreeSet<Item> {
    fixed_rescues::scripts().concat().into_iter().collect()
}

#[test]
fn fixed_items_have_every_bad_input_by_name() {
    let sent = fixed_items();
    let demand = |name: &str, list: &[u8]| {
        assert!(sent.contains(&rescue(ROOM, BESIDE, list)), "{name}");
    };
    let list = fixed_damaged::whole().concat();
    demand("a list without a byte", &[]);
    for length in 1..8 {
        demand("fewer than 8 bytes", &flushes(1)[..length]);
        demand("fewer than 8 zeros", &vec![0; length]);
    }
    for length in [4095, 4096, 4097] {
        demand("the longest", &flushes(513)[..length]);
        demand("the longest of zeros", &vec![0; length]);
    }
    for place in 0..list.len() {
        let mut broken = list.clone();
        broken[place] ^= 1;
        demand("a byte broken", &broken);
        broken.remove(place);
        demand("a byte taken out", &broken);
        demand("the start", &list[..place]);
        demand("the end", &list[place..]);
        let (before, behind) = list.split_at(place);
        demand("a byte put in", &[before, &[1], behind].concat());
    }
}

#[test]
fn fixed_items_have_every_list_that_leads_astray_by_name() {
    let sent = fixed_items();
    let demand = |name: &str, list: &[u8]| {
        assert!(sent.contains(&rescue(ROOM, BESIDE, list)), "{name}");
    };
    let list = fixed_damaged::whole().concat();
    for noise in [&[0; 9][..], &[0xff; 3], &[1, 0x5a, 0, 2]] {
        demand("noise between lists", &[&list, noise, &list].concat());
    }
    let goal = raw(true, Kind::TrkGoal, [0x015a_0002; 2]);
    demand("a command within another", &goal);
    let mut broken = goal.clone();
    broken[0] ^= 0x10;
    demand("one within a broken one", &broken);
    for length in [0, 1, 3, 4, 32, 33, 0x7fff] {
        let first = bytes_of(&[0x015a_0000 | length]);
        let behind = &list[4..];
        demand("lengths", &[&first, behind].concat());
    }
}

#[test]
fn fixed_lists_have_every_code_at_the_start_and_further_down() {
    let mut seen = BTreeSet::new();
    for list in fixed_damaged::lists() {
        for place in [0, 8, 16] {
            let code = list.get(place..).map(|left| match read_command(left) {
                Ok(_) => 0,
                Err(refusal) => refusal.code,
            });
            seen.extend(code.map(|code| (place, code)));
        }
    }
    for place in [0, 8, 16] {
        let codes = 0..=10;
        assert!(codes.into_iter().all(|code| seen.contains(&(place, code))));
    }
}

#[test]
fn fixed_rooms_just_suffice_and_are_one_short_either_or_both() {
    let sent = fixed_items();
    let one = [&flushes(1)[..], &[0xff], &flushes(1)].concat();
    let mut most = [&[0x99][..], &flushes(1)].concat().repeat(455);
    most.push(0x99);
    for (list, kept, told) in [
        (&one, 16, 4),
        (&most, 3640, BESIDE),
        (&vec![0; 4096], 0, 4),
        (&flushes(512), ROOM, 0),
    ] {
        let Rescued {
            kept: bytes,
            stretches,
        } = rescued(list).expect("it is not too long");
        assert_eq!(bytes.len(), usize::from(kept));
        assert_eq!(STRETCH_BYTES * stretches.len(), usize::from(told));
        for room in [kept, kept.saturating_sub(1)] {
            for beside in [told, told.saturating_sub(1)] {
                assert!(
                    sent.contains(&rescue(room, beside, list)),
                    "{room} {beside}"
                );
            }
        }
    }
}

#[test]
fn fixed_rooms_are_none_and_larger_than_can_be() {
    let sent = fixed_items();
    let one = [&flushes(1)[..], &[0xff], &flushes(1)].concat();
    for [room, beside] in [
        [0, 0],
        [16, 0],
        [0, 4],
        [16, 13_001],
        [65_535, 4],
        [65_535; 2],
    ] {
        assert!(
            sent.contains(&rescue(room, beside, &one)),
            "{room} {beside}"
        );
    }
    for [room, beside] in [[0, 0], [ROOM, 0], [0, ROOM]] {
        let too_long = flushes(513);
        assert!(sent.contains(&rescue(room, beside, &too_long[..4097])));
    }
}

#[test]
fn fixed_scripts_are_no_longer_than_they_may_be_and_end_badly_at_every_byte() {
    let scripts = fixed_rescues::scripts();
    assert!(scripts.iter().all(|it| it.concat().len() <= LONGEST_SCRIPT));
    let texts: Vec<String> = scripts.iter().map(|it| transcript(&it.concat())).collect();
    let bad: Vec<&String> = texts
        .iter()
        .filter(|it| it.ends_with("bad script\n"))
        .collect();
    assert_eq!(bad.len(), 16);
    assert!(bad.iter().all(|text| text.lines().count() == 3));
}

#[test]
fn random_items_are_whole_the_same_again_and_have_every_answer() {
    let scripts = random_rescues::scripts(&mut Rng::new(7), 600);
    assert_eq!(scripts, random_rescues::scripts(&mut Rng::new(7), 600));
    assert!(scripts.iter().all(|it| it.concat().len() <= LONGEST_SCRIPT));
    let mut seen: BTreeMap<(u8, bool, bool), usize> = BTreeMap::new();
    for script in scripts {
        let text = transcript(&script.concat());
        for line in text.lines().filter(|line| line.starts_with("rescued")) {
            let words: Vec<&str> = line.split(' ').collect();
            let code = words[1].parse().expect("a code");
            let sort = (code, words[2] != "0", words[3] != "0");
            *seen.entry(sort).or_default() += 1;
        }
    }
    let often = |code, keeps, skips| seen.get(&(code, keeps, skips)).copied();
    assert!(often(0, true, true) > Some(300), "{seen:?}");
    for (keeps, skips) in [(true, false), (false, true), (false, false)] {
        assert!(often(0, keeps, skips) > Some(10), "{seen:?}");
    }
    assert!(often(20, false, false) > Some(3), "{seen:?}");
    assert!(often(24, false, false) > Some(100), "{seen:?}");
}

#[test]
fn random_lists_are_damaged_in_every_way() {
    let mut rng = Rng::new(7);
    let mut codes: BTreeMap<u8, usize> = BTreeMap::new();
    let (mut longest, mut within) = (0, 0);
    for _ in 0..600 {
        let list = random_rescues::damaged_list(&mut rng);
        longest = longest.max(list.len());
        let Ok(Rescued { stretches, .. }) = rescued(&list) else {
            continue;
        };
        // What damage the rescue comes upon, where it begins.
        for stretch in &stretches {
            let code = read_command(&list[stretch.start.into()..]).map_or_else(|it| it.code, |_| 0);
            *codes.entry(code).or_default() += 1;
        }
        let odd = |length: u16| !length.is_multiple_of(4);
        within += usize::from(stretches.iter().any(|it| odd(it.length)));
    }
    assert_eq!(longest, LONGEST_LIST + 1);
    assert!(within > 100, "{within}");
    for code in 1..=8 {
        assert!(codes.get(&code) > Some(&5), "{codes:?}");
    }
    assert_eq!(codes.len(), 8);
}

#[test]
fn inputs_are_kept_skipped_both_neither_and_refused() {
    let mut seen = BTreeSet::new();
    for list in fixed_rescues::inputs() {
        let told = rescued(&list).map(|it| (it.kept.is_empty(), it.stretches.len().min(3)));
        seen.insert(told.map_err(|refusal| refusal.code));
    }
    for stretches in 0..=3 {
        assert!(seen.contains(&Ok((false, stretches))), "{seen:?}");
    }
    for other in [Ok((true, 0)), Ok((true, 1)), Err(20)] {
        assert!(seen.contains(&other), "{seen:?}");
    }
    let mut rng = Rng::new(7);
    assert_eq!(random_rescues::inputs(&mut rng, 200).len(), 200);
}
