//! The comparison's own tools for the index of a list: which items and which growing lists
//! are sent, and that a wrong answer in any one place is noticed.

use std::collections::{BTreeMap, BTreeSet};

use reference::codes::code_and_finding;
use reference::comparison::agreement::Disagreement;
use reference::comparison::fixed::batches;
use reference::comparison::growths::{disagreement, growths, index_of, Growth};
use reference::comparison::items::{index, look_up, Item};
use reference::comparison::rng::Rng;
use reference::comparison::{fixed_growths, fixed_index, random_index};
use reference::replay::LONGEST_SCRIPT;
use reference::wire::{bytes_of, extent, sealed};
use reference::{lists_replay, replay};

fn flush() -> Vec<u8> {
    bytes_of(&[0x015a_0002, 0x015a_0002])
}

fn flushes(length: usize) -> Vec<u8> {
    let mut list = flush().repeat(length / 8 + 1);
    list.truncate(length);
    list
}

/// A flush and a region cut off, which grows whole and is followed by a flush.
fn growth() -> Growth {
    let region = sealed(&[0x0117_0003, 0x0200_0100]);
    let start = [&flush()[..], &region[..9]].concat();
    let more = [&region[9..], &flush()].concat();
    let mut all = growths(&start, &more);
    assert_eq!(all.len(), 1);
    all.remove(0)
}

/// The answers of the reference: of the replay program for lists, and of the other.
fn answers(growth: &Growth) -> [Vec<String>; 2] {
    let lists = lists_replay::transcript(&growth.index_items().concat());
    let replay = replay::transcript(&growth.shown_items().concat());
    [lists, replay].map(|text| text.lines().map(String::from).collect())
}

fn found_in(growth: &Growth, answers: &[Vec<String>; 2]) -> Option<Disagreement> {
    let [lists, replay] = answers.each_ref().map(|lines| lines.join("\n"));
    disagreement(growth, &mut lists.lines(), &mut replay.lines())
}

#[test]
fn a_growth_sends_its_indexes_and_every_number_to_both_programs() {
    let growth = growth();
    let list = growth.list();
    let mut expected = vec![
        index(600, &[], &growth.start),
        index(600, &[], &list),
        index(600, &[0, 8], &list),
    ];
    expected.extend((0..=4).map(|number| look_up(&[0, 8, 20], &list, number)));
    assert_eq!(growth.index_items(), expected);
    let [lists, replay] = answers(&growth);
    let indexed = "indexed 0 3 0 8 20";
    assert_eq!(lists[0], "indexed 0 2 0 8");
    assert_eq!([&lists[2], &lists[4]], [indexed, indexed]);
    assert_eq!(
        [&lists[7], &replay[2], &replay[3]].map(|it| it.len()),
        [22; 3]
    );
    assert_eq!((lists.len(), replay.len()), (11, 10));
    assert_eq!(found_in(&growth, &answers(&growth)), None);
}

#[test]
fn a_wrong_answer_in_any_one_place_is_noticed() {
    let growth = growth();
    let right = answers(&growth);
    for (program, lines) in right.iter().enumerate() {
        for place in 0..lines.len() {
            let mut others = vec![format!("{} 9", lines[place]), String::new()];
            others.push(lines[place].replace('0', "7"));
            others.retain(|other| *other != lines[place]);
            for other in others {
                let mut answers = right.clone();
                answers[program][place] = other;
                assert!(found_in(&growth, &answers).is_some(), "{answers:#?}");
            }
            let mut fewer = right.clone();
            fewer[program].remove(place);
            assert!(found_in(&growth, &fewer).is_some(), "{fewer:#?}");
        }
    }
}

#[test]
fn an_index_that_was_not_handed_in_is_noticed() {
    // The same wrong index three times over agrees with itself, but not with the offsets
    // that were sent.
    let growth = growth();
    let mut answers = answers(&growth);
    for place in [2, 4] {
        answers[0][place] = "indexed 0 3 0 8 21".into();
    }
    let found = found_in(&growth, &answers).expect("they differ");
    assert_eq!(
        (&found.foretold[..], &found.found[..]),
        ("3 0 8 20", "3 0 8 21")
    );
}

#[test]
fn shrinking_keeps_the_commands_and_numbers_that_matter() {
    let mut whole = growths(&flushes(83), &flushes(40));
    let mut differs = |fewer: &Growth| fewer.list().len() >= 19 && fewer.numbers.contains(&7);
    let smallest = whole.remove(0).smallest(&mut differs);
    assert_eq!(smallest.list().len(), 19);
    assert_eq!(smallest.numbers, [7]);
}

#[test]
fn long_lists_are_split_and_lose_no_number() {
    let all = growths(&flushes(8), &flushes(4088));
    let numbers: Vec<u32> = all.iter().flat_map(|one| one.numbers.clone()).collect();
    assert_eq!(numbers, (0..=513).collect::<Vec<u32>>());
    assert!(all.iter().all(|one| one.list() == flushes(4096)));
    assert!(all.iter().all(|one| one.script_bytes() <= LONGEST_SCRIPT));
}

/// Fixed growths, then random ones.
fn all_growths() -> Vec<Growth> {
    let mut rng = Rng::new(7);
    let mut all = fixed_growths::growths();
    all.extend((0..300).map(|_| random_index::growth(&mut rng)));
    all
}

#[test]
fn growths_are_whole_scripts_that_lose_nothing_and_agree() {
    let all = all_growths();
    assert_eq!(all, all_growths());
    let batches = batches(all.clone(), Growth::script_bytes);
    assert_eq!(batches.concat(), all);
    for batch in &batches {
        let index_items: Vec<Item> = batch.iter().flat_map(Growth::index_items).collect();
        let shown_items: Vec<Item> = batch.iter().flat_map(Growth::shown_items).collect();
        let scripts = [index_items.concat(), shown_items.concat()];
        assert!(scripts.iter().all(|it| it.len() <= LONGEST_SCRIPT));
        let lists = lists_replay::transcript(&scripts[0]);
        let replay = replay::transcript(&scripts[1]);
        let (mut lists, mut replay) = (lists.lines(), replay.lines());
        for growth in batch {
            assert_eq!(disagreement(growth, &mut lists, &mut replay), None);
        }
        assert_eq!((lists.next(), replay.next()), (None, None));
    }
}

/// The code of a list's last command as far as its extent tells: 0 where it is whole.
fn end_of(list: &[u8]) -> u8 {
    let last = index_of(list).last().map(|offset| usize::from(*offset));
    last.map_or(0, |at| code_and_finding(&extent(&list[at..])).0)
}

#[test]
fn lists_with_every_end_grow_by_each_of_1_to_12_bytes() {
    let mut seen: BTreeMap<(u8, usize), BTreeSet<u8>> = BTreeMap::new();
    for growth in fixed_growths::growths() {
        let sort = (end_of(&growth.start), growth.more.len());
        seen.entry(sort).or_default().insert(end_of(&growth.list()));
    }
    for more in 1..=12 {
        // A command that was cut off is whole now, or still is not.
        for end in [1, 3] {
            assert!(seen[&(end, more)].contains(&0), "{end} {more}");
            assert!(seen[&(end, more)].contains(&end), "{end} {more}");
        }
        // Behind a whole one there is any end that so many bytes allow.
        let ends: &[u8] = match more {
            ..8 => &[1],
            8 => &[0, 2, 3],
            9..12 => &[1, 2, 3],
            _ => &[0, 1, 2],
        };
        assert!(
            ends.iter().all(|end| seen[&(0, more)].contains(end)),
            "{more}"
        );
        assert_eq!(seen[&(2, more)], [2].into(), "{more}");
    }
}

#[test]
fn random_growths_are_of_every_sort() {
    let mut rng = Rng::new(7);
    let mut sorts: BTreeMap<&str, usize> = BTreeMap::new();
    for _ in 0..600 {
        let growth = random_index::growth(&mut rng);
        let (list, start) = (growth.list(), index_of(&growth.start));
        let offsets = index_of(&list);
        let mut note = |sort, holds| *sorts.entry(sort).or_default() += usize::from(holds);
        note("ended by 1", end_of(&growth.start) == 1);
        note("ended by 2", end_of(&growth.start) == 2);
        note("ended by 3", end_of(&growth.start) == 3);
        note("whole", !start.is_empty() && end_of(&growth.start) == 0);
        note(
            "completed",
            end_of(&growth.start) > 0 && offsets.len() > start.len(),
        );
        note("empty at first", growth.start.is_empty());
        note("does not grow", growth.more.is_empty());
        note("many commands", offsets.len() > 100);
        note("4,096 bytes", list.len() == 4096);
        note("4,097 bytes", list.len() == 4097);
    }
    let rare = ["4,096 bytes", "4,097 bytes"];
    for (sort, times) in sorts {
        let least = if rare.contains(&sort) { 1 } else { 10 };
        assert!(times >= least, "{sort} {times}");
    }
}

/// The items of all fixed scripts about the index.
fn fixed_items() -> BTreeSet<Item> {
    fixed_index::scripts().concat().into_iter().collect()
}

/// So many offsets without a gap.
fn dense(count: u16) -> Vec<u16> {
    (0..count).collect()
}

#[test]
fn fixed_items_lie_on_both_sides_of_every_border_of_an_index() {
    let sent = fixed_items();
    let demand = |name: &str, item: Item| assert!(sent.contains(&item), "{name}");
    for length in [0, 1, 7, 8, 4095, 4096, 4097] {
        demand("lengths", index(600, &[], &flushes(length)));
    }
    let full = flushes(4096);
    for count in [511, 512, 513, 600] {
        demand("offsets handed in", index(600, &dense(count), &full));
    }
    for start in [0, 1] {
        demand("starts", index(600, &[start], &flushes(32)));
    }
    for last in [7, 8, 9] {
        let offsets = [0, 8, last];
        demand("neighbours", index(600, &offsets, &flushes(32)));
    }
    for last in [15, 16, 17, 65_535] {
        demand("the list's length", index(600, &[0, last], &flushes(16)));
    }
    demand("any offset for an empty list", index(600, &[0], &[]));
    for room in [0, 511, 512, 513, 600, 65_535] {
        demand("rooms", index(room, &[], &full));
    }
    for behind in [1, 2] {
        let list = [vec![0; 511], flush().repeat(behind)].concat();
        demand("512 and 513", index(600, &dense(512), &list));
    }
}

#[test]
fn fixed_items_have_two_and_three_refusals_due_at_once() {
    let sent = fixed_items();
    for (length, offsets, room) in [
        (4097, vec![1, 8], 0),
        (4097, vec![1, 8], 512),
        (4097, vec![0, 8], 0),
        (4096, vec![1, 8], 0),
        (4096, vec![0, 8], 0),
    ] {
        assert!(sent.contains(&index(room, &offsets, &flushes(length))));
    }
}

#[test]
fn fixed_items_look_up_on_both_sides_of_every_border() {
    let sent = fixed_items();
    let demand = |name: &str, item: Item| assert!(sent.contains(&item), "{name}");
    for number in [0, 1, 2, 65_537, u32::MAX] {
        demand("numbers", look_up(&[0], &flush(), number));
    }
    for place in [7, 8, 9, 65_535] {
        demand("places", look_up(&[0, place, 0], &flush(), 2));
    }
    for length in [4095, 4096, 4097] {
        let offsets: Vec<u16> = (0..(length as u16).div_ceil(8)).map(|it| 8 * it).collect();
        demand("lengths", look_up(&offsets, &flushes(length), 1));
    }
    for count in [512, 513, 600] {
        demand("many", look_up(&dense(count), &flushes(800), 512));
    }
}

#[test]
fn fixed_scripts_end_badly_in_every_way() {
    let scripts = fixed_index::scripts();
    let texts = scripts
        .iter()
        .map(|it| lists_replay::transcript(&it.concat()));
    let texts: Vec<String> = texts.collect();
    let ending = |end: &str| texts.iter().filter(|text| text.ends_with(end)).count();
    assert_eq!(ending("too long\n"), 1);
    // Two items cut off at every byte, two with 601 offsets, and nine first bytes thrice.
    assert_eq!(ending("bad script\n"), 21 + 23 + 2 + 27);
    let lengths: Vec<usize> = scripts.iter().map(|it| it.concat().len()).collect();
    assert!(lengths.contains(&65_536) && lengths.contains(&65_537));
    let behind_a_good_item = texts.iter().filter(|text| text.ends_with("bad script\n"));
    assert!(behind_a_good_item
        .clone()
        .all(|text| text.lines().count() == 3));
}

#[test]
fn random_items_are_whole_the_same_again_and_of_every_sort() {
    let scripts = random_index::scripts(&mut Rng::new(7), 600);
    assert_eq!(scripts, random_index::scripts(&mut Rng::new(7), 600));
    let mut sorts: BTreeMap<String, usize> = BTreeMap::new();
    for script in &scripts {
        assert!(script.concat().len() <= LONGEST_SCRIPT);
        let text = lists_replay::transcript(&script.concat());
        assert!(!text.contains("bad script"));
        for line in text.lines().filter(|line| !line.starts_with("rest")) {
            let words: Vec<&str> = line.split(' ').collect();
            let sort = match words[..] {
                ["found", ..] => format!("found {}", words.len() > 1),
                _ => words[..2].join(" "),
            };
            *sorts.entry(sort).or_default() += 1;
        }
    }
    for (sort, least) in [("indexed 0", 800), ("indexed 54", 150), ("indexed 24", 200)] {
        assert!(sorts[sort] > least, "{sorts:?}");
    }
    assert!(sorts["indexed 20"] > 3, "{sorts:?}");
    for sort in ["found true", "found false"] {
        assert!(sorts[sort] > 300, "{sorts:?}");
    }
}
