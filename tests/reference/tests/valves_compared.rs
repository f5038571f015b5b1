//! The comparison's own tools for the gas valve: which frames are sent, that answers about a
//! valve that do not fit together are noticed, and that every sort of answer is had often.

use std::collections::{BTreeMap, BTreeSet};

use reference::comparison::agreement::Disagreement;
use reference::comparison::fixed::batches;
use reference::comparison::items::{fresh_valve, valve, valve_frame, Item};
use reference::comparison::rng::Rng;
use reference::comparison::valve_frames::{
    arming, bytes, firing, mended, with, Words, BEFORE, FLAGS,
};
use reference::comparison::walks::{disagreement, Walk, ROOM};
use reference::comparison::{fixed_valve, random_valve};
use reference::replay::{Script, LONGEST_SCRIPT};
use reference::valve::Valve;
use reference::valve_replay::{transcript, ValveReplay};

fn carried(words: Words) -> Item {
    valve(&bytes(&words))
}

/// Fires too early, is armed, has a wrong code, a bad frame, is fired, armed and fired again,
/// and all but the firing on a fresh valve.
fn walk() -> Walk {
    let (arm, fire) = (carried(arming(1)), carried(firing(2, 0x1810)));
    let other = carried(firing(0, 7));
    let bad = carried(with(&arming(0), 31, 1));
    let steps = [
        &fire,
        &arm,
        &other,
        &bad,
        &fire,
        &arm,
        &fire,
        &fresh_valve(),
        &arm,
        &other,
    ];
    Walk {
        steps: steps.map(Item::clone).to_vec(),
    }
}

fn answers(walk: &Walk) -> Vec<String> {
    let text = transcript(&walk.items().concat());
    text.lines().map(String::from).collect()
}

fn found_in(walk: &Walk, answers: &[String]) -> Option<Disagreement> {
    disagreement(walk, &mut answers.join("\n").lines())
}

/// What is told of the walk where the answer in this place is another one.
fn found_with(walk: &Walk, place: usize, other: &str) -> Option<Disagreement> {
    let mut answers = answers(walk);
    answers[place] = other.into();
    found_in(walk, &answers)
}

/// The places of the answers to frames carried out, each behind that to the frame read.
fn carried_places(walk: &Walk) -> impl Iterator<Item = usize> {
    (1..answers(walk).len()).step_by(2)
}

#[test]
fn each_frame_of_a_walk_is_read_and_then_carried_out() {
    let (arm, fire) = (bytes(&arming(0)), bytes(&firing(0, 1)));
    let steps = [valve(&arm), fresh_valve(), valve(&[]), valve(&fire)];
    let walk = Walk {
        steps: steps.to_vec(),
    };
    let items = [
        fresh_valve(),
        valve_frame(ROOM, &arm),
        valve(&arm),
        fresh_valve(),
        valve_frame(ROOM, &[]),
        valve(&[]),
        valve_frame(ROOM, &fire),
        valve(&fire),
    ];
    assert_eq!(walk.items(), items);
    assert_eq!(walk.script_bytes(), items.concat().len());
}

#[test]
fn the_references_answers_fit_together() {
    let one = walk();
    let told = [
        "valve 45 0000",
        "valve 0 4000",
        "valve 46 4000",
        "valve 43 4000",
        "valve 0 c000",
        "valve 0 c000",
        "valve 0 c000",
        "valve 0 4000",
        "valve 46 4000",
    ];
    let answers = answers(&one);
    assert!(carried_places(&one).map(|at| &answers[at]).eq(&told));
    assert_eq!(found_in(&one, &answers), None);
    let none = Walk { steps: Vec::new() };
    assert_eq!(found_in(&none, &[]), None);
}

#[test]
fn a_line_that_is_gone_or_cannot_be_read_is_noticed() {
    let one = walk();
    let right = answers(&one);
    for place in 0..right.len() {
        for other in [
            "",
            "x",
            "valve",
            "valve 0",
            "frame",
            "frame 0",
            "frame 0 0 arm",
            "frame 45",
        ] {
            assert!(found_with(&one, place, other).is_some(), "{place} {other}");
        }
        let mut fewer = right.clone();
        fewer.remove(place);
        assert!(found_in(&one, &fewer).is_some(), "{place}");
    }
    assert!(found_in(&one, &right[..right.len() - 1]).is_some());
}

#[test]
fn any_other_code_or_status_is_noticed() {
    let one = walk();
    let right = answers(&one);
    let statuses = [
        "0000", "4000", "8000", "c000", "C000", "0001", "000", "04000",
    ];
    for place in carried_places(&one) {
        for code in [0, 24, 40, 41, 42, 43, 44, 45, 46] {
            for status in statuses {
                let other = format!("valve {code} {status}");
                let found = found_with(&one, place, &other);
                assert_eq!(found.is_some(), other != right[place], "{place} {other}");
                if let Some(Disagreement { foretold, found }) = found {
                    assert_eq!((foretold, found), (right[place].clone(), other));
                }
            }
        }
    }
}

#[test]
fn a_fired_valve_that_was_not_armed_is_noticed() {
    let fire = carried(firing(0, 0x1810));
    let lines = |status: &str| {
        let digits = transcript(&valve_frame(ROOM, &fire[2..]));
        format!("{digits}valve 0 {status}\n")
    };
    for steps in [vec![fire.clone()], vec![fresh_valve(), fire.clone()]] {
        let walk = Walk { steps };
        let found = disagreement(&walk, &mut lines("c000").lines()).expect("it was not armed");
        assert_eq!(found.foretold, "valve 45 0000");
        assert_eq!(found.found, "valve 0 c000");
    }
    // Armed before, but that valve is gone.
    let steps = vec![carried(arming(0)), fresh_valve(), fire.clone()];
    let walk = Walk { steps };
    let mut told = answers(&walk);
    assert_eq!(found_in(&walk, &told), None);
    told[3] = "valve 0 c000".into();
    let found = found_in(&walk, &told).expect("it was not armed");
    assert_eq!(found.foretold, "valve 45 0000");
}

#[test]
fn a_frame_that_is_not_written_as_it_was_read_is_noticed() {
    let one = walk();
    let right = answers(&one);
    for place in (0..right.len()).step_by(2) {
        let Some((front, digits)) = right[place].rsplit_once(" 0 ") else {
            continue;
        };
        for other in [
            format!("{front} 24"),
            format!("{front} 0"),
            format!("{front} 1 {digits}"),
            format!("{front} 0 {digits}00"),
            format!("{front} 0 {}", &digits[..126]),
            format!("{front} 0 {}", digits.replacen('e', "f", 1)),
            format!("{front} 0 {digits} 0"),
        ] {
            assert!(found_with(&one, place, &other).is_some(), "{other}");
        }
    }
}

#[test]
fn a_frame_that_is_read_as_another_than_is_carried_out_is_noticed() {
    let one = walk();
    let right = answers(&one);
    for (place, reading, foretold) in [
        (0, "0 2 arm", "valve 0 4000"),
        (0, "41", "valve 41 0000"),
        (2, "0 1 fire 6160", "valve 45 0000"),
        (4, "0 0 fire 6160", "valve 0 c000"),
        (4, "0 0 arm", "valve 0 4000"),
        (6, "44", "valve 44 4000"),
        (8, "0 2 fire 6161", "valve 46 4000"),
        (8, "0 2 arm", "valve 0 4000"),
        (10, "40", "valve 40 c000"),
        (12, "0 2 fire 24592", "valve 46 c000"),
        (14, "0 1 fire 6160", "valve 45 0000"),
        (16, "0 0 fire 6160", "valve 0 c000"),
    ] {
        let digits = right[place].rsplit_once(" 0 ").map(|(_, digits)| digits);
        let other = match (reading.starts_with('0'), digits) {
            (true, Some(digits)) => format!("frame {reading} 0 {digits}"),
            _ => format!("frame {reading}"),
        };
        let found = found_with(&one, place, &other).expect("it is another one");
        let expected = (foretold.into(), right[place + 1].clone());
        assert_eq!((found.foretold, found.found), expected);
    }
}

#[test]
fn shrinking_keeps_the_steps_that_matter() {
    let mut steps = vec![walk().steps; 5].concat();
    steps.truncate(45);
    let is_fired = |walk: &Walk| transcript(&walk.items().concat()).contains("c000");
    let smallest = Walk { steps }.smallest(&mut |fewer| is_fired(fewer));
    assert_eq!(
        smallest.steps,
        [carried(arming(1)), carried(firing(2, 0x1810))]
    );
}

/// Fixed walks, then random ones.
fn all_walks() -> Vec<Walk> {
    let mut rng = Rng::new(7);
    let mut all = fixed_valve::walks();
    all.extend((0..600).map(|_| random_valve::walk(&mut rng)));
    all
}

#[test]
fn walks_are_whole_scripts_and_agree() {
    let all = all_walks();
    assert_eq!(all, all_walks());
    let batches = batches(all.clone(), Walk::script_bytes);
    assert_eq!(batches.concat(), all);
    for batch in &batches {
        let items: Vec<Item> = batch.iter().flat_map(Walk::items).collect();
        assert!(items.concat().len() <= LONGEST_SCRIPT);
        let answers = transcript(&items.concat());
        let mut lines = answers.lines();
        for one in batch {
            assert_eq!(disagreement(one, &mut lines), None);
        }
        assert_eq!(lines.next(), None);
    }
}

#[test]
fn fixed_walks_have_every_four_steps_of_five_sorts() {
    let walks = fixed_valve::walks();
    let four: BTreeSet<&[Item]> = walks[..625].iter().map(|one| &one.steps[..]).collect();
    assert_eq!(four.len(), 625);
    let steps: BTreeSet<&Item> = four.iter().flat_map(|steps| steps.iter()).collect();
    assert_eq!(steps.len(), 5);
    let (arm, fire) = (carried(arming(0)), carried(firing(0, 0x1810)));
    for item in [&arm, &fire, &fresh_valve(), &carried(firing(0, 0x1811))] {
        assert!(steps.contains(item));
    }
    let by_name = [
        [&arm, &arm, &arm, &fire],
        [&arm, &fire, &fire, &arm],
        [&fire, &arm, &fresh_valve(), &fire],
    ];
    for steps in by_name {
        assert!(four.contains(&steps.map(Item::clone)[..]));
    }
}

/// From which valve to which each step of the walks leads, with its code, and how often.
fn ways(walks: &[Walk]) -> BTreeMap<(u16, u8, u16), usize> {
    let mut ways = BTreeMap::new();
    for walk in walks {
        let mut valve = Valve::default();
        for step in &walk.steps {
            let before = valve.status();
            let code = match *step == fresh_valve() {
                true => {
                    valve = Valve::default();
                    0
                }
                false => valve
                    .carry_out_bytes(&step[2..])
                    .map_or_else(|it| it.code, |_| 0),
            };
            *ways.entry((before, code, valve.status())).or_default() += 1;
        }
    }
    ways
}

#[test]
fn random_walks_go_every_way_often() {
    let random = all_walks().split_off(fixed_valve::walks().len());
    assert_eq!(random.len(), 600);
    let ways = ways(&random);
    let often = |before, code, after| ways.get(&(before, code, after)).copied();
    for status in [0x0000, 0x4000, 0xc000] {
        for code in 40..=44 {
            assert!(often(status, code, status) > Some(20), "{code} {ways:?}");
        }
        assert!(often(status, 0, 0x0000) > Some(20), "{ways:?}");
    }
    for (before, code, after) in [
        (0x0000, 45, 0x0000),
        (0x0000, 0, 0x4000),
        (0x4000, 0, 0x4000),
        (0x4000, 46, 0x4000),
        (0x4000, 0, 0xc000),
        (0xc000, 46, 0xc000),
        (0xc000, 0, 0xc000),
    ] {
        assert!(often(before, code, after) > Some(150), "{ways:?}");
    }
    // Five refusals and a fresh valve behind each, and these seven.
    assert_eq!(ways.len(), 3 * 6 + 7, "{ways:?}");
}

/// The items of all fixed scripts about the valve.
fn fixed_items() -> BTreeSet<Item> {
    fixed_valve::scripts().concat().into_iter().collect()
}

#[test]
fn fixed_items_have_every_bad_input_by_name() {
    let sent = fixed_items();
    let demand = |name: &str, frame: &[u8]| {
        for item in [valve(frame), valve_frame(ROOM, frame)] {
            assert!(sent.contains(&item), "{name}");
        }
    };
    for words in [arming(0), firing(0, 0x1810)] {
        let again = bytes(&words).repeat(4);
        for length in [0, 1, 12, 62, 63, 64, 65, 66, 128, 255] {
            demand("lengths", &again[..length]);
        }
        for place in 0..32 {
            let broken = with(&words, place, words[place] ^ 0x8000);
            demand("a word broken", &bytes(&broken));
            demand("a word broken and mended", &bytes(&mended(broken)));
        }
    }
    demand("zeros", &[0; 64]);
    for flags in FLAGS {
        demand("flags of arming", &bytes(&arming(flags)));
        demand("flags of firing", &bytes(&firing(flags, 0x1810)));
        for code in [0, 0x180f, 0x1811, 0x1018, 0xffff] {
            demand("codes", &bytes(&firing(flags, code)));
        }
        for code in [0xfff3u16, 0xfff2, 0xfff4] {
            let code = code.wrapping_sub(flags << 14);
            demand("sums about 0", &bytes(&firing(flags, code)));
        }
    }
    for place in 0..32 {
        for bit in 0..16 {
            let words = with(&arming(2), place, arming(2)[place] ^ 1 << bit);
            assert!(sent.contains(&valve_frame(ROOM, &bytes(&words))));
            assert!(sent.contains(&valve_frame(ROOM, &bytes(&mended(words)))));
        }
    }
}

#[test]
fn fixed_rooms_just_suffice_are_one_short_none_and_large() {
    let sent = fixed_items();
    for words in [arming(1), firing(2, 7)] {
        for room in [0, 1, 12, 63, 64, 65, 128, 255] {
            assert!(sent.contains(&valve_frame(room, &bytes(&words))), "{room}");
        }
    }
}

/// Every refusal that is due of a frame on a valve, whatever the others. What is missing of a
/// frame breaks no rule about words; a frame wants to fire where it has word 3 for that.
fn due(frame: &[u8], valve: Valve) -> BTreeSet<u8> {
    let mut words = [0; 32];
    for (word, pair) in words.iter_mut().zip(frame.chunks_exact(2)) {
        *word = u16::from_be_bytes([pair[0], pair[1]]);
    }
    let first = &words[1..5];
    let fires = first[2] == 0xffff;
    let whole = frame.len() >= 12;
    let rules = [
        (40, frame.len() != 64),
        (41, whole && mended(words) != words),
        (42, whole && words[0] % 0x4000 != 14),
        (43, words[6..] != [0; 26]),
        (
            44,
            whole && first != [0xffff, 1, 0, 0] && first[..3] != [0, 0, 0xffff],
        ),
        (45, fires && valve == Valve::Safe),
        (46, fires && first[3] != 6160),
    ];
    let broken = rules.into_iter().filter(|(_, broken)| *broken);
    broken.map(|(code, _)| code).collect()
}

#[test]
fn fixed_frames_have_every_refusal_alone_and_every_two_due_at_once() {
    let mut seen: BTreeSet<BTreeSet<u8>> = BTreeSet::new();
    let mut two: BTreeSet<(u8, u8)> = BTreeSet::new();
    for script in fixed_valve::scripts() {
        let mut replay = ValveReplay::default();
        for item in &script {
            let before = replay.valve;
            let told = replay.item(&mut Script::new(item)).unwrap_or_default();
            if !told.starts_with("valve") {
                continue;
            }
            let due = due(&item[2..], before);
            let code = due.first().copied().unwrap_or_default();
            assert!(
                told.starts_with(&format!("valve {code} ")),
                "{due:?} {told}"
            );
            for first in &due {
                two.extend(due.iter().filter(|it| *it > first).map(|it| (*first, *it)));
            }
            seen.insert(due);
        }
    }
    for first in 40..=46u8 {
        assert!(seen.contains(&BTreeSet::from([first])), "{first}");
        for second in first + 1..=46 {
            assert!(two.contains(&(first, second)), "{first} {second}");
        }
    }
    assert!(seen.contains(&BTreeSet::new()));
    assert!(seen.contains(&(40..=46).collect()));
}

#[test]
fn valves_are_of_the_sort_that_they_are_said_to_be() {
    let told = BEFORE.map(|before| transcript(&before.items().concat()));
    assert_eq!(told, ["", "valve 0 4000\n", "valve 0 4000\nvalve 0 c000\n"]);
}

#[test]
fn fixed_scripts_are_no_longer_than_they_may_be_but_for_two_and_end_badly_at_every_byte() {
    let scripts = fixed_valve::scripts();
    let lengths = scripts.iter().map(|script| script.concat().len());
    let long: Vec<usize> = lengths.filter(|it| *it >= LONGEST_SCRIPT).collect();
    assert_eq!(
        long,
        [LONGEST_SCRIPT, LONGEST_SCRIPT + 1, 2 * LONGEST_SCRIPT]
    );
    let texts: Vec<String> = scripts.iter().map(|it| transcript(&it.concat())).collect();
    assert_eq!(texts.iter().filter(|text| *text == "too long\n").count(), 2);
    assert_eq!(texts.iter().filter(|text| text.is_empty()).count(), 1);
    let bad: Vec<&String> = texts
        .iter()
        .filter(|it| it.ends_with("bad script\n"))
        .collect();
    // Each byte of both items but the last, and ten first bytes, each twice.
    assert_eq!(bad.len(), 65 + 66 + 20);
    assert!(bad.iter().all(|text| text.lines().count() == 2));
}

#[test]
fn random_items_are_whole_the_same_again_and_have_every_answer() {
    let scripts = random_valve::scripts(&mut Rng::new(7), 600);
    assert_eq!(scripts, random_valve::scripts(&mut Rng::new(7), 600));
    assert!(scripts.iter().all(|it| it.concat().len() <= LONGEST_SCRIPT));
    let mut seen: BTreeMap<String, usize> = BTreeMap::new();
    for script in scripts {
        let text = transcript(&script.concat());
        assert!(!text.contains("bad script"));
        for line in text.lines() {
            let words: Vec<&str> = line.split(' ').collect();
            let sort = match words[..] {
                ["frame", "0", flags, "arm", code, ..] => format!("arm {flags} {code}"),
                ["frame", "0", flags, "fire", _, code, ..] => format!("fire {flags} {code}"),
                _ => line.into(),
            };
            *seen.entry(sort).or_default() += 1;
        }
    }
    let often = |sort: &str| seen.get(sort).copied();
    for flags in FLAGS {
        for order in ["arm", "fire"] {
            assert!(often(&format!("{order} {flags} 0")) > Some(80), "{seen:?}");
            assert!(often(&format!("{order} {flags} 24")) > Some(30), "{seen:?}");
        }
    }
    for code in 40..=44 {
        assert!(often(&format!("frame {code}")) > Some(30), "{seen:?}");
        for status in ["0000", "4000", "c000"] {
            let sort = format!("valve {code} {status}");
            assert!(often(&sort) > Some(10), "{sort} {seen:?}");
        }
    }
    for sort in ["45 0000", "46 4000", "46 c000", "0 4000", "0 c000"] {
        assert!(often(&format!("valve {sort}")) > Some(30), "{seen:?}");
    }
}
