//! The comparison's own tools for lists on a card: which lists are sent, that a list that
//! comes back as another one is noticed, and that every sort of answer is had often.

use std::collections::{BTreeMap, BTreeSet};

use reference::card::{raw_form, stored_form, LONGEST_CARD};
use reference::codes::Placed;
use reference::command::{Command, Kind, TABLE};
use reference::comparison::agreement::Disagreement;
use reference::comparison::cards::{
    command, endless, groups, list, longer, raw_of, replaced, stored, stored_of,
};
use reference::comparison::fixed::batches;
use reference::comparison::items::{from_card, to_card, Item};
use reference::comparison::rng::Rng;
use reference::comparison::shrink::numbers;
use reference::comparison::trips::{backs, disagreement, Form, Trip};
use reference::comparison::{fixed_cards, random_cards};
use reference::lists_replay::transcript;
use reference::replay::LONGEST_SCRIPT;

/// A flush, a goal, and a wait.
fn commands() -> [Command; 3] {
    [
        Command::new(false, Kind::TlmFlush, [0; 2]),
        Command::new(true, Kind::TrkGoal, [0x43ff_c000, 0x8000_0000]),
        Command::new(true, Kind::Wait, [600, 0]),
    ]
}

fn flushes(count: usize) -> Vec<u8> {
    raw_of(&vec![commands()[0]; count])
}

fn stored_flushes(count: usize) -> Vec<u64> {
    list(&vec![vec![0x015a, 0]; count])
}

fn trips() -> [Trip; 2] {
    let (form, stored_form) = (Form::Raw, Form::Stored);
    [
        Trip {
            form,
            list: raw_of(&commands()),
        },
        Trip {
            form: stored_form,
            list: stored_of(&commands()),
        },
    ]
}

/// The answers of the reference to both ways.
fn answers(trip: &Trip) -> [Vec<String>; 2] {
    let out = transcript(&trip.out());
    let back = transcript(&backs(std::slice::from_ref(trip), &out).concat());
    [out, back].map(|text| text.lines().map(String::from).collect())
}

fn found_in(trip: &Trip, answers: &[Vec<String>; 2]) -> Option<Disagreement> {
    let [out, back] = answers.each_ref().map(|lines| lines.join("\n"));
    disagreement(trip, &mut out.lines(), &mut back.lines())
}

#[test]
fn numbers_are_written_here_as_the_reference_does() {
    assert_eq!(groups(0), [0]);
    assert_eq!(groups(300), [0xac, 2]);
    assert_eq!(groups(u32::MAX.into()), [0xff, 0xff, 0xff, 0xff, 0x0f]);
    assert_eq!(groups(1 << 63).len(), 10);
    assert_eq!(longer(1, 1), [0x81, 0]);
    assert_eq!(longer(300, 2), [0xac, 0x82, 0x80, 0]);
    assert_eq!(endless(1, 0), [0x81]);
    assert_eq!(endless(1, 2), [0x81, 0x80, 0x80]);
    let commands = commands();
    assert_eq!(stored_form(&raw_of(&commands)), Ok(stored_of(&commands)));
    assert_eq!(raw_form(&stored_of(&commands)), Ok(raw_of(&commands)));
    assert_eq!(numbers(&stored_of(&commands)).len(), 2 + 2 + 4 + 3);
    assert_eq!(numbers(&[1, 0x80, 0x80]), [vec![1], vec![0x80, 0x80]]);
}

#[test]
fn a_trip_sends_back_what_the_program_made_of_the_list() {
    let [raw, stored] = trips();
    assert_eq!(raw.out(), to_card(4096, &raw.list));
    assert_eq!(stored.out(), from_card(4096, &stored.list));
    let made = "stored 0 0 0 0 0 0 0100";
    assert_eq!(raw.back(made), Some(from_card(4096, &[1, 0])));
    let made = "raw 0 0 0 0 0 0";
    assert_eq!(stored.back(made), Some(to_card(4096, &[])));
    for refused in ["stored 20 0 0 0 0 0", "raw 0 0 0 0 0 0", "", "stored"] {
        assert_eq!(raw.back(refused), None, "{refused}");
    }
    for trip in trips() {
        assert_eq!(answers(&trip)[1].len(), 2);
        assert_eq!(found_in(&trip, &answers(&trip)), None);
    }
}

#[test]
fn a_wrong_answer_in_any_one_place_is_noticed() {
    for trip in trips() {
        let right = answers(&trip);
        for (way, lines) in right.iter().enumerate() {
            for place in 0..lines.len() {
                let line = &lines[place];
                let mut others = vec![format!("{line} 9"), String::new(), line.replace('0', "x")];
                // On the way out another list would come back as another one.
                others.extend((way == 1).then(|| line.replace('0', "7")));
                for other in others.into_iter().filter(|other| other != line) {
                    let mut answers = right.clone();
                    answers[way][place] = other;
                    assert!(found_in(&trip, &answers).is_some(), "{answers:#?}");
                }
                let mut fewer = right.clone();
                fewer[way].remove(place);
                assert!(found_in(&trip, &fewer).is_some(), "{fewer:#?}");
            }
        }
    }
}

#[test]
fn a_list_that_comes_back_as_another_one_is_told() {
    let [trip, _] = trips();
    let mut answers = answers(&trip);
    let right = answers[1][0].clone();
    answers[1][0] = format!("{right}00");
    let found = found_in(&trip, &answers).expect("they differ");
    assert_eq!((found.foretold, found.found), (right.clone(), right + "00"));
    // A refusal on the way back is one too, and one on the way out is not.
    answers[1][0] = "raw 35 1 0 0 0 0".into();
    assert!(found_in(&trip, &answers).is_some());
    answers[0][0] = "stored 4 1 0 0 0 0".into();
    assert_eq!(found_in(&trip, &answers), None);
}

#[test]
fn shrinking_keeps_the_commands_and_numbers_that_matter() {
    let goal = raw_of(&commands()[1..2]);
    let long = Trip {
        form: Form::Raw,
        list: [flushes(20), goal.clone(), flushes(20)].concat(),
    };
    let has_goal = |trip: &Trip| trip.list.windows(goal.len()).any(|part| part == goal);
    assert_eq!(long.smallest(&mut |fewer| has_goal(fewer)).list, goal);
    let [_, trip] = trips();
    let mut has_number = |fewer: &Trip| numbers(&fewer.list).contains(&groups(0x43ff_c000));
    assert_eq!(trip.smallest(&mut has_number).list, groups(0x43ff_c000));
}

/// Fixed trips, then random ones.
fn all_trips() -> Vec<Trip> {
    let mut rng = Rng::new(7);
    let mut all = fixed_cards::trips();
    all.extend((0..600).map(|_| random_cards::trip(&mut rng)));
    all
}

#[test]
fn trips_are_whole_scripts_that_lose_nothing_and_agree() {
    let all = all_trips();
    assert_eq!(all, all_trips());
    let batches = batches(all.clone(), Trip::script_bytes);
    assert_eq!(batches.concat(), all);
    for batch in &batches {
        let out: Vec<Item> = batch.iter().map(Trip::out).collect();
        let out_answers = transcript(&out.concat());
        let back = backs(batch, &out_answers);
        assert!([&out, &back]
            .iter()
            .all(|it| it.concat().len() <= LONGEST_SCRIPT));
        let back_answers = transcript(&back.concat());
        let (mut out, mut back) = (out_answers.lines(), back_answers.lines());
        for trip in batch {
            assert_eq!(disagreement(trip, &mut out, &mut back), None);
        }
        assert_eq!((out.next(), back.next()), (None, None));
    }
}

#[test]
fn most_trips_really_go_and_come_back() {
    let mut sorts: BTreeMap<(bool, bool), usize> = BTreeMap::new();
    for trip in all_trips() {
        let made = match trip.form {
            Form::Raw => stored_form(&trip.list),
            Form::Stored => raw_form(&trip.list),
        };
        let sort = (trip.form == Form::Raw, made.is_ok());
        *sorts.entry(sort).or_default() += 1;
    }
    for raw in [false, true] {
        assert!(sorts[&(raw, true)] > 250, "{sorts:?}");
        assert!(sorts[&(raw, false)] > 5, "{sorts:?}");
    }
}

/// The items of all fixed scripts about lists on a card.
fn fixed_items() -> BTreeSet<Item> {
    fixed_cards::scripts().concat().into_iter().collect()
}

#[test]
fn fixed_items_have_every_bad_input_by_name() {
    let sent = fixed_items();
    let demand = |name: &str, list: Vec<u8>| {
        assert!(sent.contains(&from_card(4096, &list)), "{name}");
    };
    let between = |one: Vec<u64>| list(&[vec![0x015a, 0], one, vec![0x015a, 0]]);
    demand("an empty input", vec![]);
    demand(
        "an overlong number without an end",
        [&[1][..], &endless(5, 10)].concat(),
    );
    demand("35 hidden behind 34", [&[1][..], &endless(5, 1)].concat());
    for (have, count) in [(5, 6), (5, 4), (5, 0), (5, 0xffff_ffff), (256, 257)] {
        let numbers = stored_flushes(have);
        demand("counts", replaced(&numbers, 1, &groups(count)));
    }
    for row in &TABLE {
        let flag = u64::from(row.kind == Kind::Wait);
        let good = command(flag, row.kind, [1; 2]);
        for other in [row.opcode - 1, row.opcode + 1] {
            let mut one = good.clone();
            one[0] = other.into();
            demand("opcodes", stored(&between(one)));
        }
        for flag in [2, 127, 128, 0xffff_ffff] {
            demand("flags", stored(&between(command(flag, row.kind, [1; 2]))));
        }
        for (place, argument) in row.arguments.iter().enumerate() {
            let [low, high] = argument.ends();
            for value in [low, low.saturating_sub(1), high, high + 1, u32::MAX] {
                let mut one = good.clone();
                one[2 + place] = value.into();
                demand("limits", stored(&between(one)));
            }
        }
        let wrong = command(1 - flag, row.kind, [1; 2]);
        demand("the other flag", stored(&between(wrong)));
    }
    demand(
        "an opcode cut to 16 bits",
        stored(&between(vec![0x1_0114, 0, 1])),
    );
    demand("mode 300", stored(&between(vec![0x0114, 0, 300])));
    for goal in [0x8000_0000, 0x7fc0_0000, 0x7f80_0001, 0xffff_ffff] {
        demand("goals", stored(&between(vec![0x0153, 0, goal, 1])));
        demand("goals", stored(&between(vec![0x0153, 0, 1, goal])));
    }
    for count in [512, 513] {
        let all = stored(&stored_flushes(count));
        demand("about 4,096 bytes", all.clone());
        demand("and bytes left over", [&all[..], &[0]].concat());
        demand("and cut", all[..all.len() - 1].to_vec());
    }
}

#[test]
fn each_number_of_a_good_list_is_cut_made_longer_and_made_33_bits() {
    let sent = fixed_items();
    let few = list(&[
        vec![0x015a, 0],
        vec![0x0153, 1, 0x43ff_c000, 0x8000_0000],
        vec![0x0150, 0, 0, 65_535],
        vec![0x7f04, 1, 600],
        vec![0x7f05, 0],
    ]);
    let all = stored(&few);
    for length in 0..=all.len() {
        assert!(sent.contains(&from_card(4096, &all[..length])), "{length}");
    }
    for (place, number) in few.iter().enumerate() {
        for bad in [longer(*number, 1), groups(1 << 32 | number)] {
            let list = replaced(&few, place, &bad);
            assert!(sent.contains(&from_card(4096, &list)), "{place}");
        }
    }
}

#[test]
fn fixed_raw_lists_have_every_code_in_every_sort_of_place() {
    let mut seen: BTreeSet<(u8, u32)> = BTreeSet::new();
    let items = fixed_items();
    for item in items.iter().filter(|item| item[0] == 0 && item.len() > 5) {
        if let Err(Placed { place, refusal }) = stored_form(&item[5..]) {
            seen.insert((refusal.code, place));
        }
    }
    for code in 1..=10 {
        for place in [1, 2, 3, 4, 301] {
            assert!(seen.contains(&(code, place)), "{code} {place}");
        }
    }
    for length in [4096, 4097] {
        let bytes = flushes(513);
        assert!(items.contains(&to_card(4096, &bytes[..length])));
    }
}

#[test]
fn fixed_rooms_just_suffice_are_one_short_and_are_none() {
    let sent = fixed_items();
    for commands in [vec![], vec![commands()[0]], vec![commands()[0]; 512]] {
        let (raw, stored) = (raw_of(&commands), stored_of(&commands));
        for (list, needed, item) in [
            (&raw, stored.len(), to_card as fn(u16, &[u8]) -> Item),
            (&stored, raw.len(), from_card),
        ] {
            let needed = needed as u16;
            for room in [
                0,
                needed.saturating_sub(1),
                needed,
                needed + 1,
                13_000,
                65_535,
            ] {
                assert!(sent.contains(&item(room, list)), "{needed} {room}");
            }
        }
    }
    // Where the list is refused for another reason, that comes first.
    let too_long = stored(&stored_flushes(513));
    assert!(sent.contains(&from_card(0, &too_long)));
    assert!(sent.contains(&from_card(0, &[1, 0, 0])));
    assert!(sent.contains(&to_card(0, &flushes(513)[..4097])));
}

#[test]
fn fixed_scripts_are_no_longer_than_they_may_be_and_end_badly_at_every_byte() {
    let scripts = fixed_cards::scripts();
    assert!(scripts.iter().all(|it| it.concat().len() <= LONGEST_SCRIPT));
    let texts: Vec<String> = scripts.iter().map(|it| transcript(&it.concat())).collect();
    let bad: Vec<&String> = texts
        .iter()
        .filter(|it| it.ends_with("bad script\n"))
        .collect();
    assert_eq!(bad.len(), 12 + 9);
    assert!(bad.iter().all(|text| text.lines().count() == 3));
}

/// How often each code is answered, by the name of the answer.
fn codes_of(scripts: &[Vec<Item>]) -> BTreeMap<(String, u8), usize> {
    let mut codes = BTreeMap::new();
    for script in scripts {
        let text = transcript(&script.concat());
        for line in text.lines().filter(|line| !line.starts_with("rest")) {
            let words: Vec<&str> = line.split(' ').collect();
            let code = words[1].parse().expect("a code");
            *codes.entry((words[0].into(), code)).or_default() += 1;
        }
    }
    codes
}

#[test]
fn random_items_are_whole_the_same_again_and_have_every_code() {
    let scripts = random_cards::scripts(&mut Rng::new(7), 600);
    assert_eq!(scripts, random_cards::scripts(&mut Rng::new(7), 600));
    assert!(scripts.iter().all(|it| it.concat().len() <= LONGEST_SCRIPT));
    let codes = codes_of(&scripts);
    let demand = |name: &str, code: u8, least: usize| {
        let times = codes.get(&(name.into(), code)).copied().unwrap_or_default();
        assert!(times >= least, "{name} {code} {times} {codes:?}");
    };
    demand("stored", 0, 400);
    demand("raw", 0, 400);
    for code in 1..=10 {
        demand("stored", code, 5);
    }
    for code in [5, 8, 9, 10, 34, 35, 36, 37, 38] {
        demand("raw", code, 10);
    }
    for name in ["stored", "raw"] {
        demand(name, 20, 5);
        demand(name, 24, 50);
    }
}

#[test]
fn inputs_have_every_code_and_are_no_longer_than_is_promised() {
    let code = |made: Result<Vec<u8>, Placed>| made.map_or_else(|it| it.refusal.code, |_| 0);
    let raw: BTreeSet<u8> = fixed_cards::raw_inputs()
        .iter()
        .map(|list| code(stored_form(list)))
        .collect();
    assert_eq!(raw, (0..=10).chain([20]).collect());
    let stored_lists = fixed_cards::stored_inputs();
    let stored: BTreeSet<u8> = stored_lists
        .iter()
        .map(|list| code(raw_form(list)))
        .collect();
    assert_eq!(stored, [0, 5, 8, 9, 10, 20, 34, 35, 36, 37, 38].into());
    assert!(stored_lists.iter().all(|list| list.len() <= LONGEST_CARD));
    let longest = stored_lists
        .iter()
        .filter(|list| list.len() == LONGEST_CARD);
    let codes: BTreeSet<u8> = longest.map(|list| code(raw_form(list))).collect();
    assert_eq!(codes, [20, 34, 37, 38].into());
    let mut rng = Rng::new(7);
    let random = random_cards::stored_inputs(&mut rng, 200);
    assert!(random.iter().all(|list| list.len() <= LONGEST_CARD));
}
