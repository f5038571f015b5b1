//! The comparison's own tools for the four-seat bench: what is sent, that answers about a
//! sitting that do not fit together are noticed, and that every sort of answer is had often.

use std::collections::{BTreeMap, BTreeSet};

use reference::command::{Kind, TABLE};
use reference::comparison::agreement::Disagreement;
use reference::comparison::fixed::batches;
use reference::comparison::items::{command, fresh, queue, raw, second, status, turn, Item};
use reference::comparison::rng::Rng;
use reference::comparison::sittings::{carried, disagreement, Sitting};
use reference::comparison::{fixed_seats, random_seats};
use reference::replay::{self, Script, LONGEST_SCRIPT};
use reference::seats_replay::{transcript, SeatsReplay};

const SEATS: [u8; 4] = [0, 1, 2, 3];

fn flush() -> Vec<u8> {
    raw(false, Kind::TlmFlush, [0; 2])
}

fn region(x: u32) -> Vec<u8> {
    raw(false, Kind::ImgRegion, [x, 0])
}

fn damaged() -> Vec<u8> {
    [&flush()[..7], &[9]].concat()
}

fn of(events: &[Item]) -> Sitting {
    Sitting {
        events: events.to_vec(),
    }
}

/// Two seats with two commands each and a third with one, of which one is refused by the bench;
/// bytes that are refused; a second, the status, a turn with none waiting, and a fresh bench.
fn sitting() -> Sitting {
    of(&[
        queue(0, &region(1)),
        queue(0, &region(2)),
        queue(2, &region(3)),
        queue(2, &raw(false, Kind::Close, [0; 2])),
        queue(1, &damaged()),
        queue(4, &flush()),
        turn(),
        queue(3, &flush()),
        turn(),
        status(),
        turn(),
        turn(),
        turn(),
        second(),
        turn(),
        fresh(),
        turn(),
        queue(0, &region(1)),
        turn(),
    ])
}

/// The lines of both programs.
#[derive(Clone)]
struct Answers {
    seats: Vec<String>,
    replay: Vec<String>,
}

fn lines(text: &str) -> Vec<String> {
    text.lines().map(String::from).collect()
}

fn answers(sitting: &Sitting) -> Answers {
    let seats = transcript(&sitting.items().concat());
    let items = carried(std::slice::from_ref(sitting), &seats);
    Answers {
        seats: lines(&seats),
        replay: lines(&replay::transcript(&items.concat())),
    }
}

fn found_in(sitting: &Sitting, answers: &Answers) -> Option<Disagreement> {
    let (seats, replay) = (answers.seats.join("\n"), answers.replay.join("\n"));
    disagreement(sitting, &mut seats.lines(), &mut replay.lines())
}

/// What is told of the sitting where the program for the seats answers otherwise in this place.
fn found_with(sitting: &Sitting, place: usize, other: &str) -> Option<Disagreement> {
    let mut answers = answers(sitting);
    answers.seats[place] = other.into();
    found_in(sitting, &answers)
}

/// The same where it gives these lines, and the other program the right ones for the commands
/// that these serve.
fn found_with_lines(events: &[Item], lines: &[&str]) -> Option<Disagreement> {
    let sitting = of(events);
    let seats = lines.join("\n");
    let items = carried(std::slice::from_ref(&sitting), &seats);
    let replay = replay::transcript(&items.concat());
    disagreement(&sitting, &mut seats.lines(), &mut replay.lines())
}

const TAKEN: &str = "queued 0 0 0 0 0";
const NONE: &str = "turn 0 none";

/// The line of a record with code 0.
fn record(seat: u8, number: u32) -> String {
    format!("turn 0 record {seat:02x}000000{number:08x}00000000")
}

#[test]
fn each_queueing_of_a_sitting_is_sent_once_more_alone() {
    let (first, other) = (queue(0, &flush()), queue(9, &[]));
    let one = of(&[
        first.clone(),
        turn(),
        other.clone(),
        first.clone(),
        second(),
    ]);
    let items = [
        fresh(),
        first.clone(),
        turn(),
        other.clone(),
        first.clone(),
        second(),
        fresh(),
        first,
        fresh(),
        other,
    ];
    assert_eq!(one.items(), items);
    assert_eq!(one.script_bytes(), items.concat().len());
}

#[test]
fn the_other_program_is_sent_what_was_served_in_its_order() {
    let one = sitting();
    let seats = transcript(&one.items().concat());
    let expected = [
        fresh(),
        command(&region(1)),
        command(&region(3)),
        status(),
        command(&flush()),
        command(&region(2)),
        command(&raw(false, Kind::Close, [0; 2])),
        second(),
        fresh(),
        command(&region(1)),
    ];
    assert_eq!(carried(std::slice::from_ref(&one), &seats), expected);
    // Of two sittings one behind the other.
    let both = [one.clone(), one];
    let twice = carried(&both, &seats.repeat(2));
    assert_eq!(twice, [expected.clone(), expected].concat());
}

#[test]
fn the_references_answers_fit_together() {
    let one = sitting();
    let told = answers(&one);
    let closed = "turn 0 record 020b00000000000200000000";
    let [first, other] = ["queued 4 0 0 0 0", "queued 51 0 0 0 0"].map(String::from);
    let taken = || TAKEN.to_string();
    let expected = [
        vec![
            taken(),
            taken(),
            taken(),
            taken(),
            first.clone(),
            other.clone(),
        ],
        vec![record(0, 1), taken(), record(2, 1), told.seats[9].clone()],
        vec![
            record(3, 1),
            record(0, 2),
            closed.into(),
            "second 0 0".into(),
        ],
        vec![NONE.into(), NONE.into(), taken(), record(0, 1)],
        // Alone, in the order of their bytes.
        vec![taken(), taken(), first, taken(), taken(), taken(), other],
    ];
    assert_eq!(told.seats, expected.concat());
    assert_eq!(found_in(&one, &told), None);
    assert_eq!(found_in(&of(&[]), &answers(&of(&[]))), None);
}

#[test]
fn a_line_that_is_gone_or_cannot_be_read_is_noticed() {
    let one = sitting();
    let right = answers(&one);
    for place in 0..right.seats.len() {
        for other in [
            "",
            "x",
            "turn",
            "turn 0",
            "turn 0 record",
            "queued",
            "second 0 1",
        ] {
            assert!(found_with(&one, place, other).is_some(), "{place} {other}");
        }
    }
    for place in 0..right.replay.len() {
        let mut fewer = right.clone();
        fewer.replay.remove(place);
        assert!(found_in(&one, &fewer).is_some(), "{place}");
    }
    let mut fewer = right.clone();
    fewer.seats.pop();
    assert!(found_in(&one, &fewer).is_some());
}

/// The places of the records among the answers of the program for the seats.
fn record_places(answers: &Answers) -> Vec<usize> {
    let is_record = |place: &usize| answers.seats[*place].contains("record");
    (0..answers.seats.len()).filter(is_record).collect()
}

#[test]
fn a_record_with_another_digit_is_noticed() {
    let one = sitting();
    let right = answers(&one);
    for place in record_places(&right) {
        let line = right.seats[place].clone();
        assert!(found_with(&one, place, NONE).is_some(), "{place}");
        for digit in 14..line.len() {
            for other in "0123456789abcdef".chars() {
                let mut changed = line.clone();
                changed.replace_range(digit..=digit, &other.to_string());
                let found = found_with(&one, place, &changed);
                assert_eq!(found.is_some(), changed != line, "{changed}");
            }
        }
        for other in [
            format!("{line}00"),
            line[..36].into(),
            line.replace("0 r", "1 r"),
        ] {
            assert!(found_with(&one, place, &other).is_some(), "{other}");
        }
    }
}

#[test]
fn a_turn_with_a_record_where_none_waits_is_noticed() {
    let one = sitting();
    let right = answers(&one);
    for place in 0..right.seats.len() {
        if right.seats[place] != NONE {
            continue;
        }
        for other in [
            record(0, 3),
            record(1, 1),
            record(0, 1),
            "turn 27 none".into(),
        ] {
            let found = found_with(&one, place, &other).expect("none waits");
            assert_eq!((&found.foretold[..], &found.found), (NONE, &other));
        }
    }
}

#[test]
fn codes_that_no_turn_can_have_are_noticed() {
    let events = [queue(1, &flush()), turn()];
    for code in 0..=255u8 {
        let line = format!("turn 0 record 01{code:02x}0000{:08x}00000000", 1);
        let found = found_with_lines(&events, &[TAKEN, &line, TAKEN]);
        // Of the others the bench itself says that it is another one.
        assert_eq!(found.is_some(), code != 0, "{code}");
        let foretold = found.map(|it| it.foretold).unwrap_or_default();
        let possible = matches!(code, 11..=19 | 25 | 26);
        assert_eq!(foretold == format!("command {code} 0 0 0 0"), possible);
    }
}

#[test]
fn a_seat_that_is_served_twice_while_another_waits_is_noticed() {
    let mut events: Vec<Item> = [1, 1, 1, 3, 3].map(|seat| queue(seat, &flush())).to_vec();
    events.extend(vec![turn(); 5]);
    let told = |order: [(u8, u32); 5]| {
        let records = order.map(|(seat, number)| record(seat, number));
        let mut lines = vec![TAKEN; 5];
        lines.extend(records.iter().map(String::as_str));
        lines.extend([TAKEN; 2]);
        found_with_lines(&events, &lines)
    };
    assert_eq!(told([(1, 1), (3, 1), (1, 2), (3, 2), (1, 3)]), None);
    // Fair as well, though not in the order of the rules: that the reference notices.
    assert_eq!(told([(3, 1), (1, 1), (3, 2), (1, 2), (1, 3)]), None);
    let found = told([(1, 1), (1, 2), (3, 1), (3, 2), (1, 3)]).expect("seat 3 waits");
    assert_eq!(
        (found.foretold, found.found),
        ("the record of seat 3".into(), record(1, 2))
    );
    let found = told([(1, 1), (3, 1), (3, 2), (1, 2), (1, 3)]).expect("seat 1 waits");
    assert_eq!(
        (found.foretold, found.found),
        ("the record of seat 1".into(), record(3, 2))
    );
}

#[test]
fn a_seat_that_waits_for_a_fifth_turn_is_noticed() {
    let mut events: Vec<Item> = SEATS.map(|seat| queue(seat, &flush())).to_vec();
    events.extend([turn(), queue(0, &flush())]);
    events.extend(vec![turn(); 4]);
    let first = record(0, 1);
    let told = |order: [(u8, u32); 4]| {
        let records = order.map(|(seat, number)| record(seat, number));
        let mut lines = vec![TAKEN, TAKEN, TAKEN, TAKEN, &first, TAKEN];
        lines.extend(records.iter().map(String::as_str));
        lines.extend([TAKEN; 4]);
        found_with_lines(&events, &lines)
    };
    assert_eq!(told([(1, 1), (2, 1), (3, 1), (0, 2)]), None);
    for late in [
        [(1, 1), (2, 1), (0, 2), (3, 1)],
        [(0, 2), (1, 1), (2, 1), (3, 1)],
        [(3, 1), (0, 2), (1, 1), (2, 1)],
    ] {
        assert!(told(late).is_some(), "{late:?}");
    }
}

#[test]
fn places_that_are_miscounted_are_noticed() {
    for taken in [31, 32, 33] {
        let events = vec![queue(2, &flush()); taken + 1];
        let mut lines = vec![TAKEN; taken];
        lines.push("queued 52 0 0 0 0");
        lines.push(TAKEN);
        let found = found_with_lines(&events, &lines);
        let foretold = found.map(|it| it.foretold);
        let expected = [Some(TAKEN), None, Some("queued 52 0 0 0 0")][taken - 31];
        assert_eq!(foretold.as_deref(), expected, "{taken}");
    }
}

#[test]
fn another_answer_to_a_queueing_is_noticed() {
    let one = sitting();
    let right = answers(&one);
    for place in 0..right.seats.len() {
        if !right.seats[place].starts_with("queued") {
            continue;
        }
        for code in [0, 1, 2, 3, 4, 5, 6, 7, 8, 9, 10, 27, 51, 52, 53] {
            let other = format!("queued {code} 0 0 0 0");
            let found = found_with(&one, place, &other);
            assert_eq!(
                found.is_some(),
                other != right.seats[place],
                "{place} {other}"
            );
        }
    }
}

#[test]
fn a_refusal_that_depends_on_the_state_is_noticed() {
    let far = raw(false, Kind::ImgRegion, [0, 1024]);
    let events = [queue(0, &far), queue(0, &flush()), queue(0, &far), turn()];
    let told = |first, second, alone| {
        let record = record(0, 1);
        found_with_lines(&events, &[first, TAKEN, second, &record, TAKEN, alone])
    };
    let right = "queued 8 2 1024 0 1023";
    assert_eq!(told(right, right, right), None);
    for other in [
        "queued 8 1 1024 0 1023",
        "queued 8 2 1024 0 1024",
        "queued 7 0 0 0 0",
    ] {
        assert!(told(other, right, right).is_some(), "{other}");
        assert!(told(right, other, right).is_some(), "{other}");
        assert!(told(right, right, other).is_some(), "{other}");
    }
}

#[test]
fn refusals_that_no_bytes_can_have_are_noticed() {
    let events = [queue(0, &flush())];
    for code in 0..=255 {
        let line = format!("queued {code} 0 0 0 0");
        let found = found_with_lines(&events, &[&line, &line]);
        let possible = matches!(code, 0..=10 | 53);
        assert_eq!(found.is_none(), possible, "{code}");
    }
}

#[test]
fn what_the_other_program_answers_otherwise_is_noticed() {
    let one = sitting();
    let right = answers(&one);
    for place in 0..right.replay.len() {
        for other in ["command 12 0 0 0 0", "command 0 0 0 0 1", "status 27"] {
            let mut answers = right.clone();
            answers.replay[place] = other.into();
            let found = found_in(&one, &answers).expect("it is another line");
            assert_eq!(found.foretold, right.replay[place]);
        }
    }
}

#[test]
fn shrinking_keeps_the_events_that_matter() {
    let one = of(&vec![sitting().events; 3].concat());
    let is_refused = |one: &Sitting| transcript(&one.items().concat()).contains("record 020b");
    let smallest = one.smallest(&mut |fewer| is_refused(fewer));
    assert_eq!(
        smallest.events,
        [queue(2, &raw(false, Kind::Close, [0; 2])), turn()]
    );
}

/// Fixed sittings, then random ones.
fn all_sittings() -> Vec<Sitting> {
    [fixed_seats::sittings(), random_sittings()].concat()
}

fn random_sittings() -> Vec<Sitting> {
    let mut rng = Rng::new(7);
    (0..600).map(|_| random_seats::sitting(&mut rng)).collect()
}

#[test]
fn sittings_are_whole_scripts_and_agree() {
    assert_eq!(all_sittings(), all_sittings());
    let batches = batches(all_sittings(), Sitting::script_bytes);
    assert_eq!(batches.concat().len(), fixed_seats::sittings().len() + 600);
    for batch in &batches {
        let items: Vec<Item> = batch.iter().flat_map(Sitting::items).collect();
        let seats = transcript(&items.concat());
        let carried = carried(batch, &seats).concat();
        assert!(items.concat().len() <= LONGEST_SCRIPT && carried.len() <= LONGEST_SCRIPT);
        let replay = replay::transcript(&carried);
        let (mut seats, mut replay) = (seats.lines(), replay.lines());
        for one in batch {
            assert_eq!(disagreement(one, &mut seats, &mut replay), None);
        }
        assert_eq!((seats.next(), replay.next()), (None, None));
    }
}

/// The answers to the events of these sittings, each by its sort with how often it occurs.
fn sorts(sittings: &[Sitting]) -> BTreeMap<String, usize> {
    let mut seen = BTreeMap::new();
    for one in sittings {
        for line in transcript(&one.events.concat()).lines() {
            let words: Vec<&str> = line.split(' ').collect();
            let sort = match words[..] {
                ["turn", "0", "record", digits] => format!("record {}", &digits[2..4]),
                ["queued" | "handed" | "turn", code, ..] => format!("{} {code}", words[0]),
                _ => words[0].into(),
            };
            *seen.entry(sort).or_default() += 1;
        }
    }
    seen
}

#[test]
fn fixed_sittings_have_every_answer() {
    let sorts: BTreeSet<String> = sorts(&fixed_seats::sittings()).into_keys().collect();
    let queued = (0..=10).chain(51..=53).map(|code| format!("queued {code}"));
    let records = [0u8, 25, 26].into_iter().chain(11..=19);
    let records = records.map(|code| format!("record {code:02x}"));
    let others = ["turn 0", "second", "status", "handed 0"].map(String::from);
    let expected: BTreeSet<String> = queued.chain(records).chain(others).collect();
    assert_eq!(sorts, expected);
}

#[test]
fn random_sittings_have_every_answer_often() {
    let sorts = sorts(&random_sittings());
    let often = |sort: &str, least: usize| {
        let times = sorts.get(sort).copied().unwrap_or_default();
        assert!(times > least, "{sort} {times}");
    };
    for code in (0..=10).chain([52]) {
        often(&format!("queued {code}"), 20);
    }
    for code in [51, 53] {
        often(&format!("queued {code}"), 100);
    }
    for code in [11, 12, 13, 14, 15, 17, 18, 19, 26] {
        often(&format!("record {code:02x}"), 20);
    }
    often("record 00", 2000);
    for sort in ["turn 0", "second", "status"] {
        often(sort, 500);
    }
    often("handed 0", 50);
}

/// Each queueing of the fixed sittings, with the code that it has there.
fn fixed_queueings() -> BTreeSet<(Item, u8)> {
    let mut all = BTreeSet::new();
    for one in fixed_seats::sittings() {
        let answers = transcript(&one.events.concat());
        let queued = answers.lines().filter(|line| line.starts_with("queued"));
        let queueings = one.events.iter().filter(|event| event[0] == 1);
        for (item, line) in queueings.zip(queued) {
            let code = line.split(' ').nth(1).and_then(|word| word.parse().ok());
            all.insert((item.clone(), code.expect("a code")));
        }
    }
    all
}

#[test]
fn fixed_sittings_have_every_bad_input_by_name() {
    let sent = fixed_queueings();
    let demand = |name: &str, seat: u8, bytes: &[u8], code: u8| {
        assert!(sent.contains(&(queue(seat, bytes), code)), "{name} {seat}");
    };
    for seat in 4..=255 {
        demand("a seat that there is not", seat, &flush(), 51);
    }
    for seat in [4, 255] {
        demand("51 before 1", seat, &[], 51);
        demand("51 before 53", seat, &flush().repeat(2), 51);
    }
    for row in &TABLE {
        let full = sent
            .iter()
            .filter(|(item, code)| *code == 52 && item[3..5] == row.opcode.to_be_bytes());
        assert!(full.count() > 0, "full and fine {}", row.name);
    }
    demand("two commands", 2, &flush().repeat(2), 53);
    demand("one byte more", 2, &[&flush()[..], &[0]].concat(), 53);
    for seat in SEATS {
        demand(
            "full",
            seat,
            &raw(false, Kind::ImgRegion, [32, seat.into()]),
            52,
        );
        demand("full and followed", seat, &flush().repeat(2), 53);
        for code in 1..=10 {
            let with_code = sent
                .iter()
                .filter(|(item, it)| item[1] == seat && *it == code);
            assert!(with_code.count() > 0, "{seat} {code}");
        }
    }
}

#[test]
fn fixed_sittings_have_every_set_of_waiting_seats_behind_every_last_one() {
    let mut seen: BTreeSet<(u8, u8)> = BTreeSet::new();
    for one in fixed_seats::sittings() {
        let mut replay = SeatsReplay::default();
        for event in &one.events {
            if *event == turn() {
                let waits = |seat: &u8| !replay.seats.queues[usize::from(*seat)].is_empty();
                let set = SEATS.into_iter().filter(waits).map(|seat| 1 << seat).sum();
                seen.insert((replay.seats.last, set));
            }
            replay.item(&mut Script::new(event));
        }
    }
    assert_eq!(seen.len(), 4 * 16);
}

#[test]
fn fixed_scripts_end_badly_at_every_byte_or_are_about_the_longest() {
    let scripts = fixed_seats::scripts();
    let lengths: Vec<usize> = scripts.iter().map(|it| it.concat().len()).collect();
    assert!(lengths.ends_with(&[65_536, 65_537, 131_072]));
    let texts: Vec<String> = scripts.iter().map(|it| transcript(&it.concat())).collect();
    let count = |holds: &dyn Fn(&str) -> bool| texts.iter().filter(|it| holds(it)).count();
    assert_eq!(count(&|text| text == "too long\n"), 2);
    assert_eq!(count(&|text| text.is_empty()), 1);
    // Each byte of a queueing but the last, and ten first bytes, each twice.
    assert_eq!(count(&|text| text == "turn 0 none\nbad script\n"), 10 + 20);
    assert_eq!(texts.len(), 10 + 20 + 4);
}
