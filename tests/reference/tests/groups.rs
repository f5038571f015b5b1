//! Several commands in the same second: which entries a second hands over, how
//! long a macro is by its waits, and how full a second may be.

use reference::bench::{Bench, Handed};
use reference::codes::{code_and_finding, ACCEPTED};
use reference::command::{Command, Kind};
use reference::comparison::rng::Rng;

/// An entry of a macro, in short.
#[derive(Clone, Copy)]
enum Part {
    /// A region with this X, which tells it from others.
    Place(u32),
    Wait(u32),
    Run(u32),
    Other(Kind, u32, u32),
}

use Part::{Other, Place, Run, Wait};

fn command(part: Part) -> Command {
    let (kind, arguments) = match part {
        Place(x) => (Kind::ImgRegion, [x, 0]),
        Wait(seconds) => (Kind::Wait, [seconds, 0]),
        Run(number) => (Kind::Run, [number, 0]),
        Other(kind, first, second) => (kind, [first, second]),
    };
    Command::new(true, kind, arguments)
}

/// The same as a second shows it when it has executed it.
fn handed(part: Part) -> Handed {
    Handed {
        code: ACCEPTED,
        command: command(part),
    }
}

fn execute(bench: &mut Bench, kind: Kind, argument: u32) -> u8 {
    let command = Command::new(false, kind, [argument, 0]);
    code_and_finding(&bench.carry_out(&command)).0
}

/// Opens the macro, appends the entries, and answers with the code of CLOSE.
fn closed(bench: &mut Bench, number: u32, parts: &[Part]) -> u8 {
    assert_eq!(execute(bench, Kind::Open, number), 0);
    for part in parts {
        let answer = bench.carry_out(&command(*part));
        assert_eq!(answer, Ok(()), "macro {number}");
    }
    execute(bench, Kind::Close, 0)
}

/// A bench with these macros from 0 on, all of them closed.
fn with_macros(macros: &[&[Part]]) -> Bench {
    let mut bench = Bench::default();
    for (number, parts) in (0..).zip(macros) {
        assert_eq!(closed(&mut bench, number, parts), 0, "macro {number}");
    }
    bench
}

/// So many entries to hand over.
fn places(count: usize) -> Vec<Part> {
    (0..count as u32).map(Place).collect()
}

/// What each second of the macro hands over, by the places of its entries. The
/// seconds left must fall by one a second, and the outline must have told all.
fn seconds(bench: &mut Bench, number: u32) -> Vec<Vec<u32>> {
    assert_eq!(execute(bench, Kind::Run, number), 0);
    let outline = bench.macros.outline(number as usize);
    let length = outline.length();
    let mut all: Vec<Vec<u32>> = Vec::new();
    while let Some(running) = &bench.running {
        assert_eq!(running.number as u32, number);
        assert_eq!(bench.seconds_left(), length - all.len());
        let group = bench.second();
        all.push(group.iter().map(|it| it.command.arguments[0]).collect());
    }
    assert_eq!(all.len(), length);
    assert_eq!(all.iter().map(Vec::len).max(), Some(outline.fullest));
    assert_eq!(bench.second(), []);
    all
}

/// The same, as how many entries each second hands over.
fn sizes(bench: &mut Bench, number: u32) -> Vec<usize> {
    let all = seconds(bench, number);
    all.iter().map(Vec::len).collect()
}

#[test]
fn the_two_macros_of_the_example() {
    let flush = Other(Kind::TlmFlush, 0, 0);
    let off = Other(Kind::ImgPwr, 0, 0);
    let mut bench = with_macros(&[&[flush, Wait(2)], &[Run(0), off, Run(0)]]);
    assert_eq!(sizes(&mut bench, 0), [1, 0]);
    assert_eq!(execute(&mut bench, Kind::ImgPwr, 1), 0);
    assert_eq!(execute(&mut bench, Kind::Run, 1), 0);
    assert_eq!(bench.second(), [handed(flush)]);
    assert_eq!(bench.second(), []);
    assert!(bench.power);
    assert_eq!(bench.second(), [handed(off), handed(flush)]);
    assert_eq!((bench.power, bench.flushes), (false, 3));
    assert_eq!((bench.second(), bench.running), (vec![], None));
}

#[test]
fn a_macro_without_a_wait_is_one_second() {
    let mut bench = with_macros(&[&places(5)]);
    assert_eq!(seconds(&mut bench, 0), [[0, 1, 2, 3, 4]]);
}

#[test]
fn groups_run_across_the_edges_of_nested_macros() {
    let mut bench = with_macros(&[&[Place(1)], &[Run(0), Run(0)]]);
    assert_eq!(seconds(&mut bench, 1), [[1, 1]]);
    let inner = [Place(1), Wait(1), Place(2)];
    let outer = [
        Place(3),
        Run(0),
        Place(4),
        Run(0),
        Run(0),
        Wait(2),
        Place(5),
    ];
    let deeper = [Run(1), Run(0), Place(6), Run(1)];
    let mut bench = with_macros(&[&inner, &outer, &deeper]);
    let once: [&[u32]; 6] = [&[3, 1], &[2, 4, 1], &[2, 1], &[2], &[], &[5]];
    assert_eq!(seconds(&mut bench, 1), once);
    let twice: [&[u32]; 12] = [
        &[3, 1],
        &[2, 4, 1],
        &[2, 1],
        &[2],
        &[],
        &[5, 1],
        &[2, 6, 3, 1],
        &[2, 4, 1],
        &[2, 1],
        &[2],
        &[],
        &[5],
    ];
    assert_eq!(seconds(&mut bench, 2), twice);
}

#[test]
fn a_wait_of_a_nested_macro_ends_the_second_of_the_outer_one() {
    let mut bench = with_macros(&[&[Wait(2)], &[Place(1), Run(0), Place(2), Run(0)]]);
    let expected: [&[u32]; 4] = [&[1], &[], &[2], &[]];
    assert_eq!(seconds(&mut bench, 1), expected);
}

#[test]
fn a_wait_at_the_start_closes_an_empty_second() {
    let mut bench = with_macros(&[&[Wait(1), Place(1)], &[Wait(3), Place(1)]]);
    assert_eq!(sizes(&mut bench, 0), [0, 1]);
    assert_eq!(sizes(&mut bench, 1), [0, 0, 0, 1]);
}

#[test]
fn waits_in_a_row_add_up() {
    let waits = [
        Place(1),
        Wait(1),
        Wait(2),
        Wait(1),
        Place(2),
        Wait(1),
        Wait(1),
    ];
    let mut bench = with_macros(&[&waits]);
    assert_eq!(sizes(&mut bench, 0), [1, 0, 0, 0, 1, 0]);
}

#[test]
fn macros_of_waits_only() {
    let mut bench = with_macros(&[&[Wait(1)], &[Wait(2), Wait(3)], &[Run(0), Run(1), Run(0)]]);
    assert_eq!(sizes(&mut bench, 0), [0]);
    assert_eq!(sizes(&mut bench, 1), [0; 5]);
    assert_eq!(sizes(&mut bench, 2), [0; 7]);
}

#[test]
fn a_last_wait_is_followed_by_no_second() {
    let mut bench = with_macros(&[
        &[Place(1), Wait(1)],
        &[Place(1), Wait(1), Place(2), Wait(4)],
    ]);
    assert_eq!(sizes(&mut bench, 0), [1]);
    assert_eq!(sizes(&mut bench, 1), [1, 1, 0, 0, 0]);
}

/// Ways to wait for so many seconds in all.
fn waits_of(total: u32) -> Vec<Vec<Part>> {
    let many = [vec![Wait(4); 140], vec![Wait(total - 560)]].concat();
    let between = [
        Wait(1),
        Place(1),
        Wait(total - 3),
        Place(2),
        Place(3),
        Wait(2),
    ];
    vec![many, between.to_vec(), vec![Wait(total - 300), Wait(300)]]
}

#[test]
fn lengths_around_600_by_waits_alone_and_with_an_entry_behind() {
    for total in [598, 599, 600, 601] {
        for parts in waits_of(total) {
            let behind = [&parts[..], &[Place(9)]].concat();
            for (parts, length) in [(parts, total), (behind, total + 1)] {
                let mut bench = Bench::default();
                let code = closed(&mut bench, 3, &parts);
                assert_eq!(code, if length > 600 { 15 } else { 0 }, "{length}");
                if code == 0 {
                    assert_eq!(sizes(&mut bench, 3).len() as u32, length);
                }
            }
        }
    }
}

#[test]
fn wait_600_with_a_flush_before_it_closes_and_with_one_behind_does_not() {
    let flush = Other(Kind::TlmFlush, 0, 0);
    assert_eq!(closed(&mut Bench::default(), 0, &[flush, Wait(600)]), 0);
    let mut bench = Bench::default();
    assert_eq!(closed(&mut bench, 0, &[Wait(600), flush]), 15);
    assert_eq!(bench.macros.open_outline().length(), 601);
    assert_eq!(closed(&mut Bench::default(), 0, &[Wait(599), flush]), 0);
}

#[test]
fn lengths_around_600_in_a_nest() {
    for (wait, behind) in [
        (198, false),
        (199, false),
        (200, false),
        (197, true),
        (198, true),
    ] {
        let mut bench = with_macros(&[&[Place(1), Wait(wait)], &[Run(0), Wait(3), Run(0)]]);
        let mut parts = vec![Run(1), Run(0), Wait(1)];
        parts.extend(behind.then_some(Place(2)));
        let length = 3 * wait + 4 + u32::from(behind);
        let code = closed(&mut bench, 2, &parts);
        assert_eq!(code, if length > 600 { 15 } else { 0 }, "{length}");
    }
}

/// Group of so many entries in one macro, over two and over eight.
fn nests_of(count: usize) -> Vec<Vec<Vec<Part>>> {
    let half = count / 2;
    let two = vec![places(half), [vec![Run(0)], places(count - half)].concat()];
    let mut eight = vec![places(1)];
    for number in 1..7 {
        eight.push([vec![Run(number - 1)], places(8)].concat());
    }
    let more = count - 49;
    eight.push([places(more / 2), vec![Run(6)], places(more - more / 2)].concat());
    vec![vec![places(count)], two, eight]
}

/// The same group before, between and behind WAITs, and by itself.
fn around(parts: &[Part]) -> Vec<Vec<Part>> {
    let group = parts.to_vec();
    let before = vec![Place(1), Wait(1), Place(2), Wait(2)];
    let behind = vec![Wait(2), Place(3)];
    vec![
        group.clone(),
        [group.clone(), behind.clone()].concat(),
        [before.clone(), group.clone(), behind].concat(),
        [before, group].concat(),
    ]
}

#[test]
fn groups_of_63_64_and_65_in_one_macro_over_two_and_over_eight() {
    for count in [63, 64, 65] {
        for nest in nests_of(count) {
            let (last, lower) = nest.split_last().expect("a nest has a macro");
            for parts in around(last) {
                let lower: Vec<&[Part]> = lower.iter().map(|it| &it[..]).collect();
                let mut bench = with_macros(&lower);
                let number = lower.len() as u32;
                let code = closed(&mut bench, number, &parts);
                assert_eq!(code, if count > 64 { 25 } else { 0 }, "{count}");
                assert_eq!(bench.macros.outline(number as usize).fullest, count);
                if code == 0 {
                    let fullest = sizes(&mut bench, number).into_iter().max();
                    assert_eq!(fullest, Some(count));
                }
            }
        }
    }
}

#[test]
fn a_second_may_become_too_full_at_the_edge_of_two_macros_only() {
    let inner = [places(40), vec![Wait(1)], places(24)].concat();
    for (more, code) in [(0, 0), (1, 25)] {
        let mut bench = with_macros(&[&inner]);
        let outer = [vec![Run(0)], places(more), vec![Run(0)]].concat();
        assert_eq!(closed(&mut bench, 1, &outer), code);
    }
}

/// An entry of any sort that the macro may have, if all below it are closed.
fn any_part(rng: &mut Rng, number: u32) -> Part {
    match rng.below(12) {
        0 => Wait(rng.within(1, 20) as u32),
        1..=5 if number > 0 => Run(rng.below(number as usize) as u32),
        _ => Place(rng.below(1000) as u32),
    }
}

#[test]
fn the_outline_tells_what_the_seconds_show() {
    let mut rng = Rng::new(2);
    let mut refused = [0; 26];
    for _ in 0..500 {
        let mut bench = Bench::default();
        for number in 0..8 {
            let count = rng.within(1, 12);
            let parts: Vec<Part> = (0..count).map(|_| any_part(&mut rng, number)).collect();
            let code = closed(&mut bench, number, &parts);
            if code != 0 {
                refused[code as usize] += 1;
                break;
            }
            seconds(&mut bench, number);
        }
    }
    assert!(refused[15] > 20 && refused[25] > 20, "{refused:?}");
}

#[test]
fn a_hundred_and_twenty_eight_runs_of_64_are_refused_at_once() {
    let mut bench = with_macros(&[&places(64)]);
    assert_eq!(closed(&mut bench, 1, &[Run(0); 128]), 25);
    assert_eq!(bench.macros.open_outline().fullest, 8192);
    assert_eq!(bench.macros.open_outline().length(), 1);
    assert_eq!(execute(&mut bench, Kind::Run, 1), 18);
}

#[test]
fn millions_of_entries_are_refused_at_once() {
    let full = [places(64), vec![Wait(1)]].concat();
    let mut bench = with_macros(&[&full, &[Run(0); 24], &[Run(1); 25]]);
    assert_eq!(sizes(&mut bench, 2), [64; 600]);
    assert_eq!(closed(&mut bench, 7, &[Run(2); 78]), 15);
    assert_eq!(bench.macros.open_outline().length(), 46_800);
    for _ in 0..1000 {
        assert_eq!(execute(&mut bench, Kind::Close, 0), 15);
    }
}

#[test]
fn where_15_and_25_are_both_due_15_is_given() {
    let crowd = places(65);
    for parts in [
        [&crowd[..], &[Wait(600), Place(1)]].concat(),
        [&[Wait(600)], &crowd[..]].concat(),
        [&[Wait(300)], &crowd[..], &[Wait(301)]].concat(),
    ] {
        let mut bench = Bench::default();
        assert_eq!(closed(&mut bench, 0, &parts), 15);
        assert_eq!(bench.macros.open_outline().fullest, 65);
    }
    let mut bench = Bench::default();
    let parts = [&[Wait(300)], &crowd[..], &[Wait(300)]].concat();
    assert_eq!(closed(&mut bench, 0, &parts), 25);
}

#[test]
fn a_refused_close_leaves_the_macro_open_and_no_wait_behind_it_helps() {
    let mut bench = Bench::default();
    assert_eq!(closed(&mut bench, 5, &places(65)), 25);
    let before = bench.clone();
    assert_eq!(execute(&mut bench, Kind::Close, 0), 25);
    assert_eq!(bench, before);
    assert_eq!(bench.macros.open, Some(5));
    assert_eq!(bench.carry_out(&command(Wait(1))), Ok(()));
    assert_eq!(execute(&mut bench, Kind::Close, 0), 25);
    assert_eq!(execute(&mut bench, Kind::Clear, 0), 0);
    assert_eq!(bench, Bench::default());
}

#[test]
fn the_entries_of_a_second_are_executed_in_order() {
    let power = |on| Other(Kind::ImgPwr, on, 0);
    let flush = Other(Kind::TlmFlush, 0, 0);
    let parts = [
        power(1),
        flush,
        Place(7),
        power(0),
        Place(9),
        flush,
        Wait(1),
        power(0),
        power(1),
        flush,
    ];
    let mut bench = with_macros(&[&parts]);
    assert_eq!(execute(&mut bench, Kind::Run, 0), 0);
    let first: Vec<Handed> = parts[..6].iter().map(|it| handed(*it)).collect();
    assert_eq!(bench.second(), first);
    assert_eq!(
        (bench.power, bench.flushes, bench.corner),
        (false, 2, [9, 0])
    );
    assert_eq!(bench.second().len(), 3);
    assert_eq!((bench.power, bench.flushes), (true, 3));
}

#[test]
fn a_stop_between_seconds_drops_the_groups_to_come() {
    let parts = [
        Place(1),
        Place(2),
        Wait(1),
        Place(3),
        Place(4),
        Wait(2),
        Place(5),
    ];
    let mut bench = with_macros(&[&parts]);
    for passed in 0..=4 {
        assert_eq!(execute(&mut bench, Kind::Run, 0), 0);
        (0..passed).for_each(|_| drop(bench.second()));
        assert_eq!(bench.seconds_left(), 4 - passed);
        assert_eq!(execute(&mut bench, Kind::Stop, 0), 0);
        assert_eq!((bench.second(), bench.seconds_left()), (vec![], 0));
    }
    let expected: [&[u32]; 4] = [&[1, 2], &[3, 4], &[], &[5]];
    assert_eq!(seconds(&mut bench, 0), expected);
}

#[test]
fn commands_between_the_seconds_do_not_disturb_the_groups() {
    let mut bench = with_macros(&[&[Place(1), Wait(1), Place(2), Place(3)]]);
    assert_eq!(execute(&mut bench, Kind::Run, 0), 0);
    assert_eq!(execute(&mut bench, Kind::Open, 4), 0);
    assert_eq!(bench.second().len(), 1);
    for part in [Place(8), Wait(5), Run(0)] {
        assert_eq!(bench.carry_out(&command(part)), Ok(()));
    }
    assert_eq!(execute(&mut bench, Kind::Close, 0), 0);
    assert_eq!(execute(&mut bench, Kind::Clear, 0), 19);
    assert_eq!(bench.second(), [handed(Place(2)), handed(Place(3))]);
    assert_eq!(bench.running, None);
}

#[test]
fn an_image_handed_over_counts_from_the_next_second() {
    let parts = [
        Other(Kind::ImgImage, 9, 5),
        Other(Kind::ImgTrack, 2, 1),
        Other(Kind::ImgImage, 2, 1),
        Wait(1),
        Place(1),
    ];
    let mut bench = with_macros(&[&parts]);
    assert_eq!(execute(&mut bench, Kind::ImgPwr, 1), 0);
    assert_eq!(execute(&mut bench, Kind::Run, 0), 0);
    let counts: Vec<(u16, u16)> = (0..4)
        .map(|_| {
            bench.second();
            (bench.image.images, bench.track.images)
        })
        .collect();
    // The later IMAGE of the second superseded the earlier one.
    assert_eq!(counts, [(0, 0), (1, 1), (2, 2), (2, 2)]);
}

#[test]
fn an_image_of_a_series_under_way_is_counted_before_the_group_supersedes_it() {
    let mut bench = with_macros(&[&[Wait(1), Other(Kind::ImgImage, 0, 1)]]);
    assert_eq!(execute(&mut bench, Kind::ImgPwr, 1), 0);
    let image = Command::new(false, Kind::ImgImage, [9, 1]);
    assert_eq!(bench.carry_out(&image), Ok(()));
    assert_eq!(execute(&mut bench, Kind::Run, 0), 0);
    (0..4).for_each(|_| drop(bench.second()));
    assert_eq!((bench.image.images, bench.image.time), (2, 0));
}
