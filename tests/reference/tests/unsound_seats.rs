//! Seats and benches made by hand that break each clause of soundness, which every call answers
//! with 27 before anything else, and others that lie just within the clauses.

use std::collections::VecDeque;

use reference::bench::Bench;
use reference::codes::{Finding, Refusal};
use reference::command::{Command, Kind};
use reference::seats::Seats;
use reference::wire::bytes_of;

const UNSOUND: Refusal = Refusal {
    code: 27,
    finding: Finding {
        parameter: 0,
        value: 0,
        low: 0,
        high: 0,
    },
};

fn entry(kind: Kind, argument: u32) -> Command {
    Command::new(true, kind, [argument, 0])
}

/// Not cut to its fields, as no reader makes one.
fn uncut(appended: bool, kind: Kind, arguments: [u32; 2]) -> Command {
    Command {
        appended,
        kind,
        arguments,
    }
}

fn do_now(bench: &mut Bench, kind: Kind, arguments: [u32; 2]) {
    let command = Command::new(false, kind, arguments);
    assert_eq!(bench.carry_out(&command), Ok(()), "{kind:?}");
}

fn define(bench: &mut Bench, number: u32, entries: &[Command]) {
    do_now(bench, Kind::Open, [number, 0]);
    for entry in entries {
        assert_eq!(bench.carry_out(entry), Ok(()));
    }
    do_now(bench, Kind::Close, [0; 2]);
}

/// Macros 0 and 2 are closed, of 1 and 4 seconds; 2 runs, 5 is open with one entry, and both
/// series are under way.
fn busy() -> Bench {
    let mut bench = Bench::default();
    define(&mut bench, 0, &[entry(Kind::TlmFlush, 0)]);
    let entries = [
        entry(Kind::Run, 0),
        entry(Kind::Wait, 3),
        entry(Kind::Run, 0),
    ];
    define(&mut bench, 2, &entries);
    do_now(&mut bench, Kind::Open, [5, 0]);
    assert_eq!(bench.carry_out(&entry(Kind::TrkAlg, 2)), Ok(()));
    do_now(&mut bench, Kind::ImgPwr, [1, 0]);
    do_now(&mut bench, Kind::ImgImage, [9, 3]);
    do_now(&mut bench, Kind::ImgTrack, [65535, 4]);
    do_now(&mut bench, Kind::Run, [2, 0]);
    bench.second();
    bench
}

fn changed(change: impl FnOnce(&mut Bench)) -> Bench {
    let mut bench = busy();
    change(&mut bench);
    bench
}

/// The bench with one entry more in this macro.
fn with_entry(number: usize, entry: Command) -> Bench {
    changed(|bench| bench.macros.entries[number].push(entry))
}

/// Macro 7 closed with these entries.
fn with_closed(entries: Vec<Command>) -> Bench {
    changed(|bench| {
        bench.macros.entries[7] = entries;
        bench.macros.closed[7] = true;
    })
}

fn ahead(bench: &mut Bench) -> &mut VecDeque<Vec<Command>> {
    &mut bench.running.as_mut().expect("macro 2 runs").ahead
}

/// Fields against the rules of the status frame.
fn bad_fields() -> Vec<Bench> {
    let mut all = vec![
        changed(|it| (it.image.time, it.image.interval) = (0, 0)),
        changed(|it| (it.track.time, it.track.interval) = (0, 0)),
        changed(|it| it.corner = [1024, 0]),
        changed(|it| it.corner = [1023, 65535]),
        changed(|it| it.algorithm = 3),
        changed(|it| it.algorithm = 255),
        changed(|it| it.macros.closed[5] = true),
        changed(|it| it.macros.closed[2] = false),
        changed(|it| it.macros.open = Some(8)),
        changed(|it| it.macros.open = Some(2)),
    ];
    for goal in [0x4480_0000, 0x7fc0_0000, 0x8000_0001, 0xffff_ffff] {
        all.push(changed(|it| it.goal[0] = goal));
        all.push(changed(|it| it.goal[1] = goal));
    }
    all
}

/// A next image at no time to come, or behind the interval.
fn bad_series() -> Vec<Bench> {
    let mut all = Vec::new();
    for next in [0, 4, 65535] {
        all.push(changed(|it| it.image.next = next));
    }
    for next in [0, 5] {
        all.push(changed(|it| it.track.next = next));
    }
    all
}

/// More entries than there are, closed macros that could not be closed, and entries that could
/// not be appended.
fn bad_macros() -> Vec<Bench> {
    let flushes = |count: usize| vec![entry(Kind::TlmFlush, 0); count];
    let mut all = vec![
        changed(|it| it.macros.entries[5] = flushes(189)),
        with_closed(vec![]),
        with_closed([vec![entry(Kind::Wait, 600)], flushes(1)].concat()),
        with_closed(vec![entry(Kind::Wait, 600), entry(Kind::Wait, 1)]),
        with_closed(flushes(65)),
        with_closed([flushes(64), vec![entry(Kind::Run, 0)]].concat()),
    ];
    let bad_entries = [
        uncut(false, Kind::TlmFlush, [0; 2]),
        uncut(true, Kind::ImgPwr, [2, 0]),
        uncut(true, Kind::ImgRegion, [0, 1024]),
        uncut(true, Kind::ImgImage, [5, 0]),
        uncut(true, Kind::TrkGoal, [0, 0x7fc0_0000]),
        uncut(true, Kind::Wait, [0; 2]),
        uncut(true, Kind::Wait, [601, 0]),
        uncut(true, Kind::Run, [8, 0]),
        uncut(true, Kind::Run, [u32::MAX, 0]),
        uncut(true, Kind::Open, [1, 0]),
        uncut(true, Kind::Close, [0; 2]),
        uncut(true, Kind::Stop, [0; 2]),
        uncut(true, Kind::Clear, [0; 2]),
    ];
    for bad in bad_entries {
        all.extend([0, 2, 5].map(|number| with_entry(number, bad)));
    }
    // Of its own macro, of a higher one, and of one that is not closed.
    for target in [2, 3, 5, 7, 1] {
        all.push(with_entry(2, entry(Kind::Run, target)));
    }
    all.extend([5, 6, 1, 3].map(|target| with_entry(5, entry(Kind::Run, target))));
    all
}

fn bad_runs() -> Vec<Bench> {
    let mut all = vec![
        changed(|it| ahead(it).clear()),
        changed(|it| ahead(it).extend([vec![], vec![]])),
        changed(|it| ahead(it).resize(601, vec![])),
    ];
    for number in [1, 5, 8, 255] {
        let name_it = |it: &mut Bench| it.running.as_mut().expect("it runs").number = number;
        all.push(changed(name_it));
    }
    all
}

fn unsound_benches() -> Vec<Bench> {
    [bad_fields(), bad_series(), bad_macros(), bad_runs()].concat()
}

#[test]
fn each_clause_of_a_sound_bench_is_asked() {
    assert!(Bench::default().is_sound());
    assert!(busy().is_sound());
    for (place, bench) in unsound_benches().iter().enumerate() {
        assert!(!bench.is_sound(), "{place} {bench:?}");
    }
}

#[test]
fn benches_just_within_each_clause_are_sound() {
    let flushes = |count: usize| vec![entry(Kind::TlmFlush, 0); count];
    let sound = [
        changed(|it| it.image.next = 1),
        changed(|it| it.image.next = 3),
        changed(|it| it.track.next = 4),
        changed(|it| (it.image.time, it.image.next) = (0, 0)),
        changed(|it| (it.track.time, it.track.next) = (0, 9)),
        changed(|it| it.corner = [1023; 2]),
        changed(|it| it.goal = [0x447f_ffff, 0x8000_0000]),
        changed(|it| it.algorithm = 2),
        changed(|it| it.power = false),
        // 4 of the 192 entries are in macros 0 and 2.
        changed(|it| it.macros.entries[5] = flushes(188)),
        // An open macro may yet be too long, too full, or empty.
        changed(|it| it.macros.entries[5] = vec![entry(Kind::Wait, 600); 2]),
        changed(|it| it.macros.entries[5].clear()),
        with_closed(vec![entry(Kind::Wait, 600)]),
        with_closed(vec![entry(Kind::Wait, 1)]),
        with_closed(flushes(64)),
        with_closed([flushes(63), vec![entry(Kind::Run, 0)]].concat()),
        with_entry(5, entry(Kind::Run, 2)),
        changed(|it| ahead(it).resize(1, vec![])),
        changed(|it| ahead(it).push_front(vec![])),
        changed(|it| it.running = None),
    ];
    for (place, bench) in sound.iter().enumerate() {
        assert!(bench.is_sound(), "{place}");
    }
}

/// Seats of which something waits everywhere, and one seat has no place left.
fn waiting_seats() -> Seats {
    let mut seats = Seats {
        bench: busy(),
        queued: [40, u32::MAX, 3, 2],
        last: 1,
        ..Seats::default()
    };
    seats.queues[0] = vec![entry(Kind::TrkAlg, 1); 32].into();
    seats.queues[1] = vec![Command::new(false, Kind::Stop, [0; 2])].into();
    seats.queues[3] = vec![Command::new(false, Kind::ImgImage, [1, 1]); 2].into();
    seats
}

fn with_waiting(seat: usize, waiting: Vec<Command>) -> Seats {
    let mut seats = waiting_seats();
    seats.queues[seat] = waiting.into();
    seats
}

/// Queues that are too long or hold what cannot be queued, and seats that there are not.
fn bad_seats() -> Vec<Seats> {
    let good = entry(Kind::TlmFlush, 0);
    let bad = [
        uncut(false, Kind::ImgPwr, [2, 0]),
        uncut(false, Kind::ImgRegion, [1024, 0]),
        uncut(true, Kind::ImgTrack, [1, 0]),
        uncut(false, Kind::TrkGoal, [0x7fc0_0000, 0]),
        uncut(false, Kind::TrkGoal, [0, 0x4480_0000]),
        uncut(true, Kind::Wait, [601, 0]),
        uncut(false, Kind::Run, [8, 0]),
        uncut(true, Kind::Open, [1, 0]),
        uncut(true, Kind::Close, [0; 2]),
        uncut(true, Kind::Stop, [0; 2]),
        uncut(true, Kind::Clear, [0; 2]),
        uncut(false, Kind::Wait, [1, 0]),
    ];
    let mut all = Vec::new();
    for seat in 0..4 {
        all.push(with_waiting(seat, vec![good; 33]));
        all.push(with_waiting(seat, vec![good; 1000]));
        for bad in bad {
            all.push(with_waiting(seat, vec![bad]));
            all.push(with_waiting(seat, vec![good, bad]));
            let last = [vec![good; 31], vec![bad]].concat();
            all.push(with_waiting(seat, last));
        }
    }
    all.extend([4, 5, 128, 255].map(|last| Seats {
        last,
        ..waiting_seats()
    }));
    all
}

/// All calls refuse with 27 and leave everything as it was.
fn refused(seats: &Seats) {
    let mut after = seats.clone();
    let flush = bytes_of(&[0x015a_0002, 0x015a_0002]);
    // A good command, none, one that is followed by another, damaged and bad ones; by seats
    // with places, without, and by none of them.
    let broken = bytes_of(&[0x015a_0002, 0x015a_0003]);
    let far = bytes_of(&[0x0114_0003, 0x0200_0000, 0x0314_0003]);
    for seat in [0, 1, 2, 3, 4, 255] {
        for bytes in [&flush, &vec![], &flush.repeat(2), &broken, &far] {
            assert_eq!(after.queue(seat, bytes), Err(UNSOUND), "{seat} {seats:?}");
        }
    }
    assert_eq!(after.turn(), Err(UNSOUND), "{seats:?}");
    assert_eq!(after.second(), Err(UNSOUND), "{seats:?}");
    assert_eq!(after.status(), Err(UNSOUND), "{seats:?}");
    assert_eq!(&after, seats);
}

#[test]
fn every_call_has_27_first_on_an_unsound_bench() {
    for bench in unsound_benches() {
        refused(&Seats {
            bench: bench.clone(),
            ..waiting_seats()
        });
        refused(&Seats {
            bench,
            ..Seats::default()
        });
    }
}

#[test]
fn every_call_has_27_first_with_a_bad_queue_or_a_last_seat_above_3() {
    for seats in bad_seats() {
        assert!(!seats.is_sound());
        refused(&seats);
        refused(&Seats {
            bench: Bench::default(),
            ..seats
        });
    }
}

#[test]
fn seats_just_within_each_clause_are_served() {
    for last in 0..4 {
        let mut seats = Seats {
            last,
            ..waiting_seats()
        };
        assert!(seats.is_sound());
        assert!(seats.turn().is_ok_and(|record| record.is_some()));
        assert!(seats.second().is_ok());
        assert!(seats.status().is_ok());
    }
    let goal = Command::new(true, Kind::TrkGoal, [0x447f_ffff, 0x8000_0000]);
    for waiting in [
        vec![goal; 32],
        vec![entry(Kind::Wait, 600); 32],
        vec![Command::new(false, Kind::Run, [7, 0]); 32],
        vec![Command::new(false, Kind::Clear, [0; 2])],
    ] {
        for seat in 0..4 {
            assert!(with_waiting(seat, waiting.clone()).is_sound());
        }
    }
}
