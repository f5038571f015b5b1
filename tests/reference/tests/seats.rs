//! The four-seat bench: every refusal in queueing, alone and with others; turns, their records
//! and their order; what seats do to each other's macros; and any events at all. Every number
//! expected here is written by hand.

use std::collections::VecDeque;

use reference::bench::{Bench, Latest};
use reference::codes::code_and_finding;
use reference::command::{Command, Kind, TABLE};
use reference::comparison::damage::{any_kind, arguments, damaged};
use reference::comparison::items::raw;
use reference::comparison::rng::Rng;
use reference::seats::Seats;
use reference::wire::{bytes_of, read_command};

const SEATS: [u8; 4] = [0, 1, 2, 3];

fn flush() -> Vec<u8> {
    bytes_of(&[0x015a_0002, 0x015a_0002])
}

fn region(x: u32) -> Vec<u8> {
    bytes_of(&[0x0117_0003, x << 16, 0x0117_0003 ^ x << 16])
}

/// Bytes for each of the codes 1 to 10.
fn bad(code: u8) -> Vec<u8> {
    match code {
        1 => vec![0x01, 0x5a, 0, 2, 0x01, 0x5a, 0],
        2 => bytes_of(&[0x015a_0021, 0x015a_0021]),
        3 => bytes_of(&[0x015a_0003, 0x015a_0003]),
        4 => bytes_of(&[0x015a_0002, 0x015a_0003]),
        5 => bytes_of(&[0x0159_0002, 0x0159_0002]),
        6 => bytes_of(&[0x015a_0003, 0, 0x015a_0003]),
        7 => bytes_of(&[0x0114_0003, 0x0100_0001, 0x0014_0002]),
        8 => bytes_of(&[0x0150_0003, 0x0005_0000, 0x0155_0003]),
        9 => bytes_of(&[0x7f05_8002, 0x7f05_8002]),
        _ => bytes_of(&[0x7f04_0003, 0x0002_0000, 0x7f06_0003]),
    }
}

fn with_more(bytes: &[u8], more: &[u8]) -> Vec<u8> {
    [bytes, more].concat()
}

/// A queueing that must be taken.
fn take(seats: &mut Seats, seat: u8, bytes: &[u8]) {
    assert_eq!(seats.queue(seat, bytes), Ok(()), "{seat} {bytes:x?}");
}

/// A queueing that must be refused with this code, and changes nothing.
fn refused(seats: &Seats, seat: u8, bytes: &[u8], code: u8) {
    let mut after = seats.clone();
    let answer = after.queue(seat, bytes);
    assert_eq!(code_and_finding(&answer).0, code, "{seat} {bytes:x?}");
    assert_eq!(&after, seats, "{seat} {bytes:x?}");
}

/// Seat, code and number of the record of a turn.
fn turn(seats: &mut Seats) -> (u8, u8, u32) {
    let record = seats.turn().expect("it is sound").expect("a seat waits");
    assert_eq!((record.parameter, record.value), (0, 0));
    (record.sender, record.code, record.number)
}

/// Turns until no seat waits.
fn turns(seats: &mut Seats) -> Vec<(u8, u8, u32)> {
    let waiting: usize = seats.queues.iter().map(VecDeque::len).sum();
    let told = (0..waiting).map(|_| turn(seats)).collect();
    no_turn(seats);
    told
}

/// A turn with none waiting changes nothing.
fn no_turn(seats: &mut Seats) {
    let before = seats.clone();
    assert_eq!(seats.turn(), Ok(None));
    assert_eq!(*seats, before);
}

/// The code of a command that a seat queues and that is served at once.
fn carry_out(seats: &mut Seats, seat: u8, appended: bool, kind: Kind, argument: u32) -> u8 {
    take(seats, seat, &raw(appended, kind, [argument, 0]));
    let (sender, code, _) = turn(seats);
    assert_eq!(sender, seat);
    code
}

/// Seats of which this one has so many commands waiting.
fn with_waiting(seat: u8, count: usize) -> Seats {
    let mut seats = Seats::default();
    for _ in 0..count {
        take(&mut seats, seat, &flush());
    }
    seats
}

/// Seats that got so many commands into their queues before, of which none waits.
fn with_queued(queued: [u32; 4]) -> Seats {
    Seats {
        queued,
        ..Seats::default()
    }
}

#[test]
fn fresh_seats_have_nothing_waiting_and_seat_0_next() {
    let mut seats = Seats::default();
    assert_eq!(seats.bench, Bench::default());
    assert!(seats.queues.iter().all(VecDeque::is_empty));
    assert_eq!((seats.queued, seats.last), ([0; 4], 3));
    no_turn(&mut seats);
    for seat in [3, 2, 1, 0] {
        take(&mut seats, seat, &flush());
    }
    let order = turns(&mut seats).into_iter().map(|(seat, ..)| seat);
    assert!(order.eq([0, 1, 2, 3]));
}

#[test]
fn a_queued_command_waits_as_it_was_decoded() {
    let mut seats = Seats::default();
    let goal = bytes_of(&[0x0153_8004, 0x43ff_c000, 0x8000_0000, 0xc2ac_4004]);
    take(&mut seats, 2, &goal);
    let decoded = Command::new(true, Kind::TrkGoal, [0x43ff_c000, 0x8000_0000]);
    assert_eq!(seats.queues[2], [decoded]);
    assert_eq!(seats.queued, [0, 0, 1, 0]);
    // Nothing else was touched.
    let expected = Seats {
        queues: seats.queues.clone(),
        queued: seats.queued,
        ..Seats::default()
    };
    assert_eq!(seats, expected);
}

#[test]
fn seats_from_4_to_255_are_51_whatever_they_send() {
    for mut seats in [Seats::default(), with_waiting(3, 32)] {
        for seat in 4..=255 {
            refused(&seats, seat, &flush(), 51);
            refused(&seats, seat, &[], 51);
            refused(&seats, seat, &flush().repeat(2), 51);
            for code in 1..=10 {
                refused(&seats, seat, &bad(code), 51);
            }
        }
        take(&mut seats, 2, &flush());
    }
}

#[test]
fn each_code_from_1_to_10_is_found_in_queueing() {
    for seat in SEATS {
        for seats in [Seats::default(), with_waiting(seat, 31)] {
            refused(&seats, seat, &[], 1);
            for code in 1..=10 {
                refused(&seats, seat, &bad(code), code);
            }
        }
    }
}

#[test]
fn with_8_the_number_is_told_and_with_any_other_code_nothing() {
    let mut seats = with_waiting(1, 32);
    let told = |seats: &mut Seats, seat: u8, bytes: &[u8]| {
        let finding = code_and_finding(&seats.queue(seat, bytes)).1;
        [
            finding.parameter.into(),
            finding.value,
            finding.low,
            finding.high,
        ]
    };
    for seat in [0, 1] {
        assert_eq!(told(&mut seats, seat, &bad(8)), [2, 0, 1, 65535]);
        let goal = raw(true, Kind::TrkGoal, [0xffc0_1234, 0]);
        assert_eq!(
            told(&mut seats, seat, &goal),
            [1, 0xffc0_1234, 0, 0x447f_ffff]
        );
        let wait = raw(false, Kind::Wait, [601, 0]);
        assert_eq!(told(&mut seats, seat, &wait), [1, 601, 1, 600]);
    }
    for code in [1, 2, 3, 4, 5, 6, 7, 9, 10] {
        assert_eq!(told(&mut seats, 0, &bad(code)), [0; 4], "{code}");
    }
    let others = [
        (4, bad(8)),
        (0, flush().repeat(2)),
        (1, flush()),
        (0, flush()),
    ];
    for (seat, bytes) in others {
        assert_eq!(told(&mut seats, seat, &bytes), [0; 4]);
    }
}

#[test]
fn queueing_says_what_reading_says_whatever_the_state() {
    let mut rng = Rng::new(7);
    let full = with_waiting(0, 32);
    for _ in 0..20_000 {
        let kind = any_kind(&mut rng);
        let good = raw(rng.percent(50), kind, arguments(&mut rng, kind, 30));
        let bytes = damaged(&mut rng, &good);
        let read = read_command(&bytes).map(|_| ());
        let answer = Seats::default().queue(0, &bytes);
        if read.is_err() {
            assert_eq!(answer, read, "{bytes:x?}");
            assert_eq!(full.clone().queue(0, &bytes), read, "{bytes:x?}");
        } else {
            let length = 4 * usize::from(bytes[3]);
            let code = if bytes.len() > length { 53 } else { 0 };
            assert_eq!(code_and_finding(&answer).0, code, "{bytes:x?}");
        }
    }
}

#[test]
fn two_commands_in_one_call_are_53() {
    for seats in [Seats::default(), with_waiting(1, 31), with_waiting(1, 32)] {
        refused(&seats, 1, &flush().repeat(2), 53);
        refused(&seats, 1, &[region(3), flush()].concat(), 53);
        refused(&seats, 1, &[flush(), bad(4)].concat(), 53);
    }
}

#[test]
fn any_bytes_behind_any_command_are_53() {
    let seats = Seats::default();
    for row in &TABLE {
        for appended in [false, true] {
            let bytes = raw(appended, row.kind, [1, 1]);
            if read_command(&bytes).is_err() {
                continue;
            }
            for more in 1..=40 {
                refused(&seats, 0, &with_more(&bytes, &vec![0; more]), 53);
            }
            for byte in 0..=255 {
                refused(&seats, 0, &with_more(&bytes, &[byte]), 53);
            }
            take(&mut seats.clone(), 0, &bytes);
        }
    }
}

#[test]
fn what_is_wrong_with_the_command_comes_before_the_bytes_behind_it() {
    for seats in [Seats::default(), with_waiting(2, 32)] {
        for code in 2..=10 {
            refused(&seats, 2, &with_more(&bad(code), &[0]), code);
        }
        for code in [2, 4, 5, 6, 7, 8, 9, 10] {
            refused(&seats, 2, &with_more(&bad(code), &flush()), code);
        }
    }
}

#[test]
fn the_33rd_command_that_waits_is_52() {
    for seat in SEATS {
        let mut seats = with_waiting(seat, 31);
        take(&mut seats, seat, &region(9));
        assert_eq!(seats.queues[usize::from(seat)].len(), 32);
        refused(&seats, seat, &flush(), 52);
        refused(&seats, seat, &region(1), 52);
        // The others are not concerned.
        for other in SEATS.into_iter().filter(|other| *other != seat) {
            take(&mut seats, other, &flush());
        }
    }
}

#[test]
fn a_full_queue_has_51_1_to_10_and_53_before_52() {
    let seats = with_waiting(2, 32);
    refused(&seats, 6, &flush(), 51);
    for code in 1..=10 {
        refused(&seats, 2, &bad(code), code);
    }
    refused(&seats, 2, &with_more(&flush(), &[0]), 53);
    refused(&seats, 2, &flush().repeat(2), 53);
    refused(&seats, 2, &flush(), 52);
}

#[test]
fn one_turn_makes_one_place() {
    let mut seats = with_waiting(1, 32);
    for number in 1..=100 {
        refused(&seats, 1, &flush(), 52);
        assert_eq!(turn(&mut seats), (1, 0, number));
        take(&mut seats, 1, &flush());
    }
    // Another seat's turn makes none.
    take(&mut seats, 2, &flush());
    assert_eq!(turn(&mut seats), (2, 0, 1));
    refused(&seats, 1, &flush(), 52);
}

#[test]
fn a_record_has_seat_code_and_number() {
    let mut seats = with_queued([0x0102_0304, 7, 0, 0]);
    take(&mut seats, 3, &raw(false, Kind::Run, [2, 0]));
    take(&mut seats, 0, &flush());
    take(&mut seats, 1, &raw(false, Kind::Close, [0; 2]));
    let mut bytes = || seats.turn().map(|it| it.map(|record| record.bytes()));
    assert_eq!(bytes(), Ok(Some(vec![0, 0, 0, 0, 1, 2, 3, 5, 0, 0, 0, 0])));
    assert_eq!(bytes(), Ok(Some(vec![1, 11, 0, 0, 0, 0, 0, 8, 0, 0, 0, 0])));
    assert_eq!(bytes(), Ok(Some(vec![3, 18, 0, 0, 0, 0, 0, 1, 0, 0, 0, 0])));
    assert_eq!(bytes(), Ok(None));
}

#[test]
fn each_seat_counts_what_it_got_into_its_queue_from_1() {
    let mut seats = Seats::default();
    for round in 1..=300 {
        for seat in [0, 2, 3] {
            take(&mut seats, seat, &flush());
        }
        refused(
            &seats,
            2,
            &bad(1 + (round % 10) as u8),
            1 + (round % 10) as u8,
        );
        refused(&seats, 0, &flush().repeat(2), 53);
        assert_eq!(
            turns(&mut seats),
            [(0, 0, round), (2, 0, round), (3, 0, round)]
        );
    }
    take(&mut seats, 1, &flush());
    assert_eq!(turns(&mut seats), [(1, 0, 1)]);
    assert_eq!(seats.queued, [300, 1, 300, 300]);
}

#[test]
fn what_52_refused_has_no_number() {
    let mut seats = with_waiting(3, 32);
    for _ in 0..5 {
        refused(&seats, 3, &flush(), 52);
    }
    let numbers = turns(&mut seats).into_iter().map(|(_, _, number)| number);
    assert!(numbers.eq(1..=32));
    take(&mut seats, 3, &flush());
    assert_eq!(turns(&mut seats), [(3, 0, 33)]);
}

#[test]
fn what_the_bench_refuses_has_its_number() {
    let mut seats = Seats::default();
    for _ in 0..3 {
        take(&mut seats, 1, &raw(true, Kind::TlmFlush, [0; 2]));
        take(&mut seats, 1, &flush());
    }
    let told = [
        (1, 11, 1),
        (1, 0, 2),
        (1, 11, 3),
        (1, 0, 4),
        (1, 11, 5),
        (1, 0, 6),
    ];
    assert_eq!(turns(&mut seats), told);
}

#[test]
fn numbers_wrap_at_2_to_the_32() {
    let mut seats = with_queued([u32::MAX - 2, u32::MAX, 5, 0]);
    for _ in 0..4 {
        take(&mut seats, 0, &flush());
    }
    take(&mut seats, 1, &flush());
    assert_eq!(seats.queued, [1, 0, 5, 0]);
    let told = [
        (0, 0, u32::MAX - 1),
        (1, 0, 0),
        (0, 0, u32::MAX),
        (0, 0, 0),
        (0, 0, 1),
    ];
    assert_eq!(turns(&mut seats), told);
    // More waiting than were counted since the wrap.
    let mut seats = with_waiting(2, 3);
    seats.queued[2] = 1;
    assert_eq!(turns(&mut seats), [(2, 0, u32::MAX), (2, 0, 0), (2, 0, 1)]);
}

#[test]
fn the_next_waiting_seat_behind_the_last_is_served() {
    for last in SEATS {
        for set in 0..16u8 {
            let mut seats = Seats {
                last,
                ..Seats::default()
            };
            let mut waiting: Vec<u8> = SEATS.into_iter().filter(|it| set >> it & 1 == 1).collect();
            for seat in &waiting {
                take(&mut seats, *seat, &flush());
                take(&mut seats, *seat, &flush());
            }
            // Twice round, from the seat behind the last one on.
            waiting.sort_by_key(|seat| (seat + 3 - last) % 4);
            let order = [&waiting[..], &waiting].concat();
            let served: Vec<u8> = turns(&mut seats).into_iter().map(|it| it.0).collect();
            assert_eq!(served, order, "{last} {set:04b}");
            let expected = order.last().copied().unwrap_or(last);
            assert_eq!(seats.last, expected);
        }
    }
}

#[test]
fn turns_with_none_waiting_do_not_move_on() {
    let mut seats = with_waiting(1, 1);
    turn(&mut seats);
    for _ in 0..7 {
        no_turn(&mut seats);
    }
    take(&mut seats, 1, &flush());
    take(&mut seats, 3, &flush());
    take(&mut seats, 2, &flush());
    let order = turns(&mut seats).into_iter().map(|it| it.0);
    assert!(order.eq([2, 3, 1]));
}

#[test]
fn a_seat_that_is_always_full_does_not_keep_others_waiting() {
    for greedy in SEATS {
        let mut seats = with_waiting(greedy, 32);
        let [next, over, before] = [1, 2, 3].map(|step| (greedy + step) % 4);
        for _ in 0..50 {
            // Alone it is served again and again.
            assert_eq!(turn(&mut seats).0, greedy);
            take(&mut seats, greedy, &flush());
            for seat in [before, next, over] {
                take(&mut seats, seat, &flush());
            }
            for seat in [next, over, before, greedy] {
                assert_eq!(turn(&mut seats).0, seat);
            }
            take(&mut seats, greedy, &flush());
            take(&mut seats, over, &flush());
            assert_eq!(turn(&mut seats).0, over);
        }
    }
}

#[test]
fn commands_of_a_seat_are_carried_out_in_their_order() {
    let mut seats = Seats::default();
    for x in 0..32 {
        take(&mut seats, 2, &region(x));
        take(&mut seats, 0, &raw(false, Kind::TrkAlg, [x % 3, 0]));
    }
    for x in 0..32 {
        assert_eq!(turn(&mut seats), (0, 0, x + 1));
        assert_eq!(u32::from(seats.bench.algorithm), x % 3);
        assert_eq!(turn(&mut seats), (2, 0, x + 1));
        assert_eq!(u32::from(seats.bench.corner[0]), x);
    }
}

#[test]
fn a_turn_is_the_command_carried_out_on_the_shared_bench() {
    let mut seats = Seats::default();
    let mut bench = Bench::default();
    let mut rng = Rng::new(7);
    for _ in 0..3000 {
        let kind = any_kind(&mut rng);
        let bytes = raw(rng.percent(40), kind, arguments(&mut rng, kind, 0));
        if seats.queue(1, &bytes).is_err() {
            continue;
        }
        let code = code_and_finding(&bench.carry_out_bytes(&bytes)).0;
        assert_eq!(turn(&mut seats).1, code, "{bytes:x?}");
        assert_eq!(seats.bench, bench, "{bytes:x?}");
    }
}

#[test]
fn what_is_refused_at_a_turn_leaves_the_queue_and_the_bench_as_it_was() {
    let refused_now = [
        (raw(true, Kind::TlmFlush, [0; 2]), 11),
        (raw(false, Kind::Close, [0; 2]), 11),
        (raw(false, Kind::Run, [4, 0]), 18),
        (raw(false, Kind::ImgImage, [1, 1]), 26),
        (raw(false, Kind::ImgTrack, [65535, 1]), 26),
    ];
    for (bytes, code) in refused_now {
        let mut seats = with_waiting(0, 1);
        take(&mut seats, 3, &bytes);
        take(&mut seats, 3, &flush());
        assert_eq!(turn(&mut seats), (0, 0, 1));
        let before = seats.bench.clone();
        assert_eq!(turn(&mut seats), (3, code, 1));
        assert_eq!(seats.bench, before);
        assert_eq!(seats.last, 3);
        assert_eq!(turns(&mut seats), [(3, 0, 2)]);
    }
}

#[test]
fn two_seats_write_one_macro_between_them() {
    let mut seats = Seats::default();
    let steps = [
        (0, true, Kind::TlmFlush, 0, 11),
        (1, false, Kind::Close, 0, 11),
        (0, false, Kind::Open, 1, 0),
        (1, false, Kind::Open, 1, 12),
        (1, false, Kind::Open, 2, 12),
        (1, false, Kind::Close, 0, 14),
        (1, true, Kind::TlmFlush, 0, 0),
        (0, true, Kind::Run, 1, 17),
        (1, true, Kind::Run, 0, 18),
        (0, true, Kind::Wait, 600, 0),
        (1, true, Kind::TrkAlg, 1, 0),
        (0, false, Kind::Close, 0, 15),
        (1, false, Kind::Run, 1, 18),
        (1, false, Kind::Clear, 0, 0),
        (0, true, Kind::TlmFlush, 0, 11),
        (0, false, Kind::Open, 1, 0),
        (1, true, Kind::TlmFlush, 0, 0),
        (1, false, Kind::Close, 0, 0),
        (0, false, Kind::Close, 0, 11),
        (0, false, Kind::Open, 1, 13),
        (0, false, Kind::Run, 1, 0),
        (1, false, Kind::Run, 1, 19),
        (1, false, Kind::Clear, 0, 19),
    ];
    for (seat, appended, kind, argument, code) in steps {
        let found = carry_out(&mut seats, seat, appended, kind, argument);
        assert_eq!(found, code, "{kind:?} {argument}");
    }
}

#[test]
fn entries_run_out_for_all_seats_at_once() {
    let mut seats = Seats::default();
    assert_eq!(carry_out(&mut seats, 0, false, Kind::Open, 7), 0);
    for number in 0..192 {
        let seat = (number % 4) as u8;
        assert_eq!(carry_out(&mut seats, seat, true, Kind::TlmFlush, 0), 0);
    }
    for seat in SEATS {
        assert_eq!(carry_out(&mut seats, seat, true, Kind::TlmFlush, 0), 16);
    }
    assert_eq!(carry_out(&mut seats, 2, false, Kind::Close, 0), 25);
    assert_eq!(carry_out(&mut seats, 3, false, Kind::Clear, 0), 0);
    assert_eq!(carry_out(&mut seats, 0, false, Kind::Open, 7), 0);
    assert_eq!(carry_out(&mut seats, 1, true, Kind::TlmFlush, 0), 0);
}

#[test]
fn a_second_is_too_full_by_what_another_seat_appended() {
    let mut seats = Seats::default();
    assert_eq!(carry_out(&mut seats, 0, false, Kind::Open, 0), 0);
    for _ in 0..64 {
        assert_eq!(carry_out(&mut seats, 0, true, Kind::TlmFlush, 0), 0);
    }
    let mut fuller = seats.clone();
    assert_eq!(carry_out(&mut seats, 0, false, Kind::Close, 0), 0);
    assert_eq!(carry_out(&mut fuller, 1, true, Kind::TlmFlush, 0), 0);
    assert_eq!(carry_out(&mut fuller, 0, false, Kind::Close, 0), 25);
}

#[test]
fn an_image_is_refused_because_another_seat_was_served_before() {
    let image = raw(false, Kind::ImgImage, [3, 1]);
    let mut seats = Seats::default();
    assert_eq!(carry_out(&mut seats, 3, false, Kind::ImgPwr, 1), 0);
    take(&mut seats, 1, &image);
    take(&mut seats, 0, &raw(false, Kind::ImgPwr, [0; 2]));
    take(&mut seats, 2, &raw(false, Kind::ImgPwr, [1, 0]));
    take(&mut seats, 3, &image);
    assert_eq!(
        turns(&mut seats),
        [(0, 0, 1), (1, 26, 1), (2, 0, 1), (3, 0, 2)]
    );
}

/// The two macros of the rules, written by all seats: lengths 2 and 4, with power off and the
/// second FLUSH in second 3.
fn with_two_macros() -> Seats {
    let mut seats = Seats::default();
    let steps = [
        (false, Kind::Open, 0),
        (true, Kind::TlmFlush, 0),
        (true, Kind::Wait, 2),
        (false, Kind::Close, 0),
        (false, Kind::Open, 1),
        (true, Kind::Run, 0),
        (true, Kind::ImgPwr, 0),
        (true, Kind::Run, 0),
        (false, Kind::Close, 0),
    ];
    for (place, (appended, kind, argument)) in steps.into_iter().enumerate() {
        let seat = (place % 4) as u8;
        assert_eq!(carry_out(&mut seats, seat, appended, kind, argument), 0);
    }
    seats
}

/// The names handed over by one second.
fn second(seats: &mut Seats) -> Vec<&'static str> {
    let handed = seats.second().expect("it is sound");
    let names = handed.iter().map(|it| it.command.kind.row().name);
    names.collect()
}

const GROUPS: [&[&str]; 5] = [&["tlm_flush"], &[], &["img_pwr", "tlm_flush"], &[], &[]];

#[test]
fn a_macro_started_by_a_turn_hands_over_group_k_in_second_k() {
    let mut rng = Rng::new(7);
    for _ in 0..200 {
        let mut seats = with_two_macros();
        assert_eq!(carry_out(&mut seats, 3, false, Kind::Run, 1), 0);
        for group in GROUPS {
            // Whatever is queued and served meanwhile, but for STOP.
            for _ in 0..rng.below(12) {
                any_event(&mut rng, &mut seats);
            }
            assert_eq!(second(&mut seats), group);
        }
    }
}

/// A queueing or a turn that neither stops a macro nor starts one when it is over.
fn any_event(rng: &mut Rng, seats: &mut Seats) {
    let kind = any_kind(rng);
    if rng.percent(40) {
        let _ = seats.turn();
    } else if kind != Kind::Stop && kind != Kind::Run {
        let bytes = raw(rng.percent(40), kind, arguments(rng, kind, 10));
        let _ = seats.queue(rng.below(5) as u8, &bytes);
    }
}

#[test]
fn one_seat_runs_a_macro_and_another_stops_it() {
    for seconds in 0..=4 {
        let mut seats = with_two_macros();
        assert_eq!(carry_out(&mut seats, 1, false, Kind::Run, 1), 0);
        take(&mut seats, 2, &raw(false, Kind::Stop, [0; 2]));
        for group in &GROUPS[..seconds] {
            assert_eq!(second(&mut seats), *group);
        }
        // It runs until the turn, not until STOP was queued.
        assert_eq!(seats.bench.seconds_left(), 4 - seconds);
        assert_eq!(turn(&mut seats).1, 0);
        assert_eq!(seats.bench.running, None);
        assert_eq!(second(&mut seats), [""; 0]);
        // From its first second on again, by a third seat.
        assert_eq!(carry_out(&mut seats, 0, false, Kind::Run, 1), 0);
        assert_eq!(second(&mut seats), GROUPS[0]);
        assert_eq!(carry_out(&mut seats, 3, false, Kind::Run, 0), 19);
    }
}

#[test]
fn seconds_and_the_status_are_those_of_the_shared_bench_and_leave_the_seats_alone() {
    let mut seats = with_two_macros();
    let mut bench = seats.bench.clone();
    assert_eq!(carry_out(&mut seats, 1, false, Kind::Run, 1), 0);
    let run = Command::new(false, Kind::Run, [1, 0]);
    assert_eq!(bench.carry_out(&run), Ok(()));
    take(&mut seats, 0, &region(5));
    take(&mut seats, 2, &flush());
    let queues = seats.queues.clone();
    for _ in 0..6 {
        assert_eq!(seats.second(), Ok(bench.second()));
        assert_eq!(seats.status(), Ok(bench.frame()));
        let expected = (&bench, &queues, [4, 3, 3, 2], 1);
        assert_eq!(
            (&seats.bench, &seats.queues, seats.queued, seats.last),
            expected
        );
    }
}

#[test]
fn a_turn_is_no_run_so_the_numbers_of_the_latest_run_stay() {
    let latest = Latest {
        received: 9,
        failed: 4,
        failed_code: 11,
    };
    let mut seats = Seats::default();
    seats.bench.latest = latest;
    take(&mut seats, 2, &raw(false, Kind::Close, [0; 2]));
    take(&mut seats, 2, &flush());
    assert_eq!(turns(&mut seats), [(2, 11, 1), (2, 0, 2)]);
    assert_eq!(seats.bench.latest, latest);
}

/// What is known of the seats by what they were answered.
#[derive(Default)]
struct Watch {
    taken: [VecDeque<Vec<u8>>; 4],
    served: [u32; 4],
    /// The seats served since this one began to wait or was served.
    passed_by: [Vec<u8>; 4],
    bench: Bench,
}

impl Watch {
    fn turn(&mut self, seats: &mut Seats) {
        let waiting: Vec<u8> = SEATS.into_iter().filter(|it| self.waits(*it)).collect();
        let Some(record) = seats.turn().expect("it is sound") else {
            return assert_eq!(waiting, []);
        };
        let seat = record.sender;
        assert!(waiting.contains(&seat));
        let at = usize::from(seat);
        self.served[at] += 1;
        assert_eq!(record.number, self.served[at]);
        let bytes = self.taken[at].pop_front().expect("it waits");
        let code = code_and_finding(&self.bench.carry_out_bytes(&bytes)).0;
        assert_eq!((record.code, &seats.bench), (code, &self.bench));
        for other in waiting.into_iter().filter(|other| *other != seat) {
            let passed_by = &mut self.passed_by[usize::from(other)];
            assert!(!passed_by.contains(&seat), "twice before {other}");
            passed_by.push(seat);
            assert!(
                passed_by.len() < 4,
                "{other} waits for more than four turns"
            );
        }
        self.passed_by[at].clear();
    }

    fn waits(&self, seat: u8) -> bool {
        !self.taken[usize::from(seat)].is_empty()
    }

    fn queue(&mut self, seats: &mut Seats, seat: u8, bytes: Vec<u8>) {
        if seats.queue(seat, &bytes).is_ok() {
            self.taken[usize::from(seat)].push_back(bytes);
        }
    }
}

#[test]
fn whatever_happens_all_are_served_in_order_and_within_four_turns() {
    let mut rng = Rng::new(7);
    for round in 0..150 {
        let (mut seats, mut watch) = (Seats::default(), Watch::default());
        // From sittings with many turns to some in which queues are full.
        let chance = [60, 45, 20][round % 3];
        for _ in 0..200 {
            let kind = any_kind(&mut rng);
            let bytes = raw(rng.percent(40), kind, arguments(&mut rng, kind, 10));
            let bytes = match rng.percent(10) {
                true => damaged(&mut rng, &bytes),
                false => bytes,
            };
            match rng.below(100) {
                0..=4 => assert_eq!(seats.second(), Ok(watch.bench.second())),
                at if at < 5 + chance => watch.turn(&mut seats),
                _ => watch.queue(&mut seats, rng.below(5) as u8, bytes),
            }
            assert!(seats.is_sound());
            let waiting = seats.queues.each_ref().map(VecDeque::len);
            assert_eq!(waiting, watch.taken.each_ref().map(VecDeque::len));
        }
        while SEATS.into_iter().any(|seat| watch.waits(seat)) {
            watch.turn(&mut seats);
        }
        watch.turn(&mut seats);
        assert_eq!(seats.queued, watch.served);
    }
}
