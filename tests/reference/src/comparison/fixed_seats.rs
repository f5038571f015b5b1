//! Fixed sittings at the four-seat bench: seats that there are not, every refusal in queueing
//! alone and with others, queues about their limit, every set of waiting seats, numbers, macros
//! that seats write and run between them; and the scripts that end badly.

use super::fixed::about_the_longest;
use super::fixed_cards::bad;
use super::fixed_wire::{edge_sets, every_length, faulty, flush, good, of_length};
use super::items::{fresh, queue, raw, second, status, turn, watched, Item};
use super::sittings::Sitting;
use super::texts::fitting_flag;
use crate::command::{Kind, Row, TABLE};
use crate::macros::{FULLEST_SECOND, SHARED_ENTRIES};

const SEATS: [u8; 4] = [0, 1, 2, 3];
/// As many commands as a queue takes.
const LIMIT: usize = 32;
/// Seats that there are not.
const OTHERS: [u8; 10] = [4, 5, 6, 7, 8, 127, 128, 131, 252, 255];

/// The scripts that are no sitting: an empty one, those that end badly, and those about the
/// longest length.
pub fn scripts() -> Vec<Vec<Item>> {
    let whole = queue(1, &flush());
    let cut = (1..whole.len()).map(|length| vec![whole[..length].to_vec()]);
    let mut ends: Vec<Vec<Item>> = cut.collect();
    for first in [0x05, 0x06, 0x0e, 0x10, 0x40, 0x7f, 0x80, 0x81, 0x83, 0xff] {
        ends.push(vec![vec![first], whole.clone()]);
        ends.push(vec![[&[first], &whole[1..]].concat()]);
    }
    let mut scripts = vec![Vec::new()];
    scripts.extend(ends.into_iter().map(|end| [vec![turn()], end].concat()));
    scripts.extend(about_the_longest(whole, turn()));
    scripts
}

pub fn sittings() -> Vec<Sitting> {
    let mut all = vec![every_seat(), other_seats(), bytes_behind(), lengths()];
    all.extend(TABLE.iter().map(limits));
    all.extend(TABLE.iter().flat_map(faults));
    all.extend(SEATS.map(full_queue));
    all.extend([all_queues_full(), numbers(), fresh_again()]);
    all.extend(SEATS.map(always_full));
    all.extend(SEATS.map(waiting_sets));
    all.extend(deals().iter().flat_map(|deal| macros_between(deal)));
    all.extend([
        every_order(),
        no_entry_free(),
        full_and_long_macros(),
        dark(),
    ]);
    all.extend((0..=6).map(run_and_stop));
    all.extend(short_ones());
    all.into_iter().map(|events| Sitting { events }).collect()
}

/// A seat's command to execute, by its first argument.
fn now(seat: u8, kind: Kind, argument: u32) -> Item {
    queue(seat, &raw(false, kind, [argument, 0]))
}

/// A seat's command to append, by its first argument.
fn append(seat: u8, kind: Kind, argument: u32) -> Item {
    queue(seat, &raw(true, kind, [argument, 0]))
}

/// Each with a turn behind it.
fn served(queueings: impl IntoIterator<Item = Item>) -> Vec<Item> {
    queueings.into_iter().flat_map(|it| [it, turn()]).collect()
}

/// All of them first, then a turn for each and one more.
fn served_later(mut queueings: Vec<Item>) -> Vec<Item> {
    queueings.extend(vec![turn(); queueings.len() + 1]);
    queueings
}

fn turns(count: usize) -> Vec<Item> {
    vec![turn(); count]
}

/// A region that no other command of the same queue has.
fn region(seat: u8, number: usize) -> Item {
    queue(
        seat,
        &raw(false, Kind::ImgRegion, [number as u32, seat.into()]),
    )
}

fn every_seat() -> Vec<Item> {
    let each = (0..=255).map(|seat| queue(seat, &flush()));
    each.chain(turns(6)).collect()
}

/// Whatever such a seat sends.
fn other_seats() -> Vec<Item> {
    let mut events = Vec::new();
    for seat in OTHERS {
        events.extend((1..=10).map(|code| queue(seat, &bad(code))));
        events.push(queue(seat, &[]));
        events.push(queue(seat, &flush().repeat(2)));
        events.push(queue(seat, &[&flush()[..], &[0]].concat()));
    }
    events.extend([turn(), status()]);
    events
}

/// Every command with others and parts of others behind it, and without.
fn bytes_behind() -> Vec<Item> {
    let more = [
        vec![0],
        vec![0xff],
        flush(),
        flush()[..4].to_vec(),
        bad(4),
        vec![0; 200],
    ];
    let mut events = Vec::new();
    for row in &TABLE {
        for flag in [false, true] {
            let bytes = raw(fitting_flag(row.kind, flag), row.kind, good(row));
            let with = more.iter().map(|more| [&bytes[..], more].concat());
            events.extend(with.map(|both| queue(2, &both)));
            events.extend([queue(2, &bytes.repeat(2)), turn(), queue(2, &bytes), turn()]);
        }
    }
    events
}

/// Every L, with as many words as it says where it can, one byte less and one more; and bytes
/// from none to all that an item can carry.
fn lengths() -> Vec<Item> {
    let mut events = Vec::new();
    for kind in [Kind::TlmFlush, Kind::TrkGoal] {
        for length in every_length() {
            let bytes = of_length(kind.row(), 0, length);
            let longer = [&bytes[..], &[0]].concat();
            let all = [&bytes[..], &bytes[..bytes.len() - 1], &longer];
            events.extend(served(all.map(|bytes| queue(3, bytes))));
        }
    }
    for bytes in [flush().repeat(32), vec![0; 256], vec![0xff; 256]] {
        let parts = (0..=40).chain([127, 128, 254, 255]);
        events.extend(parts.map(|length| queue(1, &bytes[..length])));
    }
    events.extend(turns(2));
    events
}

/// Every argument at its ends and past them, executed and appended, with a macro open and power
/// on.
fn limits(row: &Row) -> Vec<Item> {
    let mut events = served([now(0, Kind::ImgPwr, 1), now(1, Kind::Open, 5)]);
    for set in edge_sets(row) {
        let both = [false, true].map(|flag| queue(2, &raw(flag, row.kind, set)));
        events.extend(served(both));
    }
    events.push(status());
    events
}

/// A command with each fault and with every two: on an empty queue, and on a full one, there
/// with a byte behind it too.
fn faults(row: &Row) -> [Vec<Item>; 2] {
    let few = (0..128u32).filter(|faults| faults.count_ones() <= 2);
    let sent: Vec<Vec<u8>> = few.map(|faults| faulty(row, faults)).collect();
    let empty = served(sent.iter().map(|bytes| queue(0, bytes)));
    let mut full = vec![queue(0, &flush()); LIMIT];
    for bytes in &sent {
        full.push(queue(0, bytes));
        full.push(queue(0, &[&bytes[..], &[0]].concat()));
    }
    full.extend(turns(1));
    [empty, full]
}

/// One command more than a seat has places for; then whatever is refused besides, what the
/// others send, and the same again behind a turn.
fn full_queue(seat: u8) -> Vec<Item> {
    let mut events: Vec<Item> = (0..=LIMIT).map(|number| region(seat, number)).collect();
    events.extend((1..=10).map(|code| queue(seat, &bad(code))));
    events.push(queue(seat, &flush().repeat(2)));
    events.push(queue(seat + 4, &flush()));
    events.extend(SEATS.map(|other| queue(other, &flush())));
    events.extend(turns(4));
    events.extend([100, 101].map(|number| region(seat, number)));
    for _ in 0..5 {
        events.extend(turns(7));
        events.push(status());
    }
    events
}

fn all_queues_full() -> Vec<Item> {
    let each = (0..=LIMIT).flat_map(|number| SEATS.map(|seat| region(seat, number)));
    let mut events: Vec<Item> = each.collect();
    for _ in 0..=SEATS.len() * LIMIT {
        events.push(turn());
    }
    events.push(status());
    events
}

/// More commands than a byte can count, with refused ones between them, while others count
/// their own.
fn numbers() -> Vec<Item> {
    let mut events = Vec::new();
    for number in 0..270 {
        events.extend(served([region(2, number)]));
        match number % 9 {
            0 => events.push(queue(2, &bad(1 + number as u8 % 10))),
            3 => events.extend(served([region(3, number)])),
            4 => events.push(queue(2, &flush().repeat(2))),
            6 => events.extend(served([append(0, Kind::TlmFlush, 0)])),
            _ => {}
        }
    }
    events
}

/// Behind each sort of thing that a fresh bench forgets: commands that wait, numbers, the seat
/// served last, and the bench itself.
fn fresh_again() -> Vec<Item> {
    let mut events = Vec::new();
    for seat in SEATS {
        events.extend(served([
            now(seat, Kind::ImgPwr, 1),
            now(seat, Kind::Open, 2),
        ]));
        events.extend(served([
            append(seat, Kind::TrkAlg, 1),
            now(seat, Kind::Close, 0),
        ]));
        events.extend(served([now(seat, Kind::Run, 2)]));
        events.extend([region(seat, 1), region(seat, 2)]);
        events.extend([fresh(), turn(), second(), status()]);
        events.extend(served_later(SEATS.map(|seat| region(seat, 3)).to_vec()));
        events.push(fresh());
    }
    events
}

/// A seat whose queue is filled up behind each turn, while the others come and go.
fn always_full(seat: u8) -> Vec<Item> {
    let mut events: Vec<Item> = (0..LIMIT).map(|number| region(seat, number)).collect();
    for number in 0..40 {
        let other = (seat + 1 + number as u8 % 3) % 4;
        if number % 7 < 3 {
            events.push(region(other, number));
        }
        events.extend([turn(), region(seat, LIMIT + number)]);
    }
    events
}

/// Every set of seats that wait, some with one command and some with two, behind a turn of this
/// one and one with none waiting.
fn waiting_sets(last: u8) -> Vec<Item> {
    let mut events = Vec::new();
    for set in 0..16u8 {
        events.extend([fresh(), region(last, 9), turn(), turn()]);
        let waiting: Vec<u8> = SEATS.into_iter().filter(|it| set >> it & 1 == 1).collect();
        let once = waiting.iter().map(|seat| region(*seat, 1));
        let twice = waiting.iter().filter(|it| (**it + set) % 2 == 0);
        let all = once.chain(twice.map(|seat| region(*seat, 2)));
        events.extend(served_later(all.collect()));
    }
    events
}

/// In which order seats send: one after another in both directions from each on, and each two
/// of them by turns.
fn deals() -> Vec<Vec<u8>> {
    let mut deals = Vec::new();
    for seat in SEATS {
        deals.push(SEATS.map(|other| (seat + other) % 4).to_vec());
        deals.push(SEATS.map(|other| (seat + 4 - other) % 4).to_vec());
        let others = SEATS.into_iter().filter(|other| *other != seat);
        deals.extend(others.map(|other| vec![seat, other]));
    }
    deals
}

/// Commands that are refused for what others did, and those others: flag, kind and argument.
/// In this order they have the codes 11 to 19 but 16, and 0.
const MEETING: [(bool, Kind, u32); 28] = [
    (true, Kind::TlmFlush, 0),
    (false, Kind::Close, 0),
    (false, Kind::Open, 0),
    (false, Kind::Open, 2),
    (false, Kind::Close, 0),
    (true, Kind::TlmFlush, 0),
    (true, Kind::Run, 0),
    (false, Kind::Close, 0),
    (false, Kind::Open, 0),
    (false, Kind::Open, 3),
    (true, Kind::Run, 0),
    (true, Kind::Run, 2),
    (true, Kind::Run, 3),
    (true, Kind::Wait, 600),
    (true, Kind::TlmFlush, 0),
    (false, Kind::Close, 0),
    (false, Kind::Clear, 0),
    (false, Kind::Run, 0),
    (false, Kind::Open, 0),
    (true, Kind::Wait, 2),
    (true, Kind::TlmFlush, 0),
    (false, Kind::Close, 0),
    (false, Kind::Run, 0),
    (false, Kind::Run, 0),
    (false, Kind::Clear, 0),
    (false, Kind::Stop, 0),
    (false, Kind::Run, 0),
    (true, Kind::TlmFlush, 0),
];

/// These commands dealt among seats, each served at once, and all of them later.
fn macros_between(deal: &[u8]) -> [Vec<Item>; 2] {
    let commands = MEETING.iter().zip(deal.iter().cycle());
    let queueings: Vec<Item> = commands
        .map(|((flag, kind, argument), seat)| queue(*seat, &raw(*flag, *kind, [*argument, 0])))
        .collect();
    let mut both = [served(queueings.clone()), served_later(queueings)];
    for events in &mut both {
        events.extend(watched(2));
    }
    both
}

/// Four commands that make a macro and run it, dealt among four seats in every order, of which
/// one alone serves them as they were meant.
fn every_order() -> Vec<Item> {
    let mut events = Vec::new();
    for order in 0..256u32 {
        let seats = [0, 2, 4, 6].map(|place| (order >> place & 3) as u8);
        if SEATS.iter().any(|seat| !seats.contains(seat)) {
            continue;
        }
        let queueings = vec![
            now(seats[0], Kind::Open, 1),
            append(seats[1], Kind::TlmFlush, 0),
            now(seats[2], Kind::Close, 0),
            now(seats[3], Kind::Run, 1),
        ];
        events.extend(served_later(queueings));
        events.extend(watched(1));
        events.push(fresh());
    }
    events
}

/// All seats append until no entry is free, and once more behind a CLEAR.
fn no_entry_free() -> Vec<Item> {
    let mut events = served([now(0, Kind::Open, 6)]);
    for number in 0..SHARED_ENTRIES / 4 + 1 {
        let kind = if number % 8 == 0 {
            Kind::Wait
        } else {
            Kind::TlmFlush
        };
        events.extend(SEATS.map(|seat| append(seat, kind, 1)));
        events.extend(turns(4));
    }
    events.extend(served([now(1, Kind::Close, 0), now(2, Kind::Open, 7)]));
    events.extend(served([
        append(3, Kind::TlmFlush, 0),
        now(1, Kind::Clear, 0),
    ]));
    events.extend(served([
        now(2, Kind::Open, 7),
        append(3, Kind::TlmFlush, 0),
    ]));
    events.push(status());
    events
}

/// Macros of which a second is as full as it may be and one fuller, and one that is as long as
/// it may be, by what several seats append.
fn full_and_long_macros() -> Vec<Item> {
    let mut events = served([now(0, Kind::Open, 0)]);
    let entries = (0..FULLEST_SECOND).map(|number| append(1 + number as u8 % 2, Kind::TlmFlush, 0));
    events.extend(served(entries));
    events.extend(served([now(3, Kind::Close, 0), now(0, Kind::Open, 1)]));
    let over = [append(1, Kind::Run, 0), append(2, Kind::TlmFlush, 0)];
    events.extend(served(over));
    events.extend(served([now(3, Kind::Close, 0), now(1, Kind::Run, 0)]));
    events.extend(watched(2));
    events.extend(served([now(0, Kind::Clear, 0), now(1, Kind::Open, 4)]));
    events.extend(served([append(2, Kind::Wait, 600), now(3, Kind::Close, 0)]));
    events.extend(served([now(2, Kind::Run, 4), now(0, Kind::Open, 5)]));
    events.extend(watched(2));
    events
}

/// One seat asks for images, and another switches the power.
fn dark() -> Vec<Item> {
    let image = |seat, kind, time| queue(seat, &raw(false, kind, [time, 1]));
    let mut events = Vec::new();
    for power in [1, 0, 1] {
        events.extend([image(3, Kind::ImgImage, 2), image(2, Kind::ImgTrack, 0)]);
        events.extend([image(2, Kind::ImgTrack, 3), now(1, Kind::ImgPwr, power)]);
        events.extend([image(0, Kind::ImgImage, 5), image(0, Kind::ImgImage, 0)]);
        events.extend(turns(7));
        events.extend(watched(3));
    }
    events
}

/// A macro of five seconds, which another seat stops behind so many; commands wait meanwhile,
/// and one runs it again.
fn run_and_stop(seconds: usize) -> Vec<Item> {
    let mut events = served([now(0, Kind::Open, 1)]);
    let entries = [
        append(1, Kind::TlmFlush, 0),
        append(2, Kind::TrkAlg, 1),
        append(3, Kind::Wait, 1),
        append(0, Kind::TrkLoop, 1),
        append(1, Kind::Wait, 3),
        append(2, Kind::ImgPwr, 1),
    ];
    events.extend(served(entries));
    events.extend(served([now(3, Kind::Close, 0), now(1, Kind::Run, 1)]));
    events.extend([
        now(2, Kind::Stop, 0),
        now(0, Kind::Run, 1),
        now(3, Kind::Run, 1),
    ]);
    events.extend(watched(seconds));
    for _ in 0..4 {
        events.extend(turns(1));
        events.extend(watched(2));
    }
    events
}

/// Every four of these: commands of three seats, and a turn; then two turns.
fn short_ones() -> Vec<Vec<Item>> {
    let sorts = [region(0, 1), region(1, 2), region(3, 3), turn()];
    let count = sorts.len();
    let all = (0..count.pow(4)).map(|choice| {
        let chosen = (0..4).map(|place| choice / count.pow(place) % count);
        let events = chosen.map(|sort| sorts[sort].clone());
        events.chain(turns(2)).collect()
    });
    all.collect()
}
