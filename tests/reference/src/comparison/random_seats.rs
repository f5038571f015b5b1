//! Random sittings at the four-seat bench: seats that queue commands aimed at what those that
//! wait will leave, most of them good, with turns, seconds and the status between; macros that
//! are dealt among the seats; queues filled past their limit; and seats that always have more.

use super::damage::{acting_kind, arguments, damaged};
use super::items::{queue, raw, second, status, turn, watched, Item};
use super::random::Maker;
use super::rng::Rng;
use super::sittings::Sitting;
use crate::command::Kind;
use crate::replay::Script;
use crate::seats::{LONGEST_QUEUE, SEATS};
use crate::seats_replay::SeatsReplay;

/// Seats that there are not.
const OTHER_SEATS: [u8; 8] = [4, 5, 7, 8, 127, 128, 252, 255];
/// So few macros are written that they meet.
const FEW_MACROS: usize = 3;
/// So many commands that wait are served one by one at the end.
const MOST_LEFT: usize = 10;

/// Follows a sitting with a bench of its own, so that commands can be aimed.
struct Host {
    maker: Maker,
    replay: SeatsReplay,
    events: Vec<Item>,
}

pub fn sitting(rng: &mut Rng) -> Sitting {
    let mut host = Host {
        maker: Maker::new(Rng::new(rng.next())),
        replay: SeatsReplay::default(),
        events: Vec::new(),
    };
    match rng.below(20) {
        0 => host.flood(),
        1..=4 => host.one_that_always_has_more(),
        5..=10 => host.macros_in_common(),
        _ => host.chatter(),
    }
    host.serve_the_rest();
    Sitting {
        events: host.events,
    }
}

impl Host {
    fn rng(&mut self) -> &mut Rng {
        &mut self.maker.rng
    }

    fn push(&mut self, event: Item) {
        self.replay.item(&mut Script::new(&event));
        self.events.push(event);
    }

    fn push_all(&mut self, events: impl IntoIterator<Item = Item>) {
        events.into_iter().for_each(|event| self.push(event));
    }

    fn waiting(&self) -> usize {
        self.replay.seats.queues.iter().map(|it| it.len()).sum()
    }

    /// A command that stands a fair chance once all that waits has been served.
    fn aimed(&mut self) -> Vec<u8> {
        let mut later = self.replay.seats.clone();
        for _ in 0..self.waiting() {
            // A mistake may well make a turn refuse; then the aim is another one.
            let _ = later.turn();
        }
        self.maker.shadow.bench = later.bench;
        self.maker.likely_command()
    }

    /// Mostly one that there is.
    fn some_seat(&mut self) -> u8 {
        let other = self.rng().pick(&OTHER_SEATS);
        match self.rng().percent(4) {
            true => other,
            false => self.rng().below(SEATS) as u8,
        }
    }

    /// A command as it should be, damaged, or with bytes behind it.
    fn queue_one(&mut self, seat: u8) {
        let mut bytes = self.aimed();
        match self.rng().below(20) {
            0 | 1 => bytes = damaged(self.rng(), &bytes),
            2 => {
                let more = self.rng().within(1, 8);
                bytes.extend(self.rng().bytes(more));
            }
            3 => bytes.extend(self.aimed()),
            _ => {}
        }
        self.push(queue(seat, &bytes));
    }

    /// Something that happens between the turns.
    fn event(&mut self) {
        let seat = self.some_seat();
        match self.rng().below(20) {
            0..=10 => self.queue_one(seat),
            11..=16 => self.push(turn()),
            17 | 18 => self.push(second()),
            _ => self.push(status()),
        }
    }

    fn chatter(&mut self) {
        for _ in 0..self.rng().within(10, 40) {
            self.event();
        }
    }

    /// Macros that the seats write between them, mostly each command served before the next
    /// one is queued; then one that runs while the seats go on.
    fn macros_in_common(&mut self) {
        for _ in 0..self.rng().within(1, 3) {
            for command in self.some_macro() {
                let seat = self.rng().below(SEATS) as u8;
                self.push(queue(seat, &command));
                if self.rng().percent(80) {
                    self.push(turn());
                }
                if self.rng().percent(15) {
                    self.event();
                }
            }
        }
        for _ in 0..self.rng().within(1, 5) {
            self.push_all(watched(1));
            self.event();
        }
    }

    /// Opened, filled, closed and run.
    fn some_macro(&mut self) -> Vec<Vec<u8>> {
        let number = self.rng().below(FEW_MACROS) as u32;
        let mut commands = vec![raw(false, Kind::Open, [number, 0])];
        for _ in 0..self.rng().within(1, 4) {
            commands.push(self.entry());
        }
        commands.push(raw(false, Kind::Close, [0; 2]));
        commands.push(raw(false, Kind::Run, [number, 0]));
        commands
    }

    fn entry(&mut self) -> Vec<u8> {
        let (kind, values) = match self.rng().below(10) {
            0 | 1 => (Kind::Run, [self.rng().below(FEW_MACROS) as u32, 0]),
            2..=4 => (Kind::Wait, [self.rng().pick(&[1, 1, 2, 600]), 0]),
            _ => {
                let kind = acting_kind(self.rng());
                (kind, arguments(self.rng(), kind, 0))
            }
        };
        raw(true, kind, values)
    }

    /// A seat's queue is filled to its limit and past it, and again behind some turns.
    fn flood(&mut self) {
        let seat = self.rng().below(SEATS) as u8;
        for _ in 0..self.rng().within(1, 2) {
            let mut left = self.rng().within(1, 5);
            for _ in 0..2 * LONGEST_QUEUE {
                let waiting = self.replay.seats.queues[usize::from(seat)].len();
                left -= usize::from(waiting >= LONGEST_QUEUE);
                if left == 0 {
                    break;
                }
                self.queue_one(seat);
            }
            for _ in 0..self.rng().within(1, 6) {
                self.event();
            }
        }
    }

    /// One seat queues another command behind each turn; the others come and go.
    fn one_that_always_has_more(&mut self) {
        let seat = self.rng().below(SEATS) as u8;
        self.queue_one(seat);
        for _ in 0..self.rng().within(5, 14) {
            self.queue_one(seat);
            if self.rng().percent(50) {
                let other = self.some_seat();
                self.queue_one(other);
            }
            self.push(turn());
        }
    }

    /// Sometimes all that waits, where that is not much, and a turn with none waiting.
    fn serve_the_rest(&mut self) {
        let waiting = self.waiting();
        if waiting <= MOST_LEFT && self.rng().percent(60) {
            self.push_all(vec![turn(); waiting + 1]);
        }
        self.push(status());
    }
}
