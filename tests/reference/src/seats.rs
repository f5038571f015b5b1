//! The four-seat bench: seats that share one bench, each with a queue of decoded commands.
//! Queueing (codes 27, 51, 1 to 10, 53, 52), a turn, and the seconds and the status of the
//! shared bench (27 each).

use std::collections::VecDeque;

use crate::bench::{Bench, Handed};
use crate::codes::{refuse_if, Refusal, BYTES_FOLLOW, NO_SUCH_SEAT, QUEUE_FULL, UNSOUND};
use crate::command::Command;
use crate::frame::Frame;
use crate::run::Record;
use crate::wire::{extent, read_command};

pub const SEATS: usize = 4;
/// The most commands that a seat can have waiting.
pub const LONGEST_QUEUE: usize = 32;
/// Counts as served last on a fresh bench, so that seat 0 is the next one.
const LAST_AT_FIRST: u8 = 3;

/// What a seat has waiting, the oldest command first.
pub type Queue = VecDeque<Command>;

#[derive(Clone, Debug, PartialEq, Eq)]
pub struct Seats {
    pub bench: Bench,
    pub queues: [Queue; SEATS],
    /// How many commands each seat got into its queue so far, modulo 2^32.
    pub queued: [u32; SEATS],
    /// The seat that was served last.
    pub last: u8,
}

impl Default for Seats {
    fn default() -> Self {
        Seats {
            bench: Bench::default(),
            queues: Default::default(),
            queued: [0; SEATS],
            last: LAST_AT_FIRST,
        }
    }
}

impl Seats {
    /// Queues the command of these bytes. A refusal changes nothing.
    pub fn queue(&mut self, seat: u8, bytes: &[u8]) -> Result<(), Refusal> {
        self.judge()?;
        let seat = usize::from(seat);
        refuse_if(seat >= SEATS, NO_SUCH_SEAT)?;
        let command = read_command(bytes)?;
        refuse_if(bytes.len() > extent(bytes)?, BYTES_FOLLOW)?;
        refuse_if(self.queues[seat].len() >= LONGEST_QUEUE, QUEUE_FULL)?;
        self.queues[seat].push_back(command);
        self.queued[seat] = self.queued[seat].wrapping_add(1);
        Ok(())
    }

    /// Serves the next waiting seat, and answers with the record of its command; with none
    /// where no seat waits, and then nothing changes.
    pub fn turn(&mut self) -> Result<Option<Record>, Refusal> {
        self.judge()?;
        let next = self.next_waiting();
        Ok(next.and_then(|seat| self.serve(seat)))
    }

    /// The first seat behind the one served last that waits; that one itself comes last.
    fn next_waiting(&self) -> Option<usize> {
        let last = usize::from(self.last);
        let mut behind = (1..=SEATS).map(|step| (last + step) % SEATS);
        behind.find(|seat| !self.queues[*seat].is_empty())
    }

    /// The seat's oldest command leaves the queue whatever the bench makes of it.
    fn serve(&mut self, seat: usize) -> Option<Record> {
        let command = self.queues[seat].pop_front()?;
        self.last = seat as u8;
        let answer = self.bench.carry_out(&command);
        Some(Record::new(seat as u8, self.served(seat), &answer))
    }

    /// How many of the seat's commands have left its queue, which is the number of the last.
    fn served(&self, seat: usize) -> u32 {
        let waiting = self.queues[seat].len() as u32;
        self.queued[seat].wrapping_sub(waiting)
    }

    /// A second of the shared bench; the answer is what was handed over.
    pub fn second(&mut self) -> Result<Vec<Handed>, Refusal> {
        self.judge()?;
        Ok(self.bench.second())
    }

    /// The shared bench as the status frame shows it.
    pub fn status(&self) -> Result<Frame, Refusal> {
        self.judge()?;
        Ok(self.bench.frame())
    }

    /// Code 27, which comes first in every call.
    fn judge(&self) -> Result<(), Refusal> {
        refuse_if(!self.is_sound(), UNSOUND)
    }

    pub fn is_sound(&self) -> bool {
        let seat_served = usize::from(self.last) < SEATS;
        seat_served && self.queues.iter().all(is_sound) && self.bench.is_sound()
    }
}

/// Whether a seat may have this waiting. (Code 7 has no meaning here: what is decoded has no
/// pad.)
fn is_sound(queue: &Queue) -> bool {
    queue.len() <= LONGEST_QUEUE && queue.iter().all(|waiting| waiting.judge().is_ok())
}
