//! The replay program for the gas valve: a script of items in, a transcript of their answers
//! out. Its items are frames carried out, frames read and written again, and fresh valves.

use crate::codes::code_and_finding;
use crate::replay::{transcript_by, written_words, Script, ROOM_FILL};
use crate::valve::{Order, Valve, ValveFrame};

pub const FRESH: u8 = 0x00;
pub const CARRY_OUT: u8 = 0x01;
pub const READ: u8 = 0x02;

/// The whole transcript of a script.
pub fn transcript(script: &[u8]) -> String {
    let mut replay = ValveReplay::default();
    transcript_by(script, |left| replay.item(left))
}

/// A valve that takes one item of a script after another.
#[derive(Clone, Default)]
pub struct ValveReplay {
    pub valve: Valve,
}

impl ValveReplay {
    /// Takes one item off the script and answers with its line.
    pub fn item(&mut self, script: &mut Script) -> Option<String> {
        match script.byte()? {
            FRESH => {
                self.valve = Valve::default();
                Some(String::new())
            }
            CARRY_OUT => Some(self.carry_out(script.short_part()?)),
            READ => Some(frame_line(script.byte()?.into(), script.short_part()?)),
            _ => None,
        }
    }

    fn carry_out(&mut self, bytes: &[u8]) -> String {
        let (code, _) = code_and_finding(&self.valve.carry_out_bytes(bytes));
        format!("valve {code} {:04x}\n", self.valve.status())
    }
}

fn frame_line(room: usize, bytes: &[u8]) -> String {
    match ValveFrame::read(bytes) {
        Err(refusal) => format!("frame {}\n", refusal.code),
        Ok(frame) => {
            let mut room = vec![ROOM_FILL; room];
            let written = frame.write(&mut room);
            let words = written_words(&written, &room);
            let order = order_words(frame.order);
            format!("frame 0 {} {order} {words}\n", frame.flags)
        }
    }
}

fn order_words(order: Order) -> String {
    match order {
        Order::Arm => "arm".into(),
        Order::Fire(code) => format!("fire {code}"),
    }
}
