//! The gas valve: its frames of 32 words, read (codes 40 to 44) and written (24), and what
//! they do to it (45, 46).

use crate::codes::{
    refuse_if, Refusal, BAD_SUM, NEITHER_PATTERN, NOT_64_BYTES, NOT_ARMED, OTHER_IDENTIFIER,
    TOO_LITTLE_ROOM, UNUSED_NOT_ZERO, WRONG_FIRING_CODE,
};

pub const VALVE_FRAME_BYTES: usize = 64;
const WORDS: usize = 32;

/// Word 0: the identifier in the low 14 bits, and the two flags above it.
const IDENTIFIER_BITS: u16 = 0x3fff;
const IDENTIFIER: u16 = 0x000e;
const FLAGS_SHIFT: u32 = 14;
/// What word 1 holds of a frame that arms, and word 3 of one that fires.
const TRUE: u16 = 0xffff;
/// What word 2 holds of a frame that arms.
const MASK: u16 = 0x0001;
/// The word that holds the sum of those before it.
const AT_SUM: usize = 5;
/// The words that are not used begin here.
const UNUSED: usize = 6;

/// The code that word 4 has to hold of a frame that fires.
pub const FIRING_CODE: u16 = 0x1810;

const ARMED_BIT: u16 = 0x4000;
const FIRED_BIT: u16 = 0x8000;

/// What a frame asks for.
#[derive(Clone, Copy, Debug, PartialEq, Eq)]
pub enum Order {
    Arm,
    /// With any code: only a valve refuses a wrong one.
    Fire(u16),
}

/// A frame as it was read, or is to be written. The flags are one number from 0 to 3; none
/// is judged.
#[derive(Clone, Copy, Debug, PartialEq, Eq)]
pub struct ValveFrame {
    pub flags: u8,
    pub order: Order,
}

fn words_of(bytes: &[u8]) -> Vec<u16> {
    let pairs = bytes.chunks_exact(2);
    pairs
        .map(|pair| u16::from_be_bytes([pair[0], pair[1]]))
        .collect()
}

/// The sum of words 0 to 4, modulo 65536.
fn sum(words: &[u16]) -> u16 {
    let summed = words[..AT_SUM].iter();
    summed.fold(0, |sum, word| sum.wrapping_add(*word))
}

impl Order {
    /// The order that words 1 to 4 say; none where they have neither pattern.
    fn read(words: &[u16]) -> Option<Order> {
        match *words {
            [TRUE, MASK, 0, 0] => Some(Order::Arm),
            [0, 0, TRUE, code] => Some(Order::Fire(code)),
            _ => None,
        }
    }

    fn words(self) -> [u16; 4] {
        match self {
            Order::Arm => [TRUE, MASK, 0, 0],
            Order::Fire(code) => [0, 0, TRUE, code],
        }
    }
}

impl ValveFrame {
    pub fn read(bytes: &[u8]) -> Result<Self, Refusal> {
        refuse_if(bytes.len() != VALVE_FRAME_BYTES, NOT_64_BYTES)?;
        let words = words_of(bytes);
        refuse_if(words[AT_SUM] != sum(&words), BAD_SUM)?;
        refuse_if(words[0] & IDENTIFIER_BITS != IDENTIFIER, OTHER_IDENTIFIER)?;
        let unused = &words[UNUSED..];
        refuse_if(unused.iter().any(|word| *word != 0), UNUSED_NOT_ZERO)?;
        let order = Order::read(&words[1..AT_SUM]);
        Ok(ValveFrame {
            flags: (words[0] >> FLAGS_SHIFT) as u8,
            order: order.ok_or(Refusal::plain(NEITHER_PATTERN))?,
        })
    }

    pub fn bytes(&self) -> Vec<u8> {
        let mut words = [0; WORDS];
        words[0] = u16::from(self.flags) << FLAGS_SHIFT | IDENTIFIER;
        words[1..AT_SUM].copy_from_slice(&self.order.words());
        words[AT_SUM] = sum(&words);
        words.iter().flat_map(|word| word.to_be_bytes()).collect()
    }

    /// Writes the frame at the start of the room.
    pub fn write(&self, room: &mut [u8]) -> Result<usize, Refusal> {
        refuse_if(room.len() < VALVE_FRAME_BYTES, TOO_LITTLE_ROOM)?;
        room[..VALVE_FRAME_BYTES].copy_from_slice(&self.bytes());
        Ok(VALVE_FRAME_BYTES)
    }
}

/// The valve. A fired one counts as armed.
#[derive(Clone, Copy, Debug, Default, PartialEq, Eq)]
pub enum Valve {
    #[default]
    Safe,
    Armed,
    Fired,
}

impl Valve {
    /// The status word.
    pub fn status(self) -> u16 {
        match self {
            Valve::Safe => 0,
            Valve::Armed => ARMED_BIT,
            Valve::Fired => ARMED_BIT | FIRED_BIT,
        }
    }

    /// Carries out a frame from its bytes. A refusal leaves the valve as it was.
    pub fn carry_out_bytes(&mut self, bytes: &[u8]) -> Result<(), Refusal> {
        let frame = ValveFrame::read(bytes)?;
        self.carry_out(frame.order)
    }

    pub fn carry_out(&mut self, order: Order) -> Result<(), Refusal> {
        *self = match order {
            Order::Arm => self.armed(),
            Order::Fire(code) => self.fired(code)?,
        };
        Ok(())
    }

    /// What becomes of the valve when it is armed.
    fn armed(self) -> Valve {
        match self {
            Valve::Safe => Valve::Armed,
            Valve::Armed | Valve::Fired => self,
        }
    }

    /// What becomes of the valve when it is fired with this code.
    fn fired(self, code: u16) -> Result<Valve, Refusal> {
        refuse_if(self == Valve::Safe, NOT_ARMED)?;
        refuse_if(code != FIRING_CODE, WRONG_FIRING_CODE)?;
        Ok(Valve::Fired)
    }
}
