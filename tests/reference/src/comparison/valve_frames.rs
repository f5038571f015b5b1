//! Frames for the gas valve, word by word and by hand, so that a mistake of the reader or the
//! writer does not change what is sent.

use super::items::{fresh_valve, valve, Item};

pub const WORDS: usize = 32;
pub type Words = [u16; WORDS];

/// The identifier, and the code that fires.
pub const IDENTIFIER: u16 = 0x000e;
pub const RIGHT: u16 = 0x1810;
pub const AT_SUM: usize = 5;

/// Both flags, as one number.
pub const FLAGS: [u16; 4] = [0, 1, 2, 3];

/// What happened to a valve before: nothing, or it was armed, or fired as well.
#[derive(Clone, Copy, Debug, PartialEq, Eq)]
pub enum Before {
    Nothing,
    Armed,
    Fired,
}

pub const BEFORE: [Before; 3] = [Before::Nothing, Before::Armed, Before::Fired];

impl Before {
    /// The items that make a fresh valve one of this sort.
    pub fn items(self) -> Vec<Item> {
        let items = [
            fresh_valve(),
            valve(&bytes(&arming(0))),
            valve(&bytes(&firing(0, RIGHT))),
        ];
        items[..=self as usize].to_vec()
    }
}

/// The frame with these words 0 to 4, and a right sum.
pub fn summed(first: [u16; AT_SUM]) -> Words {
    let mut words = [0; WORDS];
    words[..AT_SUM].copy_from_slice(&first);
    mended(words)
}

/// The same words with a right sum.
pub fn mended(mut words: Words) -> Words {
    let summed = words[..AT_SUM].iter();
    words[AT_SUM] = summed.fold(0, |sum, word| sum.wrapping_add(*word));
    words
}

pub fn arming(flags: u16) -> Words {
    summed([flags << 14 | IDENTIFIER, 0xffff, 0x0001, 0, 0])
}

pub fn firing(flags: u16, code: u16) -> Words {
    summed([flags << 14 | IDENTIFIER, 0, 0, 0xffff, code])
}

pub fn bytes(words: &Words) -> Vec<u8> {
    words.iter().flat_map(|word| word.to_be_bytes()).collect()
}

/// The words with another one in this place.
pub fn with(words: &Words, place: usize, word: u16) -> Words {
    let mut changed = *words;
    changed[place] = word;
    changed
}
