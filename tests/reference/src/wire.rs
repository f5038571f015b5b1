//! Commands as bytes: reading the first command of a part (codes 1 to 10),
//! writing one (8, 9 or 10, then 24), and the words both are made of.

use crate::codes::{
    refuse_if, Refusal, BAD_LENGTH, BAD_XOR, CUT_OFF, PAD_NOT_ZERO, TOO_LITTLE_ROOM, TOO_SHORT,
    UNKNOWN_OPCODE, WRONG_LENGTH,
};
use crate::command::{Command, Row, FRAMING_WORDS, TABLE};

pub const WORD_BYTES: usize = 4;
pub const WORD_BITS: u32 = 32;
pub const SHORTEST_COMMAND: usize = 8;
pub const FEWEST_WORDS: usize = 2;
pub const MOST_WORDS: usize = 32;
pub const OPCODE_SHIFT: u32 = 16;
pub const FLAG_BIT: u32 = 0x8000;
pub const LENGTH_BITS: u32 = 0x7fff;

pub fn words_of(bytes: &[u8]) -> Vec<u32> {
    bytes
        .chunks_exact(WORD_BYTES)
        .map(|word| u32::from_be_bytes([word[0], word[1], word[2], word[3]]))
        .collect()
}

pub fn bytes_of(words: &[u32]) -> Vec<u8> {
    words.iter().flat_map(|word| word.to_be_bytes()).collect()
}

pub fn xor_of(words: &[u32]) -> u32 {
    words.iter().fold(0, |sum, word| sum ^ word)
}

/// The words with their XOR behind them, as bytes.
pub fn sealed(words: &[u32]) -> Vec<u8> {
    let mut all = words.to_vec();
    all.push(xor_of(words));
    bytes_of(&all)
}

/// How many bytes the first command takes, or why that cannot be told (1 to 3).
pub fn extent(bytes: &[u8]) -> Result<usize, Refusal> {
    refuse_if(bytes.len() < SHORTEST_COMMAND, TOO_SHORT)?;
    let first = words_of(&bytes[..WORD_BYTES])[0];
    let length = (first & LENGTH_BITS) as usize;
    refuse_if(!(FEWEST_WORDS..=MOST_WORDS).contains(&length), BAD_LENGTH)?;
    refuse_if(WORD_BYTES * length > bytes.len(), CUT_OFF)?;
    Ok(WORD_BYTES * length)
}

/// Reads the first command and looks at nothing behind it.
pub fn read_command(bytes: &[u8]) -> Result<Command, Refusal> {
    let words = words_of(&bytes[..extent(bytes)?]);
    let (last, before) = words.split_last().expect("extent gives two words or more");
    refuse_if(xor_of(before) != *last, BAD_XOR)?;
    let opcode = (words[0] >> OPCODE_SHIFT) as u16;
    let row = TABLE.iter().find(|row| row.opcode == opcode);
    let row = row.ok_or(Refusal::plain(UNKNOWN_OPCODE))?;
    refuse_if(words.len() != row.words, WRONG_LENGTH)?;
    let (arguments, pad) = unpacked(row, &before[1..]);
    refuse_if(pad != 0, PAD_NOT_ZERO)?;
    let appended = words[0] & FLAG_BIT != 0;
    let command = Command::new(appended, row.kind, arguments);
    command.judge()?;
    Ok(command)
}

/// Takes the arguments off the front of the words between first and last;
/// what remains is the pad.
fn unpacked(row: &Row, between: &[u32]) -> ([u32; 2], u64) {
    let mut left = WORD_BITS * between.len() as u32;
    let mut body = between
        .iter()
        .fold(0, |body: u64, word| body << WORD_BITS | u64::from(*word));
    let mut arguments = [0; 2];
    for (position, argument) in row.arguments.iter().enumerate() {
        left -= argument.bits;
        arguments[position] = (body >> left) as u32;
        body &= (1 << left) - 1;
    }
    (arguments, body)
}

/// The command's words without their XOR, its arguments not judged, so that
/// the comparison can also send what no writer would write.
pub fn unsealed(command: &Command) -> Vec<u32> {
    let row = command.kind.row();
    let flag = if command.appended { FLAG_BIT } else { 0 };
    let first = u32::from(row.opcode) << OPCODE_SHIFT | flag | row.words as u32;
    let mut free = WORD_BITS * (row.words - FRAMING_WORDS) as u32;
    let mut body: u64 = 0;
    for (argument, value) in row.arguments.iter().zip(command.arguments) {
        free -= argument.bits;
        body |= u64::from(value) << free;
    }
    match row.words - FRAMING_WORDS {
        0 => vec![first],
        1 => vec![first, body as u32],
        _ => vec![first, (body >> WORD_BITS) as u32, body as u32],
    }
}

/// Writes the command at the start of the room and says how many bytes it took.
pub fn write_command(command: &Command, room: &mut [u8]) -> Result<usize, Refusal> {
    command.judge()?;
    let bytes = sealed(&unsealed(command));
    refuse_if(bytes.len() > room.len(), TOO_LITTLE_ROOM)?;
    room[..bytes.len()].copy_from_slice(&bytes);
    Ok(bytes.len())
}
