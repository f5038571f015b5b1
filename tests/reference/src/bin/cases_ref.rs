//! The reference as the cases program: lines that ask for a number of pictures on the
//! input, one line with each number on the output.

use std::io::{Read, Write};

use reference::pictures::answers;

fn main() -> std::io::Result<()> {
    let mut input = Vec::new();
    std::io::stdin().read_to_end(&mut input)?;
    std::io::stdout().write_all(answers(&input).as_bytes())
}
