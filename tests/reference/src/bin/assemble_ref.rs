//! The reference as the assembling program: a typed list on the input, the raw
//! list on the output.

use reference::programs::{assembler, serve};
use reference::text::LONGEST_TEXT;

fn main() -> std::io::Result<()> {
    serve(LONGEST_TEXT, assembler)
}
