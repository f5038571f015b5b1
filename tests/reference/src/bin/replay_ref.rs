//! The reference as a replay program: a script on the input, its transcript
//! on the output.

use reference::programs::serve_text;
use reference::replay::{transcript, LONGEST_SCRIPT};

fn main() -> std::io::Result<()> {
    serve_text(LONGEST_SCRIPT, transcript)
}
