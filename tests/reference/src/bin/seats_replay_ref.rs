//! The reference as the replay program for the four-seat bench: a script on the input, its
//! transcript on the output.

use reference::programs::serve_text;
use reference::replay::LONGEST_SCRIPT;
use reference::seats_replay::transcript;

fn main() -> std::io::Result<()> {
    serve_text(LONGEST_SCRIPT, transcript)
}
