//! The reference as the replay program for lists: a script on the input, its
//! transcript on the output.

use reference::lists_replay::transcript;
use reference::programs::serve_text;
use reference::replay::LONGEST_SCRIPT;

fn main() -> std::io::Result<()> {
    serve_text(LONGEST_SCRIPT, transcript)
}
