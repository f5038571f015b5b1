//! The reference as the typed program: a typed list on the input, one line for
//! each command on the output.

use reference::programs::{serve, typed};
use reference::text::LONGEST_TEXT;

fn main() -> std::io::Result<()> {
    serve(LONGEST_TEXT, typed)
}
