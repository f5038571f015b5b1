//! The reference as the listing program: a raw list on the input, its text on
//! the output.

use reference::programs::{lister, serve};
use reference::run::LONGEST_LIST;

fn main() -> std::io::Result<()> {
    serve(LONGEST_LIST, lister)
}
