//! The reference as the program that stores a list: a raw list on the input, its
//! stored form on the output.

use reference::programs::{serve, to_card};
use reference::run::LONGEST_LIST;

fn main() -> std::io::Result<()> {
    serve(LONGEST_LIST, to_card)
}
