//! The reference as the program that reads a stored list: the stored form on the
//! input, the raw list on the output.

use reference::card::LONGEST_CARD;
use reference::programs::{from_card, serve};

fn main() -> std::io::Result<()> {
    serve(LONGEST_CARD, from_card)
}
