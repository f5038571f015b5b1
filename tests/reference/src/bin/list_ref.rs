//! The reference as the list program: the pupil's list on the input, one line
//! for each command on the output.

use reference::list::listing;
use reference::programs::serve_text;
use reference::run::LONGEST_LIST;

fn main() -> std::io::Result<()> {
    serve_text(LONGEST_LIST, listing)
}
