//! The reference as the program that rescues a list: a damaged list on the input, the
//! commands kept on the output, the stretches skipped on standard error.

use reference::programs::{rescue_list, serve};
use reference::run::LONGEST_LIST;

fn main() -> std::io::Result<()> {
    serve(LONGEST_LIST, rescue_list)
}
