//! Whether a program answers as the reference does, and what is printed where it does not:
//! the smallest input found, and the first line that differs.

use super::agreement::Disagreement;
use super::items::Item;
use super::program::Program;
use super::shrink::shrunk;
use super::tally::first_difference;
use crate::replay::hex;

/// Says that a difference was found and printed.
pub struct Differs;

/// The first line that is not as expected.
pub struct Difference {
    pub line: usize,
    expected: String,
    found: String,
}

/// What the program answers, where that is what is expected.
pub fn answered(program: &Program, input: &[u8], expected: &str) -> Result<String, Difference> {
    // Nobody knows at which line it went wrong, so all items are kept.
    let found = program.answer(input).map_err(|trouble| Difference {
        line: usize::MAX,
        expected: "an end".into(),
        found: trouble,
    })?;
    match first_difference(expected, &found) {
        None => Ok(found),
        Some((line, expected, found)) => Err(Difference {
            line,
            expected,
            found,
        }),
    }
}

/// Which item answers with the line of this number, from 1, by how many lines each has.
pub fn item_of_line(counts: &[usize], line: usize) -> usize {
    let mut lines = 0;
    for (index, count) in counts.iter().enumerate() {
        lines += count;
        if lines >= line {
            return index;
        }
    }
    counts.len()
}

/// Shrinks the items, for which the reference expects what the function says,
/// and prints what is left of them with the difference that they show.
pub fn report(
    program: &Program,
    expected: fn(&[u8]) -> String,
    items: &[Item],
    last: usize,
) -> Differs {
    let show = |items: &[Item]| {
        let input = items.concat();
        answered(program, &input, &expected(&input)).err()
    };
    let smallest = shrunk(items, last, &mut |fewer| show(fewer).is_some());
    print_smallest(&smallest);
    match show(&smallest) {
        None => println!("the program does not always answer the same"),
        Some(found) => {
            let known = (found.line != usize::MAX).then(|| format!(" {}", found.line));
            println!("first differing line{}:", known.unwrap_or_default());
            println!("  reference: {}", found.expected);
            println!("  program:   {}", found.found);
        }
    }
    Differs
}

fn print_smallest(items: &[Item]) {
    let bytes: usize = items.iter().map(Vec::len).sum();
    println!("smallest found, {bytes} bytes, one item a line:");
    for item in items {
        println!("  {}", hex(item));
    }
}

/// The same for items to which a program's own answers disagree, where they do so again,
/// in a line of this sort.
pub fn report_disagreement(items: &[Item], shown: Option<Disagreement>, of: &str) -> Differs {
    print_smallest(items);
    match shown {
        None => println!("the program does not always answer the same"),
        Some(Disagreement { foretold, found }) => {
            println!("first differing line {of}:");
            println!("  foretold: {foretold}");
            println!("  program:  {found}");
        }
    }
    Differs
}
