//! Counts the refusals and endings in the answer lines of `run` and `mark` cases.

use std::io::{self, BufRead};

use reference::tally::Tally;

fn main() -> io::Result<()> {
    let mut tally = Tally::default();
    for line in io::stdin().lock().lines() {
        tally.count(&line?);
    }
    print!("{}", tally.show());
    Ok(())
}
