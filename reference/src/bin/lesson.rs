//! The bench program of the paper: reads a text from standard input, writes the output and then the eight fields of the record.

use std::io::{self, Read, Write};

use reference::bench::lesson;

fn main() -> io::Result<()> {
    let mut text = Vec::new();
    io::stdin().read_to_end(&mut text)?;
    let answer = lesson(text);
    let mut output = io::stdout().lock();
    output.write_all(&answer.output)?;
    writeln!(output, "{}", answer.fields())
}
