//! Reads case lines and writes one answer line for each.

use std::io::{self, BufRead, BufWriter, Write};

use reference::lines::answer_line;

fn main() -> io::Result<()> {
    let mut output = BufWriter::new(io::stdout().lock());
    for line in io::stdin().lock().split(b'\n') {
        let line = line?;
        // Bytes outside UTF-8 make no field of a case line.
        writeln!(output, "{}", answer_line(&String::from_utf8_lossy(&line)))?;
    }
    output.flush()
}
