//! Writes case lines: `generate SEED COUNT KIND [SIZE]`.

use std::io::{self, BufWriter, Write};
use std::process::ExitCode;

use reference::generate::{Cases, Kind, Size};

const USAGE: &str = "usage: generate SEED COUNT \
                     valid|courses|counting|undo|hiding|marking|mistyped|words|bytes|limits|class|listing|all [short|long]";

fn asked_for() -> Option<(Cases, usize)> {
    let arguments: Vec<String> = std::env::args().skip(1).collect();
    let (seed, count, kind, size) = match arguments.as_slice() {
        [seed, count, kind] => (seed, count, kind, "short"),
        [seed, count, kind, size] => (seed, count, kind, size.as_str()),
        _ => return None,
    };
    let cases = Cases::new(seed.parse().ok()?, Kind::named(kind)?, Size::named(size)?);
    Some((cases, count.parse().ok()?))
}

fn main() -> ExitCode {
    let Some((cases, count)) = asked_for() else {
        eprintln!("{USAGE}");
        return ExitCode::from(2);
    };
    match write_lines(cases, count) {
        Ok(()) => ExitCode::SUCCESS,
        // A reader that has enough is no mistake.
        Err(error) if error.kind() == io::ErrorKind::BrokenPipe => ExitCode::SUCCESS,
        Err(error) => {
            eprintln!("{error}");
            ExitCode::FAILURE
        }
    }
}

fn write_lines(cases: Cases, count: usize) -> io::Result<()> {
    let mut output = BufWriter::new(io::stdout().lock());
    for line in cases.take(count) {
        writeln!(output, "{line}")?;
    }
    output.flush()
}
