//! Writes the case lines of a hand-worked table, or its answer lines:
//! `hand cases|answers < cases/hand.txt`.

use std::io::{self, Read, Write};
use std::process::ExitCode;

use reference::hand::read_table;

fn main() -> ExitCode {
    let wanted = std::env::args().nth(1);
    let answers = match wanted.as_deref() {
        Some("cases") => false,
        Some("answers") => true,
        _ => {
            eprintln!("usage: hand cases|answers < cases/hand.txt");
            return ExitCode::from(2);
        }
    };
    match write_lines(answers) {
        Ok(()) => ExitCode::SUCCESS,
        Err(mistake) => {
            eprintln!("{mistake}");
            ExitCode::FAILURE
        }
    }
}

fn write_lines(answers: bool) -> Result<(), String> {
    let mut table = String::new();
    io::stdin()
        .read_to_string(&mut table)
        .map_err(|error| error.to_string())?;
    let mut output = io::stdout().lock();
    for case in read_table(&table)? {
        let line = if answers { case.answer } else { case.case };
        writeln!(output, "{line}").map_err(|error| error.to_string())?;
    }
    Ok(())
}
