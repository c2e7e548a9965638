//! `pairs SEED < cases`: for each `run` line a pair of them, with one text; the second lends at least as much of each room.

use std::io::{self, BufRead, BufWriter, Write};
use std::process::ExitCode;

use reference::generate::{less_room, more_room, Random};
use reference::lines::{lent_of, show_run};

fn main() -> ExitCode {
    let seed = std::env::args().nth(1).and_then(|seed| seed.parse().ok());
    let Some(seed) = seed else {
        eprintln!("usage: pairs SEED < cases");
        return ExitCode::from(2);
    };
    match write_pairs(seed) {
        Ok(()) => ExitCode::SUCCESS,
        // A reader that has seen enough is no mistake.
        Err(error) if error.kind() == io::ErrorKind::BrokenPipe => ExitCode::SUCCESS,
        Err(error) => {
            eprintln!("{error}");
            ExitCode::FAILURE
        }
    }
}

fn write_pairs(seed: u64) -> io::Result<()> {
    let mut random = Random::new(seed);
    let mut output = BufWriter::new(io::stdout().lock());
    for line in io::stdin().lock().lines() {
        let Some(mut second) = lent_of(&line?) else {
            continue;
        };
        more_room(&mut random, &mut second);
        if let Some(first) = less_room(&mut random, &second) {
            writeln!(output, "{}\n{}", show_run(&first), show_run(&second))?;
        }
    }
    output.flush()
}
