//! Nanoseconds a byte of the independent program's listing of a text from standard input: for `bench/`.

use std::hint::black_box;
use std::io::{self, Read};
use std::time::Instant;

use reference::scan::list;

fn main() -> io::Result<()> {
    let mut text = Vec::new();
    io::stdin().read_to_end(&mut text)?;
    let times = 4_000_000 / (text.len() + 1) + 1;
    let best = (0..7).map(|_| {
        let began = Instant::now();
        for _ in 0..times {
            black_box(list(black_box(&text)));
        }
        began.elapsed().as_nanos() as f64 / (times * text.len().max(1)) as f64
    });
    println!("{:.2}", best.fold(f64::MAX, f64::min));
    Ok(())
}
