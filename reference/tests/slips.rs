//! Simulators with a classroom slip: they list what the lessons say, and the generator makes
//! modules that show it.

use std::fs;
use std::path::Path;

use reference::bench::{answer, answer_by, Lent};
use reference::generate::{Cases, Kind, Size};
use reference::lines::{lent_of, read_bytes};
use reference::mark::listing_of;
use reference::run::Slip;

const SLIPS: [(Slip, &str); 3] = [
    (Slip::TryNextInDropped, "slip-trynext"),
    (Slip::RetryFromStart, "slip-retry"),
    (Slip::ErrorInErrorHandedOn, "slip-error-in-error"),
];

fn lesson(name: &str) -> Vec<u8> {
    let lessons = Path::new(env!("CARGO_MANIFEST_DIR")).join("../lessons");
    fs::read(lessons.join(name)).expect("a file beside the lessons")
}

/// The offset of a listing's line, which begins with LINE:COLUMN.
fn offset(text: &[u8], line: &str) -> usize {
    let place = line.split(' ').next().and_then(|word| word.split_once(':'));
    let (line, column) = place.expect("a line and a column");
    let number = |digits: &str| digits.parse::<usize>().expect("a number");
    let before = text.split_inclusive(|byte| *byte == b'\n');
    let before: usize = before.take(number(line) - 1).map(<[u8]>::len).sum();
    before + number(column) - 1
}

#[test]
fn lessons_have_the_listings_of_their_slips() {
    for (slip, name) in SLIPS {
        let text = lesson(&format!("{name}.mod"));
        let listing = String::from_utf8(lesson(&format!("{name}.places"))).expect("ASCII");
        let places: Vec<usize> = listing
            .lines()
            .filter(|line| !line.starts_with('!'))
            .map(|line| offset(&text, line))
            .collect();
        let lent = Lent {
            text,
            steps: 10_000,
            depth: 16,
            inputs: Vec::new(),
            output_room: 4_096,
            code_words: 16_384,
            value_words: 16_384,
            abort: None,
        };
        assert_eq!(answer_by(&lent, Some(slip)).places, places, "{name}");
        assert_ne!(answer(&lent).places, places, "{name}");
    }
}

/// Cases of request 14 have listings of each.
#[test]
fn every_slip_is_seen() {
    let mut seen = [0; SLIPS.len()];
    for line in Cases::new(7, Kind::Marking, Size::Short).take(2_000) {
        let (case, listing) = line.rsplit_once(' ').expect("a mark line");
        let lent = lent_of(&case.replacen("mark", "run", 1)).expect("a run line");
        let listing = read_bytes(listing).expect("bytes");
        let ours = answer(&lent).places;
        for (seen, (slip, _)) in seen.iter_mut().zip(SLIPS) {
            let theirs = answer_by(&lent, Some(slip)).places;
            let places: Vec<u32> = theirs.iter().map(|place| *place as u32).collect();
            *seen += usize::from(theirs != ours && listing.starts_with(&listing_of(&places)));
        }
    }
    assert!(seen.iter().all(|seen| *seen > 40), "{seen:?}");
}
