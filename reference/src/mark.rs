//! Request 14: the listing of another simulator, marked.

use crate::bench::{answer, Answer, Lent};
use crate::counts::Event;
use crate::lines::{show_answer, show_bytes, show_run};

/// Bytes of an entry, the low byte first.
const ENTRY: usize = 4;

/// Whether a listing is that of the whole run, and how many entries the two have in common
/// at their beginning: where they differ, the index of the first entry that differs, is
/// missing or is surplus.
#[derive(Clone, Copy, Debug, PartialEq, Eq)]
pub struct Marked {
    pub same: bool,
    pub index: usize,
}

/// The call's answer, with the listing marked where the module is not refused.
pub fn answer_marking(lent: &Lent, listing: &[u8]) -> Answer {
    let mut answer = answer(lent);
    if answer.ending > 0 {
        let theirs = entries(listing);
        let marked = mark(&answer.places, &theirs);
        let event = match (answer.places.get(marked.index), theirs.get(marked.index)) {
            (Some(_), Some(_)) => Event::EntryDiffers,
            (Some(_), None) => Event::EntryMissing,
            (None, Some(_)) => Event::EntrySurplus,
            (None, None) => Event::ListingEqual,
        };
        answer.counts.add(event);
        if listing.len() % ENTRY > 0 {
            answer.counts.add(Event::PartWord);
        }
        answer.marked = Some(marked);
    }
    answer
}

/// A listing's entries. A part word is left out.
fn entries(listing: &[u8]) -> Vec<u32> {
    let entry = |bytes: &[u8]| {
        bytes
            .iter()
            .rev()
            .fold(0, |high, byte| high << 8 | u32::from(*byte))
    };
    listing.chunks_exact(ENTRY).map(entry).collect()
}

/// The bytes of a listing.
pub fn listing_of(places: &[u32]) -> Vec<u8> {
    places
        .iter()
        .flat_map(|place| place.to_le_bytes())
        .collect()
}

fn mark(ours: &[usize], theirs: &[u32]) -> Marked {
    let both = ours.iter().zip(theirs);
    let index = both
        .take_while(|(ours, theirs)| **ours as u64 == u64::from(**theirs))
        .count();
    Marked {
        same: index == ours.len() && index == theirs.len(),
        index,
    }
}

/// The `mark` line of a call with a listing.
pub fn case_of_mark(lent: &Lent, listing: &[u8]) -> String {
    let run = show_run(lent);
    let lent = run.strip_prefix("run ").expect("a run line");
    format!("mark {lent} {}", show_bytes(listing))
}

/// The answer line of a `mark` line.
pub fn show_marked(answer: &Answer) -> String {
    let run = show_answer(answer);
    match answer.marked {
        None => format!("{run} - -"),
        Some(Marked { same, index }) => format!("{run} {} {index}", u8::from(same)),
    }
}

/// A listing as the table of cases worked out by hand has it: an entry a word, `+` and bytes
/// in hexadecimal at its end.
pub fn listed(words: &str, place: impl Fn(&str) -> Option<usize>) -> Result<Vec<u8>, String> {
    let mut listing = Vec::new();
    for word in words.split_whitespace() {
        if let Some(bytes) = word.strip_prefix('+') {
            let bytes = crate::lines::read_bytes(bytes);
            listing.extend(bytes.ok_or("no bytes behind +")?);
            continue;
        }
        let entry: Option<u32> = match place(word) {
            Some(place) => u32::try_from(place).ok(),
            None => word.parse().ok(),
        };
        let entry = entry.ok_or(format!("no entry {word}"))?;
        listing.extend(listing_of(&[entry]));
    }
    Ok(listing)
}
