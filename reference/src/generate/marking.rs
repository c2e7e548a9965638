//! Cases of request 14: modules that run, each with a listing to be marked: that of the run
//! itself, one with a change, or that of a simulator with a classroom slip.

use super::chains::chain;
use super::layout::{write_out, Token};
use super::random::Random;
use super::{counting, courses, hiding, lend, module_words, text_of, Kind, Size, FEW_UNDO};
use crate::bench::{answer, answer_by, Answer, Lent};
use crate::mark::{case_of_mark, listing_of};
use crate::run::Slip;

/// Modules are made until one runs for so many steps, and shows its slip; so often at most.
const LASTING: u64 = 12;
const TRIES: usize = 40;
/// Longer listings make long lines.
const MOST_STEPS: u32 = 2_000;
const SLIPS: [Slip; 3] = [
    Slip::TryNextInDropped,
    Slip::RetryFromStart,
    Slip::ErrorInErrorHandedOn,
];
const PART_WORD: usize = 3;

/// A call, our run, and the listing of a simulator with or without a slip.
struct Case {
    lent: Lent,
    ours: Answer,
    theirs: Vec<usize>,
}

pub fn marking_line(random: &mut Random, size: Size) -> String {
    if random.chance(8) {
        return refused_line(random, size);
    }
    let slip = random.chance(30).then(|| random.pick(&SLIPS));
    let steps = if random.chance(94) { LASTING } else { 0 };
    let shows = |case: &Case| {
        case.ours.steps >= steps && (slip.is_none() || case.theirs != case.ours.places)
    };
    let mut case = any_case(random, size, slip);
    for _ in 0..TRIES {
        if shows(&case) {
            break;
        }
        case = any_case(random, size, slip);
    }
    let mut listing = places(&case.theirs);
    if slip.is_none() {
        change(random, &mut listing, case.ours.offset as u32);
    }
    let missing = case.ours.places.get(listing.len());
    let mut listing = listing_of(&listing);
    if random.chance(15) {
        part_word(random, &mut listing, missing);
    }
    case_of_mark(&case.lent, &listing)
}

fn places(listing: &[usize]) -> Vec<u32> {
    listing.iter().map(|place| *place as u32).collect()
}

/// A refused module; what listing it comes with does not matter.
fn refused_line(random: &mut Random, size: Size) -> String {
    let kind = random.pick(&[Kind::Mistyped, Kind::Mistyped, Kind::Words, Kind::Bytes]);
    let text = text_of(random, kind, size);
    let mut lent = lend(random, text);
    match random.below(12) {
        0 => lent.depth = random.pick(&[0, 65, u32::MAX]),
        1 => lent.code_words -= 1,
        2 => lent.value_words = random.below(16_384) as u64,
        _ => {}
    }
    let entries = random.below(9);
    let listing: Vec<u8> = (0..entries).map(|_| random.byte()).collect();
    case_of_mark(&lent, &listing)
}

/// An accepted module, mostly lent enough.
fn any_case(random: &mut Random, size: Size, slip: Option<Slip>) -> Case {
    let words = any_module(random, size, slip.is_some());
    let text = write_out(random, &words);
    let mut lent = lend(random, text);
    if random.chance(85) {
        lent.steps = random.between(20, 400) as u32;
        lent.depth = random.pick(&[8, 16, 64]);
        lent.output_room = random.pick(&[256, 4_096]);
    }
    lent.steps = lent.steps.min(MOST_STEPS);
    let ours = answer(&lent);
    let theirs = answer_by(&lent, slip).places;
    Case { lent, ours, theirs }
}

/// One that has errors and what handles them where a slip is to be seen.
fn any_module(random: &mut Random, size: Size, slipping: bool) -> Vec<Token> {
    if slipping || random.chance(20) {
        return chain(random, FEW_UNDO);
    }
    match random.weighted(&[45, 25, 15, 15]) {
        0 => module_words(random, size, FEW_UNDO),
        1 => courses::course(random, FEW_UNDO),
        2 => counting::counting(random),
        _ => hiding::hiding(random),
    }
}

/// Leaves the run's listing as it is, or changes, cuts, widens or lengthens it.
fn change(random: &mut Random, listing: &mut Vec<u32>, stopped: u32) {
    let length = listing.len();
    match random.weighted(&[18, 26, 14, 16, 8, 8, 10]) {
        0 => {}
        1 if length > 0 => change_entry(random, listing),
        2 => listing.truncate(length.saturating_sub(1)),
        // the place where a run stopped is the likely surplus
        3 => listing.push(random.pick(&[stopped, 0, 1, u32::MAX])),
        4 if length > 0 => listing.truncate(random.below(length)),
        5 if length > 0 => {
            let at = random.below(length);
            if random.chance(50) {
                listing.remove(at);
            } else {
                listing.insert(at, listing[at]);
            }
        }
        _ => {
            let more = random.between(1, 40);
            let again: Vec<u32> = listing.iter().copied().cycle().take(more).collect();
            listing.extend(again);
            listing.resize(length + more, stopped);
        }
    }
}

/// Another entry in place of one: a near one, one of another step, or one in which a single
/// byte or bit differs. The first and the last are the likely ones.
fn change_entry(random: &mut Random, listing: &mut [u32]) {
    let last = listing.len() - 1;
    let at = match random.below(10) {
        0 => 0,
        1 | 2 => last,
        _ => random.below(listing.len()),
    };
    let other = *random.choose(listing);
    let entry = listing[at];
    listing[at] = match random.below(7) {
        0 => entry.wrapping_add(1),
        1 => entry.wrapping_sub(1),
        2 | 3 if other != entry => other,
        4 => entry.swap_bytes(),
        5 => entry ^ 1 << 31,
        _ => entry ^ 1 << random.below(32),
    };
}

/// One to three bytes behind a listing: those of the entry that is missing there, or any.
fn part_word(random: &mut Random, listing: &mut Vec<u8>, missing: Option<&usize>) {
    let next = missing.map_or(0, |place| *place as u32).to_le_bytes();
    let right = random.chance(50);
    for byte in &next[..random.between(1, PART_WORD)] {
        listing.push(if right { *byte } else { random.byte() });
    }
}
