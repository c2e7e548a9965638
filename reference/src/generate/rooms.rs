//! Pairs of calls with one text, the second lent at least as much room as the first: what demand 3 speaks of.

use super::random::Random;
use crate::bench::{answer, Lent};
use crate::run::Abort;

const DEEPEST: u32 = 64;
const STORE_WORDS: u64 = 16_384;
const MOST_ROOM: u64 = 65_536;

/// A first call with less room than `second`, mostly with less than it uses.
/// `None` where depth or stores are refused, of which the demand says nothing.
pub fn less_room(random: &mut Random, second: &Lent) -> Option<Lent> {
    let inside = (1..=DEEPEST).contains(&second.depth);
    if !inside || second.code_words.min(second.value_words) < STORE_WORDS {
        return None;
    }
    let used = answer(second);
    let mut first = Lent {
        text: second.text.clone(),
        inputs: second.inputs.clone(),
        ..*second
    };
    // One room or several are scarce; sometimes none.
    if random.chance(60) {
        first.steps = first
            .steps
            .min(random.below(used.steps as usize + 2) as u32);
    }
    if random.chance(30) {
        first.depth = random.between(1, second.depth as usize) as u32;
    }
    if random.chance(30) {
        let room = random.below(used.output.len() + 2) as u64;
        first.output_room = first.output_room.min(room);
    }
    if random.chance(30) {
        let inputs = random.below(used.inputs_used + 2);
        first.inputs.truncate(inputs);
    }
    // K stays, and the allowance for what follows it is a room.
    if let Some(Abort { at, undo }) = second.abort.filter(|_| random.chance(50)) {
        let used = used.steps.saturating_sub(u64::from(at)) as usize;
        let undo = undo.min(random.below(used + 2) as u32);
        first.abort = Some(Abort { at, undo });
    }
    Some(first)
}

/// A call lent still more than it was.
pub fn more_room(random: &mut Random, lent: &mut Lent) {
    if random.chance(50) {
        lent.steps += random.below(3_000) as u32;
    }
    if random.chance(50) {
        lent.depth = random.between(lent.depth.min(DEEPEST) as usize, DEEPEST as usize) as u32;
    }
    if random.chance(50) {
        lent.output_room = (lent.output_room + random.below(500) as u64).min(MOST_ROOM);
    }
    if let Some(abort) = &mut lent.abort {
        abort.undo = abort.undo.saturating_add(random.below(100) as u32);
    }
    let more = random.below(4);
    lent.inputs
        .extend((0..more).map(|_| random.below(12) as i32 - 3));
}
