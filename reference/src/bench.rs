//! The whole call: refusals in their order, then the run.

use crate::counts::Counts;
use crate::form::form;
use crate::mark::Marked;
use crate::names::settle;
use crate::run::{run, Abort, Allowance, Slip};
use crate::scan::{list, Refusal};

const STORE_WORDS: u64 = 16_384;
const DEEPEST: u32 = 64;

/// What a call is lent.
pub struct Lent {
    pub text: Vec<u8>,
    pub steps: u32,
    pub depth: u32,
    pub inputs: Vec<i32>,
    pub output_room: u64,
    pub code_words: u64,
    pub value_words: u64,
    /// Request 6: the step at which the pointer is moved to main, if it is.
    pub abort: Option<Abort>,
}

/// The record, what was written and the module's words.
#[derive(Debug, Default, PartialEq, Eq)]
pub struct Answer {
    pub ending: u32,
    pub refusal: u32,
    pub offset: usize,
    pub steps: u64,
    pub errno: i64,
    pub inputs_used: usize,
    pub output: Vec<u8>,
    pub words: Vec<i64>,
    /// What the run came across; no part of the paper's answer.
    pub counts: Counts,
    /// The place of each counted step, in order.
    pub places: Vec<usize>,
    /// Request 14: how a listing was marked; none where the module is refused.
    pub marked: Option<Marked>,
}

impl Answer {
    /// The record's eight fields in the paper's order, separated by blanks.
    pub fn fields(&self) -> String {
        format!(
            "{} {} {} {} {} {} {} {}",
            self.ending,
            self.refusal,
            self.offset,
            self.steps,
            self.errno,
            self.output.len(),
            self.inputs_used,
            self.words.len()
        )
    }
}

/// The call that the bench program makes: 10,000 steps, depth 16, no inputs, 4,096 output bytes.
pub fn lesson(text: Vec<u8>) -> Answer {
    answer(&Lent {
        text,
        steps: 10_000,
        depth: 16,
        inputs: Vec::new(),
        output_room: 4_096,
        code_words: STORE_WORDS,
        value_words: STORE_WORDS,
        abort: None,
    })
}

pub fn answer(lent: &Lent) -> Answer {
    answer_by(lent, None)
}

/// The answer of a bench with a slip, if one is given.
pub fn answer_by(lent: &Lent, slip: Option<Slip>) -> Answer {
    accepted(lent, slip).unwrap_or_else(|refusal| Answer {
        refusal: refusal.number,
        offset: refusal.place,
        ..Answer::default()
    })
}

/// Refusals 1 and 2, for which no text matters.
pub fn refused_rooms(code_words: u64, value_words: u64, depth: u32) -> Option<u32> {
    if code_words.min(value_words) < STORE_WORDS {
        return Some(1);
    }
    (!(1..=DEEPEST).contains(&depth)).then_some(2)
}

/// The answer of an accepted call, or what it is refused for.
fn accepted(lent: &Lent, slip: Option<Slip>) -> Result<Answer, Refusal> {
    if let Some(number) = refused_rooms(lent.code_words, lent.value_words, lent.depth) {
        return Err(Refusal { place: 0, number });
    }
    let listing = list(&lent.text);
    if let Some(refusal) = listing.refusal {
        return Err(refusal);
    }
    let mut module = form(&lent.text, &listing.words)?;
    let main = settle(&mut module)?;
    let allowance = Allowance {
        steps: lent.steps,
        depth: lent.depth,
        inputs: &lent.inputs,
        output_room: lent.output_room,
        abort: lent.abort,
        slip,
    };
    let run = run(&module, main, &allowance);
    Ok(Answer {
        ending: run.ending,
        refusal: 0,
        offset: run.place,
        steps: run.steps,
        errno: run.errno,
        inputs_used: run.inputs_used,
        output: run.output,
        words: run.words,
        counts: run.counts,
        places: run.places,
        marked: None,
    })
}
