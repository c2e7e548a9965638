//! Case lines, reproducible from a seed.

mod author;
mod chains;
mod class;
mod counting;
mod courses;
mod damage;
mod hiding;
mod layout;
mod limits;
mod marking;
mod phrases;
mod random;
mod rooms;
mod statements;
mod undo;

use crate::bench::Lent;
use crate::class::show_class;
use crate::lines::{show_bytes, show_run};
use crate::scan::list;
use layout::{write_out, Token};
pub use random::Random;
pub use rooms::{less_room, more_room};

const STORE_WORDS: u64 = 16_384;
/// How many of a hundred routines have an UNDO list in kinds that are not about them.
const FEW_UNDO: usize = 8;

#[derive(Clone, Copy, PartialEq, Eq)]
pub enum Kind {
    Valid,
    Courses,
    Counting,
    Undo,
    Hiding,
    Marking,
    Mistyped,
    Words,
    Bytes,
    Limits,
    Class,
    Listing,
    All,
}

impl Kind {
    pub fn named(name: &str) -> Option<Self> {
        Some(match name {
            "valid" => Kind::Valid,
            "courses" => Kind::Courses,
            "counting" => Kind::Counting,
            "undo" => Kind::Undo,
            "hiding" => Kind::Hiding,
            "marking" => Kind::Marking,
            "mistyped" => Kind::Mistyped,
            "words" => Kind::Words,
            "bytes" => Kind::Bytes,
            "limits" => Kind::Limits,
            "class" => Kind::Class,
            "listing" => Kind::Listing,
            "all" => Kind::All,
            _ => return None,
        })
    }
}

/// Short texts are also worked out by slower means, long ones go to the limits.
#[derive(Clone, Copy, PartialEq, Eq)]
pub enum Size {
    Short,
    Long,
}

impl Size {
    pub fn named(name: &str) -> Option<Self> {
        match name {
            "short" => Some(Size::Short),
            "long" => Some(Size::Long),
            _ => None,
        }
    }

    /// About how many bytes a module gets.
    fn goal(self, random: &mut Random) -> usize {
        match self {
            Size::Short => random.between(80, 240),
            Size::Long if random.chance(70) => random.between(300, 3_000),
            Size::Long => random.between(3_000, 24_000),
        }
    }
}

/// The lines of one seed, without end.
pub struct Cases {
    random: Random,
    number: usize,
    kind: Kind,
    size: Size,
}

impl Cases {
    pub fn new(seed: u64, kind: Kind, size: Size) -> Self {
        Cases {
            random: Random::new(seed),
            number: 0,
            kind,
            size,
        }
    }
}

impl Iterator for Cases {
    type Item = String;

    fn next(&mut self) -> Option<String> {
        self.number += 1;
        // Rules 3 and 7 need longer texts than the short ones; a few come in all mixes.
        let long_case: Option<fn(&mut Random) -> Lent> = match (self.kind, self.number % 500) {
            (Kind::All, 100) => Some(limits::too_long),
            (Kind::All, 200) => Some(limits::too_many_words),
            (Kind::All, 300) => Some(limits::text_length),
            (Kind::All, 400) => Some(limits::word_count),
            _ => None,
        };
        Some(match long_case {
            Some(long_case) => show_run(&long_case(&mut self.random)),
            None => case_line(&mut self.random, self.kind, self.size),
        })
    }
}

fn case_line(random: &mut Random, kind: Kind, size: Size) -> String {
    match kind {
        Kind::All => mixed_line(random, size),
        Kind::Listing => listing_line(random, size),
        Kind::Limits => show_run(&limits::limit_case(random, size)),
        Kind::Class => show_class(&class::class_case(random, size)),
        Kind::Courses => show_run(&course_case(random)),
        Kind::Counting => show_run(&loops_case(random, counting::counting)),
        Kind::Undo => show_run(&undo::undo_case(random, size)),
        Kind::Hiding => show_run(&loops_case(random, hiding::hiding)),
        Kind::Marking => marking::marking_line(random, size),
        _ => {
            let text = text_of(random, kind, size);
            show_run(&lend(random, text))
        }
    }
}

fn mixed_line(random: &mut Random, size: Size) -> String {
    const KINDS: [Kind; 9] = [
        Kind::Valid,
        Kind::Counting,
        Kind::Undo,
        Kind::Hiding,
        Kind::Mistyped,
        Kind::Words,
        Kind::Bytes,
        Kind::Limits,
        Kind::Listing,
    ];
    let kind = KINDS[random.weighted(&[24, 4, 8, 5, 19, 9, 8, 15, 8])];
    case_line(random, kind, size)
}

/// The words of an accepted module of one sort or the other; so many of a hundred
/// routines have an UNDO list.
fn module_words(random: &mut Random, size: Size, undoing: usize) -> Vec<Token> {
    if size == Size::Long && random.chance(40) {
        return courses::course(random, undoing);
    }
    if random.chance(25) {
        return chains::chain(random, undoing);
    }
    let goal = size.goal(random);
    author::module(random, goal, undoing)
}

/// The text of a module that is accepted, or damaged in the way of its kind.
fn text_of(random: &mut Random, kind: Kind, size: Size) -> Vec<u8> {
    let mut words = module_words(random, size, FEW_UNDO);
    match kind {
        Kind::Mistyped => damage::mistype(random, &mut words),
        Kind::Words => damage::damage_words(random, &mut words),
        _ => {}
    }
    let mut text = write_out(random, &words);
    if kind == Kind::Bytes {
        damage::damage_bytes(random, &mut text);
    }
    text
}

/// A module that runs long, with allowances that mostly let it.
fn course_case(random: &mut Random) -> Lent {
    let words = courses::course(random, FEW_UNDO);
    let text = write_out(random, &words);
    let mut lent = lend(random, text);
    if random.chance(85) {
        lent.steps = random.pick(&[2_000, 10_000, 10_000, 10_000, 50_000]);
        lent.depth = random.pick(&[16, 16, 64]);
        lent.output_room = random.pick(&[4_096, 65_536]);
    }
    lent.inputs
        .extend((0..random.below(40)).map(|_| random.below(20) as i32));
    lent
}

/// A module of loops, with steps for most of them.
fn loops_case(random: &mut Random, module: fn(&mut Random) -> Vec<Token>) -> Lent {
    let words = module(random);
    let text = write_out(random, &words);
    let mut lent = lend(random, text);
    if random.chance(90) {
        lent.steps = random.between(50, 500) as u32;
        lent.depth = lent.depth.max(2);
    }
    lent
}

/// A call for a text, with allowances that are sometimes scarce.
fn lend(random: &mut Random, text: Vec<u8>) -> Lent {
    let steps = match random.weighted(&[20, 50, 20, 10]) {
        0 => random.below(20),
        1 => random.between(20, 300),
        2 => random.between(300, 1_000),
        _ => 10_000,
    };
    let depth = match random.below(10) {
        0 => 1,
        1..=7 => random.between(2, 6),
        8 => 16,
        _ => 64,
    };
    let output_room = match random.below(4) {
        0 => random.below(30),
        1 => 64,
        2 => 256,
        _ => 4_096,
    };
    Lent {
        text,
        steps: steps as u32,
        depth: depth as u32,
        inputs: inputs(random),
        output_room: output_room as u64,
        code_words: STORE_WORDS,
        value_words: STORE_WORDS + u64::from(random.chance(2)),
        abort: None,
    }
}

fn inputs(random: &mut Random) -> Vec<i32> {
    let edges = [
        8_388_608,
        8_388_609,
        -8_388_607,
        -8_388_608,
        i32::MAX,
        i32::MIN,
    ];
    (0..random.below(6))
        .map(|_| {
            if random.chance(15) {
                random.pick(&edges)
            } else {
                random.below(12) as i32 - 3
            }
        })
        .collect()
}

fn listing_line(random: &mut Random, size: Size) -> String {
    let text = match random.below(6) {
        0 => text_of(random, Kind::Valid, size),
        1 => text_of(random, Kind::Words, size),
        2 => soup(random),
        3 => limits::limit_case(random, size).text,
        _ => text_of(random, Kind::Bytes, size),
    };
    if random.chance(50) {
        return format!("list {}", show_bytes(&text));
    }
    let place = place_to_ask(random, &text);
    format!("at {} {place}", show_bytes(&text))
}

/// Words and bytes in no order.
fn soup(random: &mut Random) -> Vec<u8> {
    let words: Vec<Token> = (0..random.between(1, 20))
        .map(|_| damage::any_word(random))
        .collect();
    let mut text = write_out(random, &words);
    for _ in 0..random.below(4) {
        damage::damage_bytes(random, &mut text);
    }
    text
}

/// A word's start, a place near it, near the refusal, or any.
fn place_to_ask(random: &mut Random, text: &[u8]) -> usize {
    let listing = list(text);
    let mut places: Vec<usize> = listing.words.iter().map(|word| word.place).collect();
    if let Some(refusal) = listing.refusal.filter(|_| random.chance(30)) {
        places = vec![
            refusal.place,
            refusal.place + 1,
            refusal.place.saturating_sub(1),
        ];
    }
    if places.is_empty() || random.chance(25) {
        return random.below(text.len() + 3);
    }
    random.pick(&places) + usize::from(random.chance(20))
}
