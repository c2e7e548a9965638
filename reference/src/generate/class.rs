//! Classes (request 7): modules of the other kinds in one call.

use super::random::Random;
use super::{case_line, lend, Kind, Size};
use crate::class::{class_answer, length_bytes, ClassLent, DATA_BYTES, RECORD_BYTES};
use crate::lines::lent_of;

/// A class has no more modules once its texts are as long.
const MOST_BYTES: usize = 90_000;

pub fn class_case(random: &mut Random, size: Size) -> ClassLent {
    let texts = texts(random, size);
    let mut lent = lend_class(random, &texts);
    lent.output_room = room(random, &lent);
    if random.chance(33) {
        spoil(random, &mut lent);
        if random.chance(35) {
            spoil(random, &mut lent);
        }
    }
    lent
}

fn texts(random: &mut Random, size: Size) -> Vec<Vec<u8>> {
    let (count, size, alike) = match random.weighted(&[4, 88, 8]) {
        0 => (0, size, 0),
        1 => (random.between(1, 8), size, 10),
        _ => (random.between(63, 66), Size::Short, 60),
    };
    let mut texts: Vec<Vec<u8>> = Vec::new();
    while texts.len() < count && texts.iter().map(Vec::len).sum::<usize>() < MOST_BYTES {
        let text = if !texts.is_empty() && random.chance(alike) {
            random.choose(&texts).clone()
        } else {
            module_text(random, size)
        };
        texts.push(text);
    }
    texts
}

fn module_text(random: &mut Random, size: Size) -> Vec<u8> {
    const KINDS: [Kind; 9] = [
        Kind::Valid,
        Kind::Courses,
        Kind::Counting,
        Kind::Undo,
        Kind::Hiding,
        Kind::Mistyped,
        Kind::Words,
        Kind::Bytes,
        Kind::Limits,
    ];
    if random.chance(3) {
        return Vec::new();
    }
    if random.below(300) == 0 {
        return super::limits::too_long(random).text;
    }
    if random.chance(25) {
        return asking(random);
    }
    let kind = KINDS[random.weighted(&[25, 25, 9, 9, 7, 8, 4, 6, 7])];
    let line = case_line(random, kind, size);
    lent_of(&line).map_or(Vec::new(), |lent| lent.text)
}

/// A module that asks for numbers and writes each with the sum so far: what it answers depends on
/// where it begins to read, and how much room it has.
fn asking(random: &mut Random) -> Vec<u8> {
    let numbers = random.between(1, 9);
    let prompt = random.pick(&["", "n", "a number"]);
    let data = random.pick(&["VAR num sum;", "VAR num before{3};\nVAR num sum := 7;"]);
    let main = format!(
        "PROC main()\nVAR num n;\nFOR i FROM 1 TO {numbers} DO\nTPReadNum n, \"{prompt}\";\n\
         sum := sum + n;\nTPWrite \"sum \" \\Num:=sum;\nENDFOR\nENDPROC\n"
    );
    format!("MODULE asking\n{data}\n{main}ENDMODULE\n").into_bytes()
}

/// A call for these texts, without mistakes and with room for all lines.
fn lend_class(random: &mut Random, texts: &[Vec<u8>]) -> ClassLent {
    let single = lend(random, Vec::new());
    let lengths: Vec<u32> = texts.iter().map(|text| text.len() as u32).collect();
    let modules = lengths.len() as u64;
    let part: Vec<u8> = (0..random.weighted(&[85, 5, 5, 5]))
        .map(|_| random.byte())
        .collect();
    let ample = random.chance(80);
    let more_inputs = random.below(12);
    let inputs = (0..more_inputs).map(|_| random.below(20) as i32);
    let inputs = single.inputs.iter().copied().chain(inputs).collect();
    let more = |random: &mut Random| random.weighted(&[80, 10, 10]) * random.below(100);
    ClassLent {
        texts: texts.concat(),
        lengths: length_bytes(&lengths, &part),
        steps: if ample {
            random.between(50, 500) as u32
        } else {
            single.steps
        },
        depth: if ample {
            single.depth.max(4)
        } else {
            single.depth
        },
        inputs,
        output_room: modules * random.pick(&[256, 1_024, 4_096]),
        code_words: single.code_words + u64::from(random.chance(2)),
        value_words: single.value_words,
        records_room: RECORD_BYTES * modules + more(random) as u64,
        data_room: DATA_BYTES * modules + more(random) as u64,
    }
}

/// Plentiful; or the share is just what one of the modules writes, or a byte more or less. A
/// fraction is dropped either way.
fn room(random: &mut Random, lent: &ClassLent) -> u64 {
    let answer = class_answer(lent);
    let count = answer.modules.len();
    if count == 0 {
        return random.below(20) as u64;
    }
    let fraction = random.below(count) as u64;
    if random.chance(40) {
        return lent.output_room + fraction;
    }
    let written: Vec<usize> = answer.modules.iter().map(|m| m.output.len()).collect();
    let some: Vec<usize> = written.iter().copied().filter(|bytes| *bytes > 0).collect();
    let one = random.pick(if some.is_empty() { &written } else { &some });
    let share = (one + random.below(3)).saturating_sub(1);
    (share * count) as u64 + fraction
}

/// One mistake; or lengths that cut the texts elsewhere, which is none.
fn spoil(random: &mut Random, lent: &mut ClassLent) {
    match random.weighted(&[30, 12, 22, 10, 10, 8, 8]) {
        0 => spoil_lengths(random, lent),
        1 => cut_elsewhere(random, lent),
        2 => shorten_list(random, lent),
        3 => add_modules(random, lent),
        4 => lent.depth = random.pick(&[0, 65, 66, u32::MAX]),
        5 => lent.code_words = random.pick(&[16_383, 16_383, 0]),
        _ => lent.value_words = random.pick(&[16_383, 16_383, 1]),
    }
}

/// Changes the lengths and leaves the part word behind them.
fn change_lengths(lent: &mut ClassLent, change: impl FnOnce(&mut Vec<u32>)) {
    let mut lengths = lent.module_lengths();
    let part = lent.lengths[4 * lengths.len()..].to_vec();
    change(&mut lengths);
    lent.lengths = length_bytes(&lengths, &part);
}

/// The sum or the text is another one, by little or by much.
fn spoil_lengths(random: &mut Random, lent: &mut ClassLent) {
    let which = random.below(8);
    match which {
        0 => lent.texts.push(b'\n'),
        1 => _ = lent.texts.pop(),
        _ => change_lengths(lent, |lengths| {
            if lengths.is_empty() {
                return lengths.push(1);
            }
            let last = lengths.len() - 1;
            let one = random.below(lengths.len());
            let more = random.pick(&[1, u32::MAX, 256, 65_536, 1 << 24, 1 << 31]);
            match which {
                2 => _ = lengths.remove(one),
                3 => lengths.insert(one, 1),
                // Twice the half of what 32 bits hold.
                4 if last > 0 => {
                    lengths[0] ^= 1 << 31;
                    lengths[last] ^= 1 << 31;
                }
                _ => lengths[one] = lengths[one].wrapping_add(more),
            }
        }),
    }
}

fn cut_elsewhere(random: &mut Random, lent: &mut ClassLent) {
    change_lengths(lent, |lengths| {
        if lengths.len() < 2 {
            return;
        }
        let first = random.below(lengths.len() - 1);
        let both = lengths[first] as usize + lengths[first + 1] as usize;
        let cut = match random.below(3) {
            0 => random.below(both + 1),
            1 => (lengths[first] as usize + 1).min(both),
            _ => both,
        };
        lengths[first] = cut as u32;
        lengths[first + 1] = (both - cut) as u32;
    });
}

/// By a byte, by a module or by all of it.
fn shorten_list(random: &mut Random, lent: &mut ClassLent) {
    let modules = lent.module_lengths().len() as u64;
    let records = RECORD_BYTES * modules;
    let data = DATA_BYTES * modules;
    let short = |random: &mut Random, exact: u64, one: u64| match random.below(4) {
        0 | 1 => exact.saturating_sub(1),
        2 => exact.saturating_sub(one),
        _ => 0,
    };
    if random.chance(50) {
        lent.records_room = short(random, records, RECORD_BYTES);
    } else {
        lent.data_room = short(random, data, DATA_BYTES);
    }
}

/// Modules of no bytes, so that there are 64, 65 or a few more; the lists grow with them or not.
fn add_modules(random: &mut Random, lent: &mut ClassLent) {
    let count = random.pick(&[64, 65, 65, 66, 70]);
    change_lengths(lent, |lengths| {
        let count = count.max(lengths.len());
        lengths.resize(count, 0);
    });
    if random.chance(60) {
        lent.records_room = RECORD_BYTES * count as u64;
        lent.data_room = DATA_BYTES * count as u64;
    }
}
