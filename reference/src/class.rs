//! Request 7: a whole class in one call, its case line and its answer line.

use crate::bench::{answer, refused_rooms, Answer, Lent};
use crate::lines::{read_bytes, read_count, read_inputs, show_answer, show_bytes, show_list};

pub const MOST_MODULES: usize = 64;
/// Eight 64-bit words a module.
pub const RECORD_BYTES: u64 = 64;
/// 1,024 words a module.
pub const DATA_BYTES: u64 = 4_096;
const LENGTH_BYTES: usize = 4;

/// What a call for a class is lent.
pub struct ClassLent {
    /// Back to back.
    pub texts: Vec<u8>,
    /// As they are lent, with a part word that may stand behind them.
    pub lengths: Vec<u8>,
    pub steps: u32,
    pub depth: u32,
    pub inputs: Vec<i32>,
    pub output_room: u64,
    pub code_words: u64,
    pub value_words: u64,
    pub records_room: u64,
    pub data_room: u64,
}

/// The class's refusal, or what each module was answered.
pub struct ClassAnswer {
    pub refusal: u32,
    pub modules: Vec<Answer>,
}

impl ClassLent {
    /// The length of each module; there are as many modules.
    pub fn module_lengths(&self) -> Vec<u32> {
        let words = self.lengths.chunks_exact(LENGTH_BYTES);
        words
            .map(|word| u32::from_le_bytes([word[0], word[1], word[2], word[3]]))
            .collect()
    }

    /// "A module's output share is the buffer's length over the number of modules, fraction
    /// dropped."
    pub fn share(&self) -> u64 {
        let modules = self.module_lengths().len() as u64;
        self.output_room.checked_div(modules).unwrap_or(0)
    }

    /// "20 when the lengths don't add up to the text"
    pub fn sum_differs(&self) -> bool {
        let lengths = self.module_lengths();
        let sum: u128 = lengths.iter().map(|length| u128::from(*length)).sum();
        sum != self.texts.len() as u128
    }

    /// "21 for more than 64 modules"
    pub fn too_many(&self) -> bool {
        self.module_lengths().len() > MOST_MODULES
    }

    /// "27 when either list is too short"
    pub fn list_too_short(&self) -> bool {
        let modules = self.module_lengths().len() as u64;
        self.records_room < RECORD_BYTES * modules || self.data_room < DATA_BYTES * modules
    }

    /// "in this order after 2"
    fn refusal(&self) -> u32 {
        match refused_rooms(self.code_words, self.value_words, self.depth) {
            Some(number) => number,
            None if self.sum_differs() => 20,
            None if self.too_many() => 21,
            None if self.list_too_short() => 27,
            None => 0,
        }
    }

    /// A call for one module alone, with its share.
    fn alone(&self, text: &[u8]) -> Lent {
        Lent {
            text: text.to_vec(),
            steps: self.steps,
            depth: self.depth,
            inputs: self.inputs.clone(),
            output_room: self.share(),
            code_words: self.code_words,
            value_words: self.value_words,
            abort: None,
        }
    }
}

/// "Each module's record, output and data are those of a call for it alone with that share, in
/// order"
pub fn class_answer(lent: &ClassLent) -> ClassAnswer {
    let mut modules = Vec::new();
    let refusal = lent.refusal();
    if refusal == 0 {
        let mut rest = &lent.texts[..];
        for length in lent.module_lengths() {
            let (text, behind) = rest.split_at(length as usize);
            modules.push(answer(&lent.alone(text)));
            rest = behind;
        }
    }
    ClassAnswer { refusal, modules }
}

/// What a `class` line lends, from its second word on.
pub fn read_class(fields: &[&str]) -> Option<ClassLent> {
    let [texts, lengths, steps, depth, inputs, output, code, values, records, data] = fields else {
        return None;
    };
    Some(ClassLent {
        texts: read_bytes(texts)?,
        lengths: read_bytes(lengths)?,
        steps: read_count(steps)?,
        depth: read_count(depth)?,
        inputs: read_inputs(inputs)?,
        output_room: read_count(output)?,
        code_words: read_count(code)?,
        value_words: read_count(values)?,
        records_room: read_count(records)?,
        data_room: read_count(data)?,
    })
}

/// What a `class` line lends; `None` for any other line.
pub fn class_of(line: &str) -> Option<ClassLent> {
    let fields: Vec<&str> = line.split(' ').collect();
    match fields.as_slice() {
        ["class", rest @ ..] => read_class(rest),
        _ => None,
    }
}

/// The `class` line of a call.
pub fn show_class(lent: &ClassLent) -> String {
    format!(
        "class {} {} {} {} {} {} {} {} {} {}",
        show_bytes(&lent.texts),
        show_bytes(&lent.lengths),
        lent.steps,
        lent.depth,
        show_list(&lent.inputs),
        lent.output_room,
        lent.code_words,
        lent.value_words,
        lent.records_room,
        lent.data_room
    )
}

pub fn show_class_answer(answer: &ClassAnswer) -> String {
    let modules: Vec<String> = answer.modules.iter().map(show_answer).collect();
    joined(answer.refusal, &modules)
}

/// The answer line, from the lines of the modules.
pub fn joined(refusal: u32, modules: &[String]) -> String {
    let modules = modules.iter().map(|line| format!(" | {line}"));
    refusal.to_string() + &modules.collect::<String>()
}

/// The bytes of a list of lengths, with those of a part word behind them.
pub fn length_bytes(lengths: &[u32], part: &[u8]) -> Vec<u8> {
    let words = lengths.iter().flat_map(|length| length.to_le_bytes());
    words.chain(part.iter().copied()).collect()
}
