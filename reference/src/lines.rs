//! Case lines and answer lines.

use std::fmt::Write;
use std::str::FromStr;

use crate::bench::{answer, Answer, Lent};
use crate::class::{class_answer, read_class, show_class_answer};
use crate::mark::{answer_marking, show_marked};
use crate::run::Abort;
use crate::scan::{list, word_at, Kind, Listing};

/// What a `run` line without a step number K has behind its first word.
const PLAIN_FIELDS: usize = 7;

/// The answer line of a case line.
pub fn answer_line(line: &str) -> String {
    reply(line).unwrap_or_else(|| "bad line".to_string())
}

fn reply(line: &str) -> Option<String> {
    let fields: Vec<&str> = line.split(' ').collect();
    match fields.as_slice() {
        ["run", ..] => Some(show_answer(&called(line)?)),
        ["mark", ..] => Some(show_marked(&called(line)?)),
        ["list", text] => Some(show_listing(&list(&read_bytes(text)?))),
        ["at", text, place] => {
            let text = read_bytes(text)?;
            // A place beyond every count is past the text all the same.
            let place = read_count::<u64>(place)?;
            let covered = usize::try_from(place)
                .ok()
                .and_then(|place| word_at(&text, place));
            Some(covered.map_or("none".to_string(), show_bytes))
        }
        ["class", rest @ ..] => Some(show_class_answer(&class_answer(&read_class(rest)?))),
        _ => None,
    }
}

/// The answer to a line that makes a call, `run` or `mark`; `None` for any other line.
pub fn called(line: &str) -> Option<Answer> {
    let fields: Vec<&str> = line.split(' ').collect();
    match fields.as_slice() {
        ["run", rest @ ..] => Some(answer(&read_run(rest)?)),
        ["mark", rest @ .., listing] if rest.len() == PLAIN_FIELDS => {
            Some(answer_marking(&read_run(rest)?, &read_bytes(listing)?))
        }
        _ => None,
    }
}

/// What a `run` line lends; `None` for any other line.
pub fn lent_of(line: &str) -> Option<Lent> {
    let fields: Vec<&str> = line.split(' ').collect();
    match fields.as_slice() {
        ["run", rest @ ..] => read_run(rest),
        _ => None,
    }
}

fn read_run(fields: &[&str]) -> Option<Lent> {
    let (fields, abort) = match fields {
        [lent @ .., at, undo] if lent.len() == PLAIN_FIELDS => {
            let (at, undo) = (read_count(at)?, read_count(undo)?);
            (lent, Some(Abort { at, undo }))
        }
        lent => (lent, None),
    };
    let [text, steps, depth, inputs, output, code, values] = fields else {
        return None;
    };
    Some(Lent {
        text: read_bytes(text)?,
        steps: read_count(steps)?,
        depth: read_count(depth)?,
        inputs: read_inputs(inputs)?,
        output_room: read_count(output)?,
        code_words: read_count(code)?,
        value_words: read_count(values)?,
        abort,
    })
}

/// The `run` line of a call.
pub fn show_run(lent: &Lent) -> String {
    let inputs = show_list(&lent.inputs);
    let abort = lent.abort.map_or(String::new(), |abort| {
        format!(" {} {}", abort.at, abort.undo)
    });
    format!(
        "run {} {} {} {inputs} {} {} {}{abort}",
        show_bytes(&lent.text),
        lent.steps,
        lent.depth,
        lent.output_room,
        lent.code_words,
        lent.value_words
    )
}

pub(crate) fn read_count<T: FromStr>(field: &str) -> Option<T> {
    let digits = !field.is_empty() && field.bytes().all(|byte| byte.is_ascii_digit());
    digits.then(|| field.parse().ok()).flatten()
}

pub(crate) fn read_inputs(field: &str) -> Option<Vec<i32>> {
    if field == "-" {
        return Some(Vec::new());
    }
    let number = |part: &str| {
        if part.starts_with('+') {
            None
        } else {
            part.parse().ok()
        }
    };
    field.split(',').map(number).collect()
}

/// Bytes in lower-case hexadecimal, `-` for none.
pub fn read_bytes(field: &str) -> Option<Vec<u8>> {
    if field == "-" {
        return Some(Vec::new());
    }
    if field.is_empty() || field.len() % 2 == 1 {
        return None;
    }
    let pairs = field.as_bytes().chunks(2);
    pairs
        .map(|pair| Some(hex_digit(pair[0])? * 16 + hex_digit(pair[1])?))
        .collect()
}

fn hex_digit(byte: u8) -> Option<u8> {
    match byte {
        b'0'..=b'9' => Some(byte - b'0'),
        b'a'..=b'f' => Some(byte - b'a' + 10),
        _ => None,
    }
}

pub fn show_bytes(bytes: &[u8]) -> String {
    if bytes.is_empty() {
        return "-".to_string();
    }
    bytes
        .iter()
        .fold(String::with_capacity(bytes.len() * 2), |mut shown, byte| {
            _ = write!(shown, "{byte:02x}");
            shown
        })
}

pub(crate) fn show_list<T: ToString>(numbers: &[T]) -> String {
    if numbers.is_empty() {
        return "-".to_string();
    }
    let shown: Vec<String> = numbers.iter().map(T::to_string).collect();
    shown.join(",")
}

pub fn show_answer(answer: &Answer) -> String {
    let output = show_bytes(&answer.output);
    format!("{} {output} {}", answer.fields(), show_list(&answer.words))
}

fn show_listing(listing: &Listing) -> String {
    let words = listing.words.iter().map(|word| {
        let kind = match word.kind {
            Kind::Name => 'n',
            Kind::Reserved => 'r',
            Kind::Number => 'd',
            Kind::String => 's',
            Kind::Sign => 'g',
        };
        format!("{kind}@{}+{}", word.place, word.length)
    });
    let refusal = listing
        .refusal
        .map(|refusal| format!("!{}@{}", refusal.number, refusal.place));
    let shown: Vec<String> = words.chain(refusal).collect();
    if shown.is_empty() {
        return "-".to_string();
    }
    shown.join(" ")
}
