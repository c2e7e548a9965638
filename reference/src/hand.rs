//! The table of cases worked out by hand, `cases/hand.txt`, and how it is read.
//!
//! The table's own first lines describe its notation.

use std::collections::HashMap;

use crate::bench::{Answer, Lent};
use crate::lines::{show_answer, show_bytes, show_run};
use crate::mark::{case_of_mark, listed, show_marked, Marked};
use crate::run::Abort;

mod class;

/// What stands around the lines that begin with `>`.
const FRAME: [&str; 2] = [
    "MODULE m\nVAR num n;\nVAR bool b;\nVAR num a{3};\nVAR bool flag{2};\nCONST num c := 2;\n\
     PROC main()\n",
    "ENDPROC\nPROC p(num x)\nENDPROC\nFUNC num f(num x)\nRETURN x;\nENDFUNC\nENDMODULE\n",
];

/// A case line with the answer line worked out by hand.
pub struct HandCase {
    pub title: String,
    pub case: String,
    pub answer: String,
}

/// A case while its lines are read.
#[derive(Default)]
struct Draft {
    title: String,
    settings: HashMap<String, String>,
    text: Vec<u8>,
    framed: Vec<u8>,
    /// Names of places, each with how much of its text stands before it.
    places: Vec<(String, usize)>,
    /// The listing of a case of marking.
    listing: Option<String>,
    class: class::ClassDraft,
}

/// Reads the whole table; what it says wrongly is reported with its line.
pub fn read_table(table: &str) -> Result<Vec<HandCase>, String> {
    let mut cases = Vec::new();
    let mut draft = Draft::default();
    for (number, line) in table.lines().enumerate() {
        let read = match line.chars().next() {
            None | Some('#') => Ok(()),
            Some('[') => {
                draft = Draft {
                    title: line.to_string(),
                    ..Draft::default()
                };
                Ok(())
            }
            Some('w') => draft.set(line),
            Some('|') => add_line(&line[1..], &mut draft.text, &mut draft.places),
            Some('>') => add_line(&line[1..], &mut draft.framed, &mut draft.places),
            Some('@') => {
                draft.listing = Some(line[1..].to_string());
                Ok(())
            }
            Some('&') => draft.module(line[1..].trim()),
            Some('=') => draft
                .expectation(line[1..].trim())
                .map(|case| cases.push(case)),
            Some(_) => Err("no line of the table".to_string()),
        };
        read.map_err(|mistake| format!("line {}: {mistake}", number + 1))?;
    }
    Ok(cases)
}

/// A line's bytes: `~HH` a byte, `~[N*part]` a part N times with `#` its number,
/// `~.` at the end no LF.
fn expand(line: &str) -> Result<Vec<u8>, String> {
    let mut bytes = Vec::new();
    let mut rest = line;
    while let Some(tilde) = rest.find('~') {
        bytes.extend_from_slice(&rest.as_bytes()[..tilde]);
        rest = &rest[tilde + 1..];
        if rest == "." {
            return Ok(bytes);
        }
        rest = if rest.starts_with('[') {
            repeat(rest, &mut bytes)?
        } else {
            let byte = rest
                .get(..2)
                .and_then(|pair| u8::from_str_radix(pair, 16).ok());
            bytes.push(byte.ok_or("a tilde without two digits")?);
            &rest[2..]
        };
    }
    bytes.extend_from_slice(rest.as_bytes());
    bytes.push(b'\n');
    Ok(bytes)
}

/// Adds a line to a text, without the marks `~(name)` of places, which are noted.
fn add_line(
    line: &str,
    text: &mut Vec<u8>,
    places: &mut Vec<(String, usize)>,
) -> Result<(), String> {
    let mut rest = line;
    while let Some((before, behind)) = rest.split_once("~(") {
        let (name, after) = behind.split_once(')').ok_or("an open mark")?;
        text.extend(expand(&format!("{before}~."))?);
        places.push((name.to_string(), text.len()));
        rest = after;
    }
    text.extend(expand(rest)?);
    Ok(())
}

/// Adds `[N*part]` and hands back what follows it.
fn repeat<'l>(rest: &'l str, bytes: &mut Vec<u8>) -> Result<&'l str, String> {
    let close = rest.find(']').ok_or("an open repetition")?;
    let (count, part) = rest[1..close]
        .split_once('*')
        .ok_or("a repetition without star")?;
    let count: usize = count.parse().map_err(|_| "a repetition without count")?;
    for number in 1..=count {
        bytes.extend_from_slice(part.replace('#', &number.to_string()).as_bytes());
    }
    Ok(&rest[close + 1..])
}

impl Draft {
    fn set(&mut self, line: &str) -> Result<(), String> {
        for setting in line.split_whitespace().skip(1) {
            let (name, value) = setting.split_once('=').ok_or("a setting without value")?;
            self.settings.insert(name.to_string(), value.to_string());
        }
        Ok(())
    }

    fn setting(&self, name: &str, usual: u64) -> Result<u64, String> {
        let Some(value) = self.settings.get(name) else {
            return Ok(usual);
        };
        value.parse().map_err(|_| format!("{name} is no count"))
    }

    /// The text without its marker, and the marker's place.
    fn marked_text(&self) -> (Vec<u8>, Option<usize>) {
        let mut text = self.text.clone();
        if !self.framed.is_empty() {
            text = [FRAME[0].as_bytes(), &self.framed, FRAME[1].as_bytes()].concat();
        }
        let marker = text.iter().position(|byte| *byte == b'^');
        if let Some(place) = marker {
            text.remove(place);
        }
        (text, marker)
    }

    /// Where a named place lies in the text without its marker.
    fn place(&self, name: &str) -> Option<usize> {
        let (_, before) = self.places.iter().find(|(named, _)| named == name)?;
        let frame = if self.framed.is_empty() {
            0
        } else {
            FRAME[0].len()
        };
        let place = frame + before;
        let marker = self.marked_text().1;
        Some(place - usize::from(marker.is_some_and(|marker| marker < place)))
    }

    fn lent(&self) -> Result<Lent, String> {
        let inputs = self.settings.get("inputs").map_or("", String::as_str);
        let inputs: Result<Vec<i32>, _> = inputs
            .split(',')
            .filter(|part| !part.is_empty())
            .map(str::parse)
            .collect();
        Ok(Lent {
            text: self.marked_text().0,
            steps: self.setting("steps", 10_000)? as u32,
            depth: self.setting("depth", 16)? as u32,
            inputs: inputs.map_err(|_| "an input is no number")?,
            output_room: self.setting("room", 4_096)?,
            code_words: self.setting("code", 16_384)?,
            value_words: self.setting("values", 16_384)?,
            abort: self.abort()?,
        })
    }

    fn abort(&self) -> Result<Option<Abort>, String> {
        if !self.settings.contains_key("at") {
            return Ok(None);
        }
        let at = self.setting("at", 0)? as u32;
        let undo = self.setting("undo", 1_000)? as u32;
        Ok(Some(Abort { at, undo }))
    }

    fn expectation(&self, expected: &str) -> Result<HandCase, String> {
        let (text, marker) = self.marked_text();
        let (first, rest) = expected.split_once(' ').unwrap_or((expected, ""));
        let text = show_bytes(&text);
        let (case, answer) = match first {
            "lists" => (format!("list {text}"), rest.to_string()),
            "at" => {
                let (place, covered) = rest.split_once(' ').ok_or("nothing expected")?;
                let covered = match covered.strip_prefix("covers ") {
                    Some(part) => show_bytes(part.as_bytes()),
                    None => covered.to_string(),
                };
                (format!("at {text} {place}"), covered)
            }
            "class" => self.class_expectation(rest)?,
            _ => {
                let answer = expected_answer(expected, marker)?;
                let lent = self.lent()?;
                match &self.listing {
                    None => (show_run(&lent), show_answer(&answer)),
                    Some(listing) => {
                        let listing = listed(listing, |name| self.place(name))?;
                        (case_of_mark(&lent, &listing), show_marked(&answer))
                    }
                }
            }
        };
        Ok(HandCase {
            title: self.title.clone(),
            case,
            answer,
        })
    }
}

/// `refused N [offset O]` or `ending E steps S [errno N] [inputs I] [words W] [output O]`,
/// with `same I` or `differs I` before the output where a listing is marked; the offset is
/// the marker's unless given.
fn expected_answer(expected: &str, marker: Option<usize>) -> Result<Answer, String> {
    let mut answer = Answer {
        offset: marker.unwrap_or(0),
        ..Answer::default()
    };
    // The output is last, since it may hold blanks.
    let (fields, output) = expected.split_once(" output ").unwrap_or((expected, ""));
    let output = expand(&format!("{output}~."))?;
    answer.output = output
        .iter()
        .map(|byte| if *byte == b'/' { b'\n' } else { *byte })
        .collect();
    let fields = expand(&format!("{fields}~."))?;
    let fields = String::from_utf8_lossy(&fields);
    let fields: Vec<&str> = fields.split_whitespace().collect();
    for pair in fields.chunks(2) {
        let [name, value] = pair else {
            return Err("a field without value".to_string());
        };
        let numbers: Result<Vec<i64>, _> = value.split(',').map(str::parse).collect();
        let numbers = numbers.map_err(|_| "a field without number")?;
        match *name {
            "refused" => answer.refusal = numbers[0] as u32,
            "ending" => answer.ending = numbers[0] as u32,
            "offset" => answer.offset = numbers[0] as usize,
            "steps" => answer.steps = numbers[0] as u64,
            "errno" => answer.errno = numbers[0],
            "inputs" => answer.inputs_used = numbers[0] as usize,
            "words" => answer.words = numbers,
            "same" | "differs" => {
                answer.marked = Some(Marked {
                    same: *name == "same",
                    index: numbers[0] as usize,
                })
            }
            _ => return Err(format!("no field {name}")),
        }
    }
    Ok(answer)
}
