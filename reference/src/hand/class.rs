//! The lines of the table that speak of a class (request 7): `&` and `= class R`.

use super::{expand, expected_answer, Draft};
use crate::class::{joined, length_bytes, show_class, ClassLent, DATA_BYTES, RECORD_BYTES};
use crate::lines::show_answer;

/// The modules of a class that were read so far.
#[derive(Default)]
pub(super) struct ClassDraft {
    texts: Vec<u8>,
    lengths: Vec<u32>,
    answers: Vec<String>,
}

impl Draft {
    /// `& [times N] [ANSWER]`: ends the text of a module, or of so many alike.
    pub(super) fn module(&mut self, line: &str) -> Result<(), String> {
        let (times, expected) = match line.strip_prefix("times ") {
            Some(rest) => rest.split_once(' ').unwrap_or((rest, "")),
            None => ("1", line),
        };
        let times: usize = times.parse().map_err(|_| "no count of modules")?;
        let (text, marker) = self.marked_text();
        for _ in 0..times {
            self.class.texts.extend(&text);
            self.class.lengths.push(text.len() as u32);
            if !expected.is_empty() {
                let answer = expected_answer(expected, marker)?;
                self.class.answers.push(show_answer(&answer));
            }
        }
        self.text.clear();
        self.framed.clear();
        Ok(())
    }

    /// The case line and the answer line of `= class REFUSAL`.
    pub(super) fn class_expectation(&self, refusal: &str) -> Result<(String, String), String> {
        let lent = self.class_lent()?;
        let refusal = refusal.parse().map_err(|_| "a class without refusal")?;
        let answered = match refusal {
            0 => lent.module_lengths().len(),
            _ => 0,
        };
        if self.class.answers.len() != answered {
            return Err("not as many answers as modules".to_string());
        }
        Ok((show_class(&lent), joined(refusal, &self.class.answers)))
    }

    fn class_lent(&self) -> Result<ClassLent, String> {
        let (behind, _) = self.marked_text();
        let single = self.lent()?;
        let lengths = self.lengths()?;
        let modules = lengths.len() as u64;
        let part = vec![255; self.setting("part", 0)? as usize];
        Ok(ClassLent {
            texts: [&self.class.texts[..], &behind].concat(),
            lengths: length_bytes(&lengths, &part),
            steps: single.steps,
            depth: single.depth,
            inputs: single.inputs,
            output_room: single.output_room,
            code_words: single.code_words,
            value_words: single.value_words,
            records_room: self.setting("records", RECORD_BYTES * modules)?,
            data_room: self.setting("data", DATA_BYTES * modules)?,
        })
    }

    /// Those that are given, or else those of the texts.
    fn lengths(&self) -> Result<Vec<u32>, String> {
        let Some(list) = self.settings.get("lengths") else {
            return Ok(self.class.lengths.clone());
        };
        let list = expand(&format!("{list}~."))?;
        let list = String::from_utf8_lossy(&list);
        let lengths: Result<_, _> = list.split(',').map(str::parse).collect();
        lengths.map_err(|_| "a length is no number".to_string())
    }
}
