//! Words before they are text, and the ways of writing them out.

use super::random::Random;
use crate::scan::is_reserved;

/// A word of a module to be written.
#[derive(Clone)]
pub struct Token {
    pub text: Vec<u8>,
    /// Whether a statement starts here.
    pub starts: bool,
}

impl Token {
    pub fn new(text: impl Into<Vec<u8>>) -> Self {
        Token {
            text: text.into(),
            starts: false,
        }
    }

    fn is_wordlike(&self) -> bool {
        self.text[0].is_ascii_alphanumeric()
    }

    pub fn is_name(&self) -> bool {
        self.text[0].is_ascii_alphabetic() && !is_reserved(&self.text)
    }

    pub fn is_number(&self) -> bool {
        self.text[0].is_ascii_digit()
    }

    pub fn is(&self, spelling: &str) -> bool {
        self.text.eq_ignore_ascii_case(spelling.as_bytes())
    }
}

/// Words given in a row with blanks between; none of them a string with blanks.
pub fn tokens(words: &str) -> Vec<Token> {
    words.split_whitespace().map(Token::new).collect()
}

/// How a text is written: how often letters change case, and what separates.
struct Style {
    case_changes: usize,
    needless_gaps: usize,
    newlines: usize,
    comments: usize,
}

fn style(random: &mut Random) -> Style {
    Style {
        case_changes: random.pick(&[0, 0, 0, 10, 50]),
        needless_gaps: random.pick(&[0, 0, 20, 60, 100]),
        newlines: random.pick(&[0, 2, 10]),
        comments: random.pick(&[0, 0, 0, 2, 5]),
    }
}

/// Writes words out with random gaps, comments and letter case.
pub fn write_out(random: &mut Random, words: &[Token]) -> Vec<u8> {
    let style = style(random);
    let mut text = Vec::new();
    for (index, word) in words.iter().enumerate() {
        if index > 0 {
            write_gap(
                random,
                &style,
                must_separate(&words[index - 1], word),
                &mut text,
            );
        }
        for byte in &word.text {
            let change = word.is_wordlike() && random.chance(style.case_changes);
            text.push(if change { flip_case(*byte) } else { *byte });
        }
    }
    if random.chance(80) {
        text.push(b'\n');
    }
    text
}

fn flip_case(byte: u8) -> u8 {
    if byte.is_ascii_alphabetic() {
        byte ^ 0x20
    } else {
        byte
    }
}

/// Whether two words written without a gap would be read as something else.
fn must_separate(left: &Token, right: &Token) -> bool {
    let last = left.text[left.text.len() - 1];
    let first = right.text[0];
    let merges = matches!(
        (last, first),
        (b':' | b'<' | b'>', b'=' | b'>') | (b'"', b'"')
    );
    let runs_on = left.is_wordlike() && (right.is_wordlike() || first == b'_' || first == b'.');
    merges || runs_on
}

fn write_gap(random: &mut Random, style: &Style, needed: bool, text: &mut Vec<u8>) {
    if random.chance(style.comments) {
        write_comment(random, text);
    } else if random.chance(style.newlines) {
        text.extend_from_slice(random.pick(&[&b"\n"[..], b"\r\n", b"\n\n", b"\r"]));
    } else if needed || random.chance(style.needless_gaps) {
        text.push(random.pick(b"        \t"));
    }
}

fn write_comment(random: &mut Random, text: &mut Vec<u8>) {
    text.push(b'!');
    for _ in 0..random.below(6) {
        text.push(random.pick(b"ab !\";{\t\\\r\xa0\xe9\xff"));
    }
    text.push(b'\n');
}
