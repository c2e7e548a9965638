//! From bytes to words, with refusals 3 to 7.

/// A rule's number and the place it is broken at.
#[derive(Clone, Copy, Debug, PartialEq, Eq, PartialOrd, Ord)]
pub struct Refusal {
    // The order of the fields is the paper's: lowest offset, then lowest number.
    pub place: usize,
    pub number: u32,
}

#[derive(Clone, Copy, Debug, PartialEq, Eq)]
pub enum Kind {
    Name,
    Reserved,
    Number,
    String,
    Sign,
}

#[derive(Clone, Copy, Debug)]
pub struct Word {
    pub kind: Kind,
    pub place: usize,
    pub length: usize,
}

impl Word {
    pub fn covers<'t>(&self, text: &'t [u8]) -> &'t [u8] {
        &text[self.place..self.place + self.length]
    }
}

/// The words before the first refusal of 3 to 7, and that refusal.
pub struct Listing {
    pub words: Vec<Word>,
    pub refusal: Option<Refusal>,
}

pub const TEXT_LIMIT: usize = 32_768;
pub const WORD_LIMIT: usize = 8_192;
const NAME_LIMIT: usize = 32;
const STRING_LIMIT: usize = 80;
const NUMBER_LIMIT: u64 = 8_388_608;

pub const RESERVED: [&str; 61] = [
    "ALIAS",
    "AND",
    "BACKWARD",
    "CASE",
    "CONNECT",
    "CONST",
    "DEFAULT",
    "DIV",
    "DO",
    "ELSE",
    "ELSEIF",
    "ENDFOR",
    "ENDFUNC",
    "ENDIF",
    "ENDMODULE",
    "ENDPROC",
    "ENDRECORD",
    "ENDTEST",
    "ENDTRAP",
    "ENDWHILE",
    "ERROR",
    "EXIT",
    "FALSE",
    "FOR",
    "FROM",
    "FUNC",
    "GOTO",
    "IF",
    "INOUT",
    "LOCAL",
    "MOD",
    "MODULE",
    "NOSTEPIN",
    "NOT",
    "NOVIEW",
    "OR",
    "PERS",
    "PROC",
    "RAISE",
    "READONLY",
    "RECORD",
    "RETRY",
    "RETURN",
    "STEP",
    "SYSMODULE",
    "TEST",
    "THEN",
    "TO",
    "TRAP",
    "TRUE",
    "TRYNEXT",
    "UNDO",
    "VAR",
    "VIEWONLY",
    "WHILE",
    "WITH",
    "XOR",
    "num",
    "bool",
    "TPWrite",
    "TPReadNum",
];

fn is_separator(byte: u8) -> bool {
    matches!(byte, b' ' | b'\t' | b'\r' | b'\n')
}

fn permitted_anywhere(byte: u8) -> bool {
    matches!(byte, b'\t' | b'\n' | b'\r' | 0x20..=0x7e)
}

fn permitted_inside(byte: u8) -> bool {
    permitted_anywhere(byte) || byte >= 0xa0
}

fn continues_name(byte: u8) -> bool {
    byte.is_ascii_alphanumeric() || byte == b'_'
}

/// Reads the whole text one word after another.
pub fn list(text: &[u8]) -> Listing {
    let mut words = Vec::new();
    if text.len() > TEXT_LIMIT {
        let refusal = Some(Refusal {
            place: TEXT_LIMIT,
            number: 3,
        });
        return Listing { words, refusal };
    }
    let refusal = collect(text, &mut words).err();
    Listing { words, refusal }
}

fn collect(text: &[u8], words: &mut Vec<Word>) -> Result<(), Refusal> {
    let mut place = skip_gap(text, 0)?;
    while place < text.len() {
        let word = read_word(text, place);
        // At the start of word 8,193 the numbers 4 to 6 come before 7, further
        // on inside that word its start is the lower offset.
        let refused_here = matches!(word, Err(refusal) if refusal.place == place);
        if words.len() == WORD_LIMIT && !refused_here {
            return Err(Refusal { place, number: 7 });
        }
        let word = word?;
        words.push(word);
        place = skip_gap(text, place + word.length)?;
    }
    Ok(())
}

/// Skips separators and comments.
fn skip_gap(text: &[u8], mut place: usize) -> Result<usize, Refusal> {
    while place < text.len() {
        if text[place] == b'!' {
            place = skip_comment(text, place)?;
        } else if is_separator(text[place]) {
            place += 1;
        } else {
            break;
        }
    }
    Ok(place)
}

fn skip_comment(text: &[u8], start: usize) -> Result<usize, Refusal> {
    let mut place = start;
    while place < text.len() && text[place] != b'\n' {
        if !permitted_inside(text[place]) {
            return Err(Refusal { place, number: 4 });
        }
        place += 1;
    }
    Ok(place)
}

fn read_word(text: &[u8], place: usize) -> Result<Word, Refusal> {
    match text[place] {
        b'a'..=b'z' | b'A'..=b'Z' => read_name(text, place),
        b'0'..=b'9' => read_number(text, place),
        b'"' => read_string(text, place),
        byte => match sign_length(byte, text.get(place + 1).copied()) {
            Some(length) => Ok(Word {
                kind: Kind::Sign,
                place,
                length,
            }),
            None if permitted_anywhere(byte) => Err(Refusal { place, number: 5 }),
            None => Err(Refusal { place, number: 4 }),
        },
    }
}

fn sign_length(first: u8, second: Option<u8>) -> Option<usize> {
    match (first, second) {
        (b':', Some(b'=')) | (b'<', Some(b'=' | b'>')) | (b'>', Some(b'=')) => Some(2),
        (b';' | b',' | b'(' | b')' | b'{' | b'}' | b':' | b'=' | b'<' | b'>', _) => Some(1),
        (b'+' | b'-' | b'*' | b'\\', _) => Some(1),
        _ => None,
    }
}

fn span(text: &[u8], place: usize, belongs: impl Fn(u8) -> bool) -> usize {
    text[place..]
        .iter()
        .take_while(|byte| belongs(**byte))
        .count()
}

fn read_name(text: &[u8], place: usize) -> Result<Word, Refusal> {
    let length = span(text, place, continues_name);
    if length > NAME_LIMIT {
        return Err(Refusal { place, number: 5 });
    }
    let kind = if is_reserved(&text[place..place + length]) {
        Kind::Reserved
    } else {
        Kind::Name
    };
    Ok(Word {
        kind,
        place,
        length,
    })
}

pub fn is_reserved(spelling: &[u8]) -> bool {
    RESERVED
        .iter()
        .any(|word| word.as_bytes().eq_ignore_ascii_case(spelling))
}

fn read_number(text: &[u8], place: usize) -> Result<Word, Refusal> {
    let length = span(text, place, |byte| byte.is_ascii_digit());
    let next = text.get(place + length).copied();
    if next.is_some_and(|byte| byte.is_ascii_alphabetic() || byte == b'_' || byte == b'.') {
        return Err(Refusal { place, number: 5 });
    }
    if digits_value(&text[place..place + length]) > NUMBER_LIMIT {
        return Err(Refusal { place, number: 6 });
    }
    Ok(Word {
        kind: Kind::Number,
        place,
        length,
    })
}

/// The value of decimal digits; huge ones stop at the largest count.
pub fn digits_value(digits: &[u8]) -> u64 {
    digits.iter().fold(0, |value: u64, digit| {
        value
            .saturating_mul(10)
            .saturating_add(u64::from(digit - b'0'))
    })
}

fn read_string(text: &[u8], start: usize) -> Result<Word, Refusal> {
    let malformed = Refusal {
        place: start,
        number: 5,
    };
    let mut bad_byte = None;
    let mut characters = 0;
    let mut place = start + 1;
    loop {
        match (text.get(place), text.get(place + 1)) {
            (None | Some(b'\r' | b'\n' | b'\\'), _) => return Err(malformed),
            (Some(b'"'), Some(b'"')) => place += 1,
            (Some(b'"'), _) => break,
            (Some(byte), _) if !permitted_inside(*byte) => {
                bad_byte = bad_byte.or(Some(Refusal { place, number: 4 }));
            }
            _ => {}
        }
        characters += 1;
        place += 1;
    }
    if characters > STRING_LIMIT {
        return Err(malformed);
    }
    match bad_byte {
        Some(refusal) => Err(refusal),
        None => Ok(Word {
            kind: Kind::String,
            place: start,
            length: place + 1 - start,
        }),
    }
}

/// The part of the text that the word starting at a place covers.
pub fn word_at(text: &[u8], place: usize) -> Option<&[u8]> {
    let listing = list(text);
    let word = listing.words.iter().find(|word| word.place == place)?;
    Some(word.covers(text))
}
