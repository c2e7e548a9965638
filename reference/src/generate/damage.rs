//! Mistakes planted in accepted modules: in names and types, words and bytes.

use super::layout::{tokens, Token};
use super::random::Random;
use crate::scan::RESERVED;

/// One mistake, or several so that the order of refusals is asked.
fn mistakes(random: &mut Random) -> usize {
    random.pick(&[1, 1, 1, 2, 2, 3, 5])
}

fn places(words: &[Token], wanted: impl Fn(&Token) -> bool) -> Vec<usize> {
    (0..words.len())
        .filter(|index| wanted(&words[*index]))
        .collect()
}

/// A word's place among those wanted, if there are any.
fn pick_place(
    random: &mut Random,
    words: &[Token],
    wanted: impl Fn(&Token) -> bool,
) -> Option<usize> {
    let places = places(words, wanted);
    (!places.is_empty()).then(|| random.pick(&places))
}

/// Puts words given in a row before the word at a place.
fn put_in(words: &mut Vec<Token>, at: usize, inserted: &str) {
    words.splice(at..at, tokens(inserted));
}

/// Some name of the module, or one that means trouble.
fn any_name(random: &mut Random, words: &[Token]) -> Vec<u8> {
    let place = pick_place(random, words, Token::is_name);
    match place.filter(|_| random.chance(70)) {
        Some(place) => words[place].text.clone(),
        None => {
            let others = ["zz", "ERRNO", "ERR_DIVZERO", "main", "err_illraise", "yy"];
            random.pick(&others).as_bytes().to_vec()
        }
    }
}

/// Mistakes against rules 10 to 19.
pub fn mistype(random: &mut Random, words: &mut Vec<Token>) {
    for _ in 0..mistakes(random) {
        match random.weighted(&[22, 10, 10, 10, 12, 6, 6, 4, 8, 20]) {
            0 => rename(random, words),
            1 => change_type(random, words),
            2 => change_literal(random, words),
            3 => change_count(random, words),
            4 => plant_barred(random, words),
            5 => spoil_constant(random, words),
            6 => declare_again(random, words),
            7 => rename_main(random, words),
            8 => change_index(random, words),
            _ => plant_mistaken(random, words),
        }
    }
}

fn rename(random: &mut Random, words: &mut [Token]) {
    let name = any_name(random, words);
    if let Some(place) = pick_place(random, words, Token::is_name) {
        words[place].text = name;
    }
}

fn change_type(random: &mut Random, words: &mut [Token]) {
    let types: Vec<usize> = places(words, |word| word.is("num") || word.is("bool"))
        .into_iter()
        .filter(|place| !words[place - 1].is("\\"))
        .collect();
    if !types.is_empty() {
        let word = &mut words[random.pick(&types)];
        word.text = if word.is("num") {
            b"bool".to_vec()
        } else {
            b"num".to_vec()
        };
    }
}

fn change_literal(random: &mut Random, words: &mut Vec<Token>) {
    let literal = |word: &Token| word.is_number() || word.is("TRUE") || word.is("FALSE");
    let Some(place) = pick_place(random, words, literal) else {
        return;
    };
    let others = [
        "TRUE",
        "( FALSE )",
        "1",
        "( 1 )",
        "( 1 + zz )",
        "( TRUE AND zz )",
        "( TRUE + zz )",
        "( 1 = zz )",
        "( TRUE = 1 )",
        "( - TRUE )",
        "( NOT 1 )",
        "( 1 < TRUE )",
        "( 1 + TRUE )",
    ];
    words.remove(place);
    put_in(words, place, random.pick(&others));
}

/// Adds a parameter or an argument.
fn change_count(random: &mut Random, words: &mut Vec<Token>) {
    let Some(open) = pick_place(random, words, |word| word.is("(")) else {
        return;
    };
    let declared = words
        .get(open + 1)
        .is_some_and(|word| word.is("num") || word.is("bool"));
    let empty = words.get(open + 1).is_some_and(|word| word.is(")"));
    let in_head = open > 1
        && ["PROC", "num", "bool"]
            .iter()
            .any(|kind| words[open - 2].is(kind));
    let inserted = match (declared || in_head, empty) {
        (true, true) => "num zz",
        (true, false) => "bool zz ,",
        (false, true) => "1",
        (false, false) => "TRUE ,",
    };
    put_in(words, open + 1, inserted);
}

fn plant_barred(random: &mut Random, words: &mut Vec<Token>) {
    let Some(place) = pick_place(random, words, |word| word.starts) else {
        return;
    };
    let barred = [
        "RETRY ;",
        "TRYNEXT ;",
        "RAISE ;",
        "RAISE 5 ;",
        "RETURN ;",
        "RETURN 1 ;",
        "RETURN TRUE ;",
        "RAISE zz ;",
        "RETURN zz ;",
    ];
    put_in(words, place, random.pick(&barred));
}

fn spoil_constant(random: &mut Random, words: &mut Vec<Token>) {
    let Some(place) = pick_place(random, words, Token::is_number) else {
        return;
    };
    let spoilt = [
        "( 1 DIV 0 )",
        "( 8388608 + 1 )",
        "0",
        "512",
        "513",
        "65",
        "( - 8388608 )",
        "( 1 MOD 0 + zz )",
        "1024",
        "( 1 DIV 0 + TRUE )",
        "ERRNO",
    ];
    words.remove(place);
    put_in(words, place, random.pick(&spoilt));
}

fn declare_again(random: &mut Random, words: &mut Vec<Token>) {
    let name = String::from_utf8_lossy(&any_name(random, words)).into_owned();
    let starts = places(words, |word| word.is("VAR") || word.is("CONST"));
    let at = if starts.is_empty() {
        2
    } else {
        random.pick(&starts)
    };
    let declaration = match random.below(4) {
        0 => format!("VAR bool {name} ;"),
        1 => format!("CONST num {name} := {name} ;"),
        2 => format!("VAR num {name} {{ 512 }} ;"),
        _ => format!("VAR num {name} := 1 ;"),
    };
    put_in(words, at.min(words.len()), &declaration);
}

fn rename_main(random: &mut Random, words: &mut [Token]) {
    // Mostly a name of no other use, so that nothing but rule 18 is broken.
    let fresh = random.chance(60);
    let name = if fresh {
        b"mane".to_vec()
    } else {
        any_name(random, words)
    };
    for word in words.iter_mut().filter(|word| word.is("main")) {
        word.text = name.clone();
    }
}

fn change_index(random: &mut Random, words: &mut Vec<Token>) {
    let Some(place) = pick_place(random, words, Token::is_name) else {
        return;
    };
    let next = words.get(place + 1);
    if next.is_some_and(|word| word.is("{")) {
        let close = words[place..].iter().position(|word| word.is("}"));
        words.drain(place + 1..=place + close.unwrap_or(1));
    } else if !next.is_some_and(|word| word.is("(")) {
        put_in(
            words,
            place + 1,
            random.pick(&["{ 1 }", "{ zz }", "{ TRUE }"]),
        );
    }
}

/// Whole statements with mistakes. X and Y become any names of the module, A the
/// name of an array, F of a FUNC and P of a PROC.
const MISTAKEN: [&str; 36] = [
    "TPReadNum A { zz } , \"s\" ;",
    "TPReadNum A { TRUE } , \"s\" ;",
    "X := A { zz } + 1 ;",
    "X := A { TRUE } AND TRUE ;",
    "IF A { TRUE + 1 } EXIT ;",
    "A { TRUE } := 1 + zz ;",
    "X := F ( zz ) ;",
    "X := F ( 1 AND zz ) ;",
    "X := F ( TRUE ) ;",
    "X := F ( 1 , 1 ) ;",
    "P zz ;",
    "P ( 1 + zz ) , TRUE ;",
    "X := 1 + TRUE ;",
    "X := Y ( zz ) ;",
    "X := Y ( 1 , TRUE ) ;",
    "X := Y ( ) ;",
    "Y zz , 1 ;",
    "Y ;",
    "Y 1 ;",
    "X { zz } := TRUE ;",
    "X { TRUE } := Y ;",
    "X := Y ;",
    "TPReadNum X , \"s\" ;",
    "TPReadNum X { zz } , \"s\" ;",
    "TPReadNum X { TRUE } , \"s\" ;",
    "IF 1 + zz EXIT ;",
    "IF X = Y EXIT ;",
    "X := NOT 1 OR zz ;",
    "X := - TRUE + zz ;",
    "FOR X FROM zz TO TRUE DO X := 1 ; ENDFOR",
    "FOR X FROM X TO Y STEP TRUE DO Y := X ; ENDFOR",
    "TEST TRUE CASE X : ENDTEST",
    "TEST X CASE 1 DIV 0 , zz : DEFAULT : ENDTEST",
    "TEST 1 CASE TRUE , 1 , Y { 1 } : ENDTEST",
    "WHILE X DO Y 1 ; ENDWHILE",
    "TPWrite \"s\" \\ num := X ;",
];

/// A name declared as the letter asks, or any.
pub fn name_for(random: &mut Random, words: &[Token], letter: &str) -> Vec<u8> {
    let before =
        |place: usize, back: usize, word: &str| place >= back && words[place - back].is(word);
    let fits = |place: &usize| match letter {
        "A" => before(*place, 2, "VAR") && words.get(place + 1).is_some_and(|word| word.is("{")),
        "F" => before(*place, 2, "FUNC"),
        "P" => before(*place, 1, "PROC"),
        _ => false,
    };
    let names: Vec<usize> = (0..words.len()).filter(fits).collect();
    if names.is_empty() {
        return any_name(random, words);
    }
    words[random.pick(&names)].text.clone()
}

fn plant_mistaken(random: &mut Random, words: &mut Vec<Token>) {
    let Some(place) = pick_place(random, words, |word| word.starts) else {
        return;
    };
    let mut planted = tokens(random.pick(&MISTAKEN));
    for letter in ["X", "Y", "A", "F", "P"] {
        let name = name_for(random, words, letter);
        for word in planted
            .iter_mut()
            .filter(|word| word.text == letter.as_bytes())
        {
            word.text = name.clone();
        }
    }
    words.splice(place..place, planted);
}

/// Words deleted, doubled, swapped or replaced: rules 8 and 9.
pub fn damage_words(random: &mut Random, words: &mut Vec<Token>) {
    for _ in 0..random.pick(&[1, 1, 1, 1, 2, 3]) {
        let place = random.below(words.len());
        let other = random.below(words.len());
        match random.below(6) {
            0 if words.len() > 1 => _ = words.remove(place),
            1 => words.insert(place, words[place].clone()),
            2 => words.swap(place, other),
            3 => words[place] = words[other].clone(),
            4 => words.insert(place, any_word(random)),
            _ => words[place] = any_word(random),
        }
    }
}

pub fn any_word(random: &mut Random) -> Token {
    const OTHERS: [&str; 26] = [
        ";", ",", "(", ")", "{", "}", ":", ":=", "=", "<", "<=", "<>", ">", ">=", "+", "-", "*",
        "\\", "n", "zz", "ERRNO", "1", "0", "8388608", "\"s\"", "\"\"",
    ];
    let word = if random.chance(50) {
        random.pick(&RESERVED)
    } else {
        random.pick(&OTHERS)
    };
    Token::new(word)
}

/// Bytes changed anywhere: rules 3 to 7, and whatever else comes of it.
pub fn damage_bytes(random: &mut Random, text: &mut Vec<u8>) {
    for _ in 0..random.pick(&[1, 1, 1, 1, 2, 3]) {
        let place = random.below(text.len() + 1);
        match random.below(12) {
            0 => text.truncate(place),
            1 | 2 if place < text.len() => text[place] = random.byte(),
            3 if place < text.len() => _ = text.remove(place),
            4 => text.insert(place, random.byte()),
            5 => text.insert(
                place,
                random.pick(b"\"\"!\\._#'/?@\x00\x7f\x80\x9f\xa0\xe9"),
            ),
            6 => insert_long(random, text, place),
            7 => spoil_inside(random, text),
            _ => insert_piece(random, text, place),
        }
    }
}

fn insert_piece(random: &mut Random, text: &mut Vec<u8>, place: usize) {
    const PIECES: [&[u8]; 22] = [
        b"5x",
        b"5_",
        b"5.",
        b"5..",
        b"12\xe9",
        b"a\xe9",
        b"a.b",
        b"_a",
        b"99999999",
        b"99999999x",
        b"8388608",
        b"8388609",
        b"000000000000000000000000008388608",
        b"\"ab",
        b"\"a\\b\"",
        b"\"a\rb\"",
        b"\"a\nb\"",
        b"\"a\x01b\"",
        b"\"\xa0\xff\"",
        b"! \x7f\n",
        b"! \x80 \"\n",
        b"!\xe9\r\"\n",
    ];
    let mut piece = random.pick(&PIECES).to_vec();
    if random.chance(70) {
        piece.insert(0, b' ');
        piece.push(b' ');
    }
    text.splice(place..place, piece);
}

/// A name, string or number at its limit or past it.
fn insert_long(random: &mut Random, text: &mut Vec<u8>, place: usize) {
    let piece = match random.below(5) {
        0 => [b" ", &vec![b'q'; random.between(31, 34)][..], b" "].concat(),
        1 => [b" \"", &vec![b'q'; random.between(79, 82)][..], b"\" "].concat(),
        2 => [b" \"", &vec![b'"'; random.between(158, 163)][..], b"\" "].concat(),
        3 => [b" \"", &vec![b'\x02'; random.between(79, 82)][..], b"\" "].concat(),
        _ => [b" ", &vec![b'9'; random.between(6, 40)][..], b" "].concat(),
    };
    text.splice(place..place, piece);
}

/// Puts a byte into a string or comment, if there is one.
fn spoil_inside(random: &mut Random, text: &mut Vec<u8>) {
    let opens: Vec<usize> = (0..text.len())
        .filter(|place| matches!(text[*place], b'"' | b'!'))
        .collect();
    if opens.is_empty() {
        return;
    }
    let place = random.pick(&opens) + 1;
    text.insert(
        place,
        random.pick(b"\x00\x01\t\n\r\x1f !\"\\\x7e\x7f\x80\x9f\xa0\xe9\xff"),
    );
}
