//! Accepted modules about errors: routines that call the next one, fail, and
//! handle or hand on.

use super::layout::{tokens, Token};
use super::random::Random;

const QUIET: [&str; 5] = [
    "n := n + 1 ;",
    "TPWrite \"x\" \\ num := n ;",
    "k := k + 1 ;",
    "a { 2 } := a { 2 } + 1 ;",
    "n := n * 2 ;",
];

/// Statements that fail for some values of k or n; the first ones raise.
const TROUBLE: [&str; 12] = [
    "RAISE 3 ;",
    "IF n < 3 RAISE n + 1 ;",
    "RAISE k ;",
    "k := 1 DIV ( k - 2 ) ;",
    "a { k } := 1 ;",
    "k := k * 4096 + 8388608 ;",
    "WHILE 1 DIV k = 1 DO k := 2 ; ENDWHILE",
    "FOR i FROM k TO 1 DIV k DO n := n + i ; ENDFOR",
    "IF n = 1 THEN n := 2 ; ELSEIF a { k } = 0 THEN n := 9 ; ENDIF",
    "TEST 5 MOD k CASE 1 : n := 0 ; DEFAULT : n := 5 ; ENDTEST",
    "TPReadNum a { k } , \"?\" ;",
    "IF k < 5 n := 7 DIV k ;",
];
const RAISING: usize = 3;

const WAYS_BACK: [&str; 12] = [
    "RETRY ;",
    "TRYNEXT ;",
    "TRYNEXT ;",
    "RAISE ;",
    "RAISE ;",
    "LEAVE",
    "EXIT ;",
    "IF k < 3 RETRY ; TRYNEXT ;",
    "IF k < 4 RETRY ; RAISE ;",
    "IF ERRNO = ERR_DIVZERO TRYNEXT ; RETRY ;",
    "WHILE TRUE DO IF n > 2 THEN TRYNEXT ; ENDIF n := n + 1 ; ENDWHILE",
    "",
];

const NAMES: [&str; 4] = ["main", "q", "r", "s"];

/// A routine of the chain and the statement that calls the next one.
struct Link {
    is_func: bool,
    call: Option<String>,
    undoes: bool,
}

/// The words of a chain of two to four routines; so many of a hundred have an UNDO list.
pub fn chain(random: &mut Random, undoing: usize) -> Vec<Token> {
    let length = random.between(2, NAMES.len());
    let funcs: Vec<bool> = (0..length)
        .map(|place| place > 0 && random.chance(40))
        .collect();
    let mut text = "MODULE m VAR num n ; VAR num k ; VAR num a { 2 } ; ".to_string();
    for place in 0..length {
        let next = funcs.get(place + 1);
        let call = next.map(|is_func| call_of(random, NAMES[place + 1], *is_func));
        let is_func = funcs[place];
        let link = Link {
            is_func,
            call,
            undoes: random.chance(undoing),
        };
        text += &routine(random, NAMES[place], &link);
    }
    text += "ENDMODULE";
    mark_starts(tokens(&text))
}

fn call_of(random: &mut Random, name: &str, is_func: bool) -> String {
    if !is_func {
        return format!("{name} ; ");
    }
    let target = random.pick(&["n", "k", "a { k }", "a { 1 }"]);
    format!("{target} := {name} ( ) ; ")
}

fn routine(random: &mut Random, name: &str, link: &Link) -> String {
    let head = if link.is_func { "FUNC num" } else { "PROC" };
    let mut text = format!("{head} {name} ( ) ");
    text += &body(random, link);
    if random.chance(60) {
        text += &format!("ERROR {}", handler(random, link));
    }
    if link.undoes {
        text += &format!("UNDO {}", undo(random));
    }
    text + if link.is_func { "ENDFUNC " } else { "ENDPROC " }
}

fn leave(link: &Link) -> &'static str {
    if link.is_func {
        "RETURN n + 1 ;"
    } else {
        "RETURN ;"
    }
}

fn some_of(random: &mut Random, statements: &[&str], percent: usize) -> String {
    if random.chance(percent) {
        random.pick(statements).to_string() + " "
    } else {
        String::new()
    }
}

fn body(random: &mut Random, link: &Link) -> String {
    let mut text = some_of(random, &QUIET, 50);
    let calls = link.call.as_ref().filter(|_| random.chance(90));
    let wrapped = random.chance(30);
    if wrapped {
        text += "FOR i FROM 1 TO 2 DO ";
    }
    text += &some_of(random, &TROUBLE, if calls.is_some() { 30 } else { 85 });
    text += calls.map_or("", String::as_str);
    text += &some_of(random, &QUIET, 50);
    if wrapped {
        text += "ENDFOR ";
    }
    text += &some_of(random, &TROUBLE, 20);
    if link.is_func && random.chance(85) {
        text += leave(link);
        text += " ";
    }
    text
}

fn handler(random: &mut Random, link: &Link) -> String {
    let mut text = some_of(random, &["k := k + 1 ;", "k := 1 ;", "n := ERRNO ;"], 75);
    // RAISE with a value is barred here.
    text += &some_of(random, &TROUBLE[RAISING..], 20);
    if random.chance(20) {
        text += link.call.as_deref().unwrap_or("");
    }
    let back = random.pick(&WAYS_BACK);
    text += if back == "LEAVE" { leave(link) } else { back };
    text + " "
}

fn undo(random: &mut Random) -> String {
    let mut text = some_of(random, &["n := n * 3 + ERRNO ;", "k := k + 1 ;"], 60);
    text += &some_of(random, &QUIET, 80);
    // RAISE is barred here.
    text += &some_of(random, &TROUBLE[RAISING..], 40);
    text + &some_of(random, &QUIET, 60)
}

/// Marks the words after a semicolon that start a statement.
pub fn mark_starts(mut words: Vec<Token>) -> Vec<Token> {
    for place in 1..words.len() {
        let word = &words[place];
        let starts = word.is_name() || word.is("IF") || word.is("TPWrite") || word.is("RAISE");
        words[place].starts = starts && words[place - 1].is(";");
    }
    words
}
