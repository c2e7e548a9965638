//! Cases of request 6: modules whose routines have UNDO lists, aborted where many of
//! them are live; allowances, rooms and inputs around what these lists take.

use super::chains::{chain, mark_starts};
use super::courses::course;
use super::damage;
use super::layout::{tokens, write_out, Token};
use super::random::Random;
use super::{lend, module_words, Size};
use crate::bench::{answer, Answer, Lent};
use crate::counts::Event;
use crate::run::Abort;

/// How many of a hundred routines have an UNDO list.
const OFTEN: usize = 75;
/// More UNDO steps than lists mostly take; some would never end.
const AMPLE: u32 = 400;
/// Of this many steps the one is taken at which most lists run.
const CHOICES: usize = 4;
/// Modules are made until one runs for so many steps; so often at most.
const LASTING: u64 = 25;
const TRIES: usize = 12;

pub fn undo_case(random: &mut Random, size: Size) -> Lent {
    if random.chance(12) {
        return spoilt_case(random, size);
    }
    let lasting = random.chance(92);
    let mut lent = plain_case(random, size);
    for _ in 0..TRIES {
        if !lasting || answer(&lent).steps >= LASTING {
            break;
        }
        lent = plain_case(random, size);
    }
    if random.chance(95) {
        abort(random, &mut lent);
    }
    lent
}

/// A module with mistakes. Some are none, and it runs.
fn spoilt_case(random: &mut Random, size: Size) -> Lent {
    let mut words = any_module(random, size);
    spoil(random, &mut words);
    let text = write_out(random, &words);
    let mut lent = lend(random, text);
    let (at, undo) = (random.below(20) as u32, random.below(40) as u32);
    lent.abort = Some(Abort { at, undo });
    lent
}

fn any_module(random: &mut Random, size: Size) -> Vec<Token> {
    match random.weighted(&[50, 18, 9, 23]) {
        0 => deep(random),
        1 => chain(random, OFTEN),
        2 => course(random, OFTEN),
        _ => module_words(random, size, OFTEN),
    }
}

/// An accepted module, mostly lent enough.
fn plain_case(random: &mut Random, size: Size) -> Lent {
    let words = any_module(random, size);
    let text = write_out(random, &words);
    let mut lent = lend(random, text);
    let more = random.below(8);
    lent.inputs
        .extend((0..more).map(|_| random.below(9) as i32));
    if random.chance(90) {
        lent.steps = random.between(40, 400) as u32;
        lent.depth = random.pick(&[8, 16, 16, 64]);
        lent.output_room = 4_096;
    }
    lent
}

fn answer_with(lent: &mut Lent, at: u32, undo: u32) -> Answer {
    lent.abort = Some(Abort { at, undo });
    answer(lent)
}

/// Chooses K, the UNDO allowance, and mostly scarce room or input for some lists.
fn abort(random: &mut Random, lent: &mut Lent) {
    lent.abort = None;
    let plain = answer(lent);
    let at = choose_step(random, lent, plain.steps as usize);
    let whole = answer_with(lent, at, AMPLE);
    let steps = whole.steps.saturating_sub(u64::from(at)) as usize;
    let undo = match random.weighted(&[50, 12, 12, 21, 5]) {
        0 => steps + random.below(100),
        1 => steps,
        2 => steps.saturating_sub(1),
        3 => random.below(steps + 1),
        _ => 0,
    };
    if whole.counts.times(Event::Struck) > 0 {
        make_scarce(random, lent, at, &whole);
    }
    lent.steps = match random.weighted(&[72, 15, 5, 8]) {
        0 => lent.steps,
        1 => at,
        2 => at.saturating_add(1),
        _ => at.saturating_sub(random.between(1, 3) as u32),
    };
    let undo = undo as u32;
    lent.abort = Some(Abort { at, undo });
}

/// A step of the run, mostly one where many routines are live, or one that is none.
fn choose_step(random: &mut Random, lent: &mut Lent, steps: usize) -> u32 {
    if random.chance(10) {
        return random.pick(&[0, 0, 1, steps, steps + 1]) as u32;
    }
    let choices = if random.chance(70) { CHOICES } else { 1 };
    let lists = |lent: &mut Lent, at: u32| answer_with(lent, at, AMPLE).counts;
    (0..choices)
        .map(|_| random.below(steps + 1) as u32)
        .max_by_key(|at| lists(lent, *at).times(Event::UndoBegun))
        .expect("there is a choice")
}

/// Room or inputs for the run up to K, but not for all that its lists write or read.
fn make_scarce(random: &mut Random, lent: &mut Lent, at: u32, whole: &Answer) {
    let mut before = Lent {
        text: lent.text.clone(),
        inputs: lent.inputs.clone(),
        ..*lent
    };
    before.steps = at;
    before.abort = None;
    let before = answer(&before);
    if random.chance(12) {
        let room = random.between(before.output.len(), whole.output.len());
        lent.output_room = room as u64;
    }
    if random.chance(25) {
        let inputs = random.between(before.inputs_used, whole.inputs_used);
        lent.inputs.truncate(inputs);
    }
}

/// Modules of routines that call each other, and themselves, ever deeper.
const DATA: &str = "VAR num n ; VAR num k := 2 ; VAR num a { 4 } ; VAR bool on ; ";
const OWN_DATA: [&str; 3] = [
    "VAR num t ; VAR num c { 3 } ;",
    "VAR num t := 2 ; CONST num d := 5 ; VAR num c { 3 } ;",
    "VAR bool y := TRUE ; VAR num c { 3 } ; VAR num t := 1 ;",
];
const QUIET: [&str; 9] = [
    "n := ( n * 7 + x ) MOD 9973 ;",
    "t := t + 1 ;",
    "c { 1 + x MOD 3 } := t ;",
    "TPWrite \"\" \\ num := x ;",
    "IF x > 2 THEN t := t + 2 ; ELSE n := n + 1 ; ENDIF",
    "FOR i FROM 1 TO 2 DO t := t + i ; ENDFOR",
    "TEST x CASE 1 , 2 : n := n + 5 ; DEFAULT : k := k + 1 ; ENDTEST",
    "on := NOT on ;",
    "IF on TPWrite \"on\" ;",
];
const TROUBLE: [&str; 6] = [
    "t := 6 DIV ( x - 2 ) ;",
    "IF x = 3 RAISE x ;",
    "a { x } := t ;",
    "IF x < 4 RAISE 90 + x ;",
    "WHILE 4 DIV x > 3 DO n := n + 1 ; x := x + 1 ; ENDWHILE",
    "TPReadNum t , \"t\" ;",
];
/// What UNDO lists do; the last ones fail, some only for some values.
const UNDOING: [&str; 26] = [
    "TPWrite \"u\" \\ num := x * 10 + t ;",
    "TPWrite \"v\" \\ num := n ;",
    "TPWrite \"e\" \\ num := ERRNO ;",
    "n := ( n * 7 + x + ERRNO ) MOD 9973 ;",
    "n := ( n * 3 + c { 1 + x MOD 3 } ) MOD 9973 ;",
    "t := t + x ;",
    "x := x + 1 ;",
    "c { 2 } := c { 2 } + x ;",
    "on := NOT on OR x > t ;",
    "IF on n := n + 1 ;",
    "IF x = t THEN n := n + 2 ; ELSEIF x > 2 THEN t := 0 ; ELSE n := n - 1 ; ENDIF",
    "TEST x CASE 1 , 3 : n := n + 3 ; CASE 2 : t := 9 ; DEFAULT : k := k - 1 ; ENDTEST",
    "FOR i FROM x TO t DO n := ( n + i * 3 ) MOD 997 ; ENDFOR",
    "FOR i FROM 1 TO 2 DO FOR j FROM i TO 1 DO n := ( n * 2 + j ) MOD 997 ; ENDFOR ENDFOR",
    "FOR e FROM 3 TO 1 STEP - 2 DO c { e } := x ; ENDFOR",
    "WHILE t < 4 DO t := t + 1 ; n := n + t ; ENDWHILE",
    "TPReadNum t , \"in\" ;",
    "TPReadNum c { t } , \"c\" ;",
    "k := 6 DIV ( x - 2 ) ;",
    "a { x } := n ;",
    "n := 8388600 + x * 3 ;",
    "IF 1 DIV ( x - 1 ) = 1 THEN n := 1 ; ENDIF",
    "WHILE a { t } < 2 DO a { t } := a { t } + 1 ; ENDWHILE",
    "FOR i FROM 1 TO 6 DIV t DO TPWrite \"i\" \\ num := i ; ENDFOR",
    "TEST 5 MOD x CASE 0 : n := 5 ; CASE 1 : a { 1 } := 1 ; ENDTEST",
    "TPWrite \"f\" \\ num := c { x } ;",
];

#[derive(Clone, Copy, PartialEq)]
enum Sort {
    Proc,
    Num,
    Bool,
}

struct Deep<'r> {
    random: &'r mut Random,
    text: String,
    /// The routines after main: `q1`, `q2` ..
    sorts: Vec<Sort>,
}

/// The words of such a module.
fn deep(random: &mut Random) -> Vec<Token> {
    let count = random.between(1, 3);
    let sorts = (0..count)
        .map(|_| random.pick(&[Sort::Proc, Sort::Proc, Sort::Num, Sort::Bool]))
        .collect();
    let mut deep = Deep {
        random,
        text: format!("MODULE deep {DATA}"),
        sorts,
    };
    let depth = deep.random.pick(&[2, 3, 4, 5, 5, 6, 7, 9, 12]);
    deep.put(&format!("PROC main ( ) VAR num x := {depth} ;"));
    deep.rest(Sort::Proc, true);
    for number in 1..=count {
        let sort = deep.sorts[number - 1];
        let head = match sort {
            Sort::Proc => "PROC",
            Sort::Num => "FUNC num",
            Sort::Bool => "FUNC bool",
        };
        deep.put(&format!("{head} q{number} ( num x )"));
        deep.rest(sort, false);
    }
    deep.put("ENDMODULE");
    mark_starts(tokens(&deep.text))
}

impl Deep<'_> {
    fn put(&mut self, words: &str) {
        self.text += words;
        self.text.push(' ');
    }

    fn any(&mut self, choices: &[&str], percent: usize) {
        if self.random.chance(percent) {
            let words = self.random.pick(choices);
            self.put(words);
        }
    }

    /// What follows a routine's head.
    fn rest(&mut self, sort: Sort, is_main: bool) {
        self.any(&OWN_DATA[..1], 100 * usize::from(is_main));
        self.any(&OWN_DATA, 100 * usize::from(!is_main));
        self.body(sort, is_main);
        if self.random.chance(if is_main { 70 } else { 40 }) {
            self.handler(sort);
        }
        if self.random.chance(OFTEN) {
            self.put("UNDO");
            for _ in 0..self.random.weighted(&[6, 35, 35, 24]) {
                self.any(&UNDOING, 100);
            }
        }
        self.put(if sort == Sort::Proc {
            "ENDPROC"
        } else {
            "ENDFUNC"
        });
    }

    fn body(&mut self, sort: Sort, is_main: bool) {
        if !is_main && self.random.chance(93) {
            self.put("IF x <= 0");
            self.give_back(sort);
        }
        self.any(&QUIET, 50);
        self.any(&TROUBLE, 25);
        for _ in 0..self.random.weighted(&[3, 70, 27]) {
            self.call_somehow();
            self.any(&QUIET, 45);
        }
        self.any(&TROUBLE, 12);
        if sort != Sort::Proc && self.random.chance(93) {
            self.give_back(sort);
        }
    }

    fn give_back(&mut self, sort: Sort) {
        match sort {
            Sort::Proc => self.put("RETURN ;"),
            Sort::Num => self.any(&["RETURN x + t ;", "RETURN n ;", "RETURN 6 DIV x ;"], 100),
            Sort::Bool => self.any(&["RETURN on ;", "RETURN x > 2 ;"], 100),
        }
    }

    /// A call one deeper, by itself or in a compound statement.
    fn call_somehow(&mut self) {
        match self.random.weighted(&[60, 12, 10, 10, 8]) {
            0 => self.call(),
            1 => {
                self.put("FOR h FROM 1 TO 2 DO");
                self.call();
                self.put("ENDFOR");
            }
            2 => {
                self.put("IF x > 1");
                self.call();
            }
            3 => {
                self.put("TEST x CASE 1 : t := 4 ; DEFAULT :");
                self.call();
                self.put("ENDTEST");
            }
            _ => {
                self.put("WHILE t < 3 DO t := t + 2 ;");
                self.call();
                self.put("ENDWHILE");
            }
        }
    }

    fn call(&mut self) {
        let number = self.random.between(1, self.sorts.len());
        let argument = self.random.pick(&["x - 1", "x - 1", "x - 1", "x - 2"]);
        let words = match self.sorts[number - 1] {
            Sort::Proc => format!("q{number} {argument} ;"),
            Sort::Num => {
                let target = self
                    .random
                    .pick(&["t", "n", "c { 1 + x MOD 3 }", "a { x }"]);
                format!("{target} := q{number} ( {argument} ) ;")
            }
            Sort::Bool => format!("on := q{number} ( {argument} ) ;"),
        };
        self.put(&words);
    }

    /// An ERROR list; some call on, so that a live call is in its list.
    fn handler(&mut self, sort: Sort) {
        self.put("ERROR");
        self.any(&["k := k + 1 ;", "n := n + ERRNO ;"], 60);
        if self.random.chance(35) {
            self.put("x := x - 1 ; IF x > 0");
            self.call();
        }
        match self.random.weighted(&[50, 12, 15, 12, 11]) {
            0 => self.put("TRYNEXT ;"),
            1 => self.put("IF k < 5 RETRY ; TRYNEXT ;"),
            2 => self.put("RAISE ;"),
            3 => self.give_back(sort),
            _ => self.put("FOR i FROM 1 TO 3 DO n := n + i ; ENDFOR TRYNEXT ;"),
        }
    }
}

/// Statements that are barred in an UNDO list, some of them wrong for another reason
/// too. F becomes the name of a FUNC and P of a PROC.
const BARRED: [&str; 20] = [
    "RETURN ;",
    "RETURN 1 ;",
    "RETURN zz ;",
    "RAISE ;",
    "RAISE 3 ;",
    "EXIT ;",
    "RETRY ;",
    "TRYNEXT ;",
    "IF TRUE EXIT ;",
    "IF TRUE P 1 ;",
    "WHILE FALSE DO TRYNEXT ; ENDWHILE",
    "P 1 ;",
    "P ;",
    "P zz ;",
    "n := F ( 1 ) ;",
    "n := F ( ) ;",
    "n := P ( 1 ) ;",
    "F 1 ;",
    "zz ( 1 ) ;",
    "FOR i FROM 1 TO 2 DO n := zz ( i ) ; ENDFOR",
];

/// One mistake or several, mostly in or around UNDO lists.
fn spoil(random: &mut Random, words: &mut Vec<Token>) {
    for _ in 0..random.pick(&[1, 1, 1, 2]) {
        match random.weighted(&[55, 20, 7, 10, 8]) {
            0 => plant_barred(random, words),
            1 => misplace(random, words),
            2 => fill_routine(random, words),
            3 => damage::mistype(random, words),
            _ => damage::damage_words(random, words),
        }
    }
}

/// The places in UNDO lists where a statement may begin, as far as that can be seen.
fn starts_in_lists(words: &[Token]) -> Vec<usize> {
    let mut inside = false;
    let mut places = Vec::new();
    for (place, word) in words.iter().enumerate() {
        let ends = word.is("ENDPROC") || word.is("ENDFUNC");
        if inside && (word.starts || ends || words[place - 1].is("UNDO")) {
            places.push(place);
        }
        inside = word.is("UNDO") || (inside && !ends);
    }
    places
}

fn plant_barred(random: &mut Random, words: &mut Vec<Token>) {
    let places = starts_in_lists(words);
    if places.is_empty() {
        return;
    }
    let mut planted = tokens(random.pick(&BARRED));
    for letter in ["F", "P"] {
        let name = damage::name_for(random, words, letter);
        let named = planted.iter_mut().filter(|word| word.is(letter));
        named.for_each(|word| word.text = name.clone());
    }
    let place = random.pick(&places);
    words.splice(place..place, planted);
}

/// UNDO, ERROR or a closing word where it may not stand, or may.
fn misplace(random: &mut Random, words: &mut Vec<Token>) {
    let wanted: Vec<usize> = (0..words.len())
        .filter(|place| {
            let word = &words[*place];
            word.starts
                || ["ERROR", "UNDO", "ENDPROC", "ENDFUNC"]
                    .iter()
                    .any(|other| word.is(other))
        })
        .collect();
    let place = random.pick(&wanted);
    let word = random.pick(&["UNDO", "UNDO", "ERROR", "ENDPROC", "UNDO ;", "UNDO ERROR"]);
    let taken = usize::from(random.chance(40));
    words.splice(place..place + taken, tokens(word));
}

/// Data that leave a routine few of its 64 words for the FORs of its lists.
fn fill_routine(random: &mut Random, words: &mut Vec<Token>) {
    let heads: Vec<usize> = (1..words.len())
        .filter(|place| words[place - 1].is(")") && words[*place].is("VAR"))
        .collect();
    if heads.is_empty() {
        return;
    }
    let size = random.between(54, 61);
    let place = random.pick(&heads);
    words.splice(place..place, tokens(&format!("VAR num zz9 {{ {size} }} ;")));
}
