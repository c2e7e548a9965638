//! Rule 8 once more, by another route: the paper's grammar as productions and a
//! general recognizer (Earley's). A word is refused when no item survives it,
//! which is when no continuation is a module.

use std::collections::{HashMap, HashSet};

use reference::form::form;
use reference::generate::{Cases, Kind, Size};
use reference::lines::read_bytes;
use reference::scan::{self, list, Word};

/// Upper-case words and signs are terminals, NAME, NUMBER and STRING kinds of words.
const GRAMMAR: &str = "
module = MODULE NAME data routines ENDMODULE
data = / data datum
datum = VAR type NAME ; / VAR type NAME := expr ; / VAR type NAME { expr } ;
datum = CONST type NAME := expr ;
type = NUM / BOOL
routines = / routines routine
routine = PROC NAME ( params ) data list handler undo ENDPROC
routine = FUNC type NAME ( params ) data list handler undo ENDFUNC
params = / parameters
parameters = type NAME / parameters , type NAME
handler = / ERROR list
undo = / UNDO list
list = / list statement
statement = simple / IF expr simple / IF expr THEN list elseifs else ENDIF
statement = FOR NAME FROM expr TO expr step DO list ENDFOR
statement = WHILE expr DO list ENDWHILE / TEST expr cases default ENDTEST
elseifs = / elseifs ELSEIF expr THEN list
else = / ELSE list
step = / STEP expr
cases = / cases CASE exprs : list
default = / DEFAULT : list
exprs = expr / exprs , expr
args = / exprs
target = NAME / NAME { expr }
simple = target := expr ; / target := NAME ( args ) ; / NAME args ;
simple = RETURN ; / RETURN expr ; / RAISE ; / RAISE expr ; / EXIT ; / RETRY ; / TRYNEXT ;
simple = TPWRITE STRING ; / TPWRITE STRING \\ NUM := expr ; / TPREADNUM target , STRING ;
expr = ors / NOT ors
ors = ands / ors OR ands / ors XOR ands
ands = rel / ands AND rel
rel = sum / sum relop sum
relop = = / <> / < / <= / > / >=
sum = first / sum + product / sum - product
first = product / + product / - product
product = primary / product * primary / product DIV primary / product MOD primary
primary = NUMBER / TRUE / FALSE / NAME / NAME { expr } / ( expr )
";

type Production = (&'static str, Vec<&'static str>);

/// A production, how far it is, and where it began.
type Item = (usize, usize, usize);

struct Grammar {
    productions: Vec<Production>,
    by_left: HashMap<&'static str, Vec<usize>>,
    nullable: HashSet<&'static str>,
}

fn grammar() -> Grammar {
    let mut productions: Vec<Production> = Vec::new();
    for line in GRAMMAR.lines().filter(|line| !line.is_empty()) {
        let (left, right) = line.split_once(" =").expect("a production");
        for part in right.split('/') {
            productions.push((left, part.split_whitespace().collect()));
        }
    }
    let mut by_left: HashMap<&str, Vec<usize>> = HashMap::new();
    for (index, (left, _)) in productions.iter().enumerate() {
        by_left.entry(left).or_default().push(index);
    }
    // In this grammar whatever is nullable has an empty production itself.
    let nullable = productions
        .iter()
        .filter(|(_, right)| right.is_empty())
        .map(|(left, _)| *left)
        .collect();
    Grammar {
        productions,
        by_left,
        nullable,
    }
}

impl Grammar {
    /// Closes a set of items under prediction and completion.
    fn close(&self, sets: &[Vec<Item>], start: Vec<Item>) -> Vec<Item> {
        let here = sets.len();
        let mut items: Vec<Item> = Vec::new();
        let mut seen: HashSet<Item> = HashSet::new();
        let mut open = start;
        while let Some(item) = open.pop() {
            if !seen.insert(item) {
                continue;
            }
            items.push(item);
            let (production, dot, origin) = item;
            let (left, right) = &self.productions[production];
            match right.get(dot) {
                Some(symbol) => {
                    let predicted = self.by_left.get(symbol).into_iter().flatten();
                    open.extend(predicted.map(|predicted| (*predicted, 0, here)));
                    if self.nullable.contains(symbol) {
                        open.push((production, dot + 1, origin));
                    }
                }
                // Empty parts are stepped over above.
                None if origin == here => {}
                None => open.extend(self.waiting(&sets[origin], left)),
            }
        }
        items
    }

    /// The items of a set that wait for a symbol, moved on.
    fn waiting<'a>(&'a self, set: &'a [Item], symbol: &'a str) -> impl Iterator<Item = Item> + 'a {
        set.iter()
            .filter(move |(production, dot, _)| {
                self.productions[*production].1.get(*dot).copied() == Some(symbol)
            })
            .map(|(production, dot, origin)| (*production, dot + 1, *origin))
    }

    /// The number of words before the first refused one, or `None` for a module.
    fn first_refused(&self, words: &[String]) -> Option<usize> {
        let start = self.by_left["module"].iter().map(|index| (*index, 0, 0));
        let mut sets = vec![self.close(&[], start.collect())];
        for (index, word) in words.iter().enumerate() {
            let moved: Vec<Item> = self.waiting(&sets[index], word).collect();
            if moved.is_empty() {
                return Some(index);
            }
            let set = self.close(&sets, moved);
            sets.push(set);
        }
        let whole = |(production, dot, origin): &Item| {
            let (left, right) = &self.productions[*production];
            *left == "module" && *dot == right.len() && *origin == 0
        };
        let complete = sets[words.len()].iter().any(whole);
        (!complete).then_some(words.len())
    }
}

fn terminal(word: &Word, text: &[u8]) -> String {
    match word.kind {
        scan::Kind::Name => "NAME".to_string(),
        scan::Kind::Number => "NUMBER".to_string(),
        scan::Kind::String => "STRING".to_string(),
        _ => String::from_utf8_lossy(word.covers(text)).to_ascii_uppercase(),
    }
}

/// Compares the two routes on a text; refusal 9 stops only one of them.
fn compare(grammar: &Grammar, text: &[u8]) {
    let listing = list(text);
    if listing.refusal.is_some() {
        return;
    }
    let words: Vec<String> = listing
        .words
        .iter()
        .map(|word| terminal(word, text))
        .collect();
    let refused = grammar.first_refused(&words);
    let place_of = |index: usize| {
        listing
            .words
            .get(index)
            .map_or(text.len(), |word| word.place)
    };
    let expected = refused.map(place_of);
    let shown = String::from_utf8_lossy(text);
    match form(text, &listing.words).err() {
        Some(refusal) if refusal.number == 9 => {
            assert!(
                expected.is_none_or(|place| place > refusal.place),
                "{shown}"
            );
        }
        found => assert_eq!(found.map(|refusal| refusal.place), expected, "{shown}"),
    }
}

#[test]
fn two_routes_refuse_the_same_words() {
    let grammar = grammar();
    let kinds = [
        (Kind::Words, 2_000),
        (Kind::Bytes, 500),
        (Kind::Valid, 200),
        (Kind::Limits, 500),
        (Kind::Undo, 400),
    ];
    for (kind, count) in kinds {
        for line in Cases::new(21, kind, Size::Short).take(count) {
            let text = line.split(' ').nth(1).and_then(read_bytes);
            compare(&grammar, &text.expect("a run line"));
        }
    }
}

#[test]
fn two_routes_refuse_the_same_tails() {
    let grammar = grammar();
    for line in Cases::new(22, Kind::Valid, Size::Short).take(60) {
        let text = line
            .split(' ')
            .nth(1)
            .and_then(read_bytes)
            .expect("a run line");
        for word in list(&text).words {
            compare(&grammar, &text[..word.place]);
        }
    }
}
