//! Accepted modules about FOR: up, down and once, by a written STEP or by none, with bounds that the run changes, heads that fail and are tried again.

use super::chains::mark_starts;
use super::layout::{tokens, Token};
use super::random::Random;

const DATA: &str = "VAR num n ; VAR num k := 2 ; VAR num d := 1 ; VAR num a { 4 } ; ";
/// By how many loops are around.
const COUNTERS: [&str; 3] = ["i", "j", "m"];
const DEEPEST_NEST: usize = 3;
/// Start and end at the ends of num, where the last sum that is tested is none.
const EDGES: [&str; 8] = [
    "8388608 TO 8388606",
    "8388606 TO 8388608",
    "8388608 TO 8388608",
    "8388608 TO 8388607",
    "- 8388605 TO - 8388607",
    "- 8388606 TO - 8388607",
    "- 8388607 TO - 8388607",
    "- 8388607 TO - 8388606",
];
const STEPS: [&str; 9] = [
    "1", "- 1", "- 1", "2", "- 2", "- 3", "k", "d - 1", "6 DIV d",
];
/// ERROR lists: most change a bound before the head is tried again.
const MENDING: [&str; 6] = [
    "d := d + 1 ; IF d < 5 RETRY ; TRYNEXT ;",
    "d := d + 2 ; k := k - 3 ; IF d < 7 RETRY ; TRYNEXT ;",
    "IF d = 0 THEN d := 6 ; RETRY ; ENDIF TRYNEXT ;",
    "FOR e FROM 2 TO 1 DO d := d + e ; ENDFOR IF d < 9 RETRY ; TRYNEXT ;",
    "FOR e FROM d TO 1 DO k := e ; ENDFOR TRYNEXT ;",
    "k := 0 - k ; d := 3 ; TRYNEXT ;",
];

struct Counting<'r> {
    random: &'r mut Random,
    text: String,
    /// In the PROC that main calls.
    inside: bool,
    counters: Vec<&'static str>,
}

/// The words of a module of loops.
pub fn counting(random: &mut Random) -> Vec<Token> {
    let mut counting = Counting {
        random,
        text: format!("MODULE count {DATA}"),
        inside: false,
        counters: Vec::new(),
    };
    counting.routine("PROC main ( )", 1, 3, 80);
    counting.inside = true;
    counting.routine("PROC q ( num x )", 1, 1, 30);
    counting.put("ENDMODULE");
    mark_starts(tokens(&counting.text))
}

impl Counting<'_> {
    fn put(&mut self, words: &str) {
        self.text += words;
        self.text.push(' ');
    }

    fn any(&mut self, choices: &[&str]) {
        let words = self.random.pick(choices);
        self.put(words);
    }

    fn routine(&mut self, head: &str, least: usize, most: usize, handled: usize) {
        self.put(head);
        for _ in 0..self.random.between(least, most) {
            if self.random.chance(30) {
                self.any(&["k := d - 2 ;", "d := 0 ;", "k := 3 ;", "a { 2 } := k ;"]);
            }
            self.for_loop();
        }
        if self.random.chance(handled) {
            self.put("ERROR");
            self.any(&MENDING);
        }
        self.put("ENDPROC");
    }

    fn for_loop(&mut self) {
        let counter = COUNTERS[self.counters.len()];
        self.put(&format!("FOR {counter} FROM"));
        if self.random.chance(15) {
            self.any(&EDGES);
        } else {
            self.bound();
            self.put("TO");
            self.bound();
        }
        if self.random.chance(20) {
            self.put("STEP");
            self.any(&STEPS);
        }
        self.put("DO");
        self.counters.push(counter);
        for _ in 0..self.random.between(1, 3) {
            self.inner(counter);
        }
        self.counters.pop();
        self.put("ENDFOR");
    }

    /// A start or an end, mostly small; some fail.
    fn bound(&mut self) {
        match self.random.weighted(&[50, 20, 8, 5, 10, 7]) {
            0 => self.any(&["0", "1", "1", "2", "3", "4", "5", "- 1", "- 3"]),
            1 => self.any(&["k", "d", "d - 1", "k + 1", "n MOD 5"]),
            2 => self.any(&["6 DIV d", "6 DIV ( k - 1 )", "5 MOD d"]),
            3 => self.any(&["a { d }", "a { k }"]),
            4 if self.inside => self.any(&["x", "x - 1"]),
            _ => {
                let outer = self.counters.last().copied().unwrap_or("k");
                let more = self.random.pick(&["", "- 1", "+ 2"]);
                self.put(&format!("{outer} {more}"));
            }
        }
    }

    /// A statement of a loop's body.
    fn inner(&mut self, counter: &str) {
        let words = match self.random.weighted(&[40, 12, 14, 8, 10, 8, 8]) {
            0 => format!("n := ( n * 10 + {counter} ) MOD 99991 ;"),
            1 => format!("TPWrite \"\" \\ num := {counter} ;"),
            // what the head has worked out stays, whatever becomes of its bounds
            2 => self
                .random
                .pick(&["d := d - 1 ;", "k := 0 - k ;", "k := k + 3 ;", "d := 0 ;"])
                .to_string(),
            3 => format!("k := {counter} ;"),
            4 => format!("a {{ {counter} }} := n ;"),
            5 => format!("k := 6 DIV {counter} ;"),
            _ if !self.inside => format!("q {counter} ;"),
            _ => format!("IF {counter} = k RETURN ;"),
        };
        if self.counters.len() < DEEPEST_NEST && self.random.chance(20) {
            self.for_loop();
        }
        self.put(&words);
    }
}
