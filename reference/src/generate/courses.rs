//! Accepted modules as a course has them: loops in loops, arrays, calls and recursion, errors that are handled and the work goes on. They run long.

use super::chains::mark_starts;
use super::layout::{tokens, Token};
use super::random::Random;

const DATA: &str =
    "CONST num size := 8 ; VAR num n := 5 ; VAR num k ; VAR num a { size } ; VAR bool flag ; ";
const OWN_DATA: &str = "VAR num u := 2 ; VAR num v := 3 ; VAR num d ; VAR num c { 4 } ; VAR bool on := TRUE ; VAR num w1 ; VAR num w2 ; VAR num w3 ; ";
const NUMS: [&str; 5] = ["n", "k", "u", "v", "d"];
/// By how many loops are around.
const COUNTERS: [&str; 4] = ["i", "j", "m", "h"];
const WHILE_COUNTERS: [&str; 3] = ["w1", "w2", "w3"];
/// ERROR lists after which the work goes on.
const MENDING: [&str; 5] = [
    "k := k + 1 ; TRYNEXT ;",
    "d := d + 1 ; IF d < 4 RETRY ; TRYNEXT ;",
    "IF ERRNO = ERR_DIVZERO THEN d := 2 ; u := 3 ; ELSEIF ERRNO = ERR_OUTOFBND THEN TRYNEXT ; ENDIF \
     v := 1 ; TRYNEXT ;",
    "TEST ERRNO CASE ERR_OVERFLOW , ERR_ILLRAISE : u := 1 ; TRYNEXT ; \
     CASE 1 , 2 , 3 : TRYNEXT ; DEFAULT : d := d + 3 ; ENDTEST TRYNEXT ;",
    "FOR e FROM 1 TO 2 DO u := u + e ; ENDFOR TRYNEXT ;",
];
const DEEPEST_NEST: usize = 4;
/// A routine has at most 64 words; these are left for FOR variables.
const MOST_LOOPS: usize = 30;

#[derive(Clone, Copy, PartialEq)]
enum Sort {
    Proc,
    Num,
    Bool,
    /// A FUNC that calls itself with one less.
    Recursive,
}

struct Course<'r> {
    random: &'r mut Random,
    text: String,
    /// The routines after main, `s1`, `s2` ..; each calls only those behind it.
    sorts: Vec<Sort>,
    /// The routine being written, main is 0.
    rank: usize,
    counters: Vec<&'static str>,
    whiles: usize,
    loops: usize,
    nest: usize,
    in_error: bool,
    in_undo: bool,
    /// How many of a hundred routines have an UNDO list.
    undoing: usize,
}

/// The words of a module that runs long; so many of a hundred routines have an UNDO list.
pub fn course(random: &mut Random, undoing: usize) -> Vec<Token> {
    let count = random.between(1, 4);
    let sorts = (0..count)
        .map(|_| {
            random.pick(&[
                Sort::Proc,
                Sort::Proc,
                Sort::Num,
                Sort::Bool,
                Sort::Recursive,
            ])
        })
        .collect();
    let mut course = Course {
        random,
        text: format!("MODULE lesson {DATA}"),
        sorts,
        rank: 0,
        counters: Vec::new(),
        whiles: 0,
        loops: 0,
        nest: 0,
        in_error: false,
        in_undo: false,
        undoing,
    };
    for rank in 0..=count {
        course.routine(rank);
    }
    course.put("ENDMODULE");
    mark_starts(tokens(&course.text))
}

/// Routines.
impl Course<'_> {
    fn put(&mut self, words: &str) {
        self.text += words;
        self.text.push(' ');
    }

    fn sort(&self) -> Sort {
        match self.rank {
            0 => Sort::Proc,
            rank => self.sorts[rank - 1],
        }
    }

    fn routine(&mut self, rank: usize) {
        self.rank = rank;
        self.whiles = 0;
        self.loops = 0;
        let name = format!("s{rank}");
        let head = match self.sort() {
            _ if rank == 0 => "PROC main ( )".to_string(),
            Sort::Proc => format!("PROC {name} ( num x )"),
            Sort::Bool => format!("FUNC bool {name} ( num x )"),
            Sort::Num | Sort::Recursive => format!("FUNC num {name} ( num x )"),
        };
        self.put(&head);
        self.put(OWN_DATA);
        if self.sort() == Sort::Recursive {
            self.put(&format!("IF x <= 0 RETURN k ; u := {name} ( x - 1 ) ;"));
        }
        let least = if rank == 0 { 3 } else { 1 };
        self.list(least, least + 3);
        if self.sort() != Sort::Proc {
            self.give_back();
        }
        if self.random.chance(if rank == 0 { 92 } else { 50 }) {
            self.handler();
        }
        if self.random.chance(self.undoing) {
            self.undo();
        }
        let end = if self.sort() == Sort::Proc {
            "ENDPROC"
        } else {
            "ENDFUNC"
        };
        self.put(end);
    }

    fn give_back(&mut self) {
        self.put("RETURN");
        match self.sort() {
            Sort::Proc => {}
            Sort::Bool => self.truth(),
            Sort::Num | Sort::Recursive => self.num(1),
        }
        self.put(";");
    }

    /// An ERROR list that mostly mends something, so that the work goes on.
    fn handler(&mut self) {
        self.put("ERROR");
        self.in_error = true;
        if self.random.chance(15) {
            self.list(1, 1);
        }
        let hands_on = if self.rank == 0 { 0 } else { 25 };
        match self.random.weighted(&[25, 20, 15, 12, 8, 8, hands_on]) {
            way if way < MENDING.len() => self.put(MENDING[way]),
            5 => {
                self.call();
                self.put("TRYNEXT ;");
            }
            _ if self.random.chance(60) => self.put("RAISE ;"),
            _ => self.give_back(),
        }
        self.in_error = false;
    }
}

/// UNDO lists.
impl Course<'_> {
    fn undo(&mut self) {
        self.put("UNDO");
        self.in_undo = true;
        self.put("TPWrite \"u\" \\ num := u * 10 + v ;");
        self.list(0, 3);
        self.in_undo = false;
    }
}

/// Statements.
impl Course<'_> {
    fn list(&mut self, least: usize, most: usize) {
        for _ in 0..self.random.between(least, most) {
            self.statement();
        }
    }

    fn statement(&mut self) {
        let nests = self.nest < DEEPEST_NEST;
        match self.random.weighted(&[30, 14, 8, 10, 16]) {
            0 if nests => self.compound(),
            1 => self.call(),
            2 => self.trouble(),
            3 => {
                self.put("IF");
                self.truth();
                self.simple();
            }
            _ => self.simple(),
        }
    }

    fn compound(&mut self) {
        self.nest += 1;
        match self.random.weighted(&[30, 20, 25, 15]) {
            0 if self.loops < MOST_LOOPS => self.for_loop(),
            1 if self.whiles < WHILE_COUNTERS.len() => self.while_loop(),
            3 => self.cases(),
            _ => self.choice(),
        }
        self.nest -= 1;
    }

    fn simple(&mut self) {
        match self.random.weighted(&[40, 20, 12, 8, 1, 4]) {
            0 => self.assign(),
            1 => self.store_element(),
            2 => {
                self.put("on :=");
                self.truth();
                self.put(";");
            }
            3 if self.nest < 3 => {
                self.put("TPWrite \"r=\" \\ num :=");
                self.num(1);
                self.put(";");
            }
            4 => self.put("TPReadNum v , \"v\" ;"),
            // a way out of the loops around, too
            5 if self.rank > 0 && !self.counters.is_empty() && !self.in_undo => self.give_back(),
            _ => self.assign(),
        }
    }

    fn assign(&mut self) {
        let name = self.random.pick(&NUMS);
        self.put(&format!("{name} := ("));
        self.num(2);
        self.put(")");
        // values stay small, so that most sums do not overflow
        let bound = self.random.pick(&["MOD 97", "MOD 11", "MOD 4096", "DIV 2"]);
        self.put(bound);
        self.put(";");
    }

    fn store_element(&mut self) {
        let array = self.random.pick(&["a", "c"]);
        self.put(array);
        self.index();
        self.put(":=");
        self.num(1);
        self.put(";");
    }

    /// A call of a routine behind this one, or an assignment where there is none.
    fn call(&mut self) {
        if self.rank >= self.sorts.len() || self.in_undo {
            return self.assign();
        }
        let callee = self.random.between(self.rank + 1, self.sorts.len());
        match self.sorts[callee - 1] {
            Sort::Proc => {
                self.put(&format!("s{callee}"));
                self.argument();
                self.put(";");
            }
            Sort::Bool => {
                self.put(&format!("on := s{callee} ("));
                self.argument();
                self.put(") ;");
            }
            Sort::Num | Sort::Recursive => {
                let target = self
                    .random
                    .pick(&["u", "n", "v", "a { 2 }", "c { 1 + k MOD 3 }"]);
                self.put(&format!("{target} := s{callee} ("));
                self.argument();
                self.put(") ;");
            }
        }
    }

    fn argument(&mut self) {
        if self.random.chance(6) {
            return self.put("7 DIV d");
        }
        self.num(0);
    }

    /// A statement that fails for some values.
    fn trouble(&mut self) {
        let name = self.random.pick(&NUMS);
        let gives_num = matches!(self.sort(), Sort::Num | Sort::Recursive);
        let raises = !self.in_error && !self.in_undo;
        let words = match self.random.below(13) {
            0 => format!("u := 12 DIV {name} ;"),
            1 => format!("v := 7 MOD ( {name} - 2 ) ;"),
            2 => format!("a {{ {name} }} := 1 ;"),
            3 => format!("u := 8388600 + {name} ;"),
            4 => format!("FOR e FROM 1 TO 6 DIV {name} DO v := e ; ENDFOR"),
            5 | 6 if raises => format!("IF {name} MOD 3 = 1 RAISE {name} ;"),
            7 if raises => format!("IF {name} > 4 RAISE {name} * 20 ;"),
            8 => format!("WHILE 12 DIV {name} > 4 DO {name} := {name} + 1 ; ENDWHILE"),
            9 => format!("TPWrite \"q=\" \\ num := 9 DIV {name} ;"),
            10 if gives_num && !self.in_undo => {
                format!("IF {name} < 3 RETURN 5 MOD ( {name} - 1 ) ;")
            }
            11 => format!("TEST 5 MOD {name} CASE 1 : u := 2 ; ENDTEST"),
            _ => format!("IF c {{ {name} }} > 1 THEN u := 1 ; ENDIF"),
        };
        self.loops += 1;
        self.put(&words);
    }
}

/// Compound statements.
impl Course<'_> {
    fn for_loop(&mut self) {
        let counter = if self.random.chance(5) {
            // hides the routine
            "main"
        } else {
            COUNTERS[self.counters.len().min(COUNTERS.len() - 1)]
        };
        self.loops += 1;
        let head = self.random.pick(&[
            "1 TO 4",
            "1 TO 5",
            "1 TO size",
            "4 TO 1 STEP - 1",
            "4 TO 1",
            "1 TO 7 STEP 2",
            "1 TO v",
            "u TO u + 3",
            "0 TO 2",
        ]);
        self.put(&format!("FOR {counter} FROM {head} DO"));
        self.counters.push(counter);
        self.list(1, 3);
        self.counters.pop();
        self.put("ENDFOR");
    }

    fn while_loop(&mut self) {
        let counter = WHILE_COUNTERS[self.whiles];
        self.whiles += 1;
        let bound = self.random.between(2, 6);
        self.put(&format!("{counter} := 0 ; WHILE {counter} < {bound}"));
        if self.random.chance(25) {
            self.put("AND ( on OR u < 40 )");
        }
        self.put(&format!("DO {counter} := {counter} + 1 ;"));
        self.list(1, 3);
        self.put("ENDWHILE");
        self.whiles -= 1;
    }

    fn choice(&mut self) {
        self.put("IF");
        self.truth();
        self.put("THEN");
        self.list(1, 2);
        while self.random.chance(35) {
            self.put("ELSEIF");
            self.truth();
            self.put("THEN");
            self.list(0, 2);
        }
        if self.random.chance(50) {
            self.put("ELSE");
            self.list(0, 2);
        }
        self.put("ENDIF");
    }

    fn cases(&mut self) {
        self.put("TEST (");
        self.num(1);
        self.put(") MOD 4");
        for values in ["0 :", "1 , - 1 :", "2 , size - 5 :"] {
            self.put("CASE");
            self.put(values);
            self.list(0, 2);
        }
        if self.random.chance(60) {
            self.put("DEFAULT :");
            self.list(0, 2);
        }
        self.put("ENDTEST");
    }
}

/// Expressions.
impl Course<'_> {
    fn num(&mut self, depth: usize) {
        self.primary(depth);
        for _ in 0..self.random.weighted(&[40, 45, 15]) {
            let sign = self.random.pick(&["+", "-", "*", "+"]);
            self.put(sign);
            self.primary(depth.saturating_sub(1));
        }
    }

    fn primary(&mut self, depth: usize) {
        match self.random.weighted(&[30, 25, 20, 10, 12]) {
            0 => {
                let name = self.random.pick(&NUMS);
                self.put(name);
            }
            1 if !self.counters.is_empty() => {
                let counter = self.random.pick(&self.counters.clone());
                self.put(counter);
            }
            2 if depth > 0 => {
                let array = self.random.pick(&["a", "c"]);
                self.put(array);
                self.index();
            }
            3 if depth > 0 => {
                self.put("(");
                self.num(depth - 1);
                self.put(")");
            }
            _ => {
                let number = self.random.between(1, 9);
                self.put(&number.to_string());
            }
        }
    }

    /// An index that mostly fits.
    fn index(&mut self) {
        let counter = self.counters.last().copied().unwrap_or("3");
        let index = match self.random.below(20) {
            0 => "u".to_string(),
            1 => format!("{counter} + 1"),
            2..=9 => format!("1 + {counter} MOD 4"),
            _ => self.random.between(1, 4).to_string(),
        };
        self.put(&format!("{{ {index} }}"));
    }

    fn truth(&mut self) {
        if self.random.chance(12) {
            self.put("NOT");
        }
        self.relation();
        for _ in 0..self.random.weighted(&[60, 30, 10]) {
            let word = self.random.pick(&["AND", "OR", "XOR", "AND"]);
            self.put(word);
            self.relation();
        }
    }

    fn relation(&mut self) {
        if self.random.chance(30) {
            let word = self
                .random
                .pick(&["on", "flag", "( NOT on )", "( u > v ) = on"]);
            return self.put(word);
        }
        self.num(1);
        let relation = self.random.pick(&["=", "<>", "<", "<=", ">", ">="]);
        self.put(relation);
        self.num(0);
    }
}
