//! The statements that an `Author` writes.

use super::author::{Author, Form, Head, Symbol};
use super::layout::Token;
use crate::tree::Type;

const DEEPEST_NEST: usize = 14;
const MOST_WORDS: usize = 60;

fn is_target(symbol: &Symbol) -> bool {
    matches!(symbol.form, Form::Scalar | Form::Array(_))
}

/// Lists.
impl Author<'_> {
    /// Writes the first words of a statement.
    pub fn start_statement(&mut self, words: &str) {
        let first = self.written.len();
        self.put(words);
        self.written[first].starts = true;
    }

    /// At least and at most so many statements, as far as there is room.
    pub fn list(&mut self, least: usize, most: usize) {
        let most = if self.goal > 1_000 { most * 10 } else { most };
        for number in 0..most {
            if number >= least && self.room() < 25 {
                return;
            }
            self.statement();
        }
    }

    fn statement(&mut self) {
        let nests = self.room() > 35 && self.part.nest < DEEPEST_NEST;
        if nests && self.random.chance(35) {
            self.compound();
        } else if self.random.chance(15) {
            self.start_statement("IF");
            self.truth(1);
            self.simple();
        } else {
            self.simple();
        }
    }

    pub fn compound(&mut self) {
        self.part.nest += 1;
        match self.random.below(4) {
            0 => self.if_statement(),
            1 if self.part.words < MOST_WORDS => self.for_statement(),
            2 => self.while_statement(),
            _ => self.test_statement(),
        }
        self.part.nest -= 1;
    }

    fn simple(&mut self) {
        // Calls and jumps are barred in an UNDO list.
        let weights = if self.part.in_undo {
            [40, 0, 24, 12, 0, 24]
        } else {
            [30, 30, 12, 8, 4, 16]
        };
        match self.random.weighted(&weights) {
            0 => self.assignment(),
            1 => self.call(),
            2 => self.write(),
            3 => self.read(),
            4 => self.jump(),
            _ => self.trouble(),
        }
    }
}

/// Simple statements.
impl Author<'_> {
    /// Writes a target and hands back its type, if there is one to be had.
    fn target(&mut self, wanted: impl Fn(&Symbol) -> bool) -> Option<Type> {
        let targets = self.visible_as(|symbol| is_target(symbol) && wanted(symbol));
        if targets.is_empty() {
            return None;
        }
        let target = self.random.choose(&targets).clone();
        self.put(&target.name);
        self.index(&target);
        Some(target.kind)
    }

    fn assignment(&mut self) {
        let first = self.written.len();
        let Some(kind) = self.target(|_| true) else {
            return self.write();
        };
        self.written[first].starts = true;
        self.put(":=");
        let depth = self.random.below(3);
        self.value(kind, depth);
        self.put(";");
    }

    /// The routines that can be meant here, mostly those of a higher rank.
    fn callees(&mut self) -> Vec<Head> {
        let recursive = self.random.chance(15);
        let hidden = |head: &Head| {
            self.scopes
                .iter()
                .flatten()
                .any(|data| data.name == head.name)
        };
        let fits = |head: &&Head| !hidden(head) && (recursive || head.rank > self.part.rank);
        self.heads.iter().filter(fits).cloned().collect()
    }

    /// A call of a PROC, or of a FUNC if there is a target for its result.
    pub fn call(&mut self) {
        let heads = self.callees();
        if heads.is_empty() {
            return self.assignment();
        }
        let head = self.random.choose(&heads).clone();
        let first = self.written.len();
        match head.result {
            None => {
                self.put(&head.name);
                self.arguments(&head);
            }
            Some(result) => {
                if self.target(|symbol| symbol.kind == result).is_none() {
                    return self.assignment();
                }
                self.put(&format!(":= {} (", head.name));
                self.arguments(&head);
                self.put(")");
            }
        }
        self.written[first].starts = true;
        self.put(";");
    }

    fn arguments(&mut self, head: &Head) {
        for (index, parameter) in head.parameters.iter().enumerate() {
            if index > 0 {
                self.put(",");
            }
            let own = self.visible_as(|data| data.name == parameter.name);
            let counts = own
                .first()
                .is_some_and(|own| is_counter(own) && is_counter(parameter));
            if counts && self.random.chance(60) {
                // Recursion that comes to an end.
                self.put(&format!("{} - 1", parameter.name));
            } else {
                self.value(parameter.kind, 1);
            }
        }
    }

    fn string(&mut self) {
        let strings: [&[u8]; 8] = [b"", b"n=", b"a b", b"x", b"", b"\"\"", b"\xe9\t!", b"tray;"];
        let inside = self.random.pick(&strings);
        self.add(Token::new([b"\"", inside, b"\""].concat()));
    }

    pub fn write(&mut self) {
        self.start_statement("TPWrite");
        self.string();
        if self.random.chance(70) {
            self.put("\\ num :=");
            self.num(1);
        }
        self.put(";");
    }

    fn read(&mut self) {
        let numbers = self.visible_as(|symbol| is_target(symbol) && symbol.kind == Type::Num);
        if numbers.is_empty() {
            return self.write();
        }
        self.start_statement("TPReadNum");
        self.target(|symbol| symbol.kind == Type::Num);
        self.put(",");
        self.string();
        self.put(";");
    }

    pub fn return_value(&mut self) {
        self.start_statement("RETURN");
        if let Some(kind) = self.part.result {
            self.value(kind, 1);
        }
        self.put(";");
    }

    /// A statement that is likely to fail.
    fn trouble(&mut self) {
        let counters = self.visible_as(is_counter);
        if counters.is_empty() {
            return self.jump();
        }
        let name = &self.random.choose(&counters).name;
        let arrays = self.visible_as(|symbol| matches!(symbol.form, Form::Array(_)));
        match self.random.below(5) {
            0 => self.start_statement(&format!("{name} := 7 DIV {name} ;")),
            1 => self.start_statement(&format!("{name} := 8388608 + {name} ;")),
            2 => self.start_statement(&format!("{name} := 5 MOD ( {name} - 1 ) ;")),
            3 if !self.part.in_error && !self.part.in_undo => {
                self.start_statement(&format!("RAISE {name} ;"));
            }
            _ => match arrays.first() {
                Some(Symbol {
                    name: array, kind, ..
                }) => {
                    self.start_statement(&format!("{array} {{ {name} }} :="));
                    self.value(*kind, 0);
                    self.put(";");
                }
                None => self.start_statement(&format!("{name} := {name} * {name} + 3 ;")),
            },
        }
    }

    /// A statement that leaves the list, or writes a line where it may not.
    fn jump(&mut self) {
        match self.random.below(10) {
            _ if self.part.in_undo => self.write(),
            0 => self.start_statement("EXIT ;"),
            1..=3 => self.return_value(),
            _ if self.part.in_error => {
                let words = self
                    .random
                    .pick(&["RETRY ;", "TRYNEXT ;", "TRYNEXT ;", "RAISE ;"]);
                self.start_statement(words);
            }
            4..=7 => {
                let words = self
                    .random
                    .pick(&["RAISE 7", "RAISE 90", "RAISE 91", "RAISE 0"]);
                self.start_statement(words);
                self.put(";");
            }
            _ => {
                self.start_statement("RAISE");
                self.num(1);
                self.put(";");
            }
        }
    }
}

fn is_counter(symbol: &Symbol) -> bool {
    symbol.kind == Type::Num && symbol.form == Form::Scalar
}

/// UNDO lists.
impl Author<'_> {
    /// A list that mostly shows some data and goes on from there.
    pub fn undo(&mut self) {
        if self.random.chance(8) {
            return;
        }
        let counters = self.visible_as(is_counter);
        if !counters.is_empty() && self.random.chance(70) {
            let name = &self.random.choose(&counters).name;
            self.start_statement(&format!("TPWrite \"u\" \\ num := {name} ;"));
        }
        self.list(1, 4);
    }
}

/// ERROR lists.
impl Author<'_> {
    /// A list that mends something and mostly goes back.
    pub fn handler(&mut self) {
        if self.random.chance(8) {
            return;
        }
        if self.room() > 60 && self.random.chance(50) {
            self.list(1, 2);
        }
        let counters = self.visible_as(is_counter);
        if let Some(counter) = counters.first().filter(|_| self.random.chance(70)) {
            let name = &counter.name;
            self.start_statement(&format!("{name} := {name} + 1 ;"));
            let bound = self.random.between(2, 9);
            let word = self.random.pick(&["RETRY", "RETRY", "TRYNEXT", "RAISE"]);
            self.start_statement(&format!("IF {name} < {bound} {word} ;"));
        }
        match self.random.below(10) {
            0..=3 => self.start_statement("TRYNEXT ;"),
            4 => self.start_statement("RETRY ;"),
            5..=6 => self.start_statement("RAISE ;"),
            7 => self.return_value(),
            8 => {
                self.start_statement("IF ERRNO = ERR_DIVZERO TRYNEXT ;");
                self.jump();
            }
            _ => {}
        }
    }
}

/// Compound statements.
impl Author<'_> {
    fn if_statement(&mut self) {
        self.start_statement("IF");
        self.truth(1);
        self.put("THEN");
        self.list(1, 2);
        while self.random.chance(25) {
            self.put("ELSEIF");
            self.truth(1);
            self.put("THEN");
            self.list(0, 1);
        }
        if self.random.chance(40) {
            self.put("ELSE");
            self.list(0, 1);
        }
        self.put("ENDIF");
    }

    fn for_statement(&mut self) {
        // It may hide everything but what is its routine's own.
        let own = self.scopes[1].clone();
        let name = self.local_name(&own);
        self.part.words += 1;
        self.start_statement(&format!("FOR {name} FROM"));
        let ends = self.random.pick(&[
            "1 TO 3",
            "1 TO 3",
            "0 TO 4",
            "3 TO 1",
            "8388607 TO 8388608",
            "",
        ]);
        self.put(ends);
        if ends.is_empty() {
            self.num(1);
            self.put("TO");
            self.num(1);
        }
        if self.random.chance(40) {
            self.put("STEP");
            let step =
                self.random
                    .pick(&["- 1", "- 1", "2", "0", "- 3", "8388608", "- 8388607", ""]);
            self.put(step);
            if step.is_empty() {
                self.num(1);
            }
        }
        self.put("DO");
        self.scopes.push(vec![Symbol {
            name,
            kind: Type::Num,
            form: Form::LoopVariable,
        }]);
        self.list(1, 3);
        self.scopes.pop();
        self.put("ENDFOR");
    }

    /// A WHILE that mostly counts itself out.
    fn while_statement(&mut self) {
        let counters = self.visible_as(is_counter);
        let counter = counters.first().filter(|_| self.random.chance(80)).cloned();
        self.start_statement("WHILE");
        match &counter {
            Some(counter) => {
                let bound = self.random.between(1, 4);
                self.put(&format!("{} < {bound}", counter.name));
            }
            None => self.truth(1),
        }
        self.put("DO");
        self.list(1, 2);
        if let Some(counter) = counter {
            let name = counter.name;
            self.start_statement(&format!("{name} := {name} + 1 ;"));
        }
        self.put("ENDWHILE");
    }

    fn test_statement(&mut self) {
        self.start_statement("TEST");
        self.num(1);
        while self.random.chance(60) {
            self.put("CASE");
            self.constant_num();
            while self.random.chance(35) {
                self.put(",");
                self.constant_num();
            }
            self.put(":");
            self.list(0, 1);
        }
        if self.random.chance(50) {
            self.put("DEFAULT :");
            self.list(0, 1);
        }
        self.put("ENDTEST");
    }
}
