//! The expressions that an `Author` writes.

use super::author::{Author, Form, Symbol};
use crate::tree::Type;

fn is_num(symbol: &Symbol) -> bool {
    symbol.kind == Type::Num && !matches!(symbol.form, Form::Array(_))
}

fn is_truth(symbol: &Symbol) -> bool {
    symbol.kind == Type::Bool && !matches!(symbol.form, Form::Array(_))
}

fn is_array(symbol: &Symbol, kind: Type) -> bool {
    symbol.kind == kind && matches!(symbol.form, Form::Array(_))
}

/// Running expressions; `depth` bounds their size.
impl Author<'_> {
    pub fn value(&mut self, kind: Type, depth: usize) {
        match kind {
            Type::Num => self.num(depth),
            Type::Bool => self.truth(depth),
        }
    }

    pub fn num(&mut self, depth: usize) {
        if self.random.chance(8) {
            let sign = self.random.pick(&["-", "-", "+"]);
            self.put(sign);
        }
        self.product(depth);
        let mut more = if depth > 0 { 40 } else { 0 };
        while self.random.chance(more) {
            let sign = self.random.pick(&["+", "-"]);
            self.put(sign);
            self.product(depth);
            more /= 2;
        }
    }

    fn product(&mut self, depth: usize) {
        self.num_primary(depth);
        let mut more = if depth > 0 { 25 } else { 0 };
        while self.random.chance(more) {
            let operator = self.random.pick(&["*", "DIV", "MOD"]);
            self.put(operator);
            self.num_primary(depth);
            more /= 2;
        }
    }

    fn num_primary(&mut self, depth: usize) {
        if depth > 0 && self.random.chance(12) {
            self.put("(");
            self.num(depth - 1);
            self.put(")");
            return;
        }
        let scalars = self.visible_as(is_num);
        let arrays = self.visible_as(|symbol| is_array(symbol, Type::Num));
        match self.random.below(100) {
            0..=39 if !scalars.is_empty() => {
                let name = self.random.choose(&scalars).name.clone();
                self.put(&name);
            }
            40..=54 if !arrays.is_empty() => self.element(&arrays),
            55..=58 => self.put("ERRNO"),
            59..=60 => self.error_name(),
            61..=63 => {
                let large = self.random.pick(&["8388608", "8388607", "1000000", "4096"]);
                self.put(large);
            }
            _ => self.small_number(),
        }
    }

    pub fn small_number(&mut self) {
        let number = self.random.pick(&[0, 1, 1, 2, 2, 3, 4, 5, 7, 10]);
        self.put(&number.to_string());
    }

    fn error_name(&mut self) {
        let name = self.random.pick(&[
            "ERR_OVERFLOW",
            "ERR_DIVZERO",
            "ERR_OUTOFBND",
            "ERR_ILLRAISE",
        ]);
        self.put(name);
    }

    fn element(&mut self, arrays: &[Symbol]) {
        let array = self.random.choose(arrays).clone();
        self.put(&array.name);
        self.index(&array);
    }

    /// Braces with an index, mostly one that fits.
    pub fn index(&mut self, array: &Symbol) {
        let Form::Array(size) = array.form else {
            return;
        };
        self.put("{");
        match self.random.below(10) {
            0..=5 => {
                let index = self.random.between(1, size);
                self.put(&index.to_string());
            }
            6 => self.put(&(size + 1).to_string()),
            _ => self.num(0),
        }
        self.put("}");
    }

    pub fn truth(&mut self, depth: usize) {
        if self.random.chance(12) {
            self.put("NOT");
        }
        self.and_chain(depth);
        while self.random.chance(if depth > 0 { 20 } else { 0 }) {
            let operator = self.random.pick(&["OR", "XOR"]);
            self.put(operator);
            self.and_chain(depth);
        }
    }

    fn and_chain(&mut self, depth: usize) {
        self.relation(depth);
        while self.random.chance(if depth > 0 { 20 } else { 0 }) {
            self.put("AND");
            self.relation(depth);
        }
    }

    fn relation(&mut self, depth: usize) {
        match self.random.below(10) {
            0..=5 => {
                self.num(depth.saturating_sub(1));
                let relation = self.random.pick(&["=", "<>", "<", "<=", ">", ">="]);
                self.put(relation);
                self.num(depth.saturating_sub(1));
            }
            6 => {
                self.truth_primary(depth);
                let relation = self.random.pick(&["=", "<>"]);
                self.put(relation);
                self.truth_primary(depth);
            }
            _ => self.truth_primary(depth),
        }
    }

    fn truth_primary(&mut self, depth: usize) {
        let scalars = self.visible_as(is_truth);
        let arrays = self.visible_as(|symbol| is_array(symbol, Type::Bool));
        match self.random.below(10) {
            0..=4 if !scalars.is_empty() => {
                let name = self.random.choose(&scalars).name.clone();
                self.put(&name);
            }
            5..=6 if !arrays.is_empty() => self.element(&arrays),
            7..=8 if depth > 0 => {
                self.put("(");
                self.truth(depth - 1);
                self.put(")");
            }
            _ => {
                let word = self.random.pick(&["TRUE", "FALSE"]);
                self.put(word);
            }
        }
    }
}

/// Constant expressions, chosen so that none raises an error.
impl Author<'_> {
    pub fn constant_num(&mut self) {
        let constants = self.visible_as(|symbol| is_num(symbol) && symbol.form == Form::Constant);
        match self.random.below(12) {
            0..=5 => self.small_number(),
            6 => {
                self.put("-");
                self.small_number();
            }
            7 => self.put("( - 7 ) DIV 2 + 1"),
            8 => self.put("3 * ( 2 - 5 ) MOD 2"),
            9 if !constants.is_empty() => {
                let name = self.random.choose(&constants).name.clone();
                // Zero, whatever the constant is.
                self.put(&format!("{name} - {name} + 1"));
            }
            10 if !constants.is_empty() => {
                let name = self.random.choose(&constants).name.clone();
                self.put(&name);
            }
            11 => self.error_name(),
            _ => {
                let edge = self
                    .random
                    .pick(&["8388607 + 1", "- 8388607", "8388608", "+ 6"]);
                self.put(edge);
            }
        }
    }

    pub fn constant_truth(&mut self) {
        let constants = self.visible_as(|symbol| is_truth(symbol) && symbol.form == Form::Constant);
        if !constants.is_empty() && self.random.chance(40) {
            let name = self.random.choose(&constants).name.clone();
            self.put(&name);
            return;
        }
        let words = self.random.pick(&[
            "TRUE",
            "FALSE",
            "TRUE",
            "FALSE",
            "NOT FALSE AND FALSE",
            "FALSE AND 1 DIV 0 = 1",
            "TRUE OR 8388608 + 1 > 0 XOR TRUE",
            "1 <> 2",
        ]);
        self.put(words);
    }
}
