//! The writer of accepted modules: scopes, data and routines.

use super::layout::{tokens, Token};
use super::random::Random;
use crate::tree::Type;

/// How a data name may be used.
#[derive(Clone, Copy, PartialEq)]
pub enum Form {
    Constant,
    Scalar,
    Array(usize),
    LoopVariable,
}

#[derive(Clone)]
pub struct Symbol {
    pub name: String,
    pub kind: Type,
    pub form: Form,
}

/// A routine's head, fixed before anything is written.
#[derive(Clone)]
pub struct Head {
    pub name: String,
    pub result: Option<Type>,
    pub parameters: Vec<Symbol>,
    /// Calls mostly go to a higher rank, so that they come to an end; main has 0.
    pub rank: usize,
}

/// The routine being written.
#[derive(Clone, Copy, Default)]
pub struct Part {
    pub result: Option<Type>,
    pub rank: usize,
    pub in_error: bool,
    pub in_undo: bool,
    /// Words of the routine in use; the paper allows 64.
    pub words: usize,
    /// Compound statements around the place.
    pub nest: usize,
}

pub struct Author<'r> {
    pub random: &'r mut Random,
    pub written: Vec<Token>,
    /// Module data, a routine's own, then FOR variables.
    pub scopes: Vec<Vec<Symbol>>,
    pub heads: Vec<Head>,
    pub part: Part,
    /// How many of a hundred routines have an UNDO list.
    undoing: usize,
    /// Where the text of the list being written should end.
    pub goal: usize,
    pub size: usize,
}

const WORD_GOAL: usize = 6_800;
const DATA_NAMES: [&str; 14] = [
    "n", "m", "a", "b", "c", "k", "x", "y", "i", "j", "Zeta", "w_1", "e", "r2d2_",
];
const ROUTINE_NAMES: [&str; 7] = ["p", "q", "f", "g", "half", "To_", "h2"];

/// The words of an accepted module of about `goal` bytes; so many of a hundred
/// routines have an UNDO list.
pub fn module(random: &mut Random, goal: usize, undoing: usize) -> Vec<Token> {
    let mut author = Author {
        random,
        written: Vec::new(),
        scopes: Vec::new(),
        heads: Vec::new(),
        part: Part::default(),
        undoing,
        goal,
        size: 0,
    };
    author.module(goal);
    author.written
}

pub fn type_word(kind: Type) -> &'static str {
    match kind {
        Type::Num => "num",
        Type::Bool => "bool",
    }
}

/// Writing and scopes.
impl Author<'_> {
    pub fn add(&mut self, token: Token) {
        self.size += token.text.len() + 1;
        self.written.push(token);
    }

    pub fn put(&mut self, words: &str) {
        for token in tokens(words) {
            self.add(token);
        }
    }

    /// Bytes left for the list being written; the paper allows 8,192 words.
    pub fn room(&self) -> usize {
        if self.written.len() > WORD_GOAL {
            return 0;
        }
        self.goal.saturating_sub(self.size)
    }

    /// The data names that can be meant here, hidden ones left out.
    pub fn visible(&self) -> Vec<Symbol> {
        let mut seen: Vec<Symbol> = Vec::new();
        for symbol in self.scopes.iter().rev().flatten() {
            if !seen
                .iter()
                .any(|other| other.name.eq_ignore_ascii_case(&symbol.name))
            {
                seen.push(symbol.clone());
            }
        }
        seen
    }

    pub fn visible_as(&self, wanted: impl Fn(&Symbol) -> bool) -> Vec<Symbol> {
        self.visible().into_iter().filter(wanted).collect()
    }

    /// A name that the given ones do not hold yet.
    fn fresh(&mut self, taken: &[String], pool: &[&str]) -> String {
        let free: Vec<&&str> = pool
            .iter()
            .filter(|name| !taken.iter().any(|other| other == **name))
            .collect();
        if free.is_empty() || self.random.chance(2) {
            // The pool's first name keeps data and routines apart.
            return format!("{}{}", pool[0], taken.len() + 10);
        }
        self.random.pick(&free).to_string()
    }

    fn any_type(&mut self) -> Type {
        if self.random.chance(70) {
            Type::Num
        } else {
            Type::Bool
        }
    }
}

/// Module and data.
impl Author<'_> {
    fn module(&mut self, goal: usize) {
        self.put("MODULE");
        let name = self.random.pick(&["m", "tray", "main", "ERRNO", "n"]);
        self.put(name);
        let long = goal > 1_000;
        let extra = if long {
            self.random.between(3, 40)
        } else {
            self.random.weighted(&[20, 45, 30, 5])
        };
        self.plan_heads(extra);
        self.scopes.push(Vec::new());
        let count = if long {
            self.random.between(3, 12)
        } else {
            self.random.weighted(&[5, 35, 40, 20])
        };
        for _ in 0..count {
            self.data(true);
        }
        let start = self.size;
        let share = goal.saturating_sub(start + 12) / (self.heads.len() + 1);
        self.goal = start;
        for head in self.heads.clone() {
            // main does most of the work.
            self.goal += if head.rank == 0 { 2 * share } else { share };
            self.routine(&head);
        }
        self.put("ENDMODULE");
    }

    fn plan_heads(&mut self, extra: usize) {
        let mut heads = Vec::new();
        let mut names: Vec<String> = Vec::new();
        for rank in 1..=extra {
            let name = self.fresh(&names, &ROUTINE_NAMES);
            names.push(name.clone());
            let result = if self.random.chance(55) {
                Some(self.any_type())
            } else {
                None
            };
            let parameters = self.plan_parameters();
            heads.push(Head {
                name,
                result,
                parameters,
                rank,
            });
        }
        let name = "main".to_string();
        let main = Head {
            name,
            result: None,
            parameters: Vec::new(),
            rank: 0,
        };
        heads.insert(self.random.below(extra + 1), main);
        self.heads = heads;
    }

    fn plan_parameters(&mut self) -> Vec<Symbol> {
        let mut parameters: Vec<Symbol> = Vec::new();
        for _ in 0..self.random.weighted(&[25, 50, 20, 5]) {
            let name = self.local_name(&parameters);
            let kind = self.any_type();
            parameters.push(Symbol {
                name,
                kind,
                form: Form::Scalar,
            });
        }
        parameters
    }

    /// A name for a parameter, routine data or a FOR variable; it may hide.
    pub fn local_name(&mut self, scope: &[Symbol]) -> String {
        let taken: Vec<String> = scope.iter().map(|symbol| symbol.name.clone()).collect();
        let pool: &[&str] = if self.random.chance(4) {
            &ROUTINE_NAMES
        } else {
            &DATA_NAMES
        };
        self.fresh(&taken, pool)
    }

    /// A data declaration in the innermost scope.
    fn data(&mut self, in_module: bool) {
        let scope = self.scopes.last().cloned().unwrap_or_default();
        let name = if in_module {
            let taken: Vec<String> = scope.iter().map(|symbol| symbol.name.clone()).collect();
            self.fresh(&taken, &DATA_NAMES)
        } else {
            self.local_name(&scope)
        };
        let kind = self.any_type();
        let form = match self.random.weighted(&[20, 55, 25]) {
            0 => Form::Constant,
            1 => Form::Scalar,
            _ => Form::Array(self.random.between(1, 4)),
        };
        let word = if form == Form::Constant {
            "CONST"
        } else {
            "VAR"
        };
        self.put(&format!("{word} {} {name}", type_word(kind)));
        match form {
            Form::Array(size) => self.array_size(size),
            Form::Constant => self.start_value(kind),
            _ if self.random.chance(60) => self.start_value(kind),
            _ => {}
        }
        self.put(";");
        self.part.words += if let Form::Array(size) = form {
            size
        } else {
            1
        };
        // Known from its semicolon on.
        if let Some(scope) = self.scopes.last_mut() {
            scope.push(Symbol { name, kind, form });
        }
    }

    fn array_size(&mut self, size: usize) {
        self.put("{");
        match self.random.below(6) {
            0 => self.put(&format!("{} + 1", size - 1)),
            1 => self.put(&format!("( {} ) DIV 2", size * 2 + 1)),
            _ => self.put(&size.to_string()),
        }
        self.put("}");
    }

    fn start_value(&mut self, kind: Type) {
        self.put(":=");
        match kind {
            Type::Num => self.constant_num(),
            Type::Bool => self.constant_truth(),
        }
    }
}

/// Routines.
impl Author<'_> {
    fn routine(&mut self, head: &Head) {
        match head.result {
            Some(kind) => self.put(&format!("FUNC {}", type_word(kind))),
            None => self.put("PROC"),
        }
        self.put(&format!("{} (", head.name));
        for (index, parameter) in head.parameters.iter().enumerate() {
            let comma = if index > 0 { ", " } else { "" };
            self.put(&format!(
                "{comma}{} {}",
                type_word(parameter.kind),
                parameter.name
            ));
        }
        self.put(")");
        let words = head.parameters.len();
        let Head { result, rank, .. } = *head;
        self.part = Part {
            result,
            rank,
            words,
            ..Part::default()
        };
        self.scopes.push(head.parameters.clone());
        for _ in 0..self.random.weighted(&[75, 20, 5]) {
            self.data(false);
        }
        self.lists(head);
        self.scopes.pop();
        self.put(if head.result.is_some() {
            "ENDFUNC"
        } else {
            "ENDPROC"
        });
    }

    fn lists(&mut self, head: &Head) {
        let end = self.goal;
        let handles = self.random.chance(if head.rank == 0 { 65 } else { 45 });
        let undoes = self.random.chance(self.undoing);
        let share = self.room() / 3;
        let further = usize::from(handles) + usize::from(undoes);
        self.goal = end.saturating_sub(share * further);
        if self.random.chance(60) {
            self.way_out(head);
        }
        if head.rank == 0 {
            self.main_work();
        }
        let least = self.random.between(1, 2);
        self.list(least, 10);
        if head.result.is_some() && self.random.chance(90) {
            self.return_value();
        }
        if handles {
            self.goal += share;
            self.put("ERROR");
            self.part.in_error = true;
            self.handler();
            self.part.in_error = false;
        }
        self.goal = end;
        if undoes {
            self.put("UNDO");
            self.part.in_undo = true;
            self.undo();
            self.part.in_undo = false;
        }
    }

    /// A compound statement or a call, so that a run lasts for a while.
    fn main_work(&mut self) {
        if self.random.chance(55) {
            self.compound();
        } else if self.random.chance(80) {
            self.call();
        }
    }

    /// `IF x <= 0 RETURN ..;`, so that recursion comes to an end.
    fn way_out(&mut self, head: &Head) {
        let first = self.scopes.last().and_then(|scope| scope.first().cloned());
        let Some(first) = first.filter(|_| !head.parameters.is_empty()) else {
            return;
        };
        if first.kind != Type::Num {
            return;
        }
        let bound = self.random.below(3);
        self.start_statement(&format!("IF {} <= {bound}", first.name));
        self.return_value();
    }
}
