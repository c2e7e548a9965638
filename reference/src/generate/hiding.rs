//! Modules about the names of FOR variables. Module, routines and loops take their names from one small pool, so that most loops hide module data, a routine or a loop around
//! them; some are named like a parameter or data of their routine, which is refused.

use super::chains::mark_starts;
use super::layout::{tokens, Token};
use super::random::Random;

const NAMES: [&str; 5] = ["i", "j", "k", "Count", "t_2"];
/// Each calls only those behind it.
const ROUTINES: [&str; 3] = ["main", "q", "f"];
const PROTECTED: [&str; 3] = ["ERRNO", "err_divzero", "ERR_OVERFLOW"];
const DEEPEST_NEST: usize = 4;
/// ERROR lists go on, mostly with what failed.
const MENDING: [&str; 4] = [
    "d := d + 1 ; IF d < 5 RETRY ; TRYNEXT ;",
    "d := 3 ; TRYNEXT ;",
    "IF d = 0 THEN d := 2 ; RETRY ; ENDIF TRYNEXT ;",
    "TRYNEXT ;",
];

/// What a name means where a statement stands.
#[derive(Clone, Copy, PartialEq)]
enum Form {
    Loop,
    Variable,
    Constant,
    Truth,
    Array,
    Routine(usize),
    Unknown,
}

type Scope = Vec<(&'static str, Form)>;

struct Hiding<'r> {
    random: &'r mut Random,
    text: String,
    module: Scope,
    /// Parameters and data of the routine being written.
    own: Scope,
    loops: Vec<&'static str>,
    parameters: [Vec<&'static str>; ROUTINES.len()],
    routine: usize,
    /// A loop may be named like what is its routine's own.
    careless: bool,
    nest: usize,
}

/// The words of a module of loops that hide.
pub fn hiding(random: &mut Random) -> Vec<Token> {
    let careless = random.chance(40);
    let mut hiding = Hiding {
        random,
        text: "MODULE hide VAR num n ; VAR num d := 2 ; ".to_string(),
        module: Vec::new(),
        own: Vec::new(),
        loops: Vec::new(),
        parameters: Default::default(),
        routine: 0,
        careless,
        nest: 0,
    };
    for name in NAMES {
        if hiding.random.chance(60) {
            let form = hiding.declaration(name);
            hiding.module.push((name, form));
        }
    }
    for routine in 1..ROUTINES.len() {
        let first = hiding.random.below(NAMES.len());
        let count = hiding.random.between(1, 2);
        hiding.parameters[routine] = (0..count)
            .map(|number| NAMES[(first + 2 * number) % NAMES.len()])
            .collect();
    }
    for routine in 0..ROUTINES.len() {
        hiding.routine(routine);
    }
    hiding.put("ENDMODULE");
    mark_starts(tokens(&hiding.text))
}

/// Names and what they mean.
impl Hiding<'_> {
    fn put(&mut self, words: &str) {
        self.text += words;
        self.text.push(' ');
    }

    fn meaning(&self, name: &str) -> Form {
        if self.loops.contains(&name) {
            return Form::Loop;
        }
        let declared = self.own.iter().chain(&self.module);
        let found = declared.into_iter().find(|(other, _)| *other == name);
        let routine = ROUTINES.iter().position(|other| *other == name);
        found
            .map(|(_, form)| *form)
            .or(routine.map(Form::Routine))
            .unwrap_or(Form::Unknown)
    }

    fn known_as(&self, wanted: impl Fn(Form) -> bool) -> Vec<&'static str> {
        let names = NAMES.into_iter().chain(ROUTINES);
        names.filter(|name| wanted(self.meaning(name))).collect()
    }

    /// The name of a loop: one that is its routine's own only where the module is careless.
    fn loop_name(&mut self) -> &'static str {
        let own: Vec<&str> = self.own.iter().map(|(name, _)| *name).collect();
        if self.careless && self.random.chance(2) {
            return self.random.pick(&PROTECTED);
        }
        if self.careless && !own.is_empty() && self.random.chance(12) {
            return self.random.pick(&own);
        }
        // A loop around is hidden most often.
        let around = self.loops.last().copied();
        if let Some(around) = around.filter(|_| self.random.chance(30)) {
            return around;
        }
        let others = NAMES.into_iter().chain(ROUTINES);
        let free: Vec<&str> = others.filter(|name| !own.contains(name)).collect();
        self.random.pick(&free)
    }

    /// Something of num that is known here.
    fn value(&mut self) -> String {
        let scalars =
            self.known_as(|form| matches!(form, Form::Loop | Form::Variable | Form::Constant));
        let arrays = self.known_as(|form| form == Form::Array);
        if !arrays.is_empty() && self.random.chance(15) {
            let array = self.random.pick(&arrays);
            return format!("{array} {{ d }}");
        }
        if scalars.is_empty() || self.random.chance(10) {
            return self.random.pick(&["n", "d", "3"]).to_string();
        }
        self.random.pick(&scalars).to_string()
    }
}

/// Declarations and routines.
impl Hiding<'_> {
    fn declaration(&mut self, name: &str) -> Form {
        let number = self.random.between(1, 9);
        let (words, form) = match self.random.weighted(&[45, 20, 12, 23]) {
            0 => (format!("VAR num {name} := {number} ;"), Form::Variable),
            1 => (format!("CONST num {name} := {number} ;"), Form::Constant),
            2 => (format!("VAR bool {name} ;"), Form::Truth),
            _ => (format!("VAR num {name} {{ {number} }} ;"), Form::Array),
        };
        self.put(&words);
        form
    }

    fn routine(&mut self, routine: usize) {
        self.routine = routine;
        let kind = ["PROC", "PROC", "FUNC num"][routine];
        self.put(&format!("{kind} {} (", ROUTINES[routine]));
        let parameters = self.parameters[routine].clone();
        let listed: Vec<String> = parameters
            .iter()
            .map(|name| format!("num {name}"))
            .collect();
        self.put(&format!("{} )", listed.join(" , ")));
        self.own = parameters
            .iter()
            .map(|name| (*name, Form::Variable))
            .collect();
        for name in NAMES {
            if !parameters.contains(&name) && self.random.chance(25) {
                let form = self.declaration(name);
                self.own.push((name, form));
            }
        }
        self.crowd();
        // main does most of the work
        let least = [2, 1, 1][routine];
        for _ in 0..self.random.between(least, least + 1) {
            self.for_loop();
        }
        if routine == 2 {
            let value = self.value();
            self.put(&format!("RETURN {value} ;"));
        }
        if self.random.chance(50) {
            self.put("ERROR");
            if self.random.chance(50) {
                self.for_loop();
            }
            let mending = self.random.pick(&MENDING);
            self.put(mending);
        }
        self.put(if routine == 2 { "ENDFUNC" } else { "ENDPROC" });
    }

    /// Leaves few words or none for the loops.
    fn crowd(&mut self) {
        if self.random.chance(4) {
            let size = self.random.between(52, 64);
            self.put(&format!("VAR num many {{ {size} }} ;"));
        }
    }
}

/// Statements.
impl Hiding<'_> {
    fn for_loop(&mut self) {
        let name = self.loop_name();
        let ends = self.random.pick(&[
            "1 TO 2", "1 TO 3", "2 TO 1", "3 TO 3", "0 TO 2", "1 TO d", "d TO 3",
        ]);
        if self.random.chance(15) {
            let (start, end) = (self.value(), self.value());
            self.put(&format!("FOR {name} FROM {start} MOD 4 TO {end} MOD 4 DO"));
        } else {
            self.put(&format!("FOR {name} FROM {ends} DO"));
        }
        self.nest += 1;
        self.loops.push(name);
        for _ in 0..self.random.between(1, 2) {
            self.inner();
        }
        self.loops.pop();
        self.nest -= 1;
        self.put("ENDFOR");
    }

    fn inner(&mut self) {
        if self.nest < DEEPEST_NEST && self.random.chance(30) {
            return self.compound();
        }
        let value = self.value();
        let words = match self.random.weighted(&[40, 15, 15, 10, 12, 8]) {
            0 => format!("n := ( n * 10 + {value} ) MOD 99991 ;"),
            1 => format!("TPWrite \"\" \\ num := {value} ;"),
            2 => {
                let targets = self.known_as(|form| form == Form::Variable);
                let target = targets.first().copied().unwrap_or("d");
                format!("{target} := {value} MOD 7 ;")
            }
            3 => {
                let arrays = self.known_as(|form| form == Form::Array);
                let array = arrays
                    .last()
                    .map_or("n".to_string(), |name| format!("{name} {{ d }}"));
                format!("{array} := n ;")
            }
            4 => self.call(&value),
            _ => "d := d - 1 ; n := n + 6 DIV d ;".to_string(),
        };
        self.put(&words);
    }

    /// A call of a routine behind this one, where its name is not hidden.
    fn call(&mut self, value: &str) -> String {
        let later = self.routine + 1;
        let callees =
            self.known_as(|form| matches!(form, Form::Routine(number) if number >= later));
        let Some(name) = callees.first().filter(|_| !self.loops.is_empty()) else {
            return format!("n := {value} ;");
        };
        let Form::Routine(number) = self.meaning(name) else {
            unreachable!("only routines are called");
        };
        let arguments = vec![value; self.parameters[number].len()].join(" , ");
        match number {
            2 => format!("n := {name} ( {arguments} ) ;"),
            _ => format!("{name} {arguments} ;"),
        }
    }

    fn compound(&mut self) {
        self.nest += 1;
        match self.random.weighted(&[60, 15, 15, 10]) {
            0 => {
                self.nest -= 1;
                return self.for_loop();
            }
            1 => {
                let value = self.value();
                self.put(&format!("IF {value} > 1 THEN"));
                self.for_loop();
                self.put("ELSE");
                self.inner();
                self.put("ENDIF");
            }
            2 => {
                let value = self.value();
                self.put(&format!("TEST {value} CASE 1 , 3 :"));
                self.inner();
                self.put("DEFAULT :");
                self.for_loop();
                self.put("ENDTEST");
            }
            _ => {
                self.put("d := 3 ; WHILE d > 1 DO d := d - 1 ;");
                self.for_loop();
                self.put("d := d - 1 ; ENDWHILE");
            }
        }
        self.nest -= 1;
    }
}
