//! Names, types, constants and limits: refusals 10 to 19.
//!
//! Every violation is noted and the least taken at the end. A checking function
//! hands back `None` for a refused piece, so that whatever needs its type, size
//! or value is left unasked.

use std::collections::{HashMap, HashSet};

use crate::scan::Refusal;
use crate::tree::*;
use crate::value::{self, evaluate, Memory};

const ROUTINE_LIMIT: usize = 64;
const MODULE_WORD_LIMIT: usize = 1_024;
const ROUTINE_WORD_LIMIT: usize = 64;
const LARGEST_ARRAY: i64 = 512;

/// Where a refusal stands in the order of those at one place: by its number, but
/// 19 is "between 10 and 11".
fn standing(number: u32) -> u32 {
    match number {
        19 => 2 * 10 + 1,
        _ => 2 * number,
    }
}

/// Settles every name of a module and finds its first refusal of 10 to 19.
/// The index of main is handed back.
pub fn settle(module: &mut Module) -> Result<usize, Refusal> {
    let mut checker = Checker::new(module);
    checker.module(module);
    let in_order = |refusal: &&Refusal| (refusal.place, standing(refusal.number));
    if let Some(least) = checker.violations.iter().min_by_key(in_order) {
        return Err(*least);
    }
    match checker.module_scope.get("main") {
        Some(Known::Routine(main)) if checker.signatures[*main].is_plain_proc() => Ok(*main),
        _ => Err(Refusal {
            place: 0,
            number: 18,
        }),
    }
}

/// What a declared name is known as.
#[derive(Clone, Copy)]
enum Known {
    Constant { kind: Type, value: Option<i64> },
    Scalar { kind: Type, meaning: Meaning },
    Array { kind: Type, meaning: Meaning },
    LoopVariable(Meaning),
    Errno,
    Routine(usize),
}

/// What a call asks of a routine that may be declared further down.
struct Signature {
    is_func: bool,
    /// The result's type, `None` where it is not to be asked.
    result: Option<Type>,
    /// The parameters' types, `None` for a refused one.
    parameters: Vec<Option<Type>>,
}

impl Signature {
    fn is_plain_proc(&self) -> bool {
        !self.is_func && self.parameters.is_empty()
    }

    fn of(index: usize, routine: &Routine) -> Self {
        let mut declared = HashSet::new();
        let parameters = routine
            .parameters
            .iter()
            .enumerate()
            .map(|(number, parameter)| {
                let name = parameter.name.text.as_str();
                let good = declared.insert(name) && protected(name).is_none();
                // The name that crosses is refused by 16.
                (good && number != ROUTINE_WORD_LIMIT).then_some(parameter.kind)
            });
        let parameters = parameters.collect();
        let result = routine.result.filter(|_| index != ROUTINE_LIMIT);
        Signature {
            is_func: routine.result.is_some(),
            result,
            parameters,
        }
    }
}

/// The names that are known everywhere and cannot be declared anew.
fn protected(name: &str) -> Option<Known> {
    let number = match name {
        "errno" => return Some(Known::Errno),
        "err_overflow" => value::OVERFLOW,
        "err_divzero" => value::DIVZERO,
        "err_outofbnd" => value::OUTOFBND,
        "err_illraise" => value::ILLRAISE,
        _ => return None,
    };
    Some(Known::Constant {
        kind: Type::Num,
        value: Some(number),
    })
}

/// The words that one scope's declarations take, and its limit.
struct Room {
    words: Vec<i64>,
    limit: usize,
    crossed: bool,
}

impl Room {
    fn new(limit: usize) -> Self {
        Room {
            words: Vec::new(),
            limit,
            crossed: false,
        }
    }

    /// Adds words and says whether they are the ones that cross the limit.
    fn add(&mut self, size: usize, start: i64) -> bool {
        self.words.resize(self.words.len() + size, start);
        let crosses = !self.crossed && self.words.len() > self.limit;
        self.crossed |= crosses;
        crosses
    }
}

/// Where an expression stands decides which names it may hold.
#[derive(Clone, Copy, PartialEq)]
enum Use {
    Running,
    Constant,
}

/// The list of a routine that a statement stands in.
#[derive(Clone, Copy, PartialEq)]
enum Within {
    Body,
    Error,
    Undo,
}

/// The part of a routine that a statement stands in.
#[derive(Clone, Copy)]
struct Part {
    result: Option<Type>,
    is_func: bool,
    within: Within,
}

struct Checker {
    violations: Vec<Refusal>,
    signatures: Vec<Signature>,
    module_scope: HashMap<String, Known>,
    /// Parameters and data of the routine being checked, if any.
    routine_scope: Option<HashMap<String, Known>>,
    loops: Vec<(String, Known)>,
    /// Names declared so far in the scope being filled, known or not.
    declared: HashSet<String>,
    room: Room,
}

impl Checker {
    fn new(module: &Module) -> Self {
        let routines = module.routines.iter().enumerate();
        let signatures = routines
            .map(|(index, routine)| Signature::of(index, routine))
            .collect();
        Checker {
            violations: Vec::new(),
            signatures,
            module_scope: routine_names(module),
            routine_scope: None,
            loops: Vec::new(),
            declared: HashSet::new(),
            room: Room::new(MODULE_WORD_LIMIT),
        }
    }

    fn note(&mut self, number: u32, place: usize) {
        self.violations.push(Refusal { place, number });
    }

    fn look_up(&self, name: &str) -> Option<Known> {
        let in_loops = || self.loops.iter().rev().find(|(text, _)| text == name);
        protected(name)
            .or_else(|| in_loops().map(|(_, known)| *known))
            .or_else(|| self.routine_scope.as_ref()?.get(name).copied())
            .or_else(|| self.module_scope.get(name).copied())
    }

    fn look_up_or_note(&mut self, name: &Name) -> Option<Known> {
        let known = self.look_up(&name.text);
        if known.is_none() {
            self.note(11, name.place);
        }
        known
    }
}

/// Routine names are known from the module's first word on, except where data
/// of the same name come first.
fn routine_names(module: &Module) -> HashMap<String, Known> {
    let data: HashSet<&str> = module
        .data
        .iter()
        .map(|data| data.name.text.as_str())
        .collect();
    let mut names = HashMap::new();
    for (index, routine) in module.routines.iter().enumerate() {
        if !data.contains(routine.name.text.as_str()) {
            names
                .entry(routine.name.text.clone())
                .or_insert(Known::Routine(index));
        }
    }
    names
}

/// Declarations.
impl Checker {
    fn module(&mut self, module: &mut Module) {
        for data in &mut module.data {
            self.data(data);
        }
        module.words = std::mem::take(&mut self.room.words);
        for (index, routine) in module.routines.iter().enumerate() {
            self.declare(&routine.name);
            if index == ROUTINE_LIMIT {
                self.note(16, routine.name.place);
            }
        }
        for routine in &mut module.routines {
            self.routine(routine);
        }
    }

    /// Notes a name that is declared twice or protected.
    fn declare(&mut self, name: &Name) {
        let first = self.declared.insert(name.text.clone());
        if !first || protected(&name.text).is_some() {
            self.note(10, name.place);
        }
    }

    /// Makes a name known from here on; its first declaration stays.
    fn know(&mut self, name: &Name, known: Known) {
        let scope = self
            .routine_scope
            .as_mut()
            .unwrap_or(&mut self.module_scope);
        scope.entry(name.text.clone()).or_insert(known);
    }

    /// Takes words for a name and hands back what it means at a run.
    fn take_words(&mut self, name: &Name, size: usize, start: i64) -> Meaning {
        let slot = self.room.words.len();
        if self.room.add(size, start) {
            self.note(16, name.place);
        }
        match self.routine_scope {
            Some(_) => Meaning::Local { slot, size },
            None => Meaning::Module { slot, size },
        }
    }

    fn data(&mut self, data: &mut Data) {
        self.declare(&data.name);
        let kind = data.kind;
        let known = match &mut data.shape {
            Shaped::Constant(expression) => {
                let value = self.constant(expression, kind);
                self.take_words(&data.name, 1, value.unwrap_or(0));
                Known::Constant { kind, value }
            }
            Shaped::Scalar(expression) => {
                let start = expression
                    .as_mut()
                    .and_then(|start| self.constant(start, kind));
                let meaning = self.take_words(&data.name, 1, start.unwrap_or(0));
                Known::Scalar { kind, meaning }
            }
            Shaped::Array(expression) => {
                // A refused size is not counted.
                let size = self.array_size(expression).unwrap_or(0);
                let meaning = self.take_words(&data.name, size, 0);
                Known::Array { kind, meaning }
            }
        };
        self.know(&data.name, known);
    }

    /// The value of a constant expression that must have a type.
    fn constant(&mut self, expression: &mut Expression, kind: Type) -> Option<i64> {
        self.typed(expression, Use::Constant, kind)?;
        let worked = evaluate(expression, Memory::default());
        if worked.is_err() {
            self.note(15, expression.place);
        }
        worked.ok()
    }

    fn array_size(&mut self, expression: &mut Expression) -> Option<usize> {
        let size = self.constant(expression, Type::Num)?;
        if (1..=LARGEST_ARRAY).contains(&size) {
            return Some(size as usize);
        }
        self.note(15, expression.place);
        None
    }

    fn routine(&mut self, routine: &mut Routine) {
        self.routine_scope = Some(HashMap::new());
        self.declared.clear();
        self.room = Room::new(ROUTINE_WORD_LIMIT);
        for parameter in &routine.parameters {
            self.declare(&parameter.name);
            let meaning = self.take_words(&parameter.name, 1, 0);
            self.know(
                &parameter.name,
                Known::Scalar {
                    kind: parameter.kind,
                    meaning,
                },
            );
        }
        for data in &mut routine.data {
            self.data(data);
        }
        let is_func = routine.result.is_some();
        let lists = [
            (Some(&mut routine.body), Within::Body),
            (routine.error.as_mut(), Within::Error),
            (routine.undo.as_mut(), Within::Undo),
        ];
        for (list, within) in lists {
            let part = Part {
                result: routine.result,
                is_func,
                within,
            };
            if let Some(list) = list {
                self.list(list, part);
            }
        }
        routine.words = std::mem::take(&mut self.room.words);
    }
}

/// Statements.
impl Checker {
    fn list(&mut self, list: &mut List, part: Part) {
        for statement in list {
            self.statement(statement, part);
        }
    }

    fn statement(&mut self, statement: &mut Statement, part: Part) {
        let place = statement.place;
        match &mut statement.action {
            Action::Assign(target, right) => self.assign(target, right),
            Action::Compute(target, call) => {
                let wanted = self.target(target);
                self.bar(part.within == Within::Undo, call.callee.place);
                self.call(call, true, wanted);
            }
            Action::Invoke(call) => {
                self.bar(part.within == Within::Undo, call.callee.place);
                self.call(call, false, None);
            }
            Action::Return(value) => self.give_back(place, value.as_mut(), part),
            Action::Raise(value) => self.raise(place, value.as_mut(), part),
            Action::Exit => self.bar(part.within == Within::Undo, place),
            Action::Retry | Action::TryNext => self.bar(part.within != Within::Error, place),
            Action::Write { number, .. } => {
                if let Some(number) = number {
                    self.running(number, Type::Num);
                }
            }
            Action::Read { target, .. } => {
                if self.target(target) == Some(Type::Bool) {
                    self.note(13, target.name.place);
                }
            }
            compound => self.compound(compound, part),
        }
    }

    fn compound(&mut self, action: &mut Action, part: Part) {
        match action {
            Action::CompactIf {
                condition,
                inner: body,
            }
            | Action::While { condition, body } => {
                self.running(condition, Type::Bool);
                self.list(body, part);
            }
            Action::If { arms, otherwise } => {
                for (condition, list) in arms {
                    self.running(condition, Type::Bool);
                    self.list(list, part);
                }
                self.list(otherwise, part);
            }
            Action::For(counted) => self.counted_loop(counted, part),
            Action::Test {
                selector,
                cases,
                default,
            } => {
                self.running(selector, Type::Num);
                for case in cases {
                    self.case(case, part);
                }
                self.list(default, part);
            }
            _ => unreachable!("simple statements are dealt with before"),
        }
    }

    fn case(&mut self, case: &mut Case, part: Part) {
        for value in &mut case.values {
            let number = self.constant(value, Type::Num);
            case.numbers.extend(number);
        }
        self.list(&mut case.body, part);
    }

    fn counted_loop(&mut self, counted: &mut Loop, part: Part) {
        let variable = &mut counted.variable;
        if protected(&variable.text).is_some() {
            self.note(10, variable.place);
        }
        counted.hides = self.look_up(&variable.text).is_some();
        let own = self.routine_scope.as_ref();
        if own.is_some_and(|own| own.contains_key(&variable.text)) {
            self.note(19, variable.place);
        }
        variable.meaning = self.take_words(variable, 1, 0);
        let known = (variable.text.clone(), Known::LoopVariable(variable.meaning));
        self.running(&mut counted.from, Type::Num);
        self.running(&mut counted.to, Type::Num);
        if let Some(step) = &mut counted.step {
            self.running(step, Type::Num);
        }
        // The variable is known in the body only, not in the head.
        self.loops.push(known);
        self.list(&mut counted.body, part);
        self.loops.pop();
    }

    fn bar(&mut self, barred: bool, place: usize) {
        if barred {
            self.note(17, place);
        }
    }

    fn give_back(&mut self, place: usize, value: Option<&mut Expression>, part: Part) {
        let misplaced = part.within == Within::Undo || value.is_some() != part.is_func;
        self.bar(misplaced, place);
        let Some(value) = value else { return };
        match part.result {
            Some(kind) => self.running(value, kind),
            None => _ = self.expression(value, Use::Running),
        }
    }

    fn raise(&mut self, place: usize, value: Option<&mut Expression>, part: Part) {
        let misplaced = match part.within {
            Within::Body => value.is_none(),
            Within::Error => value.is_some(),
            Within::Undo => true,
        };
        self.bar(misplaced, place);
        if let Some(value) = value {
            self.running(value, Type::Num);
        }
    }

    fn assign(&mut self, target: &mut Target, right: &mut Expression) {
        match self.target(target) {
            Some(kind) => self.running(right, kind),
            None => _ = self.expression(right, Use::Running),
        }
    }

    /// The type of a target, `None` where it is refused.
    fn target(&mut self, target: &mut Target) -> Option<Type> {
        let known = self.look_up_or_note(&target.name);
        let indexed = target.index.is_some();
        let index = target
            .index
            .as_mut()
            .map(|index| self.typed(index, Use::Running, Type::Num));
        let kind = match (known?, indexed) {
            (Known::Scalar { kind, meaning }, false) | (Known::Array { kind, meaning }, true) => {
                target.name.meaning = meaning;
                kind
            }
            _ => {
                self.note(12, target.name.place);
                return None;
            }
        };
        // A refused index makes the whole target a refused piece.
        (index != Some(None)).then_some(kind)
    }

    /// A call; `wanted` is the type of the target of its result, if it may be asked.
    fn call(&mut self, call: &mut Call, is_func: bool, wanted: Option<Type>) {
        let place = call.callee.place;
        let known = self.look_up_or_note(&call.callee);
        let types: Vec<_> = call
            .arguments
            .iter_mut()
            .map(|argument| self.expression(argument, Use::Running))
            .collect();
        let Some(known) = known else { return };
        let routine = match known {
            Known::Routine(routine) if self.signatures[routine].is_func == is_func => routine,
            _ => return self.note(12, place),
        };
        call.callee.meaning = Meaning::Routine(routine);
        let signature = &self.signatures[routine];
        let result_differs = differ(signature.result, wanted);
        let count_differs = signature.parameters.len() != types.len();
        let arguments = call.arguments.iter().zip(types).zip(&signature.parameters);
        let wrong: Vec<usize> = arguments
            .filter(|((_, kind), parameter)| differ(*kind, **parameter))
            .map(|((argument, _), _)| argument.place)
            .collect();
        if result_differs {
            self.note(13, place);
        }
        if count_differs {
            self.note(14, place);
        }
        for place in wrong {
            self.note(13, place);
        }
    }
}

/// Whether two types that may both be asked are not the same.
fn differ(one: Option<Type>, other: Option<Type>) -> bool {
    matches!((one, other), (Some(one), Some(other)) if one != other)
}

/// Expressions.
impl Checker {
    /// An expression outside constant expressions that must have a type.
    fn running(&mut self, expression: &mut Expression, wanted: Type) {
        self.typed(expression, Use::Running, wanted);
    }

    /// An expression that must have a type; `None` where it is refused.
    fn typed(
        &mut self,
        expression: &mut Expression,
        place_of_use: Use,
        wanted: Type,
    ) -> Option<()> {
        if self.expression(expression, place_of_use)? != wanted {
            self.note(13, expression.place);
            return None;
        }
        Some(())
    }

    fn expression(&mut self, expression: &mut Expression, used: Use) -> Option<Type> {
        match &mut expression.shape {
            Shape::Number(_) => Some(Type::Num),
            Shape::Truth(_) => Some(Type::Bool),
            Shape::Name(name) => self.value_name(name, used),
            Shape::Element(name, index) => self.element(name, index, used),
            Shape::Not(operand) => self.typed(operand, used, Type::Bool).map(|()| Type::Bool),
            Shape::Signed { operand, .. } => {
                self.typed(operand, used, Type::Num).map(|()| Type::Num)
            }
            Shape::Chain(first, rest) => self.chain(first, rest, used),
        }
    }

    fn value_name(&mut self, name: &mut Name, used: Use) -> Option<Type> {
        let known = self.look_up_or_note(name)?;
        let (meaning, kind) = match known {
            // A constant without a value was refused at its declaration.
            Known::Constant { kind, value } => (Meaning::Value(value?), kind),
            Known::Scalar { kind, meaning } if used == Use::Running => (meaning, kind),
            Known::LoopVariable(meaning) if used == Use::Running => (meaning, Type::Num),
            Known::Errno if used == Use::Running => (Meaning::Errno, Type::Num),
            _ => {
                self.note(12, name.place);
                return None;
            }
        };
        name.meaning = meaning;
        Some(kind)
    }

    fn element(&mut self, name: &mut Name, index: &mut Expression, used: Use) -> Option<Type> {
        let known = self.look_up_or_note(name);
        let index = self.typed(index, used, Type::Num);
        match known? {
            Known::Array { kind, meaning } if used == Use::Running => {
                name.meaning = meaning;
                index.map(|()| kind)
            }
            _ => {
                self.note(12, name.place);
                None
            }
        }
    }

    fn chain(
        &mut self,
        first: &mut Expression,
        rest: &mut [(Operator, Expression)],
        used: Use,
    ) -> Option<Type> {
        match rest[0].0 {
            Operator::Equal | Operator::Unequal => self.equality(first, &mut rest[0].1, used),
            Operator::Or | Operator::Xor | Operator::And => self
                .operands(first, rest, used, Type::Bool)
                .map(|()| Type::Bool),
            Operator::Plus | Operator::Minus | Operator::Times | Operator::Div | Operator::Mod => {
                self.operands(first, rest, used, Type::Num)
                    .map(|()| Type::Num)
            }
            Operator::Less
            | Operator::LessOrEqual
            | Operator::Greater
            | Operator::GreaterOrEqual => self
                .operands(first, rest, used, Type::Num)
                .map(|()| Type::Bool),
        }
    }

    /// Judges each operand by itself.
    fn operands(
        &mut self,
        first: &mut Expression,
        rest: &mut [(Operator, Expression)],
        used: Use,
        wanted: Type,
    ) -> Option<()> {
        let mut all = self.typed(first, used, wanted);
        for (_, operand) in rest {
            let one = self.typed(operand, used, wanted);
            all = all.and(one);
        }
        all
    }

    fn equality(
        &mut self,
        left: &mut Expression,
        right: &mut Expression,
        used: Use,
    ) -> Option<Type> {
        let left = self.expression(left, used);
        let kind = self.expression(right, used);
        if left? != kind? {
            self.note(13, right.place);
            return None;
        }
        Some(Type::Bool)
    }
}
