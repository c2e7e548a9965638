//! The run of an accepted module, one step after another.

use crate::counts::{Counts, Event};
use crate::tree::*;
use crate::value::{element, evaluate, in_range, Memory, DIVZERO, ILLRAISE, OUTOFBND, OVERFLOW};

/// What a run is allowed and lent.
pub struct Allowance<'a> {
    pub steps: u32,
    pub depth: u32,
    pub inputs: &'a [i32],
    pub output_room: u64,
    pub abort: Option<Abort>,
    pub slip: Option<Slip>,
}

/// Classroom slips that another simulator may have (request 14); the program has none.
#[derive(Clone, Copy, Debug, PartialEq, Eq)]
pub enum Slip {
    /// TRYNEXT goes on behind the statement that failed, in the routine that is dropped.
    TryNextInDropped,
    /// RETRY begins the routine of the ERROR list again.
    RetryFromStart,
    /// An error in an ERROR list goes to the caller's.
    ErrorInErrorHandedOn,
}

/// Request 6: the pointer is moved to main where the run has made `at` steps; the
/// UNDO lists then have `undo` steps.
#[derive(Clone, Copy, Debug, PartialEq, Eq)]
pub struct Abort {
    pub at: u32,
    pub undo: u32,
}

/// How a run ended and what it left.
pub struct Run {
    pub ending: u32,
    pub place: usize,
    pub steps: u64,
    pub errno: i64,
    pub inputs_used: usize,
    pub output: Vec<u8>,
    pub words: Vec<i64>,
    pub counts: Counts,
    pub places: Vec<usize>,
}

pub fn run(module: &Module, main: usize, allowance: &Allowance) -> Run {
    let mut machine = Machine {
        module,
        allowance,
        calls: Vec::new(),
        words: module.words.clone(),
        errno: 0,
        steps: 0,
        inputs_used: 0,
        output: Vec::new(),
        counts: Counts::default(),
        places: Vec::new(),
    };
    machine.enter(main, &[], None);
    let (ending, place) = machine.go();
    Run {
        ending,
        place,
        steps: machine.steps,
        errno: machine.errno,
        inputs_used: machine.inputs_used,
        output: machine.output,
        words: machine.words,
        counts: machine.counts,
        places: machine.places,
    }
}

/// A list being worked through. `at` stays on a statement until that is done,
/// so it is the failed statement when an error arrives.
struct Level<'m> {
    list: &'m [Statement],
    at: usize,
    repeat: Repeat<'m>,
}

/// What happens at the end of a level's list.
#[derive(Clone, Copy)]
enum Repeat<'m> {
    /// The routine's own list.
    Never,
    /// The chosen list of an IF, compact IF or TEST.
    Leave,
    /// The body of a WHILE.
    Test,
    /// The body of a FOR.
    Count {
        statement: &'m Statement,
        variable: usize,
        last: i64,
        step: i64,
    },
}

impl Repeat<'_> {
    fn is_loop(&self) -> bool {
        matches!(self, Repeat::Test | Repeat::Count { .. })
    }
}

/// A word that gets a value.
#[derive(Clone, Copy)]
enum Slot {
    Module(usize),
    Local(usize),
}

struct Live<'m> {
    routine: &'m Routine,
    words: Vec<i64>,
    levels: Vec<Level<'m>>,
    /// Where the routine's list stood when its error came; `Some` in its ERROR list.
    failed: Option<Vec<Level<'m>>>,
    /// The calls above it that its error dropped; only a simulator with a slip takes them up.
    dropped: Vec<Live<'m>>,
    /// Whether it is dropped and runs its UNDO list.
    undoing: bool,
    /// The caller's word that gets the result of a FUNC.
    result: Option<Slot>,
}

#[derive(Clone, Copy)]
enum Next<'m> {
    Statement(&'m Statement),
    Count(&'m Statement),
    ListEnd(usize),
}

impl Next<'_> {
    fn place(&self) -> usize {
        match self {
            Next::Statement(statement) | Next::Count(statement) => statement.place,
            Next::ListEnd(place) => *place,
        }
    }
}

/// Why a step does not simply lead to the next one.
enum Halt {
    /// An error arose in the step's statement.
    Error(i64),
    /// A plain RAISE hands its error to the caller.
    HandOn,
    Ending(u32, usize),
}

impl From<i64> for Halt {
    fn from(error: i64) -> Self {
        Halt::Error(error)
    }
}

type Done = Result<(), Halt>;

struct Machine<'m> {
    module: &'m Module,
    allowance: &'m Allowance<'m>,
    /// The live calls, main first.
    calls: Vec<Live<'m>>,
    words: Vec<i64>,
    errno: i64,
    steps: u64,
    inputs_used: usize,
    output: Vec<u8>,
    counts: Counts,
    /// The place of each counted step.
    places: Vec<usize>,
}

impl<'m> Level<'m> {
    fn start(list: &'m [Statement], repeat: Repeat<'m>) -> Self {
        Level {
            list,
            at: 0,
            repeat,
        }
    }
}

/// From step to step.
impl<'m> Machine<'m> {
    /// Runs to the end and hands back the ending with its offset.
    fn go(&mut self) -> (u32, usize) {
        loop {
            let next = self.next();
            if let Some(abort) = self.struck() {
                return self.undo_all(abort.undo);
            }
            if self.steps == u64::from(self.allowance.steps) {
                return (5, next.place());
            }
            let done = self.perform(next);
            if let Err(Halt::Ending(ending @ 6..=8, place)) = done {
                return (ending, place);
            }
            self.steps += 1;
            self.places.push(next.place());
            let settled = match done {
                Ok(()) => Ok(()),
                Err(Halt::Error(number)) => {
                    self.count_failed(next);
                    self.raise(number, next.place())
                }
                Err(Halt::HandOn) => {
                    self.counts.add(Event::HandedOn);
                    self.calls.pop();
                    self.raise(self.errno, next.place())
                }
                Err(Halt::Ending(ending, place)) => Err((ending, place)),
            };
            if let Err(ending) = settled {
                return ending;
            }
        }
    }

    /// Counts by its form a statement that an error arose in.
    fn count_failed(&mut self, next: Next<'m>) {
        let Next::Statement(statement) = next else {
            return;
        };
        self.counts.add(match &statement.action {
            Action::If { .. } | Action::CompactIf { .. } | Action::Test { .. } => {
                Event::FailedChoice
            }
            Action::While { .. } => Event::FailedWhile,
            Action::For(_) => Event::FailedFor,
            Action::Compute(..) | Action::Invoke(_) => Event::FailedCall,
            Action::Return(_) => Event::FailedReturn,
            Action::Write { .. } => Event::FailedWrite,
            Action::Read { .. } => Event::FailedRead,
            _ => return,
        });
    }

    fn live(&mut self) -> &mut Live<'m> {
        self.calls
            .last_mut()
            .expect("main is live until the run ends")
    }

    fn level(&mut self) -> &mut Level<'m> {
        self.live()
            .levels
            .last_mut()
            .expect("a live call has a list")
    }

    /// Leaves lists that are done and finds the next step.
    fn next(&mut self) -> Next<'m> {
        loop {
            let level = self.level();
            if let Some(statement) = level.list.get(level.at) {
                return Next::Statement(statement);
            }
            match level.repeat {
                Repeat::Never => return Next::ListEnd(self.list_end()),
                Repeat::Count { statement, .. } => return Next::Count(statement),
                Repeat::Leave => self.leave(),
                // The level below still stands on the WHILE.
                Repeat::Test => _ = self.live().levels.pop(),
            }
        }
    }

    fn list_end(&mut self) -> usize {
        let live = self.live();
        let ends = &live.routine.ends;
        if live.undoing {
            ends.undo
        } else if live.failed.is_some() {
            ends.error
        } else {
            ends.body
        }
    }

    /// Leaves the list on top and goes on after the statement it belongs to.
    fn leave(&mut self) {
        self.live().levels.pop();
        self.level().at += 1;
    }

    fn begin(&mut self, list: &'m [Statement], repeat: Repeat<'m>) {
        if repeat.is_loop() {
            self.count_loop();
        }
        self.live().levels.push(Level::start(list, repeat));
    }

    /// Counts a loop that begins inside another one, or in an ERROR or UNDO list.
    fn count_loop(&mut self) {
        let live = self.live();
        let in_loop = live.levels.iter().any(|level| level.repeat.is_loop());
        let in_error = live.failed.is_some() && !live.undoing;
        let in_undo = live.undoing;
        if in_loop {
            self.counts.add(Event::LoopInLoop);
        }
        if in_error {
            self.counts.add(Event::LoopInError);
        }
        if in_undo {
            self.counts.add(Event::LoopInUndo);
        }
    }

    fn perform(&mut self, next: Next<'m>) -> Done {
        match next {
            Next::Statement(statement) => self.statement(statement),
            Next::Count(_) => {
                self.count();
                Ok(())
            }
            Next::ListEnd(place) if self.live().routine.result.is_some() => {
                Err(Halt::Ending(4, place))
            }
            Next::ListEnd(_) => self.give_back(None),
        }
    }

    /// Hands an error to the nearest live call that has an ERROR list.
    fn raise(&mut self, number: i64, place: usize) -> Result<(), (u32, usize)> {
        self.errno = number;
        self.counts.add(event_of(number));
        let handed_on = self.allowance.slip == Some(Slip::ErrorInErrorHandedOn);
        let takes =
            |live: &Live| live.routine.error.is_some() && !(handed_on && live.failed.is_some());
        let kept = self.calls.iter().rposition(takes).map_or(0, |at| at + 1);
        let dropped = self.calls.split_off(kept);
        for live in &dropped {
            self.counts.add(Event::RoutineDropped);
            if live.routine.undo.is_some() {
                self.counts.add(Event::UndoPassedOver);
            }
        }
        if self.calls.last().is_some_and(|live| live.failed.is_some()) {
            self.counts.add(Event::ErrorInError);
        }
        let Some(live) = self.calls.last_mut().filter(|live| live.failed.is_none()) else {
            return Err((3, place));
        };
        self.counts.add(Event::Handled);
        if !dropped.is_empty() {
            self.counts.add(Event::HandledAbove);
        }
        let list = live.routine.error.as_ref().expect("the others are dropped");
        let handler = vec![Level::start(list, Repeat::Never)];
        live.failed = Some(std::mem::replace(&mut live.levels, handler));
        live.dropped = dropped;
        Ok(())
    }
}

/// The pointer moved to main.
impl<'m> Machine<'m> {
    /// Whether the run, had it this many steps and no more, would end here with 5.
    fn struck(&self) -> Option<Abort> {
        self.allowance
            .abort
            .filter(|abort| abort.at <= self.allowance.steps && u64::from(abort.at) == self.steps)
    }

    /// Drops every live call, the innermost first; each runs any UNDO list it has.
    fn undo_all(&mut self, steps: u32) -> (u32, usize) {
        self.counts.add(Event::Struck);
        let mut left = steps;
        while let Some(live) = self.calls.last_mut() {
            if let Some(list) = &live.routine.undo {
                live.levels = vec![Level::start(list, Repeat::Never)];
                live.undoing = true;
                self.count_undo();
                if let Err(ending) = self.undo_list(&mut left) {
                    return ending;
                }
            } else {
                self.counts.add(Event::DroppedWithoutUndo);
            }
            self.calls.pop();
        }
        (9, 0)
    }

    /// Runs the UNDO list on top to its end, or to an error, which ends it.
    fn undo_list(&mut self, left: &mut u32) -> Result<(), (u32, usize)> {
        loop {
            let next = self.next();
            if *left == 0 {
                return Err((10, next.place()));
            }
            let is_end = matches!(next, Next::ListEnd(_));
            // The end of the list does nothing, in a FUNC too.
            let done = if is_end { Ok(()) } else { self.perform(next) };
            let error = match done {
                Ok(()) => None,
                Err(Halt::Error(number)) => Some(number),
                Err(Halt::Ending(ending @ 7..=8, place)) => {
                    self.counts.add(match ending {
                        7 => Event::NoInputInUndo,
                        _ => Event::NoRoomInUndo,
                    });
                    return Err((ending, place));
                }
                Err(_) => unreachable!("rule 17 bars calls and what leaves a list"),
            };
            *left -= 1;
            self.steps += 1;
            if let Some(number) = error {
                self.errno = number;
                self.counts.add(Event::ErrorInUndo);
            }
            if is_end {
                self.counts.add(Event::UndoDone);
            }
            if is_end || error.is_some() {
                return Ok(());
            }
        }
    }

    /// Counts an UNDO list that begins.
    fn count_undo(&mut self) {
        let live = self.live();
        let (in_error, of_func) = (live.failed.is_some(), live.routine.result.is_some());
        self.counts.add(Event::UndoBegun);
        if in_error {
            self.counts.add(Event::UndoInError);
        }
        if of_func {
            self.counts.add(Event::UndoOfFunction);
        }
    }
}

fn is_compound(statement: &Statement) -> bool {
    matches!(
        statement.action,
        Action::CompactIf { .. }
            | Action::If { .. }
            | Action::Test { .. }
            | Action::While { .. }
            | Action::For(_)
    )
}

/// What is counted of an error.
fn event_of(number: i64) -> Event {
    match number {
        OVERFLOW => Event::Overflow,
        DIVZERO => Event::DivisionByZero,
        OUTOFBND => Event::OutOfBounds,
        ILLRAISE => Event::IllegalRaise,
        _ => Event::OwnError,
    }
}

/// Calls and values.
impl<'m> Machine<'m> {
    fn enter(&mut self, index: usize, arguments: &[i64], result: Option<Slot>) {
        let routine = &self.module.routines[index];
        let mut words = routine.words.clone();
        words[..arguments.len()].copy_from_slice(arguments);
        let levels = vec![Level::start(&routine.body, Repeat::Never)];
        self.calls.push(Live {
            routine,
            words,
            levels,
            failed: None,
            dropped: Vec::new(),
            undoing: false,
            result,
        });
    }

    /// Returns from the routine on top, with the value of a FUNC.
    fn give_back(&mut self, value: Option<i64>) -> Done {
        let Some(live) = self.calls.pop() else {
            unreachable!("a step belongs to a live call");
        };
        self.counts.add(Event::Return);
        if live.levels.iter().any(|level| level.repeat.is_loop()) {
            self.counts.add(Event::ReturnInLoop);
        }
        if self.calls.is_empty() {
            return Err(Halt::Ending(1, 0));
        }
        if let (Some(slot), Some(value)) = (live.result, value) {
            self.store(slot, value);
        }
        self.level().at += 1;
        Ok(())
    }

    fn store(&mut self, slot: Slot, value: i64) {
        match slot {
            Slot::Module(slot) => self.words[slot] = value,
            Slot::Local(slot) => self.live().words[slot] = value,
        }
    }

    fn evaluate(&self, expression: &Expression) -> Result<i64, Halt> {
        let local = self.calls.last().map_or(&[][..], |live| &live.words);
        let memory = Memory {
            module: &self.words,
            local,
            errno: self.errno,
        };
        Ok(evaluate(expression, memory)?)
    }

    /// Works out a target's index and finds its word.
    fn slot(&self, target: &Target) -> Result<Slot, Halt> {
        let distance = match &target.index {
            Some(index) => element(&target.name, self.evaluate(index)?)? as usize,
            None => 0,
        };
        match target.name.meaning {
            Meaning::Module { slot, .. } => Ok(Slot::Module(slot + distance)),
            Meaning::Local { slot, .. } => Ok(Slot::Local(slot + distance)),
            _ => unreachable!("another target is refused by rule 12"),
        }
    }

    fn call(&mut self, call: &Call, result: Option<Slot>) -> Done {
        let arguments: Result<Vec<_>, _> = call
            .arguments
            .iter()
            .map(|argument| self.evaluate(argument))
            .collect();
        let arguments = arguments?;
        if self.calls.len() >= self.allowance.depth as usize {
            return Err(Halt::Ending(6, call.callee.place));
        }
        let Meaning::Routine(index) = call.callee.meaning else {
            unreachable!("another callee is refused by rule 12");
        };
        self.count_call(index, result.is_some());
        self.enter(index, &arguments, result);
        Ok(())
    }

    fn count_call(&mut self, index: usize, of_function: bool) {
        let routine = &self.module.routines[index];
        let again = |live: &Live| std::ptr::eq(live.routine, routine);
        let is_live = self.calls.iter().any(again);
        let in_error = self.live().failed.is_some();
        self.counts.add(Event::Call);
        for (happened, event) in [
            (of_function, Event::FunctionCall),
            (is_live, Event::CallAgain),
            (in_error, Event::CallInError),
        ] {
            if happened {
                self.counts.add(event);
            }
        }
    }
}

/// Statements.
impl<'m> Machine<'m> {
    fn statement(&mut self, statement: &'m Statement) -> Done {
        match &statement.action {
            Action::Compute(target, call) => {
                let slot = self.slot(target)?;
                return self.call(call, Some(slot));
            }
            Action::Invoke(call) => return self.call(call, None),
            Action::Return(None) => return self.give_back(None),
            Action::Return(Some(value)) => {
                let value = self.evaluate(value)?;
                return self.give_back(Some(value));
            }
            Action::Raise(None) => return Err(Halt::HandOn),
            Action::Raise(Some(value)) => {
                let value = self.evaluate(value)?;
                let legal = (1..=90).contains(&value);
                return Err(Halt::Error(if legal { value } else { ILLRAISE }));
            }
            Action::Exit => return Err(Halt::Ending(2, statement.place)),
            Action::Retry => {
                self.counts.add(Event::Retry);
                self.resume();
                if self.allowance.slip == Some(Slip::RetryFromStart) {
                    let live = self.live();
                    live.levels = vec![Level::start(&live.routine.body, Repeat::Never)];
                }
                let level = self.level();
                if level.list.get(level.at).is_some_and(is_compound) {
                    self.counts.add(Event::RetryOfCompound);
                }
            }
            Action::TryNext => {
                self.counts.add(Event::TryNext);
                self.resume();
                if self.allowance.slip == Some(Slip::TryNextInDropped) {
                    let dropped = std::mem::take(&mut self.live().dropped);
                    self.calls.extend(dropped);
                }
                if self.level().repeat.is_loop() {
                    self.counts.add(Event::TryNextInLoop);
                }
                self.level().at += 1;
            }
            Action::Assign(..) | Action::Write { .. } | Action::Read { .. } => {
                self.plain(statement)?;
                self.level().at += 1;
            }
            _ => return self.compound(statement),
        }
        Ok(())
    }

    /// Leaves the ERROR list for the failed statement.
    fn resume(&mut self) {
        let live = self.live();
        live.levels = live.failed.take().expect("rule 17 bars this outside ERROR");
    }

    /// The statements that change words, input or output and simply go on.
    fn plain(&mut self, statement: &Statement) -> Done {
        match &statement.action {
            Action::Assign(target, right) => {
                let slot = self.slot(target)?;
                let value = self.evaluate(right)?;
                self.counts.add(Event::Assignment);
                if target.index.is_some() {
                    self.counts.add(Event::ElementStored);
                }
                self.store(slot, value);
            }
            Action::Write { string, number } => {
                let mut line = string.clone();
                if let Some(number) = number {
                    line.extend(self.evaluate(number)?.to_string().bytes());
                }
                self.check_room(&line, statement.place)?;
                self.write_line(&line);
            }
            Action::Read { target, string } => {
                let slot = self.slot(target)?;
                self.check_room(string, statement.place)?;
                let Some(input) = self.allowance.inputs.get(self.inputs_used) else {
                    return Err(Halt::Ending(7, statement.place));
                };
                self.write_line(string);
                self.inputs_used += 1;
                self.counts.add(Event::InputTaken);
                let input = i64::from(*input);
                if !in_range(input) {
                    return Err(Halt::Error(OVERFLOW));
                }
                self.store(slot, input);
            }
            _ => unreachable!("not a plain statement"),
        }
        Ok(())
    }

    fn check_room(&self, line: &[u8], place: usize) -> Done {
        let needed = self.output.len() as u64 + line.len() as u64 + 1;
        if needed > self.allowance.output_room {
            return Err(Halt::Ending(8, place));
        }
        Ok(())
    }

    fn write_line(&mut self, line: &[u8]) {
        self.output.extend_from_slice(line);
        self.output.push(b'\n');
        self.counts.add(Event::Line);
    }

    fn compound(&mut self, statement: &'m Statement) -> Done {
        match &statement.action {
            Action::CompactIf { condition, inner } => {
                let holds = self.evaluate(condition)? == 1;
                self.counts.add(Event::Choice);
                if holds {
                    self.begin(inner, Repeat::Leave);
                } else {
                    self.level().at += 1;
                }
            }
            Action::If { arms, otherwise } => {
                let chosen = self.choose_arm(arms, otherwise)?;
                self.counts.add(Event::Choice);
                self.begin(chosen, Repeat::Leave);
            }
            Action::Test {
                selector,
                cases,
                default,
            } => {
                let number = self.evaluate(selector)?;
                let matching = cases.iter().find(|case| case.numbers.contains(&number));
                self.counts.add(Event::Choice);
                if matching.is_some() {
                    self.counts.add(Event::CaseTaken);
                }
                self.begin(matching.map_or(default, |case| &case.body), Repeat::Leave);
            }
            Action::While { condition, body } => {
                let holds = self.evaluate(condition)? == 1;
                self.counts.add(Event::WhileTest);
                if holds {
                    self.counts.add(Event::WhileRound);
                    self.begin(body, Repeat::Test);
                } else {
                    self.level().at += 1;
                }
            }
            Action::For(counted) => self.head(statement, counted)?,
            _ => unreachable!("not a compound statement"),
        }
        Ok(())
    }

    fn choose_arm(
        &self,
        arms: &'m [(Expression, List)],
        otherwise: &'m List,
    ) -> Result<&'m List, Halt> {
        for (condition, list) in arms {
            if self.evaluate(condition)? == 1 {
                return Ok(list);
            }
        }
        Ok(otherwise)
    }

    /// A FOR head with its first test.
    fn head(&mut self, statement: &'m Statement, counted: &'m Loop) -> Done {
        let start = self.evaluate(&counted.from)?;
        let last = self.evaluate(&counted.to)?;
        let step = match &counted.step {
            Some(step) => self.evaluate(step)?,
            None => self.unwritten_step(start, last),
        };
        let Meaning::Local { slot: variable, .. } = counted.variable.meaning else {
            unreachable!("a FOR variable is a word of its routine");
        };
        self.counts.add(Event::ForHead);
        if counted.hides {
            self.counts.add(Event::ForHides);
        }
        if goes_on(start, last, step) {
            self.counts.add(Event::ForRound);
            self.store(Slot::Local(variable), start);
            self.begin(
                &counted.body,
                Repeat::Count {
                    statement,
                    variable,
                    last,
                    step,
                },
            );
        } else {
            self.level().at += 1;
        }
        Ok(())
    }

    /// Request 1: without STEP a FOR goes up, but down from a start above its end.
    fn unwritten_step(&mut self, start: i64, last: i64) -> i64 {
        if start > last {
            self.counts.add(Event::ForTurned);
            -1
        } else {
            1
        }
    }

    /// A later FOR test.
    fn count(&mut self) {
        let Repeat::Count {
            variable,
            last,
            step,
            ..
        } = self.level().repeat
        else {
            unreachable!("only the body of a FOR is counted");
        };
        let sum = self.live().words[variable] + step;
        if goes_on(sum, last, step) {
            self.counts.add(Event::ForRound);
            self.store(Slot::Local(variable), sum);
            self.level().at = 0;
        } else {
            self.leave();
        }
    }
}

fn goes_on(value: i64, last: i64, step: i64) -> bool {
    if step >= 0 {
        value <= last
    } else {
        value >= last
    }
}
