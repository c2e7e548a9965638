//! What a run came across, counted: whether generated modules do what real ones do.

/// Something that a run does.
#[derive(Clone, Copy)]
pub enum Event {
    Assignment,
    ElementStored,
    Line,
    InputTaken,
    Choice,
    CaseTaken,
    WhileTest,
    WhileRound,
    ForHead,
    ForTurned,
    ForHides,
    ForRound,
    LoopInLoop,
    Call,
    FunctionCall,
    CallAgain,
    Return,
    ReturnInLoop,
    Overflow,
    DivisionByZero,
    OutOfBounds,
    IllegalRaise,
    OwnError,
    Handled,
    RoutineDropped,
    HandledAbove,
    HandedOn,
    Retry,
    TryNext,
    FailedChoice,
    FailedWhile,
    FailedFor,
    FailedCall,
    FailedReturn,
    FailedWrite,
    FailedRead,
    RetryOfCompound,
    TryNextInLoop,
    ErrorInError,
    CallInError,
    LoopInError,
    UndoPassedOver,
    Struck,
    UndoBegun,
    UndoOfFunction,
    UndoInError,
    DroppedWithoutUndo,
    ErrorInUndo,
    LoopInUndo,
    UndoDone,
    NoInputInUndo,
    NoRoomInUndo,
    ListingEqual,
    EntryDiffers,
    EntryMissing,
    EntrySurplus,
    PartWord,
}

const NAMES: [&str; 57] = [
    "assignment",
    "element of an array stored",
    "line written",
    "input taken",
    "choice of an IF or TEST",
    "CASE taken",
    "WHILE test",
    "WHILE round",
    "FOR head",
    "FOR head without STEP that counts down",
    "FOR head whose variable hides something",
    "FOR round",
    "loop entered in a loop (a WHILE at each round)",
    "call",
    "call of a FUNC",
    "call of a routine that is live",
    "return",
    "return from inside a loop",
    "ERR_OVERFLOW",
    "ERR_DIVZERO",
    "ERR_OUTOFBND",
    "ERR_ILLRAISE",
    "error of one's own",
    "error handled",
    "routine dropped by an error",
    "error handled by a caller",
    "error handed on by RAISE",
    "RETRY",
    "TRYNEXT",
    "error in the condition or selector of an IF or TEST",
    "error in a WHILE test",
    "error in a FOR head",
    "error in a call's index or arguments",
    "error in a RETURN",
    "error in a TPWrite",
    "error in a TPReadNum",
    "RETRY of an IF, TEST, WHILE or FOR",
    "TRYNEXT into a loop",
    "error in an ERROR list",
    "call from an ERROR list",
    "loop in an ERROR list",
    "routine with an UNDO list dropped by an error",
    "run aborted at its step K",
    "UNDO list begun",
    "UNDO list of a FUNC begun",
    "UNDO list begun by a routine in its ERROR list",
    "routine without an UNDO list dropped at step K",
    "error in an UNDO list",
    "loop in an UNDO list",
    "UNDO list run to its end",
    "no input left in an UNDO list",
    "no room for a line in an UNDO list",
    "listing that is the run's",
    "listing with an entry that differs",
    "listing with an entry missing",
    "listing with an entry that is surplus",
    "listing with a part word at its end",
];

/// How often each event came up.
#[derive(Clone, Debug, PartialEq, Eq)]
pub struct Counts([u64; NAMES.len()]);

impl Default for Counts {
    fn default() -> Self {
        Counts([0; NAMES.len()])
    }
}

impl Counts {
    pub fn add(&mut self, event: Event) {
        self.0[event as usize] += 1;
    }

    pub fn times(&self, event: Event) -> u64 {
        self.0[event as usize]
    }
}

/// The bounds below which numbers of steps are counted together.
const STEP_BOUNDS: [u64; 7] = [1, 10, 100, 1_000, 10_000, 100_000, u64::MAX];

/// The counts of many runs.
pub struct Measures {
    runs: u64,
    steps: u64,
    longest: u64,
    by_steps: [u64; STEP_BOUNDS.len()],
    events: [u64; NAMES.len()],
    runs_with: [u64; NAMES.len()],
}

impl Default for Measures {
    fn default() -> Self {
        Measures {
            runs: 0,
            steps: 0,
            longest: 0,
            by_steps: [0; STEP_BOUNDS.len()],
            events: [0; NAMES.len()],
            runs_with: [0; NAMES.len()],
        }
    }
}

impl Measures {
    pub fn count(&mut self, steps: u64, counts: &Counts) {
        self.runs += 1;
        self.steps += steps;
        self.longest = self.longest.max(steps);
        let bound = STEP_BOUNDS.iter().position(|bound| steps < *bound);
        self.by_steps[bound.unwrap_or(STEP_BOUNDS.len() - 1)] += 1;
        for (event, times) in counts.0.iter().enumerate() {
            self.events[event] += times;
            self.runs_with[event] += u64::from(*times > 0);
        }
    }

    pub fn show(&self) -> String {
        let mut shown = format!(
            "runs: {}, steps: {}, longest run: {} steps\n",
            self.runs, self.steps, self.longest
        );
        for (bound, runs) in STEP_BOUNDS.iter().zip(self.by_steps) {
            shown += &format!("under {bound} steps: {runs} runs\n");
        }
        for (event, name) in NAMES.iter().enumerate() {
            let (times, runs) = (self.events[event], self.runs_with[event]);
            shown += &format!("{name}: {times}, in {runs} runs\n");
        }
        shown
    }
}
