//! The trees that `form` builds, `names` completes and `run` walks.

#[derive(Clone, Copy, Debug, PartialEq, Eq)]
pub enum Type {
    Num,
    Bool,
}

/// What a name stands for at a run; `names` puts it in.
#[derive(Clone, Copy, Debug)]
pub enum Meaning {
    Unsettled,
    Value(i64),
    Errno,
    /// A module variable: its first word and its number of words.
    Module {
        slot: usize,
        size: usize,
    },
    /// A word of the routine: parameter, data or FOR variable.
    Local {
        slot: usize,
        size: usize,
    },
    Routine(usize),
}

pub struct Name {
    /// Letter case is folded, since names ignore it.
    pub text: String,
    pub place: usize,
    pub meaning: Meaning,
}

#[derive(Clone, Copy, Debug, PartialEq, Eq)]
pub enum Operator {
    Or,
    Xor,
    And,
    Equal,
    Unequal,
    Less,
    LessOrEqual,
    Greater,
    GreaterOrEqual,
    Plus,
    Minus,
    Times,
    Div,
    Mod,
}

/// An expression as written: its place is its first word, parenthesis included.
pub struct Expression {
    pub place: usize,
    pub shape: Shape,
}

pub enum Shape {
    Number(i64),
    Truth(bool),
    Name(Name),
    Element(Name, Box<Expression>),
    Not(Box<Expression>),
    Signed {
        minus: bool,
        operand: Box<Expression>,
    },
    /// Operands and operators of one rank, left to right.
    Chain(Box<Expression>, Vec<(Operator, Expression)>),
}

pub struct Target {
    pub name: Name,
    pub index: Option<Expression>,
}

pub struct Call {
    pub callee: Name,
    pub arguments: Vec<Expression>,
}

pub type List = Vec<Statement>;

pub struct Statement {
    pub place: usize,
    pub action: Action,
}

pub enum Action {
    Assign(Target, Expression),
    Compute(Target, Call),
    Invoke(Call),
    Return(Option<Expression>),
    Raise(Option<Expression>),
    Exit,
    Retry,
    TryNext,
    Write {
        string: Vec<u8>,
        number: Option<Expression>,
    },
    Read {
        target: Target,
        string: Vec<u8>,
    },
    /// The inner list of a compact IF holds its one statement.
    CompactIf {
        condition: Expression,
        inner: List,
    },
    If {
        arms: Vec<(Expression, List)>,
        otherwise: List,
    },
    For(Box<Loop>),
    While {
        condition: Expression,
        body: List,
    },
    Test {
        selector: Expression,
        cases: Vec<Case>,
        default: List,
    },
}

pub struct Loop {
    pub variable: Name,
    pub from: Expression,
    pub to: Expression,
    pub step: Option<Expression>,
    pub body: List,
    /// The variable's name meant something around; `check_names` puts it in.
    pub hides: bool,
}

pub struct Case {
    pub values: Vec<Expression>,
    /// The values worked out; `names` puts them in.
    pub numbers: Vec<i64>,
    pub body: List,
}

pub enum Shaped {
    Constant(Expression),
    Scalar(Option<Expression>),
    Array(Expression),
}

pub struct Data {
    pub name: Name,
    pub kind: Type,
    pub shape: Shaped,
}

pub struct Parameter {
    pub name: Name,
    pub kind: Type,
}

/// The places of the words that close a routine's lists. One that it does not have
/// is closed with the list before it.
pub struct Ends {
    /// ERROR, UNDO, ENDPROC or ENDFUNC.
    pub body: usize,
    /// UNDO, ENDPROC or ENDFUNC.
    pub error: usize,
    /// ENDPROC or ENDFUNC.
    pub undo: usize,
}

pub struct Routine {
    pub name: Name,
    /// The result's type of a FUNC; a PROC has none.
    pub result: Option<Type>,
    pub parameters: Vec<Parameter>,
    pub data: Vec<Data>,
    pub body: List,
    pub error: Option<List>,
    pub undo: Option<List>,
    pub ends: Ends,
    /// The words a call starts with; `names` puts them in.
    pub words: Vec<i64>,
}

pub struct Module {
    pub data: Vec<Data>,
    pub routines: Vec<Routine>,
    /// The words a run starts with; `names` puts them in.
    pub words: Vec<i64>,
}
