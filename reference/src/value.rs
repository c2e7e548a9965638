//! How expressions are worked out, at a run and in constant expressions.

use crate::tree::{Expression, Meaning, Name, Operator, Shape};

pub const LEAST: i64 = -8_388_607;
pub const MOST: i64 = 8_388_608;

pub const OVERFLOW: i64 = 1001;
pub const DIVZERO: i64 = 1002;
pub const OUTOFBND: i64 = 1003;
pub const ILLRAISE: i64 = 1004;

/// What names read from; constant expressions get an empty one.
#[derive(Clone, Copy, Default)]
pub struct Memory<'a> {
    pub module: &'a [i64],
    pub local: &'a [i64],
    pub errno: i64,
}

/// A value, or the number of the error raised. TRUE is 1.
pub type Worked = Result<i64, i64>;

pub fn in_range(value: i64) -> bool {
    (LEAST..=MOST).contains(&value)
}

fn ranged(value: i64) -> Worked {
    if in_range(value) {
        Ok(value)
    } else {
        Err(OVERFLOW)
    }
}

pub fn evaluate(expression: &Expression, memory: Memory) -> Worked {
    match &expression.shape {
        Shape::Number(value) => Ok(*value),
        Shape::Truth(truth) => Ok(i64::from(*truth)),
        Shape::Name(name) => Ok(read(name, 0, memory)),
        Shape::Element(name, index) => {
            let index = element(name, evaluate(index, memory)?)?;
            Ok(read(name, index, memory))
        }
        Shape::Not(operand) => Ok(1 - evaluate(operand, memory)?),
        Shape::Signed {
            minus: true,
            operand,
        } => ranged(-evaluate(operand, memory)?),
        Shape::Signed {
            minus: false,
            operand,
        } => evaluate(operand, memory),
        Shape::Chain(first, rest) => {
            let mut left = evaluate(first, memory)?;
            for (operator, operand) in rest {
                if !skips(*operator, left) {
                    left = apply(*operator, left, evaluate(operand, memory)?)?;
                }
            }
            Ok(left)
        }
    }
}

/// Whether the left side alone decides; it then is the answer.
fn skips(operator: Operator, left: i64) -> bool {
    matches!((operator, left), (Operator::And, 0) | (Operator::Or, 1))
}

fn apply(operator: Operator, left: i64, right: i64) -> Worked {
    match operator {
        Operator::Or => Ok(left | right),
        Operator::Xor => Ok(left ^ right),
        Operator::And => Ok(left & right),
        Operator::Equal => Ok(i64::from(left == right)),
        Operator::Unequal => Ok(i64::from(left != right)),
        Operator::Less => Ok(i64::from(left < right)),
        Operator::LessOrEqual => Ok(i64::from(left <= right)),
        Operator::Greater => Ok(i64::from(left > right)),
        Operator::GreaterOrEqual => Ok(i64::from(left >= right)),
        Operator::Plus => ranged(left + right),
        Operator::Minus => ranged(left - right),
        Operator::Times => ranged(left * right),
        Operator::Div | Operator::Mod if right == 0 => Err(DIVZERO),
        Operator::Div => ranged(left / right),
        Operator::Mod => Ok(left - right * (left / right)),
    }
}

/// The distance of element `index` from the array's first word.
pub fn element(array: &Name, index: i64) -> Worked {
    let (Meaning::Module { size, .. } | Meaning::Local { size, .. }) = array.meaning else {
        unreachable!("an element of something else is refused by rule 12");
    };
    if (1..=size as i64).contains(&index) {
        Ok(index - 1)
    } else {
        Err(OUTOFBND)
    }
}

fn read(name: &Name, distance: i64, memory: Memory) -> i64 {
    match name.meaning {
        Meaning::Value(value) => value,
        Meaning::Errno => memory.errno,
        Meaning::Module { slot, .. } => memory.module[slot + distance as usize],
        Meaning::Local { slot, .. } => memory.local[slot + distance as usize],
        Meaning::Unsettled | Meaning::Routine(_) => {
            unreachable!("a name without a value is refused by rule 11 or 12")
        }
    }
}
