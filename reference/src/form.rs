//! From words to trees, with refusals 8 and 9.
//!
//! Each word is looked at before it is taken and every choice rests on the next
//! word (after `:=` on the next two), so the first word that does not fit is the
//! first one after which no continuation is a module.

use crate::scan::{digits_value, Kind, Refusal, Word};
use crate::tree::*;

type Formed<T> = Result<T, Refusal>;

const NESTING_LIMIT: usize = 16;

pub fn form(text: &[u8], words: &[Word]) -> Formed<Module> {
    Reader {
        text,
        words,
        next: 0,
    }
    .module()
}

struct Reader<'t> {
    text: &'t [u8],
    words: &'t [Word],
    next: usize,
}

impl Reader<'_> {
    fn place(&self) -> usize {
        self.words
            .get(self.next)
            .map_or(self.text.len(), |word| word.place)
    }

    fn refuse<T>(&self, number: u32) -> Formed<T> {
        Err(Refusal {
            place: self.place(),
            number,
        })
    }

    fn kind_ahead(&self, distance: usize) -> Option<Kind> {
        self.words.get(self.next + distance).map(|word| word.kind)
    }

    fn sees_ahead(&self, distance: usize, spelling: &str) -> bool {
        self.words.get(self.next + distance).is_some_and(|word| {
            word.covers(self.text)
                .eq_ignore_ascii_case(spelling.as_bytes())
        })
    }

    fn sees(&self, spelling: &str) -> bool {
        self.sees_ahead(0, spelling)
    }

    fn accept(&mut self, spelling: &str) -> bool {
        let seen = self.sees(spelling);
        self.next += usize::from(seen);
        seen
    }

    /// Takes the word that must come here and hands back its place.
    fn expect(&mut self, spelling: &str) -> Formed<usize> {
        let place = self.place();
        if self.accept(spelling) {
            Ok(place)
        } else {
            self.refuse(8)
        }
    }

    fn take(&mut self, kind: Kind) -> Formed<Word> {
        if self.kind_ahead(0) != Some(kind) {
            return self.refuse(8);
        }
        self.next += 1;
        Ok(self.words[self.next - 1])
    }

    fn name(&mut self) -> Formed<Name> {
        let word = self.take(Kind::Name)?;
        let text = String::from_utf8_lossy(word.covers(self.text)).to_ascii_lowercase();
        Ok(Name {
            text,
            place: word.place,
            meaning: Meaning::Unsettled,
        })
    }

    fn string(&mut self) -> Formed<Vec<u8>> {
        let word = self.take(Kind::String)?;
        let inside = &self.text[word.place + 1..word.place + word.length - 1];
        let mut bytes = Vec::new();
        let mut rest = inside.iter();
        while let Some(byte) = rest.next() {
            bytes.push(*byte);
            if *byte == b'"' {
                rest.next();
            }
        }
        Ok(bytes)
    }

    fn kind(&mut self) -> Formed<Type> {
        if self.accept("num") {
            Ok(Type::Num)
        } else {
            self.expect("bool").map(|_| Type::Bool)
        }
    }
}

/// Module, data and routines.
impl Reader<'_> {
    fn module(&mut self) -> Formed<Module> {
        self.expect("MODULE")?;
        self.name()?;
        let data = self.data()?;
        let mut routines = Vec::new();
        while self.sees("PROC") || self.sees("FUNC") {
            routines.push(self.routine()?);
        }
        self.expect("ENDMODULE")?;
        if self.next < self.words.len() {
            return self.refuse(8);
        }
        Ok(Module {
            data,
            routines,
            words: Vec::new(),
        })
    }

    fn data(&mut self) -> Formed<Vec<Data>> {
        let mut data = Vec::new();
        loop {
            if self.accept("VAR") {
                data.push(self.variable()?);
            } else if self.accept("CONST") {
                data.push(self.constant()?);
            } else {
                return Ok(data);
            }
            self.expect(";")?;
        }
    }

    fn variable(&mut self) -> Formed<Data> {
        let kind = self.kind()?;
        let name = self.name()?;
        let shape = if self.accept("{") {
            let size = self.expression(0)?;
            self.expect("}")?;
            Shaped::Array(size)
        } else if self.accept(":=") {
            Shaped::Scalar(Some(self.expression(0)?))
        } else {
            Shaped::Scalar(None)
        };
        Ok(Data { name, kind, shape })
    }

    fn constant(&mut self) -> Formed<Data> {
        let kind = self.kind()?;
        let name = self.name()?;
        self.expect(":=")?;
        let shape = Shaped::Constant(self.expression(0)?);
        Ok(Data { name, kind, shape })
    }

    fn routine(&mut self) -> Formed<Routine> {
        let is_func = self.accept("FUNC");
        if !is_func {
            self.expect("PROC")?;
        }
        let result = if is_func { Some(self.kind()?) } else { None };
        let name = self.name()?;
        let parameters = self.parameters()?;
        let data = self.data()?;
        let body = self.list(0)?;
        let body_end = self.place();
        let error = self.list_after("ERROR")?;
        let error_end = self.place();
        let undo = self.list_after("UNDO")?;
        let undo_end = self.expect(if is_func { "ENDFUNC" } else { "ENDPROC" })?;
        let ends = Ends {
            body: body_end,
            error: error_end,
            undo: undo_end,
        };
        let words = Vec::new();
        Ok(Routine {
            name,
            result,
            parameters,
            data,
            body,
            error,
            undo,
            ends,
            words,
        })
    }

    /// A further list of a routine, if the word that opens it is next.
    fn list_after(&mut self, word: &str) -> Formed<Option<List>> {
        if self.accept(word) {
            self.list(0).map(Some)
        } else {
            Ok(None)
        }
    }

    fn parameters(&mut self) -> Formed<Vec<Parameter>> {
        self.expect("(")?;
        let mut parameters = Vec::new();
        if self.accept(")") {
            return Ok(parameters);
        }
        loop {
            let kind = self.kind()?;
            let name = self.name()?;
            parameters.push(Parameter { name, kind });
            if !self.accept(",") {
                self.expect(")")?;
                return Ok(parameters);
            }
        }
    }
}

/// Statements.
impl Reader<'_> {
    /// Reads statements up to a word that starts none; `nest` compounds are open.
    fn list(&mut self, nest: usize) -> Formed<List> {
        let mut list = Vec::new();
        while let Some(statement) = self.statement(nest)? {
            list.push(statement);
        }
        Ok(list)
    }

    fn statement(&mut self, nest: usize) -> Formed<Option<Statement>> {
        let place = self.place();
        let action = if self.accept("IF") {
            self.conditional(nest)?
        } else if self.sees("FOR") || self.sees("WHILE") || self.sees("TEST") {
            if nest == NESTING_LIMIT {
                return self.refuse(9);
            }
            self.compound(nest + 1)?
        } else {
            return self.simple();
        };
        Ok(Some(Statement { place, action }))
    }

    fn compound(&mut self, nest: usize) -> Formed<Action> {
        if self.accept("FOR") {
            self.counted_loop(nest)
        } else if self.accept("WHILE") {
            let condition = self.expression(0)?;
            self.expect("DO")?;
            let body = self.list(nest)?;
            self.expect("ENDWHILE")?;
            Ok(Action::While { condition, body })
        } else {
            self.expect("TEST")?;
            self.test(nest)
        }
    }

    fn counted_loop(&mut self, nest: usize) -> Formed<Action> {
        let variable = self.name()?;
        self.expect("FROM")?;
        let from = self.expression(0)?;
        self.expect("TO")?;
        let to = self.expression(0)?;
        let step = if self.accept("STEP") {
            Some(self.expression(0)?)
        } else {
            None
        };
        self.expect("DO")?;
        let body = self.list(nest)?;
        self.expect("ENDFOR")?;
        Ok(Action::For(Box::new(Loop {
            variable,
            from,
            to,
            step,
            body,
            hides: false,
        })))
    }

    fn test(&mut self, nest: usize) -> Formed<Action> {
        let selector = self.expression(0)?;
        let mut cases = Vec::new();
        while self.accept("CASE") {
            let values = self.expressions()?;
            self.expect(":")?;
            let body = self.list(nest)?;
            cases.push(Case {
                values,
                numbers: Vec::new(),
                body,
            });
        }
        let mut default = Vec::new();
        if self.accept("DEFAULT") {
            self.expect(":")?;
            default = self.list(nest)?;
        }
        self.expect("ENDTEST")?;
        Ok(Action::Test {
            selector,
            cases,
            default,
        })
    }

    /// What follows the word IF: a compact IF, or one with THEN.
    fn conditional(&mut self, nest: usize) -> Formed<Action> {
        let condition = self.expression(0)?;
        if !self.sees("THEN") {
            let Some(statement) = self.simple()? else {
                return self.refuse(8);
            };
            return Ok(Action::CompactIf {
                condition,
                inner: vec![statement],
            });
        }
        if nest == NESTING_LIMIT {
            return self.refuse(9);
        }
        self.expect("THEN")?;
        let mut arms = vec![(condition, self.list(nest + 1)?)];
        while self.accept("ELSEIF") {
            let condition = self.expression(0)?;
            self.expect("THEN")?;
            arms.push((condition, self.list(nest + 1)?));
        }
        let otherwise = if self.accept("ELSE") {
            self.list(nest + 1)?
        } else {
            Vec::new()
        };
        self.expect("ENDIF")?;
        Ok(Action::If { arms, otherwise })
    }

    /// A simple statement, if the next word starts one.
    fn simple(&mut self) -> Formed<Option<Statement>> {
        let place = self.place();
        let action = if self.kind_ahead(0) == Some(Kind::Name) {
            self.named()?
        } else if self.accept("RETURN") {
            Action::Return(self.optional_value()?)
        } else if self.accept("RAISE") {
            Action::Raise(self.optional_value()?)
        } else if self.accept("EXIT") {
            Action::Exit
        } else if self.accept("RETRY") {
            Action::Retry
        } else if self.accept("TRYNEXT") {
            Action::TryNext
        } else if self.accept("TPWrite") {
            self.write()?
        } else if self.accept("TPReadNum") {
            self.read()?
        } else {
            return Ok(None);
        };
        self.expect(";")?;
        Ok(Some(Statement { place, action }))
    }

    fn optional_value(&mut self) -> Formed<Option<Expression>> {
        if self.sees(";") {
            return Ok(None);
        }
        self.expression(0).map(Some)
    }

    fn write(&mut self) -> Formed<Action> {
        let string = self.string()?;
        let mut number = None;
        if self.accept("\\") {
            self.expect("num")?;
            self.expect(":=")?;
            number = Some(self.expression(0)?);
        }
        Ok(Action::Write { string, number })
    }

    fn read(&mut self) -> Formed<Action> {
        let name = self.name()?;
        let target = self.target(name)?;
        self.expect(",")?;
        let string = self.string()?;
        Ok(Action::Read { target, string })
    }

    fn target(&mut self, name: Name) -> Formed<Target> {
        let mut index = None;
        if self.accept("{") {
            // The target's own brace is the first nesting of its index.
            index = Some(self.expression(1)?);
            self.expect("}")?;
        }
        Ok(Target { name, index })
    }

    /// An assignment or a procedure call: both start with a name.
    fn named(&mut self) -> Formed<Action> {
        let name = self.name()?;
        if self.sees(":=") || self.sees("{") {
            let target = self.target(name)?;
            self.expect(":=")?;
            return self.right_side(target);
        }
        let arguments = if self.sees(";") {
            Vec::new()
        } else {
            self.expressions()?
        };
        Ok(Action::Invoke(Call {
            callee: name,
            arguments,
        }))
    }

    fn right_side(&mut self, target: Target) -> Formed<Action> {
        if self.kind_ahead(0) != Some(Kind::Name) || !self.sees_ahead(1, "(") {
            return Ok(Action::Assign(target, self.expression(0)?));
        }
        let callee = self.name()?;
        self.expect("(")?;
        let arguments = if self.sees(")") {
            Vec::new()
        } else {
            self.expressions()?
        };
        self.expect(")")?;
        Ok(Action::Compute(target, Call { callee, arguments }))
    }
}

/// The ranks of operators that form chains, loosest first. Relations are apart.
const OR_RANK: &[(&str, Operator)] = &[("OR", Operator::Or), ("XOR", Operator::Xor)];
const AND_RANK: &[(&str, Operator)] = &[("AND", Operator::And)];
const RELATIONS: &[(&str, Operator)] = &[
    ("=", Operator::Equal),
    ("<>", Operator::Unequal),
    ("<", Operator::Less),
    ("<=", Operator::LessOrEqual),
    (">", Operator::Greater),
    (">=", Operator::GreaterOrEqual),
];
const PLUS_RANK: &[(&str, Operator)] = &[("+", Operator::Plus), ("-", Operator::Minus)];
const TIMES_RANK: &[(&str, Operator)] = &[
    ("*", Operator::Times),
    ("DIV", Operator::Div),
    ("MOD", Operator::Mod),
];

/// Expressions; `nest` parentheses and braces are open.
impl Reader<'_> {
    /// One or more expressions with commas between them.
    fn expressions(&mut self) -> Formed<Vec<Expression>> {
        let mut expressions = vec![self.expression(0)?];
        while self.accept(",") {
            expressions.push(self.expression(0)?);
        }
        Ok(expressions)
    }

    fn expression(&mut self, nest: usize) -> Formed<Expression> {
        let place = self.place();
        let first = if self.accept("NOT") {
            let operand = Box::new(self.and_chain(nest)?);
            Expression {
                place,
                shape: Shape::Not(operand),
            }
        } else {
            self.and_chain(nest)?
        };
        self.chain(first, OR_RANK, |reader| reader.and_chain(nest))
    }

    fn and_chain(&mut self, nest: usize) -> Formed<Expression> {
        let first = self.relation(nest)?;
        self.chain(first, AND_RANK, |reader| reader.relation(nest))
    }

    fn relation(&mut self, nest: usize) -> Formed<Expression> {
        let first = self.sum(nest)?;
        let Some(operator) = self.operator(RELATIONS) else {
            return Ok(first);
        };
        let rest = vec![(operator, self.sum(nest)?)];
        Ok(Expression {
            place: first.place,
            shape: Shape::Chain(Box::new(first), rest),
        })
    }

    fn sum(&mut self, nest: usize) -> Formed<Expression> {
        let place = self.place();
        let first = match self.operator(PLUS_RANK) {
            Some(sign) => {
                let operand = Box::new(self.product(nest)?);
                let minus = sign == Operator::Minus;
                Expression {
                    place,
                    shape: Shape::Signed { minus, operand },
                }
            }
            None => self.product(nest)?,
        };
        self.chain(first, PLUS_RANK, |reader| reader.product(nest))
    }

    fn product(&mut self, nest: usize) -> Formed<Expression> {
        let first = self.primary(nest)?;
        self.chain(first, TIMES_RANK, |reader| reader.primary(nest))
    }

    fn operator(&mut self, rank: &[(&str, Operator)]) -> Option<Operator> {
        let (_, operator) = rank.iter().find(|(spelling, _)| self.sees(spelling))?;
        self.next += 1;
        Some(*operator)
    }

    fn chain(
        &mut self,
        first: Expression,
        rank: &[(&str, Operator)],
        operand: impl Fn(&mut Self) -> Formed<Expression>,
    ) -> Formed<Expression> {
        let mut rest = Vec::new();
        while let Some(operator) = self.operator(rank) {
            rest.push((operator, operand(self)?));
        }
        if rest.is_empty() {
            return Ok(first);
        }
        Ok(Expression {
            place: first.place,
            shape: Shape::Chain(Box::new(first), rest),
        })
    }

    fn primary(&mut self, nest: usize) -> Formed<Expression> {
        let place = self.place();
        let shape = match self.kind_ahead(0) {
            Some(Kind::Number) => {
                let digits = self.take(Kind::Number)?.covers(self.text);
                Shape::Number(digits_value(digits) as i64)
            }
            Some(Kind::Name) => self.name_or_element(nest)?,
            _ if self.accept("TRUE") => Shape::Truth(true),
            _ if self.accept("FALSE") => Shape::Truth(false),
            _ if self.sees("(") => self.nested("(", ")", nest)?.shape,
            _ => return self.refuse(8),
        };
        Ok(Expression { place, shape })
    }

    fn name_or_element(&mut self, nest: usize) -> Formed<Shape> {
        let name = self.name()?;
        if !self.sees("{") {
            return Ok(Shape::Name(name));
        }
        Ok(Shape::Element(name, Box::new(self.nested("{", "}", nest)?)))
    }

    fn nested(&mut self, open: &str, close: &str, nest: usize) -> Formed<Expression> {
        if nest == NESTING_LIMIT {
            return self.refuse(9);
        }
        self.expect(open)?;
        let inner = self.expression(nest + 1)?;
        self.expect(close)?;
        Ok(inner)
    }
}
