//! A program by number, as `docs/LANGUAGE.md` has it.

#[derive(Clone, Copy, PartialEq, Eq)]
pub enum Form {
    Copy,
    Unary,
    Binary,
    Goto,
    If,
    IfFalse,
    Compare,
    Call,
    Return,
    Read,
    Print,
    Skip,
}

/// The operators, in the order of `SIGNS`.
#[derive(Clone, Copy, PartialEq, Eq, Hash)]
pub struct Operator(pub u8);

pub const SIGNS: [&str; 18] = ["+", "-", "*", "/", "%", "&", "|", "^", "<<", ">>", "<", "<=", ">", ">=", "==", "!=", "~", "!"];

impl Operator {
    pub const OR: Operator = Operator(6);

    pub fn text(self) -> &'static [u8] {
        SIGNS[usize::from(self.0)].as_bytes()
    }

    pub fn is_binary(self) -> bool {
        self.0 < 16
    }

    pub fn is_unary(self) -> bool {
        matches!(self.0, 1 | 16 | 17)
    }

    pub fn is_comparison(self) -> bool {
        matches!(self.0, 10..=15)
    }
}

/// A variable's number, or with the highest bit the place of a number in the program's list of numbers.
#[derive(Clone, Copy, PartialEq, Eq)]
pub struct Operand(u32);

const NUMBER: u32 = 1 << 31;

impl Operand {
    pub const NONE: Operand = Operand(u32::MAX);

    pub fn variable(variable: u32) -> Operand {
        Operand(variable)
    }

    pub fn number(place: usize) -> Operand {
        Operand(place as u32 | NUMBER)
    }

    pub fn as_variable(self) -> Option<u32> {
        (self.0 < NUMBER).then_some(self.0)
    }

    pub fn as_number(self) -> Option<usize> {
        (self.0 >= NUMBER && self != Operand::NONE).then_some((self.0 & !NUMBER) as usize)
    }
}

/// `target` is the variable that is written, the label that is jumped to, or the place of the first callee; `count` is of the callees.
#[derive(Clone, Copy)]
pub struct Statement {
    pub line: u32,
    pub form: Form,
    pub operator: Operator,
    pub count: u8,
    pub target: u32,
    pub left: Operand,
    pub right: Operand,
}

impl Statement {
    pub fn writes(&self) -> Option<u32> {
        matches!(self.form, Form::Copy | Form::Unary | Form::Binary | Form::Read).then_some(self.target)
    }

    pub fn evaluates(&self) -> bool {
        matches!(self.form, Form::Unary | Form::Binary)
    }

    pub fn is_test(&self) -> bool {
        matches!(self.form, Form::If | Form::IfFalse | Form::Compare)
    }
}

#[derive(Clone, Copy)]
pub struct Label<'t> {
    pub name: &'t [u8],
    pub place: u32,
}

/// Its statements and labels begin here and end where the next procedure's begin.
#[derive(Clone, Copy)]
pub struct Procedure<'t> {
    pub name: &'t [u8],
    pub statement: usize,
    pub label: usize,
}

pub struct Program<'t> {
    pub procedures: Vec<Procedure<'t>>,
    pub statements: Vec<Statement>,
    pub labels: Vec<Label<'t>>,
    pub callees: Vec<u32>,
    pub numbers: Vec<u64>,
    pub variables: Vec<&'t [u8]>,
}

impl Program<'_> {
    pub fn statements_of(&self, procedure: usize) -> std::ops::Range<usize> {
        let end = self.procedures.get(procedure + 1).map_or(self.statements.len(), |next| next.statement);
        self.procedures[procedure].statement..end
    }

    pub fn labels_of(&self, procedure: usize) -> std::ops::Range<usize> {
        let end = self.procedures.get(procedure + 1).map_or(self.labels.len(), |next| next.label);
        self.procedures[procedure].label..end
    }

    pub fn callees_of(&self, statement: &Statement) -> &[u32] {
        let first = statement.target as usize;
        &self.callees[first..first + usize::from(statement.count)]
    }
}
