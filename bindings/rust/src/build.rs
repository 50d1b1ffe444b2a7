//! Programs that are built without a text.

use crate::raw::{Handle, RawArrays, RawBuilt, RawBuiltProcedure, RawNames, RawOperand};
use crate::{Error, Limits, Operand, Program, StatementKind, SIGNS};

/// A statement to be built. What its form has not is not looked at; one operand is on the right.
#[derive(Clone, Copy, Debug, PartialEq, Eq)]
pub struct Built<'a> {
    /// What it is.
    pub kind: StatementKind,
    /// The variable that is set, by number.
    pub target: u32,
    /// The operator, as it is written.
    pub operator: &'a str,
    /// What stands left of the operator.
    pub left: Option<Operand>,
    /// What stands right of it.
    pub right: Option<Operand>,
    /// The number of a label of the procedure.
    pub label: u32,
    /// The procedures of a call, by number: one to eight.
    pub callees: &'a [u32],
    /// A line of one's own: points and reports tell it.
    pub line: u32,
}

impl Built<'_> {
    /// A statement of this kind with nothing else yet.
    pub fn new(kind: StatementKind) -> Self {
        Built { kind, target: 0, operator: "", left: None, right: None, label: 0, callees: &[], line: 0 }
    }
}

/// A procedure to be built: its statements, and for each label how many of these stand before it; labels do not fall.
#[derive(Clone, Copy, Debug, PartialEq, Eq)]
pub struct BuiltProcedure<'a> {
    /// Its name.
    pub name: &'a str,
    /// Its statements.
    pub statements: &'a [Built<'a>],
    /// Its labels.
    pub labels: &'a [u32],
}

fn raw_operand(operand: Option<Operand>) -> RawOperand {
    match operand {
        None => RawOperand::default(),
        Some(Operand::Variable(variable)) => RawOperand { kind: 1, variable, number: 0 },
        Some(Operand::Number(number)) => RawOperand { kind: 2, variable: 0, number },
    }
}

fn raw_statement(built: &Built<'_>, first_callee: usize) -> RawBuilt {
    let operator = SIGNS.iter().position(|sign| *sign == built.operator);
    RawBuilt {
        kind: built.kind as u32 + 1,
        target: built.target,
        operator: operator.map_or(u32::MAX, |number| number as u32),
        label: built.label,
        first_callee: first_callee as u32,
        callees: built.callees.len() as u32,
        line: built.line,
        left: raw_operand(built.left),
        right: raw_operand(built.right),
    }
}

impl Program {
    /// Builds a program without a text, within limits: procedures, one of which is called `main`, and the names of variables. Bits, points
    /// and labels are numbered as these are.
    ///
    /// ```
    /// use tacflow::{Built, BuiltProcedure, Limits, Operand, Program, Says, StatementKind};
    ///
    /// let one = Built { right: Some(Operand::Number(1)), line: 10, ..Built::new(StatementKind::Copy) };
    /// let print = Built { right: Some(Operand::Variable(0)), line: 11, ..Built::new(StatementKind::Print) };
    /// let main = BuiltProcedure { name: "main", statements: &[one, Built { target: 1, ..one }, print], labels: &[] };
    /// let program = Program::build(&[main], &["x", "y"], Limits::Standard)?;
    /// assert_eq!(program.remarks()?[0].says, Says::Dead(1));
    ///
    /// let refused = Program::build(&[main], &["x"], Limits::Standard).unwrap_err();
    /// assert_eq!(refused.to_string(), "statement 1 is none");
    /// # Ok::<(), tacflow::Error>(())
    /// ```
    ///
    /// # Errors
    ///
    /// `NotBuilt` where it is no program; `TooManyPoints` or `TooManyBits` where it is one beyond the limits; `OutOfMemory` where memory was
    /// refused.
    pub fn build(procedures: &[BuiltProcedure<'_>], variables: &[&str], limits: Limits) -> Result<Program, Error> {
        let mut arrays = RawArrays {
            procedure_names: RawNames::of(procedures.iter().map(|procedure| procedure.name)),
            variable_names: RawNames::of(variables),
            ..RawArrays::default()
        };
        for procedure in procedures {
            let (statements, labels) = (procedure.statements.len() as u32, procedure.labels.len() as u32);
            arrays.procedures.push(RawBuiltProcedure { statements, labels });
            arrays.labels.extend_from_slice(procedure.labels);
            for statement in procedure.statements {
                arrays.statements.push(raw_statement(statement, arrays.callees.len()));
                arrays.callees.extend_from_slice(statement.callees);
            }
        }
        let most = procedures.iter().map(|procedure| procedure.labels.len()).max().unwrap_or(0);
        arrays.label_names = RawNames::of((0..most).map(|number| format!("L{number}")));
        Program::of(Handle::build(&arrays, limits)?, limits, Vec::new())
    }
}
