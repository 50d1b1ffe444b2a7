//! The data-flow facts of programs of three-address code: reaching definitions, live variables, available and very busy
//! expressions, exact over all interprocedurally valid paths. What is found is proved to be what the definitions say; this crate is
//! a thin layer over those calls, and not proved. `docs/LANGUAGE.md` of the repository has the language, `docs/ANALYSES.md` the analyses.
//!
//! ```
//! use tacflow::{Analysis, Program};
//!
//! let program = Program::read("proc main\n  read x\n  y = x\n  print x\nend\n")?;
//! let live = program.facts(Analysis::Live)?;
//! let names: Vec<&str> = live.set(1).map(|bit| program.variables()[bit as usize].as_str()).collect();
//! assert_eq!(names, ["x"]);
//! # Ok::<(), tacflow::Error>(())
//! ```
//!
//! A [`Program`] is read once and kept by the library. It is `Send` and `Sync`: threads may ask one program at once, and their calls run
//! at the same time.
#![deny(unsafe_code)]

mod build;
mod handles;
#[allow(unsafe_code)]
mod raw;

pub use build::{Built, BuiltProcedure};

use handles::Handles;
use raw::Handle;
pub use raw::Sizes;
use std::fmt;
use std::ops::Range;
use std::sync::Arc;

/// How many bytes the longest name has.
pub const LONGEST_NAME: usize = 64;

/// The four analyses (Aho, Lam, Sethi, Ullman, 2nd edition, 9.2 and 9.5).
#[repr(u32)]
#[derive(Clone, Copy, Debug, PartialEq, Eq, Hash)]
pub enum Analysis {
    /// Reaching definitions: which some valid path brings to the point.
    Reach = 0,
    /// Live variables: which some valid path from the point reads before writing them.
    Live = 1,
    /// Available expressions: which every valid path to the point evaluates, with no operand written since.
    Avail = 2,
    /// Very busy expressions: which every valid path from the point evaluates before an operand is written.
    Busy = 3,
}

/// How large a text and its program may be. A program within the standard limits is answered the same within the large ones.
#[derive(Clone, Copy, Debug, PartialEq, Eq, Hash)]
pub enum Limits {
    /// 1 MiB of text, 256 procedures, 16,384 points, 4,096 bits in each analysis.
    Standard = 0,
    /// 512 MiB of text, 262,144 procedures, 16,777,216 points, 4,194,304 variables and as many expressions; definitions have no limit of
    /// their own.
    Large = 1,
}

/// Why there is no answer.
#[derive(Clone, Copy, Debug, PartialEq, Eq)]
pub enum Error {
    /// The text is no program: the refusal's number in the language's table, its line and its column, from 1.
    Refused {
        /// The refusal's number.
        number: u32,
        /// The line.
        line: u32,
        /// The column, in bytes.
        column: u32,
    },
    /// What was to be built is no program: what is wrong with it, and which statement, label or name it is, through the whole program from 0.
    NotBuilt {
        /// What is wrong: 1 a statement, 2 a label, the name 3 of a procedure, 4 of a variable or 5 of a label, 6 other numbers of them than
        /// there have to be, 7 no procedure `main`, 8 too many procedures, 9 too many statements, labels or variables.
        fault: u32,
        /// Which of them.
        number: u32,
    },
    /// The program has more points than the limits allow.
    TooManyPoints,
    /// Some analysis of the program has more bits than the limits allow.
    TooManyBits,
    /// The bits are none of the analysis, the points none of the program, or the part none of a report.
    BadRange,
    /// Memory was refused.
    OutOfMemory,
}

/// The names of the refusals, from number 1.
const REFUSALS: [&str; 13] = [
    "BadByte",
    "NumberTooLarge",
    "NameTooLong",
    "Syntax",
    "Unclosed",
    "NoMain",
    "DuplicateProcedure",
    "DuplicateLabel",
    "UnknownLabel",
    "UnknownProcedure",
    "TextTooLong",
    "TooManyProcedures",
    "DuplicateCallee",
];

impl fmt::Display for Error {
    fn fmt(&self, f: &mut fmt::Formatter<'_>) -> fmt::Result {
        match self {
            Error::Refused { number, line, column } => {
                let name = (*number as usize).checked_sub(1).and_then(|at| REFUSALS.get(at)).unwrap_or(&"unknown");
                write!(f, "{line}:{column}: refusal {number}: {name}")
            }
            Error::NotBuilt { fault, number } => match fault {
                1 => write!(f, "statement {number} is none"),
                2 => write!(f, "label {number} has no such place"),
                3 => write!(f, "procedure {number} has no name of its own"),
                4 => write!(f, "variable {number} has no name of its own"),
                5 => write!(f, "the name of label {number} is none"),
                6 => f.write_str("there are other numbers of statements, labels or names than there have to be"),
                7 => f.write_str("no procedure is called main"),
                8 => f.write_str("there are too many procedures"),
                _ => f.write_str("there are too many statements, labels or variables"),
            },
            Error::TooManyPoints => f.write_str("the program has too many points"),
            Error::TooManyBits => f.write_str("an analysis of the program has too many bits"),
            Error::BadRange => f.write_str("the range is none of the analysis's bits, or of the program's points"),
            Error::OutOfMemory => f.write_str("out of memory"),
        }
    }
}

impl std::error::Error for Error {}

/// A point: its procedure, and how many of its statements stand before.
#[repr(C)]
#[derive(Clone, Copy, Debug, Default, PartialEq, Eq)]
pub struct Point {
    /// The procedure, by number.
    pub procedure: u32,
    /// How many statements of the procedure stand before the point.
    pub place: u32,
    /// The line of the statement at the point, from 1; 0 at a procedure's end.
    pub line: u32,
    start: u32,
    end: u32,
}

impl Point {
    /// The bytes of the text that the statement at the point has; none at a procedure's end.
    pub fn span(&self) -> Option<Range<usize>> {
        (self.line != 0).then_some(self.start as usize..self.end as usize)
    }
}

/// A definition: its variable, and the point of its statement, or none for the value at the program's beginning.
#[derive(Clone, Copy, Debug, PartialEq, Eq)]
pub struct Definition {
    /// The variable, by number.
    pub variable: u32,
    /// The point of its statement.
    pub point: Option<u32>,
}

/// What an operator works on.
#[derive(Clone, Copy, Debug, PartialEq, Eq)]
pub enum Operand {
    /// A variable, by number.
    Variable(u32),
    /// A number.
    Number(u64),
}

/// An expression: what stands left of its operator, which a unary one has not, its operator and what stands right.
#[derive(Clone, Copy, Debug, PartialEq, Eq)]
pub struct Expression {
    /// What stands left of the operator.
    pub left: Option<Operand>,
    /// The operator, as it is written.
    pub operator: &'static str,
    /// What stands right of it.
    pub right: Operand,
}

const SIGNS: [&str; 18] =
    ["+", "-", "*", "/", "%", "&", "|", "^", "<<", ">>", "<", "<=", ">", ">=", "==", "!=", "~", "!"];

fn operand(raw: raw::RawOperand) -> Option<Operand> {
    match raw.kind {
        1 => Some(Operand::Variable(raw.variable)),
        2 => Some(Operand::Number(raw.number)),
        _ => None,
    }
}

fn expression(raw: raw::RawExpression) -> Expression {
    Expression {
        left: operand(raw.left),
        operator: SIGNS[raw.operator as usize],
        right: operand(raw.right).unwrap_or(Operand::Number(0)),
    }
}

// A number, or none where the library tells that there is none.
fn number(raw: u32) -> Option<u32> {
    (raw != u32::MAX).then_some(raw)
}

fn definition(raw: raw::RawDefinition) -> Definition {
    Definition { variable: raw.variable, point: number(raw.point) }
}

/// What a statement is, of variables x, operands y and z, and labels L.
#[derive(Clone, Copy, Debug, PartialEq, Eq, Hash)]
pub enum StatementKind {
    /// `x = y`
    Copy,
    /// `x = op y`
    Unary,
    /// `x = y op z`
    Binary,
    /// `goto L`
    Goto,
    /// `if y goto L`
    If,
    /// `ifFalse y goto L`
    IfFalse,
    /// `if y op z goto L`
    IfCompare,
    /// `call p | q ..`: its edges lead to the callees.
    Call,
    /// `return`
    Return,
    /// `read x`
    Read,
    /// `print y`
    Print,
    /// `skip`
    Skip,
}

const KINDS: [StatementKind; 12] = [
    StatementKind::Copy,
    StatementKind::Unary,
    StatementKind::Binary,
    StatementKind::Goto,
    StatementKind::If,
    StatementKind::IfFalse,
    StatementKind::IfCompare,
    StatementKind::Call,
    StatementKind::Return,
    StatementKind::Read,
    StatementKind::Print,
    StatementKind::Skip,
];

/// A statement. One operand, as y of the forms with no z, is on the right.
#[derive(Clone, Copy, Debug, PartialEq, Eq)]
pub struct Statement {
    /// What it is.
    pub kind: StatementKind,
    /// The variable that is set, by number.
    pub target: Option<u32>,
    /// The operator, as it is written.
    pub operator: Option<&'static str>,
    /// The label that it names: its number among those of the procedure, in the order of the text.
    pub label: Option<u32>,
    /// The point that the label stands for.
    pub goes_to: Option<u32>,
    /// The expression that it evaluates: a bit of available and of very busy expressions.
    pub expression: Option<u32>,
    /// What stands left of the operator.
    pub left: Option<Operand>,
    /// What stands right of it.
    pub right: Option<Operand>,
}

fn statement(raw: raw::RawStatement) -> Option<Statement> {
    Some(Statement {
        kind: *KINDS.get((raw.kind as usize).checked_sub(1)?)?,
        target: number(raw.target),
        operator: number(raw.operator).map(|sign| SIGNS[sign as usize]),
        label: number(raw.label),
        goes_to: number(raw.goes_to),
        expression: number(raw.expression),
        left: operand(raw.left),
        right: operand(raw.right),
    })
}

/// What an edge is.
#[derive(Clone, Copy, Debug, PartialEq, Eq, Hash)]
pub enum EdgeKind {
    /// To where control may be next in the procedure.
    Step,
    /// From the call at this point to the first point of a callee.
    Call(u32),
    /// From the last point of a callee to the point behind the call at this point.
    Return(u32),
}

/// An edge.
#[derive(Clone, Copy, Debug, PartialEq, Eq, Hash)]
pub struct Edge {
    /// What it is.
    pub kind: EdgeKind,
    /// The point that it leaves.
    pub from: u32,
    /// The point to which it leads.
    pub to: u32,
}

fn edge(raw: raw::RawEdge) -> Edge {
    let kind = match raw.kind {
        0 => EdgeKind::Step,
        1 => EdgeKind::Call(raw.site),
        _ => EdgeKind::Return(raw.site),
    };
    Edge { kind, from: raw.from, to: raw.to }
}

/// What a remark says.
#[derive(Clone, Copy, Debug, PartialEq, Eq, Hash)]
pub enum Says {
    /// No valid path leads to the statement.
    NeverReached,
    /// The statement reads the variable, which may not be set there.
    Unset(u32),
    /// It evaluates the expression, which is available there.
    AlreadyComputed(u32),
    /// It is a test at which the expression is very busy.
    VeryBusy(u32),
    /// No execution reads what it assigns to the variable: it can be deleted.
    Dead(u32),
}

/// A remark on the statement at a point. `docs/ANALYSES.md` of the repository says which may be acted on together.
#[derive(Clone, Copy, Debug, PartialEq, Eq, Hash)]
pub struct Remark {
    /// The point.
    pub point: u32,
    /// What is said.
    pub says: Says,
}

fn remark(raw: raw::RawRemark) -> Remark {
    let says = match raw.kind {
        0 => Says::NeverReached,
        1 => Says::Unset(raw.name),
        2 => Says::AlreadyComputed(raw.name),
        3 => Says::VeryBusy(raw.name),
        _ => Says::Dead(raw.name),
    };
    Remark { point: raw.point, says }
}

// The numbers of a remark.
fn raw_remark(remark: Remark) -> raw::RawRemark {
    let (kind, name) = match remark.says {
        Says::NeverReached => (0, raw::NONE),
        Says::Unset(variable) => (1, variable),
        Says::AlreadyComputed(expression) => (2, expression),
        Says::VeryBusy(expression) => (3, expression),
        Says::Dead(variable) => (4, variable),
    };
    raw::RawRemark { point: remark.point, kind, name }
}

/// A statement, by its point, or a variable that stands around a remark. A way goes on to the end of `main`; ways that never get there are
/// left out.
#[derive(Clone, Copy, Debug, PartialEq, Eq, Hash)]
pub enum Nearby {
    /// Of a dead assignment: the statement at the point may write the variable next.
    NextWrite(u32),
    /// Of a dead assignment: on some way nothing writes the variable any more.
    EndUnwritten,
    /// Of an expression that is already computed: the statement at the point may have evaluated it last.
    LastEvaluation(u32),
    /// Of such a one: the variable was assigned it and holds its value, on every valid path.
    Holder(u32),
    /// Of a very busy expression: the statement at the point may evaluate it next.
    NextEvaluation(u32),
    /// Of what is never reached: the nearest point before it in its procedure to which a valid path leads.
    LastReached(u32),
}

fn nearby(raw: raw::RawNearby) -> Nearby {
    match raw.kind {
        0 => Nearby::NextWrite(raw.point),
        1 => Nearby::EndUnwritten,
        2 => Nearby::LastEvaluation(raw.point),
        3 => Nearby::Holder(raw.variable),
        4 => Nearby::NextEvaluation(raw.point),
        _ => Nearby::LastReached(raw.point),
    }
}

/// What a path through a callee does with the bit.
#[derive(Clone, Copy, Debug, PartialEq, Eq, Hash)]
pub enum Effect {
    /// Nothing is said of the bit: the path is there.
    Reaches,
    /// It has the bit at its end, whether the bit was there before or not.
    Generates,
    /// No step of it kills the bit.
    Preserves,
}

/// What a hop is.
#[derive(Clone, Copy, Debug, PartialEq, Eq, Hash)]
pub enum HopKind {
    /// A step inside a procedure.
    Step,
    /// From the call at this point to its callee's first point: the callee is not left again on the way. For live variables and very busy
    /// expressions from the point behind the call to the callee's last point: the call does not lie on the way.
    Enter {
        /// The point of the call.
        site: u32,
    },
    /// From the call at this point to the point behind it, by some path through the callee that has the effect. For live variables and
    /// very busy expressions from the point behind the call to the call.
    Pass {
        /// The point of the call.
        site: u32,
        /// The procedure, by number.
        callee: u32,
        /// What the path does with the bit.
        effect: Effect,
    },
}

/// A hop of a path, in the direction of the analysis: for live variables and very busy expressions that is against the edges.
#[derive(Clone, Copy, Debug, PartialEq, Eq, Hash)]
pub struct Hop {
    /// What it is.
    pub kind: HopKind,
    /// The point where it begins.
    pub from: u32,
    /// The point where it ends.
    pub to: u32,
}

fn hop(raw: raw::RawHop) -> Hop {
    let effect = match raw.effect {
        0 => Effect::Reaches,
        1 => Effect::Generates,
        _ => Effect::Preserves,
    };
    let kind = match raw.kind {
        0 => HopKind::Step,
        1 => HopKind::Enter { site: raw.site },
        _ => HopKind::Pass { site: raw.site, callee: raw.callee, effect },
    };
    Hop { kind, from: raw.from, to: raw.to }
}

/// A program that was read: its text, its points, and what the bits of its analyses are. The library keeps it, so nothing is read anew
/// when it is asked, also by several threads at once. A clone is the same program, and copies nothing.
///
/// ```
/// use std::thread;
/// use tacflow::{Analysis, Program};
///
/// let program = Program::read("proc main\n  read a\n  b = a * a\n  c = a * a\n  print b\nend\n")?;
/// let (avail, live) = thread::scope(|scope| {
///     let avail = scope.spawn(|| program.facts(Analysis::Avail));
///     let live = scope.spawn(|| program.facts(Analysis::Live));
///     (avail.join().expect("no panic"), live.join().expect("no panic"))
/// });
/// let names: Vec<String> = avail?.set(2).map(|bit| program.name(Analysis::Avail, bit).to_string()).collect();
/// assert_eq!(names, ["a * a"]);
/// assert!(!live?.contains(3, 2), "c is dead behind line 4");
///
/// let refused = Program::read("proc main\n  print a * a\nend\n").unwrap_err();
/// assert_eq!(refused.to_string(), "2:11: refusal 4: Syntax");
/// # Ok::<(), tacflow::Error>(())
/// ```
#[derive(Clone, Debug)]
pub struct Program {
    kept: Arc<Kept>,
}

#[derive(Debug)]
struct Kept {
    text: Vec<u8>,
    limits: Limits,
    sizes: Sizes,
    points: Vec<Point>,
    statements: Vec<Option<Statement>>,
    procedures: Vec<String>,
    variables: Vec<String>,
    definitions: Vec<Definition>,
    expressions: Vec<Expression>,
    handles: Handles,
}

/// What a bit is, as [`Program::name`] tells: it is written as `tacflow --show` writes it.
#[derive(Clone, Copy, Debug)]
pub struct Name<'a> {
    program: &'a Program,
    analysis: Analysis,
    bit: usize,
}

impl Name<'_> {
    fn write_operand(&self, f: &mut fmt::Formatter<'_>, operand: Operand) -> fmt::Result {
        match operand {
            Operand::Variable(variable) => f.write_str(&self.program.variables()[variable as usize]),
            Operand::Number(number) => write!(f, "{number}"),
        }
    }

    fn write_expression(&self, f: &mut fmt::Formatter<'_>, expression: Expression) -> fmt::Result {
        match expression.left {
            None => f.write_str(expression.operator)?,
            Some(left) => {
                self.write_operand(f, left)?;
                write!(f, " {} ", expression.operator)?;
            }
        }
        self.write_operand(f, expression.right)
    }
}

impl fmt::Display for Name<'_> {
    fn fmt(&self, f: &mut fmt::Formatter<'_>) -> fmt::Result {
        let program = self.program;
        match self.analysis {
            Analysis::Live => f.write_str(&program.variables()[self.bit]),
            Analysis::Avail | Analysis::Busy => self.write_expression(f, program.expressions()[self.bit]),
            Analysis::Reach => {
                let Definition { variable, point } = program.definitions()[self.bit];
                let name = &program.variables()[variable as usize];
                match point {
                    None => write!(f, "{name}@entry"),
                    Some(point) => write!(f, "{name}@{}", program.points()[point as usize].line),
                }
            }
        }
    }
}

/// Part `part` of the report on a text's program cut into `count` parts, as `tacview --format report --part PART/COUNT` writes it:
/// `tacview --merge` makes the report of all parts. The part names the text by its SHA-1.
///
/// # Errors
///
/// `BadRange` but where 1 <= `part` <= `count` <= 4096; and as those of [`Program::read`].
pub fn report_part(text: &[u8], limits: Limits, part: u32, count: u32) -> Result<Vec<u8>, Error> {
    raw::report_part(text, limits, part, count)
}

impl Program {
    /// Reads a program within the standard limits.
    ///
    /// # Errors
    ///
    /// `Refused` where the text is no program; `TooManyPoints` or `TooManyBits` where it is one beyond the limits; `OutOfMemory` where
    /// memory was refused.
    pub fn read(text: impl Into<Vec<u8>>) -> Result<Program, Error> {
        Program::within(text, Limits::Standard)
    }

    /// Reads a program within these limits, and its facts, its listing and its report are those within them.
    ///
    /// # Errors
    ///
    /// As those of [`Program::read`].
    pub fn within(text: impl Into<Vec<u8>>, limits: Limits) -> Result<Program, Error> {
        let text = text.into();
        let handle = Handle::open(&text, limits)?;
        Program::of(handle, limits, text)
    }

    // The program that an open handle keeps.
    fn of(mut handle: Handle, limits: Limits, text: Vec<u8>) -> Result<Program, Error> {
        let sizes = handle.sizes()?;
        let kept = Kept {
            limits,
            sizes,
            points: handle.points(sizes.points)?,
            statements: handle.statements(sizes.points)?.into_iter().map(statement).collect(),
            procedures: handle.procedures(sizes.procedures)?,
            variables: handle.variables(sizes.variables)?,
            definitions: handle.definitions(sizes.definitions)?.into_iter().map(definition).collect(),
            expressions: handle.expressions(sizes.expressions)?.into_iter().map(expression).collect(),
            handles: Handles::of(handle),
            text,
        };
        Ok(Program { kept: Arc::new(kept) })
    }

    /// The text; no bytes of a program that was built without one.
    pub fn text(&self) -> &[u8] {
        &self.kept.text
    }

    /// The limits within which it was read.
    pub fn limits(&self) -> Limits {
        self.kept.limits
    }

    /// How large it is.
    pub fn sizes(&self) -> Sizes {
        self.kept.sizes
    }

    /// The points, procedures in the order of the text and in each the places upwards.
    pub fn points(&self) -> &[Point] {
        &self.kept.points
    }

    /// The points of a procedure, which stand one after the other; none where there is no such procedure.
    pub fn points_of(&self, procedure: u32) -> Range<u32> {
        let before = |number| self.kept.points.partition_point(|point| point.procedure < number) as u32;
        before(procedure)..before(procedure.saturating_add(1))
    }

    /// What stands at each point, by number; nothing at a procedure's end.
    pub fn statements(&self) -> &[Option<Statement>] {
        &self.kept.statements
    }

    /// The names of the procedures, by number.
    pub fn procedures(&self) -> &[String] {
        &self.kept.procedures
    }

    /// The names of the variables, by number: the bits of live variables.
    pub fn variables(&self) -> &[String] {
        &self.kept.variables
    }

    /// The definitions: the bits of reaching definitions.
    pub fn definitions(&self) -> &[Definition] {
        &self.kept.definitions
    }

    /// The expressions: the bits of available and of very busy expressions.
    pub fn expressions(&self) -> &[Expression] {
        &self.kept.expressions
    }

    /// How many bits an analysis has.
    pub fn bits(&self, analysis: Analysis) -> u32 {
        match analysis {
            Analysis::Reach => self.kept.sizes.definitions,
            Analysis::Live => self.kept.sizes.variables,
            Analysis::Avail | Analysis::Busy => self.kept.sizes.expressions,
        }
    }

    /// What a bit of an analysis is: written as `tacflow --show` writes it, as `x`, `y + z`, `x@7` for what line 7 sets, or `x@entry` for
    /// its value at the beginning.
    ///
    /// # Panics
    ///
    /// Where the analysis has no such bit.
    pub fn name(&self, analysis: Analysis, bit: u32) -> Name<'_> {
        assert!(bit < self.bits(analysis), "{analysis:?} has no bit {bit}");
        Name { program: self, analysis, bit: bit as usize }
    }

    /// The program in one layout, as `tacflow --show list` writes it.
    ///
    /// # Errors
    ///
    /// `OutOfMemory` where memory was refused.
    pub fn listing(&self) -> Result<Vec<u8>, Error> {
        self.kept.handles.ask(Handle::listing)
    }

    /// The report, as `tacflow` writes it. It is made anew each time.
    ///
    /// # Errors
    ///
    /// `OutOfMemory` where memory was refused.
    pub fn report(&self) -> Result<Vec<u8>, Error> {
        self.kept.handles.ask(Handle::report)
    }

    /// The remarks, in the order of the report's lines. They are found anew each time.
    ///
    /// # Errors
    ///
    /// `OutOfMemory` where memory was refused.
    pub fn remarks(&self) -> Result<Vec<Remark>, Error> {
        let room = self.kept.sizes.points;
        Ok(self.kept.handles.ask(|handle| handle.remarks(room))?.into_iter().map(remark).collect())
    }

    /// What stands around a remark, kind by kind in the order of [`Nearby`], points and variables of a kind rising. Each list is whole: what
    /// is not told is not there. Around [`Says::Unset`] nothing is told; [`Program::why`] has a path for it. The remark need not be one of
    /// [`Program::remarks`]: it is answered at any point. It is searched for anew each time.
    ///
    /// # Errors
    ///
    /// `BadRange` where the program has no such point, variable or expression, or no point behind that of [`Says::Dead`]; `OutOfMemory`
    /// where memory was refused.
    pub fn around(&self, remark: Remark) -> Result<Vec<Nearby>, Error> {
        let raw = raw_remark(remark);
        Ok(self.kept.handles.ask(|handle| handle.around(&raw))?.into_iter().map(nearby).collect())
    }

    /// Why a point is doubtful: a point to which some path from it leads, and which has no valid path to the end of `main`; it may be the
    /// point itself. None where the point is not doubtful.
    ///
    /// # Errors
    ///
    /// `BadRange` where the program has no such point; `OutOfMemory` where memory was refused.
    pub fn doubt_origin(&self, point: u32) -> Result<Option<u32>, Error> {
        self.kept.handles.ask(|handle| handle.doubt_origin(point))
    }

    // Some of the points.
    fn some(&self, points: Range<u32>) -> Result<Range<u32>, Error> {
        if points.start <= points.end && points.end <= self.kept.sizes.points {
            return Ok(points);
        }
        Err(Error::BadRange)
    }

    /// The edges that leave some of the points, in the order of these points. A test whose outcomes lead to one point has one edge; a
    /// call has one to the first point of each callee; from a procedure's last point there is a return for each call of it.
    ///
    /// # Errors
    ///
    /// `BadRange` where the points are none of the program; `OutOfMemory` where memory was refused.
    pub fn edges(&self, points: Range<u32>) -> Result<Vec<Edge>, Error> {
        let points = self.some(points)?;
        Ok(self.kept.handles.ask(|handle| handle.edges(points))?.into_iter().map(edge).collect())
    }

    /// For each of some points whether it has a valid path: from the beginning of `main`, or for live variables and very busy
    /// expressions to its end.
    ///
    /// # Errors
    ///
    /// `BadRange` where the points are none of the program; `OutOfMemory` where memory was refused.
    pub fn has_path(&self, analysis: Analysis, points: Range<u32>) -> Result<Vec<bool>, Error> {
        let points = self.some(points)?;
        Ok(self.kept.handles.ask(|handle| handle.has_path(analysis, points))?.into_iter().map(|flag| flag == 1).collect())
    }

    /// For each of some points whether it is doubtful: whether some path leads from it to a point that has no valid path to the end of
    /// `main`, as where a loop may never end.
    ///
    /// # Errors
    ///
    /// `BadRange` where the points are none of the program; `OutOfMemory` where memory was refused.
    pub fn doubtful(&self, points: Range<u32>) -> Result<Vec<bool>, Error> {
        let points = self.some(points)?;
        Ok(self.kept.handles.ask(|handle| handle.doubtful(points))?.into_iter().map(|flag| flag == 1).collect())
    }

    /// Why a bit of an analysis is in the set of a point: the hops of a valid path that brings it there, or none where no valid path does.
    /// The first hop begins at the first point of `main`, for live variables and very busy expressions at its last, each one where the one
    /// before ended, and the last ends at the point. There are no hops where the point is that first one and has the bit from the
    /// beginning, and at most twice as many as points. The path is searched for anew each time.
    ///
    /// For available and very busy expressions the path is one on which the expression is *not* available or anticipated: it shows why the
    /// bit is not in the set, and there is none where it is.
    ///
    /// # Errors
    ///
    /// `BadRange` where the program has no such point or the analysis no such bit; `OutOfMemory` where memory was refused.
    pub fn why(&self, analysis: Analysis, point: u32, bit: u32) -> Result<Option<Vec<Hop>>, Error> {
        let points = self.kept.sizes.points;
        let hops = self.kept.handles.ask(|handle| handle.why(points, analysis, point, bit))?;
        Ok(hops.map(|hops| hops.into_iter().map(hop).collect()))
    }

    /// Why bits of an analysis are in the sets of points, as [`Program::why`] tells it of one: of each pair of a point and a bit the hops of a
    /// path, or none, in the order of the pairs. What every bit needs of the program is made once; each bit then takes one search, and equal
    /// ones that stand one after the other take one together.
    ///
    /// # Errors
    ///
    /// `BadRange` where the program lacks a point or the analysis a bit; `OutOfMemory` where memory was refused.
    pub fn whys(&self, analysis: Analysis, bits: &[(u32, u32)]) -> Result<Vec<Option<Vec<Hop>>>, Error> {
        let mut asked: Vec<_> = bits.iter().map(|&(point, bit)| raw::RawBit { point, bit, ..raw::RawBit::default() }).collect();
        let hops = self.kept.handles.ask(|handle| handle.whys(analysis, &mut asked))?;
        let mut from = 0;
        let paths = asked.iter().map(|bit| {
            let own = hops[from..bit.end].iter().copied().map(hop).collect();
            from = bit.end;
            (bit.has == 1).then_some(own)
        });
        Ok(paths.collect())
    }

    /// The facts of an analysis.
    ///
    /// # Errors
    ///
    /// `OutOfMemory` where memory was refused.
    pub fn facts(&self, analysis: Analysis) -> Result<Table, Error> {
        self.facts_of(analysis, 0..self.bits(analysis))
    }

    /// The facts of an analysis on some of its bits. Several threads may each ask for a range of their own; together they are
    /// the facts.
    ///
    /// # Errors
    ///
    /// `BadRange` where the bits are none of the analysis; `OutOfMemory` where memory was refused.
    pub fn facts_of(&self, analysis: Analysis, bits: Range<u32>) -> Result<Table, Error> {
        self.facts_at(0..self.kept.sizes.points, analysis, bits)
    }

    /// The facts of an analysis at some of the points and on some of its bits. What is found is that of all points, but the table has
    /// room for these alone.
    ///
    /// # Errors
    ///
    /// `BadRange` where the points are none of the program or the bits none of the analysis; `OutOfMemory` where memory was refused.
    pub fn facts_at(&self, points: Range<u32>, analysis: Analysis, bits: Range<u32>) -> Result<Table, Error> {
        let are_points = points.start <= points.end && points.end <= self.kept.sizes.points;
        if !are_points || bits.end < bits.start || self.bits(analysis) < bits.end {
            return Err(Error::BadRange);
        }
        let width = bits.end.div_ceil(64) as usize - bits.start as usize / 64;
        let mut table =
            Table { flags: vec![0; points.len()], words: vec![0; points.len() * width], width, points, bits };
        let (at, on) = (table.points.clone(), table.bits.clone());
        self.kept.handles.ask(|handle| handle.facts(analysis, at, on, &mut table.flags, &mut table.words))?;
        Ok(table)
    }

    /// Words of the sets, in any order and of all analyses: one for each query. They are found four or eight of an analysis at a
    /// time, each once. Bits that the analysis has not are 0.
    ///
    /// # Errors
    ///
    /// `BadRange` where a query's point or word is not there; `OutOfMemory` where memory was refused.
    pub fn ask(&self, queries: &[Query]) -> Result<Vec<u64>, Error> {
        self.kept.handles.ask(|handle| handle.words(queries))
    }
}

/// A word that is asked for.
#[repr(C)]
#[derive(Clone, Copy, Debug, PartialEq, Eq, Hash)]
pub struct Query {
    /// The analysis.
    pub analysis: Analysis,
    /// The point whose set it is of.
    pub point: u32,
    /// Which word of the set it is: the word w has the bits from 64 w on.
    pub word: u32,
}

/// Facts: for each of some points whether it has a valid path, and which bits hold there.
#[derive(Clone, Debug, PartialEq, Eq)]
pub struct Table {
    points: Range<u32>,
    bits: Range<u32>,
    flags: Vec<u8>,
    words: Vec<u64>,
    width: usize,
}

impl Table {
    // Where a point stands among those of the table.
    fn row(&self, point: u32) -> usize {
        assert!(self.points.contains(&point), "the table has no point {point}");
        (point - self.points.start) as usize
    }

    /// The points of which it tells.
    pub fn points(&self) -> Range<u32> {
        self.points.clone()
    }

    /// The bits of which it tells.
    pub fn bits(&self) -> Range<u32> {
        self.bits.clone()
    }

    /// Whether some valid path leads to the point; for live variables and very busy expressions: from it to the end of `main`.
    ///
    /// # Panics
    ///
    /// Where the table has no such point.
    pub fn has_path(&self, point: u32) -> bool {
        self.flags[self.row(point)] == 1
    }

    /// The words of a point's set. Bit b stands in word `b / 64 - bits().start / 64`, at place `b % 64`.
    ///
    /// # Panics
    ///
    /// Where the table has no such point.
    pub fn words(&self, point: u32) -> &[u64] {
        let start = self.row(point) * self.width;
        &self.words[start..start + self.width]
    }

    /// Whether a bit is in a point's set; not where it is outside the table's bits.
    ///
    /// # Panics
    ///
    /// Where the table has no such point.
    pub fn contains(&self, point: u32, bit: u32) -> bool {
        let words = self.words(point);
        self.bits.contains(&bit) && words[(bit / 64 - self.bits.start / 64) as usize] >> (bit % 64) & 1 == 1
    }

    /// The bits of a point's set, upwards.
    ///
    /// # Panics
    ///
    /// Where the table has no such point.
    pub fn set(&self, point: u32) -> Set<'_> {
        Set { words: self.words(point), word: 0, first: self.bits.start / 64 }.started()
    }
}

/// The bits of a set, upwards.
#[derive(Clone, Debug)]
pub struct Set<'a> {
    words: &'a [u64],
    word: u64,
    first: u32,
}

impl Set<'_> {
    // Takes the first word up.
    fn started(mut self) -> Self {
        if let Some((word, rest)) = self.words.split_first() {
            self.word = *word;
            self.words = rest;
        }
        self
    }
}

impl Iterator for Set<'_> {
    type Item = u32;

    fn next(&mut self) -> Option<u32> {
        while self.word == 0 {
            let (word, rest) = self.words.split_first()?;
            self.word = *word;
            self.words = rest;
            self.first += 1;
        }
        let bit = 64 * self.first + self.word.trailing_zeros();
        self.word &= self.word - 1;
        Some(bit)
    }
}
