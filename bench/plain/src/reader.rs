//! From a text to its program, in one pass over its tokens.

use crate::fault::{Refusal, Refused};
use crate::limits::{PROCEDURE_LIMIT, TEXT_LIMIT};
use crate::names::{Names, Secret};
use crate::program::{Form, Label, Operand, Operator, Procedure, Program, Statement};
use crate::tokens::{Keyword, Token, Tokens};

const CALLEE_LIMIT: u8 = 8;
const NOWHERE: u32 = u32::MAX;

/// A name that stands for something which is looked for later, and where it stands in the text.
struct Mention {
    at: usize,
    name: u32,
    place: usize,
}

/// The first place of each kind of fault of names.
#[derive(Default)]
struct NameFaults {
    duplicate_procedure: Option<usize>,
    duplicate_label: Option<usize>,
    unknown_label: Option<usize>,
    unknown_procedure: Option<usize>,
    duplicate_callee: Option<usize>,
}

struct Reader<'t> {
    text: &'t [u8],
    tokens: Tokens<'t>,
    line: u32,
    is_inside: bool,
    program: Program<'t>,
    variables: Names<'t>,
    label_names: Names<'t>,
    procedure_names: Names<'t>,
    /// Of each label's name the label that had it last.
    labels_by_name: Vec<u32>,
    procedures_by_name: Vec<u32>,
    /// The jumps of the procedure that is read: `at` is the statement.
    jumps: Vec<Mention>,
    /// All callees, in the order of the program's list: `at` is the place in it.
    calls: Vec<Mention>,
    faults: NameFaults,
}

pub fn read(text: &[u8]) -> Result<Program<'_>, Refused> {
    if text.len() > TEXT_LIMIT {
        return Err(Refusal::TextTooLong.at(0));
    }
    let mut reader = Reader::new(text);
    while !reader.tokens.is_at_end() {
        reader.line += 1;
        if reader.is_inside {
            reader.line_inside()?
        } else {
            reader.line_outside()?
        }
        if reader.tokens.is_at_end() {
            break;
        }
        reader.tokens.next_line();
    }
    if reader.is_inside {
        return Err(Refusal::Unclosed.at(text.len()));
    }
    reader.finish()
}

impl<'t> Reader<'t> {
    fn new(text: &'t [u8]) -> Reader<'t> {
        let secret = Secret::new();
        Reader {
            text,
            tokens: Tokens::new(text),
            line: 0,
            is_inside: false,
            program: Program {
                procedures: Vec::new(),
                statements: Vec::new(),
                labels: Vec::new(),
                callees: Vec::new(),
                numbers: Vec::new(),
                variables: Vec::new(),
            },
            variables: Names::new(secret),
            label_names: Names::new(secret),
            procedure_names: Names::new(secret),
            labels_by_name: Vec::new(),
            procedures_by_name: Vec::new(),
            jumps: Vec::new(),
            calls: Vec::new(),
            faults: NameFaults::default(),
        }
    }

    fn syntax<T>(&self) -> Result<T, Refused> {
        Err(Refusal::Syntax.at(self.tokens.start))
    }

    fn line_outside(&mut self) -> Result<(), Refused> {
        match self.tokens.next()? {
            Token::Line => Ok(()),
            Token::Keyword(Keyword::Proc) => {
                let name = self.name()?;
                self.open(name);
                self.end_of_line()
            }
            _ => self.syntax(),
        }
    }

    fn line_inside(&mut self) -> Result<(), Refused> {
        let mut has_label = false;
        loop {
            match self.tokens.next()? {
                Token::Line => return Ok(()),
                Token::Keyword(Keyword::End) if !has_label => {
                    self.close();
                    return self.end_of_line();
                }
                Token::Keyword(keyword) => return self.statement(keyword),
                Token::Name(name) => {
                    let place = self.tokens.start;
                    match self.tokens.next()? {
                        Token::Colon => self.label(name, place),
                        Token::Assign => return self.assignment(name),
                        _ => return self.syntax(),
                    }
                    has_label = true;
                }
                _ => return self.syntax(),
            }
        }
    }

    fn open(&mut self, name: &'t [u8]) {
        let place = self.tokens.start;
        let number = self.procedure_name(name) as usize;
        if self.procedures_by_name[number] == NOWHERE {
            self.procedures_by_name[number] = self.program.procedures.len() as u32;
        } else {
            self.faults.duplicate_procedure.get_or_insert(place);
        }
        let (statement, label) = (self.program.statements.len(), self.program.labels.len());
        self.program.procedures.push(Procedure { name, statement, label });
        self.is_inside = true;
    }

    fn procedure_name(&mut self, name: &'t [u8]) -> u32 {
        let number = self.procedure_names.number(name);
        if number as usize == self.procedures_by_name.len() {
            self.procedures_by_name.push(NOWHERE);
        }
        number
    }

    /// The label of this procedure that has the name, if one has.
    fn label_named(&self, name: u32) -> Option<u32> {
        let label = self.labels_by_name.get(name as usize).copied().unwrap_or(NOWHERE);
        let first = self.program.procedures.last().map_or(0, |procedure| procedure.label);
        (label != NOWHERE && label as usize >= first).then_some(label)
    }

    fn label(&mut self, name: &'t [u8], place: usize) {
        let number = self.label_names.number(name);
        if self.label_named(number).is_some() {
            self.faults.duplicate_label.get_or_insert(place);
        }
        self.labels_by_name.resize(self.label_names.list.len(), NOWHERE);
        self.labels_by_name[number as usize] = self.program.labels.len() as u32;
        let first = self.program.procedures.last().map_or(0, |procedure| procedure.statement);
        let place = (self.program.statements.len() - first) as u32;
        self.program.labels.push(Label { name, place });
    }

    fn close(&mut self) {
        let mut jumps = std::mem::take(&mut self.jumps);
        for jump in jumps.drain(..) {
            match self.label_named(jump.name) {
                Some(label) => self.program.statements[jump.at].target = label,
                None => _ = self.faults.unknown_label.get_or_insert(jump.place),
            }
        }
        self.jumps = jumps;
        self.is_inside = false;
    }

    fn end_of_line(&mut self) -> Result<(), Refused> {
        match self.tokens.next()? {
            Token::Line => Ok(()),
            _ => self.syntax(),
        }
    }

    fn name(&mut self) -> Result<&'t [u8], Refused> {
        match self.tokens.next()? {
            Token::Name(name) => Ok(name),
            _ => self.syntax(),
        }
    }

    fn operand(&mut self) -> Result<Operand, Refused> {
        let token = self.tokens.next()?;
        self.operand_of(token)
    }

    fn operand_of(&mut self, token: Token<'t>) -> Result<Operand, Refused> {
        match token {
            Token::Name(name) => Ok(Operand::variable(self.variables.number(name))),
            Token::Number(value) => {
                self.program.numbers.push(value);
                Ok(Operand::number(self.program.numbers.len() - 1))
            }
            _ => self.syntax(),
        }
    }

    fn blank(&self, form: Form) -> Statement {
        let (operator, left, right) = (Operator::OR, Operand::NONE, Operand::NONE);
        Statement { line: self.line, form, operator, count: 0, target: 0, left, right }
    }

    fn assignment(&mut self, name: &'t [u8]) -> Result<(), Refused> {
        let mut statement = self.blank(Form::Copy);
        statement.target = self.variables.number(name);
        match self.tokens.next()? {
            Token::Operator(operator) if operator.is_unary() => {
                statement.form = Form::Unary;
                statement.operator = operator;
                statement.left = self.operand()?;
            }
            token => {
                statement.left = self.operand_of(token)?;
                match self.tokens.next()? {
                    Token::Operator(operator) if operator.is_binary() => {
                        statement.form = Form::Binary;
                        statement.operator = operator;
                        statement.right = self.operand()?;
                    }
                    Token::Line => {
                        self.program.statements.push(statement);
                        return Ok(());
                    }
                    _ => return self.syntax(),
                }
            }
        }
        self.program.statements.push(statement);
        self.end_of_line()
    }

    fn statement(&mut self, keyword: Keyword) -> Result<(), Refused> {
        let statement = match keyword {
            Keyword::Goto => self.jump(Form::Goto)?,
            Keyword::If => self.test()?,
            Keyword::IfFalse => {
                let left = self.operand()?;
                self.goto_keyword()?;
                Statement { left, ..self.jump(Form::IfFalse)? }
            }
            Keyword::Call => return self.call(),
            Keyword::Return => self.blank(Form::Return),
            Keyword::Read => {
                let name = self.name()?;
                Statement { target: self.variables.number(name), ..self.blank(Form::Read) }
            }
            Keyword::Print => Statement { left: self.operand()?, ..self.blank(Form::Print) },
            Keyword::Skip => self.blank(Form::Skip),
            Keyword::Proc | Keyword::End => return self.syntax(),
        };
        self.program.statements.push(statement);
        self.end_of_line()
    }

    fn goto_keyword(&mut self) -> Result<(), Refused> {
        match self.tokens.next()? {
            Token::Keyword(Keyword::Goto) => Ok(()),
            _ => self.syntax(),
        }
    }

    fn jump(&mut self, form: Form) -> Result<Statement, Refused> {
        let name = self.name()?;
        let name = self.label_names.number(name);
        self.jumps.push(Mention { at: self.program.statements.len(), name, place: self.tokens.start });
        Ok(self.blank(form))
    }

    fn test(&mut self) -> Result<Statement, Refused> {
        let left = self.operand()?;
        match self.tokens.next()? {
            Token::Keyword(Keyword::Goto) => Ok(Statement { left, ..self.jump(Form::If)? }),
            Token::Operator(operator) if operator.is_comparison() => {
                let right = self.operand()?;
                self.goto_keyword()?;
                Ok(Statement { operator, left, right, ..self.jump(Form::Compare)? })
            }
            _ => self.syntax(),
        }
    }

    fn call(&mut self) -> Result<(), Refused> {
        let mut statement = self.blank(Form::Call);
        let first = self.calls.len();
        statement.target = first as u32;
        loop {
            let name = self.name()?;
            let name = self.procedure_name(name);
            if self.calls[first..].iter().any(|call| call.name == name) {
                self.faults.duplicate_callee.get_or_insert(self.tokens.start);
            }
            self.calls.push(Mention { at: self.calls.len(), name, place: self.tokens.start });
            statement.count += 1;
            match self.tokens.next()? {
                Token::Operator(Operator::OR) if statement.count < CALLEE_LIMIT => (),
                Token::Line => break,
                _ => return self.syntax(),
            }
        }
        self.program.statements.push(statement);
        Ok(())
    }

    fn finish(mut self) -> Result<Program<'t>, Refused> {
        for call in &self.calls {
            let procedure = self.procedures_by_name[call.name as usize];
            if procedure == NOWHERE {
                self.faults.unknown_procedure.get_or_insert(call.place);
            }
            self.program.callees.push(procedure);
        }
        let ordered = [
            (Refusal::DuplicateProcedure, self.faults.duplicate_procedure),
            (Refusal::DuplicateLabel, self.faults.duplicate_label),
            (Refusal::UnknownLabel, self.faults.unknown_label),
            (Refusal::UnknownProcedure, self.faults.unknown_procedure),
            (Refusal::DuplicateCallee, self.faults.duplicate_callee),
            (Refusal::NoMain, self.main().is_none().then_some(0)),
            (Refusal::TooManyProcedures, self.place_of_procedure(PROCEDURE_LIMIT)),
        ];
        for (refusal, place) in ordered {
            if let Some(place) = place {
                return Err(refusal.at(place));
            }
        }
        self.program.variables = self.variables.list;
        Ok(self.program)
    }

    fn main(&self) -> Option<usize> {
        self.program.procedures.iter().position(|procedure| procedure.name == b"main")
    }

    fn place_of_procedure(&self, number: usize) -> Option<usize> {
        let name = self.program.procedures.get(number)?.name;
        Some(name.as_ptr() as usize - self.text.as_ptr() as usize)
    }
}
