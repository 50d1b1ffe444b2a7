//! A program in one layout.

use crate::output::{Decimal, Output};
use crate::program::{Form, Operand, Operator, Program, Statement};
use std::io;

pub fn write(program: &Program, output: &mut Output) -> io::Result<()> {
    for number in 0..program.procedures.len() {
        output.put(b"proc ")?;
        output.put(program.procedures[number].name)?;
        output.put(b"\n")?;
        let mut labels = program.labels[program.labels_of(number)].iter().peekable();
        let statements = &program.statements[program.statements_of(number)];
        for place in 0..=statements.len() {
            while let Some(label) = labels.next_if(|label| label.place as usize == place) {
                output.put(label.name)?;
                output.put(b":\n")?;
            }
            if let Some(statement) = statements.get(place) {
                output.put(b"  ")?;
                write_statement(program, statement, output)?;
                output.put(b"\n")?;
            }
        }
        output.put(b"end\n")?;
    }
    Ok(())
}

fn write_statement(program: &Program, statement: &Statement, output: &mut Output) -> io::Result<()> {
    if statement.writes().is_some() && statement.form != Form::Read {
        output.put(program.variables[statement.target as usize])?;
        output.put(b" = ")?;
        return write_value(program, statement, output);
    }
    match statement.form {
        Form::If | Form::Compare => output.put(b"if ")?,
        Form::IfFalse => output.put(b"ifFalse ")?,
        Form::Call => return write_call(program, statement, output),
        Form::Return => output.put(b"return")?,
        Form::Skip => output.put(b"skip")?,
        Form::Print => output.put(b"print ")?,
        Form::Read => {
            output.put(b"read ")?;
            output.put(program.variables[statement.target as usize])?;
        }
        Form::Goto | Form::Copy | Form::Unary | Form::Binary => (),
    }
    if statement.left != Operand::NONE {
        write_value(program, statement, output)?;
    }
    if statement.is_test() || statement.form == Form::Goto {
        output.put(if statement.is_test() { b" goto " } else { b"goto " })?;
        output.put(program.labels[statement.target as usize].name)?;
    }
    Ok(())
}

/// Its operands with the operator between them, or before the only one.
pub fn value(program: &Program, statement: &Statement, mut put: impl FnMut(&[u8])) {
    if statement.form == Form::Unary {
        put(statement.operator.text());
    }
    put_operand(program, statement.left, &mut put);
    if statement.right != Operand::NONE {
        put(b" ");
        put(statement.operator.text());
        put(b" ");
        put_operand(program, statement.right, &mut put);
    }
}

fn put_operand(program: &Program, operand: Operand, put: &mut impl FnMut(&[u8])) {
    match (operand.as_variable(), operand.as_number()) {
        (Some(variable), _) => put(program.variables[variable as usize]),
        (_, Some(place)) => put(Decimal::new(program.numbers[place]).text()),
        _ => (),
    }
}

fn write_value(program: &Program, statement: &Statement, output: &mut Output) -> io::Result<()> {
    let mut written = Ok(());
    value(program, statement, |bytes| {
        if written.is_ok() {
            written = output.put(bytes);
        }
    });
    written
}

fn write_call(program: &Program, statement: &Statement, output: &mut Output) -> io::Result<()> {
    debug_assert!(statement.operator == Operator::OR);
    for (place, callee) in program.callees_of(statement).iter().enumerate() {
        output.put(if place == 0 { b"call " } else { b" | " })?;
        output.put(program.procedures[*callee as usize].name)?;
    }
    Ok(())
}
