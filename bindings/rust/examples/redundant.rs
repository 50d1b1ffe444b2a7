//! Prints which expressions a program computes anew though their values are at hand, by which statements those were computed, and which
//! variables hold them: `redundant FILE`.

use std::error::Error;
use std::{env, fs};
use tacflow::{Analysis, Limits, Nearby, Program, Remark, Says};

// The lines of the statements that may have evaluated a remark's expression last, and the variables that hold its value.
fn computed_at(program: &Program, remark: Remark) -> Result<(Vec<String>, Vec<&str>), tacflow::Error> {
    let (mut lines, mut holders) = (Vec::new(), Vec::new());
    for nearby in program.around(remark)? {
        match nearby {
            Nearby::LastEvaluation(point) => lines.push(program.points()[point as usize].line.to_string()),
            Nearby::Holder(variable) => holders.push(program.variables()[variable as usize].as_str()),
            _ => {}
        }
    }
    Ok((lines, holders))
}

fn main() -> Result<(), Box<dyn Error>> {
    let name = env::args().nth(1).ok_or("the first word is a file")?;
    let program = Program::within(fs::read(name)?, Limits::Large)?;
    for remark in program.remarks()? {
        if let Says::AlreadyComputed(expression) = remark.says {
            let (lines, holders) = computed_at(&program, remark)?;
            let line = program.points()[remark.point as usize].line;
            print!("{line}: {} is computed at {}", program.name(Analysis::Avail, expression), lines.join(", "));
            println!("{}{}", if holders.is_empty() { "" } else { ", held by " }, holders.join(", "));
        }
    }
    Ok(())
}
