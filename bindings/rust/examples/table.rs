//! Prints the table of an analysis, the report or the listing as `tacflow --show` does: `table KIND FILE [THREADS [PROCEDURE]]`. With
//! threads each of them asks for some of the bits of a table; with a procedure's name, at its points alone. The program may be as large
//! as the large limits allow.

use std::error::Error;
use std::io::Write;
use std::ops::Range;
use std::{env, fs, io, thread};
use tacflow::{Analysis, Limits, Program, Table};

// The tables of ranges of the bits at these points, one a thread.
fn tables(program: &Program, analysis: Analysis, points: &Range<u32>, threads: u32) -> Result<Vec<Table>, tacflow::Error> {
    let bits = program.bits(analysis);
    thread::scope(|scope| {
        let asked: Vec<_> = (0..threads)
            .map(|n| (bits * n / threads)..(bits * (n + 1) / threads))
            .map(|range| scope.spawn(move || program.facts_at(points.clone(), analysis, range)))
            .collect();
        asked.into_iter().map(|thread| thread.join().expect("no thread panics")).collect()
    })
}

fn main() -> Result<(), Box<dyn Error>> {
    let words: Vec<String> = env::args().collect();
    let program = Program::within(fs::read(words.get(2).ok_or("the second word is a file")?)?, Limits::Large)?;
    let analysis = match words.get(1).map(String::as_str) {
        Some("report") => return Ok(io::stdout().write_all(&program.report()?)?),
        Some("list") => return Ok(io::stdout().write_all(&program.listing()?)?),
        Some("reach") => Analysis::Reach,
        Some("live") => Analysis::Live,
        Some("avail") => Analysis::Avail,
        Some("busy") => Analysis::Busy,
        _ => return Err("the first word is report, list, reach, live, avail or busy".into()),
    };
    let threads = words.get(3).map_or(Ok(1), |word| word.parse::<u32>())?.max(1);
    let points = match words.get(4) {
        None => 0..program.sizes().points,
        Some(name) => {
            let number = program.procedures().iter().position(|procedure| procedure == name);
            program.points_of(number.ok_or("the program has no such procedure")? as u32)
        }
    };
    let tables = tables(&program, analysis, &points, threads)?;

    let mut out = io::BufWriter::new(io::stdout().lock());
    for number in points {
        let point = program.points()[number as usize];
        let name = &program.procedures()[point.procedure as usize];
        let mark = if tables[0].has_path(number) { "" } else { " (no path)" };
        write!(out, "{name} {}{mark}: ", point.place)?;
        let mut between = "";
        for bit in tables.iter().flat_map(|table| table.set(number)) {
            write!(out, "{between}{}", program.name(analysis, bit))?;
            between = ", ";
        }
        writeln!(out, "{}", if between.is_empty() { "-" } else { "" })?;
    }
    out.flush()?;
    Ok(())
}
