//! The task of `tacflow` in plain Rust, with no proof: the yardstick of its speed (`bench/README.md`).

mod bit_names;
mod components;
mod elimination;
mod facts;
mod fault;
mod flow;
mod graph;
mod limits;
mod listing;

mod names;
mod options;
mod output;
mod program;
mod reader;
mod report;
mod solve;
mod tables;
mod tokens;
mod transfer;
mod words;

use facts::{Findings, Flows, Sets};
use fault::Fault;
use graph::Graph;
use limits::TEXT_LIMIT;
use options::{Options, Show, Words};
use output::Output;
use program::Program;
use std::io::{self, Read};
use std::process::ExitCode;
use transfer::Analysis;

/// The width that is quick, in words of 64 bits, of one thread and of several, which have to share the groups.
const WIDTH: usize = 16;
const SHARED_WIDTH: usize = 8;

fn main() -> ExitCode {
    let options = match options::read(std::env::args_os().skip(1)) {
        Ok(Words::Run(options)) => options,
        Ok(Words::Help) => {
            print!("{}", options::HELP);
            return ExitCode::SUCCESS;
        }
        Err(line) => {
            eprintln!("tacflow: {line}");
            return ExitCode::from(2);
        }
    };
    match run(&options) {
        Ok(()) => ExitCode::SUCCESS,
        Err(fault) => {
            eprintln!("{}", fault.line());
            ExitCode::FAILURE
        }
    }
}

fn run(options: &Options) -> Result<(), Fault> {
    let mut text = Vec::with_capacity(TEXT_LIMIT + 2);
    io::stdin().lock().take(TEXT_LIMIT as u64 + 1).read_to_end(&mut text).map_err(|_| Fault::Read)?;
    let program = reader::read(&text).map_err(|refused| Fault::of_text(&text, refused))?;
    let mut output = Output::standard().map_err(|_| Fault::Write)?;
    let written = match options.show {
        Show::List => listing::write(&program, &mut output),
        _ => {
            let graph = Graph::build(&program).map_err(Fault::Graph)?;
            show(options, &program, &graph, &mut output)
        }
    };
    written.and_then(|()| output.flush()).map_err(|_| Fault::Write)
}

fn show(options: &Options, program: &Program, graph: &Graph, output: &mut Output) -> io::Result<()> {
    let flows = Flows::new(graph);
    if let Show::Table(analysis) = options.show {
        let sets = table(options, graph, &flows, analysis);
        return tables::write(program, graph, &flows, &sets, analysis, output);
    }
    let tests = facts::tests(graph);
    let findings = report(options, graph, &flows, &tests);
    report::write(program, graph, &flows, &findings, &tests, output)
}

/// How many words are solved at once: no more than there are.
fn width(options: &Options, bits: usize) -> usize {
    let quick = if options.workers == 1 { WIDTH } else { SHARED_WIDTH };
    let most = options.cut.map_or(quick, |cut| cut.div_ceil(64).next_power_of_two());
    most.min(bits.div_ceil(64).max(1).next_power_of_two())
}

fn report(options: &Options, graph: &Graph, flows: &Flows, tests: &[u32]) -> Findings {
    let workers = options.workers;
    match width(options, graph.definitions().max(graph.expressions())) {
        1 => facts::report::<1>(graph, flows, tests, workers),
        2 => facts::report::<2>(graph, flows, tests, workers),
        4 => facts::report::<4>(graph, flows, tests, workers),
        8 => facts::report::<8>(graph, flows, tests, workers),
        16 => facts::report::<16>(graph, flows, tests, workers),
        32 => facts::report::<32>(graph, flows, tests, workers),
        _ => facts::report::<64>(graph, flows, tests, workers),
    }
}

fn table(options: &Options, graph: &Graph, flows: &Flows, analysis: Analysis) -> Sets {
    let workers = options.workers;
    match width(options, analysis.bits(graph)) {
        1 => facts::table::<1>(graph, flows, analysis, workers),
        2 => facts::table::<2>(graph, flows, analysis, workers),
        4 => facts::table::<4>(graph, flows, analysis, workers),
        8 => facts::table::<8>(graph, flows, analysis, workers),
        16 => facts::table::<16>(graph, flows, analysis, workers),
        32 => facts::table::<32>(graph, flows, analysis, workers),
        _ => facts::table::<64>(graph, flows, analysis, workers),
    }
}
