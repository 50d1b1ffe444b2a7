//! The report as text.

use crate::bit_names::BitNames;
use crate::facts::{COMPUTED, DEAD, Findings, Flows, UNSET_FIRST, UNSET_SECOND};
use crate::graph::{Graph, NONE};
use crate::output::{Decimal, Output};
use crate::program::{Form, Program, Statement};
use crate::transfer::Analysis;
use std::io;

/// Which blocks lead to a point with no valid path to the end of `main`, by any path, valid or not.
struct Doubt<'g> {
    graph: &'g Graph,
    is_doubtful: Vec<bool>,
    stack: Vec<u32>,
    /// The blocks before each block, and the calls of each set of callees.
    before: Vec<Vec<u32>>,
    callers: Vec<Vec<u32>>,
    /// Sets of callees and procedures that were gone back over.
    is_entry_done: Vec<bool>,
    is_end_done: Vec<bool>,
}

fn doubtful_blocks(graph: &Graph, has_path: &[bool]) -> Vec<bool> {
    let mut doubt = Doubt {
        graph,
        is_doubtful: has_path.iter().map(|has_path| !has_path).collect(),
        stack: (0..graph.blocks.len() as u32).filter(|block| !has_path[*block as usize]).collect(),
        before: vec![Vec::new(); graph.blocks.len()],
        callers: vec![Vec::new(); graph.sets.members.len()],
        is_entry_done: vec![false; graph.sets.members.len()],
        is_end_done: vec![false; graph.first_block.len() - 1],
    };
    for (number, block) in graph.blocks.iter().enumerate() {
        match block.call {
            NONE => block.next.iter().filter(|next| **next != NONE).for_each(|next| doubt.before[*next as usize].push(number as u32)),
            call => doubt.callers[call as usize].push(number as u32),
        }
    }
    while let Some(block) = doubt.stack.pop() {
        doubt.go_back(block as usize);
    }
    doubt.is_doubtful
}

impl Doubt<'_> {
    fn add(&mut self, blocks: Vec<u32>) {
        for block in blocks {
            if !std::mem::replace(&mut self.is_doubtful[block as usize], true) {
                self.stack.push(block);
            }
        }
    }

    fn go_back(&mut self, block: usize) {
        let graph = self.graph;
        let before = std::mem::take(&mut self.before[block]);
        self.add(before);
        let procedure = graph.blocks[block].procedure as usize;
        if block == graph.first_block[procedure] as usize {
            for set in &graph.sets.with[procedure] {
                if !std::mem::replace(&mut self.is_entry_done[*set as usize], true) {
                    let callers = std::mem::take(&mut self.callers[*set as usize]);
                    self.add(callers);
                }
            }
        }
        // from the point behind a call back to the ends of its callees
        let call = block.checked_sub(1).map_or(NONE, |last| graph.blocks[last].call);
        for callee in graph.sets.members.get(call as usize).into_iter().flatten() {
            if !std::mem::replace(&mut self.is_end_done[*callee as usize], true) {
                self.add(vec![graph.first_block[*callee as usize + 1] - 1]);
            }
        }
    }
}

struct ReportWriter<'w> {
    program: &'w Program<'w>,
    findings: &'w Findings,
    expressions: BitNames,
    /// Of each expression the end of its line, where it is very busy.
    busy_lines: Vec<u8>,
    busy_starts: Vec<u32>,
    output: &'w mut Output,
    /// The statement's line and what stands behind it.
    head: Vec<u8>,
}

pub fn write(program: &Program, graph: &Graph, flows: &Flows, findings: &Findings, tests: &[u32], output: &mut Output) -> io::Result<()> {
    let sizes = [graph.points, graph.variables, graph.definitions(), graph.expressions()];
    output.put(format!("points {}, variables {}, definitions {}, expressions {}\n", sizes[0], sizes[1], sizes[2], sizes[3]).as_bytes())?;
    let has_path = &flows.get(true).is_reached;
    let is_doubtful = doubtful_blocks(graph, has_path);
    let is_reached = &flows.get(false).is_reached;
    let mut writer = ReportWriter::new(program, graph, findings, output);
    let mut tests = tests.iter().enumerate().peekable();
    for (number, block) in graph.blocks.iter().enumerate() {
        let procedure = block.procedure as usize;
        let test = tests.next_if(|(_, block)| **block as usize == number).map(|(test, _)| test);
        let end_point = graph.blocks[graph.first_block[procedure + 1] as usize - 1].first as usize;
        for point in graph.points_of(number).filter(|point| *point < end_point) {
            let statement = &program.statements[point - procedure];
            writer.begin(statement);
            if !is_reached[number] {
                writer.line(b"never reached", b"")?;
                continue;
            }
            let busy = test.filter(|_| statement.is_test() && !is_doubtful[number]);
            writer.remarks(statement, point, graph, busy, is_doubtful[number])?;
        }
    }
    Ok(())
}

impl<'w> ReportWriter<'w> {
    fn new(program: &'w Program, graph: &Graph, findings: &'w Findings, output: &'w mut Output) -> ReportWriter<'w> {
        let expressions = BitNames::new(program, graph, Analysis::Busy);
        let mut busy_lines = Vec::new();
        let mut busy_starts = vec![0];
        for expression in 0..graph.expressions() {
            busy_lines.extend_from_slice(expressions.name(expression));
            busy_lines.extend_from_slice(b" is very busy\n");
            busy_starts.push(busy_lines.len() as u32);
        }
        ReportWriter { program, findings, expressions, busy_lines, busy_starts, output, head: Vec::new() }
    }

    fn begin(&mut self, statement: &Statement) {
        self.head.clear();
        self.head.extend_from_slice(Decimal::new(statement.line.into()).text());
        self.head.extend_from_slice(b": ");
    }

    fn line(&mut self, first: &[u8], second: &[u8]) -> io::Result<()> {
        self.output.put(&self.head)?;
        self.output.put(first)?;
        self.output.put(second)?;
        self.output.put(b"\n")
    }

    fn remarks(&mut self, statement: &Statement, point: usize, graph: &Graph, busy: Option<usize>, is_doubtful: bool) -> io::Result<()> {
        let remarks = self.findings.remarks[point];
        self.unset(statement, remarks)?;
        if remarks & COMPUTED != 0 {
            let name = self.expressions.name(graph.effects[point].expression as usize).to_vec();
            self.line(&name, b" is already computed")?;
        }
        if let Some(test) = busy {
            self.busy(test, graph.expressions())?;
        }
        if remarks & DEAD != 0 && statement.form != Form::Read && !is_doubtful {
            self.line(b"assignment to ", &[self.program.variables[statement.target as usize], b" is dead"].concat())?;
        }
        Ok(())
    }

    fn unset(&mut self, statement: &Statement, remarks: u8) -> io::Result<()> {
        let first = statement.left.as_variable().filter(|_| remarks & UNSET_FIRST != 0);
        let second = statement.right.as_variable().filter(|_| remarks & UNSET_SECOND != 0);
        let mut variables = [first, second.filter(|second| first != Some(*second))];
        variables.sort_unstable();
        for variable in variables.into_iter().flatten() {
            self.line(self.program.variables[variable as usize], b" may be used before it is set")?;
        }
        Ok(())
    }

    fn busy(&mut self, test: usize, expressions: usize) -> io::Result<()> {
        let mut words = vec![0; expressions.div_ceil(64)];
        self.findings.busy.copy(test, &mut words);
        for (place, word) in words.iter().enumerate() {
            let mut left = *word;
            while left != 0 {
                let bit = 64 * place + left.trailing_zeros() as usize;
                left &= left - 1;
                self.output.put(&self.head)?;
                self.output.put(&self.busy_lines[self.busy_starts[bit] as usize..self.busy_starts[bit + 1] as usize])?;
            }
        }
        Ok(())
    }
}
