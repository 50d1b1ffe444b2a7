//! What the bits of a table are called.

use crate::graph::Graph;
use crate::listing::value;
use crate::output::Decimal;
use crate::program::Program;
use crate::transfer::Analysis;

const SEPARATOR: &[u8] = b", ";

/// All names in one text, each behind a separator, so that bits side by side are one piece.
pub struct BitNames {
    text: Vec<u8>,
    starts: Vec<u32>,
}

impl BitNames {
    pub fn new(program: &Program, graph: &Graph, analysis: Analysis) -> BitNames {
        let mut names = BitNames { text: Vec::new(), starts: Vec::new() };
        match analysis {
            Analysis::Reach | Analysis::Unset => names.put_definitions(program),
            Analysis::Live => names.put_variables(program),
            Analysis::Available | Analysis::Busy => names.put_expressions(program, graph),
        }
        names.starts.push(names.text.len() as u32);
        names
    }

    fn begin(&mut self) {
        self.starts.push(self.text.len() as u32);
        self.text.extend_from_slice(SEPARATOR);
    }

    fn put_definitions(&mut self, program: &Program) {
        for name in &program.variables {
            self.begin();
            self.text.extend_from_slice(name);
            self.text.extend_from_slice(b"@entry");
        }
        for statement in &program.statements {
            if let Some(variable) = statement.writes() {
                self.begin();
                self.text.extend_from_slice(program.variables[variable as usize]);
                self.text.push(b'@');
                self.text.extend_from_slice(Decimal::new(statement.line.into()).text());
            }
        }
    }

    fn put_variables(&mut self, program: &Program) {
        for name in &program.variables {
            self.begin();
            self.text.extend_from_slice(name);
        }
    }

    fn put_expressions(&mut self, program: &Program, graph: &Graph) {
        let mut point = 0;
        for number in 0..program.procedures.len() {
            for statement in &program.statements[program.statements_of(number)] {
                let next = self.starts.len();
                if statement.evaluates() && graph.effects[point].expression as usize == next {
                    self.begin();
                    value(program, statement, |bytes| self.text.extend_from_slice(bytes));
                }
                point += 1;
            }
            point += 1;
        }
    }

    pub fn name(&self, bit: usize) -> &[u8] {
        &self.text[self.starts[bit] as usize + SEPARATOR.len()..self.starts[bit + 1] as usize]
    }

    /// The names of a set in place of what the text holds.
    pub fn write_set(&self, words: &[u64], into: &mut Vec<u8>) {
        into.clear();
        let end = 64 * words.len();
        let mut bit = next(words, 0, 0);
        while bit < end {
            let behind = next(words, u64::MAX, bit);
            into.extend_from_slice(&self.text[self.starts[bit] as usize..self.starts[behind] as usize]);
            bit = next(words, 0, behind);
        }
        if into.is_empty() {
            into.extend_from_slice(b", -");
        }
    }
}

/// The next bit from `bit` on that is 1, or with `flip` of all ones that is 0; the number of bits where there is none.
fn next(words: &[u64], flip: u64, bit: usize) -> usize {
    let mut word = bit / 64;
    let mut mask = u64::MAX << (bit % 64);
    while let Some(bits) = words.get(word) {
        let found = (bits ^ flip) & mask;
        if found != 0 {
            return 64 * word + found.trailing_zeros() as usize;
        }
        mask = u64::MAX;
        word += 1;
    }
    64 * words.len()
}

/// How many bytes stand before the first name of a set.
pub const SKIPPED: usize = SEPARATOR.len();
