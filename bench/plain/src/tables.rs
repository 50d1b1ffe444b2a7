//! A table as text.

use crate::bit_names::{BitNames, SKIPPED};
use crate::facts::{Flows, Sets};
use crate::graph::Graph;
use crate::limits::{Bit, NO_BIT};
use crate::output::{Decimal, Output};
use crate::program::Program;
use crate::transfer::Analysis;
use std::io;

const LARGE: usize = 1 << 14;

struct TableWriter<'w> {
    program: &'w Program<'w>,
    graph: &'w Graph,
    analysis: Analysis,
    names: BitNames,
    /// Of each variable the bits that its assignments kill.
    kills: Vec<Vec<Bit>>,
    words: usize,
    /// The set that was written last, and its text.
    last: Vec<u64>,
    text: Vec<u8>,
}

pub fn write(program: &Program, graph: &Graph, flows: &Flows, sets: &Sets, analysis: Analysis, output: &mut Output) -> io::Result<()> {
    let words = analysis.bits(graph).div_ceil(64);
    let names = BitNames::new(program, graph, analysis);
    let kills = kills(graph, analysis);
    let mut writer = TableWriter { program, graph, analysis, names, kills, words, last: vec![0; words], text: b", -".to_vec() };
    let flow = flows.get(analysis.is_backward());
    let mut bits = Vec::new();
    for block in 0..graph.blocks.len() {
        let count = graph.points_of(block).len();
        bits.clear();
        bits.resize(count * words, 0);
        if flow.is_reached[block] {
            writer.fill(block, sets, &mut bits);
        } else {
            bits.chunks_exact_mut(words.max(1)).for_each(|bits| sets.copy(block, bits));
        }
        for (place, point) in graph.points_of(block).enumerate() {
            writer.line(point, block, flow.is_reached[block], &bits[place * words..(place + 1) * words], output)?;
        }
    }
    Ok(())
}

fn kills(graph: &Graph, analysis: Analysis) -> Vec<Vec<Bit>> {
    let mut kills = vec![Vec::new(); graph.variables];
    for bit in 0..analysis.bits(graph) {
        match analysis {
            Analysis::Reach | Analysis::Unset => kills[graph.defined(bit)].push(bit as Bit),
            Analysis::Live => kills[bit].push(bit as Bit),
            Analysis::Available | Analysis::Busy => {
                for variable in graph.operands(bit).into_iter().filter(|variable| *variable != NO_BIT) {
                    kills[variable as usize].push(bit as Bit);
                }
            }
        }
    }
    kills
}

impl TableWriter<'_> {
    /// The bits at each point of a block, one behind the other.
    fn fill(&self, block: usize, sets: &Sets, bits: &mut [u64]) {
        let points = self.graph.points_of(block);
        let words = self.words;
        if self.analysis.is_backward() {
            let last = points.len() - 1;
            sets.copy(block, &mut bits[last * words..]);
            for place in (0..points.len()).rev() {
                if place < last {
                    bits.copy_within((place + 1) * words..(place + 2) * words, place * words);
                }
                self.apply(points.start + place, &mut bits[place * words..(place + 1) * words]);
            }
        } else {
            sets.copy(block, &mut bits[..words]);
            for place in 1..points.len() {
                bits.copy_within((place - 1) * words..place * words, place * words);
                self.apply(points.start + place - 1, &mut bits[place * words..(place + 1) * words]);
            }
        }
    }

    fn apply(&self, point: usize, bits: &mut [u64]) {
        let effect = &self.graph.effects[point];
        if let Some(kills) = self.kills.get(effect.write as usize) {
            for bit in kills {
                bits[*bit as usize / 64] &= !(1 << (bit % 64));
            }
        }
        let mut set = |bit: Bit| {
            if bit != NO_BIT {
                bits[bit as usize / 64] |= 1 << (bit % 64);
            }
        };
        match self.analysis {
            Analysis::Reach | Analysis::Unset => set(effect.definition),
            Analysis::Live => effect.uses.into_iter().for_each(set),
            Analysis::Available if effect.uses.contains(&effect.write) => (),
            Analysis::Available | Analysis::Busy => set(effect.expression),
        }
    }

    fn line(&mut self, point: usize, block: usize, has_path: bool, bits: &[u64], output: &mut Output) -> io::Result<()> {
        let procedure = self.graph.blocks[block].procedure as usize;
        let first = self.graph.blocks[self.graph.blocks_of(procedure).start].first as usize;
        output.put(self.program.procedures[procedure].name)?;
        output.put(b" ")?;
        output.put(Decimal::new((point - first) as u64).text())?;
        output.put(if has_path { b": " } else { b" (no path): " })?;
        if bits != self.last {
            self.last.copy_from_slice(bits);
            self.names.write_set(bits, &mut self.text);
        }
        let text = &self.text[SKIPPED..];
        if text.len() >= LARGE {
            output.put_large(text)?
        } else {
            output.put(text)?
        }
        output.put(b"\n")
    }
}
