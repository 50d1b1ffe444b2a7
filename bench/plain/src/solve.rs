//! The least solution of the equations for one group of bits, block by block.

use crate::elimination::Plan;
use crate::flow::{Flow, Part, Section};
use crate::graph::{Effect, Graph, NONE};
use crate::transfer::Transfer;
use crate::words::{Effects, Words};
use std::ops::Range;

/// So many visits for each block of a part, and it is solved without rounds where it can be.
const VISITS: usize = 6;

pub struct Solver<'g, const N: usize> {
    graph: &'g Graph,
    flow: &'g Flow,
    /// By position: the ways from the procedure's entry.
    here: Vec<Effects<N>>,
    /// The ways through the blocks that do anything to the group, and by position which of these, or NONE.
    through: Vec<Effects<N>>,
    through_at: Vec<u32>,
    /// The statements that touch the group, in the direction of the facts: position and point.
    touched: Vec<(u32, u32)>,
    /// The ways along the edges of a part that is solved without rounds.
    edges: Vec<Effects<N>>,
    /// By procedure: the ways from its entry to its exit.
    exits: Vec<Effects<N>>,
    /// By set of callees: the ways through any of them, and whether an exit has had news since.
    sets: Vec<Effects<N>>,
    is_stale: Vec<bool>,
    dirty: Vec<u64>,
    /// By section: the bits that valid paths bring to its entry.
    brought: Vec<Words<N>>,
}

impl<'g, const N: usize> Solver<'g, N> {
    pub fn new(graph: &'g Graph, flow: &'g Flow) -> Solver<'g, N> {
        let mut solver = Solver {
            graph,
            flow,
            here: Vec::new(),
            through: Vec::new(),
            through_at: Vec::new(),
            touched: Vec::new(),
            edges: Vec::new(),
            exits: vec![Effects::NONE; graph.first_block.len() - 1],
            sets: vec![Effects::NONE; flow.returns.len()],
            is_stale: vec![false; flow.returns.len()],
            dirty: Vec::new(),
            brought: Vec::new(),
        };
        solver.turn(flow);
        solver
    }

    /// Goes on with another flow of the same graph, in the same memory.
    pub fn turn(&mut self, flow: &'g Flow) {
        self.flow = flow;
        self.here.resize(flow.blocks.len(), Effects::NONE);
        self.through_at.resize(flow.blocks.len(), NONE);
        self.dirty.resize(flow.blocks.len().div_ceil(64), 0);
        self.brought.resize(flow.sections.len(), Words::NONE);
    }

    pub fn solve(&mut self, transfer: &impl Transfer<N>, beginning: Words<N>) {
        self.begin(transfer);
        let flow = self.flow;
        for component in &flow.components {
            let sections = &flow.sections[component.clone()];
            let mut is_settled = false;
            while !is_settled {
                is_settled = true;
                for section in sections {
                    if self.next_dirty(section.positions.clone()).is_some() {
                        self.settle(section);
                        is_settled = false;
                    }
                }
            }
        }
        self.bring(beginning);
    }

    /// The bits that valid paths bring to a block.
    pub fn bits(&self, position: usize) -> Words<N> {
        self.here[position].of(&self.brought[self.flow.section_at[position] as usize])
    }

    /// The bits that come through a call, out of those before it.
    pub fn through_call(&self, position: usize, bits: &Words<N>) -> Words<N> {
        match self.flow.calls[position] {
            NONE => *bits,
            set => self.sets[set as usize].of(bits),
        }
    }

    fn begin(&mut self, transfer: &impl Transfer<N>) {
        self.exits.fill(Effects::NONE);
        self.sets.fill(Effects::NONE);
        self.dirty.fill(u64::MAX);
        self.brought.fill(Words::NONE);
        let flow = self.flow;
        self.here.fill(Effects::NONE);
        self.through.clear();
        self.through_at.fill(NONE);
        self.touched.clear();
        for (position, block) in flow.blocks.iter().enumerate() {
            let points = self.graph.points_of(*block as usize);
            if flow.is_backward {
                points.rev().for_each(|point| self.touch(transfer, position, point));
            } else {
                points.for_each(|point| self.touch(transfer, position, point));
            }
        }
        for section in &flow.sections {
            self.here[section.entry] = Effects::SAME;
        }
    }

    #[inline(always)]
    fn touch(&mut self, transfer: &impl Transfer<N>, position: usize, point: usize) {
        let effect = &self.graph.effects[point];
        if transfer.touches(effect) {
            self.touched.push((position as u32, point as u32));
            if self.through_at[position] == NONE {
                self.through_at[position] = self.through.len() as u32;
                self.through.push(Effects::SAME);
            }
            transfer.apply(effect, self.through.last_mut().unwrap());
        }
    }

    /// Goes over the statements that touch the group; `look` sees a point and the bits that come to it in the direction of the facts.
    pub fn walk(&self, transfer: &impl Transfer<N>, mut look: impl FnMut(usize, &Effect, &Words<N>)) {
        for statements in self.touched.chunk_by(|one, next| one.0 == next.0) {
            let position = statements[0].0 as usize;
            let bits = self.bits(position);
            let bits = if self.flow.is_backward { self.through_call(position, &bits) } else { bits };
            let mut way = Effects { made: bits, kept: Words::NONE };
            for (_, point) in statements {
                let effect = &self.graph.effects[*point as usize];
                look(*point as usize, effect, &way.made);
                transfer.apply(effect, &mut way);
            }
        }
    }

    fn next_dirty(&self, positions: Range<usize>) -> Option<usize> {
        let mut word = positions.start / 64;
        let mut bits = *self.dirty.get(word)? & u64::MAX << (positions.start % 64);
        while bits == 0 {
            word += 1;
            if word * 64 >= positions.end {
                return None;
            }
            bits = self.dirty[word];
        }
        let position = word * 64 + bits.trailing_zeros() as usize;
        (position < positions.end).then_some(position)
    }

    fn mark(&mut self, position: usize) {
        self.dirty[position / 64] |= 1 << (position % 64);
    }

    /// Visits a section's blocks, part by part, until none of them has news.
    fn settle(&mut self, section: &Section) {
        let flow = self.flow;
        let mut at = section.positions.start;
        while let Some(first) = self.next_dirty(at..section.positions.end) {
            at = first + 1;
            if let Some(part) = flow.parts.get(flow.part_at[first] as usize) {
                at = part.positions.end;
                self.settle_part(section, part);
                continue;
            }
            while self.next_dirty(first..at).is_some() {
                self.visit(section, first);
            }
        }
    }

    fn settle_part(&mut self, section: &Section, part: &Part) {
        let mut visits = 0;
        while let Some(position) = self.next_dirty(part.positions.clone()) {
            visits += self.sweep(section, position..part.positions.end);
            if visits > VISITS * part.positions.len() {
                visits = 0;
                if let Some(plan) = self.flow.plan_of(part) {
                    self.eliminate(section, part.positions.clone(), plan);
                }
            }
        }
    }

    /// Visits the blocks with news once, in order, and counts them.
    fn sweep(&mut self, section: &Section, part: Range<usize>) -> usize {
        let mut from = part.start;
        let mut visits = 0;
        while let Some(position) = self.next_dirty(from..part.end) {
            self.visit(section, position);
            from = position + 1;
            visits += 1;
        }
        visits
    }

    fn eliminate(&mut self, section: &Section, part: Range<usize>, plan: &Plan) {
        self.edges.clear();
        for source in &plan.sources {
            let way = self.through(*source as usize, &Effects::SAME);
            self.edges.push(way);
        }
        self.edges.resize(plan.edges, Effects::NONE);
        for removal in &plan.removals {
            let block = removal.block as usize;
            if let Some(own) = self.edges.get(removal.own as usize).map(|own| own.made) {
                self.here[block].made.add(&own);
                let own = Effects { made: own, kept: Words::ALL };
                for end in &removal.behind {
                    self.edges[end.edge as usize] = own.then(&self.edges[end.edge as usize]);
                }
            }
            let here = self.here[block];
            for end in &removal.behind {
                self.here[end.block as usize].join(&here.then(&self.edges[end.edge as usize]));
            }
            for join in &plan.joins[removal.joins.clone()] {
                let both = self.edges[join.first as usize].then(&self.edges[join.second as usize]);
                self.edges[join.both as usize].join(&both);
            }
        }
        for removal in plan.removals.iter().rev() {
            let mut here = self.here[removal.block as usize];
            for end in &removal.before {
                here.join(&self.here[end.block as usize].then(&self.edges[end.edge as usize]));
            }
            self.here[removal.block as usize] = here;
        }
        part.for_each(|position| self.visit(section, position));
    }

    /// These ways, and then through a block and its call.
    #[inline(always)]
    fn through(&mut self, position: usize, before: &Effects<N>) -> Effects<N> {
        let call = self.flow.calls[position];
        if call == NONE {
            return self.through_block(position, before);
        }
        self.refresh(call as usize);
        if self.flow.is_backward {
            self.through_block(position, &before.then(&self.sets[call as usize]))
        } else {
            self.through_block(position, before).then(&self.sets[call as usize])
        }
    }

    #[inline(always)]
    fn through_block(&self, position: usize, before: &Effects<N>) -> Effects<N> {
        match self.through.get(self.through_at[position] as usize) {
            Some(through) => before.then(through),
            None => *before,
        }
    }

    /// Takes the news of a set's exits up.
    fn refresh(&mut self, set: usize) {
        if std::mem::replace(&mut self.is_stale[set], false) {
            for member in &self.graph.sets.members[set] {
                self.sets[set].join(&self.exits[*member as usize]);
            }
        }
    }

    fn visit(&mut self, section: &Section, position: usize) {
        let flow = self.flow;
        self.dirty[position / 64] &= !(1 << (position % 64));
        let here = self.here[position];
        let way = self.through(position, &here);
        for next in flow.next_of(position) {
            if self.here[*next as usize].join(&way) {
                self.mark(*next as usize);
            }
        }
        if position as u32 == section.exit {
            self.leave(section, &way);
        }
    }

    /// The ways to a procedure's exit are ways through its calls.
    fn leave(&mut self, section: &Section, way: &Effects<N>) {
        let procedure = section.procedure as usize;
        if self.exits[procedure].join(way) {
            for set in &self.graph.sets.with[procedure] {
                self.is_stale[*set as usize] = true;
            }
            for caller in &self.flow.callers[procedure] {
                self.dirty[*caller as usize / 64] |= 1 << (caller % 64);
            }
        }
    }

    /// Brings bits from callers to callees, until none of them has news.
    fn bring(&mut self, beginning: Words<N>) {
        let flow = self.flow;
        self.brought[flow.section_of[self.graph.main] as usize] = beginning;
        let ways: Vec<Effects<N>> = flow.sites.iter().map(|sites| self.way_to(&sites.positions)).collect();
        let mut is_dirty = vec![true; flow.sections.len()];
        for component in flow.components.iter().rev() {
            while is_dirty[component.clone()].contains(&true) {
                for section in component.clone().rev() {
                    if std::mem::replace(&mut is_dirty[section], false) {
                        self.bring_from(section, &ways, &mut is_dirty);
                    }
                }
            }
        }
    }

    fn bring_from(&mut self, section: usize, ways: &[Effects<N>], is_dirty: &mut [bool]) {
        let flow = self.flow;
        for site in flow.sections[section].sites.clone() {
            let bits = ways[site].of(&self.brought[section]);
            for member in &self.graph.sets.members[flow.sites[site].set as usize] {
                let callee = flow.section_of[*member as usize] as usize;
                if self.brought[callee].join(&bits) {
                    is_dirty[callee] = true;
                }
            }
        }
    }

    /// The ways from a procedure's entry to any of these calls.
    fn way_to(&self, positions: &[u32]) -> Effects<N> {
        let mut all = Effects::NONE;
        for position in positions {
            let here = &self.here[*position as usize];
            if self.flow.is_backward {
                all.join(here);
            } else {
                all.join(&self.through_block(*position as usize, here));
            }
        }
        all
    }
}
