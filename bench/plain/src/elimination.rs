//! A part of blocks in which facts go round, solved block by block as linear equations are, and not in rounds.
//!
//! Each block in turn is taken out: what comes to it goes on to the blocks behind it by edges that stand for the ways through it, and what
//! it makes on its way round to itself is made of all that comes. Then, from the last to the first, each block gets its facts from those that
//! were left when it was taken out. The order of blocks is one that makes few edges; it does not depend on the bits, so that it is planned once.

use crate::graph::NONE;
use std::cmp::Reverse;
use std::collections::BinaryHeap;
use std::ops::Range;

/// An edge and the block at its other end, by position.
#[derive(Clone, Copy)]
pub struct End {
    pub block: u32,
    pub edge: u32,
}

/// The edge `first` and then `second` are a way that `both` stands for.
#[derive(Clone, Copy)]
pub struct Join {
    pub first: u32,
    pub second: u32,
    pub both: u32,
}

pub struct Removal {
    pub block: u32,
    /// The edge from the block to itself, or NONE.
    pub own: u32,
    pub before: Vec<End>,
    pub behind: Vec<End>,
    pub joins: Range<usize>,
}

pub struct Plan {
    /// The block that each of the first edges leads from.
    pub sources: Vec<u32>,
    pub edges: usize,
    pub joins: Vec<Join>,
    pub removals: Vec<Removal>,
}

/// So many new ways for each block are too many: rounds are quicker.
const WAYS: usize = 32;

struct Planner {
    start: u32,
    before: Vec<Vec<End>>,
    behind: Vec<Vec<End>>,
    own: Vec<u32>,
    plan: Plan,
}

/// The plan for the blocks from `start` on, of which `next` has the edges; None where it would take too many ways.
pub fn plan(part: Range<usize>, next: impl Fn(usize) -> Vec<u32>) -> Option<Plan> {
    let count = part.len();
    let mut planner = Planner {
        start: part.start as u32,
        before: vec![Vec::new(); count],
        behind: vec![Vec::new(); count],
        own: vec![NONE; count],
        plan: Plan { sources: Vec::new(), edges: 0, joins: Vec::new(), removals: Vec::with_capacity(count) },
    };
    for from in part.clone() {
        for to in next(from).into_iter().filter(|to| part.contains(&(*to as usize))) {
            planner.plan.sources.push(from as u32);
            planner.edge(from as u32, to);
        }
    }
    planner.remove_all(count)?;
    Some(planner.plan)
}

impl Planner {
    fn at(&self, position: u32) -> usize {
        (position - self.start) as usize
    }

    /// The edge between two blocks, which is made where it is not there.
    fn edge(&mut self, from: u32, to: u32) -> u32 {
        let (first, second) = (self.at(from), self.at(to));
        let known =
            if from == to { Some(self.own[first]) } else { self.behind[first].iter().find(|end| end.block == to).map(|end| end.edge) };
        if let Some(edge) = known.filter(|edge| *edge != NONE) {
            return edge;
        }
        let edge = self.plan.edges as u32;
        self.plan.edges += 1;
        if from == to {
            self.own[first] = edge;
        } else {
            self.behind[first].push(End { block: to, edge });
            self.before[second].push(End { block: from, edge });
        }
        edge
    }

    fn cost(&self, place: usize) -> usize {
        self.before[place].len() * self.behind[place].len()
    }

    fn remove_all(&mut self, count: usize) -> Option<()> {
        let mut heap: BinaryHeap<_> = (0..count).map(|place| Reverse((self.cost(place), place))).collect();
        let mut is_removed = vec![false; count];
        while let Some(Reverse((cost, place))) = heap.pop() {
            if is_removed[place] || cost != self.cost(place) {
                continue;
            }
            is_removed[place] = true;
            let changed = self.remove(place);
            if self.plan.joins.len() > WAYS * count {
                return None;
            }
            for other in changed {
                heap.push(Reverse((self.cost(other), other)));
            }
        }
        Some(())
    }

    /// Takes a block out, and gives the places of the blocks around it.
    fn remove(&mut self, place: usize) -> Vec<usize> {
        let block = place as u32 + self.start;
        let before = std::mem::take(&mut self.before[place]);
        let behind = std::mem::take(&mut self.behind[place]);
        let first = self.plan.joins.len();
        for from in &before {
            let at = self.at(from.block);
            self.behind[at].retain(|end| end.block != block);
        }
        for to in &behind {
            let at = self.at(to.block);
            self.before[at].retain(|end| end.block != block);
        }
        for from in &before {
            for to in &behind {
                let both = self.edge(from.block, to.block);
                self.plan.joins.push(Join { first: from.edge, second: to.edge, both });
            }
        }
        let changed = before.iter().chain(&behind).map(|end| self.at(end.block)).collect();
        let joins = first..self.plan.joins.len();
        self.plan.removals.push(Removal { block, own: self.own[place], before, behind, joins });
        changed
    }
}
