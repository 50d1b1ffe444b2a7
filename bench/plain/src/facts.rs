//! What is asked of the four analyses, found group by group, by one thread or several.

use crate::flow::Flow;
use crate::graph::{Graph, NONE};
use crate::solve::Solver;
use crate::transfer::{Analysis, Available, Busy, Group, Kills, Live, Reach, Transfer, Unset};
use crate::words::Words;
use std::sync::OnceLock;
use std::sync::atomic::{AtomicUsize, Ordering};

/// What a report says of a point; the first two are of the first and the second variable that is read.
pub const UNSET_FIRST: u8 = 1;
pub const UNSET_SECOND: u8 = 2;
pub const COMPUTED: u8 = 4;
pub const DEAD: u8 = 8;

/// Which bits hold at the blocks, by group: before the first point, or backwards behind the last.
pub struct Sets {
    pub words: usize,
    groups: Vec<Vec<u64>>,
}

impl Sets {
    fn new(words: usize, count: usize) -> Sets {
        Sets { words, groups: vec![Vec::new(); count] }
    }

    /// The words of all bits at the place of this number.
    pub fn copy(&self, place: usize, into: &mut [u64]) {
        for (group, into) in self.groups.iter().zip(into.chunks_mut(self.words)) {
            into.copy_from_slice(&group[place * self.words..place * self.words + into.len()]);
        }
    }
}

/// What is found for a report.
pub struct Findings {
    /// By point.
    pub remarks: Vec<u8>,
    /// By test: the very busy expressions.
    pub busy: Sets,
}

/// One group of one analysis.
struct Task {
    analysis: Analysis,
    group: usize,
}

/// The groups that are still to be solved, forward and backward.
struct Queue {
    tasks: [Vec<Task>; 2],
    taken: [AtomicUsize; 2],
}

impl Queue {
    fn new(graph: &Graph, analyses: &[Analysis], width: usize) -> Queue {
        let tasks = [false, true].map(|is_backward| {
            let chosen = analyses.iter().filter(|analysis| analysis.is_backward() == is_backward);
            let groups = chosen.flat_map(|analysis| (0..analysis.bits(graph).div_ceil(width)).map(|group| (*analysis, group)));
            groups.map(|(analysis, group)| Task { analysis, group }).collect()
        });
        Queue { tasks, taken: [AtomicUsize::new(0), AtomicUsize::new(0)] }
    }

    fn len(&self) -> usize {
        self.tasks.iter().map(Vec::len).sum()
    }

    fn take(&self, direction: usize) -> Option<&Task> {
        self.tasks[direction].get(self.taken[direction].fetch_add(1, Ordering::Relaxed))
    }
}

/// The ways of both directions, each found by the thread that needs it first.
pub struct Flows<'g> {
    graph: &'g Graph,
    flows: [OnceLock<Flow>; 2],
}

impl<'g> Flows<'g> {
    pub fn new(graph: &'g Graph) -> Flows<'g> {
        Flows { graph, flows: [OnceLock::new(), OnceLock::new()] }
    }

    pub fn get(&self, is_backward: bool) -> &Flow {
        self.flows[usize::from(is_backward)].get_or_init(|| Flow::build(self.graph, is_backward))
    }
}

/// What one thread has found.
struct Found {
    remarks: Vec<u8>,
    groups: Vec<(usize, Vec<u64>)>,
}

/// The blocks that end with a test.
pub fn tests(graph: &Graph) -> Vec<u32> {
    (0..graph.blocks.len() as u32).filter(|block| graph.blocks[*block as usize].is_test).collect()
}

struct Worker<'w, const N: usize> {
    graph: &'w Graph,
    flows: &'w Flows<'w>,
    /// The blocks of which the sets of very busy expressions are wanted.
    tests: &'w [u32],
    is_table: bool,
    found: Found,
}

pub fn report<const N: usize>(graph: &Graph, flows: &Flows, tests: &[u32], workers: usize) -> Findings {
    let queue = Queue::new(graph, &[Analysis::Unset, Analysis::Available, Analysis::Busy, Analysis::Live], 64 * N);
    let mut findings = Findings { remarks: vec![0; graph.points], busy: Sets::new(N, graph.expressions().div_ceil(64 * N)) };
    for found in run::<N>(graph, flows, tests, &queue, false, workers) {
        for (all, some) in findings.remarks.iter_mut().zip(&found.remarks) {
            *all |= some;
        }
        for (group, words) in found.groups {
            findings.busy.groups[group] = words;
        }
    }
    findings
}

pub fn table<const N: usize>(graph: &Graph, flows: &Flows, analysis: Analysis, workers: usize) -> Sets {
    let queue = Queue::new(graph, &[analysis], 64 * N);
    let mut sets = Sets::new(N, analysis.bits(graph).div_ceil(64 * N));
    for found in run::<N>(graph, flows, &[], &queue, true, workers) {
        for (group, words) in found.groups {
            sets.groups[group] = words;
        }
    }
    sets
}

fn run<const N: usize>(graph: &Graph, flows: &Flows, tests: &[u32], queue: &Queue, is_table: bool, workers: usize) -> Vec<Found> {
    let work = |number: usize| {
        let found = Found { remarks: vec![0; if is_table { 0 } else { graph.points }], groups: Vec::new() };
        let mut worker = Worker::<N> { graph, flows, tests, is_table, found };
        let mut solver = None;
        for direction in [number % 2, 1 - number % 2] {
            worker.work(queue, direction, &mut solver);
        }
        worker.found
    };
    let threads = workers.min(queue.len()).max(1) - 1;
    std::thread::scope(|scope| {
        let work = &work;
        let others: Vec<_> = (0..threads).map(|number| scope.spawn(move || work(number + 1))).collect();
        let mut found = vec![work(0)];
        found.extend(others.into_iter().map(|other| other.join().expect("a thread ends as it began")));
        found
    })
}

impl<'w, const N: usize> Worker<'w, N> {
    /// Solves the groups of a direction, as long as there are any.
    fn work(&mut self, queue: &Queue, direction: usize, solver: &mut Option<Solver<'w, N>>) {
        let (graph, flows) = (self.graph, self.flows);
        let mut is_turned = false;
        while let Some(task) = queue.take(direction) {
            let flow = flows.get(direction == 1);
            let solver = solver.get_or_insert_with(|| Solver::new(graph, flow));
            if !std::mem::replace(&mut is_turned, true) {
                solver.turn(flow);
            }
            let group = Group { first: task.group * 64 * N };
            let kills = |analysis| Kills::new(graph, analysis, group);
            match task.analysis {
                Analysis::Unset => self.solve(solver, task, &Unset(group)),
                Analysis::Live => self.solve(solver, task, &Live(group)),
                Analysis::Reach => self.solve(solver, task, &Reach(group, kills(Analysis::Reach))),
                Analysis::Available => self.solve(solver, task, &Available(group, kills(Analysis::Available))),
                Analysis::Busy => self.solve(solver, task, &Busy(group, kills(Analysis::Busy))),
            }
        }
    }

    fn solve(&mut self, solver: &mut Solver<N>, task: &Task, transfer: &impl Transfer<N>) {
        let group = Group { first: task.group * 64 * N };
        solver.solve(transfer, Words::below(group.first, task.analysis.brought(self.graph)));
        match (self.is_table, task.analysis) {
            (true, _) => self.keep_blocks(solver, task),
            (_, Analysis::Unset) => self.find_unset(solver, group, transfer),
            (_, Analysis::Available) => self.find_computed(solver, group, transfer),
            (_, Analysis::Live) => self.find_dead(solver, group, transfer),
            (_, Analysis::Busy | Analysis::Reach) => self.keep_tests(solver, task),
        }
    }

    fn keep_blocks(&mut self, solver: &Solver<N>, task: &Task) {
        let blocks = 0..self.graph.blocks.len() as u32;
        let words = self.words_at(solver, task, blocks);
        self.found.groups.push((task.group, words));
    }

    fn keep_tests(&mut self, solver: &Solver<N>, task: &Task) {
        let words = self.words_at(solver, task, self.tests.iter().copied());
        self.found.groups.push((task.group, words));
    }

    /// The sets at the blocks, complemented back where the analysis is one over every path.
    fn words_at(&self, solver: &Solver<N>, task: &Task, blocks: impl ExactSizeIterator<Item = u32>) -> Vec<u64> {
        let flow = self.flows.get(task.analysis.is_backward());
        let all = Words::<N>::below(task.group * 64 * N, task.analysis.bits(self.graph));
        let mut list = Vec::with_capacity(blocks.len() * N);
        for block in blocks {
            let mut bits = match flow.position[block as usize] {
                NONE => Words::NONE,
                position if flow.is_backward => solver.through_call(position as usize, &solver.bits(position as usize)),
                position => solver.bits(position as usize),
            };
            if task.analysis.is_over_every_path() {
                let mut others = all;
                others.remove(&bits);
                bits = others;
            }
            list.extend_from_slice(&bits.0);
        }
        list
    }

    fn find_unset(&mut self, solver: &Solver<N>, group: Group<N>, transfer: &impl Transfer<N>) {
        let remarks = &mut self.found.remarks;
        solver.walk(transfer, |point, effect, bits| {
            let is_unset = |variable| group.place(variable).is_some_and(|bit| bits.has(bit));
            remarks[point] |= if is_unset(effect.uses[0]) { UNSET_FIRST } else { 0 };
            remarks[point] |= if is_unset(effect.uses[1]) { UNSET_SECOND } else { 0 };
        });
    }

    fn find_computed(&mut self, solver: &Solver<N>, group: Group<N>, transfer: &impl Transfer<N>) {
        let remarks = &mut self.found.remarks;
        solver.walk(transfer, |point, effect, bits| {
            if group.place(effect.expression).is_some_and(|bit| !bits.has(bit)) {
                remarks[point] |= COMPUTED;
            }
        });
    }

    fn find_dead(&mut self, solver: &Solver<N>, group: Group<N>, transfer: &impl Transfer<N>) {
        let remarks = &mut self.found.remarks;
        solver.walk(transfer, |point, effect, bits| {
            if group.place(effect.write).is_some_and(|bit| !bits.has(bit)) {
                remarks[point] |= DEAD;
            }
        });
    }
}
