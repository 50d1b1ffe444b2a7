//! Procedures that call one another, and an order of them in which few calls go to a later one.

use crate::graph::NONE;

/// Tarjan's strong components of the procedures that are entered, callees first; `callees` has the number of calls with each. In a
/// component those come first whose exits are known first.
pub fn components(callees: &[Vec<(u32, u32)>], main: usize, exit_rounds: &[u32]) -> Vec<Vec<u32>> {
    let count = callees.len();
    let mut components = Components {
        callees,
        number: vec![NONE; count],
        low: vec![0; count],
        is_open: vec![false; count],
        open: Vec::new(),
        found: Vec::new(),
        counter: 0,
    };
    components.visit(main as u32);
    let mut found: Vec<Vec<u32>> = components.found.into_iter().map(|component| ordered(callees, component)).collect();
    found.iter_mut().for_each(|component| component.sort_by_key(|member| exit_rounds[*member as usize]));
    found
}

struct Components<'c> {
    callees: &'c [Vec<(u32, u32)>],
    number: Vec<u32>,
    low: Vec<u32>,
    is_open: Vec<bool>,
    open: Vec<u32>,
    found: Vec<Vec<u32>>,
    counter: u32,
}

impl Components<'_> {
    /// As many calls deep as there are procedures: at most 256, or 16,384 within the large limits.
    fn visit(&mut self, procedure: u32) {
        let at = procedure as usize;
        self.number[at] = self.counter;
        self.low[at] = self.counter;
        self.counter += 1;
        self.is_open[at] = true;
        self.open.push(procedure);
        let callees = self.callees;
        for (callee, _) in &callees[at] {
            if self.number[*callee as usize] == NONE {
                self.visit(*callee);
                self.low[at] = self.low[at].min(self.low[*callee as usize]);
            } else if self.is_open[*callee as usize] {
                self.low[at] = self.low[at].min(self.number[*callee as usize]);
            }
        }
        if self.low[at] == self.number[at] {
            let first = self.open.iter().rposition(|open| *open == procedure).unwrap();
            let component = self.open.split_off(first);
            component.iter().for_each(|member| self.is_open[*member as usize] = false);
            self.found.push(component);
        }
    }
}

/// The order of Eades, Lin and Smyth: who calls nobody that is left comes first, who is called by nobody last; else who calls most and is
/// called least, by the numbers of calls, is put last.
fn ordered(callees: &[Vec<(u32, u32)>], component: Vec<u32>) -> Vec<u32> {
    let mut is_left = vec![false; callees.len()];
    component.iter().for_each(|member| is_left[*member as usize] = true);
    let mut made = vec![0i64; callees.len()];
    let mut got = vec![0i64; callees.len()];
    let mut callers: Vec<Vec<(u32, u32)>> = vec![Vec::new(); callees.len()];
    for caller in &component {
        for (callee, count) in callees[*caller as usize].iter().filter(|(callee, _)| is_left[*callee as usize] && callee != caller) {
            made[*caller as usize] += i64::from(*count);
            got[*callee as usize] += i64::from(*count);
            callers[*callee as usize].push((*caller, *count));
        }
    }
    let mut left = component;
    let (mut first, mut last) = (Vec::new(), Vec::new());
    while !left.is_empty() {
        let leaf = left.iter().position(|member| made[*member as usize] == 0);
        let caller = |member: &u32| if got[*member as usize] == 0 { i64::MAX } else { made[*member as usize] - got[*member as usize] };
        let chosen = leaf.unwrap_or_else(|| (0..left.len()).max_by_key(|place| caller(&left[*place])).unwrap());
        let member = left.swap_remove(chosen);
        is_left[member as usize] = false;
        if leaf.is_some() {
            first.push(member)
        } else {
            last.push(member)
        }
        for (callee, count) in callees[member as usize].iter().filter(|(callee, _)| is_left[*callee as usize]) {
            got[*callee as usize] -= i64::from(*count);
        }
        for (caller, count) in &callers[member as usize] {
            made[*caller as usize] -= i64::from(*count);
        }
    }
    first.extend(last.into_iter().rev());
    first
}
