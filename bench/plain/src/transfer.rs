//! What statements do to a group of bits in the may form of each analysis (`docs/ANALYSES.md`, "One form for all four").

use crate::graph::{Effect, Graph};
use crate::limits::{Bit, NO_BIT};
use crate::words::{Effects, Words};

#[derive(Clone, Copy, PartialEq, Eq)]
pub enum Analysis {
    Reach,
    /// The first bits of reaching definitions alone: the values at the beginning.
    Unset,
    Live,
    Available,
    Busy,
}

impl Analysis {
    pub fn is_backward(self) -> bool {
        matches!(self, Analysis::Live | Analysis::Busy)
    }

    /// Whether the sets are complemented.
    pub fn is_over_every_path(self) -> bool {
        matches!(self, Analysis::Available | Analysis::Busy)
    }

    pub fn bits(self, graph: &Graph) -> usize {
        match self {
            Analysis::Reach => graph.definitions(),
            Analysis::Unset | Analysis::Live => graph.variables,
            Analysis::Available | Analysis::Busy => graph.expressions(),
        }
    }

    /// How many of the first bits hold at the beginning.
    pub fn brought(self, graph: &Graph) -> usize {
        match self {
            Analysis::Reach | Analysis::Unset => graph.variables,
            Analysis::Live => 0,
            Analysis::Available | Analysis::Busy => graph.expressions(),
        }
    }
}

/// A statement of a way, in the direction of the facts.
pub trait Transfer<const N: usize> {
    /// Whether it does anything to the group's bits, or asks for one of them.
    fn touches(&self, effect: &Effect) -> bool;
    fn apply(&self, effect: &Effect, way: &mut Effects<N>);
}

/// The group of bits that begins with a bit.
#[derive(Clone, Copy)]
pub struct Group<const N: usize> {
    pub first: usize,
}

impl<const N: usize> Group<N> {
    /// The place of a bit in the group, if it lies there.
    #[inline(always)]
    pub fn place(self, bit: Bit) -> Option<usize> {
        let place = (bit as usize).wrapping_sub(self.first);
        (place < 64 * N && bit != NO_BIT).then_some(place)
    }
}

pub struct Unset<const N: usize>(pub Group<N>);

impl<const N: usize> Group<N> {
    #[inline(always)]
    fn has_any(self, effect: &Effect) -> bool {
        let has = |bit: Bit| (bit as usize).wrapping_sub(self.first) < 64 * N;
        has(effect.write) | has(effect.uses[0]) | has(effect.uses[1])
    }
}

impl<const N: usize> Transfer<N> for Unset<N> {
    #[inline(always)]
    fn touches(&self, effect: &Effect) -> bool {
        self.0.has_any(effect)
    }

    #[inline(always)]
    fn apply(&self, effect: &Effect, way: &mut Effects<N>) {
        if let Some(bit) = self.0.place(effect.write) {
            way.made.clear(bit);
            way.kept.clear(bit);
        }
    }
}

pub struct Live<const N: usize>(pub Group<N>);

impl<const N: usize> Transfer<N> for Live<N> {
    #[inline(always)]
    fn touches(&self, effect: &Effect) -> bool {
        self.0.has_any(effect)
    }

    #[inline(always)]
    fn apply(&self, effect: &Effect, way: &mut Effects<N>) {
        if let Some(bit) = self.0.place(effect.write) {
            way.made.clear(bit);
            way.kept.clear(bit);
        }
        for variable in effect.uses {
            if let Some(bit) = self.0.place(variable) {
                way.made.set(bit);
            }
        }
    }
}

/// Of each variable the bits of a group that its assignments kill.
pub struct Kills<const N: usize> {
    number: Vec<Bit>,
    words: Vec<Words<N>>,
}

impl<const N: usize> Kills<N> {
    pub fn new(graph: &Graph, analysis: Analysis, group: Group<N>) -> Kills<N> {
        let mut kills = Kills { number: vec![NO_BIT; graph.variables], words: Vec::new() };
        let end = analysis.bits(graph).min(group.first + 64 * N);
        for bit in group.first..end {
            if analysis == Analysis::Reach {
                kills.add(graph.defined(bit) as Bit, bit - group.first);
            } else {
                graph.operands(bit).into_iter().for_each(|variable| kills.add(variable, bit - group.first));
            }
        }
        kills
    }

    fn add(&mut self, variable: Bit, bit: usize) {
        let Some(number) = self.number.get_mut(variable as usize) else { return };
        if *number == NO_BIT {
            *number = self.words.len() as Bit;
            self.words.push(Words::NONE);
        }
        self.words[*number as usize].set(bit);
    }

    #[inline(always)]
    fn of(&self, variable: Bit) -> Option<&Words<N>> {
        let number = *self.number.get(variable as usize)?;
        self.words.get(number as usize)
    }
}

pub struct Reach<const N: usize>(pub Group<N>, pub Kills<N>);

impl<const N: usize> Transfer<N> for Reach<N> {
    #[inline(always)]
    fn touches(&self, effect: &Effect) -> bool {
        self.1.of(effect.write).is_some()
    }

    #[inline(always)]
    fn apply(&self, effect: &Effect, way: &mut Effects<N>) {
        if let Some(kills) = self.1.of(effect.write) {
            way.made.remove(kills);
            way.kept.remove(kills);
            if let Some(bit) = self.0.place(effect.definition) {
                way.made.set(bit);
            }
        }
    }
}

pub struct Available<const N: usize>(pub Group<N>, pub Kills<N>);

impl<const N: usize> Transfer<N> for Available<N> {
    #[inline(always)]
    fn touches(&self, effect: &Effect) -> bool {
        self.0.place(effect.expression).is_some() || self.1.of(effect.write).is_some()
    }

    #[inline(always)]
    fn apply(&self, effect: &Effect, way: &mut Effects<N>) {
        if let Some(bit) = self.0.place(effect.expression) {
            way.made.clear(bit);
            // an expression that its own statement kills is kept as it was: the kill makes it below
            if !effect.uses.contains(&effect.write) {
                way.kept.clear(bit);
            }
        }
        if let Some(kills) = self.1.of(effect.write) {
            way.made.add(kills);
        }
    }
}

pub struct Busy<const N: usize>(pub Group<N>, pub Kills<N>);

impl<const N: usize> Transfer<N> for Busy<N> {
    #[inline(always)]
    fn touches(&self, effect: &Effect) -> bool {
        self.0.place(effect.expression).is_some() || self.1.of(effect.write).is_some()
    }

    #[inline(always)]
    fn apply(&self, effect: &Effect, way: &mut Effects<N>) {
        if let Some(kills) = self.1.of(effect.write) {
            way.made.add(kills);
        }
        if let Some(bit) = self.0.place(effect.expression) {
            way.made.clear(bit);
            way.kept.clear(bit);
        }
    }
}
