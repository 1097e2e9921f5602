//! Which chains of an object are the shortest. The tests count with it what they have met; no expected answer comes
//! from here.

use crate::chains::Lengths;
use reference::State;
use std::collections::{BTreeMap, BTreeSet};

/// The shortest chains of one object, whatever their length.
pub struct Shortest {
    pub lengths: Lengths,
    /// For each area with a chain, those that can stand before it on a shortest one.
    before: BTreeMap<u8, BTreeSet<u8>>,
}

impl Shortest {
    pub fn new(state: &State, object: u8) -> Shortest {
        let lengths = Lengths::new(state, object);
        let with_chain = state.areas.iter().filter(|&&area| lengths.to(area).is_some());
        let mut before: BTreeMap<u8, BTreeSet<u8>> = with_chain.map(|&area| (area, BTreeSet::new())).collect();
        for &(inner, outer) in &state.structure {
            let steps = [
                (inner, outer, state.exports.contains(&(object, inner))),
                (outer, inner, state.imports.contains(&(object, inner))),
            ];
            for (from, to, moves) in steps {
                let one_more = lengths.to(from).map(|length| length + 1);
                if moves && one_more.is_some() && one_more == lengths.to(to) {
                    before.entry(to).or_default().insert(from);
                }
            }
        }
        Shortest { lengths, before }
    }

    /// The chain that is the lowest compared from the back.
    pub fn lowest_from_back(&self, area: u8) -> Vec<u8> {
        let mut chain = vec![area];
        let mut now = area;
        while let Some(&lowest) = self.before[&now].first() {
            chain.insert(0, lowest);
            now = lowest;
        }
        chain
    }

    /// Is there another as long as this one?
    pub fn has_other(&self, chain: &[u8]) -> bool {
        chain.iter().any(|area| self.before[area].len() > 1)
    }

    /// Could a step of this chain, which is the lowest, go to a lower area, if that led on to the last one?
    pub fn passes_lower(&self, chain: &[u8]) -> bool {
        let lower_beside = |from: u8, to: u8| self.before.range(..to).any(|(_, before)| before.contains(&from));
        let but_the_last = &chain[..chain.len() - 1];
        but_the_last.windows(2).any(|step| lower_beside(step[0], step[1]))
    }
}
