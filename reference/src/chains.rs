//! Document 02, point 5: "the chain of areas from the definer".
//!
//! The steps of an object are a set of pairs, and the chains are listed one by one. Neither uses the search of
//! `access.rs`, and the number of chains is found without listing them.

use crate::access::MOST_STEPS;
use crate::state::{beside, State};
use std::collections::{BTreeMap, BTreeSet};

/// "An object moves one *step* from s to r in two cases." All pairs (s, r) of the object.
pub(crate) fn steps_of(state: &State, object: u8) -> BTreeSet<(u8, u8)> {
    // "Export: the object is exported by s and (s, r) is a structure pair."
    let exported = state.structure.iter().filter(|&&(s, _)| state.exports.contains(&(object, s)));
    // "Import: it is imported by r and (r, s) is a structure pair."
    let imported = state.structure.iter().filter(|&&(r, _)| state.imports.contains(&(object, r)));
    exported.copied().chain(imported.map(|&(r, s)| (s, r))).collect()
}

/// Document 02, point 5: "the chain of areas from the definer: a shortest one". All of them, each once.
///
/// Each has the definer in front and the area at its end. None where the area lacks access.
///
/// The chains grow by one step at a time until some end at the area. They never come back to where one has been: that
/// area has a chain of fewer steps, and each front part of a shortest chain is a shortest one to where it ends. So the
/// sizes of the layers multiply, and 31 areas in 8 layers make 4 * 4 * 4 * 4 * 4 * 4 * 4 * 3 = 49,152 chains at most.
pub fn shortest_chains(state: &State, area: u8, object: u8) -> Vec<Vec<u8>> {
    let steps = steps_of(state, object);
    let mut passed = BTreeSet::new();
    let mut chains: Vec<Vec<u8>> = beside(&state.definitions, object).map(|definer| vec![definer]).collect();
    for _ in 0..MOST_STEPS {
        if chains.iter().any(|chain| chain.ends_with(&[area])) {
            break;
        }
        passed.extend(chains.iter().flatten().copied());
        chains = chains.iter().flat_map(|chain| one_step_longer(chain, &steps, &passed)).collect();
    }
    chains.retain(|chain| chain.ends_with(&[area]));
    chains
}

/// The chain with each area behind it that is one step on and was not passed.
fn one_step_longer(chain: &[u8], steps: &BTreeSet<(u8, u8)>, passed: &BTreeSet<u8>) -> Vec<Vec<u8>> {
    let areas_on = chain.last().into_iter().flat_map(|&last| beside(steps, last));
    let not_passed = areas_on.filter(|area| !passed.contains(area));
    not_passed.map(|area| [chain, &[area]].concat()).collect()
}

/// How many shortest chains there are, 0 where the area lacks access.
///
/// The ways to an area in one step more are the ways to the areas one step before it, added up. The first number of
/// steps in which a way leads to the area is the least, so those ways are the shortest chains.
pub fn count_shortest_chains(state: &State, area: u8, object: u8) -> u64 {
    let steps = steps_of(state, object);
    let mut ways: BTreeMap<u8, u64> = beside(&state.definitions, object).map(|definer| (definer, 1)).collect();
    for _ in 0..MOST_STEPS {
        if ways.contains_key(&area) {
            break;
        }
        let mut longer: BTreeMap<u8, u64> = BTreeMap::new();
        for (s, r) in &steps {
            if let Some(&more) = ways.get(s) {
                let sum = longer.entry(*r).or_default();
                *sum = sum.saturating_add(more);
            }
        }
        ways = longer;
    }
    ways.get(&area).copied().unwrap_or(0)
}
