//! "The access rule is a layer by itself, and the machine, the reader and every tool use it through its promise only."
//!
//! The promise: [`shortest_chain`] is the least number of steps from the defining area, or `None` where no chain of
//! [`MOST_STEPS`] steps or fewer leads; [`reach`] has it for each area that has access.

use crate::state::{beside, firsts, State};
use std::collections::{BTreeMap, BTreeSet};

/// Document 02, point 2: "The product committee has ruled that a table may be lent across at most 8 steps."
pub(crate) const MOST_STEPS: u8 = 8;

/// "An object moves one *step* from s to r in two cases." The r of both cases, for the object and one s, as far as they are in `among`.
fn steps_from<'a>(state: &'a State, object: u8, s: u8, among: &'a BTreeSet<u8>) -> impl Iterator<Item = u8> + 'a {
    exported_to(state, object, s, among).chain(imported_from(state, object, s, among))
}

/// "Export: the object is exported by s and (s, r) is a structure pair."
fn exported_to<'a>(state: &'a State, object: u8, s: u8, among: &'a BTreeSet<u8>) -> impl Iterator<Item = u8> + 'a {
    let exported_by_s = state.exports.contains(&(object, s));
    let outer_areas = exported_by_s.then(|| beside(&state.structure, s)).into_iter().flatten();
    outer_areas.filter(|r| among.contains(r))
}

/// "Import: it is imported by r and (r, s) is a structure pair."
fn imported_from<'a>(state: &'a State, object: u8, s: u8, among: &'a BTreeSet<u8>) -> impl Iterator<Item = u8> + 'a {
    let importing = beside(&state.imports, object).filter(|r| among.contains(r));
    importing.filter(move |&r| state.structure.contains(&(r, s)))
}

/// "An area has *access* to an object if it defines it or a chain of steps leads to it from the defining area."
/// Document 02, point 2: "Access now means a chain of 8 steps or fewer, everywhere: the question, imports, removals and files."
///
/// Breadth first: each area with access, with "the number of steps in a shortest chain, 0 for the defining area".
pub(crate) fn reach(state: &State, object: u8) -> BTreeMap<u8, u8> {
    let mut reached = BTreeMap::new();
    let mut unreached: BTreeSet<u8> = (0..State::AREAS).collect();
    let mut layer: BTreeSet<u8> = beside(&state.definitions, object).collect();
    let mut steps = 0;
    while !layer.is_empty() && steps <= MOST_STEPS {
        reached.extend(layer.iter().map(|&area| (area, steps)));
        unreached.retain(|area| !layer.contains(area));
        if unreached.is_empty() {
            break;
        }
        layer = layer.iter().flat_map(|&s| steps_from(state, object, s, &unreached)).collect();
        steps += 1;
    }
    reached
}

/// "the number of steps in a shortest chain, 0 for the defining area", or "no access".
/// Document 02, point 2: "The step answer never passes 8."
pub(crate) fn shortest_chain(state: &State, area: u8, object: u8) -> Option<u8> {
    reach(state, object).get(&area).copied()
}

/// "valid: for each import or export pair the area has access to the object"
pub(crate) fn is_valid(state: &State) -> bool {
    let mut named = firsts(&state.imports);
    named.extend(firsts(&state.exports));
    named.into_iter().all(|object| {
        let reached = reach(state, object);
        let mut areas = beside(&state.imports, object).chain(beside(&state.exports, object));
        areas.all(|area| reached.contains_key(&area))
    })
}
