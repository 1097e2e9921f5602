//! How far an object is lent: the length of a shortest chain to each area, whatever its length. The tests aim with it
//! and count what they have met; no expected answer comes from here.

use reference::State;

/// "a table may be lent across at most 8 steps"
pub const MOST_STEPS: u8 = 8;

/// For each area the number of steps in a shortest chain. Any byte may be named as an area: a file can be wrong.
pub struct Lengths([Option<u8>; 256]);

impl Lengths {
    pub fn new(state: &State, object: u8) -> Lengths {
        let mut lengths = Lengths([None; 256]);
        let definitions = state.definitions.iter().filter(|pair| pair.0 == object);
        definitions.for_each(|pair| lengths.put(pair.1, 0));
        for steps in 0.. {
            let reached = lengths.one_step_on(state, object, steps);
            if reached.is_empty() {
                break;
            }
            reached.into_iter().for_each(|area| lengths.put(area, steps + 1));
        }
        lengths
    }

    pub fn to(&self, area: u8) -> Option<u8> {
        self.0[usize::from(area)]
    }

    fn put(&mut self, area: u8, steps: u8) {
        self.0[usize::from(area)] = Some(steps);
    }

    /// The new areas one step from those at so many steps. "Export: the object is exported by s and (s, r) is a
    /// structure pair. Import: it is imported by r and (r, s) is a structure pair."
    fn one_step_on(&self, state: &State, object: u8, steps: u8) -> Vec<u8> {
        let at = |area: u8| self.to(area) == Some(steps);
        let new = |area: u8| self.to(area).is_none();
        let mut reached = Vec::new();
        for &(inner, outer) in &state.structure {
            if at(inner) && new(outer) && state.exports.contains(&(object, inner)) {
                reached.push(outer);
            }
            if at(outer) && new(inner) && state.imports.contains(&(object, inner)) {
                reached.push(inner);
            }
        }
        reached
    }

    fn has_access(&self, area: u8) -> bool {
        self.to(area).is_some_and(|steps| steps <= MOST_STEPS)
    }

    /// Has an area access, and none by the other lengths?
    pub fn gain_on(&self, other: &Lengths) -> bool {
        (0..=u8::MAX).any(|area| self.has_access(area) && !other.has_access(area))
    }

    /// The length for an area that would import the object: over its nearest outer area, or as it is.
    fn with_import(&self, state: &State, area: u8) -> Option<u8> {
        let outer_areas = state.structure.range((area, 0)..=(area, 255)).map(|pair| pair.1);
        let over_them = outer_areas.filter_map(|outer| self.to(outer)).map(|steps| steps + 1);
        over_them.chain(self.to(area)).min()
    }
}

/// The imports and exports of the object that are not there and would stand at so many steps: for each the code of the
/// instruction that adds it, 9 or 11, and the area.
pub fn entries_at(state: &State, object: u8, steps: u8) -> Vec<(u8, u8)> {
    let lengths = Lengths::new(state, object);
    let areas = || state.areas.iter().copied();
    let imports = areas()
        .filter(|&area| !state.imports.contains(&(object, area)))
        .filter(|&area| lengths.with_import(state, area) == Some(steps));
    let exports = areas()
        .filter(|&area| !state.exports.contains(&(object, area)))
        .filter(|&area| lengths.to(area) == Some(steps));
    imports
        .map(|area| (9, area))
        .chain(exports.map(|area| (11, area)))
        .collect()
}
