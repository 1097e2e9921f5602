//! "A state is *sound* when it is consistent ..., acceptable ..., has at least one area, and is valid."
//!
//! Document 02, point 4, has one clause more, beside validity: no area imports what it defines.

use crate::access::is_valid;
use crate::state::{beside, firsts, seconds, State};
use std::collections::BTreeSet;

impl State {
    /// "A state is *sound* when it is consistent (whatever a pair names is listed), acceptable (...), has at least one area, and is
    /// valid: for each import or export pair the area has access to the object."
    /// Document 02, point 4: "a state with such an import is unsound".
    pub fn is_sound(&self) -> bool {
        is_numbered(self) && is_consistent(self) && is_acceptable(self) && !self.areas.is_empty() && is_valid(self) && !has_own_import(self)
    }
}

/// "Users and areas are numbered 0 to 31, objects 0 to 63."
fn is_numbered(state: &State) -> bool {
    let below = |list: &BTreeSet<u8>, limit: u8| list.iter().all(|&number| number < limit);
    below(&state.users, State::USERS) && below(&state.areas, State::AREAS) && below(&state.objects, State::OBJECTS)
}

/// "consistent (whatever a pair names is listed)"
pub(crate) fn is_consistent(state: &State) -> bool {
    names_listed(&state.owners, &state.users, &state.areas)
        && names_listed(&state.definitions, &state.objects, &state.areas)
        && names_listed(&state.structure, &state.areas, &state.areas)
        && names_listed(&state.imports, &state.objects, &state.areas)
        && names_listed(&state.exports, &state.objects, &state.areas)
}

/// "whatever a pair names is listed", for one relation and the lists that its two members are to be in.
fn names_listed(pairs: &BTreeSet<(u8, u8)>, first_list: &BTreeSet<u8>, second_list: &BTreeSet<u8>) -> bool {
    pairs
        .iter()
        .all(|(first, second)| first_list.contains(first) && second_list.contains(second))
}

/// "acceptable (every listed user owns an area, every listed area has an owner, every listed object is defined in exactly one area)"
fn is_acceptable(state: &State) -> bool {
    state.users.is_subset(&firsts(&state.owners))
        && state.areas.is_subset(&seconds(&state.owners))
        && state.objects.iter().all(|&object| beside(&state.definitions, object).count() == 1)
}

/// Document 02, point 4: "From now on no area may import an object that it defines". Both are pairs (object, area).
pub(crate) fn has_own_import(state: &State) -> bool {
    !state.imports.is_disjoint(&state.definitions)
}
