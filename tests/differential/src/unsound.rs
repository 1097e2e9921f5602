//! States that are mostly unsound, and often by one place only.

use crate::chains::{entries_at, MOST_STEPS};
use crate::numbers::{members, pick_or, some, Pairs};
use crate::places::{self, PLACES};
use crate::site::{Site, OTHER_LENGTHS};
use chance::Chance;
use reference::State;
use std::collections::BTreeSet;

/// The state with up to three places turned: what was listed is not, or the other way round; so with pairs.
pub fn turned(state: &State, chance: &mut Chance) -> State {
    let mut other = state.clone();
    for _ in 0..1 + chance.below(3) {
        turn(&mut other, chance);
    }
    other
}

/// The state with one import or export at 9 steps, if it has room for one.
pub fn one_step_too_far(state: &State, chance: &mut Chance) -> Option<State> {
    let object = chance.pick(&members(&state.objects));
    let entries = entries_at(state, object, MOST_STEPS + 1);
    if entries.is_empty() {
        return None;
    }
    let mut other = state.clone();
    match chance.pick(&entries) {
        (9, area) => other.imports.insert((object, area)),
        (_, area) => other.exports.insert((object, area)),
    };
    Some(other)
}

/// The state made unsound, or its record made none.
pub fn spoilt(state: &State, chance: &mut Chance) -> Site {
    let mut record = reference::to_record(state);
    if chance.once_in(3) {
        let length = chance.pick(&OTHER_LENGTHS[..9]);
        return Site::of_bytes(record.into_iter().cycle().take(length).collect());
    }
    loop {
        let site = match chance.once_in(4) {
            true => {
                places::turn(&mut record, chance.below(PLACES));
                Site::of_bytes(record.clone())
            }
            false => Site::of_state(&turned(state, chance)),
        };
        if site.state.as_ref().is_some_and(|state| !state.is_sound()) {
            return site;
        }
    }
}

/// Puts in an import by the definer of an object, and gives it as (object, area). None if nothing is defined.
pub fn add_own_import(state: &mut State, chance: &mut Chance) -> Option<(u8, u8)> {
    let definitions: Vec<(u8, u8)> = state.definitions.iter().copied().collect();
    let own = some(&definitions, chance)?;
    state.imports.insert(own);
    Some(own)
}

fn turn(state: &mut State, chance: &mut Chance) {
    let user = pick_or(&members(&state.users), 32, 8, chance);
    let area = pick_or(&members(&state.areas), 32, 8, chance);
    let other_area = pick_or(&members(&state.areas), 32, 8, chance);
    let object = pick_or(&members(&state.objects), 64, 8, chance);
    match chance.below(13) {
        0 => toggle(&mut state.users, user),
        1 => toggle(&mut state.areas, area),
        2 => toggle(&mut state.objects, object),
        3 => toggle(&mut state.owners, (user, area)),
        4 => toggle(&mut state.definitions, (object, area)),
        5 => toggle(&mut state.structure, (area, other_area)),
        6 => toggle(&mut state.imports, (object, area)),
        7 => toggle(&mut state.exports, (object, area)),
        8 => remove_one(&mut state.definitions, chance),
        9 => remove_one(&mut state.structure, chance),
        10 => remove_one(&mut state.exports, chance),
        11 => drop(add_own_import(state, chance)),
        _ => vouch(state, object, [area, other_area]),
    }
}

fn toggle<T: Copy + Ord>(set: &mut BTreeSet<T>, item: T) {
    if !set.remove(&item) {
        set.insert(item);
    }
}

fn remove_one(pairs: &mut Pairs, chance: &mut Chance) {
    let all: Vec<(u8, u8)> = pairs.iter().copied().collect();
    if !all.is_empty() {
        pairs.remove(&chance.pick(&all));
    }
}

/// Two areas in a cycle that both import and export the object, whether a chain leads to them or not.
fn vouch(state: &mut State, object: u8, [one, other]: [u8; 2]) {
    state.structure.extend([(one, other), (other, one)]);
    state.imports.extend([(object, one), (object, other)]);
    state.exports.extend([(object, one), (object, other)]);
}
