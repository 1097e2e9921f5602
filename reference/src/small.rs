//! Every sound state over users 0 and 1, areas 0 and 1, object 0.

use crate::state::State;
use std::collections::BTreeSet;

/// Every sound state over users 0 and 1, areas 0 and 1, object 0, each once.
///
/// A sound state stays sound without its structure, import and export pairs, so only such bare states are filled up.
pub fn small_states() -> BTreeSet<State> {
    let area_pairs = subsets(&[(0, 0), (0, 1), (1, 0), (1, 1)]);
    let object_pairs = subsets(&[(0, 0), (0, 1)]);
    let mut states = BTreeSet::new();
    for bare in bare_states().into_iter().filter(State::is_sound) {
        for structure in &area_pairs {
            for imports in &object_pairs {
                for exports in &object_pairs {
                    let (structure, imports, exports) = (structure.clone(), imports.clone(), exports.clone());
                    states.insert(State {
                        structure,
                        imports,
                        exports,
                        ..bare.clone()
                    });
                }
            }
        }
    }
    states.retain(State::is_sound);
    states
}

/// Every choice of lists, owner pairs and definition pairs, sound or not, with the other three relations empty.
fn bare_states() -> Vec<State> {
    let mut states = vec![State {
        users: BTreeSet::new(),
        areas: BTreeSet::new(),
        owners: BTreeSet::new(),
        ..State::founding()
    }];
    states = vary(states, &subsets(&[0, 1]), |state, users| state.users = users);
    states = vary(states, &subsets(&[0, 1]), |state, areas| state.areas = areas);
    states = vary(states, &subsets(&[0]), |state, objects| state.objects = objects);
    states = vary(states, &subsets(&[(0, 0), (0, 1), (1, 0), (1, 1)]), |state, owners| {
        state.owners = owners
    });
    vary(states, &subsets(&[(0, 0), (0, 1)]), |state, definitions| {
        state.definitions = definitions
    })
}

/// Each state with each choice put into it.
fn vary<T: Clone>(states: Vec<State>, choices: &[T], put: impl Fn(&mut State, T)) -> Vec<State> {
    let mut varied = Vec::new();
    for state in states {
        for choice in choices {
            let mut other = state.clone();
            put(&mut other, choice.clone());
            varied.push(other);
        }
    }
    varied
}

/// Every subset of the items.
fn subsets<T: Copy + Ord>(items: &[T]) -> Vec<BTreeSet<T>> {
    let mut all = vec![BTreeSet::new()];
    for &item in items {
        let with_item: Vec<BTreeSet<T>> = all.iter().map(|set| set.iter().copied().chain([item]).collect()).collect();
        all.extend(with_item);
    }
    all
}
