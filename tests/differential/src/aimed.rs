//! Instructions that the limit on steps decides about, or that change how far an object is from an area.

use crate::borders::{given, is_small};
use crate::chains::{entries_at, Lengths, MOST_STEPS};
use crate::numbers::{firsts_with, members, seconds_with, some};
use chance::Chance;
use reference::State;

/// So many removals are tried for one that makes a way just so long.
const TRIES: usize = 6;

/// By someone who has the ownership that it takes, if one of the activators has. None if none was found.
pub fn instruction(state: &State, activators: &[u8], chance: &mut Chance) -> Option<[u8; 4]> {
    let objects = members(&state.objects);
    if objects.is_empty() || is_small(state) {
        return None;
    }
    let object = chance.pick(&objects);
    let [code, a, b] = match chance.below(3) {
        0 => entry(state, object, chance)?,
        1 => removal(state, object, chance)?,
        _ => shortcut(state, object, chance.pick(activators), chance)?,
    };
    let mut entitled = firsts_with(&state.owners, a);
    entitled.retain(|user| activators.contains(user));
    if code == 5 {
        entitled.retain(|&user| state.owners.contains(&(user, b)));
    }
    let activator = chance.pick(if entitled.is_empty() { activators } else { &entitled });
    Some([code, activator, a, b])
}

/// An import or export at 8 or 9 steps.
fn entry(state: &State, object: u8, chance: &mut Chance) -> Option<[u8; 3]> {
    let steps = chance.pick(&[MOST_STEPS, MOST_STEPS + 1]);
    let (code, area) = some(&entries_at(state, object, steps), chance)?;
    Some([code, area, object])
}

/// A removal after which the farthest import or export is at 8 to 10 steps, and was nearer before.
fn removal(state: &State, object: u8, chance: &mut Chance) -> Option<[u8; 3]> {
    let before = farthest_entry(state, object);
    let makes_it_so_long = |&[code, a, b]: &[u8; 3]| {
        let after = farthest_entry(&given(state, [code, 0, a, b]), object);
        after > before && after.is_some_and(|steps| (MOST_STEPS..=MOST_STEPS + 2).contains(&steps))
    };
    let mut tried = (0..TRIES).filter_map(|_| any_removal(state, object, chance));
    tried.find(makes_it_so_long)
}

fn any_removal(state: &State, object: u8, chance: &mut Chance) -> Option<[u8; 3]> {
    let code = chance.pick(&[6, 10, 10, 12]);
    if code == 6 {
        let pairs: Vec<(u8, u8)> = state.structure.iter().copied().collect();
        return some(&pairs, chance).map(|(inner, outer)| [code, inner, outer]);
    }
    let entries = if code == 10 { &state.imports } else { &state.exports };
    some(&seconds_with(entries, object), chance).map(|area| [code, area, object])
}

/// How many steps the farthest import or export of the object is away, if each has a chain.
fn farthest_entry(state: &State, object: u8) -> Option<u8> {
    let lengths = Lengths::new(state, object);
    let mut areas = seconds_with(&state.imports, object);
    areas.extend(seconds_with(&state.exports, object));
    let steps: Option<Vec<u8>> = areas.into_iter().map(|area| lengths.to(area)).collect();
    steps?.into_iter().max()
}

/// A structure pair of the owner's areas by which the object comes to one of them in fewer steps.
fn shortcut(state: &State, object: u8, owner: u8, chance: &mut Chance) -> Option<[u8; 3]> {
    let lengths = Lengths::new(state, object);
    let own = seconds_with(&state.owners, owner);
    let mut pairs = Vec::new();
    for &near in &own {
        for &far in &own {
            match (lengths.to(near), lengths.to(far)) {
                (Some(here), Some(there)) if here + 1 < there => {}
                _ => continue,
            }
            if state.exports.contains(&(object, near)) {
                pairs.push([5, near, far]);
            }
            if state.imports.contains(&(object, far)) {
                pairs.push([5, far, near]);
            }
        }
    }
    some(&pairs, chance)
}
