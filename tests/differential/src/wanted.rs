//! Instructions that are refused with a wanted number, as far as the state has any.

use crate::instructions::{of_code, Domain};
use crate::numbers::{firsts_with, free, members, seconds_with, some, Pairs};
use chance::Chance;
use reference::State;

/// The numbers that can be wanted of a listed activator; 3 takes another.
pub const NUMBERS: [u8; 11] = [1, 2, 4, 5, 6, 7, 15, 8, 9, 10, 11];

/// So many instructions are tried for one with the number.
const TRIES: usize = 6;

/// Codes that are unknown: 0, and some above 12.
pub const NO_CODES: [u8; 6] = [0, 13, 14, 15, 128, 255];

/// An instruction of the activator that the state refuses with this number. None if none was found.
pub fn refusal(number: u8, state: &State, activator: u8, chance: &mut Chance) -> Option<[u8; 4]> {
    let mut tried = (0..TRIES).filter_map(|_| {
        let [code, a, b] = candidate(number, state, activator, chance)?;
        Some([code, activator, a, b])
    });
    tried.find(|&bytes| reference::step(state, bytes) == Err(number))
}

/// The codes that can be refused with the number.
fn codes(number: u8) -> &'static [u8] {
    match number {
        2 => &[1, 1, 1, 2, 2, 2, 3, 4, 5, 6, 7, 8, 9, 10, 11, 12],
        4 | 5 => &[2, 3, 4, 5, 6, 7, 8, 9, 10, 11, 12],
        6 => &[1, 3, 5, 7, 9, 11],
        7 => &[4, 6, 8, 10, 12],
        15 => &[9],
        8 => &[2, 4],
        9 => &[2],
        10 => &[9, 11],
        11 => &[6, 8, 10, 12],
        _ => &[1, 2, 3, 4, 5, 6, 7, 8, 9, 10, 11, 12],
    }
}

/// Code, a and b of an instruction that may have the number.
fn candidate(number: u8, state: &State, activator: u8, chance: &mut Chance) -> Option<[u8; 3]> {
    let code = chance.pick(codes(number));
    let [_, _, a, b] = of_code(code, state, &Domain::whole(&[activator]), chance);
    Some(match number {
        1 => [chance.pick(&NO_CODES), a, b],
        2 => out_of_range([code, a, b], chance),
        4 => unlisted(state, [code, a, b], chance)?,
        5 => not_owned(state, activator, [code, a, b], chance)?,
        6 | 11 => there(state, activator, [code, a, b], chance)?,
        7 => not_there(state, [code, a, b], chance)?,
        15 => own_pair(state, activator, code, &state.definitions, chance)?,
        8 if code == 4 => [4, a, activator],
        _ => [code, a, b],
    })
}

/// With one number above its limit, or a b that is to be 0.
fn out_of_range([code, a, b]: [u8; 3], chance: &mut Chance) -> [u8; 3] {
    let least_b = match code {
        1 | 2 => 1,
        3..=6 => 32,
        _ => 64,
    };
    let above = |least: u8, chance: &mut Chance| match chance.once_in(2) {
        true => least,
        false => least + chance.below(256 - usize::from(least)) as u8,
    };
    match chance.once_in(2) {
        true => [code, above(32, chance), b],
        false => [code, a, above(least_b, chance)],
    }
}

/// With a or b that is not listed.
fn unlisted(state: &State, [code, a, b]: [u8; 3], chance: &mut Chance) -> Option<[u8; 3]> {
    let (users, areas, objects) = (members(&state.users), members(&state.areas), members(&state.objects));
    let free_area = some(&free(&areas, 32), chance);
    let free_b = match code {
        4 => some(&free(&users, 32), chance),
        5 | 6 => free_area,
        8.. => some(&free(&objects, 64), chance),
        _ => None,
    };
    match (free_area, free_b) {
        (Some(area), None) => Some([code, area, b]),
        (Some(area), _) if chance.once_in(2) => Some([code, area, b]),
        (_, other) => Some([code, a, other?]),
    }
}

/// With an area of others, and for code 6 two of them.
fn not_owned(state: &State, activator: u8, [code, _, b]: [u8; 3], chance: &mut Chance) -> Option<[u8; 3]> {
    let own = seconds_with(&state.owners, activator);
    let mut others = members(&state.areas);
    others.retain(|area| !own.contains(area));
    let a = some(&others, chance)?;
    match code {
        6 => Some([code, a, some(&others, chance)?]),
        8.. => Some([code, a, some(&members(&state.objects), chance)?]),
        _ => Some([code, a, b]),
    }
}

/// With what is there: a listed area or object, or a pair of the relation that the code is about.
fn there(state: &State, activator: u8, [code, a, _]: [u8; 3], chance: &mut Chance) -> Option<[u8; 3]> {
    match code {
        1 => Some([1, some(&members(&state.areas), chance)?, 0]),
        3 => Some([3, a, some(&firsts_with(&state.owners, a), chance)?]),
        7 => Some([7, a, some(&members(&state.objects), chance)?]),
        5 | 6 => own_pair(state, activator, code, &turned_round(&state.structure), chance),
        8 => own_pair(state, activator, code, &state.definitions, chance),
        9 | 10 => own_pair(state, activator, code, &state.imports, chance),
        _ => own_pair(state, activator, code, &state.exports, chance),
    }
}

fn turned_round(pairs: &Pairs) -> Pairs {
    pairs.iter().map(|&(first, second)| (second, first)).collect()
}

/// The code with a pair (b, a) whose area a the activator owns.
fn own_pair(state: &State, activator: u8, code: u8, pairs: &Pairs, chance: &mut Chance) -> Option<[u8; 3]> {
    let mut own: Vec<(u8, u8)> = pairs.iter().copied().collect();
    own.retain(|pair| state.owners.contains(&(activator, pair.1)));
    some(&own, chance).map(|(b, a)| [code, a, b])
}

/// With a listed b, whether there is such a pair or not.
fn not_there(state: &State, [code, a, _]: [u8; 3], chance: &mut Chance) -> Option<[u8; 3]> {
    let listed = match code {
        4 => &state.users,
        6 => &state.areas,
        _ => &state.objects,
    };
    Some([code, a, some(&members(listed), chance)?])
}
