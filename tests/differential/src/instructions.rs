//! Random instructions for a state: most of them fit it, so that every refusal and every code comes often.

use crate::aimed;
use crate::numbers::{firsts_with, free, members, pick_or, seconds_with};
use crate::own_imports;
use chance::Chance;
use reference::State;

/// Numbers about the limits.
const BORDERS: [u8; 12] = [0, 1, 30, 31, 32, 33, 62, 63, 64, 65, 128, 255];

/// What an instruction may name.
pub struct Domain<'a> {
    /// The users who may activate; at least one.
    pub activators: &'a [u8],
    /// What users, areas and objects that are not there yet are below.
    pub users: usize,
    pub areas: usize,
    pub objects: usize,
}

impl Domain<'_> {
    /// All numbers within the limits.
    pub fn whole(activators: &[u8]) -> Domain<'_> {
        Domain {
            activators,
            users: 32,
            areas: 32,
            objects: 64,
        }
    }
}

/// An instruction of one of the activators that mostly names what is there, and now and then something else. At times
/// one for the sake of the limit on steps, or of own imports.
pub fn instruction(state: &State, domain: &Domain, chance: &mut Chance) -> [u8; 4] {
    let aimed = match chance.below(12) {
        0..2 => aimed::instruction(state, domain.activators, chance),
        2 => own_imports::instruction(state, domain.activators, chance),
        _ => None,
    };
    let mut bytes = match aimed {
        Some(bytes) => bytes,
        None => fitting(state, domain, chance),
    };
    if chance.once_in(6) {
        bytes[chance.pick(&[0, 2, 3])] = any_number(chance);
    }
    bytes
}

/// The same of all users, and now and then of a number that is none of them.
pub fn instruction_of_anyone(state: &State, chance: &mut Chance) -> [u8; 4] {
    let users = members(&state.users);
    let mut bytes = match users[..] {
        [] => any_bytes(chance),
        _ => instruction(state, &Domain::whole(&users), chance),
    };
    if chance.once_in(12) {
        bytes[1] = any_number(chance);
    }
    bytes
}

pub fn any_bytes(chance: &mut Chance) -> [u8; 4] {
    [chance.byte(), chance.byte(), chance.byte(), chance.byte()]
}

/// Any byte, most often one that is about a limit.
fn any_number(chance: &mut Chance) -> u8 {
    match chance.below(3) {
        0 => chance.pick(&BORDERS),
        1 => chance.below(34) as u8,
        _ => chance.byte(),
    }
}

fn fitting(state: &State, domain: &Domain, chance: &mut Chance) -> [u8; 4] {
    let code = 1 + chance.below(12) as u8;
    of_code(code, state, domain, chance)
}

/// An instruction of one of the activators with this code, which mostly names what is there.
pub fn of_code(code: u8, state: &State, domain: &Domain, chance: &mut Chance) -> [u8; 4] {
    let activator = chance.pick(domain.activators);
    let (own, areas, objects) = (
        seconds_with(&state.owners, activator),
        members(&state.areas),
        members(&state.objects),
    );
    let mut area = || match chance.once_in(8) {
        true => pick_or(&areas, domain.areas, 4, chance),
        false => pick_or(&own, domain.areas, 16, chance),
    };
    let (a, other) = (area(), area());
    let [a, b] = match code {
        1 => [pick_or(&free(&areas, domain.areas), domain.areas, 6, chance), 0],
        2 => [a, 0],
        3 => [a, chance.below(domain.users) as u8],
        4 => [a, pick_or(&firsts_with(&state.owners, a), domain.users, 6, chance)],
        5 => [a, other],
        6 => structure_pair(state, &own, domain, chance),
        7 => [a, pick_or(&free(&objects, domain.objects), domain.objects, 6, chance)],
        8 => [
            a,
            pick_or(&firsts_with(&state.definitions, a), domain.objects, 4, chance),
        ],
        10 => [a, pick_or(&firsts_with(&state.imports, a), domain.objects, 6, chance)],
        12 => [a, pick_or(&firsts_with(&state.exports, a), domain.objects, 6, chance)],
        _ => [a, pick_or(&objects, domain.objects, 10, chance)],
    };
    [code, activator, a, b]
}

/// Mostly a structure pair that one of the areas stands in.
fn structure_pair(state: &State, own: &[u8], domain: &Domain, chance: &mut Chance) -> [u8; 2] {
    let touching = |pair: &&(u8, u8)| own.contains(&pair.0) || own.contains(&pair.1);
    let pairs: Vec<(u8, u8)> = state.structure.iter().filter(touching).copied().collect();
    if pairs.is_empty() || chance.once_in(6) {
        return [chance.below(domain.areas) as u8, chance.below(domain.areas) as u8];
    }
    let (inner, outer) = chance.pick(&pairs);
    [inner, outer]
}
