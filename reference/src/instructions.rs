//! "The twelve instructions": "Four bytes: code, activator (a user), a, b."

use crate::record::{from_record, to_record};
use crate::refusals::first_refusal;
use crate::state::{firsts, State};

/// "Four bytes: code, activator (a user), a, b."
#[derive(Clone, Copy, Debug)]
pub(crate) struct Instruction {
    pub(crate) code: u8,
    pub(crate) activator: u8,
    pub(crate) a: u8,
    pub(crate) b: u8,
}

/// One instruction at one state: the state that it gives, or its refusal, 1 to 12 or 15.
///
/// "The state after a refusal is the state given": the caller keeps it.
pub fn step(state: &State, instruction: [u8; 4]) -> Result<State, u8> {
    let [code, activator, a, b] = instruction;
    let instruction = Instruction { code, activator, a, b };
    match first_refusal(state, instruction) {
        Some(refusal) => Err(refusal),
        None => Ok(successor(state, instruction)),
    }
}

/// The same on records; what is no record of any state is 12: "or is not the record its relations have".
pub fn step_record(record: &[u8], instruction: [u8; 4]) -> Result<Vec<u8>, u8> {
    let state = from_record(record).ok_or(12)?;
    step(&state, instruction).map(|next| to_record(&next))
}

/// The state after the list: each instruction in turn, a refused one changes nothing.
pub fn run(state: &State, list: &[[u8; 4]]) -> State {
    let mut now = state.clone();
    for &instruction in list {
        if let Ok(next) = step(&now, instruction) {
            now = next;
        }
    }
    now
}

/// "the state it would give": what the instruction does, by the table of codes.
pub(crate) fn successor(state: &State, instruction: Instruction) -> State {
    let Instruction { code, activator, a, b } = instruction;
    let mut next = state.clone();
    match code {
        1 => list_area(&mut next, activator, a),
        2 => unlist_area(&mut next, activator, a),
        3 => add_owner(&mut next, a, b),
        4 => remove_owner(&mut next, a, b),
        5 => _ = next.structure.insert((a, b)),
        6 => _ = next.structure.remove(&(a, b)),
        7 => define_object(&mut next, a, b),
        8 => remove_object(&mut next, a, b),
        9 => _ = next.imports.insert((b, a)),
        10 => _ = next.imports.remove(&(b, a)),
        11 => _ = next.exports.insert((b, a)),
        12 => _ = next.exports.remove(&(b, a)),
        _ => {}
    }
    next
}

/// Code 1: "list new area a, owned by the activator"
fn list_area(state: &mut State, activator: u8, a: u8) {
    state.areas.insert(a);
    state.owners.insert((activator, a));
}

/// Code 2: "unlist it". "Code 2 drops the owner pair as well."
fn unlist_area(state: &mut State, activator: u8, a: u8) {
    state.areas.remove(&a);
    state.owners.remove(&(activator, a));
    unlist_users_without_area(state);
}

/// Code 3: "add ... owner b of area a". "Code 3 lists user b if unlisted."
fn add_owner(state: &mut State, a: u8, b: u8) {
    state.owners.insert((b, a));
    state.users.insert(b);
}

/// Code 4: "remove owner b of area a"
fn remove_owner(state: &mut State, a: u8, b: u8) {
    state.owners.remove(&(b, a));
    unlist_users_without_area(state);
}

/// "Codes 2 and 4 unlist a user who owns no area afterwards."
fn unlist_users_without_area(state: &mut State) {
    let owning = firsts(&state.owners);
    state.users.retain(|user| owning.contains(user));
}

/// Code 7: "define ... object b in area a". "Code 7 lists object b".
fn define_object(state: &mut State, a: u8, b: u8) {
    state.objects.insert(b);
    state.definitions.insert((b, a));
}

/// Code 8: "remove object b in area a". "and code 8 unlists it".
fn remove_object(state: &mut State, a: u8, b: u8) {
    state.definitions.remove(&(b, a));
    state.objects.remove(&b);
}
