//! An add and, at once, the matching remove: it "is always accepted and gives the earlier state in every field". Run
//! after each accepted add, and counted: by code, by the user of code 3, and where an area had got access.

use crate::answer::Answer;
use crate::borders::given;
use crate::case::Case;
use crate::chains::Lengths;
use crate::numbers::{firsts_with, members, some};
use crate::seen::Seen;
use crate::site::Site;
use crate::{expected, library};
use chance::Chance;
use reference::State;

/// "all six adds", and those of them that can lend an object.
const ADDS: [u32; 6] = [1, 3, 5, 7, 9, 11];
const LENDING: [u32; 3] = [5, 9, 11];

/// So many adds are tried for one by which an area gets access.
const TRIES: usize = 12;

/// One instruction on both sides; an add that they accept is taken back. Gives the instruction's own answer, if both
/// sides give the same.
pub fn step(site: &Site, instruction: [u8; 4], seen: &mut Seen) -> Option<Answer> {
    let answer = seen.compare(&Case::step(site, instruction))?;
    let removes = remove(&site.record, instruction, &answer).zip(expected::remove(instruction, &answer));
    if let Some((library, reference)) = removes {
        let same = seen.compare_answers(&Case::back(site, instruction), library, reference);
        if let (Some(_), Some(state)) = (same, &site.state) {
            count(state, instruction, seen);
        }
    }
    Some(answer)
}

/// The library's answer to the remove, or to the add if there is nothing to take back.
pub fn by_library(site: &Site, add: [u8; 4]) -> Answer {
    let added = library::step(&site.record, add);
    match remove(&site.record, add, &added) {
        Some(answer) => answer.complaining([added.complaint]),
        None => added,
    }
}

/// The library's answer to the matching remove over the record that the add has left, with a complaint unless it is 0
/// and leaves the bytes of before. None if the instruction is no add, or was refused.
pub fn remove(earlier: &[u8], add: [u8; 4], added: &Answer) -> Option<Answer> {
    let matching = reference::matching_remove(add).filter(|_| added.number == 0)?;
    let answer = library::step(&added.bytes, matching);
    if answer.number == 0 && answer.bytes == earlier {
        return Some(answer);
    }
    let trace = trace(earlier, add, &answer);
    Some(answer.complaining([trace]))
}

/// What is not as it was, in the reference's words.
fn trace(earlier: &[u8], add: [u8; 4], answer: &Answer) -> String {
    let states = reference::from_record(earlier).zip(reference::from_record(&answer.bytes));
    let judged = states.map(|(earlier, after)| reference::taken_back(&earlier, add, answer.number as u8, &after));
    let words = match judged {
        Some(Err(words)) => words,
        _ => "what is left is no record".to_string(),
    };
    format!("taking back {add:?}: {words}")
}

/// Counts an instruction that was accepted in the state, if it is an add.
pub fn count(state: &State, instruction: [u8; 4], seen: &mut Seen) {
    if reference::matching_remove(instruction).is_none() {
        return;
    }
    let [code, _, _, b] = instruction;
    seen.count("taken back, code", code.into());
    if code == 3 {
        let word = match state.users.contains(&b) {
            true => "taken back, the user listed before, code",
            false => "taken back, the user listed only by it, code",
        };
        seen.count(word, 3);
    }
    if lends(state, instruction) {
        seen.count("taken back, an area had got access, code", code.into());
    }
}

/// Does an area, a or another, get access by an add of a structure pair, an import or an export?
fn lends(state: &State, add: [u8; 4]) -> bool {
    let objects = match add {
        [5, _, a, _] => [firsts_with(&state.imports, a), firsts_with(&state.exports, a)].concat(),
        [9 | 11, _, _, b] => vec![b],
        _ => return false,
    };
    let after = given(state, add);
    let gains = |&object: &u8| Lengths::new(&after, object).gain_on(&Lengths::new(state, object));
    objects.iter().any(gains)
}

/// Code 3 with a user who is listed before. None if the area has all of them.
pub fn listed_owner(state: &State, chance: &mut Chance) -> Option<[u8; 4]> {
    let (activator, a) = any_owner(state, chance)?;
    let mut others = members(&state.users);
    others.retain(|&user| !state.owners.contains(&(user, a)));
    Some([3, activator, a, some(&others, chance)?])
}

/// An import or export, by its code, by which an area gets access. None if none was found.
pub fn lending(state: &State, code: u8, chance: &mut Chance) -> Option<[u8; 4]> {
    let objects = members(&state.objects);
    let mut tried = (0..TRIES).filter_map(|_| {
        let (activator, a) = any_owner(state, chance)?;
        Some([code, activator, a, some(&objects, chance)?])
    });
    tried.find(|&add| lends(state, add))
}

/// An owner, and an area of his.
fn any_owner(state: &State, chance: &mut Chance) -> Option<(u8, u8)> {
    let pairs: Vec<(u8, u8)> = state.owners.iter().copied().collect();
    some(&pairs, chance)
}

/// It is a failure if an add was taken back less often than this, or one by which an area had got access.
pub fn require(seen: &mut Seen, least: u64, least_lending: u64) {
    seen.require("taken back, code", ADDS, least);
    seen.require("taken back, the user listed only by it, code", [3], least);
    seen.require("taken back, the user listed before, code", [3], least);
    seen.require("taken back, an area had got access, code", LENDING, least_lending);
}

pub fn text(seen: &Seen) -> String {
    format!(
        "adds taken back, codes 1, 3, 5, 7, 9, 11: {:?}, code 3 with a user listed only by it: {}, listed before: {}, \
         codes 5, 9, 11 where an area had got access: {:?}",
        seen.each("taken back, code", ADDS),
        seen.times("taken back, the user listed only by it, code", 3),
        seen.times("taken back, the user listed before, code", 3),
        seen.each("taken back, an area had got access, code", LENDING),
    )
}
