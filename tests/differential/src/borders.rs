//! What the cases have met of the limit on steps. It is counted beside the comparison, by the lengths of chains.

use crate::chains::{Lengths, MOST_STEPS};
use crate::seen::Seen;
use reference::State;
use std::collections::BTreeMap;
use std::ops::RangeInclusive;

const TOO_FAR: u8 = MOST_STEPS + 1;

/// Has it too few areas for a chain about as long as the limit?
pub fn is_small(state: &State) -> bool {
    state.areas.len() < usize::from(MOST_STEPS)
}

/// The listed objects and areas with a shortest chain of so many steps.
pub fn pairs_at(state: &State, steps: RangeInclusive<u8>) -> Vec<(u8, u8)> {
    let objects = state.objects.iter().filter(|_| !is_small(state));
    let areas_at = |&object: &u8| {
        let lengths = Lengths::new(state, object);
        let at = |area: &u8| lengths.to(*area).is_some_and(|length| steps.contains(&length));
        let areas: Vec<u8> = state.areas.iter().copied().filter(at).collect();
        areas.into_iter().map(move |area| (object, area))
    };
    objects.flat_map(areas_at).collect()
}

/// For each import or export pair the length of a shortest chain to its area.
pub fn entry_lengths(state: &State) -> BTreeMap<(u8, u8), Option<u8>> {
    let mut by_object: BTreeMap<u8, Lengths> = BTreeMap::new();
    let mut length = |object: u8, area: u8| {
        let lengths = by_object.entry(object).or_insert_with(|| Lengths::new(state, object));
        lengths.to(area)
    };
    let entries = state.imports.iter().chain(&state.exports);
    entries
        .map(|&(object, area)| ((object, area), length(object, area)))
        .collect()
}

/// Is it unsound by nothing but imports and exports at 9 steps?
pub fn is_one_step_too_far(state: &State) -> bool {
    let lengths = entry_lengths(state);
    let mut nearer = state.clone();
    nearer.imports.retain(|pair| lengths[pair] != Some(TOO_FAR));
    nearer.exports.retain(|pair| lengths[pair] != Some(TOO_FAR));
    nearer != *state && nearer.is_sound()
}

/// Counts an access question that was answered by a number of steps, or by no access.
pub fn count_question(state: &State, area: u8, object: u8, answer: u32, seen: &mut Seen) {
    if is_small(state) {
        return;
    }
    if let Some(steps) = Lengths::new(state, object).to(area) {
        seen.count("question, steps and answer", 1000 * u32::from(steps) + answer);
    }
}

/// Counts an instruction that a sound state has answered. Code 8 is none of them: it leaves its object no chain at all.
pub fn count_step(state: &State, instruction: [u8; 4], answer: u32, seen: &mut Seen) {
    match (instruction[0], answer) {
        _ if is_small(state) => {}
        (9 | 11, 0 | 10) => count_entry(state, instruction, answer, seen),
        (6 | 10 | 12, 0) => count_way_left(state, instruction, seen),
        (6 | 10 | 12, 11) => count_way_lost(state, instruction, seen),
        _ => {}
    }
}

/// "the state it would give", for codes 5, 6 and 9 to 12.
pub fn given(state: &State, [code, _, a, b]: [u8; 4]) -> State {
    let mut next = state.clone();
    match code {
        5 => next.structure.insert((a, b)),
        6 => next.structure.remove(&(a, b)),
        9 => next.imports.insert((b, a)),
        10 => next.imports.remove(&(b, a)),
        11 => next.exports.insert((b, a)),
        _ => next.exports.remove(&(b, a)),
    };
    next
}

/// By the steps of the area in the state that the instruction gives, or would give.
fn count_entry(state: &State, instruction: [u8; 4], answer: u32, seen: &mut Seen) {
    let [code, _, area, object] = instruction;
    let word = match code {
        9 => "import, steps and answer",
        _ => "export, steps and answer",
    };
    if let Some(steps) = Lengths::new(&given(state, instruction), object).to(area) {
        seen.count(word, 100 * u32::from(steps) + answer);
    }
}

/// A removal was accepted: was a way of an entry shorter, and has 8 steps now?
fn count_way_left(state: &State, instruction: [u8; 4], seen: &mut Seen) {
    let (before, after) = (entry_lengths(state), entry_lengths(&given(state, instruction)));
    let is_longer = |(pair, length): (_, &Option<u8>)| before[pair] < *length && *length == Some(MOST_STEPS);
    if after.iter().any(is_longer) {
        seen.count("removal leaves 8 steps", instruction[0].into());
    }
}

/// A removal was refused: has every entry that it would leave a chain, only some of them none of 8 steps or fewer?
fn count_way_lost(state: &State, instruction: [u8; 4], seen: &mut Seen) {
    let after = entry_lengths(&given(state, instruction));
    if after.values().any(Option::is_none) {
        return;
    }
    let too_far: Vec<u8> = after
        .into_values()
        .flatten()
        .filter(|&steps| steps > MOST_STEPS)
        .collect();
    let word = match too_far.iter().max() {
        Some(&TOO_FAR) => "removal would leave 9 steps",
        Some(_) => "removal would leave more than 9 steps",
        None => return,
    };
    seen.count(word, instruction[0].into());
    if too_far.len() == 1 {
        seen.count("removal would leave one area too far", instruction[0].into());
    }
}
