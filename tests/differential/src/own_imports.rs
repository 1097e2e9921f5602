//! Imports by the area that defines the object: instructions that ask for one, or nearly, states with one, and what the
//! cases have met of them. It is counted beside the comparison, and no expected answer comes from here.

use crate::case::Case;
use crate::instructions::{of_code, Domain};
use crate::numbers::{firsts_with, free, members, seconds_with, some};
use crate::seen::Seen;
use crate::site::Site;
use crate::states::{sound_state, Shape};
use crate::unsound::add_own_import;
use chance::Chance;
use reference::State;

/// The answers to code 9 by the definer: 15, and those whose checks come before.
const BY_THE_DEFINER: [u32; 3] = [15, 5, 3];

/// The answers to codes 9 and 11 by an owner of the definer: for another area of his, and for the definer.
const BESIDE_THE_DEFINER: [u32; 3] = [0, 6, 10];
const EXPORTED: [u32; 2] = [0, 6];

/// Codes 1 to 12, each refused as 12.
const EACH_CODE_UNSOUND: [u32; 12] = [112, 212, 312, 412, 512, 612, 712, 812, 912, 1012, 1112, 1212];

/// Does an area import what it defines?
pub fn has_own(state: &State) -> bool {
    !state.imports.is_disjoint(&state.definitions)
}

/// The same of the record of a state.
pub fn are_in_record(record: &[u8]) -> bool {
    let rows = |start: usize| record.get(start..start + 256).unwrap_or_default();
    let (definitions, imports) = (rows(144), rows(528));
    definitions
        .iter()
        .zip(imports)
        .any(|(defined, imported)| defined & imported != 0)
}

/// Is it unsound by nothing but own imports?
pub fn is_only_own(state: &State) -> bool {
    let mut without = state.clone();
    without.imports.retain(|pair| !state.definitions.contains(pair));
    without != *state && without.is_sound()
}

/// Code 9 by a definer, most often of an activator who owns it, else of a stranger, or with a number that is not
/// listed; code 9 by another area of the owner; and code 11 by the definer. None if there is no such thing.
pub fn instruction(state: &State, activators: &[u8], chance: &mut Chance) -> Option<[u8; 4]> {
    let definitions: Vec<(u8, u8)> = state.definitions.iter().copied().collect();
    let (object, definer) = some(&definitions, chance)?;
    let owns = |user: &u8| state.owners.contains(&(*user, definer));
    let (owners, strangers): (Vec<u8>, Vec<u8>) = activators.iter().partition(|user| owns(user));
    let kind = chance.below(8);
    if kind == 0 {
        return Some([9, some(&strangers, chance)?, definer, object]);
    }
    let owner = some(&owners, chance)?;
    let mut others = seconds_with(&state.owners, owner);
    others.retain(|&area| area != definer);
    let [code, area, object] = match kind {
        1 if chance.once_in(2) => [9, definer, some(&free(&members(&state.objects), 64), chance)?],
        1 => [9, some(&free(&members(&state.areas), 32), chance)?, object],
        2 => [9, some(&others, chance)?, object],
        3 => [11, definer, object],
        _ => [9, definer, object],
    };
    Some([code, owner, area, object])
}

/// Counts an instruction that a sound state has answered.
pub fn count_step(state: &State, [code, activator, a, b]: [u8; 4], answer: u32, seen: &mut Seen) {
    let owns = |area: u8| state.owners.contains(&(activator, area));
    let owns_definer = || seconds_with(&state.definitions, b).into_iter().any(owns);
    let word = match code {
        9 | 11 if state.definitions.contains(&(b, a)) => match code {
            9 => "import by the definer",
            _ => "export by the definer",
        },
        9 if owns(a) && owns_definer() => "import beside the definer",
        9 if is_definer_or_defined(state, a, b) => "import by the definer, but for an unlisted number",
        _ => return,
    };
    seen.count(word, answer);
}

/// Does the area define something and the object is not listed, or is the object defined and the area not listed?
fn is_definer_or_defined(state: &State, area: u8, object: u8) -> bool {
    match (state.areas.contains(&area), state.objects.contains(&object)) {
        (true, false) => !firsts_with(&state.definitions, area).is_empty(),
        (false, true) => true,
        _ => false,
    }
}

/// It is a failure if one kind of step came less often than this.
pub fn require_steps(seen: &mut Seen, least: u64) {
    seen.require("import by the definer", BY_THE_DEFINER, least);
    seen.require("import by the definer, but for an unlisted number", [4], least);
    seen.require("import beside the definer", BESIDE_THE_DEFINER, least);
    seen.require("export by the definer", EXPORTED, least);
}

pub fn steps_text(seen: &Seen) -> String {
    format!(
        "imports by the definer refused as 15, 5, 3: {:?}, with an unlisted number as 4: {}; imports by another area \
         of the definer's owner, answers 0, 6, 10: {:?}; exports by the definer, answers 0, 6: {:?}",
        seen.each("import by the definer", BY_THE_DEFINER),
        seen.times("import by the definer, but for an unlisted number", 4),
        seen.each("import beside the definer", BESIDE_THE_DEFINER),
        seen.each("export by the definer", EXPORTED),
    )
}

/// A state with nothing wrong but an own import, in a step of each code, in the one that would take the import out, and
/// in a question.
pub fn one_record(chance: &mut Chance, seen: &mut Seen) {
    let shape = chance.pick(&[Shape::Sparse, Shape::Medium, Shape::Chain, Shape::Ring]);
    let mut state = sound_state(shape, chance);
    let Some((object, area)) = add_own_import(&mut state, chance) else {
        return;
    };
    seen.demand(is_only_own(&state), "nothing is wrong but the own import");
    let users = members(&state.users);
    let of_each_code = (1..=12).map(|code| of_code(code, &state, &Domain::whole(&users), chance));
    let instructions: Vec<[u8; 4]> = of_each_code.collect();
    let removal = [10, chance.pick(&firsts_with(&state.owners, area)), area, object];
    let site = Site::of_state(&state);
    for instruction in instructions {
        if let Some(answer) = seen.compare(&Case::step(&site, instruction)) {
            seen.count(
                "own import, code and answer",
                100 * u32::from(instruction[0]) + answer.number,
            );
        }
    }
    if let Some(answer) = seen.compare(&Case::step(&site, removal)) {
        seen.count("own import and its removal", answer.number);
    }
    if let Some(answer) = seen.compare(&Case::access(&site, area.into(), object.into())) {
        seen.count("own import and question", answer.number);
    }
}

/// It is a failure if one kind of answer to such records came less often than this.
pub fn require_records(seen: &mut Seen, least: u64) {
    seen.require("own import, code and answer", EACH_CODE_UNSOUND, least);
    seen.require("own import and its removal", [12], least);
    seen.require("own import and question", [268], least);
}

pub fn records_text(seen: &Seen) -> String {
    format!(
        "with nothing wrong but an own import, steps by codes 1 to 12 refused as 12: {:?}, its removal: {}, \
         questions: {}",
        seen.each("own import, code and answer", EACH_CODE_UNSOUND),
        seen.times("own import and its removal", 12),
        seen.times("own import and question", 268),
    )
}
