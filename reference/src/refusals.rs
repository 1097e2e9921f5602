//! "Refusals of an instruction": each condition by itself, and the order of the checks.

use crate::access::{is_valid, shortest_chain};
use crate::instructions::{successor, Instruction};
use crate::state::{before, State};
use std::collections::BTreeSet;

/// A condition of the table; it is asked only where no condition in front of it holds.
type Condition = fn(&State, Instruction) -> bool;

/// "Order of checks: 12 first, then 1 to 11 upwards." Document 02, point 4: 15 stands "after 7 and before 8".
const ORDER_OF_CHECKS: [(u8, Condition); 13] = [
    (12, state_is_unsound),
    (1, code_is_unknown),
    (2, number_is_out_of_range),
    (3, activator_is_unlisted),
    (4, operand_is_unlisted),
    (5, ownership_is_lacking),
    (6, added_is_there),
    (7, removed_is_not_there),
    (15, import_is_by_the_definer),
    (8, last_of_its_kind),
    (9, area_is_in_use),
    (10, entry_would_lack_access),
    (11, removal_would_cut_access),
];

/// The numbers of the refusals in the order of the checks.
pub fn order_of_checks() -> [u8; 13] {
    ORDER_OF_CHECKS.map(|(number, _)| number)
}

/// The refusal of the first condition that holds, if one does.
pub(crate) fn first_refusal(state: &State, instruction: Instruction) -> Option<u8> {
    let mut checks = ORDER_OF_CHECKS.iter();
    checks.find(|(_, holds)| holds(state, instruction)).map(|&(number, _)| number)
}

/// 12: "the state is unsound"
fn state_is_unsound(state: &State, _: Instruction) -> bool {
    !state.is_sound()
}

/// 1: "code 0 or above 12"
fn code_is_unknown(_: &State, instruction: Instruction) -> bool {
    instruction.code == 0 || instruction.code > 12
}

/// 2: "a user or area above 31, an object above 63, or b not 0 for codes 1 and 2"
fn number_is_out_of_range(_: &State, instruction: Instruction) -> bool {
    let Instruction { code, activator, a, b } = instruction;
    let b_is_out = match code {
        1 | 2 => b != 0,
        3 | 4 => b > 31,
        5 | 6 => b > 31,
        _ => b > 63,
    };
    activator > 31 || a > 31 || b_is_out
}

/// 3: "activator not listed"
fn activator_is_unlisted(state: &State, instruction: Instruction) -> bool {
    !state.users.contains(&instruction.activator)
}

/// 4: "not listed: area a (codes 2 to 12), user b (4), area b (5, 6), object b (8 to 12)"
fn operand_is_unlisted(state: &State, instruction: Instruction) -> bool {
    let Instruction { code, a, b, .. } = instruction;
    let a_is_unlisted = matches!(code, 2..=12) && !state.areas.contains(&a);
    let b_is_unlisted = match code {
        4 => !state.users.contains(&b),
        5 | 6 => !state.areas.contains(&b),
        8..=12 => !state.objects.contains(&b),
        _ => false,
    };
    a_is_unlisted || b_is_unlisted
}

/// 5: "the activator lacks the ownership in the table above": nothing (1), both (5), either (6), a (the others).
fn ownership_is_lacking(state: &State, instruction: Instruction) -> bool {
    let Instruction { code, activator, a, b } = instruction;
    let owns = |area: u8| state.owners.contains(&(activator, area));
    match code {
        1 => false,
        5 => !(owns(a) && owns(b)),
        6 => !(owns(a) || owns(b)),
        _ => !owns(a),
    }
}

/// 6: "an add of what is there: listed area (1), listed object in whichever area (7), present pair (3, 5, 9, 11)"
fn added_is_there(state: &State, instruction: Instruction) -> bool {
    let Instruction { code, a, b, .. } = instruction;
    match code {
        1 => state.areas.contains(&a),
        7 => state.objects.contains(&b),
        3 => state.owners.contains(&(b, a)),
        5 => state.structure.contains(&(a, b)),
        9 => state.imports.contains(&(b, a)),
        11 => state.exports.contains(&(b, a)),
        _ => false,
    }
}

/// 7: "a remove of a pair that is not there (4, 6, 8, 10, 12)"
fn removed_is_not_there(state: &State, instruction: Instruction) -> bool {
    let Instruction { code, a, b, .. } = instruction;
    match code {
        4 => !state.owners.contains(&(b, a)),
        6 => !state.structure.contains(&(a, b)),
        8 => !state.definitions.contains(&(b, a)),
        10 => !state.imports.contains(&(b, a)),
        12 => !state.exports.contains(&(b, a)),
        _ => false,
    }
}

/// 15: document 02, point 4: "Code 9 by the defining area is refused as 15, after 7 and before 8."
fn import_is_by_the_definer(state: &State, instruction: Instruction) -> bool {
    let Instruction { code, a, b, .. } = instruction;
    code == 9 && state.definitions.contains(&(b, a))
}

/// 8: "code 4 on the sole owner of a; code 2 on the only listed area"
fn last_of_its_kind(state: &State, instruction: Instruction) -> bool {
    let Instruction { code, a, b, .. } = instruction;
    match code {
        4 => before(&state.owners, a) == BTreeSet::from([b]),
        2 => state.areas == BTreeSet::from([a]),
        _ => false,
    }
}

/// 9: "code 2 while a has another owner, defines an object, or stands in a structure, import or export pair"
fn area_is_in_use(state: &State, instruction: Instruction) -> bool {
    let Instruction { code, activator, a, .. } = instruction;
    code == 2
        && (before(&state.owners, a).iter().any(|&owner| owner != activator)
            || state.definitions.iter().any(|&(_, area)| area == a)
            || state.structure.iter().any(|&(inner, outer)| inner == a || outer == a)
            || state.imports.iter().any(|&(_, area)| area == a)
            || state.exports.iter().any(|&(_, area)| area == a))
}

/// 10: "codes 9, 11: in the state it would give, a lacks access to b"
fn entry_would_lack_access(state: &State, instruction: Instruction) -> bool {
    let Instruction { code, a, b, .. } = instruction;
    matches!(code, 9 | 11) && shortest_chain(&successor(state, instruction), a, b).is_none()
}

/// 11: "codes 6, 8, 10, 12: the state it would give has an import or export pair whose area lacks access"
fn removal_would_cut_access(state: &State, instruction: Instruction) -> bool {
    matches!(instruction.code, 6 | 8 | 10 | 12) && !is_valid(&successor(state, instruction))
}
