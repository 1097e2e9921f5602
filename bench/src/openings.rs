//! The recipes that are timed.

use crate::recipe::{Call, ENTRY, FIXED, PARAMETER};
use crate::record::{cell, Record};
use crate::rules::{MOST_STEPS, USERS};
use crate::states::farthest;

/// A number in a recipe: its kind and its value.
type Number = [u8; 2];

fn bytes(entries: &[(u8, Number, Number)]) -> Vec<u8> {
    entries
        .iter()
        .flat_map(|&(code, [kind_a, a], [kind_b, b])| [code, kind_a, a, kind_b, b])
        .collect()
}

/// Two schools are opened: 16 adds, of all six kinds. Each school has a hall in it and a table that it lends. Both lie
/// in one area and borrow an object there, over as many steps as there can be. The state has the numbers to spare.
pub fn two_schools(s: &Record) -> Call {
    let (site, borrowed, _) = farthest(s, MOST_STEPS - 1);
    let owns = |&user: &usize| s.owners[cell(user, site as usize)];
    let activator = (0..USERS).find(owns).expect("the area has an owner") as u8;
    let [site, borrowed] = [site, borrowed].map(|number| [FIXED, number as u8]);
    let keyholder = [FIXED, (activator + 1) % 32];
    let none = [FIXED, 0];
    let opening = |school: u8, hall: u8, table: u8| {
        let (school, hall, table) = ([PARAMETER, school], [FIXED, hall], [PARAMETER, table]);
        [
            (1, school, none),
            (1, hall, none),
            (5, school, site),
            (5, hall, school),
            (3, school, keyholder),
            (7, school, table),
            (11, school, table),
            (9, school, borrowed),
        ]
    };
    Call {
        recipe: bytes([opening(0, 30, 2), opening(1, 31, 3)].as_flattened()),
        activator,
        parameters: [28, 29, 62, 63],
    }
}

/// 16 imports in the state `stock`: area 0 borrows from area 2, in which it lies.
pub fn imports() -> Call {
    let entries: Vec<_> = (16..32).map(|object| (9, [PARAMETER, 0], [FIXED, object])).collect();
    Call {
        recipe: bytes(&entries),
        activator: 0,
        parameters: [0; 4],
    }
}

/// Two schools, but for the last instruction, which is the first again.
pub fn refused_last(s: &Record) -> Call {
    let mut call = two_schools(s);
    let last = call.recipe.len() - ENTRY;
    call.recipe.copy_within(..ENTRY, last);
    call
}

/// Two schools, but for the last kind, which is none.
pub fn misformed(s: &Record) -> Call {
    let mut call = two_schools(s);
    let kind = call.recipe.len() - 2;
    call.recipe[kind] = 2;
    call
}
