//! Document 02, point 7: "Taking back leaves no trace."

use crate::state::State;
use std::collections::BTreeSet;
use std::fmt::Debug;

/// The codes of the table, a row each: the add, and the remove that takes it back.
const ROWS: [(u8, u8); 6] = [
    (1, 2),   // "list new area a, owned by the activator / unlist it"
    (3, 4),   // "add / remove owner b of area a"
    (5, 6),   // "add / remove structure pair (a, b)"
    (7, 8),   // "define / remove object b in area a"
    (9, 10),  // "add / remove import of b by a"
    (11, 12), // "add / remove export of b by a"
];

/// Document 02, point 7: "the matching remove from the same activator". "This covers all six adds."
///
/// The remove of the same row, with the same activator, a and b (docs/READINGS.md, 14); `None` for bytes whose code is none of the six.
pub fn matching_remove(add: [u8; 4]) -> Option<[u8; 4]> {
    let [code, activator, a, b] = add;
    let (_, remove) = ROWS.into_iter().find(|&(adding, _)| adding == code)?;
    Some([remove, activator, a, b])
}

/// Document 02, point 7: "an accepted add, followed at once by the matching remove from the same activator, is always accepted and
/// gives the earlier state in every field"
///
/// `earlier` is the state at which the add was accepted; `number`, 0 or the refusal, and `after` are what the matching remove gave
/// right behind it. `Err` says what is different, or that the bytes are no add. Whether the add was accepted is not asked.
pub fn taken_back(earlier: &State, add: [u8; 4], number: u8, after: &State) -> Result<(), String> {
    if matching_remove(add).is_none() {
        return Err(format!("{add:?} is no add"));
    }
    if number != 0 {
        return Err(format!("the remove behind {add:?} was refused with {number}"));
    }
    let State {
        users,
        areas,
        objects,
        owners,
        definitions,
        structure,
        imports,
        exports,
    } = earlier;
    same("users", users, &after.users)?;
    same("areas", areas, &after.areas)?;
    same("objects", objects, &after.objects)?;
    same("owner pairs", owners, &after.owners)?;
    same("definition pairs", definitions, &after.definitions)?;
    same("structure pairs", structure, &after.structure)?;
    same("import pairs", imports, &after.imports)?;
    same("export pairs", exports, &after.exports)
}

/// Document 02, point 7: "the earlier state in every field", for one list or relation.
fn same<T: Debug + PartialEq>(field: &str, earlier: &BTreeSet<T>, after: &BTreeSet<T>) -> Result<(), String> {
    if earlier == after {
        return Ok(());
    }
    Err(format!("the {field} were {earlier:?} and are {after:?}"))
}
