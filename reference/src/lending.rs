//! The lending guarantee: "What demand 3 says of an area whose owners at the start activate nothing in the list".
//!
//! Document 02, point 2: "The guarantee that borrowed tables stay now speaks of chains within that limit."

use crate::access::shortest_chain;
use crate::recipes::{counted, Command};
use crate::state::{before, State};
use std::collections::BTreeSet;

/// The lending guarantee for one area that is listed at the start.
///
/// `Ok` where an owner that the area has in `before_list` activates an instruction of the list, or where the guarantee holds between
/// the two states: "The area's owner, definition, import and export pairs after the list are the same sets as at the start", and what
/// the area imports or exports can be traced to it. `Err` says what was lost. That access may be gained (docs/READINGS.md, 7) is no
/// breach: the four sets are the same, neither smaller nor larger.
pub fn lending_guarantee(before_list: &State, list: &[[u8; 4]], after: &State, area: u8) -> Result<(), String> {
    if an_owner_activates(before_list, list, area) {
        return Ok(());
    }
    same_set("owner", &before_list.owners, &after.owners, area)?;
    same_set("definition", &before_list.definitions, &after.definitions, area)?;
    same_set("import", &before_list.imports, &after.imports, area)?;
    same_set("export", &before_list.exports, &after.exports, area)?;
    is_traced("imports", &before_list.imports, after, area)?;
    is_traced("exports", &before_list.exports, after, area)
}

/// The same for a list with recipes in it.
/// Document 02, point 1: "For the lending guarantee an accepted recipe counts as its instructions and a refused one as
/// none."
pub fn lending_guarantee_of_commands(start: &State, list: &[Command], after: &State, area: u8) -> Result<(), String> {
    lending_guarantee(start, &counted(start, list), after, area)
}

/// "An area's owners at the start are the users in its owner pairs there; an instruction's activator is its second byte, in a refused
/// one too."
fn an_owner_activates(start: &State, list: &[[u8; 4]], area: u8) -> bool {
    list.iter().any(|&[_, activator, _, _]| start.owners.contains(&(activator, area)))
}

/// "The area's owner, definition, import and export pairs after the list are the same sets as at the start."
fn same_set(kind: &str, start: &BTreeSet<(u8, u8)>, end: &BTreeSet<(u8, u8)>, area: u8) -> Result<(), String> {
    let (start, end) = (before(start, area), before(end, area));
    if start == end {
        return Ok(());
    }
    Err(format!("the {kind} pairs of area {area} were with {start:?} and are with {end:?}"))
}

/// "An object can be traced to an area if, in the state after the list, the area has access to it."
/// Document 02, point 2: "Access now means a chain of 8 steps or fewer".
fn is_traced(verb: &str, start: &BTreeSet<(u8, u8)>, after: &State, area: u8) -> Result<(), String> {
    let objects = before(start, area);
    match objects.into_iter().find(|&object| shortest_chain(after, area, object).is_none()) {
        Some(object) => Err(format!("area {area} {verb} object {object} and has no access to it after the list")),
        None => Ok(()),
    }
}
