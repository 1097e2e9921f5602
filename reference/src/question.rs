//! "The access question", and the marks of the area list.

use crate::access::shortest_chain;
use crate::state::State;

/// "For area a and object b the answer is the number of steps in a shortest chain, 0 for the defining area", or "no access".
/// Document 02, point 2: "The step answer never passes 8."
///
/// "Refusals 12, 2, 4 apply in that order, with the same conditions for a and b."
pub fn access(state: &State, area: u32, object: u32) -> Result<Option<u8>, u8> {
    if !state.is_sound() {
        return Err(12);
    }
    // 2: "a user or area above 31, an object above 63", however far above.
    let (Ok(area @ 0..=31), Ok(object @ 0..=63)) = (u8::try_from(area), u8::try_from(object)) else {
        return Err(2);
    };
    if !state.areas.contains(&area) || !state.objects.contains(&object) {
        return Err(4);
    }
    Ok(shortest_chain(state, area, object))
}

/// "eight marks in a byte (lowest number in the lowest bit) give the place (0 to 7) of the lowest mark set, 8 if none"
pub fn lowest_mark(marks: u8) -> u8 {
    (0..8).find(|place| marks & (1 << place) != 0).unwrap_or(8)
}
