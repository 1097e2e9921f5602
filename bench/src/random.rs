//! Random instructions, and random damage to records and files, the same in every run.

use crate::record::Record;
use crate::rules::{Bytes, Place, Site};
use crate::site_file::LABEL;
use chance::Chance;

/// How many of the first users, areas and objects are drawn from.
pub type Span = [usize; 3];

pub const WHOLE: Span = [32, 32, 64];

/// By turns, in a comparison.
pub const SPANS: [Span; 5] = [[2, 2, 1], [3, 3, 2], [4, 6, 3], [8, 12, 8], WHOLE];

/// A number that is listed if a few tries find one, else any below the span.
fn listed(chance: &mut Chance, s: &impl Site, place: fn(usize) -> Place, span: usize) -> u8 {
    let mut number = chance.below(span);
    for _ in 0..8 {
        if s.has(place(number)) {
            break;
        }
        number = chance.below(span);
    }
    number as u8
}

/// An instruction within the span: most often one whose numbers are listed, at times any.
pub fn instruction(chance: &mut Chance, s: &impl Site, [users, areas, objects]: Span) -> Bytes {
    let code = 1 + chance.below(12) as u8;
    let any = chance.once_in(8);
    let activator = if any {
        chance.below(users) as u8
    } else {
        listed(chance, s, Place::User, users)
    };
    let a = if any || code == 1 {
        chance.below(areas) as u8
    } else {
        listed(chance, s, Place::Area, areas)
    };
    let b = match code {
        1 | 2 => 0,
        3 => chance.below(users) as u8,
        4 => listed(chance, s, Place::User, users),
        5 | 6 => listed(chance, s, Place::Area, areas),
        7 => chance.below(objects) as u8,
        _ if any => chance.below(objects) as u8,
        _ => listed(chance, s, Place::Object, objects),
    };
    [code, activator, a, b]
}

/// The bytes, of which one may be out of all range.
pub fn wild<const N: usize>(chance: &mut Chance, mut bytes: [u8; N]) -> [u8; N] {
    bytes[chance.below(N)] = chance.byte();
    bytes
}

/// The record with a few of its places turned.
pub fn damaged(chance: &mut Chance, s: &Record, [users, areas, objects]: Span) -> Record {
    let mut t = s.clone();
    for _ in 0..1 + chance.below(3) {
        let (user, area) = (chance.below(users), chance.below(areas));
        let (other, object) = (chance.below(areas), chance.below(objects));
        let place = match chance.below(8) {
            0 => Place::User(user),
            1 => Place::Area(area),
            2 => Place::Object(object),
            3 => Place::Owner(user, area),
            4 => Place::Definition(object, area),
            5 => Place::Structure(area, other),
            6 => Place::Import(object, area),
            _ => Place::Export(object, area),
        };
        t.put(place, !t.has(place));
    }
    t
}

/// The file with a byte changed, or of another length.
pub fn damaged_file(chance: &mut Chance, mut file: Vec<u8>) -> Vec<u8> {
    let at = chance.below(file.len());
    match chance.below(8) {
        0 => file.truncate(at),
        1 => file.push(chance.byte()),
        2 | 3 => file[at.min(chance.below(28))] = chance.byte(),
        4 | 5 => file[at] = chance.byte(),
        _ => file[at] = chance.below(64) as u8,
    }
    file
}

/// A label block with something wrong, or with a byte that happens to be as good.
pub fn damaged_block(chance: &mut Chance, mut block: Vec<u8>) -> Vec<u8> {
    let at = chance.below(block.len());
    match chance.below(8) {
        0 => block.truncate(at),
        1 => block.push(chance.byte()),
        2 => block.extend_from_within(..LABEL),
        3 | 4 => block[at / LABEL * LABEL + chance.below(2)] = chance.below(34) as u8,
        5 | 6 => block[at] = chance.below(34) as u8,
        _ => block[at] = chance.byte(),
    }
    block
}
