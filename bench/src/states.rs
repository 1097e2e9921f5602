//! The states that are timed. All are sound.

use crate::random::{self, Span, WHOLE};
use crate::record::{cell, Record};
use crate::rows::Rows;
use crate::rules::{Bytes, MOST_STEPS, NO_ACCESS};
use crate::{ideal, ideal_explanation, plain};
use chance::Chance;

pub struct States {
    pub largest: Record,
    pub dense: Record,
    pub chain: Record,
    pub random: Record,
    pub small: Record,
    pub unlent: Record,
    pub stock: Record,
    pub spare: Spare,
}

/// States with numbers to spare for what a recipe lists: areas 28 to 31 and objects 62 and 63.
pub struct Spare {
    pub dense: Record,
    pub chain: Record,
    pub random: Record,
}

impl States {
    pub fn new() -> States {
        const SPARE: Span = [32, 28, 62];
        States {
            largest: largest(WHOLE),
            dense: dense(),
            chain: chain(WHOLE),
            random: random(6_000, WHOLE),
            small: session(8),
            unlent: session(7),
            stock: stock(),
            spare: Spare {
                dense: largest(SPARE),
                chain: chain(SPARE),
                random: random(6_000, SPARE),
            },
        }
    }
}

/// The area and object with the most steps between the area and the one that defines the object, up to so many.
pub fn farthest(s: &Record, most: u8) -> (u32, u32, u16) {
    let rows = Rows::of(s);
    let all = (0..32).flat_map(|area| (0..64).map(move |object| (area, object)));
    let answers = all.map(|(area, object)| (area, object, ideal::access(&rows, area, object)));
    answers
        .filter(|answer| answer.2 <= u16::from(most))
        .max_by_key(|answer| answer.2)
        .expect("an object is listed")
}

/// The lowest area that lacks access to the object.
pub fn unreached(s: &Record, object: u32) -> u32 {
    let rows = Rows::of(s);
    (0..32)
        .find(|&area| ideal::access(&rows, area, object) == u16::from(NO_ACCESS))
        .expect("a listed area lacks access")
}

/// The cut of a structure pair that is refused as 11 with the last pair in the order of document 02's point 5, and the
/// answer.
pub fn last_cut(s: &Record) -> (Bytes, u32) {
    let mut rows = Rows::of(s);
    let all = (0..32).flat_map(|user| (0..32).flat_map(move |a| (0..32).map(move |b| [6, user, a, b])));
    let answers = all.map(|bytes| (bytes, ideal_explanation::explain_step(&mut rows, bytes)));
    answers
        .filter(|(_, answer)| answer % 256 == 11)
        .max_by_key(|(_, answer)| {
            let [_, kind, object, area] = answer.to_le_bytes();
            [kind, object, area]
        })
        .expect("a cut is refused as 11")
}

/// All users, areas and objects of the span, each user an owner of each area, and the objects defined by turns in the
/// areas.
fn full([users, areas, objects]: Span) -> Record {
    let mut s = Record::empty();
    s.users[..users].fill(true);
    s.areas[..areas].fill(true);
    s.objects[..objects].fill(true);
    for u in 0..users {
        s.owners[cell(u, 0)..cell(u, areas)].fill(true);
    }
    for o in 0..objects {
        s.definitions[cell(o, o % areas)] = true;
    }
    s
}

/// Every structure and export pair, and every import but the definers' own: no state over the span has a longer file.
fn largest(span @ [_, areas, objects]: Span) -> Record {
    let mut s = full(span);
    for a in 0..areas {
        s.structure[cell(a, 0)..cell(a, areas)].fill(true);
    }
    for o in 0..objects {
        s.exports[cell(o, 0)..cell(o, areas)].fill(true);
        s.imports[cell(o, 0)..cell(o, areas)].fill(true);
        s.imports[cell(o, o % areas)] = false;
    }
    s
}

/// The largest but for one import.
fn dense() -> Record {
    let mut s = largest(WHOLE);
    s.imports[cell(63, 30)] = false;
    s
}

/// Area a lies in area a + 1. Each object goes along 8 steps: even ones outward by exports, odd ones inward by imports.
/// The first objects start at the ends of the row, the next ones beside them, up to the areas that are 8 steps short of
/// the other end.
fn chain(span @ [_, areas, objects]: Span) -> Record {
    let steps = usize::from(MOST_STEPS);
    let mut s = full(span);
    s.definitions.fill(false);
    for a in 0..areas - 1 {
        s.structure[cell(a, a + 1)] = true;
    }
    for o in 0..objects {
        let start = o / 2 % (areas - steps);
        if o % 2 == 0 {
            s.definitions[cell(o, start)] = true;
            (start..start + steps).for_each(|a| s.exports[cell(o, a)] = true);
        } else {
            let start = areas - 1 - start;
            s.definitions[cell(o, start)] = true;
            (start - steps..start).for_each(|a| s.imports[cell(o, a)] = true);
        }
    }
    s
}

/// What random instructions over the span lead to from the founding state, with so many of them accepted.
fn random(accepted: u32, span: Span) -> Record {
    let mut chance = Chance::new(1);
    let mut s = Record::founding();
    let mut done = 0;
    while done < accepted {
        let bytes = random::instruction(&mut chance, &s, span);
        // Fewer removes than adds, so that the state grows.
        let adds = bytes[0] % 2 == 1;
        if !adds && chance.once_in(3) {
            continue;
        }
        if let Ok(next) = plain::step(&s, bytes) {
            s = next;
            done += 1;
        }
    }
    s
}

/// What the session of document 01 leads to, up to this line, which is the eighth at most.
fn session(line: usize) -> Record {
    const SESSION: [Bytes; 8] = [
        [1, 0, 1, 0],
        [1, 0, 2, 0],
        [5, 0, 1, 2],
        [5, 0, 0, 2],
        [7, 0, 1, 9],
        [9, 0, 0, 9],
        [11, 0, 1, 9],
        [9, 0, 0, 9],
    ];
    let mut s = Record::founding();
    for bytes in SESSION.into_iter().take(line) {
        // Line 6 is refused.
        s = plain::step(&s, bytes).unwrap_or(s);
    }
    s
}

/// Small, and objects 16 to 31, which area 2 defines.
fn stock() -> Record {
    let mut s = session(8);
    for o in 16..32 {
        s.objects[o] = true;
        s.definitions[cell(o, 2)] = true;
    }
    s
}
