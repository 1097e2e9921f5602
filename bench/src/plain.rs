//! The plain baseline: document 01 in plain Rust on bools, with a queue for the search.

use crate::recipe::{self, Call};
use crate::record::{cell, Record};
use crate::rules::{self, Bytes, Instruction, AREAS, MOST_STEPS, NO_ACCESS, OBJECTS, REFUSED, USERS};

/// Does the object move in one step from the one area to the other?
pub fn moves(s: &Record, object: usize, from: usize, to: usize) -> bool {
    let exported = s.exports[cell(object, from)] && s.structure[cell(from, to)];
    let imported = s.imports[cell(object, to)] && s.structure[cell(to, from)];
    exported || imported
}

/// For each area the number of steps in a shortest chain: a search with a queue, which ends where the limit is reached.
pub fn counts(s: &Record, object: usize) -> [u8; AREAS] {
    let row = object * AREAS;
    let mut counts = [NO_ACCESS; AREAS];
    let mut queue = [0; AREAS];
    let (mut head, mut tail) = (0, 0);
    for (a, &defined) in s.definitions[row..row + AREAS].iter().enumerate() {
        if defined {
            counts[a] = 0;
            queue[tail] = a;
            tail += 1;
        }
    }
    while head < tail {
        let from = queue[head];
        if counts[from] == MOST_STEPS {
            break;
        }
        head += 1;
        for to in 0..AREAS {
            if counts[to] != NO_ACCESS {
                continue;
            }
            // Not by `moves`, which is slower here.
            let exported = s.exports[row + from] && s.structure[cell(from, to)];
            let imported = s.imports[row + to] && s.structure[cell(to, from)];
            if exported || imported {
                counts[to] = counts[from] + 1;
                queue[tail] = to;
                tail += 1;
            }
        }
    }
    counts
}

/// Each pair names a listed number and a listed area.
fn named(pairs: &[bool], firsts: &[bool], areas: &[bool; AREAS]) -> bool {
    for (i, &first) in firsts.iter().enumerate() {
        for (j, &area) in areas.iter().enumerate() {
            if pairs[cell(i, j)] && !(first && area) {
                return false;
            }
        }
    }
    true
}

fn is_consistent(s: &Record) -> bool {
    named(&s.owners, &s.users, &s.areas)
        && named(&s.definitions, &s.objects, &s.areas)
        && named(&s.structure, &s.areas, &s.areas)
        && named(&s.imports, &s.objects, &s.areas)
        && named(&s.exports, &s.objects, &s.areas)
}

fn owns_an_area(s: &Record, user: usize) -> bool {
    (0..AREAS).any(|a| s.owners[cell(user, a)])
}

fn has_owner(s: &Record, area: usize) -> bool {
    (0..USERS).any(|u| s.owners[cell(u, area)])
}

fn is_acceptable(s: &Record) -> bool {
    (0..USERS).all(|u| !s.users[u] || owns_an_area(s, u))
        && (0..AREAS).all(|a| !s.areas[a] || has_owner(s, a))
        && (0..OBJECTS).all(|o| !s.objects[o] || (0..AREAS).filter(|&a| s.definitions[cell(o, a)]).count() == 1)
}

/// Each area that imports or exports an object has access to it.
pub fn is_valid(s: &Record) -> bool {
    for o in 0..OBJECTS {
        let entry = |a: usize| s.imports[cell(o, a)] || s.exports[cell(o, a)];
        if !(0..AREAS).any(entry) {
            continue;
        }
        let counts = counts(s, o);
        if (0..AREAS).any(|a| entry(a) && counts[a] == NO_ACCESS) {
            return false;
        }
    }
    true
}

/// "no area may import an object that it defines": document 02, point 4.
pub fn borrows_from_others(s: &Record) -> bool {
    s.imports
        .iter()
        .zip(&s.definitions)
        .all(|(&imported, &defined)| !(imported && defined))
}

pub fn is_sound(s: &Record) -> bool {
    is_consistent(s) && is_acceptable(s) && s.areas.contains(&true) && is_valid(s) && borrows_from_others(s)
}

/// The state after the instruction, or the number of its refusal.
pub fn step(s: &Record, bytes: Bytes) -> Result<Record, u8> {
    if !is_sound(s) {
        return Err(12);
    }
    step_if_sound(s, bytes)
}

/// The same of a sound state.
fn step_if_sound(s: &Record, bytes: Bytes) -> Result<Record, u8> {
    let x = Instruction::of(bytes)?;
    rules::permit(s, x)?;
    let mut next = s.clone();
    rules::obey(&mut next, x);
    match x.code {
        9 | 11 if counts(&next, x.b)[x.a] == NO_ACCESS => Err(10),
        6 | 8 | 10 | 12 if !is_valid(&next) => Err(11),
        _ => Ok(next),
    }
}

/// The state after the recipe, or the place and the number of its refusal. Each instruction is a step of its own, which
/// asks for soundness as any step does.
pub fn recipe(s: &Record, call: &Call) -> Result<Record, u16> {
    let Some(instructions) = call.instructions() else {
        return Err(if is_sound(s) { 14 } else { 12 });
    };
    one_by_one(s, instructions, step)
}

/// The same, but only the given state is asked whether it is sound: for the others it is taken on trust.
pub fn recipe_asking_once(s: &Record, call: &Call) -> Result<Record, u16> {
    if !is_sound(s) {
        return Err(12);
    }
    let instructions = call.instructions().ok_or(14_u16)?;
    one_by_one(s, instructions, step_if_sound)
}

fn one_by_one(
    s: &Record,
    instructions: impl Iterator<Item = Bytes>,
    step: impl Fn(&Record, Bytes) -> Result<Record, u8>,
) -> Result<Record, u16> {
    let mut next = s.clone();
    for (place, bytes) in (1..).zip(instructions) {
        next = step(&next, bytes).map_err(|refusal| recipe::refused(place, refusal))?;
    }
    Ok(next)
}

/// The number of steps, 255 for no access, or 256 and the refusal.
pub fn access(s: &Record, area: u32, object: u32) -> u16 {
    if !is_sound(s) {
        return REFUSED + 12;
    }
    match rules::question(s, area, object) {
        Ok((area, object)) => u16::from(counts(s, object)[area]),
        Err(refusal) => REFUSED + u16::from(refusal),
    }
}

/// The marks one after the other, from the lowest on: the loop that the library's table has replaced. Not inlined, as
/// the library is not.
#[inline(never)]
pub fn lowest_mark(marks: u8) -> u8 {
    let mut rest = marks;
    for place in 0..8 {
        if rest % 2 == 1 {
            return place;
        }
        rest /= 2;
    }
    8
}
