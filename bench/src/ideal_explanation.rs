//! The explanations of the ideal baseline. For a chain it searches backwards from the area, and walks forward in the
//! rows that it met. For a lost pair the state is changed in place, searched once, and changed back.

use crate::explanation::{lost, COUNTS, EXPORT, IMPORT, ROOM};
use crate::ideal::{self, Moves};
use crate::rows::{holds, Rows};
use crate::rules::{self, Bytes, Instruction, AREAS, MOST_STEPS, NO_ACCESS, OBJECTS, REFUSED};
use std::ops::Range;

/// From where the object moves in one step to the areas of the set.
fn back(moves: &Moves, object: usize, mut areas: u32) -> u32 {
    let s = moves.s;
    let mut from = 0;
    while areas != 0 {
        let area = areas.trailing_zeros() as usize;
        if holds(s.imports[object], area) {
            from |= s.structure[area];
        }
        from |= s.exports[object] & moves.turned[area];
        areas &= areas - 1;
    }
    from
}

/// The areas of the set that lack access to the object.
fn lacking(moves: &Moves, object: usize, wanted: u32) -> u32 {
    let mut layer = moves.s.definitions[object];
    let mut reached = layer;
    let mut count = 0;
    while wanted & !reached != 0 && layer != 0 && count < MOST_STEPS {
        layer = moves.step(object, layer) & !reached;
        reached |= layer;
        count += 1;
    }
    wanted & !reached
}

/// Writes the first chain: the number of its bytes, or none without access.
fn put_chain(moves: &Moves, object: usize, area: usize, chain: &mut [u8; ROOM]) -> Option<u16> {
    const MOST: usize = MOST_STEPS as usize;
    let defined = moves.s.definitions[object];
    // By the number of steps to the area.
    let mut layers = [0; MOST + 1];
    layers[0] = 1 << area;
    let mut met = layers[0];
    let mut count = 0;
    while layers[count] & defined == 0 {
        if layers[count] == 0 || count == MOST {
            return None;
        }
        let layer = back(moves, object, layers[count]) & !met;
        met |= layer;
        count += 1;
        layers[count] = layer;
    }
    let mut at_hand = defined;
    for (byte, layer) in chain.iter_mut().zip(layers[..=count].iter().rev()) {
        let next = (at_hand & layer).trailing_zeros();
        *byte = next as u8;
        at_hand = moves.from(object, next as usize & 31);
    }
    Some(count as u16 + 1)
}

/// Writes the count of each area.
fn put_counts(moves: &Moves, object: usize, counts: &mut [u8; AREAS]) {
    *counts = [NO_ACCESS; AREAS];
    let mut layer = moves.s.definitions[object];
    let mut reached = layer;
    let mut count = 0;
    while layer != 0 {
        let mut rest = layer;
        while rest != 0 {
            counts[rest.trailing_zeros() as usize] = count;
            rest &= rest - 1;
        }
        if count == MOST_STEPS {
            return;
        }
        layer = moves.step(object, layer) & !reached;
        reached |= layer;
        count += 1;
    }
}

/// The number of bytes of the chain, 512 and that of the counts, or 256 and the refusal.
pub fn explain(s: &Rows, area: u32, object: u32, buffer: &mut [u8]) -> u16 {
    explained(s, area, object, buffer).unwrap_or_else(|refusal| REFUSED + u16::from(refusal))
}

fn explained(s: &Rows, area: u32, object: u32, buffer: &mut [u8]) -> Result<u16, u8> {
    let front = buffer.first_chunk_mut().ok_or(31)?;
    let turned = ideal::turned(&s.structure);
    let moves = Moves { s, turned: &turned };
    if !ideal::are_sound(&moves) {
        return Err(12);
    }
    let (area, object) = rules::question(s, area, object)?;
    Ok(put_chain(&moves, object, area, front).unwrap_or_else(|| {
        put_counts(&moves, object, front);
        COUNTS + AREAS as u16
    }))
}

/// The first pair of these objects whose area lacks access, 0 if there is none. A lost export is kept in mind while
/// imports are looked for.
fn first_lost(moves: &Moves, objects: Range<usize>) -> u32 {
    let mut export = 0;
    for o in objects {
        let (imports, exports) = (moves.s.imports[o], moves.s.exports[o]);
        let wanted = if export == 0 { imports | exports } else { imports };
        let lacking = lacking(moves, o, wanted);
        if lacking & imports != 0 {
            return lost(IMPORT, o, (lacking & imports).trailing_zeros() as usize);
        }
        if lacking != 0 {
            export = lost(EXPORT, o, lacking.trailing_zeros() as usize);
        }
    }
    export
}

/// Refusal 10, or 11 with its pair, or 0, of the state after the instruction. A search is made only for what the
/// instruction touches.
fn last_checks(moves: &Moves, x: Instruction) -> u32 {
    match x.code {
        9 | 11 if !moves.reach(x.b, 1 << x.a) => 10,
        9 | 11 => 0,
        6 => first_lost(moves, 0..OBJECTS),
        _ => first_lost(moves, x.b..x.b + 1),
    }
}

/// The number that a step would get, and for 11 the first pair that would be lost. The state is as it was afterwards.
pub fn explain_step(s: &mut Rows, bytes: Bytes) -> u32 {
    reason(s, bytes).unwrap_or_else(u32::from)
}

fn reason(s: &mut Rows, bytes: Bytes) -> Result<u32, u8> {
    let mut turned = ideal::turned(&s.structure);
    if !ideal::are_sound(&Moves { s, turned: &turned }) {
        return Err(12);
    }
    let x = Instruction::of(bytes)?;
    rules::permit(s, x)?;
    let (6 | 8..=12) = x.code else {
        return Ok(0);
    };
    rules::obey(s, x);
    if x.code == 6 {
        turned[x.b] ^= 1 << x.a;
    }
    let answer = last_checks(&Moves { s, turned: &turned }, x);
    rules::obey(s, x.opposite());
    Ok(answer)
}
