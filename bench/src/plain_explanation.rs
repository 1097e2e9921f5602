//! The explanations of the plain baseline: the steps to the area are counted by a queue too, and the chain is walked
//! along falling counts. For a lost pair all objects are searched, and then the pairs are looked at in their order.

use crate::explanation::{lost, COUNTS, EXPORT, IMPORT, ROOM};
use crate::plain::{self, moves};
use crate::record::{cell, Record};
use crate::rules::{self, Bytes, Instruction, AREAS, NO_ACCESS, OBJECTS, REFUSED};

/// For each area the number of steps in a shortest chain from there to the one that is asked about.
fn counts_to(s: &Record, object: usize, area: usize) -> [u8; AREAS] {
    let mut counts = [NO_ACCESS; AREAS];
    let mut queue = [0; AREAS];
    let (mut head, mut tail) = (0, 1);
    counts[area] = 0;
    queue[0] = area;
    while head < tail {
        let to = queue[head];
        head += 1;
        for from in 0..AREAS {
            if counts[from] == NO_ACCESS && moves(s, object, from, to) {
                counts[from] = counts[to] + 1;
                queue[tail] = from;
                tail += 1;
            }
        }
    }
    counts
}

/// The first chain to an area that has access.
fn first_chain(s: &Record, object: usize, area: usize) -> Vec<u8> {
    let counts = counts_to(s, object, area);
    let definer = (0..AREAS).find(|&a| s.definitions[cell(object, a)]);
    let mut at = definer.expect("a listed object is defined");
    let mut chain = vec![at as u8];
    while at != area {
        let next = (0..AREAS).find(|&to| moves(s, object, at, to) && counts[to] == counts[at] - 1);
        at = next.expect("the area has access");
        chain.push(at as u8);
    }
    chain
}

/// The number of bytes of the chain, 512 and that of the counts, or 256 and the refusal.
pub fn explain(s: &Record, area: u32, object: u32, buffer: &mut [u8]) -> u16 {
    explained(s, area, object, buffer).unwrap_or_else(|refusal| REFUSED + u16::from(refusal))
}

fn explained(s: &Record, area: u32, object: u32, buffer: &mut [u8]) -> Result<u16, u8> {
    if buffer.len() < ROOM {
        return Err(31);
    }
    if !plain::is_sound(s) {
        return Err(12);
    }
    let (area, object) = rules::question(s, area, object)?;
    let counts = plain::counts(s, object);
    if counts[area] == NO_ACCESS {
        buffer[..AREAS].copy_from_slice(&counts);
        return Ok(COUNTS + AREAS as u16);
    }
    let chain = first_chain(s, object, area);
    buffer[..chain.len()].copy_from_slice(&chain);
    Ok(chain.len() as u16)
}

/// The number that a step would get, and for 11 the first pair that would be lost.
pub fn explain_step(s: &Record, bytes: Bytes) -> u32 {
    match plain::step(s, bytes) {
        Ok(_) => 0,
        Err(11) => first_lost(s, bytes),
        Err(refusal) => u32::from(refusal),
    }
}

fn first_lost(s: &Record, bytes: Bytes) -> u32 {
    let mut next = s.clone();
    rules::obey(&mut next, Instruction::of(bytes).expect("it was refused as 11"));
    let counts: Vec<_> = (0..OBJECTS).map(|o| plain::counts(&next, o)).collect();
    for (kind, pairs) in [(IMPORT, &next.imports), (EXPORT, &next.exports)] {
        for (o, counts) in counts.iter().enumerate() {
            for (a, &count) in counts.iter().enumerate() {
                if pairs[cell(o, a)] && count == NO_ACCESS {
                    return lost(kind, o, a);
                }
            }
        }
    }
    unreachable!("it was refused as 11")
}
