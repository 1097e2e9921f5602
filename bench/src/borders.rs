//! What the comparison has met of the limit on steps. It is counted by chains of any length.

use crate::plain::moves;
use crate::record::{cell, Record};
use crate::rules::{self, Bytes, Instruction, AREAS, MOST_STEPS, NO_ACCESS, OBJECTS};
use std::array::from_fn;

const TOO_FAR: u8 = MOST_STEPS + 1;

/// How often it was 8 steps, and how often 9.
#[derive(Default)]
pub struct Borders {
    pub questions: [u32; 2],
    /// Imports and exports.
    pub adds: [u32; 2],
    /// Those after which the farthest import or export would be there, and was nearer before.
    pub removals: [u32; 2],
}

fn count(times: &mut [u32; 2], steps: u8) {
    match steps {
        MOST_STEPS => times[0] += 1,
        TOO_FAR => times[1] += 1,
        _ => {}
    }
}

impl Borders {
    /// A question that was answered by a number of steps, or by no access.
    pub fn question(&mut self, s: &Record, area: u32, object: u32) {
        count(&mut self.questions, lengths(s, object as usize)[area as usize]);
    }

    /// An instruction that was accepted, or refused as 10 or 11. If it adds an import or export at 9 steps, the state
    /// that it would give.
    pub fn step(&mut self, s: &Record, bytes: Bytes) -> Option<Record> {
        let x = Instruction::of(bytes).ok()?;
        let mut next = s.clone();
        rules::obey(&mut next, x);
        match x.code {
            9 | 11 => {
                let steps = lengths(&next, x.b)[x.a];
                count(&mut self.adds, steps);
                (steps == TOO_FAR).then_some(next)
            }
            6 | 10 | 12 => {
                let (before, after) = (farthest(s), farthest(&next));
                if before < after {
                    count(&mut self.removals, after);
                }
                None
            }
            _ => None,
        }
    }
}

/// For each area the number of steps in a shortest chain, however many they are.
pub fn lengths(s: &Record, object: usize) -> [u8; AREAS] {
    let mut lengths = from_fn(|a| if s.definitions[cell(object, a)] { 0 } else { NO_ACCESS });
    for steps in 1..AREAS as u8 {
        let is_next = |to: usize| (0..AREAS).any(|from| lengths[from] == steps - 1 && moves(s, object, from, to));
        let next: Vec<usize> = (0..AREAS)
            .filter(|&to| lengths[to] == NO_ACCESS && is_next(to))
            .collect();
        if next.is_empty() {
            break;
        }
        next.into_iter().for_each(|a| lengths[a] = steps);
    }
    lengths
}

/// The most steps to an import or export; no access if one has no chain.
fn farthest(s: &Record) -> u8 {
    let mut most = 0;
    for o in 0..OBJECTS {
        let entry = |&a: &usize| s.imports[cell(o, a)] || s.exports[cell(o, a)];
        if (0..AREAS).any(|a| entry(&a)) {
            let lengths = lengths(s, o);
            most = (0..AREAS).filter(entry).fold(most, |most, a| most.max(lengths[a]));
        }
    }
    most
}

/// So many areas in a circle, each in the next, and two objects. Areas within 7 steps of the definer import and export
/// the one, areas within 8 the other, either way round; the definer only exports.
pub fn circle(areas: usize) -> Record {
    let mut s = Record::founding();
    for a in 0..areas {
        s.areas[a] = true;
        s.owners[cell(0, a)] = true;
        s.structure[cell(a, (a + 1) % areas)] = true;
    }
    for (o, definer, steps) in [(0, 0, 7), (1, areas / 2, 8)] {
        s.objects[o] = true;
        s.definitions[cell(o, definer)] = true;
        for k in 0..=steps {
            for a in [definer + k, definer + areas - k].map(|a| a % areas) {
                s.imports[cell(o, a)] = a != definer;
                s.exports[cell(o, a)] = true;
            }
        }
    }
    s
}
