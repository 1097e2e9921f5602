//! Document 02, point 5: "Why the screen says so."
//!
//! Of all shortest chains the least is taken, and of all lost pairs the first: both are listed as a whole. Whether a
//! reason is the true one, whoever gave it, is asked in `true_reason.rs`.

use crate::access::reach;
use crate::chains::shortest_chains;
use crate::instructions::{step, successor, Instruction};
use crate::question::access;
use crate::record::from_record;
use crate::state::{beside, firsts, State};
use std::collections::BTreeSet;

/// Document 02, point 5: "a buffer under 32 bytes gets 31".
const LEAST_BUFFER: usize = 32;

/// Document 02, point 5: "255 if it lacks access".
pub(crate) const NO_ACCESS: u8 = 255;

/// Document 02, point 5: "Chain or counts go into a lent buffer from its front, the answer says which and how many
/// bytes".
#[derive(Clone, Copy, Debug, PartialEq, Eq, PartialOrd, Ord)]
pub enum Explanation {
    /// With access: a byte for each area of the chain, the definer first and the area last, so 1 to 9.
    Chain(usize),
    /// Without access: a byte for each of the 32 areas.
    Counts(usize),
    /// The refusal: 31, 12, 2 or 4.
    Refused(u8),
}

/// Document 02, point 5: "For an area and an object with access, write the chain of areas from the definer: a shortest
/// one, and among those the one with the lowest numbers compared from the front. Without access, write for each of the
/// 32 areas its least step count, or 255 if it lacks access."
///
/// "Refusals for these two are those of the access question, a buffer under 32 bytes gets 31 before them, and a refusal
/// writes no byte." 31 holds even where the chain would be shorter (docs/READINGS.md, 19).
pub fn explain(state: &State, area: u32, object: u32, buffer: &mut [u8]) -> Explanation {
    if buffer.len() < LEAST_BUFFER {
        return Explanation::Refused(31);
    }
    if let Err(number) = access(state, area, object) {
        return Explanation::Refused(number);
    }
    let (area, object) = (area as u8, object as u8); // neither is 2
    match first_chain(state, area, object) {
        Some(chain) => Explanation::Chain(put(&chain, buffer)),
        None => Explanation::Counts(put(&least_counts(state, object), buffer)),
    }
}

/// The same on a record; what is no record of any state is 12: "or is not the record its relations have". 31 comes
/// before it.
pub fn explain_record(record: &[u8], area: u32, object: u32, buffer: &mut [u8]) -> Explanation {
    match from_record(record) {
        Some(state) => explain(&state, area, object, buffer),
        None if buffer.len() < LEAST_BUFFER => Explanation::Refused(31),
        None => Explanation::Refused(12),
    }
}

/// Document 02, point 5: "a shortest one, and among those the one with the lowest numbers compared from the front".
///
/// Lists of numbers are compared so: the first place where they differ decides.
fn first_chain(state: &State, area: u8, object: u8) -> Option<Vec<u8>> {
    shortest_chains(state, area, object).into_iter().min()
}

/// Document 02, point 5: "for each of the 32 areas its least step count, or 255 if it lacks access".
fn least_counts(state: &State, object: u8) -> Vec<u8> {
    let reached = reach(state, object);
    let count = |area| reached.get(&area).copied().unwrap_or(NO_ACCESS);
    (0..State::AREAS).map(count).collect()
}

/// Document 02, point 5: "into a lent buffer from its front, ... and bytes not written stay". How many were written.
fn put(bytes: &[u8], buffer: &mut [u8]) -> usize {
    buffer[..bytes.len()].copy_from_slice(bytes);
    bytes.len()
}

/// The relation of a pair. Document 02, point 5: "imports before exports".
#[derive(Clone, Copy, Debug, PartialEq, Eq, PartialOrd, Ord)]
pub enum Entry {
    /// An import pair.
    Import,
    /// An export pair.
    Export,
}

/// A pair whose area lacks access. Document 02, point 5: "imports before exports, then by object, then by area". So
/// they are compared, field by field.
#[derive(Clone, Copy, Debug, PartialEq, Eq, PartialOrd, Ord)]
pub struct Lost {
    /// Whether it is an import or an export.
    pub entry: Entry,
    /// The object of the pair.
    pub object: u8,
    /// Its area, which lacks access to the object.
    pub area: u8,
}

/// Why an instruction is refused.
#[derive(Clone, Copy, Debug, PartialEq, Eq, PartialOrd, Ord)]
pub struct StepReason {
    /// 0, or the refusal of the instruction.
    pub number: u8,
    /// The first pair that would be lost, beside 11 and only there.
    pub lost: Option<Lost>,
}

/// Document 02, point 5: "For a removal refused as 11, name the first pair left whose area then lacks access: imports
/// before exports, then by object, then by area. For an instruction not refused as 11 the answer is its own number or
/// 0, and no pair."
pub fn explain_step(state: &State, instruction: [u8; 4]) -> StepReason {
    StepReason {
        number: step(state, instruction).err().unwrap_or(0),
        lost: lost_pairs(state, instruction).first().copied(),
    }
}

/// The same on a record; what is no record of any state is 12: "or is not the record its relations have".
pub fn explain_step_record(record: &[u8], instruction: [u8; 4]) -> StepReason {
    match from_record(record) {
        Some(state) => explain_step(&state, instruction),
        None => StepReason { number: 12, lost: None },
    }
}

/// Document 02, point 5: "For a removal refused as 11", each "pair left whose area then lacks access". For other
/// instructions none.
pub fn lost_pairs(state: &State, instruction: [u8; 4]) -> BTreeSet<Lost> {
    if step(state, instruction) != Err(11) {
        return BTreeSet::new();
    }
    let next = would_give(state, instruction);
    let imports = lacking_access(&next, Entry::Import, &next.imports);
    let exports = lacking_access(&next, Entry::Export, &next.exports);
    imports.into_iter().chain(exports).collect()
}

/// 11: "the state it would give". A pair is left if it is there, so the removed one is not.
pub(crate) fn would_give(state: &State, instruction: [u8; 4]) -> State {
    let [code, activator, a, b] = instruction;
    successor(state, Instruction { code, activator, a, b })
}

/// 11: "an import or export pair whose area lacks access", for one of the two relations.
fn lacking_access(next: &State, entry: Entry, pairs: &BTreeSet<(u8, u8)>) -> Vec<Lost> {
    let mut lacking = Vec::new();
    for object in firsts(pairs) {
        let reached = reach(next, object);
        let areas = beside(pairs, object).filter(|area| !reached.contains_key(area));
        lacking.extend(areas.map(|area| Lost { entry, object, area }));
    }
    lacking
}

/// The explanation as one number: n for a chain of n bytes, 512 + n for counts of n bytes, 256 + r for refusal r.
pub fn explanation_number(explanation: Explanation) -> u16 {
    match explanation {
        Explanation::Chain(bytes) => bytes as u16,
        Explanation::Counts(bytes) => 512 + bytes as u16,
        Explanation::Refused(number) => 256 + u16::from(number),
    }
}

/// The reason as one number: that of the instruction, and for a pair 256 if it is an import or 512 if it is an export,
/// 65,536 times the object and 16,777,216 times the area.
pub fn step_reason_number(reason: StepReason) -> u32 {
    let number = u32::from(reason.number);
    let Some(Lost { entry, object, area }) = reason.lost else {
        return number;
    };
    let kind = match entry {
        Entry::Import => 1,
        Entry::Export => 2,
    };
    number + 256 * kind + 65_536 * u32::from(object) + 16_777_216 * u32::from(area)
}
