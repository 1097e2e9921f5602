//! Document 02, point 5: "The reason must be the true one: the chain is there, the counts are the least, the named pair
//! is lost and no earlier one is."
//!
//! These functions compute no reason. They take one, whoever gave it, and ask whether it is the true one. They are for
//! sound states and listed numbers: elsewhere no chain and no counts are given.

use crate::access::MOST_STEPS;
use crate::chains::steps_of;
use crate::instructions::step;
use crate::state::{before, beside, State};
use crate::why::{would_give, Entry, Lost, NO_ACCESS};
use std::collections::BTreeSet;

/// Document 02, point 5: "the chain of areas from the definer: a shortest one, and among those the one with the lowest
/// numbers compared from the front"
pub fn is_first_chain(state: &State, area: u8, object: u8, chain: &[u8]) -> bool {
    let steps = steps_of(state, object);
    let definers: BTreeSet<u8> = beside(&state.definitions, object).collect();
    is_chain(&steps, &definers, area, chain) && {
        let leading = leading_to(&steps, area, chain.len());
        no_fewer_steps(&leading, &definers, chain) && no_lower_area(&leading, &steps, chain)
    }
}

/// Document 02, point 5: "the chain is there". It begins at the definer, ends at the area, and goes on by steps.
/// Document 02, point 2: "a chain of 8 steps or fewer".
fn is_chain(steps: &BTreeSet<(u8, u8)>, definers: &BTreeSet<u8>, area: u8, chain: &[u8]) -> bool {
    let begins = chain.first().is_some_and(|first| definers.contains(first));
    let goes_on = chain.windows(2).all(|two| steps.contains(&(two[0], two[1])));
    begins && goes_on && chain.ends_with(&[area]) && chain.len() <= usize::from(MOST_STEPS) + 1
}

/// The areas from which the area is reached in just 0 steps, in 1, and so on.
fn leading_to(steps: &BTreeSet<(u8, u8)>, area: u8, numbers: usize) -> Vec<BTreeSet<u8>> {
    let one_more = |areas: &BTreeSet<u8>| Some(areas.iter().flat_map(|&r| before(steps, r)).collect());
    let by_steps = std::iter::successors(Some(BTreeSet::from([area])), one_more);
    by_steps.take(numbers).collect()
}

/// Document 02, point 5: "a shortest one". No fewer steps lead from a definer to the area.
fn no_fewer_steps(leading: &[BTreeSet<u8>], definers: &BTreeSet<u8>, chain: &[u8]) -> bool {
    leading[..chain.len() - 1].iter().all(|areas| areas.is_disjoint(definers))
}

/// Document 02, point 5: "the lowest numbers compared from the front". A lower chain of as many steps would leave this
/// one for a lower area at some place, and from there come to the end in the steps that are left.
fn no_lower_area(leading: &[BTreeSet<u8>], steps: &BTreeSet<(u8, u8)>, chain: &[u8]) -> bool {
    let steps_left = (0..chain.len() - 1).rev();
    chain.windows(2).zip(steps_left).all(|(two, left)| {
        let mut lower = beside(steps, two[0]).filter(|&other| other < two[1]);
        !lower.any(|other| leading[left].contains(&other))
    })
}

/// Document 02, point 5: "for each of the 32 areas its least step count, or 255 if it lacks access"
///
/// Each count is to be what the others make of it, and 0 for the definer. Then an area with a count has a chain of so
/// many steps, for one of the areas before it has one less, down to the definer; and no chain is shorter, for along it
/// the counts grow by 1 at most at each step.
pub fn are_least_counts(state: &State, object: u8, counts: &[u8]) -> bool {
    let steps = steps_of(state, object);
    let least = |area: u8| match state.definitions.contains(&(object, area)) {
        true => 0, // "0 for the defining area"
        false => by_the_others(&steps, area, counts),
    };
    counts.iter().copied().eq((0..State::AREAS).map(least))
}

/// One more than the least count of an area one step before, as far as that is "a chain of 8 steps or fewer" (document
/// 02, point 2).
fn by_the_others(steps: &BTreeSet<(u8, u8)>, area: u8, counts: &[u8]) -> u8 {
    let areas_before = before(steps, area).into_iter().map(usize::from);
    let counts_before = areas_before.filter_map(|s| counts.get(s).copied());
    let below_the_limit = counts_before.filter(|&count| count < MOST_STEPS);
    below_the_limit.min().map_or(NO_ACCESS, |count| count + 1)
}

/// Document 02, point 5: "the named pair is lost and no earlier one is", for an instruction that is refused as 11.
pub fn is_first_lost(state: &State, instruction: [u8; 4], lost: &Lost) -> bool {
    let next = would_give(state, instruction);
    let access = access_pairs(&next);
    let has_access = |pair: &(u8, u8)| access.contains(pair);
    let pair = (lost.object, lost.area);
    let (left, no_earlier) = match lost.entry {
        Entry::Import => (&next.imports, next.imports.range(..pair).all(has_access)),
        Entry::Export => {
            let imports = next.imports.iter().all(has_access);
            (&next.exports, imports && next.exports.range(..pair).all(has_access))
        }
    };
    step(state, instruction) == Err(11) && left.contains(&pair) && !has_access(&pair) && no_earlier
}

/// The pairs (object, area) with access: the definitions, and 8 times, or until it is nothing new, what is one step on.
fn access_pairs(state: &State) -> BTreeSet<(u8, u8)> {
    let mut pairs = state.definitions.clone();
    for _ in 0..MOST_STEPS {
        let on = |&(object, s): &(u8, u8)| one_step_on(state, object, s).map(move |r| (object, r));
        let more: BTreeSet<(u8, u8)> = pairs.iter().flat_map(on).collect();
        if more.is_subset(&pairs) {
            break;
        }
        pairs.extend(more);
    }
    pairs
}

/// "Export: the object is exported by s and (s, r) is a structure pair. Import: it is imported by r and (r, s) is a
/// structure pair." The r of both cases.
fn one_step_on(state: &State, object: u8, s: u8) -> impl Iterator<Item = u8> + '_ {
    let exported = beside(&state.structure, s).filter(move |_| state.exports.contains(&(object, s)));
    let imported = beside(&state.imports, object).filter(move |&r| state.structure.contains(&(r, s)));
    exported.chain(imported)
}
