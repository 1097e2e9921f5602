//! The numbers and pairs of a state, and random choices among them.

use chance::Chance;
use reference::State;
use std::collections::BTreeSet;

pub type Pairs = BTreeSet<(u8, u8)>;

/// What a sound state answers to an instruction: 0, and the refusals in the order of their checks.
pub const STEP_ANSWERS: [u32; 13] = [0, 1, 2, 3, 4, 5, 6, 7, 15, 8, 9, 10, 11];

/// What a recipe is answered with: 0, and the refusals in the order of their checks.
pub const RECIPE_ANSWERS: [u32; 15] = [0, 12, 14, 1, 2, 3, 4, 5, 6, 7, 15, 8, 9, 10, 11];

/// The five relations, in the order of the record and of the site file.
pub fn relations(state: &State) -> [&Pairs; 5] {
    [
        &state.owners,
        &state.definitions,
        &state.structure,
        &state.imports,
        &state.exports,
    ]
}

/// So many different numbers below the limit, in any order.
pub fn some_of(limit: usize, count: usize, chance: &mut Chance) -> Vec<u8> {
    let mut numbers: Vec<u8> = (0..limit).map(|number| number as u8).collect();
    for place in 0..count {
        numbers.swap(place, place + chance.below(limit - place));
    }
    numbers.truncate(count);
    numbers
}

/// One of the numbers; any below the limit once in so many times, or if there are none.
pub fn pick_or(numbers: &[u8], limit: usize, once_in: usize, chance: &mut Chance) -> u8 {
    if numbers.is_empty() || chance.once_in(once_in) {
        return chance.below(limit) as u8;
    }
    chance.pick(numbers)
}

/// One of the values, if there are any.
pub fn some<T: Copy>(values: &[T], chance: &mut Chance) -> Option<T> {
    (!values.is_empty()).then(|| chance.pick(values))
}

/// The number as it is, or one above 255: often so far above that it is the same again in 8 or 16 bits.
pub fn widened(number: u8, once_in: usize, chance: &mut Chance) -> u32 {
    let number = u32::from(number);
    if !chance.once_in(once_in) {
        return number;
    }
    match chance.below(4) {
        0 => number + 256,
        1 => number + 65_536,
        2 => number + 256 * (1 + chance.below(0xff_ffff) as u32),
        _ => 256 + chance.below(0xffff_ff00) as u32,
    }
}

/// The numbers below the limit that are not in the list.
pub fn free(list: &[u8], limit: usize) -> Vec<u8> {
    (0..limit as u8).filter(|number| !list.contains(number)).collect()
}

pub fn members(set: &BTreeSet<u8>) -> Vec<u8> {
    set.iter().copied().collect()
}

/// What stands first in the pairs with this second number.
pub fn firsts_with(pairs: &Pairs, second: u8) -> Vec<u8> {
    pairs
        .iter()
        .filter(|pair| pair.1 == second)
        .map(|pair| pair.0)
        .collect()
}

/// What stands second in the pairs with this first number.
pub fn seconds_with(pairs: &Pairs, first: u8) -> Vec<u8> {
    pairs.iter().filter(|pair| pair.0 == first).map(|pair| pair.1).collect()
}
