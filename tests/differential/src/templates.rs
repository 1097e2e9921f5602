//! Recipes written for instructions: which of their numbers are fixed, and which are parameters of the call.

use crate::seen::Seen;
use chance::Chance;
use reference::Call;

/// How many bytes each instruction of a recipe has, and how many instructions a recipe may have.
pub const FIVE: usize = 5;
pub const MOST: usize = 16;

const FIXED: u8 = 0;
const PARAMETER: u8 = 1;

/// The kind of a and that of b, as two digits.
const KINDS: [u32; 4] = [0, 1, 10, 11];

/// Above every limit that a number of an instruction has.
const LARGE: u8 = 64;

/// The bytes, and what comes with the call.
#[derive(Clone, Debug)]
pub struct Recipe {
    pub bytes: Vec<u8>,
    pub call: Call,
}

impl Recipe {
    /// A recipe for instructions of one activator, at least one. Fixed numbers and parameters are mixed; the
    /// instruction at the place `about`, counted from 0, has parameters more often. One that is not used is any byte.
    pub fn written(activator: u8, instructions: &[[u8; 4]], about: usize, chance: &mut Chance) -> Recipe {
        let parameters = [(); 4].map(|_| {
            let place = match chance.once_in(2) {
                true => about,
                false => chance.below(instructions.len()),
            };
            match chance.once_in(4) {
                true => chance.byte(),
                false => instructions[place][chance.pick(&[2, 3])],
            }
        });
        let mut bytes = Vec::with_capacity(instructions.len() * FIVE);
        for &[code, _, a, b] in instructions {
            bytes.push(code);
            bytes.extend(operand(a, &parameters, chance));
            bytes.extend(operand(b, &parameters, chance));
        }
        let call = Call { activator, parameters };
        Recipe { bytes, call }
    }

    /// How many instructions it has.
    pub fn instructions(&self) -> usize {
        self.bytes.len() / FIVE
    }

    /// The kind and the value of each a and each b.
    fn operands(&self) -> impl Iterator<Item = [u8; 2]> + '_ {
        let fives = self.bytes.chunks_exact(FIVE);
        fives.flat_map(|five| [[five[1], five[2]], [five[3], five[4]]])
    }
}

/// The five bytes with both numbers fixed.
pub fn fixed([code, _, a, b]: [u8; 4]) -> [u8; FIVE] {
    [code, FIXED, a, FIXED, b]
}

/// The kind and the value for a number: one of the parameters that are this number, or the number itself.
pub fn operand(number: u8, parameters: &[u8; 4], chance: &mut Chance) -> [u8; 2] {
    let same: Vec<u8> = (0..4)
        .filter(|&place| parameters[usize::from(place)] == number)
        .collect();
    match same.is_empty() || chance.once_in(4) {
        true => [FIXED, number],
        false => [PARAMETER, chance.pick(&same)],
    }
}

/// Counts how numbers are given: in all instructions, or up to the one that is refused, at this place counted from 1.
pub fn count(recipe: &Recipe, place: usize, seen: &mut Seen) {
    let reached = if place == 0 { recipe.instructions() } else { place };
    for (number, five) in (1..).zip(recipe.bytes.chunks_exact(FIVE)).take(reached) {
        let &[code, kind_a, a, kind_b, b] = five else { return };
        match kind_a {
            FIXED => seen.count("a fixed, above 3", u32::from(a > 3)),
            _ => seen.count("a as parameter", a.into()),
        }
        match kind_b {
            FIXED => seen.count("b fixed, above 3", u32::from(b > 3)),
            _ => seen.count("b as parameter", b.into()),
        }
        let is_refused = number == place;
        if is_refused {
            seen.count("refused, kinds", u32::from(kind_a) * 10 + u32::from(kind_b));
        }
        if let (1 | 2, PARAMETER) = (code, kind_b) {
            seen.count("parameter as b of codes 1 and 2, refused", is_refused.into());
        }
    }
    count_unused(recipe, seen);
}

fn count_unused(recipe: &Recipe, seen: &mut Seen) {
    for (place, &number) in (0..).zip(&recipe.call.parameters) {
        let used = recipe.operands().any(|operand| operand == [PARAMETER, place]);
        if !used && number >= LARGE {
            seen.count("unused parameter above every limit", place.into());
        }
    }
}

/// It is a failure if a way to give a number came less often than this.
pub fn require(seen: &mut Seen, least: u64) {
    seen.require("a fixed, above 3", [0, 1], least);
    seen.require("b fixed, above 3", [0, 1], least);
    seen.require("a as parameter", 0..4, least);
    seen.require("b as parameter", 0..4, least);
    seen.require("unused parameter above every limit", 0..4, least);
    seen.require("refused, kinds", KINDS, least);
    seen.require("parameter as b of codes 1 and 2, refused", [0, 1], least / 4);
}

pub fn text(seen: &Seen) -> String {
    format!(
        "a fixed, up to 3 and above: {:?}, as parameters 0 to 3: {:?}; b: {:?}, {:?}; \
         parameters 0 to 3 unused and above every limit: {:?}; \
         refused instructions with both fixed, b a parameter, a a parameter, both: {:?}; \
         codes 1 and 2 with a parameter as b, accepted and refused: {:?}",
        seen.each("a fixed, above 3", [0, 1]),
        seen.each("a as parameter", 0..4),
        seen.each("b fixed, above 3", [0, 1]),
        seen.each("b as parameter", 0..4),
        seen.each("unused parameter above every limit", 0..4),
        seen.each("refused, kinds", KINDS),
        seen.each("parameter as b of codes 1 and 2, refused", [0, 1]),
    )
}
