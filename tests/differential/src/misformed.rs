//! Recipes that are refused as 14, each made out of one that is not: by a length, a kind or a parameter.

use crate::numbers::STEP_ANSWERS;
use crate::seen::Seen;
use crate::templates::{Recipe, FIVE, MOST};
use crate::wanted::NO_CODES;
use chance::Chance;
use std::ops::RangeInclusive;

/// A way to be refused as 14.
#[derive(Clone, Copy, Debug)]
pub enum Way {
    Length(Length),
    /// A kind above 1, at an instruction counted from 0.
    Kind(usize, Operand),
    /// A parameter above 3.
    Parameter(usize, Operand),
}

#[derive(Clone, Copy, Debug)]
pub enum Length {
    Empty,
    NoMultiple,
    /// 17 instructions and more.
    TooLong,
    /// So long that it would be right in 8 or 16 bits.
    Wrapping,
}

#[derive(Clone, Copy, Debug)]
pub enum Operand {
    A,
    B,
}

pub const LENGTHS: [Length; 4] = [Length::Empty, Length::NoMultiple, Length::TooLong, Length::Wrapping];

/// How many instructions a recipe has that is too long.
const TOO_MANY: [usize; 8] = [17, 17, 17, 18, 20, 32, 51, 160];

/// Lengths that are those of 1 or 16 instructions in 8 or 16 bits; half of them are multiples of 5.
const WRAPPING: [usize; 8] = [261, 336, 1285, 1360, 65541, 65616, 327_685, 327_760];

/// Kinds above 1, some of them even, odd, or negative as signed numbers; and values above 3, some with the low bits of
/// a parameter.
const KINDS: [u8; 8] = [2, 2, 2, 3, 128, 129, 254, 255];
const VALUES: [u8; 8] = [4, 4, 4, 5, 7, 8, 128, 255];

/// The two bytes of a or b stand here within the five.
fn offset(operand: Operand) -> usize {
    match operand {
        Operand::A => 1,
        Operand::B => 3,
    }
}

/// The recipe made wrong in this way; it has an instruction there, whose code is made unknown at times.
pub fn made(recipe: &Recipe, way: Way, chance: &mut Chance) -> Recipe {
    let mut other = recipe.clone();
    let (place, operand) = match way {
        Way::Length(length) => {
            set_length(&mut other.bytes, length, chance);
            return other;
        }
        Way::Kind(place, operand) | Way::Parameter(place, operand) => (place, operand),
    };
    let five = &mut other.bytes[place * FIVE..][..FIVE];
    let at = offset(operand);
    match way {
        Way::Parameter(..) => {
            five[at] = 1;
            if five[at + 1] <= 3 || chance.once_in(2) {
                five[at + 1] = one_of(&VALUES, 4, chance);
            }
        }
        _ => five[at] = one_of(&KINDS, 2, chance),
    }
    if chance.once_in(8) {
        five[0] = chance.pick(&NO_CODES);
    }
    other
}

/// One of the numbers, or any from the least on.
fn one_of(numbers: &[u8], least: usize, chance: &mut Chance) -> u8 {
    match chance.once_in(4) {
        true => (least + chance.below(256 - least)) as u8,
        false => chance.pick(numbers),
    }
}

/// Where the bytes are too few, the last instruction comes again and again.
fn set_length(bytes: &mut Vec<u8>, length: Length, chance: &mut Chance) {
    let length = match length {
        Length::Empty => 0,
        Length::NoMultiple => bytes.len() + chance.pick(&[1, 2, 3, 4]) - chance.pick(&[0, FIVE]),
        Length::TooLong => chance.pick(&TOO_MANY) * FIVE,
        Length::Wrapping => chance.pick(&WRAPPING),
    };
    let last = bytes[bytes.len() - FIVE..].to_vec();
    let more = length.saturating_sub(bytes.len());
    bytes.extend(last.into_iter().cycle().take(more));
    bytes.truncate(length);
}

/// Counts a recipe that a sound state has refused as 14. It was made of one that is refused with `number` at the place
/// `refused`, counted from 1; both are 0 if that is accepted.
pub fn count(recipe: &Recipe, way: Way, refused: u32, number: u32, seen: &mut Seen) {
    let (word, place) = match way {
        Way::Length(length) => return seen.count("14, length", length as u32),
        Way::Kind(place, Operand::A) => ("14, kind of a", place),
        Way::Kind(place, Operand::B) => ("14, kind of b", place),
        Way::Parameter(place, Operand::A) => ("14, parameter of a", place),
        Way::Parameter(place, Operand::B) => ("14, parameter of b", place),
    };
    let here = 1 + place as u32;
    seen.count(word, here);
    if (1..here).contains(&refused) {
        seen.count("14 behind a refused instruction", number);
    }
    if !(1..=12).contains(&recipe.bytes[place * FIVE]) {
        seen.count("14 at an unknown code", 0);
    }
}

/// Counts the same recipe where the answer is 12.
pub fn count_unsound(way: Way, seen: &mut Seen) {
    let (word, number) = match way {
        Way::Length(length) => ("12 before 14, length", length as u32),
        Way::Kind(_, operand) => ("12 before 14, kind", operand as u32),
        Way::Parameter(_, operand) => ("12 before 14, parameter", operand as u32),
    };
    seen.count(word, number);
}

/// The places of the instructions of a recipe.
fn places() -> RangeInclusive<u32> {
    1..=MOST as u32
}

/// The refusals of an instruction.
fn refusals() -> impl Iterator<Item = u32> {
    STEP_ANSWERS.into_iter().filter(|&number| number != 0)
}

/// It is a failure if a way came less often than this.
pub fn require(seen: &mut Seen, least: u64) {
    seen.require("14, length", 0..4, least);
    seen.require("14, kind of a", places(), least);
    seen.require("14, kind of b", places(), least);
    seen.require("14, parameter of a", places(), least);
    seen.require("14, parameter of b", places(), least);
    seen.require("14 behind a refused instruction", refusals(), least / 4);
    seen.require("14 at an unknown code", [0], least);
    seen.require("12 before 14, length", 0..4, least);
    seen.require("12 before 14, kind", [0, 1], least);
    seen.require("12 before 14, parameter", [0, 1], least);
}

pub fn text(seen: &Seen) -> String {
    format!(
        "14 by a length of 0, no multiple of 5, 85 and more, right in 8 or 16 bits: {:?}; \
         by a kind of a at instructions 1 to 16: {:?}, of b: {:?}; by a parameter, of a: {:?}, of b: {:?}; \
         behind an instruction that is refused with 1 to 7, 15, 8 to 11: {:?}, at one with an unknown code: {}; \
         the same recipes with 12, by length: {:?}, by a kind of a, of b: {:?}, by a parameter: {:?}",
        seen.each("14, length", 0..4),
        seen.each("14, kind of a", places()),
        seen.each("14, kind of b", places()),
        seen.each("14, parameter of a", places()),
        seen.each("14, parameter of b", places()),
        seen.each("14 behind a refused instruction", refusals()),
        seen.times("14 at an unknown code", 0),
        seen.each("12 before 14, length", 0..4),
        seen.each("12 before 14, kind", [0, 1]),
        seen.each("12 before 14, parameter", [0, 1]),
    )
}
