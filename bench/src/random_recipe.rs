//! Random recipes, the same in every run.

use crate::ideal;
use crate::random::{self, Span};
use crate::recipe::{Call, Parameters, ENTRY, FIXED, MOST, PARAMETER};
use crate::rows::Rows;
use crate::rules::Bytes;
use chance::Chance;
use std::array::from_fn;

/// A call with 1 to 16 instructions for the state.
pub fn call(chance: &mut Chance, mut s: Rows, span: Span) -> Call {
    let mut activator = random::instruction(chance, &s, span)[1];
    if chance.once_in(32) {
        activator = chance.byte();
    }
    let instructions = instructions(chance, &mut s, activator, span);
    let parameters = from_fn(|_| parameter(chance, &instructions));
    let mut recipe = Vec::new();
    for [code, _, a, b] in instructions {
        recipe.push(code);
        recipe.extend(number(chance, &parameters, a));
        recipe.extend(number(chance, &parameters, b));
    }
    Call {
        recipe,
        activator,
        parameters,
    }
}

/// Each is accepted, if that can be had; but in half of the recipes one of them is whatever is drawn, and that one is
/// the last as often as any.
fn instructions(chance: &mut Chance, s: &mut Rows, activator: u8, span: Span) -> Vec<Bytes> {
    let count = 1 + chance.below(MOST);
    let place = chance.below(count);
    let drawn = chance.pick(&[place, count - 1, MOST, MOST]);
    let instruction = |i| {
        if i == drawn {
            any(chance, s, activator, span)
        } else {
            accepted(chance, s, activator, span)
        }
    };
    (0..count).map(instruction).collect()
}

/// An instruction of the activator, which is obeyed if it is accepted; at times with a byte out of all range.
fn any(chance: &mut Chance, s: &mut Rows, activator: u8, span: Span) -> Bytes {
    let mut bytes = random::instruction(chance, s, span);
    if chance.once_in(4) {
        bytes = random::wild(chance, bytes);
    }
    bytes[1] = activator;
    ideal::step(s, bytes);
    bytes
}

/// One that is accepted, and obeyed, if some tries find one.
fn accepted(chance: &mut Chance, s: &mut Rows, activator: u8, span: Span) -> Bytes {
    let mut bytes = [0; 4];
    for _ in 0..64 {
        bytes = random::instruction(chance, s, span);
        bytes[1] = activator;
        if ideal::step(s, bytes) == 0 {
            break;
        }
    }
    bytes
}

/// A number of one of the instructions, at times any byte.
fn parameter(chance: &mut Chance, instructions: &[Bytes]) -> u8 {
    if chance.once_in(8) {
        chance.byte()
    } else {
        chance.pick(instructions)[2 + chance.below(2)]
    }
}

/// The kind and the value for a number: most often a parameter, where one is this number.
fn number(chance: &mut Chance, parameters: &Parameters, number: u8) -> [u8; 2] {
    let first = chance.below(4);
    let parameter = (first..first + 4).map(|i| i % 4).find(|&i| parameters[i] == number);
    match parameter {
        Some(i) if !chance.once_in(4) => [PARAMETER, i as u8],
        _ => [FIXED, number],
    }
}

/// Spoils the recipe, so that it is none: by its length (0), a kind (1) or a parameter (2).
pub fn spoil(chance: &mut Chance, recipe: &mut Vec<u8>) -> usize {
    let way = chance.below(3);
    let at = ENTRY * chance.below(recipe.len() / ENTRY) + chance.pick(&[1, 3]);
    let above = |chance: &mut Chance, limit: u8| chance.pick(&[limit + 1, limit + 2, 128, 255]);
    match way {
        0 => spoil_length(chance, recipe),
        1 => recipe[at] = above(chance, PARAMETER),
        _ => {
            recipe[at] = PARAMETER;
            recipe[at + 1] = above(chance, 3);
        }
    }
    way
}

/// No instruction, one too many and more, or a part of one.
fn spoil_length(chance: &mut Chance, recipe: &mut Vec<u8>) {
    let whole = recipe.len();
    let length = match chance.below(4) {
        0 => 0,
        1 => ENTRY * (MOST + 1 + chance.below(2)),
        2 => whole - 1 - chance.below(ENTRY - 1),
        _ => whole + 1 + chance.below(ENTRY - 1),
    };
    *recipe = recipe.iter().copied().cycle().take(length).collect();
}
