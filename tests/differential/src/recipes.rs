//! Recipes: over small states; over random ones, where some are accepted and some refused at a wanted place with a
//! wanted number; and recipes made of these that are 14. In sound states, and in others.

use crate::case::Case;
use crate::courses::Course;
use crate::instructions::instruction_of_anyone;
use crate::misformed::{self, Operand, Way, LENGTHS};
use crate::numbers::{free, members, some, RECIPE_ANSWERS};
use crate::seen::Seen;
use crate::shards::Plan;
use crate::site::Site;
use crate::small_recipes;
use crate::states::{sound_state, Shape};
use crate::templates::{self, Recipe, MOST};
use crate::unsound::spoilt;
use crate::wanted::NUMBERS;
use chance::Chance;
use std::iter::repeat_n;
use std::ops::RangeInclusive;

/// For each shape, how many states a shard has.
const STATES: [(Shape, usize); 5] = [
    (Shape::Sparse, 40),
    (Shape::Ring, 10),
    (Shape::Medium, 6),
    (Shape::Chain, 5),
    (Shape::BothWays, 3),
];

/// One shard in so many has a dense state too: they are dear in the reference.
const WITH_DENSE: usize = 4;

/// How many accepted recipes a state has, beside the longest.
const SHORTER: usize = 5;

/// How many recipes a shard has that are refused at a place, from 2 on, because the activator is unlisted by the
/// instruction before; and how many of activators who are not listed at all.
const LEAVING: usize = 6;
const OUTSIDERS: usize = 60;

/// One recipe in so many is put to an unsound state too.
const UNSOUND: usize = 4;

/// The activator is not listed.
const NOT_LISTED: u8 = 3;

pub fn run(plan: &Plan) -> (String, Seen) {
    let (about_small, mut seen) = small_recipes::run(plan);
    let random = plan.run("recipes", |shard, chance, seen| {
        let shapes = STATES.iter().flat_map(|&(shape, states)| repeat_n(shape, states));
        let dense = shard.is_multiple_of(WITH_DENSE).then_some(Shape::Dense);
        for (round, shape) in shapes.chain(dense).enumerate() {
            one_state(shape, round, chance, seen);
        }
        for place in 1..MOST {
            (0..LEAVING).for_each(|_| leaving(place, chance, seen));
        }
        (0..OUTSIDERS).for_each(|_| outsider(chance, seen));
    });
    seen.add(random);
    require(&mut seen);
    let line = format!(
        "{about_small}; {}; {}; {}",
        answers(&seen),
        templates::text(&seen),
        misformed::text(&seen)
    );
    (line, seen)
}

fn require(seen: &mut Seen) {
    seen.require("recipe answered", RECIPE_ANSWERS, 200);
    seen.require("recipe refused at place", places(), 200);
    let accepted = seen.total("recipe accepted, instructions");
    seen.demand(accepted >= 2000, "2000 accepted recipes are the least");
    seen.require("recipe accepted, instructions", places(), 50);
    seen.require("recipe refused, instructions", places(), 50);
    seen.require("recipe, place and number", places_and_numbers(), 5);
    seen.require("12 for a record that is none", [0, 1], 200);
    seen.require("12 for an unsound state", [0, 1], 200);
    templates::require(seen, 200);
    misformed::require(seen, 200);
    let order: Vec<u32> = reference::order_of_recipe_checks().into_iter().map(u32::from).collect();
    seen.demand(
        RECIPE_ANSWERS[1..] == order,
        "the numbers are printed in the order of the checks",
    );
}

/// The places of the instructions of a recipe.
fn places() -> RangeInclusive<u32> {
    1..=MOST as u32
}

/// Every place with every refusal of an instruction.
fn places_and_numbers() -> impl Iterator<Item = u32> {
    let numbers = || NUMBERS.into_iter().chain([NOT_LISTED]).map(u32::from);
    places().flat_map(move |place| numbers().map(move |number| place * 100 + number))
}

fn answers(seen: &Seen) -> String {
    let at_each = seen.each("recipe, place and number", places_and_numbers());
    let least = at_each.into_iter().min().unwrap_or_default();
    format!(
        "{} others, answers 0, 12, 14, 1 to 7, 15, 8 to 11: {:?}; refused at places 1 to 16: {:?}, \
         each number at each place at least {} times; accepted, of 1 to 16 instructions: {:?}, and refused: {:?}; \
         12 for records that are none, with a recipe, with a 14: {:?}, for unsound states: {:?}",
        seen.total("recipe answered"),
        seen.each("recipe answered", RECIPE_ANSWERS),
        seen.each("recipe refused at place", places()),
        least,
        seen.each("recipe accepted, instructions", places()),
        seen.each("recipe refused, instructions", places()),
        seen.each("12 for a record that is none", [0, 1]),
        seen.each("12 for an unsound state", [0, 1]),
    )
}

/// A recipe that a sound state has answered: its place and number.
struct Answered {
    recipe: Recipe,
    place: u32,
    number: u32,
}

/// One recipe, perhaps one that is 14, on both sides. Gives the place and the number, if both sides give the same.
fn put(site: &Site, recipe: &Recipe, seen: &mut Seen) -> Option<(u32, u32)> {
    let answer = seen.compare(&Case::recipe(site, &recipe.bytes, recipe.call))?;
    let (place, number) = (answer.number >> 8, answer.number & 0xff);
    seen.count("recipe answered", number);
    if place > 0 {
        seen.count("recipe refused at place", place);
        seen.count("recipe, place and number", place * 100 + number);
    }
    Some((place, number))
}

/// A recipe that is not 14, at a sound state.
fn put_recipe(site: &Site, recipe: Recipe, seen: &mut Seen) -> Option<Answered> {
    let (place, number) = put(site, &recipe, seen)?;
    let word = match (place, number) {
        (0, 0) => "recipe accepted, instructions",
        _ => "recipe refused, instructions",
    };
    seen.demand(place > 0 || number == 0, "12 and 14 are for other states and recipes");
    seen.count(word, recipe.instructions() as u32);
    templates::count(&recipe, place as usize, seen);
    Some(Answered { recipe, place, number })
}

/// Recipes of one activator: accepted ones, then for each place one that is refused there, and all of these made 14.
fn one_state(shape: Shape, round: usize, chance: &mut Chance, seen: &mut Seen) {
    let start = sound_state(shape, chance);
    let activator = chance.pick(&members(&start.users));
    let course = Course::new(start, activator, MOST, chance);
    let site = Site::of_state(&course.states[0]);
    let mut answered = Vec::new();
    let length = course.instructions.len();
    let shorter: Vec<usize> = (0..SHORTER).map(|_| 1 + chance.below(length)).collect();
    for length in shorter.into_iter().chain([length]) {
        let about = chance.below(length);
        let recipe = Recipe::written(activator, &course.instructions[..length], about, chance);
        answered.extend(put_recipe(&site, recipe, seen));
    }
    for place in 0..MOST {
        let number = NUMBERS[(place + round) % NUMBERS.len()];
        if let Some(list) = course.refused(place, number, chance) {
            let recipe = Recipe::written(activator, &list, place, chance);
            answered.extend(put_recipe(&site, recipe, seen));
        }
    }
    let unsound = spoilt(&course.states[0], chance);
    for one in answered.iter().step_by(UNSOUND) {
        put_unsound(&unsound, &one.recipe, false, seen);
    }
    every_way([&site, &unsound], &answered, round, chance, seen);
}

/// 14 by each length, and by a kind and a parameter at each of 16 instructions, of a or of b. Each is made of a recipe
/// that has been answered; some are put to an unsound state too.
fn every_way(sites: [&Site; 2], answered: &[Answered], round: usize, chance: &mut Chance, seen: &mut Seen) {
    let mut ways: Vec<(Way, usize)> = LENGTHS.map(|length| (Way::Length(length), 1)).to_vec();
    for place in 0..MOST {
        let operands = match (place + round).is_multiple_of(2) {
            true => [Operand::A, Operand::B],
            false => [Operand::B, Operand::A],
        };
        ways.push((Way::Kind(place, operands[0]), place + 1));
        ways.push((Way::Parameter(place, operands[1]), place + 1));
    }
    let [sound, unsound] = sites;
    for (way, least) in ways {
        let fit: Vec<&Answered> = answered
            .iter()
            .filter(|one| one.recipe.instructions() >= least)
            .collect();
        let Some(base) = some(&fit, chance) else { continue };
        let recipe = put_misformed(sound, base, way, chance, seen);
        if (least == 1 || chance.once_in(UNSOUND)) && put_unsound(unsound, &recipe, true, seen) {
            misformed::count_unsound(way, seen);
        }
    }
}

/// The recipe made one that is 14, at a sound state.
fn put_misformed(site: &Site, base: &Answered, way: Way, chance: &mut Chance, seen: &mut Seen) -> Recipe {
    let recipe = misformed::made(&base.recipe, way, chance);
    if let Some((0, 14)) = put(site, &recipe, seen) {
        misformed::count(&recipe, way, base.place, base.number, seen);
    }
    recipe
}

/// A recipe at a state that is not sound, or at bytes that are no record. Is it 12?
fn put_unsound(site: &Site, recipe: &Recipe, is_14: bool, seen: &mut Seen) -> bool {
    let word = match site.state {
        Some(_) => "12 for an unsound state",
        None => "12 for a record that is none",
    };
    let is_12 = put(site, recipe, seen) == Some((0, 12));
    if is_12 {
        seen.count(word, is_14.into());
    }
    is_12
}

/// So many instructions are accepted, and the last unlists the activator. The next is refused; at times there are more
/// behind it, and then it is 14 if one of these has a kind above 1.
fn leaving(place: usize, chance: &mut Chance, seen: &mut Seen) {
    let Some(course) = Course::leaving(sound_state(Shape::Sparse, chance), place, chance) else {
        return;
    };
    let Some(list) = course.refused(place, NOT_LISTED, chance) else {
        return;
    };
    let site = Site::of_state(&course.states[0]);
    let recipe = Recipe::written(course.activator, &list, place, chance);
    let answered = put_recipe(&site, recipe, seen);
    if let (Some(answered), true) = (answered, list.len() > place + 1) {
        let later = place + 1 + chance.below(list.len() - place - 1);
        put_misformed(&site, &answered, Way::Kind(later, Operand::B), chance, seen);
    }
}

/// Any instructions of someone who is not listed, or is no user at all.
fn outsider(chance: &mut Chance, seen: &mut Seen) {
    let state = sound_state(Shape::Sparse, chance);
    let activator = match some(&free(&members(&state.users), 32), chance) {
        Some(user) if !chance.once_in(4) => user,
        _ => 32 + chance.below(224) as u8,
    };
    let instructions: Vec<[u8; 4]> = (0..1 + chance.below(MOST))
        .map(|_| instruction_of_anyone(&state, chance))
        .collect();
    let recipe = Recipe::written(activator, &instructions, 0, chance);
    put_recipe(&Site::of_state(&state), recipe, seen);
}
