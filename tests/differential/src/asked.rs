//! What is asked of a record in the parts about records: a step, a recipe and an access question.

use crate::case::Case;
use crate::expected;
use crate::instructions::{of_code, Domain};
use crate::numbers::{members, pick_or, RECIPE_ANSWERS, STEP_ANSWERS};
use crate::seen::Seen;
use crate::site::Site;
use crate::templates::Recipe;
use chance::Chance;
use reference::State;

/// What the access question is answered with: steps, no access, and the refusals.
const QUESTION_ANSWERS: [u32; 13] = [0, 1, 2, 3, 4, 5, 6, 7, 8, 255, 258, 260, 268];

/// What an instruction is answered with.
fn step_answers() -> impl Iterator<Item = u32> {
    STEP_ANSWERS.into_iter().chain([12])
}

pub struct Asked {
    pub instruction: [u8; 4],
    pub recipe: Recipe,
    pub area: u32,
    pub object: u32,
}

/// The answers of both sides, where they are the same: to the step, to the recipe and to the question.
pub type Answers = Option<[u32; 3]>;

impl Asked {
    /// The instruction; a recipe of it and of another by the same activator, which now and then is 14; and a question,
    /// mostly about a listed area and a listed object.
    pub fn new(state: &State, instruction: [u8; 4], chance: &mut Chance) -> Asked {
        let activator = instruction[1];
        let code = 1 + chance.below(12) as u8;
        let second = of_code(code, state, &Domain::whole(&[activator]), chance);
        let mut recipe = Recipe::written(activator, &[instruction, second], 0, chance);
        if chance.once_in(16) {
            recipe.bytes.pop();
        }
        Asked {
            instruction,
            recipe,
            area: pick_or(&members(&state.areas), 33, 16, chance).into(),
            object: pick_or(&members(&state.objects), 65, 16, chance).into(),
        }
    }

    /// Asks about this area or this object instead, where one is given.
    pub fn aim_question(&mut self, [area, object]: [Option<u8>; 2]) {
        self.area = area.map_or(self.area, u32::from);
        self.object = object.map_or(self.object, u32::from);
    }

    /// Puts all three to both sides.
    pub fn put(&self, site: &Site, seen: &mut Seen) -> Answers {
        let Asked { recipe, .. } = self;
        let step = seen.compare(&Case::step(site, self.instruction));
        let recipe = seen.compare(&Case::recipe(site, &recipe.bytes, recipe.call));
        let question = seen.compare(&Case::access(site, self.area, self.object));
        let [step, recipe, question] = [step?, recipe?, question?].map(|answer| answer.number);
        seen.count("recipe answered", recipe & 0xff);
        Some([step, recipe, question])
    }

    /// What the reference answers.
    pub fn by_reference(&self, site: &Site) -> [u32; 3] {
        let Recipe { bytes, call } = &self.recipe;
        [
            expected::step(site, self.instruction).number,
            expected::recipe(site, bytes, call).number,
            expected::access(site, self.area, self.object).number,
        ]
    }
}

/// It is a failure if an answer came less often than this.
pub fn require(seen: &mut Seen, least: u64) {
    seen.require("step", step_answers(), least);
    seen.require("recipe answered", RECIPE_ANSWERS, least);
    seen.require("access", QUESTION_ANSWERS, least);
}

/// How often each answer came.
pub fn text(seen: &Seen) -> String {
    format!(
        "steps, answers 0 to 7, 15, 8 to 11, 12: {:?}; recipes, answers 0, 12, 14, 1 to 7, 15, 8 to 11: {:?}; \
         questions, answers 0 to 8, no access, 2, 4, 12: {:?}",
        seen.each("step", step_answers()),
        seen.each("recipe answered", RECIPE_ANSWERS),
        seen.each("access", QUESTION_ANSWERS),
    )
}
