//! "Show that old and new records stand for the same sound states one to one, and that every instruction and question
//! gives the same answers on both": executed. The reference holds the old record of a state and the library the new
//! one, and each goes on with what it made of its own.

use crate::answer::Answer;
use crate::asked::{self, Asked};
use crate::case::Case;
use crate::files::largest;
use crate::instructions::instruction_of_anyone;
use crate::seen::Seen;
use crate::shards::Plan;
use crate::site::Site;
use crate::states::{list_all, sound_state, Shape};
use crate::templates::Recipe;
use crate::unsound::{add_own_import, one_step_too_far, turned};
use chance::Chance;
use reference::{Labels, State, RECORD_BYTES};

/// For each shape, how many walks a shard has, and how many steps each of them.
const WALKS: [(Shape, usize, usize); 6] = [
    (Shape::Sparse, 120, 15),
    (Shape::Medium, 30, 15),
    (Shape::Chain, 40, 10),
    (Shape::Ring, 60, 15),
    (Shape::BothWays, 10, 10),
    (Shape::Dense, 2, 5),
];

/// How many steps a walk from each small state has, and one from the state of the largest file.
const SMALL_STEPS: usize = 2;
const LARGEST_STEPS: usize = 2;

/// How many unsound states a shard has.
const UNSOUND: usize = 300;

pub fn run(plan: &Plan) -> (String, Seen) {
    let small: Vec<State> = reference::small_states().into_iter().collect();
    let mut seen = plan.run("old records", |shard, chance, seen| {
        for state in small.iter().skip(shard).step_by(plan.shards()) {
            walk(state, SMALL_STEPS, chance, seen);
        }
        for (shape, walks, steps) in WALKS {
            for round in 0..walks {
                let mut state = sound_state(shape, chance);
                if round % 4 == 0 {
                    list_all(&mut state, chance);
                }
                walk(&state, steps, chance, seen);
            }
        }
        walk(&largest(chance).0, LARGEST_STEPS, chance, seen);
        for _ in 0..UNSOUND {
            unsound(chance, seen);
        }
    });
    seen.require("read", [0], 2000);
    seen.require("state in both records", [1], 10_000);
    seen.require("state in both records", [0], 1000);
    asked::require(&mut seen, 50);
    let line = format!(
        "{} sound states and {} others in both records, {} of them read from files; {}",
        seen.times("state in both records", 1),
        seen.times("state in both records", 0),
        seen.total("read"),
        asked::text(&seen),
    );
    (line, seen)
}

/// Steps, recipes and questions one after the other, from a state that the library reads from a file.
fn walk(start: &State, steps: usize, chance: &mut Chance, seen: &mut Seen) -> Option<()> {
    let mut both = Both::read(start, seen)?;
    for _ in 0..steps {
        let state = both.state(true, seen)?;
        let asked = Asked::new(&state, instruction_of_anyone(&state, chance), chance);
        both.question(asked.area, asked.object, seen)?;
        match chance.once_in(4) {
            true => both.recipe(&asked.recipe, seen)?,
            false => both.step(asked.instruction, seen)?,
        }
    }
    both.state(true, seen).map(drop)
}

/// A question, a recipe and a step at a state that is mostly not sound: by a few places, by an entry at 9 steps, or by
/// an own import.
fn unsound(chance: &mut Chance, seen: &mut Seen) -> Option<()> {
    let shape = chance.pick(&[Shape::Sparse, Shape::Medium, Shape::Chain, Shape::Ring]);
    let mut state = sound_state(shape, chance);
    match chance.below(3) {
        0 => state = turned(&state, chance),
        1 if !state.objects.is_empty() => state = one_step_too_far(&state, chance)?,
        _ => drop(add_own_import(&mut state, chance)?),
    }
    let asked = Asked::new(&state, instruction_of_anyone(&state, chance), chance);
    let mut both = Both {
        old: reference::to_old_record(&state),
        new: reference::to_record(&state),
    };
    both.state(state.is_sound(), seen)?;
    both.question(asked.area, asked.object, seen)?;
    both.recipe(&asked.recipe, seen)?;
    both.step(asked.instruction, seen)
}

/// One state: the old record is the reference's, and the new one the library's.
struct Both {
    old: Vec<u8>,
    new: Vec<u8>,
}

impl Both {
    /// The library makes its record of the file that the reference writes.
    fn read(state: &State, seen: &mut Seen) -> Option<Both> {
        let file = reference::write_file(state, &Labels::new());
        let mut both = Both {
            old: Vec::new(),
            new: Vec::new(),
        };
        let old = reference::to_old_record(state);
        both.go_on(&Case::read(&file, RECORD_BYTES), 0, old, seen)?;
        Some(both)
    }

    /// The state that both records stand for, sound or not.
    fn state(&self, is_sound: bool, seen: &mut Seen) -> Option<State> {
        let state = reference::from_old_record(&self.old)?;
        seen.count("state in both records", is_sound.into());
        seen.demand(
            reference::eight_to_a_byte(&self.old) == self.new,
            "the new record has the places of the old one, eight to a byte",
        );
        seen.demand(
            reference::to_record(&state) == self.new && reference::to_old_record(&state) == self.old,
            "the state of an old record has that old record, and the new one",
        );
        seen.demand(
            reference::from_record(&self.new).as_ref() == Some(&state),
            "the new record stands for the state of the old one",
        );
        Some(state)
    }

    fn site(&self) -> Site {
        Site {
            record: self.new.clone(),
            state: reference::from_old_record(&self.old),
        }
    }

    fn step(&mut self, instruction: [u8; 4], seen: &mut Seen) -> Option<()> {
        let site = self.site();
        let (number, old) = match reference::step(site.state.as_ref()?, instruction) {
            Ok(next) => (0, reference::to_old_record(&next)),
            Err(refusal) => (refusal.into(), self.old.clone()),
        };
        self.go_on(&Case::step(&site, instruction), number, old, seen)
    }

    fn recipe(&mut self, recipe: &Recipe, seen: &mut Seen) -> Option<()> {
        let site = self.site();
        let (answer, next) = reference::recipe(site.state.as_ref()?, &recipe.bytes, &recipe.call);
        seen.count("recipe answered", answer.number.into());
        let number = u32::from(answer.place) * 256 + u32::from(answer.number);
        let case = Case::recipe(&site, &recipe.bytes, recipe.call);
        self.go_on(&case, number, reference::to_old_record(&next), seen)
    }

    fn question(&self, area: u32, object: u32, seen: &mut Seen) -> Option<()> {
        let site = self.site();
        seen.compare(&Case::access(&site, area, object)).map(drop)
    }

    /// The library answers as the reference does, and leaves the new record where the reference has this old one.
    fn go_on(&mut self, case: &Case, number: u32, old: Vec<u8>, seen: &mut Seen) -> Option<()> {
        let reference = Answer::new(number, reference::eight_to_a_byte(&old));
        let library = seen.compare_answers(case, case.by_library(), reference)?;
        self.old = old;
        self.new = library.bytes;
        Some(())
    }
}
