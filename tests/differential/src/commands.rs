//! Demand 3 over lists that have recipes beside instructions: "For the lending guarantee an accepted recipe counts as
//! its instructions and a refused one as none." The owners of an area give refused recipes, and in half of the lists
//! other commands too.

use crate::answer::Answer;
use crate::case::Case;
use crate::courses::Course;
use crate::instructions::{instruction, Domain};
use crate::lending::{broken_promises, bytes_without, start};
use crate::library;
use crate::misformed::{self, Operand, Way, LENGTHS};
use crate::numbers::{firsts_with, free, members, some, RECIPE_ANSWERS, STEP_ANSWERS};
use crate::seen::Seen;
use crate::shards::Plan;
use crate::site::Site;
use crate::states::Shape;
use crate::templates::Recipe;
use crate::wanted::NUMBERS;
use chance::Chance;
use reference::{Command, RecipeAnswer, State};

/// For each shape, how many lists a shard has.
const LISTS: [(Shape, usize); 5] = [
    (Shape::Sparse, 100),
    (Shape::Ring, 40),
    (Shape::Medium, 20),
    (Shape::BothWays, 8),
    (Shape::Chain, 8),
];

const LONGEST_LIST: usize = 7;
const LONGEST_RECIPE: usize = 5;

pub fn run(plan: &Plan) -> (String, Seen) {
    let mut seen = plan.run("commands", |_, chance, seen| {
        for (shape, lists) in LISTS {
            (0..lists).for_each(|_| one_list(shape, chance, seen));
        }
    });
    seen.require("commands", [0], 1000);
    seen.require("list with a change", [0], 500);
    seen.require("single instruction in a list", [0, 4], 100);
    seen.require("recipe in a list", [0, 14], 500);
    seen.require("recipe accepted in a list, by an owner", [0, 1], 200);
    seen.require("recipe refused in a list, by an owner", [0, 1], 500);
    seen.require(SILENT, [0], 2000);
    for word in [UNHEARD, HALF_WAY, HEARD, CHANGED] {
        seen.require(word, [0], 300);
    }
    (text(&seen), seen)
}

/// Areas by what their owners at the start have given.
const SILENT: &str = "area with silent owners";
const UNHEARD: &str = "silent only because a refused recipe does not count";
const HALF_WAY: &str = "and changed by the instructions before the refused one";
const HEARD: &str = "heard only by an accepted recipe";
const CHANGED: &str = "and changed by it";

fn text(seen: &Seen) -> String {
    format!(
        "{} lists, {} of them with a change; single instructions, answers 0 to 7, 15, 8 to 11: {:?}; \
         recipes, answers 0, 12, 14, 1 to 7, 15, 8 to 11: {:?}, \
         accepted by others and by owners of the area: {:?}, refused: {:?}; \
         areas with no owner among the activators: {}, {} of them only because a refused recipe counts as none, \
         and {} of these would be changed by its instructions before the refused one; \
         areas heard only by an accepted recipe: {}, {} of them changed",
        seen.total("commands"),
        seen.times("list with a change", 0),
        seen.each("single instruction in a list", STEP_ANSWERS),
        seen.each("recipe in a list", RECIPE_ANSWERS),
        seen.each("recipe accepted in a list, by an owner", [0, 1]),
        seen.each("recipe refused in a list, by an owner", [0, 1]),
        seen.times(SILENT, 0),
        seen.times(UNHEARD, 0),
        seen.times(HALF_WAY, 0),
        seen.times(HEARD, 0),
        seen.times(CHANGED, 0),
    )
}

/// A list, and who has activated what in it.
struct List {
    start: State,
    /// The area whose owners give refused recipes, and its owners at the start.
    area: u8,
    owners: Vec<u8>,
    commands: Vec<Command>,
    /// The activators of the single instructions, and of the accepted recipes.
    singles: Vec<u8>,
    accepted: Vec<u8>,
    /// Those of the refused recipes, with the state that the instructions before the refused one give.
    refused: Vec<(u8, State)>,
    /// The state after the commands.
    end: State,
}

fn one_list(shape: Shape, chance: &mut Chance, seen: &mut Seen) {
    let (start, area) = start(shape, chance);
    let mut list = List {
        owners: firsts_with(&start.owners, area),
        end: start.clone(),
        start,
        area,
        commands: Vec::new(),
        singles: Vec::new(),
        accepted: Vec::new(),
        refused: Vec::new(),
    };
    let owners_speak = chance.once_in(2);
    for _ in 0..1 + chance.below(LONGEST_LIST) {
        list.one_more(owners_speak, chance, seen);
    }
    let site = Site::of_state(&list.start);
    let Some(answer) = seen.compare(&Case::commands(&site, &list.commands)) else {
        return;
    };
    if answer.bytes != site.record {
        seen.count("list with a change", 0);
    }
    list.start.areas.iter().for_each(|&area| list.count(area, seen));
}

impl List {
    /// An instruction, an accepted recipe or a refused one, by an owner of the area or by another.
    fn one_more(&mut self, owners_speak: bool, chance: &mut Chance, seen: &mut Seen) {
        let users = members(&self.end.users);
        let (owners, others): (Vec<u8>, Vec<u8>) = users.iter().partition(|user| self.owners.contains(user));
        let by_owner = others.is_empty() || (!owners.is_empty() && chance.once_in(2));
        let activator = chance.pick(if by_owner { &owners } else { &others });
        match chance.below(3) {
            _ if by_owner && !owners_speak => self.refused_recipe(activator, chance, seen),
            0 if by_owner => self.single(instruction(&self.end, &Domain::whole(&owners), chance), seen),
            0 => self.single(bytes_without(&self.end, &self.owners, &others, chance), seen),
            1 => self.accepted_recipe(activator, chance, seen),
            _ => self.refused_recipe(activator, chance, seen),
        }
    }

    fn single(&mut self, bytes: [u8; 4], seen: &mut Seen) {
        let answer = match reference::step(&self.end, bytes) {
            Ok(next) => {
                self.end = next;
                0
            }
            Err(refusal) => refusal,
        };
        seen.count("single instruction in a list", answer.into());
        self.singles.push(bytes[1]);
        self.commands.push(Command::Single(bytes));
    }

    /// Instructions that are accepted; the first is mostly about the area if the activator owns it.
    fn course(&self, activator: u8, chance: &mut Chance) -> Course {
        let mut course = Course::at(self.end.clone(), activator);
        let object = some(&free(&members(&self.end.objects), 64), chance);
        let user = some(&free(&members(&self.end.users), 32), chance);
        let first = match chance.below(3) {
            0 => object.map(|object| [7, activator, self.area, object]),
            1 => user.map(|user| [3, activator, self.area, user]),
            _ => None,
        };
        if let Some(bytes) = first {
            course.push(bytes);
        }
        course.go_on(1 + chance.below(LONGEST_RECIPE), |_| true, chance);
        course
    }

    fn accepted_recipe(&mut self, activator: u8, chance: &mut Chance, seen: &mut Seen) {
        let course = self.course(activator, chance);
        let recipe = Recipe::written(activator, &course.instructions, 0, chance);
        self.recipe(recipe, course.last_state(), seen);
    }

    /// Refused for an instruction behind the accepted ones, or as 14.
    fn refused_recipe(&mut self, activator: u8, chance: &mut Chance, seen: &mut Seen) {
        let course = self.course(activator, chance);
        let length = course.instructions.len();
        let (instructions, way) = match course.refused(length, chance.pick(&NUMBERS), chance) {
            Some(list) if !chance.once_in(4) => (list, None),
            _ => (course.instructions.clone(), Some(any_way(length, chance))),
        };
        let recipe = Recipe::written(activator, &instructions, length - 1, chance);
        let recipe = match way {
            Some(way) => misformed::made(&recipe, way, chance),
            None => recipe,
        };
        self.recipe(recipe, course.last_state(), seen);
    }

    fn recipe(&mut self, recipe: Recipe, half_way: &State, seen: &mut Seen) {
        let Recipe { bytes, call } = recipe;
        let (RecipeAnswer { number, .. }, next) = reference::recipe(&self.end, &bytes, &call);
        seen.count("recipe in a list", number.into());
        let by_owner = u32::from(self.owners.contains(&call.activator));
        match number {
            0 => {
                seen.count("recipe accepted in a list, by an owner", by_owner);
                self.accepted.push(call.activator);
            }
            _ => {
                seen.count("recipe refused in a list, by an owner", by_owner);
                self.refused.push((call.activator, half_way.clone()));
            }
        }
        self.end = next;
        self.commands.push(Command::Recipe { bytes, call });
    }

    /// Counts an area by what its owners have given.
    fn count(&self, area: u8, seen: &mut Seen) {
        let owns = |user: &u8| self.start.owners.contains(&(*user, area));
        let changed = |state: &State| reference::lending_guarantee(&self.start, &[], state, area).is_err();
        if self.singles.iter().any(owns) {
            return;
        }
        if self.accepted.iter().any(owns) {
            seen.count(HEARD, 0);
            if changed(&self.end) {
                seen.count(CHANGED, 0);
            }
            return;
        }
        seen.count(SILENT, 0);
        let mut refused = self.refused.iter().filter(|(user, _)| owns(user)).peekable();
        if refused.peek().is_some() {
            seen.count(UNHEARD, 0);
        }
        if refused.any(|(_, half_way)| changed(half_way)) {
            seen.count(HALF_WAY, 0);
        }
    }
}

fn any_way(instructions: usize, chance: &mut Chance) -> Way {
    let place = chance.below(instructions);
    let operand = chance.pick(&[Operand::A, Operand::B]);
    match chance.below(3) {
        0 => Way::Length(chance.pick(&LENGTHS)),
        1 => Way::Kind(place, operand),
        _ => Way::Parameter(place, operand),
    }
}

/// The list over the library: the record at its end, and a complaint if it is not what the instructions that count give
/// one by one, or if demand 3 does not hold.
pub fn run_by_library(site: &Site, list: &[Command]) -> Answer {
    let mut now = Answer::new(0_u32, site.record.clone());
    let mut complaints = Vec::new();
    let mut counting = Vec::new();
    for command in list {
        now = match command {
            Command::Single(instruction) => library::step(&now.bytes, *instruction),
            Command::Recipe { bytes, call } => library::recipe(&now.bytes, bytes, call),
        };
        complaints.push(now.complaint.clone());
        counting.extend(counted(command, now.number));
        if now.number == 0 && !library::is_sound(&now.bytes) {
            complaints.push(format!(
                "the library accepts {command:?} and calls the state after it unsound"
            ));
        }
    }
    if one_by_one(&site.record, &counting) != now.bytes {
        complaints.push("the instructions that count lead to another state, one by one".to_string());
    }
    if let (Some(start), Some(end)) = (&site.state, reference::from_record(&now.bytes)) {
        if reference::counted(start, list) != counting {
            complaints.push("by the reference another list counts".to_string());
        }
        complaints.extend(broken_promises(start, &counting, &end));
        let broken = |&area: &u8| reference::lending_guarantee_of_commands(start, list, &end, area).err();
        complaints.extend(start.areas.iter().filter_map(broken));
    }
    Answer::new(0_u32, now.bytes).complaining(complaints)
}

/// What a command counts as, by the library's answer to it.
fn counted(command: &Command, answer: u32) -> Vec<[u8; 4]> {
    match command {
        Command::Single(instruction) => vec![*instruction],
        Command::Recipe { bytes, call } if answer == 0 => {
            reference::recipe_instructions(bytes, call).unwrap_or_default()
        }
        Command::Recipe { .. } => vec![],
    }
}

/// The record that the library leaves after the instructions.
fn one_by_one(record: &[u8], list: &[[u8; 4]]) -> Vec<u8> {
    let step = |now: Vec<u8>, &instruction: &[u8; 4]| library::step(&now, instruction).bytes;
    list.iter().fold(record.to_vec(), step)
}
