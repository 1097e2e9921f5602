//! Document 02, point 1: "Site recipes."
//!
//! A recipe is read as templates of five bytes, and the call makes an instruction of four bytes of each. Whether it can
//! be read so is decided of the whole recipe; from there on [`step`] decides, of one instruction after the other.

use crate::instructions::{run, step};
use crate::record::{from_record, to_record};
use crate::refusals::order_of_checks;
use crate::state::State;

/// Document 02, point 1: "Each instruction is five bytes".
const TEMPLATE_BYTES: usize = 5;

/// Document 02, point 1: "Parameters 0 to 3 and the one activator come with the call."
#[derive(Clone, Copy, Debug, PartialEq, Eq)]
pub struct Call {
    /// The activator of every instruction of the recipe.
    pub activator: u8,
    /// What parameters 0 to 3 stand for.
    pub parameters: [u8; 4],
}

/// Document 02, point 1: "the answer is its number and its place counted from 1".
#[derive(Clone, Copy, Debug, PartialEq, Eq)]
pub struct RecipeAnswer {
    /// 0, or the refusal: 1 to 12, 14 or 15.
    pub number: u8,
    /// The place of the refused instruction, 1 to 16. "The place beside 0, 12 and 14 is 0."
    pub place: u8,
}

/// The three ways in which a recipe is 14.
#[derive(Clone, Copy, Debug, PartialEq, Eq, PartialOrd, Ord)]
pub enum Misformed {
    /// Document 02, point 1: "A length that is not a multiple of 5 from 5 to 80".
    Length,
    /// Document 02, point 1: "a kind above 1".
    Kind,
    /// Document 02, point 1: "a parameter above 3".
    Parameter,
}

/// Document 02, point 1: "for a and for b a kind byte (0 fixed, 1 parameter) and a value".
#[derive(Clone, Copy)]
struct Operand {
    kind: u8,
    value: u8,
}

/// A condition on the bytes of a recipe.
type Condition = fn(&[u8]) -> bool;

/// The ways in the order in which [`misformed`] asks for them, which is that of the sentence.
const WAYS: [(Misformed, Condition); 3] = [
    (Misformed::Length, length_is_another),
    (Misformed::Kind, a_kind_is_above_1),
    (Misformed::Parameter, a_parameter_is_above_3),
];

/// Document 02, point 1: "A length that is not a multiple of 5 from 5 to 80, a kind above 1 or a parameter above 3 is
/// refused as 14".
///
/// The way in which the recipe is 14, `None` if it is not. Where several apply it is the length, then a kind of
/// whichever instruction, then a parameter.
pub fn misformed(bytes: &[u8]) -> Option<Misformed> {
    WAYS.iter().find(|(_, holds)| holds(bytes)).map(|&(way, _)| way)
}

/// Document 02, point 1: "A length that is not a multiple of 5 from 5 to 80".
fn length_is_another(bytes: &[u8]) -> bool {
    !bytes.len().is_multiple_of(TEMPLATE_BYTES) || !(5..=80).contains(&bytes.len())
}

/// Document 02, point 1: "a kind above 1".
fn a_kind_is_above_1(bytes: &[u8]) -> bool {
    operands(bytes).any(|operand| operand.kind > 1)
}

/// Document 02, point 1: "a parameter above 3". A fixed value is no parameter (docs/READINGS.md, 15).
fn a_parameter_is_above_3(bytes: &[u8]) -> bool {
    operands(bytes).any(|operand| operand.kind == 1 && operand.value > 3)
}

/// Document 02, point 1: "Each instruction is five bytes: code, then for a and for b a kind byte (0 fixed, 1 parameter)
/// and a value." The code, a and b of each.
fn templates(bytes: &[u8]) -> impl Iterator<Item = (u8, Operand, Operand)> + '_ {
    let operand = |pair: &[u8]| Operand {
        kind: pair[0],
        value: pair[1],
    };
    bytes
        .chunks_exact(TEMPLATE_BYTES)
        .map(move |five| (five[0], operand(&five[1..3]), operand(&five[3..5])))
}

/// Each a and each b.
fn operands(bytes: &[u8]) -> impl Iterator<Item = Operand> + '_ {
    templates(bytes).flat_map(|(_, a, b)| [a, b])
}

/// The four bytes of each instruction, code, activator, a and b; `None` for a recipe that is 14.
pub fn recipe_instructions(bytes: &[u8], call: &Call) -> Option<Vec<[u8; 4]>> {
    misformed(bytes).is_none().then(|| instructions_of(bytes, call))
}

/// The same for a recipe that is not 14. "Four bytes: code, activator (a user), a, b."
fn instructions_of(bytes: &[u8], call: &Call) -> Vec<[u8; 4]> {
    let instruction = |(code, a, b)| [code, call.activator, number_of(a, call), number_of(b, call)];
    templates(bytes).map(instruction).collect()
}

/// Document 02, point 1: "0 fixed, 1 parameter". "Parameters 0 to 3 ... come with the call."
fn number_of(operand: Operand, call: &Call) -> u8 {
    match operand.kind {
        0 => operand.value,
        _ => call.parameters[usize::from(operand.value)],
    }
}

/// A condition on the whole recipe and the state at which it is given.
type WholeCondition = fn(&State, &[u8]) -> bool;

/// Document 02, point 1: 14 stands "after 12 and before 1".
const CHECKS_OF_THE_WHOLE: [(u8, WholeCondition); 2] = [(12, state_is_unsound), (14, recipe_is_misformed)];

/// The numbers of the refusals in the order of the checks: those of the whole recipe, then those of an instruction.
pub fn order_of_recipe_checks() -> Vec<u8> {
    let of_the_whole = CHECKS_OF_THE_WHOLE.map(|(number, _)| number);
    let of_an_instruction = order_of_checks().into_iter().filter(|number| !of_the_whole.contains(number));
    of_the_whole.into_iter().chain(of_an_instruction).collect()
}

/// 12: "the state is unsound"
fn state_is_unsound(state: &State, _: &[u8]) -> bool {
    !state.is_sound()
}

/// 14: document 02, point 1: "A length that is not ..., a kind above 1 or a parameter above 3".
fn recipe_is_misformed(_: &State, bytes: &[u8]) -> bool {
    misformed(bytes).is_some()
}

/// One recipe at one state. Document 02, point 1: "If an instruction is refused, the answer is its number and its place
/// counted from 1, and the state is the one given."
pub fn recipe(state: &State, bytes: &[u8], call: &Call) -> (RecipeAnswer, State) {
    match entirely(state, bytes, call) {
        Ok(next) => (RecipeAnswer { number: 0, place: 0 }, next),
        Err(answer) => (answer, state.clone()),
    }
}

/// Document 02, point 1: "a recipe of 1 to 16 instructions that runs entirely or not at all"
fn entirely(state: &State, bytes: &[u8], call: &Call) -> Result<State, RecipeAnswer> {
    if let Some(&(number, _)) = CHECKS_OF_THE_WHOLE.iter().find(|(_, holds)| holds(state, bytes)) {
        return Err(RecipeAnswer { number, place: 0 });
    }
    let mut now = state.clone();
    for (place, instruction) in (1..).zip(instructions_of(bytes, call)) {
        now = step(&now, instruction).map_err(|number| RecipeAnswer { number, place })?;
    }
    Ok(now)
}

/// The same on records; what is no record of any state is 12 and stays: "or is not the record its relations have".
pub fn recipe_record(record: &[u8], bytes: &[u8], call: &Call) -> (RecipeAnswer, Vec<u8>) {
    let Some(state) = from_record(record) else {
        return (RecipeAnswer { number: 12, place: 0 }, record.to_vec());
    };
    let (answer, next) = recipe(&state, bytes, call);
    (answer, to_record(&next))
}

/// A member of a list that has recipes beside instructions.
#[derive(Clone, Debug, PartialEq, Eq)]
pub enum Command {
    /// An instruction by itself.
    Single([u8; 4]),
    /// A recipe, and what comes with the call.
    Recipe {
        /// The bytes of the recipe, of any length.
        bytes: Vec<u8>,
        /// The activator and the parameters.
        call: Call,
    },
}

/// The state after the list: each command in turn, a refused one changes nothing.
pub fn run_commands(state: &State, commands: &[Command]) -> State {
    commands.iter().fold(state.clone(), |now, command| obey(&now, command).1)
}

/// Document 02, point 1: "For the lending guarantee an accepted recipe counts as its instructions and a refused one as
/// none." An instruction by itself counts, "in a refused one too".
pub fn counted(state: &State, commands: &[Command]) -> Vec<[u8; 4]> {
    let mut now = state.clone();
    let mut list = Vec::new();
    for command in commands {
        let (counts, next) = obey(&now, command);
        list.extend(counts);
        now = next;
    }
    list
}

/// What the command counts as at the state, and the state after it.
fn obey(state: &State, command: &Command) -> (Vec<[u8; 4]>, State) {
    match command {
        Command::Single(instruction) => (vec![*instruction], run(state, &[*instruction])),
        Command::Recipe { bytes, call } => match recipe(state, bytes, call) {
            (RecipeAnswer { number: 0, .. }, next) => (instructions_of(bytes, call), next),
            (_, given) => (Vec::new(), given),
        },
    }
}
