//! Recipes (document 02, point 1): the opening of a school, each place and each number, the bytes of a recipe, and
//! recipes against their instructions one by one.

mod common;

use common::{after, changed, Draw, AREA_LIST, LENT};
use panelrights::Operand::{self, Fixed, P0, P1, P2, P3};
use panelrights::{sys, Instruction, Kind, Recipe, RecipeLength, RecipeRefused, Refusal, State};
use std::collections::BTreeSet;
use std::error::Error;
use std::num::NonZeroU8;

const SCHOOL: Operand = P0;
const HALL: Operand = P1;
const KEYHOLDER: Operand = P2;
const TABLE: Operand = P3;

/// The school is a new area in area 0, with a hall in it. The hall borrows the school's new table, and the school lends
/// it to area 0; the keyholder owns both.
const OPENING: Recipe = Recipe::new([
    Kind::ListArea { area: SCHOOL },
    Kind::ListArea { area: HALL },
    Kind::AddStructure { inner: HALL, outer: SCHOOL },
    Kind::Define { area: SCHOOL, object: TABLE },
    Kind::AddImport { area: HALL, object: TABLE },
    Kind::AddStructure { inner: SCHOOL, outer: Fixed(0) },
    Kind::AddExport { area: SCHOOL, object: TABLE },
    Kind::AddOwner { area: SCHOOL, user: KEYHOLDER },
    Kind::AddOwner { area: HALL, user: KEYHOLDER },
]);

const OPENING_BYTES: [[u8; 5]; 9] = [
    [1, 1, 0, 0, 0],
    [1, 1, 1, 0, 0],
    [5, 1, 1, 1, 0],
    [7, 1, 0, 1, 3],
    [9, 1, 1, 1, 3],
    [5, 1, 0, 0, 0],
    [11, 1, 0, 1, 3],
    [3, 1, 0, 1, 2],
    [3, 1, 1, 1, 2],
];

/// The recipe must be accepted at the state.
fn accepted(state: &State, recipe: &Recipe, activator: u8, parameters: [u8; 4]) -> State {
    let mut next = state.clone();
    assert_eq!(next.recipe(recipe, activator, parameters), Ok(()), "{recipe:?} by {activator}, {parameters:?}");
    next
}

/// The recipe must be refused at the place with the number, and leave the state as it was.
fn refused(state: &State, recipe: &Recipe, activator: u8, parameters: [u8; 4], place: u8, number: u8) -> RecipeRefused {
    let mut left = state.clone();
    let refused = left.recipe(recipe, activator, parameters).expect_err("it is accepted");
    let answer = (refused.place.map(NonZeroU8::get), refused.refusal.number());
    assert_eq!(answer, (Some(place), number), "{recipe:?} by {activator}, {parameters:?}");
    assert_eq!(left, *state, "{recipe:?} by {activator}, {parameters:?}");
    refused
}

/// The recipe of entries, which must be one.
fn kept(entries: &[[u8; 5]]) -> Recipe {
    Recipe::from_bytes(entries.as_flattened()).unwrap()
}

/// The recipe of the instructions' codes, a and b, all of them fixed.
fn fixed(instructions: &[[u8; 4]]) -> Recipe {
    kept(&instructions.iter().map(|&[code, _, a, b]| [code, 0, a, 0, b]).collect::<Vec<_>>())
}

/// User 5 is listed, for area 3, and does not own area 0.
fn with_a_stranger() -> State {
    after(&[[1, 0, 3, 0], [3, 0, 3, 5]])
}

#[test]
fn opening_a_school() {
    let state = accepted(&State::founding(), &OPENING, 0, [1, 2, 4, 9]);
    assert_eq!(
        format!("{state:?}"),
        "State { users: [0, 4], areas: [0, 1, 2], objects: [9], owners: [(0, 0), (0, 1), (0, 2), (4, 1), (4, 2)], \
         definitions: [(9, 1)], structure: [(1, 0), (2, 1)], imports: [(9, 2)], exports: [(9, 1)] }"
    );
    assert_eq!([0, 1, 2].map(|area| state.access(area, 9)), [Ok(Some(1)), Ok(Some(0)), Ok(Some(1))]);
    // A second school, with the same recipe and other numbers.
    let state = accepted(&state, &OPENING, 0, [31, 30, 4, 63]);
    assert_eq!([0, 31, 30, 1].map(|area| state.access(area, 63)), [Ok(Some(1)), Ok(Some(0)), Ok(Some(1)), Ok(None)]);
}

/// Places 3, 5, 7 and 9 can't be refused, whatever the numbers are: what they need was made by those before them.
#[test]
fn an_opening_that_is_refused() {
    let founded = State::founding();
    refused(&with_a_stranger(), &OPENING, 5, [1, 2, 4, 9], 6, 5);
    refused(&founded, &OPENING, 5, [1, 2, 4, 9], 1, 3);
    refused(&founded, &OPENING, 0, [32, 2, 4, 9], 1, 2);
    refused(&founded, &OPENING, 0, [0, 2, 4, 9], 1, 6);
    refused(&founded, &OPENING, 0, [1, 32, 4, 9], 2, 2);
    refused(&founded, &OPENING, 0, [1, 1, 4, 9], 2, 6);
    refused(&founded, &OPENING, 0, [1, 2, 4, 64], 4, 2);
    refused(&after(&[[7, 0, 0, 9]]), &OPENING, 0, [1, 2, 4, 9], 4, 6);
    refused(&founded, &OPENING, 0, [1, 2, 32, 9], 8, 2);
    refused(&founded, &OPENING, 0, [1, 2, 0, 9], 8, 6);
    // Area 0 is gone: user 0 has listed area 3, and unlisted area 0.
    refused(&after(&[[1, 0, 3, 0], [2, 0, 0, 0]]), &OPENING, 0, [1, 2, 4, 9], 6, 4);
    // Where more than one instruction would be refused, it is the first.
    refused(&with_a_stranger(), &OPENING, 5, [1, 2, 32, 64], 4, 2);
}

/// The instruction at the place lists area 0, which is there. The others list new areas.
#[test]
fn each_place() {
    for count in 1..=16u8 {
        let areas = |at: u8| -> Recipe {
            let listed = |place| Kind::ListArea { area: Fixed(if place == at { 0 } else { place }) };
            Recipe::of(&(1..=count).map(listed).collect::<Vec<_>>()).unwrap()
        };
        let state = accepted(&State::founding(), &areas(0), 0, [0; 4]);
        assert!(state.areas().eq(0..=count));
        for place in 1..=count {
            refused(&State::founding(), &areas(place), 0, [0; 4], place, 6);
        }
    }
}

/// What is refused as the last of these instructions is so in a recipe: alone, in the state after the others; and
/// behind the others, if all have one activator.
fn refused_as(before: &[[u8; 4]], last: [u8; 4], number: u8) {
    let activator = last[1];
    refused(&after(before), &fixed(&[last]), activator, [0; 4], 1, number);
    if before.iter().all(|instruction| instruction[1] == activator) {
        let place = before.len() as u8 + 1;
        refused(&State::founding(), &fixed(&[before, &[last]].concat()), activator, [0; 4], place, number);
    }
}

/// The examples of document 01, and of document 02 for 15.
#[test]
fn each_number() {
    refused_as(&[], [13, 0, 0, 0], 1);
    refused_as(&[], [0, 0, 0, 0], 1);
    refused_as(&[], [7, 0, 0, 64], 2);
    refused_as(&[], [1, 32, 1, 0], 2);
    refused_as(&[], [1, 5, 1, 0], 3);
    refused_as(&[], [7, 0, 6, 0], 4);
    refused_as(&[[1, 0, 1, 0], [3, 0, 0, 4]], [7, 4, 1, 9], 5);
    refused_as(&[], [1, 0, 0, 0], 6);
    refused_as(&[[7, 0, 0, 9]], [10, 0, 0, 9], 7);
    refused_as(&[], [4, 0, 0, 0], 8);
    refused_as(&[[1, 0, 1, 0], [7, 0, 1, 9]], [2, 0, 1, 0], 9);
    refused_as(&[[1, 0, 1, 0], [7, 0, 0, 9]], [9, 0, 1, 9], 10);
    refused_as(&LENT[..5], [9, 0, 0, 9], 10);
    refused_as(&LENT, [12, 0, 1, 9], 11);
    refused_as(&[[7, 0, 0, 9]], [9, 0, 0, 9], 15);
}

/// An instruction that would be refused for its own bytes is not seen behind one that is refused.
#[test]
fn the_first_that_is_refused() {
    refused(&State::founding(), &fixed(&[[1, 0, 0, 0], [13, 0, 0, 0]]), 0, [0; 4], 1, 6);
    refused(&State::founding(), &fixed(&[[1, 0, 1, 0], [13, 0, 0, 0], [1, 0, 0, 0]]), 0, [0; 4], 2, 1);
    refused(&State::founding(), &fixed(&[[1, 0, 1, 0], [1, 0, 32, 0], [13, 0, 0, 0]]), 0, [0; 4], 2, 2);
}

#[test]
fn each_parameter_is_its_own() {
    let numbers = [3, 7, 1, 31];
    for (operand, number) in [(P0, 3), (P1, 7), (P2, 1), (P3, 31), (Fixed(9), 9)] {
        let as_a = accepted(&State::founding(), &Recipe::new([Kind::ListArea { area: operand }]), 0, numbers);
        assert!(as_a.areas().eq([0, number]), "{operand:?}");
        let owner = Recipe::new([Kind::AddOwner { area: Fixed(0), user: operand }]);
        assert!(accepted(&State::founding(), &owner, 0, numbers).users().eq([0, number]), "{operand:?}");
    }
}

/// What the recipe does not use may have any value, and one parameter may stand in several places.
#[test]
fn unused_and_repeated_parameters() {
    let recipe = Recipe::new([Kind::ListArea { area: P2 }, Kind::AddStructure { inner: P2, outer: P2 }]);
    let state = accepted(&State::founding(), &recipe, 0, [255, 32, 4, 255]);
    assert!(state.areas().eq([0, 4]) && state.lies_in(4, 4));
    refused(&State::founding(), &recipe, 0, [4, 4, 32, 4], 1, 2);
    accepted(&State::founding(), &fixed(&[[1, 0, 1, 0]]), 0, [255; 4]);
}

/// The activator of the call is that of each instruction, and no parameter.
#[test]
fn one_activator() {
    let recipe = Recipe::new([Kind::ListArea { area: P0 }, Kind::ListArea { area: P1 }]);
    let state = accepted(&with_a_stranger(), &recipe, 5, [8, 9, 0, 0]);
    assert!(state.owns(5, 8) && state.owns(5, 9) && !state.owns(0, 8) && !state.owns(0, 9));
    for activator in [1, 31] {
        refused(&with_a_stranger(), &recipe, activator, [8, 9, 0, 0], 1, 3);
    }
    for activator in [32, 255] {
        refused(&with_a_stranger(), &recipe, activator, [8, 9, 0, 0], 1, 2);
    }
}

/// Of codes 1 and 2, b must be 0: fixed, or a parameter that is 0.
#[test]
fn the_b_that_is_not_needed() {
    let unlisted = [[1, 0, 1, 0, 0], [2, 0, 1, 1, 3]];
    assert_eq!(accepted(&State::founding(), &kept(&unlisted), 0, [9, 9, 9, 0]), State::founding());
    refused(&State::founding(), &kept(&unlisted), 0, [0, 0, 0, 1], 2, 2);
    accepted(&State::founding(), &kept(&[[1, 0, 1, 1, 0]]), 0, [0, 9, 9, 9]);
    refused(&State::founding(), &kept(&[[1, 0, 1, 1, 0]]), 0, [9, 0, 0, 0], 1, 2);
    refused(&State::founding(), &kept(&[[1, 0, 1, 0, 1]]), 0, [0; 4], 1, 2);
}

#[test]
fn bytes_of_the_opening() {
    assert_eq!(OPENING.as_bytes(), OPENING_BYTES.as_flattened());
    assert_eq!(kept(&OPENING_BYTES), OPENING);
    let obeyed = [
        [1, 6, 9, 0],
        [1, 6, 10, 0],
        [5, 6, 10, 9],
        [7, 6, 9, 30],
        [9, 6, 10, 30],
        [5, 6, 9, 0],
        [11, 6, 9, 30],
        [3, 6, 9, 14],
        [3, 6, 10, 14],
    ];
    assert!(OPENING.instructions(6, [9, 10, 14, 30]).eq(obeyed.map(Instruction::from)));
}

/// Each name against the code and the places of document 01's table, and each number against point 1 of document 02.
#[test]
fn bytes_of_each_kind() {
    let kinds = [
        (Kind::ListArea { area: P3 }, [1, 1, 3, 0, 0]),
        (Kind::UnlistArea { area: Fixed(7) }, [2, 0, 7, 0, 0]),
        (Kind::AddOwner { area: Fixed(0), user: P0 }, [3, 0, 0, 1, 0]),
        (Kind::RemoveOwner { area: P0, user: Fixed(0) }, [4, 1, 0, 0, 0]),
        (Kind::AddStructure { inner: P1, outer: Fixed(255) }, [5, 1, 1, 0, 255]),
        (Kind::RemoveStructure { inner: Fixed(255), outer: P1 }, [6, 0, 255, 1, 1]),
        (Kind::Define { area: P2, object: P3 }, [7, 1, 2, 1, 3]),
        (Kind::RemoveDefinition { area: P3, object: P2 }, [8, 1, 3, 1, 2]),
        (Kind::AddImport { area: 4.into(), object: P1 }, [9, 0, 4, 1, 1]),
        (Kind::RemoveImport { area: P2, object: 63.into() }, [10, 1, 2, 0, 63]),
        (Kind::AddExport { area: Fixed(1), object: Fixed(2) }, [11, 0, 1, 0, 2]),
        (Kind::RemoveExport { area: P0, object: P3 }, [12, 1, 0, 1, 3]),
    ];
    for (kind, bytes) in kinds {
        assert_eq!(Recipe::new([kind]).as_bytes(), bytes, "{kind:?}");
        assert_eq!(Recipe::new([kind]), kept(&[bytes]), "{kind:?}");
    }
    let (names, entries): (Vec<_>, Vec<_>) = kinds.into_iter().unzip();
    assert_eq!(Recipe::of(&names).unwrap().as_bytes(), entries.as_flattened());
    assert_eq!(Operand::from(3), Fixed(3));
}

/// 0 and 17 instructions do not compile where the count is known: the documentation of `Recipe::new` has these.
#[test]
fn how_many_instructions() {
    let kind = Kind::AddStructure { inner: P3, outer: Fixed(2) };
    for count in 0..=40 {
        let recipe = Recipe::of(&vec![kind; count]);
        match count {
            1..=16 => assert_eq!(recipe.unwrap().as_bytes(), [5, 1, 3, 0, 2].repeat(count)),
            _ => assert_eq!(recipe, Err(RecipeLength(count))),
        }
    }
    assert_eq!(Recipe::new([kind]).as_bytes().len(), 5);
    assert_eq!(Recipe::new([kind; 16]).as_bytes().len(), 80);
    assert_eq!(Recipe::new([kind; 16]), Recipe::of(&[kind; 16]).unwrap());
    assert_eq!(RecipeLength(17).to_string(), "a recipe has 1 to 16 instructions, and not 17");
    assert_eq!(
        (Recipe::MOST, sys::RECIPE_MOST, sys::RECIPE_ENTRY_BYTES, sys::FIXED, sys::PARAMETER),
        (16, 16, 5, 0, 1)
    );
}

#[test]
fn lengths_of_kept_bytes() {
    let long = [1, 0, 1, 0, 0].repeat(60);
    for length in 0..=long.len() {
        let recipe = Recipe::from_bytes(&long[..length]);
        if length % 5 == 0 && (5..=80).contains(&length) {
            assert_eq!(recipe.unwrap().as_bytes(), &long[..length]);
        } else {
            assert_eq!(recipe, Err(Refusal::RecipeForm), "{length}");
        }
    }
}

/// Each kind and value of a and of b, at the first place, at one between and at the last.
#[test]
fn kinds_and_values_of_kept_bytes() {
    for place in [0, 7, 15] {
        for (number, kind, value) in (0..=255).flat_map(|byte| {
            let pairs = [(0, byte), (1, byte), (byte, 0), (byte, 3), (byte, 4)];
            pairs.into_iter().flat_map(|(kind, value)| [(1, kind, value), (3, kind, value)])
        }) {
            let mut entries = [[7, 0, 0, 1, 3]; 16];
            entries[place][number..number + 2].copy_from_slice(&[kind, value]);
            let recipe = Recipe::from_bytes(entries.as_flattened());
            if kind == 0 || kind == 1 && value <= 3 {
                assert_eq!(recipe.unwrap().as_bytes(), entries.as_flattened());
            } else {
                assert_eq!(recipe, Err(Refusal::RecipeForm), "{kind} and {value}, byte {number} of entry {place}");
            }
        }
    }
}

/// 14 asks nothing of a code.
#[test]
fn codes_of_kept_bytes() {
    for code in 0..=255 {
        let recipe = kept(&[[1, 1, 0, 0, 0], [code, 0, 0, 1, 1]]);
        assert_eq!(recipe.as_bytes(), [1, 1, 0, 0, 0, code, 0, 0, 1, 1]);
        if !(1..=12).contains(&code) {
            refused(&State::founding(), &recipe, 0, [1, 2, 0, 0], 2, 1);
        }
    }
}

#[test]
fn equal_recipes() {
    let one = Recipe::new([Kind::ListArea { area: P0 }]);
    assert_eq!(one.clone(), one);
    assert_ne!(one, Recipe::new([Kind::ListArea { area: P1 }]));
    assert_ne!(one, Recipe::new([Kind::ListArea { area: P0 }; 2]));
    // Zeros are an instruction too, though one of no code.
    assert_ne!(kept(&[[1, 1, 0, 0, 0], [0; 5]]), one);
    let two = Recipe::new([Kind::ListArea { area: P0 }, Kind::AddStructure { inner: P1, outer: Fixed(31) }]);
    assert_eq!(format!("{two:?}"), "Recipe([[1, 1, 0, 0, 0], [5, 1, 1, 0, 31]])");
}

#[test]
fn words() {
    let at_6 = refused(&with_a_stranger(), &OPENING, 5, [1, 2, 4, 9], 6, 5);
    assert_eq!(
        at_6.to_string(),
        "At instruction 6 of the recipe: The user who asks for this does not own the area. One of its owners can do \
         it; to put an area into another takes an owner of both, to take it out an owner of either. Nothing was \
         changed."
    );
    assert_eq!(at_6.source().and_then(|source| source.downcast_ref()), Some(&Refusal::NotOwner));
    let whole = RecipeRefused { refusal: Refusal::UnsoundState, place: None };
    assert_eq!(
        whole.to_string(),
        "The record of the site is damaged, so nothing is decided on it. Go back to the site file or to the last good \
         copy. Nothing was changed."
    );
}

/// The function as C has it: 12 comes before 14, 14 before any instruction, and both with place 0.
#[test]
fn the_answers_of_the_c_interface() {
    let answer = |record: &[u8], recipe: &[u8], activator: u8, [p0, p1, p2, p3]: [u8; 4]| {
        let mut state = record.to_vec();
        let (state_at, state_len, recipe_at) = (state.as_mut_ptr(), state.len(), recipe.as_ptr());
        // SAFETY: both pointers are those of live slices, handed over with their lengths, which do not overlap.
        let answer =
            unsafe { sys::panelrights_recipe(state_at, state_len, recipe_at, recipe.len(), activator, p0, p1, p2, p3) };
        (answer, state != record)
    };
    let founded = State::founding();
    let record = founded.as_record();
    assert_eq!(answer(record, OPENING.as_bytes(), 0, [1, 2, 4, 9]), (0, true));
    assert_eq!(answer(record, OPENING.as_bytes(), 0, [1, 2, 0, 9]), (8 * 256 + 6, false));
    assert_eq!(answer(record, &[7, 0, 0, 0, 9, 9, 0, 0, 0, 9], 0, [0; 4]), (2 * 256 + 15, false));
    assert_eq!(answer(record, &[13, 0, 0, 0, 0, 1, 2, 0, 0, 0], 0, [0; 4]), (14, false));
    assert_eq!(answer(record, &[], 0, [0; 4]), (14, false));
    assert_eq!(answer(record, &[1, 0, 1, 0, 0].repeat(16), 0, [0; 4]), (2 * 256 + 6, false));
    assert_eq!(answer(record, &[1, 0, 1, 0, 0].repeat(17), 0, [0; 4]), (14, false));
    assert_eq!(answer(&record[1..], OPENING.as_bytes(), 0, [1, 2, 4, 9]), (12, false));
    assert_eq!(answer(&[], &[], 0, [0; 4]), (12, false));
    let damaged = changed(record, &[(AREA_LIST, 0, 3)]);
    assert_eq!(answer(&damaged, &[], 0, [0; 4]), (12, false), "area 3 listed, no owner");
}

/// The instruction that an entry stands for.
fn instruction(entry: [u8; 5], activator: u8, parameters: [u8; 4]) -> [u8; 4] {
    let number = |kind, value| if kind == 0 { value } else { parameters[usize::from(value)] };
    let [code, a_kind, a, b_kind, b] = entry;
    [code, activator, number(a_kind, a), number(b_kind, b)]
}

/// What a recipe should do: its instructions in turn, and at the first that is refused the state of before.
fn one_by_one(state: &State, instructions: &[[u8; 4]]) -> (Result<(), RecipeRefused>, State) {
    let mut now = state.clone();
    for (place, &instruction) in (1..).zip(instructions) {
        if let Err(refusal) = now.step(instruction) {
            return (Err(RecipeRefused { refusal, place: NonZeroU8::new(place) }), state.clone());
        }
    }
    (Ok(()), now)
}

/// What is drawn for recipes.
impl Draw {
    /// A user, area or object: one of few, now and then one out of range.
    fn number(&mut self) -> u8 {
        match self.below(40) {
            0 => 64,
            other => other % 5,
        }
    }

    /// A kind and a value.
    fn operand(&mut self) -> [u8; 2] {
        match self.below(2) {
            0 => [0, self.number()],
            _ => [1, self.below(4)],
        }
    }

    fn entry(&mut self) -> [u8; 5] {
        let code = (self.below(100) + 3) / 8;
        let ([a_kind, a], [b_kind, b]) = (self.operand(), if code <= 2 { [0, 0] } else { self.operand() });
        [code, a_kind, a, b_kind, b]
    }

    /// One of the users who are listed, now and then any.
    fn activator(&mut self, state: &State) -> u8 {
        let listed: Vec<_> = state.users().collect();
        match self.below(8) {
            0 => self.number(),
            _ => listed[usize::from(self.below(listed.len() as u8))],
        }
    }

    /// Up to 16 entries, each of which is drawn again, up to 15 times, if it would be refused in its turn.
    fn entries(&mut self, state: &State, activator: u8, parameters: [u8; 4]) -> Vec<[u8; 5]> {
        let mut now = state.clone();
        let mut next = |draw: &mut Draw| {
            let mut drawn = (0..16).map(|_| draw.entry());
            let fits = |&entry: &[u8; 5]| now.step(instruction(entry, activator, parameters)).is_ok();
            drawn.find(fits).unwrap_or_else(|| draw.entry())
        };
        (0..=self.below(16)).map(|_| next(self)).collect()
    }
}

#[test]
fn recipes_and_their_instructions_one_by_one() {
    let mut draw = Draw(1);
    let mut state = State::founding();
    let (mut accepted, mut places, mut numbers) = ([0; 17], BTreeSet::new(), BTreeSet::new());
    for _ in 0..4_000 {
        let (activator, parameters) = (draw.activator(&state), [(); 4].map(|()| draw.number()));
        let entries = draw.entries(&state, activator, parameters);
        let instructions: Vec<_> = entries.iter().map(|&entry| instruction(entry, activator, parameters)).collect();
        let recipe = kept(&entries);
        assert!(recipe.instructions(activator, parameters).eq(instructions.iter().map(|&bytes| bytes.into())));
        let (answer, expected) = one_by_one(&state, &instructions);
        assert_eq!(state.recipe(&recipe, activator, parameters), answer, "{recipe:?} by {activator}, {parameters:?}");
        assert_eq!(state, expected, "{recipe:?} by {activator}, {parameters:?}");
        match answer {
            Ok(()) => accepted[entries.len()] += 1,
            Err(RecipeRefused { refusal, place }) => {
                places.insert(place.unwrap().get());
                numbers.insert(refusal.number());
            }
        }
    }
    // Recipes of each length were accepted, and others refused at each place and with each number.
    assert!(accepted[1..].iter().all(|&recipes| recipes > 0), "{accepted:?}");
    assert!(places.iter().copied().eq(1..=16), "{places:?}");
    assert!(numbers.iter().copied().eq((1..=11).chain([15])), "{numbers:?}");
}
