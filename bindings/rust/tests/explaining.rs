//! Why an area has access or not, and why an instruction is refused (document 02, point 5): chains, counts and lost
//! pairs by hand, the words for them, and walks by chance, in which they are found here in another way.

mod common;

use common::{after, changed, obey, row, Draw, AREA_LIST, LENT};
use panelrights::{sys, Chain, Counts, Explanation, Kind, Labels, Lost, Move, Refusal, State, StepRefused, Way};
use std::collections::{BTreeMap, BTreeSet};
use std::error::Error;

/// The chain behind an access that must be there.
fn chain(state: &State, area: u8, object: u8) -> Chain {
    match state.explain(area.into(), object.into()) {
        Ok(Explanation::Chain(chain)) => {
            assert_eq!((chain.area(), chain.object()), (area, object));
            assert_eq!(state.access(area.into(), object.into()), Ok(Some(chain.moves().count() as u8)));
            chain
        }
        other => panic!("area {area}, object {object}: {other:?}"),
    }
}

fn areas(state: &State, area: u8, object: u8) -> Vec<u8> {
    chain(state, area, object).areas().collect()
}

/// The counts where there must be no access.
fn counts(state: &State, area: u8, object: u8) -> Counts {
    match state.explain(area.into(), object.into()) {
        Ok(Explanation::Counts(counts)) => {
            assert_eq!((counts.area(), counts.object()), (area, object));
            assert_eq!(state.access(area.into(), object.into()), Ok(None));
            counts
        }
        other => panic!("area {area}, object {object}: {other:?}"),
    }
}

fn words(state: &State, area: u32, object: u32) -> String {
    state.explain(area, object).unwrap().to_string()
}

/// Area 1 exports the table to area 2, and area 0 imports it from there.
#[test]
fn the_session() {
    let state = after(&LENT);
    assert_eq!(areas(&state, 0, 9), [1, 2, 0]);
    let steps = [Move { from: 1, to: 2, way: Way::Lent }, Move { from: 2, to: 0, way: Way::Borrowed }];
    assert!(chain(&state, 0, 9).moves().eq(steps));
    assert_eq!(
        words(&state, 0, 9),
        "Area 0 sees table 9 over 2 steps.\n\
         The table is stored on area 1.\n\
         Area 1 lies in area 2 and lends it the table.\n\
         Area 0 lies in area 2 and borrows the table from it."
    );
    assert_eq!(areas(&state, 2, 9), [1, 2]);
    assert_eq!(
        words(&state, 2, 9),
        "Area 2 sees table 9 over 1 step.\n\
         The table is stored on area 1.\n\
         Area 1 lies in area 2 and lends it the table."
    );
}

#[test]
fn the_definer() {
    let state = after(&LENT);
    assert_eq!(areas(&state, 1, 9), [1]);
    assert_eq!(chain(&state, 1, 9).moves().next(), None);
    assert_eq!(words(&state, 1, 9), "Area 1 sees table 9: it is stored there.");
}

/// Object 5 of area 0 comes to area 10 by areas 2 and 8, and in as many steps by areas 3 and 7. The first chain is
/// lower from the front, and the second from the end. By areas 1, 4 and 6 it takes a step more.
#[test]
fn equal_shortest_chains() {
    let mut state = after(&(1..=10).map(|area| [1, 0, area, 0]).collect::<Vec<_>>());
    obey(&mut state, &[[7, 0, 0, 5], [11, 0, 0, 5]]);
    let pairs = [(0, 3), (3, 7), (7, 10), (0, 2), (2, 8), (8, 10), (0, 1), (1, 4), (4, 6), (6, 10)];
    for (inner, outer) in pairs {
        obey(&mut state, &[[5, 0, inner, outer]]);
        if !state.exports(5, inner) {
            obey(&mut state, &[[11, 0, inner, 5]]);
        }
    }
    assert_eq!(areas(&state, 10, 5), [0, 2, 8, 10]);
    obey(&mut state, &[[6, 0, 8, 10]]);
    assert_eq!(areas(&state, 10, 5), [0, 3, 7, 10]);
    // Area 2 lies in area 7 too, and the two chains part at the second place.
    obey(&mut state, &[[5, 0, 2, 7]]);
    assert_eq!(areas(&state, 10, 5), [0, 2, 7, 10]);
    obey(&mut state, &[[6, 0, 7, 10]]);
    assert_eq!(areas(&state, 10, 5), [0, 1, 4, 6, 10]);
}

/// Object 9 of area 0 moves to area 1, by each of the two ways, and by both.
#[test]
fn ways() {
    let (inner, outer) = ([5, 0, 0, 1], [5, 0, 1, 0]);
    let (export, import) = ([11, 0, 0, 9], [9, 0, 1, 9]);
    let lent = "Area 0 lies in area 1 and lends it the table.";
    let borrowed = "Area 1 lies in area 0 and borrows the table from it.";
    let both = "Area 0 lends the table to area 1, which also borrows it: each lies in the other.";
    let cases: [(&[[u8; 4]], Way, &str); 7] = [
        (&[inner, export], Way::Lent, lent),
        (&[inner, outer, export], Way::Lent, lent),
        (&[inner, export, import], Way::Lent, lent),
        (&[outer, import], Way::Borrowed, borrowed),
        (&[inner, outer, import], Way::Borrowed, borrowed),
        (&[outer, export, import], Way::Borrowed, borrowed),
        (&[inner, outer, export, import], Way::LentAndBorrowed, both),
    ];
    for (instructions, way, sentence) in cases {
        let state = after(&[&[[1, 0, 1, 0], [7, 0, 0, 9]], instructions].concat());
        assert!(chain(&state, 1, 9).moves().eq([Move { from: 0, to: 1, way }]), "{instructions:?}");
        let said = format!("Area 1 sees table 9 over 1 step.\nThe table is stored on area 0.\n{sentence}");
        assert_eq!(words(&state, 1, 9), said);
    }
}

/// Area 3 lies in no other: the table stays with areas 1, 2 and 0.
#[test]
fn no_access() {
    let mut state = after(&LENT);
    obey(&mut state, &[[1, 0, 3, 0]]);
    let far = counts(&state, 3, 9);
    for area in 0..=255 {
        let expected = match area {
            1 => Some(0),
            2 => Some(1),
            0 => Some(2),
            _ => None,
        };
        assert_eq!(far.steps(area), expected, "{area}");
    }
    assert!(far.reached().eq([(1, 0), (2, 1), (0, 2)]));
    assert_eq!(
        words(&state, 3, 9),
        "Area 3 does not see table 9: no chain of 8 steps or fewer leads to it.\n\
         The table is stored on area 1.\n\
         Area 2 sees it over 1 step.\n\
         Area 0 sees it over 2 steps.\n\
         No other area sees it."
    );
    // Nobody but the definer.
    obey(&mut state, &[[7, 0, 3, 63]]);
    assert!(counts(&state, 2, 63).reached().eq([(3, 0)]));
    assert_eq!(
        words(&state, 2, 63),
        "Area 2 does not see table 63: no chain of 8 steps or fewer leads to it.\n\
         The table is stored on area 3.\n\
         No other area sees it."
    );
}

#[test]
fn chains_of_8_steps_and_of_9() {
    let state = row();
    assert!(chain(&state, 8, 63).areas().eq(0..=8));
    assert!(chain(&state, 8, 63).moves().eq((0..8).map(|from| Move { from, to: from + 1, way: Way::Lent })));
    assert!(counts(&state, 9, 63).reached().eq((0..=8).map(|area| (area, area))));
}

/// Areas 1 and 31 are at 1 step, and area 30 at 2: the nearer come first.
#[test]
fn reached_areas_in_order() {
    let mut state = after(&[30, 31, 1, 2].map(|area| [1, 0, area, 0]));
    obey(&mut state, &[[7, 0, 31, 0], [5, 0, 31, 30], [11, 0, 31, 0], [5, 0, 0, 30], [9, 0, 0, 0]]);
    obey(&mut state, &[[5, 0, 1, 31], [9, 0, 1, 0]]);
    assert!(counts(&state, 2, 0).reached().eq([(31, 0), (1, 1), (30, 1), (0, 2)]));
}

#[test]
fn labels_in_the_words() {
    let mut state = after(&LENT);
    obey(&mut state, &[[1, 0, 3, 0]]);
    let mut labels = Labels::new();
    for (area, text) in [(0, "Panel 7"), (2, "Main house"), (3, "~")] {
        assert_eq!(labels.set(area, text), Ok(()));
    }
    assert_eq!(
        state.explain(0, 9).unwrap().words(&labels),
        "Area 0 'Panel 7' sees table 9 over 2 steps.\n\
         The table is stored on area 1.\n\
         Area 1 lies in area 2 'Main house' and lends it the table.\n\
         Area 0 'Panel 7' lies in area 2 'Main house' and borrows the table from it."
    );
    assert_eq!(
        state.explain(3, 9).unwrap().words(&labels),
        "Area 3 '~' does not see table 9: no chain of 8 steps or fewer leads to it.\n\
         The table is stored on area 1.\n\
         Area 2 'Main house' sees it over 1 step.\n\
         Area 0 'Panel 7' sees it over 2 steps.\n\
         No other area sees it."
    );
    let refused = state.explain_step([12, 0, 1, 9]).unwrap_err();
    let named = "Area 0 'Panel 7' borrows table 9 and would no longer have access to it.";
    assert_eq!(refused.words(&labels), format!("{} {named}", Refusal::WouldLoseAccess));
    assert_eq!([0, 1, 3, 255].map(|area| labels.name(area)), ["0 'Panel 7'", "1", "3 '~'", "255"]);
}

#[test]
fn refusals_of_the_question() {
    let state = after(&[[7, 0, 0, 9]]);
    for (area, object) in [(32, 9), (0, 64), (255, 255), (32, 8), (1, 64)] {
        assert_eq!(state.explain(area, object), Err(Refusal::OutOfRange), "{area}, {object}");
    }
    for (area, object) in [(1, 9), (0, 8), (31, 63)] {
        assert_eq!(state.explain(area, object), Err(Refusal::NotListed), "{area}, {object}");
    }
    // No number above 255 is taken for what its low bits are.
    for above in [1 << 8, 1 << 16, 1 << 24, 1 << 31, u32::MAX - 255] {
        for (area, object) in [(above, 9), (0, above + 9), (above + 1, 9), (1, above + 9)] {
            assert_eq!(state.explain(area, object), Err(Refusal::OutOfRange), "{area}, {object}");
        }
    }
}

/// What no `State` meets: 12, in front of 2, and 31, in front of both. No byte is written.
#[test]
fn refusals_over_the_c_interface() {
    let sound = after(&[[7, 0, 0, 9]]);
    let unsound = changed(sound.as_record(), &[(AREA_LIST, 0, 3)]);
    let cases = [
        (sound.as_record(), 0, 31, 31),
        (&unsound, 0, 31, 31),
        (&unsound, 0, 0, 31),
        (&unsound, 0, 32, 12),
        (&unsound, 32, 32, 12),
        (&sound.as_record()[1..], 0, 32, 12),
        (sound.as_record(), 32, 32, 2),
        (sound.as_record(), 1, 40, 4),
    ];
    for (record, area, length, number) in cases {
        let mut buffer = vec![7; length];
        let (state, state_len, bytes) = (record.as_ptr(), record.len(), buffer.as_mut_ptr());
        // SAFETY: both pointers are those of live slices, handed over with their lengths.
        let answer = unsafe { sys::panelrights_explain(state, state_len, area, 9, bytes, length) };
        assert_eq!(answer, sys::EXPLAIN_REFUSED + number, "area {area}, {length} bytes");
        assert_eq!(buffer, vec![7; length]);
    }
    // SAFETY: the pointer is that of a live slice, handed over with its length.
    let step = |bytes: &[u8]| unsafe { sys::panelrights_explain_step(bytes.as_ptr(), bytes.len(), 13, 0, 0, 0) };
    assert_eq!((step(&unsound), step(&unsound[1..]), step(sound.as_record())), (12, 12, 1));
    assert_eq!((sys::EXPLAIN_REFUSED, sys::EXPLAIN_COUNTS, sys::EXPLAIN_BYTES), (256, 512, 32));
    assert_eq!((sys::LOST_IMPORT, sys::LOST_EXPORT), (1, 2));
}

/// The instruction must be refused as 11, and name this pair; the state stays.
fn would_lose(state: &State, instruction: [u8; 4], lost: Lost) {
    let before = state.clone();
    assert_eq!(state.explain_step(instruction), Err(StepRefused::WouldLose(lost)), "{instruction:?}");
    assert_eq!(*state, before);
    assert_eq!(before.clone().step(instruction), Err(Refusal::WouldLoseAccess), "{instruction:?}");
}

#[test]
fn a_lost_import() {
    let mut state = after(&LENT);
    let lost = Lost::Import { area: 0, object: 9 };
    // The export ends; either area leaves the building; the table goes.
    for instruction in [[12, 0, 1, 9], [6, 0, 1, 2], [6, 0, 0, 2], [8, 0, 1, 9]] {
        would_lose(&state, instruction, lost);
    }
    // Area 3 borrows from area 0, which is to stop borrowing.
    obey(&mut state, &[[1, 0, 3, 0], [5, 0, 3, 0], [9, 0, 3, 9]]);
    would_lose(&state, [10, 0, 0, 9], Lost::Import { area: 3, object: 9 });
}

#[test]
fn a_lost_export() {
    let mut state = after(&LENT);
    // Area 0 is to stop borrowing what it lends on, into area 3.
    obey(&mut state, &[[1, 0, 3, 0], [5, 0, 0, 3], [11, 0, 0, 9]]);
    would_lose(&state, [10, 0, 0, 9], Lost::Export { area: 0, object: 9 });
    // Nobody borrows it any more, and area 1, which stores it, still lends it.
    obey(&mut state, &[[12, 0, 0, 9], [10, 0, 0, 9]]);
    would_lose(&state, [8, 0, 1, 9], Lost::Export { area: 1, object: 9 });
}

/// Areas 0, 2, 3 and 4 lie in area 1. Objects 2, 5 and 9 of area 0 come to area 1; it exports object 2, area 4 imports
/// object 5, and areas 2 and 3 object 9. All of that is lost if area 0 leaves area 1.
#[test]
fn imports_before_exports_then_by_object_then_by_area() {
    let mut state = after(&(1..=4).map(|area| [1, 0, area, 0]).collect::<Vec<_>>());
    obey(&mut state, &[[5, 0, 0, 1], [5, 0, 2, 1], [5, 0, 3, 1], [5, 0, 4, 1]]);
    obey(&mut state, &[2, 5, 9].map(|object| [7, 0, 0, object]));
    obey(&mut state, &[2, 5, 9].map(|object| [11, 0, 0, object]));
    obey(&mut state, &[[11, 0, 1, 2], [9, 0, 4, 5], [9, 0, 3, 9], [9, 0, 2, 9]]);
    let leave = [6, 0, 0, 1];
    for (area, object) in [(4, 5), (2, 9), (3, 9)] {
        would_lose(&state, leave, Lost::Import { area, object });
        obey(&mut state, &[[10, 0, area, object]]);
    }
    would_lose(&state, leave, Lost::Export { area: 1, object: 2 });
    obey(&mut state, &[[12, 0, 1, 2], leave]);
}

/// Area 0 lies in area 6, and that in area 1. Area 6 exports objects 5 and 9 of area 0, and area 1 object 9.
#[test]
fn exports_by_object_then_by_area() {
    let mut state = after(&[[1, 0, 1, 0], [1, 0, 6, 0], [5, 0, 0, 6], [5, 0, 6, 1]]);
    for object in [5, 9] {
        obey(&mut state, &[[7, 0, 0, object], [11, 0, 0, object], [11, 0, 6, object]]);
    }
    obey(&mut state, &[[11, 0, 1, 9]]);
    let leave = [6, 0, 0, 6];
    for (area, object) in [(6, 5), (1, 9), (6, 9)] {
        would_lose(&state, leave, Lost::Export { area, object });
        obey(&mut state, &[[12, 0, area, object]]);
    }
    assert_eq!(state.explain_step(leave), Ok(()));
}

#[test]
fn accepted_or_refused_by_another_number() {
    let state = after(&LENT);
    let before = state.clone();
    assert_eq!(state.explain_step(Kind::RemoveImport { area: 0, object: 9 }.by(0)), Ok(()));
    assert_eq!(state.explain_step([1, 0, 31, 0]), Ok(()));
    let owner = Kind::AddOwner { area: 0, user: 4 }.by(4);
    let refused = state.explain_step(owner).unwrap_err();
    assert_eq!(refused, StepRefused::For(Refusal::ActivatorUnlisted));
    assert_eq!(refused.refusal().number(), 3);
    assert_eq!(refused.to_string(), Refusal::ActivatorUnlisted.to_string());
    assert_eq!(state, before);
}

#[test]
fn words_of_a_lost_pair() {
    let import = Lost::Import { area: 0, object: 9 };
    let export = Lost::Export { area: 31, object: 63 };
    assert_eq!(import.to_string(), "Area 0 borrows table 9 and would no longer have access to it.");
    assert_eq!(export.to_string(), "Area 31 lends table 63 and would no longer have access to it.");
    let refused = StepRefused::WouldLose(import);
    assert_eq!(
        refused.to_string(),
        "An area that imports or exports a table would lose its access to it: no way of at most 8 steps would be left. \
         Take back its export and its import of the table first, beginning with the area that is the most steps away; \
         or first lay another way of at most 8 steps. Area 0 borrows table 9 and would no longer have access to it."
    );
    assert_eq!(refused.refusal().number(), 11);
    for refused in [refused, StepRefused::For(Refusal::NotOwner)] {
        assert_eq!(refused.source().unwrap().to_string(), refused.refusal().to_string());
    }
}

/// The pairs of a state that access rests on, which here may be of a state that is not sound.
struct Pairs {
    definitions: BTreeSet<(u8, u8)>,
    structure: BTreeSet<(u8, u8)>,
    imports: BTreeSet<(u8, u8)>,
    exports: BTreeSet<(u8, u8)>,
}

impl Pairs {
    fn of(state: &State) -> Pairs {
        let pairs = |there: fn(&State, u8, u8) -> bool| {
            let all = (0..64).flat_map(|first| (0..32).map(move |second| (first, second)));
            all.filter(|&(first, second)| there(state, first, second)).collect()
        };
        Pairs {
            definitions: pairs(State::defines),
            structure: pairs(State::lies_in),
            imports: pairs(State::imports),
            exports: pairs(State::exports),
        }
    }

    /// Without the pair that a removal takes out.
    fn without(mut self, [code, _, a, b]: [u8; 4]) -> Pairs {
        match code {
            6 => self.structure.remove(&(a, b)),
            8 => self.definitions.remove(&(b, a)),
            10 => self.imports.remove(&(b, a)),
            12 => self.exports.remove(&(b, a)),
            _ => panic!("code {code} removes no pair"),
        };
        self
    }

    /// Where the object moves from an area in one step.
    fn next(&self, object: u8, from: u8) -> impl Iterator<Item = u8> + '_ {
        self.structure.iter().filter_map(move |&(inner, outer)| {
            let lent = from == inner && self.exports.contains(&(object, inner));
            let borrowed = from == outer && self.imports.contains(&(object, inner));
            if lent {
                Some(outer)
            } else {
                borrowed.then_some(inner)
            }
        })
    }

    /// The first chain to each area that the object reaches: of those that get there in the fewest steps the lowest.
    fn chains(&self, object: u8) -> BTreeMap<u8, Vec<u8>> {
        let defined = self.definitions.iter().filter(|&&(defined, _)| defined == object);
        let mut found: BTreeMap<u8, Vec<u8>> = defined.map(|&(_, area)| (area, vec![area])).collect();
        for _ in 0..8 {
            let step = |(&from, chain): (&u8, &Vec<u8>)| -> Vec<Vec<u8>> {
                self.next(object, from).map(|to| [chain.as_slice(), &[to]].concat()).collect()
            };
            let mut longer: Vec<_> = found.iter().flat_map(step).collect();
            longer.sort();
            for chain in longer {
                found.entry(chain[chain.len() - 1]).or_insert(chain);
            }
        }
        found
    }

    /// The first pair whose area lacks access.
    fn lost(&self) -> Option<Lost> {
        let lacks = |&&(object, area): &&(u8, u8)| !self.chains(object).contains_key(&area);
        let import = self.imports.iter().find(lacks).map(|&(object, area)| Lost::Import { area, object });
        import.or_else(|| self.exports.iter().find(lacks).map(|&(object, area)| Lost::Export { area, object }))
    }
}

/// Each area of the state and each object against the chains that are found here.
fn explains(state: &State) -> [usize; 2] {
    let pairs = Pairs::of(state);
    let mut told = [0; 2];
    for object in state.objects() {
        let chains = pairs.chains(object);
        for area in state.areas() {
            if let Some(expected) = chains.get(&area) {
                assert_eq!(areas(state, area, object), *expected, "{state:?}");
                told[0] += 1;
            } else {
                let far = counts(state, area, object);
                let expected = |area| chains.get(&area).map(|chain| chain.len() as u8 - 1);
                assert!((0..32).all(|area| far.steps(area) == expected(area)), "{state:?}: {far:?}");
                told[1] += 1;
            }
        }
    }
    told
}

/// Twelve walks of 2,000 instructions by chance. Each is explained before it is obeyed, and each state on the way in
/// all its answers. Of the removals that are accepted one in six is obeyed, so that much is lent, and much would be
/// lost.
#[test]
fn explanations_by_chance() {
    let mut draw = Draw(1);
    let (mut state, mut told, mut named) = (State::founding(), [0; 2], [0; 2]);
    for turn in 0..24_000 {
        if turn % 2_000 == 0 {
            state = State::founding();
        }
        let instruction = draw.instruction();
        let explained = state.explain_step(instruction);
        match explained {
            Err(StepRefused::WouldLose(lost)) => {
                assert_eq!(Some(lost), Pairs::of(&state).without(instruction).lost(), "{instruction:?}, {state:?}");
                named[usize::from(matches!(lost, Lost::Export { .. }))] += 1;
            }
            other => assert_ne!(other, Err(StepRefused::For(Refusal::WouldLoseAccess))),
        }
        let mut next = state.clone();
        let obeyed = next.step(instruction);
        assert_eq!(explained.map_err(StepRefused::refusal), obeyed, "{instruction:?}");
        if obeyed.is_ok() && (instruction[0] % 2 == 1 || draw.below(6) == 0) {
            state = next;
            let [chains, far] = explains(&state);
            told = [told[0] + chains, told[1] + far];
        }
    }
    assert!(told.iter().chain(&named).all(|&count| count > 100), "{told:?} {named:?}");
}
