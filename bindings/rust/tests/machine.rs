//! The session of document 01, its examples of refused instructions, chains of 8 steps and of 9, imports by the area
//! that defines, and adds that are taken back.

mod common;

use common::{after, changed, obey, row, EXPORTS, IMPORTS};
use panelrights::{Instruction, Kind, Refusal, State, StepRefused};

/// What is set at last must be refused with the number, be explained by it, and leave the state as it was.
fn refused(before: &[[u8; 4]], last: [u8; 4], number: u8) {
    let mut state = after(before);
    let given = state.clone();
    let refusal = state.step(last).expect_err("it is accepted");
    assert_eq!(refusal.number(), number, "{last:?}: {refusal}");
    assert_eq!(state.explain_step(last).map_err(StepRefused::refusal), Err(refusal), "{last:?}");
    assert_eq!(state, given, "{last:?}");
}

const SESSION: [([u8; 4], u8); 12] = [
    ([1, 0, 1, 0], 0),
    ([1, 0, 2, 0], 0),
    ([5, 0, 1, 2], 0),
    ([5, 0, 0, 2], 0),
    ([7, 0, 1, 9], 0),
    ([9, 0, 0, 9], 10),
    ([11, 0, 1, 9], 0),
    ([9, 0, 0, 9], 0),
    ([12, 0, 1, 9], 11),
    ([3, 0, 0, 4], 0),
    ([10, 4, 0, 9], 0),
    ([6, 4, 0, 2], 0),
];

/// The instructions of the session's first lines, without those that are refused.
fn accepted(lines: usize) -> Vec<[u8; 4]> {
    SESSION[..lines].iter().filter(|(_, number)| *number == 0).map(|(instruction, _)| *instruction).collect()
}

#[test]
fn session() {
    let mut state = State::founding();
    for (line, (instruction, number)) in SESSION.into_iter().enumerate() {
        let answer = state.step(instruction).map_or_else(Refusal::number, |()| 0);
        assert_eq!(answer, number, "line {}", line + 1);
        if line + 1 == 8 {
            assert_eq!(state.access(0, 9), Ok(Some(2)));
            assert_eq!(state.access(2, 9), Ok(Some(1)), "the building has access with no entry of its own");
        }
    }
    assert_eq!(
        format!("{state:?}"),
        "State { users: [0, 4], areas: [0, 1, 2], objects: [9], owners: [(0, 0), (0, 1), (0, 2), (4, 0)], \
         definitions: [(9, 1)], structure: [(1, 2)], imports: [], exports: [(9, 1)] }"
    );
}

#[test]
fn session_by_name() {
    let named = [
        Kind::ListArea { area: 1 }.by(0),
        Kind::ListArea { area: 2 }.by(0),
        Kind::AddStructure { inner: 1, outer: 2 }.by(0),
        Kind::AddStructure { inner: 0, outer: 2 }.by(0),
        Kind::Define { area: 1, object: 9 }.by(0),
        Kind::AddImport { area: 0, object: 9 }.by(0),
        Kind::AddExport { area: 1, object: 9 }.by(0),
        Kind::AddImport { area: 0, object: 9 }.by(0),
        Kind::RemoveExport { area: 1, object: 9 }.by(0),
        Kind::AddOwner { area: 0, user: 4 }.by(0),
        Kind::RemoveImport { area: 0, object: 9 }.by(4),
        Kind::RemoveStructure { inner: 0, outer: 2 }.by(4),
    ];
    assert_eq!(named, SESSION.map(|(instruction, _)| Instruction::from(instruction)));
}

/// Each name against the code and the places of document 01's table.
#[test]
fn each_kind_has_its_code() {
    let (area, user, object, inner, outer) = (7, 5, 63, 11, 22);
    let kinds = [
        (Kind::ListArea { area }, [1, 3, 7, 0]),
        (Kind::UnlistArea { area }, [2, 3, 7, 0]),
        (Kind::AddOwner { area, user }, [3, 3, 7, 5]),
        (Kind::RemoveOwner { area, user }, [4, 3, 7, 5]),
        (Kind::AddStructure { inner, outer }, [5, 3, 11, 22]),
        (Kind::RemoveStructure { inner, outer }, [6, 3, 11, 22]),
        (Kind::Define { area, object }, [7, 3, 7, 63]),
        (Kind::RemoveDefinition { area, object }, [8, 3, 7, 63]),
        (Kind::AddImport { area, object }, [9, 3, 7, 63]),
        (Kind::RemoveImport { area, object }, [10, 3, 7, 63]),
        (Kind::AddExport { area, object }, [11, 3, 7, 63]),
        (Kind::RemoveExport { area, object }, [12, 3, 7, 63]),
    ];
    for (kind, bytes) in kinds {
        assert_eq!(kind.by(3), bytes.into());
    }
}

#[test]
fn refusals_of_an_instruction() {
    refused(&[], [13, 0, 0, 0], 1);
    refused(&[], [7, 0, 0, 64], 2);
    refused(&[], [1, 5, 1, 0], 3);
    refused(&[], [7, 0, 6, 0], 4);
    refused(&[[1, 0, 1, 0], [3, 0, 0, 4]], [7, 4, 1, 9], 5);
    refused(&[], [1, 0, 0, 0], 6);
    refused(&[[7, 0, 0, 9]], [10, 0, 0, 9], 7);
    refused(&[], [4, 0, 0, 0], 8);
    refused(&[[1, 0, 1, 0], [7, 0, 1, 9]], [2, 0, 1, 0], 9);
    refused(&[[1, 0, 1, 0], [7, 0, 0, 9]], [9, 0, 1, 9], 10);
    refused(&accepted(8), [12, 0, 1, 9], 11);
    refused(&[[7, 0, 0, 9]], [9, 0, 0, 9], 15);
}

#[test]
fn the_first_refusal_in_order() {
    refused(&[], [0, 255, 255, 255], 1);
    refused(&[], [1, 32, 1, 0], 2);
    refused(&[], [2, 5, 0, 1], 2);
    refused(&[], [4, 5, 0, 0], 3);
    // Area 0 defines object 9: 15 comes behind 2, 3, 4 and 5.
    refused(&[[7, 0, 0, 9]], [9, 32, 0, 9], 2);
    refused(&[[7, 0, 0, 9]], [9, 5, 0, 9], 3);
    refused(&[[7, 0, 0, 9], [8, 0, 0, 9]], [9, 0, 0, 9], 4);
    refused(&[[7, 0, 0, 9], [1, 0, 1, 0], [3, 0, 1, 4]], [9, 4, 0, 9], 5);
}

/// Places where a reader of document 01 could go wrong.
#[test]
fn traps() {
    // User 0 loses an area that is not his last, and stays listed.
    refused(&[[1, 0, 1, 0], [2, 0, 1, 0]], [1, 0, 0, 0], 6);
    // Areas 1 and 2 lie in each other, and no chain leads to either.
    refused(&[[1, 0, 1, 0], [1, 0, 2, 0], [7, 0, 0, 9], [5, 0, 1, 2], [5, 0, 2, 1]], [9, 0, 1, 9], 10);
}

#[test]
fn refusals_of_the_access_question() {
    let state = after(&[[7, 0, 0, 9]]);
    assert_eq!(state.access(0, 9), Ok(Some(0)));
    assert_eq!(state.access(32, 9), Err(Refusal::OutOfRange));
    assert_eq!(state.access(0, 64), Err(Refusal::OutOfRange));
    assert_eq!(state.access(255, 255), Err(Refusal::OutOfRange));
    assert_eq!(state.access(1, 9), Err(Refusal::NotListed));
    assert_eq!(state.access(0, 8), Err(Refusal::NotListed));
    assert_eq!(after(&[[7, 0, 0, 9], [1, 0, 1, 0]]).access(1, 9), Ok(None));
}

/// No number above 255 is taken for what its low bits are.
#[test]
fn numbers_above_255_are_out_of_range() {
    let state = after(&[[7, 0, 0, 9]]);
    for above in [1 << 8, 1 << 16, 1 << 24, 1 << 31, u32::MAX - 255] {
        for (area, object) in [(above, 9), (0, above + 9), (above, above + 9), (above, 8), (1, above + 9)] {
            assert_eq!(state.access(area, object), Err(Refusal::OutOfRange), "{area}, {object}");
        }
    }
    assert_eq!(state.access(u32::MAX, u32::MAX), Err(Refusal::OutOfRange));
}

#[test]
fn the_limit_is_8_steps() {
    assert_eq!(panelrights::MOST_STEPS, 8);
    let state = row();
    for area in 0..=8 {
        assert_eq!(state.access(area.into(), 63), Ok(Some(area)));
    }
    assert_eq!(state.access(9, 63), Ok(None));
}

#[test]
fn imports_and_exports_by_8_steps_and_by_9() {
    let mut state = row();
    obey(&mut state, &[[9, 0, 8, 63]]);
    for kind in [Kind::AddImport { area: 9, object: 63 }, Kind::AddExport { area: 9, object: 63 }] {
        assert_eq!(state.step(kind.by(0)), Err(Refusal::WouldLackAccess), "{kind:?}");
    }
    // Area 0 lies in area 2 too: area 9 is at 8 steps, and the short cut must stay as long as it has an entry.
    obey(&mut state, &[[5, 0, 0, 2], [9, 0, 9, 63], [11, 0, 9, 63]]);
    assert_eq!(state.access(9, 63), Ok(Some(8)));
    assert_eq!(state.step([6, 0, 0, 2]), Err(Refusal::WouldLoseAccess));
    obey(&mut state, &[[12, 0, 9, 63], [10, 0, 9, 63], [6, 0, 0, 2]]);
    assert_eq!(state.access(9, 63), Ok(None));
}

/// Area 10 is a way round the pair (0, 1), a step longer: areas 1 to 7 keep their access over it, and area 8 would be
/// at 9 steps.
#[test]
fn removals_with_a_way_round_of_8_steps_and_of_9() {
    let mut state = row();
    obey(&mut state, &[[1, 0, 10, 0], [5, 0, 0, 10], [11, 0, 10, 63], [5, 0, 10, 1]]);
    assert_eq!(state.step([6, 0, 0, 1]), Err(Refusal::WouldLoseAccess), "area 8 exports");
    obey(&mut state, &[[12, 0, 8, 63], [9, 0, 8, 63]]);
    assert_eq!(state.step([6, 0, 0, 1]), Err(Refusal::WouldLoseAccess), "area 8 imports");
    obey(&mut state, &[[10, 0, 8, 63], [6, 0, 0, 1]]);
    assert_eq!(state.access(7, 63), Ok(Some(8)));
    assert_eq!(state.access(8, 63), Ok(None));
}

/// An import that is written into a kept record.
#[test]
fn records_with_an_import_by_8_steps_and_by_9() {
    let written = |area| State::from_record(&changed(row().as_record(), &[(IMPORTS, 63, area)]));
    assert_eq!(written(8).unwrap().access(8, 63), Ok(Some(8)));
    assert_eq!(written(9), Err(Refusal::UnsoundState));
}

/// Area 1 lies in area 0, which defines object 9 and exports it; user 0 owns both.
#[test]
fn imports_by_the_area_that_defines() {
    let mut state = after(&[[1, 0, 1, 0], [5, 0, 1, 0], [7, 0, 0, 9], [11, 0, 0, 9], [9, 0, 1, 9]]);
    let given = state.clone();
    let own = Kind::AddImport { area: 0, object: 9 }.by(0);
    assert_eq!(state.step(own), Err(Refusal::OwnImport));
    assert_eq!(state.step(Kind::RemoveImport { area: 0, object: 9 }.by(0)), Err(Refusal::NotThere));
    assert_eq!(state, given);
    assert_eq!((state.access(0, 9), state.access(1, 9)), (Ok(Some(0)), Ok(Some(1))));
    // Area 1 defines it now. It is area 0 that may import it, and area 1 that may not.
    obey(&mut state, &[[10, 0, 1, 9], [12, 0, 0, 9], [8, 0, 0, 9], [7, 0, 1, 9], [11, 0, 1, 9]]);
    assert_eq!(state.step(own), Ok(()));
    assert_eq!(state.step([9, 0, 1, 9]), Err(Refusal::OwnImport));
    assert_eq!((state.imports(9, 0), state.imports(9, 1)), (true, false));
}

/// An import or an export that is written into a kept record, by the area that defines the object.
#[test]
fn records_with_an_entry_of_the_area_that_defines() {
    for (area, object) in [(0, 0), (0, 63), (31, 0), (31, 63), (5, 9)] {
        let define = [7, 0, area, object];
        let state = if area == 0 { after(&[define]) } else { after(&[[1, 0, area, 0], define]) };
        let written = |part| State::from_record(&changed(state.as_record(), &[(part, object, area)]));
        assert_eq!(written(IMPORTS), Err(Refusal::UnsoundState), "{area} imports {object}");
        assert!(written(EXPORTS).unwrap().exports(object, area), "{area} exports {object}");
    }
}

/// The session up to line 10: areas 0 and 1 lie in area 2; area 1 defines object 9 and exports it, area 0 imports it;
/// user 0 owns all three, and user 4 area 0. Besides, area 2 defines object 11.
fn site() -> State {
    let mut site = after(&accepted(10));
    obey(&mut site, &[[7, 0, 2, 11]]);
    site
}

/// Each add with the matching remove. The site accepts the adds from user 0; none of their areas is user 4's, and user
/// 5 is listed only by the second.
const ADDS: [(Kind, Kind); 6] = [
    (Kind::ListArea { area: 3 }, Kind::UnlistArea { area: 3 }),
    (Kind::AddOwner { area: 1, user: 5 }, Kind::RemoveOwner { area: 1, user: 5 }),
    (Kind::AddStructure { inner: 2, outer: 1 }, Kind::RemoveStructure { inner: 2, outer: 1 }),
    (Kind::Define { area: 2, object: 10 }, Kind::RemoveDefinition { area: 2, object: 10 }),
    (Kind::AddImport { area: 2, object: 9 }, Kind::RemoveImport { area: 2, object: 9 }),
    (Kind::AddExport { area: 2, object: 9 }, Kind::RemoveExport { area: 2, object: 9 }),
];

/// The add must be accepted and change the state, and the remove by the same activator must give the state of before.
fn taken_back(site: &mut State, activator: u8, add: Kind, remove: Kind) {
    let before = site.clone();
    assert_eq!(site.step(add.by(activator)), Ok(()), "{add:?}");
    assert_ne!(*site, before, "{add:?}");
    assert_eq!(site.step(remove.by(activator)), Ok(()), "{remove:?}");
    assert_eq!(*site, before, "{remove:?}");
}

#[test]
fn each_add_is_taken_back() {
    let mut site = site();
    for (add, remove) in ADDS {
        taken_back(&mut site, 0, add, remove);
    }
    // All six on one another, and the last is taken back first.
    let mut before = Vec::new();
    for (add, _) in ADDS {
        before.push(site.clone());
        assert_eq!(site.step(add.by(0)), Ok(()), "{add:?}");
    }
    for (_, remove) in ADDS.into_iter().rev() {
        assert_eq!(site.step(remove.by(0)), Ok(()), "{remove:?}");
        assert_eq!(Some(&site), before.pop().as_ref(), "{remove:?}");
    }
}

/// Every area, owner, object and structure pair that the site does not have yet.
#[test]
fn each_number_is_taken_back() {
    let mut site = site();
    for area in 3..32 {
        taken_back(&mut site, 4, Kind::ListArea { area }, Kind::UnlistArea { area });
    }
    for (activator, area) in [(4, 0), (0, 0), (0, 1), (0, 2)] {
        for user in (1..32).filter(|&user| (user, area) != (4, 0)) {
            taken_back(&mut site, activator, Kind::AddOwner { area, user }, Kind::RemoveOwner { area, user });
        }
        for object in (0..64).filter(|object| ![9, 11].contains(object)) {
            taken_back(&mut site, activator, Kind::Define { area, object }, Kind::RemoveDefinition { area, object });
        }
    }
    for (inner, outer) in [(0, 0), (0, 1), (1, 0), (1, 1), (2, 0), (2, 1), (2, 2)] {
        taken_back(&mut site, 0, Kind::AddStructure { inner, outer }, Kind::RemoveStructure { inner, outer });
    }
}

#[test]
fn a_user_listed_only_by_that_add() {
    let mut site = site();
    let (add, remove) = ADDS[1];
    assert!(!site.is_listed_user(5));
    assert_eq!(site.step(add.by(0)), Ok(()));
    assert!(site.is_listed_user(5) && site.owns(5, 1));
    assert_eq!(site.step(remove.by(0)), Ok(()));
    assert!(!site.is_listed_user(5) && !site.owns(5, 1));
    assert_eq!(site.users().collect::<Vec<_>>(), [0, 4]);
    assert_eq!(site.step(Kind::ListArea { area: 3 }.by(5)), Err(Refusal::ActivatorUnlisted));
    assert_eq!(site.step(remove.by(0)), Err(Refusal::NotListed));
    // User 4 was listed before: he owns area 0, and stays.
    taken_back(&mut site, 0, Kind::AddOwner { area: 1, user: 4 }, Kind::RemoveOwner { area: 1, user: 4 });
    assert!(site.is_listed_user(4) && site.owns(4, 0) && !site.owns(4, 1));
}

/// Refused instructions, other activators among them, and questions between an add and its remove.
#[test]
fn refusals_and_questions_in_between() {
    let mut site = site();
    let before = site.clone();
    for (add, remove) in ADDS {
        assert_eq!(site.step(add.by(0)), Ok(()), "{add:?}");
        let added = site.clone();
        assert_eq!(site.step(add.by(0)), Err(Refusal::AlreadyThere), "{add:?}");
        assert_eq!(site.step(remove.by(31)), Err(Refusal::ActivatorUnlisted), "{remove:?}");
        assert_eq!(site.step(remove.by(4)), Err(Refusal::NotOwner), "{remove:?}");
        assert_eq!(site.step(Kind::RemoveDefinition { area: 1, object: 9 }.by(0)), Err(Refusal::WouldLoseAccess));
        assert_eq!((site.access(2, 9), site.access(0, 9)), (Ok(Some(1)), Ok(Some(2))), "{add:?}");
        assert_eq!(site.access(32, 9), Err(Refusal::OutOfRange));
        assert_eq!(site, added, "{add:?}");
        assert_eq!(site.step(remove.by(0)), Ok(()), "{remove:?}");
        assert_eq!(site, before, "{remove:?}");
    }
}

/// Area 8 is at 8 steps; the pair (0, 2) brings area 9 there too.
#[test]
fn taken_back_at_8_steps() {
    let mut site = row();
    taken_back(&mut site, 0, Kind::AddImport { area: 8, object: 63 }, Kind::RemoveImport { area: 8, object: 63 });
    obey(&mut site, &[[12, 0, 8, 63]]);
    taken_back(&mut site, 0, Kind::AddExport { area: 8, object: 63 }, Kind::RemoveExport { area: 8, object: 63 });
    obey(&mut site, &[[11, 0, 8, 63]]);
    let before = site.clone();
    obey(&mut site, &[[5, 0, 0, 2]]);
    assert_eq!(site.access(9, 63), Ok(Some(8)));
    obey(&mut site, &[[6, 0, 0, 2]]);
    assert_eq!(site.access(9, 63), Ok(None));
    assert_eq!(site, before);
}

/// Not of a refused add, not of a remove, not by another activator, and not once another instruction was accepted.
#[test]
fn what_is_not_taken_back() {
    let mut site = after(&[[7, 0, 0, 9]]);
    assert_eq!(site.step([7, 0, 0, 9]), Err(Refusal::AlreadyThere));
    obey(&mut site, &[[8, 0, 0, 9]]);
    assert_eq!(site, State::founding(), "the remove takes out what was there");
    refused(&[[1, 0, 1, 0], [3, 0, 0, 4], [4, 0, 0, 0]], [3, 0, 0, 0], 5);
    refused(&[[7, 0, 0, 9]], [8, 4, 0, 9], 3);
    refused(&[[1, 0, 1, 0], [3, 0, 1, 4], [7, 0, 0, 9]], [8, 4, 0, 9], 5);
    refused(&[[1, 0, 1, 0], [7, 0, 1, 9]], [2, 0, 1, 0], 9);
    // Areas 0 and 2 lie in area 1: area 2 has imported what the export of area 0 brought there.
    let lent = [[1, 0, 1, 0], [1, 0, 2, 0], [5, 0, 0, 1], [5, 0, 2, 1], [7, 0, 0, 9], [11, 0, 0, 9], [9, 0, 2, 9]];
    refused(&lent, [12, 0, 0, 9], 11);
}

#[test]
fn lowest_marks() {
    for marks in 0..=255u8 {
        let lowest = (0..8).find(|place| marks >> place & 1 == 1);
        assert_eq!(panelrights::lowest_mark(marks), lowest, "{marks}");
    }
}
