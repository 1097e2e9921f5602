//! Records that were kept or made by hand, and the readings of a state.

mod common;

use common::*;
use panelrights::{sys, Refusal, State, AREAS, OBJECTS, USERS};

#[test]
fn a_record_has_the_length_that_the_library_says() {
    // SAFETY: nothing is asked of a caller.
    assert_eq!(unsafe { sys::panelrights_state_bytes() }, sys::STATE_BYTES);
    assert_eq!((sys::STATE_BYTES, sys::NO_ACCESS, sys::ACCESS_REFUSED), (1040, 255, 256));
    assert_eq!(State::founding().as_record().len(), sys::STATE_BYTES);
}

#[test]
fn a_kept_record_comes_back() {
    let state = after(&[[7, 0, 0, 9]]);
    assert_eq!(State::from_record(state.as_record()), Ok(state.clone()));
    assert_ne!(state, State::founding());
}

#[test]
fn records_of_another_length() {
    let long = [State::founding().as_record(), &[0; 8320]].concat();
    for length in [0, 1, 1039, 1041, 8320] {
        assert_eq!(State::from_record(&long[..length]), Err(Refusal::BufferLength), "{length}");
    }
    assert_eq!(State::from_record(&long[..1040]), Ok(State::founding()));
}

/// All rows of a record, each with the part that it is in.
fn every_row() -> impl Iterator<Item = (usize, u8)> {
    let lists = [(USER_LIST, 1), (AREA_LIST, 1), (OBJECT_LIST, 2)];
    let relations = [(OWNERS, 32), (DEFINITIONS, 64), (STRUCTURE, 32), (IMPORTS, 64), (EXPORTS, 64)];
    lists.into_iter().chain(relations).flat_map(|(part, rows)| (0..rows).map(move |row| (part, row)))
}

fn every_bit() -> impl Iterator<Item = Bit> {
    every_row().flat_map(|(part, row)| (0..32).map(move |place| (part, row, place)))
}

/// Each reading of the state is its own bit of the record.
fn reads(state: &State, record: &[u8]) -> bool {
    let read = |part, row, place| match part {
        USER_LIST => state.is_listed_user(place),
        AREA_LIST => state.is_listed_area(place),
        OBJECT_LIST => state.is_listed_object(32 * row + place),
        OWNERS => state.owns(row, place),
        DEFINITIONS => state.defines(row, place),
        STRUCTURE => state.lies_in(row, place),
        IMPORTS => state.imports(row, place),
        _ => state.exports(row, place),
    };
    let agrees = |(part, row)| {
        let from = part + 4 * usize::from(row);
        let bits = u32::from_le_bytes(record[from..from + 4].try_into().unwrap());
        (0..32).all(|place| read(part, row, place) == (bits >> place & 1 == 1))
    };
    state.as_record() == record && every_row().all(agrees)
}

/// Only that area 0 lies in itself makes another sound state of the founding one.
#[test]
fn records_that_are_one_bit_off_the_founding_one() {
    let in_itself = after(&[[5, 0, 0, 0]]);
    for bit in every_bit() {
        let expected = if bit == (STRUCTURE, 0, 0) { Ok(in_itself.clone()) } else { Err(Refusal::UnsoundState) };
        assert_eq!(State::from_record(&changed(State::founding().as_record(), &[bit])), expected, "{bit:?}");
    }
    assert_eq!(every_bit().count(), 8 * sys::STATE_BYTES);
}

/// Every number listed and every pair there, but that area o % 32 alone defines object o and does not import it.
fn full() -> Vec<u8> {
    let is_left_out = |&(part, row, place): &Bit| match part {
        DEFINITIONS => place != row % 32,
        IMPORTS => place == row % 32,
        _ => false,
    };
    changed(&[0xff; 1040], &every_bit().filter(is_left_out).collect::<Vec<_>>())
}

/// No access rests on a single pair, so owners, structure pairs, imports and exports can be missing. The lists, the
/// definitions, and that no definer imports, can't be otherwise.
#[test]
fn records_that_are_one_bit_off_the_full_one() {
    let full = full();
    assert!(reads(&State::from_record(&full).unwrap(), &full));
    let mut sound = 0;
    for bit in every_bit() {
        let record = changed(&full, &[bit]);
        let is_sound = match bit {
            (OWNERS | STRUCTURE | EXPORTS, _, _) => true,
            (IMPORTS, object, area) => area != object % 32,
            _ => false,
        };
        match State::from_record(&record) {
            Ok(state) => assert!(is_sound && reads(&state, &record), "{bit:?}"),
            Err(refusal) => assert_eq!((refusal, is_sound), (Refusal::UnsoundState, false), "{bit:?}"),
        }
        sound += u32::from(is_sound);
    }
    assert_eq!(sound, 1024 + 1024 + (2048 - 64) + 2048);
}

/// Each user and each area alone, and each object in each area.
#[test]
fn records_of_one_number() {
    let comes = |bits: &[Bit]| {
        let record = changed(&[0; 1040], bits);
        let state = State::from_record(&record).unwrap();
        assert!(reads(&state, &record), "{bits:?}");
    };
    for user in 0..USERS {
        comes(&[(USER_LIST, 0, user), (AREA_LIST, 0, 0), (OWNERS, user, 0)]);
    }
    for area in 0..AREAS {
        let alone = [(USER_LIST, 0, 0), (AREA_LIST, 0, area), (OWNERS, 0, area)];
        comes(&alone);
        for object in 0..OBJECTS {
            let defined = [(OBJECT_LIST, object / 32, object % 32), (DEFINITIONS, object, area)];
            comes(&[&alone[..], &defined].concat());
        }
    }
}

/// In the one of zeros there is no area, and in all others an object is defined in four areas.
#[test]
fn records_of_equal_bytes() {
    for byte in 0..=255 {
        assert_eq!(State::from_record(&[byte; 1040]), Err(Refusal::UnsoundState), "{byte}");
    }
}

/// A state with user 3, areas 0 and 31 and object 63, and one pair of each relation that only its own reading shows.
#[test]
fn readings() {
    let state = after(&[
        [3, 0, 0, 3],
        [1, 0, 31, 0],
        [7, 0, 31, 63],
        [5, 0, 0, 31],
        [9, 0, 0, 63],
        [11, 0, 31, 63],
        [4, 0, 0, 0],
    ]);
    let (every_user, every_area, every_object) = (0..=255u8, 0..=255u8, 0..=255u8);
    assert!(every_user.filter(|&user| state.is_listed_user(user)).eq([0, 3]));
    assert!(every_area.filter(|&area| state.is_listed_area(area)).eq([0, 31]));
    assert!(every_object.filter(|&object| state.is_listed_object(object)).eq([63]));
    assert!(state.users().eq([0, 3]) && state.areas().eq([0, 31]) && state.objects().eq([63]));
    let pairs = |holds: fn(&State, u8, u8) -> bool| -> Vec<(u8, u8)> {
        let all = (0..=255u8).flat_map(|first| (0..=255u8).map(move |second| (first, second)));
        all.filter(|&(first, second)| holds(&state, first, second)).collect()
    };
    assert_eq!(pairs(State::owns), [(0, 31), (3, 0)]);
    assert_eq!(pairs(State::defines), [(63, 31)]);
    assert_eq!(pairs(State::lies_in), [(0, 31)]);
    assert_eq!(pairs(State::imports), [(63, 0)]);
    assert_eq!(pairs(State::exports), [(63, 31)]);
    assert_eq!((USERS, AREAS, OBJECTS), (32, 32, 64));
}
