//! The examples of document 01, points 1, 2, 3, 4, 5, 7 and 11 of document 02, and the readings 1 to 15 and 17 to 19
//! of docs/READINGS.md.

use reference::*;
use std::collections::{BTreeMap, BTreeSet};

/// The state after the list from F; every instruction of it is to be accepted.
fn from_f(list: &[[u8; 4]]) -> State {
    let mut state = State::founding();
    for &instruction in list {
        state = step(&state, instruction).unwrap_or_else(|refusal| panic!("{instruction:?} is refused with {refusal}"));
    }
    state
}

/// Asserts the refusal after the accepted list, on the state and on its record.
fn refused(list: &[[u8; 4]], instruction: [u8; 4], refusal: u8) {
    let state = from_f(list);
    assert_eq!(step(&state, instruction), Err(refusal), "{instruction:?} after {list:?}");
    assert_eq!(step_record(&to_record(&state), instruction), Err(refusal));
    assert_eq!(run(&state, &[instruction]), state);
}

/// Asserts that the instruction is accepted after the accepted list, and hands the next state back.
fn accepted(list: &[[u8; 4]], instruction: [u8; 4]) -> State {
    let state = from_f(list);
    let next = step(&state, instruction).expect("accepted");
    assert_eq!(step_record(&to_record(&state), instruction), Ok(to_record(&next)));
    assert!(next.is_sound());
    next
}

/// A site file with the tables as given, whatever they hold; counts, offsets and length fit.
fn file(
    owners: &[[u8; 2]],
    definitions: &[[u8; 2]],
    structure: &[[u8; 2]],
    imports: &[[u8; 2]],
    exports: &[[u8; 2]],
    labels: &[[u8; 32]],
) -> Vec<u8> {
    let counts = [
        owners.len(),
        definitions.len(),
        structure.len(),
        imports.len(),
        exports.len(),
        labels.len(),
    ];
    let mut offsets = [28; 6];
    for table in 1..6 {
        offsets[table] = offsets[table - 1] + 2 * counts[table - 1];
    }
    let length = offsets[5] + 32 * counts[5];
    let mut bytes = Vec::new();
    for field in [1, length].into_iter().chain(counts).chain(offsets) {
        bytes.extend((field as u16).to_le_bytes());
    }
    bytes.extend([owners, definitions, structure, imports, exports].concat().concat());
    bytes.extend(labels.concat());
    bytes
}

/// A label entry with any area, length and text, filled with zeros.
fn entry(area: u8, length: u8, text: &[u8]) -> [u8; 32] {
    let mut entry = [0; 32];
    entry[0] = area;
    entry[1] = length;
    entry[2..2 + text.len()].copy_from_slice(text);
    entry
}

const NO: &[[u8; 2]] = &[];
const NO_LABELS: &[[u8; 32]] = &[];

const SESSION: &[[u8; 4]] = &[
    [1, 0, 1, 0],
    [1, 0, 2, 0],
    [5, 0, 1, 2],
    [5, 0, 0, 2],
    [7, 0, 1, 9],
    [9, 0, 0, 9],
    [11, 0, 1, 9],
    [9, 0, 0, 9],
    [12, 0, 1, 9],
    [3, 0, 0, 4],
    [10, 4, 0, 9],
    [6, 4, 0, 2],
];

// The state and its record

#[test]
fn founding_state_is_sound_and_user_0_owns_area_0() {
    let f = State::founding();
    assert!(f.is_sound());
    assert_eq!((f.users.len(), f.areas.len(), f.objects.len()), (1, 1, 0));
    assert_eq!(f.owners, BTreeSet::from([(0, 0)]));
    assert!(f.definitions.is_empty() && f.structure.is_empty() && f.imports.is_empty() && f.exports.is_empty());
}

#[test]
fn founding_record_has_three_bits_set() {
    let mut record = vec![0; 1040];
    record[0] = 1; // user 0
    record[4] = 1; // area 0
    record[4 + 4 + 8] = 1; // owner pair (0, 0)
    assert_eq!(RECORD_BYTES, 1040);
    assert_eq!(to_record(&State::founding()), record);
    assert_eq!(from_record(&record), Some(State::founding()));
}

/// User 31, area 31, object 63, and the last pair of each relation.
fn last_of_all() -> State {
    State {
        users: BTreeSet::from([31]),
        areas: BTreeSet::from([31]),
        objects: BTreeSet::from([63]),
        owners: BTreeSet::from([(31, 31)]),
        definitions: BTreeSet::from([(63, 31)]),
        structure: BTreeSet::from([(31, 31)]),
        imports: BTreeSet::from([(63, 31)]),
        exports: BTreeSet::from([(63, 31)]),
    }
}

#[test]
fn last_of_all_is_unsound_by_its_own_import() {
    let last = last_of_all();
    assert!(!last.is_sound());
    let without_import = State {
        imports: BTreeSet::new(),
        ..last
    };
    assert!(without_import.is_sound());
}

#[test]
fn point_11_rows_are_in_the_order_of_the_relations() {
    let mut record = vec![0; 1040];
    for byte in [3, 7, 15, 143, 399, 527, 783, 1039] {
        record[byte] = 128;
    }
    assert_eq!(to_record(&last_of_all()), record);
    assert_eq!(from_record(&record), Some(last_of_all()));
}

/// A row is four bytes, low byte first, and the lowest number is the lowest bit.
#[test]
fn point_11_places_by_hand() {
    let state = State {
        users: BTreeSet::from([7, 8]),
        areas: BTreeSet::from([0, 17]),
        objects: BTreeSet::from([31, 32, 33]),
        owners: BTreeSet::from([(1, 9)]),
        definitions: BTreeSet::from([(33, 30)]),
        structure: BTreeSet::from([(3, 4), (4, 3)]),
        imports: BTreeSet::from([(9, 2), (9, 10)]),
        exports: BTreeSet::from([(62, 16)]),
    };
    let mut record = vec![0; 1040];
    record[0] = 128; // user 7
    record[1] = 1; // user 8
    record[4] = 1; // area 0
    record[6] = 2; // area 17
    record[11] = 128; // object 31
    record[12] = 1 + 2; // objects 32 and 33, in the second row
    record[16 + 4 + 1] = 2; // user 1 owns area 9
    record[144 + 33 * 4 + 3] = 64; // object 33 is defined in area 30
    record[400 + 3 * 4] = 16; // area 3 lies in area 4
    record[400 + 4 * 4] = 8; // area 4 lies in area 3
    record[528 + 9 * 4] = 4; // area 2 imports object 9
    record[528 + 9 * 4 + 1] = 4; // area 10 too
    record[784 + 62 * 4 + 2] = 1; // area 16 exports object 62
    assert_eq!(to_record(&state), record);
    assert_eq!(from_record(&record), Some(state));
}

#[test]
fn old_record_places_are_in_the_order_of_the_relations() {
    let mut founding = vec![0; 8320];
    founding[0] = 1; // user 0
    founding[32] = 1; // area 0
    founding[32 + 32 + 64] = 1; // owner pair (0, 0)
    assert_eq!(OLD_RECORD_BYTES, 8320);
    assert_eq!(to_old_record(&State::founding()), founding);
    assert_eq!(from_old_record(&founding), Some(State::founding()));
    let mut last = vec![0; 8320];
    for place in [31, 63, 127, 1151, 3199, 4223, 6271, 8319] {
        last[place] = 1;
    }
    assert_eq!(to_old_record(&last_of_all()), last);
    assert_eq!(from_old_record(&last), Some(last_of_all()));
    let mut pair = vec![0; 8320];
    pair[4224 + 9 * 32 + 2] = 1; // import of object 9 by area 2
    pair[3200 + 3 * 32 + 4] = 1; // area 3 in area 4
    let state = from_old_record(&pair).expect("an old record of an unsound state");
    assert_eq!(
        (state.imports, state.structure),
        (BTreeSet::from([(9, 2)]), BTreeSet::from([(3, 4)]))
    );
}

/// Asserts that both records stand for the state, and that the new one has the places of the old, eight to a byte.
fn has_both_records(state: &State) {
    let (old, new) = (to_old_record(state), to_record(state));
    assert_eq!(from_old_record(&old).as_ref(), Some(state));
    assert_eq!(from_record(&new).as_ref(), Some(state));
    assert_eq!(eight_to_a_byte(&old), new);
}

/// Document 02, point 11: "old and new records stand for the same sound states one to one", here for one place each,
/// for the small sound states, and for all places at once.
#[test]
fn point_11_old_and_new_records_stand_for_the_same_states() {
    for place in 0..8320 {
        let mut old = vec![0; 8320];
        old[place] = 1;
        has_both_records(&from_old_record(&old).expect("an old record"));
    }
    small_states().iter().for_each(has_both_records);
    has_both_records(&everything());
    assert_eq!(from_old_record(&[1; 8320]), from_record(&[255; 1040]));
}

#[test]
fn point_11_eight_places_are_one_byte_lowest_first() {
    assert_eq!(eight_to_a_byte(&[1, 0, 0, 0, 0, 0, 0, 0]), [1]);
    assert_eq!(eight_to_a_byte(&[0, 1, 1, 0, 0, 0, 0, 1, 0, 0, 0, 1, 0, 0, 0, 0]), [2 + 4 + 128, 8]);
}

/// Every byte string of 1,040 bytes is the record of one state: reading and writing gives it again.
#[test]
fn point_11_every_byte_string_of_the_length_is_a_record() {
    for round in 0..256 {
        let record: Vec<u8> = (0..1040_usize).map(|byte| (byte * byte / 3 + byte * round + round) as u8).collect();
        let state = from_record(&record).expect("a record");
        assert_eq!(to_record(&state), record);
        assert_eq!(step_record(&record, [0, 255, 255, 255]), Err(12));
    }
}

/// Byte strings of other lengths, one of them the old record of the founding state.
fn no_records() -> [Vec<u8>; 5] {
    let record = to_record(&State::founding());
    let longer = [record.clone(), vec![0]].concat();
    let shorter = record[..1039].to_vec();
    [vec![], shorter, longer, record.repeat(8), to_old_record(&State::founding())]
}

#[test]
fn malformed_record_is_12() {
    for bad in no_records() {
        assert_eq!(from_record(&bad), None);
        assert_eq!(step_record(&bad, [1, 0, 1, 0]), Err(12));
    }
}

#[test]
fn malformed_old_record_is_none() {
    let old = to_old_record(&State::founding());
    for bad in [&old[..8319], &[old.clone(), vec![0]].concat(), &[], &to_record(&State::founding())] {
        assert_eq!(from_old_record(bad), None);
    }
    let mut two = old;
    two[5000] = 2;
    assert_eq!(from_old_record(&two), None);
}

#[test]
fn each_part_of_soundness_by_itself() {
    let f = State::founding();
    let sound = from_f(&[[1, 0, 1, 0], [7, 0, 0, 9]]);
    assert!(sound.is_sound());
    let nothing = State {
        users: BTreeSet::new(),
        areas: BTreeSet::new(),
        owners: BTreeSet::new(),
        ..f.clone()
    };
    assert!(!nothing.is_sound(), "has at least one area");
    let unsound: [(&str, State); 11] = [
        (
            "owner pair of an unlisted user",
            State {
                owners: BTreeSet::from([(0, 0), (4, 0)]),
                ..f.clone()
            },
        ),
        (
            "owner pair of an unlisted area",
            State {
                owners: BTreeSet::from([(0, 0), (0, 4)]),
                ..f.clone()
            },
        ),
        (
            "structure pair of an unlisted area",
            State {
                structure: BTreeSet::from([(0, 4)]),
                ..f.clone()
            },
        ),
        (
            "definition of an unlisted object",
            State {
                definitions: BTreeSet::from([(9, 0)]),
                ..f.clone()
            },
        ),
        (
            "a listed user owns nothing",
            State {
                users: BTreeSet::from([0, 4]),
                ..f.clone()
            },
        ),
        (
            "a listed area has no owner",
            State {
                areas: BTreeSet::from([0, 3]),
                ..f.clone()
            },
        ),
        (
            "a listed object is defined nowhere",
            State {
                objects: BTreeSet::from([9]),
                ..f.clone()
            },
        ),
        (
            "an object is defined twice",
            State {
                definitions: BTreeSet::from([(9, 0), (9, 1)]),
                ..sound.clone()
            },
        ),
        (
            "an import without access",
            State {
                imports: BTreeSet::from([(9, 1)]),
                ..sound.clone()
            },
        ),
        (
            "an export without access",
            State {
                exports: BTreeSet::from([(9, 1)]),
                ..sound.clone()
            },
        ),
        (
            "an import by the defining area, which has access: valid, and unsound by point 4 of document 02",
            State {
                imports: BTreeSet::from([(9, 0)]),
                ..sound.clone()
            },
        ),
    ];
    for (what, state) in unsound {
        assert!(!state.is_sound(), "{what}");
        assert_eq!(step(&state, [1, 0, 1, 0]), Err(12), "{what}");
        assert_eq!(step_record(&to_record(&state), [13, 99, 99, 99]), Err(12), "{what}");
    }
}

// Refusals of an instruction

#[test]
fn example_of_refusal_12() {
    let state = State {
        areas: BTreeSet::from([0, 3]),
        ..State::founding()
    };
    assert_eq!(step(&state, [1, 0, 1, 0]), Err(12));
    assert_eq!(step_record(&to_record(&state), [1, 0, 1, 0]), Err(12));
    assert_eq!(access(&state, 0, 64), Err(12));
}

#[test]
fn examples_of_refusals_1_to_10() {
    refused(&[], [13, 0, 0, 0], 1);
    refused(&[], [7, 0, 0, 64], 2);
    refused(&[], [1, 5, 1, 0], 3);
    refused(&[], [7, 0, 6, 0], 4);
    refused(&[[1, 0, 1, 0], [3, 0, 0, 4]], [7, 4, 1, 9], 5);
    refused(&[], [1, 0, 0, 0], 6);
    refused(&[[7, 0, 0, 9]], [10, 0, 0, 9], 7);
    refused(&[], [4, 0, 0, 0], 8);
    refused(&[[1, 0, 1, 0], [7, 0, 1, 9]], [2, 0, 1, 0], 9);
    refused(&[[1, 0, 1, 0], [7, 0, 0, 9]], [9, 0, 1, 9], 10);
}

#[test]
fn example_of_refusal_11() {
    let state = run(&State::founding(), &SESSION[..8]);
    assert_eq!(step(&state, SESSION[8]), Err(11));
}

#[test]
fn example_of_refusal_13() {
    assert_eq!(transcript(b"1 0 1\n"), b"1 13\nstate 1 1 0 1 0 0 0\n");
}

#[test]
fn each_range_of_refusal_2() {
    for instruction in [
        [1, 0, 1, 1],
        [2, 0, 0, 1],
        [1, 0, 32, 0],
        [1, 32, 1, 0],
        [3, 0, 0, 32],
        [4, 0, 0, 32],
        [5, 0, 0, 32],
        [6, 0, 0, 32],
        [5, 0, 32, 0],
        [7, 0, 32, 0],
        [8, 0, 0, 64],
        [9, 0, 0, 64],
        [10, 0, 0, 64],
        [11, 0, 0, 64],
        [12, 0, 0, 64],
        [12, 255, 255, 255],
    ] {
        refused(&[], instruction, 2);
    }
    refused(&[], [9, 0, 0, 63], 4);
    refused(&[], [5, 0, 0, 31], 4);
    refused(&[], [1, 31, 1, 0], 3);
}

#[test]
fn each_lookup_of_refusal_4() {
    for code in 2..=12 {
        refused(&[], [code, 0, 6, 0], 4);
    }
    refused(&[], [4, 0, 0, 5], 4);
    refused(&[], [5, 0, 0, 1], 4);
    refused(&[], [6, 0, 0, 1], 4);
    for code in 8..=12 {
        refused(&[], [code, 0, 0, 9], 4);
    }
}

#[test]
fn each_ownership_of_refusal_5() {
    let start = [[1, 0, 1, 0], [3, 0, 0, 4], [7, 0, 0, 9]];
    for instruction in [
        [2, 4, 1, 0],
        [3, 4, 1, 4],
        [4, 4, 1, 0],
        [7, 4, 1, 9],
        [8, 4, 1, 9],
        [9, 4, 1, 9],
        [10, 4, 1, 9],
        [11, 4, 1, 9],
        [12, 4, 1, 9],
    ] {
        refused(&start, instruction, 5);
    }
    refused(&start, [5, 4, 0, 1], 5);
    refused(&start, [5, 4, 1, 0], 5);
    refused(&start, [5, 4, 1, 1], 5);
    refused(&start, [6, 4, 0, 1], 7); // either is enough
    refused(&start, [6, 4, 1, 0], 7);
    refused(&start, [6, 4, 1, 1], 5);
    accepted(&start, [5, 4, 0, 0]);
    accepted(&start, [1, 4, 2, 0]); // code 1 needs nothing
}

#[test]
fn each_add_of_refusal_6_and_remove_of_refusal_7() {
    let start = [[1, 0, 1, 0], [7, 0, 0, 9], [5, 0, 1, 0], [9, 0, 1, 9], [11, 0, 0, 9]];
    for instruction in [
        [1, 0, 1, 0],
        [3, 0, 0, 0],
        [5, 0, 1, 0],
        [7, 0, 0, 9],
        [7, 0, 1, 9],
        [9, 0, 1, 9],
        [11, 0, 0, 9],
    ] {
        refused(&start, instruction, 6);
    }
    for instruction in [[6, 0, 0, 1], [8, 0, 1, 9], [10, 0, 0, 9], [12, 0, 1, 9]] {
        refused(&start, instruction, 7);
    }
}

#[test]
fn each_use_of_refusal_9() {
    let start = [[1, 0, 1, 0]];
    assert_eq!(accepted(&start, [2, 0, 1, 0]), State::founding());
    for uses in [
        vec![[3, 0, 1, 4]],
        vec![[7, 0, 1, 9]],
        vec![[5, 0, 1, 0]],
        vec![[5, 0, 0, 1]],
        vec![[5, 0, 1, 1]],
        vec![[7, 0, 0, 9], [5, 0, 1, 0], [9, 0, 1, 9]],
        vec![[7, 0, 0, 9], [5, 0, 0, 1], [11, 0, 0, 9], [11, 0, 1, 9]],
    ] {
        refused(&[&start[..], &uses].concat(), [2, 0, 1, 0], 9);
    }
}

#[test]
fn adds_and_removes_give_the_state_they_say() {
    let one = accepted(&[], [1, 0, 1, 0]);
    assert_eq!((one.areas, one.owners), (BTreeSet::from([0, 1]), BTreeSet::from([(0, 0), (0, 1)])));
    let owner = accepted(&[], [3, 0, 0, 4]);
    assert_eq!(
        (owner.users, owner.owners),
        (BTreeSet::from([0, 4]), BTreeSet::from([(0, 0), (4, 0)]))
    );
    let pair = accepted(&[[1, 0, 1, 0]], [5, 0, 1, 0]);
    assert_eq!(pair.structure, BTreeSet::from([(1, 0)]));
    let object = accepted(&[], [7, 0, 0, 9]);
    assert_eq!(
        (object.objects, object.definitions),
        (BTreeSet::from([9]), BTreeSet::from([(9, 0)]))
    );
    let start: &[[u8; 4]] = &[[1, 0, 1, 0], [5, 0, 1, 0], [7, 0, 0, 9]]; // area 1 in area 0, 9 in 0
    assert_eq!(accepted(start, [9, 0, 1, 9]).imports, BTreeSet::from([(9, 1)]));
    assert_eq!(accepted(start, [11, 0, 0, 9]).exports, BTreeSet::from([(9, 0)]));
    // each add taken back by its remove
    for (add, remove) in [
        ([1, 0, 2, 0], [2, 0, 2, 0]),
        ([3, 0, 1, 4], [4, 0, 1, 4]),
        ([5, 0, 0, 1], [6, 0, 0, 1]),
        ([7, 0, 1, 8], [8, 0, 1, 8]),
        ([9, 0, 1, 9], [10, 0, 1, 9]),
        ([11, 0, 0, 9], [12, 0, 0, 9]),
    ] {
        assert_eq!(accepted(&[start, &[add]].concat(), remove), from_f(start));
    }
}

#[test]
fn freed_numbers_may_be_listed_again() {
    accepted(&[[1, 0, 1, 0], [2, 0, 1, 0]], [1, 0, 1, 0]);
    accepted(&[[3, 0, 0, 4], [4, 0, 0, 4]], [3, 0, 0, 4]);
    let moved = accepted(&[[1, 0, 1, 0], [7, 0, 0, 9], [8, 0, 0, 9]], [7, 0, 1, 9]);
    assert_eq!(moved.definitions, BTreeSet::from([(9, 1)]));
}

#[test]
fn user_is_unlisted_at_the_last_lost_ownership_only() {
    let start = [[1, 0, 1, 0], [3, 0, 0, 4], [3, 0, 1, 4]];
    assert_eq!(accepted(&start, [4, 0, 0, 4]).users, BTreeSet::from([0, 4]));
    assert_eq!(
        accepted(&[&start[..], &[[4, 0, 0, 4]]].concat(), [4, 0, 1, 4]).users,
        BTreeSet::from([0])
    );
}

// The access question

#[test]
fn answer_after_line_8_of_the_session_is_2() {
    let state = run(&State::founding(), &SESSION[..8]);
    assert_eq!(access(&state, 0, 9), Ok(Some(2)));
    assert_eq!(access(&state, 2, 9), Ok(Some(1))); // with no entry of its own
    assert_eq!(access(&state, 1, 9), Ok(Some(0)));
    let end = run(&state, &SESSION[8..]);
    assert_eq!(access(&end, 0, 9), Ok(None));
}

#[test]
fn refusals_of_the_access_question() {
    let state = from_f(&[[7, 0, 0, 9]]);
    assert_eq!(access(&state, 32, 9), Err(2));
    assert_eq!(access(&state, 0, 64), Err(2));
    assert_eq!(access(&state, 31, 64), Err(2));
    assert_eq!(access(&state, 31, 9), Err(4));
    assert_eq!(access(&state, 0, 63), Err(4));
    assert_eq!(access(&state, 0, 9), Ok(Some(0)));
}

/// "a user or area above 31, an object above 63": none is too large to be refused, nor taken for its low bits.
#[test]
fn numbers_above_255_are_2() {
    let state = from_f(&[[7, 0, 0, 9]]);
    for above in [256, 65_536, 1 << 24, 1 << 31, u32::MAX - 255] {
        assert_eq!(access(&state, above, 9), Err(2));
        assert_eq!(access(&state, 0, above + 9), Err(2));
        assert_eq!(access(&state, above, above + 9), Err(2));
        assert_eq!(access(&state, above, 8), Err(2)); // 4 would hold too
        assert_eq!(access(&state, 1, above + 9), Err(2));
    }
    assert_eq!(access(&state, u32::MAX, u32::MAX), Err(2));
}

#[test]
fn export_goes_outwards_and_import_inwards() {
    let inner_outer = [[1, 0, 1, 0], [5, 0, 0, 1], [7, 0, 0, 9], [7, 0, 1, 8]]; // area 0 in area 1, 9 in 0, 8 in 1
    assert_eq!(access(&accepted(&inner_outer, [11, 0, 0, 9]), 1, 9), Ok(Some(1)));
    assert_eq!(access(&accepted(&inner_outer, [9, 0, 0, 8]), 0, 8), Ok(Some(1)));
    assert_eq!(access(&accepted(&inner_outer, [11, 0, 1, 8]), 0, 8), Ok(None)); // an export by the outer goes nowhere
    refused(&inner_outer, [9, 0, 1, 9], 10); // an import by the outer brings nothing
}

/// The least chain length by the definition of a step alone, however long it is.
fn least_chain(state: &State, area: u8, object: u8) -> Option<u8> {
    least_chains(state, object).get(&area).copied()
}

/// The same for each area to which a chain leads: no search, but every pair of areas tried until nothing changes, and no limit.
fn least_chains(state: &State, object: u8) -> BTreeMap<u8, u8> {
    let is_step = |s: u8, r: u8| {
        let export = state.exports.contains(&(object, s)) && state.structure.contains(&(s, r));
        let import = state.imports.contains(&(object, r)) && state.structure.contains(&(r, s));
        export || import
    };
    let mut least: BTreeMap<u8, u8> = state
        .areas
        .iter()
        .filter(|&&at| state.definitions.contains(&(object, at)))
        .map(|&at| (at, 0))
        .collect();
    loop {
        let known = least.clone();
        for (&s, &steps) in &known {
            for &r in state.areas.iter().filter(|&&r| is_step(s, r)) {
                let best = least.get(&r).map_or(steps + 1, |&other| other.min(steps + 1));
                least.insert(r, best);
            }
        }
        if least == known {
            return least;
        }
    }
}

#[test]
fn answers_are_the_least_chains_of_the_definition() {
    for state in small_states().iter().filter(|state| !state.objects.is_empty()) {
        for &area in &state.areas {
            assert_eq!(access(state, area.into(), 0), Ok(least_chain(state, area, 0)));
        }
    }
    // six areas of user 0, two objects, and adds and removes of pairs in a fixed disorder
    let mut state = from_f(&[
        [1, 0, 1, 0],
        [1, 0, 2, 0],
        [1, 0, 3, 0],
        [1, 0, 4, 0],
        [1, 0, 5, 0],
        [7, 0, 2, 0],
        [7, 0, 4, 1],
    ]);
    let mut number: u32 = 1;
    for _ in 0..3000 {
        number = number.wrapping_mul(1_664_525).wrapping_add(1_013_904_223);
        let [_, low, middle, high] = number.to_le_bytes();
        let code = [5, 5, 9, 9, 11, 11, 6, 10, 12][usize::from(high) % 9];
        let b = if code < 7 { middle % 6 } else { middle % 2 };
        state = run(&state, &[[code, 0, low % 6, b]]);
        let object = middle % 2;
        for area in 0..6 {
            assert_eq!(access(&state, area.into(), object.into()), Ok(least_chain(&state, area, object)));
        }
    }
    assert!(state.structure.len() > 5 && state.imports.len() + state.exports.len() > 5);
}

#[test]
fn lowest_mark_of_every_byte() {
    assert_eq!(lowest_mark(0), 8);
    for (marks, place) in [
        (1, 0),
        (2, 1),
        (4, 2),
        (8, 3),
        (16, 4),
        (32, 5),
        (64, 6),
        (128, 7),
        (255, 0),
        (254, 1),
        (160, 5),
        (12, 2),
    ] {
        assert_eq!(lowest_mark(marks), place);
    }
    for marks in 1..=u8::MAX {
        let place = lowest_mark(marks);
        assert_eq!(marks % (1 << place), 0);
        assert_eq!((marks >> place) % 2, 1);
    }
}

// docs/READINGS.md, 1 to 7

#[test]
fn reading_1_order_of_checks() {
    refused(&[], [1, 32, 1, 0], 2); // an activator above 31 is 2 and not 3
    refused(&[], [1, 255, 1, 0], 2);
    refused(&[], [0, 255, 255, 255], 1);
    refused(&[], [13, 255, 255, 255], 1);
    refused(&[], [255, 255, 255, 255], 1);
    refused(&[], [7, 5, 6, 64], 2); // 2 before 3 and 4
    refused(&[], [7, 5, 6, 0], 3); // 3 before 4
    refused(&[[1, 0, 1, 0], [3, 0, 0, 4]], [9, 4, 1, 9], 4); // 4 before 5
    refused(&[[1, 0, 1, 0], [3, 0, 0, 4], [7, 0, 1, 9]], [7, 4, 1, 9], 5); // 5 before 6
}

#[test]
fn reading_2_code_4() {
    let start = [[1, 0, 1, 0], [3, 0, 0, 4]]; // 0 owns 0 and 1, 4 owns 0
    refused(&start, [4, 4, 1, 5], 4); // unlisted b
    refused(&start, [4, 4, 1, 4], 5); // then an activator who does not own a
    refused(&start, [4, 0, 1, 4], 7); // a listed b that does not own a
    refused(&start, [4, 0, 1, 0], 8); // the sole owner
    let stays = accepted(&start, [4, 0, 0, 0]); // an owner removes himself where another stays
    assert_eq!(
        (stays.users, stays.owners),
        (BTreeSet::from([0, 4]), BTreeSet::from([(0, 1), (4, 0)]))
    );
    let gone = accepted(&[[3, 0, 0, 4]], [4, 0, 0, 0]); // and is unlisted if that was his last area
    assert_eq!((gone.users, gone.owners), (BTreeSet::from([4]), BTreeSet::from([(4, 0)])));
}

#[test]
fn reading_3_code_2() {
    refused(&[], [2, 0, 0, 0], 8);
    refused(&[[7, 0, 0, 9], [3, 0, 0, 4]], [2, 0, 0, 0], 8); // before 9
    let shared = [[1, 0, 1, 0], [3, 0, 1, 4]];
    refused(&shared, [2, 0, 1, 0], 9); // another owner is one other than the activator
    refused(&shared, [2, 4, 1, 0], 9);
    refused(&[[1, 0, 1, 0], [5, 0, 1, 1]], [2, 0, 1, 0], 9); // a pair (a, a) counts
    let unlisted = accepted(&[[3, 0, 0, 4], [1, 4, 1, 0], [4, 0, 0, 4]], [2, 4, 1, 0]);
    assert_eq!(unlisted, State::founding()); // the activator owns nothing afterwards
    let stays = accepted(&[[3, 0, 0, 4], [1, 4, 1, 0]], [2, 4, 1, 0]);
    assert_eq!(stays.users, BTreeSet::from([0, 4]));
}

#[test]
fn reading_4_codes_6_and_8() {
    let itself = [[1, 0, 1, 0], [5, 0, 1, 1], [3, 0, 0, 4]];
    refused(&itself, [6, 4, 1, 1], 5);
    assert!(accepted(&itself, [6, 0, 1, 1]).structure.is_empty());
    let elsewhere = [[1, 0, 1, 0], [7, 0, 0, 9]];
    refused(&elsewhere, [8, 0, 1, 9], 7);
    refused(&[[7, 0, 0, 9], [11, 0, 0, 9]], [8, 0, 0, 9], 11); // its own export; an own import can't be there (point 4)
    refused(&[&elsewhere[..], &[[5, 0, 1, 0], [9, 0, 1, 9]]].concat(), [8, 0, 0, 9], 11); // another area's import
    accepted(&elsewhere, [8, 0, 0, 9]);
}

#[test]
fn reading_5_import_with_no_outer_area() {
    let reached = [[1, 0, 1, 0], [5, 0, 1, 0], [7, 0, 1, 9], [11, 0, 1, 9]];
    let state = accepted(&reached, [9, 0, 0, 9]);
    assert_eq!(access(&state, 0, 9), Ok(Some(1)));
    assert_eq!(state.imports, BTreeSet::from([(9, 0)]));
}

#[test]
fn reading_6_cycles_do_not_vouch() {
    let cycle = [[1, 0, 1, 0], [1, 0, 2, 0], [7, 0, 0, 9], [5, 0, 1, 2], [5, 0, 2, 1]];
    refused(&cycle, [9, 0, 1, 9], 10);
    refused(&cycle, [11, 0, 1, 9], 10);
    let mut vouching = from_f(&cycle);
    vouching.imports = BTreeSet::from([(9, 1), (9, 2)]);
    assert!(!vouching.is_sound());
    // the same cycle, reached from the definer and then cut off from it
    let fed = [&cycle[..], &[[5, 0, 1, 0], [9, 0, 1, 9], [9, 0, 2, 9]]].concat();
    refused(&fed, [6, 0, 1, 0], 11);
}

#[test]
fn reading_7_lending_guarantee() {
    let f = State::founding();
    let list = [[1, 0, 1, 0]];
    assert!(lending_guarantee(&f, &list, &run(&f, &list), 1).is_err()); // an unlisted area: the claim is false
                                                                        // area 1 of user 4 imports object 9 from area 0 of user 0
    let start = from_f(&[[3, 0, 0, 4], [1, 4, 1, 0], [5, 4, 1, 0], [4, 4, 0, 4], [7, 0, 0, 9], [9, 4, 1, 9]]);
    let attack: Vec<[u8; 4]> = vec![
        [6, 0, 1, 0],
        [8, 0, 0, 9],
        [10, 0, 1, 9],
        [4, 0, 1, 4],
        [2, 0, 1, 0],
        [11, 0, 0, 9],
        [99, 1, 2, 3],
    ];
    let after = run(&start, &attack);
    assert_eq!(access(&after, 1, 9), Ok(Some(1)));
    assert_eq!(lending_guarantee(&start, &attack, &after, 1), Ok(()));
    assert_eq!(lending_guarantee(&start, &[], &start, 1), Ok(()));
    // states that break it
    let lost_access = State {
        structure: BTreeSet::new(),
        ..start.clone()
    };
    let lost_import = State {
        imports: BTreeSet::new(),
        ..start.clone()
    };
    let new_owner = State {
        owners: start.owners.iter().copied().chain([(0, 1)]).collect(),
        ..start.clone()
    };
    let new_export = State {
        exports: BTreeSet::from([(9, 1)]),
        ..start.clone()
    };
    for broken in [lost_access, lost_import, new_owner, new_export] {
        assert!(lending_guarantee(&start, &attack, &broken, 1).is_err());
        assert_eq!(lending_guarantee(&start, &[[0, 4, 0, 0]], &broken, 1), Ok(()));
        // an owner activates, refused or not
    }
}

#[test]
fn reading_7_what_the_guarantee_does_not_keep() {
    // area 1 of user 4 has access to 9 by the export of area 0, with no entry of its own; user 0 takes the pair away
    let start = from_f(&[[3, 0, 0, 4], [1, 4, 1, 0], [5, 4, 0, 1], [4, 4, 0, 4], [7, 0, 0, 9], [11, 0, 0, 9]]);
    assert_eq!(access(&start, 1, 9), Ok(Some(1)));
    let list = [[6, 0, 0, 1]];
    let after = run(&start, &list);
    assert!(after.structure.is_empty());
    assert_eq!(access(&after, 1, 9), Ok(None));
    assert_eq!(lending_guarantee(&start, &list, &after, 1), Ok(()));
    // and the other way: by the export of user 0 access is gained
    let bare = from_f(&[[3, 0, 0, 4], [1, 4, 1, 0], [5, 4, 0, 1], [4, 4, 0, 4], [7, 0, 0, 9]]);
    assert_eq!(access(&bare, 1, 9), Ok(None));
    assert_eq!(run(&bare, &[[11, 0, 0, 9]]), start);
    assert_eq!(lending_guarantee(&bare, &[[11, 0, 0, 9]], &start, 1), Ok(()));
}

// The site file

/// F as a site file, byte by byte.
const FOUNDING_FILE: [u8; 30] = [
    1, 0, 30, 0, 1, 0, 0, 0, 0, 0, 0, 0, 0, 0, 0, 0, 28, 0, 30, 0, 30, 0, 30, 0, 30, 0, 30, 0, 0, 0,
];

#[test]
fn founding_file_by_hand() {
    assert_eq!(file(&[[0, 0]], NO, NO, NO, NO, NO_LABELS), FOUNDING_FILE);
    assert_eq!(read_file(&FOUNDING_FILE), Ok((State::founding(), BTreeMap::new())));
    assert_eq!(write_file(&State::founding(), &BTreeMap::new()), FOUNDING_FILE);
}

#[test]
fn file_after_line_8_of_the_session_by_hand() {
    let expected = file(
        &[[0, 0], [0, 1], [0, 2]],
        &[[9, 1]],
        &[[0, 2], [1, 2]],
        &[[9, 0]],
        &[[9, 1]],
        &[entry(2, 4, b"LOOP")],
    );
    let state = run(&State::founding(), &SESSION[..8]);
    let labels = BTreeMap::from([(2, b"LOOP".to_vec())]);
    assert_eq!(expected.len(), 28 + 6 + 2 + 4 + 2 + 2 + 32);
    assert_eq!(write_file(&state, &labels), expected);
    assert_eq!(read_file(&expected), Ok((state, labels)));
}

#[test]
fn examples_of_reader_refusals_21_to_25() {
    assert_eq!(read_file(&[]), Err(21));
    assert_eq!(read_file(&FOUNDING_FILE[..27]), Err(21));
    let mut version_0 = FOUNDING_FILE;
    version_0[0] = 0;
    assert_eq!(read_file(&version_0), Err(22));
    let mut version_257 = FOUNDING_FILE;
    version_257[1] = 1;
    assert_eq!(read_file(&version_257), Err(22));
    let mut stated_28 = FOUNDING_FILE;
    stated_28[2] = 28;
    assert_eq!(read_file(&stated_28), Err(23));
    let mut definitions_65 = FOUNDING_FILE;
    definitions_65[6] = 65;
    assert_eq!(read_file(&definitions_65), Err(24));
    let mut owners_at_29 = FOUNDING_FILE;
    owners_at_29[16] = 29;
    assert_eq!(read_file(&owners_at_29), Err(25));
}

#[test]
fn every_count_limit_and_offset() {
    for (table, limit) in [1024_u16, 64, 1024, 2048, 2048, 32].into_iter().enumerate() {
        let mut bytes = FOUNDING_FILE;
        bytes[4 + 2 * table..6 + 2 * table].copy_from_slice(&(limit + 1).to_le_bytes());
        assert_eq!(read_file(&bytes), Err(24));
        bytes[4 + 2 * table..6 + 2 * table].copy_from_slice(&limit.to_le_bytes());
        assert_eq!(read_file(&bytes), Err(25)); // the tables then stand elsewhere, or the end does
    }
    for table in 0..6 {
        for wrong in [0, 27, 31, 255] {
            let mut bytes = FOUNDING_FILE;
            bytes[16 + 2 * table] = wrong;
            assert_eq!(read_file(&bytes), Err(25));
            let mut high = FOUNDING_FILE;
            high[17 + 2 * table] = 1;
            assert_eq!(read_file(&high), Err(25));
        }
    }
    let mut longer = FOUNDING_FILE.to_vec();
    longer.extend([0, 0]);
    longer[2] = 32;
    assert_eq!(read_file(&longer), Err(25)); // the end
}

#[test]
fn examples_of_reader_refusals_26_to_29() {
    assert_eq!(read_file(&file(&[[0, 0], [0, 32]], NO, NO, NO, NO, NO_LABELS)), Err(26));
    assert_eq!(read_file(&file(&[[0, 0], [0, 0]], NO, NO, NO, NO, NO_LABELS)), Err(27));
    assert_eq!(read_file(&file(&[[0, 0]], NO, NO, NO, NO, &[entry(5, 1, b"x")])), Err(28));
    assert_eq!(
        read_file(&file(&[[0, 0], [0, 1]], &[[9, 0]], NO, &[[9, 1]], NO, NO_LABELS)),
        Err(29)
    );
}

#[test]
fn every_table_can_be_out_of_range() {
    let owner = &[[0, 0]];
    for wrong in [[32, 0], [0, 32], [255, 0], [0, 255]] {
        assert_eq!(read_file(&file(&[wrong], NO, NO, NO, NO, NO_LABELS)), Err(26));
        assert_eq!(read_file(&file(owner, NO, &[wrong], NO, NO, NO_LABELS)), Err(26));
    }
    for wrong in [[64, 0], [0, 32], [255, 0], [0, 255]] {
        assert_eq!(read_file(&file(owner, &[wrong], NO, NO, NO, NO_LABELS)), Err(26));
        assert_eq!(read_file(&file(owner, NO, NO, &[wrong], NO, NO_LABELS)), Err(26));
        assert_eq!(read_file(&file(owner, NO, NO, NO, &[wrong], NO_LABELS)), Err(26));
    }
}

#[test]
fn every_table_is_strictly_ascending() {
    let two = &[[0, 0], [0, 1]];
    let backwards = &[[0, 1], [0, 0]];
    let twice = &[[0, 0], [0, 0]];
    let first_backwards = &[[1, 0], [0, 1]];
    for wrong in [backwards, twice, first_backwards] {
        assert_eq!(read_file(&file(wrong, NO, NO, NO, NO, NO_LABELS)), Err(27));
        assert_eq!(read_file(&file(two, wrong, NO, NO, NO, NO_LABELS)), Err(27));
        assert_eq!(read_file(&file(two, NO, wrong, NO, NO, NO_LABELS)), Err(27));
        assert_eq!(read_file(&file(two, NO, NO, wrong, NO, NO_LABELS)), Err(27));
        assert_eq!(read_file(&file(two, NO, NO, NO, wrong, NO_LABELS)), Err(27));
    }
    assert_eq!(
        read_file(&file(two, NO, NO, NO, NO, &[entry(1, 1, b"a"), entry(0, 1, b"b")])),
        Err(27)
    );
    assert_eq!(
        read_file(&file(two, NO, NO, NO, NO, &[entry(1, 1, b"a"), entry(1, 1, b"b")])),
        Err(27)
    );
}

#[test]
fn reading_8_lowest_number_over_the_whole_file() {
    // 26 in the last table, 27 in the first
    let wrong_label = &[entry(32, 1, b"x")];
    assert_eq!(read_file(&file(&[[0, 0], [0, 0]], NO, NO, NO, NO, wrong_label)), Err(26));
    // 27 in the labels, 28 in the definitions
    let twice = &[entry(0, 1, b"x"), entry(0, 1, b"x")];
    assert_eq!(read_file(&file(&[[0, 0]], &[[9, 5]], NO, NO, NO, twice)), Err(27));
    // 28 in the labels, 29 in the imports
    let two = &[[0, 0], [0, 1]];
    assert_eq!(read_file(&file(two, &[[9, 0]], NO, &[[9, 1]], NO, &[entry(5, 1, b"x")])), Err(28));
    // no number wraps: 65,536 bytes and more cannot state their own length
    for length in [65_536, 65_536 + 30] {
        let mut long = FOUNDING_FILE.to_vec();
        long.resize(length, 0);
        assert_eq!(read_file(&long), Err(23));
        long[2] = 0;
        assert_eq!(read_file(&long), Err(23));
        long[0] = 0;
        assert_eq!(read_file(&long), Err(22));
    }
}

/// Every pair of a number below `rows` and an area.
fn all(rows: u8) -> BTreeSet<(u8, u8)> {
    (0..rows).flat_map(|first| (0..32).map(move |area| (first, area))).collect()
}

/// Everything listed, and every pair of every relation, with each object defined in one area: unsound by its own imports alone.
fn everything() -> State {
    State {
        users: (0..32).collect(),
        areas: (0..32).collect(),
        objects: (0..64).collect(),
        owners: all(32),
        definitions: (0..64).map(|object| (object, object % 32)).collect(),
        structure: all(32),
        imports: all(64),
        exports: all(64),
    }
}

/// Of the 2,048 imports one of each object is its definer's: 64 entries of two bytes less than the counts allow, 13,468 - 128.
#[test]
fn reading_8_largest_accepted_file_has_13340_bytes() {
    let mut full = everything();
    full.imports.retain(|&(object, area)| area != object % 32);
    let labels: Labels = (0..32).map(|area| (area, vec![b'~'; 30])).collect();
    let bytes = write_file(&full, &labels);
    assert!(full.is_sound());
    assert_eq!(full.imports.len(), 1984);
    assert_eq!(bytes.len(), 13_340);
    assert_eq!(read_file(&bytes), Ok((full.clone(), labels)));
    assert_eq!(label(&bytes, 31), (13_340 - 30, 30));
    assert_eq!(from_record(&to_record(&full)), Some(full));
}

#[test]
fn reading_9_what_26_covers_of_a_label() {
    let with = |entry: [u8; 32]| read_file(&file(&[[0, 0]], NO, NO, NO, NO, &[entry])).map(|(_, labels)| labels);
    for wrong in [
        entry(32, 1, b"x"),
        entry(0, 0, b""),
        entry(0, 31, &[b'x'; 30]),
        entry(0, 255, &[b'x'; 30]),
        entry(0, 1, &[31]),
        entry(0, 1, &[127]),
        entry(0, 2, b"x"),
        entry(0, 1, b"xy"),
        entry(0, 1, &[b'x', 0, 0, b' ']),
    ] {
        assert_eq!(with(wrong), Err(26));
    }
    assert_eq!(with(entry(0, 2, &[32, 126])), Ok(BTreeMap::from([(0, vec![32, 126])])));
    assert_eq!(with(entry(0, 30, &[b'x'; 30])), Ok(BTreeMap::from([(0, vec![b'x'; 30])])));
}

#[test]
fn reading_9_what_28_covers() {
    let owner = &[[0, 0]];
    let defined = &[[9, 0]];
    assert_eq!(read_file(&file(NO, NO, NO, NO, NO, NO_LABELS)), Err(28)); // no owner pair
    assert_eq!(read_file(&file(owner, &[[9, 1]], NO, NO, NO, NO_LABELS)), Err(28));
    assert_eq!(read_file(&file(owner, NO, &[[0, 1]], NO, NO, NO_LABELS)), Err(28));
    assert_eq!(read_file(&file(owner, NO, &[[1, 0]], NO, NO, NO_LABELS)), Err(28));
    assert_eq!(read_file(&file(owner, defined, NO, &[[9, 1]], NO, NO_LABELS)), Err(28));
    assert_eq!(read_file(&file(owner, defined, NO, NO, &[[9, 1]], NO_LABELS)), Err(28));
    assert_eq!(read_file(&file(owner, defined, NO, &[[8, 0]], NO, NO_LABELS)), Err(28));
    assert_eq!(read_file(&file(owner, defined, NO, NO, &[[8, 0]], NO_LABELS)), Err(28));
    assert_eq!(read_file(&file(owner, NO, NO, NO, NO, &[entry(1, 1, b"x")])), Err(28));
    assert_eq!(
        read_file(&file(&[[0, 0], [0, 1]], &[[9, 0], [9, 1]], NO, NO, NO, NO_LABELS)),
        Err(28)
    ); // defined twice
    assert!(read_file(&file(&[[0, 0], [0, 1]], defined, &[[1, 0]], &[[9, 1]], defined, NO_LABELS)).is_ok());
}

#[test]
fn reading_10_label_finder() {
    let two = &[[0, 0], [0, 1], [0, 3]];
    let bytes = file(two, NO, NO, NO, NO, &[entry(0, 4, b"HALL"), entry(3, 6, b"LOOP 3")]);
    assert_eq!(label(&bytes, 0), (28 + 6 + 2, 4));
    assert_eq!(label(&bytes, 3), (28 + 6 + 32 + 2, 6));
    assert_eq!(&bytes[68..74], b"LOOP 3");
    for area in [
        1,
        2,
        4,
        31,
        32,
        35,
        255,
        256,
        256 + 3,
        65_536,
        65_536 + 3,
        (1 << 31) + 3,
        u32::MAX - 255,
        u32::MAX,
    ] {
        assert_eq!(label(&bytes, area), (0, 0));
    }
    let mut refused = bytes.clone();
    refused[0] = 2;
    assert_eq!(label(&refused, 0), (0, 0));
    assert_eq!(label(&bytes[..20], 0), (0, 0));
    assert_eq!(label(&[], 0), (0, 0));
}

// The program

/// One line for each instruction.
fn lines(list: &[[u8; 4]]) -> Vec<u8> {
    list.iter()
        .flat_map(|[code, activator, a, b]| format!("{code} {activator} {a} {b}\n").into_bytes())
        .collect()
}

#[test]
fn session_with_its_whole_output() {
    let input = b"1 0 1 0\n1 0 2 0\n5 0 1 2\n5 0 0 2\n7 0 1 9\n9 0 0 9\n11 0 1 9\n9 0 0 9\n12 0 1 9\n3 0 0 4\n10 4 0 9\n6 4 0 2\n";
    let output = "1 0\n2 0\n3 0\n4 0\n5 0\n6 10\n7 0\n8 0\n9 11\n10 0\n11 0\n12 0\nstate 2 3 1 4 1 0 1\n";
    assert_eq!(lines(SESSION), input);
    assert_eq!(String::from_utf8(transcript(input)).as_deref(), Ok(output));
}

#[test]
fn empty_input_has_no_line() {
    assert_eq!(transcript(b""), b"state 1 1 0 1 0 0 0\n");
}

#[test]
fn reading_11_unreadable_lines() {
    let unreadable: [&[u8]; 24] = [
        b"\n",
        b"1 0 1 0\r\n",
        b"1\t0 1 0\n",
        b"1  0 1 0\n",
        b" 1 0 1 0\n",
        b"1 0 1 0 \n",
        b"+1 0 1 0\n",
        b"1 -0 1 0\n",
        b"1 00 1 0\n",
        b"01 0 1 0\n",
        b"1 0 01 0\n",
        b"1 0 1 256\n",
        b"1 0 1 1000\n",
        b"1 0 1 99999999999999999999\n",
        b"1 0 1\n",
        b"1 0 1 0 0\n",
        b"1 0 1 x\n",
        b"1 0 1 0",
        b"1",
        b" ",
        b"   \n",
        b"1 0 1 0\0\n",
        b"1,0,1,0\n",
        b"\xff 0 1 0\n",
    ];
    for line in unreadable {
        assert_eq!(
            String::from_utf8(transcript(line)).as_deref(),
            Ok("1 13\nstate 1 1 0 1 0 0 0\n"),
            "{line:?}"
        );
    }
    assert_eq!(transcript(b"255 255 255 255\n"), b"1 1\nstate 1 1 0 1 0 0 0\n");
    assert_eq!(transcript(b"1 0 1 0\n1 0 2 0"), b"1 0\n2 13\nstate 1 2 0 2 0 0 0\n"); // the last is not obeyed
    assert_eq!(transcript(b"1 0 1 0\n\n1 0 2 0\n"), b"1 0\n2 13\n3 0\nstate 1 3 0 3 0 0 0\n");
    assert_eq!(transcript(b"\n\n"), b"1 13\n2 13\nstate 1 1 0 1 0 0 0\n");
}

#[test]
fn reading_11_longest_input() {
    let most = b"1 0 1 0\n".repeat(8192);
    assert_eq!(most.len(), 65_536);
    let output = String::from_utf8(transcript(&most)).expect("text");
    assert!(output.starts_with("1 0\n2 6\n3 6\n"));
    assert!(output.ends_with("\n8192 6\nstate 1 2 0 2 0 0 0\n"));
    assert_eq!(output.lines().count(), 8193);
    assert_eq!(transcript(&[&most[..], b"\n"].concat()), b"too long\n");
    assert_eq!(transcript(&[b'x'; 65_537]), b"too long\n");
    assert_eq!(transcript(&[b'x'; 65_536]), b"1 13\nstate 1 1 0 1 0 0 0\n");
}

// Document 02, point 2: at most eight borders

/// Areas 0 to 31 of user 0 in a row, each in the one before it. Object 9 is defined in area 0 and imported by areas 1 to `last`.
fn row_by_imports(last: u8) -> Vec<[u8; 4]> {
    let mut list = vec![[7, 0, 0, 9]];
    list.extend((1..=31).flat_map(|area| [[1, 0, area, 0], [5, 0, area, area - 1]]));
    list.extend((1..=last).map(|area| [9, 0, area, 9]));
    list
}

/// Areas 0 to 31 of user 0 in a row, each in the one behind it. Object 9 is defined in area 0 and exported by areas 0 to `last`.
fn row_by_exports(last: u8) -> Vec<[u8; 4]> {
    let mut list = vec![[7, 0, 0, 9]];
    list.extend((1..=31).flat_map(|area| [[1, 0, area, 0], [5, 0, area - 1, area]]));
    list.extend((0..=last).map(|area| [11, 0, area, 9]));
    list
}

/// The list with more behind it.
fn and(list: Vec<[u8; 4]>, more: &[[u8; 4]]) -> Vec<[u8; 4]> {
    [&list[..], more].concat()
}

/// The answer for the area and object 9 after the accepted list.
fn answer(list: &[[u8; 4]], area: u32) -> Option<u8> {
    access(&from_f(list), area, 9).expect("an answer")
}

/// Document 02, point 2: "The step answer never passes 8."
#[test]
fn step_answer_is_0_to_8_along_a_row_and_none_behind() {
    for row in [row_by_imports(8), row_by_exports(7), row_by_exports(8)] {
        let state = from_f(&row);
        for (area, steps) in [(0, 0), (1, 1), (2, 2), (3, 3), (4, 4), (5, 5), (6, 6), (7, 7), (8, 8)] {
            assert_eq!(access(&state, area, 9), Ok(Some(steps)));
        }
        for area in 9..=31 {
            assert_eq!(access(&state, area, 9), Ok(None));
        }
    }
    // in turns: from an even area outwards by its export, from an odd one inwards by an import
    let mut turns = vec![[7, 0, 0, 9]];
    turns.extend((1..=10).map(|area| [1, 0, area, 0]));
    for inner in [0, 2, 4, 6, 8] {
        turns.extend([[5, 0, inner, inner + 1], [5, 0, inner + 2, inner + 1]]);
    }
    for (export, import) in [(0, 2), (2, 4), (4, 6), (6, 8)] {
        turns.extend([[11, 0, export, 9], [9, 0, import, 9]]);
    }
    turns.push([11, 0, 8, 9]);
    for (area, steps) in [(1, 1), (2, 2), (3, 3), (4, 4), (5, 5), (6, 6), (7, 7), (8, 8)] {
        assert_eq!(answer(&turns, area), Some(steps));
    }
    assert_eq!(least_chain(&from_f(&turns), 9, 9), Some(9));
    assert_eq!((answer(&turns, 9), answer(&turns, 10)), (None, None));
    refused(&turns, [9, 0, 10, 9], 10);
}

/// Document 02, point 2: "a table may be lent across at most 8 steps", each from the area that defines it.
#[test]
fn reading_12_steps_are_counted_for_each_object_from_its_own_definer() {
    let mut list = and(row_by_imports(8), &[[7, 0, 4, 8]]);
    list.extend((5..=12).map(|area| [9, 0, area, 8]));
    let state = from_f(&list);
    for (area, of_9, of_8) in [
        (3, Some(3), None),
        (4, Some(4), Some(0)),
        (8, Some(8), Some(4)),
        (9, None, Some(5)),
        (12, None, Some(8)),
        (13, None, None),
    ] {
        assert_eq!((access(&state, area, 9), access(&state, area, 8)), (Ok(of_9), Ok(of_8)));
    }
    // the entries of one object are too far off, those of the other are not
    refused(&list, [9, 0, 9, 9], 10);
    refused(&list, [9, 0, 13, 8], 10);
    refused(&list, [10, 0, 7, 9], 11);
    refused(&list, [10, 0, 11, 8], 11);
    is_12_for_all(&with_import(&state, 9));
    let mut of_8_at_13 = state;
    of_8_at_13.imports.insert((8, 13));
    is_12_for_all(&of_8_at_13);
}

/// Reading 12: exactly 8 steps is access and 9 is none. Codes 9 and 11: "in the state it would give, a lacks access to b".
#[test]
fn reading_12_imports_and_exports_at_8_steps_and_at_9() {
    assert_eq!(access(&accepted(&row_by_imports(7), [9, 0, 8, 9]), 8, 9), Ok(Some(8)));
    accepted(&row_by_imports(8), [11, 0, 8, 9]);
    accepted(&row_by_exports(7), [11, 0, 8, 9]);
    accepted(&row_by_exports(7), [9, 0, 8, 9]);
    // the import would make a chain of 9 steps
    let mut would_give = from_f(&row_by_imports(8));
    would_give.imports.insert((9, 9));
    assert_eq!(least_chain(&would_give, 9, 9), Some(9));
    refused(&row_by_imports(8), [9, 0, 9, 9], 10);
    refused(&row_by_imports(8), [11, 0, 9, 9], 10);
    // the export of area 8 has made one
    assert_eq!(least_chain(&from_f(&row_by_exports(8)), 9, 9), Some(9));
    refused(&row_by_exports(8), [11, 0, 9, 9], 10);
    refused(&row_by_exports(8), [9, 0, 9, 9], 10);
    for area in 10..=31 {
        refused(&row_by_imports(8), [9, 0, area, 9], 10);
        refused(&row_by_exports(8), [11, 0, area, 9], 10);
    }
}

/// Reading 12 through the program: 63 lines make the row, and of the nine imports the last needs 9 steps.
#[test]
fn reading_12_ninth_import_of_a_row_prints_10() {
    let mut output: String = (1..=71).map(|line| format!("{line} 0\n")).collect();
    output.push_str("72 10\nstate 1 32 1 32 31 8 0\n");
    assert_eq!(String::from_utf8(transcript(&lines(&row_by_imports(9)))), Ok(output));
}

/// Document 02, point 2: "a chain of 8 steps or fewer" is enough, however long others are. A short cut brings access.
#[test]
fn shortest_of_two_ways_counts() {
    for (row, short_cut, last) in [
        (row_by_imports(8), [5, 0, 2, 0], [9, 0, 9, 9]),
        (row_by_exports(8), [5, 0, 0, 2], [11, 0, 9, 9]),
    ] {
        assert_eq!((answer(&row, 2), answer(&row, 8), answer(&row, 9)), (Some(2), Some(8), None));
        refused(&row, last, 10);
        let shorter = and(row, &[short_cut, last]);
        assert_eq!((answer(&shorter, 1), answer(&shorter, 2)), (Some(1), Some(1)));
        assert_eq!(
            (answer(&shorter, 8), answer(&shorter, 9), answer(&shorter, 10)),
            (Some(7), Some(8), None)
        );
    }
    // area 9 is 9 steps off by way of area 7, and 2 by the short cut to area 8
    let two_ways = and(row_by_imports(8), &[[5, 0, 8, 0]]);
    assert_eq!((answer(&two_ways, 7), answer(&two_ways, 8)), (Some(7), Some(1)));
    assert_eq!(access(&accepted(&two_ways, [9, 0, 9, 9]), 9, 9), Ok(Some(2)));
}

/// Document 02, point 2: "Access now means a chain of 8 steps or fewer, everywhere": codes 6, 8, 10 and 12 where the way is cut.
#[test]
fn removal_is_11_along_a_row_of_8_steps() {
    for removal in [[6, 0, 1, 0], [6, 0, 2, 1], [6, 0, 8, 7], [8, 0, 0, 9], [10, 0, 1, 9], [10, 0, 7, 9]] {
        refused(&row_by_imports(8), removal, 11);
    }
    accepted(&row_by_imports(8), [10, 0, 8, 9]);
    accepted(&row_by_imports(8), [6, 0, 9, 8]);
    for removal in [[6, 0, 0, 1], [6, 0, 4, 5], [6, 0, 7, 8], [8, 0, 0, 9], [12, 0, 0, 9], [12, 0, 7, 9]] {
        refused(&row_by_exports(8), removal, 11);
    }
    accepted(&row_by_exports(8), [12, 0, 8, 9]);
    accepted(&row_by_exports(8), [6, 0, 8, 9]); // area 9 has no entry
    accepted(&row_by_imports(0), [8, 0, 0, 9]);
}

/// Document 02, point 2: "Access now means a chain of 8 steps or fewer, everywhere: the question, imports, removals and files."
/// Without the short cut each area of the row is one step further, and only the import at its end is lost.
#[test]
fn removal_is_11_where_the_only_lost_pair_is_many_steps_off() {
    let by_structure: &[[u8; 4]] = &[[5, 0, 2, 0]];
    let by_import: &[[u8; 4]] = &[[5, 0, 20, 0], [9, 0, 20, 9], [5, 0, 3, 20]];
    let by_export: &[[u8; 4]] = &[[5, 0, 0, 2], [11, 0, 0, 9]];
    for (short_cut, removal) in [
        (by_structure, [6, 0, 2, 0]),
        (by_import, [10, 0, 20, 9]),
        (by_import, [6, 0, 3, 20]),
        (by_export, [12, 0, 0, 9]),
        (by_export, [6, 0, 0, 2]),
    ] {
        let in_reach = and(row_by_imports(8), short_cut);
        assert_eq!((answer(&in_reach, 3), answer(&in_reach, 8)), (Some(2), Some(7)));
        let importing = and(in_reach.clone(), &[[9, 0, 9, 9]]);
        assert_eq!((answer(&importing, 3), answer(&importing, 9)), (Some(2), Some(8)));
        refused(&importing, removal, 11);
        let next = accepted(&in_reach, removal); // area 9 has no entry to lose
        assert_eq!((access(&next, 3, 9), access(&next, 8, 9)), (Ok(Some(3)), Ok(Some(8))));
    }
}

/// Reading 12: exactly 8 steps is access and 9 is none. A way round of 8 steps saves the removal, one of 9 does not.
#[test]
fn reading_12_way_round_a_removal() {
    // area 20 is one step from area 0, and `last`, an area of the row, is the other way to it
    for last in [7, 8] {
        let by_structure: &[[u8; 4]] = &[[5, 0, 20, 0], [9, 0, 20, 9], [5, 0, 20, last]];
        let by_import: &[[u8; 4]] = &[[5, 0, 20, 0], [9, 0, 20, 9], [11, 0, 20, 9], [5, 0, last, 20], [11, 0, last, 9]];
        let by_export: &[[u8; 4]] = &[[5, 0, 0, 20], [11, 0, 0, 9], [5, 0, 20, last], [9, 0, 20, 9]];
        for (way, removal) in [
            (by_structure, [6, 0, 20, 0]),
            (by_import, [10, 0, 20, 9]),
            (by_export, [12, 0, 0, 9]),
            (by_export, [6, 0, 0, 20]),
        ] {
            let two_ways = and(row_by_imports(8), way);
            assert_eq!(answer(&two_ways, 20), Some(1));
            match last {
                7 => assert_eq!(access(&accepted(&two_ways, removal), 20, 9), Ok(Some(8))),
                _ => refused(&two_ways, removal, 11),
            }
        }
    }
}

/// Reading 12: exactly 8 steps is access and 9 is none. "valid: for each import or export pair the area has access to the object"
#[test]
fn reading_12_entry_at_9_steps_is_unsound_and_at_8_sound() {
    let (inwards, outwards) = (from_f(&row_by_imports(7)), from_f(&row_by_exports(7)));
    for sound in [with_import(&inwards, 8), with_import(&outwards, 8), with_export(&outwards, 8)] {
        assert_eq!(least_chain(&sound, 8, 9), Some(8));
        assert!(sound.is_sound());
        assert_eq!(access(&sound, 8, 9), Ok(Some(8)));
        assert_eq!(step(&sound, [5, 0, 8, 8]).err(), None);
    }
    let (inwards, outwards) = (from_f(&row_by_imports(8)), from_f(&row_by_exports(8)));
    for unsound in [with_import(&inwards, 9), with_import(&outwards, 9), with_export(&outwards, 9)] {
        assert_eq!(least_chain(&unsound, 9, 9), Some(9));
        is_12_for_all(&unsound);
    }
    let row_31 = (9..=31).fold(inwards, |state, area| with_import(&state, area));
    assert_eq!(least_chain(&row_31, 31, 9), Some(31));
    is_12_for_all(&row_31);
    let row_31 = (9..=31).fold(outwards, |state, area| with_export(&state, area));
    assert_eq!(least_chain(&row_31, 31, 9), Some(31));
    is_12_for_all(&row_31);
}

/// The state with an import of object 9 by the area put into it.
fn with_import(state: &State, area: u8) -> State {
    let mut state = state.clone();
    state.imports.insert((9, area));
    state
}

/// The state with an export of object 9 by the area put into it.
fn with_export(state: &State, area: u8) -> State {
    let mut state = state.clone();
    state.exports.insert((9, area));
    state
}

/// Asserts that the state is unsound: 12 for instructions of every code, for what would mend it too, and for the question.
fn is_12_for_all(state: &State) {
    assert!(!state.is_sound());
    for code in 0..=13 {
        for [activator, a, b] in [[0, 9, 9], [0, 8, 9], [0, 1, 0], [0, 9, 8], [255, 255, 255]] {
            assert_eq!(step(state, [code, activator, a, b]), Err(12));
        }
    }
    assert_eq!(step_record(&to_record(state), [10, 0, 9, 9]), Err(12));
    for (area, object) in [(0, 9), (8, 9), (9, 9), (0, 8), (32, 64)] {
        assert_eq!(access(state, area, object), Err(12));
    }
}

/// A site file of user 0's areas 0 to 31, with object 9 defined in area 0.
fn site(structure: &[[u8; 2]], imports: &[[u8; 2]], exports: &[[u8; 2]], labels: &[[u8; 32]]) -> Vec<u8> {
    let owners: Vec<[u8; 2]> = (0..=31).map(|area| [0, area]).collect();
    file(&owners, &[[9, 0]], structure, imports, exports, labels)
}

/// The table rows of object 9 with each of the areas.
fn of_9(areas: std::ops::RangeInclusive<u8>) -> Vec<[u8; 2]> {
    areas.map(|area| [9, area]).collect()
}

/// Document 02, point 2: "A file whose import or export needs more gets 29."
#[test]
fn file_with_an_entry_at_8_steps_is_read_and_at_9_gets_29() {
    let inwards: Vec<[u8; 2]> = (1..=31).map(|area| [area, area - 1]).collect();
    let outwards: Vec<[u8; 2]> = (0..=30).map(|area| [area, area + 1]).collect();
    let importing = site(&inwards, &of_9(1..=8), NO, NO_LABELS);
    let exporting = site(&outwards, NO, &of_9(0..=8), NO_LABELS); // area 9 is 9 steps off, with no entry
    for (row, bytes) in [(row_by_imports(8), importing), (row_by_exports(8), exporting)] {
        let state = from_f(&row);
        assert_eq!(write_file(&state, &BTreeMap::new()), bytes);
        assert_eq!(read_file(&bytes), Ok((state, BTreeMap::new())));
    }
    assert!(read_file(&site(&inwards, &of_9(1..=8), &of_9(8..=8), NO_LABELS)).is_ok());
    assert!(read_file(&site(&outwards, &of_9(8..=8), &of_9(0..=7), NO_LABELS)).is_ok());
    for far in [9, 10, 31] {
        assert_eq!(read_file(&site(&inwards, &of_9(1..=far), NO, NO_LABELS)), Err(29));
        assert_eq!(read_file(&site(&outwards, NO, &of_9(0..=far), NO_LABELS)), Err(29));
        assert_eq!(read_file(&site(&inwards, &of_9(1..=8), &of_9(far..=far), NO_LABELS)), Err(29));
        assert_eq!(read_file(&site(&outwards, &of_9(far..=far), &of_9(0..=8), NO_LABELS)), Err(29));
    }
}

/// Document 02, point 2: "A file whose import or export needs more gets 29." 28 comes before it, and the file has no label.
#[test]
fn file_with_an_entry_at_9_steps_and_something_else() {
    let inwards: Vec<[u8; 2]> = (1..=31).map(|area| [area, area - 1]).collect();
    let hall = &[entry(0, 4, b"HALL")];
    let read = site(&inwards, &of_9(1..=8), NO, hall);
    assert_eq!(label(&read, 0), (28 + 64 + 2 + 62 + 16 + 2, 4));
    let refused = site(&inwards, &of_9(1..=9), NO, hall);
    assert_eq!((read_file(&refused), label(&refused, 0)), (Err(29), (0, 0)));
    // and an import of object 8, which is not listed; then a label of area 10, which is not
    let unlisted = [&[[8, 1]], &of_9(1..=9)[..]].concat();
    assert_eq!(read_file(&site(&inwards, &unlisted, NO, hall)), Err(28));
    let owners: Vec<[u8; 2]> = (0..=9).map(|area| [0, area]).collect();
    let label_of_10 = &[entry(10, 4, b"HALL")];
    let nine_steps = |labels: &[[u8; 32]]| file(&owners, &[[9, 0]], &inwards[..9], &of_9(1..=9), NO, labels);
    assert_eq!(read_file(&nine_steps(label_of_10)), Err(28));
    assert_eq!(read_file(&nine_steps(hall)), Err(29));
}

/// A row by imports in which area 7, at 7 steps, is user 5's, area 8, at 8 steps, is user 4's, and area 9 is user 6's.
/// Area 8 lies in area 9 too and exports object 9, so a chain of 9 steps leads to area 9, which has no entry.
fn lent_row() -> Vec<[u8; 4]> {
    let mut list = and(row_by_imports(8), &[[5, 0, 8, 9], [11, 0, 8, 9]]);
    for (area, user) in [(7, 5), (8, 4), (9, 6)] {
        list.extend([[3, 0, area, user], [4, 0, area, 0]]);
    }
    list
}

/// Document 02, point 2: "The guarantee that borrowed tables stay now speaks of chains within that limit."
#[test]
fn lending_guarantee_at_7_8_and_9_steps() {
    let start = from_f(&lent_row());
    assert_eq!((access(&start, 7, 9), access(&start, 8, 9)), (Ok(Some(7)), Ok(Some(8))));
    assert_eq!((access(&start, 9, 9), least_chain(&start, 9, 9)), (Ok(None), Some(9)));
    let cuts = [
        ([6, 0, 1, 0], 11),
        ([6, 0, 4, 3], 11),
        ([6, 0, 7, 6], 11),
        ([8, 0, 0, 9], 11),
        ([10, 0, 1, 9], 11),
        ([10, 0, 6, 9], 11),
        ([10, 0, 8, 9], 5),
        ([12, 6, 8, 9], 5),
        ([4, 6, 8, 4], 5),
        ([9, 6, 9, 9], 10),
        ([11, 6, 9, 9], 10),
    ];
    let cuts_of_5 = [([6, 5, 8, 7], 11), ([6, 5, 7, 6], 11), ([10, 5, 7, 9], 11)];
    for (instruction, refusal) in cuts.into_iter().chain(cuts_of_5) {
        refused(&lent_row(), instruction, refusal);
    }
    let list: Vec<[u8; 4]> = cuts.into_iter().map(|(instruction, _)| instruction).collect();
    let list = and(list, &[[6, 6, 8, 9], [6, 6, 9, 8]]);
    let after = run(&start, &list);
    assert_eq!(after.structure.len(), start.structure.len() - 2);
    for silent in [7, 8] {
        assert_eq!(lending_guarantee(&start, &list, &after, silent), Ok(()));
        assert_eq!(access(&after, silent.into(), 9), Ok(Some(silent)));
    }
    assert!(after.imports.contains(&(9, 7)) && after.imports.contains(&(9, 8)) && after.exports.contains(&(9, 8)));
    assert!(after.owners.contains(&(5, 7)) && after.owners.contains(&(4, 8)));
}

/// Document 02, point 2: "The guarantee that borrowed tables stay now speaks of chains within that limit."
/// Area 9 borrows nothing: at 9 steps it has no access, it may gain access, and may lose it again.
#[test]
fn lending_guarantee_and_an_area_at_9_steps_with_no_entry() {
    let start = from_f(&lent_row());
    assert_eq!(access(&start, 9, 9), Ok(None));
    let mut now = start.clone();
    let mut list = Vec::new();
    for (instruction, steps) in [
        ([5, 0, 2, 0], Some(8)),
        ([6, 0, 2, 0], None),
        ([5, 0, 6, 0], Some(4)),
        ([12, 4, 8, 9], None),
    ] {
        now = step(&now, instruction).expect("accepted");
        list.push(instruction);
        assert_eq!(access(&now, 9, 9), Ok(steps));
        assert_eq!(lending_guarantee(&start, &list, &now, 9), Ok(()));
    }
}

/// Document 02, point 2: "now speaks of chains within that limit". Of two ways to area 20, user 4's, the short one is cut.
#[test]
fn lending_guarantee_speaks_of_chains_within_the_limit() {
    for (last, steps, refusal) in [(7, 8, 0), (8, 9, 11)] {
        let importing: &[[u8; 4]] = &[[5, 0, 20, 0], [9, 0, 20, 9], [5, 0, 20, last]];
        let exporting: &[[u8; 4]] = &[[5, 0, 0, 20], [11, 0, 0, 9], [11, 0, 20, 9], [5, 0, last, 20], [11, 0, last, 9]];
        for (way, inner, outer) in [(importing, 20, 0), (exporting, 0, 20)] {
            let hand_over = [[3, 0, 20, 4], [4, 0, 20, 0]];
            let start = from_f(&and(and(row_by_imports(8), way), &hand_over));
            let list = [[6, 0, inner, outer]];
            assert_eq!(step(&start, list[0]).err().unwrap_or(0), refusal);
            assert_eq!(lending_guarantee(&start, &list, &run(&start, &list), 20), Ok(()));
            // the state without the pair, had it been removed in either case
            let mut cut = start.clone();
            cut.structure.remove(&(inner, outer));
            assert_eq!(least_chain(&cut, 20, 9), Some(steps));
            assert_eq!(lending_guarantee(&start, &list, &cut, 20).is_ok(), refusal == 0);
        }
    }
}

/// Four bytes at a time in a fixed disorder.
fn disorder() -> impl Iterator<Item = [u8; 4]> {
    let mut number: u32 = 2_463_534_242;
    std::iter::repeat_with(move || {
        number ^= number << 13;
        number ^= number >> 17;
        number ^= number << 5;
        number.to_le_bytes()
    })
}

/// An instruction of any user but one: any code, and most often one that touches the row or object 9.
fn of_another(silent: u8, [kind, user, a, b]: [u8; 4]) -> [u8; 4] {
    let code = [1, 2, 3, 4, 5, 5, 5, 6, 6, 6, 7, 8, 9, 9, 10, 10, 11, 12, 12, 0, 13][usize::from(kind) % 21];
    let activator = [0, 0, 0, 0, 4, 5, 6, 1][usize::from(user) % 8];
    let b = match code {
        1 | 2 => 0,
        3 | 4 => b % 7,
        5 | 6 => b % 12,
        _ => [8, 9, 9, 9][usize::from(b) % 4],
    };
    [code, if activator == silent { 0 } else { activator }, a % 12, b]
}

/// Document 02, point 2: "The guarantee that borrowed tables stay now speaks of chains within that limit."
/// Each of the areas at 7, 8 and 9 steps is silent in its turn, and keeps its entries and its access to them, whatever others do.
#[test]
fn lending_guarantee_over_lists_in_disorder() {
    let start = from_f(&lent_row());
    let mut bytes = disorder();
    let mut seen = BTreeSet::new();
    for (user, area, imports, exports) in [(5, 7, vec![9], vec![]), (4, 8, vec![9], vec![9]), (6, 9, vec![], vec![])] {
        for _ in 0..50 {
            let list: Vec<[u8; 4]> = bytes.by_ref().take(40).map(|bytes| of_another(user, bytes)).collect();
            let after = run(&start, &list);
            let of_area = |pairs: &BTreeSet<(u8, u8)>| -> Vec<u8> {
                let with_area = pairs.iter().filter(|pair| pair.1 == area);
                with_area.map(|pair| pair.0).collect()
            };
            assert_eq!((of_area(&after.owners), of_area(&after.definitions)), (vec![user], vec![]));
            assert_eq!(
                (of_area(&after.imports), of_area(&after.exports)),
                (imports.clone(), exports.clone())
            );
            let steps = least_chain(&after, area, 9).filter(|&steps| steps <= 8);
            assert!(steps.is_some() || imports.is_empty(), "area {area} after {list:?}");
            assert_eq!(lending_guarantee(&start, &list, &after, area), Ok(()), "{list:?}");
            seen.insert((area, steps));
        }
    }
    let at_the_limit = [(7, Some(7)), (8, Some(7)), (8, Some(8)), (9, Some(8)), (9, None)];
    assert!(seen.is_superset(&BTreeSet::from(at_the_limit)));
}

/// For an instruction of user 0, who owns all: 0, 6, 7, 15, 10 or 11 by `least_chains` and the limit of 8 steps, and the most steps
/// that an entry has in the state it would give, 255 where no chain leads to it.
fn reply_within_8(state: &State, [code, _, a, b]: [u8; 4]) -> (u8, u8) {
    let mut next = state.clone();
    let (changed, otherwise) = match code {
        5 => (next.structure.insert((a, b)), 6),
        6 => (next.structure.remove(&(a, b)), 7),
        9 => (next.imports.insert((b, a)), 6),
        10 => (next.imports.remove(&(b, a)), 7),
        11 => (next.exports.insert((b, a)), 6),
        _ => (next.exports.remove(&(b, a)), 7),
    };
    let chains = least_chains(&next, 9);
    let lacks_access = |area: u8| chains.get(&area).is_none_or(|&steps| steps > 8);
    let entries = || next.imports.iter().chain(&next.exports).map(|&(_, area)| area);
    let reply = match code {
        _ if !changed => otherwise,
        9 if a == 0 => 15, // area 0 defines object 9
        9 | 11 if lacks_access(a) => 10,
        6 | 10 | 12 if entries().any(lacks_access) => 11,
        _ => 0,
    };
    let most_steps = entries().map(|area| chains.get(&area).copied().unwrap_or(255)).max();
    (reply, most_steps.unwrap_or(0))
}

/// Document 02, point 2: "Access now means a chain of 8 steps or fewer, everywhere". The question, 10 and 11 by `least_chains`.
#[test]
fn replies_and_answers_are_those_of_the_least_chains_within_8_steps() {
    // twelve areas in a row, each in both its neighbours, and imports by areas 1 to 7
    let mut list = vec![[7, 0, 0, 9]];
    list.extend((1..=11).flat_map(|area| [[1, 0, area, 0], [5, 0, area, area - 1], [5, 0, area - 1, area]]));
    list.extend((1..=7).map(|area| [9, 0, area, 9]));
    let mut state = from_f(&list);
    let mut seen = BTreeSet::new();
    let mut chains_of_9 = 0;
    for [kind, a, other, _] in disorder().take(1000) {
        let code = [5, 6, 6, 6, 9, 9, 10, 11, 12][usize::from(kind) % 9];
        let neighbour = (a % 12 + [0, 0, 0, 2, 2, 2, 2, 3][usize::from(other) % 8])
            .saturating_sub(1)
            .min(11);
        let instruction = [code, 0, a % 12, if code < 7 { neighbour } else { 9 }];
        let (reply, most_steps) = reply_within_8(&state, instruction);
        assert_eq!(step(&state, instruction).err().unwrap_or(0), reply, "{instruction:?} at {state:?}");
        seen.insert((reply, most_steps));
        state = run(&state, &[instruction]);
        let chains = least_chains(&state, 9);
        for area in 0..=11 {
            let answer = chains.get(&area).copied().filter(|&steps| steps <= 8);
            assert_eq!(access(&state, area.into(), 9), Ok(answer));
        }
        chains_of_9 += chains.values().filter(|&&steps| steps == 9).count();
    }
    assert!(seen.is_superset(&BTreeSet::from([(0, 8), (10, 9), (11, 9)])) && chains_of_9 > 0);
    assert!(seen.iter().any(|&(reply, _)| reply == 15));
}

// Document 02, point 4: borrowing from oneself

/// Areas 0 and 1 of user 0, each in the other; object 9 is defined in area 0 and object 8 in area 1.
const NEIGHBOURS: &[[u8; 4]] = &[[1, 0, 1, 0], [5, 0, 0, 1], [5, 0, 1, 0], [7, 0, 0, 9], [7, 0, 1, 8]];

/// Document 02, point 4: "Code 9 by the defining area is refused as 15".
#[test]
fn point_4_code_9_by_the_defining_area_is_15() {
    refused(&[[7, 0, 0, 9]], [9, 0, 0, 9], 15);
    refused(&[[7, 0, 0, 9], [5, 0, 0, 0]], [9, 0, 0, 9], 15); // an area in itself
    refused(&[[7, 0, 0, 9], [5, 0, 0, 0], [11, 0, 0, 9]], [9, 0, 0, 9], 15);
    refused(&[[1, 0, 31, 0], [7, 0, 31, 63]], [9, 0, 31, 63], 15);
    refused(&[[3, 0, 0, 4], [7, 0, 0, 9]], [9, 4, 0, 9], 15); // each of its owners
    refused(&[[3, 0, 0, 4], [7, 4, 0, 9]], [9, 0, 0, 9], 15); // whoever defined it
    let lent = [NEIGHBOURS, &[[11, 0, 0, 9], [9, 0, 1, 9], [11, 0, 1, 9]]].concat();
    refused(&lent, [9, 0, 0, 9], 15); // area 1, its inner and its outer area, imports and exports it
    for object in 0..64 {
        refused(&[[7, 0, 0, object]], [9, 0, 0, object], 15);
    }
    for area in 1..32 {
        refused(&[[1, 0, area, 0], [7, 0, area, 9]], [9, 0, area, 9], 15);
    }
}

/// Document 02, point 4, through the program: what is printed is 15, and the import is not there.
#[test]
fn point_4_program_prints_15() {
    let input = b"7 0 0 9\n9 0 0 9\n11 0 0 9\n9 0 0 9\n10 0 0 9\n";
    assert_eq!(transcript(input), b"1 0\n2 15\n3 0\n4 15\n5 7\nstate 1 1 1 1 0 0 1\n");
}

/// Document 02, point 4: "refused as 15, after 7 and before 8". Of the checks in front 2, 3 and 5 can apply beside it, and they show.
#[test]
fn point_4_checks_in_front_of_15() {
    let start = [[1, 0, 1, 0], [3, 0, 1, 4], [7, 0, 0, 9]]; // 4 owns area 1, and area 0 defines 9
    refused(&start, [9, 0, 0, 9], 15);
    refused(&start, [9, 32, 0, 9], 2);
    refused(&start, [9, 5, 0, 9], 3); // an unlisted activator
    refused(&start, [9, 4, 0, 9], 5); // a listed one who does not own area 0
    refused(&start, [9, 0, 0, 8], 4); // 4 can't apply beside it: what an area defines is listed, and so is the area
    refused(&start, [9, 0, 6, 9], 4);
    refused(&[&start[..], &[[8, 0, 0, 9]]].concat(), [9, 0, 0, 9], 4); // it defined 9, and does no more
}

/// 6: "an add of what is there: ... present pair (3, 5, 9, 11)". The definer has the object, and not the pair.
#[test]
fn reading_13_import_by_the_definer_is_15_and_not_6() {
    let state = from_f(&[[7, 0, 0, 9], [11, 0, 0, 9]]);
    assert_eq!(access(&state, 0, 9), Ok(Some(0)));
    assert!(state.imports.is_empty());
    assert_eq!(step(&state, [11, 0, 0, 9]), Err(6));
    assert_eq!(step(&state, [7, 0, 0, 9]), Err(6));
    assert_eq!(step(&state, [9, 0, 0, 9]), Err(15));
    assert_eq!(step(&run(&state, &[[9, 0, 0, 9]]), [9, 0, 0, 9]), Err(15)); // and again: the first has put no pair there
    refused(&[NEIGHBOURS, &[[9, 0, 1, 9]]].concat(), [9, 0, 1, 9], 6); // another area's, again
}

/// Reading 13: 12, 1, 2, 3, 4, 5, 6, 7, 15, 8, 9, 10, 11. At a sound state 15 stands beside 2, 3 or 5 alone: no own import is present
/// (6), 7, 8, 9 and 11 are of other codes, and the definer has access in 0 steps (10). So the list shows its place behind 5.
#[test]
fn reading_13_order_of_checks() {
    assert_eq!(order_of_checks(), [12, 1, 2, 3, 4, 5, 6, 7, 15, 8, 9, 10, 11]);
    refused(&[[1, 0, 1, 0], [7, 0, 0, 9]], [9, 0, 0, 9], 15);
    refused(&[[1, 0, 1, 0], [7, 0, 0, 9]], [9, 0, 1, 9], 10);
}

/// Document 02, point 4: "no area may import an object that it defines": the area itself, and not another of its owner's; that object,
/// and no other.
#[test]
fn point_4_owner_of_two_areas() {
    assert_eq!(accepted(NEIGHBOURS, [9, 0, 1, 9]).imports, BTreeSet::from([(9, 1)]));
    assert_eq!(accepted(NEIGHBOURS, [9, 0, 0, 8]).imports, BTreeSet::from([(8, 0)]));
    refused(NEIGHBOURS, [9, 0, 0, 9], 15);
    refused(NEIGHBOURS, [9, 0, 1, 8], 15);
    // each from the other, and both sound
    let crosswise = accepted(&[NEIGHBOURS, &[[9, 0, 1, 9]]].concat(), [9, 0, 0, 8]);
    assert_eq!(crosswise.imports, BTreeSet::from([(8, 0), (9, 1)]));
    assert_eq!((access(&crosswise, 0, 8), access(&crosswise, 1, 9)), (Ok(Some(1)), Ok(Some(1))));
    // two objects of one area, and a third area with none
    let more = [NEIGHBOURS, &[[7, 0, 0, 7], [1, 0, 2, 0], [5, 0, 2, 0]]].concat();
    for object in [7, 9] {
        refused(&more, [9, 0, 0, object], 15);
        accepted(&more, [9, 0, 1, object]);
        accepted(&more, [9, 0, 2, object]);
    }
    refused(&more, [9, 0, 2, 8], 10);
}

/// Reading 13: exports by the defining area stay as they were.
#[test]
fn reading_13_exports_by_the_definer_stay() {
    let own = accepted(&[[7, 0, 0, 9]], [11, 0, 0, 9]);
    assert_eq!(own.exports, BTreeSet::from([(9, 0)]));
    refused(&[[7, 0, 0, 9], [11, 0, 0, 9]], [11, 0, 0, 9], 6);
    assert_eq!(accepted(&[[7, 0, 0, 9], [11, 0, 0, 9]], [12, 0, 0, 9]), from_f(&[[7, 0, 0, 9]]));
    refused(&[[7, 0, 0, 9]], [12, 0, 0, 9], 7);
    refused(&[[7, 0, 0, 9]], [10, 0, 0, 9], 7); // nor is code 10 by the definer 15
    let bytes = file(&[[0, 0]], &[[9, 0]], NO, NO, &[[9, 0]], NO_LABELS);
    assert_eq!(read_file(&bytes), Ok((own, BTreeMap::new())));
}

/// Document 02, point 4: "no area may import an object that it defines". Code 7 makes no such import: it takes no object that anyone
/// imports.
#[test]
fn point_4_no_definition_makes_an_own_import() {
    let imported = [NEIGHBOURS, &[[9, 0, 1, 9]]].concat();
    refused(&imported, [7, 0, 1, 9], 6); // area 1 imports it
    refused(&imported, [8, 0, 0, 9], 11); // and while it does, the object stays where it is
    let freed = and(imported, &[[10, 0, 1, 9], [8, 0, 0, 9]]);
    let moved = and(freed.clone(), &[[7, 0, 1, 9]]);
    assert!(accepted(&freed, [7, 0, 1, 9]).imports.is_empty());
    refused(&moved, [9, 0, 1, 9], 15); // the former importer defines it
    assert_eq!(accepted(&moved, [9, 0, 0, 9]).imports, BTreeSet::from([(9, 0)])); // the former definer may import it
    assert_eq!(access(&accepted(&moved, [9, 0, 0, 9]), 0, 9), Ok(Some(1)));
    // and back
    let back = and(moved, &[[8, 0, 1, 9], [7, 0, 0, 9]]);
    refused(&back, [9, 0, 0, 9], 15);
    accepted(&back, [9, 0, 1, 9]);
}

/// "An import by the defining area itself is therefore valid": it has access in 0 steps. By point 4 the state is unsound all the same.
#[test]
fn reading_13_state_with_an_own_import_is_12_for_every_code() {
    let sound = from_f(&[[1, 0, 9, 0], [5, 0, 9, 0], [7, 0, 9, 9], [11, 0, 9, 9], [9, 0, 0, 9]]);
    assert!(sound.is_sound());
    assert_eq!((access(&sound, 9, 9), access(&sound, 0, 9)), (Ok(Some(0)), Ok(Some(1))));
    let unsound = with_import(&sound, 9);
    assert_eq!((least_chain(&unsound, 9, 9), least_chain(&unsound, 0, 9)), (Some(0), Some(1)));
    assert_eq!(lending_guarantee(&unsound, &[], &unsound, 9), Ok(())); // what access is has not moved
    is_12_for_all(&unsound);
    // what would take it out, and others, on the state and on its record
    for instruction in [
        [10, 0, 9, 9],
        [8, 0, 9, 9],
        [9, 0, 9, 9],
        [10, 0, 0, 9],
        [0, 0, 0, 0],
        [255, 255, 255, 255],
    ] {
        assert_eq!(step(&unsound, instruction), Err(12));
        assert_eq!(step_record(&to_record(&unsound), instruction), Err(12));
        assert_eq!(run(&unsound, &[instruction]), unsound);
    }
}

/// Document 02, point 4: "a state with such an import is unsound", at each of the 2,048 places; an export there is sound.
#[test]
fn point_4_every_place_of_an_own_import_is_unsound() {
    for (object, area) in all(64) {
        let defined = State {
            areas: BTreeSet::from([0, area]),
            objects: BTreeSet::from([object]),
            owners: BTreeSet::from([(0, 0), (0, area)]),
            definitions: BTreeSet::from([(object, area)]),
            exports: BTreeSet::from([(object, area)]),
            ..State::founding()
        };
        assert!(defined.is_sound());
        let own_import = State {
            imports: BTreeSet::from([(object, area)]),
            ..defined.clone()
        };
        assert!(!own_import.is_sound(), "object {object}, area {area}");
        assert_eq!(read_file(&write_file(&defined, &Labels::new())), Ok((defined, Labels::new())));
        assert_eq!(read_file(&write_file(&own_import, &Labels::new())), Err(29));
    }
}

/// Document 02, point 4: "a state with such an import is unsound", also where it is one among many imports that may stand.
#[test]
fn point_4_one_own_import_among_others() {
    let mut full = everything();
    assert!(!full.is_sound());
    full.imports.retain(|&(object, area)| area != object % 32);
    assert!(full.is_sound());
    for object in 0..64 {
        let mut one = full.clone();
        one.imports.insert((object, object % 32));
        assert!(!one.is_sound(), "of object {object}");
        assert_eq!(access(&one, 0, 0), Err(12));
        assert_eq!(step(&one, [10, 0, object % 32, object]), Err(12));
    }
    assert_eq!(step(&full, [9, 0, 3, 35]), Err(15));
    assert_eq!(step(&full, [9, 0, 3, 34]), Err(6));
    assert_eq!(access(&full, 3, 34), Ok(Some(1)));
}

/// Document 02, point 4: "A file with one gets 29."
#[test]
fn point_4_file_with_an_own_import_gets_29() {
    assert_eq!(read_file(&file(&[[0, 0]], &[[9, 0]], NO, &[[9, 0]], NO, NO_LABELS)), Err(29));
    assert_eq!(
        read_file(&file(&[[0, 0]], &[[9, 0]], &[[0, 0]], &[[9, 0]], &[[9, 0]], NO_LABELS)),
        Err(29)
    );
    // one own import beside an import of another area, which may stand alone; and the file has no label
    let two = &[[0, 0], [0, 1]];
    let hall = &[entry(0, 4, b"HALL")];
    let with = |imports: &[[u8; 2]]| file(two, &[[8, 1], [9, 0]], &[[0, 1], [1, 0]], imports, NO, hall);
    for imports in [&[[9, 1]][..], &[[8, 0]], &[[8, 0], [9, 1]]] {
        assert!(read_file(&with(imports)).is_ok());
        assert_ne!(label(&with(imports), 0), (0, 0));
    }
    for imports in [
        &[[9, 0]][..],
        &[[8, 1]],
        &[[9, 0], [9, 1]],
        &[[8, 1], [9, 1]],
        &[[8, 0], [8, 1], [9, 1]],
    ] {
        assert_eq!(read_file(&with(imports)), Err(29));
        assert_eq!(label(&with(imports), 0), (0, 0));
    }
    // an own import and one without access: 29 for either
    assert_eq!(read_file(&file(two, &[[9, 0]], NO, &[[9, 0], [9, 1]], NO, NO_LABELS)), Err(29));
}

/// "Reader refusals, lowest number first over the whole file": a file with an own import and something else.
#[test]
fn reading_13_refusals_21_to_28_come_before_29() {
    let own = file(&[[0, 0]], &[[9, 0]], NO, &[[9, 0]], NO, NO_LABELS);
    assert_eq!((own.len(), read_file(&own)), (34, Err(29)));
    assert_eq!(read_file(&own[..27]), Err(21));
    for (place, byte, refusal) in [(0, 2, 22), (2, 33, 23), (11, 8, 24), (24, 31, 25), (33, 32, 26), (29, 1, 28)] {
        let mut other = own.clone();
        other[place] = byte;
        assert_eq!(read_file(&other), Err(refusal), "byte {byte} at {place}");
    }
    let with = |imports: &[[u8; 2]], labels: &[[u8; 32]]| read_file(&file(&[[0, 0]], &[[9, 0]], NO, imports, NO, labels));
    assert_eq!(with(&[[9, 0], [9, 32]], NO_LABELS), Err(26));
    assert_eq!(with(&[[9, 0]], &[entry(0, 0, b"")]), Err(26));
    assert_eq!(with(&[[9, 0], [9, 0]], NO_LABELS), Err(27));
    assert_eq!(with(&[[9, 0]], &[entry(0, 1, b"x"), entry(0, 1, b"x")]), Err(27));
    assert_eq!(with(&[[9, 0], [9, 1]], NO_LABELS), Err(28)); // an unlisted area
    assert_eq!(with(&[[8, 0], [9, 0]], NO_LABELS), Err(28)); // an unlisted object
    assert_eq!(with(&[[9, 0]], &[entry(5, 1, b"x")]), Err(28));
    // defined twice, and imported by both definers
    let two = &[[9, 0], [9, 1]];
    assert_eq!(read_file(&file(&[[0, 0], [0, 1]], two, NO, two, NO, NO_LABELS)), Err(28));
}

/// Reading 13: "Counts are at most ... 2,048" stays, though at most 1,984 imports can be sound.
#[test]
fn reading_13_count_limit_of_imports_stays_2048() {
    let state = everything();
    assert_eq!(state.imports.len(), 2048);
    let table = |pairs: &BTreeSet<(u8, u8)>| -> Vec<[u8; 2]> { pairs.iter().map(|&(first, second)| [first, second]).collect() };
    let (owners, definitions, square) = (table(&state.owners), table(&state.definitions), table(&state.structure));
    let rows = table(&state.imports);
    let with = |imports: &[[u8; 2]]| read_file(&file(&owners, &definitions, &square, imports, &rows, NO_LABELS)).err();
    assert_eq!(with(&rows), Some(29));
    assert_eq!(with(&[&rows[..], &[[63, 31]]].concat()), Some(24));
    let others: Vec<[u8; 2]> = rows.iter().copied().filter(|row| !definitions.contains(row)).collect();
    assert_eq!((others.len(), with(&others)), (1984, None));
    for own in [[0, 0], [31, 31], [32, 0], [63, 31]] {
        let mut more = others.clone();
        more.push(own);
        more.sort();
        assert_eq!((more.len(), with(&more)), (1985, Some(29)));
    }
}

/// At each small state the reply to code 9 is 15 for an owner of the definer and for no one else; and with the own import put into
/// it, the state is unsound, every code gets 12, and its file 29.
#[test]
fn point_4_at_every_small_state() {
    let mut refused_with_15 = 0;
    for state in small_states() {
        for instruction in (0..4).map(|both| [9, both / 2, both % 2, 0]) {
            let [_, activator, a, b] = instruction;
            let expected = state.owners.contains(&(activator, a)) && state.definitions.contains(&(b, a));
            assert_eq!(step(&state, instruction) == Err(15), expected, "{instruction:?} at {state:?}");
            refused_with_15 += u32::from(expected);
        }
        for &own in &state.definitions {
            let mut other = state.clone();
            other.imports.insert(own);
            assert!(!other.is_sound());
            for code in 0..=13 {
                assert_eq!(step(&other, [code, 0, own.1, 0]), Err(12));
                assert_eq!(step(&other, [code, 1, own.1, 0]), Err(12));
            }
            assert_eq!(access(&other, own.1.into(), 0), Err(12));
            assert_eq!(read_file(&write_file(&other, &Labels::new())), Err(29));
        }
    }
    assert!(refused_with_15 > 1000);
}

/// Users 0, 1 and 2, areas 0 to 3, some in others, and one object in each area.
const FOUR_AREAS: &[[u8; 4]] = &[
    [1, 0, 1, 0],
    [1, 0, 2, 0],
    [3, 0, 0, 1],
    [1, 1, 3, 0],
    [3, 0, 2, 2],
    [5, 0, 1, 0],
    [5, 0, 2, 1],
    [5, 0, 1, 2],
    [5, 1, 0, 3],
    [7, 0, 0, 0],
    [7, 0, 1, 1],
    [7, 2, 2, 2],
    [7, 1, 3, 3],
];

/// An instruction on a few users, areas and objects; a third are imports, and half of these by the object's definer.
fn often_own_import(state: &State, [kind, user, a, b]: [u8; 4]) -> [u8; 4] {
    let code = [1, 2, 3, 4, 5, 5, 5, 6, 7, 7, 8, 10, 11, 11, 12, 13, 9, 9, 9, 9, 9, 9, 9, 9][usize::from(kind) % 24];
    let activator = [0, 0, 0, 0, 1, 1, 2, 3][usize::from(user) % 8];
    let b = match code {
        1 | 2 => 0,
        5 | 6 => b % 5,
        _ => b % 4,
    };
    let definer = state.definitions.iter().find(|pair| pair.0 == b).map(|pair| pair.1);
    match definer {
        Some(area) if code == 9 && user >= 128 => [code, activator, area, b],
        _ => [code, activator, a % 5, b],
    }
}

/// Document 02, point 4: "The soundness of every reached state is read with this clause."
#[test]
fn point_4_every_reached_state_is_sound() {
    let mut bytes = disorder();
    let mut seen: BTreeMap<u8, u32> = BTreeMap::new();
    for _ in 0..150 {
        let mut state = from_f(FOUR_AREAS);
        for four in bytes.by_ref().take(100) {
            let instruction = often_own_import(&state, four);
            let [code, activator, a, b] = instruction;
            let own_import = code == 9 && state.owners.contains(&(activator, a)) && state.definitions.contains(&(b, a));
            let reply = step(&state, instruction);
            assert_eq!(reply == Err(15), own_import, "{instruction:?} at {state:?}");
            *seen.entry(*reply.as_ref().err().unwrap_or(&0)).or_default() += 1;
            state = run(&state, &[instruction]);
            assert!(state.is_sound());
            assert!(state.definitions.iter().all(|own| !state.imports.contains(own)));
            let read = read_file(&write_file(&state, &Labels::new()));
            assert_eq!(read.as_ref(), Ok(&(state.clone(), Labels::new())));
        }
    }
    let replies: Vec<u8> = seen.keys().copied().collect();
    assert_eq!(replies, [0, 1, 3, 4, 5, 6, 7, 8, 9, 10, 11, 15]);
    assert!(seen[&0] > 1000 && seen[&15] > 1000, "{seen:?}");
}

// Document 02, point 7: taking back leaves no trace

/// What the instruction gives at the state: 0 or its refusal, and the state beside it.
fn gives(state: &State, instruction: [u8; 4]) -> (u8, State) {
    match step(state, instruction) {
        Ok(next) => (0, next),
        Err(refusal) => (refusal, state.clone()),
    }
}

/// Asserts that the add is accepted and that the remove right behind it takes it back, also on records and for the judge. Hands back
/// the state between the two.
fn taking_back(earlier: &State, add: [u8; 4], remove: [u8; 4]) -> State {
    let (number, between) = gives(earlier, add);
    assert_eq!(number, 0, "{add:?} at {earlier:?}");
    let (number, after) = gives(&between, remove);
    assert_eq!((number, &after), (0, earlier), "{remove:?} at {between:?}");
    assert_eq!(step_record(&to_record(&between), remove), Ok(to_record(earlier)));
    assert_eq!(matching_remove(add), Some(remove));
    assert_eq!(taken_back(earlier, add, number, &after), Ok(()));
    assert!(taken_back(earlier, add, number, &between).is_err()); // what was added would be a trace
    between
}

/// Users 0, 4 and 6; areas 0, 1 and 2 are user 0's, area 2 user 4's too, area 5 user 6's. Area 2 lies in area 1 and area 1 in area 0.
/// Area 0 defines object 9, which area 1 imports; area 2 defines object 8 and exports it.
fn hand_made() -> State {
    State {
        users: BTreeSet::from([0, 4, 6]),
        areas: BTreeSet::from([0, 1, 2, 5]),
        objects: BTreeSet::from([8, 9]),
        owners: BTreeSet::from([(0, 0), (0, 1), (0, 2), (4, 2), (6, 5)]),
        definitions: BTreeSet::from([(8, 2), (9, 0)]),
        structure: BTreeSet::from([(1, 0), (2, 1)]),
        imports: BTreeSet::from([(9, 1)]),
        exports: BTreeSet::from([(8, 2)]),
    }
}

/// A change of a state.
type Change = fn(&mut State);

/// The state with the change made in it.
fn changed(state: &State, change: Change) -> State {
    let mut state = state.clone();
    change(&mut state);
    state
}

/// Each of the six adds at `hand_made`, its matching remove, and what the add puts into the state.
const SIX_ADDS: [([u8; 4], [u8; 4], Change); 6] = [
    ([1, 4, 3, 0], [2, 4, 3, 0], |state| {
        state.areas.insert(3);
        state.owners.insert((4, 3));
    }),
    ([3, 4, 2, 7], [4, 4, 2, 7], |state| {
        state.users.insert(7);
        state.owners.insert((7, 2));
    }),
    ([5, 0, 0, 2], [6, 0, 0, 2], |state| _ = state.structure.insert((0, 2))),
    ([7, 4, 2, 3], [8, 4, 2, 3], |state| {
        state.objects.insert(3);
        state.definitions.insert((3, 2));
    }),
    ([9, 0, 2, 9], [10, 0, 2, 9], |state| _ = state.imports.insert((9, 2))),
    ([11, 0, 1, 8], [12, 0, 1, 8], |state| _ = state.exports.insert((8, 1))),
];

/// Document 02, point 7: "This covers all six adds."
#[test]
fn point_7_each_of_the_six_adds() {
    let earlier = hand_made();
    assert!(earlier.is_sound());
    for (add, remove, change) in SIX_ADDS {
        assert_eq!(taking_back(&earlier, add, remove), changed(&earlier, change));
    }
}

/// Document 02, point 7: "the matching remove from the same activator": of the row "1 / 2", "3 / 4" and so on, with the same three bytes.
#[test]
fn point_7_matching_remove_of_every_code() {
    let rows = BTreeMap::from([(1, 2), (3, 4), (5, 6), (7, 8), (9, 10), (11, 12)]);
    for code in 0..=u8::MAX {
        for [activator, a, b] in [[0, 0, 0], [4, 31, 0], [0, 1, 63], [200, 100, 50]] {
            let remove = rows.get(&code).map(|&remove| [remove, activator, a, b]);
            assert_eq!(matching_remove([code, activator, a, b]), remove);
        }
    }
}

/// Document 02, point 7: "always accepted", whatever the number of the user, the area or the object.
#[test]
fn point_7_every_user_area_and_object() {
    let f = State::founding();
    for number in 1..32 {
        let owned = taking_back(&f, [3, 0, 0, number], [4, 0, 0, number]);
        assert_eq!(owned.users, BTreeSet::from([0, number]));
        let listed = taking_back(&f, [1, 0, number, 0], [2, 0, number, 0]);
        assert_eq!(listed.areas, BTreeSet::from([0, number]));
    }
    for object in 0..64 {
        let defined = taking_back(&f, [7, 0, 0, object], [8, 0, 0, object]);
        assert_eq!(defined.definitions, BTreeSet::from([(object, 0)]));
    }
}

/// Document 02, point 7: "It includes a user who was listed only by that add." One who owned another area stays listed.
#[test]
fn point_7_user_listed_by_the_add_or_before_it() {
    let f = State::founding();
    let listed = taking_back(&f, [3, 0, 0, 4], [4, 0, 0, 4]);
    assert_eq!(
        (listed.users, listed.owners),
        (BTreeSet::from([0, 4]), BTreeSet::from([(0, 0), (4, 0)]))
    );
    let taken = from_f(&[[3, 0, 0, 4], [4, 0, 0, 4]]);
    assert_eq!((taken.users, taken.owners), (BTreeSet::from([0]), BTreeSet::from([(0, 0)])));
    refused(&[[3, 0, 0, 4], [4, 0, 0, 4]], [1, 4, 1, 0], 3); // user 4 is unlisted
    let of_area_1 = [[1, 0, 1, 0], [3, 0, 1, 4]];
    let of_both = taking_back(&from_f(&of_area_1), [3, 0, 0, 4], [4, 0, 0, 4]);
    assert_eq!(of_both.owners, BTreeSet::from([(0, 0), (0, 1), (4, 0), (4, 1)]));
    let taken = from_f(&and(of_area_1.to_vec(), &[[3, 0, 0, 4], [4, 0, 0, 4]]));
    assert_eq!(
        (taken.users, taken.owners),
        (BTreeSet::from([0, 4]), BTreeSet::from([(0, 0), (0, 1), (4, 1)]))
    );
}

/// "Codes 2 and 4 unlist a user who owns no area afterwards": whoever lists an area owns another. "Freed numbers may be listed again."
#[test]
fn point_7_new_area() {
    let earlier = from_f(&[[3, 0, 0, 4]]);
    for (add, remove, owners) in [
        ([1, 4, 31, 0], [2, 4, 31, 0], [(0, 0), (4, 0), (4, 31)]),
        ([1, 0, 31, 0], [2, 0, 31, 0], [(0, 0), (0, 31), (4, 0)]),
    ] {
        let listed = taking_back(&earlier, add, remove);
        assert_eq!((listed.areas, listed.owners), (BTreeSet::from([0, 31]), BTreeSet::from(owners)));
    }
    // user 4 is still listed, and area 31 may be listed by the other owner
    let taken = [[3, 0, 0, 4], [1, 4, 31, 0], [2, 4, 31, 0]];
    assert_eq!(from_f(&taken).users, BTreeSet::from([0, 4]));
    assert_eq!(accepted(&taken, [1, 0, 31, 0]).owners, BTreeSet::from([(0, 0), (0, 31), (4, 0)]));
}

/// "Cycles of structure pairs are allowed, also an area in itself". Code 5 asks for both areas, code 6 for either.
#[test]
fn point_7_area_in_itself_and_two_in_each_other() {
    let earlier = hand_made();
    for (add, remove, pair) in [
        ([5, 0, 0, 0], [6, 0, 0, 0], (0, 0)),
        ([5, 4, 2, 2], [6, 4, 2, 2], (2, 2)),
        ([5, 6, 5, 5], [6, 6, 5, 5], (5, 5)),
        ([5, 0, 0, 1], [6, 0, 0, 1], (0, 1)),
        ([5, 0, 1, 2], [6, 0, 1, 2], (1, 2)),
    ] {
        let with_it = taking_back(&earlier, add, remove).structure;
        assert_eq!(with_it, BTreeSet::from([(1, 0), (2, 1), pair]));
    }
}

/// The answers for the area and object 9 in front of the add, which comes after the accepted list, and between it and its remove.
fn answers(list: &[[u8; 4]], add: [u8; 4], remove: [u8; 4], area: u32) -> (Option<u8>, Option<u8>) {
    let between = taking_back(&from_f(list), add, remove);
    (answer(list, area), access(&between, area, 9).expect("an answer"))
}

/// Reading 14: it does not matter who gained access by the add.
#[test]
fn reading_14_access_of_others_by_the_add() {
    let in_area_1 = vec![[1, 0, 1, 0], [5, 0, 0, 1], [7, 0, 0, 9]]; // area 0, the definer, in area 1
    let far = and(row_by_exports(8), &[[5, 0, 8, 0]]); // area 8, at 8 steps, exports and lies in area 0 too
    for (list, add, remove, area, steps) in [
        (&in_area_1, [11, 0, 0, 9], [12, 0, 0, 9], 1, 1),
        (&row_by_exports(6), [11, 0, 7, 9], [12, 0, 7, 9], 8, 8),
        (&far, [9, 0, 8, 9], [10, 0, 8, 9], 9, 2),
        (&row_by_exports(8), [5, 0, 0, 2], [6, 0, 0, 2], 9, 8),
        (&lent_row(), [5, 0, 2, 0], [6, 0, 2, 0], 9, 8),
    ] {
        assert_eq!(answers(list, add, remove, area), (None, Some(steps)));
    }
}

/// Reading 14: it does not matter how long the chain is, or whether the area's access rests on the very entry. Area 8, at 8 steps.
#[test]
fn reading_14_entry_at_8_steps() {
    for (list, add, remove, earlier) in [
        (row_by_imports(7), [9, 0, 8, 9], [10, 0, 8, 9], None),
        (row_by_exports(7), [9, 0, 8, 9], [10, 0, 8, 9], Some(8)),
        (row_by_imports(8), [11, 0, 8, 9], [12, 0, 8, 9], Some(8)),
        (row_by_exports(7), [11, 0, 8, 9], [12, 0, 8, 9], Some(8)),
    ] {
        assert_eq!(answers(&list, add, remove, 8), (earlier, Some(8)));
        assert_eq!(answers(&list, add, remove, 9), (None, None));
    }
}

/// "Cycles of structure pairs are allowed": by the export of area 2 object 9 goes round, through the definer or past it.
#[test]
fn reading_14_export_that_closes_a_ring() {
    for back_to in [0, 1] {
        let open = and(row_by_exports(1), &[[5, 0, 2, back_to]]);
        let ring = taking_back(&from_f(&open), [11, 0, 2, 9], [12, 0, 2, 9]);
        assert_eq!(ring.exports, BTreeSet::from([(9, 0), (9, 1), (9, 2)]));
        for (area, steps) in [(0, 0), (1, 1), (2, 2)] {
            assert_eq!(answer(&open, area), Some(steps));
            assert_eq!(access(&ring, area, 9), Ok(Some(steps)));
        }
    }
}

/// Document 02, point 7, through the program: 0 for each line, and at the end the counts of before.
#[test]
fn point_7_program_prints_0_for_both() {
    let of_f = b"1 0 1 0\n2 0 1 0\n3 0 0 4\n4 0 0 4\n5 0 0 0\n6 0 0 0\n7 0 0 9\n8 0 0 9\n";
    assert_eq!(transcript(of_f), b"1 0\n2 0\n3 0\n4 0\n5 0\n6 0\n7 0\n8 0\nstate 1 1 0 1 0 0 0\n");
    let lending = b"1 0 1 0\n5 0 1 0\n7 0 0 9\n9 0 1 9\n10 0 1 9\n11 0 0 9\n12 0 0 9\n";
    assert_eq!(transcript(lending), b"1 0\n2 0\n3 0\n4 0\n5 0\n6 0\n7 0\nstate 1 2 1 2 1 0 0\n");
}

/// "The state after a refusal is the state given": between the add and its remove the engineers ask, and others are refused.
#[test]
fn reading_14_questions_and_refused_instructions_in_between() {
    let earlier = hand_made();
    for (add, remove, _) in SIX_ADDS {
        let between = taking_back(&earlier, add, remove);
        for (instruction, refusal) in [
            (add, 6),
            ([13, 0, 0, 0], 1),
            ([1, 9, 1, 0], 3),
            ([4, 6, 5, 6], 8),
            ([8, 0, 0, 9], 11),
        ] {
            assert_eq!(step(&between, instruction), Err(refusal));
            let looked_at = run(&between, &[instruction]);
            assert_eq!(access(&looked_at, 1, 9), Ok(Some(1)));
            assert_eq!(gives(&looked_at, remove), (0, earlier.clone()));
        }
    }
}

/// Reading 14: a refused add. Its matching remove takes out what was there before.
#[test]
fn reading_14_refused_add() {
    let earlier = from_f(&[[7, 0, 0, 9]]);
    refused(&[[7, 0, 0, 9]], [7, 0, 0, 9], 6);
    let (number, after) = gives(&earlier, [8, 0, 0, 9]);
    assert_eq!((number, &after), (0, &State::founding()));
    let judged = taken_back(&earlier, [7, 0, 0, 9], number, &after);
    assert_eq!(judged, Err("the objects were {9} and are {}".to_string()));
}

/// Reading 14: a remove with its add behind it. User 0 no longer owns area 0, and can't make himself its owner.
#[test]
fn reading_14_remove_with_its_add_behind_it() {
    let list = [[1, 0, 1, 0], [3, 0, 0, 4]];
    refused(&and(list.to_vec(), &[[4, 0, 0, 0]]), [3, 0, 0, 0], 5);
    // a remove is no add for the judge, nor is any other code
    let earlier = from_f(&list);
    for code in (0..=u8::MAX).filter(|code| ![1, 3, 5, 7, 9, 11].contains(code)) {
        let judged = taken_back(&earlier, [code, 0, 0, 0], 0, &earlier);
        assert_eq!(judged, Err(format!("[{code}, 0, 0, 0] is no add")));
    }
}

/// Reading 14: another activator, who is not listed, does not own the area, or does not own the new area.
#[test]
fn reading_14_another_activator() {
    refused(&[[7, 0, 0, 9]], [8, 4, 0, 9], 3);
    refused(&[[1, 0, 1, 0], [3, 0, 1, 4], [7, 0, 0, 9]], [8, 4, 0, 9], 5);
    refused(&[[3, 0, 0, 4], [1, 0, 1, 0]], [2, 4, 1, 0], 5);
    let (number, after) = gives(&from_f(&[[7, 0, 0, 9]]), [8, 4, 0, 9]);
    let judged = taken_back(&State::founding(), [7, 0, 0, 9], number, &after);
    assert_eq!(judged, Err("the remove behind [7, 0, 0, 9] was refused with 3".to_string()));
}

/// Reading 14: another instruction, accepted between the add and its remove. The remove is refused, or leaves what the other did.
#[test]
fn reading_14_another_accepted_instruction_in_between() {
    let inner: &[[u8; 4]] = &[[1, 0, 1, 0], [7, 0, 0, 9], [5, 0, 1, 0]]; // area 1 in area 0, which defines 9
    let outer: &[[u8; 4]] = &[[1, 0, 1, 0], [7, 0, 0, 9], [5, 0, 0, 1]]; // area 0 in area 1
    for (list, add, other, remove, refusal) in [
        (&[][..], [1, 0, 1, 0], [7, 0, 1, 9], [2, 0, 1, 0], 9),
        (&[], [3, 0, 0, 4], [4, 4, 0, 0], [4, 0, 0, 4], 3),
        (&inner[..2], [5, 0, 1, 0], [9, 0, 1, 9], [6, 0, 1, 0], 11),
        (&[], [7, 0, 0, 9], [11, 0, 0, 9], [8, 0, 0, 9], 11),
        (inner, [9, 0, 1, 9], [11, 0, 1, 9], [10, 0, 1, 9], 11),
        (outer, [11, 0, 0, 9], [11, 0, 1, 9], [12, 0, 0, 9], 11),
    ] {
        taking_back(&from_f(list), add, remove);
        refused(&[list, &[add, other]].concat(), remove, refusal);
    }
    let (number, after) = gives(&from_f(&[[1, 0, 1, 0], [1, 0, 2, 0]]), [2, 0, 1, 0]);
    let judged = taken_back(&State::founding(), [1, 0, 1, 0], number, &after);
    assert_eq!(judged, Err("the areas were {0} and are {0, 2}".to_string()));
}

/// For each list and relation of `hand_made`, by the judge's word for it: a number or a pair more, and in the next row one less.
const TRACES: [(&str, Change); 16] = [
    ("users", |state| _ = state.users.insert(7)),
    ("users", |state| _ = state.users.remove(&6)),
    ("areas", |state| _ = state.areas.insert(3)),
    ("areas", |state| _ = state.areas.remove(&5)),
    ("objects", |state| _ = state.objects.insert(3)),
    ("objects", |state| _ = state.objects.remove(&8)),
    ("owner pairs", |state| _ = state.owners.insert((7, 2))),
    ("owner pairs", |state| _ = state.owners.remove(&(4, 2))),
    ("definition pairs", |state| _ = state.definitions.insert((3, 2))),
    ("definition pairs", |state| _ = state.definitions.remove(&(8, 2))),
    ("structure pairs", |state| _ = state.structure.insert((0, 2))),
    ("structure pairs", |state| _ = state.structure.remove(&(2, 1))),
    ("import pairs", |state| _ = state.imports.insert((9, 2))),
    ("import pairs", |state| _ = state.imports.remove(&(9, 1))),
    ("export pairs", |state| _ = state.exports.insert((8, 1))),
    ("export pairs", |state| _ = state.exports.remove(&(8, 2))),
];

/// Document 02, point 7: "gives the earlier state in every field".
#[test]
fn point_7_judge_finds_a_trace_in_every_field() {
    let earlier = hand_made();
    for rows in TRACES.chunks(2) {
        let (field, more, less) = (rows[0].0, rows[0].1, rows[1].1);
        let another = changed(&changed(&earlier, more), less); // one in place of the other
        for after in [changed(&earlier, more), changed(&earlier, less), another] {
            assert_ne!(after, earlier);
            for (add, _, _) in SIX_ADDS {
                let trace = taken_back(&earlier, add, 0, &after).expect_err("a trace");
                assert!(trace.starts_with(&format!("the {field} were {{")), "{trace}");
            }
        }
    }
}

/// Document 02, point 7: "is always accepted": no number but 0, whatever the state beside it.
#[test]
fn point_7_judge_finds_every_refusal() {
    let earlier = hand_made();
    for (add, _, change) in SIX_ADDS {
        let between = changed(&earlier, change);
        for number in 1..=u8::MAX {
            let judged = Err(format!("the remove behind {add:?} was refused with {number}"));
            assert_eq!(taken_back(&earlier, add, number, &earlier), judged);
            assert_eq!(taken_back(&earlier, add, number, &between), judged);
        }
    }
}

/// What the judge says of a user, a pair and an area that are left.
#[test]
fn point_7_judge_says_what_is_different() {
    let f = State::founding();
    let left: [(Change, &str, &str, &str); 3] = [
        (|state| _ = state.users.insert(4), "users", "{0}", "{0, 4}"),
        (|state| _ = state.exports.insert((9, 0)), "export pairs", "{}", "{(9, 0)}"),
        (|state| _ = state.areas.insert(1), "areas", "{0}", "{0, 1}"),
    ];
    for (change, field, were, are) in left {
        let judged = taken_back(&f, [3, 0, 0, 4], 0, &changed(&f, change));
        assert_eq!(judged, Err(format!("the {field} were {were} and are {are}")));
    }
}

/// By hand, with d, r and the numbers of `small_states_are_1620`. The 3 sets of owners of one area have 4 owners in all, so over the 9
/// sets of two areas each has 12. Beside the owners there are 2 * 2 * 3 = 12 choices with one area, and 16 + 160 = 176 with two.
/// Code 1: the second area, 4 * 12 = 48.
/// Code 3: the other user, where an area has one owner, 2 * 12 + 2 * 6 * 176 = 2,136. In 2 * 12 + 2 * 2 * 176 = 728 of these one user
/// owns all, and the other is listed by the add.
/// Code 5: with one area 4 * 6. With two, (a, a) is missing in 88 of 176, 2 * 12 * 88. Another pair is missing in
/// 8 + 4 * (2 + 6) + 4 * (2 + 5) = 68, and over the 9 sets the two areas have 8 common owners, 2 * 8 * 68. Together 3,224.
/// Code 7: 2 * 2 choices have no object with one area, and 16 with two, 4 * 4 + 2 * 12 * 16 = 400.
/// Codes 9 and 11 by the pairs (d, r) and (r, d) again: neither, the first alone, the second alone, both.
/// Code 9: by r only, 2 * 12 * 4 * (0 + 2 + 2 + 3) = 672.
/// Code 11: with one area 4 * 4; by d 2 * 12 * 4 * (1 + 1 + 3 + 3), by r 2 * 12 * 4 * (0 + 2 + 2 + 3). Together 1,456.
#[test]
fn point_7_at_every_small_state() {
    let mut taken: BTreeMap<u8, u32> = BTreeMap::new();
    let mut users_by_the_add = 0;
    for state in small_states() {
        for &add in &small_instructions() {
            if let (Some(remove), Ok(next)) = (matching_remove(add), step(&state, add)) {
                assert_eq!(taking_back(&state, add, remove), next);
                *taken.entry(add[0]).or_default() += 1;
                users_by_the_add += next.users.len() - state.users.len();
            }
        }
    }
    let by_hand = BTreeMap::from([(1, 48), (3, 2136), (5, 3224), (7, 400), (9, 672), (11, 1456)]);
    assert_eq!(taken, by_hand);
    assert_eq!(users_by_the_add, 728);
}

/// Document 02, point 7: "always accepted", after each accepted add of lists in disorder, on a row at whose end areas are 7, 8 and 9
/// steps off, and on four areas of three users.
#[test]
fn point_7_after_lists_in_disorder() {
    type Pick = fn(&State, [u8; 4]) -> [u8; 4];
    let starts: [(&[[u8; 4]], Pick); 2] = [(&lent_row(), |_, four| of_another(u8::MAX, four)), (FOUR_AREAS, often_own_import)];
    let mut bytes = disorder();
    let mut taken = BTreeSet::new();
    for (list, pick) in starts.repeat(20) {
        let mut state = from_f(list);
        for four in bytes.by_ref().take(100) {
            let instruction = pick(&state, four);
            let (number, next) = gives(&state, instruction);
            if let (Some(remove), 0) = (matching_remove(instruction), number) {
                assert_eq!(taking_back(&state, instruction, remove), next);
                taken.insert(instruction[0]);
            }
            state = next;
        }
    }
    assert_eq!(taken, BTreeSet::from([1, 3, 5, 7, 9, 11]));
}

// Document 02, point 1: site recipes

/// What comes with a recipe.
fn call(activator: u8, parameters: [u8; 4]) -> Call {
    Call { activator, parameters }
}

/// Parameters that are 2 wherever an instruction uses one.
const UNUSED: [u8; 4] = [255; 4];

/// An instruction of a recipe with fixed values.
fn fixed(code: u8, a: u8, b: u8) -> [u8; 5] {
    [code, 0, a, 0, b]
}

/// Asserts the number and the place at the state and on its record, and that both stay.
fn recipe_refused(state: &State, bytes: &[u8], call: Call, number: u8, place: u8) {
    let answer = RecipeAnswer { number, place };
    assert_eq!(recipe(state, bytes, &call), (answer, state.clone()), "{bytes:?} with {call:?}");
    let record = to_record(state);
    assert_eq!(recipe_record(&record, bytes, &call), (answer, record));
}

/// Asserts that the recipe is accepted at the state and on its record, and hands the next state back.
fn recipe_accepted(state: &State, bytes: &[u8], call: Call) -> State {
    let (answer, next) = recipe(state, bytes, &call);
    assert_eq!(answer, RecipeAnswer { number: 0, place: 0 }, "{bytes:?} with {call:?}");
    assert_eq!(recipe_record(&to_record(state), bytes, &call), (answer, to_record(&next)));
    assert!(next.is_sound());
    next
}

/// Asserts that the recipe is 14 in the way given, whatever comes with the call.
fn is_14(bytes: &[u8], way: Misformed) {
    assert_eq!(misformed(bytes), Some(way), "{bytes:?}");
    for call in [call(0, [0; 4]), call(5, [0, 1, 2, 3]), call(255, UNUSED)] {
        assert_eq!(recipe_instructions(bytes, &call), None);
        recipe_refused(&State::founding(), bytes, call, 14, 0);
    }
}

/// A school in area 0. Parameter 0 is its area, 1 the area of its hall, 2 the keyholder and 3 the table.
const SCHOOL: [[u8; 5]; 9] = [
    [1, 1, 0, 0, 0],  // list the school
    [1, 1, 1, 0, 0],  // list the hall
    [5, 1, 1, 1, 0],  // the hall in the school
    [7, 1, 0, 1, 3],  // define the table in the school
    [9, 1, 1, 1, 3],  // the hall imports it
    [5, 1, 0, 0, 0],  // the school in area 0
    [11, 1, 0, 1, 3], // the school exports the table
    [3, 1, 0, 1, 2],  // the keyholder owns the school
    [3, 1, 1, 1, 2],  // and the hall
];

/// Document 02, point 1: "Opening a school means the same nine instructions each time".
#[test]
fn point_1_opening_a_school() {
    let opened = recipe_accepted(&State::founding(), &SCHOOL.concat(), call(0, [5, 6, 4, 9]));
    let by_hand = State {
        users: BTreeSet::from([0, 4]),
        areas: BTreeSet::from([0, 5, 6]),
        objects: BTreeSet::from([9]),
        owners: BTreeSet::from([(0, 0), (0, 5), (0, 6), (4, 5), (4, 6)]),
        definitions: BTreeSet::from([(9, 5)]),
        structure: BTreeSet::from([(5, 0), (6, 5)]),
        imports: BTreeSet::from([(9, 6)]),
        exports: BTreeSet::from([(9, 5)]),
    };
    assert_eq!(opened, by_hand);
    for (area, steps) in [(5, 0), (6, 1), (0, 1)] {
        assert_eq!(access(&opened, area, 9), Ok(Some(steps)));
    }
    // a second school by the same bytes
    let both = recipe_accepted(&opened, &SCHOOL.concat(), call(0, [31, 7, 4, 63]));
    assert_eq!(both.users, BTreeSet::from([0, 4]));
    assert_eq!(both.areas, BTreeSet::from([0, 5, 6, 7, 31]));
    assert_eq!(both.definitions, BTreeSet::from([(9, 5), (63, 31)]));
    assert_eq!(both.structure, BTreeSet::from([(5, 0), (6, 5), (7, 31), (31, 0)]));
    assert_eq!(both.imports, BTreeSet::from([(9, 6), (63, 7)]));
    assert_eq!(both.exports, BTreeSet::from([(9, 5), (63, 31)]));
    recipe_refused(&both, &SCHOOL.concat(), call(0, [5, 6, 4, 9]), 6, 1);
}

/// Document 02, point 1: "Each instruction is five bytes"; what the nine are with the call.
#[test]
fn point_1_nine_instructions_of_a_school() {
    let nine = [
        [1, 0, 5, 0],
        [1, 0, 6, 0],
        [5, 0, 6, 5],
        [7, 0, 5, 9],
        [9, 0, 6, 9],
        [5, 0, 5, 0],
        [11, 0, 5, 9],
        [3, 0, 5, 4],
        [3, 0, 6, 4],
    ];
    let with = call(0, [5, 6, 4, 9]);
    assert_eq!(recipe_instructions(&SCHOOL.concat(), &with), Some(nine.to_vec()));
    let opened = recipe_accepted(&State::founding(), &SCHOOL.concat(), with);
    assert_eq!(from_f(&nine), opened); // singly they give the same
    let by_8 = nine.map(|[code, _, a, b]| [code, 8, a, b]);
    let with_8 = call(8, [5, 6, 4, 9]);
    assert_eq!(recipe_instructions(&SCHOOL.concat(), &with_8), Some(by_8.to_vec()));
}

/// Document 02, point 1: "a recipe that stops at the sixth leaves a mess"; now it "runs entirely or not at all".
#[test]
fn point_1_school_refused_at_the_sixth() {
    let start = from_f(&[[1, 0, 1, 0], [3, 0, 1, 8]]); // user 8 owns area 1, and not area 0
    let with = call(8, [5, 6, 4, 9]);
    recipe_refused(&start, &SCHOOL.concat(), with, 5, 6);
    // one by one
    let nine = recipe_instructions(&SCHOOL.concat(), &with).expect("nine instructions");
    let mess = run(&start, &nine[..5]);
    assert_eq!((mess.areas.len(), step(&mess, nine[5])), (4, Err(5)));
    // by an owner of area 0
    let start = from_f(&[[1, 0, 1, 0], [3, 0, 1, 8], [3, 0, 0, 8]]);
    let opened = recipe_accepted(&start, &SCHOOL.concat(), with);
    let of_0_and_4 = [(0, 0), (0, 1), (4, 5), (4, 6)];
    let of_8 = [(8, 0), (8, 1), (8, 5), (8, 6)];
    assert_eq!(opened.owners, of_0_and_4.into_iter().chain(of_8).collect());
}

/// Document 02, point 1: "Parameters 0 to 3 and the one activator come with the call."
#[test]
fn point_1_school_with_other_parameters() {
    let f = State::founding();
    for (parameters, number, place) in [
        ([0, 6, 4, 9], 6, 1), // area 0 is listed
        ([5, 0, 4, 9], 6, 2),
        ([5, 5, 4, 9], 6, 2), // by the recipe's own first instruction
        ([5, 6, 0, 9], 6, 8), // user 0 owns the school
        ([32, 6, 4, 9], 2, 1),
        ([5, 32, 4, 9], 2, 2),
        ([5, 6, 32, 9], 2, 8),
        ([5, 6, 4, 64], 2, 4),
        ([5, 6, 32, 64], 2, 4),
        (UNUSED, 2, 1),
    ] {
        recipe_refused(&f, &SCHOOL.concat(), call(0, parameters), number, place);
    }
    recipe_refused(&from_f(&[[7, 0, 0, 9]]), &SCHOOL.concat(), call(0, [5, 6, 4, 9]), 6, 4);
    recipe_refused(&from_f(&[[1, 0, 6, 0]]), &SCHOOL.concat(), call(0, [5, 6, 4, 9]), 6, 2);
}

/// Document 02, point 1: "for a and for b a kind byte (0 fixed, 1 parameter) and a value"
#[test]
fn point_1_every_parameter_for_a_and_for_b() {
    let start = from_f(&[[1, 0, 1, 0], [1, 0, 2, 0], [1, 0, 3, 0]]);
    let with = call(0, [2, 0, 3, 1]);
    let areas = [(0, 2), (1, 0), (2, 3), (3, 1)]; // each parameter, and the area that it is
    for (a, area_a) in areas {
        for (b, area_b) in areas {
            for (five, pair) in [
                ([5, 0, a, 0, b], (a, b)),
                ([5, 0, a, 1, b], (a, area_b)),
                ([5, 1, a, 0, b], (area_a, b)),
                ([5, 1, a, 1, b], (area_a, area_b)),
            ] {
                assert_eq!(recipe_accepted(&start, &five, with).structure, BTreeSet::from([pair]));
                assert_eq!(recipe_instructions(&five, &with), Some(vec![[5, 0, pair.0, pair.1]]));
            }
        }
    }
}

/// Document 02, point 1: "a recipe of 1 to 16 instructions": area 1, areas 1 and 2, and so on. 17 are too many.
#[test]
fn point_1_one_to_sixteen_instructions() {
    let f = State::founding();
    let areas: Vec<[u8; 5]> = (1..=17).map(|area| fixed(1, area, 0)).collect();
    for last in 1..=16 {
        let listed = recipe_accepted(&f, &areas[..usize::from(last)].concat(), call(0, UNUSED));
        assert_eq!(listed.areas, (0..=last).collect());
        assert_eq!(listed.owners, (0..=last).map(|area| (0, area)).collect());
    }
    is_14(&areas.concat(), Misformed::Length);
    is_14(&[], Misformed::Length);
}

/// Document 02, point 1: "A length that is not a multiple of 5 from 5 to 80 ... is refused as 14".
#[test]
fn point_1_every_length() {
    let f = State::founding();
    let areas: Vec<u8> = (1..=18).flat_map(|area| fixed(1, area, 0)).collect();
    let lengths = [5, 10, 15, 20, 25, 30, 35, 40, 45, 50, 55, 60, 65, 70, 75, 80];
    for length in 0..=90 {
        let bytes = &areas[..length];
        if lengths.contains(&length) {
            assert_eq!(recipe_accepted(&f, bytes, call(0, UNUSED)).areas.len(), 1 + length / 5);
            recipe_refused(&f, &vec![0; length], call(0, UNUSED), 1, 1);
        } else {
            is_14(bytes, Misformed::Length);
            is_14(&vec![0; length], Misformed::Length);
        }
    }
    // none is too large to be refused, nor taken for its low bits: 256 + 5 and 256 + 9, 65,536 + 5 and 65,536 + 9
    for length in [95, 100, 160, 255, 256, 260, 261, 265, 336, 65_535, 65_536, 65_541, 65_545, 65_616] {
        let bytes: Vec<u8> = areas.iter().copied().cycle().take(length).collect();
        is_14(&bytes, Misformed::Length);
    }
}

/// The way to 14 by the byte at the position, where the other kinds are as given and the other values at most 3.
fn way_of(position: usize, kind: u8, byte: u8) -> Option<Misformed> {
    match (position, kind, byte) {
        (1 | 3, _, 2..) => Some(Misformed::Kind),
        (2 | 4, 1, 4..) => Some(Misformed::Parameter),
        _ => None,
    }
}

/// Document 02, point 1: "a kind above 1 or a parameter above 3 is refused as 14". Each of the 80 bytes in turn; code
/// 13 is in the others, so that no recipe is accepted.
#[test]
fn point_1_every_byte_at_every_position() {
    let f = State::founding();
    for (kind, five) in [(0, [13, 0, 2, 0, 3]), (1, [13, 1, 2, 1, 3])] {
        for (at, byte) in (0..80).flat_map(|at| (0..=u8::MAX).map(move |byte| (at, byte))) {
            let mut bytes = [five; 16].concat();
            bytes[at] = byte;
            let way = way_of(at % 5, kind, byte);
            assert_eq!(misformed(&bytes), way, "byte {byte} at {at}, kind {kind}");
            let (answer, after) = recipe(&f, &bytes, &call(0, [0; 4]));
            assert_eq!(answer.number == 14, way.is_some(), "byte {byte} at {at}, kind {kind}");
            assert_eq!((answer.place == 0, &after), (way.is_some(), &f));
        }
    }
}

/// Document 02, point 1: 14 in the first instruction, in the eighth and in the sixteenth; all others are accepted.
#[test]
fn point_1_one_misformed_instruction_among_sixteen() {
    let areas: Vec<[u8; 5]> = (1..=16).map(|area| fixed(1, area, 0)).collect();
    for place in [0, 7, 15] {
        for (five, way) in [
            ([1, 2, 20, 0, 0], Misformed::Kind),
            ([1, 255, 20, 0, 0], Misformed::Kind),
            ([1, 0, 20, 2, 0], Misformed::Kind),
            ([1, 0, 20, 255, 0], Misformed::Kind),
            ([1, 2, 0, 2, 0], Misformed::Kind),
            ([1, 1, 4, 0, 0], Misformed::Parameter),
            ([1, 1, 255, 0, 0], Misformed::Parameter),
            ([1, 0, 20, 1, 4], Misformed::Parameter),
            ([1, 0, 20, 1, 255], Misformed::Parameter),
            ([0, 1, 4, 1, 4], Misformed::Parameter),
        ] {
            let mut sixteen = areas.clone();
            sixteen[place] = five;
            is_14(&sixteen.concat(), way);
            is_14(&sixteen[place..].concat(), way);
            is_14(&sixteen[..=place].concat(), way);
        }
    }
}

/// The way that is named where several apply: the length, then a kind, then a parameter, wherever they stand.
#[test]
fn misformed_names_the_length_then_a_kind_then_a_parameter() {
    let (kind, parameter) = ([1, 2, 0, 0, 0], [1, 1, 4, 0, 0]);
    is_14(&[kind, parameter].concat(), Misformed::Kind);
    is_14(&[parameter, kind].concat(), Misformed::Kind);
    is_14(&[1, 1, 4, 2, 0], Misformed::Kind);
    is_14(&[1, 2, 4, 1, 4], Misformed::Kind);
    is_14(&[parameter, [1, 0, 9, 0, 0]].concat(), Misformed::Parameter);
    is_14(&[2; 4], Misformed::Length);
    is_14(&[2; 81], Misformed::Length);
    is_14(&[kind; 17].concat(), Misformed::Length);
    is_14(&[parameter; 17].concat(), Misformed::Length);
    assert_eq!(misformed(&SCHOOL.concat()), None);
}

/// Reading 15: where the kind is 0 the value is the number itself, whatever it is; so is what a parameter stands for.
#[test]
fn reading_15_fixed_value_above_3_is_no_14() {
    let f = State::founding();
    for value in 0..=u8::MAX {
        let of_a = match value {
            0 => 0,
            1..=31 => 4, // an unlisted area
            _ => 2,
        };
        let of_b = if value < 64 { 0 } else { 2 };
        for (five, parameters, number) in [
            ([7, 0, value, 0, 9], UNUSED, of_a),
            ([7, 0, 0, 0, value], UNUSED, of_b),
            ([7, 1, 2, 0, 9], [255, 255, value, 255], of_a),
            ([7, 0, 0, 1, 3], [255, 255, 255, value], of_b),
        ] {
            assert_eq!(misformed(&five), None);
            match number {
                0 => assert_eq!(recipe_accepted(&f, &five, call(0, parameters)).objects.len(), 1),
                _ => recipe_refused(&f, &five, call(0, parameters), number, 1),
            }
        }
    }
}

/// Reading 15: only where the kind is 1 must a value not be above 3.
#[test]
fn reading_15_every_value_of_kind_1() {
    let start = from_f(&[[1, 0, 1, 0]]);
    let with = call(0, [1, 0, 1, 0]);
    for (value, area) in [(0, 1), (1, 0), (2, 1), (3, 0)] {
        let of_a = recipe_accepted(&start, &[5, 1, value, 0, 0], with);
        assert_eq!(of_a.structure, BTreeSet::from([(area, 0)]));
        let of_b = recipe_accepted(&start, &[5, 0, 0, 1, value], with);
        assert_eq!(of_b.structure, BTreeSet::from([(0, area)]));
    }
    for value in 4..=u8::MAX {
        is_14(&[5, 1, value, 0, 0], Misformed::Parameter);
        is_14(&[5, 0, 0, 1, value], Misformed::Parameter);
    }
}

/// Reading 15: 14 asks nothing of a code. Each one at F, with activator, a and b 0.
#[test]
fn reading_15_every_code() {
    let f = State::founding();
    for code in 0..=u8::MAX {
        let number = match code {
            5 | 7 => 0, // area 0 in itself, object 0 in area 0
            1 | 3 => 6,
            2 | 4 => 8,
            6 => 7,
            8..=12 => 4,
            _ => 1,
        };
        for five in [[code, 0, 0, 0, 0], [code, 1, 2, 1, 2]] {
            let with = call(0, [255, 255, 0, 255]);
            match number {
                0 => assert_ne!(recipe_accepted(&f, &five, with), f),
                _ => recipe_refused(&f, &five, with, number, 1),
            }
        }
    }
}

/// An instruction at the state after the accepted list from F: its number, the list, the activator and the five bytes.
type Example = (u8, &'static [[u8; 4]], u8, [u8; 5]);

/// The lines 1 to 8 of the session that are accepted.
const LENDING_LINES: &[[u8; 4]] = &[
    [1, 0, 1, 0],
    [1, 0, 2, 0],
    [5, 0, 1, 2],
    [5, 0, 0, 2],
    [7, 0, 1, 9],
    [11, 0, 1, 9],
    [9, 0, 0, 9],
];

/// Document 01's examples of refusals 1 to 11, but for 3, and one of 15. In each the activator owns area 0.
const EXAMPLES: [Example; 11] = [
    (1, &[], 0, [13, 0, 0, 0, 0]),
    (2, &[], 0, [7, 0, 0, 0, 64]),
    (4, &[], 0, [7, 0, 6, 0, 0]),
    (5, &[[1, 0, 1, 0], [3, 0, 0, 4]], 4, [7, 0, 1, 0, 9]),
    (6, &[], 0, [1, 0, 0, 0, 0]),
    (7, &[[7, 0, 0, 9]], 0, [10, 0, 0, 0, 9]),
    (15, &[[7, 0, 0, 9]], 0, [9, 0, 0, 0, 9]),
    (8, &[], 0, [4, 0, 0, 0, 0]),
    (9, &[[1, 0, 1, 0], [7, 0, 1, 9]], 0, [2, 0, 1, 0, 0]),
    (10, &[[1, 0, 1, 0], [7, 0, 0, 9]], 0, [9, 0, 1, 0, 9]),
    (11, LENDING_LINES, 0, [12, 0, 1, 0, 9]),
];

/// As many instructions that an owner of area 0 gives: objects 20, 21 and so on in area 0.
fn definitions(count: u8) -> Vec<u8> {
    (0..count).flat_map(|more| fixed(7, 0, 20 + more)).collect()
}

/// Document 02, point 1: "the answer is its number and its place counted from 1", each number at each of the 16 places.
/// What stands behind it is not seen, though it is 1.
#[test]
fn point_1_place_of_each_number() {
    for (number, list, activator, five) in EXAMPLES {
        let start = from_f(list);
        for place in 1..=16 {
            let mut bytes = definitions(place - 1);
            bytes.extend(five);
            recipe_refused(&start, &bytes, call(activator, UNUSED), number, place);
            bytes.resize(80, 0);
            recipe_refused(&start, &bytes, call(activator, UNUSED), number, place);
        }
    }
}

/// 3 behind the first place: user 4 gives up his last area, and with it his listing.
#[test]
fn point_1_place_of_3() {
    recipe_refused(&State::founding(), &fixed(1, 1, 0), call(5, UNUSED), 3, 1);
    let start = from_f(&[[3, 0, 0, 4]]);
    for place in 2..=16 {
        let mut bytes = definitions(place - 2);
        bytes.extend(fixed(4, 0, 4));
        let given_up = recipe_accepted(&start, &bytes, call(4, UNUSED));
        assert_eq!(given_up.users, BTreeSet::from([0]));
        bytes.extend(fixed(1, 1, 0));
        recipe_refused(&start, &bytes, call(4, UNUSED), 3, place);
    }
}

/// Document 02, point 1: "If an instruction is refused, ... the state is the one given": no list and no relation moves.
#[test]
fn point_1_no_field_moves() {
    let f = State::founding();
    let ten = [&SCHOOL[..], &[fixed(0, 0, 0)]].concat(); // the nine change every list and every relation
    recipe_refused(&f, &ten.concat(), call(0, [5, 6, 4, 9]), 1, 10);
    let start = hand_made();
    recipe_refused(&start, &ten.concat(), call(0, [3, 7, 8, 9]), 6, 4);
    recipe_refused(&start, &ten.concat(), call(0, [3, 7, 8, 10]), 1, 10);
    // removes of every list and relation that user 0 can empty, and then area 5, which is user 6's
    let removes = [
        fixed(10, 1, 9),
        fixed(12, 2, 8),
        fixed(8, 2, 8),
        fixed(8, 0, 9),
        fixed(6, 2, 1),
        fixed(6, 1, 0),
        fixed(2, 1, 0),
        fixed(4, 2, 4),
        fixed(2, 5, 0),
    ];
    recipe_refused(&start, &removes.concat(), call(0, UNUSED), 5, 9);
    let emptied = recipe_accepted(&start, &removes[..8].concat(), call(0, UNUSED));
    assert_eq!((emptied.users, emptied.areas), (BTreeSet::from([0, 6]), BTreeSet::from([0, 2, 5])));
    assert!(emptied.structure.is_empty() && emptied.imports.is_empty() && emptied.exports.is_empty());
}

/// Document 02, point 1: "The place beside 0, 12 and 14 is 0"; 14 stands "after 12 and before 1".
#[test]
fn point_1_12_comes_before_14() {
    let no_owner = State {
        areas: BTreeSet::from([0, 3]),
        ..State::founding()
    };
    let own_import = State {
        imports: BTreeSet::from([(9, 0)]),
        ..from_f(&[[7, 0, 0, 9]])
    };
    for unsound in [no_owner, own_import] {
        for bytes in [
            &[][..],
            &[1, 0, 1, 0],
            &[0; 85],
            &[1, 2, 1, 0, 0],
            &[1, 0, 1, 1, 4],
            &[13, 0, 0, 0, 0],
            &[1, 0, 1, 0, 0],
            &[10, 0, 0, 0, 9],
            &SCHOOL.concat(),
        ] {
            recipe_refused(&unsound, bytes, call(0, [5, 6, 4, 9]), 12, 0);
            recipe_refused(&unsound, bytes, call(255, UNUSED), 12, 0);
        }
    }
}

/// 12: "or is not the record its relations have", before 14 and with the bytes that were given.
#[test]
fn point_1_bytes_that_are_no_record() {
    for bad in no_records() {
        for bytes in [&[][..], &[1, 2, 1, 0, 0], &[1, 0, 1, 0, 0], &[0; 5]] {
            let answer = RecipeAnswer { number: 12, place: 0 };
            assert_eq!(recipe_record(&bad, bytes, &call(0, [0; 4])), (answer, bad.clone()));
        }
    }
}

/// Document 02, point 1: 14 stands "after 12 and before 1", wherever in the recipe it comes from.
#[test]
fn reading_15_14_comes_before_every_number_of_an_instruction() {
    let of_3: Example = (3, &[], 5, [1, 0, 1, 0, 0]);
    for (number, list, activator, five) in EXAMPLES.into_iter().chain([of_3]) {
        let start = from_f(list);
        let with = call(activator, UNUSED);
        recipe_refused(&start, &five, with, number, 1);
        for (kind_a, a, kind_b, b) in [(2, 0, 0, 0), (0, 0, 2, 0), (1, 4, 0, 0), (0, 0, 1, 4)] {
            let last = [1, kind_a, a, kind_b, b];
            recipe_refused(&start, &[five, last].concat(), with, 14, 0);
            recipe_refused(&start, &[last, five].concat(), with, 14, 0);
            let mut sixteen = [five; 16];
            sixteen[15] = last;
            recipe_refused(&start, &sixteen.concat(), with, 14, 0);
        }
        recipe_refused(&start, &[&five[..], &[1]].concat(), with, 14, 0);
        recipe_refused(&start, &[five; 17].concat(), with, 14, 0);
    }
}

/// Reading 15: 12, 14, 1 to 7, 15, 8 to 11.
#[test]
fn reading_15_order_of_checks() {
    assert_eq!(order_of_recipe_checks(), [12, 14, 1, 2, 3, 4, 5, 6, 7, 15, 8, 9, 10, 11]);
    assert_eq!(order_of_checks(), [12, 1, 2, 3, 4, 5, 6, 7, 15, 8, 9, 10, 11]);
}

/// Reading 15: its two examples, and an unknown code at place 3, which is seen only if places 1 and 2 are accepted.
#[test]
fn reading_15_examples() {
    let f = State::founding();
    recipe_refused(&f, &[7, 0, 0, 0, 9, 9, 0, 0, 0, 9], call(0, UNUSED), 15, 2);
    recipe_refused(&f, &[13, 0, 0, 0, 0, 1, 2, 0, 0, 0], call(0, UNUSED), 14, 0);
    let (area_1, area_2, unknown) = (fixed(1, 1, 0), fixed(1, 2, 0), fixed(99, 0, 0));
    recipe_refused(&f, &[area_1, area_2, unknown].concat(), call(0, UNUSED), 1, 3);
    recipe_refused(&f, &[fixed(1, 0, 0), area_2, unknown].concat(), call(0, UNUSED), 6, 1);
    recipe_refused(&f, &[area_1, area_1, unknown].concat(), call(0, UNUSED), 6, 2);
    // each in the state that those before it give: area 1 is listed behind code 1, and not in front of it
    let in_turn = [area_1, fixed(7, 1, 9), fixed(5, 1, 0), fixed(11, 1, 9)];
    let turned = recipe_accepted(&f, &in_turn.concat(), call(0, UNUSED));
    assert_eq!((turned.exports, access(&f, 1, 9)), (BTreeSet::from([(9, 1)]), Err(4)));
    recipe_refused(&f, &[fixed(7, 1, 9), area_1].concat(), call(0, UNUSED), 4, 1);
    recipe_refused(&f, &[area_1, fixed(5, 1, 2), area_2].concat(), call(0, UNUSED), 4, 2);
}

/// Document 02, point 1: "the one activator". Above 31 he is 2, unlisted 3, and both at the first place.
#[test]
fn point_1_every_activator() {
    let f = State::founding();
    let three = [fixed(1, 1, 0), fixed(1, 2, 0), fixed(7, 1, 9)].concat();
    for activator in 1..=u8::MAX {
        let number = if activator > 31 { 2 } else { 3 };
        recipe_refused(&f, &three, call(activator, [0; 4]), number, 1);
        recipe_refused(&f, &[0; 80], call(activator, [0; 4]), 1, 1); // an unknown code is 1 all the same
        recipe_refused(&f, &[1, 2, 0, 0, 0], call(activator, [0; 4]), 14, 0);
    }
    let of_0 = recipe_accepted(&f, &three, call(0, UNUSED));
    assert_eq!(of_0.owners, BTreeSet::from([(0, 0), (0, 1), (0, 2)]));
    // he is the activator of each instruction
    let of_4 = recipe_accepted(&from_f(&[[3, 0, 0, 4]]), &three, call(4, UNUSED));
    assert_eq!(of_4.owners, BTreeSet::from([(0, 0), (4, 0), (4, 1), (4, 2)]));
    let start = from_f(&[[1, 0, 3, 0], [3, 0, 3, 4]]); // user 4 owns area 3, and not area 0
    let four = [&three[..], &fixed(7, 0, 8)].concat();
    recipe_refused(&start, &four, call(4, UNUSED), 5, 4);
}

/// Reading 15: "b not 0 for codes 1 and 2" is about what the kind and the value stand for.
#[test]
fn reading_15_b_of_codes_1_and_2() {
    let start = from_f(&[[1, 0, 1, 0]]);
    for (code, a, areas) in [(1, 2, vec![0, 1, 2]), (2, 1, vec![0])] {
        let areas = BTreeSet::from_iter(areas);
        assert_eq!(recipe_accepted(&start, &[code, 0, a, 0, 0], call(0, UNUSED)).areas, areas);
        for parameter in 0..4 {
            let mut zero = UNUSED;
            zero[usize::from(parameter)] = 0;
            assert_eq!(recipe_accepted(&start, &[code, 0, a, 1, parameter], call(0, zero)).areas, areas);
            for b in 1..=u8::MAX {
                let mut other = [0; 4];
                other[usize::from(parameter)] = b;
                recipe_refused(&start, &[code, 0, a, 1, parameter], call(0, other), 2, 1);
            }
        }
        for b in 1..=u8::MAX {
            recipe_refused(&start, &[code, 0, a, 0, b], call(0, [0; 4]), 2, 1);
        }
    }
}

/// Reading 15: a parameter that no instruction uses may be anything.
#[test]
fn reading_15_unused_parameters() {
    let f = State::founding();
    for content in 0..=u8::MAX {
        let of_none = recipe_accepted(&f, &fixed(7, 0, 3), call(0, [content; 4]));
        assert_eq!(of_none.objects, BTreeSet::from([3]));
        for used in 0..4 {
            let mut parameters = [content; 4];
            parameters[usize::from(used)] = 6;
            let of_one = recipe_accepted(&f, &[7, 0, 0, 1, used], call(0, parameters));
            assert_eq!(of_one.objects, BTreeSet::from([6]));
        }
    }
}

/// "Code 3 lists user b if unlisted. Codes 2 and 4 unlist a user who owns no area afterwards": both within one recipe.
#[test]
fn point_1_user_listed_and_unlisted_within_a_recipe() {
    let f = State::founding();
    let (owner, no_owner) = ([3, 0, 0, 1, 2], [4, 0, 0, 1, 2]);
    let with = call(0, [255, 255, 4, 255]);
    assert_eq!(recipe_accepted(&f, &owner, with).users, BTreeSet::from([0, 4]));
    assert_eq!(recipe_accepted(&f, &[owner, no_owner].concat(), with), f);
    recipe_refused(&f, &no_owner, with, 4, 1); // user 4 is not listed yet
    recipe_refused(&f, &[owner, no_owner, no_owner].concat(), with, 4, 3); // and no more
    recipe_refused(&f, &[owner, owner].concat(), with, 6, 2);
    let again = recipe_accepted(&f, &[owner, no_owner, owner].concat(), with);
    assert_eq!(again.users, BTreeSet::from([0, 4]));
    // the owner of two areas is unlisted with the second
    let of_two = [fixed(1, 1, 0), owner, fixed(3, 1, 4), no_owner];
    assert_eq!(recipe_accepted(&f, &of_two.concat(), with).users, BTreeSet::from([0, 4]));
    let of_none = [&of_two[..], &[fixed(4, 1, 4)]].concat();
    assert_eq!(recipe_accepted(&f, &of_none.concat(), with).users, BTreeSet::from([0]));
    // the activator hands his only area over; what he gives behind that is 3
    let handed_over = recipe_accepted(&f, &[owner, fixed(4, 0, 0)].concat(), with);
    assert_eq!(
        (handed_over.users, handed_over.owners),
        (BTreeSet::from([4]), BTreeSet::from([(4, 0)]))
    );
    recipe_refused(&f, &[owner, fixed(4, 0, 0), fixed(5, 0, 0)].concat(), with, 3, 3);
}

/// Document 02, point 7, within a recipe: an add, and at once its remove.
#[test]
fn point_1_adds_and_removes_in_one_recipe() {
    let start = hand_made();
    for ([add, activator, a, b], [remove, ..], change) in SIX_ADDS {
        let (add, remove) = (fixed(add, a, b), fixed(remove, a, b));
        let with = call(activator, UNUSED);
        assert_eq!(recipe_accepted(&start, &add, with), changed(&start, change));
        assert_eq!(recipe_accepted(&start, &[add, remove].concat(), with), start);
        assert_eq!(recipe_accepted(&start, &[add, remove, add].concat(), with), changed(&start, change));
        recipe_refused(&start, &[add, add, remove].concat(), with, 6, 2);
    }
    // all six by user 0, and then their removes, that of the last add first
    let adds = [
        fixed(1, 3, 0),
        fixed(3, 3, 7),
        fixed(5, 3, 0),
        fixed(7, 3, 9),
        fixed(9, 0, 8),
        fixed(11, 3, 9),
    ];
    let in_area_2 = from_f(&[[1, 0, 2, 0], [5, 0, 0, 2], [7, 0, 2, 8]]); // area 0 in area 2, which defines 8
    let with = call(0, UNUSED);
    let take_back = |five: [u8; 5]| fixed(five[0] + 1, five[2], five[4]);
    let twelve: Vec<[u8; 5]> = adds.into_iter().chain(adds.into_iter().rev().map(take_back)).collect();
    assert_eq!(recipe_accepted(&in_area_2, &twelve.concat(), with), in_area_2);
    let six = recipe_accepted(&in_area_2, &adds.concat(), with);
    assert_eq!((six.imports, six.exports), (BTreeSet::from([(8, 0)]), BTreeSet::from([(9, 3)])));
    recipe_refused(&in_area_2, &[&twelve[..6], &[take_back(adds[0])]].concat().concat(), with, 9, 7);
}

/// What the instructions give one by one, up to the first refusal: number, place and state. After a refusal the state
/// is the one given.
fn one_by_one(state: &State, list: &[[u8; 4]]) -> (u8, u8, State) {
    let mut now = state.clone();
    for (place, &instruction) in (1..).zip(list) {
        match gives(&now, instruction) {
            (0, next) => now = next,
            (number, _) => return (number, place, state.clone()),
        }
    }
    (0, 0, now)
}

/// Code, a and b of twelve instructions over the small numbers, one of each code.
const SMALL: [[u8; 3]; 12] = [
    [1, 1, 0],
    [2, 1, 0],
    [3, 0, 1],
    [4, 0, 0],
    [5, 1, 0],
    [6, 1, 0],
    [7, 0, 0],
    [8, 0, 0],
    [9, 1, 0],
    [10, 1, 0],
    [11, 0, 0],
    [12, 0, 0],
];

/// Document 02, point 1: "runs entirely or not at all". By both users, each two of `SMALL`; behind a refused first
/// instruction one second is enough.
#[test]
fn point_1_two_instructions_at_every_small_state() {
    let mut seen = BTreeSet::new();
    for (state, activator) in small_states().iter().flat_map(|state| [(state, 0), (state, 1)]) {
        for [code, a, b] in SMALL {
            let first = [code, activator, a, b];
            let seconds = if step(state, first).is_ok() { SMALL.len() } else { 1 };
            for &[next_code, next_a, next_b] in &SMALL[..seconds] {
                let bytes = [fixed(code, a, b), fixed(next_code, next_a, next_b)].concat();
                let (answer, after) = recipe(state, &bytes, &call(activator, UNUSED));
                let expected = one_by_one(state, &[first, [next_code, activator, next_a, next_b]]);
                assert_eq!((answer.number, answer.place, after), expected, "{bytes:?} at {state:?}");
                seen.insert((answer.number, answer.place));
            }
        }
    }
    let numbers = [3, 4, 5, 6, 7, 8, 9, 10, 11, 15];
    let by_hand = numbers.into_iter().flat_map(|number| [(number, 1), (number, 2)]);
    assert_eq!(seen, by_hand.chain([(0, 0)]).collect());
}

/// Every add with its remove, and every add twice. How many are accepted stands at `point_7_at_every_small_state`.
#[test]
fn point_1_adds_at_every_small_state() {
    let adds = small_instructions()
        .into_iter()
        .filter_map(|add| Some((add, matching_remove(add)?)));
    let adds: Vec<([u8; 4], [u8; 4])> = adds.collect();
    let mut taken: BTreeMap<u8, u32> = BTreeMap::new();
    for state in small_states() {
        for &([code, activator, a, b], [remove, ..]) in &adds {
            let (add, remove) = (fixed(code, a, b), fixed(remove, a, b));
            let (answer, after) = recipe(&state, &[add, remove].concat(), &call(activator, UNUSED));
            assert_eq!(after, state); // taken back, or not given
            if answer.number == 0 {
                *taken.entry(code).or_default() += 1;
                let twice = recipe(&state, &[add, add].concat(), &call(activator, UNUSED));
                assert_eq!(twice, (RecipeAnswer { number: 6, place: 2 }, state.clone()));
            } else {
                assert_eq!(answer.place, 1);
            }
        }
    }
    let by_hand = BTreeMap::from([(1, 48), (3, 2136), (5, 3224), (7, 400), (9, 672), (11, 1456)]);
    assert_eq!(taken, by_hand);
}

/// The instructions of a recipe, byte by byte; `None` for one that is 14.
fn spelled_out(bytes: &[u8], call: &Call) -> Option<Vec<[u8; 4]>> {
    let count = (1..=16).find(|count| 5 * count == bytes.len())?;
    let number = |at: usize| match (bytes[at], bytes[at + 1]) {
        (0, value) => Some(value),
        (1, 0) => Some(call.parameters[0]),
        (1, 1) => Some(call.parameters[1]),
        (1, 2) => Some(call.parameters[2]),
        (1, 3) => Some(call.parameters[3]),
        _ => None,
    };
    let instruction = |at: usize| Some([bytes[at], call.activator, number(at + 1)?, number(at + 3)?]);
    (0..count).map(|place| instruction(5 * place)).collect()
}

/// An instruction of a recipe on a few users, areas and objects, or parameters.
fn few_numbers([code, a, b, kinds]: [u8; 4]) -> [u8; 5] {
    let code = 1 + code % 12;
    let operand = |kind: bool, value: u8| if kind { (1, value % 4) } else { (0, value % 5) };
    let (kind_a, a) = operand(kinds % 3 == 0, a);
    let (kind_b, b) = operand(kinds % 4 == 0, if code < 3 { 0 } else { b });
    [code, kind_a, a, kind_b, b]
}

/// A recipe of up to 16 instructions, most of which are accepted. In every fourth one of them is any, in every eighth a
/// byte, and in every eighth the length may be another.
fn often_accepted(state: &State, bytes: &mut impl Iterator<Item = [u8; 4]>) -> (Vec<u8>, Call) {
    let [count, user, at, other] = bytes.next().expect("four bytes");
    let parameters = bytes.next().expect("four bytes").map(|byte| byte % 5);
    let with = call([0, 0, 0, 0, 1, 1, 2, 3][usize::from(user) % 8], parameters);
    let mut now = state.clone();
    let mut fives = Vec::new();
    for _ in 0..=count % 16 {
        let tries: Vec<[u8; 5]> = bytes.take(20).map(few_numbers).collect();
        let next_of = |five: &[u8; 5]| step(&now, spelled_out(five, &with)?[0]).ok();
        let (five, next) = tries
            .iter()
            .find_map(|five| Some((*five, next_of(five)?)))
            .unwrap_or((tries[0], now.clone()));
        fives.push(five);
        now = next;
    }
    let place = usize::from(other) % fives.len();
    match at % 8 {
        0 | 1 => fives[place] = few_numbers(bytes.next().expect("four bytes")),
        2 => fives[place][usize::from(at / 8) % 5] = other,
        _ => {}
    }
    let missing = if at % 8 == 3 { usize::from(other) % 3 } else { 0 };
    (fives.concat()[missing..].to_vec(), with)
}

/// Document 02, point 1, over recipes in disorder: the answer and the state are those of the instructions one by one.
#[test]
fn point_1_recipes_in_disorder() {
    let mut bytes = disorder();
    let mut state = from_f(FOUR_AREAS);
    let mut seen: BTreeMap<(u8, u8), u32> = BTreeMap::new();
    for turn in 0..1000 {
        if turn % 10 == 0 {
            state = from_f(FOUR_AREAS);
        }
        let (recipe_bytes, with) = often_accepted(&state, &mut bytes);
        let spelled = spelled_out(&recipe_bytes, &with);
        assert_eq!(recipe_instructions(&recipe_bytes, &with), spelled);
        assert_eq!(misformed(&recipe_bytes).is_some(), spelled.is_none());
        let expected = match spelled {
            Some(list) => one_by_one(&state, &list),
            None => (14, 0, state.clone()),
        };
        let (answer, after) = recipe(&state, &recipe_bytes, &with);
        assert_eq!((answer.number, answer.place, &after), (expected.0, expected.1, &expected.2));
        assert!(after.is_sound());
        *seen.entry((answer.number, answer.place)).or_default() += 1;
        state = after;
    }
    let numbers: BTreeSet<u8> = seen.keys().map(|&(number, _)| number).collect();
    assert_eq!(numbers, BTreeSet::from([0, 1, 2, 3, 4, 5, 6, 7, 8, 9, 10, 11, 14, 15]));
    let places: BTreeSet<u8> = seen.keys().map(|&(_, place)| place).collect();
    assert!(places.is_superset(&(0..=12).collect()), "{places:?}");
    assert!(seen[&(0, 0)] > 200 && seen[&(14, 0)] > 100, "{seen:?}");
}

/// A recipe of the activator, with fixed values, as a command.
fn command(activator: u8, fives: &[[u8; 5]]) -> Command {
    let (bytes, call) = (fives.concat(), call(activator, UNUSED));
    Command::Recipe { bytes, call }
}

/// Area 1 of user 4 lies in area 0 of user 0 and imports object 9 from it.
fn lent() -> State {
    from_f(&[[3, 0, 0, 4], [1, 4, 1, 0], [5, 4, 1, 0], [4, 4, 0, 4], [7, 0, 0, 9], [9, 4, 1, 9]])
}

/// The state of a mixed list: accepted and refused instructions, accepted and refused recipes.
#[test]
fn point_1_mixed_list() {
    let school = Command::Recipe {
        bytes: SCHOOL.concat(),
        call: call(0, [5, 6, 4, 9]),
    };
    let list = [
        Command::Single([1, 0, 1, 0]),
        command(0, &[fixed(1, 2, 0), fixed(7, 2, 8)]),
        command(0, &[fixed(1, 3, 0), fixed(7, 2, 8)]), // 6 at place 2
        Command::Single([8, 0, 1, 8]),                 // 7
        command(0, &[]),                               // 14
        school.clone(),
        school, // 6 at place 1
        Command::Single([5, 0, 2, 1]),
    ];
    let by_hand = State {
        users: BTreeSet::from([0, 4]),
        areas: BTreeSet::from([0, 1, 2, 5, 6]),
        objects: BTreeSet::from([8, 9]),
        owners: BTreeSet::from([(0, 0), (0, 1), (0, 2), (0, 5), (0, 6), (4, 5), (4, 6)]),
        definitions: BTreeSet::from([(8, 2), (9, 5)]),
        structure: BTreeSet::from([(2, 1), (5, 0), (6, 5)]),
        imports: BTreeSet::from([(9, 6)]),
        exports: BTreeSet::from([(9, 5)]),
    };
    let f = State::founding();
    assert_eq!(run_commands(&f, &list), by_hand);
    let singles = [[1, 0, 1, 0], [1, 0, 2, 0], [7, 0, 2, 8], [8, 0, 1, 8]];
    let nine = recipe_instructions(&SCHOOL.concat(), &call(0, [5, 6, 4, 9])).expect("nine instructions");
    assert_eq!(counted(&f, &list), [&singles[..], &nine, &[[5, 0, 2, 1]]].concat());
    assert_eq!((run_commands(&f, &[]), counted(&f, &[])), (f, vec![]));
}

/// Document 02, point 1: "an accepted recipe counts as its instructions", by the state in which it is given.
#[test]
fn point_1_recipe_counts_where_it_is_accepted() {
    let f = State::founding();
    let listing = command(0, &[fixed(1, 2, 0), fixed(5, 2, 0)]);
    let list = [
        listing.clone(),
        listing.clone(), // 6 at place 1
        Command::Single([6, 0, 2, 0]),
        listing.clone(), // 6 at place 1
        Command::Single([2, 0, 2, 0]),
        listing,
    ];
    let by_hand = [[1, 0, 2, 0], [5, 0, 2, 0], [6, 0, 2, 0], [2, 0, 2, 0], [1, 0, 2, 0], [5, 0, 2, 0]];
    assert_eq!(counted(&f, &list), by_hand);
    assert_eq!(run_commands(&f, &list), from_f(&by_hand));
    // what is taken back within the recipe counts too
    let taken_back = [command(0, &[fixed(3, 0, 4), fixed(4, 0, 4)])];
    assert_eq!(counted(&f, &taken_back), [[3, 0, 0, 4], [4, 0, 0, 4]]);
    assert_eq!(run_commands(&f, &taken_back), f);
}

/// Document 02, point 1: "a refused one as none", whatever refuses it. An instruction by itself counts all the same.
#[test]
fn reading_15_what_a_refused_recipe_counts_as() {
    let start = lent();
    let import_back = fixed(10, 1, 9); // user 4 could take his import back
    for (fives, number, place) in [
        (vec![import_back, fixed(13, 0, 0)], 1, 2),
        (vec![import_back, fixed(7, 1, 64)], 2, 2),
        (vec![import_back, fixed(7, 0, 8)], 5, 2),
        (vec![import_back, import_back], 7, 2),
        (vec![import_back, [1, 2, 0, 0, 0]], 14, 0),
        (vec![import_back, [1, 1, 4, 0, 0]], 14, 0),
        (vec![import_back; 17], 14, 0),
        (vec![], 14, 0),
    ] {
        recipe_refused(&start, &fives.concat(), call(4, UNUSED), number, place);
        assert_eq!(counted(&start, &[command(4, &fives)]), [[0; 4]; 0]);
        assert_eq!(run_commands(&start, &[command(4, &fives)]), start);
    }
    for refused in [[13, 4, 0, 0], [1, 4, 0, 0], [1, 99, 2, 0]] {
        assert_eq!(counted(&start, &[Command::Single(refused)]), [refused]);
    }
    let unsound = with_import(&start, 0);
    let both = [command(4, &[import_back]), Command::Single([10, 4, 1, 9])]; // both are 12
    assert_eq!(
        (run_commands(&unsound, &both), counted(&unsound, &both)),
        (unsound, vec![[10, 4, 1, 9]])
    );
}

/// An area whose owner gives refused recipes alone keeps the guarantee: no one of the list that counts is his.
#[test]
fn point_1_lending_guarantee_hears_no_refused_recipe() {
    let start = lent();
    let list = [
        command(4, &[fixed(10, 1, 9), fixed(13, 0, 0)]), // 1 at place 2
        Command::Single([6, 0, 1, 0]),                   // 11: it would cut area 1 off
        command(0, &[fixed(11, 0, 9), fixed(8, 0, 9)]),  // 11 at place 2
        command(0, &[fixed(7, 0, 8), fixed(11, 0, 9)]),
        command(4, &[fixed(4, 1, 4)]), // 8 at place 1
    ];
    let after = run_commands(&start, &list);
    let by_hand = changed(&start, |state| {
        state.objects.insert(8);
        state.definitions.insert((8, 0));
        state.exports.insert((9, 0));
    });
    assert_eq!(after, by_hand);
    let counts = [[6, 0, 1, 0], [7, 0, 0, 8], [11, 0, 0, 9]];
    assert_eq!(counted(&start, &list), counts);
    assert!(counts.iter().all(|&[_, activator, ..]| !start.owners.contains(&(activator, 1))));
    assert_eq!(lending_guarantee(&start, &counts, &after, 1), Ok(()));
    assert_eq!(lending_guarantee_of_commands(&start, &list, &after, 1), Ok(()));
    // states that break it; were user 4 heard, nothing would be said of his area
    let no_import = changed(&after, |state| _ = state.imports.remove(&(9, 1)));
    let no_pair = changed(&after, |state| _ = state.structure.remove(&(1, 0)));
    let new_owner = changed(&after, |state| _ = state.owners.insert((0, 1)));
    for broken in [no_import, no_pair, new_owner] {
        assert!(lending_guarantee_of_commands(&start, &list, &broken, 1).is_err());
        let with_his = [&counts[..], &[[10, 4, 1, 9]]].concat();
        assert_eq!(lending_guarantee(&start, &with_his, &broken, 1), Ok(()));
        let single = [&list[..], &[Command::Single([13, 4, 0, 0])]].concat(); // he is heard in a refused instruction
        assert_eq!(lending_guarantee_of_commands(&start, &single, &broken, 1), Ok(()));
    }
}

/// An owner changes his own area by an accepted recipe: he is heard, and the guarantee says nothing of it.
#[test]
fn point_1_lending_guarantee_hears_an_accepted_recipe() {
    let start = lent();
    let list = [command(4, &[fixed(7, 1, 8), fixed(10, 1, 9)]), Command::Single([6, 0, 1, 0])];
    let after = run_commands(&start, &list);
    let by_hand = changed(&start, |state| {
        state.objects.insert(8);
        state.definitions.insert((8, 1));
        state.imports.remove(&(9, 1));
        state.structure.remove(&(1, 0));
    });
    assert_eq!(after, by_hand);
    assert_eq!(counted(&start, &list), [[7, 4, 1, 8], [10, 4, 1, 9], [6, 0, 1, 0]]);
    assert_eq!(lending_guarantee_of_commands(&start, &list, &after, 1), Ok(()));
    // were user 4 not heard, the lost import would be a breach
    assert!(lending_guarantee(&start, &[[6, 0, 1, 0]], &after, 1).is_err());
    // of his recipe alone area 0, which is user 0's, keeps all
    let of_4 = &list[..1];
    assert_eq!(lending_guarantee_of_commands(&start, of_4, &run_commands(&start, of_4), 0), Ok(()));
    let moved = changed(&start, |state| _ = state.definitions.remove(&(9, 0)));
    assert!(lending_guarantee_of_commands(&start, of_4, &moved, 0).is_err());
    // he is heard too in an accepted recipe that leaves the state as it was
    let both = [command(4, &[fixed(3, 1, 7), fixed(4, 1, 7)])];
    assert_eq!(run_commands(&start, &both), start);
    let no_import = changed(&start, |state| _ = state.imports.remove(&(9, 1)));
    assert_eq!(lending_guarantee_of_commands(&start, &both, &no_import, 1), Ok(()));
}

/// The pairs of a relation that end with the area.
fn with_area(pairs: &BTreeSet<(u8, u8)>, area: u8) -> Vec<(u8, u8)> {
    pairs.iter().copied().filter(|pair| pair.1 == area).collect()
}

/// The area's owner, definition, import and export pairs.
fn kept(state: &State, area: u8) -> [Vec<(u8, u8)>; 4] {
    let relations = [&state.owners, &state.definitions, &state.imports, &state.exports];
    relations.map(|pairs| with_area(pairs, area))
}

/// At every small state one user gives refused recipes alone, each of `SMALL` with an unknown code behind it, and the
/// other everything: what the first one alone owns stays.
#[test]
fn point_1_lending_guarantee_at_every_small_state() {
    let mut areas = 0;
    for (start, silent) in small_states().iter().flat_map(|state| [(state, 0), (state, 1)]) {
        let own: Vec<u8> = (0..2).filter(|&area| with_area(&start.owners, area) == [(silent, area)]).collect();
        if own.is_empty() {
            continue;
        }
        let mut list = Vec::new();
        for [code, a, b] in SMALL {
            let (five, other) = (fixed(code, a, b), 1 - silent);
            list.extend([command(silent, &[five, fixed(0, 0, 0)]), Command::Single([code, other, a, b])]);
            list.push(command(other, &[five, fixed(5, 0, 0), fixed(6, 0, 0)]));
        }
        let (after, counts) = (run_commands(start, &list), counted(start, &list));
        assert!(counts.iter().all(|&[_, activator, ..]| activator != silent));
        for &area in &start.areas {
            assert_eq!(lending_guarantee(start, &counts, &after, area), Ok(()));
        }
        areas += own.len();
        for area in own {
            assert_eq!(kept(&after, area), kept(start, area), "area {area} of {start:?}");
        }
    }
    assert_eq!(areas, 2 * 12 + 2 * 6 * 176); // areas with one owner, as counted at `point_7_at_every_small_state`
}

/// An instruction of any user but one that is accepted at the state, if one of the next few is.
fn accepted_of_another(state: &State, silent: u8, bytes: &mut impl Iterator<Item = [u8; 4]>) -> [u8; 4] {
    let tries: Vec<[u8; 4]> = bytes.take(6).map(|four| of_another(silent, four)).collect();
    let accepted = tries.iter().find(|&&instruction| step(state, instruction).is_ok());
    *accepted.unwrap_or(&tries[0])
}

/// A single instruction or a recipe of two, of any user but one; or a recipe of his in which he makes user 0 an owner
/// of his area, and which is refused by its last code, if not before.
fn command_of_another(state: &State, silent: u8, area: u8, bytes: &mut impl Iterator<Item = [u8; 4]>) -> Command {
    let first = accepted_of_another(state, silent, bytes);
    let second = accepted_of_another(&run(state, &[first]), silent, bytes);
    let [one, other] = [first, second].map(|[code, _, a, b]| fixed(code, a, b));
    match second[1] + one[2] {
        kind if kind % 4 == 0 => Command::Single(first),
        kind if kind % 4 == 1 => command(silent, &[fixed(3, area, 0), one, fixed(0, 0, 0)]),
        _ => command(first[1], &[one, other]),
    }
}

/// The lists in disorder of point 2 with recipes in them, also of the owner who is silent otherwise.
#[test]
fn point_1_lending_guarantee_over_commands_in_disorder() {
    let start = from_f(&lent_row());
    let mut bytes = disorder();
    let (mut instructions, mut not_heard) = (0, 0);
    for (user, area) in [(5, 7), (4, 8), (6, 9)].repeat(10) {
        let (mut list, mut after) = (Vec::new(), start.clone());
        for _ in 0..40 {
            let next = command_of_another(&after, user, area, &mut bytes);
            after = run_commands(&after, std::slice::from_ref(&next));
            list.push(next);
        }
        assert_eq!(run_commands(&start, &list), after);
        let counts = counted(&start, &list);
        assert!(counts.iter().all(|&[_, activator, ..]| activator != user));
        assert_eq!(run(&start, &counts), after); // what counts gives the same state
        assert_eq!(kept(&after, area), kept(&start, area), "area {area} after {list:?}");
        assert_eq!(lending_guarantee_of_commands(&start, &list, &after, area), Ok(()));
        let is_single = |command: &&Command| matches!(command, Command::Single(_));
        let is_his = |command: &&Command| matches!(command, Command::Recipe { call, .. } if call.activator == user);
        instructions += counts.len() - list.iter().filter(is_single).count();
        not_heard += list.iter().filter(is_his).count();
    }
    assert!(
        instructions > 200 && not_heard > 200,
        "{instructions} of accepted recipes, {not_heard} refused recipes"
    );
}

// Document 02, point 3: writing the site file

/// A buffer of the length in which no two neighbours are equal; with salt 0 and 171 each of its bytes is another.
fn lent_buffer(length: usize, salt: usize) -> Vec<u8> {
    (0..length).map(|at| (3 * at + salt) as u8).collect()
}

/// What the writer answers and leaves in the buffer, on the state and on its record.
fn written(state: &State, block: &[u8], buffer: &[u8]) -> (Result<usize, u8>, Vec<u8>) {
    let (mut of_state, mut of_record) = (buffer.to_vec(), buffer.to_vec());
    let answer = write(state, block, &mut of_state);
    assert_eq!(write_record(&to_record(state), block, &mut of_record), answer);
    assert_eq!(of_state, of_record);
    (answer, of_state)
}

/// Asserts the number for a buffer of the length, and that no byte of it changes.
fn write_refused(state: &State, block: &[u8], length: usize, number: u8) {
    for buffer in [lent_buffer(length, 0), lent_buffer(length, 171)] {
        assert_eq!(
            written(state, block, &buffer),
            (Err(number), buffer),
            "{block:?} into {length} bytes"
        );
    }
}

/// Asserts that the block is 30 in the ways given, into a buffer of any length.
fn is_30(state: &State, block: &[u8], ways: &[BadBlock]) {
    assert_eq!(bad_block(state, block), ways, "{block:?}");
    for length in [0, 29, 30, 13_340] {
        write_refused(state, block, length, 30);
    }
}

/// Asserts that the file comes into a buffer of its length or more, behind it all stays, and that a shorter buffer is 31.
fn is_written(state: &State, block: &[u8], file: &[u8]) {
    assert_eq!(bad_block(state, block), []);
    for (more, salt) in [(0, 0), (0, 171), (1, 0), (1, 171), (300, 0), (300, 171)] {
        let buffer = lent_buffer(file.len() + more, salt);
        let tail = buffer[file.len()..].to_vec();
        assert_eq!(written(state, block, &buffer), (Ok(file.len()), [file.to_vec(), tail].concat()));
    }
    for shorter in [file.len() - 1, file.len() - 2, file.len() / 2, 28, 1, 0] {
        write_refused(state, block, shorter, 31);
    }
}

/// Areas 0 and 1 of user 0 with the labels HALL and LOOP 3, byte by byte.
fn two_labels_file() -> Vec<u8> {
    let version_and_length: &[u8] = &[1, 0, 96, 0];
    let counts = &[2, 0, 0, 0, 0, 0, 0, 0, 0, 0, 2, 0];
    let offsets = &[28, 0, 32, 0, 32, 0, 32, 0, 32, 0, 32, 0];
    let owners = &[0, 0, 0, 1];
    let hall = &[
        0, 4, 72, 65, 76, 76, 0, 0, 0, 0, 0, 0, 0, 0, 0, 0, 0, 0, 0, 0, 0, 0, 0, 0, 0, 0, 0, 0, 0, 0, 0, 0,
    ];
    let loop_3 = &[
        1, 6, 76, 79, 79, 80, 32, 51, 0, 0, 0, 0, 0, 0, 0, 0, 0, 0, 0, 0, 0, 0, 0, 0, 0, 0, 0, 0, 0, 0, 0, 0,
    ];
    [version_and_length, counts, offsets, owners, hall, loop_3].concat()
}

/// The state after line 8 of the session with the label LOOP for area 2, byte by byte.
fn session_file() -> Vec<u8> {
    let version_and_length: &[u8] = &[1, 0, 76, 0];
    let counts = &[3, 0, 1, 0, 2, 0, 1, 0, 1, 0, 1, 0];
    let offsets = &[28, 0, 34, 0, 36, 0, 40, 0, 42, 0, 44, 0];
    let pairs = &[0, 0, 0, 1, 0, 2, 9, 1, 0, 2, 1, 2, 9, 0, 9, 1];
    let label = &[
        2, 4, 76, 79, 79, 80, 0, 0, 0, 0, 0, 0, 0, 0, 0, 0, 0, 0, 0, 0, 0, 0, 0, 0, 0, 0, 0, 0, 0, 0, 0, 0,
    ];
    [version_and_length, counts, offsets, pairs, label].concat()
}

/// Areas 0 to 31 of user 0.
fn row_of_areas() -> State {
    let list: Vec<[u8; 4]> = (1..32).map(|area| [1, 0, area, 0]).collect();
    from_f(&list)
}

/// A label of 30 bytes for each area from 0 to 31: capital A for area 0, B for area 1 and so on.
fn labels_of_32() -> Vec<[u8; 32]> {
    (0..32).map(|area| entry(area, 30, &[b'A' + area; 30])).collect()
}

/// The file of `row_of_areas` and `labels_of_32`: 28 + 64 + 1,024 = 1,116 bytes, which is 4 * 256 + 92. Header by hand.
fn row_file() -> Vec<u8> {
    let header: &[u8] = &[
        1, 0, 92, 4, 32, 0, 0, 0, 0, 0, 0, 0, 0, 0, 32, 0, 28, 0, 92, 0, 92, 0, 92, 0, 92, 0, 92, 0,
    ];
    let owners: Vec<u8> = (0..32).flat_map(|area| [0, area]).collect();
    [header, &owners, &labels_of_32().concat()].concat()
}

/// Everything that can stand together, as in `reading_8_largest_accepted_file_has_13340_bytes`.
fn fullest() -> State {
    let mut full = everything();
    full.imports.retain(|&(object, area)| area != object % 32);
    full
}

/// The file of `fullest` and `labels_of_32`. Header by hand: the length 13,340 is 52 * 256 + 28; 1,984 imports are 7 * 256
/// + 192; the tables stand at 28, 2,076, 2,204, 4,252, 8,220 and 12,316.
fn fullest_file() -> Vec<u8> {
    let header: &[u8] = &[
        1, 0, 28, 52, 0, 4, 64, 0, 0, 4, 192, 7, 0, 8, 32, 0, 28, 0, 28, 8, 156, 8, 156, 16, 28, 32, 28, 48,
    ];
    let square: Vec<u8> = (0..32).flat_map(|first| (0..32).flat_map(move |area| [first, area])).collect();
    let definitions: Vec<u8> = (0..64).flat_map(|object| [object, object % 32]).collect();
    let areas_but = |own: u8| (0..32).filter(move |&area| area != own);
    let imports: Vec<u8> = (0..64)
        .flat_map(|object| areas_but(object % 32).flat_map(move |area| [object, area]))
        .collect();
    let exports: Vec<u8> = (0..64).flat_map(|object| (0..32).flat_map(move |area| [object, area])).collect();
    let labels = labels_of_32().concat();
    [header, &square, &definitions, &square, &imports, &exports, &labels].concat()
}

/// A state, a label block, and the file of both.
type Written = (State, Vec<u8>, Vec<u8>);

/// The states, blocks and files by hand.
fn files_by_hand() -> [Written; 5] {
    let two = [entry(0, 4, b"HALL"), entry(1, 6, b"LOOP 3")].concat();
    let session = run(&State::founding(), &SESSION[..8]);
    [
        (State::founding(), vec![], FOUNDING_FILE.to_vec()),
        (from_f(&[[1, 0, 1, 0]]), two, two_labels_file()),
        (session, entry(2, 4, b"LOOP").to_vec(), session_file()),
        (row_of_areas(), labels_of_32().concat(), row_file()),
        (fullest(), labels_of_32().concat(), fullest_file()),
    ]
}

/// Document 02, point 3: "from a sound state and a block of 32-byte label entries into a lent buffer, with the length as
/// the answer"
#[test]
fn point_3_files_by_hand() {
    let lengths = files_by_hand().map(|(_, _, file)| file.len());
    assert_eq!(lengths, [30, 96, 76, 1116, 13_340]);
    for (state, block, file) in files_by_hand() {
        assert!(state.is_sound());
        is_written(&state, &block, &file);
    }
}

/// Document 02, point 3: "Reading what it wrote yields the same state and labels."
#[test]
fn point_3_reading_what_was_written() {
    let of_32: Labels = (0..32).map(|area| (area, vec![b'A' + area; 30])).collect();
    let labels = [
        BTreeMap::new(),
        BTreeMap::from([(0, b"HALL".to_vec()), (1, b"LOOP 3".to_vec())]),
        BTreeMap::from([(2, b"LOOP".to_vec())]),
        of_32.clone(),
        of_32,
    ];
    for ((state, block, file), labels) in files_by_hand().into_iter().zip(labels) {
        let (answer, buffer) = written(&state, &block, &lent_buffer(20_000, 0));
        assert_eq!(answer, Ok(file.len()));
        assert_eq!(read_file(&buffer[..file.len()]), Ok((state.clone(), labels.clone())));
        assert_eq!(write_file(&state, &labels), file);
    }
}

/// Asserts that the state and the label block of an accepted file give the file again, and hands the block back.
fn writes_again(file: &[u8]) -> &[u8] {
    let (state, _) = read_file(file).expect("an accepted file");
    let (offset, length) = label_block(file);
    let block = &file[offset..offset + length];
    is_written(&state, block, file);
    block
}

/// Document 02, point 3: "Writing an accepted file's state and labels yields that file again."
#[test]
fn point_3_writing_what_was_read() {
    for (_, block, file) in files_by_hand() {
        assert_eq!(writes_again(&file), block);
    }
    let (two, label) = (&[[0, 0], [0, 1]], &[entry(1, 1, b"~")]);
    for file in [
        file(&[[31, 31]], &[[63, 31]], &[[31, 31]], NO, &[[63, 31]], &[entry(31, 1, b" ")]),
        file(two, &[[9, 0]], &[[1, 0]], &[[9, 1]], NO, label),
        file(&[[0, 0], [0, 1], [4, 0]], NO, &[[0, 0], [0, 1], [1, 0]], NO, NO, label),
        site(&[[1, 0], [2, 1], [3, 2]], &of_9(1..=3), NO, &[]),
    ] {
        writes_again(&file);
    }
}

/// The offset and the length of the label block: the offset field and 32 times the count. (0, 0) for a refused file.
#[test]
fn point_3_label_block_of_a_file() {
    let blocks = files_by_hand().map(|(_, _, file)| label_block(&file));
    assert_eq!(blocks, [(30, 0), (32, 64), (44, 32), (92, 1024), (12_316, 1024)]);
    let two = two_labels_file();
    for at in [0, 2, 14, 26, 31, 33, 95] {
        let mut refused = two.clone();
        refused[at] = 40;
        assert!(read_file(&refused).is_err());
        assert_eq!(label_block(&refused), (0, 0), "byte {at}");
    }
    let lacks_access = file(&[[0, 0], [0, 1]], &[[9, 0]], NO, &[[9, 1]], NO, &[entry(0, 1, b"x")]);
    let unlisted = file(&[[0, 0]], NO, NO, NO, NO, &[entry(5, 1, b"x")]);
    for refused in [&[][..], &two[..95], &two[..20], &lacks_access, &unlisted] {
        assert_eq!(label_block(refused), (0, 0));
    }
}

/// The longest file: no sound state has more pairs of any relation, and no block more labels.
#[test]
fn point_3_most_bytes() {
    assert_eq!(MOST_FILE_BYTES, 13_340);
    let (full, block) = (fullest(), labels_of_32().concat());
    write_refused(&full, &block, 13_339, 31);
    let (answer, _) = written(&full, &block, &lent_buffer(13_340, 0));
    assert_eq!(answer, Ok(13_340));
    let one_more = everything();
    write_refused(&one_more, &block, 20_000, 12);
    write_refused(&full, &[block, entry(31, 1, b"x").to_vec()].concat(), 20_000, 30);
}

/// Document 02, point 3: "31 for a buffer shorter than the file"; one of just its length will do, and none is too long.
#[test]
fn point_3_every_length_of_a_buffer() {
    let two = [entry(0, 4, b"HALL"), entry(1, 6, b"LOOP 3")].concat();
    let (f, areas) = (State::founding(), from_f(&[[1, 0, 1, 0]]));
    for length in 0..30 {
        write_refused(&f, &[], length, 31);
    }
    for length in 0..96 {
        write_refused(&areas, &two, length, 31);
    }
    for length in (30..300).chain([65_535, 65_536, 65_537, 65_536 + 29, 65_536 + 30, 131_072]) {
        let buffer = lent_buffer(length, 0);
        let left = [&FOUNDING_FILE, &buffer[30..]].concat();
        assert_eq!(written(&f, &[], &buffer), (Ok(30), left));
    }
    for length in (96..300).chain([65_536, 65_536 + 95]) {
        let buffer = lent_buffer(length, 0);
        let left = [two_labels_file(), buffer[96..].to_vec()].concat();
        assert_eq!(written(&areas, &two, &buffer), (Ok(96), left));
    }
}

/// Document 02, point 3: "Bytes past the length keep their content", also those of a longer file that stood there.
#[test]
fn point_3_writing_over_another_file() {
    let full = fullest_file();
    let (answer, left) = written(&State::founding(), &[], &full);
    assert_eq!(answer, Ok(30));
    assert_eq!(left[..30], FOUNDING_FILE);
    assert_eq!(left[30..], full[30..]);
    let founding_in_front = [FOUNDING_FILE.to_vec(), lent_buffer(66, 0)].concat();
    let two = [entry(0, 4, b"HALL"), entry(1, 6, b"LOOP 3")].concat();
    let (answer, left) = written(&from_f(&[[1, 0, 1, 0]]), &two, &founding_in_front);
    assert_eq!((answer, left), (Ok(96), two_labels_file()));
    let (answer, left) = written(&from_f(&[[1, 0, 1, 0]]), &two, &FOUNDING_FILE);
    assert_eq!((answer, left), (Err(31), FOUNDING_FILE.to_vec()));
}

/// States that are unsound: an area with no owner, none at all, an own import, an import at 9 steps, an undefined object.
fn unsound_states() -> [State; 5] {
    let f = State::founding();
    let mut no_owner = f.clone();
    no_owner.areas.insert(3);
    let nothing = State {
        users: BTreeSet::new(),
        areas: BTreeSet::new(),
        owners: BTreeSet::new(),
        ..f.clone()
    };
    let own_import = with_import(&from_f(&[[7, 0, 0, 9]]), 0);
    let nine_steps = with_import(&from_f(&row_by_imports(8)), 9);
    let mut undefined = f;
    undefined.objects.insert(9);
    [no_owner, nothing, own_import, nine_steps, undefined]
}

/// Document 02, point 3: "Refusals are 12, ...": the state is unsound, or the bytes are no record.
#[test]
fn point_3_unsound_states_and_no_records_are_12() {
    for state in unsound_states() {
        assert!(!state.is_sound());
        write_refused(&state, &[], 13_340, 12);
    }
    for bad in no_records() {
        let mut buffer = lent_buffer(13_340, 0);
        assert_eq!(write_record(&bad, &[], &mut buffer), Err(12));
        assert_eq!(buffer, lent_buffer(13_340, 0));
    }
    for round in 0..256 {
        let record: Vec<u8> = (0..1040_usize).map(|byte| (byte * byte / 3 + byte * round + round) as u8).collect();
        let mut buffer = lent_buffer(13_340, 171);
        assert_eq!(write_record(&record, &[], &mut buffer), Err(12));
        assert_eq!(buffer, lent_buffer(13_340, 171));
    }
    let mut user_32 = State::founding();
    user_32.users.insert(32);
    user_32.owners.insert((32, 0));
    assert_eq!(write(&user_32, &[], &mut [0; 100]), Err(12));
}

/// Document 02, point 3: "Refusals are 12, then 30 ..., then 31": each two together, and all three.
#[test]
fn point_3_order_of_refusals() {
    let (good, partial, out) = (entry(0, 1, b"x").to_vec(), vec![0; 31], entry(32, 1, b"x").to_vec());
    let (backwards, unlisted) = ([entry(1, 1, b"x"), entry(0, 1, b"x")].concat(), entry(5, 1, b"x").to_vec());
    for bad in [partial, out, backwards, unlisted] {
        for state in unsound_states() {
            write_refused(&state, &bad, 13_340, 12); // 12 and 30
            write_refused(&state, &bad, 0, 12); // 12, 30 and 31
            write_refused(&state, &good, 0, 12); // 12 and 31
        }
        for record in no_records() {
            assert_eq!(write_record(&record, &bad, &mut [0; 100]), Err(12));
            assert_eq!(write_record(&record, &bad, &mut []), Err(12));
            assert_eq!(write_record(&record, &good, &mut []), Err(12));
        }
        write_refused(&State::founding(), &bad, 0, 30); // 30 and 31
        write_refused(&State::founding(), &bad, 61, 30); // 30 and 31
        write_refused(&State::founding(), &bad, 62, 30);
    }
    write_refused(&State::founding(), &good, 61, 31);
    write_refused(&State::founding(), &good, 0, 31);
    let (answer, left) = written(&State::founding(), &good, &[7; 62]);
    assert_eq!((answer, left.len()), (Ok(62), 62));
}

/// Areas 0, 5 and 31 of user 0, as a state and as the owner table of its file.
fn three_areas() -> State {
    from_f(&[[1, 0, 5, 0], [1, 0, 31, 0]])
}
const THREE_AREAS: &[[u8; 2]] = &[[0, 0], [0, 5], [0, 31]];

/// Labels for all three: the shortest, one that is not full, and the longest; with the least and the greatest text byte.
fn three_labels() -> [[u8; 32]; 3] {
    [entry(0, 1, b" "), entry(5, 6, b"LOOP ~"), entry(31, 30, &[b'~'; 30])]
}

/// Asserts that the entries are a good block at `three_areas`, and written.
fn is_good(entries: &[[u8; 32]]) {
    is_written(&three_areas(), &entries.concat(), &file(THREE_AREAS, NO, NO, NO, NO, entries));
}

/// Asserts that the entry alone is 30 in this one way at `three_areas`, and so behind a good entry, between two, and before
/// one, where the areas allow it.
fn is_bad(wrong: [u8; 32], way: BadBlock) {
    let [first, _, last] = three_labels();
    is_30(&three_areas(), &wrong, &[way]);
    if wrong[0] > 0 {
        is_30(&three_areas(), &[first, wrong].concat(), &[way]);
    }
    if wrong[0] < 31 {
        is_30(&three_areas(), &[wrong, last].concat(), &[way]);
    }
    if (1..31).contains(&wrong[0]) {
        is_30(&three_areas(), &[first, wrong, last].concat(), &[way]);
    }
}

/// Labels of any areas that are listed, with none for the others; an empty block too.
#[test]
fn point_3_labels_of_some_areas() {
    let [a, b, c] = three_labels();
    let choices: [&[[u8; 32]]; 8] = [&[], &[a], &[b], &[c], &[a, b], &[a, c], &[b, c], &[a, b, c]];
    for entries in choices {
        is_good(entries);
    }
}

/// Document 02, point 3: "a partial entry": any length that is no multiple of 32, whatever the bytes are.
#[test]
fn point_3_partial_entries() {
    let (state, block) = (three_areas(), three_labels().concat());
    for length in 0..=96 {
        match length {
            0 | 32 | 64 | 96 => assert_eq!(bad_block(&state, &block[..length]), []),
            _ => is_30(&state, &block[..length], &[BadBlock::Partial]),
        }
    }
    for behind in [&[0][..], &[1], &[255], &[0; 31], &[6, 1, 120], &[255; 31]] {
        is_30(&state, behind, &[BadBlock::Partial]);
        is_30(&state, &[&block[..32], behind].concat(), &[BadBlock::Partial]);
        is_30(&state, &[&block, behind].concat(), &[BadBlock::Partial]);
    }
    is_30(&row_of_areas(), &[labels_of_32().concat(), vec![0]].concat(), &[BadBlock::Partial]);
}

/// 26, "a number": an area above 31. 28, "an unlisted area": any other but 0, 5 and 31.
#[test]
fn point_3_every_area() {
    for area in 0..=u8::MAX {
        let label = entry(area, 4, b"LOOP");
        match area {
            0 | 5 | 31 => is_good(&[label]),
            1..=30 => is_bad(label, BadBlock::Unlisted),
            32.. => is_bad(label, BadBlock::Area),
        }
    }
    for area in 0..32 {
        let label = entry(area, 1, b"x");
        let owners: Vec<[u8; 2]> = (0..32).map(|area| [0, area]).collect();
        is_written(&row_of_areas(), &label, &file(&owners, NO, NO, NO, NO, &[label]));
    }
}

/// 26, "length": 1 to 30. Of another it is not asked what the text is, whether zeros or not.
#[test]
fn point_3_every_length_of_a_label() {
    for length in 0..=u8::MAX {
        match length {
            1..=30 => is_good(&[entry(5, length, &vec![b'x'; usize::from(length)])]),
            _ => {
                is_bad(entry(5, length, b""), BadBlock::Length);
                is_bad(entry(5, length, b"x"), BadBlock::Length);
                is_bad(entry(5, length, &[b'x'; 30]), BadBlock::Length);
                is_bad(entry(5, length, &[255; 30]), BadBlock::Length);
            }
        }
    }
}

/// 26, "text byte": 32 to 126, at each of its places in texts of 1, 2, 15 and 30 bytes.
#[test]
fn point_3_every_text_byte() {
    for length in [1, 2, 15, 30] {
        for (place, byte) in (0..length).flat_map(|place| (0..=u8::MAX).map(move |byte| (place, byte))) {
            let mut text = vec![b'x'; length];
            text[place] = byte;
            let label = entry(5, length as u8, &text);
            match byte {
                32..=126 => assert_eq!(bad_block(&three_areas(), &label), []),
                _ => assert_eq!(bad_block(&three_areas(), &label), [BadBlock::Text], "{byte} at {place}"),
            }
        }
    }
    for length in [1, 30] {
        for place in [0, length - 1] {
            let with = |byte: u8| {
                let mut text = vec![b'x'; length];
                text[place] = byte;
                entry(5, length as u8, &text)
            };
            is_good(&[with(32)]);
            is_good(&[with(126)]);
            for byte in [0, 10, 31, 127, 128, 160, 255] {
                is_bad(with(byte), BadBlock::Text);
            }
        }
    }
}

/// 26, "filler byte": each byte behind the text is 0. A label of 30 bytes has none.
#[test]
fn point_3_every_filler_byte() {
    for length in 1..30_usize {
        let good = entry(5, length as u8, &vec![b'x'; length]);
        for place in 2 + length..32 {
            let mut label = good;
            for byte in [1, 32, b'x', 255] {
                label[place] = byte;
                assert_eq!(bad_block(&three_areas(), &label), [BadBlock::Filler], "{byte} at {place}");
            }
        }
        for place in [2 + length, 31] {
            let mut label = good;
            label[place] = 1;
            is_bad(label, BadBlock::Filler);
        }
    }
    for byte in 1..=u8::MAX {
        let mut label = entry(5, 1, b"x");
        label[31] = byte;
        is_bad(label, BadBlock::Filler);
    }
}

/// 27: "strictly ascending ... (labels by area)": equal areas and descending ones, next to each other or not, and whatever
/// their texts are.
#[test]
fn point_3_areas_ascend_strictly() {
    let [a, b, c] = three_labels();
    let other = entry(5, 1, b"x");
    let orders: [&[[u8; 32]]; 11] = [
        &[a, a],
        &[b, b],
        &[c, c],
        &[b, other],
        &[other, b],
        &[b, a],
        &[c, a],
        &[c, b],
        &[a, c, b],
        &[b, a, c],
        &[c, b, a],
    ];
    for entries in orders {
        is_30(&three_areas(), &entries.concat(), &[BadBlock::Order]);
    }
    for (twice, labels) in [(0, [a, a, b, c]), (1, [a, b, b, c]), (2, [a, b, c, c])] {
        is_30(&three_areas(), &labels.concat(), &[BadBlock::Order]);
        let once: Vec<[u8; 32]> = labels[..twice].iter().chain(&labels[twice + 1..]).copied().collect();
        is_good(&once);
    }
}

/// No area but those from 0 to 31, and none twice: more than 32 entries are bad in one way or the other.
#[test]
fn point_3_more_than_32_entries() {
    let (state, full) = (row_of_areas(), labels_of_32());
    is_written(&state, &full.concat(), &row_file());
    let and_one = |area: u8| [full.concat(), entry(area, 1, b"x").to_vec()].concat();
    is_30(&state, &and_one(31), &[BadBlock::Order]);
    is_30(&state, &and_one(0), &[BadBlock::Order]);
    is_30(&state, &and_one(32), &[BadBlock::Area]);
    is_30(&state, &and_one(255), &[BadBlock::Area]);
    is_30(&state, &[entry(0, 1, b"x").to_vec(), full.concat()].concat(), &[BadBlock::Order]);
    is_30(&state, &full.repeat(2).concat(), &[BadBlock::Order]);
    for count in [33, 64, 255, 256, 257, 2047, 2048, 2049, 65_535, 65_536, 65_537] {
        let block = entry(0, 1, b"x").repeat(count);
        assert_eq!(bad_block(&state, &block), [BadBlock::Order]);
        let mut buffer = lent_buffer(20_000, 0);
        assert_eq!(write(&state, &block, &mut buffer), Err(30), "{count} entries");
        assert_eq!(buffer, lent_buffer(20_000, 0));
    }
    let every_byte: Vec<u8> = (0..=u8::MAX).flat_map(|area| entry(area, 1, b"x")).collect();
    is_30(&state, &every_byte, &[BadBlock::Area]);
}

/// Each way is told, whatever else is wrong, once and in the order of the sentence.
#[test]
fn point_3_ways_that_apply_together() {
    use BadBlock::*;
    let state = three_areas();
    let [a, b, c] = three_labels();
    let (text, filler) = (entry(5, 2, b"x"), entry(5, 1, b"xy"));
    is_30(&state, &entry(32, 0, b""), &[Area, Length]);
    is_30(&state, &[255; 32], &[Area, Length]);
    is_30(&state, &[0; 32], &[Length]);
    is_30(&state, &[1; 32], &[Text, Filler, Unlisted]);
    is_30(&state, &[text, filler].concat(), &[Text, Filler, Order]);
    is_30(&state, &[entry(32, 1, b"x"), c].concat(), &[Area, Order]);
    is_30(&state, &[entry(6, 1, b"x"), b].concat(), &[Order, Unlisted]);
    is_30(&state, &[entry(6, 1, b"x"), entry(6, 1, b"x")].concat(), &[Order, Unlisted]);
    is_30(&state, &[entry(0, 1, &[127]), entry(0, 1, &[31])].concat(), &[Text, Order]);
    is_30(&state, &[&[255; 32], &a[..], &[0]].concat(), &[Partial, Area, Length, Order]);
    is_30(&state, &[&text[..], &filler, &[7; 5]].concat(), &[Partial, Text, Filler, Order]);
    let worst = [entry(40, 31, b""), entry(6, 2, b"x"), filler];
    is_30(
        &state,
        &[worst.concat(), vec![0]].concat(),
        &[Partial, Area, Length, Text, Filler, Order, Unlisted],
    );
}

/// The entries of a block of whole ones.
fn entries_of(block: &[u8]) -> Vec<[u8; 32]> {
    block.chunks(32).map(|entry| entry.try_into().expect("32 bytes")).collect()
}

/// The number of the reader for each way.
fn number_of_way(way: BadBlock) -> u8 {
    match way {
        BadBlock::Area | BadBlock::Length | BadBlock::Text | BadBlock::Filler => 26,
        BadBlock::Order => 27,
        BadBlock::Unlisted => 28,
        BadBlock::Partial => panic!("no file has a partial entry"),
    }
}

/// Document 02, point 3: "breaks the label conditions of 26, 27 or 28": what the reader says of the file that the block would
/// give. Each byte of three entries in turn.
#[test]
fn point_3_every_byte_of_a_block() {
    let state = three_areas();
    let good = three_labels().concat();
    let mut bad = 0;
    for (at, byte) in (0..96).flat_map(|at| (0..=u8::MAX).map(move |byte| (at, byte))) {
        let mut block = good.clone();
        block[at] = byte;
        let whole = file(THREE_AREAS, NO, NO, NO, NO, &entries_of(&block));
        let ways = bad_block(&state, &block);
        let (answer, left) = written(&state, &block, &lent_buffer(130, 0));
        match read_file(&whole) {
            Ok(_) => assert_eq!((answer, &left[..], &ways[..]), (Ok(130), &whole[..], &[][..])),
            Err(number) => {
                assert_eq!((answer, left), (Err(30), lent_buffer(130, 0)));
                assert_eq!(ways.into_iter().map(number_of_way).min(), Some(number));
                bad += 1;
            }
        }
    }
    // Areas: 255 other bytes for the first and the second, and for the third. Lengths: 255 each. Texts: 161 of 256 for each
    // of 1 + 6 + 30 bytes. Fillers: 255 for each of 29 + 24.
    assert_eq!(bad, 3 * 255 + 3 * 255 + 161 * 37 + 255 * 53);
}

/// Document 02, point 3, at each small state: each choice of labels for areas 0 and 1 is written exactly if their areas are
/// listed, reading gives state and labels, and writing what was read gives the file.
#[test]
fn point_3_at_every_small_state() {
    let (zero, one) = (entry(0, 3, b"TWO"), entry(1, 1, b"1"));
    let choices: [&[[u8; 32]]; 4] = [&[], &[zero], &[one], &[zero, one]];
    let mut files = BTreeSet::new();
    for (state, entries) in small_states().iter().flat_map(|state| choices.map(|entries| (state, entries))) {
        let block = entries.concat();
        if entries.iter().all(|entry| state.areas.contains(&entry[0])) {
            let (answer, buffer) = written(state, &block, &lent_buffer(200, 0));
            let length = answer.expect("written");
            let labels: Labels = entries
                .iter()
                .map(|entry| (entry[0], entry[2..2 + usize::from(entry[1])].to_vec()))
                .collect();
            assert_eq!(read_file(&buffer[..length]), Ok((state.clone(), labels)));
            assert_eq!(buffer[length..], lent_buffer(200, 0)[length..]);
            assert_eq!(writes_again(&buffer[..length]), block);
            files.insert(buffer[..length].to_vec());
        } else {
            is_30(state, &block, &[BadBlock::Unlisted]);
        }
    }
    assert_eq!(files.len(), 36 * 2 + 1584 * 4); // `small_states_are_1620`: 36 have one area, 1,584 have two
}

/// A label block at the state: labels of some listed areas, and in three of four something wrong with it.
fn often_bad_block(state: &State, bytes: &mut impl Iterator<Item = [u8; 4]>) -> Vec<u8> {
    let mut entries = Vec::new();
    for &area in &state.areas {
        let [pick, length, text, _] = bytes.next().expect("endless");
        if pick % 2 == 0 {
            let length = 1 + length % 30;
            entries.push(entry(area, length, &vec![32 + text % 95; usize::from(length)]));
        }
    }
    let [kind, which, place, byte] = bytes.next().expect("endless");
    if !entries.is_empty() && kind % 4 != 0 {
        let which = usize::from(which) % entries.len();
        let text = usize::from(entries[which][1]);
        match kind / 4 % 7 {
            0 => entries[which][0] = 32 + byte % 224,
            1 => entries[which][1] = if place % 2 == 0 { 0 } else { 31 + byte % 225 },
            2 => entries[which][2 + usize::from(place) % text] = 127 + byte % 129,
            3 => entries[which][31] = byte,
            4 => entries.insert(which, entries[usize::from(place) % entries.len()]),
            5 => entries[which][0] = byte % 32,
            _ => return [entries.concat(), vec![byte; 1 + usize::from(place) % 31]].concat(),
        }
    }
    entries.concat()
}

/// A file that has no label, with a block of whole entries as its label table, whatever they hold.
fn with_block(file: &[u8], block: &[u8]) -> Vec<u8> {
    let mut bytes = [file, block].concat();
    let (length, count) = (bytes.len() as u16, (block.len() / 32) as u16);
    bytes[2..4].copy_from_slice(&length.to_le_bytes());
    bytes[14..16].copy_from_slice(&count.to_le_bytes());
    bytes
}

/// Document 02, point 3, over blocks in disorder at reached states: 30 exactly for a partial entry and where the reader
/// refuses the file with that block. Each way comes alone.
#[test]
fn point_3_blocks_in_disorder() {
    let mut bytes = disorder();
    let mut alone: BTreeMap<Option<BadBlock>, u32> = BTreeMap::new();
    let mut state = from_f(FOUR_AREAS);
    for four in disorder().take(4000) {
        state = run(&state, &[often_own_import(&state, four)]);
        let block = often_bad_block(&state, &mut bytes);
        let ways = bad_block(&state, &block);
        let buffer = lent_buffer(13_340, 0);
        let (answer, left) = written(&state, &block, &buffer);
        if ways.is_empty() {
            let length = answer.expect("written");
            assert_eq!(left[length..], buffer[length..]);
            let (offset, block_length) = label_block(&left[..length]);
            assert_eq!((&left[offset..length], block_length), (&block[..], block.len()));
            assert_eq!(read_file(&left[..length]).expect("read").0, state);
            write_refused(&state, &block, length - 1, 31);
        } else {
            assert_eq!((answer, left), (Err(30), buffer));
        }
        if !ways.contains(&BadBlock::Partial) {
            let whole = with_block(&write_file(&state, &BTreeMap::new()), &block);
            let number = ways.iter().map(|&way| number_of_way(way)).min();
            assert_eq!(read_file(&whole).err(), number);
        }
        if let [] | [_] = ways[..] {
            *alone.entry(ways.first().copied()).or_default() += 1;
        }
    }
    assert_eq!(alone.len(), 8, "{alone:?}");
}

// Document 02, point 5: why the screen says so

/// What the explainer answers and leaves in the buffer, on the state and on its record.
fn explained(state: &State, area: u32, object: u32, buffer: &[u8]) -> (Explanation, Vec<u8>) {
    let (mut of_state, mut of_record) = (buffer.to_vec(), buffer.to_vec());
    let explanation = explain(state, area, object, &mut of_state);
    let by_record = explain_record(&to_record(state), area, object, &mut of_record);
    assert_eq!((by_record, &of_record), (explanation, &of_state));
    (explanation, of_state)
}

/// Asserts that the answer and the bytes come into a buffer of 32 bytes or more, that all others stay, and that a
/// shorter buffer is 31.
fn is_explained(state: &State, area: u8, object: u8, answer: Explanation, bytes: &[u8]) {
    for (length, salt) in [(32, 0), (32, 171), (33, 0), (33, 171), (300, 0), (300, 171)] {
        let buffer = lent_buffer(length, salt);
        let whole = [bytes, &buffer[bytes.len()..]].concat();
        assert_eq!(
            explained(state, area.into(), object.into(), &buffer),
            (answer, whole),
            "area {area}"
        );
    }
    for length in [31, 30, 9, 1, 0] {
        explain_refused(state, area.into(), object.into(), length, 31);
    }
}

/// Asserts the number for a buffer of the length, and that no byte of it changes.
fn explain_refused(state: &State, area: u32, object: u32, length: usize, number: u8) {
    for buffer in [lent_buffer(length, 0), lent_buffer(length, 171)] {
        let explanation = Explanation::Refused(number);
        assert_eq!(
            explained(state, area, object, &buffer),
            (explanation, buffer),
            "{area} {object} {length}"
        );
    }
}

/// Asserts that the chain explains the access of its last area to object 9, for the judge too.
fn has_chain(state: &State, chain: &[u8]) {
    let area = chain[chain.len() - 1];
    is_explained(state, area, 9, Explanation::Chain(chain.len()), chain);
    assert_eq!(access(state, area.into(), 9), Ok(Some(chain.len() as u8 - 1)));
    assert!(is_first_chain(state, area, 9, chain));
}

/// Asserts that the counts explain why the area lacks access to object 9, for the judge too.
fn has_counts(state: &State, area: u8, counts: [u8; 32]) {
    is_explained(state, area, 9, Explanation::Counts(32), &counts);
    assert_eq!(access(state, area.into(), 9), Ok(None));
    assert!(are_least_counts(state, 9, &counts));
    assert_eq!(
        (shortest_chains(state, area, 9), count_shortest_chains(state, area, 9)),
        (vec![], 0)
    );
}

/// 32 counts, 255 but for the areas given.
fn counts(of: &[(usize, u8)]) -> [u8; 32] {
    let mut counts = [255; 32];
    of.iter().for_each(|&(area, count)| counts[area] = count);
    counts
}

/// Two states of user 0, in which object 9 is defined in the first area of the chains and moves along each of them and
/// not otherwise: by imports in the one, which the definer itself may not have, by exports in the other.
fn along(chains: &[&[u8]]) -> [State; 2] {
    let areas: BTreeSet<u8> = chains.concat().into_iter().filter(|&area| area != 0).collect();
    let mut start = State::founding();
    let listing = areas.into_iter().map(|area| [1, 0, area, 0]);
    for instruction in listing.chain([[7, 0, chains[0][0], 9]]) {
        start = step(&start, instruction).expect("accepted");
    }
    let steps = || chains.iter().flat_map(|chain| chain.windows(2)).map(|two| (two[0], two[1]));
    let inwards = steps().fold(start.clone(), |state, (s, r)| run(&state, &[[5, 0, r, s], [9, 0, r, 9]]));
    let outwards = steps().fold(start, |state, (s, r)| run(&state, &[[5, 0, s, r], [11, 0, s, 9]]));
    [inwards, outwards]
}

/// Asserts the chain of object 9 among others that are there, by imports and by exports, and how many are shortest.
fn first_among(chain: &[u8], others: &[&[u8]], shortest: u64) {
    let area = chain[chain.len() - 1];
    let mut all = others.to_vec();
    for place in 0..=others.len() {
        all.insert(place, chain); // the order in which they were made is of no account
        for state in along(&all) {
            has_chain(&state, chain);
            assert_eq!(count_shortest_chains(&state, area, 9), shortest);
            let listed: BTreeSet<Vec<u8>> = shortest_chains(&state, area, 9).into_iter().collect();
            assert_eq!(listed.len() as u64, shortest);
            assert!(others.iter().all(|other| !is_first_chain(&state, area, 9, other)));
        }
        all.remove(place);
    }
}

/// The session: area 1 defines and exports object 9, areas 0 and 1 lie in area 2, area 0 imports it. Area 2 has access
/// "with no entry of its own".
#[test]
fn point_5_session() {
    let after_line_8 = run(&State::founding(), &SESSION[..8]);
    has_chain(&after_line_8, &[1, 2, 0]);
    has_chain(&after_line_8, &[1, 2]);
    has_chain(&after_line_8, &[1]);
    // line 6 was refused: before line 7 nothing leaves area 1
    let after_line_6 = run(&State::founding(), &SESSION[..6]);
    for area in [0, 2] {
        has_counts(&after_line_6, area, counts(&[(1, 0)]));
    }
    let end = run(&State::founding(), SESSION);
    has_chain(&end, &[1, 2]);
    has_counts(&end, 0, counts(&[(1, 0), (2, 1)]));
}

/// Document 02, point 5: "among those the one with the lowest numbers compared from the front"
#[test]
fn point_5_lowest_from_the_front_and_not_from_the_back() {
    first_among(&[0, 1, 8, 9], &[&[0, 2, 3, 9]], 2);
    first_among(&[7, 1, 30, 2], &[&[7, 4, 5, 2]], 2); // 1 + 30 is more than 4 + 5
    first_among(&[31, 10, 30, 29, 0], &[&[31, 11, 1, 2, 0], &[31, 12, 3, 4, 0]], 3);
    first_among(&[20, 0, 31, 1, 30, 25], &[&[20, 2, 3, 4, 5, 25]], 2);
    // the last place at which they may differ
    first_among(&[0, 5, 6, 3, 9], &[&[0, 5, 6, 4, 9], &[0, 5, 6, 7, 9]], 3);
    first_among(&[0, 1, 3, 9], &[&[0, 1, 5, 9], &[0, 1, 4, 9]], 3);
    // the parts of two chains make two more, and one of those is the first
    for state in along(&[&[0, 1, 8, 5, 9], &[0, 2, 8, 4, 9]]) {
        has_chain(&state, &[0, 1, 8, 4, 9]);
        assert_eq!(count_shortest_chains(&state, 9, 9), 4);
    }
}

/// Document 02, point 5: "a shortest one": a lower number in front does not make up for a step more, nor does one that
/// leads nowhere.
#[test]
fn point_5_shortest_comes_before_lowest() {
    first_among(&[5, 30, 9], &[&[5, 0, 1, 9]], 1);
    first_among(&[5, 9], &[&[5, 0, 9], &[5, 1, 2, 9]], 1);
    first_among(&[0, 20, 21, 22, 9], &[&[0, 1, 2, 3, 4, 9]], 1);
    first_among(&[0, 2, 9], &[&[0, 1], &[0, 2, 1]], 1); // area 1 is in the first layer and leads nowhere
    first_among(&[0, 2, 4, 9], &[&[0, 1, 3], &[0, 1, 5, 6, 9]], 1); // to area 9 by area 1 it is a step more
    first_among(&[0, 3, 9], &[&[0, 4, 9], &[0, 1, 2, 9]], 2);
}

/// Document 02, point 5, "from the definer": its own chain is one byte. A chain has steps + 1 bytes.
#[test]
fn point_5_chain_of_the_definer() {
    for definer in 0..=31 {
        let state = run(&State::founding(), &[[1, 0, definer, 0], [7, 0, definer, 9]]);
        has_chain(&state, &[definer]);
        assert_eq!(shortest_chains(&state, definer, 9), [[definer]]);
    }
    // two areas that lend to each other
    let ring = from_f(&[[1, 0, 1, 0], [7, 0, 0, 9], [5, 0, 0, 1], [5, 0, 1, 0], [11, 0, 0, 9], [11, 0, 1, 9]]);
    has_chain(&ring, &[0]);
    has_chain(&ring, &[0, 1]);
    assert_eq!((count_shortest_chains(&ring, 0, 9), count_shortest_chains(&ring, 1, 9)), (1, 1));
}

/// "Cycles of structure pairs are allowed, also an area in itself": it does not lengthen a chain.
#[test]
fn point_5_area_in_itself() {
    for state in along(&[&[3, 3, 5, 5, 1], &[1, 1, 3]]) {
        has_chain(&state, &[3]);
        has_chain(&state, &[3, 5]);
        has_chain(&state, &[3, 5, 1]);
        assert!(state.structure.contains(&(5, 5)));
        for walk in [&[3, 3][..], &[3, 3, 5, 1], &[3, 5, 5, 1], &[3, 5, 1, 1], &[3, 5, 1, 3]] {
            assert!(!is_first_chain(&state, walk[walk.len() - 1], 9, walk));
        }
        assert_eq!([3, 5, 1].map(|area| count_shortest_chains(&state, area, 9)), [1, 1, 1]);
    }
}

/// "An area may have access with no entry of its own": such areas are on chains as others are. From area 4 outwards to
/// area 7 or 6, from either inwards to area 2, and outwards to area 8.
#[test]
fn point_5_mailboxes_on_a_chain() {
    let mut list: Vec<[u8; 4]> = [2, 4, 6, 7, 8].map(|area| [1, 0, area, 0]).to_vec();
    list.extend([[7, 0, 4, 9], [5, 0, 4, 7], [5, 0, 4, 6], [5, 0, 2, 7], [5, 0, 2, 6], [5, 0, 2, 8]]);
    list.extend([[11, 0, 4, 9], [9, 0, 2, 9], [11, 0, 2, 9]]);
    let state = from_f(&list);
    for chain in [&[4][..], &[4, 7], &[4, 6], &[4, 6, 2], &[4, 6, 2, 8]] {
        has_chain(&state, chain);
    }
    assert_eq!(shortest_chains(&state, 8, 9), [[4, 6, 2, 8], [4, 7, 2, 8]]);
    has_counts(&state, 0, counts(&[(4, 0), (6, 1), (7, 1), (2, 2), (8, 3)]));
}

/// Document 02, point 2: "a chain of 8 steps or fewer": 8 steps are 9 bytes, and an area at 9 steps "lacks access".
#[test]
fn reading_19_chain_at_8_steps_and_counts_at_9() {
    let of_row: Vec<(usize, u8)> = (0..=8).map(|steps| (usize::from(steps), steps)).collect();
    for row in [row_by_imports(8), row_by_exports(7), row_by_exports(8)] {
        let state = from_f(&row);
        for last in 0..=8 {
            has_chain(&state, &[0, 1, 2, 3, 4, 5, 6, 7, 8][..=last]);
        }
        for area in [9, 10, 31] {
            has_counts(&state, area, counts(&of_row));
        }
    }
    // the export of area 8 makes a chain of 9 steps, and it is none
    let state = from_f(&row_by_exports(8));
    assert_eq!(least_chain(&state, 9, 9), Some(9));
    assert!(!is_first_chain(&state, 9, 9, &[0, 1, 2, 3, 4, 5, 6, 7, 8, 9]));
    assert!(!are_least_counts(&state, 9, &counts(&[&of_row[..], &[(9, 9)]].concat())));
    // a short cut of a step brings area 9 to 8 steps, and area 10 is at 9
    let shorter = step(&state, [5, 0, 0, 2]).expect("accepted");
    let shorter = step(&shorter, [11, 0, 9, 9]).expect("accepted");
    has_chain(&shorter, &[0, 2, 3, 4, 5, 6, 7, 8, 9]);
    let by_hand = [(0, 0), (1, 1), (2, 1), (3, 2), (4, 3), (5, 4), (6, 5), (7, 6), (8, 7), (9, 8)];
    has_counts(&shorter, 10, counts(&by_hand));
}

/// Document 02, point 5: "for each of the 32 areas its least step count", of the object that is asked about.
#[test]
fn point_5_counts_by_hand() {
    // area 3 defines object 9; 1 and 4 at one step, 0 and 5 at two (5 also at three), 31 at three; 2 and 6 are listed
    let mut list: Vec<[u8; 4]> = [1, 2, 3, 4, 5, 6, 31].map(|area| [1, 0, area, 0]).to_vec();
    list.extend([
        [7, 0, 3, 9],
        [5, 0, 1, 3],
        [5, 0, 4, 3],
        [5, 0, 0, 1],
        [5, 0, 5, 4],
        [5, 0, 5, 0],
        [5, 0, 31, 0],
    ]);
    list.extend([1, 4, 0, 5, 31].map(|area| [9, 0, area, 9]));
    // object 8 moves from area 6 to area 2, and to no other
    list.extend([[7, 0, 6, 8], [5, 0, 2, 6], [9, 0, 2, 8]]);
    let state = from_f(&list);
    let of_9 = counts(&[(3, 0), (1, 1), (4, 1), (0, 2), (5, 2), (31, 3)]);
    has_counts(&state, 2, of_9);
    has_counts(&state, 6, of_9);
    for area in [0, 1, 3, 4, 5, 31] {
        is_explained(&state, area, 8, Explanation::Counts(32), &counts(&[(6, 0), (2, 1)]));
    }
    is_explained(&state, 2, 8, Explanation::Chain(2), &[6, 2]);
    has_chain(&state, &[3, 4, 5]);
    has_chain(&state, &[3, 1, 0, 31]);
    // an object that nobody lends: 0 for the definer, 255 for all others, listed or not
    let alone = from_f(&[[1, 0, 7, 0], [7, 0, 7, 9]]);
    has_counts(&alone, 0, counts(&[(7, 0)]));
}

/// Document 02, point 5: "a buffer under 32 bytes gets 31 before them", "bytes not written stay", for each length.
#[test]
fn reading_19_every_length_of_a_buffer() {
    let state = run(&State::founding(), &SESSION[..8]);
    let lacking = run(&State::founding(), SESSION);
    for length in 0..=100 {
        if length < 32 {
            explain_refused(&state, 0, 9, length, 31);
            explain_refused(&state, 1, 9, length, 31); // one byte would do for the chain
            explain_refused(&lacking, 0, 9, length, 31);
            continue;
        }
        let (answer, left) = explained(&state, 0, 9, &vec![77; length]);
        assert_eq!((answer, &left[..3]), (Explanation::Chain(3), &[1, 2, 0][..]));
        assert!(left.len() == length && left[3..].iter().all(|&byte| byte == 77));
        let (answer, left) = explained(&lacking, 0, 9, &vec![77; length]);
        assert_eq!((answer, &left[..4]), (Explanation::Counts(32), &[255, 0, 1, 255][..]));
        assert!(left.len() == length && left[32..].iter().all(|&byte| byte == 77));
    }
}

/// Document 02, point 5: "Refusals for these two are those of the access question": 12, 2 and 4.
#[test]
fn point_5_refusals_of_the_access_question() {
    let state = from_f(&[[7, 0, 0, 9]]);
    for (area, object, number) in [(32, 9, 2), (0, 64, 2), (255, 9, 2), (31, 9, 4), (0, 63, 4), (1, 8, 4)] {
        explain_refused(&state, area, object, 32, number);
        explain_refused(&state, area, object, 300, number);
        assert_eq!(access(&state, area, object), Err(number));
    }
    for above in [256, 65_536, 1 << 24, 1 << 31, u32::MAX - 255] {
        for (area, object) in [(above, 9), (0, above + 9), (above, above + 9), (above, 8), (1, above + 9)] {
            explain_refused(&state, area, object, 32, 2);
        }
    }
    for state in unsound_states() {
        explain_refused(&state, 0, 9, 32, 12);
    }
}

/// Document 02, point 5: "a buffer under 32 bytes gets 31 before them": 31, 12, 2, 4, each two together and more.
#[test]
fn reading_19_order_of_refusals() {
    let sound = from_f(&[[7, 0, 0, 9]]);
    for state in unsound_states() {
        for (area, object) in [(0, 9), (32, 9), (31, 9), (0, 63), (32, 63), (u32::MAX, u32::MAX)] {
            explain_refused(&state, area, object, 31, 31); // 31 and 12, with 2 and 4
            explain_refused(&state, area, object, 0, 31);
            explain_refused(&state, area, object, 32, 12); // 12, with 2 and 4
        }
    }
    for (area, object, number) in [(32, 9, 2), (31, 9, 4), (32, 63, 2), (31, 64, 2), (31, 63, 4)] {
        explain_refused(&sound, area, object, 31, 31);
        explain_refused(&sound, area, object, 32, number); // the last three: 2 and 4 together, and 4 twice
    }
}

/// "or is not the record its relations have": bytes that are no record are 12, behind 31.
#[test]
fn reading_19_bytes_that_are_no_record() {
    for bad in no_records() {
        for (length, number) in [(0, 31), (31, 31), (32, 12), (300, 12)] {
            for (area, object) in [(0, 9), (32, 64)] {
                let mut buffer = lent_buffer(length, 0);
                assert_eq!(explain_record(&bad, area, object, &mut buffer), Explanation::Refused(number));
                assert_eq!(buffer, lent_buffer(length, 0));
            }
        }
        let unknown = StepReason { number: 12, lost: None };
        assert_eq!(explain_step_record(&bad, [12, 0, 1, 9]), unknown);
        assert_eq!(explain_step_record(&bad, [0, 255, 255, 255]), unknown);
    }
    for round in 0..256 {
        let record: Vec<u8> = (0..1040_usize).map(|byte| (byte * byte / 3 + byte * round + round) as u8).collect();
        assert_eq!(explain_record(&record, 0, 0, &mut [0; 32]), Explanation::Refused(12));
        assert_eq!(explain_step_record(&record, [6, 0, 0, 0]).number, 12);
    }
    let mut user_32 = State::founding();
    user_32.users.insert(32);
    user_32.owners.insert((32, 0));
    assert_eq!(explain(&user_32, 0, 0, &mut [0; 32]), Explanation::Refused(12));
}

/// An import pair that is lost.
fn import(object: u8, area: u8) -> Lost {
    let entry = Entry::Import;
    Lost { entry, object, area }
}

/// An export pair that is lost.
fn export(object: u8, area: u8) -> Lost {
    let entry = Entry::Export;
    Lost { entry, object, area }
}

/// Asserts that the removal is refused as 11 and that just these pairs are lost, of which the first is named; on the
/// record and for the judge too.
fn loses(state: &State, removal: [u8; 4], lost: &[Lost]) {
    let named = StepReason {
        number: 11,
        lost: Some(lost[0]),
    };
    assert_eq!(explain_step(state, removal), named, "{removal:?}");
    assert_eq!(explain_step_record(&to_record(state), removal), named);
    assert_eq!(step(state, removal), Err(11));
    assert_eq!(lost_pairs(state, removal).into_iter().collect::<Vec<Lost>>(), lost);
    for (place, lost) in lost.iter().enumerate() {
        assert_eq!(is_first_lost(state, removal, lost), place == 0);
    }
}

/// Asserts the number, and that no pair is named, nor would one that is there be the true one.
fn has_no_pair(state: &State, instruction: [u8; 4], number: u8) {
    let answer = StepReason { number, lost: None };
    assert_eq!(explain_step(state, instruction), answer, "{instruction:?}");
    assert_eq!(explain_step_record(&to_record(state), instruction), answer);
    assert_eq!(step_reason_number(answer), u32::from(number));
    assert_eq!(lost_pairs(state, instruction).len(), 0);
    let imports = state.imports.iter().map(|&(object, area)| import(object, area));
    let exports = state.exports.iter().map(|&(object, area)| export(object, area));
    assert!(!imports.chain(exports).any(|lost| is_first_lost(state, instruction, &lost)));
}

/// Line 9 of the session, `12 0 1 9`, is refused as 11: the import of object 9 by area 0 would be lost.
#[test]
fn point_5_line_9_of_the_session() {
    let after_line_8 = run(&State::founding(), &SESSION[..8]);
    loses(&after_line_8, SESSION[8], &[import(9, 0)]);
    assert_eq!(step_reason_number(explain_step(&after_line_8, SESSION[8])), 11 + 256 + 9 * 65_536);
    // the other lines are not refused as 11
    let mut state = State::founding();
    for (place, number) in [0, 0, 0, 0, 0, 10, 0, 0, 11, 0, 0, 0].into_iter().enumerate() {
        if number != 11 {
            has_no_pair(&state, SESSION[place], number);
        }
        state = run(&state, &[SESSION[place]]);
    }
}

/// Document 02, point 5: "imports before exports". Area 1 lies in area 0, imports object 9 from it, and exports its own
/// object 3 to it, which area 0 exports as well.
#[test]
fn point_5_import_before_an_export_of_a_lower_object() {
    let state = from_f(&[
        [1, 0, 1, 0],
        [7, 0, 0, 9],
        [7, 0, 1, 3],
        [5, 0, 1, 0],
        [9, 0, 1, 9],
        [11, 0, 1, 3],
        [11, 0, 0, 3],
    ]);
    loses(&state, [6, 0, 1, 0], &[import(9, 1), export(3, 0)]);
    let without_import = step(&state, [10, 0, 1, 9]).expect("accepted");
    loses(&without_import, [6, 0, 1, 0], &[export(3, 0)]);
    let exported_too = step(&state, [11, 0, 1, 9]).expect("accepted");
    loses(&exported_too, [6, 0, 1, 0], &[import(9, 1), export(3, 0), export(9, 1)]);
}

/// Document 02, point 5: "then by object, then by area". Area 20 lies in area 0, which defines objects 3 and 9, and
/// areas 1 and 5 lie in area 20.
#[test]
fn point_5_object_before_area() {
    let mut list: Vec<[u8; 4]> = [1, 5, 20].map(|area| [1, 0, area, 0]).to_vec();
    list.extend([[7, 0, 0, 3], [7, 0, 0, 9], [5, 0, 20, 0], [5, 0, 1, 20], [5, 0, 5, 20]]);
    list.extend([[9, 0, 20, 9], [9, 0, 20, 3], [9, 0, 1, 9], [9, 0, 5, 3]]);
    let state = from_f(&list);
    loses(&state, [6, 0, 20, 0], &[import(3, 5), import(3, 20), import(9, 1), import(9, 20)]);
    loses(&state, [10, 0, 20, 9], &[import(9, 1)]);
    loses(&state, [10, 0, 20, 3], &[import(3, 5)]);
}

/// The same of exports: object 3 and 9 go from area 10 outwards to area 11, and from there to areas 1 and 5.
#[test]
fn point_5_object_before_area_of_exports() {
    let mut list: Vec<[u8; 4]> = [1, 5, 10, 11].map(|area| [1, 0, area, 0]).to_vec();
    list.extend([[7, 0, 10, 3], [7, 0, 10, 9], [5, 0, 10, 11], [5, 0, 11, 1], [5, 0, 11, 5]]);
    list.extend([10, 11].into_iter().flat_map(|area| [[11, 0, area, 9], [11, 0, area, 3]]));
    list.extend([[11, 0, 1, 9], [11, 0, 5, 3]]);
    let state = from_f(&list);
    loses(&state, [6, 0, 10, 11], &[export(3, 5), export(3, 11), export(9, 1), export(9, 11)]);
    loses(&state, [12, 0, 10, 9], &[export(9, 1), export(9, 11)]);
    loses(&state, [12, 0, 11, 9], &[export(9, 1)]);
    loses(&state, [8, 0, 10, 3], &[export(3, 5), export(3, 10), export(3, 11)]);
}

/// "Testing a removal against neighbours only; the lost pair can be many steps off." Without the short cut each area of
/// the row is one step further, and only the import of area 9 is lost.
#[test]
fn point_5_lost_pair_many_steps_off() {
    let by_structure: &[[u8; 4]] = &[[5, 0, 2, 0]];
    let by_import: &[[u8; 4]] = &[[5, 0, 20, 0], [9, 0, 20, 9], [5, 0, 3, 20]];
    let by_export: &[[u8; 4]] = &[[5, 0, 0, 2], [11, 0, 0, 9]];
    for (short_cut, removal) in [
        (by_structure, [6, 0, 2, 0]),
        (by_import, [10, 0, 20, 9]),
        (by_import, [6, 0, 3, 20]),
        (by_export, [12, 0, 0, 9]),
        (by_export, [6, 0, 0, 2]),
    ] {
        let in_reach = from_f(&and(row_by_imports(8), short_cut));
        has_no_pair(&in_reach, removal, 0);
        let importing = step(&in_reach, [9, 0, 9, 9]).expect("accepted");
        loses(&importing, removal, &[import(9, 9)]);
        let exporting = step(&importing, [11, 0, 9, 9]).expect("accepted");
        loses(&exporting, removal, &[import(9, 9), export(9, 9)]);
    }
}

/// Document 02, point 5: "the first pair left": the removed pair is not, though its area lacks access as well.
#[test]
fn reading_19_removed_pair_is_not_named() {
    let imports = |from: u8| (from..=8).map(|area| import(9, area)).collect::<Vec<Lost>>();
    let exports = |from: u8| (from..=8).map(|area| export(9, area)).collect::<Vec<Lost>>();
    let (inwards, outwards) = (from_f(&row_by_imports(8)), from_f(&row_by_exports(8)));
    for area in 1..=7 {
        loses(&inwards, [10, 0, area, 9], &imports(area + 1));
        loses(&inwards, [6, 0, area, area - 1], &imports(area));
        loses(&outwards, [12, 0, area, 9], &exports(area + 1));
        loses(&outwards, [6, 0, area, area + 1], &exports(area + 1));
    }
    has_no_pair(&inwards, [10, 0, 8, 9], 0);
    has_no_pair(&outwards, [12, 0, 8, 9], 0);
    // area 5 exports as well: its export is left when its import is removed, and comes behind the imports
    let both = step(&inwards, [11, 0, 5, 9]).expect("accepted");
    loses(&both, [10, 0, 5, 9], &[imports(6), vec![export(9, 5)]].concat());
    // area 1 imports what it has by the export of area 0; without that export its import is lost
    let mut list = vec![[1, 0, 1, 0], [1, 0, 2, 0], [7, 0, 0, 9], [5, 0, 0, 1], [5, 0, 2, 1]];
    list.extend([[11, 0, 0, 9], [9, 0, 1, 9], [9, 0, 2, 9]]);
    loses(&from_f(&list), [12, 0, 0, 9], &[import(9, 1), import(9, 2)]);
}

/// Code 8: "with no definition nobody has access to it" (reading 4), the area that defined it neither.
#[test]
fn point_5_removed_definition() {
    let importers: Vec<Lost> = (1..=8).map(|area| import(9, area)).collect();
    loses(&from_f(&row_by_imports(8)), [8, 0, 0, 9], &importers);
    loses(&from_f(&row_by_exports(1)), [8, 0, 0, 9], &[export(9, 0), export(9, 1)]);
    // the importer is named before the definer's own export, though its number is higher
    let both = from_f(&and(row_by_imports(1), &[[11, 0, 0, 9]]));
    loses(&both, [8, 0, 0, 9], &[import(9, 1), export(9, 0)]);
    // the pairs of another object are left alone
    let two = from_f(&and(row_by_imports(2), &[[7, 0, 0, 3], [9, 0, 1, 3], [9, 0, 2, 3]]));
    loses(&two, [8, 0, 0, 9], &[import(9, 1), import(9, 2)]);
    loses(&two, [6, 0, 2, 1], &[import(3, 2), import(9, 2)]);
    has_no_pair(&from_f(&row_by_imports(0)), [8, 0, 0, 9], 0);
}

/// A cycle does not keep its pairs: areas 1 and 2 lie in each other, and area 1 in area 0 as well.
#[test]
fn point_5_cycle_does_not_vouch_for_a_pair() {
    let state = from_f(&[
        [1, 0, 1, 0],
        [1, 0, 2, 0],
        [7, 0, 0, 9],
        [5, 0, 1, 0],
        [5, 0, 2, 1],
        [5, 0, 1, 2],
        [9, 0, 1, 9],
        [9, 0, 2, 9],
    ]);
    loses(&state, [6, 0, 1, 0], &[import(9, 1), import(9, 2)]);
    loses(&state, [6, 0, 2, 1], &[import(9, 2)]);
    has_no_pair(&state, [6, 0, 1, 2], 0);
    has_no_pair(&state, [10, 0, 2, 9], 0);
}

/// Document 02, point 5: "For an instruction not refused as 11 the answer is its own number or 0, and no pair."
#[test]
fn point_5_instructions_not_refused_as_11() {
    has_no_pair(&from_f(&[]), [13, 0, 0, 0], 1);
    has_no_pair(&from_f(&[]), [7, 0, 0, 64], 2);
    has_no_pair(&from_f(&[]), [1, 5, 1, 0], 3);
    has_no_pair(&from_f(&[]), [7, 0, 6, 0], 4);
    has_no_pair(&from_f(&[[1, 0, 1, 0], [3, 0, 0, 4]]), [7, 4, 1, 9], 5);
    has_no_pair(&from_f(&[]), [1, 0, 0, 0], 6);
    has_no_pair(&from_f(&[[7, 0, 0, 9]]), [10, 0, 0, 9], 7);
    has_no_pair(&from_f(&[[7, 0, 0, 9]]), [9, 0, 0, 9], 15);
    has_no_pair(&from_f(&[]), [4, 0, 0, 0], 8);
    has_no_pair(&from_f(&[[1, 0, 1, 0], [7, 0, 1, 9]]), [2, 0, 1, 0], 9);
    has_no_pair(&from_f(&[[1, 0, 1, 0], [7, 0, 0, 9]]), [9, 0, 1, 9], 10);
    for state in unsound_states() {
        has_no_pair(&state, [1, 0, 1, 0], 12);
        has_no_pair(&state, [8, 0, 0, 9], 12);
        has_no_pair(&state, [10, 0, 9, 9], 12);
    }
    // removals that are refused by a number in front of 11
    let row = from_f(&and(row_by_imports(8), &[[3, 0, 20, 4]]));
    for (instruction, number) in [
        ([10, 32, 1, 9], 2),
        ([10, 5, 1, 9], 3),
        ([8, 0, 0, 8], 4),
        ([10, 4, 1, 9], 5),
        ([6, 4, 2, 1], 5),
        ([8, 0, 1, 9], 7),
        ([12, 0, 0, 9], 7),
    ] {
        has_no_pair(&row, instruction, number);
    }
    has_no_pair(&row, [5, 0, 1, 1], 0);
}

/// The numbers that a C caller gets.
#[test]
fn reading_19_numbers_for_a_c_caller() {
    assert_eq!([1, 3, 9].map(|bytes| explanation_number(Explanation::Chain(bytes))), [1, 3, 9]);
    assert_eq!(explanation_number(Explanation::Counts(32)), 544);
    let refusals = [31, 12, 2, 4].map(|number| explanation_number(Explanation::Refused(number)));
    assert_eq!(refusals, [287, 268, 258, 260]);
    for (number, lost, by_hand) in [
        (0, None, 0),
        (10, None, 10),
        (15, None, 15),
        (11, Some(import(0, 0)), 267),
        (11, Some(export(0, 0)), 523),
        (11, Some(import(9, 0)), 590_091),
        (11, Some(import(0, 1)), 16_777_483),
        (11, Some(import(63, 31)), 524_222_731),
        (11, Some(export(63, 31)), 524_222_987),
    ] {
        assert_eq!(step_reason_number(StepReason { number, lost }), by_hand);
    }
}

/// The judge of a chain: what is wrong at each of its places.
#[test]
fn point_5_judge_of_a_chain() {
    for state in along(&[&[7, 1, 30, 2], &[7, 4, 5, 2], &[7, 1, 6, 8, 2], &[7, 9]]) {
        assert!(is_first_chain(&state, 2, 9, &[7, 1, 30, 2]));
        let wrong: [&[u8]; 13] = [
            &[],
            &[7],
            &[2],
            &[7, 1, 30],       // does not end at the area
            &[1, 30, 2],       // does not begin at the definer
            &[7, 30, 2],       // a step that is not there
            &[7, 2],           // nor this one
            &[7, 4, 5, 2],     // a shortest one, and not the lowest
            &[7, 1, 6, 8, 2],  // lower at its third place, and a step longer
            &[2, 30, 1, 7],    // turned round
            &[7, 1, 30, 2, 2], // area 2 does not lie in itself
            &[7, 7, 1, 30, 2], // nor does area 7
            &[7, 1, 30, 255],  // no area
        ];
        for chain in wrong {
            assert!(!is_first_chain(&state, 2, 9, chain), "{chain:?}");
        }
        assert!(!is_first_chain(&state, 0, 9, &[7, 0]) && !is_first_chain(&state, 0, 9, &[0]));
        for place in 0..4 {
            for other in 0..=255 {
                let mut chain = [7, 1, 30, 2];
                chain[place] = other;
                assert_eq!(is_first_chain(&state, 2, 9, &chain), chain == [7, 1, 30, 2]);
            }
        }
    }
}

/// The judge of counts: another number at any place is wrong, and so is another length, and the counts that a ring
/// would give itself.
#[test]
fn point_5_judge_of_counts() {
    for state in along(&[&[3, 1, 5], &[3, 4, 5, 6, 31], &[31, 6, 7, 31]]) {
        let right = counts(&[(3, 0), (1, 1), (4, 1), (5, 2), (6, 3), (31, 4), (7, 4)]);
        assert!(are_least_counts(&state, 9, &right));
        for place in 0..32 {
            for other in 0..=255 {
                let mut wrong = right;
                wrong[place] = other;
                assert_eq!(are_least_counts(&state, 9, &wrong), wrong == right);
            }
        }
        let longer = [&right[..], &[255]].concat();
        for bytes in [&right[..31], &longer, &[], &right[..1]] {
            assert!(!are_least_counts(&state, 9, bytes));
        }
    }
    // areas 1 and 2 lie in each other and would import, but nothing leads to them
    let mut ring = from_f(&[[1, 0, 1, 0], [1, 0, 2, 0], [7, 0, 0, 9], [5, 0, 1, 2], [5, 0, 2, 1]]);
    ring.imports.extend([(9, 1), (9, 2)]);
    assert!(are_least_counts(&ring, 9, &counts(&[(0, 0)])));
    for (of_1, of_2) in (0..=8).flat_map(|of_1| (0..=8).map(move |of_2| (of_1, of_2))) {
        assert!(!are_least_counts(&ring, 9, &counts(&[(0, 0), (1, of_1), (2, of_2)])));
    }
}

/// The judge of a lost pair: of all pairs only the first that is lost.
#[test]
fn point_5_judge_of_a_lost_pair() {
    let mut list: Vec<[u8; 4]> = [1, 5, 20].map(|area| [1, 0, area, 0]).to_vec();
    list.extend([
        [7, 0, 0, 3],
        [7, 0, 0, 9],
        [5, 0, 20, 0],
        [5, 0, 1, 20],
        [5, 0, 5, 20],
        [11, 0, 0, 3],
    ]);
    list.extend([[9, 0, 20, 9], [9, 0, 20, 3], [9, 0, 1, 9], [9, 0, 5, 3], [11, 0, 1, 9]]);
    let state = from_f(&list);
    for (removal, first) in [
        ([6, 0, 20, 0], import(3, 5)),
        ([10, 0, 20, 9], import(9, 1)),
        ([8, 0, 0, 9], import(9, 1)),
        ([8, 0, 0, 3], import(3, 5)),
    ] {
        for (object, area) in (0..=64).flat_map(|object| (0..=32).map(move |area| (object, area))) {
            if [0, 3, 9, 64].contains(&object) {
                assert_eq!(is_first_lost(&state, removal, &import(object, area)), first == import(object, area));
                assert!(!is_first_lost(&state, removal, &export(object, area)));
            }
        }
    }
}

/// Every chain of just so many steps, shortest or not, by the definition of a step alone; nothing is left out.
fn every_chain(state: &State, object: u8, steps: u8) -> BTreeSet<Vec<u8>> {
    if steps == 0 {
        let of_object = state.definitions.iter().filter(|pair| pair.0 == object);
        return of_object.map(|&(_, definer)| vec![definer]).collect();
    }
    let mut longer = BTreeSet::new();
    for chain in every_chain(state, object, steps - 1) {
        let s = chain[chain.len() - 1];
        for &r in &state.areas {
            let export = state.exports.contains(&(object, s)) && state.structure.contains(&(s, r));
            let import = state.imports.contains(&(object, r)) && state.structure.contains(&(r, s));
            if export || import {
                longer.insert([&chain[..], &[r]].concat());
            }
        }
    }
    longer
}

/// Asserts that what is explained of the object at the listed area is what `every_chain` and `least_chains` make of it,
/// and that the judges find nothing else true. Hands back how many chains are shortest.
fn explained_by_every_chain(state: &State, area: u8, object: u8) -> u64 {
    let chains = least_chains(state, object);
    let steps = chains.get(&area).copied().filter(|&steps| steps <= 8);
    let listed: BTreeSet<Vec<u8>> = shortest_chains(state, area, object).into_iter().collect();
    let count = count_shortest_chains(state, area, object);
    assert_eq!(
        (listed.len() as u64, shortest_chains(state, area, object).len() as u64),
        (count, count)
    );
    let (answer, bytes) = explained(state, area.into(), object.into(), &[77; 32]);
    let Some(steps) = steps else {
        let count_of = |area| chains.get(&area).copied().filter(|&steps| steps <= 8).unwrap_or(255);
        assert_eq!(
            (answer, &bytes),
            (Explanation::Counts(32), &(0..32).map(count_of).collect::<Vec<u8>>())
        );
        assert!(are_least_counts(state, object, &bytes));
        assert_eq!(count, 0);
        return 0;
    };
    let mut all = every_chain(state, object, steps);
    all.retain(|chain| chain.ends_with(&[area]));
    assert_eq!(listed, all);
    let first = all.first().expect("a chain");
    assert_eq!((answer, &bytes[..first.len()]), (Explanation::Chain(first.len()), &first[..]));
    assert!(bytes[first.len()..].iter().all(|&byte| byte == 77));
    assert!(all
        .iter()
        .all(|chain| is_first_chain(state, area, object, chain) == (chain == first)));
    count
}

/// Document 02, point 5, at each small state.
#[test]
fn point_5_chains_and_counts_at_every_small_state() {
    let mut seen: BTreeMap<u64, u32> = BTreeMap::new();
    for state in small_states().iter().filter(|state| !state.objects.is_empty()) {
        for &area in &state.areas {
            *seen.entry(explained_by_every_chain(state, area, 0)).or_default() += 1;
        }
    }
    // by hand, as in `small_states_are_1620`: 24 states with the object have one area. 9 * 2 * 4 * 20 have two, d and
    // r, and r has access in 14 of the 20: with (d, r) alone in 4, with (r, d) alone in 2 * 2, with both in 4 + 2
    assert_eq!(seen, BTreeMap::from([(0, 72 * 6), (1, 24 + 72 * 20 + 72 * 14)]));
}

/// Document 02, point 5, over states in disorder: six areas, two objects, adds and removes of pairs.
#[test]
fn point_5_chains_and_counts_in_disorder() {
    let mut state = from_f(&[
        [1, 0, 1, 0],
        [1, 0, 2, 0],
        [1, 0, 3, 0],
        [1, 0, 4, 0],
        [1, 0, 5, 0],
        [7, 0, 2, 0],
        [7, 0, 4, 1],
    ]);
    let mut seen: BTreeMap<u64, u32> = BTreeMap::new();
    for [kind, a, b, object] in disorder().take(300) {
        let code = [5, 5, 9, 9, 11, 11, 6, 10, 12][usize::from(kind) % 9];
        state = run(&state, &[[code, 0, a % 6, if code < 7 { b % 6 } else { b % 2 }]]);
        for area in 0..6 {
            *seen.entry(explained_by_every_chain(&state, area, object % 2)).or_default() += 1;
        }
    }
    assert!((0..=3).all(|count| seen.contains_key(&count)), "{seen:?}");
}

/// The layers as a state of user 0: object 9 is defined in the one area of the first layer, each area lies in each of
/// the layer before it, and all of the layers behind the first import the object.
fn layered(layers: &[&[u8]]) -> State {
    let areas: BTreeSet<u8> = layers.concat().into_iter().chain([0]).collect();
    let behind = layers[1..].concat();
    let pairs_of = |two: &[&[u8]]| two[1].iter().flat_map(|&r| two[0].iter().map(move |&s| (r, s))).collect::<Vec<_>>();
    State {
        owners: areas.iter().map(|&area| (0, area)).collect(),
        areas,
        objects: BTreeSet::from([9]),
        definitions: BTreeSet::from([(9, layers[0][0])]),
        structure: layers.windows(2).flat_map(pairs_of).collect(),
        imports: behind.into_iter().map(|area| (9, area)).collect(),
        ..State::founding()
    }
}

/// As many equal shortest chains as 32 areas and 8 steps allow: 4 * 4 * 4 * 4 * 4 * 5 * 5 = 25,600 to one area.
#[test]
fn point_5_most_shortest_chains() {
    let (front, back): ([&[u8]; 6], [&[u8]; 3]) = (
        [
            &[0],
            &[4, 1, 3, 2],
            &[30, 29, 28, 27],
            &[5, 6, 7, 8],
            &[9, 26, 10, 25],
            &[11, 12, 23, 24],
        ],
        [&[13, 22, 14, 21, 15], &[20, 16, 19, 17, 18], &[31]],
    );
    let state = layered(&[&front[..], &back].concat());
    assert!(state.is_sound());
    has_chain(&state, &[0, 1, 27, 5, 9, 11, 13, 16, 31]);
    assert_eq!(count_shortest_chains(&state, 31, 9), 25_600);
    assert_eq!(shortest_chains(&state, 31, 9).len(), 25_600);
    // area 31 lies in area 20 only, that in 22 only, that in 23 and 24 only, and 23 in 26 only
    let mut narrow = state;
    narrow.structure.retain(|&(r, s)| r != 31 || s == 20);
    narrow.structure.retain(|&(r, s)| r != 20 || s == 22);
    narrow.structure.retain(|&(r, s)| r != 22 || s == 23 || s == 24);
    narrow.structure.retain(|&(r, s)| r != 23 || s == 26);
    assert!(narrow.is_sound());
    has_chain(&narrow, &[0, 1, 27, 5, 9, 24, 22, 20, 31]);
    assert_eq!(count_shortest_chains(&narrow, 31, 9), 4 * 4 * 4 * (4 + 1));
    assert!(!is_first_chain(&narrow, 31, 9, &[0, 1, 27, 5, 26, 23, 22, 20, 31]));
}

/// The lowest shortest chain of object 9 to each area, by a third way: of the chains to an area only the lowest is
/// kept. It is enough, for two chains of equal length to the same area compare as before when both go on alike.
fn lowest_kept(state: &State) -> BTreeMap<u8, Vec<u8>> {
    let definers = state.definitions.iter().filter(|pair| pair.0 == 9);
    let mut layer: BTreeMap<u8, Vec<u8>> = definers.map(|&(_, definer)| (definer, vec![definer])).collect();
    let mut kept = BTreeMap::new();
    for _ in 0..=8 {
        let mut next: BTreeMap<u8, Vec<u8>> = BTreeMap::new();
        kept.extend(layer.clone());
        for (&s, chain) in &layer {
            let is_step = |r: u8| {
                (state.exports.contains(&(9, s)) && state.structure.contains(&(s, r)))
                    || (state.imports.contains(&(9, r)) && state.structure.contains(&(r, s)))
            };
            for r in (0..32).filter(|&r| is_step(r) && !kept.contains_key(&r)) {
                let longer = [&chain[..], &[r]].concat();
                let lowest = next.get(&r).map_or(&longer, |other| other.min(&longer)).clone();
                next.insert(r, lowest);
            }
        }
        layer = next;
    }
    kept
}

/// 32 areas in a fixed disorder, in layers of 1 to 7, with pairs between neighbouring layers in either direction, pairs
/// within layers, and entries at most 8 steps off.
fn layered_in_disorder(bytes: &mut impl Iterator<Item = [u8; 4]>) -> State {
    let mut areas: Vec<([u8; 4], u8)> = bytes.by_ref().take(32).zip(0..).collect();
    areas.sort();
    let mut rest: Vec<u8> = areas.into_iter().map(|(_, area)| area).collect();
    let mut layers: Vec<Vec<u8>> = vec![vec![rest.pop().expect("a definer")]];
    while !rest.is_empty() {
        let width = 1 + usize::from(bytes.next().expect("endless")[0] % 7);
        layers.push(rest.split_off(rest.len().saturating_sub(width)));
    }
    let mut state = layered(&layers.iter().map(|layer| &layer[..]).collect::<Vec<&[u8]>>());
    state
        .imports
        .retain(|&(_, area)| layers.iter().take(9).any(|layer| layer.contains(&area)));
    state.exports = state.imports.iter().copied().chain(state.definitions.iter().copied()).collect();
    for (r, s) in state.structure.clone() {
        let [turned, cut, among, _] = bytes.next().expect("endless");
        if turned % 2 == 0 {
            state.structure.remove(&(r, s));
            state.structure.insert((s, r));
        }
        if cut % 4 == 0 {
            state.structure.remove(&(r, s));
            state.structure.remove(&(s, r));
        }
        if among % 8 == 0 {
            state.structure.insert((r, r));
        }
    }
    let kept = lowest_kept(&state);
    state.imports.retain(|(_, area)| kept.contains_key(area));
    state.exports.retain(|(_, area)| kept.contains_key(area));
    state
}

/// Document 02, point 5, where there are many shortest chains: what is explained is what `lowest_kept` has.
#[test]
fn point_5_many_shortest_chains_in_disorder() {
    let mut bytes = disorder();
    let (mut most, mut lengths) = (0, BTreeSet::new());
    for _ in 0..25 {
        let state = layered_in_disorder(&mut bytes);
        assert!(state.is_sound());
        let kept = lowest_kept(&state);
        let by_hand = (0..32).map(|area| kept.get(&area).map_or(255, |chain| chain.len() as u8 - 1));
        let counts: Vec<u8> = by_hand.collect();
        assert!(are_least_counts(&state, 9, &counts));
        for area in 0..32 {
            let mut buffer = [77; 32];
            let answer = explain(&state, area.into(), 9, &mut buffer);
            most = most.max(count_shortest_chains(&state, area, 9));
            let Some(chain) = kept.get(&area) else {
                assert_eq!((answer, &buffer[..]), (Explanation::Counts(32), &counts[..]));
                continue;
            };
            assert_eq!((answer, &buffer[..chain.len()]), (Explanation::Chain(chain.len()), &chain[..]));
            assert!(is_first_chain(&state, area, 9, chain));
            lengths.insert(chain.len());
        }
    }
    assert_eq!(lengths, (1..=9).collect());
    assert!(most > 500, "{most}");
}

/// The pairs that are lost in the state that the removal would give, in the order of point 5, by `least_chains`.
fn lost_by_least_chains(state: &State, [code, _, a, b]: [u8; 4]) -> Vec<Lost> {
    let mut next = state.clone();
    let removed = match code {
        6 => next.structure.remove(&(a, b)),
        8 => next.definitions.remove(&(b, a)) && next.objects.remove(&b),
        10 => next.imports.remove(&(b, a)),
        _ => next.exports.remove(&(b, a)),
    };
    assert!(removed);
    let mut lost = Vec::new();
    for (pairs, relation) in [(&next.imports, import as fn(u8, u8) -> Lost), (&next.exports, export)] {
        for object in 0..64 {
            for area in (0..32).filter(|&area| pairs.contains(&(object, area))) {
                if least_chain(&next, area, object).is_none_or(|steps| steps > 8) {
                    lost.push(relation(object, area));
                }
            }
        }
    }
    lost
}

/// Asserts the reason of the instruction by `lost_by_least_chains`. Hands back what is named, and how many are lost.
fn reason_by_least_chains(state: &State, instruction: [u8; 4]) -> (u8, Option<Entry>, usize) {
    let number = step(state, instruction).err().unwrap_or(0);
    if number != 11 {
        assert_eq!(explain_step(state, instruction), StepReason { number, lost: None });
        assert_eq!(lost_pairs(state, instruction).len(), 0);
        return (number, None, 0);
    }
    let lost = lost_by_least_chains(state, instruction);
    loses(state, instruction, &lost);
    (number, Some(lost[0].entry), lost.len())
}

/// Document 02, point 5, of each instruction at small states.
#[test]
fn point_5_step_reasons_at_small_states() {
    let instructions = small_instructions();
    let mut seen = BTreeSet::new();
    for state in small_states().iter().step_by(11) {
        seen.extend(instructions.iter().map(|&instruction| reason_by_least_chains(state, instruction)));
    }
    // two pairs and the definer's export are the most that a removal can lose: the definition's
    let (imports, exports) = ((1..=3).map(|count| (11, Some(Entry::Import), count)), (11, Some(Entry::Export), 1));
    assert!(seen.is_superset(&imports.chain([exports]).collect()), "{seen:?}");
    assert!(seen.iter().all(|&(_, _, count)| count <= 3));
}

/// Document 02, point 5, over lists in disorder, on a row at whose end areas are 7, 8 and 9 steps off, and on four
/// areas of three users.
#[test]
fn point_5_step_reasons_in_disorder() {
    type Pick = fn(&State, [u8; 4]) -> [u8; 4];
    let of_all: Pick = |_, four| of_another(u8::MAX, four);
    let starts: [(&[[u8; 4]], Pick); 2] = [(&lent_row(), of_all), (FOUR_AREAS, often_own_import)];
    let mut bytes = disorder();
    let mut seen: BTreeMap<(u8, Option<Entry>, usize), u32> = BTreeMap::new();
    for (list, pick) in starts.repeat(10) {
        let mut state = from_f(list);
        for four in bytes.by_ref().take(100) {
            let instruction = pick(&state, four);
            *seen.entry(reason_by_least_chains(&state, instruction)).or_default() += 1;
            state = run(&state, &[instruction]);
        }
    }
    let numbers: BTreeSet<u8> = seen.keys().map(|&(number, _, _)| number).collect();
    assert!(numbers.is_superset(&BTreeSet::from([0, 3, 4, 5, 6, 7, 10, 11, 15])), "{numbers:?}");
}

/// Document 02, point 5, of every removal of what is there, at states in disorder: six areas of user 0, three objects.
#[test]
fn point_5_every_removal_in_disorder() {
    let mut list: Vec<[u8; 4]> = (1..=5).map(|area| [1, 0, area, 0]).collect();
    list.extend([[7, 0, 2, 0], [7, 0, 4, 1], [7, 0, 0, 63]]);
    let mut state = from_f(&list);
    let mut seen: BTreeMap<(u8, Option<Entry>, usize), u32> = BTreeMap::new();
    for (round, [kind, a, b, _]) in disorder().take(2400).enumerate() {
        let code = [5, 5, 9, 9, 11, 11, 6, 6, 10, 12][usize::from(kind) % 10];
        let object = [0, 1, 63][usize::from(b) % 3];
        state = run(&state, &[[code, 0, a % 6, if code < 7 { b % 6 } else { object }]]);
        if round % 80 == 0 {
            let structure = state.structure.iter().map(|&(inner, outer)| [6, 0, inner, outer]);
            let definitions = state.definitions.iter().map(|&(object, area)| [8, 0, area, object]);
            let imports = state.imports.iter().map(|&(object, area)| [10, 0, area, object]);
            let exports = state.exports.iter().map(|&(object, area)| [12, 0, area, object]);
            for removal in structure.chain(definitions).chain(imports).chain(exports) {
                *seen.entry(reason_by_least_chains(&state, removal)).or_default() += 1;
            }
        }
    }
    for (entry, most) in [(Entry::Import, 6), (Entry::Export, 3)] {
        let all = (1..=most).all(|count| seen.contains_key(&(11, Some(entry), count)));
        assert!(all, "{seen:?}");
    }
}

// The small states

/// By hand. One area (two choices), 3 sets of owners, 2 structures: without the object 1, with it 2 exports and no import: 2 * 3 * 2 *
/// 3 = 36. Two areas, 9 sets of owners: without the object 16 structures. With it, defined in one of 2 areas, say in d, the other r:
/// the pairs (d, d) and (r, r) are free, 4, and d does not import. The rest by the pairs (d, r) and (r, d): neither 2 (r has no entry),
/// the first alone 1 + 4 (by the export of d), the second alone 2 * 3 (r has none, or imports), both 4 + 3; 20.
/// 9 * (16 + 2 * 4 * 20) = 1,584.
#[test]
fn small_states_are_1620() {
    let states = small_states();
    assert_eq!(states.len(), 36 + 1584);
    assert!(states.contains(&State::founding()));
    assert!(states.iter().all(State::is_sound));
}

/// Document 02, point 14: "A state is a number of 14 bits, lowest first".
fn bits_of(state: &State) -> u16 {
    const AREA_PAIRS: [(u8, u8); 4] = [(0, 0), (0, 1), (1, 0), (1, 1)];
    let bits = |pairs: &BTreeSet<(u8, u8)>, order: &[(u8, u8)]| -> Vec<bool> { order.iter().map(|pair| pairs.contains(pair)).collect() };
    let all_bits = [
        bits(&state.owners, &AREA_PAIRS),
        bits(&state.definitions, &AREA_PAIRS[..2]),
        bits(&state.structure, &AREA_PAIRS),
        bits(&state.imports, &AREA_PAIRS[..2]),
        bits(&state.exports, &AREA_PAIRS[..2]),
    ];
    all_bits
        .concat()
        .into_iter()
        .rev()
        .fold(0, |number, bit| 2 * number + u16::from(bit))
}

/// Whether the number of 14 bits is a sound state, by its bits alone: no set, no search. A chain between two areas has one step.
fn bits_are_sound(number: u16) -> bool {
    let bit = |place: usize| number >> place & 1 == 1;
    let listed = |area: usize| bit(area) || bit(2 + area);
    let (defined, imports, exports) = (|area| bit(4 + area), |area| bit(10 + area), |area| bit(12 + area));
    let structure = |inner: usize, outer: usize| bit(6 + 2 * inner + outer);
    let in_order = |area: usize| {
        let other = 1 - area;
        let by_export = defined(other) && exports(other) && structure(other, area);
        let by_import = defined(other) && imports(area) && structure(area, other);
        let named = defined(area) || imports(area) || exports(area) || structure(area, area) || structure(0, 1) || structure(1, 0);
        let entry = imports(area) || exports(area);
        (listed(area) || !named) && (!entry || defined(area) || by_export || by_import) && !(imports(area) && defined(area))
    };
    (listed(0) || listed(1)) && !(defined(0) && defined(1)) && in_order(0) && in_order(1)
}

/// Document 02, point 14: "the listing misses none, repeats none and has no other number".
#[test]
fn small_states_are_the_sound_numbers_of_14_bits() {
    let numbers: Vec<u16> = small_states().iter().map(bits_of).collect();
    let by_bits: BTreeSet<u16> = (0..1 << 14).filter(|&number| bits_are_sound(number)).collect();
    assert_eq!(by_bits.len(), 1620);
    assert_eq!(numbers.len(), 1620);
    assert_eq!(BTreeSet::from_iter(numbers), by_bits);
    // by hand: F, and area 1 of user 1 in area 0 of user 0, which defines and exports the object that area 1 imports
    let by_hand = State {
        users: BTreeSet::from([0, 1]),
        areas: BTreeSet::from([0, 1]),
        objects: BTreeSet::from([0]),
        owners: BTreeSet::from([(0, 0), (1, 1)]),
        definitions: BTreeSet::from([(0, 0)]),
        structure: BTreeSet::from([(1, 0)]),
        imports: BTreeSet::from([(0, 1)]),
        exports: BTreeSet::from([(0, 0)]),
    };
    assert_eq!(
        (bits_of(&State::founding()), bits_of(&by_hand)),
        (1, 1 + 8 + 16 + 256 + 2048 + 4096)
    );
}

#[test]
fn small_states_go_round_through_record_and_file() {
    for state in small_states() {
        let labels: Labels = state
            .areas
            .iter()
            .map(|&area| (area, vec![b'A' + area; 1 + usize::from(area)]))
            .collect();
        assert_eq!(from_record(&to_record(&state)).as_ref(), Some(&state));
        assert_eq!(read_file(&write_file(&state, &labels)), Ok((state, labels)));
    }
}

/// Every instruction of the codes 0 to 13 over users 0 and 1, areas 0 and 1, object 0.
fn small_instructions() -> BTreeSet<[u8; 4]> {
    let of_code = |code: u8| (0..8).map(move |rest| [code, rest / 4, rest / 2 % 2, if (7..=12).contains(&code) { 0 } else { rest % 2 }]);
    (0..=13).flat_map(of_code).collect()
}

/// The state after an accepted instruction is sound, and is closed under the numbers that it uses.
#[test]
fn small_states_step_to_small_states() {
    let (states, instructions) = (small_states(), small_instructions());
    for state in states.iter().step_by(7) {
        for &instruction in &instructions {
            if let Ok(next) = step(state, instruction) {
                assert!(states.contains(&next), "{instruction:?} at {state:?}");
            }
        }
    }
}
