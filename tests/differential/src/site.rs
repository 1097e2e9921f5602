//! Bytes that are given as a record, with the state that they are the record of, if any.

use reference::{State, OLD_RECORD_BYTES, RECORD_BYTES};

/// Lengths that no record has: among them that of the old record, and one that is a record's when it is cut to 16 bits.
pub const OTHER_LENGTHS: [usize; 10] = [
    0,
    1,
    16,
    520,
    RECORD_BYTES - 1,
    RECORD_BYTES + 1,
    2 * RECORD_BYTES,
    OLD_RECORD_BYTES,
    65536 + RECORD_BYTES,
    1_000_000,
];

#[derive(Clone, Debug, PartialEq, Eq)]
pub struct Site {
    /// What the library gets.
    pub record: Vec<u8>,
    /// What the reference reads; `None` where the bytes are no record.
    pub state: Option<State>,
}

impl Site {
    /// The library gets the new record, made of the places of the old one, and the reference reads the old one.
    pub fn of_state(state: &State) -> Site {
        let old = reference::to_old_record(state);
        Site {
            record: reference::eight_to_a_byte(&old),
            state: reference::from_old_record(&old),
        }
    }

    /// Both read the same bytes.
    pub fn of_bytes(record: Vec<u8>) -> Site {
        let state = reference::from_record(&record);
        Site { record, state }
    }
}
