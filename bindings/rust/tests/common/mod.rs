//! What the tests share: states by instructions, numbers by chance, a label as long as one can be, and the table of
//! `include/panelrights.h` for records that are made or changed by hand.

// Each of the tests uses some of it.
#![allow(dead_code)]

use panelrights::State;

/// 30 characters.
pub const THIRTY: &str = "Sports hall and changing rooms";

/// Obeys the instructions, all of which must be accepted.
pub fn obey(state: &mut State, instructions: &[[u8; 4]]) {
    for &instruction in instructions {
        assert_eq!(state.step(instruction), Ok(()), "{instruction:?}");
    }
}

/// The founding state after the instructions, all of which must be accepted.
pub fn after(instructions: &[[u8; 4]]) -> State {
    let mut state = State::founding();
    obey(&mut state, instructions);
    state
}

/// The session of document 01 up to line 8, without the line that is refused: areas 0 and 1 lie in area 2; area 1
/// defines object 9 and exports it, and area 0 imports it.
pub const LENT: [[u8; 4]; 7] =
    [[1, 0, 1, 0], [1, 0, 2, 0], [5, 0, 1, 2], [5, 0, 0, 2], [7, 0, 1, 9], [11, 0, 1, 9], [9, 0, 0, 9]];

/// Areas 0 to 9, each in the next. Areas 0 to 8 export object 63, which area 0 defines: area 8 is at 8 steps, and the
/// export of area 8 leads to area 9 by 9.
pub fn row() -> State {
    let mut state = after(&[[7, 0, 0, 63]]);
    for area in 0..9 {
        obey(&mut state, &[[1, 0, area + 1, 0], [5, 0, area, area + 1], [11, 0, area, 63]]);
    }
    state
}

/// Numbers by chance, the same at each run.
pub struct Draw(pub u64);

impl Draw {
    pub fn below(&mut self, limit: u8) -> u8 {
        self.0 = self.0.wrapping_mul(6364136223846793005).wrapping_add(1442695040888963407);
        ((self.0 >> 33) % u64::from(limit)) as u8
    }

    /// An instruction on three users, six areas and six objects.
    pub fn instruction(&mut self) -> [u8; 4] {
        let (code, activator, a) = (1 + self.below(12), self.below(3), self.below(6));
        [code, activator, a, if code <= 2 { 0 } else { self.below(6) }]
    }
}

/// From which byte on the rows of a part stand.
pub const USER_LIST: usize = 0;
pub const AREA_LIST: usize = 4;
pub const OBJECT_LIST: usize = 8;
pub const OWNERS: usize = 16;
pub const DEFINITIONS: usize = 144;
pub const STRUCTURE: usize = 400;
pub const IMPORTS: usize = 528;
pub const EXPORTS: usize = 784;

/// A bit of a record: the part that it is in, its row, and its place in the row.
pub type Bit = (usize, u8, u8);

/// The record with these bits changed.
pub fn changed(record: &[u8], bits: &[Bit]) -> Vec<u8> {
    let mut changed = record.to_vec();
    for &(part, row, place) in bits {
        changed[part + 4 * usize::from(row) + usize::from(place / 8)] ^= 1 << (place % 8);
    }
    changed
}
