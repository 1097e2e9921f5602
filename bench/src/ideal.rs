//! The ideal baseline: document 01 in safe Rust on rows of bits, as fast as it is natural to write. A set of areas is a
//! number of 32 bits, so a search takes all neighbours of an area at once.

use crate::recipe::{self, Call};
use crate::rows::{holds, Rows};
use crate::rules::{self, Bytes, Instruction, AREAS, MOST_STEPS, NO_ACCESS, OBJECTS, REFUSED, USERS};

/// The relation with each pair turned round: blocks of 16, 8, 4, 2 and 1 change places across the diagonal.
pub fn turned(rows: &[u32; AREAS]) -> [u32; AREAS] {
    let mut t = *rows;
    let mut width = 16;
    let mut low = 0x0000_ffff;
    while width > 0 {
        for block in (0..AREAS).step_by(2 * width) {
            for i in block..block + width {
                let moved = (t[i] >> width ^ t[i + width]) & low;
                t[i] ^= moved << width;
                t[i + width] ^= moved;
            }
        }
        width /= 2;
        low ^= low << width;
    }
    t
}

/// What a search goes by: a state, and its structure turned round.
pub struct Moves<'a> {
    pub s: &'a Rows,
    pub turned: &'a [u32; AREAS],
}

impl Moves<'_> {
    /// Where the object moves in one step from the area.
    pub fn from(&self, object: usize, area: usize) -> u32 {
        let exported = if holds(self.s.exports[object], area) {
            self.s.structure[area]
        } else {
            0
        };
        exported | self.s.imports[object] & self.turned[area]
    }

    /// Where it moves in one step from the areas of the set.
    pub fn step(&self, object: usize, mut areas: u32) -> u32 {
        let mut to = 0;
        while areas != 0 {
            to |= self.from(object, areas.trailing_zeros() as usize);
            areas &= areas - 1;
        }
        to
    }

    /// Has each area of the set access to the object? Layer by layer, up to the limit.
    pub fn reach(&self, object: usize, wanted: u32) -> bool {
        let mut layer = self.s.definitions[object];
        let mut reached = layer;
        let mut count = 0;
        while wanted & !reached != 0 {
            if layer == 0 || count == MOST_STEPS {
                return false;
            }
            layer = self.step(object, layer) & !reached;
            reached |= layer;
            count += 1;
        }
        true
    }

    /// Has each area that imports or exports the object access to it?
    fn reach_entries(&self, object: usize) -> bool {
        self.reach(object, self.s.imports[object] | self.s.exports[object])
    }

    fn are_valid(&self) -> bool {
        (0..OBJECTS).all(|o| self.reach_entries(o))
    }

    /// The number of steps in a shortest chain, in the same way.
    fn steps(&self, object: usize, area: usize) -> u8 {
        let mut layer = self.s.definitions[object];
        let mut reached = layer;
        let mut count = 0;
        while !holds(layer, area) {
            if layer == 0 || count == MOST_STEPS {
                return NO_ACCESS;
            }
            layer = self.step(object, layer) & !reached;
            reached |= layer;
            count += 1;
        }
        count
    }
}

/// Consistent, acceptable, and with an area: sound but for the entries that lack access, and for own imports.
pub fn is_well_formed(s: &Rows) -> bool {
    // Marks of what is wrong are gathered to the end, so that the compiler looks at many rows at once.
    let mut wrong = 0;
    let mut owned = 0;
    let unlisted = |row: u32, first_listed: bool| row & !(if first_listed { s.areas } else { 0 });
    for u in 0..USERS {
        wrong |= u32::from((s.owners[u] != 0) != holds(s.users, u));
        owned |= s.owners[u];
    }
    for a in 0..AREAS {
        wrong |= unlisted(s.structure[a], holds(s.areas, a));
    }
    for (half, objects) in s.objects.into_iter().enumerate() {
        for i in 0..32 {
            let (o, listed) = (half * 32 + i, holds(objects, i));
            let defined = s.definitions[o];
            wrong |= unlisted(defined | s.imports[o] | s.exports[o], listed);
            // Defined in exactly one area if listed, in none if not.
            wrong |= defined & defined.wrapping_sub(1) | u32::from((defined != 0) != listed);
        }
    }
    wrong == 0 && owned == s.areas && s.areas != 0
}

pub fn is_valid(s: &Rows) -> bool {
    let turned = turned(&s.structure);
    Moves { s, turned: &turned }.are_valid()
}

/// "no area may import an object that it defines": document 02, point 4.
pub fn borrows_from_others(s: &Rows) -> bool {
    let own = (0..OBJECTS).fold(0, |own, o| own | s.imports[o] & s.definitions[o]);
    own == 0
}

pub fn are_sound(moves: &Moves) -> bool {
    is_well_formed(moves.s) && borrows_from_others(moves.s) && moves.are_valid()
}

pub fn is_sound(s: &Rows) -> bool {
    let turned = turned(&s.structure);
    are_sound(&Moves { s, turned: &turned })
}

/// Obeys the instruction and gives 0, or gives its refusal and leaves the state as it was.
pub fn step(s: &mut Rows, bytes: Bytes) -> u8 {
    obeyed(s, bytes).err().unwrap_or(0)
}

fn obeyed(s: &mut Rows, bytes: Bytes) -> Result<(), u8> {
    let mut turned = turned(&s.structure);
    if !are_sound(&Moves { s, turned: &turned }) {
        return Err(12);
    }
    obeyed_if_sound(s, &mut turned, bytes)
}

/// The same of a sound state. The structure turned round stays that of the state.
fn obeyed_if_sound(s: &mut Rows, turned: &mut [u32; AREAS], bytes: Bytes) -> Result<(), u8> {
    let x = Instruction::of(bytes)?;
    rules::permit(s, x)?;
    rules::obey(s, x);
    last_checks(s, turned, x).inspect_err(|_| rules::obey(s, x.opposite()))?;
    if let 5 | 6 = x.code {
        turned[x.b] ^= 1 << x.a;
    }
    Ok(())
}

/// Refusals 10 and 11, of the state after the instruction. The state before was valid, so a search is made only for
/// what the instruction touches: one object, or all of them if it cuts a structure pair.
fn last_checks(s: &Rows, turned: &[u32; AREAS], x: Instruction) -> Result<(), u8> {
    let moves = Moves { s, turned };
    match x.code {
        9 | 11 if !moves.reach(x.b, 1 << x.a) => Err(10),
        8 | 10 | 12 if !moves.reach_entries(x.b) => Err(11),
        6 if !is_valid(s) => Err(11),
        _ => Ok(()),
    }
}

/// Obeys the recipe and gives 0, or gives the place and the number of its refusal and leaves the state as it was. Each
/// instruction leaves a sound state, so only the given one is asked whether it is sound.
pub fn recipe(s: &mut Rows, call: &Call) -> u16 {
    let mut turned = turned(&s.structure);
    if !are_sound(&Moves { s, turned: &turned }) {
        return 12;
    }
    let Some(instructions) = call.instructions() else {
        return 14;
    };
    let given = *s;
    for (place, bytes) in (1..).zip(instructions) {
        if let Err(refusal) = obeyed_if_sound(s, &mut turned, bytes) {
            *s = given;
            return recipe::refused(place, refusal);
        }
    }
    0
}

/// The number of steps, 255 for no access, or 256 and the refusal.
pub fn access(s: &Rows, area: u32, object: u32) -> u16 {
    let turned = turned(&s.structure);
    let moves = Moves { s, turned: &turned };
    if !are_sound(&moves) {
        return REFUSED + 12;
    }
    match rules::question(s, area, object) {
        Ok((area, object)) => u16::from(moves.steps(object, area)),
        Err(refusal) => REFUSED + u16::from(refusal),
    }
}

/// Not inlined, as that of plain is not.
#[inline(never)]
pub fn lowest_mark(marks: u8) -> u8 {
    marks.trailing_zeros() as u8
}
