//! The bytes of a recipe as document 02 has them in point 1, shared by both baselines: refusal 14, which no state
//! decides, and the instructions that the bytes stand for in a call.

use crate::rules::Bytes;

/// How many bytes an instruction has: the code, then a kind and a value for a and for b.
pub const ENTRY: usize = 5;
/// How many instructions there may be.
pub const MOST: usize = 16;

/// The kinds: the value is the number itself, or says which parameter is the number.
pub const FIXED: u8 = 0;
pub const PARAMETER: u8 = 1;

type Entry = [u8; ENTRY];
pub type Parameters = [u8; 4];

/// What a caller hands over beside the state.
#[derive(Debug)]
pub struct Call {
    pub recipe: Vec<u8>,
    pub activator: u8,
    pub parameters: Parameters,
}

/// Has the kind a meaning, and is the parameter there that the value names?
fn fits(kind: u8, value: u8) -> bool {
    match kind {
        FIXED => true,
        PARAMETER => value <= 3,
        _ => false,
    }
}

impl Call {
    fn number(&self, kind: u8, value: u8) -> u8 {
        if kind == FIXED {
            value
        } else {
            self.parameters[usize::from(value)]
        }
    }

    /// An instruction with the numbers of this call.
    fn bytes(&self, &[code, kind_a, a, kind_b, b]: &Entry) -> Bytes {
        [code, self.activator, self.number(kind_a, a), self.number(kind_b, b)]
    }

    /// All instructions; or none, if the bytes are no recipe, which is 14.
    pub fn instructions(&self) -> Option<impl Iterator<Item = Bytes> + '_> {
        let (entries, rest): (&[Entry], _) = self.recipe.as_chunks();
        let fit = |&[_, kind_a, a, kind_b, b]: &Entry| fits(kind_a, a) && fits(kind_b, b);
        let is_recipe = rest.is_empty() && (1..=MOST).contains(&entries.len()) && entries.iter().all(fit);
        is_recipe.then(|| entries.iter().map(|entry| self.bytes(entry)))
    }

    /// The first instruction, whatever the others are.
    pub fn first(&self) -> Bytes {
        self.bytes(&self.recipe.as_chunks().0[0])
    }
}

/// The answer to a recipe whose instruction at this place, from 1, is refused: place * 256 + refusal, as the C
/// interface has it. "The place beside 0, 12 and 14 is 0."
pub fn refused(place: usize, refusal: u8) -> u16 {
    let place = if refusal == 12 { 0 } else { place as u16 };
    place * 256 + u16::from(refusal)
}
