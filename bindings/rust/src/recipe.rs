//! Recipes: instructions that run entirely or not at all.

use crate::instruction::{Instruction, Kind};
use crate::refusal::Refusal;
use crate::state::State;
use crate::sys;
use std::error::Error;
use std::fmt;
use std::num::NonZeroU8;

/// A number in an instruction of a [`Recipe`]: fixed when the recipe is written, or one of the four parameters that
/// come with each call.
#[derive(Clone, Copy, Debug, PartialEq, Eq, Hash)]
pub enum Operand {
    /// This number.
    Fixed(u8),
    /// Parameter 0.
    P0,
    /// Parameter 1.
    P1,
    /// Parameter 2.
    P2,
    /// Parameter 3.
    P3,
}

impl Operand {
    /// The kind and the value.
    const fn bytes(self) -> [u8; 2] {
        match self {
            Operand::Fixed(number) => [sys::FIXED, number],
            Operand::P0 => [sys::PARAMETER, 0],
            Operand::P1 => [sys::PARAMETER, 1],
            Operand::P2 => [sys::PARAMETER, 2],
            Operand::P3 => [sys::PARAMETER, 3],
        }
    }
}

impl From<u8> for Operand {
    fn from(number: u8) -> Operand {
        Operand::Fixed(number)
    }
}

/// 1 to 16 instructions that run entirely or not at all: written once, and obeyed by [`State::recipe`] with an
/// activator and four numbers. The instructions are [`Kind`]s, whose numbers here are [`Operand`]s. No recipe is
/// refused for its form (14).
///
/// ```
/// use panelrights::Operand::{self, Fixed, P0, P1};
/// use panelrights::{Kind, Recipe, RecipeRefused, State};
///
/// const PANEL: Operand = P0;
/// const TABLE: Operand = P1;
///
/// /// A new panel in building 0, which lends the building a new table.
/// const NEW_PANEL: Recipe = Recipe::new([
///     Kind::ListArea { area: PANEL },
///     Kind::AddStructure { inner: PANEL, outer: Fixed(0) },
///     Kind::Define { area: PANEL, object: TABLE },
///     Kind::AddExport { area: PANEL, object: TABLE },
/// ]);
///
/// # fn main() -> Result<(), RecipeRefused> {
/// let mut site = State::founding();
/// site.recipe(&NEW_PANEL, 0, [1, 9, 0, 0])?;
/// site.recipe(&NEW_PANEL, 0, [2, 10, 0, 0])?;
/// assert_eq!(site.access(0, 9), Ok(Some(1)));
/// assert_eq!(site.access(0, 10), Ok(Some(1)));
///
/// // There is a table 9: the third instruction is refused, and of the first two nothing is left.
/// let refused = site.recipe(&NEW_PANEL, 0, [3, 9, 0, 0]).unwrap_err();
/// assert_eq!((refused.refusal.number(), refused.place.unwrap().get()), (6, 3));
/// assert!(!site.is_listed_area(3));
/// println!("Refused as {}. {refused}", refused.refusal.number());
/// # Ok(())
/// # }
/// ```
#[derive(Clone, PartialEq, Eq, Hash)]
pub struct Recipe {
    /// The bytes of each instruction, in which a kind byte is 0 or 1, and the value beside 1 is 0 to 3. Behind the last
    /// are zeros.
    entries: [[u8; sys::RECIPE_ENTRY_BYTES]; Recipe::MOST],
    count: usize,
}

impl Recipe {
    /// How many instructions a recipe may have.
    pub const MOST: usize = sys::RECIPE_MOST;

    /// The recipe of these instructions. With none, or with more than [`Recipe::MOST`], a program does not compile:
    ///
    /// ```compile_fail,E0080
    /// panelrights::Recipe::new([]);
    /// ```
    ///
    /// ```compile_fail,E0080
    /// # use panelrights::{Kind, Operand, Recipe};
    /// Recipe::new([Kind::ListArea { area: Operand::P0 }; 17]);
    /// ```
    pub const fn new<const COUNT: usize>(instructions: [Kind<Operand>; COUNT]) -> Recipe {
        const { assert!(1 <= COUNT && COUNT <= Recipe::MOST, "a recipe has 1 to 16 instructions") };
        Recipe::filled(&instructions)
    }

    /// The recipe of instructions that were put together while the program runs.
    ///
    /// ```
    /// use panelrights::{Kind, Operand, Recipe, RecipeLength};
    ///
    /// let areas = |from: u8, to: u8| -> Vec<Kind<Operand>> {
    ///     (from..=to).map(|area| Kind::ListArea { area: area.into() }).collect()
    /// };
    /// assert!(Recipe::of(&areas(1, 16)).is_ok());
    /// assert_eq!(Recipe::of(&areas(1, 17)), Err(RecipeLength(17)));
    /// assert_eq!(Recipe::of(&[]), Err(RecipeLength(0)));
    /// ```
    pub const fn of(instructions: &[Kind<Operand>]) -> Result<Recipe, RecipeLength> {
        match instructions.len() {
            1..=Recipe::MOST => Ok(Recipe::filled(instructions)),
            count => Err(RecipeLength(count)),
        }
    }

    /// The recipe of 1 to 16 instructions.
    const fn filled(instructions: &[Kind<Operand>]) -> Recipe {
        let mut entries = [[0; sys::RECIPE_ENTRY_BYTES]; Recipe::MOST];
        let mut at = 0;
        while at < instructions.len() {
            let (code, a, b) = instructions[at].parts(Operand::Fixed(0));
            let ([a_kind, a_value], [b_kind, b_value]) = (a.bytes(), b.bytes());
            entries[at] = [code, a_kind, a_value, b_kind, b_value];
            at += 1;
        }
        Recipe { entries, count: instructions.len() }
    }

    /// The recipe of bytes that were kept. Any bytes may be given: [`Refusal::RecipeForm`] for those that are no
    /// recipe, which the library decides.
    ///
    /// ```
    /// use panelrights::{Kind, Operand, Recipe, Refusal};
    ///
    /// // Area p0 lies in area 7.
    /// let kept = [5, 1, 0, 0, 7];
    /// let named = Recipe::new([Kind::AddStructure { inner: Operand::P0, outer: Operand::Fixed(7) }]);
    /// assert_eq!(Recipe::from_bytes(&kept), Ok(named));
    ///
    /// // There is no parameter 4.
    /// assert_eq!(Recipe::from_bytes(&[5, 1, 4, 0, 7]), Err(Refusal::RecipeForm));
    /// ```
    ///
    /// A code may be any byte: as in [`Instruction`], one that fits no kind is refused when it is obeyed.
    pub fn from_bytes(bytes: &[u8]) -> Result<Recipe, Refusal> {
        // There is no user 255: of a recipe the first instruction is refused, with its place. What is none has none.
        if let Err(RecipeRefused { refusal, place: None }) = State::founding().recipe_bytes(bytes, u8::MAX, [0; 4]) {
            return Err(refusal);
        }
        let mut entries = [[0; sys::RECIPE_ENTRY_BYTES]; Recipe::MOST];
        let part = entries.as_flattened_mut().get_mut(..bytes.len()).ok_or(Refusal::RecipeForm)?;
        part.copy_from_slice(bytes);
        Ok(Recipe { entries, count: bytes.len() / sys::RECIPE_ENTRY_BYTES })
    }

    /// The bytes, to be kept: for each instruction the code, then for a and for b the kind (0 for a fixed number, 1 for
    /// a parameter) and the value. [`Recipe::from_bytes`] takes them back.
    pub fn as_bytes(&self) -> &[u8] {
        self.entries().as_flattened()
    }

    /// The instructions that a call with this activator and these parameters obeys in turn: those that an accepted
    /// recipe counts as, and, of a refused one, at its [place](RecipeRefused::place) the one that was refused.
    ///
    /// ```
    /// use panelrights::{Kind, Operand, Recipe};
    ///
    /// let recipe = Recipe::new([Kind::AddStructure { inner: Operand::P0, outer: Operand::Fixed(7) }]);
    /// assert!(recipe.instructions(3, [8, 0, 0, 0]).eq([Kind::AddStructure { inner: 8, outer: 7 }.by(3)]));
    /// ```
    pub fn instructions(&self, activator: u8, parameters: [u8; 4]) -> impl Iterator<Item = Instruction> + '_ {
        let number = move |kind, value| match kind {
            sys::FIXED => value,
            _ => parameters[usize::from(value)],
        };
        self.entries().iter().map(move |&[code, a_kind, a, b_kind, b]| Instruction {
            code,
            activator,
            a: number(a_kind, a),
            b: number(b_kind, b),
        })
    }

    fn entries(&self) -> &[[u8; sys::RECIPE_ENTRY_BYTES]] {
        &self.entries[..self.count]
    }
}

/// The bytes of each instruction.
impl fmt::Debug for Recipe {
    fn fmt(&self, out: &mut fmt::Formatter) -> fmt::Result {
        out.debug_tuple("Recipe").field(&self.entries()).finish()
    }
}

/// A number of instructions that no recipe has: 0, or more than [`Recipe::MOST`].
#[derive(Clone, Copy, Debug, PartialEq, Eq, Hash)]
pub struct RecipeLength(
    /// How many instructions were given.
    pub usize,
);

impl fmt::Display for RecipeLength {
    fn fmt(&self, out: &mut fmt::Formatter) -> fmt::Result {
        write!(out, "a recipe has 1 to {} instructions, and not {}", Recipe::MOST, self.0)
    }
}

impl Error for RecipeLength {}

/// Why a recipe was refused, and at which instruction. Nothing was changed.
///
/// [`Display`](fmt::Display) gives words for the keyholder, with the refusal's own among them.
#[derive(Clone, Copy, Debug, PartialEq, Eq, Hash)]
pub struct RecipeRefused {
    /// The refusal: that of the instruction at `place`, or of the whole recipe.
    pub refusal: Refusal,
    /// The place of the instruction in the recipe, counted from 1. `None` where the refusal is the whole recipe's, as
    /// 12 and 14 are: from [`State::recipe`] neither comes.
    pub place: Option<NonZeroU8>,
}

impl fmt::Display for RecipeRefused {
    fn fmt(&self, out: &mut fmt::Formatter) -> fmt::Result {
        if let Some(place) = self.place {
            write!(out, "At instruction {place} of the recipe: ")?;
        }
        write!(out, "{} Nothing was changed.", self.refusal)
    }
}

impl Error for RecipeRefused {
    fn source(&self) -> Option<&(dyn Error + 'static)> {
        Some(&self.refusal)
    }
}
