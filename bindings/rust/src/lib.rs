//! Who may see, lend, change and cut what on a site of fire panels: the proved library behind `include/panelrights.h`, called
//! safely.
//!
//! A site has users, areas (a panel, a loop, a building) and objects (tables that are stored on panels). A [`State`] says who owns
//! which area, which object is defined where, which area lies in which, and which areas import or export an object. It changes by
//! twelve [kinds](Kind) of instruction, each obeyed or refused with a [`Refusal`]; [`State::access`] says over how many
//! steps, at most [`MOST_STEPS`], an object reaches an area. You check nothing beforehand: any bytes and any numbers have an
//! answer, and none makes these functions panic.
//!
//! ```
//! use panelrights::{Kind, Refusal, State};
//!
//! # fn main() -> Result<(), Refusal> {
//! let mut site = State::founding();
//! for area in [1, 2] {
//!     site.step(Kind::ListArea { area }.by(0))?;
//! }
//! // Panels 0 and 1 stand in building 2. Panel 1 lends table 9 to the building, and panel 0 borrows it from there.
//! site.step(Kind::AddStructure { inner: 0, outer: 2 }.by(0))?;
//! site.step(Kind::AddStructure { inner: 1, outer: 2 }.by(0))?;
//! site.step(Kind::Define { area: 1, object: 9 }.by(0))?;
//! site.step(Kind::AddExport { area: 1, object: 9 }.by(0))?;
//! site.step(Kind::AddImport { area: 0, object: 9 }.by(0))?;
//! assert_eq!(site.access(0, 9)?, Some(2));
//!
//! // As long as panel 0 borrows the table, panel 1 can't stop lending it.
//! let refusal = site.step(Kind::RemoveExport { area: 1, object: 9 }.by(0)).unwrap_err();
//! assert_eq!(refusal, Refusal::WouldLoseAccess);
//! println!("{refusal}");
//! # Ok(())
//! # }
//! ```
//!
//! [`State::explain`] says why an area has access to an object, or why not, and [`State::explain_step`] why an
//! instruction is refused, and which loan stands in the way of a removal: both in words for the keyholder who rings.
//!
//! What is done in the same way each time, as opening a school, is a [`Recipe`]: 1 to 16 instructions, written once,
//! whose numbers are fixed or come with the call. [`State::recipe`] obeys it entirely or not at all; a refusal says at
//! which instruction, and why.
//!
//! On a disk a site is kept as a site file, which has labels for its areas besides. [`read_file`] gives the state,
//! [`labels`] the [`Labels`], and [`State::to_file`] writes both into a file again.
//!
//! `make lib` in the repository builds the static library. The environment variable `PANELRIGHTS_LIB_DIR` names another folder to
//! link it from. A call takes less than 16 KiB of stack.

#![warn(missing_docs)]

pub mod sys;

mod explanation;
mod file;
mod instruction;
mod labels;
mod recipe;
mod refusal;
mod state;
mod step_refused;

pub use explanation::{Chain, Counts, Explanation, Move, Way};
pub use file::{label, labels, read_file};
pub use instruction::{Instruction, Kind};
pub use labels::{BadLabel, Labels};
pub use recipe::{Operand, Recipe, RecipeLength, RecipeRefused};
pub use refusal::{NoRefusal, Refusal};
pub use state::{State, AREAS, MOST_STEPS, OBJECTS, USERS};
pub use step_refused::{Lost, StepRefused};

/// Of eight marks in a byte, the lowest number in the lowest bit: the place (0 to 7) of the lowest mark set, if any.
///
/// ```
/// assert_eq!(panelrights::lowest_mark(0b0110_1000), Some(3));
/// assert_eq!(panelrights::lowest_mark(0), None);
/// ```
pub fn lowest_mark(marks: u8) -> Option<u8> {
    // SAFETY: nothing is asked of a caller.
    let place = unsafe { sys::panelrights_lowest_mark(marks) };
    (place < 8).then_some(place)
}
