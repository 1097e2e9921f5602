//! Why an instruction is refused.

use crate::instruction::Instruction;
use crate::labels::Labels;
use crate::refusal::Refusal;
use crate::state::State;
use crate::sys;
use std::error::Error;
use std::fmt;

/// Why [`State::step`] would refuse an instruction, and for 11 who would lose what: what [`State::explain_step`]
/// answers.
///
/// [`Display`](fmt::Display) gives words for the keyholder, with the refusal's own among them. In
/// [`StepRefused::words`] the area has its label too.
#[derive(Clone, Copy, Debug, PartialEq, Eq, Hash)]
pub enum StepRefused {
    /// It is a removal, and refused as 11 ([`Refusal::WouldLoseAccess`]), since this area would lack access to what it
    /// imports or exports. Of several it is the first: imports before exports, then by object, then by area.
    WouldLose(Lost),
    /// It is refused for another reason.
    For(Refusal),
}

impl StepRefused {
    /// The refusal that [`State::step`] would give.
    pub const fn refusal(self) -> Refusal {
        match self {
            StepRefused::WouldLose(_) => Refusal::WouldLoseAccess,
            StepRefused::For(refusal) => refusal,
        }
    }

    /// The words, in which the area is named by its label too if it has one, as [`Labels::name`] does.
    pub fn words(self, labels: &Labels) -> String {
        match self {
            StepRefused::WouldLose(lost) => format!("{} {}", self.refusal(), lost.words(labels)),
            StepRefused::For(refusal) => refusal.to_string(),
        }
    }
}

impl fmt::Display for StepRefused {
    fn fmt(&self, out: &mut fmt::Formatter) -> fmt::Result {
        out.write_str(&self.words(&Labels::new()))
    }
}

impl Error for StepRefused {
    fn source(&self) -> Option<&(dyn Error + 'static)> {
        Some(match self {
            StepRefused::WouldLose(_) => &Refusal::WouldLoseAccess,
            StepRefused::For(refusal) => refusal,
        })
    }
}

/// An import or an export whose area would lack access.
///
/// [`Display`](fmt::Display) gives words for the keyholder, a sentence; in [`Lost::words`] the area has its label too.
#[derive(Clone, Copy, Debug, PartialEq, Eq, Hash)]
pub enum Lost {
    /// The area imports the object.
    Import {
        /// The area that borrows.
        area: u8,
        /// The object.
        object: u8,
    },
    /// The area exports the object.
    Export {
        /// The area that lends.
        area: u8,
        /// The object.
        object: u8,
    },
}

impl Lost {
    /// The words, in which the area is named by its label too if it has one, as [`Labels::name`] does.
    pub fn words(self, labels: &Labels) -> String {
        let (area, does, object) = match self {
            Lost::Import { area, object } => (area, "borrows", object),
            Lost::Export { area, object } => (area, "lends", object),
        };
        format!("Area {} {does} table {object} and would no longer have access to it.", labels.name(area))
    }
}

impl fmt::Display for Lost {
    fn fmt(&self, out: &mut fmt::Formatter) -> fmt::Result {
        out.write_str(&self.words(&Labels::new()))
    }
}

impl State {
    /// Why would [`State::step`] refuse the instruction? `Ok` for one that it would accept. Nothing is changed.
    ///
    /// ```
    /// use panelrights::{Kind, Lost, Refusal, State, StepRefused};
    ///
    /// # fn main() -> Result<(), Refusal> {
    /// // Area 1 lies in area 0 and borrows table 9 from it.
    /// let mut site = State::founding();
    /// for instruction in [[1, 0, 1, 0], [5, 0, 1, 0], [7, 0, 0, 9], [9, 0, 1, 9]] {
    ///     site.step(instruction)?;
    /// }
    /// let take_out = Kind::RemoveStructure { inner: 1, outer: 0 }.by(0);
    /// let lost = Lost::Import { area: 1, object: 9 };
    /// assert_eq!(site.explain_step(take_out), Err(StepRefused::WouldLose(lost)));
    /// assert_eq!(lost.to_string(), "Area 1 borrows table 9 and would no longer have access to it.");
    ///
    /// assert_eq!(site.explain_step([1, 5, 2, 0]), Err(StepRefused::For(Refusal::ActivatorUnlisted)));
    /// assert_eq!(site.explain_step(Kind::RemoveImport { area: 1, object: 9 }.by(0)), Ok(()));
    /// # Ok(())
    /// # }
    /// ```
    pub fn explain_step(&self, instruction: impl Into<Instruction>) -> Result<(), StepRefused> {
        let Instruction { code, activator, a, b } = instruction.into();
        let record = self.as_record();
        // SAFETY: the pointer is that of a live slice, handed over with its length.
        let answer = unsafe { sys::panelrights_explain_step(record.as_ptr(), record.len(), code, activator, a, b) };
        let [number, kind, object, area] = answer.to_le_bytes();
        if number == 0 {
            return Ok(());
        }
        Err(match (Refusal::of(number), kind) {
            (Refusal::WouldLoseAccess, sys::LOST_IMPORT) => StepRefused::WouldLose(Lost::Import { area, object }),
            (Refusal::WouldLoseAccess, sys::LOST_EXPORT) => StepRefused::WouldLose(Lost::Export { area, object }),
            (refusal, _) => StepRefused::For(refusal),
        })
    }
}
