//! Instructions: by name, or as four bytes.

/// What an instruction does. [`Kind::by`] names who activates it.
///
/// No number is checked here: the library refuses what is out of range. The numbers are bytes; in a
/// [`Recipe`](crate::Recipe) they are [`Operand`](crate::Operand)s.
#[derive(Clone, Copy, Debug, PartialEq, Eq, Hash)]
pub enum Kind<N = u8> {
    /// Code 1: the new area is listed, and owned by the activator.
    ListArea {
        /// The new area.
        area: N,
    },
    /// Code 2: the area is unlisted.
    UnlistArea {
        /// The area, which nothing else may use any more.
        area: N,
    },
    /// Code 3: the user becomes an owner of the area, and is listed if he was not.
    AddOwner {
        /// The area.
        area: N,
        /// The new owner.
        user: N,
    },
    /// Code 4: the user is no longer an owner of the area, and is unlisted if he owns no other.
    RemoveOwner {
        /// The area.
        area: N,
        /// The owner who goes.
        user: N,
    },
    /// Code 5: the inner area lies in the outer one.
    AddStructure {
        /// The area that lies in the other.
        inner: N,
        /// The area around it.
        outer: N,
    },
    /// Code 6: the inner area no longer lies in the outer one.
    RemoveStructure {
        /// The area that lies in the other.
        inner: N,
        /// The area around it.
        outer: N,
    },
    /// Code 7: the object is listed, and defined in the area.
    Define {
        /// The area that it is stored in.
        area: N,
        /// The new object.
        object: N,
    },
    /// Code 8: the object, which the area defines, is unlisted.
    RemoveDefinition {
        /// The area that it is stored in.
        area: N,
        /// The object.
        object: N,
    },
    /// Code 9: the area imports the object, which another area defines, from any area that it lies in.
    AddImport {
        /// The area that borrows.
        area: N,
        /// The object.
        object: N,
    },
    /// Code 10: the area no longer imports the object.
    RemoveImport {
        /// The area that borrows.
        area: N,
        /// The object.
        object: N,
    },
    /// Code 11: the area exports the object, to every area that it lies in.
    AddExport {
        /// The area that lends.
        area: N,
        /// The object.
        object: N,
    },
    /// Code 12: the area no longer exports the object.
    RemoveExport {
        /// The area that lends.
        area: N,
        /// The object.
        object: N,
    },
}

impl Kind {
    /// The instruction of this kind that the user activates.
    pub const fn by(self, activator: u8) -> Instruction {
        let (code, a, b) = self.parts(0);
        Instruction { code, activator, a, b }
    }
}

impl<N: Copy> Kind<N> {
    /// The code, a and b; of codes 1 and 2, b is the zero given.
    pub(crate) const fn parts(self, zero: N) -> (u8, N, N) {
        match self {
            Kind::ListArea { area } => (1, area, zero),
            Kind::UnlistArea { area } => (2, area, zero),
            Kind::AddOwner { area, user } => (3, area, user),
            Kind::RemoveOwner { area, user } => (4, area, user),
            Kind::AddStructure { inner, outer } => (5, inner, outer),
            Kind::RemoveStructure { inner, outer } => (6, inner, outer),
            Kind::Define { area, object } => (7, area, object),
            Kind::RemoveDefinition { area, object } => (8, area, object),
            Kind::AddImport { area, object } => (9, area, object),
            Kind::RemoveImport { area, object } => (10, area, object),
            Kind::AddExport { area, object } => (11, area, object),
            Kind::RemoveExport { area, object } => (12, area, object),
        }
    }
}

/// An instruction as its four bytes. Any four bytes are one; those that fit no kind are refused when they are obeyed.
///
/// ```
/// use panelrights::{Instruction, Kind};
///
/// let named = Kind::AddImport { area: 0, object: 9 }.by(4);
/// assert_eq!(named, Instruction { code: 9, activator: 4, a: 0, b: 9 });
/// assert_eq!(named, [9, 4, 0, 9].into());
/// ```
#[derive(Clone, Copy, Debug, PartialEq, Eq, Hash)]
pub struct Instruction {
    /// 1 to 12, as the variants of [`Kind`] say.
    pub code: u8,
    /// The user who gives the instruction.
    pub activator: u8,
    /// An area.
    pub a: u8,
    /// A user, area or object, by the code; 0 for codes 1 and 2.
    pub b: u8,
}

impl From<[u8; 4]> for Instruction {
    fn from([code, activator, a, b]: [u8; 4]) -> Instruction {
        Instruction { code, activator, a, b }
    }
}
