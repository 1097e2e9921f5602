//! The refusals, with words for each.

use std::error::Error;
use std::fmt;

/// One row for each refusal: what it means to a programmer, its name and number, and what to tell a keyholder.
macro_rules! refusals {
    ($($(#[$meaning:meta])* $name:ident = $number:literal: $words:literal;)*) => {
        /// Why the library refused. The numbers are those of `enum panelrights_refusal`.
        ///
        /// [`Display`](fmt::Display) gives words for the keyholder: what is wrong, and what would help.
        ///
        /// ```
        /// use panelrights::{Refusal, State};
        ///
        /// let refusal = State::founding().step([7, 0, 6, 0]).unwrap_err();
        /// assert_eq!(refusal, Refusal::NotListed);
        /// assert_eq!(refusal.number(), 4);
        /// println!("Refused as {}. {refusal}", refusal.number());
        /// ```
        #[derive(Clone, Copy, Debug, PartialEq, Eq, Hash)]
        #[non_exhaustive]
        pub enum Refusal {
            $($(#[$meaning])* $name,)*
            /// A number that has no name here. The library of this version gives none; a later one that is linked in its
            /// place may, and its answer then arrives with the number it has. The state is the one before, as after any refusal.
            Unknown(u8),
        }

        impl Refusal {
            /// The number of the refusal, as the papers and the C interface have it.
            pub const fn number(self) -> u8 {
                match self {
                    $(Refusal::$name => $number,)*
                    Refusal::Unknown(number) => number,
                }
            }

            /// The refusal behind an answer that is not 0.
            pub(crate) const fn of(answer: u8) -> Refusal {
                match answer {
                    $($number => Refusal::$name,)*
                    number => Refusal::Unknown(number),
                }
            }
        }

        impl fmt::Display for Refusal {
            fn fmt(&self, out: &mut fmt::Formatter) -> fmt::Result {
                match self {
                    $(Refusal::$name => out.write_str($words),)*
                    Refusal::Unknown(number) => write!(
                        out,
                        "The library refuses this for reason {number}, which this program does not know. It needs an update."
                    ),
                }
            }
        }
    };
}

refusals! {
    /// The code is 0 or above 12.
    UnknownCode = 1: "There is no such instruction. The program that gave it is at fault: tell its maker.";
    /// A user or area above 31, an object above 63, or b not 0 for codes 1 and 2.
    OutOfRange = 2: "A number is out of range: users and areas go from 0 to 31, tables from 0 to 63, and a second number that \
        is not needed must be 0. Check the numbers that were entered.";
    /// The activator is not listed.
    ActivatorUnlisted = 3: "The user who asks for this is not listed on the site. An owner of an area can list him by making \
        him an owner of it too.";
    /// The area, user or object that is named is not listed.
    NotListed = 4: "The area, user or table that is named is not listed on the site. Check its number, or list it first.";
    /// The activator lacks the ownership: of a; of a and b for code 5; of a or b for code 6.
    NotOwner = 5: "The user who asks for this does not own the area. One of its owners can do it; to put an area into another \
        takes an owner of both, to take it out an owner of either.";
    /// An add of what is there.
    AlreadyThere = 6: "It is there already, so there is nothing to add. For a new area or table choose a number that is free.";
    /// A remove of a pair that is not there.
    NotThere = 7: "It is not there, so there is nothing to remove. Check the numbers of the area and of what it should have.";
    /// The sole owner of an area, or the only listed area, would go.
    LastOne = 8: "Each area keeps an owner, and each site an area: the last one can't go. Add another one first.";
    /// The area still has another owner, an object, or a structure, import or export pair.
    AreaInUse = 9: "The area is still in use: it has another owner or a table, lies in an area or has one in it, or imports or \
        exports a table. Remove all these first.";
    /// The area would import or export an object that it has no access to.
    WouldLackAccess = 10: "The table does not reach the area, or only over more than 8 steps, so the area can't import or export \
        it. Either the area must lie in one that sees the table over at most 7 steps and import it from there, or an area \
        inside it that sees the table over at most 7 steps must export it.";
    /// An area that imports or exports an object would lose its access to it.
    WouldLoseAccess = 11: "An area that imports or exports a table would lose its access to it: no way of at most 8 steps would be \
        left. Take back its export and its import of the table first, beginning with the area that is the most steps away; \
        or first lay another way of at most 8 steps.";
    /// The record's state is not sound; over the C interface also a record of another length.
    UnsoundState = 12: "The record of the site is damaged, so nothing is decided on it. Go back to the site file or to the last \
        good copy.";
    /// The bytes are no recipe: a length that is not a multiple of 5 from 5 to 80, a kind above 1, or a parameter above
    /// 3. A [`Recipe`](crate::Recipe) is never refused so, only bytes that are to become one.
    RecipeForm = 14: "The recipe can't be read: it is empty, has more than 16 instructions, was cut off, or was altered. \
        Fetch it again from where it was saved; if it came with the program, tell the program's maker.";
    /// The area would import an object that it defines.
    OwnImport = 15: "The table is stored on this area itself, so the area sees it and has nobody to borrow it from. If another \
        area is to borrow it, enter that area's number; to lend it to an area around this one, let this one export it.";

    /// A file under 28 bytes.
    FileTooShort = 21: "The site file is too short to be one: it is empty or was cut off. Fetch it again from where it was saved.";
    /// The file's version is not 1.
    FileVersion = 22: "The file has another version than 1, or is no site file. Check that it is the right file; if it is, save \
        it as version 1.";
    /// The file's stated length is not that of the bytes given.
    FileLength = 23: "The site file is longer or shorter than it says itself: part of it was lost, or something was added. Fetch \
        it again from where it was saved.";
    /// One of the file's counts is above its limit.
    FileCount = 24: "The site file says that it has more entries of a kind than a site can have. Save the site anew with the \
        program that wrote it, or go back to a good copy.";
    /// A table of the file, or its end, stands elsewhere than it should.
    FileOffset = 25: "A part of the site file is not where it has to be. Save the site anew with the program that wrote it, or go \
        back to a good copy.";
    /// A number, length, text byte or filler byte of the file is outside its range.
    FileRange = 26: "A number or a label in the site file is out of range: users and areas go from 0 to 31, tables from 0 to 63, \
        and a label has 1 to 30 plain characters. Correct the entry and save the site anew.";
    /// A table of the file is not strictly ascending.
    FileOrder = 27: "The entries of the site file are out of order, or one stands there twice. Save the site anew with the program \
        that wrote it.";
    /// The file has no owner pair, names an unlisted area or object, or defines an object twice.
    FileLists = 28: "The site file names an area that has no owner or a table that is stored nowhere, stores a table in two \
        areas, or has no owner at all. Correct the entry and save the site anew.";
    /// The file has an import or export pair whose area lacks access, or an import pair whose area defines the object.
    FileLacksAccess = 29: "An area in the site file imports or exports a table that does not reach it within 8 steps, or imports a \
        table that is stored on that same area. In the program that wrote the file, take that import or export out, or enter a \
        way of at most 8 steps where one is missing, and save the site anew.";

    /// A label is for an area that is not listed. Over the C interface also a label block with a partial entry; with a
    /// number, length, text byte or filler byte outside its range; or whose areas do not ascend.
    LabelBlock = 30: "The site can't be saved with these labels: one is for an area that is not listed on the site, \
        one does not have 1 to 30 plain characters, or their list is out of order or damaged. Take away the labels of \
        areas that are not listed and correct the others; if all are right, tell the program's maker.";
    /// The state buffer has another length than a record. Over the C interface also a buffer that is shorter than the
    /// site file, or than the 32 bytes that an explanation asks for.
    BufferLength = 31: "The record of the site has the wrong length, or there is too little room for the site file or \
        for an explanation. The program is at fault: tell its maker, and go back to the site file that was saved last.";
}

impl Error for Refusal {}

/// A number that is no refusal of this version: 0, or one without a name in [`Refusal`].
#[derive(Clone, Copy, Debug, PartialEq, Eq, Hash)]
pub struct NoRefusal(
    /// The number.
    pub u8,
);

impl fmt::Display for NoRefusal {
    fn fmt(&self, out: &mut fmt::Formatter) -> fmt::Result {
        write!(out, "{} is the number of no refusal", self.0)
    }
}

impl Error for NoRefusal {}

impl TryFrom<u8> for Refusal {
    type Error = NoRefusal;

    fn try_from(number: u8) -> Result<Refusal, NoRefusal> {
        match Refusal::of(number) {
            Refusal::Unknown(number) => Err(NoRefusal(number)),
            named => Ok(named),
        }
    }
}
