//! The state of a site.

use crate::instruction::Instruction;
use crate::recipe::{Recipe, RecipeRefused};
use crate::refusal::Refusal;
use crate::sys;
use std::fmt;
use std::num::NonZeroU8;

/// How many users there can be: they are numbered from 0 on, and so are areas and objects.
pub const USERS: u8 = 32;
/// How many areas there can be.
pub const AREAS: u8 = 32;
/// How many objects there can be.
pub const OBJECTS: u8 = 64;
/// Across how many steps an object may be lent: a longer chain is no access.
pub const MOST_STEPS: u8 = 8;

/// A part of the record: the byte where it begins, and how many firsts and seconds its pairs can have. Its bits stand by
/// first and then by second, eight a byte from the lowest on. A list is a part with one second.
struct Part {
    start: usize,
    firsts: u8,
    seconds: u8,
}

impl Part {
    const fn list(start: usize, numbers: u8) -> Part {
        Part { start, firsts: numbers, seconds: 1 }
    }

    /// A relation, in which the second of a pair is an area.
    const fn relation(start: usize, firsts: u8) -> Part {
        Part { start, firsts, seconds: AREAS }
    }
}

const USER_LIST: Part = Part::list(0, USERS);
const AREA_LIST: Part = Part::list(4, AREAS);
const OBJECT_LIST: Part = Part::list(8, OBJECTS);
const OWNERS: Part = Part::relation(16, USERS);
const DEFINITIONS: Part = Part::relation(144, OBJECTS);
const STRUCTURE: Part = Part::relation(400, AREAS);
const IMPORTS: Part = Part::relation(528, OBJECTS);
const EXPORTS: Part = Part::relation(784, OBJECTS);

/// A sound state of a site: the founding one, that of a site file, that of a record, or what steps and recipes made of
/// one of these. A state that is not sound can't be had, so 12 never comes from [`step`](State::step),
/// [`recipe`](State::recipe), [`access`](State::access), [`explain`](State::explain),
/// [`explain_step`](State::explain_step) or [`to_file`](State::to_file).
///
/// It is a record of 1,040 bytes on the heap, and so is each clone that is kept for undo (8,320 before version 3). Equal
/// states have equal records, and different states different ones.
///
/// ```
/// use panelrights::{Kind, Refusal, State};
///
/// # fn main() -> Result<(), Refusal> {
/// let mut site = State::founding();
/// site.step(Kind::ListArea { area: 1 }.by(0))?;
/// site.step(Kind::Define { area: 1, object: 9 }.by(0))?;
/// assert_eq!(site.access(1, 9)?, Some(0));
/// assert_eq!(site.access(0, 9)?, None);
///
/// // Area 0 can't borrow what does not reach it.
/// assert_eq!(site.step(Kind::AddImport { area: 0, object: 9 }.by(0)), Err(Refusal::WouldLackAccess));
///
/// // It can once it lies in area 1.
/// site.step(Kind::AddStructure { inner: 0, outer: 1 }.by(0))?;
/// site.step(Kind::AddImport { area: 0, object: 9 }.by(0))?;
/// assert_eq!(site.access(0, 9)?, Some(1));
/// # Ok(())
/// # }
/// ```
#[derive(Clone, PartialEq, Eq)]
pub struct State {
    pub(crate) record: Box<[u8; sys::STATE_BYTES]>,
}

impl State {
    /// The founding state: user 0 owns area 0, and there is nothing else.
    pub fn founding() -> State {
        let mut record = Box::new([0; sys::STATE_BYTES]);
        // SAFETY: the pointer is that of a live array, handed over with its length.
        let refusal = unsafe { sys::panelrights_founding(record.as_mut_ptr(), record.len()) };
        // A library whose records have another length writes nothing, and answers 12 to whatever follows.
        debug_assert_eq!(refusal, 0, "the library has records of another length than this package");
        State { record }
    }

    /// The state of a record that was kept in memory; on a disk keep site files, since a later version of the library
    /// may have other records. Any 1,040 bytes are a record, and its state is given if it is sound; else it is
    /// [`Refusal::UnsoundState`]. Bytes of another length, as the records of version 2 have, are
    /// [`Refusal::BufferLength`].
    pub fn from_record(bytes: &[u8]) -> Result<State, Refusal> {
        let record: &[u8; sys::STATE_BYTES] = bytes.try_into().map_err(|_| Refusal::BufferLength)?;
        let state = State { record: Box::new(*record) };
        // The access question is refused as 12 before its numbers are looked at, which here are out of range.
        match state.access(AREAS.into(), OBJECTS.into()) {
            Err(Refusal::OutOfRange) => Ok(state),
            _ => Err(Refusal::UnsoundState),
        }
    }

    /// The record, to be kept as it is; [`State::from_record`] takes it back.
    pub fn as_record(&self) -> &[u8] {
        self.record.as_slice()
    }

    /// Obeys one instruction, given by name or as four bytes. After a refusal, 1 to 11 or 15, the state is the one
    /// before.
    ///
    /// ```
    /// use panelrights::{Kind, Refusal, State};
    ///
    /// let mut site = State::founding();
    /// assert_eq!(site.step(Kind::AddOwner { area: 0, user: 4 }.by(0)), Ok(()));
    /// assert_eq!(site.step([3, 0, 0, 4]), Err(Refusal::AlreadyThere));
    /// ```
    ///
    /// An add that gave `Ok` is taken back by the matching remove (`RemoveImport` for `AddImport`, and so on; as bytes
    /// the next code) by the same activator with the same numbers. While the state is as the add left it, the remove
    /// gives `Ok`, and the state then equals the one before the add; a user who was listed only by that add is unlisted
    /// again. Questions and refused instructions change nothing. Of several adds the last is taken back first. Do not
    /// take back an add that was refused: its remove might take out what was there before.
    ///
    /// ```
    /// # use panelrights::{Kind, Refusal, State};
    /// # fn main() -> Result<(), Refusal> {
    /// let mut site = State::founding();
    /// let before = site.clone();
    /// site.step(Kind::AddOwner { area: 0, user: 4 }.by(0))?;
    /// assert!(site.is_listed_user(4) && site.owns(4, 0));
    /// site.step(Kind::RemoveOwner { area: 0, user: 4 }.by(0))?;
    /// assert_eq!(site, before);
    /// # Ok(())
    /// # }
    /// ```
    pub fn step(&mut self, instruction: impl Into<Instruction>) -> Result<(), Refusal> {
        let Instruction { code, activator, a, b } = instruction.into();
        let record = self.record.as_mut_slice();
        // SAFETY: the pointer is that of a live slice, handed over with its length.
        match unsafe { sys::panelrights_step(record.as_mut_ptr(), record.len(), code, activator, a, b) } {
            0 => Ok(()),
            refusal => Err(Refusal::of(refusal)),
        }
    }

    /// Obeys a recipe, entirely or not at all: its instructions in turn, all by this activator, with these numbers for
    /// the parameters [`P0` to `P3`](crate::Operand). What the recipe does not use of these may have any value. After a
    /// refusal the state is the one before, and [`RecipeRefused`] says which instruction was refused, and why; those in
    /// front of it would have been accepted.
    ///
    /// ```
    /// use panelrights::Operand::{P0, P1, P2};
    /// use panelrights::{Kind, Recipe, Refusal, State};
    ///
    /// // The keys of area p0 go from user p1 to user p2.
    /// const KEYS: Recipe =
    ///     Recipe::new([Kind::AddOwner { area: P0, user: P2 }, Kind::RemoveOwner { area: P0, user: P1 }]);
    ///
    /// let mut site = State::founding();
    /// let before = site.clone();
    /// // User 7 has no keys to give: user 9 does not get any either.
    /// let refused = site.recipe(&KEYS, 0, [0, 7, 9, 0]).unwrap_err();
    /// assert_eq!(refused.refusal, Refusal::NotListed);
    /// assert_eq!(refused.place.unwrap().get(), 2);
    /// assert_eq!(site, before);
    ///
    /// assert_eq!(site.recipe(&KEYS, 0, [0, 0, 9, 0]), Ok(()));
    /// assert!(site.owns(9, 0) && !site.owns(0, 0));
    /// ```
    ///
    /// The lending guarantee says of any list of instructions: an area that is listed at the start, and none of whose
    /// owners activates one of them, keeps its owners, objects, imports and exports, and access to what it imports or
    /// exports. For it an accepted recipe counts as its instructions, which [`Recipe::instructions`] gives, and a
    /// refused one as none.
    pub fn recipe(&mut self, recipe: &Recipe, activator: u8, parameters: [u8; 4]) -> Result<(), RecipeRefused> {
        self.recipe_bytes(recipe.as_bytes(), activator, parameters)
    }

    /// The same for any bytes.
    pub(crate) fn recipe_bytes(
        &mut self,
        recipe: &[u8],
        activator: u8,
        [p0, p1, p2, p3]: [u8; 4],
    ) -> Result<(), RecipeRefused> {
        let record = self.record.as_mut_slice();
        let (state, state_len, bytes, bytes_len) = (record.as_mut_ptr(), record.len(), recipe.as_ptr(), recipe.len());
        // SAFETY: both pointers are those of live slices, handed over with their lengths; the recipe is no part of the
        // record, which is borrowed here alone.
        match unsafe { sys::panelrights_recipe(state, state_len, bytes, bytes_len, activator, p0, p1, p2, p3) } {
            0 => Ok(()),
            answer => {
                let [number, place] = answer.to_le_bytes();
                Err(RecipeRefused { refusal: Refusal::of(number), place: NonZeroU8::new(place) })
            }
        }
    }

    /// In how many steps does the object reach the area? The number of steps in a shortest chain, 0 for the area that
    /// defines it and never above [`MOST_STEPS`]; `None` for no access, also where every chain has more steps. Refused
    /// are numbers out of range ([`Refusal::OutOfRange`]; 256 is no area, and not area 0) and what is not listed
    /// ([`Refusal::NotListed`]).
    pub fn access(&self, area: u32, object: u32) -> Result<Option<u8>, Refusal> {
        // SAFETY: the pointer is that of a live array, handed over with its length.
        let answer = unsafe { sys::panelrights_access(self.record.as_ptr(), self.record.len(), area, object) };
        let [low, _] = answer.to_le_bytes();
        match answer {
            sys::NO_ACCESS => Ok(None),
            sys::ACCESS_REFUSED.. => Err(Refusal::of(low)),
            _ => Ok(Some(low)),
        }
    }

    /// Is the user listed? Of a number out of range nothing is true, here and below.
    pub fn is_listed_user(&self, user: u8) -> bool {
        self.holds(&USER_LIST, user, 0)
    }

    /// Is the area listed?
    pub fn is_listed_area(&self, area: u8) -> bool {
        self.holds(&AREA_LIST, area, 0)
    }

    /// Is the object listed?
    pub fn is_listed_object(&self, object: u8) -> bool {
        self.holds(&OBJECT_LIST, object, 0)
    }

    /// Does the user own the area, so that he may change it?
    pub fn owns(&self, user: u8, area: u8) -> bool {
        self.holds(&OWNERS, user, area)
    }

    /// Is the object defined in the area?
    pub fn defines(&self, object: u8, area: u8) -> bool {
        self.holds(&DEFINITIONS, object, area)
    }

    /// Does the inner area lie in the outer one, by a pair of their own?
    pub fn lies_in(&self, inner: u8, outer: u8) -> bool {
        self.holds(&STRUCTURE, inner, outer)
    }

    /// Is the object imported by the area?
    pub fn imports(&self, object: u8, area: u8) -> bool {
        self.holds(&IMPORTS, object, area)
    }

    /// Is the object exported by the area?
    pub fn exports(&self, object: u8, area: u8) -> bool {
        self.holds(&EXPORTS, object, area)
    }

    /// The listed users, upwards.
    pub fn users(&self) -> impl Iterator<Item = u8> + '_ {
        self.listed(&USER_LIST)
    }

    /// The listed areas, upwards.
    pub fn areas(&self) -> impl Iterator<Item = u8> + '_ {
        self.listed(&AREA_LIST)
    }

    /// The listed objects, upwards.
    pub fn objects(&self) -> impl Iterator<Item = u8> + '_ {
        self.listed(&OBJECT_LIST)
    }

    fn holds(&self, part: &Part, first: u8, second: u8) -> bool {
        let bit = usize::from(first) * usize::from(part.seconds) + usize::from(second);
        first < part.firsts && second < part.seconds && self.record[part.start + bit / 8] >> (bit % 8) & 1 == 1
    }

    fn listed<'a>(&'a self, list: &'a Part) -> impl Iterator<Item = u8> + 'a {
        (0..list.firsts).filter(|&number| self.holds(list, number, 0))
    }

    fn pairs(&self, relation: &Part) -> Vec<(u8, u8)> {
        let all = (0..relation.firsts).flat_map(|first| (0..AREAS).map(move |area| (first, area)));
        all.filter(|&(first, area)| self.holds(relation, first, area)).collect()
    }
}

/// The lists and the pairs, and not 1,040 numbers.
impl fmt::Debug for State {
    fn fmt(&self, out: &mut fmt::Formatter) -> fmt::Result {
        out.debug_struct("State")
            .field("users", &self.users().collect::<Vec<_>>())
            .field("areas", &self.areas().collect::<Vec<_>>())
            .field("objects", &self.objects().collect::<Vec<_>>())
            .field("owners", &self.pairs(&OWNERS))
            .field("definitions", &self.pairs(&DEFINITIONS))
            .field("structure", &self.pairs(&STRUCTURE))
            .field("imports", &self.pairs(&IMPORTS))
            .field("exports", &self.pairs(&EXPORTS))
            .finish()
    }
}
