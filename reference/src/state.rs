//! "The state": three sets of listed numbers and five relations.

use std::collections::BTreeSet;

/// "A state has three sets of listed users, areas and objects, and five relations."
#[derive(Clone, Debug, PartialEq, Eq, PartialOrd, Ord, Hash)]
pub struct State {
    /// The listed users.
    pub users: BTreeSet<u8>,
    /// The listed areas.
    pub areas: BTreeSet<u8>,
    /// The listed objects.
    pub objects: BTreeSet<u8>,
    /// "owner pairs (user, area)"
    pub owners: BTreeSet<(u8, u8)>,
    /// "definition pairs (object, area)"
    pub definitions: BTreeSet<(u8, u8)>,
    /// "structure pairs (inner area, outer area): the inner is in the contents of the outer, the outer in the environment of the inner"
    pub structure: BTreeSet<(u8, u8)>,
    /// "import pairs ... (object, area)"
    pub imports: BTreeSet<(u8, u8)>,
    /// "export pairs (object, area)"
    pub exports: BTreeSet<(u8, u8)>,
}

/// "The founding state and the limits 32, 32 and 64 belong to the state type itself."
impl State {
    /// "Users and areas are numbered 0 to 31"
    pub(crate) const USERS: u8 = 32;
    /// "Users and areas are numbered 0 to 31"
    pub(crate) const AREAS: u8 = 32;
    /// "objects 0 to 63"
    pub(crate) const OBJECTS: u8 = 64;

    /// "In the founding state user 0 owns area 0; its 2,048 import places and 2,048 export places are all empty."
    pub fn founding() -> State {
        State {
            users: BTreeSet::from([0]),
            areas: BTreeSet::from([0]),
            objects: BTreeSet::new(),
            owners: BTreeSet::from([(0, 0)]),
            definitions: BTreeSet::new(),
            structure: BTreeSet::new(),
            imports: BTreeSet::new(),
            exports: BTreeSet::new(),
        }
    }
}

/// The second members of the pairs that begin with `first`, ascending.
pub(crate) fn beside(pairs: &BTreeSet<(u8, u8)>, first: u8) -> impl Iterator<Item = u8> + '_ {
    pairs.range((first, u8::MIN)..=(first, u8::MAX)).map(|&(_, second)| second)
}

/// The set of the first members of the pairs.
pub(crate) fn firsts(pairs: &BTreeSet<(u8, u8)>) -> BTreeSet<u8> {
    pairs.iter().map(|&(first, _)| first).collect()
}

/// The set of the second members of the pairs.
pub(crate) fn seconds(pairs: &BTreeSet<(u8, u8)>) -> BTreeSet<u8> {
    pairs.iter().map(|&(_, second)| second).collect()
}

/// The set of the first members of the pairs that end with `second`.
pub(crate) fn before(pairs: &BTreeSet<(u8, u8)>, second: u8) -> BTreeSet<u8> {
    pairs.iter().filter(|pair| pair.1 == second).map(|&(first, _)| first).collect()
}
