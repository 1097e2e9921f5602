//! Why an area has access to an object, or why not.

use crate::labels::Labels;
use crate::refusal::Refusal;
use crate::state::{State, AREAS, MOST_STEPS};
use crate::sys;
use std::fmt;
use std::iter;

/// Why an area has access to an object, or why not: what [`State::explain`] answers.
///
/// [`Display`](fmt::Display) gives words for the keyholder who rings, a sentence a line, without a line end behind the
/// last. In [`Explanation::words`] the areas have their labels too.
///
/// ```
/// use panelrights::{Explanation, Labels, Refusal, State, Way};
///
/// # fn main() -> Result<(), Box<dyn std::error::Error>> {
/// // Panels 0 and 1 stand in building 2. Panel 1 lends table 9 to the building, and panel 0 borrows it from there.
/// let mut site = State::founding();
/// for lay_out in [[1, 0, 1, 0], [1, 0, 2, 0], [5, 0, 0, 2], [5, 0, 1, 2]] {
///     site.step(lay_out)?;
/// }
/// for lend in [[7, 0, 1, 9], [11, 0, 1, 9], [9, 0, 0, 9]] {
///     site.step(lend)?;
/// }
/// let why = site.explain(0, 9)?;
/// assert_eq!(
///     why.to_string(),
///     "Area 0 sees table 9 over 2 steps.\n\
///      The table is stored on area 1.\n\
///      Area 1 lies in area 2 and lends it the table.\n\
///      Area 0 lies in area 2 and borrows the table from it."
/// );
/// let Explanation::Chain(chain) = why else { panic!("area 0 has access") };
/// assert!(chain.areas().eq([1, 2, 0]));
/// assert!(chain.moves().map(|step| step.way).eq([Way::Lent, Way::Borrowed]));
///
/// // Panel 3, in no building, does not see it.
/// site.step([1, 0, 3, 0])?;
/// let mut labels = Labels::new();
/// labels.set(2, "Main house")?;
/// assert_eq!(
///     site.explain(3, 9)?.words(&labels),
///     "Area 3 does not see table 9: no chain of 8 steps or fewer leads to it.\n\
///      The table is stored on area 1.\n\
///      Area 2 'Main house' sees it over 1 step.\n\
///      Area 0 sees it over 2 steps.\n\
///      No other area sees it."
/// );
/// assert_eq!(site.explain(4, 9), Err(Refusal::NotListed));
/// # Ok(())
/// # }
/// ```
#[derive(Clone, Debug, PartialEq, Eq, Hash)]
pub enum Explanation {
    /// The area has access, by this chain.
    Chain(Chain),
    /// The area lacks access, and so far the object comes.
    Counts(Counts),
}

impl Explanation {
    /// The words, in which each area that has a label is named by it too, as [`Labels::name`] does.
    pub fn words(&self, labels: &Labels) -> String {
        let sentences = match self {
            Explanation::Chain(chain) => chain.sentences(labels),
            Explanation::Counts(counts) => counts.sentences(labels),
        };
        sentences.join("\n")
    }
}

impl fmt::Display for Explanation {
    fn fmt(&self, out: &mut fmt::Formatter) -> fmt::Result {
        out.write_str(&self.words(&Labels::new()))
    }
}

/// The chain over which an object reaches an area: a shortest one, and among those the one with the lowest areas,
/// compared from the front.
#[derive(Clone, Debug, PartialEq, Eq, Hash)]
pub struct Chain {
    object: u8,
    definer: u8,
    /// The areas behind the definer, each with how the object moves there from the one before.
    further: Vec<(Way, u8)>,
}

impl Chain {
    /// The object.
    pub fn object(&self) -> u8 {
        self.object
    }

    /// The area that the question was about, in which the chain ends.
    pub fn area(&self) -> u8 {
        self.further.last().map_or(self.definer, |&(_, area)| area)
    }

    /// The areas from the one that defines the object to the one that the question was about. These are the same, and
    /// the only one, where that area defines the object itself.
    pub fn areas(&self) -> impl Iterator<Item = u8> + '_ {
        iter::once(self.definer).chain(self.further.iter().map(|&(_, area)| area))
    }

    /// The steps from each area to the next: as many as [`State::access`] answers.
    pub fn moves(&self) -> impl Iterator<Item = Move> + '_ {
        self.areas().zip(&self.further).map(|(from, &(way, to))| Move { from, to, way })
    }

    fn sentences(&self, labels: &Labels) -> Vec<String> {
        let (area, table) = (labels.name(self.area()), self.object);
        if self.further.is_empty() {
            return vec![format!("Area {area} sees table {table}: it is stored there.")];
        }
        let sees = format!("Area {area} sees table {table} over {}.", in_steps(self.further.len()));
        let moves = self.moves().map(|step| step.sentence(labels));
        [sees, stored_on(self.definer, labels)].into_iter().chain(moves).collect()
    }
}

/// A step of a chain: the object moves from an area to the next.
#[derive(Clone, Copy, Debug, PartialEq, Eq, Hash)]
pub struct Move {
    /// The area that the object comes from.
    pub from: u8,
    /// The area that it moves to.
    pub to: u8,
    /// How it does so.
    pub way: Way,
}

impl Move {
    fn sentence(self, labels: &Labels) -> String {
        let (from, to) = (labels.name(self.from), labels.name(self.to));
        match self.way {
            Way::Lent => format!("Area {from} lies in area {to} and lends it the table."),
            Way::Borrowed => format!("Area {to} lies in area {from} and borrows the table from it."),
            Way::LentAndBorrowed => {
                format!("Area {from} lends the table to area {to}, which also borrows it: each lies in the other.")
            }
        }
    }
}

/// How an object moves from an area to the next.
#[derive(Clone, Copy, Debug, PartialEq, Eq, Hash)]
pub enum Way {
    /// By export: the area that it comes from lies in the next, and lends it the object.
    Lent,
    /// By import: the next area lies in the one that it comes from, and borrows the object from it.
    Borrowed,
    /// By both: the two areas lie in each other, one lends the object, and the next borrows it.
    LentAndBorrowed,
}

/// How far an object comes that does not reach an area: over how many steps it reaches each of the others.
#[derive(Clone, Debug, PartialEq, Eq, Hash)]
pub struct Counts {
    object: u8,
    area: u8,
    /// In the order of the areas.
    steps: [Option<u8>; sys::EXPLAIN_BYTES],
}

impl Counts {
    /// The object.
    pub fn object(&self) -> u8 {
        self.object
    }

    /// The area that the question was about, which lacks access.
    pub fn area(&self) -> u8 {
        self.area
    }

    /// The least number of steps in which the object reaches this area, 0 for the one that defines it. `None` if the
    /// area lacks access, as one that is not listed does, and any number above 31.
    pub fn steps(&self, area: u8) -> Option<u8> {
        self.steps.get(usize::from(area)).copied().flatten()
    }

    /// The areas that have access, each with its least number of steps: the one that defines the object first, then
    /// upwards by steps and by area.
    pub fn reached(&self) -> impl Iterator<Item = (u8, u8)> + '_ {
        let within = move |steps| (0..AREAS).filter(move |&area| self.steps(area) == Some(steps));
        (0..=MOST_STEPS).flat_map(move |steps| within(steps).map(move |area| (area, steps)))
    }

    fn sentences(&self, labels: &Labels) -> Vec<String> {
        let (area, table) = (labels.name(self.area), self.object);
        let first =
            format!("Area {area} does not see table {table}: no chain of {MOST_STEPS} steps or fewer leads to it.");
        let reached = self.reached().map(|(area, steps)| match steps {
            0 => stored_on(area, labels),
            _ => format!("Area {} sees it over {}.", labels.name(area), in_steps(steps.into())),
        });
        let last = "No other area sees it.".to_string();
        iter::once(first).chain(reached).chain([last]).collect()
    }
}

fn stored_on(definer: u8, labels: &Labels) -> String {
    format!("The table is stored on area {}.", labels.name(definer))
}

fn in_steps(count: usize) -> String {
    format!("{count} step{}", if count == 1 { "" } else { "s" })
}

/// The answer with which all counts are written.
const COUNTS: u16 = sys::EXPLAIN_COUNTS + sys::EXPLAIN_BYTES as u16;

impl State {
    /// Why does the area have access to the object, or why not? With access it is the chain of areas over which the
    /// object gets there, and who lends and who borrows it on the way; without, how far it comes. Refused is what
    /// [`State::access`] refuses.
    pub fn explain(&self, area: u32, object: u32) -> Result<Explanation, Refusal> {
        let record = self.as_record();
        let mut buffer = [0; sys::EXPLAIN_BYTES];
        let (state, state_len, bytes, bytes_len) = (record.as_ptr(), record.len(), buffer.as_mut_ptr(), buffer.len());
        // SAFETY: both pointers are those of live slices, handed over with their lengths; the buffer is new, and no
        // part of the record.
        let answer = unsafe { sys::panelrights_explain(state, state_len, area, object, bytes, bytes_len) };
        let [low, _] = answer.to_le_bytes();
        // What is not refused is within the limits, and so a byte.
        let (area, object) = (area as u8, object as u8);
        match answer {
            COUNTS => {
                let steps = buffer.map(|count| (u16::from(count) != sys::NO_ACCESS).then_some(count));
                Ok(Explanation::Counts(Counts { object, area, steps }))
            }
            sys::EXPLAIN_REFUSED.. => Err(Refusal::of(low)),
            _ => Ok(Explanation::Chain(self.chain(object, &buffer, low.into()))),
        }
    }

    /// The chain of the first bytes, so many.
    fn chain(&self, object: u8, bytes: &[u8; sys::EXPLAIN_BYTES], count: usize) -> Chain {
        let pairs = bytes.windows(2).map(|pair| (self.way(object, pair[0], pair[1]), pair[1]));
        Chain { object, definer: bytes[0], further: pairs.take(count.saturating_sub(1)).collect() }
    }

    /// How the object moves from an area to the next of a chain: what is not by export is by import.
    fn way(&self, object: u8, from: u8, to: u8) -> Way {
        let lent = self.exports(object, from) && self.lies_in(from, to);
        let borrowed = self.imports(object, to) && self.lies_in(to, from);
        match (lent, borrowed) {
            (true, true) => Way::LentAndBorrowed,
            (true, false) => Way::Lent,
            (false, _) => Way::Borrowed,
        }
    }
}
