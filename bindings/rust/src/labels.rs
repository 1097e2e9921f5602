//! The labels of a site's areas.

use crate::state::{State, AREAS};
use crate::sys;
use std::error::Error;
use std::fmt;

/// An entry of a label block: the area, the length of the text, the text, zeros.
type Entry = [u8; sys::LABEL_ENTRY_BYTES];

/// The labels of a site: a text for some of its areas. [`labels`](crate::labels) gives those of a site file, and
/// [`State::to_file`] writes them into one. A state has no labels, so a program keeps both.
///
/// Each text has 1 to 30 characters from space to `~`, and each area is one of 0 to 31: [`Labels::set`] refuses all
/// else, and says why. Whether an area is listed is asked when a file is written; [`Labels::keep_listed`] sees to it.
///
/// ```
/// use panelrights::{BadLabel, Kind, Labels, Refusal, State};
///
/// # fn main() -> Result<(), Box<dyn std::error::Error>> {
/// let mut site = State::founding();
/// site.step(Kind::ListArea { area: 4 }.by(0))?;
/// let mut labels = Labels::new();
/// labels.set(0, "School")?;
/// labels.set(4, "Sports hall")?;
/// assert_eq!(labels.set(0, ""), Err(BadLabel::Empty));
/// assert_eq!(labels.set(4, "K\u{fc}che"), Err(BadLabel::Character('\u{fc}')));
/// assert_eq!(labels.get(4), Some("Sports hall"));
///
/// let file = site.to_file(&labels)?;
/// assert_eq!(panelrights::read_file(&file)?, site);
/// assert_eq!(panelrights::labels(&file)?, labels);
///
/// // Once the hall is unlisted, its label has to go.
/// site.step(Kind::UnlistArea { area: 4 }.by(0))?;
/// assert_eq!(site.to_file(&labels), Err(Refusal::LabelBlock));
/// labels.keep_listed(&site);
/// assert!(labels.iter().eq([(0, "School")]));
/// assert!(site.to_file(&labels).is_ok());
/// # Ok(())
/// # }
/// ```
#[derive(Clone, Default, PartialEq, Eq, Hash)]
pub struct Labels {
    /// In ascending order of the areas.
    entries: Vec<Entry>,
}

impl Labels {
    /// How many characters a label may have.
    pub const TEXT_MOST: usize = sys::LABEL_TEXT_MOST;

    /// No label.
    pub const fn new() -> Labels {
        Labels { entries: Vec::new() }
    }

    /// The labels of a block that the library has accepted.
    pub(crate) fn of_block(block: &[u8]) -> Labels {
        let entries = block.chunks_exact(sys::LABEL_ENTRY_BYTES);
        Labels { entries: entries.filter_map(|entry| entry.try_into().ok()).collect() }
    }

    /// Gives the area this label, in place of the one that it has. After a refusal the labels are those before.
    pub fn set(&mut self, area: u8, text: &str) -> Result<(), BadLabel> {
        let entry = entry_of(area, text)?;
        match self.place_of(area) {
            Ok(place) => self.entries[place] = entry,
            Err(place) => self.entries.insert(place, entry),
        }
        Ok(())
    }

    /// The area's label. `None` if it has none, as no number above 31 has.
    pub fn get(&self, area: u8) -> Option<&str> {
        let place = self.place_of(area).ok()?;
        text_of(self.entries.get(place)?)
    }

    /// How the area is named in words: by its number, and by its label if it has one.
    ///
    /// ```
    /// # use panelrights::{BadLabel, Labels};
    /// # fn main() -> Result<(), BadLabel> {
    /// let mut labels = Labels::new();
    /// labels.set(4, "Sports hall")?;
    /// assert_eq!(labels.name(4), "4 'Sports hall'");
    /// assert_eq!(labels.name(5), "5");
    /// # Ok(())
    /// # }
    /// ```
    pub fn name(&self, area: u8) -> String {
        match self.get(area) {
            Some(text) => format!("{area} '{text}'"),
            None => area.to_string(),
        }
    }

    /// Takes the area's label away. Was there one?
    pub fn remove(&mut self, area: u8) -> bool {
        match self.place_of(area) {
            Ok(place) => {
                self.entries.remove(place);
                true
            }
            Err(_) => false,
        }
    }

    /// Takes away the labels of areas that the state does not list, so that [`State::to_file`] takes the others.
    ///
    /// Call it after each area that was unlisted, before its number is listed again: else the new area has the label of
    /// the old one.
    pub fn keep_listed(&mut self, state: &State) {
        self.entries.retain(|&[area, ..]| state.is_listed_area(area));
    }

    /// The areas that have a label, upwards, each with its text.
    pub fn iter(&self) -> impl Iterator<Item = (u8, &str)> + '_ {
        self.entries.iter().filter_map(|entry| Some((entry[0], text_of(entry)?)))
    }

    /// How many areas have a label.
    pub fn len(&self) -> usize {
        self.entries.len()
    }

    /// Has no area a label?
    pub fn is_empty(&self) -> bool {
        self.entries.is_empty()
    }

    /// The label block as it stands in a site file: for each label, in ascending order of the areas, 32 bytes, which
    /// are the area, the length of the text, the text, and zeros.
    pub fn as_bytes(&self) -> &[u8] {
        self.entries.as_flattened()
    }

    /// Where the area's entry stands, or where it would have to.
    fn place_of(&self, area: u8) -> Result<usize, usize> {
        self.entries.binary_search_by_key(&area, |&[area, ..]| area)
    }
}

/// The entry of a label, if it is a good one.
fn entry_of(area: u8, text: &str) -> Result<Entry, BadLabel> {
    if area >= AREAS {
        return Err(BadLabel::Area(area));
    }
    match text.chars().count() {
        0 => return Err(BadLabel::Empty),
        1..=Labels::TEXT_MOST => {}
        count => return Err(BadLabel::TooLong(count)),
    }
    if let Some(other) = text.chars().find(|character| !(' '..='~').contains(character)) {
        return Err(BadLabel::Character(other));
    }
    let mut entry = [0; sys::LABEL_ENTRY_BYTES];
    let bytes = [area, text.len() as u8].into_iter().chain(text.bytes());
    entry.iter_mut().zip(bytes).for_each(|(place, byte)| *place = byte);
    Ok(entry)
}

fn text_of(entry: &Entry) -> Option<&str> {
    let [_, length, text @ ..] = entry;
    std::str::from_utf8(text.get(..usize::from(*length))?).ok()
}

/// Each area with its text.
impl fmt::Debug for Labels {
    fn fmt(&self, out: &mut fmt::Formatter) -> fmt::Result {
        out.debug_map().entries(self.iter()).finish()
    }
}

/// Why [`Labels::set`] refused a label. Of several reasons it is the first in this order.
///
/// [`Display`](fmt::Display) gives words for the keyholder: what is wrong, and what would help.
#[derive(Clone, Copy, Debug, PartialEq, Eq, Hash)]
pub enum BadLabel {
    /// The number is above 31, so it is no area's.
    Area(
        /// The number.
        u8,
    ),
    /// The text is empty.
    Empty,
    /// The text has more than [`Labels::TEXT_MOST`] characters.
    TooLong(
        /// How many it has.
        usize,
    ),
    /// A character of the text is not one of those from space to `~`.
    Character(
        /// The first such character.
        char,
    ),
}

impl fmt::Display for BadLabel {
    fn fmt(&self, out: &mut fmt::Formatter) -> fmt::Result {
        let most = Labels::TEXT_MOST;
        match self {
            BadLabel::Area(number) => {
                write!(out, "There is no area {number}: areas go from 0 to 31. Check the number that was entered.")
            }
            BadLabel::Empty => {
                write!(out, "The label is empty. Enter 1 to {most} characters, or take the area's label away.")
            }
            BadLabel::TooLong(count) => {
                write!(out, "The label has {count} characters, and no label has more than {most}. Enter a shorter one.")
            }
            BadLabel::Character(character) => write!(
                out,
                "The character {character:?} can't stand in a label. Use the letters A to Z and a to z, digits, \
                 spaces, and signs such as - or /."
            ),
        }
    }
}

impl Error for BadLabel {}
