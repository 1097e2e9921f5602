//! Site files.

use crate::labels::Labels;
use crate::refusal::Refusal;
use crate::state::State;
use crate::sys;

/// The state of a site file. Any bytes may be given; a refusal is one of 21 to 29. [`labels`] gives the labels of its
/// areas, and [`State::to_file`] writes both into a file again.
///
/// ```
/// use panelrights::Refusal;
///
/// // Version 1, 30 bytes long; one owner pair, no definition, structure, import or export pair and no label; the table of owners
/// // at 28, the five empty ones behind it at 30; user 3 owns area 1.
/// let mut file = [1, 0, 30, 0, 1, 0, 0, 0, 0, 0, 0, 0, 0, 0, 0, 0, 28, 0, 30, 0, 30, 0, 30, 0, 30, 0, 30, 0, 3, 1];
/// assert!(panelrights::read_file(&file).unwrap().owns(3, 1));
///
/// file[29] = 32;
/// assert_eq!(panelrights::read_file(&file), Err(Refusal::FileRange));
/// ```
pub fn read_file(file: &[u8]) -> Result<State, Refusal> {
    let mut record = Box::new([0; sys::STATE_BYTES]);
    // SAFETY: both pointers are those of live slices, handed over with their lengths; the record is no part of the file.
    match unsafe { sys::panelrights_read_file(file.as_ptr(), file.len(), record.as_mut_ptr(), record.len()) } {
        0 => Ok(State { record }),
        refusal => Err(Refusal::of(refusal)),
    }
}

/// The text of the area's label, as a part of the site file: 1 to 30 characters from space to `~`. `None` if the area
/// has no label, as no number above 31 has (256 is not area 0), or if the file is refused.
pub fn label(file: &[u8], area: u32) -> Option<&str> {
    // SAFETY: the pointer is that of a live slice, handed over with its length.
    let place = unsafe { sys::panelrights_label(file.as_ptr(), file.len(), area) };
    let text = std::str::from_utf8(part(file, place)?).ok()?;
    Some(text).filter(|text| !text.is_empty())
}

/// The labels of a site file. Any bytes may be given; a refusal is the one that [`read_file`] has for them.
///
/// ```
/// # use panelrights::{label, labels, Labels, Refusal, State};
/// # fn main() -> Result<(), Box<dyn std::error::Error>> {
/// let mut named = Labels::new();
/// named.set(0, "Main house")?;
/// let file = State::founding().to_file(&named)?;
/// assert_eq!(labels(&file)?, named);
/// assert_eq!(label(&file, 0), Some("Main house"));
/// assert_eq!(labels(&file[..20]), Err(Refusal::FileTooShort));
/// # Ok(())
/// # }
/// ```
pub fn labels(file: &[u8]) -> Result<Labels, Refusal> {
    // SAFETY: the pointer is that of a live slice, handed over with its length.
    match unsafe { sys::panelrights_labels(file.as_ptr(), file.len()) } {
        // The reader says why.
        0 => read_file(file).map(|_| Labels::new()),
        place => Ok(part(file, place).map_or_else(Labels::new, Labels::of_block)),
    }
}

/// The part of the file whose offset stands in the high 16 bits, and its length in the low ones.
fn part(file: &[u8], place: u32) -> Option<&[u8]> {
    let (offset, length) = ((place >> 16) as usize, (place & 0xffff) as usize);
    file.get(offset..offset + length)
}

impl State {
    /// The site file of this state and these labels. [`read_file`] and [`labels`] give both back, and what they gave of
    /// a file is written as the same bytes. The only refusal is [`Refusal::LabelBlock`], where an area that has a label
    /// is not listed: [`Labels::keep_listed`] takes such labels away.
    ///
    /// ```
    /// use panelrights::{labels, read_file, Kind, Refusal};
    ///
    /// // A table is lent, and all else of the file stays.
    /// fn lend(file: &[u8], area: u8, object: u8, owner: u8) -> Result<Vec<u8>, Refusal> {
    ///     let mut site = read_file(file)?;
    ///     site.step(Kind::AddExport { area, object }.by(owner))?;
    ///     site.to_file(&labels(file)?)
    /// }
    /// # assert_eq!(lend(&[], 0, 0, 0), Err(Refusal::FileTooShort));
    /// ```
    ///
    /// On a disk, write a new file and put it in the old one's place once it is whole: what fails on the way then
    /// leaves the old one as it was.
    pub fn to_file(&self, labels: &Labels) -> Result<Vec<u8>, Refusal> {
        let (record, block) = (self.as_record(), labels.as_bytes());
        let mut file = vec![0; sys::FILE_MOST];
        let (state, state_len, entries, entries_len) = (record.as_ptr(), record.len(), block.as_ptr(), block.len());
        // SAFETY: the pointers are those of live slices, handed over with their lengths; the file is new, and no part
        // of the others.
        let answer = unsafe {
            sys::panelrights_write_file(state, state_len, entries, entries_len, file.as_mut_ptr(), file.len())
        };
        if answer >= sys::WRITE_REFUSED {
            let [number, ..] = answer.to_le_bytes();
            return Err(Refusal::of(number));
        }
        file.truncate(answer as usize);
        Ok(file)
    }
}
