//! The writer of the plain baseline: the file is put together in memory of its own, and copied.

use crate::files;
use crate::plain;
use crate::record::Record;
use crate::site_file::{self, Label};

/// Writes the file of the state and its labels: its length, or the refusal.
pub fn write(s: &Record, labels: &[u8], buffer: &mut [u8]) -> Result<usize, u8> {
    if !plain::is_sound(s) {
        return Err(12);
    }
    let (entries, partial): (&[Label], _) = labels.as_chunks();
    let listed = |label: &Label| s.areas[usize::from(label[0])];
    if !(partial.is_empty()
        && site_file::labels_fit(entries)
        && site_file::labels_ascend(entries)
        && entries.iter().all(listed))
    {
        return Err(30);
    }
    let file = files::with_labels(s, labels);
    let front = buffer.get_mut(..file.len()).ok_or(31)?;
    front.copy_from_slice(&file);
    Ok(file.len())
}
