//! The library as a C program calls it: the functions of include/panelrights.h, on the bytes of a record.

use crate::recipe::Call;
use crate::record::RecordBytes;
use crate::rules::Bytes;
use panelrights::sys;

/// Obeys the instruction and gives 0, or gives its refusal and leaves the record as it was.
pub fn step(state: &mut RecordBytes, [code, activator, a, b]: Bytes) -> u8 {
    // SAFETY: the pointer and the length are those of an array that is borrowed for the call.
    unsafe { sys::panelrights_step(state.as_mut_ptr(), state.len(), code, activator, a, b) }
}

/// Obeys the recipe and gives 0, or gives place * 256 + refusal and leaves the record as it was.
pub fn recipe(state: &mut RecordBytes, call: &Call) -> u16 {
    let (recipe, [p0, p1, p2, p3]) = (&call.recipe, call.parameters);
    let (state, state_len) = (state.as_mut_ptr(), state.len());
    // SAFETY: as above, for both; a borrowed vector and an array borrowed to be written don't overlap.
    unsafe {
        sys::panelrights_recipe(
            state,
            state_len,
            recipe.as_ptr(),
            recipe.len(),
            call.activator,
            p0,
            p1,
            p2,
            p3,
        )
    }
}

/// The number of steps, 255 for no access, or 256 and the refusal.
pub fn access(state: &RecordBytes, area: u32, object: u32) -> u16 {
    // SAFETY: as above.
    unsafe { sys::panelrights_access(state.as_ptr(), state.len(), area, object) }
}

/// The number of bytes of the chain that it writes, 512 and that of the counts, or 256 and the refusal.
pub fn explain(state: &RecordBytes, area: u32, object: u32, buffer: &mut [u8]) -> u16 {
    // SAFETY: as above, for both; what is borrowed to be read doesn't overlap what is borrowed to be written.
    unsafe {
        sys::panelrights_explain(
            state.as_ptr(),
            state.len(),
            area,
            object,
            buffer.as_mut_ptr(),
            buffer.len(),
        )
    }
}

/// The number that a step would get, and for 11 the first pair that would be lost.
pub fn explain_step(state: &RecordBytes, [code, activator, a, b]: Bytes) -> u32 {
    // SAFETY: as above.
    unsafe { sys::panelrights_explain_step(state.as_ptr(), state.len(), code, activator, a, b) }
}

/// The refusal of the file, 0 for none; the record becomes that of its state, or of the founding state.
pub fn read(file: &[u8], state: &mut RecordBytes) -> u8 {
    // SAFETY: as above, for both; a borrowed slice and an array borrowed to be written don't overlap.
    unsafe { sys::panelrights_read_file(file.as_ptr(), file.len(), state.as_mut_ptr(), state.len()) }
}

/// The length of the file that it writes, or 65,536 and the refusal.
pub fn write(state: &RecordBytes, labels: &[u8], file: &mut [u8]) -> u32 {
    // SAFETY: as above, for all three; the slices borrowed to be read don't overlap the one borrowed to be written.
    unsafe {
        sys::panelrights_write_file(
            state.as_ptr(),
            state.len(),
            labels.as_ptr(),
            labels.len(),
            file.as_mut_ptr(),
            file.len(),
        )
    }
}

/// The place (0 to 7) of the lowest mark set in the byte, 8 if none.
pub fn lowest_mark(marks: u8) -> u8 {
    // SAFETY: a number is all that it takes.
    unsafe { sys::panelrights_lowest_mark(marks) }
}
