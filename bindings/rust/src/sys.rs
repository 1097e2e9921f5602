//! The C interface as `include/panelrights.h` has it. All of it is unsafe to call: the compiler can't see that a pointer and
//! its length belong together. The rest of this package calls it for you.
//!
//! For every function: at `x` there are `x_len` bytes that may be read, and written where the pointer is `*mut`; with the
//! length 0 the pointer may be null; the buffers of one call do not overlap. Nothing else is asked of a caller: any bytes,
//! any numbers and any length have an answer.

/// How many bytes the record of a state has: what [`panelrights_state_bytes`] answers.
pub const STATE_BYTES: usize = 1040;
/// How many bytes each instruction of a recipe has.
pub const RECIPE_ENTRY_BYTES: usize = 5;
/// How many instructions a recipe may have.
pub const RECIPE_MOST: usize = 16;
/// The kind of a number in a recipe whose value is the number itself.
pub const FIXED: u8 = 0;
/// The kind of a number in a recipe whose value, 0 to 3, says which parameter of the call is the number.
pub const PARAMETER: u8 = 1;
/// What [`panelrights_access`] answers for 'no access'.
pub const NO_ACCESS: u16 = 255;
/// What [`panelrights_access`] adds to a refusal.
pub const ACCESS_REFUSED: u16 = 256;

/// What [`panelrights_explain`] adds to a refusal.
pub const EXPLAIN_REFUSED: u16 = 256;
/// What [`panelrights_explain`] adds to the number of bytes where it writes counts.
pub const EXPLAIN_COUNTS: u16 = 512;
/// How many bytes the buffer of [`panelrights_explain`] must have at least.
pub const EXPLAIN_BYTES: usize = 32;
/// The kind of pair, in the answer of [`panelrights_explain_step`], that is an import.
pub const LOST_IMPORT: u8 = 1;
/// The kind of pair, in the answer of [`panelrights_explain_step`], that is an export.
pub const LOST_EXPORT: u8 = 2;

/// How many bytes a site file has at most: a buffer of so many always does for [`panelrights_write_file`].
pub const FILE_MOST: usize = 13_340;
/// How many bytes each entry of a label block has.
pub const LABEL_ENTRY_BYTES: usize = 32;
/// How many bytes the text of a label has at most.
pub const LABEL_TEXT_MOST: usize = 30;
/// What [`panelrights_write_file`] adds to a refusal.
pub const WRITE_REFUSED: u32 = 65_536;

extern "C" {
    /// How many bytes the record of a state has.
    ///
    /// # Safety
    /// Nothing is asked.
    pub fn panelrights_state_bytes() -> usize;

    /// Writes the record of the founding state. 0; or 31 and no byte written, if the length is another.
    ///
    /// # Safety
    /// `state_len` bytes may be read and written at `state`.
    pub fn panelrights_founding(state: *mut u8, state_len: usize) -> u8;

    /// Obeys one instruction. 0, and the record is that of the state after it; or the refusal, and no byte is changed.
    ///
    /// # Safety
    /// `state_len` bytes may be read and written at `state`.
    pub fn panelrights_step(state: *mut u8, state_len: usize, code: u8, activator: u8, a: u8, b: u8) -> u8;

    /// Obeys a recipe, entirely or not at all. 0, and the record is that of the state after its last instruction; or
    /// the place of the first that is refused, from 1, * 256 + its refusal, and no byte is changed. The place beside
    /// 12, and beside 14 for bytes that are no recipe, is 0.
    ///
    /// # Safety
    /// `state_len` bytes may be read and written at `state`, `recipe_len` bytes read at `recipe`, and the two do not
    /// overlap.
    pub fn panelrights_recipe(
        state: *mut u8,
        state_len: usize,
        recipe: *const u8,
        recipe_len: usize,
        activator: u8,
        p0: u8,
        p1: u8,
        p2: u8,
        p3: u8,
    ) -> u16;

    /// The number of steps in a shortest chain to the area, [`NO_ACCESS`], or [`ACCESS_REFUSED`] and the refusal. 256
    /// is no area, and not area 0.
    ///
    /// # Safety
    /// `state_len` bytes may be read at `state`.
    pub fn panelrights_access(state: *const u8, state_len: usize, area: u32, object: u32) -> u16;

    /// Writes the chain of areas behind an access, and answers its number of bytes; or, without access, the least counts
    /// of all 32 areas, and answers [`EXPLAIN_COUNTS`] + 32. Bytes not written stay. Or [`EXPLAIN_REFUSED`] + the
    /// refusal, which is 31, 12, 2 or 4, and no byte is written. 256 is no area, and not area 0.
    ///
    /// # Safety
    /// `state_len` bytes may be read at `state`, `buffer_len` bytes read and written at `buffer`, and the two do not
    /// overlap.
    pub fn panelrights_explain(
        state: *const u8,
        state_len: usize,
        area: u32,
        object: u32,
        buffer: *mut u8,
        buffer_len: usize,
    ) -> u16;

    /// The number that a step would get; for 11 with the first pair that would be lost: number + 256 * (1 for an import,
    /// 2 for an export) + 65536 * object + 16777216 * area.
    ///
    /// # Safety
    /// `state_len` bytes may be read at `state`.
    pub fn panelrights_explain_step(state: *const u8, state_len: usize, code: u8, activator: u8, a: u8, b: u8) -> u32;

    /// Reads a site file. 0, and the record is that of its state; or 21 to 29, and it is that of the founding state; or 31,
    /// and no byte is written.
    ///
    /// # Safety
    /// `file_len` bytes may be read at `file`, `state_len` bytes read and written at `state`, and the two do not overlap.
    pub fn panelrights_read_file(file: *const u8, file_len: usize, state: *mut u8, state_len: usize) -> u8;

    /// Where the label's text stands in the file: offset * 65536 + length, or 0 for none. 256 is no area, and not area
    /// 0.
    ///
    /// # Safety
    /// `file_len` bytes may be read at `file`.
    pub fn panelrights_label(file: *const u8, file_len: usize, area: u32) -> u32;

    /// Where the label block stands in an accepted file: offset * 65536 + length, or 0 for a file that is refused.
    ///
    /// # Safety
    /// `file_len` bytes may be read at `file`.
    pub fn panelrights_labels(file: *const u8, file_len: usize) -> u32;

    /// Writes the site file of a state and its label block. The length of the file, and the buffer has its bytes from
    /// the front, those past the length as they were; or [`WRITE_REFUSED`] + the refusal, which is 12, 30 or 31, and
    /// no byte is changed.
    ///
    /// # Safety
    /// `state_len` bytes may be read at `state`, `labels_len` bytes read at `labels`, `file_len` bytes read and written
    /// at `file`, and what is written overlaps neither of the others.
    pub fn panelrights_write_file(
        state: *const u8,
        state_len: usize,
        labels: *const u8,
        labels_len: usize,
        file: *mut u8,
        file_len: usize,
    ) -> u32;

    /// The place (0 to 7) of the lowest mark set in a byte, 8 if none.
    ///
    /// # Safety
    /// Nothing is asked.
    pub fn panelrights_lowest_mark(marks: u8) -> u8;
}
