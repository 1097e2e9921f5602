//! The answers to document 02's point 5 as numbers, shared by both baselines: as the C interface has them.

/// "a buffer under 32 bytes gets 31"
pub const ROOM: usize = 32;

/// What is added to the number of bytes where they are counts.
pub const COUNTS: u16 = 512;

/// The kinds of a lost pair.
pub const IMPORT: u32 = 1;
pub const EXPORT: u32 = 2;

/// Refusal 11, with the pair that it names.
pub fn lost(kind: u32, object: usize, area: usize) -> u32 {
    11 + 256 * kind + 65_536 * object as u32 + 16_777_216 * area as u32
}
