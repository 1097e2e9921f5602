//! Records by their bytes: with one bit turned, random ones, and bytes that are no record.

use crate::seen::Seen;
use crate::shards::Plan;
use crate::{one_bit, other_lengths, random_bytes};

pub fn run(plan: &Plan) -> (String, Seen) {
    let (about_bits, mut seen) = one_bit::run(plan);
    let (about_bytes, of_bytes) = random_bytes::run(plan);
    let (about_lengths, of_lengths) = other_lengths::run(plan);
    seen.add(of_bytes);
    seen.add(of_lengths);
    (format!("{about_bits}; {about_bytes}; {about_lengths}"), seen)
}
