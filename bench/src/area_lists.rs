//! A program's own lists of areas, gone through by the lowest mark set in a byte.

use crate::agree;
use crate::rules::AREAS;
use chance::Chance;

/// Eight marks in a byte, the lowest number in the lowest bit.
pub type AreaList = [u8; AREAS / 8];

/// So many lists at random: about half of the areas are in each.
pub fn random(count: usize) -> Vec<AreaList> {
    let mut chance = Chance::new(6);
    (0..count).map(|_| std::array::from_fn(|_| chance.byte())).collect()
}

/// The numbers in the lists, added up: in each byte the lowest mark is found and cleared until none is left.
pub fn sum(lists: &[AreaList], lowest_mark: impl Fn(u8) -> u8) -> u32 {
    let mut sum = 0;
    for list in lists {
        for (first, &marks) in (0..).step_by(8).zip(list) {
            let mut left = marks;
            let mut place = lowest_mark(left);
            while place < 8 {
                sum += first + u32::from(place);
                left &= left - 1;
                place = lowest_mark(left);
            }
        }
    }
    sum
}

/// Compares the lowest marks of all bytes. Gives a line on what was seen.
pub fn compare() -> String {
    let mut places = [0; 9];
    for marks in 0..=u8::MAX {
        places[usize::from(agree::lowest_mark(marks))] += 1;
    }
    format!("agree: lowest marks at places 0 to 7, and none: {places:?}")
}
