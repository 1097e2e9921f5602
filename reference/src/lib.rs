//! The site access state machine of document 01, with points 1, 2, 3, 4, 5, 7 and 11 of document 02, written a second
//! time: sets of pairs instead of rows of bits.
//!
//! Each module follows one section of document 01 or one point of document 02, and each function quotes the sentence that it stands
//! for; it is document 01's where no other document is named. docs/READINGS.md says how open places of both documents are read.

#![forbid(unsafe_code)]
#![warn(missing_docs)]

mod access;
mod chains;
mod instructions;
mod labels;
mod lending;
mod old_record;
mod program;
mod question;
mod recipes;
mod record;
mod refusals;
mod site_file;
mod small;
mod soundness;
mod state;
mod taking_back;
mod true_reason;
mod why;
mod writing;

pub use chains::{count_shortest_chains, shortest_chains};
pub use instructions::{run, step, step_record};
pub use labels::Labels;
pub use lending::{lending_guarantee, lending_guarantee_of_commands};
pub use old_record::{eight_to_a_byte, from_old_record, to_old_record, OLD_RECORD_BYTES};
pub use program::transcript;
pub use question::{access, lowest_mark};
pub use recipes::{counted, misformed, order_of_recipe_checks, recipe, recipe_instructions, recipe_record, run_commands};
pub use recipes::{Call, Command, Misformed, RecipeAnswer};
pub use record::{from_record, to_record, RECORD_BYTES};
pub use refusals::order_of_checks;
pub use site_file::{label, label_block, read_file, write_file, MOST_FILE_BYTES};
pub use small::small_states;
pub use state::State;
pub use taking_back::{matching_remove, taken_back};
pub use true_reason::{are_least_counts, is_first_chain, is_first_lost};
pub use why::{explain, explain_record, explain_step, explain_step_record, explanation_number, lost_pairs};
pub use why::{step_reason_number, Entry, Explanation, Lost, StepReason};
pub use writing::{bad_block, write, write_record, BadBlock};
