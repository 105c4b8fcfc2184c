//! What `slotplan` does, written a second time in plain Rust.
//!
//! It follows the pages in `docs/` and shares no code with the proved
//! program, so that the two can be held against each other. Nothing here is
//! proved; the tests compare it with an enumeration of all choices.
//!
//! [`answer`] runs a whole job text. [`Planner`] plans without a text, also
//! with a charge of its own for each ordered pair of grades.

mod command;
mod costs;
mod faults;
mod job;
mod offers;
mod planner;
mod terms;

#[cfg(test)]
mod tests;

pub use command::{read_instruction, read_opening, FieldFault, Instruction, KindName, Opening};
pub use costs::{Kind, Total, Worst};
pub use faults::{Fault, Layer};
pub use job::{answer, SLOTPLAN_PLACES, TEXT_LIMIT};
pub use offers::{eighths, extra_over, gain_block, weight_over, Block, Offer, GRADES, NO_OFFERS};
pub use planner::{Plan, Planner, BLOCKS};
pub use terms::Terms;
