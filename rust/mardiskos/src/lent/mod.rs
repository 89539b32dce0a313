//! The calls as C has them: the caller lends the lists, and the answer carries a code.
//!
//! A code is 0, or 32 × place + number; [`outcome`](crate::outcome) makes a `Result` of it. After a refusal every
//! other number of an answer is 0, every truth value false, each list lent 65,535 throughout and each byte
//! area 0 throughout. Nothing is allocated.
//!
//! ```
//! # fn main() -> Result<(), Box<dyn std::error::Error>> {
//! let record = std::fs::read("../../examples/two-shelves.record")?;
//! let (mut plan, mut work, mut marks) = ([0; 6], [0; 6], [0; 6]);
//! let planned = mardiskos::lent::plan(&record, &mut plan, &mut work, &mut marks);
//! mardiskos::outcome(planned.code)?;
//! assert_eq!(plan, [0, 2, 1, 3, 65_535, 65_535]);
//! assert_eq!(marks, [0, 0, 1, 0, 0, 0]);
//!
//! // The shortest of the three is the room.
//! let refused = mardiskos::lent::plan(&record, &mut plan, &mut work, &mut marks[..3]);
//! assert_eq!(refused.code, 32 * 3 + 11);
//! # Ok(())
//! # }
//! ```

mod check;
mod plan;
mod runs;
mod sheet;

pub use check::check;
pub use plan::{plan, repair, PlanResult};
pub use runs::{forward, judge, newest, relax};
pub use runs::{ForwardRun, Judgement, NewestValues, RelaxedPlan};
pub use sheet::{read_sheet, write_sheet, Sheet, SheetSize};
