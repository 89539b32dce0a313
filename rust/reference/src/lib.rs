//! Independent planner, written from docs/SPECIFICATION.md alone and for speed. Numbers like 6.7 are its
//! clauses.
//!
//! Data goes one way: bytes to a task (`record`), a task to runs (`forward`, `judge`, `newest`), a forward run
//! to a relaxed plan, and that to a repaired plan (`painting`, `paths`, `repair`). `entry` holds the
//! entry points with their checks in order and what every lent entry holds afterwards. `state` has
//! runs as they are worded, for tests; `search` goes through all red-black states of small tasks.
//! Calls of a thread work in one room, of which each clears what it uses (`room`).

pub mod bits;
pub mod entry;
pub mod examples;
mod forward;
mod image;
mod index;
mod judge;
pub mod listing;
mod newest;
pub mod painting;
mod paths;
mod ranking;
mod ready;
pub mod record;
pub mod refusal;
mod repair;
mod returns;
mod room;
mod rows;
pub mod search;
mod set;
pub mod sheet;
pub mod state;
pub mod task;

pub use entry::{forward, judge, newest, plan, relax, repair};
pub use refusal::Refusal;
pub use sheet::{read as read_sheet, write as write_sheet};
pub use task::{Fact, Task, Variable};
