#![doc = include_str!("../README.md")]

mod calls;
pub mod lent;
mod refusal;

pub use calls::{check, forward, judge, newest, read_sheet, relax, write_sheet};
pub use calls::{plan, plan_within, repair, repair_within};
pub use calls::{unmarked, ForwardRun, Judgement, Newest, Plan, Run, Sheet};
pub use refusal::{outcome, Reason, Refusal};

/// The most steps that a plan, a list or a sheet has.
pub const MAX_STEPS: usize = 32_768;
/// The most variables of a record.
pub const MAX_VARIABLES: usize = 64;
/// The most actions of a record.
pub const MAX_ACTIONS: usize = 1_024;
/// The bytes of the longest record.
pub const MAX_RECORD: usize = 49_315;
/// The bytes of the longest sheet, which is of edition 2.
pub const MAX_SHEET: usize = 45_063;
