//! What the suites share.

pub mod guard;
pub mod lent;
pub mod lists;
pub mod suite;
