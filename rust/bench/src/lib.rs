//! What the classes share.

pub mod copies;
pub mod options;
pub mod table;
