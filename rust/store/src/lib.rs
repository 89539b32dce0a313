//! A text form of a store, plans and sheets with its names, and pictures of it. Nothing here is
//! proved.
//!
//! `template` writes out the text, `parse` reads it, `text` writes it; `list` reads lists of actions,
//! and `show` puts plans and sheets into words. `explain` does so with refusals. `picture` draws.
//! `library` calls the proved library, `commands` is what the program takes, `tasks` and `pictures`
//! what it does, `files` and `outcome` how it ends.

pub mod braces;
pub mod commands;
pub mod explain;
pub mod files;
pub mod library;
pub mod list;
pub mod names;
pub mod outcome;
pub mod parse;
pub mod picture;
pub mod pictures;
pub mod plan;
pub mod run;
pub mod show;
pub mod store;
pub mod tasks;
pub mod template;
pub mod text;
pub mod token;

pub use parse::parse;
pub use store::Store;
pub use text::text;
pub use token::Error;
