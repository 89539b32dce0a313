//! Random and drawn records, for comparison and benchmark.

pub mod choices;
pub mod damage;
pub mod extremes;
pub mod gates;
pub mod listings;
pub mod marks;
pub mod mixture;
pub mod prices;
pub mod random;
pub mod records;
pub mod repair;
pub mod ring;
pub mod searches;
pub mod stores;

pub use random::Random;
