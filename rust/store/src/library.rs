//! The proved library. Every call of it stands here; refusals become those of clause 9.5.

use mardiskos::{Judgement, Newest, Plan};
use reference::Refusal;

pub use mardiskos::{Run, Sheet};

fn refused(refusal: mardiskos::Refusal) -> Refusal {
    Refusal::new(refusal.number(), refusal.place as usize)
}

pub fn check(record: &[u8]) -> Result<(), Refusal> {
    mardiskos::check(record).map_err(refused)
}

/// A plan for the record, of as many steps as there is room for.
pub fn plan(record: &[u8], room: usize) -> Result<Plan, Refusal> {
    mardiskos::plan_within(record, room).map_err(refused)
}

/// The repair of a relaxed plan of the caller's.
pub fn repair(record: &[u8], relaxed: &[u16], room: usize) -> Result<Plan, Refusal> {
    mardiskos::repair_within(record, relaxed, room).map_err(refused)
}

pub fn judge(record: &[u8], list: &[u16]) -> Result<Judgement, Refusal> {
    mardiskos::judge(record, list).map_err(refused)
}

/// The newest values of a list.
pub fn newest(record: &[u8], list: &[u16]) -> Result<Newest, Refusal> {
    mardiskos::newest(record, list).map_err(refused)
}

pub fn write_sheet(sheet: &Sheet) -> Result<Vec<u8>, Refusal> {
    let Sheet { steps, marks, edition, cost, real } = sheet;
    mardiskos::write_sheet(steps, marks, *edition, *cost, *real).map_err(refused)
}

pub fn read_sheet(bytes: &[u8]) -> Result<Sheet, Refusal> {
    mardiskos::read_sheet(bytes).map_err(refused)
}
