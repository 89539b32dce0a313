//! A plan, and which of its steps the repair inserted.

use reference::entry::MAX_STEPS;
use reference::Refusal;

use crate::library::{self, Sheet};
use crate::store::Store;

/// A list of actions, with a mark for each step where that is known: 1 for an inserted move, else 0.
#[derive(Clone, Debug, Default, PartialEq, Eq)]
pub struct Plan {
    pub steps: Vec<u16>,
    pub marks: Option<Vec<u8>>,
    /// The path searches of the repair, where it was made here.
    pub searches: Option<u32>,
}

impl Plan {
    /// The plan of the proved library.
    pub fn find(store: &Store) -> Result<Plan, Refusal> {
        Ok(Plan::of(library::plan(&store.record(), MAX_STEPS)?))
    }

    /// The proved library's repair of a relaxed plan.
    pub fn repair(store: &Store, relaxed: &[u16]) -> Result<Plan, Refusal> {
        Ok(Plan::of(library::repair(&store.record(), relaxed, MAX_STEPS)?))
    }

    fn of(planned: mardiskos::Plan) -> Plan {
        let mardiskos::Plan { steps, marks, searches, .. } = planned;
        Plan { steps, marks: Some(marks), searches: Some(searches) }
    }

    /// A list of which nothing more is known.
    pub fn list(steps: Vec<u16>) -> Plan {
        Plan { steps, ..Plan::default() }
    }

    /// What a sheet holds; one of edition 1 has no marks.
    pub fn on(sheet: &Sheet) -> Plan {
        let marks = (sheet.edition != 1).then(|| sheet.marks.clone());
        Plan { marks, ..Plan::list(sheet.steps.clone()) }
    }

    /// A repaired list and the relaxed plan that it was made from, or `None` if that is not part of it.
    ///
    /// Each relaxed step is the first occurrence of its action behind the relaxed step before, as an
    /// action is never among the moves inserted before it. Let it move the black variable v. Moves
    /// are inserted for variables that it needs and their servants, all of which have a path to v
    /// in the black causal graph; as that has no cycle, none of them needs v. So v is moved only to
    /// the value that the action needs, and as no path repeats a value, none leaves it.
    pub fn repaired(steps: Vec<u16>, relaxed: &[u16]) -> Option<Plan> {
        let mut wanted = relaxed.iter().peekable();
        let mark = |step: &u16| u8::from(wanted.next_if_eq(&step).is_none());
        let marks = Some(steps.iter().map(mark).collect());
        wanted.next().is_none().then_some(Plan { steps, marks, searches: None })
    }

    pub fn is_inserted(&self, step: usize) -> bool {
        self.marks.as_ref().is_some_and(|marks| marks[step] != 0)
    }

    /// How many steps are inserted moves.
    pub fn inserted(&self) -> usize {
        (0..self.steps.len()).filter(|&step| self.is_inserted(step)).count()
    }

    /// The sum of the steps' costs.
    pub fn cost(&self, store: &Store) -> u64 {
        self.steps.iter().map(|&number| u64::from(store.actions[number as usize].cost)).sum()
    }
}
