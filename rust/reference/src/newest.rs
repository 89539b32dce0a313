//! Newest values (3.12, 3.13), looked for from the end: the last step that sets a variable tells its
//! value.

use crate::index::Numbers;
use crate::set::{contains, members};
use crate::task::Task;

/// The newest values behind steps that run, one for each variable.
pub fn newest_values(task: &Task, steps: &[u16], values: &mut [u16]) {
    let mut missing = u64::MAX >> (64 - task.variables.len());
    let mut seen = Numbers::default();
    for &number in steps.iter().rev() {
        if missing == 0 {
            return;
        }
        if !seen.insert(number.into()) {
            continue;
        }
        for fact in task.effects(number.into()) {
            if contains(missing, fact.variable()) {
                values[fact.variable()] = fact.value() as u16;
                missing &= !(1 << fact.variable());
            }
        }
    }
    members(missing).for_each(|v| values[v] = task.variables[v].initial.into());
}
