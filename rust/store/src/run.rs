//! A list run under one semantics.

use reference::state::{Run, Semantics, State};
use reference::Task;

/// How many steps run, and whether the list is a plan.
pub fn run(task: &Task, list: &[u16], semantics: &Semantics) -> Run {
    let mut state = State::initial(task);
    for (step, &number) in list.iter().enumerate() {
        let action = task.action(number as usize);
        if !state.holds_all(action.preconditions) {
            return Run { steps: step as u32, plan: false };
        }
        state.apply(action, semantics);
    }
    Run { steps: list.len() as u32, plan: state.meets_goals(task) }
}
