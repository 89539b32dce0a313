//! Tasks in which the forward run has to choose among actions of one cost and of different ones.

use crate::random::Random;
use crate::stores::{number_with, Draft};
use reference::{Fact, Task};

/// The task with few costs, numbered anew: some actions stand there twice, some need less, and some
/// add nothing. A painting is accepted as before, as long as no action is too many.
pub fn with_choices(random: &mut Random, task: &Task) -> Task {
    let costs: &[u16] = if random.chance(1, 2) { &[0, 1] } else { &[1, 2, 3] };
    let red = |fact: &Fact| !task.variables[fact.variable()].black;
    let mut drafts: Vec<Draft> = Vec::new();
    for action in task.actions() {
        let draft = (action.preconditions.to_vec(), action.effects.to_vec());
        if random.chance(1, 2) {
            drafts.push(draft.clone());
        }
        drafts.push(draft);
        let (needs, sets) = drafts.last_mut().unwrap();
        if sets.iter().all(red) && random.chance(1, 3) {
            needs.truncate(random.below(needs.len() + 1));
        }
    }
    drafts.extend(idle(task).filter(|_| random.chance(1, 2)));
    number_with(random, task.variables.clone(), drafts, |random| *random.pick(costs))
}

/// For each red variable an action that sets its initial value.
fn idle(task: &Task) -> impl Iterator<Item = Draft> + '_ {
    let red = task.variables.iter().enumerate().filter(|(_, variable)| !variable.black);
    red.map(|(v, variable)| (Vec::new(), vec![Fact::new(v, variable.initial as usize)]))
}
