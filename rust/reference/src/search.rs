//! Breadth-first search over all red-black states of a small task.

use crate::task::{Action, Fact, Task};
use std::collections::HashSet;

/// Whether some list of actions is a red-black plan. None if the sets need more than 64 bits, or
/// if more than `limit` states were met before the answer was known.
pub fn has_red_black_plan(task: &Task, limit: usize) -> Option<bool> {
    let layout = Layout::new(task)?;
    let steps: Vec<Step> = task.actions().map(|action| layout.step(task, action)).collect();
    let goals = layout.mask(task.goals());
    let initial = layout.mask(initial_facts(task));
    let mut met = HashSet::from([initial]);
    let mut states = vec![initial];
    let mut at = 0;
    while at < states.len() {
        let state = states[at];
        at += 1;
        if state & goals == goals {
            return Some(true);
        }
        if states.len() > limit {
            return None;
        }
        let next = steps.iter().filter_map(|step| step.apply(state));
        states.extend(next.filter(|next| met.insert(*next)));
    }
    Some(false)
}

fn initial_facts(task: &Task) -> impl Iterator<Item = Fact> + '_ {
    let numbered = task.variables.iter().enumerate();
    numbered.map(|(v, variable)| Fact::new(v, variable.initial as usize))
}

/// An action over states in one number each.
struct Step {
    needs: u64,
    clears: u64,
    sets: u64,
}

impl Step {
    fn apply(&self, state: u64) -> Option<u64> {
        (state & self.needs == self.needs).then_some(state & !self.clears | self.sets)
    }
}

/// Where each variable's set stands in the number.
struct Layout {
    first: Vec<usize>,
}

impl Layout {
    fn new(task: &Task) -> Option<Self> {
        let mut first = vec![0];
        for variable in &task.variables {
            first.push(first.last().unwrap() + variable.values as usize);
        }
        (first.last() <= Some(&64)).then_some(Layout { first })
    }

    fn mask(&self, facts: impl Iterator<Item = Fact>) -> u64 {
        facts.fold(0, |mask, fact| mask | 1 << (self.first[fact.variable()] + fact.value()))
    }

    fn set_of(&self, v: usize) -> u64 {
        (self.first[v]..self.first[v + 1]).fold(0, |mask, bit| mask | 1 << bit)
    }

    fn step(&self, task: &Task, action: Action) -> Step {
        let affected = action.effects.iter().map(|fact| fact.variable());
        let black = affected.filter(|&v| task.variables[v].black);
        Step {
            needs: self.mask(action.preconditions.iter().copied()),
            clears: black.fold(0, |mask, v| mask | self.set_of(v)),
            sets: self.mask(action.effects.iter().copied()),
        }
    }
}
