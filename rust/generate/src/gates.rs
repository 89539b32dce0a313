//! Actions that set again what they need, as a gate that stays shut; and effects that come close to
//! that.

use crate::random::Random;
use crate::stores::MAX_FACTS;
use reference::task::Action;
use reference::{Fact, Task};

/// The task with facts set again, one time in four with a near miss among them.
pub fn with_gates(random: &mut Random, task: &Task) -> Task {
    let task = set_again(random, task);
    if random.chance(1, 4) {
        return near_miss(random, &task);
    }
    task
}

/// The task with actions, two in three, that set some of what they need, black or red, to the same
/// value again. Painting and plans stay as they are.
pub fn set_again(random: &mut Random, task: &Task) -> Task {
    let mut changed = Task::new(task.variables.clone());
    for action in task.actions() {
        let mut effects = action.effects.to_vec();
        if random.chance(2, 3) {
            let again = action.preconditions.iter().filter(|_| random.chance(2, 3));
            again.for_each(|&fact| add(&mut effects, fact));
        }
        effects.sort();
        changed.push(action.cost, action.preconditions, &effects);
    }
    changed
}

/// Adds an effect if there is none on its variable yet, and room.
fn add(effects: &mut Vec<Fact>, fact: Fact) {
    let free = effects.iter().all(|effect| effect.variable() != fact.variable());
    if free && effects.len() < MAX_FACTS {
        effects.push(fact);
    }
}

/// The task with an effect more in one of its actions: another value of a variable that it needs, or
/// the initial value of one that it does not.
pub fn near_miss(random: &mut Random, task: &Task) -> Task {
    let mut changed = Task::new(task.variables.clone());
    let chosen = random.below(task.action_count().max(1));
    for (number, action) in task.actions().enumerate() {
        let mut effects = action.effects.to_vec();
        if number == chosen {
            let miss = miss(random, task, action);
            miss.into_iter().for_each(|fact| add(&mut effects, fact));
        }
        effects.sort();
        changed.push(action.cost, action.preconditions, &effects);
    }
    changed
}

fn miss(random: &mut Random, task: &Task, action: Action) -> Option<Fact> {
    let on = |facts: &[Fact], v: usize| facts.iter().copied().find(|fact| fact.variable() == v);
    let values = |v: usize| task.variables[v].values as usize;
    let fits = |&v: &usize| on(action.effects, v).is_none() && values(v) > 1;
    let free: Vec<usize> = (0..task.variables.len()).filter(fits).collect();
    let v = *free.get(random.below(free.len().max(1)))?;
    let value = match on(action.preconditions, v) {
        Some(fact) => (fact.value() + random.within(1, values(v) - 1)) % values(v),
        None => task.variables[v].initial as usize,
    };
    Some(Fact::new(v, value))
}

/// Whether an action changes a black variable and sets again a fact of another that it needs.
pub fn has_gate(task: &Task) -> bool {
    let black = |fact: &&Fact| task.variables[fact.variable()].black;
    task.actions().any(|action| {
        let set = action.effects.iter().filter(black);
        let (again, changed): (Vec<&Fact>, Vec<_>) =
            set.partition(|fact| action.preconditions.contains(fact));
        !again.is_empty() && !changed.is_empty()
    })
}

/// Whether check 7 would refuse if facts set again made arcs too, as they did up to version 0.3.0.
pub fn was_cyclic(task: &Task) -> bool {
    let black = task.black();
    let set = |facts: &[Fact]| facts.iter().fold(0u64, |set, f| set | 1 << f.variable()) & black;
    let mut arcs = [0u64; 64];
    for action in task.actions() {
        let affected = set(action.effects);
        let from = affected | set(action.preconditions);
        for u in (0..64).filter(|u| from >> u & 1 == 1) {
            arcs[u] |= affected & !(1 << u);
        }
    }
    let mut left = black;
    while let Some(v) = (0..64).find(|&v| left >> v & 1 == 1 && arcs[v] & left == 0) {
        left &= !(1 << v);
    }
    left != 0
}
