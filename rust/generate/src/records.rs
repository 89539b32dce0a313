//! Records of random shape.

use crate::random::Random;
use reference::{Fact, Task, Variable};

const MAX_FACTS: usize = 15;

/// Upper bounds of a random task.
#[derive(Clone, Copy)]
pub struct Shape {
    pub variables: usize,
    pub values: usize,
    pub actions: usize,
    pub facts: usize,
    /// Black variables in a hundred.
    pub black: usize,
}

pub const SMALL: Shape = Shape { variables: 5, values: 4, actions: 12, facts: 3, black: 40 };
pub const TINY: Shape = Shape { variables: 3, values: 3, actions: 6, facts: 2, black: 60 };
pub const MIDDLE: Shape = Shape { variables: 20, values: 12, actions: 80, facts: 6, black: 10 };

pub fn random_task(random: &mut Random, shape: Shape) -> Task {
    let variables = random.within(1, shape.variables);
    let actions = random.within(0, shape.actions);
    task(random, shape, variables, actions)
}

/// All variables and actions that the shape allows.
pub fn filled_task(random: &mut Random, shape: Shape) -> Task {
    task(random, shape, shape.variables, shape.actions)
}

/// 64 variables and 1,024 actions with up to 15 facts in a list.
pub fn full_task(random: &mut Random) -> Task {
    let values = *random.pick(&[2, 8, 64]);
    let shape = Shape { variables: 64, values, actions: 1024, facts: 15, black: 5 };
    filled_task(random, shape)
}

/// Like `sized`, with random facts: `facts` in every list.
pub fn dense_task(random: &mut Random, variables: usize, actions: usize, facts: usize) -> Task {
    let drawn =
        (0..variables).map(|_| variable(random, 64, 50)).map(|v| Variable { values: 64, ..v });
    let mut task = Task::new(drawn.collect());
    for _ in 0..actions {
        let preconditions = choose_facts(random, &task, facts);
        let effects = choose_facts(random, &task, facts);
        task.push(random.bits() as u16, &preconditions, &effects);
    }
    task
}

fn task(random: &mut Random, shape: Shape, variables: usize, actions: usize) -> Task {
    let drawn = (0..variables).map(|_| variable(random, shape.values, shape.black));
    let mut task = Task::new(drawn.collect());
    for _ in 0..actions {
        let preconditions = random_facts(random, &task, shape.facts);
        let effects = random_facts(random, &task, shape.facts);
        task.push(cost(random), &preconditions, &effects);
    }
    task
}

pub fn cost(random: &mut Random) -> u16 {
    let bits = random.bits() as u16;
    if random.chance(1, 4) {
        bits
    } else {
        bits % 10
    }
}

fn variable(random: &mut Random, most_values: usize, black: usize) -> Variable {
    let values = random.within(1, most_values);
    Variable {
        values: values as u8,
        black: random.chance(black, 100),
        initial: random.below(values) as u8,
        goal: random.chance(1, 3).then(|| random.below(values) as u8),
    }
}

fn random_facts(random: &mut Random, task: &Task, most: usize) -> Vec<Fact> {
    let count = random.within(0, most.min(task.variables.len()));
    choose_facts(random, task, count)
}

/// `count` facts on different variables, rising.
pub fn choose_facts(random: &mut Random, task: &Task, count: usize) -> Vec<Fact> {
    let mut facts = Vec::with_capacity(count);
    let variables = task.variables.len();
    for v in 0..variables {
        if random.chance(count - facts.len(), variables - v) {
            facts.push(Fact::new(v, random.below(task.variables[v].values as usize)));
        }
    }
    facts
}

/// The same task with actions, one in two, that set something of what they need.
pub fn setting_needs(random: &mut Random, task: Task) -> Task {
    let mut changed = Task::new(task.variables.clone());
    for action in task.actions() {
        let mut effects = action.effects.to_vec();
        if random.chance(1, 2) {
            keep_needed(random, action.preconditions, &mut effects);
        }
        changed.push(action.cost, action.preconditions, &effects);
    }
    changed
}

fn keep_needed(random: &mut Random, preconditions: &[Fact], effects: &mut Vec<Fact>) {
    for &fact in preconditions {
        if effects.len() < MAX_FACTS && random.chance(1, 2) {
            effects.retain(|effect| effect.variable() != fact.variable());
            effects.push(fact);
        }
    }
    effects.sort();
}
