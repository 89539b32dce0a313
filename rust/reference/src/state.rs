//! States (3.1), and runs under the three semantics (3.4, 3.7).

use crate::task::{Action, Fact, Task};

/// Which variables act as black: `keep` is 0 for those and all ones for the others.
#[derive(Clone)]
pub struct Semantics {
    keep: [u64; 64],
}

impl Semantics {
    pub fn relaxed() -> Self {
        Semantics { keep: [!0; 64] }
    }

    pub fn real() -> Self {
        Semantics { keep: [0; 64] }
    }

    pub fn red_black(task: &Task) -> Self {
        let mut keep = [!0; 64];
        for (v, variable) in task.variables.iter().enumerate() {
            keep[v] = if variable.black { 0 } else { !0 };
        }
        Semantics { keep }
    }
}

/// A set of values for each variable.
#[derive(Clone)]
pub struct State {
    sets: [u64; 64],
}

impl State {
    pub fn empty() -> Self {
        State { sets: [0; 64] }
    }

    pub fn initial(task: &Task) -> Self {
        let mut state = State::empty();
        state.start(task);
        state
    }

    /// Becomes the initial state in the task's variables.
    #[inline(always)]
    pub fn start(&mut self, task: &Task) {
        let sets = task.variables.iter().zip(&mut self.sets);
        sets.for_each(|(variable, set)| *set = 1 << variable.initial);
    }

    /// Holds nothing of the task's variables any more.
    #[inline(always)]
    pub fn clear_all(&mut self, task: &Task) {
        self.sets[..task.variables.len().min(64)].fill(0);
    }

    #[inline(always)]
    pub fn holds(&self, fact: Fact) -> bool {
        self.sets[fact.variable()] >> fact.value() & 1 == 1
    }

    #[inline(always)]
    pub fn holds_all(&self, facts: &[Fact]) -> bool {
        facts.iter().all(|&fact| self.holds(fact))
    }

    #[inline(always)]
    pub fn add(&mut self, fact: Fact) {
        self.sets[fact.variable()] |= 1 << fact.value();
    }

    /// The values of a variable.
    #[inline(always)]
    pub fn of(&self, variable: usize) -> u64 {
        self.sets[variable % 64]
    }

    /// Takes away every value of a fact's variable.
    #[inline(always)]
    pub fn clear(&mut self, fact: Fact) {
        self.sets[fact.variable()] = 0;
    }

    #[inline(always)]
    pub fn apply(&mut self, action: Action, semantics: &Semantics) {
        for fact in action.effects {
            let v = fact.variable();
            self.sets[v] = self.sets[v] & semantics.keep[v] | 1 << fact.value();
        }
    }

    pub fn meets_goals(&self, task: &Task) -> bool {
        task.goals().all(|goal| self.holds(goal))
    }
}

/// How far a list runs, and whether it is a plan.
#[derive(Clone, Copy, Debug, Default, PartialEq, Eq)]
pub struct Run {
    pub steps: u32,
    pub plan: bool,
}
