//! Actions found by fact and by number.

use crate::room::{table, Table};
use crate::state::State;
use crate::task::{Fact, Task, FACTS};

pub const ACTIONS: usize = 1024;
pub const NONE: u16 = 65_535;

/// Action numbers grouped by fact, as chains; each number stands in one group at most.
pub struct Chains {
    head: Table<u16, FACTS>,
    next: Table<u16, ACTIONS>,
}

impl Chains {
    pub fn new() -> Self {
        Chains { head: table(NONE), next: table(NONE) }
    }

    /// Empties the groups of a variable.
    #[inline(always)]
    pub fn clear(&mut self, variable: usize, values: usize) {
        let first = Fact::new(variable, 0).index();
        self.head[first..first + values].fill(NONE);
    }

    pub fn clear_all(&mut self, task: &Task) {
        self.head[..64 * task.variables.len()].fill(NONE);
    }

    #[inline(always)]
    pub fn insert(&mut self, fact: Fact, number: usize) {
        let head = &mut self.head[fact.index()];
        self.next[number % ACTIONS] = *head;
        *head = number as u16;
    }

    /// Takes a group out; the chain is followed by `after`.
    #[inline(always)]
    fn take(&mut self, fact: Fact) -> u16 {
        std::mem::replace(&mut self.head[fact.index()], NONE)
    }

    #[inline(always)]
    fn after(&self, number: u16) -> u16 {
        self.next[number as usize % ACTIONS]
    }

    /// The numbers of a group, the last inserted first.
    #[inline(always)]
    pub fn of(&self, fact: Fact) -> impl Iterator<Item = usize> + '_ {
        let mut at = self.head[fact.index()];
        std::iter::from_fn(move || {
            let number = at;
            at = self.next[number as usize % ACTIONS];
            (number != NONE).then_some(number as usize)
        })
    }
}

/// Actions that wait, each for its first precondition not held; the place of that is remembered.
pub struct Waiting {
    chains: Chains,
    place: Table<u8, ACTIONS>,
}

impl Waiting {
    pub fn new() -> Self {
        Waiting { chains: Chains::new(), place: table(0) }
    }

    pub fn clear(&mut self, task: &Task) {
        self.chains.clear_all(task);
    }

    /// Whether all preconditions are held; if not, the action waits.
    #[inline(always)]
    pub fn start(&mut self, task: &Task, held: &State, number: usize) -> bool {
        self.place[number % ACTIONS] = 0;
        self.advance(task, held, number)
    }

    #[inline(always)]
    fn advance(&mut self, task: &Task, held: &State, number: usize) -> bool {
        let preconditions = task.preconditions(number);
        let mut place = self.place[number % ACTIONS];
        while let Some(&fact) = preconditions.get(place as usize) {
            if !held.holds(fact) {
                self.place[number % ACTIONS] = place;
                self.chains.insert(fact, number);
                return false;
            }
            place += 1;
        }
        true
    }

    /// Hands on each action that waited for this fact, now held, and has all it needs.
    #[inline(always)]
    pub fn wake(
        &mut self,
        task: &Task,
        held: &State,
        fact: Fact,
        mut applicable: impl FnMut(usize),
    ) {
        let mut number = self.chains.take(fact);
        while number != NONE {
            let next = self.chains.after(number);
            if self.advance(task, held, number as usize) {
                applicable(number as usize);
            }
            number = next;
        }
    }
}

/// A set of action numbers.
#[derive(Clone, Default)]
pub struct Numbers {
    words: [u64; 16],
}

impl Numbers {
    /// Whether the number was not in the set; it is then.
    #[inline(always)]
    pub fn insert(&mut self, number: usize) -> bool {
        let word = &mut self.words[number / 64 % 16];
        let before = *word;
        *word |= 1 << (number % 64);
        *word != before
    }

    #[inline(always)]
    pub fn contains(&self, number: usize) -> bool {
        self.words[number / 64 % 16] >> (number % 64) & 1 == 1
    }
}
