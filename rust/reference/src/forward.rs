//! The forward run and the relaxed plan (SPECIFICATION, 4).

use crate::index::Waiting;
use crate::ready::Ready;
use crate::refusal::Refusal;
use crate::set::members;
use crate::state::State;
use crate::task::{Fact, Task};

/// The forward run, and room for the next one.
pub struct Forward {
    pub actions: Vec<u16>,
    pub reached: u32,
    /// For each action of the run the effects that it reached first, by their places.
    first: Vec<u16>,
    waiting: Waiting,
    /// Applicable actions not looked at yet. One that adds nothing now never will.
    ready: Ready,
    held: State,
    needed: State,
}

/// What a forward run knows while it goes on.
struct Course<'a> {
    task: &'a Task,
    /// The goal of each variable; 64 for none.
    goals: [u8; 64],
    goals_left: u32,
}

impl Forward {
    pub fn new() -> Self {
        Forward {
            actions: Vec::new(),
            reached: 0,
            first: Vec::new(),
            waiting: Waiting::new(),
            ready: Ready::new(),
            held: State::empty(),
            needed: State::empty(),
        }
    }

    /// Runs until every goal is reached, or 10 with the facts reached.
    pub fn run(&mut self, task: &Task) -> Result<(), Refusal> {
        let mut course = self.start(task);
        while course.goals_left > 0 {
            let Some(number) = self.ready.take() else {
                return Err(Refusal::new(10, self.reached as usize));
            };
            self.take(&mut course, number);
        }
        Ok(())
    }

    fn start<'a>(&mut self, task: &'a Task) -> Course<'a> {
        self.actions.clear();
        self.first.clear();
        self.waiting.clear(task);
        self.reached = task.variables.len() as u32;
        self.held.start(task);
        let mut goals = [64; 64];
        task.goals().for_each(|goal| goals[goal.variable()] = goal.value() as u8);
        let goals_left = task.goals().filter(|&goal| !self.held.holds(goal)).count() as u32;
        self.ready.clear();
        if goals_left > 0 {
            for number in 0..task.action_count() {
                if self.waiting.start(task, &self.held, number) {
                    self.ready.insert(task, &self.held, number);
                }
            }
        }
        Course { task, goals, goals_left }
    }

    #[inline(always)]
    fn take(&mut self, course: &mut Course, number: usize) {
        let mut reached = [Fact::default(); 16];
        let (mut count, mut first) = (0, 0);
        for (place, &fact) in course.task.effects(number).iter().enumerate() {
            let new = !self.held.holds(fact);
            self.held.add(fact);
            reached[count % 16] = fact;
            count += usize::from(new);
            first |= u16::from(new) << place;
        }
        if count == 0 {
            return;
        }
        self.actions.push(number as u16);
        self.first.push(first);
        self.reached += count as u32;
        let Course { task, goals, goals_left } = course;
        let Forward { waiting, ready, held, .. } = self;
        for &fact in &reached[..count] {
            *goals_left -= u32::from(goals[fact.variable()] as usize == fact.value());
            waiting.wake(task, held, fact, |number| ready.insert(task, held, number));
        }
    }

    /// Leaves the actions of the run that first reached a needed fact, in their order.
    pub fn keep_needed(&mut self, task: &Task) {
        let needed = &mut self.needed;
        needed.clear_all(task);
        task.goals().for_each(|goal| needed.add(goal));
        let mut free = self.actions.len();
        for at in (0..self.actions.len()).rev() {
            let action = task.action(self.actions[at] as usize);
            let first = self.first[at];
            if members(first.into()).any(|place| needed.holds(action.effects[place])) {
                action.preconditions.iter().for_each(|&fact| needed.add(fact));
                free -= 1;
                self.actions[free] = self.actions[at];
            }
        }
        self.actions.drain(..free);
    }
}
