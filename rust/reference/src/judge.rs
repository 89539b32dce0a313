//! A list of actions judged under the three semantics in one pass (SPECIFICATION, Space and verdict).
//!
//! What applies for real applies red-black, and what applies red-black applies relaxed. So the list
//! is run for real until that stops, from there red-black, and from there relaxed. One state serves
//! all three: the newest value of each variable, and every value that it had.

use crate::image::{Image, Values};
use crate::index::{Numbers, ACTIONS};
use crate::room::{table, Table};
use crate::set::contains;
use crate::state::{Run, State};
use crate::task::{variables_of, Fact, Task};

#[derive(Clone, Copy, Debug, Default, PartialEq, Eq)]
pub struct Judgement {
    pub relaxed: Run,
    pub red_black: Run,
    pub real: Run,
}

/// Facts in an action from which on it is taken as an image when it comes again.
const MANY_FACTS: usize = 10;

pub struct Judge {
    images: Table<Image, ACTIONS>,
}

impl Judge {
    pub fn new() -> Self {
        Judge { images: table(Image::EMPTY) }
    }

    /// How many steps run for real and red-black. Every entry of the list is below A.
    pub fn steps(&mut self, task: &Task, list: &[u16]) -> (usize, usize) {
        let mut course = Course::new(task, &mut self.images);
        let real = course.run(list, 0, !0);
        (real, course.run(list, real, task.black()))
    }

    /// Every entry of the list is below A.
    pub fn run(&mut self, task: &Task, list: &[u16]) -> Judgement {
        let mut course = Course::new(task, &mut self.images);
        let black = task.black();
        let real = course.run(list, 0, !0);
        let red_black = course.run(list, real, black);
        let relaxed = course.run(list, red_black, 0);
        let verdict = |steps: usize, single: u64| Run {
            steps: steps as u32,
            plan: steps == list.len() && course.meets_goals(single),
        };
        Judgement {
            relaxed: verdict(relaxed, 0),
            red_black: verdict(red_black, black),
            real: verdict(real, !0),
        }
    }
}

/// How an action is taken when it comes again.
const FIRST: u8 = 0;
const AGAIN: u8 = 1;
const IMAGED: u8 = 2;

struct Course<'a> {
    task: &'a Task,
    /// The newest value of each variable.
    now: Values,
    /// Every value that a variable had.
    held: State,
    /// Actions applied before: what they need and set was held, and what was held stays.
    kind: [u8; ACTIONS],
    images: &'a mut [Image; ACTIONS],
}

impl<'a> Course<'a> {
    fn new(task: &'a Task, images: &'a mut [Image; ACTIONS]) -> Self {
        let held = State::initial(task);
        Course { task, now: Values::initial(task), held, kind: [FIRST; ACTIONS], images }
    }

    /// Runs from a step on, the variables in `single` holding their newest value only; answers the
    /// first step that does not apply.
    fn run(&mut self, list: &[u16], from: usize, single: u64) -> usize {
        self.kind.iter_mut().for_each(|kind| *kind = (*kind).min(AGAIN));
        for (step, &number) in list[from..].iter().enumerate() {
            let number = number as usize;
            let applies = match self.kind[number % ACTIONS] {
                IMAGED => self.images[number % ACTIONS].apply(&mut self.now),
                AGAIN => single == 0 || self.again(number, single),
                _ => self.first(number, single),
            };
            if !applies {
                return from + step;
            }
        }
        list.len()
    }

    #[inline(always)]
    fn meets(&self, single: u64, facts: &[Fact]) -> bool {
        let other = |fact: &Fact| self.now.of(fact.variable()) != fact.value();
        !facts.iter().any(|fact| other(fact) && contains(single, fact.variable()))
    }

    #[inline(always)]
    fn again(&mut self, number: usize, single: u64) -> bool {
        let action = self.task.action(number);
        if !self.meets(single, action.preconditions) {
            return false;
        }
        action.effects.iter().for_each(|&fact| self.now.set(fact));
        if action.preconditions.len() + action.effects.len() >= MANY_FACTS {
            self.kind[number % ACTIONS] = IMAGED;
            self.images[number % ACTIONS] = Image::of(action, single);
        }
        true
    }

    fn first(&mut self, number: usize, single: u64) -> bool {
        let action = self.task.action(number);
        if !self.held.holds_all(action.preconditions) || !self.meets(single, action.preconditions) {
            return false;
        }
        for &fact in action.effects {
            self.now.set(fact);
            self.held.add(fact);
        }
        self.kind[number % ACTIONS] = AGAIN;
        true
    }

    fn meets_goals(&self, single: u64) -> bool {
        self.task.goals().all(|goal| {
            let v = goal.variable();
            self.now.of(v) == goal.value() || !contains(single, v) && self.held.holds(goal)
        })
    }
}

/// The real run of a red-black plan, and its cost. Black variables hold one value in either, so that
/// their part of it is known: red facts alone are looked at.
pub fn real_run(task: &Task, plan: &[u16], black: u64) -> (Run, u32) {
    let mut now = Values::initial(task);
    let (mut met, mut plain) = (Numbers::default(), Numbers::default());
    let (mut cost, mut stop) = (0, None);
    for (step, &number) in plan.iter().enumerate() {
        let number = number as usize;
        cost += task.cost(number);
        if stop.is_some() || plain.contains(number) {
            continue;
        }
        if met.insert(number) && names_only(task, number, black) {
            plain.insert(number);
            continue;
        }
        let action = task.action(number);
        let unmet = |fact: &Fact| now.of(fact.variable()) != fact.value();
        if action.preconditions.iter().any(|f| unmet(f) && !contains(black, f.variable())) {
            stop = Some(step as u32);
        }
        action.effects.iter().for_each(|&fact| now.set(fact));
    }
    let met = |v: usize, value: usize| contains(black, v) || now.of(v) == value;
    let goals = || task.goals().all(|goal| met(goal.variable(), goal.value()));
    let steps = stop.unwrap_or(plan.len() as u32);
    (Run { steps, plan: stop.is_none() && goals() }, cost)
}

fn names_only(task: &Task, number: usize, black: u64) -> bool {
    let action = task.action(number);
    (variables_of(action.preconditions) | variables_of(action.effects)) & !black == 0
}
