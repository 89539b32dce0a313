//! Relaxed plan repair (SPECIFICATION, Repair).

use crate::index::{Numbers, Waiting, ACTIONS};
use crate::painting::{Move, Painting};
use crate::paths::Paths;
use crate::refusal::Refusal;
use crate::room::{table, Table};
use crate::set::contains;
use crate::state::State;
use crate::task::{Fact, Task};
use std::ops::Range;

/// Room for repairs.
pub struct Repair {
    waiting: Waiting,
    paths: Paths,
    supports: Supports,
    /// 6.3: R and B.
    held: State,
    /// Actions of the plan applied for the first time, whose effects are not held yet.
    fresh: Vec<u16>,
}

/// What a repair made.
#[derive(Default)]
pub struct Repaired {
    pub steps: usize,
    /// The path searches (6.9).
    pub searches: usize,
}

impl Repair {
    pub fn new() -> Self {
        Repair {
            waiting: Waiting::new(),
            paths: Paths::new(),
            supports: Supports::new(),
            held: State::empty(),
            fresh: Vec::new(),
        }
    }

    /// Repairs a relaxed plan into the list, whose length is the capacity; answers 11 as soon as the
    /// steps do not fit: they are only added, never taken away. The marks have the same length and
    /// are 0 at first; those of inserted moves are set.
    pub fn run(
        &mut self,
        task: &Task,
        painting: &Painting,
        relaxed: &[u16],
        plan: &mut [u16],
        marks: &mut [u8],
    ) -> Result<Repaired, Refusal> {
        let capacity = plan.len();
        let full = |_: Full| Refusal::new(11, capacity);
        if painting.black == 0 {
            return copy(relaxed, plan).map_err(full);
        }
        let mut course = Course::start(self, task, painting, plan, marks);
        relaxed.iter().try_for_each(|&number| course.take(number)).map_err(full)?;
        course.finish().map_err(full)?;
        Ok(course.done)
    }
}

fn copy(relaxed: &[u16], plan: &mut [u16]) -> Result<Repaired, Full> {
    plan.get_mut(..relaxed.len()).ok_or(Full)?.copy_from_slice(relaxed);
    Ok(Repaired { steps: relaxed.len(), searches: 0 })
}

/// For each action its black preconditions on other variables than the moved one, in the order of
/// the repair.
struct Supports {
    first: Table<u16, { ACTIONS + 1 }>,
    facts: Vec<Fact>,
}

impl Supports {
    fn new() -> Self {
        Supports { first: table(0), facts: Vec::new() }
    }

    fn fill(&mut self, task: &Task, painting: &Painting) {
        let mut rank = [0u8; 64];
        painting.order.iter().enumerate().for_each(|(i, &v)| rank[v] = i as u8);
        self.facts.clear();
        for (number, action) in task.actions().enumerate() {
            let start = self.facts.len();
            let own = painting.moves[number % ACTIONS].map_or(64, |moved| moved.variable as usize);
            let black = painting.black & !(1u64.checked_shl(own as u32).unwrap_or(0));
            let supports = action.preconditions.iter().filter(|f| contains(black, f.variable()));
            self.facts.extend(supports);
            let added = &mut self.facts[start..];
            if added.len() > 1 {
                added.sort_unstable_by_key(|fact| rank[fact.variable()]);
            }
            self.first[number + 1] = self.facts.len() as u16;
        }
    }

    #[inline(always)]
    fn places(&self, number: u16) -> Range<usize> {
        let number = number as usize % ACTIONS;
        self.first[number] as usize..self.first[number + 1] as usize
    }
}

/// A repair while it goes on.
struct Course<'a> {
    task: &'a Task,
    painting: &'a Painting,
    room: &'a mut Repair,
    plan: &'a mut [u16],
    marks: &'a mut [u8],
    done: Repaired,
    /// The value of each black variable.
    current: [u8; 64],
    /// Actions of the plan so far. One that was applied before adds nothing to what is held.
    applied: Numbers,
    /// Whether something was inserted, so that usable moves are known.
    prepared: bool,
}

/// There is no room for a step.
struct Full;

impl<'a> Course<'a> {
    fn start(
        room: &'a mut Repair,
        task: &'a Task,
        painting: &'a Painting,
        plan: &'a mut [u16],
        marks: &'a mut [u8],
    ) -> Self {
        room.fresh.clear();
        room.held.start(task);
        room.supports.fill(task, painting);
        let mut current = [0; 64];
        task.variables.iter().zip(&mut current).for_each(|(v, now)| *now = v.initial);
        let applied = Numbers::default();
        let done = Repaired::default();
        Course { task, painting, room, plan, marks, done, current, applied, prepared: false }
    }

    #[cold]
    fn prepare(&mut self) {
        let (task, painting) = (self.task, self.painting);
        self.prepared = true;
        let Repair { waiting, paths, held, .. } = &mut *self.room;
        waiting.clear(task);
        paths.clear(task, painting.black);
        for (number, moved) in painting.moves[..task.action_count()].iter().enumerate() {
            if let Some(moved) = *moved {
                if waiting.start(task, held, number) {
                    paths.add(moved, task.cost(number), number);
                }
            }
        }
    }

    #[inline(always)]
    fn is_at(&self, fact: Fact) -> bool {
        self.current[fact.variable()] as usize == fact.value()
    }

    /// Inserts the moves before an action of the relaxed plan, and applies both.
    #[inline(always)]
    fn take(&mut self, number: u16) -> Result<(), Full> {
        let moved = self.painting.moves[number as usize % ACTIONS];
        let source = moved.and_then(Move::source);
        let supports = &self.room.supports.facts[self.room.supports.places(number)];
        let unmet = |fact: Fact| !self.is_at(fact);
        if source.is_some_and(unmet) || supports.iter().copied().any(unmet) {
            self.insert(source, number)?;
        }
        self.push(number)?;
        if let Some(moved) = moved {
            self.current[moved.variable as usize % 64] = moved.to;
        }
        while let Some(number) = self.room.fresh.pop() {
            self.hold_effects(number as usize);
        }
        Ok(())
    }

    /// Moves to all that an action wants.
    #[inline(never)]
    fn insert(&mut self, source: Option<Fact>, number: u16) -> Result<(), Full> {
        let places = self.room.supports.places(number);
        self.done.searches += places.len() + usize::from(source.is_some());
        if let Some(source) = source.filter(|&source| !self.is_at(source)) {
            self.reach(source)?;
        }
        self.support(places)
    }

    /// Moves to the black goals.
    fn finish(&mut self) -> Result<(), Full> {
        let (before, mut goals) = (self.done.steps, 0);
        for &v in &self.painting.order {
            let Some(goal) = self.task.variables[v].goal else { continue };
            let goal = Fact::new(v, goal as usize);
            goals += 1;
            if !self.is_at(goal) {
                self.reach(goal)?;
            }
        }
        if self.done.steps > before {
            self.done.searches += goals;
        }
        Ok(())
    }

    /// Appends the path of a black variable to a value, before each move the paths of what it needs.
    /// Variables come clients first and no path needs what a client moves, so the list is the one
    /// that going through it variable by variable gives. That way each move is met once for each
    /// black variable that it needs beside its own, and these are the searches counted here; to them come
    /// those for what the insertion wants.
    fn reach(&mut self, to: Fact) -> Result<(), Full> {
        if !self.prepared {
            self.prepare();
        }
        let v = to.variable();
        let row = self.room.paths.row(self.current[v] as usize, to);
        while !self.is_at(to) {
            let (number, value) = self.room.paths.next(row, self.current[v] as usize);
            let places = self.room.supports.places(number);
            self.done.searches += places.len();
            self.support(places)?;
            self.push(number)?;
            self.marks[self.done.steps - 1] = 1;
            self.current[v] = value as u8;
        }
        Ok(())
    }

    #[inline(always)]
    fn support(&mut self, places: Range<usize>) -> Result<(), Full> {
        for place in places {
            let fact = self.room.supports.facts[place];
            if !self.is_at(fact) {
                self.reach(fact)?;
            }
        }
        Ok(())
    }

    #[inline(always)]
    fn push(&mut self, number: u16) -> Result<(), Full> {
        *self.plan.get_mut(self.done.steps).ok_or(Full)? = number;
        self.done.steps += 1;
        if self.applied.insert(number as usize) {
            self.room.fresh.push(number);
        }
        Ok(())
    }

    fn hold_effects(&mut self, number: usize) {
        let (task, moves) = (self.task, &self.painting.moves);
        let Repair { waiting, paths, held, .. } = &mut *self.room;
        for &fact in task.effects(number) {
            let new = !held.holds(fact);
            held.add(fact);
            if new && self.prepared {
                waiting.wake(task, held, fact, |number| {
                    let moved = moves[number % ACTIONS];
                    let cost = task.cost(number);
                    moved.into_iter().for_each(|moved| paths.add(moved, cost, number));
                });
            }
        }
    }
}
