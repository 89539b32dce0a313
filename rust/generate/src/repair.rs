//! The repair as the specification words it: variable by variable through the list built so far, with each
//! path searched anew, by the rule of 6.7 or by one that comes close to it.

use crate::searches::{Asked, Place, Stop};
use reference::painting::painting;
use reference::{Fact, Task};
use std::cmp::Ordering;

/// Which of the paths from one value to another is taken.
#[derive(Clone, Copy, Debug)]
pub enum Rule {
    /// 6.7: by cost, by moves, by actions first to last.
    Cheapest,
    /// By moves, by actions first to last: the rule up to version 0.4.0.
    FewestMoves,
    /// By cost, by actions first to last.
    MovesForgotten,
    /// By cost, by moves, by actions last to first.
    FromTheEnd,
}

/// Rules that are not that of 6.7.
pub const OTHERS: [Rule; 3] = [Rule::FewestMoves, Rule::MovesForgotten, Rule::FromTheEnd];

/// A path that repeats no value.
#[derive(Clone, Copy)]
struct Path {
    cost: u32,
    moves: usize,
    actions: [u16; 64],
    /// The values on it.
    seen: u64,
}

impl Path {
    fn empty(at: usize) -> Self {
        Path { cost: 0, moves: 0, actions: [0; 64], seen: 1 << at }
    }

    /// One action longer, unless that repeats a value.
    fn and(&self, task: &Task, number: u16, to: usize) -> Option<Path> {
        let mut path = *self;
        path.cost += task.cost(number.into());
        path.actions[path.moves] = number;
        path.moves += 1;
        path.seen |= 1 << to;
        (path.seen != self.seen).then_some(path)
    }

    fn actions(&self) -> &[u16] {
        &self.actions[..self.moves]
    }

    fn compare(&self, other: &Path, rule: Rule) -> Ordering {
        let cost = self.cost.cmp(&other.cost);
        let moves = self.moves.cmp(&other.moves);
        let actions = || self.actions().cmp(other.actions());
        let backwards = || self.actions().iter().rev().cmp(other.actions().iter().rev());
        match rule {
            Rule::Cheapest => cost.then(moves).then_with(actions),
            Rule::FewestMoves => moves.then_with(actions),
            Rule::MovesForgotten => cost.then_with(actions),
            Rule::FromTheEnd => cost.then(moves).then_with(backwards),
        }
    }
}

fn value(facts: &[Fact], v: usize) -> Option<usize> {
    facts.iter().find(|fact| fact.variable() == v).map(|fact| fact.value())
}

/// The repair of a relaxed plan, if the painting is accepted.
pub fn repaired(task: &Task, relaxed: &[u16], rule: Rule) -> Option<Vec<u16>> {
    Some(repair(task, relaxed, rule)?.plan)
}

/// A repair by the rule of 6.7.
pub struct Worded {
    pub plan: Vec<u16>,
    /// The mark of each step (6.10).
    pub marks: Vec<u8>,
    /// Where it asks for paths.
    pub asked: Asked,
}

/// The same with all that is to be known of it.
pub fn worded(task: &Task, relaxed: &[u16]) -> Option<Worded> {
    let Repair { plan, marks, asked, .. } = repair(task, relaxed, Rule::Cheapest)?;
    Some(Worded { plan, marks, asked })
}

/// Where the repair of a relaxed plan asks for paths, if the painting is accepted.
pub fn asked(task: &Task, relaxed: &[u16]) -> Option<Asked> {
    Some(worded(task, relaxed)?.asked)
}

fn repair<'a>(task: &'a Task, relaxed: &[u16], rule: Rule) -> Option<Repair<'a>> {
    let mut repair = Repair::new(task, painting(task).ok()?.order, rule);
    for &number in relaxed {
        repair.restore(task.preconditions(number.into()));
        repair.apply(number, 0);
    }
    repair.restore(&task.goals().collect::<Vec<_>>());
    Some(repair)
}

struct Repair<'a> {
    task: &'a Task,
    rule: Rule,
    /// The black variables, clients first.
    order: Vec<usize>,
    current: Vec<usize>,
    /// Red facts held, and black facts held at any time.
    held: Vec<u64>,
    plan: Vec<u16>,
    marks: Vec<u8>,
    asked: Asked,
}

impl<'a> Repair<'a> {
    fn new(task: &'a Task, order: Vec<usize>, rule: Rule) -> Self {
        let current: Vec<usize> = task.variables.iter().map(|v| v.initial.into()).collect();
        let held = current.iter().map(|&value| 1 << value).collect();
        let asked = Asked::new(order.len());
        let (plan, marks) = Default::default();
        Repair { task, rule, order, current, held, plan, marks, asked }
    }

    fn apply(&mut self, number: u16, mark: u8) {
        for fact in self.task.effects(number.into()) {
            self.current[fact.variable()] = fact.value();
            self.held[fact.variable()] |= 1 << fact.value();
        }
        self.plan.push(number);
        self.marks.push(mark);
    }

    fn restore(&mut self, wanted: &[Fact]) {
        let black = |fact: &Fact| self.task.variables[fact.variable()].black;
        let unmet = |fact: &Fact| black(fact) && self.current[fact.variable()] != fact.value();
        let unmet = wanted.iter().any(unmet);
        let (moves, places) = self.moves(wanted);
        self.asked.stops.push(Stop { unmet, places });
        moves.into_iter().for_each(|number| self.apply(number, 1));
    }

    /// The moves to what is wanted, none if nothing is unmet, and the places where a path is asked for.
    fn moves(&self, wanted: &[Fact]) -> (Vec<u16>, Vec<Place>) {
        let (mut list, mut places): (Vec<u16>, Vec<Place>) = Default::default();
        for &v in &self.order {
            let mut at = self.current[v];
            let mut next = Vec::new();
            for &entry in &list {
                if let Some(needed) = value(self.task.preconditions(entry.into()), v) {
                    places.push(Place { from: at, to: Fact::new(v, needed) });
                    next.extend_from_slice(self.path(v, at, needed).actions());
                    at = needed;
                }
                next.push(entry);
            }
            if let Some(needed) = value(wanted, v) {
                places.push(Place { from: at, to: Fact::new(v, needed) });
                next.extend_from_slice(self.path(v, at, needed).actions());
            }
            list = next;
        }
        (list, places)
    }

    fn usable(&self, number: usize) -> bool {
        let held = |fact: &Fact| self.held[fact.variable()] >> fact.value() & 1 == 1;
        self.task.preconditions(number).iter().all(held)
    }

    /// Paths to all values grow until none is bettered.
    fn path(&self, v: usize, from: usize, to: usize) -> Path {
        if from == to {
            return Path::empty(from);
        }
        let arcs = self.arcs(v);
        let mut best = vec![None; self.task.variables[v].values.into()];
        best[from] = Some(Path::empty(from));
        let mut bettered = true;
        while std::mem::take(&mut bettered) {
            for at in 0..best.len() {
                let Some(path): Option<Path> = best[at] else { continue };
                let leaving = arcs.iter().filter(|(_, needed, _)| needed.is_none_or(|d| d == at));
                for &(number, _, target) in leaving {
                    let Some(path) = path.and(self.task, number, target) else { continue };
                    let better = |old: Path| path.compare(&old, self.rule).is_lt();
                    if best[target].is_none_or(better) {
                        best[target] = Some(path);
                        bettered = true;
                    }
                }
            }
        }
        best[to].expect("a path")
    }

    /// Usable actions that set a variable: the action, the value needed of it, the value set.
    fn arcs(&self, v: usize) -> Vec<(u16, Option<usize>, usize)> {
        let numbers = 0..self.task.action_count();
        let usable = numbers.filter(|&number| self.usable(number));
        let arc = |number: usize| {
            let action = self.task.action(number);
            Some((number as u16, value(action.preconditions, v), value(action.effects, v)?))
        };
        usable.filter_map(arc).collect()
    }
}
