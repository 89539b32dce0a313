//! Paintings that are accepted: an acyclic black causal graph, and a return for every arc
//! (SPECIFICATION, Paintings that are accepted).

use crate::index::ACTIONS;
use crate::refusal::Refusal;
use crate::returns::Returns;
use crate::room::{table, Table};
use crate::set::{contains, members};
use crate::task::{variables_of, Action, Fact, Task};

/// What an accepted painting gives to the repair, and room for the next one.
pub struct Painting {
    /// The black variables as a set.
    pub black: u64,
    /// The black variables in the order of the repair, clients first.
    pub order: Vec<usize>,
    /// The move of each action that changes a black variable, where something is black.
    pub moves: Table<Option<Move>, ACTIONS>,
    returns: Returns,
}

/// Checks 7 and 8.
pub fn painting(task: &Task) -> Result<Painting, Refusal> {
    let mut painting = Painting::new();
    painting.check(task)?;
    Ok(painting)
}

impl Painting {
    pub fn new() -> Self {
        Painting { black: 0, order: Vec::new(), moves: table(None), returns: Returns::new() }
    }

    /// Checks 7 and 8.
    pub fn check(&mut self, task: &Task) -> Result<(), Refusal> {
        self.black = task.black();
        self.order.clear();
        if self.black == 0 {
            return Ok(());
        }
        let arcs = self.find_moves(task);
        self.find_order(&arcs)?;
        self.returns.check(task, self.black, &self.moves)
    }

    /// The moves; answers for each black variable the black ones to which it has an arc. A single
    /// black variable that is set again is left out by its move, which is none.
    fn find_moves(&mut self, task: &Task) -> [u64; 64] {
        let mut arcs = Arcs { from: [0; 64], to: [0; 64] };
        for (number, action) in task.actions().enumerate() {
            let affected = variables_of(action.effects) & self.black;
            let several = affected & affected.wrapping_sub(1) != 0;
            let changed = if several { affected & !set_again(action) } else { affected };
            let moved = Move::of(action, changed);
            self.moves[number % ACTIONS] = moved;
            if moved.is_some() {
                let needed = variables_of(action.preconditions) & self.black;
                members(changed).for_each(|v| arcs.add(needed | changed, v));
            }
        }
        arcs.from
    }

    /// Clients first: of those untaken, the lowest with no arc to another untaken one; 7 if there
    /// is none.
    fn find_order(&mut self, arcs: &[u64; 64]) -> Result<(), Refusal> {
        let mut untaken = self.black;
        while untaken != 0 {
            let Some(v) = members(untaken).find(|&v| arcs[v] & untaken == 0) else {
                return Err(Refusal::new(7, lowest_on_cycle(self.black, arcs)));
            };
            untaken &= !(1 << v);
            self.order.push(v);
        }
        Ok(())
    }
}

/// For each variable those to which it has an arc, and those that have one to it.
struct Arcs {
    from: [u64; 64],
    to: [u64; 64],
}

impl Arcs {
    /// Arcs from others to a variable.
    #[inline(always)]
    fn add(&mut self, others: u64, v: usize) {
        let new = others & !(1 << v) & !self.to[v];
        self.to[v] |= new;
        members(new).for_each(|u| self.from[u] |= 1 << v);
    }
}

fn lowest_on_cycle(black: u64, arcs: &[u64; 64]) -> usize {
    let mut reach = *arcs;
    for k in members(black) {
        for v in members(black) {
            if contains(reach[v], k) {
                reach[v] |= reach[k];
            }
        }
    }
    members(black).find(|&v| contains(reach[v], v)).unwrap()
}

/// The variables of which an action sets the value that it needs.
#[inline(always)]
fn set_again(action: Action) -> u64 {
    let mut needs = [ANYWHERE; 64];
    action.preconditions.iter().for_each(|fact| needs[fact.variable()] = fact.value() as u8);
    action.effects.iter().fold(0, |set, fact| {
        let again = needs[fact.variable()] == fact.value() as u8;
        set | u64::from(again) << fact.variable()
    })
}

/// How an action changes its black variable.
#[derive(Clone, Copy, Debug)]
pub struct Move {
    pub variable: u8,
    /// The value left, or `ANYWHERE`; never the one set.
    pub from: u8,
    pub to: u8,
}

/// Stands for no precondition on the moved variable.
pub const ANYWHERE: u8 = 64;

impl Move {
    /// The move of the lowest of some variables, unless the action sets what it needs of it.
    #[inline(always)]
    fn of(action: Action, variables: u64) -> Option<Move> {
        if variables == 0 {
            return None;
        }
        let variable = variables.trailing_zeros() as usize;
        let value = |facts: &[Fact]| {
            let own = facts.iter().find(|fact| fact.variable() == variable);
            own.map_or(ANYWHERE, |fact| fact.value() as u8)
        };
        let (from, to) = (value(action.preconditions), value(action.effects));
        (from != to).then_some(Move { variable: variable as u8, from, to })
    }

    /// The fact that it sets.
    #[inline(always)]
    pub fn target(self) -> Fact {
        Fact::new(self.variable as usize, self.to as usize)
    }

    /// The fact that it needs of its variable.
    #[inline(always)]
    pub fn source(self) -> Option<Fact> {
        (self.from != ANYWHERE).then(|| Fact::new(self.variable as usize, self.from as usize))
    }

    #[inline(always)]
    pub fn leaves(self, value: u8) -> bool {
        self.from == value || self.from == ANYWHERE
    }

    /// The values it leaves for another one, of so many, as a set.
    #[inline(always)]
    pub fn sources(self, values: u8) -> u64 {
        let all = if self.from == ANYWHERE { !0 >> (64 - values) } else { 1 << self.from };
        all & !(1 << self.to)
    }
}

#[cfg(test)]
mod tests {
    use super::*;
    use crate::task::Variable;

    fn task(black: &[bool]) -> Task {
        let variable = |&black| Variable { values: 3, black, initial: 0, goal: None };
        Task::new(black.iter().map(variable).collect())
    }

    fn refused(task: &Task) -> Option<(u8, u32)> {
        painting(task).err().map(|refusal| (refusal.number, refusal.place))
    }

    fn two_way(task: &mut Task, v: usize, d: usize, e: usize, outside: &[Fact]) {
        for (from, to) in [(d, e), (e, d)] {
            let mut needs = [outside, &[Fact::new(v, from)]].concat();
            needs.sort();
            task.push(1, &needs, &[Fact::new(v, to)]);
        }
    }

    #[test]
    fn lowest_on_a_cycle_not_merely_before_one() {
        let mut task = task(&[true; 4]);
        two_way(&mut task, 1, 0, 1, &[Fact::new(0, 0)]);
        two_way(&mut task, 2, 0, 1, &[Fact::new(3, 0)]);
        assert_eq!(refused(&task), None);
        two_way(&mut task, 3, 0, 1, &[Fact::new(2, 0)]);
        assert_eq!(refused(&task), Some((7, 2)));
    }

    #[test]
    fn cycles_through_red_variables_do_not_count() {
        let mut task = task(&[true, false, true]);
        two_way(&mut task, 0, 0, 1, &[Fact::new(1, 0)]);
        task.push(1, &[Fact::new(0, 0)], &[Fact::new(1, 1)]);
        assert_eq!(refused(&task), None);
    }

    #[test]
    fn clients_come_first_and_the_lowest_of_those() {
        let mut task = task(&[true; 4]);
        two_way(&mut task, 2, 0, 1, &[Fact::new(0, 0)]);
        assert_eq!(painting(&task).ok().unwrap().order, [1, 2, 0, 3]);
    }

    #[test]
    fn no_precondition_stands_for_every_other_value() {
        let mut task = task(&[true]);
        two_way(&mut task, 0, 0, 1, &[]);
        task.push(1, &[], &[Fact::new(0, 1)]);
        assert_eq!(refused(&task), Some((8, 2)));
        task.push(1, &[Fact::new(0, 1)], &[Fact::new(0, 2)]);
        assert_eq!(refused(&task), None);
    }

    #[test]
    fn a_value_needed_and_set_makes_no_arc() {
        let mut task = task(&[true, true, true]);
        task.push(1, &[Fact::new(0, 1)], &[Fact::new(0, 1)]);
        task.push(1, &[Fact::new(0, 1), Fact::new(1, 2)], &[Fact::new(0, 1), Fact::new(1, 2)]);
        for (from, to) in [(0, 1), (1, 0)] {
            let needs = [Fact::new(0, 1), Fact::new(1, from), Fact::new(2, 0)];
            task.push(1, &needs, &[Fact::new(0, 1), Fact::new(1, to), Fact::new(2, 0)]);
        }
        let painting = painting(&task).ok().unwrap();
        assert_eq!(painting.order, [1, 0, 2]);
        assert!(painting.moves[..2].iter().all(|moved| moved.is_none()));
    }

    #[test]
    fn a_gate_set_again_is_still_needed() {
        let mut task = task(&[true, true]);
        two_way(&mut task, 1, 0, 1, &[Fact::new(0, 1)]);
        task.push(1, &[Fact::new(0, 1), Fact::new(1, 1)], &[Fact::new(0, 2), Fact::new(1, 1)]);
        assert_eq!(refused(&task), Some((7, 0)));
    }

    #[test]
    fn other_effects_on_a_needed_variable_make_arcs() {
        let with_gate = |needs: &[Fact], gate: usize| {
            let mut task = task(&[true, true]);
            let sets = [Fact::new(0, gate), Fact::new(1, 1)];
            task.push(1, &[needs, &[Fact::new(1, 0)]].concat(), &sets);
            task.push(1, &[needs, &[Fact::new(1, 1)]].concat(), &[Fact::new(1, 0)]);
            refused(&task)
        };
        assert_eq!(with_gate(&[Fact::new(0, 1)], 1), None);
        assert_eq!(with_gate(&[Fact::new(0, 1)], 2), Some((7, 0)));
        assert_eq!(with_gate(&[], 0), Some((7, 0)));
    }

    #[test]
    fn returns_may_need_what_the_move_needed_or_set() {
        let gate = |value| Fact::new(1, value);
        let with_return = |needs: Fact| {
            let mut task = task(&[true, false]);
            task.push(1, &[Fact::new(0, 0), gate(0)], &[Fact::new(0, 1), gate(1)]);
            task.push(1, &[Fact::new(0, 1), needs], &[Fact::new(0, 0), gate(0)]);
            refused(&task)
        };
        assert_eq!(with_return(gate(0)), None);
        assert_eq!(with_return(gate(1)), None);
        assert_eq!(with_return(gate(2)), Some((8, 0)));
    }
}
