//! Stores with ways to choose from: carriages on rings with chords, few costs, and moves that stand
//! there more than once. Errands lead through many places, so that the ways become usable.

use crate::random::Random;
use crate::stores::{number_with, Draft};
use reference::{Fact, Task, Variable};

struct Drawing<'a> {
    random: &'a mut Random,
    variables: Vec<Variable>,
    drafts: Vec<Draft>,
}

/// One or two carriages, boxes, and a gate that an errand may open. Some moves of the first carriage
/// need the second one somewhere, and some of either need the gate open.
pub fn store(random: &mut Random) -> Task {
    let carriages = random.within(1, 2);
    let boxes = random.within(1, 3);
    let mut numbers: Vec<usize> = (0..=carriages + boxes).collect();
    random.shuffle(&mut numbers);
    let (gate, numbers) = numbers.split_first().unwrap();
    let (carriages, boxes) = numbers.split_at(carriages);
    let variables = vec![red(2, None); numbers.len() + 1];
    let mut drawing = Drawing { random, variables, drafts: Vec::new() };
    for (rank, &carriage) in carriages.iter().enumerate().rev() {
        drawing.carriage(carriage, carriages.get(rank + 1).copied(), *gate);
    }
    boxes.iter().for_each(|&cargo| drawing.errands(carriages, cargo, *gate));
    let Drawing { random, variables, drafts } = drawing;
    let dearest = if random.chance(1, 4) { 3 } else { 1 };
    number_with(random, variables, drafts, |random| random.within(0, dearest) as u16)
}

fn red(values: usize, goal: Option<usize>) -> Variable {
    let goal = goal.map(|value| value as u8);
    Variable { values: values as u8, black: false, initial: 0, goal }
}

impl Drawing<'_> {
    fn fact(&mut self, variable: usize) -> Fact {
        Fact::new(variable, self.random.below(self.variables[variable].values.into()))
    }

    /// A carriage that in most cases is to end where it starts, on a ring with chords.
    fn carriage(&mut self, carriage: usize, support: Option<usize>, gate: usize) {
        let places = self.random.within(3, 6);
        let initial = self.random.below(places);
        let end = if self.random.chance(2, 3) { initial } else { self.random.below(places) };
        let goal = self.random.chance(4, 5).then_some(end as u8);
        let (values, initial) = (places as u8, initial as u8);
        self.variables[carriage] = Variable { values, black: true, initial, goal };
        for e in 1..places {
            for d in 0..e {
                let ring = d + 1 == e || d + places == e + 1;
                if ring || self.random.chance(1, 3) {
                    let outside = self.outside(support, gate);
                    self.two_way(carriage, d, e, &outside);
                }
            }
        }
    }

    /// What a move and its return need besides, in most cases nothing.
    fn outside(&mut self, support: Option<usize>, gate: usize) -> Vec<Fact> {
        let mut outside = Vec::new();
        if let Some(support) = support.filter(|_| self.random.chance(1, 5)) {
            outside.push(self.fact(support));
        }
        outside.extend(self.random.chance(1, 10).then_some(Fact::new(gate, 1)));
        outside
    }

    /// A move and its return, each now and then twice.
    fn two_way(&mut self, carriage: usize, d: usize, e: usize, outside: &[Fact]) {
        for (from, to) in [(d, e), (e, d)] {
            let needs = [outside, &[Fact::new(carriage, from)]].concat();
            for _ in 0..if self.random.chance(1, 3) { 2 } else { 1 } {
                self.drafts.push((needs.clone(), vec![Fact::new(carriage, to)]));
            }
        }
    }

    /// Errands of a box one after another, each at drawn places of some carriages.
    fn errands(&mut self, carriages: &[usize], cargo: usize, gate: usize) {
        let errands = self.random.within(1, 4);
        self.variables[cargo] = red(errands + 1, Some(errands));
        for done in 0..errands {
            let mut needs = vec![Fact::new(cargo, done)];
            for (i, &carriage) in carriages.iter().enumerate() {
                if i == 0 || self.random.chance(1, 2) {
                    needs.push(self.fact(carriage));
                }
            }
            let mut sets = vec![Fact::new(cargo, done + 1)];
            sets.extend(self.random.chance(1, 3).then_some(Fact::new(gate, 1)));
            self.drafts.push((needs, sets));
        }
    }
}

const SIDE: usize = 8;

/// A carriage on 8 × 8 rooms, between neighbours at a cost of 0 to 3 each way, and boxes with errands
/// in drawn rooms one after another.
pub fn grid(random: &mut Random, boxes: usize, errands: usize) -> Task {
    let rooms = SIDE * SIDE;
    let carriage = Variable { values: rooms as u8, black: true, initial: 0, goal: Some(0) };
    let mut variables = vec![carriage];
    variables.extend(vec![red(errands + 1, Some(errands)); boxes]);
    let mut drafts: Vec<Draft> = Vec::new();
    for room in 0..rooms {
        let right = (room % SIDE + 1 < SIDE).then_some(room + 1);
        let below = (room + SIDE < rooms).then_some(room + SIDE);
        for other in right.into_iter().chain(below) {
            for (from, to) in [(room, other), (other, room)] {
                drafts.push((vec![Fact::new(0, from)], vec![Fact::new(0, to)]));
            }
        }
    }
    for cargo in 1..=boxes {
        for done in 0..errands {
            let needs = vec![Fact::new(0, random.below(rooms)), Fact::new(cargo, done)];
            drafts.push((needs, vec![Fact::new(cargo, done + 1)]));
        }
    }
    number_with(random, variables, drafts, |random| random.within(0, 3) as u16)
}
