//! Drawn stores: black movers on small value graphs, red boxes, and gates that moves set.

use crate::random::Random;
use crate::records::cost;
use reference::{entry, record, Fact, Task, Variable};

/// Upper bounds of a drawn store.
#[derive(Clone, Copy)]
pub struct Store {
    pub movers: usize,
    pub places: usize,
    pub gates: usize,
    pub boxes: usize,
}

pub const SMALL: Store = Store { movers: 3, places: 4, gates: 2, boxes: 3 };
pub const TINY: Store = Store { movers: 2, places: 3, gates: 1, boxes: 1 };
pub const LARGE: Store = Store { movers: 6, places: 8, gates: 4, boxes: 8 };
pub const FULL: Store = Store { movers: 4, places: 64, gates: 6, boxes: 6 };

const MAX_ACTIONS: usize = 1024;
pub(crate) const MAX_FACTS: usize = 15;

/// Effects and preconditions on one variable each, put together before the action is numbered.
pub(crate) type Draft = (Vec<Fact>, Vec<Fact>);

struct Drawing<'a> {
    random: &'a mut Random,
    variables: Vec<Variable>,
    movers: Vec<usize>,
    gates: Vec<usize>,
    boxes: Vec<usize>,
    drafts: Vec<Draft>,
}

/// A store whose painting passes in most cases.
pub fn store(random: &mut Random, bounds: Store) -> Task {
    let mut drawing = Drawing::new(random, bounds);
    for rank in 0..drawing.movers.len() {
        drawing.moves(rank);
    }
    for cargo in drawing.boxes.clone() {
        drawing.transport(cargo);
    }
    drawing.extras();
    drawing.finish()
}

impl<'a> Drawing<'a> {
    fn new(random: &'a mut Random, bounds: Store) -> Self {
        let kinds = kinds(random, bounds);
        let mut drawing = Drawing {
            random,
            variables: Vec::new(),
            movers: Vec::new(),
            gates: Vec::new(),
            boxes: Vec::new(),
            drafts: Vec::new(),
        };
        for kind in kinds {
            drawing.add(kind, bounds.places);
        }
        let Drawing { random, movers, .. } = &mut drawing;
        random.shuffle(movers);
        drawing
    }

    fn add(&mut self, kind: usize, places: usize) {
        let number = self.variables.len();
        let values =
            if kind == 1 { self.random.within(2, 3) } else { self.random.within(2, places) };
        let variable = self.variable(kind, values);
        self.variables.push(variable);
        [&mut self.movers, &mut self.gates, &mut self.boxes][kind].push(number);
    }

    fn variable(&mut self, kind: usize, values: usize) -> Variable {
        let goal = self.random.chance([1, 1, 9][kind], [3, 6, 10][kind]);
        let initial = self.random.below(values);
        let least = usize::from(!self.random.chance(1, 8));
        let apart = self.random.within(least, values - 1);
        Variable {
            values: values as u8,
            black: kind == 0,
            initial: initial as u8,
            goal: goal.then_some(((initial + apart) % values) as u8),
        }
    }

    fn fact(&mut self, variable: usize) -> Fact {
        Fact::new(variable, self.random.below(self.variables[variable].values as usize))
    }

    /// A connected value graph for a mover; its moves may need movers later in the order.
    fn moves(&mut self, rank: usize) {
        let mover = self.movers[rank];
        let values = self.variables[mover].values as usize;
        for e in 1..values {
            let d = self.random.below(e);
            self.two_way(rank, d, e);
        }
        for _ in 0..self.random.within(0, 2) {
            let d = self.random.below(values);
            let e = self.random.below(values);
            self.two_way(rank, d, e);
        }
        if self.random.chance(1, 10) {
            self.jumps(rank, values);
        }
    }

    /// Moves without a precondition on the mover: to every value, or now and then to one only.
    fn jumps(&mut self, rank: usize, values: usize) {
        let mover = self.movers[rank];
        let condition = self.condition(rank);
        let lone = self.random.chance(1, 4);
        for e in 0..if lone { 1 } else { values } {
            self.drafts.push((condition.clone(), vec![Fact::new(mover, e)]));
        }
    }

    /// A move and its return. What either needs lies in what the other needs or sets, but for a few.
    fn two_way(&mut self, rank: usize, d: usize, e: usize) {
        let mover = self.movers[rank];
        let mut forth = self.condition(rank);
        let mut side = self.side_effects();
        let (mut back, mut back_side) = self.returning(&forth, &side);
        if self.random.chance(1, 30) {
            back = self.condition(rank);
        }
        forth.push(Fact::new(mover, d));
        back.push(Fact::new(mover, e));
        side.push(Fact::new(mover, e));
        back_side.push(Fact::new(mover, d));
        self.drafts.push((forth, side));
        self.drafts.push((back, back_side));
    }

    fn side_effects(&mut self) -> Vec<Fact> {
        let mut side = Vec::new();
        for gate in self.gates.clone() {
            if self.random.chance(1, 4) {
                side.push(self.fact(gate));
            }
        }
        side
    }

    fn condition(&mut self, rank: usize) -> Vec<Fact> {
        let mut condition = Vec::new();
        for support in self.movers.clone().into_iter().skip(rank + 1) {
            if self.random.chance(1, 3) {
                condition.push(self.fact(support));
            }
        }
        for red in [&self.gates[..], &self.boxes[..]].concat() {
            if self.random.chance(1, 12) {
                condition.push(self.fact(red));
            }
        }
        condition
    }

    /// Condition and side effects of a return: red facts that the move needs are needed again or
    /// set again; facts that it sets may be needed.
    fn returning(&mut self, condition: &[Fact], side: &[Fact]) -> (Vec<Fact>, Vec<Fact>) {
        let (mut back, mut back_side) = (Vec::new(), Vec::new());
        for &fact in condition {
            let black = self.variables[fact.variable()].black;
            let again = if black || self.random.chance(2, 3) { &mut back } else { &mut back_side };
            again.push(fact);
        }
        for &fact in side {
            let free = |facts: &[Fact]| facts.iter().all(|f| f.variable() != fact.variable());
            if free(&back) && self.random.chance(1, 2) {
                back.push(fact);
            } else if free(&back_side) && self.random.chance(1, 3) {
                back_side.push(self.fact(fact.variable()));
            }
        }
        (back, back_side)
    }

    /// A way for a box from its place to its goal over other places, and some ways more.
    fn transport(&mut self, cargo: usize) {
        let Variable { values, initial, goal, .. } = self.variables[cargo];
        let mut places: Vec<usize> =
            (0..values as usize).filter(|&p| p != initial as usize).collect();
        self.random.shuffle(&mut places);
        let over = self.random.below(places.len());
        places.truncate(over);
        places.extend(goal.map(usize::from));
        let mut from = initial as usize;
        for to in places {
            self.way(cargo, from, to);
            from = to;
        }
        for _ in 0..self.random.within(0, 2) {
            let from = self.random.below(values as usize);
            let to = self.random.below(values as usize);
            self.way(cargo, from, to);
        }
    }

    fn way(&mut self, cargo: usize, from: usize, to: usize) {
        let mut needs = vec![Fact::new(cargo, from)];
        self.needs(&mut needs);
        self.drafts.push((needs, vec![Fact::new(cargo, to)]));
    }

    fn needs(&mut self, needs: &mut Vec<Fact>) {
        for mover in self.movers.clone() {
            if self.random.chance(1, 2) {
                needs.push(self.fact(mover));
            }
        }
        for gate in self.gates.clone() {
            if self.random.chance(1, 5) {
                needs.push(self.fact(gate));
            }
        }
    }

    /// Repeated actions, and actions on red variables only.
    fn extras(&mut self) {
        for _ in 0..self.random.within(0, 2) {
            if !self.drafts.is_empty() {
                self.drafts.push(self.random.pick(&self.drafts).clone());
            }
        }
        for gate in self.gates.clone() {
            if self.random.chance(1, 3) {
                let mut needs = Vec::new();
                self.needs(&mut needs);
                needs.retain(|fact| fact.variable() != gate);
                let effect = self.fact(gate);
                self.drafts.push((needs, vec![effect]));
            }
        }
    }

    fn finish(self) -> Task {
        number(self.random, self.variables, self.drafts)
    }
}

/// Numbers the drafts in random order, as many as a record holds.
pub(crate) fn number(random: &mut Random, variables: Vec<Variable>, drafts: Vec<Draft>) -> Task {
    number_with(random, variables, drafts, cost)
}

/// The same, with costs drawn by `cost`.
pub(crate) fn number_with(
    random: &mut Random,
    variables: Vec<Variable>,
    mut drafts: Vec<Draft>,
    cost: impl Fn(&mut Random) -> u16,
) -> Task {
    random.shuffle(&mut drafts);
    drafts.retain(|(preconditions, _)| preconditions.len() <= MAX_FACTS);
    drafts.truncate(MAX_ACTIONS);
    let mut task = Task::new(variables);
    for (mut preconditions, mut effects) in drafts {
        preconditions.sort();
        effects.sort();
        task.push(cost(random), &preconditions, &effects);
    }
    task
}

/// 0 mover, 1 gate, 2 box, in random order.
fn kinds(random: &mut Random, bounds: Store) -> Vec<usize> {
    let mut kinds = vec![0; random.within(1, bounds.movers)];
    kinds.extend(vec![1; random.within(0, bounds.gates)]);
    kinds.extend(vec![2; random.within(1, bounds.boxes)]);
    random.shuffle(&mut kinds);
    kinds
}

/// Stores as offices have them, each with a plan.
pub fn office_store(random: &mut Random) -> Task {
    let mut room = [0; 512];
    loop {
        let task = store(random, LARGE);
        let answer = entry::plan(&record::write(&task), &mut room, &mut [0; 512], &mut [0; 512]);
        if answer.is_ok_and(|result| result.steps > 0) {
            return task;
        }
    }
}

/// A store with one thing changed that may cost it its painting or its plan.
pub fn damaged_store(random: &mut Random, bounds: Store) -> Task {
    let mut task = store(random, bounds);
    for _ in 0..random.within(1, 2) {
        let v = random.below(task.variables.len());
        let values = task.variables[v].values as usize;
        match random.below(4) {
            0 => task.variables[v].black ^= true,
            1 => task.variables[v].initial = random.below(values) as u8,
            2 => task.variables[v].goal = Some(random.below(values) as u8),
            _ if task.action_count() > 0 => task = task.without(random.below(task.action_count())),
            _ => {}
        }
    }
    task
}

/// Movers on lines, each step of one needing the next at one end of its line and then at the other,
/// so that the plan grows with the product of the lines. Boxes are moved one after another, at the
/// ends of the first line in turn.
pub fn tower(random: &mut Random, movers: usize, places: usize, boxes: usize) -> Task {
    let mut numbers: Vec<usize> = (0..movers + boxes).collect();
    random.shuffle(&mut numbers);
    let (movers, boxes) = numbers.split_at(movers);
    let mut drafts = Vec::new();
    for (i, &mover) in movers.iter().enumerate() {
        line(&mut drafts, mover, movers.get(i + 1).copied(), places);
    }
    for (i, &cargo) in boxes.iter().enumerate() {
        let end = if i % 2 == 0 { places - 1 } else { 0 };
        let mut needs = vec![Fact::new(movers[0], end), Fact::new(cargo, 0)];
        needs.extend(i.checked_sub(1).map(|before| Fact::new(boxes[before], 1)));
        drafts.push((needs, vec![Fact::new(cargo, 1)]));
    }
    let mut variables = vec![cargo(); numbers.len()];
    movers.iter().for_each(|&mover| variables[mover] = line_mover(places));
    variables[movers[0]].goal = Some(places as u8 - 1);
    number(random, variables, drafts)
}

fn cargo() -> Variable {
    Variable { values: 2, black: false, initial: 0, goal: Some(1) }
}

fn line_mover(places: usize) -> Variable {
    Variable { values: places as u8, black: true, initial: 0, goal: None }
}

fn line(drafts: &mut Vec<Draft>, mover: usize, support: Option<usize>, places: usize) {
    for d in 1..places {
        let end = if d % 2 == 0 { 0 } else { places - 1 };
        let condition = support.map(|support| Fact::new(support, end));
        for (from, to) in [(d - 1, d), (d, d - 1)] {
            let needs = condition.into_iter().chain([Fact::new(mover, from)]).collect();
            drafts.push((needs, vec![Fact::new(mover, to)]));
        }
    }
}
