//! Full-size tasks that give an entry point as much to do as a record can.

use crate::random::Random;
use crate::records::cost;
use crate::stores;
use reference::{Fact, Task, Variable};

const VARIABLES: usize = 64;
const VALUES: usize = 64;
const FACTS: usize = 15;
const MOVERS: usize = 16;

fn variable(black: bool, goal: Option<usize>) -> Variable {
    Variable { values: VALUES as u8, black, initial: 0, goal: goal.map(|value| value as u8) }
}

/// `count` facts on variables below `limit`, rising; the values by `value`.
fn facts_below(
    random: &mut Random,
    limit: usize,
    count: usize,
    mut value: impl FnMut(&mut Random, usize) -> usize,
) -> Vec<Fact> {
    let mut facts = Vec::with_capacity(count + 1);
    for v in 0..limit {
        if random.chance(count - facts.len(), limit - v) {
            facts.push(Fact::new(v, value(random, v)));
        }
    }
    facts
}

/// A chain through all actions, highest number first: each action becomes applicable by the one
/// before it, through its last precondition, and every action is needed.
pub fn chain(random: &mut Random, actions: usize) -> Task {
    let costs = (0..actions).map(|_| cost(random)).collect();
    chain_costing(random, costs)
}

/// The chain with costs that fall as the numbers rise.
pub fn falling_chain(random: &mut Random, actions: usize) -> Task {
    chain_costing(random, falling_costs(actions))
}

/// The chain with no two costs the same.
pub fn different_chain(random: &mut Random, actions: usize) -> Task {
    let costs = different_costs(random, actions);
    chain_costing(random, costs)
}

fn chain_costing(random: &mut Random, costs: Vec<u16>) -> Task {
    let actions = costs.len();
    const LINKS: usize = 17;
    let link = |k: usize| Fact::new(VARIABLES - 1 - k % LINKS, k / LINKS + 1);
    let mut variables = vec![variable(false, None); VARIABLES];
    let last = link(actions - 1);
    variables[last.variable()].goal = Some(last.value() as u8);
    let mut held = vec![1u64; VARIABLES];
    let mut links = Vec::with_capacity(actions);
    for k in 0..actions {
        let limit = VARIABLES - LINKS;
        let mut needs = facts_below(random, limit, FACTS - 1, |random, v| any_of(random, held[v]));
        needs.extend(k.checked_sub(1).map(link));
        let mut sets = facts_below(random, limit, FACTS - 1, |random, _| random.below(VALUES));
        sets.push(link(k));
        sets.iter().for_each(|fact| held[fact.variable()] |= 1 << fact.value());
        links.push((needs, sets));
    }
    let mut task = Task::new(variables);
    for ((needs, sets), &cost) in links.iter().rev().zip(&costs) {
        task.push(cost, needs, sets);
    }
    task
}

fn any_of(random: &mut Random, set: u64) -> usize {
    let members: Vec<usize> = (0..64).filter(|value| set >> value & 1 == 1).collect();
    *random.pick(&members)
}

/// The highest number costs least.
fn falling_costs(actions: usize) -> Vec<u16> {
    (0..actions).map(|number| (actions - number) as u16).collect()
}

/// No two the same, spread over all costs.
fn different_costs(random: &mut Random, actions: usize) -> Vec<u16> {
    let apart = (1 << 16) / actions;
    let mut costs: Vec<u16> =
        (0..actions).map(|k| (k * apart + random.below(apart)) as u16).collect();
    random.shuffle(&mut costs);
    costs
}

/// Actions that all apply at once, the cheapest with the highest number; the run takes every one.
pub fn falling_wave(actions: usize) -> Task {
    waves(falling_costs(actions), 1)
}

/// Actions of which no two cost the same, in four waves; the run takes every one.
pub fn different_waves(random: &mut Random, actions: usize) -> Task {
    waves(different_costs(random, actions), 4)
}

/// An action for each cost, which sets a fact of its own. Those of a wave apply at once, as soon as the
/// dearest one of the wave before is taken; the goal is what the dearest one of the last wave sets.
fn waves(costs: Vec<u16>, waves: usize) -> Task {
    let own = |k: usize| Fact::new(k % VARIABLES, k / VARIABLES + 1);
    let dearest = |wave: usize| {
        let members = (wave..costs.len()).step_by(waves);
        own(members.max_by_key(|&k| costs[k]).unwrap())
    };
    let last = dearest(waves - 1);
    let goal = |v: usize| (v == last.variable()).then_some(last.value());
    let mut task = Task::new((0..VARIABLES).map(|v| variable(false, goal(v))).collect());
    let start = Fact::new(VARIABLES - 1, 0);
    let opened: Vec<Fact> = (0..waves).map(|w| w.checked_sub(1).map_or(start, dearest)).collect();
    for (k, &cost) in costs.iter().enumerate() {
        task.push(cost, &[opened[k % waves]], &[own(k)]);
    }
    task
}

/// 1,024 actions that all apply for real one after another, again and again; each needs and
/// changes 15 variables. The goals hold after every round.
pub fn wheel(random: &mut Random) -> Task {
    turning(random, VARIABLES, FACTS)
}

/// The wheel with so many variables turned, and so many facts in each list of an action.
pub fn turning(random: &mut Random, turned: usize, facts: usize) -> Task {
    let round = (1..VALUES).rev().find(|round| facts * 1024 / turned % round == 0).unwrap();
    let mut task = Task::new(vec![variable(true, Some(0)); VARIABLES]);
    let mut turns = [0; VARIABLES];
    for k in 0..1024 {
        let mut window: Vec<usize> = (0..facts).map(|j| (facts * k + j) % turned).collect();
        window.sort();
        let facts = |turns: &[usize; VARIABLES]| -> Vec<Fact> {
            window.iter().map(|&v| Fact::new(v, turns[v] % round)).collect()
        };
        let needs = facts(&turns);
        window.iter().for_each(|&v| turns[v] += 1);
        task.push(cost(random), &needs, &facts(&turns));
    }
    task
}

/// A wheel that stops for real at step 1, red-black and relaxed never: the first action sets a red
/// lamp that the second one needs unset.
pub fn lamp_wheel(random: &mut Random) -> Task {
    const LAMP: usize = VARIABLES - 1;
    let wheel = turning(random, VARIABLES / 2, FACTS - 1);
    let mut variables = wheel.variables.clone();
    variables[LAMP] = variable(false, None);
    let mut task = Task::new(variables);
    for (number, action) in wheel.actions().enumerate() {
        let (mut needs, mut sets) = (action.preconditions.to_vec(), action.effects.to_vec());
        sets.extend((number == 0).then_some(Fact::new(LAMP, 1)));
        needs.extend((number == 1).then_some(Fact::new(LAMP, 0)));
        task.push(action.cost, &needs, &sets);
    }
    task
}

/// One black variable whose moves all start anywhere, each value set by as many. All need one fact;
/// the last move to a value needs no more, so that it is everyone's return. The others need a fact
/// of their own.
pub fn anywhere(random: &mut Random, actions: usize) -> Task {
    from_anywhere(random, actions, |k| {
        let own = (k + VALUES < actions).then(|| Fact::new(2 + k % 62, k / 62 + 1));
        [Fact::new(1, 0)].into_iter().chain(own).collect()
    })
}

/// The same with returns apart: of the moves to a value one serves, another for the next action,
/// and they differ in the last of many conditions.
pub fn anywhere_apart(random: &mut Random, actions: usize) -> Task {
    let kinds = actions.div_ceil(VALUES);
    from_anywhere(random, actions, |k| {
        let mut needs: Vec<Fact> = (1..FACTS).map(|v| Fact::new(v, 0)).collect();
        needs.push(Fact::new(VARIABLES - 1, (k / VALUES + k) % kinds));
        needs
    })
}

fn from_anywhere(random: &mut Random, actions: usize, needs: impl Fn(usize) -> Vec<Fact>) -> Task {
    let variables = (0..VARIABLES).map(|v| variable(v == 0, Some(0)));
    let mut task = Task::new(variables.collect());
    for k in 0..actions {
        task.push(cost(random), &needs(k), &[Fact::new(0, k % VALUES)]);
    }
    task
}

/// 16 black variables with as many moves each way as there is room for. Each move has exactly one
/// return, which differs from the others in its last condition.
pub fn returns(random: &mut Random, actions: usize) -> Task {
    let variables = (0..VARIABLES).map(|v| variable(v < MOVERS, Some(0)));
    let mut task = Task::new(variables.collect());
    for k in 0..actions {
        let (mover, pair, back) = (k % MOVERS, k / MOVERS / 2, k / MOVERS % 2);
        let shared = (MOVERS..MOVERS + FACTS - 2).map(|v| Fact::new(v, mover));
        let own = Fact::new(VARIABLES - 1, pair);
        let mut needs = vec![Fact::new(mover, back)];
        needs.extend(shared.chain([own]));
        let mut sets = vec![Fact::new(mover, 1 - back)];
        sets.extend((VARIABLES - FACTS..VARIABLES - 1).map(|v| Fact::new(v, (k + v) % VALUES)));
        task.push(cost(random), &needs, &sets);
    }
    task
}

/// The same with black gates in place of what the moves share: each move needs every gate at the value of
/// its own number, and sets it so again.
pub fn gates(random: &mut Random, actions: usize) -> Task {
    const GATES: std::ops::Range<usize> = MOVERS..MOVERS + FACTS - 2;
    let variables = (0..VARIABLES).map(|v| variable(v < GATES.end, Some(0)));
    let mut task = Task::new(variables.collect());
    for k in 0..actions {
        let (mover, pair, back) = (k % MOVERS, k / MOVERS / 2, k / MOVERS % 2);
        let gates = GATES.map(|v| Fact::new(v, mover));
        let own = Fact::new(VARIABLES - 1, pair);
        let facts = |value| -> Vec<Fact> {
            [Fact::new(mover, value)].into_iter().chain(gates.clone()).chain([own]).collect()
        };
        task.push(cost(random), &facts(back), &facts(1 - back));
    }
    task
}

/// A tower with two boxes and 14 black servants that never move. Every action needs as many of them as it
/// has room for and asks for a path of each, so that there are many times more searches than steps.
pub fn served_tower(random: &mut Random, movers: usize, places: usize) -> Task {
    let tower = stores::tower(random, movers, places, 2);
    let mut variables = tower.variables.clone();
    let servants: Vec<Fact> =
        (variables.len()..).map(|v| Fact::new(v, 0)).take(FACTS - 1).collect();
    let still = |values| Variable { values, ..variable(true, None) };
    variables.extend([1, 2].into_iter().cycle().map(still).take(servants.len()));
    let mut task = Task::new(variables);
    for action in tower.actions() {
        let needs = action.preconditions.iter().chain(&servants).copied().take(FACTS);
        task.push(action.cost, &needs.collect::<Vec<_>>(), action.effects);
    }
    task
}
