//! The reference is written for speed; here it is held to the specification's wording, done step by step.

use generate::{mixture, stores, Random};
use reference::painting::painting;
use reference::state::{Run, Semantics, State};
use reference::{entry, record, Fact, Refusal, Task};

fn run(task: &Task, list: &[u16], semantics: &Semantics) -> Run {
    let mut state = State::initial(task);
    for (step, &number) in list.iter().enumerate() {
        if !state.holds_all(task.preconditions(number as usize)) {
            return Run { steps: step as u32, plan: false };
        }
        state.apply(task.action(number as usize), semantics);
    }
    Run { steps: list.len() as u32, plan: state.meets_goals(task) }
}

/// A list that repeats a few actions, the first ones applicable.
fn list(random: &mut Random, task: &Task, semantics: &Semantics) -> Vec<u16> {
    let mut state = State::initial(task);
    let mut list = Vec::new();
    for _ in 0..random.within(0, 60) {
        let first = random.below(task.action_count());
        let mut numbers = (first..task.action_count()).chain(0..first);
        let applies = |&number: &usize| state.holds_all(task.preconditions(number));
        let Some(number) = numbers.find(applies) else { break };
        state.apply(task.action(number), semantics);
        list.push(number as u16);
    }
    if random.chance(1, 3) {
        list.push(random.below(task.action_count()) as u16);
    }
    list
}

#[test]
fn judging_is_three_runs() {
    let random = &mut Random::new(40);
    for _ in 0..3000 {
        let task = mixture::task(random);
        if task.action_count() == 0 {
            continue;
        }
        let all = [Semantics::relaxed(), Semantics::red_black(&task), Semantics::real()];
        let semantics = random.pick(&all).clone();
        let list = list(random, &task, &semantics);
        let judged = entry::judge(&record::write(&task), &list).unwrap();
        let runs = [judged.relaxed, judged.red_black, judged.real];
        assert_eq!(runs, all.map(|semantics| run(&task, &list, &semantics)));
    }
}

/// The source and target of each arc of an action, and its outside facts.
fn arcs(task: &Task, number: usize, v: usize) -> Vec<(usize, usize)> {
    let value = |facts: &[Fact]| facts.iter().find(|f| f.variable() == v).map(|f| f.value());
    let action = task.action(number);
    let Some(to) = value(action.effects) else { return Vec::new() };
    let sources = match value(action.preconditions) {
        Some(from) => from..from + 1,
        None => 0..task.variables[v].values as usize,
    };
    sources.filter(|&from| from != to).map(|from| (from, to)).collect()
}

fn outside(facts: &[Fact], v: usize) -> impl Iterator<Item = Fact> + '_ {
    facts.iter().copied().filter(move |fact| fact.variable() != v)
}

fn returns(task: &Task, number: usize, v: usize, (from, to): (usize, usize)) -> bool {
    let action = task.action(number);
    let mut union: Vec<Fact> = outside(action.preconditions, v).collect();
    union.extend(outside(action.effects, v));
    (0..task.action_count()).any(|back| {
        arcs(task, back, v).contains(&(to, from))
            && outside(task.preconditions(back), v).all(|fact| union.contains(&fact))
    })
}

/// The lowest action with an arc that lacks its return.
fn lacking(task: &Task) -> Option<usize> {
    let black = |v: &usize| task.variables[*v].black;
    let lacks = |number: usize, v: usize| {
        arcs(task, number, v).into_iter().any(|arc| !returns(task, number, v, arc))
    };
    let variables: Vec<usize> = (0..task.variables.len()).filter(black).collect();
    (0..task.action_count()).find(|&number| variables.iter().any(|&v| lacks(number, v)))
}

#[test]
fn returns_are_as_worded() {
    let random = &mut Random::new(41);
    let (mut accepted, mut refused) = (0, 0);
    for _ in 0..2000 {
        let task = match random.below(3) {
            0 => stores::damaged_store(random, stores::SMALL),
            _ => mixture::task(random),
        };
        if task.action_count() > 300 {
            continue;
        }
        match painting(&task).err() {
            Some(Refusal { number: 7, .. }) => {}
            Some(refusal) => {
                assert_eq!(lacking(&task), Some(refusal.place as usize));
                refused += 1;
            }
            None => {
                assert_eq!(lacking(&task), None);
                accepted += 1;
            }
        }
    }
    assert!(accepted > 500 && refused > 200, "{accepted} {refused}");
}
