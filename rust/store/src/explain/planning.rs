//! Refusals 10 and 11: goals that are not reached, and plans that do not fit.

use reference::entry::MAX_STEPS;
use reference::state::{Semantics, State};
use reference::Fact;

use super::{and, grouped};
use crate::library;
use crate::show::steps;
use crate::store::Store;

/// 10: the goals that are not reached, and what stands in the way of each.
pub fn no_plan(store: &Store, reached: usize) -> String {
    let held = reachable(store);
    let missed: Vec<Fact> = store.goals().filter(|&goal| !held.holds(goal)).collect();
    let named: Vec<String> = missed.iter().map(|&goal| store.fact(goal)).collect();
    if named.is_empty() {
        return format!("all goals of this store can be reached, with more than {reached} facts");
    }
    let reasons: Vec<String> = missed.iter().map(|&goal| reason(store, &held, goal)).collect();
    let reached = grouped(reached as u128);
    format!("no plan: {reached} facts are reached, and not {}; {}", and(&named), reasons.join("; "))
}

/// The facts that some relaxed run reaches.
fn reachable(store: &Store) -> State {
    let task = store.task();
    let mut held = State::initial(&task);
    let mut left: Vec<usize> = (0..task.action_count()).collect();
    loop {
        let (ready, waiting): (Vec<usize>, Vec<usize>) =
            left.iter().partition(|&&number| held.holds_all(task.action(number).preconditions));
        for &number in &ready {
            held.apply(task.action(number), &Semantics::relaxed());
        }
        if ready.is_empty() {
            return held;
        }
        left = waiting;
    }
}

/// Why a fact is not reached.
fn reason(store: &Store, held: &State, goal: Fact) -> String {
    let sets = |needed: &&crate::store::Action| needed.sets.contains(&goal);
    let mut setting = store.actions.iter().filter(sets);
    let Some(first) = setting.next() else {
        return format!("no action sets {}", store.fact(goal));
    };
    let missing: Vec<Fact> =
        first.needs.iter().copied().filter(|&fact| !held.holds(fact)).collect();
    let others = match setting.count() {
        0 => String::new(),
        1 => ", and 1 other action that sets it is held up too".to_owned(),
        count => format!(", and {count} other actions that set it are held up too"),
    };
    format!("{} needs {}, which is not reached{others}", first.name, store.facts(&missing))
}

/// 11: what room would do, or that none can.
pub fn no_room(store: &Store, room: usize) -> String {
    let enough = enough(store);
    let begin = format!("there is room for {}, and the plan is longer", steps(room));
    match library::plan(&store.record(), MAX_STEPS) {
        Ok(plan) if plan.steps.len() <= room => {
            format!("there is room for {}, which is enough for this store's plan", steps(room))
        }
        Ok(plan) => format!("{begin}: room for {} would do ({enough})", steps(plan.steps.len())),
        Err(refusal) if refusal.number == 11 => {
            let most = grouped(MAX_STEPS as u128);
            format!(
                "{begin} than {most} steps, the most that a list holds: no room can do ({enough})"
            )
        }
        Err(refusal) => format!("{begin}; of this store the planner says {}", refusal.number),
    }
}

/// F × P, for which there is always a plan if there is one at all.
fn enough(store: &Store) -> String {
    let facts: usize = store.variables.iter().map(|variable| variable.values.len() - 1).sum();
    let black = store.variables.iter().filter(|variable| variable.black);
    let mut counts = black.map(|variable| variable.values.len() as u128);
    let states = counts.try_fold(1u128, |product, count| product.checked_mul(count));
    let product = states.and_then(|states| states.checked_mul(facts as u128));
    let number = product.map_or("a number of over 38 digits".to_owned(), grouped);
    format!("F × P, which is always enough, is {number}")
}
