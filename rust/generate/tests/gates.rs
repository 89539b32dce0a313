//! Effects that repeat a precondition of their action: check 7 as clauses 5.1 to 5.3 word it, and
//! plans of stores with such effects.

use generate::{gates, mixture, stores, Random};
use reference::entry::{self, MAX_STEPS};
use reference::painting::painting;
use reference::state::{Semantics, State};
use reference::{record, search, Refusal, Task};

/// The variables that an action changes.
fn changed(task: &Task, number: usize) -> Vec<usize> {
    let action = task.action(number);
    let changes = action.effects.iter().filter(|effect| !action.preconditions.contains(effect));
    changes.map(|effect| effect.variable()).collect()
}

/// Whether there is an arc between two different variables.
fn arc(task: &Task, u: usize, v: usize) -> bool {
    (0..task.action_count()).any(|number| {
        let changed = changed(task, number);
        let needs = || task.preconditions(number).iter().any(|fact| fact.variable() == u);
        u != v && changed.contains(&v) && (changed.contains(&u) || needs())
    })
}

fn black(task: &Task) -> Vec<usize> {
    (0..task.variables.len()).filter(|&v| task.variables[v].black).collect()
}

/// The lowest black variable from which a chain of arcs leads back to it.
fn lowest_on_cycle(task: &Task) -> Option<usize> {
    let black = black(task);
    black.iter().copied().find(|&start| {
        let (mut met, mut at) = (vec![start], 0);
        while at < met.len() {
            if at > 0 && arc(task, met[at], start) {
                return true;
            }
            let after = black.iter().filter(|&&v| arc(task, met[at], v) && !met.contains(&v));
            let after: Vec<usize> = after.copied().collect();
            met.extend(after);
            at += 1;
        }
        false
    })
}

/// The black variables in the order of 6.5.
fn clients_first(task: &Task) -> Vec<usize> {
    let (mut left, mut order) = (black(task), Vec::new());
    while let Some(next) = left.iter().position(|&u| left.iter().all(|&v| !arc(task, u, v))) {
        order.push(left.remove(next));
    }
    order
}

#[test]
fn cycles_and_order_are_as_worded() {
    let random = &mut Random::new(90);
    let (mut cyclic, mut gained) = (0, 0);
    for _ in 0..20_000 {
        let task = mixture::small_task(random);
        let task = gates::with_gates(random, &task);
        let refused = match painting(&task) {
            Ok(painting) => {
                assert_eq!(painting.order, clients_first(&task));
                None
            }
            Err(Refusal { number, place }) => (number == 7).then_some(place as usize),
        };
        assert_eq!(refused, lowest_on_cycle(&task));
        cyclic += usize::from(refused.is_some());
        gained += usize::from(refused.is_none() && gates::was_cyclic(&task));
    }
    assert!(cyclic > 1000 && gained > 3000, "{cyclic} {gained}");
}

type Planned = (Result<entry::PlanResult, Refusal>, Vec<u16>, Vec<u8>);

fn plan(task: &Task, room: usize) -> Planned {
    let (mut plan, mut work, mut marks) = (vec![0; room], vec![0; room], vec![0; room]);
    let answer = entry::plan(&record::write(task), &mut plan, &mut work, &mut marks);
    let steps = answer.map_or(0, |result| result.steps as usize);
    plan.truncate(steps);
    marks.truncate(steps);
    (answer, plan, marks)
}

#[test]
fn facts_set_again_change_no_plan() {
    let random = &mut Random::new(91);
    let mut gained = 0;
    for _ in 0..20_000 {
        let task = mixture::task(random);
        let again = gates::set_again(random, &task);
        let (before, after) = (plan(&task, MAX_STEPS), plan(&again, MAX_STEPS));
        assert_eq!(before, after);
        gained += usize::from(after.0.is_ok() && gates::was_cyclic(&again));
    }
    assert!(gained > 4000, "{gained}");
}

/// Whether a list is a red-black plan, step by step.
fn is_plan(task: &Task, list: &[u16]) -> bool {
    let (mut state, semantics) = (State::initial(task), Semantics::red_black(task));
    for &number in list {
        if !state.holds_all(task.preconditions(number.into())) {
            return false;
        }
        state.apply(task.action(number.into()), &semantics);
    }
    state.meets_goals(task)
}

/// F × P.
fn bound(task: &Task) -> usize {
    let facts: usize = task.variables.iter().map(|v| v.values as usize - 1).sum();
    let black = task.variables.iter().filter(|variable| variable.black);
    black.fold(facts, |product, variable| product.saturating_mul(variable.values.into()))
}

#[test]
fn plans_and_their_absence_with_gates() {
    let random = &mut Random::new(92);
    let (mut planned, mut absent, mut gained, mut gained_absent) = (0, 0, 0, 0);
    for _ in 0..100_000 {
        let task = mixture::small_task(random);
        let task = gates::with_gates(random, &task);
        let (answer, list, _) = plan(&task, bound(&task).min(MAX_STEPS));
        let searched = search::has_red_black_plan(&task, 400);
        let was_cyclic = gates::was_cyclic(&task);
        match answer {
            Ok(_) => {
                assert!(is_plan(&task, &list) && list.len() <= bound(&task));
                assert_ne!(searched, Some(false));
                planned += 1;
            }
            Err(Refusal { number: 10, .. }) => {
                assert_ne!(searched, Some(true));
                absent += 1;
                gained_absent += usize::from(was_cyclic && searched.is_some());
            }
            Err(refusal) => {
                assert!([7, 8].contains(&refusal.number), "{refusal:?}");
                continue;
            }
        }
        gained += usize::from(was_cyclic);
    }
    assert!(planned > 40_000 && absent > 10_000 && gained > 20_000, "{planned} {absent} {gained}");
    assert!(gained_absent > 2_000, "{gained_absent}");
}

/// Of drawn tasks with two black variables a third has gates, and of all drawn one in eight passes 7 for
/// that alone.
#[test]
fn drawn_tasks_have_gates() {
    let random = &mut Random::new(93);
    let (mut stores, mut gated, mut gained) = (0, 0, 0);
    for _ in 0..10_000 {
        let task = mixture::task(random);
        let passes = !matches!(painting(&task).err(), Some(Refusal { number: 7, .. }));
        stores += usize::from(task.black().count_ones() > 1);
        gated += usize::from(gates::has_gate(&task));
        gained += usize::from(passes && gates::was_cyclic(&task));
    }
    assert!(3 * gated >= stores && gained >= 1250, "{stores} {gated} {gained}");
}

#[test]
fn near_misses_are_changes() {
    let random = &mut Random::new(94);
    let (mut drawn, mut refused) = (0, 0);
    for _ in 0..5000 {
        let task = stores::store(random, stores::SMALL);
        let missed = gates::near_miss(random, &task);
        let more = |&n: &usize| changed(&task, n).len() < changed(&missed, n).len();
        drawn += (0..task.action_count()).filter(more).count();
        let cyclic = |task: &Task| lowest_on_cycle(task).is_some();
        refused += usize::from(cyclic(&missed) && !cyclic(&task));
    }
    assert!(drawn > 4000 && refused > 500, "{drawn} {refused}");
}
