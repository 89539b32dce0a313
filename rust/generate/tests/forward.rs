//! The forward run as clauses 4.1 and 4.2 word it, all actions looked at before each step.

use generate::{choices, extremes, mixture, stores, Random};
use reference::entry::{self, ForwardResult};
use reference::painting::painting;
use reference::state::{Semantics, State};
use reference::{record, Refusal, Task};

fn adds(task: &Task, state: &State, number: usize) -> bool {
    let action = task.action(number);
    state.holds_all(action.preconditions) && !state.holds_all(action.effects)
}

/// The steps, and the state in which the run ends; taken is the action with the least key.
fn run<K: Ord>(task: &Task, key: impl Fn(usize) -> K) -> (Vec<u16>, State) {
    let (mut state, mut steps) = (State::initial(task), Vec::new());
    while !state.meets_goals(task) {
        let adding = (0..task.action_count()).filter(|&number| adds(task, &state, number));
        let Some(number) = adding.min_by_key(|&number| key(number)) else { break };
        state.apply(task.action(number), &Semantics::relaxed());
        steps.push(number as u16);
    }
    (steps, state)
}

fn worded(task: &Task) -> Result<(Vec<u16>, u32), Refusal> {
    let (steps, state) = run(task, |number| (task.cost(number), number));
    let reached = (0..task.variables.len()).map(|v| state.of(v).count_ones()).sum();
    if !state.meets_goals(task) {
        return Err(Refusal::new(10, reached as usize));
    }
    Ok((steps, reached))
}

fn answered(task: &Task) -> Result<(Vec<u16>, u32), Refusal> {
    let mut list = vec![0; 1024];
    let ForwardResult { steps, reached } = entry::forward(&record::write(task), &mut list)?;
    list.truncate(steps as usize);
    Ok((list, reached))
}

#[test]
fn forward_run_is_as_worded() {
    let random = &mut Random::new(80);
    let (mut ran, mut refused) = (0, 0);
    for _ in 0..20_000 {
        let task = mixture::task(random);
        if task.action_count() > 300 {
            continue;
        }
        let answer = answered(&task);
        assert_eq!(answer, worded(&task));
        refused += usize::from(answer.is_err());
        ran += usize::from(answer.is_ok_and(|(steps, _)| steps.len() > 1));
    }
    assert!(ran > 5000 && refused > 2000, "{ran} {refused}");
}

#[test]
fn long_runs_are_as_worded() {
    let random = &mut Random::new(81);
    for actions in [33, 64, 65, 256, 1024] {
        for task in [extremes::falling_wave(actions), extremes::different_waves(random, actions)] {
            assert_eq!(answered(&task), worded(&task));
            assert_eq!(answered(&task).unwrap().0.len(), actions);
            let task = choices::with_choices(random, &task);
            assert_eq!(answered(&task), worded(&task));
        }
    }
    for _ in 0..200 {
        let large = stores::store(random, stores::LARGE);
        let task = choices::with_choices(random, &large);
        assert_eq!(answered(&task), worded(&task));
    }
}

/// How many of a hundred runs are other ones where the lowest number is taken, whatever it costs.
fn other_by_number(random: &mut Random, draw: impl Fn(&mut Random) -> Task) -> usize {
    let mut others = 0;
    for _ in 0..2000 {
        let task = draw(random);
        let by_number = run(&task, |number| number).0;
        others += usize::from(by_number != run(&task, |number| (task.cost(number), number)).0);
    }
    others / 20
}

#[test]
fn drawn_runs_show_the_choice() {
    let random = &mut Random::new(82);
    let others = other_by_number(random, |random| {
        let task = mixture::small_task(random);
        choices::with_choices(random, &task)
    });
    assert!(others >= 40, "{others}");
    let others = other_by_number(random, mixture::small_task);
    assert!(others >= 40, "{others}");
}

#[test]
fn choices_leave_the_painting() {
    let random = &mut Random::new(83);
    for _ in 0..2000 {
        let task = mixture::small_task(random);
        let changed = choices::with_choices(random, &task);
        assert_eq!(painting(&changed).is_ok(), painting(&task).is_ok());
    }
}
