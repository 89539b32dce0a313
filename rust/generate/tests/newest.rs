//! Newest values worked out forwards, step by step, beside the sets; and what follows of them.

use generate::{mixture, records, Random};
use reference::state::{Semantics, State};
use reference::{entry, record, Task};

/// A run as clauses 3.3, 3.7 and 3.12 word it.
struct Course {
    steps: usize,
    state: State,
    newest: Vec<u16>,
}

fn course(task: &Task, list: &[u16], semantics: &Semantics) -> Course {
    let newest = task.variables.iter().map(|v| v.initial.into()).collect();
    let mut course = Course { steps: 0, state: State::initial(task), newest };
    for &number in list {
        let action = task.action(number.into());
        if !course.state.holds_all(action.preconditions) {
            break;
        }
        course.state.apply(action, semantics);
        for fact in action.effects {
            course.newest[fact.variable()] = fact.value() as u16;
        }
        course.steps += 1;
    }
    course
}

/// Any actions, most of them applicable under a semantics.
fn list(random: &mut Random, task: &Task, semantics: &Semantics) -> Vec<u16> {
    let (mut state, mut list) = (State::initial(task), Vec::new());
    for _ in 0..random.within(0, 40) {
        let number = random.below(task.action_count());
        let applies = state.holds_all(task.preconditions(number));
        if applies || random.chance(1, 30) {
            state.apply(task.action(number), semantics);
            list.push(number as u16);
        }
    }
    list
}

fn drawn(random: &mut Random) -> Task {
    loop {
        let task = mixture::task(random);
        if (1..200).contains(&task.action_count()) {
            return records::setting_needs(random, task);
        }
    }
}

fn newest(task: &Task, list: &[u16]) -> (usize, usize, Vec<u16>) {
    let mut values = vec![0; task.variables.len()];
    let answer = entry::newest(&record::write(task), list, &mut values).unwrap();
    (answer.steps as usize, answer.runs as usize, values)
}

#[test]
fn backwards_is_forwards() {
    let random = &mut Random::new(70);
    let (mut stopped, mut unreal) = (0, 0);
    for _ in 0..25_000 {
        let task = drawn(random);
        let all = [Semantics::relaxed(), Semantics::red_black(&task), Semantics::real()];
        let semantics = random.pick(&all).clone();
        let list = list(random, &task, &semantics);
        let [_, red_black, real] = all.map(|semantics| course(&task, &list, &semantics));
        assert_eq!(newest(&task, &list), (red_black.steps, real.steps, red_black.newest));
        stopped += usize::from(red_black.steps < list.len());
        unreal += usize::from(real.steps < red_black.steps);
    }
    assert!(stopped > 3000 && unreal > 1500, "{stopped} {unreal}");
}

/// In the set; alone in it for real, and for black variables red-black.
#[test]
fn newest_values_and_sets() {
    let random = &mut Random::new(71);
    for _ in 0..5000 {
        let task = drawn(random);
        let all = [Semantics::relaxed(), Semantics::red_black(&task), Semantics::real()];
        let list = list(random, &task, &all[1]);
        for (i, semantics) in all.iter().enumerate() {
            let Course { state, newest, .. } = course(&task, &list, semantics);
            for (v, variable) in task.variables.iter().enumerate() {
                let value = 1 << newest[v];
                assert!(state.of(v) & value != 0);
                assert!(state.of(v) == value || i == 0 || i == 1 && !variable.black);
            }
        }
    }
}

/// The steps that run for real leave the real state, whatever the painting.
#[test]
fn newest_values_are_the_real_state_as_far_as_it_goes() {
    let random = &mut Random::new(72);
    for _ in 0..5000 {
        let mut task = drawn(random);
        let semantics = Semantics::red_black(&task);
        let mut list = list(random, &task, &semantics);
        let real = course(&task, &list, &Semantics::real());
        list.truncate(real.steps);
        let values = newest(&task, &list).2;
        (values.iter().enumerate()).for_each(|(v, value)| assert_eq!(real.state.of(v), 1 << value));
        task.variables.iter_mut().for_each(|variable| variable.black = random.chance(1, 2));
        assert_eq!(newest(&task, &list), (list.len(), list.len(), values));
    }
}
