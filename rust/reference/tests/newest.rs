//! Newest values (3.12, 3.13) on small examples.

use reference::entry::{NewestResult, NO_ENTRY};
use reference::{examples, newest, record, Fact, Refusal, Task, Variable};

const REST: u16 = NO_ENTRY;

/// Steps red-black, steps for real, and the values.
fn answer(task: &Task, list: &[u16]) -> (u32, u32, Vec<u16>) {
    let mut values = vec![7; task.variables.len()];
    let NewestResult { steps, runs } = newest(&record::write(task), list, &mut values).unwrap();
    (steps, runs, values)
}

fn refused(record: &[u8], list: &[u16], lent: usize) -> (u8, u32) {
    let mut values = vec![7; lent];
    let refusal = newest(record, list, &mut values).unwrap_err();
    assert_eq!(values, vec![REST; lent]);
    (refusal.number, refusal.place)
}

#[test]
fn two_shelves() {
    let task = examples::two_shelves();
    assert_eq!(answer(&task, &[0, 2, 1, 3]), (4, 4, vec![0, 0]));
    assert_eq!(answer(&task, &[0, 2]), (2, 2, vec![1, 2]));
    assert_eq!(answer(&task, &[]), (0, 0, vec![0, 1]));
}

#[test]
fn a_list_that_stops() {
    let task = examples::two_shelves();
    assert_eq!(answer(&task, &[0, 2, 3, 1]), (2, 2, vec![1, 2]));
    assert_eq!(answer(&task, &[3, 0]), (0, 0, vec![0, 1]));
}

#[test]
fn red_black_goes_on_where_the_real_run_stops() {
    assert_eq!(answer(&examples::tray(), &[0, 1]), (2, 1, vec![1, 1, 1]));
}

/// One red variable of two values, and an action that needs `needs` and sets `sets` for each pair.
fn one_red(actions: &[(usize, usize)]) -> Task {
    let mut task = Task::new(vec![Variable { values: 2, black: false, initial: 0, goal: None }]);
    for &(needs, sets) in actions {
        task.push(1, &[Fact::new(0, needs)], &[Fact::new(0, sets)]);
    }
    task
}

#[test]
fn a_value_that_is_in_the_set_already() {
    let task = one_red(&[(0, 1), (1, 0)]);
    assert_eq!(answer(&task, &[0]), (1, 1, vec![1]));
    assert_eq!(answer(&task, &[0, 1]), (2, 2, vec![0]));
    assert_eq!(answer(&task, &[0, 1, 1]), (3, 2, vec![0]));
    assert_eq!(answer(&task, &[0, 1, 0]), (3, 3, vec![1]));
}

#[test]
fn an_effect_that_is_the_own_precondition() {
    let task = one_red(&[(0, 1), (0, 0)]);
    assert_eq!(answer(&task, &[0, 1]), (2, 1, vec![0]));
    assert_eq!(answer(&task, &[1, 0]), (2, 2, vec![1]));
}

/// Clause 12.17.
#[test]
fn the_example() {
    let task = examples::newest();
    let list = [0, 2, 3, 4, 0, 1];
    let behind = [[0, 0, 0], [1, 0, 1], [1, 1, 1], [1, 0, 1], [1, 0, 0], [1, 0, 0], [1, 0, 0]];
    for (len, values) in behind.iter().enumerate() {
        let (steps, runs) = (len.min(4) as u32, len.min(3) as u32);
        assert_eq!(answer(&task, &list[..len]), (steps, runs, values.to_vec()));
    }
    assert_eq!(refused(&record::write(&task), &list, 2), (11, 2));
    assert_eq!(answer(&task, &[0, 2, 1]), (3, 3, vec![0, 1, 1]));
}

#[test]
fn lengths_around_the_count_of_variables() {
    let bytes = record::write(&examples::tray());
    for lent in 0..3 {
        assert_eq!(refused(&bytes, &[0, 1], lent), (11, lent as u32));
    }
    for lent in [3, 4, 5, 64, 32_768, 32_769, 70_000] {
        let mut values = vec![7; lent];
        let answer = newest(&bytes, &[0], &mut values);
        assert_eq!(answer, Ok(NewestResult { steps: 1, runs: 1 }));
        assert_eq!(values[..3], [1, 1, 0]);
        assert!(values[3..].iter().all(|&value| value == REST), "{lent}");
    }
}

#[test]
fn the_painting_may_be_any() {
    assert_eq!(answer(&examples::two_black_effects(), &[0]), (1, 1, vec![1, 1]));
    assert_eq!(answer(&examples::lamp(2), &[0, 1]), (1, 1, vec![1, 1]));
}

#[test]
fn refusals_in_their_order() {
    let bytes = record::write(&examples::two_shelves());
    assert_eq!(refused(&[], &[9; 32_769], 0), (1, 0));
    assert_eq!(refused(&bytes, &[9; 32_769], 0), (13, 32_768));
    assert_eq!(refused(&bytes, &[0, 4, 9], 1), (9, 1));
    assert_eq!(refused(&bytes, &[3, 3, 4], 2), (9, 2));
    assert_eq!(refused(&bytes, &[3, 3, 3], 1), (11, 1));
    assert_eq!(newest(&bytes, &[0; 32_768], &mut [0; 1]), Err(Refusal::new(11, 1)));
    assert_eq!(answer(&examples::two_shelves(), &[0; 32_768]), (1, 1, vec![1, 1]));
}
