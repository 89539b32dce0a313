//! Inserted moves.

mod common;

use common::{random_accepted, unnamed, Random};
use reference::{relax, repair, Task};
use store::plan::Plan;

#[test]
fn a_relaxed_plan_of_another_plan() {
    assert_eq!(Plan::repaired(vec![0, 2, 1, 3], &[0, 3, 2]), None);
}

#[test]
fn inserted_moves_are_those_of_the_repair() {
    let mut random = Random::new(7);
    let mut marked = 0;
    for _ in 0..10_000 {
        let task = random_accepted(&mut random);
        let Ok(plan) = Plan::find(&unnamed(&task)) else { continue };
        let mut relaxed = vec![0; 1024];
        let count = relax(&reference::record::write(&task), &mut relaxed).unwrap();
        relaxed.truncate(count as usize);
        let marks = by_prefixes(&task, &plan, &relaxed);
        assert_eq!(plan.marks.as_ref(), Some(&marks));
        let left = (0..plan.steps.len()).filter(|&step| !plan.is_inserted(step));
        assert_eq!(left.map(|step| plan.steps[step]).collect::<Vec<_>>(), relaxed);
        assert_eq!(Plan::repaired(plan.steps, &relaxed).unwrap().marks, Some(marks.clone()));
        marked += marks.iter().filter(|&&mark| mark == 1).count();
    }
    assert!(marked > 1000, "{marked}");
}

/// Without goals, the repair of the first k relaxed actions ends with the last of them.
fn by_prefixes(task: &Task, plan: &Plan, relaxed: &[u16]) -> Vec<u8> {
    let mut goalless = task.clone();
    goalless.variables.iter_mut().for_each(|variable| variable.goal = None);
    let record = reference::record::write(&goalless);
    let mut inserted = vec![1; plan.steps.len()];
    let (mut list, mut work, mut marks) = (vec![0; 1024], vec![0; 1024], vec![0; 1024]);
    for count in 1..=relaxed.len() {
        let result = repair(&record, &relaxed[..count], &mut list, &mut work, &mut marks).unwrap();
        inserted[result.steps as usize - 1] = 0;
    }
    inserted
}
