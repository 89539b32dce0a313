//! The reference's repair is the one that the specification words, with its marks, and its searches are those asked for
//! there.

use generate::marks::{marked_by, unmarked, OTHERS as OTHER_MARKS};
use generate::repair::{asked, repaired, worded, Rule};
use generate::searches::{Count, OTHERS};
use generate::{extremes, mixture, prices, Random};
use reference::entry::{self, PlanResult, MAX_STEPS};
use reference::{examples, record, Task};

/// Plan and relaxed plan, where the plan has some steps and not too many.
fn planned(task: &Task) -> Option<(Vec<u16>, Vec<u16>)> {
    let (result, plan, relaxed) = answer(task)?;
    (result.steps > 0).then_some((plan, relaxed))
}

/// The planner's answer, plan and relaxed plan, where the plan has not too many steps.
fn answer(task: &Task) -> Option<(PlanResult, Vec<u16>, Vec<u16>)> {
    let bytes = record::write(task);
    let (mut plan, mut work, mut relaxed) = ([0; 400], [0; 400], [0; 1024]);
    let result = entry::plan(&bytes, &mut plan, &mut work, &mut [0; 400]).ok()?;
    let kept = entry::relax(&bytes, &mut relaxed).unwrap() as usize;
    Some((result, plan[..result.steps as usize].to_vec(), relaxed[..kept].to_vec()))
}

/// Plan list, work list and mark area.
fn rooms() -> (Vec<u16>, Vec<u16>, Vec<u8>) {
    (vec![0; MAX_STEPS], vec![0; MAX_STEPS], vec![0; MAX_STEPS])
}

/// Plan and marks word by word.
fn marked(task: &Task, relaxed: &[u16]) -> (Vec<u16>, Vec<u8>) {
    let worded = worded(task, relaxed).unwrap();
    (worded.plan, worded.marks)
}

/// The marks of the planner and those of a caller's list, the relaxed plan and actions of it again.
#[test]
fn marks_are_as_worded() {
    let random = &mut Random::new(56);
    let (mut compared, mut others) = (0, [0; OTHER_MARKS.len()]);
    let (mut plan, mut work, mut marks) = rooms();
    for _ in 0..10_000 {
        let task = mixture::task(random);
        if task.action_count() > 200 {
            continue;
        }
        let Some((_, _, mut list)) = answer(&task) else { continue };
        let bytes = record::write(&task);
        let own = entry::plan(&bytes, &mut plan, &mut work, &mut marks).unwrap();
        let steps = own.steps as usize;
        let (own, own_marks) = (plan[..steps].to_vec(), marks[..steps].to_vec());
        assert_eq!(unmarked(&own, &own_marks), list);
        for (count, other) in others.iter_mut().zip(OTHER_MARKS) {
            *count += usize::from(marked_by(other, &own, &own_marks) != own_marks);
        }
        assert_eq!(marked(&task, &list), (own, own_marks));
        let again: Vec<u16> = list.iter().copied().filter(|_| random.chance(1, 2)).collect();
        list.extend(again.iter().rev());
        let result = entry::repair(&bytes, &list, &mut plan, &mut work, &mut marks).unwrap();
        let (plan, marks) = (&plan[..result.steps as usize], &marks[..result.steps as usize]);
        assert_eq!(marked(&task, &list), (plan.to_vec(), marks.to_vec()));
        assert_eq!(unmarked(plan, marks), list);
        compared += 1;
    }
    assert!(compared > 5000 && others.iter().all(|&count| count > 100), "{compared} {others:?}");
}

/// Action 2 of lift is an action of the relaxed plan and a move.
#[test]
fn the_lift_tells_marks_apart() {
    let (plan, marks) = marked(&examples::lift(), &[0, 2, 4]);
    assert_eq!((&plan[..], &marks[..]), (&[0, 2, 3, 4, 2, 1][..], &[0, 0, 1, 0, 1, 1][..]));
    let other = marked_by(OTHER_MARKS[0], &plan, &marks);
    assert_eq!(other, [0, 1, 1, 0, 1, 1]);
}

#[test]
fn repair_is_as_worded() {
    let random = &mut Random::new(50);
    let mut compared = 0;
    for _ in 0..10_000 {
        let task = mixture::task(random);
        if task.action_count() > 200 {
            continue;
        }
        let Some((plan, relaxed)) = planned(&task) else { continue };
        assert_eq!(repaired(&task, &relaxed, Rule::Cheapest), Some(plan));
        compared += 1;
    }
    assert!(compared > 5000, "{compared}");
}

#[test]
fn repair_on_a_grid_is_as_worded() {
    let random = &mut Random::new(51);
    for _ in 0..3 {
        let task = prices::grid(random, 5, 4);
        let (plan, relaxed) = planned(&task).unwrap();
        assert_eq!(repaired(&task, &relaxed, Rule::Cheapest), Some(plan));
    }
}

/// The rule of fewest moves is that of least cost where nothing costs anything.
#[test]
fn without_costs_moves_are_counted() {
    let random = &mut Random::new(52);
    let (mut compared, mut others) = (0, 0);
    let (mut plan, mut work, mut marks) = rooms();
    for _ in 0..5000 {
        let task = prices::store(random);
        let Some((cheapest, relaxed)) = planned(&task) else { continue };
        let mut free = Task::new(task.variables.clone());
        task.actions().for_each(|action| free.push(0, action.preconditions, action.effects));
        let bytes = record::write(&free);
        let result = entry::repair(&bytes, &relaxed, &mut plan, &mut work, &mut marks).unwrap();
        let fewest = repaired(&task, &relaxed, Rule::FewestMoves);
        assert_eq!(fewest.as_deref(), Some(&plan[..result.steps as usize]));
        compared += 1;
        others += usize::from(fewest != Some(cheapest));
    }
    assert!(compared > 2000 && others > 500, "{compared} {others}");
}

/// n × P × m.
fn ceiling(task: &Task, relaxed: &[u16]) -> u128 {
    let black: Vec<u128> =
        task.variables.iter().filter(|v| v.black).map(|v| v.values.into()).collect();
    let states = black.iter().fold(1, |product: u128, &values| product.saturating_mul(values));
    states.saturating_mul((relaxed.len() * black.len()) as u128)
}

#[test]
fn searches_are_as_worded() {
    let random = &mut Random::new(53);
    let (mut compared, mut others) = (0, [0; OTHERS.len()]);
    for _ in 0..10_000 {
        let task = mixture::task(random);
        if task.action_count() > 200 {
            continue;
        }
        let Some((result, _, relaxed)) = answer(&task) else { continue };
        let (asked, searches) = (asked(&task, &relaxed).unwrap(), result.searches as usize);
        assert_eq!(asked.searches(Count::Places), searches);
        assert!(searches as u128 <= ceiling(&task, &relaxed));
        for (count, other) in others.iter_mut().zip(OTHERS) {
            *count += usize::from(asked.searches(other) != searches);
        }
        compared += 1;
    }
    assert!(compared > 5000 && others.iter().all(|&count| count > 200), "{compared} {others:?}");
}

/// A caller's list: the relaxed plan, and behind it actions of it again.
#[test]
fn searches_of_callers_lists_are_as_worded() {
    let random = &mut Random::new(54);
    let (mut plan, mut work, mut marks) = rooms();
    let (mut compared, mut more) = (0, 0);
    for _ in 0..3000 {
        let task = mixture::small_task(random);
        let Some((planned, _, mut list)) = answer(&task) else { continue };
        let again: Vec<u16> = list.iter().copied().filter(|_| random.chance(1, 2)).collect();
        list.extend(again.iter().rev());
        let bytes = record::write(&task);
        let result = entry::repair(&bytes, &list, &mut plan, &mut work, &mut marks).unwrap();
        let asked = asked(&task, &list).unwrap();
        assert_eq!(asked.searches(Count::Places), result.searches as usize);
        assert!(u128::from(result.searches) <= ceiling(&task, &list));
        compared += 1;
        more += usize::from(result.searches > planned.searches);
    }
    assert!(compared > 1500 && more > 300, "{compared} {more}");
}

/// More than 16 bits count: in one insertion, and in many of a caller's list.
#[test]
fn many_searches_are_as_worded() {
    let random = &mut Random::new(55);
    let (mut plan, mut work, mut marks) = rooms();
    let mut searched = |task: &Task, rounds: usize| {
        let bytes = record::write(task);
        let kept = entry::relax(&bytes, &mut plan).unwrap() as usize;
        let list = plan[..kept].repeat(rounds);
        let result = entry::repair(&bytes, &list, &mut plan, &mut work, &mut marks).unwrap();
        let asked = asked(task, &list).unwrap();
        assert_eq!(asked.searches(Count::Places), result.searches as usize);
        let most = asked.stops.iter().map(|stop| stop.places.len()).max().unwrap();
        (list.len(), result.steps, result.searches, most)
    };
    let own = searched(&extremes::served_tower(random, 3, 22), 1);
    assert_eq!(own, (65, 26_987, 377_522, 123_787));
    let callers = searched(&extremes::served_tower(random, 2, 2), 4096);
    assert_eq!(callers, (16_384, 24_576, 229_362, 29));
}

#[test]
fn the_lift_tells_counts_apart() {
    let task = examples::lift();
    let asked = asked(&task, &[0, 2, 4]).unwrap();
    assert_eq!(asked.searches(Count::Places), 6);
    assert_eq!(OTHERS.map(|count| asked.searches(count)), [3, 5, 4, 7]);
    assert_eq!(ceiling(&task, &[0, 2, 4]), 24);
}

/// Without relaxed actions there is no search, whatever the goals.
#[test]
fn nothing_to_do_nothing_to_search() {
    let task = examples::goal_met();
    let asked = asked(&task, &[]).unwrap();
    assert_eq!(asked.searches(Count::Places), 0);
    assert_eq!(asked.searches(Count::WithoutInsertion), 1);
}
