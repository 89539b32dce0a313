//! The reference against itself on drawn stores: plans are judged, and 'no plan' is searched.

use generate::{extremes, mixture, stores, Random};
use reference::entry::{self, PlanResult, MAX_STEPS};
use reference::{record, search, Refusal, Task};

fn plan(task: &Task) -> (Result<PlanResult, Refusal>, Vec<u16>) {
    let (mut plan, mut work) = (vec![0; MAX_STEPS], vec![0; MAX_STEPS]);
    let mut marks = vec![0; MAX_STEPS];
    let answer = entry::plan(&record::write(task), &mut plan, &mut work, &mut marks);
    plan.truncate(answer.map_or(0, |result| result.steps as usize));
    (answer, plan)
}

/// The product of the black variables' counts of values.
fn black_states(task: &Task) -> u128 {
    let black = task.variables.iter().filter(|variable| variable.black);
    black.fold(1, |product: u128, variable| product.saturating_mul(u128::from(variable.values)))
}

fn check_plan(task: &Task, result: PlanResult, plan: &[u16]) {
    let bytes = record::write(task);
    let judged = entry::judge(&bytes, plan).unwrap();
    assert!(judged.red_black.plan && judged.relaxed.plan);
    assert_eq!((judged.real.steps, judged.real.plan), (result.runs, result.real));
    let relaxed = entry::relax(&bytes, &mut [0; 1024]).unwrap();
    assert!(u128::from(result.steps) <= u128::from(relaxed) * black_states(task));
}

#[test]
fn plans_and_their_absence() {
    let random = &mut Random::new(20);
    let (mut planned, mut absent) = (0, 0);
    for _ in 0..4000 {
        let task = mixture::small_task(random);
        let (answer, list) = plan(&task);
        let searched = search::has_red_black_plan(&task, 400);
        match answer {
            Ok(result) => {
                check_plan(&task, result, &list);
                assert_ne!(searched, Some(false));
                planned += 1;
            }
            Err(Refusal { number: 10, .. }) => {
                assert_ne!(searched, Some(true));
                absent += 1;
            }
            Err(_) => {}
        }
    }
    assert!(planned > 1000 && absent > 200, "{planned} {absent}");
}

#[test]
fn repair_is_stable() {
    let random = &mut Random::new(21);
    for _ in 0..2000 {
        let task = stores::store(random, stores::SMALL);
        let (Ok(result), list) = plan(&task) else { continue };
        let (mut again, mut work, mut marks) = (list.clone(), list.clone(), vec![1; list.len()]);
        let bytes = record::write(&task);
        let answer = entry::repair(&bytes, &list, &mut again, &mut work, &mut marks);
        assert_eq!((answer, again), (Ok(PlanResult { searches: 0, ..result }), list));
        assert!(marks.iter().all(|&mark| mark == 0));
    }
}

#[test]
fn extremes_do_what_they_are_for() {
    let random = &mut Random::new(22);
    let mut list = [0; 1024];
    let chain = record::write(&extremes::chain(random, 1024));
    assert_eq!(chain.len(), 49_314);
    assert_eq!(entry::forward(&chain, &mut list).unwrap().steps, 1024);
    assert_eq!(entry::relax(&chain, &mut list), Ok(1024));
    let rounds: Vec<u16> = (0..1024).cycle().take(MAX_STEPS).collect();
    let wheel = record::write(&extremes::wheel(random));
    assert!(entry::judge(&wheel, &rounds).unwrap().real.plan);
    assert_eq!(plan(&extremes::returns(random, 1024)).0.unwrap().steps, 0);
    let gates = extremes::gates(random, 1024);
    assert_eq!(plan(&gates).0.unwrap().steps, 0);
    assert_eq!(plan(&gates.without(700)).0, Err(Refusal::new(8, 684)));
    let steps = plan(&stores::tower(random, 5, 5, 33)).0.unwrap().steps;
    assert!((15_000..17_000).contains(&steps), "{steps}");
    let far = plan(&stores::tower(random, 16, 16, 4)).0;
    assert_eq!(far, Err(Refusal::new(11, MAX_STEPS)));
}
