//! Stores with ways to choose from show which of them is taken.

use generate::repair::{repaired, Rule, OTHERS};
use generate::{listings, mixture, prices, Random};
use reference::painting::painting;
use reference::{entry, record, search, Refusal, Task};

const ROOM: usize = 400;

fn plan(task: &Task) -> (Result<entry::PlanResult, Refusal>, Vec<u16>) {
    let (mut plan, mut work) = (vec![0; ROOM], vec![0; ROOM]);
    let answer = entry::plan(&record::write(task), &mut plan, &mut work, &mut [0; ROOM]);
    plan.truncate(answer.map_or(0, |result| result.steps as usize));
    (answer, plan)
}

fn relaxed(task: &Task) -> Vec<u16> {
    let mut list = vec![0; 1024];
    let kept = entry::relax(&record::write(task), &mut list).unwrap();
    list.truncate(kept as usize);
    list
}

/// Of how many tasks the plan would be another one by each of the other rules.
fn others(tasks: impl Iterator<Item = Task>) -> [usize; 3] {
    let mut counts = [0; 3];
    for task in tasks.filter(|task| task.action_count() <= 100) {
        let (Ok(_), list) = plan(&task) else { continue };
        let relaxed = relaxed(&task);
        if list == relaxed {
            continue;
        }
        for (count, rule) in counts.iter_mut().zip(OTHERS) {
            *count += usize::from(repaired(&task, &relaxed, rule).as_ref() != Some(&list));
        }
    }
    counts
}

#[test]
fn drawn_plans_tell_rules_apart() {
    let random = &mut Random::new(100);
    let enough = |counts: [usize; 3], least: [usize; 3]| {
        assert!(counts.iter().zip(least).all(|(&count, least)| count >= least), "{counts:?}");
    };
    enough(others((0..4000).map(|_| prices::store(random))), [2000, 1300, 200]);
    enough(others((0..10_000).map(|_| mixture::task(random))), [2000, 1000, 180]);
}

#[test]
fn listings_tell_rules_apart() {
    let records = listings::records();
    let counts = others(records.iter().filter_map(|bytes| record::read(bytes).ok()));
    assert!(counts.iter().all(|&count| count > 0), "{counts:?}");
}

#[test]
fn paintings_are_accepted_and_plans_found_by_search_too() {
    let random = &mut Random::new(101);
    let (mut planned, mut absent) = (0, 0);
    for _ in 0..4000 {
        let task = prices::store(random);
        assert!(painting(&task).is_ok());
        let searched = search::has_red_black_plan(&task, 400);
        match plan(&task).0 {
            Ok(_) => {
                assert_ne!(searched, Some(false));
                planned += 1;
            }
            Err(Refusal { number: 10, .. }) => {
                assert_ne!(searched, Some(true));
                absent += 1;
            }
            Err(refusal) => assert_eq!(refusal.number, 11),
        }
    }
    assert!(planned > 2000 && absent > 50, "{planned} {absent}");
}

/// The three examples, each told from one rule at least.
#[test]
fn examples_tell_rules_apart() {
    use reference::examples::{detour, diamond, ring};
    let by = |task: &Task, rule: Rule| repaired(task, &relaxed(task), rule).unwrap();
    let (detour, ring, diamond) = (detour(), ring(), diamond());
    assert_eq!(by(&detour, Rule::FewestMoves), [1, 2, 6, 0]);
    assert_eq!(by(&ring, Rule::MovesForgotten), [0, 1, 2, 8, 3, 4, 5]);
    assert_eq!(by(&diamond, Rule::MovesForgotten), [0, 1, 2, 10, 3, 1, 5]);
    assert_eq!(by(&diamond, Rule::FromTheEnd), [0, 1, 2, 10, 4, 5]);
    for task in [detour, ring, diamond] {
        assert_eq!(by(&task, Rule::Cheapest), plan(&task).1);
    }
}
