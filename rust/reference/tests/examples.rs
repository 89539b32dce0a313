//! The examples of clause 12, through every entry point that they speak of.

use reference::entry::{ForwardResult, Judgement, PlanResult, NO_ENTRY};
use reference::state::Run;
use reference::{examples, listing, record, search, Refusal, Task};
use std::fs;
use std::path::{Path, PathBuf};

const REST: u16 = NO_ENTRY;

/// The planner with lists and mark area of the given lengths; plan and marks come back.
fn marked(task: &Task, lent: [usize; 3]) -> (Result<PlanResult, Refusal>, Vec<u16>, Vec<u8>) {
    let (mut plan, mut work, mut marks) = (vec![7; lent[0]], vec![9; lent[1]], vec![5; lent[2]]);
    let answer = reference::plan(&record::write(task), &mut plan, &mut work, &mut marks);
    assert!(work.iter().all(|&entry| entry == REST));
    let steps = answer.map_or(0, |result| result.steps as usize);
    assert!(plan[steps..].iter().all(|&entry| entry == REST));
    assert!(marks[steps..].iter().all(|&mark| mark == 0));
    (answer, plan, marks)
}

fn plan(task: &Task, lent: usize, work: usize) -> (Result<PlanResult, Refusal>, Vec<u16>) {
    let (answer, plan, _) = marked(task, [lent, work, 50_000]);
    (answer, plan)
}

fn refused(task: &Task) -> (u8, u32) {
    let refusal = plan(task, 100, 100).0.unwrap_err();
    (refusal.number, refusal.place)
}

#[test]
fn two_shelves() {
    let expected = PlanResult { steps: 4, cost: 10, runs: 4, searches: 1, real: true };
    let (answer, list) = plan(&examples::two_shelves(), 6, 5);
    assert_eq!(answer, Ok(expected));
    assert_eq!(list, [0, 2, 1, 3, REST, REST]);
}

#[test]
fn two_shelves_at_its_capacity() {
    let task = examples::two_shelves();
    assert_eq!(plan(&task, 4, 4).1, [0, 2, 1, 3]);
    for (lent, work) in [(3, 3), (3, 4), (4, 3), (40_000, 3)] {
        assert_eq!(plan(&task, lent, work).0, Err(Refusal::new(11, 3)));
    }
    assert_eq!(plan(&task, 0, 4).0, Err(Refusal::new(11, 0)));
}

#[test]
fn two_shelves_with_an_action_missing() {
    assert_eq!(refused(&examples::two_shelves().without(1)), (8, 0));
    assert_eq!(refused(&examples::two_shelves().without(2)), (10, 3));
}

#[test]
fn lamp() {
    let none = PlanResult { steps: 0, cost: 0, runs: 0, searches: 0, real: true };
    assert_eq!(plan(&examples::lamp(1), 1, 1).0, Ok(none));
    assert_eq!(refused(&examples::lamp(2)), (8, 0));
}

#[test]
fn two_black_effects() {
    assert_eq!(refused(&examples::two_black_effects()), (7, 0));
}

#[test]
fn no_bytes() {
    let mut list = [3; 3];
    assert_eq!(reference::judge(&[], &[]), Err(Refusal::new(1, 0)));
    assert_eq!(reference::forward(&[], &mut list), Err(Refusal::new(1, 0)));
    assert_eq!(list, [REST; 3]);
}

#[test]
fn goal_met_at_the_start() {
    let none = PlanResult { steps: 0, cost: 0, runs: 0, searches: 0, real: true };
    assert_eq!(plan(&examples::goal_met(), 0, 0), (Ok(none), vec![]));
}

#[test]
fn tray() {
    let (answer, list) = plan(&examples::tray(), 3, 3);
    assert_eq!(answer, Ok(PlanResult { steps: 2, cost: 2, runs: 1, searches: 0, real: false }));
    assert_eq!(list, [0, 1, REST]);
}

#[test]
fn clients_come_before_their_servants() {
    let (answer, list) = plan(&examples::door(), 8, 8);
    assert_eq!(answer, Ok(PlanResult { steps: 7, cost: 14, runs: 7, searches: 5, real: true }));
    assert_eq!(list, [0, 2, 1, 4, 0, 3, 1, REST]);
}

#[test]
fn inserted_moves_add_red_facts() {
    let (answer, list) = plan(&examples::lit_return(), 6, 6);
    assert_eq!(answer, Ok(PlanResult { steps: 5, cost: 13, runs: 5, searches: 2, real: true }));
    assert_eq!(list, [1, 3, 2, 4, 0, REST]);
}

#[test]
fn cheap_comes_before_low_numbered() {
    let task = examples::two_shelves_with_4();
    let (answer, list) = plan(&task, 5, 5);
    assert_eq!(answer, Ok(PlanResult { steps: 4, cost: 9, runs: 4, searches: 1, real: true }));
    assert_eq!(list, [4, 2, 1, 3, REST]);
    let expected = "reached 5\nrelaxed 3 4 2 3\nplan 4 9 4 2 1 3\nreal 4\n";
    assert_eq!(listing::listing(&record::write(&task)), expected);
}

#[test]
fn a_gate_that_is_needed_and_set_again_is_accepted() {
    let task = examples::gate();
    let (answer, list) = plan(&task, 8, 8);
    assert_eq!(answer, Ok(PlanResult { steps: 7, cost: 14, runs: 7, searches: 5, real: true }));
    assert_eq!(list, [0, 2, 1, 4, 0, 3, 1, REST]);
    assert_eq!(plan(&task, 6, 8).0, Err(Refusal::new(11, 6)));
    assert_eq!(refused(&task.without(3)), (8, 2));
    let expected = "reached 6\nrelaxed 3 0 2 4\nplan 7 14 0 2 1 4 0 3 1\nreal 7\n";
    assert_eq!(listing::listing(&record::write(&task)), expected);
}

/// The listing of a real plan.
fn listed(reached: usize, relaxed: &[u16], cost: u32, steps: &[u16]) -> String {
    let words = |list: &[u16]| list.iter().map(|number| format!(" {number}")).collect::<String>();
    let relaxed = format!("relaxed {}{}", relaxed.len(), words(relaxed));
    let plan = format!("plan {} {cost}{}", steps.len(), words(steps));
    format!("reached {reached}\n{relaxed}\n{plan}\nreal {}\n", steps.len())
}

#[test]
fn the_cheaper_way_back_is_taken_though_it_is_longer() {
    let task = examples::detour();
    let (answer, list) = plan(&task, 6, 5);
    assert_eq!(answer, Ok(PlanResult { steps: 5, cost: 5, runs: 5, searches: 1, real: true }));
    assert_eq!(list, [1, 2, 6, 3, 4, REST]);
    assert_eq!(plan(&task, 4, 6).0, Err(Refusal::new(11, 4)));
    let expected = listed(5, &[1, 2, 6], 5, &[1, 2, 6, 3, 4]);
    assert_eq!(listing::listing(&record::write(&task)), expected);
}

#[test]
fn of_ways_at_the_same_cost_the_one_of_fewest_moves_is_taken() {
    let expected = listed(6, &[0, 1, 2, 8], 1, &[0, 1, 2, 8, 6]);
    assert_eq!(listing::listing(&record::write(&examples::ring())), expected);
}

#[test]
fn of_ways_as_long_the_one_that_begins_with_the_lower_action_is_taken() {
    let expected = listed(6, &[0, 1, 2, 10], 7, &[0, 1, 2, 10, 3, 6]);
    assert_eq!(listing::listing(&record::write(&examples::diamond())), expected);
}

/// The examples with a plan in which something is inserted, and the searches of the repair.
#[test]
fn searches() {
    let tasks = [
        (examples::two_shelves(), 1),
        (examples::door(), 5),
        (examples::lit_return(), 2),
        (examples::newest(), 1),
        (examples::two_shelves_with_4(), 1),
        (examples::gate(), 5),
        (examples::detour(), 1),
        (examples::ring(), 1),
        (examples::diamond(), 1),
        (examples::lift(), 6),
    ];
    for (task, searches) in tasks {
        assert_eq!(plan(&task, 8, 8).0.unwrap().searches, searches);
    }
}

#[test]
fn searches_with_nothing_to_find_count_too() {
    let task = examples::lift();
    let (answer, list) = plan(&task, 7, 6);
    assert_eq!(answer, Ok(PlanResult { steps: 6, cost: 11, runs: 6, searches: 6, real: true }));
    assert_eq!(list, [0, 2, 3, 4, 2, 1, REST]);
    assert_eq!(plan(&task, 5, 6).0, Err(Refusal::new(11, 5)));
    let expected = listed(6, &[0, 2, 4], 11, &[0, 2, 3, 4, 2, 1]);
    assert_eq!(listing::listing(&record::write(&task)), expected);
}

/// 12.24, and the other examples.
#[test]
fn marks() {
    let tasks: [(Task, &[u8]); 7] = [
        (examples::two_shelves(), &[0, 0, 1, 0]),
        (examples::lift(), &[0, 0, 1, 0, 1, 1]),
        (examples::door(), &[0, 0, 1, 0, 1, 1, 1]),
        (examples::lit_return(), &[0, 0, 1, 0, 1]),
        (examples::detour(), &[0, 0, 0, 1, 1]),
        (examples::tray(), &[0, 0]),
        (examples::goal_met(), &[]),
    ];
    for (task, expected) in tasks {
        let steps = expected.len();
        for lent in [[steps; 3], [steps + 2, steps + 1, steps + 3], [steps, steps, 40_000]] {
            let (answer, _, marks) = marked(&task, lent);
            assert_eq!(answer.unwrap().steps as usize, steps);
            assert_eq!(marks[..steps], *expected);
        }
    }
}

#[test]
fn the_mark_area_counts() {
    let full = |place| Err(Refusal::new(11, place));
    assert_eq!(marked(&examples::lift(), [7, 6, 5]).0, full(5));
    assert_eq!(marked(&examples::lift(), [40_000, 40_000, 5]).0, full(5));
    assert_eq!(marked(&examples::two_shelves(), [4, 4, 3]).0, full(3));
    assert_eq!(marked(&examples::two_shelves(), [4, 3, 2]).0, full(2));
    assert_eq!(marked(&examples::two_shelves(), [2, 3, 4]).0, full(2));
    assert_eq!(marked(&examples::tray(), [2, 2, 1]).0, full(1));
    assert_eq!(marked(&examples::two_shelves(), [4, 4, 0]).0, full(0));
}

/// Repairs the relaxed plan that is left when the marked steps are taken away.
#[test]
fn without_the_marked_steps_the_relaxed_plan_is_left() {
    for (name, bytes) in examples::files() {
        let (mut plan, mut work, mut marks) = ([0; 16], [0; 16], [0; 16]);
        let answer = reference::plan(&bytes, &mut plan, &mut work, &mut marks);
        let Ok(result) = answer else { continue };
        let steps = result.steps as usize;
        let kept = (0..steps).filter(|&i| marks[i] == 0).map(|i| plan[i]);
        let kept: Vec<u16> = kept.collect();
        let mut relaxed = [0; 16];
        let count = reference::relax(&bytes, &mut relaxed).unwrap() as usize;
        assert_eq!(kept, relaxed[..count], "{name}");
        let (mut again, mut remarked) = ([1; 16], [1; 16]);
        let repaired = reference::repair(&bytes, &kept, &mut again, &mut work, &mut remarked);
        assert_eq!((repaired, again, remarked), (answer, plan, marks), "{name}");
    }
}

#[test]
fn runs_of_lit_return() {
    let bytes = record::write(&examples::lit_return());
    let mut list = [0; 4];
    let forward = reference::forward(&bytes, &mut list);
    assert_eq!(forward, Ok(ForwardResult { steps: 3, reached: 6 }));
    assert_eq!(list, [1, 3, 4, REST]);
    assert_eq!(reference::relax(&bytes, &mut list), Ok(3));
    assert_eq!(list, [1, 3, 4, REST]);
}

#[test]
fn a_variable_stands_once_in_a_list() {
    assert_eq!(refused(&examples::repeated_variable()), (5, 78));
}

fn root() -> PathBuf {
    Path::new(env!("CARGO_MANIFEST_DIR")).join("../..")
}

fn file(name: &str) -> Vec<u8> {
    fs::read(root().join("examples").join(name).with_extension("record")).unwrap()
}

#[test]
fn files_are_as_written() {
    for (name, bytes) in examples::files() {
        assert_eq!(file(name), bytes, "{name}");
    }
}

/// A definition of bytes in the proved table: the name in the comment above it, and the bytes.
fn proved(block: &str) -> Option<(&str, Vec<u8>)> {
    let (comment, rest) = block.split_once('\n')?;
    let (_, bytes) = rest.split_once(" : List ℕ\n")?.1.split_once(" =\n")?;
    let (name, _) = comment.strip_prefix("-- ")?.split_once(',')?;
    let numbers = bytes.split('∷').map(str::trim).filter(|&number| number != "[]");
    Some((name, numbers.map(|number| number.parse().unwrap()).collect()))
}

#[test]
fn proved_records_are_the_files() {
    let table = root().join("crates/planning/proofs/Acceptance.antt");
    let text = fs::read_to_string(table).unwrap();
    let records: Vec<_> = text.split("\n\n").filter_map(proved).collect();
    assert_eq!(records.len(), 18);
    for (name, bytes) in records {
        assert_eq!(file(name), bytes, "{name}");
    }
}

/// The bytes that the specification shows, in hexadecimal, all of them one after the other.
fn shown() -> String {
    let text = fs::read_to_string(root().join("docs/SPECIFICATION.md")).unwrap();
    let hex = |word: &&str| word.len() == 2 && u8::from_str_radix(word, 16).is_ok();
    let rows = text.lines().filter(|line| line.starts_with("    "));
    rows.flat_map(|row| row.split_whitespace().filter(hex)).collect()
}

#[test]
fn the_specification_shows_the_files() {
    let shown = shown();
    let hex = |bytes: &[u8]| bytes.iter().map(|byte| format!("{byte:02x}")).collect::<String>();
    for (name, bytes) in examples::files() {
        assert!(bytes.len() > 80 || shown.contains(&hex(&bytes)), "{name}");
    }
}

#[test]
fn the_specification_shows_the_sheets() {
    let (shown, mut bytes) = (shown(), [0; 16]);
    let mut shows = |list: &[u16], marks: &[u8], edition, cost, real| {
        let size = reference::write_sheet(list, marks, edition, cost, real, &mut bytes).unwrap();
        let sheet = &bytes[..size as usize];
        let hex: String = sheet.iter().map(|byte| format!("{byte:02x}")).collect();
        assert!(shown.contains(&hex), "{list:?}");
    };
    shows(&[0, 2, 1, 3], &[], 1, 10, true);
    shows(&[0, 1], &[], 1, 2, false);
    shows(&[], &[], 1, 0, true);
    shows(&[0, 2, 1, 3], &[0, 0, 1, 0], 2, 10, true);
    shows(&[0, 2, 3, 4, 2, 1], &[0, 0, 1, 0, 1, 1], 2, 11, true);
}

#[test]
fn counts_at_their_ranges() {
    let refused = |task: &Task| {
        let answer = plan(task, 2, 2).0;
        answer.err().map(|refusal| (refusal.number, refusal.place))
    };
    assert_eq!(refused(&examples::sized(64, 1024, 15)), None);
    assert_eq!(refused(&examples::sized(65, 1024, 15)), Some((3, 4)));
    assert_eq!(refused(&examples::sized(64, 1025, 15)), Some((3, 11)));
}

#[test]
fn runs_of_two_shelves() {
    let bytes = record::write(&examples::two_shelves());
    let mut list = [0; 5];
    let forward = reference::forward(&bytes, &mut list);
    assert_eq!(forward, Ok(ForwardResult { steps: 3, reached: 5 }));
    assert_eq!(list, [0, 2, 3, REST, REST]);
    assert_eq!(reference::relax(&bytes, &mut list[..3]), Ok(3));
    assert_eq!(reference::relax(&bytes, &mut list[..2]), Err(Refusal::new(11, 2)));
    assert_eq!(list, [REST, REST, 3, REST, REST]);
}

#[test]
fn judging_two_shelves() {
    let bytes = record::write(&examples::two_shelves());
    let run = |steps, plan| Run { steps, plan };
    let relaxed_only =
        Judgement { relaxed: run(3, true), red_black: run(2, false), real: run(2, false) };
    assert_eq!(reference::judge(&bytes, &[0, 2, 3]), Ok(relaxed_only));
    let all = Judgement { relaxed: run(4, true), red_black: run(4, true), real: run(4, true) };
    assert_eq!(reference::judge(&bytes, &[0, 2, 1, 3]), Ok(all));
    assert_eq!(reference::judge(&bytes, &[0, 4, 5]), Err(Refusal::new(9, 1)));
    assert_eq!(reference::judge(&bytes, &[4; 32_769]), Err(Refusal::new(13, 32_768)));
    assert!(reference::judge(&bytes, &[0; 32_768]).is_ok());
}

#[test]
fn repair_of_a_callers_relaxed_plan() {
    let bytes = record::write(&examples::two_shelves());
    let repair = |relaxed: &[u16]| {
        let (mut plan, mut work, mut marks) = ([1; 8], [1; 8], [9; 7]);
        let answer = reference::repair(&bytes, relaxed, &mut plan, &mut work, &mut marks);
        assert_eq!(work, [REST; 8]);
        (answer, plan, marks)
    };
    let (answer, plan, marks) = repair(&[0, 0, 2, 3]);
    assert_eq!(answer, Ok(PlanResult { steps: 6, cost: 18, runs: 6, searches: 2, real: true }));
    assert_eq!(plan, [0, 1, 0, 2, 1, 3, REST, REST]);
    assert_eq!(marks, [0, 1, 0, 0, 1, 0, 0]);
    let (_, plan, marks) = repair(&[0, 2, 1, 3]);
    assert_eq!((plan[..5].to_vec(), marks), (vec![0, 2, 1, 3, REST], [0; 7]));
    let faulty: [(&[u16], usize); 5] =
        [(&[2], 0), (&[0, 3, 9], 1), (&[0, 9, 3], 1), (&[0, 2], 2), (&[], 0)];
    for (relaxed, place) in faulty {
        assert_eq!(repair(relaxed), (Err(Refusal::new(9, place)), [REST; 8], [0; 7]));
    }
    assert_eq!(repair(&[9; 32_769]).0, Err(Refusal::new(13, 32_768)));
}

#[test]
fn listing_of_two_shelves() {
    let two_shelves = record::write(&examples::two_shelves());
    let expected = "reached 5\nrelaxed 3 0 2 3\nplan 4 10 0 2 1 3\nreal 4\n";
    assert_eq!(listing::listing(&two_shelves), expected);
    assert_eq!(listing::listing(&[]), "refused 1 0\n");
}

#[test]
fn search_agrees() {
    let found = |task: &Task| search::has_red_black_plan(task, 1000);
    assert_eq!(found(&examples::two_shelves()), Some(true));
    assert_eq!(found(&examples::two_shelves().without(2)), Some(false));
    assert_eq!(found(&examples::tray()), Some(true));
    assert_eq!(found(&examples::gate()), Some(true));
    assert_eq!(found(&examples::diamond()), Some(true));
}
