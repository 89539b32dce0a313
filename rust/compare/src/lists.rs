//! Lists of actions: all short ones, walks, plans, damaged ones, and long ones.

use generate::Random;
use reference::state::{Semantics, State};
use reference::{entry, Task};

const MAX_STEPS: usize = entry::MAX_STEPS;

/// Every list of at most four entries, each a low or the last action of the task or none of its
/// actions.
pub fn every_short(task: &Task) -> Vec<Vec<u16>> {
    let actions = task.action_count() as u16;
    let ends = [actions.saturating_sub(1), actions];
    let mut numbers: Vec<u16> = (0..actions.min(5)).chain(ends).collect();
    numbers.dedup();
    let mut lists = vec![Vec::new()];
    let mut done = 0;
    while lists[done].len() < 4 {
        let longer = numbers.iter().map(|&number| [&lists[done][..], &[number]].concat());
        let longer: Vec<Vec<u16>> = longer.collect();
        lists.extend(longer);
        done += 1;
    }
    lists
}

/// A list to judge.
pub fn judged(random: &mut Random, task: &Task, record: &[u8]) -> Vec<u16> {
    if random.chance(1, 600) {
        return long(random, task);
    }
    match random.below(8) {
        0 => entries(random, task, 6),
        1 | 2 => walk(random, task, &Semantics::red_black(task), 20),
        3 => walk(random, task, &Semantics::real(), 20),
        4 => walk(random, task, &Semantics::relaxed(), 20),
        5 => plan(record),
        6 => damaged(random, task, plan(record)),
        _ => {
            let walk = walk(random, task, &Semantics::real(), 20);
            damaged(random, task, walk)
        }
    }
}

/// A list that runs red-black up to a step that does not, if some action does not apply there; others follow.
pub fn stopping(random: &mut Random, task: &Task) -> Vec<u16> {
    let semantics = Semantics::red_black(task);
    let mut list = walk(random, task, &semantics, 20);
    let mut state = State::initial(task);
    list.iter().for_each(|&number| state.apply(task.action(number.into()), &semantics));
    let fails = |&number: &usize| !state.holds_all(task.preconditions(number));
    let first = random.below(task.action_count().max(1));
    let turned = (first..task.action_count()).chain(0..first);
    list.extend(turned.into_iter().find(fails).map(|number| number as u16));
    list.extend(walk(random, task, &semantics, 5));
    list
}

/// A list to repair, a relaxed plan in most cases.
pub fn relaxed(random: &mut Random, task: &Task, record: &[u8]) -> Vec<u16> {
    if random.chance(1, 600) {
        return long(random, task);
    }
    match random.below(8) {
        0 => forward_run(record),
        1 => relaxed_plan(record),
        2..=5 => relaxed_walk(random, task, record),
        6 => plan(record),
        _ => {
            let walk = relaxed_walk(random, task, record);
            damaged(random, task, walk)
        }
    }
}

/// A random walk that repeats actions, and then the forward run, so that the goals are reached.
fn relaxed_walk(random: &mut Random, task: &Task, record: &[u8]) -> Vec<u16> {
    let mut list = walk(random, task, &Semantics::relaxed(), 8);
    let run = if random.chance(1, 2) { forward_run(record) } else { relaxed_plan(record) };
    list.extend(run);
    list
}

fn front(list: Vec<u16>) -> Vec<u16> {
    list.into_iter().take_while(|&entry| entry != entry::NO_ENTRY).collect()
}

fn forward_run(record: &[u8]) -> Vec<u16> {
    let mut list = vec![0; 1024];
    let _ = entry::forward(record, &mut list);
    front(list)
}

pub fn relaxed_plan(record: &[u8]) -> Vec<u16> {
    let mut list = vec![0; 1024];
    let _ = entry::relax(record, &mut list);
    front(list)
}

/// The relaxed plan again and again.
pub fn rounds(record: &[u8], len: usize) -> Vec<u16> {
    relaxed_plan(record).into_iter().cycle().take(len).collect()
}

fn plan(record: &[u8]) -> Vec<u16> {
    let (mut list, mut work) = (vec![0; 300], vec![0; 300]);
    let _ = entry::plan(record, &mut list, &mut work, &mut [0; 300]);
    front(list)
}

/// Any entries, most of them below A.
fn entries(random: &mut Random, task: &Task, most: usize) -> Vec<u16> {
    let len = random.within(0, most);
    (0..len).map(|_| entry(random, task)).collect()
}

fn entry(random: &mut Random, task: &Task) -> u16 {
    match random.below(12) {
        0 => faulty(random, task),
        _ => random.below(task.action_count().max(1)) as u16,
    }
}

fn faulty(random: &mut Random, task: &Task) -> u16 {
    let actions = task.action_count();
    *random.pick(&[actions as u16, actions as u16 + 1, 1024, 65_535])
}

/// Applicable actions, each chosen at random.
fn walk(random: &mut Random, task: &Task, semantics: &Semantics, most: usize) -> Vec<u16> {
    let mut state = State::initial(task);
    let mut list = Vec::new();
    for _ in 0..random.within(0, most) {
        let Some(number) = applicable(random, task, &state) else { break };
        state.apply(task.action(number), semantics);
        list.push(number as u16);
    }
    list
}

fn applicable(random: &mut Random, task: &Task, state: &State) -> Option<usize> {
    let count = task.action_count();
    let first = random.below(count.max(1));
    let turned = (first..count).chain(0..first);
    turned.into_iter().find(|&number| state.holds_all(task.action(number).preconditions))
}

/// An entry replaced, repeated, taken out or added.
fn damaged(random: &mut Random, task: &Task, mut list: Vec<u16>) -> Vec<u16> {
    let at = random.below(list.len() + 1);
    let entry = entry(random, task);
    match random.below(3) {
        0 if at < list.len() => list[at] = entry,
        1 if at < list.len() => drop(list.remove(at)),
        _ => list.insert(at, entry),
    }
    list
}

/// A list around or far over the longest allowed, made of one walk again and again.
fn long(random: &mut Random, task: &Task) -> Vec<u16> {
    let piece = walk(random, task, &Semantics::real(), 20);
    let piece = if piece.is_empty() { vec![0] } else { piece };
    let len = match random.below(4) {
        0 => random.within(MAX_STEPS + 1, 40_000),
        _ => random.within(MAX_STEPS - 2, MAX_STEPS + 1),
    };
    let mut list: Vec<u16> = piece.into_iter().cycle().take(len).collect();
    if random.chance(1, 3) {
        let at = random.below(len);
        list[at] = faulty(random, task);
    }
    list
}
