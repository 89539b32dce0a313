//! The entry points over a record: checks in order, and what lent lists hold afterwards
//! (SPECIFICATION, When it declines; Space and verdict).

use crate::forward::Forward;
use crate::index::Numbers;
use crate::judge::{real_run, Judge};
use crate::newest::newest_values;
use crate::painting::Painting;
use crate::record;
use crate::refusal::Refusal;
use crate::repair::{Repair, Repaired};
use crate::state::State;
use crate::task::Task;
use std::cell::RefCell;

pub use crate::judge::Judgement;

pub const MAX_STEPS: usize = 32_768;
pub const NO_ENTRY: u16 = 65_535;

#[derive(Clone, Copy, Debug, PartialEq, Eq)]
pub struct ForwardResult {
    pub steps: u32,
    pub reached: u32,
}

#[derive(Clone, Copy, Debug, PartialEq, Eq)]
pub struct PlanResult {
    pub steps: u32,
    pub cost: u32,
    /// The steps that run for real, from the front (7.8).
    pub runs: u32,
    /// The path searches of the repair (6.9).
    pub searches: u32,
    pub real: bool,
}

#[derive(Clone, Copy, Debug, PartialEq, Eq)]
pub struct NewestResult {
    /// The steps that run red-black.
    pub steps: u32,
    /// The steps that run for real.
    pub runs: u32,
}

/// What calls work in.
struct Room {
    task: Task,
    forward: Forward,
    painting: Painting,
    repair: Repair,
    judge: Judge,
}

thread_local! {
    static ROOM: RefCell<Room> = RefCell::new(Room {
        task: Task::default(),
        forward: Forward::new(),
        painting: Painting::new(),
        repair: Repair::new(),
        judge: Judge::new(),
    });
}

/// Reads the record and calls `then`, with the room whose task it is.
fn with<T>(
    record: &[u8],
    then: impl FnOnce(&mut Room) -> Result<T, Refusal>,
) -> Result<T, Refusal> {
    ROOM.with_borrow_mut(|room| {
        record::load(record, &mut room.task)?;
        then(room)
    })
}

pub fn judge(record: &[u8], list: &[u16]) -> Result<Judgement, Refusal> {
    with(record, |Room { task, judge, .. }| {
        check_length(list)?;
        check_entries(task, list)?;
        Ok(judge.run(task, list))
    })
}

/// The newest value of each variable where the red-black run stops (3.13).
pub fn newest(record: &[u8], list: &[u16], values: &mut [u16]) -> Result<NewestResult, Refusal> {
    let lent = values.len();
    let answer = with(record, |Room { task, judge, .. }| {
        check_length(list)?;
        check_entries(task, list)?;
        let room = values.split_at_mut_checked(task.variables.len());
        let (front, rest) = room.ok_or(Refusal::new(11, lent))?;
        let (runs, steps) = judge.steps(task, list);
        newest_values(task, &list[..steps], front);
        rest.fill(NO_ENTRY);
        Ok(NewestResult { steps: steps as u32, runs: runs as u32 })
    });
    if answer.is_err() {
        values.fill(NO_ENTRY);
    }
    answer
}

pub fn forward(record: &[u8], plan: &mut [u16]) -> Result<ForwardResult, Refusal> {
    let answer = with(record, |Room { task, forward, .. }| {
        forward.run(task)?;
        let steps = fit(&forward.actions, plan)?;
        Ok(ForwardResult { steps, reached: forward.reached })
    });
    fill_rest(plan, answer.map_or(0, |result| result.steps));
    answer
}

/// The relaxed plan (4.7); answers its steps.
pub fn relax(record: &[u8], plan: &mut [u16]) -> Result<u32, Refusal> {
    let answer = with(record, |Room { task, forward, .. }| {
        forward.run(task)?;
        forward.keep_needed(task);
        fit(&forward.actions, plan)
    });
    fill_rest(plan, answer.unwrap_or(0));
    answer
}

/// Repairs the caller's relaxed plan (6, 9.6).
pub fn repair(
    record: &[u8],
    relaxed: &[u16],
    plan: &mut [u16],
    work: &mut [u16],
    marks: &mut [u8],
) -> Result<PlanResult, Refusal> {
    marked(plan, work, marks, |plan, marks| {
        with(record, |Room { task, painting, repair, .. }| {
            painting.check(task)?;
            check_length(relaxed)?;
            check_relaxed_plan(task, relaxed)?;
            let repaired = repair.run(task, painting, relaxed, plan, marks)?;
            Ok(verdict(task, painting.black, plan, repaired))
        })
    })
}

/// The planner: from a record to a repaired plan.
pub fn plan(
    record: &[u8],
    plan: &mut [u16],
    work: &mut [u16],
    marks: &mut [u8],
) -> Result<PlanResult, Refusal> {
    marked(plan, work, marks, |plan, marks| {
        with(record, |Room { task, forward, painting, repair, .. }| {
            painting.check(task)?;
            forward.run(task)?;
            forward.keep_needed(task);
            let repaired = repair.run(task, painting, &forward.actions, plan, marks)?;
            Ok(verdict(task, painting.black, plan, repaired))
        })
    })
}

/// Calls `repair` with plan list and mark area cut to the capacity (7.2), the marks at 0, and leaves all that is lent
/// as 7.4 to 7.6 and 7.10 say.
fn marked(
    plan: &mut [u16],
    work: &mut [u16],
    marks: &mut [u8],
    repair: impl FnOnce(&mut [u16], &mut [u8]) -> Result<PlanResult, Refusal>,
) -> Result<PlanResult, Refusal> {
    let capacity = plan.len().min(work.len()).min(marks.len()).min(MAX_STEPS);
    marks.fill(0);
    let answer = repair(&mut plan[..capacity], &mut marks[..capacity]);
    if answer.is_err() {
        marks[..capacity].fill(0);
    }
    fill_rest(plan, answer.map_or(0, |result| result.steps));
    work.fill(NO_ENTRY);
    answer
}

fn check_length(list: &[u16]) -> Result<(), Refusal> {
    if list.len() > MAX_STEPS {
        return Err(Refusal::new(13, MAX_STEPS));
    }
    Ok(())
}

fn check_entries(task: &Task, list: &[u16]) -> Result<(), Refusal> {
    let outside = |number: u16| usize::from(number) >= task.action_count();
    if list.is_empty() || !outside(list.iter().fold(0, |most, &number| number.max(most))) {
        return Ok(());
    }
    let entry = list.iter().position(|&number| outside(number)).unwrap();
    Err(Refusal::new(9, entry))
}

/// 9.6: 9 at the lowest entry that is not below A or does not apply, or at the end for a goal missed.
fn check_relaxed_plan(task: &Task, list: &[u16]) -> Result<(), Refusal> {
    let mut held = State::initial(task);
    let mut applied = Numbers::default();
    for (entry, &number) in list.iter().enumerate() {
        let number = usize::from(number);
        if number >= task.action_count() {
            return Err(Refusal::new(9, entry));
        }
        if applied.insert(number) {
            if !held.holds_all(task.preconditions(number)) {
                return Err(Refusal::new(9, entry));
            }
            task.effects(number).iter().for_each(|&fact| held.add(fact));
        }
    }
    if held.meets_goals(task) {
        Ok(())
    } else {
        Err(Refusal::new(9, list.len()))
    }
}

/// Copies a list into what is lent; answers its steps.
fn fit(list: &[u16], plan: &mut [u16]) -> Result<u32, Refusal> {
    let capacity = plan.len().min(MAX_STEPS);
    let room = plan[..capacity].get_mut(..list.len()).ok_or(Refusal::new(11, capacity))?;
    room.copy_from_slice(list);
    Ok(list.len() as u32)
}

fn verdict(task: &Task, black: u64, plan: &[u16], repaired: Repaired) -> PlanResult {
    let Repaired { steps, searches } = repaired;
    let (real, cost) = real_run(task, &plan[..steps], black);
    let (steps, searches) = (steps as u32, searches as u32);
    PlanResult { steps, cost, runs: real.steps, searches, real: real.plan }
}

/// 7.4 and 7.5: after success 65,535 stands behind the plan; after a refusal everywhere.
fn fill_rest(list: &mut [u16], steps: u32) {
    list[steps as usize..].fill(NO_ENTRY);
}
