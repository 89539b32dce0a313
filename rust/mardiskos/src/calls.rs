//! The calls with results: lists are allocated here, and a refusal is an error.

use crate::{lent, outcome, Refusal, MAX_SHEET, MAX_STEPS, MAX_VARIABLES};

/// A run of a list of actions.
#[derive(Clone, Copy, Debug, PartialEq, Eq)]
pub struct Run {
    /// How many steps run until one does not apply.
    pub steps: usize,
    /// Whether all steps run and every goal holds at the end.
    pub is_plan: bool,
}

/// A list of actions judged under the three semantics.
#[derive(Clone, Copy, Debug, PartialEq, Eq)]
pub struct Judgement {
    /// Every variable keeps every value it has had.
    pub relaxed: Run,
    /// Black variables hold one value, red ones keep every value they have had.
    pub red_black: Run,
    /// Every variable holds one value.
    pub real: Run,
}

/// What each variable was set to last, where the red-black run of a list stops.
#[derive(Clone, Debug, PartialEq, Eq)]
pub struct Newest {
    /// The newest value of each variable.
    pub values: Vec<u16>,
    /// How many steps run red-black until one does not apply.
    pub steps: usize,
    /// How many steps run for real. If they are as many, `values` is the real state.
    pub runs: usize,
}

/// The forward run of a record.
#[derive(Clone, Debug, PartialEq, Eq)]
pub struct ForwardRun {
    /// The actions taken.
    pub steps: Vec<u16>,
    /// Facts reached.
    pub reached: u32,
}

/// A repaired plan.
#[derive(Clone, Debug, PartialEq, Eq)]
pub struct Plan {
    /// The actions in turn.
    pub steps: Vec<u16>,
    /// The sum of the costs of the steps.
    pub cost: u32,
    /// How many steps run for real until one does not apply.
    pub runs: usize,
    /// How many path searches the repair made: the places where it asked for a path, also where that has no moves
    /// or was found before. At most n × P × m, with n actions in the relaxed plan, P the product of the black variables'
    /// counts of values, and m black variables.
    pub searches: u32,
    /// Whether it is a plan in a real run.
    pub real: bool,
    /// A mark for each step: 1 for an inserted move, 0 for an action of the relaxed plan. An action may stand in one plan
    /// with either.
    pub marks: Vec<u8>,
}

impl Plan {
    /// The steps that are not marked: the relaxed plan that was repaired. Repairing it gives the same plan with the same
    /// marks.
    pub fn unmarked(&self) -> Vec<u16> {
        unmarked(&self.steps, &self.marks)
    }

    /// The steps that run for real: the front of the plan, the whole of it where only a goal is missed.
    pub fn runnable(&self) -> &[u16] {
        &self.steps[..self.runs]
    }
}

/// What a plan sheet says.
#[derive(Clone, Debug, PartialEq, Eq)]
pub struct Sheet {
    /// The actions in turn.
    pub steps: Vec<u16>,
    /// The cost that was written; nothing checks it.
    pub cost: u32,
    /// The verdict that was written; nothing checks it.
    pub real: bool,
    /// A mark for each step, 0 or 1; all 0 in edition 1.
    pub marks: Vec<u8>,
    /// 1 or 2.
    pub edition: u32,
}

impl Sheet {
    /// The steps that are not marked: on a sheet of edition 2 of a repaired plan, the relaxed plan.
    pub fn unmarked(&self) -> Vec<u16> {
        unmarked(&self.steps, &self.marks)
    }
}

/// Checks a record. Refuses with 1 to 6, and so does every other call that takes a record.
///
/// ```
/// assert_eq!(mardiskos::check(&[]).unwrap_err().number(), 1);
/// ```
pub fn check(record: &[u8]) -> Result<(), Refusal> {
    outcome(lent::check(record))
}

/// Judges a list of actions under the three semantics. Refuses with 13 and 9 too.
///
/// ```
/// # fn main() -> Result<(), Box<dyn std::error::Error>> {
/// let record = std::fs::read("../../examples/two-shelves.record")?;
/// let judged = mardiskos::judge(&record, &[0, 2, 3])?;
/// assert!(judged.relaxed.is_plan && !judged.real.is_plan);
/// assert_eq!(judged.real.steps, 2);
/// # Ok(())
/// # }
/// ```
pub fn judge(record: &[u8], list: &[u16]) -> Result<Judgement, Refusal> {
    let judged = lent::judge(record, list);
    outcome(judged.code)?;
    let run = |steps: u32, is_plan| Run { steps: steps as usize, is_plan };
    Ok(Judgement {
        relaxed: run(judged.relaxed_steps, judged.relaxed_plan),
        red_black: run(judged.red_black_steps, judged.red_black_plan),
        real: run(judged.real_steps, judged.real_plan),
    })
}

/// The newest value of each variable: the value that it was set to last, at first its initial one. The list is run red-black
/// until a step does not apply. Refuses with 13 and 9 too.
///
/// ```
/// # fn main() -> Result<(), Box<dyn std::error::Error>> {
/// let record = std::fs::read("../../examples/tray.record")?;
/// let newest = mardiskos::newest(&record, &[0, 1])?;
/// assert_eq!(newest.values, [1, 1, 1]);
/// assert_eq!((newest.steps, newest.runs), (2, 1));
///
/// // Up to the step at which the real run stops, they are the real state.
/// assert_eq!(mardiskos::newest(&record, &[0])?.values, [1, 1, 0]);
/// # Ok(())
/// # }
/// ```
pub fn newest(record: &[u8], actions: &[u16]) -> Result<Newest, Refusal> {
    let mut values = list(MAX_VARIABLES);
    let found = lent::newest(record, actions, &mut values);
    outcome(found.code)?;
    let variables = values.iter().take_while(|&&value| value != NO_VALUE).count();
    values.truncate(variables);
    Ok(Newest { values, steps: found.steps as usize, runs: found.runs as usize })
}

/// What stands behind the values; a value is below 64.
const NO_VALUE: u16 = 65_535;

/// The forward run: as long as a goal is missing, the cheapest action that applies and reaches something new, of
/// several the one with the lowest number. Refuses with 10 too.
///
/// ```
/// # fn main() -> Result<(), Box<dyn std::error::Error>> {
/// let record = std::fs::read("../../examples/two-shelves-with-4.record")?;
/// assert_eq!(mardiskos::forward(&record)?.steps, [4, 2, 3]);
/// # Ok(())
/// # }
/// ```
pub fn forward(record: &[u8]) -> Result<ForwardRun, Refusal> {
    let mut plan = list(MAX_STEPS);
    let run = lent::forward(record, &mut plan);
    outcome(run.code)?;
    Ok(ForwardRun { steps: front(plan, run.steps), reached: run.reached })
}

/// The relaxed plan: what the forward run needs of itself for the goals. Refuses with 10 too.
///
/// ```
/// # fn main() -> Result<(), Box<dyn std::error::Error>> {
/// let record = std::fs::read("../../examples/two-shelves.record")?;
/// assert_eq!(mardiskos::relax(&record)?, [0, 2, 3]);
/// # Ok(())
/// # }
/// ```
pub fn relax(record: &[u8]) -> Result<Vec<u16>, Refusal> {
    let mut plan = list(MAX_STEPS);
    let found = lent::relax(record, &mut plan);
    outcome(found.code)?;
    Ok(front(plan, found.steps))
}

/// The planner: the repair of the record's relaxed plan, with room for [`MAX_STEPS`]. Refuses with 7, 8, 10 and 11 too.
/// The way on which inserted moves bring a black variable to a value is a cheapest one; where several cost the same, one with
/// the fewest moves, and of several of those the one with the lower action at the first place where they differ.
///
/// ```
/// # fn main() -> Result<(), Box<dyn std::error::Error>> {
/// let record = std::fs::read("../../examples/tray.record")?;
/// let plan = mardiskos::plan(&record)?;
/// assert_eq!((plan.steps.as_slice(), plan.real), ([0, 1].as_slice(), false));
/// assert_eq!(plan.runnable(), [0]);
///
/// let record = std::fs::read("../../examples/gate.record")?;
/// assert_eq!(mardiskos::plan(&record)?.steps, [0, 2, 1, 4, 0, 3, 1]);
///
/// let record = std::fs::read("../../examples/detour.record")?;
/// assert_eq!(mardiskos::plan(&record)?.steps, [1, 2, 6, 3, 4]);
///
/// let record = std::fs::read("../../examples/lift.record")?;
/// let plan = mardiskos::plan(&record)?;
/// assert_eq!(plan.searches, 6);
///
/// // Action 2 stands there as an action of the relaxed plan and as an inserted move.
/// assert_eq!((plan.steps.as_slice(), plan.marks.as_slice()), ([0, 2, 3, 4, 2, 1].as_slice(), [0, 0, 1, 0, 1, 1].as_slice()));
/// assert_eq!(plan.unmarked(), mardiskos::relax(&record)?);
/// # Ok(())
/// # }
/// ```
pub fn plan(record: &[u8]) -> Result<Plan, Refusal> {
    plan_within(record, MAX_STEPS)
}

/// The planner with room for so many steps: a longer plan is refused with 11.
///
/// ```
/// # fn main() -> Result<(), Box<dyn std::error::Error>> {
/// let record = std::fs::read("../../examples/two-shelves.record")?;
/// assert_eq!(mardiskos::plan_within(&record, 4)?.steps.len(), 4);
/// assert_eq!(mardiskos::plan_within(&record, 3).unwrap_err().number(), 11);
/// # Ok(())
/// # }
/// ```
pub fn plan_within(record: &[u8], room: usize) -> Result<Plan, Refusal> {
    let (mut plan, mut work, mut marks) = (list(room), list(room), vec![0; room]);
    let planned = lent::plan(record, &mut plan, &mut work, &mut marks);
    plan_of(planned, plan, marks)
}

/// The same for the caller's own relaxed plan. Refuses with 7, 8, 13, 9 and 11 too.
///
/// ```
/// # fn main() -> Result<(), Box<dyn std::error::Error>> {
/// let record = std::fs::read("../../examples/two-shelves.record")?;
/// let plan = mardiskos::repair(&record, &[0, 2, 3])?;
/// assert_eq!((plan.steps.as_slice(), plan.marks.as_slice()), ([0, 2, 1, 3].as_slice(), [0, 0, 1, 0].as_slice()));
///
/// let refusal = mardiskos::repair(&record, &[2, 0, 3]).unwrap_err();
/// assert_eq!((refusal.number(), refusal.place), (9, 0));
/// # Ok(())
/// # }
/// ```
pub fn repair(record: &[u8], relaxed: &[u16]) -> Result<Plan, Refusal> {
    repair_within(record, relaxed, MAX_STEPS)
}

/// The repair with room for so many steps: a longer plan is refused with 11.
pub fn repair_within(record: &[u8], relaxed: &[u16], room: usize) -> Result<Plan, Refusal> {
    let (mut plan, mut work, mut marks) = (list(room), list(room), vec![0; room]);
    let repaired = lent::repair(record, relaxed, &mut plan, &mut work, &mut marks);
    plan_of(repaired, plan, marks)
}

/// The bytes of a plan sheet. Edition 1 gives one of edition 1, which has no marks; any other number gives edition 2. There a
/// byte other than 0 marks its step, a step without a byte is not marked, and bytes behind the last step are not looked
/// at. Refuses with 13 alone.
///
/// ```
/// # fn main() -> Result<(), mardiskos::Refusal> {
/// let sheet = mardiskos::write_sheet(&[0, 2, 1, 3], &[0, 0, 1, 0], 2, 10, true)?;
/// assert_eq!(sheet.len(), 13);
///
/// let read = mardiskos::read_sheet(&sheet)?;
/// assert_eq!((read.steps.as_slice(), read.cost, read.real), ([0, 2, 1, 3].as_slice(), 10, true));
/// assert_eq!((read.marks.as_slice(), read.edition), ([0, 0, 1, 0].as_slice(), 2));
/// assert_eq!(read.unmarked(), [0, 2, 3]);
///
/// // The same sheet, with marks of other bytes, and of another number than 1.
/// assert_eq!(mardiskos::write_sheet(&[0, 2, 1, 3], &[0, 0, 2], 17, 10, true)?, sheet);
/// # Ok(())
/// # }
/// ```
pub fn write_sheet(
    steps: &[u16],
    marks: &[u8],
    edition: u32,
    cost: u32,
    real: bool,
) -> Result<Vec<u8>, Refusal> {
    let mut bytes = vec![0; MAX_SHEET];
    let size = lent::write_sheet(steps, marks, edition, cost, real, &mut bytes);
    outcome(size.code)?;
    bytes.truncate(size.bytes as usize);
    Ok(bytes)
}

/// Reads a plan sheet of edition 1 or 2. Written again with what stands in it, it has the same bytes. Refuses with 12 alone.
///
/// ```
/// # fn main() -> Result<(), mardiskos::Refusal> {
/// assert_eq!(mardiskos::read_sheet(&[0x18]).unwrap_err().to_string().split(':').next(), Some("refused 12 5"));
///
/// let first = mardiskos::write_sheet(&[0, 2, 1, 3], &[], 1, 10, true)?;
/// let read = mardiskos::read_sheet(&first)?;
/// assert_eq!((read.marks.as_slice(), read.edition), ([0; 4].as_slice(), 1));
/// assert_eq!(mardiskos::write_sheet(&read.steps, &read.marks, read.edition, read.cost, read.real)?, first);
/// # Ok(())
/// # }
/// ```
pub fn read_sheet(bytes: &[u8]) -> Result<Sheet, Refusal> {
    let (mut steps, mut marks) = (list(MAX_STEPS), vec![0; MAX_STEPS]);
    let sheet = lent::read_sheet(bytes, &mut steps, &mut marks);
    outcome(sheet.code)?;
    Ok(Sheet {
        steps: front(steps, sheet.steps),
        cost: sheet.cost,
        real: sheet.real,
        marks: front(marks, sheet.steps),
        edition: sheet.edition,
    })
}

/// The steps whose mark is 0. A step without a mark is not marked.
///
/// ```
/// assert_eq!(mardiskos::unmarked(&[0, 2, 1, 3], &[0, 0, 1]), [0, 2, 3]);
/// ```
pub fn unmarked(steps: &[u16], marks: &[u8]) -> Vec<u16> {
    let marked = |step: usize| marks.get(step).is_some_and(|&mark| mark != 0);
    let kept = steps.iter().enumerate().filter(|&(step, _)| !marked(step));
    kept.map(|(_, &number)| number).collect()
}

fn list(entries: usize) -> Vec<u16> {
    vec![0; entries]
}

fn front<T>(mut list: Vec<T>, steps: u32) -> Vec<T> {
    list.truncate(steps as usize);
    list.shrink_to_fit();
    list
}

fn plan_of(result: lent::PlanResult, list: Vec<u16>, marks: Vec<u8>) -> Result<Plan, Refusal> {
    outcome(result.code)?;
    Ok(Plan {
        steps: front(list, result.steps),
        cost: result.cost,
        runs: result.runs as usize,
        searches: result.searches,
        real: result.real,
        marks: front(marks, result.steps),
    })
}
