//! Each entry point on both sides, as cases of the table.

use bench::table::{Answer, Case, Lent};
use generate::Random;
use reference::entry::MAX_STEPS;
use reference::record::MAX_ACTIONS;
use reference::{entry, record, refusal, sheet, Refusal, Task};

type Records = Vec<Vec<u8>>;

fn records(tasks: &[Task]) -> Records {
    tasks.iter().map(record::write).collect()
}

fn sum(answers: impl Iterator<Item = Answer>) -> Answer {
    answers.fold([0; 4], |sums, numbers| [0, 1, 2, 3].map(|i| sums[i] + numbers[i]))
}

pub fn check(tasks: &[Task]) -> Case {
    let records = records(tasks);
    let library = |records: &Records, _: &mut Lent| {
        [records.iter().map(|bytes| mardiskos::lent::check(bytes)).sum(), 0, 0, 0]
    };
    let reference = |records: &Records, _: &mut Lent| {
        [records.iter().map(|bytes| refusal::code(&record::check(bytes))).sum(), 0, 0, 0]
    };
    Case::new(records, Lent::list(0), library, reference)
}

/// The steps of a record's forward run, none counted where it does not reach the goals.
fn run_steps(bytes: &[u8]) -> usize {
    entry::forward(bytes, &mut [0; MAX_ACTIONS]).map_or(0, |run| run.steps as usize)
}

/// Forward runs of one record after the other.
pub fn forward(tasks: &[Task]) -> Case {
    let library = |records: &Records, lent: &mut Lent| {
        sum(records.iter().map(|bytes| {
            let run = mardiskos::lent::forward(bytes, &mut lent.plan);
            [run.code, run.steps.into(), run.reached.into(), 0]
        }))
    };
    let reference = |records: &Records, lent: &mut Lent| {
        sum(records.iter().map(|bytes| {
            let run = entry::forward(bytes, &mut lent.plan).unwrap();
            [0, run.steps.into(), run.reached.into(), 0]
        }))
    };
    let records = records(tasks);
    let steps = records.iter().map(|bytes| run_steps(bytes)).sum();
    Case::new(records, Lent::list(MAX_ACTIONS), library, reference).stepping(steps)
}

/// Relaxed plans of one record after the other.
pub fn relax(tasks: &[Task]) -> Case {
    let library = |records: &Records, lent: &mut Lent| {
        sum(records.iter().map(|bytes| {
            let plan = mardiskos::lent::relax(bytes, &mut lent.plan);
            [plan.code, plan.steps.into(), 0, 0]
        }))
    };
    let reference = |records: &Records, lent: &mut Lent| {
        sum(records
            .iter()
            .map(|bytes| [0, entry::relax(bytes, &mut lent.plan).unwrap().into(), 0, 0]))
    };
    let records = records(tasks);
    let steps = records.iter().map(|bytes| run_steps(bytes)).sum();
    Case::new(records, Lent::list(MAX_ACTIONS), library, reference).stepping(steps)
}

/// A record and a list of actions.
type Listed = (Vec<u8>, Vec<u16>);

/// The actions of a task round and round.
pub fn judge(task: &Task, steps: usize) -> Case {
    let library = |(bytes, list): &Listed, _: &mut Lent| {
        let judged = mardiskos::lent::judge(bytes, list);
        let steps = [judged.relaxed_steps, judged.red_black_steps, judged.real_steps];
        let [relaxed, red_black, real] = steps.map(u64::from);
        [judged.code, relaxed, red_black, real]
    };
    let reference = |(bytes, list): &Listed, _: &mut Lent| {
        let judged = entry::judge(bytes, list).unwrap();
        let runs = [judged.relaxed, judged.red_black, judged.real];
        let [relaxed, red_black, real] = runs.map(|run| u64::from(run.steps));
        [0, relaxed, red_black, real]
    };
    Case::new((record::write(task), rounds(task, steps)), Lent::list(0), library, reference)
        .stepping(steps)
}

fn rounds(task: &Task, steps: usize) -> Vec<u16> {
    (0..task.action_count() as u16).cycle().take(steps).collect()
}

/// The same list, with room for the values.
pub fn newest(task: &Task, steps: usize) -> Case {
    let library = |(bytes, list): &Listed, lent: &mut Lent| {
        let newest = mardiskos::lent::newest(bytes, list, &mut lent.plan);
        [newest.code, newest.steps.into(), newest.runs.into(), 0]
    };
    let reference = |(bytes, list): &Listed, lent: &mut Lent| {
        let newest = entry::newest(bytes, list, &mut lent.plan).unwrap();
        [0, newest.steps.into(), newest.runs.into(), 0]
    };
    Case::new((record::write(task), rounds(task, steps)), Lent::list(64), library, reference)
        .stepping(steps)
}

fn library_numbers(result: mardiskos::lent::PlanResult) -> Answer {
    [result.code, result.steps.into(), result.cost.into(), result.runs.into()]
}

fn reference_numbers(answer: Result<entry::PlanResult, Refusal>) -> Answer {
    match answer {
        Ok(result) => [0, result.steps.into(), result.cost.into(), result.runs.into()],
        Err(refusal) => [refusal.code(), 0, 0, 0],
    }
}

/// Records planned one after another into the same lists and mark area.
pub fn plan(tasks: &[Task], room: usize) -> Case {
    let library = |records: &Records, lent: &mut Lent| {
        let Lent { plan, work, marks, .. } = lent;
        sum(records.iter().map(|b| library_numbers(mardiskos::lent::plan(b, plan, work, marks))))
    };
    let reference = |records: &Records, lent: &mut Lent| {
        let Lent { plan, work, marks, .. } = lent;
        sum(records.iter().map(|b| reference_numbers(entry::plan(b, plan, work, marks))))
    };
    let records = records(tasks);
    let steps = records.iter().map(|bytes| plan_steps(bytes, room)).sum();
    Case::new(records, Lent::steps(room), library, reference).stepping(steps)
}

/// The steps of the forward run and of the plan, all that there is room for where that is too long.
/// None is counted of a record that is refused otherwise.
fn plan_steps(bytes: &[u8], room: usize) -> usize {
    let Lent { mut plan, mut work, mut marks, .. } = Lent::steps(room);
    match entry::plan(bytes, &mut plan, &mut work, &mut marks) {
        Ok(result) => run_steps(bytes) + result.steps as usize,
        Err(Refusal { number: 11, .. }) => run_steps(bytes) + room,
        Err(_) => 0,
    }
}

/// The repaired plan of a task as a relaxed plan. Its relaxed run makes few steps by value, as most
/// actions add nothing; none of them is counted.
pub fn repair(task: &Task) -> Case {
    let library = |(bytes, list): &Listed, lent: &mut Lent| {
        let Lent { plan, work, marks, .. } = lent;
        library_numbers(mardiskos::lent::repair(bytes, list, plan, work, marks))
    };
    let reference = |(bytes, list): &Listed, lent: &mut Lent| {
        let Lent { plan, work, marks, .. } = lent;
        reference_numbers(entry::repair(bytes, list, plan, work, marks))
    };
    let bytes = record::write(task);
    let mut lent = Lent::steps(MAX_STEPS);
    let Lent { plan, work, marks, .. } = &mut lent;
    let steps = entry::plan(&bytes, plan, work, marks).unwrap().steps as usize;
    let list = plan[..steps].to_vec();
    Case::new((bytes, list), lent, library, reference).stepping(steps)
}

/// What a sheet is written of.
struct Drawn {
    edition: u32,
    steps: Vec<u16>,
    marks: Vec<u8>,
}

const COST: u32 = 12_345;

/// So many steps, each marked in one of two cases; as a sheet of edition 1 they are not marked.
fn drawn(random: &mut Random, edition: u32, count: usize) -> Drawn {
    let steps = (0..count).map(|_| random.below(1024) as u16).collect();
    let marks = (0..count).map(|_| random.below(2) as u8).collect();
    Drawn { edition, steps, marks }
}

pub fn write_sheet(random: &mut Random, edition: u32, count: usize) -> Case {
    let library = |Drawn { edition, steps, marks }: &Drawn, lent: &mut Lent| {
        let bytes = &mut lent.bytes;
        let size = mardiskos::lent::write_sheet(steps, marks, *edition, COST, true, bytes);
        [size.code, size.bytes.into(), 0, 0]
    };
    let reference = |Drawn { edition, steps, marks }: &Drawn, lent: &mut Lent| {
        let bytes = &mut lent.bytes;
        [0, sheet::write(steps, marks, *edition, COST, true, bytes).unwrap().into(), 0, 0]
    };
    let lent = Lent::bytes(sheet::size(edition, count));
    Case::new(drawn(random, edition, count), lent, library, reference)
}

pub fn read_sheet(random: &mut Random, edition: u32, count: usize) -> Case {
    let library = |bytes: &Vec<u8>, lent: &mut Lent| {
        let sheet = mardiskos::lent::read_sheet(bytes, &mut lent.plan, &mut lent.marks);
        [sheet.code, sheet.steps.into(), sheet.cost.into(), sheet.edition.into()]
    };
    let reference = |bytes: &Vec<u8>, lent: &mut Lent| {
        let sheet = sheet::read(bytes, &mut lent.plan, &mut lent.marks).unwrap();
        [0, sheet.steps.into(), sheet.cost.into(), sheet.edition.into()]
    };
    let Drawn { steps, marks, .. } = drawn(random, edition, count);
    let mut bytes = vec![0; sheet::size(edition, count)];
    sheet::write(&steps, &marks, edition, COST, true, &mut bytes).unwrap();
    Case::new(bytes, Lent::marked(count), library, reference)
}
