//! What the listing program prints for a record (10).

use crate::entry;
use crate::refusal::Refusal;

const ENTRIES: usize = 16_384;

pub fn listing(record: &[u8]) -> String {
    lines(record)
        .unwrap_or_else(|refusal| format!("refused {} {}\n", refusal.number, refusal.place))
}

fn lines(record: &[u8]) -> Result<String, Refusal> {
    let mut plan = vec![0; ENTRIES];
    let mut work = vec![0; ENTRIES];
    let mut relaxed = vec![0; ENTRIES];
    let result = entry::plan(record, &mut plan, &mut work, &mut [0; ENTRIES])?;
    let kept = entry::relax(record, &mut relaxed)?;
    let reached = entry::forward(record, &mut work)?.reached;
    let real = if result.real { "real" } else { "unreal" };
    Ok(format!(
        "reached {reached}\nrelaxed {kept}{}\nplan {} {}{}\n{real} {}\n",
        numbers(&relaxed[..kept as usize]),
        result.steps,
        result.cost,
        numbers(&plan[..result.steps as usize]),
        result.runs,
    ))
}

fn numbers(list: &[u16]) -> String {
    list.iter().map(|number| format!(" {number}")).collect()
}
