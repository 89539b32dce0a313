//! Plans, sheets and newest values in words.

use mardiskos::Judgement;
use reference::entry::MAX_STEPS;
use reference::state::{Semantics, State};
use reference::{Fact, Refusal};

use crate::library::{self, judge, Sheet};
use crate::plan::Plan;
use crate::store::Store;

/// A text, and why the list that it shows is not what it should be.
#[derive(Clone, Debug, PartialEq, Eq)]
pub struct Shown {
    pub text: String,
    pub fault: Option<String>,
}

/// Which steps are shown.
#[derive(Clone, Copy, Debug, PartialEq, Eq)]
pub enum Which {
    All,
    /// Those that are not inserted moves.
    Relaxed,
}

/// The plan, one step a line, behind a line of its count, cost and verdict, and of the path searches if it
/// was repaired here.
pub fn plan(store: &Store, plan: &Plan, which: Which) -> Result<Shown, Refusal> {
    let judged = judge(&store.record(), &plan.steps)?;
    let (verdict, runs) = (verdict(judged.real.is_plan), running(judged.real.steps));
    let (count, cost) = (steps(plan.steps.len()), plan.cost(store));
    let searches = plan.searches.map(|count| format!(", {}", path_searches(count)));
    let mut text =
        format!("{count}, cost {cost}, {verdict}: {runs}{}\n", searches.unwrap_or_default());
    let fault = red_black_fault(store, plan, &judged);
    text += &fault.iter().map(|fault| format!("{fault}\n")).collect::<String>();
    text += &step_lines(store, plan, which);
    if !judged.real.is_plan {
        text += &format!("real run: {}\n", trouble(store, &plan.steps, &Semantics::real()));
    }
    Ok(Shown { text, fault })
}

fn red_black_fault(store: &Store, plan: &Plan, judged: &Judgement) -> Option<String> {
    let semantics = Semantics::red_black(&store.task());
    let trouble = || trouble(store, &plan.steps, &semantics);
    (!judged.red_black.is_plan).then(|| format!("not a red-black plan: {}", trouble()))
}

/// The newest value of each variable behind a line of how far the list runs, and what stops it.
pub fn newest(store: &Store, list: &[u16]) -> Result<String, Refusal> {
    let found = library::newest(&store.record(), list)?;
    let (count, run) = (steps(list.len()), run(found.steps));
    let mut text = format!("{count}: {} {run} red-black, {} for real\n", found.steps, found.runs);
    for (variable, &value) in found.values.iter().enumerate() {
        text += &format!("{}\n", store.fact(Fact::new(variable, value.into())));
    }
    let red_black = Semantics::red_black(&store.task());
    for (name, semantics) in [("red-black", red_black), ("real", Semantics::real())] {
        if let Err(step) = last_state(store, list, &semantics) {
            text += &format!("{name} run: {step}\n");
        }
    }
    Ok(text)
}

/// A sheet without a store: the numbers of its steps.
pub fn sheet(sheet: &Sheet, which: Which) -> String {
    sheet_head(sheet)
        + &lines(&Plan::on(sheet), which, |number| (format!("action {number}"), String::new()))
}

fn sheet_head(sheet: &Sheet) -> String {
    let (count, verdict) = (steps(sheet.steps.len()), verdict(sheet.real));
    let edition = if sheet.edition == 1 { "1, without marks" } else { "2" };
    format!("sheet of edition {edition}: {count}, cost {}, {verdict}\n", sheet.cost)
}

/// A sheet in a store: its steps with names, and what the judge says of them there.
pub fn sheet_in(store: &Store, sheet: &Sheet, which: Which) -> Result<Shown, Refusal> {
    let judged = judge(&store.record(), &sheet.steps)?;
    let plan = Plan::on(sheet);
    let mut text = sheet_head(sheet) + &step_lines(store, &plan, which);
    text += &format!("judge: cost {}, {}\n", plan.cost(store), verdicts(&judged));
    if !judged.real.is_plan {
        text += &format!("real run: {}\n", trouble(store, &plan.steps, &Semantics::real()));
    }
    let fault = red_black_fault(store, &plan, &judged).or(contradiction(store, sheet, &judged));
    text += &fault.iter().map(|fault| format!("{fault}\n")).collect::<String>();
    Ok(Shown { text, fault })
}

/// Where the sheet says something else than the judge.
fn contradiction(store: &Store, sheet: &Sheet, judged: &Judgement) -> Option<String> {
    let cost = Plan::list(sheet.steps.clone()).cost(store);
    if u64::from(sheet.cost) != cost {
        return Some(format!("the sheet says cost {}, its steps cost {cost}", sheet.cost));
    }
    let (said, is) = (verdict(sheet.real), verdict(judged.real.is_plan));
    if said != is {
        return Some(format!("the sheet says {said}, its steps are {is}"));
    }
    misfit(store, sheet).map(str::to_owned)
}

/// Marks that are not those of the repair, where the painting is accepted.
fn misfit(store: &Store, sheet: &Sheet) -> Option<&'static str> {
    if sheet.edition == 1 {
        return None;
    }
    match library::repair(&store.record(), &sheet.unmarked(), MAX_STEPS) {
        Ok(plan) if (&plan.steps, &plan.marks) == (&sheet.steps, &sheet.marks) => None,
        Ok(_) => {
            Some("the sheet's marks do not fit: the repair of its other steps is another plan")
        }
        Err(Refusal { number: 9, .. }) => {
            Some("the sheet's marks do not fit: its other steps are no relaxed plan")
        }
        Err(_) => None,
    }
}

fn verdicts(judged: &Judgement) -> String {
    let runs =
        [("relaxed", judged.relaxed), ("red-black", judged.red_black), ("real", judged.real)];
    let verdicts = runs.map(|(semantics, run)| {
        let plan = if run.is_plan { "a plan" } else { "no plan" };
        format!("{semantics} {plan} ({})", running(run.steps))
    });
    verdicts.join(", ")
}

fn verdict(real: bool) -> &'static str {
    if real {
        "real"
    } else {
        "unreal"
    }
}

/// The steps with the names of their actions and what these set.
fn step_lines(store: &Store, plan: &Plan, which: Which) -> String {
    lines(plan, which, |number| {
        let action = &store.actions[number as usize];
        (action.name.clone(), store.facts(&action.sets))
    })
}

/// A line for each step: its number in the plan, two words for its action, and whether it is inserted. Where inserted
/// moves are left out, a line before these says how many.
fn lines(plan: &Plan, which: Which, words: impl Fn(u16) -> (String, String)) -> String {
    let left_out = |step: &usize| which == Which::Relaxed && plan.is_inserted(*step);
    let shown: Vec<usize> = (0..plan.steps.len()).filter(|step| !left_out(step)).collect();
    let words = |step: usize| words(plan.steps[step]);
    let width = shown.iter().map(|&step| words(step).0.chars().count()).max().unwrap_or(0);
    let digits = plan.steps.len().saturating_sub(1).to_string().len();
    let line = |step: usize| {
        let (name, sets) = words(step);
        let mark = if plan.is_inserted(step) { "  (inserted)" } else { "" };
        let line = format!("{step:digits$}  {name:width$}  {sets}");
        format!("{}\n", (line.trim_end().to_owned() + mark))
    };
    let lines: String = shown.iter().map(|&step| line(step)).collect();
    match which {
        Which::All => lines,
        Which::Relaxed => {
            format!("{} left out\n{lines}", counted(plan.inserted(), "inserted move"))
        }
    }
}

pub fn steps(count: usize) -> String {
    counted(count, "step")
}

/// A count with its word.
pub fn counted(count: usize, word: &str) -> String {
    format!("{count} {word}{}", if count == 1 { "" } else { "s" })
}

fn path_searches(count: u32) -> String {
    format!("{count} path search{}", if count == 1 { "" } else { "es" })
}

fn running(count: usize) -> String {
    format!("{} {}", steps(count), run(count))
}

fn run(count: usize) -> &'static str {
    if count == 1 {
        "runs"
    } else {
        "run"
    }
}

/// Why a list is not a plan under a semantics.
pub fn trouble(store: &Store, list: &[u16], semantics: &Semantics) -> String {
    let goal_missed = |state: State| {
        let missing = unmet(&state, &store.goals().collect::<Vec<_>>());
        format!("goal missed: {}", store.facts(&missing))
    };
    last_state(store, list, semantics).map_or_else(|step| step, goal_missed)
}

/// The state at the end of a list, or its first step that does not apply.
fn last_state(store: &Store, list: &[u16], semantics: &Semantics) -> Result<State, String> {
    let task = store.task();
    let mut state = State::initial(&task);
    for (step, &number) in list.iter().enumerate() {
        let missing = unmet(&state, &store.actions[number as usize].needs);
        if !missing.is_empty() {
            let name = &store.actions[number as usize].name;
            return Err(format!("step {step}, {name}, needs {}", store.facts(&missing)));
        }
        state.apply(task.action(number as usize), semantics);
    }
    Ok(state)
}

fn unmet(state: &State, facts: &[Fact]) -> Vec<Fact> {
    facts.iter().copied().filter(|&fact| !state.holds(fact)).collect()
}
