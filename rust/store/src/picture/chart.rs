//! A plan as a chart: variables as rows, steps as columns, and where the real run stops.

use std::ops::Range;

use reference::state::Semantics;
use reference::Fact;

use super::chart_svg;
use crate::plan::Plan;
use crate::show::{steps, trouble};
use crate::store::{Action, Store};

/// As many steps are drawn, and so many side by side.
const MAX_STEPS: usize = 120;
const BAND: usize = 20;

pub struct Chart {
    pub title: String,
    pub bands: Vec<Band>,
    pub notes: Vec<String>,
}

/// Some steps: column 0 is the state before the first of them.
pub struct Band {
    pub columns: Vec<Column>,
    pub rows: Vec<Row>,
    /// The column before which the real run stops.
    pub stop: Option<usize>,
}

pub struct Column {
    pub title: String,
    pub kind: Kind,
}

#[derive(Clone, Copy, Debug, PartialEq, Eq)]
pub enum Kind {
    State,
    Relaxed,
    Inserted,
    /// Behind the step at which the red-black run stops.
    NotRun,
}

pub struct Row {
    pub name: String,
    pub black: bool,
    /// A black variable has one lane, a red one a lane for each value that it has had.
    pub lanes: Vec<Lane>,
    /// The goal, and whether the run ends with it.
    pub goal: Option<(String, bool)>,
}

#[derive(Default)]
pub struct Lane {
    pub segments: Vec<Segment>,
    pub marks: Vec<Mark>,
}

/// A value from one column on, up to another or to the end.
pub struct Segment {
    pub first: usize,
    pub last: Option<usize>,
    pub value: usize,
    pub name: String,
}

pub struct Mark {
    pub column: usize,
    pub kind: MarkKind,
}

#[derive(Clone, Copy, Debug, PartialEq, Eq)]
pub enum MarkKind {
    Needed,
    /// Needed, and not there in the real run.
    Missing,
    /// Set to a value that it has.
    Again,
}

pub fn chart(store: &Store, plan: &Plan) -> String {
    chart_svg::svg(&chart_of(store, plan))
}

pub fn chart_of(store: &Store, plan: &Plan) -> Chart {
    let real = stop(store, &plan.steps, &Semantics::real());
    let painted = stop(store, &plan.steps, &Semantics::red_black(&store.task()));
    let stops = Stops { real, painted };
    let shown = shown(plan.steps.len(), real);
    let firsts = (shown.start..shown.end.max(shown.start + 1)).step_by(BAND);
    let bands = firsts.map(|first| first..shown.end.min(first + BAND));
    Chart {
        title: format!("Plan of {}, cost {}", steps(plan.steps.len()), plan.cost(store)),
        bands: bands.map(|steps| band(store, plan, steps, stops)).collect(),
        notes: notes(store, plan, shown, stops),
    }
}

/// The steps drawn: the first ones, or those around the step at which the real run stops.
fn shown(steps: usize, real: Option<usize>) -> Range<usize> {
    let from = real.unwrap_or(0).saturating_sub(MAX_STEPS / 2);
    let from = from.min(steps.saturating_sub(MAX_STEPS)) / BAND * BAND;
    from..steps.min(from + MAX_STEPS)
}

/// Where runs stop: before a step, at the list's length for a goal missed, or nowhere for a plan.
#[derive(Clone, Copy)]
struct Stops {
    real: Option<usize>,
    painted: Option<usize>,
}

fn band(store: &Store, plan: &Plan, shown: Range<usize>, stops: Stops) -> Band {
    let mut runner = Runner::new(store, shown.start, stops.real);
    let runs = stops.painted.map_or(shown.end, |stop| shown.end.min(stop + 1));
    for (step, &number) in plan.steps[..runs].iter().enumerate() {
        runner.step(step, &store.actions[number as usize], stops.painted == Some(step));
    }
    let ends = shown.end == plan.steps.len();
    let is_last = |stop: usize| stop == shown.end && ends;
    let stop = stops.real.filter(|&stop| shown.contains(&stop) || is_last(stop));
    Band {
        columns: columns(store, plan, shown.clone(), stops.painted),
        rows: runner.rows(ends),
        stop: stop.map(|stop| stop - shown.start + 1),
    }
}

fn stop(store: &Store, list: &[u16], semantics: &Semantics) -> Option<usize> {
    let run = crate::run::run(&store.task(), list, semantics);
    (!run.plan).then_some(run.steps as usize)
}

fn columns(store: &Store, plan: &Plan, shown: Range<usize>, painted: Option<usize>) -> Vec<Column> {
    let first = match shown.start {
        0 => "initial".to_owned(),
        from => format!("before {from}"),
    };
    let mut columns = vec![Column { title: first, kind: Kind::State }];
    columns.extend(shown.map(|step| {
        let kind = match (painted, plan.is_inserted(step)) {
            (Some(stop), _) if step >= stop => Kind::NotRun,
            (_, true) => Kind::Inserted,
            (_, false) => Kind::Relaxed,
        };
        let name = &store.actions[plan.steps[step] as usize].name;
        Column { title: format!("{step}  {name}"), kind }
    }));
    columns
}

fn notes(store: &Store, plan: &Plan, shown: Range<usize>, stops: Stops) -> Vec<String> {
    let mut notes = Vec::new();
    if stops.painted.is_some() {
        let why = trouble(store, &plan.steps, &Semantics::red_black(&store.task()));
        notes.push(format!("Not a red-black plan: {why}."));
    }
    notes.push(match stops.real {
        None => "Real: every step runs for real, and the goals hold at the end.".to_owned(),
        Some(_) => {
            let why = trouble(store, &plan.steps, &Semantics::real());
            format!("Unreal: the real run stops at the dashed line: {why}.")
        }
    });
    let (from, to, all) = (shown.start, shown.end, plan.steps.len());
    if to - from < all {
        notes.push(format!("Steps {from} to {} of {all} are shown.", to - 1));
    }
    notes
}

/// Runs the list red-black and keeps what the columns from a step on show.
struct Runner<'a> {
    store: &'a Store,
    from: usize,
    real: Option<usize>,
    /// The value of each variable in the real run.
    values: Vec<usize>,
    lanes: Vec<Vec<Lane>>,
}

impl<'a> Runner<'a> {
    fn new(store: &'a Store, from: usize, real: Option<usize>) -> Self {
        let values: Vec<usize> = store.variables.iter().map(|variable| variable.initial).collect();
        let lanes = values.iter().map(|_| Vec::new()).collect();
        let mut runner = Runner { store, from, real, values, lanes };
        for v in 0..store.variables.len() {
            runner.open(0, Fact::new(v, store.variables[v].initial));
        }
        runner
    }

    /// A value that starts in a column, in the lane of a black variable or in one of its own.
    fn open(&mut self, column: usize, fact: Fact) {
        let variable = &self.store.variables[fact.variable()];
        let lanes = &mut self.lanes[fact.variable()];
        if lanes.is_empty() || !variable.black {
            lanes.push(Lane::default());
        }
        let lane = lanes.last_mut().expect("there is a lane");
        if let Some(before) = lane.segments.last_mut() {
            before.last = Some(column);
        }
        let (value, name) = (fact.value(), variable.values[fact.value()].clone());
        lane.segments.push(Segment { first: column, last: None, value, name });
    }

    /// The lane in which a fact is held now.
    fn held(&mut self, fact: Fact) -> Option<&mut Lane> {
        let is = |lane: &&mut Lane| lane.segments.last().is_some_and(|s| s.value == fact.value());
        self.lanes[fact.variable()].iter_mut().find(is)
    }

    fn mark(&mut self, column: usize, fact: Fact, kind: MarkKind) {
        let variable = fact.variable();
        let missing = self.held(fact).is_none();
        let lane = if missing { self.lanes[variable].last_mut() } else { self.held(fact) };
        if let Some(lane) = lane.filter(|_| column > 0) {
            lane.marks.push(Mark { column, kind });
        }
    }

    /// A step of the list; one that does not apply leaves marks and changes nothing.
    fn step(&mut self, step: usize, action: &Action, stops: bool) {
        let column = (step + 1).saturating_sub(self.from);
        for &fact in &action.needs {
            let really = self.values[fact.variable()] == fact.value();
            let gone = stops || self.real == Some(step);
            let kind = if gone && !really { MarkKind::Missing } else { MarkKind::Needed };
            self.mark(column, fact, kind);
        }
        if stops {
            return;
        }
        for &fact in &action.sets {
            self.values[fact.variable()] = fact.value();
            if self.held(fact).is_some() {
                self.mark(column, fact, MarkKind::Again);
            } else {
                self.open(column, fact);
            }
        }
    }

    /// The rows; goals stand in the last band only.
    fn rows(mut self, ends: bool) -> Vec<Row> {
        let goals: Vec<Option<Fact>> = {
            let numbered = self.store.variables.iter().enumerate();
            numbered
                .map(|(v, variable)| Some(Fact::new(v, variable.goal.filter(|_| ends)?)))
                .collect()
        };
        let reached: Vec<bool> =
            goals.iter().map(|goal| goal.is_some_and(|goal| self.held(goal).is_some())).collect();
        let rows = self.store.variables.iter().zip(self.lanes).enumerate();
        let row = |(v, (variable, lanes)): (usize, (&crate::store::Variable, Vec<Lane>))| Row {
            name: variable.name.clone(),
            black: variable.black,
            lanes,
            goal: goals[v].map(|goal| (variable.values[goal.value()].clone(), reached[v])),
        };
        rows.map(row).collect()
    }
}
