//! The value graph of one variable: an arc from d to e, d ≠ e, for an action that sets e and needs d
//! or has no precondition on the variable.

use std::collections::BTreeMap;

use reference::Fact;

use super::{at_most, Arc, Legend, Node, Picture};
use crate::store::{Action, Store};

/// As many actions of an arc are named beside it; its title has all.
const MAX_LABELS: usize = 4;

#[derive(Clone, Copy, Debug, PartialEq, Eq)]
pub struct ValueArc {
    pub from: usize,
    pub to: usize,
    pub action: usize,
}

pub fn value_arcs(store: &Store, variable: usize) -> Vec<ValueArc> {
    let values = store.variables[variable].values.len();
    let actions = store.actions.iter().enumerate();
    let arcs = actions.flat_map(|(number, action)| {
        let to = action.set(variable);
        let from = (0..values).filter(move |&d| to != Some(d) && leaves(action, variable, d));
        to.into_iter()
            .flat_map(move |to| from.clone().map(move |from| ValueArc { from, to, action: number }))
    });
    arcs.collect()
}

fn leaves(action: &Action, variable: usize, value: usize) -> bool {
    action.needed(variable).is_none_or(|needed| needed == value)
}

/// Whether some arc leads back whose outside condition lies in the arc's outside condition and
/// outside effect.
pub fn has_return(store: &Store, variable: usize, arc: ValueArc) -> bool {
    let action = &store.actions[arc.action];
    let given =
        |f: &Fact| f.variable() == variable || action.needs.contains(f) || action.sets.contains(f);
    let back = |back: &Action| leads_back(back, variable, arc) && back.needs.iter().all(given);
    store.actions.iter().any(back)
}

/// Whether an action leads from the end of an arc to its start.
pub fn leads_back(back: &Action, variable: usize, arc: ValueArc) -> bool {
    back.set(variable) == Some(arc.from) && leaves(back, variable, arc.to)
}

pub fn value_picture(store: &Store, variable: usize) -> Picture {
    let shown = &store.variables[variable];
    let mut grouped: BTreeMap<(usize, usize), Vec<ValueArc>> = BTreeMap::new();
    for arc in value_arcs(store, variable) {
        grouped.entry((arc.from, arc.to)).or_default().push(arc);
    }
    let arcs = grouped.values().map(|arcs| drawn(store, variable, arcs));
    Picture {
        title: format!("Values of {} ({})", shown.name, shown.colour()),
        nodes: (0..shown.values.len()).map(|value| node(store, variable, value)).collect(),
        arcs: arcs.collect(),
        legend: vec![Legend::Note("An arc is labelled with its actions and their costs.".into())],
        layered: false,
    }
}

fn node(store: &Store, variable: usize, value: usize) -> Node {
    let shown = &store.variables[variable];
    let (initial, goal) = (shown.initial == value, shown.goal == Some(value));
    let role = match (initial, goal) {
        (true, true) => Some("initial, goal"),
        (true, false) => Some("initial"),
        (false, true) => Some("goal"),
        (false, false) => None,
    };
    let name = shown.values[value].clone();
    Node {
        title: store.facts(&[Fact::new(variable, value)]),
        lines: std::iter::once(name).chain(role.map(|role| format!("({role})"))).collect(),
        class: if goal { "value goal" } else { "value" },
    }
}

fn drawn(store: &Store, variable: usize, arcs: &[ValueArc]) -> Arc {
    let labels: Vec<String> = arcs.iter().map(|&arc| label(store, variable, arc)).collect();
    let labels = at_most(labels, MAX_LABELS);
    let titles: Vec<String> = arcs.iter().map(|arc| describe(store, arc)).collect();
    Arc { from: arcs[0].from, to: arcs[0].to, class: "dark", labels, title: titles.join("\n") }
}

fn label(store: &Store, variable: usize, arc: ValueArc) -> String {
    let action = &store.actions[arc.action];
    let lacking = store.variables[variable].black && !has_return(store, variable, arc);
    format!("{} {}{}", action.name, action.cost, if lacking { ", no return" } else { "" })
}

fn describe(store: &Store, arc: &ValueArc) -> String {
    let action = &store.actions[arc.action];
    let (needs, sets) = (store.facts(&action.needs), store.facts(&action.sets));
    format!("{}: needs {needs}; sets {sets}; cost {}", action.name, action.cost)
}
