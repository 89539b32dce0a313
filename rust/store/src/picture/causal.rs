//! The causal graph with its painting.

use std::collections::BTreeMap;

use super::{at_most, notes, Arc, Legend, Node, Picture};
use crate::explain;
use crate::store::{Action, Store, Variable};

/// As many actions of an arc are named beside it; its title has all.
const MAX_LABELS: usize = 3;

/// The arcs, each with the actions that make it: one from each variable that an action needs or
/// changes to each other variable that it changes.
pub fn causal_graph(store: &Store) -> BTreeMap<(usize, usize), Vec<usize>> {
    let mut arcs: BTreeMap<_, Vec<usize>> = BTreeMap::new();
    for (number, action) in store.actions.iter().enumerate() {
        for arc in arcs_of(action) {
            arcs.entry(arc).or_default().push(number);
        }
    }
    arcs.values_mut().for_each(|actions| actions.dedup());
    arcs
}

fn arcs_of(action: &Action) -> impl Iterator<Item = (usize, usize)> + '_ {
    let from = action.needs.iter().map(|fact| fact.variable()).chain(action.changed());
    let pairs = from.flat_map(|u| action.changed().map(move |v| (u, v)));
    pairs.filter(|(u, v)| u != v)
}

pub fn causal_picture(store: &Store) -> Picture {
    let arcs = causal_graph(store);
    let mut legend = vec![
        Legend::Node("black", "black variable"),
        Legend::Node("red", "red variable"),
        Legend::Arc("dark", "arc of the black causal graph"),
        Legend::Arc("", "other arc"),
    ];
    legend.extend(notes(&painting(store)));
    Picture {
        title: "Causal graph".to_owned(),
        nodes: store.variables.iter().map(node).collect(),
        arcs: arcs.iter().map(|(&arc, actions)| drawn(store, arc, actions)).collect(),
        legend,
        layered: true,
    }
}

fn painting(store: &Store) -> String {
    match reference::painting::painting(&store.task()) {
        Ok(_) => "The painting is accepted.".to_owned(),
        Err(refusal) => {
            let words = explain::in_words(store, refusal, None);
            format!("The painting is refused, {}: {words}.", refusal.number)
        }
    }
}

fn node(variable: &Variable) -> Node {
    let goal = variable.goal.map_or(String::new(), |v| format!(", goal {}", variable.values[v]));
    let initial = &variable.values[variable.initial];
    Node {
        lines: vec![variable.name.clone()],
        class: variable.colour(),
        title: format!(
            "{}: {}, {} values, initial {initial}{goal}",
            variable.name,
            variable.colour(),
            variable.values.len()
        ),
    }
}

fn drawn(store: &Store, (from, to): (usize, usize), actions: &[usize]) -> Arc {
    let names: Vec<String> = actions.iter().map(|&a| store.actions[a].name.clone()).collect();
    let title = format!("made by {}", names.join(", "));
    let black = store.variables[from].black && store.variables[to].black;
    Arc {
        from,
        to,
        class: if black { "dark" } else { "" },
        labels: at_most(names, MAX_LABELS),
        title,
    }
}
