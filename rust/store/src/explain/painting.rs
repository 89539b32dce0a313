//! Refusals 7 and 8: a cycle of black variables, and an arc that lacks its return.

use reference::Fact;

use super::black::BlackGraph;
use super::{and, or};
use crate::library;
use crate::picture::causal::causal_graph;
use crate::picture::values::{has_return, leads_back, value_arcs, ValueArc};
use crate::store::Store;

/// 7: the shortest cycle through a black variable, and what painted red would break it.
pub fn cycle(store: &Store, variable: usize) -> Option<String> {
    let graph = BlackGraph::new(store);
    let cycle = graph.shortest_cycle(variable)?;
    let arcs = causal_graph(store);
    let next = cycle.iter().cycle().skip(1);
    let steps = cycle.iter().zip(next).map(|(&u, &v)| {
        let action = &store.actions[arcs[&(u, v)][0]].name;
        format!("{} to {} by {action}", store.variables[u].name, store.variables[v].name)
    });
    let steps: Vec<String> = steps.collect();
    let begin = format!("the black causal graph has a cycle: {}", steps.join(", "));
    Some(format!("{begin}; {}", advice(store, &graph, &cycle)))
}

/// What to paint red: one variable of the cycle if that leaves no cycle, else several.
fn advice(store: &Store, graph: &BlackGraph, cycle: &[usize]) -> String {
    let names = |variables: &[usize]| -> Vec<String> {
        variables.iter().map(|&v| store.variables[v].name.clone()).collect()
    };
    let breaks = |&v: &usize| graph.without(v).on_cycles() == 0;
    let alone: Vec<usize> = cycle.iter().copied().filter(breaks).collect();
    if alone.is_empty() {
        return format!(
            "painting {} red would leave no cycle",
            and(&names(&several(graph, cycle)))
        );
    }
    let accepted: Vec<usize> = alone.iter().copied().filter(|&v| is_accepted(store, v)).collect();
    if accepted.is_empty() {
        let red = or(&names(&alone));
        return format!(
            "painting {red} red would leave no cycle, but then an arc lacks its return"
        );
    }
    format!("painting {} red would make it accepted", or(&names(&accepted)))
}

/// Whether the painting is accepted once a variable is red.
fn is_accepted(store: &Store, variable: usize) -> bool {
    let mut painted = store.clone();
    painted.variables[variable].black = false;
    let answer = library::plan(&painted.record(), 0);
    !matches!(answer, Err(refusal) if [7, 8].contains(&refusal.number))
}

/// Variables that leave no cycle when all are painted red: of each cycle left the one that leaves the
/// fewest variables on cycles.
fn several(graph: &BlackGraph, cycle: &[usize]) -> Vec<usize> {
    let (mut graph, mut cycle) = (graph.clone(), Some(cycle.to_vec()));
    let mut red = Vec::new();
    while let Some(on) = cycle {
        let Some(v) = on.into_iter().min_by_key(|&v| graph.without(v).on_cycles().count_ones())
        else {
            break;
        };
        graph = graph.without(v);
        red.push(v);
        cycle = graph.shortest_cycle(graph.on_cycles().trailing_zeros() as usize);
    }
    red
}

/// 8: the lowest arc of an action that lacks its return, and the return it lacks.
pub fn lacking_return(store: &Store, action: usize) -> Option<String> {
    let of = store.actions.get(action)?;
    let moved = of.changed().find(|&v| store.variables[v].black)?;
    let arcs = value_arcs(store, moved).into_iter();
    let arc =
        arcs.filter(|arc| arc.action == action).find(|&arc| !has_return(store, moved, arc))?;
    let variable = &store.variables[moved];
    let (from, to) = (&variable.values[arc.from], &variable.values[arc.to]);
    let (moved_name, name) = (&variable.name, &of.name);
    let begin = format!("{name} moves {moved_name} from {from} to {to}");
    Some(format!(
        "{begin}, and {}; what is lacking is an action that sets {moved_name} = {from} and needs \
         nothing but {}",
        why_none(store, moved, arc),
        and(&may_need(store, moved, arc)),
    ))
}

/// The actions that lead back need too much, or there are none.
fn why_none(store: &Store, moved: usize, arc: ValueArc) -> String {
    let action = &store.actions[arc.action];
    let given = |fact: &Fact| {
        fact.variable() == moved || action.needs.contains(fact) || action.sets.contains(fact)
    };
    let back = store.actions.iter().filter(|back| leads_back(back, moved, arc));
    let faults = back.map(|back| {
        let more: Vec<Fact> = back.needs.iter().copied().filter(|fact| !given(fact)).collect();
        (
            more.len(),
            format!("{}, which moves it back, also needs {}", back.name, store.facts(&more)),
        )
    });
    let least = faults.min_by_key(|(count, _)| *count);
    least.map_or("no action moves it back".to_owned(), |(_, words)| words)
}

/// What the return may need: the value that it leaves, and what the action needs or sets elsewhere.
fn may_need(store: &Store, moved: usize, arc: ValueArc) -> Vec<String> {
    let action = &store.actions[arc.action];
    let mut facts = vec![Fact::new(moved, arc.to)];
    for &fact in action.needs.iter().chain(&action.sets) {
        if fact.variable() != moved && !facts.contains(&fact) {
            facts.push(fact);
        }
    }
    facts.into_iter().map(|fact| store.fact(fact)).collect()
}
