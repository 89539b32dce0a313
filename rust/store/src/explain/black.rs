//! The black causal graph as sets of variables.

use std::collections::VecDeque;

use crate::picture::causal::causal_graph;
use crate::store::Store;

/// For each variable the black ones to which it has an arc, if it is black.
#[derive(Clone)]
pub struct BlackGraph {
    arcs: [u64; 64],
}

impl BlackGraph {
    pub fn new(store: &Store) -> Self {
        let black = |v: usize| store.variables[v].black;
        let mut arcs = [0; 64];
        for (u, v) in causal_graph(store).into_keys().filter(|&(u, v)| black(u) && black(v)) {
            arcs[u] |= 1 << v;
        }
        BlackGraph { arcs }
    }

    /// The graph with a variable painted red.
    pub fn without(&self, variable: usize) -> Self {
        let mut arcs = self.arcs.map(|to| to & !(1 << variable));
        arcs[variable] = 0;
        BlackGraph { arcs }
    }

    /// The variables on cycles.
    pub fn on_cycles(&self) -> u64 {
        let mut reach = self.arcs;
        for middle in 0..64 {
            for from in 0..64 {
                if reach[from] >> middle & 1 == 1 {
                    reach[from] |= reach[middle];
                }
            }
        }
        (0..64).filter(|&v| reach[v] >> v & 1 == 1).fold(0, |set, v| set | 1 << v)
    }

    /// The variables of a shortest cycle, from a variable on.
    pub fn shortest_cycle(&self, start: usize) -> Option<Vec<usize>> {
        let mut before: [Option<usize>; 64] = [None; 64];
        let mut queue = VecDeque::from([start]);
        while let Some(u) = queue.pop_front() {
            let arcs = self.arcs.get(u).copied().unwrap_or(0);
            for v in (0..64).filter(|&v| arcs >> v & 1 == 1) {
                if before[v].is_none() {
                    before[v] = Some(u);
                    queue.push_back(v);
                }
            }
        }
        let mut cycle = vec![start];
        let mut at = (*before.get(start)?)?;
        while at != start {
            cycle.push(at);
            at = before[at]?;
        }
        cycle[1..].reverse();
        Some(cycle)
    }
}
