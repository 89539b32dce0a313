//! Best paths of the black variables along usable arcs (6.7), kept, and mended for each new arc.

use crate::index::{ACTIONS, NONE};
use crate::painting::{Move, ANYWHERE};
use crate::room::{table, Table};
use crate::set::members;
use crate::task::{Fact, Task, FACTS};

/// What the best path from each value to one costs, and the action that it begins with.
#[derive(Clone)]
struct Row {
    /// Cost × 64 + moves. A path has fewer than 64 moves, so the sum orders by cost and then by moves;
    /// each arc adds something, even if it costs nothing.
    keys: [u32; 64],
    /// Action × 64 + the value it sets.
    leads: [u16; 64],
}

/// More than any key, and no sum with it is too large.
const FAR: u32 = 1 << 30;
const NO_ROW: Row = Row { keys: [FAR; 64], leads: [0; 64] };

/// A usable arc, or one from every value, and the next that sets the same fact.
#[derive(Clone, Copy, Debug)]
struct Arc {
    key: u32,
    next: u16,
    from: u8,
}

const NO_ARC: Arc = Arc { key: 0, next: NONE, from: 0 };

/// Usable arcs by the fact that they set.
struct Arcs {
    head: Table<u16, FACTS>,
    arcs: Table<Arc, ACTIONS>,
}

pub struct Paths {
    usable: Arcs,
    rows: Vec<Row>,
    used: usize,
    /// The row to each fact, for those in `known`.
    place: Table<u16, FACTS>,
    known: [u64; 64],
    /// The values of each black variable.
    values: [u64; 64],
}

impl Paths {
    pub fn new() -> Self {
        Paths {
            usable: Arcs { head: table(NONE), arcs: table(NO_ARC) },
            rows: Vec::new(),
            used: 0,
            place: table(0),
            known: [0; 64],
            values: [0; 64],
        }
    }

    pub fn clear(&mut self, task: &Task, black: u64) {
        for v in members(black) {
            let values = task.variables[v].values;
            let first = Fact::new(v, 0).index();
            self.usable.head[first..first + values as usize].fill(NONE);
            self.values[v] = !0 >> (64 - values);
            self.known[v] = 0;
        }
        self.used = 0;
    }

    /// Adds a move that became usable, and mends the rows in which it is better than what is there.
    pub fn add(&mut self, moved: Move, cost: u32, number: usize) {
        let (v, to) = (moved.variable as usize % 64, moved.to as usize % 64);
        let head = &mut self.usable.head[moved.target().index()];
        let arc = Arc { key: cost << 6 | 1, next: *head, from: moved.from };
        *head = number as u16;
        self.usable.arcs[number % ACTIONS] = arc;
        for known in members(self.known[v]) {
            let row = &mut self.rows[self.place[Fact::new(v, known).index()] as usize];
            let fallen = row.take(arc, number, to, self.values[v]);
            row.spread(fallen, &self.usable, v, self.values[v]);
        }
    }

    /// The row to a fact, which there is a path to from the value given.
    #[inline(always)]
    pub fn row(&mut self, from: usize, to: Fact) -> usize {
        if self.known[to.variable()] >> to.value() & 1 == 0 {
            self.find(to);
        }
        let row = self.place[to.index()] as usize;
        assert!(self.rows[row].keys[from % 64] < FAR, "no usable path from {from}");
        row
    }

    /// The next action on a row's way from a value, and the value that it sets.
    #[inline(always)]
    pub fn next(&self, row: usize, from: usize) -> (u16, usize) {
        let lead = self.rows[row].leads[from % 64];
        (lead >> 6, lead as usize % 64)
    }

    fn find(&mut self, to: Fact) {
        let (v, bit) = (to.variable(), 1 << to.value());
        self.known[v] |= bit;
        self.place[to.index()] = self.used as u16;
        if self.rows.len() == self.used {
            self.rows.push(NO_ROW);
        }
        let row = &mut self.rows[self.used];
        self.used += 1;
        row.keys = NO_ROW.keys;
        row.keys[to.value()] = 0;
        row.spread(bit, &self.usable, v, self.values[v]);
    }
}

impl Row {
    /// Takes an arc into the row where its key is less than what is there, or the same with a lower
    /// action; answers the values whose keys fell.
    #[inline(always)]
    fn take(&mut self, arc: Arc, number: usize, to: usize, values: u64) -> u64 {
        let key = self.keys[to] + arc.key;
        let lead = (number << 6 | to) as u16;
        let mut fallen = 0;
        for from in members(if arc.from == ANYWHERE { values } else { 1 << (arc.from % 64) }) {
            if key < self.keys[from] {
                (self.keys[from], self.leads[from]) = (key, lead);
                fallen |= 1 << from;
            } else if key == self.keys[from] {
                self.leads[from] = lead.min(self.leads[from]);
            }
        }
        fallen
    }

    /// Round by round takes in the arcs to values whose keys fell, until none falls. Where a key
    /// stays, what leads to it stays too, whichever action its own path begins with.
    #[inline(always)]
    fn spread(&mut self, mut fallen: u64, usable: &Arcs, v: usize, values: u64) {
        while fallen != 0 {
            for to in members(std::mem::take(&mut fallen)) {
                fallen &= !(1 << to);
                let mut number = usable.head[Fact::new(v, to).index()];
                while number != NONE {
                    let arc = usable.arcs[number as usize % ACTIONS];
                    fallen |= self.take(arc, number as usize, to, values);
                    number = arc.next;
                }
            }
        }
    }
}

#[cfg(test)]
mod tests {
    use super::*;
    use crate::task::Variable;

    struct Graph {
        paths: Paths,
        /// Action, cost, and the move.
        arcs: Vec<(u16, u32, Move)>,
    }

    impl Graph {
        fn new(values: u8) -> Self {
            let variable = Variable { values, black: true, initial: 0, goal: None };
            let mut paths = Paths::new();
            paths.clear(&Task::new(vec![variable]), 1);
            Graph { paths, arcs: Vec::new() }
        }

        /// Adds arcs: action, cost, from, to.
        fn add(&mut self, arcs: &[(usize, u32, u8, u8)]) {
            for &(number, cost, from, to) in arcs {
                let moved = Move { variable: 0, from, to };
                self.arcs.push((number as u16, cost, moved));
                self.paths.add(moved, cost, number);
            }
        }

        fn path(&mut self, from: usize, to: usize) -> Vec<u16> {
            let row = self.paths.row(from, Fact::new(0, to));
            let (mut at, mut list) = (from, Vec::new());
            while at != to {
                let (number, next) = self.paths.next(row, at);
                list.push(number);
                at = next;
            }
            list
        }

        /// Cost, moves and actions of the best of all paths that avoid a set of values.
        fn best(&self, from: usize, to: usize, seen: u64) -> Option<(u32, usize, Vec<u16>)> {
            if from == to {
                return Some((0, 0, Vec::new()));
            }
            let seen = seen | 1 << from;
            let fits = |moved: &Move| moved.leaves(from as u8) && seen >> moved.to & 1 == 0;
            let leaving = self.arcs.iter().filter(|(_, _, moved)| fits(moved));
            let all = leaving.filter_map(|&(number, cost, moved)| {
                let (rest, moves, list) = self.best(moved.to as usize, to, seen)?;
                Some((cost + rest, moves + 1, [&[number][..], &list].concat()))
            });
            all.min()
        }
    }

    #[test]
    fn cost_before_moves() {
        let mut graph = Graph::new(4);
        graph.add(&[(3, 1, 0, 1), (4, 1, 1, 2), (5, 1, 2, 3)]);
        assert_eq!(graph.path(0, 3), [3, 4, 5]);
        graph.add(&[(0, 4, 0, 3)]);
        assert_eq!(graph.path(0, 3), [3, 4, 5]);
        graph.add(&[(1, 2, 0, 3)]);
        assert_eq!(graph.path(0, 3), [1]);
        assert_eq!(graph.path(1, 3), [4, 5]);
    }

    #[test]
    fn moves_before_numbers() {
        let mut graph = Graph::new(4);
        graph.add(&[(0, 0, 3, 2), (1, 0, 2, 1), (2, 0, 1, 0), (3, 0, 0, 3)]);
        graph.add(&[(4, 0, 2, 3), (5, 0, 1, 2), (6, 0, 0, 1)]);
        assert_eq!(graph.path(3, 0), [0, 1, 2]);
        graph.add(&[(7, 0, 3, 0)]);
        assert_eq!(graph.path(3, 0), [7]);
        assert_eq!(graph.path(2, 0), [1, 2]);
        graph.add(&[(8, 3, 3, 0), (9, 3, 0, 3)]);
        assert_eq!(graph.path(3, 0), [7]);
        assert_eq!(graph.path(0, 2), [3, 0]);
    }

    #[test]
    fn smallest_first_to_last() {
        let mut graph = Graph::new(4);
        graph.add(&[(2, 1, 3, 2), (0, 2, 2, 0)]);
        assert_eq!(graph.path(3, 0), [2, 0]);
        graph.add(&[(3, 1, 1, 0)]);
        assert_eq!(graph.path(3, 0), [2, 0]);
        graph.add(&[(1, 2, 3, 1)]);
        assert_eq!(graph.path(3, 0), [1, 3]);
        graph.add(&[(4, 0, 1, 0)]);
        assert_eq!(graph.path(3, 0), [1, 4]);
    }

    #[test]
    fn cheapest_and_then_lowest_of_parallel_actions() {
        let mut graph = Graph::new(2);
        graph.add(&[(5, 2, 0, 1)]);
        assert_eq!(graph.path(0, 1), [5]);
        graph.add(&[(3, 2, ANYWHERE, 1), (4, 2, 0, 1)]);
        assert_eq!(graph.path(0, 1), [3]);
        graph.add(&[(0, 3, 0, 1), (2, 2, 0, 1)]);
        assert_eq!(graph.path(0, 1), [2]);
        graph.add(&[(9, 1, 0, 1)]);
        assert_eq!(graph.path(0, 1), [9]);
        graph.add(&[(1023, 0, ANYWHERE, 1), (1022, 0, 0, 1)]);
        assert_eq!(graph.path(0, 1), [1022]);
    }

    #[test]
    fn a_cheaper_arc_mends_what_lies_before_it() {
        let mut graph = Graph::new(5);
        graph.add(&[(0, 9, 0, 4), (1, 1, 0, 1), (2, 1, 1, 2), (3, 9, 2, 3), (4, 1, 3, 4)]);
        graph.add(&[(5, 1, 0, 2)]);
        assert_eq!((graph.path(0, 4), graph.path(1, 4)), (vec![0], vec![2, 3, 4]));
        graph.add(&[(6, 6, 2, 3)]);
        assert_eq!((graph.path(0, 4), graph.path(1, 4)), (vec![5, 6, 4], vec![2, 6, 4]));
        graph.add(&[(7, 0, 1, 3)]);
        assert_eq!((graph.path(0, 4), graph.path(2, 4)), (vec![1, 7, 4], vec![6, 4]));
    }

    #[test]
    fn the_dearest_way_is_taken_where_there_is_no_other() {
        let mut graph = Graph::new(64);
        (0..63).for_each(|at| graph.add(&[(at as usize, 65_535, at, at + 1)]));
        assert_eq!(graph.path(0, 63), (0..63).collect::<Vec<u16>>());
        graph.add(&[(63, 65_535, 61, 63), (64, 0, 61, 62), (65, 0, 62, 63)]);
        assert_eq!(graph.path(0, 63)[61..], [64, 65]);
    }

    /// SplitMix64, a number below a limit.
    fn draw(seed: &mut u64, limit: u64) -> u64 {
        *seed = seed.wrapping_add(0x9e37_79b9_7f4a_7c15);
        let x = (*seed ^ *seed >> 30).wrapping_mul(0xbf58_476d_1ce4_e5b9);
        let x = (x ^ x >> 27).wrapping_mul(0x94d0_49bb_1331_11eb);
        (x ^ x >> 31) % limit
    }

    /// Graphs of a few values with ties on purpose, arc by arc, and after each arc the path between
    /// some two values.
    #[test]
    fn paths_are_the_best_of_all() {
        let seed = &mut 7;
        let (mut asked, mut found) = (0, 0);
        for _ in 0..10_000 {
            let values = 2 + draw(seed, 4);
            let (costs, mut graph) = (1 + draw(seed, 4), Graph::new(values as u8));
            let mut numbers: Vec<usize> = (0..draw(seed, 20) as usize).collect();
            while !numbers.is_empty() {
                let number = numbers.swap_remove(draw(seed, numbers.len() as u64) as usize);
                let to = draw(seed, values) as u8;
                let other = (to + 1 + draw(seed, values - 1) as u8) % values as u8;
                let from = if draw(seed, 12) == 0 { ANYWHERE } else { other };
                graph.add(&[(number, draw(seed, costs) as u32, from, to)]);
                let (c, d) = (draw(seed, values) as usize, draw(seed, values) as usize);
                asked += 1;
                let Some((_, _, list)) = graph.best(c, d, 0) else { continue };
                assert_eq!(graph.path(c, d), list);
                found += usize::from(list.len() > 1);
            }
        }
        assert!(asked > 90_000 && found > 9_000, "{asked} {found}");
    }
}
