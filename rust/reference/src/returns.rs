//! Whether each arc of the black variables has its return (SPECIFICATION, Paintings that are
//! accepted).

use crate::index::{Chains, ACTIONS, NONE};
use crate::painting::Move;
use crate::refusal::Refusal;
use crate::room::{table, Table};
use crate::rows::Rows;
use crate::set::members;
use crate::state::State;
use crate::task::{Fact, Task, FACTS};

type Moves = [Option<Move>; ACTIONS];

pub struct Returns {
    /// Moves by the fact that they set.
    setting: Chains,
    /// Moves by their variable, rising; a variable stands as its value 0.
    own: Chains,
    /// The move that served last as a return to each fact.
    served: Table<u16, FACTS>,
    /// For each move the place of the precondition that was unmet last, which is tried first.
    unmet: Table<u8, ACTIONS>,
    rows: Rows,
    /// What the move in hand sets of its variable, and its outside condition and effect.
    union: State,
}

impl Returns {
    pub fn new() -> Self {
        Returns {
            setting: Chains::new(),
            own: Chains::new(),
            served: table(NONE),
            unmet: table(0),
            rows: Rows::new(),
            union: State::empty(),
        }
    }

    /// 8 at the lowest action with an arc that lacks its return.
    pub fn check(&mut self, task: &Task, black: u64, moves: &Moves) -> Result<(), Refusal> {
        self.group(task, black, moves);
        let all = task.action_count();
        let lowest = members(black).fold(all, |lowest, v| self.lowest(task, moves, v, lowest));
        if lowest < all {
            return Err(Refusal::new(8, lowest));
        }
        Ok(())
    }

    fn group(&mut self, task: &Task, black: u64, moves: &Moves) {
        for v in members(black) {
            let values = task.variables[v].values as usize;
            let first = Fact::new(v, 0).index();
            self.setting.clear(v, values);
            self.own.clear(v, 1);
            self.served[first..first + values].fill(NONE);
        }
        for (number, moved) in moves[..task.action_count()].iter().enumerate().rev() {
            if let Some(moved) = moved {
                self.setting.insert(moved.target(), number);
                self.own.insert(Fact::new(moved.variable as usize, 0), number);
            }
        }
    }

    /// The lower of `lowest` and the first move of the variable that lacks a return.
    fn lowest(&mut self, task: &Task, moves: &Moves, v: usize, lowest: usize) -> usize {
        let Returns { setting, own, served, unmet, rows, union } = self;
        let mut search = Search {
            task,
            moves,
            setting,
            served,
            unmet,
            rows,
            in_rows: false,
            looked: 0,
            spent: 0,
            limit: Rows::LEAST,
            price: None,
        };
        for number in own.of(Fact::new(v, 0)).take_while(|&number| number < lowest) {
            let Some(moved) = moves[number % ACTIONS] else { continue };
            let action = task.action(number);
            let facts = || action.preconditions.iter().chain(action.effects);
            facts().for_each(|&fact| union.add(fact));
            union.clear(moved.target());
            union.add(moved.target());
            let returns = search.returns(moved, union);
            facts().for_each(|&fact| union.clear(fact));
            if !returns {
                return number;
            }
        }
        lowest
    }
}

/// The search for returns of one variable's moves: one by one, the last that served first; in rows
/// once that has cost more than the rows would have.
struct Search<'a> {
    task: &'a Task,
    moves: &'a Moves,
    setting: &'a Chains,
    served: &'a mut [u16; FACTS],
    unmet: &'a mut [u8; ACTIONS],
    rows: &'a mut Rows,
    in_rows: bool,
    /// Moves and preconditions looked at since rows were last thought of, and how many of the
    /// latter call for the next thought.
    looked: usize,
    spent: usize,
    limit: usize,
    /// What rows would take for a move, once known.
    price: Option<usize>,
}

impl Search<'_> {
    /// Whether each arc of a move has its return; `union` holds the value that the move sets, and
    /// its outside condition and effect.
    #[inline(always)]
    fn returns(&mut self, moved: Move, union: &State) -> bool {
        let v = moved.variable as usize;
        let sources = moved.sources(self.task.variables[v].values);
        if self.spent > self.limit && self.looked >= Rows::LEAST_MOVES && !self.in_rows {
            self.weigh(v);
        }
        if self.in_rows {
            return sources & !self.rows.returned(union) == 0;
        }
        self.looked += 1;
        members(sources).all(|value| self.one_by_one(Fact::new(v, value), moved.to, union))
    }

    /// Changes to rows if they are cheaper, else gives the search one by one more time.
    #[cold]
    fn weigh(&mut self, v: usize) {
        let Search { task, setting, rows, .. } = self;
        let price = *self.price.get_or_insert_with(|| rows.survey(task, setting, v));
        self.in_rows = price * self.looked < self.spent;
        if self.in_rows {
            rows.build(task, setting, v);
        }
        self.limit = 2 * self.spent;
        (self.looked, self.spent) = (0, 0);
    }

    #[inline(always)]
    fn one_by_one(&mut self, fact: Fact, from: u8, union: &State) -> bool {
        let served = self.served[fact.index()];
        if served != NONE {
            let preconditions = self.task.preconditions(served as usize);
            self.spent += 1 + preconditions.len();
            if union.holds_all(preconditions) {
                return true;
            }
        }
        let (setting, moves) = (self.setting, self.moves);
        let leaves = |n: usize| moves[n % ACTIONS].is_some_and(|moved| moved.leaves(from));
        let mut candidates = setting.of(fact).filter(|&number| leaves(number));
        let found = candidates.find(|&number| self.serves(number, union));
        self.served[fact.index()] = found.map_or(NONE, |number| number as u16);
        found.is_some()
    }

    #[inline(always)]
    fn serves(&mut self, number: usize, union: &State) -> bool {
        let preconditions = self.task.preconditions(number);
        let unmet = &mut self.unmet[number % ACTIONS];
        self.spent += 1;
        if preconditions.get(*unmet as usize).is_some_and(|&fact| !union.holds(fact)) {
            return false;
        }
        let met = preconditions.iter().take_while(|&&fact| union.holds(fact)).count();
        self.spent += met;
        *unmet = met as u8;
        met == preconditions.len()
    }
}
