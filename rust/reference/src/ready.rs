//! Applicable actions, taken in the order of cost and number (4.2).

use crate::index::ACTIONS;
use crate::ranking::Ranking;
use crate::state::State;
use crate::task::Task;

/// As many are kept sorted; where more come together, the task's actions are ranked.
const FEW: usize = 32;

pub struct Ready {
    /// Cost and number in one, the cheapest last.
    few: [u32; FEW],
    count: usize,
    ranked: bool,
    ranks: Ranks,
    ranking: Ranking,
}

impl Ready {
    pub fn new() -> Self {
        let (ranks, ranking) = (Ranks::default(), Ranking::new());
        Ready { few: [0; FEW], count: 0, ranked: false, ranks, ranking }
    }

    pub fn clear(&mut self) {
        self.count = 0;
        self.ranked = false;
    }

    /// Where there are others, one that adds nothing is left out: it never will.
    #[inline(always)]
    pub fn insert(&mut self, task: &Task, held: &State, number: usize) {
        if self.ranked {
            return self.ranks.insert(self.ranking.rank(number));
        }
        if self.count > 0 && held.holds_all(task.effects(number)) {
            return;
        }
        if self.count == FEW {
            self.rank(task);
            return self.ranks.insert(self.ranking.rank(number));
        }
        self.sort_in(task.cost(number) << 16 | number as u32);
    }

    #[inline(always)]
    fn sort_in(&mut self, key: u32) {
        let mut at = self.count;
        while at > 0 && self.few[(at - 1) % FEW] < key {
            self.few[at % FEW] = self.few[(at - 1) % FEW];
            at -= 1;
        }
        self.few[at % FEW] = key;
        self.count += 1;
    }

    #[inline(never)]
    fn rank(&mut self, task: &Task) {
        self.ranking.fill(task);
        self.ranks = Ranks::default();
        self.ranked = true;
        for key in &self.few[..self.count] {
            self.ranks.insert(self.ranking.rank(*key as usize % ACTIONS));
        }
    }

    /// The cheapest; of several the lowest number.
    #[inline(always)]
    pub fn take(&mut self) -> Option<usize> {
        if self.ranked {
            return self.ranks.take_lowest().map(|rank| self.ranking.number(rank));
        }
        self.count = self.count.checked_sub(1)?;
        Some(self.few[self.count % FEW] as usize % ACTIONS)
    }
}

/// A set of ranks that gives its lowest.
#[derive(Default)]
struct Ranks {
    words: [u64; 16],
    filled: u16,
}

impl Ranks {
    #[inline(always)]
    fn insert(&mut self, rank: usize) {
        self.words[rank / 64 % 16] |= 1 << (rank % 64);
        self.filled |= 1 << (rank / 64 % 16);
    }

    #[inline(always)]
    fn take_lowest(&mut self) -> Option<usize> {
        if self.filled == 0 {
            return None;
        }
        let at = self.filled.trailing_zeros() as usize;
        let word = &mut self.words[at];
        let rank = 64 * at + word.trailing_zeros() as usize;
        *word &= *word - 1;
        self.filled &= !(u16::from(*word == 0) << at);
        Some(rank)
    }
}
