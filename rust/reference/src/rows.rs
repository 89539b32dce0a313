//! For one black variable, which of its moves can serve as returns, all at once: a bit for each
//! move, in rows.

use crate::index::Chains;
use crate::room::{table, Table};
use crate::set::members;
use crate::state::State;
use crate::task::{variables_of, Fact, Task, FACTS};

/// Words handled together in rows of more than one.
const BLOCK: usize = 4;

pub struct Rows {
    /// Words of a row, 1 or a multiple of `BLOCK`.
    words: usize,
    /// Row 0 is empty; then come the moves that need each variable, then those that need a fact.
    bits: Vec<u64>,
    /// Where the row of a fact starts.
    row: Table<u32, FACTS>,
    /// The variables that moves need.
    needed: u64,
    /// Which bits stand for moves to a value.
    parts: Vec<Part>,
}

struct Part {
    value: u8,
    word: u8,
    mask: u64,
}

/// The starts of the row of a variable and of those of its facts in a union, which are two at most.
#[derive(Clone, Copy, Default)]
struct Line {
    named: u32,
    met: [u32; 2],
}

impl Rows {
    /// Preconditions and moves looked at one by one before rows are thought of.
    pub const LEAST: usize = 500;
    pub const LEAST_MOVES: usize = 8;

    pub fn new() -> Self {
        Rows { words: 0, bits: Vec::new(), row: table(0), needed: 0, parts: Vec::new() }
    }

    /// Looks at the moves of a variable; answers what `returned` would take for one of them, in
    /// preconditions looked at one by one.
    pub fn survey(&mut self, task: &Task, setting: &Chains, v: usize) -> usize {
        let values = task.variables[v].values as usize;
        let (mut moves, mut needed) = (0, 0);
        for number in (0..values).flat_map(|value| setting.of(Fact::new(v, value))) {
            needed |= variables_of(task.preconditions(number));
            moves += 1;
        }
        let words = usize::div_ceil(moves, 64);
        self.words = if words > 1 { words.next_multiple_of(BLOCK) } else { words };
        self.needed = needed;
        needed.count_ones() as usize * (5 + self.words) + values
    }

    /// Builds the rows of the variable surveyed last.
    pub fn build(&mut self, task: &Task, setting: &Chains, v: usize) {
        let (variables, values) = (task.variables.len(), task.variables[v].values as usize);
        self.row[..64 * variables].fill(0);
        self.bits.clear();
        self.bits.resize(self.words * (1 + variables), 0);
        self.parts.clear();
        let mut place = 0;
        for value in 0..values {
            for number in setting.of(Fact::new(v, value)) {
                self.enter(task.preconditions(number), place);
                self.extend_part(value, place);
                place += 1;
            }
        }
    }

    fn enter(&mut self, preconditions: &[Fact], place: usize) {
        let (word, bit) = (place / 64, 1 << (place % 64));
        for &fact in preconditions {
            let row = &mut self.row[fact.index()];
            if *row == 0 {
                *row = self.bits.len() as u32;
                self.bits.resize(self.bits.len() + self.words, 0);
            }
            self.bits[*row as usize + word] |= bit;
            self.bits[self.words * (1 + fact.variable()) + word] |= bit;
        }
    }

    fn extend_part(&mut self, value: usize, place: usize) {
        let (word, bit) = ((place / 64) as u8, 1 << (place % 64));
        match self.parts.last_mut() {
            Some(part) if part.value as usize == value && part.word == word => part.mask |= bit,
            _ => self.parts.push(Part { value: value as u8, word, mask: bit }),
        }
    }

    /// The values to which some move leads whose preconditions lie in the union.
    pub fn returned(&self, union: &State) -> u64 {
        let mut lines = [Line::default(); 64];
        let mut count = 0;
        for variable in members(self.needed) {
            let values = union.of(variable);
            let row = |set: u64| match set {
                0 => 0,
                _ => self.row[Fact::new(variable, set.trailing_zeros() as usize).index()],
            };
            let met = [row(values), row(values & values.wrapping_sub(1))];
            lines[count % 64] = Line { named: (self.words * (1 + variable)) as u32, met };
            count += 1;
        }
        let lines = &lines[..count];
        let mut unmet = [0; 16];
        if self.words == 1 {
            unmet[..1].copy_from_slice(&self.unmet::<1>(lines, 0));
        } else {
            for (i, block) in unmet.chunks_exact_mut(BLOCK).take(self.words / BLOCK).enumerate() {
                block.copy_from_slice(&self.unmet::<BLOCK>(lines, i * BLOCK));
            }
        }
        self.parts.iter().fold(0, |values, part| {
            let serves = !unmet[part.word as usize % 16] & part.mask != 0;
            values | u64::from(serves) << part.value
        })
    }

    /// Some words of the moves that need what is not in the union.
    #[inline(always)]
    fn unmet<const N: usize>(&self, lines: &[Line], word: usize) -> [u64; N] {
        let words =
            |start: u32| -> &[u64; N] { self.bits[start as usize + word..].first_chunk().unwrap() };
        let mut unmet = [0; N];
        for line in lines {
            let (named, met) = (words(line.named), line.met.map(words));
            for i in 0..N {
                unmet[i] |= named[i] & !(met[0][i] | met[1][i]);
            }
        }
        unmet
    }
}
