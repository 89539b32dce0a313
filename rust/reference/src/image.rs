//! Newest values, a byte for each variable, and actions in the same form, so that eight variables
//! are looked at at once.

use crate::task::{Action, Fact, Task};

/// One value for each variable.
#[derive(Clone, Copy)]
pub struct Values([u8; 64]);

impl Values {
    pub fn initial(task: &Task) -> Self {
        let mut values = Values([0; 64]);
        task.variables.iter().zip(&mut values.0).for_each(|(v, value)| *value = v.initial);
        values
    }

    #[inline(always)]
    pub fn of(&self, variable: usize) -> usize {
        self.0[variable % 64] as usize
    }

    #[inline(always)]
    pub fn set(&mut self, fact: Fact) {
        self.0[fact.variable()] = fact.value() as u8;
    }
}

/// Eight bytes as a number.
#[inline(always)]
fn word(bytes: &[u8; 64], i: usize) -> u64 {
    u64::from_ne_bytes(bytes[8 * i..8 * i + 8].try_into().unwrap())
}

/// Facts as bytes: ones for the variables that are named, and their values.
#[derive(Clone, Copy, Debug)]
struct Facts {
    named: [u8; 64],
    values: [u8; 64],
}

impl Facts {
    const NONE: Facts = Facts { named: [0; 64], values: [0; 64] };

    fn of<'a>(facts: impl Iterator<Item = &'a Fact>) -> Self {
        let mut all = Facts::NONE;
        for fact in facts {
            all.named[fact.variable()] = 0xff;
            all.values[fact.variable()] = fact.value() as u8;
        }
        all
    }
}

#[derive(Clone, Copy, Debug)]
pub struct Image {
    needs: Facts,
    sets: Facts,
}

impl Image {
    pub const EMPTY: Image = Image { needs: Facts::NONE, sets: Facts::NONE };

    /// What an action needs of the variables in `single`, and sets.
    pub fn of(action: Action, single: u64) -> Self {
        let looked_at = |fact: &&Fact| single >> fact.variable() & 1 == 1;
        let needs = Facts::of(action.preconditions.iter().filter(looked_at));
        Image { needs, sets: Facts::of(action.effects.iter()) }
    }

    /// Applies the action to the newest values if they are what it needs.
    #[inline(always)]
    pub fn apply(&self, now: &mut Values) -> bool {
        let Image { needs, sets } = self;
        let now = &mut now.0;
        let unmet = |i| (word(now, i) ^ word(&needs.values, i)) & word(&needs.named, i);
        if (0..8).fold(0, |all, i| all | unmet(i)) != 0 {
            return false;
        }
        for i in 0..8 {
            let next = word(now, i) & !word(&sets.named, i) | word(&sets.values, i);
            now[8 * i..8 * i + 8].copy_from_slice(&next.to_ne_bytes());
        }
        true
    }
}
