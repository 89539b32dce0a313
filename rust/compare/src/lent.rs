//! Lists and bytes lent to both sides.

use crate::guard::{Guarded, Plain};
use generate::Random;

/// Two areas with the same contents before a call: one for the library, against a forbidden page,
/// and one for the reference.
pub struct Lent<T> {
    library: Guarded<T>,
    reference: Vec<T>,
    len: usize,
}

impl<T: Plain + PartialEq + TryFrom<u64>> Lent<T> {
    pub fn new(most: usize) -> Self {
        Lent { library: Guarded::new(most), reference: Vec::new(), len: 0 }
    }

    /// Random contents of the given length for both sides.
    pub fn refill(&mut self, random: &mut Random, len: usize) {
        self.len = len;
        self.reference.clear();
        let mask = u64::MAX >> (64 - 8 * size_of::<T>());
        let number = || T::try_from(random.bits() & mask).ok().unwrap();
        self.reference.extend(std::iter::repeat_with(number).take(len));
        self.library.at_end(len).copy_from_slice(&self.reference);
    }

    pub fn library(&mut self) -> &mut [T] {
        self.library.at_end(self.len)
    }

    pub fn reference(&mut self) -> &mut [T] {
        &mut self.reference
    }

    /// The first entry in which the two sides differ.
    pub fn difference(&mut self) -> Option<usize> {
        let library = self.library.at_end(self.len);
        if library == self.reference {
            return None;
        }
        (0..self.len).find(|&i| library[i] != self.reference[i])
    }
}
