//! Sets of numbers below 64.

/// The members of a set, rising.
#[inline(always)]
pub fn members(mut set: u64) -> impl Iterator<Item = usize> {
    std::iter::from_fn(move || {
        let lowest = (set != 0).then(|| set.trailing_zeros() as usize)?;
        set &= set - 1;
        Some(lowest)
    })
}

#[inline(always)]
pub fn contains(set: u64, number: usize) -> bool {
    set >> number & 1 == 1
}
