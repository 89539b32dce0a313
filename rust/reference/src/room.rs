//! Tables that are made once and used by call after call, of which each clears only what it uses.

/// A table of fixed size, so that numbers below it need no check.
pub type Table<T, const N: usize> = Box<[T; N]>;

pub fn table<T: Copy + std::fmt::Debug, const N: usize>(value: T) -> Table<T, N> {
    vec![value; N].into_boxed_slice().try_into().unwrap()
}
