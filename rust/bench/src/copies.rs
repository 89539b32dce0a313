//! What the copies of a step by value cost on this machine.

use std::hint::black_box;
use std::time::Instant;

const TURNS: usize = 10_000;
const ROUNDS: usize = 100;

/// Nanoseconds for a copy of so many bytes and one back, with a store of eight bytes in between.
pub fn two(bytes: usize) -> f64 {
    let mut state = vec![0u64; bytes / 8];
    let mut next = state.clone();
    (0..ROUNDS).map(|_| round(&mut state, &mut next)).fold(f64::MAX, f64::min)
}

fn round(state: &mut [u64], next: &mut [u64]) -> f64 {
    let started = Instant::now();
    for turn in 0..TURNS {
        next.copy_from_slice(black_box(state));
        let place = turn * 7 % next.len();
        next[place] |= turn as u64;
        state.copy_from_slice(black_box(next));
    }
    started.elapsed().as_secs_f64() * 1e9 / TURNS as f64
}
