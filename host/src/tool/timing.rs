//! Timing of short operations.

use std::arch::asm;
use std::time::Duration;

/// Nanoseconds of one call of each of N candidates: the best of several rounds, in which they take turns, so that what else the
/// machine does meets all of them. `round` makes some calls of one candidate and tells how long they took; its rounds
/// together last about `budget`.
pub fn nanoseconds<const N: usize>(budget: Duration, mut round: impl FnMut(usize, u64) -> Duration) -> [f64; N] {
    const ROUNDS: u32 = 5;
    let mut calls = [0; N];
    for (which, calls) in calls.iter_mut().enumerate() {
        *calls = calls_in(budget / ROUNDS, |calls| round(which, calls));
    }
    let mut best = [f64::INFINITY; N];
    for _ in 0..ROUNDS {
        for which in 0..N {
            let taken = round(which, calls[which]).as_nanos() as f64 / calls[which] as f64;
            best[which] = best[which].min(taken);
        }
    }
    best
}

/// How many calls fit into a time.
fn calls_in(time: Duration, mut round: impl FnMut(u64) -> Duration) -> u64 {
    let mut calls = 1u64;
    loop {
        let taken = round(calls);
        if taken > time / 8 {
            return ((calls as f64 * time.as_secs_f64() / taken.as_secs_f64()) as u64).max(1);
        }
        calls *= 2;
    }
}

/// A value that the optimiser knows nothing of; the standard library's is newer than Debian's compiler.
pub fn black_box<T>(value: T) -> T {
    // SAFETY: it has no instruction, and only claims to look at the value.
    unsafe { asm!("/* {0} */", in(reg) &value, options(nostack, preserves_flags)) };
    value
}

/// Keeps the optimiser from seeing that a result is not used.
pub fn keep<T>(value: T) {
    black_box(value);
}
