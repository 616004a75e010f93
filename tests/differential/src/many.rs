//! Many random cases: how many, and in two threads.

use crate::random::Random;
use std::{array, env, thread};

/// The number in an environment variable, or the usual one.
pub fn count(variable: &str, usual: usize) -> usize {
    match env::var(variable) {
        Ok(text) => text.parse().unwrap_or_else(|_| panic!("{variable} is a number")),
        Err(_) => usual,
    }
}

/// What so many random cases count, summed. Half of them run in each of two threads.
pub fn summed<const N: usize>(
    cases: usize,
    seed: u64,
    one: impl Fn(&mut Random) -> [usize; N] + Sync,
) -> [usize; N] {
    let half = |cases: usize, seed: u64| {
        let mut random = Random(seed);
        let mut counts = [0; N];
        for _ in 0..cases {
            let one = one(&mut random);
            counts = array::from_fn(|k| counts[k] + one[k]);
        }
        counts
    };
    let (a, b) = thread::scope(|scope| {
        let a = scope.spawn(|| half(cases / 2, seed));
        let b = scope.spawn(|| half(cases - cases / 2, seed + 1));
        (a.join().unwrap(), b.join().unwrap())
    });
    array::from_fn(|k| a[k] + b[k])
}
