//! Measuring two jobs for the same thing.

use crate::calls::Outcome;
use std::hint::black_box;
use std::time::{Duration, Instant};

/// How long each pair is measured.
const TIME: Duration = Duration::from_secs(1);
/// How often at least.
const ROUNDS: usize = 50;

/// The shortest run of each job, in microseconds.
#[derive(Clone, Copy)]
pub struct Times {
    pub ours: f64,
    pub rust: f64,
    /// That of the job beside them, if there is one.
    pub beside: f64,
}

/// Sees that two jobs answer the same and leave the same of a memory, and measures both.
pub fn race<T: Copy + PartialEq>(
    name: &str,
    memory: &[T],
    ours: impl Fn(&mut [T]) -> Outcome,
    rust: impl Fn(&mut [T]) -> Outcome,
) -> Times {
    race_beside(name, memory, ours, rust, || ())
}

/// The same, with another job measured beside them.
/// They take turns, so that a slow phase of the machine hits all, and each run begins with the memory as it is given.
pub fn race_beside<T: Copy + PartialEq>(
    name: &str,
    memory: &[T],
    ours: impl Fn(&mut [T]) -> Outcome,
    rust: impl Fn(&mut [T]) -> Outcome,
    mut beside: impl FnMut(),
) -> Times {
    let (mut left, mut right) = (memory.to_vec(), memory.to_vec());
    assert_eq!(ours(&mut left), rust(&mut right), "{name}: answers");
    assert!(left == right, "{name}: what is left in memory");
    let mut times = Times { ours: f64::MAX, rust: f64::MAX, beside: f64::MAX };
    let begun = Instant::now();
    let mut rounds = 0;
    while rounds < ROUNDS || begun.elapsed() < TIME {
        left.copy_from_slice(memory);
        times.ours = times.ours.min(timed(|| ours(black_box(&mut left))));
        right.copy_from_slice(memory);
        times.rust = times.rust.min(timed(|| rust(black_box(&mut right))));
        times.beside = times.beside.min(timed(&mut beside));
        rounds += 1;
    }
    times
}

/// One run, in microseconds.
fn timed<A>(job: impl FnOnce() -> A) -> f64 {
    let begun = Instant::now();
    black_box(job());
    begun.elapsed().as_secs_f64() * 1e6
}
