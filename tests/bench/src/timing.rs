//! The best of many runs.

use std::time::{Duration, Instant};

/// Tasks are repeated for so long, and at least as often as asked.
const LONG: Duration = Duration::from_millis(1500);

/// The least microseconds of each task. They take turns, so that what else the machine does falls on all of them.
pub fn best<const N: usize>(least_rounds: usize, mut tasks: [&mut dyn FnMut(); N]) -> [f64; N] {
    let mut least = [f64::INFINITY; N];
    let begin = Instant::now();
    let mut rounds = 0;
    while rounds < least_rounds || begin.elapsed() < LONG {
        for (task, least) in tasks.iter_mut().zip(&mut least) {
            let start = Instant::now();
            task();
            *least = least.min(start.elapsed().as_secs_f64() * 1e6);
        }
        rounds += 1;
    }
    least
}
