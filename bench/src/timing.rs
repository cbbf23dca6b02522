//! Pieces of work, timed in turns, so that other load on the machine affects all of them equally.

use std::time::{Duration, Instant};

pub const ROUNDS: usize = 51;

/// The median time of each piece of work; a first turn, which does not count, fills the caches.
pub fn medians(rounds: usize, works: &mut [&mut dyn FnMut()]) -> Vec<Duration> {
    works.iter_mut().for_each(|work| work());
    let mut times = vec![Vec::with_capacity(rounds); works.len()];
    for _ in 0..rounds {
        for (work, times) in works.iter_mut().zip(&mut times) {
            let start = Instant::now();
            work();
            times.push(start.elapsed());
        }
    }
    times
        .iter_mut()
        .map(|times| {
            times.sort();
            times[rounds / 2]
        })
        .collect()
}

/// Times the same work on both sides, prints the time of one of its `units` and gives that of the whole work.
pub fn compare(
    what: &str,
    units: usize,
    proved: impl FnMut(),
    oracle: impl FnMut(),
) -> (Duration, Duration) {
    compare_in(ROUNDS, what, units, proved, oracle)
}

/// As `compare`, for work that takes long: in fewer rounds.
pub fn compare_in(
    rounds: usize,
    what: &str,
    units: usize,
    mut proved: impl FnMut(),
    mut oracle: impl FnMut(),
) -> (Duration, Duration) {
    let times = medians(rounds, &mut [&mut proved, &mut oracle]);
    let (proved, oracle) = (times[0], times[1]);
    let each = |time: Duration| time.as_nanos() as f64 / units as f64;
    println!(
        "{what:<62} proved {:>9.1} ns, oracle {:>9.1} ns, ratio {:.2}",
        each(proved),
        each(oracle),
        ratio(proved, oracle)
    );
    (proved, oracle)
}

pub fn ratio(one: Duration, other: Duration) -> f64 {
    one.as_secs_f64() / other.as_secs_f64()
}
