//! Programs timed side by side.

use std::array;
use std::time::Instant;

/// How often each program runs.
const ROUNDS: usize = 15;

/// A program beside ours: medians over the rounds.
#[derive(Clone, Copy)]
pub struct Other {
    /// Its nanoseconds a unit.
    pub ns: f64,
    /// Our time by its in the same round.
    pub ratio: f64,
}

/// What the programs took.
pub struct Compared<const N: usize> {
    /// Our nanoseconds a unit: the median over the rounds.
    pub ns: f64,
    pub others: [Other; N],
}

fn timed(units: u64, program: &mut dyn FnMut()) -> f64 {
    let start = Instant::now();
    program();
    start.elapsed().as_nanos() as f64 / units as f64
}

fn median(values: impl Iterator<Item = f64>) -> f64 {
    let mut values: Vec<f64> = values.collect();
    values.sort_by(f64::total_cmp);
    values[values.len() / 2]
}

/// Runs the programs in turn, after one run of each that does not count.
pub fn compare<const N: usize>(
    units: u64,
    ours: &mut dyn FnMut(),
    others: [&mut dyn FnMut(); N],
) -> Compared<N> {
    compare_in(ROUNDS, units, ours, others)
}

/// The same in a count of rounds.
pub fn compare_in<const N: usize>(
    rounds: usize,
    units: u64,
    ours: &mut dyn FnMut(),
    mut others: [&mut dyn FnMut(); N],
) -> Compared<N> {
    let mut round = || {
        let ours = timed(units, ours);
        (ours, others.each_mut().map(|other| timed(units, *other)))
    };
    round();
    let rounds: Vec<(f64, [f64; N])> = (0..rounds).map(|_| round()).collect();
    Compared {
        ns: median(rounds.iter().map(|(ours, _)| *ours)),
        others: array::from_fn(|place| Other {
            ns: median(rounds.iter().map(|(_, others)| others[place])),
            ratio: median(rounds.iter().map(|(ours, others)| ours / others[place])),
        }),
    }
}
