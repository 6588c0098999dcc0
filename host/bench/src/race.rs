//! Jobs timed in turn, round by round, so that a busy machine disturbs all of them alike.

use crate::Effort;
use std::time::{Duration, Instant};

/// Something to be timed: the sum of these calls, each with its weight.
pub type Job<'a> = Vec<(f64, Call<'a>)>;
/// One call of something.
pub type Call<'a> = Box<dyn Fn() + 'a>;

/// The time of each job in nanoseconds, for every round.
pub fn race(jobs: &[Job], effort: &Effort) -> Vec<Vec<f64>> {
    let turns = |job: &Job| {
        job.iter()
            .map(|(_, call)| turns_of(call, effort.round))
            .collect()
    };
    let turns: Vec<Vec<u32>> = jobs.iter().map(turns).collect();
    let mut times = vec![Vec::new(); jobs.len()];
    let start = Instant::now();
    for round in 0..effort.rounds {
        if round >= effort.fewest && start.elapsed() > effort.patience {
            break;
        }
        for (i, job) in jobs.iter().enumerate() {
            let calls = job.iter().zip(&turns[i]);
            let time = |((weight, call), &turns): (&(f64, Call), &u32)| {
                weight * run(call, turns).as_secs_f64() * 1e9 / f64::from(turns)
            };
            times[i].push(calls.map(time).sum());
        }
    }
    times
}

/// As many turns as fill a round. Each number is tried three times, so that one that was held up does
/// not count.
fn turns_of(call: &Call, round: Duration) -> u32 {
    let mut turns = 1;
    while (0..3).any(|_| run(call, turns) < round) {
        turns *= 2;
    }
    turns
}

fn run(call: &Call, turns: u32) -> Duration {
    let start = Instant::now();
    for _ in 0..turns {
        call();
    }
    start.elapsed()
}

/// The middle one of these times, or the mean of the middle two.
pub fn median(mut times: Vec<f64>) -> f64 {
    times.sort_by(f64::total_cmp);
    let half = times.len() / 2;
    match times.len() {
        0 => f64::NAN,
        odd if odd % 2 == 1 => times[half],
        _ => (times[half - 1] + times[half]) / 2.0,
    }
}

#[cfg(test)]
mod tests {
    use super::*;

    #[test]
    fn the_median_is_in_the_middle() {
        assert_eq!(median(vec![9.0, 1.0, 2.0]), 2.0);
        assert_eq!(median(vec![9.0, 1.0, 2.0, 4.0]), 3.0);
        assert!(median(vec![]).is_nan());
    }
}
