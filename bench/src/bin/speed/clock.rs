//! Times of several contenders, taken by turns, so that what else the machine does hits all of them.

use std::time::{Duration, Instant};

const ROUNDS: usize = 7;
/// A contender runs in each round for at least so long, and at least once.
const TURN: Duration = Duration::from_millis(60);

pub type Contender<'a> = Box<dyn FnMut() + 'a>;

/// Seconds that one call of a contender takes, by round.
pub struct Laps(Vec<f64>);

pub fn race(mut contenders: Vec<Contender>) -> Vec<Laps> {
    let mut laps: Vec<_> = contenders.iter().map(|_| Laps(Vec::new())).collect();
    for _ in 0..ROUNDS {
        for (contender, laps) in contenders.iter_mut().zip(&mut laps) {
            laps.0.push(turn(contender));
        }
    }
    laps
}

fn turn(contender: &mut Contender) -> f64 {
    let start = Instant::now();
    let mut calls = 0;
    while start.elapsed() < TURN || calls == 0 {
        contender();
        calls += 1;
    }
    start.elapsed().as_secs_f64() / f64::from(calls)
}

impl Laps {
    /// What is left of each without what another contender took in the same round.
    pub fn less(&self, other: &Laps) -> Laps {
        Laps(self.pairs(other).map(|(own, other)| own - other).collect())
    }

    /// How many times as long one contender takes as another: the median of the rounds.
    pub fn by(&self, other: &Laps) -> f64 {
        let mut ratios: Vec<f64> = self.pairs(other).map(|(own, other)| own / other).collect();
        ratios.sort_by(f64::total_cmp);
        ratios[ratios.len() / 2]
    }

    fn pairs(&self, other: &Laps) -> impl Iterator<Item = (f64, f64)> {
        self.0.iter().copied().zip(other.0.iter().copied())
    }
}
