//! The rounds: all sides in turn, and the lowest time of each.

use std::hint::black_box;
use std::time::{Duration, Instant};

use reference::case::Case;

use crate::sides::{Lent, Side};

/// The lowest times of one call so far, and how many rounds they were taken
/// from.
pub struct Lowest {
    /// Of each side, in their order, on each map.
    times: Vec<Vec<Duration>>,
    pub rounds: u32,
}

impl Lowest {
    pub fn new(sides: usize, maps: usize) -> Lowest {
        Lowest {
            times: vec![vec![Duration::MAX; maps]; sides],
            rounds: 0,
        }
    }

    /// Adds rounds over all maps until the time is used up; at least one.
    pub fn add(&mut self, sides: &[Side], cases: &[Case], time: Duration) {
        let mut lent = Lent::new(&cases[0]);
        let begun = Instant::now();
        loop {
            for (index, case) in cases.iter().enumerate() {
                for (side, times) in sides.iter().zip(&mut self.times) {
                    times[index] = one_call(side, case, &mut lent).min(times[index]);
                }
            }
            self.rounds += 1;
            if begun.elapsed() >= time {
                break;
            }
        }
    }

    pub fn product_microseconds(&self) -> f64 {
        mean_microseconds(&self.times[0])
    }

    /// Whether the earlier build was measured too.
    pub fn has_before(&self) -> bool {
        self.times.len() > 2
    }

    /// Those of the side after the product, which is the earlier build where
    /// there is one.
    pub fn before_microseconds(&self) -> f64 {
        mean_microseconds(&self.times[1])
    }

    pub fn reference_microseconds(&self) -> f64 {
        mean_microseconds(&self.times[self.times.len() - 1])
    }
}

fn mean_microseconds(times: &[Duration]) -> f64 {
    let all: Duration = times.iter().sum();
    all.as_nanos() as f64 / 1_000.0 / times.len() as f64
}

/// The time of the call alone, on a fresh copy of all it is lent.
fn one_call(side: &Side, case: &Case, lent: &mut Lent) -> Duration {
    lent.reset(case);
    let begun = Instant::now();
    black_box(side.call(black_box(case), black_box(lent)));
    begun.elapsed()
}

/// All sides must accept the call, answer the same and leave everything lent
/// the same, as otherwise different work would be measured.
pub fn agree(sides: &[Side], case: &Case) -> bool {
    let made = |side: &Side| {
        let mut lent = Lent::new(case);
        (side.call(case, &mut lent), lent)
    };
    let first = made(&sides[0]);
    first.0.number == 0 && sides[1..].iter().all(|side| made(side) == first)
}
