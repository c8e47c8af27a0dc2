//! The sweep of free space: the product against two programs that do nothing
//! else (crate `sweep`), and against its own check and the writing alone.

use std::hint::black_box;
use std::ops::Range;
use std::time::{Duration, Instant};

use product::Calls;
use reference::case::{Call, Case};
use reference::read;

use crate::discs::{Part, Row, Sweep, FILL};
use crate::Plan;

type Answer = Result<u64, sweep::Refusal>;

/// Who sweeps. The last two do only a part of the work.
enum Side {
    Library(Calls),
    Simple,
    Fast,
    Reference,
    CheckAndFill(Case),
    Fill,
}

impl Side {
    /// Sweeps the image, call by call; answers how many bytes were written.
    fn sweep(&self, sweep: &Sweep, map: &mut [u8], image: &mut [u8]) -> Answer {
        let mut count = 0;
        for (image, part) in image.chunks_mut(sweep.stretch).zip(&sweep.parts) {
            count += self.one_call(part, map, image)?;
        }
        Ok(count)
    }

    fn one_call(&self, part: &Part, map: &mut [u8], image: &mut [u8]) -> Answer {
        let first = part.case.wide;
        match self {
            Side::Library(calls) => library(calls, &part.case, map, image),
            Side::Simple => sweep::simple::sweep_free(map, image, first, FILL),
            Side::Fast => sweep::fast::sweep_free(map, image, first, FILL),
            Side::Reference => read::sweep_free(map, image, first, FILL)
                .map_err(|refusal| (refusal.number, refusal.zone)),
            Side::CheckAndFill(check) => {
                library(&Calls::LINKED, check, map, &mut [])?;
                Ok(fill(image, &part.free))
            }
            Side::Fill => Ok(fill(image, &part.free)),
        }
    }
}

/// A call of the product, or of an earlier build.
fn library(calls: &Calls, case: &Case, map: &mut [u8], image: &mut [u8]) -> Answer {
    let answer = calls.call(case, map, &mut [], image);
    match answer.number {
        0 => Ok(answer.values[0]),
        number => Err((number, answer.zone)),
    }
}

/// Writes the free bytes of a stretch, which were found before.
fn fill(image: &mut [u8], free: &[Range<usize>]) -> u64 {
    let mut count = 0;
    for span in free {
        image[span.clone()].fill(FILL);
        count += span.len() as u64;
    }
    count
}

/// The lowest times of a row, by side and map.
struct Times {
    times: Vec<Vec<Duration>>,
    rounds: u32,
}

impl Times {
    fn new(sides: usize, maps: usize) -> Times {
        Times {
            times: vec![vec![Duration::MAX; maps]; sides],
            rounds: 0,
        }
    }

    /// Adds rounds over all maps until the time is used up; at least one. A
    /// side goes through all maps before the next does: the product and its
    /// check are the same code, and would learn a map's branches from each
    /// other.
    fn add(&mut self, sides: &[Side], row: &Row, time: Duration) {
        let mut map = row.sweeps[0].map.clone();
        let mut image = vec![0; row.sweeps[0].length];
        let begun = Instant::now();
        loop {
            for (side, times) in sides.iter().zip(&mut self.times) {
                for (sweep, lowest) in row.sweeps.iter().zip(times) {
                    let taken = one_time(side, sweep, &mut map, &mut image);
                    *lowest = taken.min(*lowest);
                }
            }
            self.rounds += 1;
            if begun.elapsed() >= time {
                break;
            }
        }
    }

    /// The mean over the maps, in microseconds.
    fn mean(&self, side: usize, idle: Duration) -> f64 {
        let times = &self.times[side];
        let all: Duration = times.iter().map(|time| time.saturating_sub(idle)).sum();
        all.as_nanos() as f64 / 1_000.0 / times.len() as f64
    }
}

/// The time of one sweep. The image and then the map are written anew before,
/// so that they lie in the caches in the same way for every side.
fn one_time(side: &Side, sweep: &Sweep, map: &mut [u8], image: &mut [u8]) -> Duration {
    image.fill(0);
    map.copy_from_slice(&sweep.map);
    let (map, image) = (black_box(map), black_box(image));
    let begun = Instant::now();
    let _ = black_box(side.sweep(black_box(sweep), map, image));
    begun.elapsed()
}

/// What the clock itself takes: the lowest time of nothing.
fn idle() -> Duration {
    let nothing = |_| Instant::now().elapsed();
    (0..10_000).map(nothing).min().unwrap_or_default()
}

/// All sides must accept, count the same bytes and leave the same image.
fn agree(sides: &[Side], sweep: &Sweep) -> bool {
    let made = |side: &Side| {
        let mut map = sweep.map.clone();
        let mut image = vec![0; sweep.length];
        let answer = side.sweep(sweep, &mut map, &mut image);
        (answer, map == sweep.map, image)
    };
    let first = made(&Side::Reference);
    first.0.is_ok() && first.1 && sides.iter().all(|side| made(side) == first)
}

/// The mean times of a row in microseconds.
pub struct Means {
    pub product: f64,
    pub simple: f64,
    pub fast: f64,
    pub check_and_fill: f64,
    pub fill: f64,
    /// Of the earlier build, if there is one.
    pub before: Option<f64>,
}

impl Means {
    fn new(times: &Times, idle: Duration) -> Means {
        let mean = |side| times.mean(side, idle);
        Means {
            product: mean(0),
            simple: mean(1),
            fast: mean(2),
            check_and_fill: mean(3),
            fill: mean(4),
            before: (times.times.len() > 5).then(|| mean(5)),
        }
    }
}

/// What was measured.
pub struct Measured {
    pub rounds: Vec<u32>,
    pub idle: Duration,
    /// By row.
    pub means: Vec<Means>,
}

/// Measures all rows; the first where two sides differ if there is one.
pub fn measure<'a>(
    rows: &'a [Row],
    before: Option<Calls>,
    plan: &Plan,
) -> Result<Measured, &'a Row> {
    // In the order of `Means`.
    let mut sides = vec![
        Side::Library(Calls::LINKED),
        Side::Simple,
        Side::Fast,
        Side::CheckAndFill(Case::new(Call::Check, &[])),
        Side::Fill,
    ];
    sides.extend(before.map(Side::Library));
    let differs = |row: &&Row| !row.sweeps.iter().all(|sweep| agree(&sides, sweep));
    if let Some(row) = rows.iter().find(differs) {
        return Err(row);
    }

    let all = take_times(&sides, rows, plan);
    let idle = idle();
    Ok(Measured {
        rounds: all.iter().map(|times| times.rounds).collect(),
        idle,
        means: all.iter().map(|times| Means::new(times, idle)).collect(),
    })
}

fn take_times(sides: &[Side], rows: &[Row], plan: &Plan) -> Vec<Times> {
    let new = |row: &Row| Times::new(sides.len(), row.sweeps.len());
    let mut all: Vec<Times> = rows.iter().map(new).collect();
    for _ in 0..plan.passes {
        for (row, times) in rows.iter().zip(&mut all) {
            // Many maps and sides make a round long.
            times.add(sides, row, 2 * plan.time);
        }
    }
    all
}
