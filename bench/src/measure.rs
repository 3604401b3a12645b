//! Times of rivals at one task, taken in turn in one run, so that their ratios mean something.

use std::time::{Duration, Instant};

/// A rival at a task: its name, and one go at the task.
pub struct Rival<'a> {
    pub name: &'static str,
    pub go: Box<dyn FnMut() + 'a>,
}

impl<'a> Rival<'a> {
    pub fn new(name: &'static str, go: impl FnMut() + 'a) -> Self {
        Rival {
            name,
            go: Box::new(go),
        }
    }
}

/// How long one sample takes, at least.
const SAMPLE: Duration = Duration::from_micros(400);

/// How many samples each rival has, and how many where one takes long.
const SAMPLES: usize = 15;
const FEW_SAMPLES: usize = 5;
const LONG: Duration = Duration::from_millis(40);

fn time_of(go: &mut dyn FnMut(), count: u32) -> Duration {
    let start = Instant::now();
    for _ in 0..count {
        go();
    }
    start.elapsed()
}

/// How many goes fill a sample.
fn count_for(go: &mut dyn FnMut()) -> u32 {
    let mut count = 1;
    while time_of(go, count) < SAMPLE {
        count *= 2;
    }
    count
}

/// The nanoseconds of one go of each rival: the least over samples that are taken in turn.
pub fn nanoseconds(rivals: &mut [Rival]) -> Vec<f64> {
    let counts: Vec<u32> = rivals.iter_mut().map(|r| count_for(&mut r.go)).collect();
    let are_long = rivals.iter_mut().any(|rival| time_of(&mut rival.go, 1) > LONG);
    let mut least = vec![f64::INFINITY; rivals.len()];
    for _ in 0..if are_long { FEW_SAMPLES } else { SAMPLES } {
        for ((rival, count), least) in rivals.iter_mut().zip(&counts).zip(&mut least) {
            let time = time_of(&mut rival.go, *count).as_nanos() as f64 / f64::from(*count);
            *least = least.min(time);
        }
    }
    least
}
