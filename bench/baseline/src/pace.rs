//! The speed of the machine without commands, in thousands of steps per second, each the best of three runs.

use crate::film::{Film, Walker};
use crate::search::first_change;
use crate::step::Cell;
use crate::world::{NoLog, World};
use std::hint::black_box;
use std::time::Instant;

const RUNS: usize = 3;

/// The speed of the fastest run, in thousands of steps per second.
fn rate(steps: usize, runs: impl IntoIterator<Item = f64>) -> u64 {
    let least = runs.into_iter().fold(f64::MAX, f64::min);
    (steps as f64 / least.max(1e-9) / 1e3) as u64
}

/// Seconds of one run.
fn seconds<T>(run: impl FnOnce() -> T) -> f64 {
    let began = Instant::now();
    black_box(run());
    began.elapsed().as_secs_f64()
}

/// The line that `python/dev/bench/pace.py` reads.
pub fn measured(film: &Film) -> String {
    let len = film.len();
    let advance = rate(len, (0..RUNS).map(|_| {
        let mut world = World::fresh(film.rec.lim);
        seconds(|| world.replay(&film.rec.steps, &film.rec.data, &mut NoLog).is_ok())
    }));

    let mut walker = Walker::new(film, len.max(1));
    let (mut there, mut back) = (Vec::new(), Vec::new());
    for _ in 0..RUNS {
        there.push(seconds(|| walker.forward(len)));
        back.push(seconds(|| walker.backward(0)));
    }

    // a goroutine that isn't there
    let nobody = Cell { kind: 6, num: u32::MAX };
    let mut world = World::fresh(film.rec.lim);
    let search = rate(len, (0..RUNS).map(|_| seconds(|| first_change(&mut world, film, nobody))));
    format!("baseline advance {advance} apply {} undo {} search {search}", rate(len, there), rate(len, back))
}
