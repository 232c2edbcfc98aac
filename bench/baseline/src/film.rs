//! A recording that is replayed once, a copy of the world after every `every` steps, and the walker.

use crate::recording::Recording;
use crate::world::*;

pub struct Film {
    pub rec: Recording,
    pub snaps: Vec<Snap>,
    pub every: usize,
}

/// A step (from 1) that doesn't apply, and why.
#[derive(Clone, Copy, PartialEq, Eq, Debug)]
pub struct StepFault {
    pub step: usize,
    pub reason: u8,
}

/// Replays without copies.
pub fn replay(rec: &Recording) -> Result<World, StepFault> {
    let mut world = World::fresh(rec.lim);
    match world.replay(&rec.steps, &rec.data, &mut NoLog) {
        Ok(()) => Ok(world),
        Err((i, reason)) => Err(StepFault { step: i + 1, reason }),
    }
}

impl Film {
    pub fn load(rec: Recording, every: usize) -> Result<Film, StepFault> {
        let mut w = World::fresh(rec.lim);
        let mut snaps = Vec::with_capacity(rec.steps.len() / every + 1);
        for (k, chunk) in rec.steps.chunks(every).enumerate() {
            snaps.push(w.snap());
            if let Err((i, reason)) = w.replay(chunk, &rec.data, &mut NoLog) {
                return Err(StepFault { step: k * every + i + 1, reason });
            }
        }
        if rec.steps.len() % every == 0 {
            snaps.push(w.snap());
        }
        Ok(Film { rec, snaps, every })
    }

    #[inline(always)]
    pub fn len(&self) -> usize {
        self.rec.steps.len()
    }
}

/// A world and the records that lead back from it.
pub struct Walker<'a> {
    film: &'a Film,
    world: World,
    pos: usize,
    log: UndoLog,
}

impl<'a> Walker<'a> {
    pub fn new(film: &'a Film, depth: usize) -> Walker<'a> {
        Walker { film, world: World::fresh(film.rec.lim), pos: 0, log: UndoLog::new(depth) }
    }

    #[inline]
    pub fn world(&self) -> &World {
        &self.world
    }

    pub fn forward(&mut self, to: usize) {
        let rec = &self.film.rec;
        let _ = self.world.replay(&rec.steps[self.pos..to], &rec.data, &mut self.log);
        self.pos = to;
    }

    pub fn backward(&mut self, to: usize) {
        for _ in to..self.pos {
            self.world.undo(&mut self.log);
        }
        self.pos = to;
    }

    /// Goes to a position: by undo records or steps if it is near, otherwise from the copy before it.
    pub fn go_to(&mut self, to: usize) {
        if to <= self.pos && self.pos - to <= self.log.kept() {
            self.backward(to);
        } else if to > self.pos && to - self.pos < self.film.every {
            self.forward(to);
        } else {
            let copy = to / self.film.every;
            self.world.restore(&self.film.snaps[copy]);
            self.log.clear();
            self.pos = copy * self.film.every;
            self.forward(to);
        }
    }
}
