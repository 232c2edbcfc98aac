//! The search for a break and for a change of a cell.

use crate::film::Film;
use crate::step::Cell;
use crate::world::{NoLog, World};

/// The first position after the start at which the cell's value differs from its value one step before.
pub fn first_change(world: &mut World, film: &Film, cell: Cell) -> Option<usize> {
    world.restore(&film.snaps[0]);
    let old = world.cell(cell);
    for (i, step) in film.rec.steps.iter().enumerate() {
        let _ = world.apply(step, &film.rec.data, &mut NoLog);
        if world.cell(cell) != old {
            return Some(i + 1);
        }
    }
    None
}

/// The break and the watch, each with its mark number. The bench sets at most one of each.
#[derive(Default)]
pub struct Marks {
    /// the position before the step with the break
    pub place: Option<(u32, usize)>,
    pub cell: Option<(u32, Cell)>,
}

pub struct Hit {
    pub pos: usize,
    pub marks: Vec<u32>,
}

/// Searches with a world of its own.
pub struct Finder<'a> {
    film: &'a Film,
    world: World,
}

impl<'a> Finder<'a> {
    pub fn new(film: &'a Film) -> Finder<'a> {
        Finder { film, world: World::fresh(film.rec.lim) }
    }

    /// The position after the first step in [from, to) that changes the cell, or after the last such step if `FIRST` is false. The search
    /// starts from copy `copy`.
    fn changed<const FIRST: bool>(&mut self, copy: usize, from: usize, to: usize, cell: Cell) -> Option<usize> {
        let rec = &self.film.rec;
        let base = copy * self.film.every;
        self.world.restore(&self.film.snaps[copy]);
        let _ = self.world.replay(&rec.steps[base..from], &rec.data, &mut NoLog);
        let mut old = self.world.cell(cell);
        let mut found = None;
        for (i, step) in rec.steps[from..to].iter().enumerate() {
            let _ = self.world.apply(step, &rec.data, &mut NoLog);
            let new = self.world.cell(cell);
            if new != old {
                old = new;
                found = Some(from + i + 1);
                if FIRST {
                    break;
                }
            }
        }
        found
    }

    /// The least hit above `pos`.
    pub fn first_after(&mut self, marks: &Marks, pos: usize) -> Option<Hit> {
        let len = self.film.len();
        let place = marks.place.map(|(_, place)| place).filter(|&place| place > pos && place < len);
        let to = place.unwrap_or(len);
        let change = marks.cell.filter(|_| pos < to).and_then(|(_, cell)| {
            self.changed::<true>(pos / self.film.every, pos, to, cell)
        });
        self.hit(marks, change, place)
    }

    /// The greatest hit below `pos`. The search takes the copies in reverse order.
    pub fn last_before(&mut self, marks: &Marks, pos: usize) -> Option<Hit> {
        let place = marks.place.map(|(_, place)| place).filter(|&place| place < pos && place < self.film.len());
        // a hit at position p comes from step p - 1; p runs from the break's position, or 1, to pos - 1
        let (from, to) = (place.unwrap_or(0).max(1) - 1, pos.max(1) - 1);
        let every = self.film.every;
        let change = marks.cell.filter(|_| from < to).and_then(|(_, cell)| {
            (from / every..=(to - 1) / every).rev().find_map(|copy| {
                let (least, most) = (from.max(copy * every), to.min((copy + 1) * every));
                self.changed::<false>(copy, least, most, cell)
            })
        });
        self.hit(marks, change, place)
    }

    /// The hit at the change or, if there is none, at the break. A change is never farther from the start of the search than the break.
    fn hit(&self, marks: &Marks, change: Option<usize>, place: Option<usize>) -> Option<Hit> {
        let pos = change.or(place)?;
        let by_place = marks.place.filter(|&(_, place)| place == pos && place < self.film.len());
        let by_change = marks.cell.filter(|_| change.is_some());
        let mut hits: Vec<u32> = by_place.map(|m| m.0).into_iter().chain(by_change.map(|m| m.0)).collect();
        hits.sort_unstable();
        Some(Hit { pos, marks: hits })
    }
}
