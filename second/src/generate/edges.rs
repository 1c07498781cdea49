// Places, cells and limits just where a shortcut over uneventful byte times could go wrong.

use super::{Generator, NO_LIMIT};
use crate::activity::Activity;
use crate::field::{self, LARGEST_CELL};

/// Cells above 511; but for the bits above 255 they look like a gap or a mark.
const REFUSED_CELLS: [u16; 6] = [0x200, 0x24E, 0x2FF, 0x3FE, 0x8000, 0xFFFF];
/// Flagged cells, and plain ones that only look like them.
const OTHER_CELLS: [u16; 12] = [
    0x100, 0x1FE, 0x1FE, 0x1A1, 0x1A1, 0x1F9, 0x1FA, 0x1FB, 0x1FF, 0xFE, 0xA1, 0xFF,
];

/// A cell of the row that a scene has changed for a while.
#[derive(Clone, Copy)]
pub struct Obstacle {
    place: usize,
    /// The cell as it was.
    cell: u16,
}

impl Generator {
    fn head(&self) -> usize {
        usize::from(self.bench.machine.position)
    }

    /// The ring's ends, the cell under the head and those round it; or any.
    pub fn edge_place(&mut self) -> usize {
        let length = self.plan.length;
        let head = self.head();
        let anywhere = self.random.below(length);
        let near_end = length - self.random.between(1, 100);
        let place = self.random.pick(&[
            0,
            0,
            1,
            length - 2,
            length - 1,
            length - 1,
            head,
            head + 1,
            head + length - 1,
            head + length - 1,
            head + length - 1,
            head + length - 1,
            near_end,
            near_end,
            anywhere,
        ]);
        place % length
    }

    /// Puts a flagged cell, or one above 511, in the way, and tells where.
    pub fn add_obstacle(&mut self) -> usize {
        let place = self.edge_place();
        let cell = if self.random.one_in(2) {
            self.random.pick(&REFUSED_CELLS)
        } else {
            self.random.pick(&OTHER_CELLS)
        };
        self.obstacles.push(Obstacle {
            place,
            cell: self.bench.current[place],
        });
        self.set_cells(place, &[cell]);
        place
    }

    /// A run up to a new obstacle: one byte time less than could pass, exactly as many, one or
    /// two more.
    pub fn run_to_obstacle(&mut self) {
        let place = self.add_obstacle();
        let length = self.plan.length;
        let before = (place + length - self.head()) % length;
        let around = self.random.below(4);
        self.go((before + around).saturating_sub(1));
    }

    /// The last obstacle goes first, so that the cell below it comes back.
    pub fn clear_obstacles(&mut self) {
        while let Some(obstacle) = self.obstacles.pop() {
            self.set_cells(obstacle.place, &[obstacle.cell]);
        }
    }

    /// Nothing passes until the cell under the head is another.
    pub fn is_stuck(&self) -> bool {
        self.bench.current[self.head()] > LARGEST_CELL
    }

    /// A limit that cuts a run short, or ends it at what a run must not pass over: exactly
    /// there, or one byte time earlier or later. Limits of many rounds are rare, since a single
    /// one of them takes more byte times than some hundred others.
    pub fn edge_limit(&mut self) -> usize {
        match self.random.below(100) {
            0 if self.random.one_in(4) => self.random.pick(&[NO_LIMIT, NO_LIMIT - 1, 0x8000]),
            0 | 1 => self.random.below(4 * self.plan.length),
            2..=9 => self.random.below(3),
            10..=21 => self.random.below(12),
            22..=27 => self.random.below(200),
            _ => self.aimed_limit(),
        }
    }

    /// Mostly the nearest of all aims, since what lies after it comes with later runs; now and
    /// then a round later.
    fn aimed_limit(&mut self) -> usize {
        let distances = self.distances();
        let nearest = distances.iter().copied().min().unwrap_or(0);
        let any = self.random.pick(&distances);
        let aim = self.random.pick(&[nearest, nearest, any]);
        let rounds = usize::from(self.random.one_in(24));
        let around = self.random.below(3);
        let later = aim + rounds * self.plan.length + around;
        later.saturating_sub(1).min(NO_LIMIT)
    }

    /// Byte times up to and with the last cell, the index pulse, the next flagged cell, the end
    /// of a wait, and the one after which the run would stop by itself.
    fn distances(&self) -> Vec<usize> {
        let mut all = vec![self.until_head_at(0), self.until_head_at(1)];
        all.extend(self.until_flagged());
        match &self.bench.machine.activity {
            Activity::Idle => {}
            Activity::Settling(settling) if settling.left == 0 => {}
            Activity::Settling(settling) => all.push(usize::from(settling.left)),
            Activity::Stepping(stepping) => all.push(usize::from(stepping.wait)),
            _ => all.push(self.until_stop()),
        }
        all
    }

    /// A whole round where the head stands there already.
    fn until_head_at(&self, place: usize) -> usize {
        let length = self.plan.length;
        match (place + length - self.head()) % length {
            0 => length,
            distance => distance,
        }
    }

    /// Cells above 511 count too: they look flagged.
    fn until_flagged(&self) -> Option<usize> {
        let row = &self.bench.current;
        let (behind, ahead) = row.split_at(self.head());
        let mut round = ahead.iter().chain(behind);
        round
            .position(|&cell| field::is_flagged(cell))
            .map(|before| before + 1)
    }

    fn until_stop(&self) -> usize {
        let machine = self.bench.machine.clone();
        let mut row = self.bench.current.clone();
        let answer = machine.run(&mut row, self.bench.lines, NO_LIMIT as u16);
        usize::from(answer.passed)
    }
}
