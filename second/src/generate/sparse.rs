// Tracks that are mostly gap, so that most byte times of a search on them are uneventful.

use super::{Generator, Sector};
use crate::field;
use crate::layout;

/// Cells of a piece that stand before the ring's end at most, where it stands over it.
const MOST_BEFORE_END: usize = 14;

impl Generator {
    /// A track of gap but for a few sectors, IDs, marks and flagged cells, many of them at the
    /// ring's ends. The gap may be of bytes that would be marks if they were flagged.
    pub fn lay_sparse_track(&mut self) {
        let gap = layout::gap(self.plan.density);
        let filler = self
            .random
            .pick(&[gap, gap, gap, 0, 0xA1, 0xFE, 0xF9, 0xFA, 0xFB]);
        let mut track = vec![filler; self.plan.length];
        for _ in 0..self.random.pick(&[0, 1, 2, 3, 6, 12]) {
            let piece = self.sparse_piece();
            let place = self.sparse_place(piece.len());
            layout::put(&mut track, place, &piece);
        }
        self.lay(&track);
    }

    /// Anywhere, or so that the piece ends at the ring's end, stands over it, or begins at cell 0
    /// or 1.
    fn sparse_place(&mut self, size: usize) -> usize {
        let length = self.plan.length;
        if self.random.one_in(3) {
            return self.random.below(length);
        }
        let before_end = self.random.between(0, size.min(MOST_BEFORE_END) + 1);
        length + 1 - before_end
    }

    fn sparse_piece(&mut self) -> Vec<u16> {
        let density = self.plan.density;
        let data_mark = self.any_data_mark();
        let mark = self.random.pick(&[0xFE, 0xFE, data_mark, data_mark, 0xFC]);
        let number = self.plan.first_sector.wrapping_add(self.random.byte() % 4);
        let mut id = self.short_id(number);
        match self.random.below(5) {
            0 => vec![self.flagged()],
            1 => field::mark_cells(density, mark),
            2 => {
                let last = id.len() - 1;
                id[last] ^= 1;
                id
            }
            3 => id,
            _ => self.sector_cells(Sector {
                mark: data_mark,
                ..self.short_sector(number)
            }),
        }
    }
}
