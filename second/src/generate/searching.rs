// Short scenes of searches: in vain, at the fifth pulse, and the window after an ID.

use super::serving::Host;
use super::{Generator, Sector, HEAD_LOADED, NO_LIMIT, READY};
use crate::field::{self, ID_CELLS};
use crate::layout;

/// Commands that search.
const SEARCHES: [u8; 5] = [0x80, 0xA0, 0xC0, 0xC0, 0x14];

impl Generator {
    /// A search of the other row, which mostly has no mark, from one of its first cells.
    pub fn vain_scene(&mut self) {
        self.change_rows();
        self.begin_in_vain();
        self.go(NO_LIMIT);
        self.end_command();
        self.change_rows();
    }

    pub fn begin_in_vain(&mut self) {
        self.ask_for(1);
        self.load(3, self.plan.track);
        self.set_wires(READY | HEAD_LOADED);
        let byte = self.random.pick(&SEARCHES);
        let first = self.random.pick(&[0, 0, 1, 1, 2]);
        let before = self.byte_times_before_search(byte);
        self.put_head(first + 2 * self.plan.length - before);
        self.command(byte);
        self.go(before);
    }

    /// The same, but after four pulses an ID is laid whose last cell, or whose mark, is cell 0 or
    /// the one before it.
    pub fn fifth_pulse_scene(&mut self) {
        self.change_rows();
        let row = self.bench.current.clone();
        self.begin_in_vain();
        let rounds = 3 + usize::from(self.bench.machine.position > 0);
        self.go(rounds * self.plan.length + self.plan.length / 2);
        let id = self.short_id(1);
        let last = self.random.pick(&[0, 0, ID_CELLS, 1]);
        let mut laid = row.clone();
        layout::put(&mut laid, self.plan.length + 1 + last - id.len(), &id);
        self.lay(&laid);
        self.go(NO_LIMIT);
        self.end_command();
        self.lay(&row);
        self.change_rows();
    }

    /// A data mark at the window's end or just past it, at times with another mark before it; a few
    /// bytes of its record, and a view of it.
    pub fn window_scene(&mut self) {
        let window = self.plan.density.window();
        let number = self.random.byte();
        let sector = Sector {
            mark: self.any_data_mark(),
            mark_at: self.random.pick(&[window, window + 1]),
            ..self.short_sector(number)
        };
        let mut cells = self.sector_cells(sector);
        if self.random.one_in(2) {
            let mark = self.random.pick(&[0xFE, 0xFC]);
            let other = field::mark_cells(self.plan.density, mark);
            layout::put(&mut cells, field::id_length(self.plan.density) + 9, &other);
        }
        self.lay_before_head(number, &cells);
        self.command(0x80);
        self.serve(Host::Prompt, 4);
        self.end_command();
        self.view_sector(number);
    }

    /// Read Address of an ID some of whose cells are flagged, or whose CRC is bad.
    pub fn odd_address_scene(&mut self) {
        let mut cells = self.short_id(3);
        let last = cells.len() - 1;
        let cell = self.random.pick(&[0x100, 0x001, 0x180]);
        cells[last - self.random.below(6)] ^= cell;
        let near_end = self.plan.length - self.random.between(1, 9);
        let anywhere = self.random.below(self.plan.length);
        let place = self.random.pick(&[near_end, anywhere]);
        self.lay_cells(place, &cells);
        self.load(2, 9);
        self.set_wires(READY | HEAD_LOADED);
        self.put_head(place);
        self.command(0xC0);
        let host = self.random_host();
        self.serve(host, 8);
        self.end_command();
    }
}
