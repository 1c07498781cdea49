// Scenes of IDs with a bad CRC, and of what a Force Interrupt and the next command do to the bits.

use super::{Generator, HEAD_LOADED, READY};
use crate::field::FLAG;

/// Commands that look for an ID of this track and sector.
const SEARCHES: [u8; 5] = [0x80, 0x82, 0xA0, 0x90, 0x14];
/// What may follow a Force Interrupt.
const NEXT: [u8; 8] = [0xD0, 0xD0, 0x10, 0x40, 0x80, 0xA0, 0xC0, 0xF0];

impl Generator {
    /// A matching ID passes with a bad CRC or a flagged cell, at times a good one after it; then a
    /// Force Interrupt ends the command with bit 3 on or off, and another command is loaded.
    pub fn bad_id_scene(&mut self) {
        let number = self.random.byte();
        let mut cells = self.short_id(number);
        let spoilt = cells.len() - 1 - self.random.pick(&[0, 0, 1, 3]);
        cells[spoilt] ^= self.random.pick(&[1, 1, FLAG]);
        if self.random.one_in(3) {
            cells.extend(self.short_id(number));
        }
        let room = self.plan.length - cells.len();
        let place = self.random.below(room);
        self.set_cells(place, &cells);
        self.ask_for(number);
        self.load(3, self.plan.track);
        self.set_wires(READY | HEAD_LOADED);
        let byte = self.random.pick(&SEARCHES);
        let before = self.byte_times_before_search(byte);
        self.put_head(place + self.plan.length - before);
        self.command(byte);
        let beyond = self.random.pick(&[0, 0, 3, 50]);
        self.go(before + cells.len() + beyond);
        self.force_and_load();
    }

    fn force_and_load(&mut self) {
        let force = self.random.pick(&[0xD0, 0xD4]);
        self.load(0, force);
        let next = self.random.pick(&NEXT);
        self.command(next);
        self.byte_time();
        self.load(0, 0xD0);
    }
}
