// What stands in the machine before power-on, and what shows that nothing of it is left.

use super::{Generator, HEAD_LOADED, READY};

/// Force Interrupts with a condition, INTRQ off or on.
const CONDITIONS: [u8; 6] = [0xD1, 0xD2, 0xD4, 0xD9, 0xDA, 0xDC];
/// Step-in that loads the head.
const STEP_IN: u8 = 0x48;
const STEP: u8 = 0x20;

impl Generator {
    /// Sets what power-on resets: registers, direction, head, index bit and Ready as last seen;
    /// then a command under way, one that ended at once, or conditions.
    pub fn leave_traces(&mut self) {
        for register in 1..=3 {
            let byte = self.random.byte();
            self.load(register, byte);
        }
        self.set_wires(READY | HEAD_LOADED);
        self.put_head(0);
        self.load(0, STEP_IN);
        self.byte_time();
        self.load(0, 0xD0);
        match self.random.below(5) {
            0 => self.command(0xF0),
            1 => self.command(0x84),
            2 => {
                self.set_wires(HEAD_LOADED);
                self.command(0x80);
                self.set_wires(READY | HEAD_LOADED);
            }
            _ => {
                let byte = self.random.pick(&CONDITIONS);
                self.load(0, byte);
            }
        }
    }

    /// One of the things that power-on's own line does not show: the direction, Ready as last
    /// seen, or conditions.
    pub fn look_at_fresh(&mut self) {
        self.set_wires(READY | HEAD_LOADED);
        match self.random.below(4) {
            0 => {
                self.load(0, STEP);
                self.byte_time();
                self.load(0, 0xD0);
            }
            1 => {
                self.load(0, 0xD1);
                self.byte_time();
            }
            _ => {
                self.byte_time();
                self.toggle(READY);
                self.byte_time();
            }
        }
        self.read(0);
    }
}
