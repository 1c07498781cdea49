// Calls that are refused, each followed by lines that put things right again.

use super::power_on::LENGTHS;
use super::{Generator, NO_LIMIT};
use crate::chip::Chip;
use crate::command::{Command, RETIRED};
use crate::field::LARGEST_CELL;
use crate::machine::{self, LONGEST_TRACK};

/// The bytes that are no commands of the chip.
pub fn no_commands(chip: Chip) -> Vec<u8> {
    (0x00..=0xFF)
        .filter(|&byte| Command::decode(byte, chip).is_none())
        .collect()
}

/// Of the command bytes these alone are taken while Busy.
pub fn is_force(byte: u8) -> bool {
    (0xD0..=0xDF).contains(&byte)
}

impl Generator {
    /// Any byte that is no command of the machine's chip, often one of those that no longer are.
    pub fn no_command(&mut self) -> u8 {
        if self.random.one_in(4) {
            return self.random.pick(&RETIRED);
        }
        self.random.pick(&no_commands(self.chip()))
    }

    /// 6 while Busy, 7 while idle, for each of those that no longer are commands.
    pub fn load_retired(&mut self) {
        for byte in RETIRED {
            self.load(0, byte);
        }
    }

    pub fn refusing_scene(&mut self) {
        for _ in 0..self.random.between(1, 4) {
            self.refuse_something();
        }
    }

    /// One refusal that suits the machine, whatever it is doing.
    pub fn refuse_something(&mut self) {
        match self.random.below(7) {
            0 => self.refuse_machine(),
            1 => self.refuse_row(),
            2 | 3 => self.refuse_cell(),
            4 => self.refuse_register(),
            _ => self.refuse_byte(),
        }
    }

    /// 2: a position not below L, or a length out of range; then both as they were.
    fn refuse_machine(&mut self) {
        let position = self.bench.machine.position;
        let length = self.bench.machine.length;
        match self.random.below(3) {
            0 => self.say(format!("X {:X}", length)),
            1 => self.say("X FFFF".to_string()),
            _ => {
                let mut out = LENGTHS.to_vec();
                out.retain(|&length| !machine::length_in_range(length));
                let out = self.random.pick(&out);
                self.say(format!("Y {:X}", out));
            }
        }
        for _ in 0..self.random.between(1, 4) {
            self.call_something();
        }
        self.say(format!("X {:X}", position));
        self.say(format!("Y {:X}", length));
    }

    /// Some call, to be refused by 2 before anything else.
    fn call_something(&mut self) {
        let byte = self.random.byte();
        match self.random.below(6) {
            0 => self.load(0, byte),
            1 => self.load(byte % 8, byte),
            2 => self.read(byte % 8),
            3 => self.byte_time(),
            4 => self.go(0),
            _ => self.go(NO_LIMIT),
        }
    }

    /// 3: the other row, with too few or too many cells, is lent for a while; or an idle machine
    /// is given another length.
    fn refuse_row(&mut self) {
        let length = self.plan.length;
        if !self.is_busy() && self.random.one_in(3) {
            let any = self.random.between(2048, 10_416);
            let other = self.random.pick(&[any, 2048, 6400, 10_416]);
            if other != length {
                self.lend_wrongly(&format!("Y {:X}", other), &format!("Y {:X}", length));
            }
            return;
        }
        let wrong = self
            .random
            .pick(&[0, 1, length - 1, length + 1, 2048, 6400, 10_416]);
        if wrong != length && wrong <= usize::from(LONGEST_TRACK) {
            self.change_rows();
            self.lend_wrongly(&format!("K {:X}", wrong), &format!("K {:X}", length));
            self.change_rows();
        }
    }

    /// 3 comes before 4, so a cell above 511 under the head makes no difference.
    fn lend_wrongly(&mut self, before: &str, after: &str) {
        self.say(before.to_string());
        let head = usize::from(self.bench.machine.position);
        let cell = self.bench.current.get(head).copied();
        if let Some(cell) = cell.filter(|_| self.random.one_in(2)) {
            self.set_cells(head, &[LARGEST_CELL + 1]);
            self.byte_time();
            self.set_cells(head, &[cell]);
        } else {
            self.byte_time();
        }
        let limit = self.random.pick(&[0, 1, NO_LIMIT]);
        self.go(limit);
        self.say(after.to_string());
    }

    /// 4: a cell above 511 under the head or some cells before it; then the cell as it was.
    fn refuse_cell(&mut self) {
        let position = usize::from(self.bench.machine.position);
        let ahead = self.random.pick(&[0, 0, 1, 2, 5, 40]);
        let place = (position + ahead) % self.plan.length;
        let cell = self.bench.current[place];
        let bad = self.random.pick(&[LARGEST_CELL + 1, 0x3FE, 0xFFFF]);
        self.set_cells(place, &[bad]);
        self.go(ahead + 3);
        self.byte_time();
        self.go(0);
        self.set_cells(place, &[cell]);
        if self.random.one_in(3) {
            let flagged = self.flagged();
            self.set_cells(place, &[flagged]);
        }
    }

    /// A byte time that 4 refuses sees nothing.
    pub fn refuse_cell_under_head(&mut self) {
        let head = usize::from(self.bench.machine.position);
        let cell = self.bench.current[head];
        self.set_cells(head, &[LARGEST_CELL + 1]);
        self.byte_time();
        self.set_cells(head, &[cell]);
    }

    /// 5: a register number above 3.
    fn refuse_register(&mut self) {
        let register = self.random.between(4, 255) as u8;
        let byte = self.random.byte();
        if self.random.one_in(2) {
            self.load(register, byte);
        } else {
            self.read(register);
        }
    }

    /// 6 while Busy, 7 while idle.
    pub fn refuse_byte(&mut self) {
        if self.is_busy() {
            let register = self.random.pick(&[0, 0, 1, 2]);
            let (any, no_command) = (self.random.byte(), self.no_command());
            let byte = self.random.pick(&[any, any, no_command]);
            // Here none is to be taken.
            self.load(register, if is_force(byte) { byte ^ 0x80 } else { byte });
        } else {
            let byte = self.no_command();
            self.load(0, byte);
        }
    }
}
