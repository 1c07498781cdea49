// A controller with a track and drive lines beside it, as a test works it.

use second::chip::Chip;
use second::density::Density;
use second::layout;
use second::lines::Lines;
use second::machine::{Direction, Machine, RunAnswer};
use second::number;

pub use second::density::Density::{Fm, Mfm};

pub const BOTH: [Density; 2] = [Fm, Mfm];
pub const NO_LIMIT: u16 = 65_535;

pub struct Desk {
    pub machine: Machine,
    pub track: Vec<u16>,
    pub lines: Lines,
}

/// What a command served in time handed over, and how long it took.
pub struct Served {
    pub bytes: Vec<u8>,
    pub byte_times: usize,
}

impl Desk {
    /// A power-on 1793 of 2,048 cells with an empty track, Ready and HLT on.
    pub fn new(density: Density) -> Desk {
        Desk::with_chip(Chip::Wd1793, density)
    }

    pub fn with_chip(chip: Chip, density: Density) -> Desk {
        Desk::power_on(chip, density, 2048)
    }

    pub fn with_length(density: Density, length: u16) -> Desk {
        Desk::power_on(Chip::Wd1793, density, length)
    }

    fn power_on(chip: Chip, density: Density, length: u16) -> Desk {
        let answer = Machine::power_on(chip, length, density);
        assert_eq!(answer.number, number::DONE);
        Desk {
            machine: answer.machine,
            track: vec![layout::gap(density); usize::from(length)],
            lines: Lines::from_bits(0x9),
        }
    }

    pub fn put(&mut self, place: usize, cells: &[u16]) {
        layout::put(&mut self.track, place, cells);
    }

    /// Lays an ID whose last cell is the one before this place.
    pub fn put_id_before(&mut self, place: usize, bytes: [u8; 4]) {
        let cells = layout::id_cells(self.machine.density, bytes);
        self.put(place + self.track.len() - cells.len(), &cells);
    }

    pub fn put_data(&mut self, place: usize, mark: u8, bytes: &[u8]) {
        let cells = layout::field_cells(self.machine.density, mark, bytes);
        self.put(place, &cells);
    }

    pub fn try_load(&mut self, register: u8, byte: u8) -> u8 {
        let answer = self
            .machine
            .clone()
            .load_register(register, byte, self.lines);
        self.machine = answer.machine;
        answer.number
    }

    pub fn load(&mut self, register: u8, byte: u8) {
        assert_eq!(self.try_load(register, byte), number::DONE);
    }

    pub fn command(&mut self, byte: u8) {
        self.load(0, byte);
    }

    pub fn read(&mut self, register: u8) -> u8 {
        let answer = self.machine.clone().read_register(register, self.lines);
        assert_eq!(answer.number, number::DONE);
        self.machine = answer.machine;
        answer.byte
    }

    pub fn status(&self) -> u8 {
        self.machine.status_byte(self.lines)
    }

    pub fn try_byte_time(&mut self) -> u8 {
        let answer = self.machine.clone().byte_time(&mut self.track, self.lines);
        self.machine = answer.machine;
        answer.number
    }

    pub fn byte_time(&mut self) -> Option<Direction> {
        let answer = self.machine.clone().byte_time(&mut self.track, self.lines);
        assert_eq!(answer.number, number::DONE);
        self.machine = answer.machine;
        answer.pulse
    }

    pub fn byte_times(&mut self, count: usize) {
        for _ in 0..count {
            self.byte_time();
        }
    }

    /// Byte times until the head stands before this cell.
    pub fn go_to(&mut self, position: u16) {
        while self.machine.position != position {
            self.byte_time();
        }
    }

    pub fn run(&mut self, limit: u16) -> RunAnswer {
        let answer = self.machine.clone().run(&mut self.track, self.lines, limit);
        self.machine = answer.machine.clone();
        answer
    }

    /// Byte times until INTRQ, each DRQ served by a read of DR.
    pub fn serve_reads(&mut self) -> Served {
        let mut served = Served {
            bytes: Vec::new(),
            byte_times: 0,
        };
        while !self.machine.interrupt_request {
            let answer = self.run(NO_LIMIT);
            assert_eq!(answer.number, number::DONE);
            served.byte_times += usize::from(answer.passed);
            if self.machine.data_request {
                served.bytes.push(self.read(3));
            }
        }
        served
    }

    /// Byte times until INTRQ, each DRQ served by the next of these bytes; how many were taken.
    pub fn serve_writes(&mut self, bytes: &[u8]) -> usize {
        let mut taken = 0;
        while !self.machine.interrupt_request {
            if self.machine.data_request && taken < bytes.len() {
                self.load(3, bytes[taken]);
                taken += 1;
            }
            let answer = self.run(NO_LIMIT);
            assert_eq!(answer.number, number::DONE);
        }
        taken
    }
}
