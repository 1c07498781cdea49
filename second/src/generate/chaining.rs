// Scenes of m: records one after another, and what ends them.

use super::serving::Host;
use super::{Generator, Sector, HEAD_LOADED, READY};
use crate::field;

/// Rounds that a record of 128 bytes and the search before it take at most.
const MOST_ROUNDS: usize = 300;
/// Cells from one ID to the next: room for what Write Sector lays in MFM.
const APART: usize = 185;
/// Byte times from the end of a record in which the first byte of the next one comes.
const UP_TO_NEXT: usize = 60;

/// Commands with m, and how they are served.
const COMMANDS: [(u8, Host); 9] = [
    (0x90, Host::Absent),
    (0x90, Host::Absent),
    (0x92, Host::Absent),
    (0x92, Host::Absent),
    (0x98, Host::Absent),
    (0x92, Host::Sleepy),
    (0x90, Host::Slow),
    (0xB0, Host::Prompt),
    (0xB1, Host::Slow),
];

/// What comes after the good records of a chain.
#[derive(Clone, Copy)]
pub enum End {
    /// A record with a bad data CRC.
    Broken,
    /// An ID without a data mark.
    NoMark,
    /// A record whose ID has a bad CRC.
    BadId,
    /// A record of the other side.
    OtherSide,
    /// No ID.
    Missing,
    /// A Force Interrupt.
    Force,
}

/// How many good records a chain has, and what comes after them.
pub const CHAINS: [(usize, End); 21] = [
    (0, End::Broken),
    (0, End::Broken),
    (1, End::Broken),
    (1, End::Broken),
    (1, End::Broken),
    (1, End::Broken),
    (1, End::Broken),
    (1, End::Broken),
    (2, End::Broken),
    (2, End::Broken),
    (3, End::Broken),
    (1, End::NoMark),
    (1, End::BadId),
    (1, End::BadId),
    (1, End::OtherSide),
    (1, End::OtherSide),
    (1, End::OtherSide),
    (1, End::Missing),
    (2, End::Missing),
    (1, End::Force),
    (1, End::Force),
];

impl Generator {
    /// A chain of records, read or written with m; then another command.
    pub fn chain_scene(&mut self, chain: (usize, End)) {
        let (good, end) = chain;
        let first: u8 = self.random.pick(&[9, 254, 255, 255]);
        let place = self.random.below(self.plan.length);
        self.lay_chain(place, first, good, end);
        self.ask_for(first);
        self.set_wires(READY | HEAD_LOADED);
        self.put_head(place + self.plan.length - 5);
        let (byte, host) = self.random.pick(&COMMANDS);
        self.command(byte);
        for _ in 0..good {
            self.serve_record(host);
            if self.random.one_in(3) {
                self.read(3);
            }
        }
        self.meet_end(end, host);
        self.end_command();
        self.read(2);
        self.command(0xC0);
        self.load(0, 0xD0);
    }

    /// Normal records and deleted ones take turns.
    fn lay_chain(&mut self, place: usize, first: u8, good: usize, end: End) {
        let mut deleted = self.random.pick(&[true, true, false]);
        for step in 0..=good {
            let number = first.wrapping_add(step as u8);
            let sector = Sector {
                mark: self.data_mark_for(deleted),
                ..self.short_sector(number)
            };
            let cells = if step < good {
                self.sector_cells(sector)
            } else {
                self.end_cells(end, sector)
            };
            self.lay_cells(place + APART * step, &cells);
            deleted = !deleted;
        }
    }

    /// What stands where this sector would be the next.
    fn end_cells(&mut self, end: End, sector: Sector) -> Vec<u16> {
        match end {
            End::Broken => {
                let mut cells = self.sector_cells(sector);
                let data = self.random.below(128);
                let after = self.random.pick(&[0, 1, 2 + data]);
                let spoilt = cells.len() - 1 - after;
                cells[spoilt] ^= 1 << self.random.below(8);
                cells
            }
            End::NoMark => self.sector_cells(Sector {
                mark: 0xFC,
                ..sector
            }),
            End::BadId => {
                let mut cells = self.sector_cells(sector);
                cells[field::id_length(self.plan.density) - 1] ^= 1;
                cells
            }
            End::OtherSide => self.sector_cells(Sector {
                side: sector.side ^ 1,
                ..sector
            }),
            End::Missing | End::Force => Vec::new(),
        }
    }

    /// Where no record can be found, moving the head brings the fifth pulse.
    fn meet_end(&mut self, end: End, host: Host) {
        match end {
            End::Broken | End::NoMark => self.serve_record(host),
            End::BadId | End::OtherSide => {
                for _ in 0..UP_TO_NEXT {
                    self.byte_time();
                }
                if self.random.one_in(2) {
                    self.pass_pulses();
                }
            }
            End::Missing => self.pass_pulses(),
            End::Force => self.load(0, 0xD0),
        }
    }

    /// Serves until SR has gone up, or the command has ended.
    fn serve_record(&mut self, host: Host) {
        let sector = self.bench.machine.sector;
        for _ in 0..MOST_ROUNDS {
            if !self.is_busy() || self.bench.machine.sector != sector {
                return;
            }
            self.serve(host, 1);
        }
    }

    /// Index pulses one after another, since the head is moved to cell 0 each time.
    fn pass_pulses(&mut self) {
        for _ in 0..5 {
            self.move_head(0);
            self.byte_time();
        }
    }
}
