// Scenes of sides: which one an ID bears, which one a command asks for, and the side output.

use super::commands::sector_commands;
use super::{Generator, Sector, HEAD_LOADED, PROTECT, READY};
use crate::chip::Chip;
use crate::command::{Command, Name};
use crate::field::LengthCodes;

/// U of Types II and III on the 1797.
const SIDE_SELECT: u8 = 0x02;
/// L of Type II on the 1797.
const LENGTH_FLAG: u8 = 0x08;
/// Bits in which an ID's side may differ from the side that a command asks for.
const OTHER_BITS: [u8; 7] = [0, 0, 1, 1, 0x02, 0x80, 0xFE];
/// Commands that put a side on the output.
const TRANSFERS: [Name; 4] = [
    Name::ReadSector,
    Name::WriteSector,
    Name::ReadAddress,
    Name::WriteTrack,
];
/// Type III with bit 1, which only a 1797 takes.
const TYPE_THREE_WITH_SIDE: [u8; 4] = [0xC2, 0xC6, 0xF2, 0xF6];
/// Loads of one scene.
const LOADS: usize = 8;

impl Generator {
    /// Loads a command that a scene names as a 1793 has it. On a 1797 a sector command then asks
    /// for the track's side, and takes the length codes as the track has them.
    pub fn command(&mut self, byte: u8) {
        let byte = match self.chip() {
            Chip::Wd1793 => byte,
            Chip::Wd1797 => self.two_sided(byte),
        };
        self.load(0, byte);
    }

    /// Type III does its work with any side.
    fn two_sided(&mut self, byte: u8) -> u8 {
        match byte {
            0x80..=0xBF => byte & !(SIDE_SELECT | LENGTH_FLAG) | self.track_flags(),
            0xC0..=0xCF | 0xF0..=0xFF => byte | self.random.pick(&[0, SIDE_SELECT]),
            _ => byte,
        }
    }

    /// U and L that suit the track.
    fn track_flags(&self) -> u8 {
        let side_select = [0, SIDE_SELECT][usize::from(self.plan.side)];
        match self.plan.length_codes {
            LengthCodes::Ibm => side_select | LENGTH_FLAG,
            LengthCodes::NonIbm => side_select,
        }
    }

    /// A sector of some side passes under a command that may ask for another, or that asks for
    /// none; the first byte of the record, or the ID, tells whether it was found.
    pub fn side_scene(&mut self) {
        let byte = self.searching_command();
        let number = self.random.byte();
        let place = self.random.below(self.plan.length);
        let sector = Sector {
            side: self.side_near(byte),
            ..self.short_sector(number)
        };
        self.lay_sector(place, sector);
        self.ask_for(number);
        self.load(3, self.plan.track);
        self.set_wires(READY | HEAD_LOADED);
        let before = self.byte_times_before_search(byte);
        self.put_head(place + self.plan.length - before);
        self.load(0, byte);
        self.go(before + 60);
        self.end_command();
    }

    /// Mostly Type II with any bits; or Read Address, or Seek with V, which compare no side.
    fn searching_command(&mut self) -> u8 {
        match self.random.below(6) {
            0 => self.command_named(Name::ReadAddress),
            1 => self.random.pick(&[0x14, 0x1C]),
            _ => self.random.pick(&sector_commands()),
        }
    }

    /// The side that a command asks for, or one that is not quite it. For a command that asks for
    /// none it is the one on the output.
    fn side_near(&mut self, byte: u8) -> u8 {
        let command = Command::decode(byte, self.chip());
        let asked = command.and_then(|command| command.side_asked);
        asked.unwrap_or(self.bench.machine.side_output) ^ self.random.pick(&OTHER_BITS)
    }

    /// Commands of Types II and III, of which some end at once, and others between them, which
    /// leave the side output as it is; so do bytes that are refused.
    pub fn side_output_scene(&mut self) {
        for _ in 0..LOADS {
            let byte = match self.random.below(8) {
                0 => self.random.below(0x80) as u8,
                1 => self.random.between(0xD0, 0xDF) as u8,
                2 => self.no_command(),
                3 | 4 => self.random.pick(&TYPE_THREE_WITH_SIDE),
                _ => {
                    let name = self.random.pick(&TRANSFERS);
                    self.command_named(name)
                }
            };
            self.load_under_some_wires(byte);
        }
    }

    /// Not ready and protected each end some commands at once. One that goes on refuses the same
    /// byte with the other side, and is ended by force.
    fn load_under_some_wires(&mut self, byte: u8) {
        let wires = self.random.pick(&[0, READY, READY, READY | PROTECT]);
        self.set_wires(HEAD_LOADED | wires);
        self.load(0, byte);
        if self.is_busy() {
            self.load(0, byte ^ SIDE_SELECT);
            let force = self.random.between(0xD0, 0xDF) as u8;
            self.load(0, force);
        }
    }
}
