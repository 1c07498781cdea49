// Scenes of single commands: Type I, the sector commands, Read Address and Write Track.

use super::serving::Host;
use super::{Generator, HEAD_LOADED, NO_LIMIT, PROTECT, READY, TRACK_0};
use crate::chip::Chip;
use crate::command::Command;

/// Rounds after which a scene ends its command by force.
const MOST_ROUNDS: usize = 3000;
/// The longest track whose every cell a scene writes without a second thought.
const SHORT_TRACK: usize = 2300;

/// Read Sector and Write Sector with all of their bits: the same bytes on both chips.
pub fn sector_commands() -> Vec<u8> {
    (0x80..=0xBF)
        .filter(|&byte| Command::decode(byte, Chip::Wd1793).is_some())
        .collect()
}

impl Generator {
    /// Drive lines for a command of Types II and III: mostly such that it can do its work.
    fn choose_transfer_wires(&mut self) {
        let mut wires = READY | HEAD_LOADED;
        if self.random.one_in(12) {
            wires &= !READY;
        }
        if self.random.one_in(12) {
            wires |= PROTECT;
        }
        if self.random.one_in(5) {
            wires &= !HEAD_LOADED;
        }
        if self.random.one_in(3) {
            wires |= TRACK_0;
        }
        if wires != self.wires {
            self.set_wires(wires);
        }
    }

    /// TR and SR for a sector that is on the track, or for one that may not be.
    pub fn choose_sector(&mut self) {
        let on_track = self.sectors_on_track();
        let sector = if on_track.is_empty() || self.random.one_in(8) {
            self.random.byte()
        } else {
            self.random.pick(&on_track)
        };
        let track = if self.random.one_in(16) {
            self.random.byte()
        } else {
            self.plan.track
        };
        self.load(1, track);
        self.load(2, sector);
    }

    /// Read Sector or Write Sector.
    pub fn sector_scene(&mut self, byte: u8) {
        self.choose_transfer_wires();
        self.choose_sector();
        self.choose_head();
        self.load(0, byte);
        let host = self.random_host();
        self.serve(host, MOST_ROUNDS);
        self.end_command();
    }

    /// Read Address, at times of an ID that stands over the ring's end.
    pub fn address_scene(&mut self) {
        self.choose_transfer_wires();
        if self.random.one_in(3) {
            let place = self.plan.length - self.random.between(1, 9);
            self.lay_sector(place, self.short_sector(1));
            self.put_head(place - 1);
        } else {
            self.choose_head();
        }
        let byte = self.random.pick(&[0xC0, 0xC0, 0xC4]);
        self.command(byte);
        let host = self.random_host();
        self.serve(host, 40);
        self.end_command();
    }

    /// Write Track; what it left is looked at in part. A whole track takes a line or two for each
    /// cell, so a long one is ended early.
    pub fn write_track_scene(&mut self) {
        self.choose_transfer_wires();
        let near_index = self.plan.length - self.random.between(0, 6);
        self.put_head(near_index);
        let byte = self.random.pick(&[0xF0, 0xF4]);
        self.command(byte);
        let whole = self.plan.length <= SHORT_TRACK && !self.random.one_in(3);
        let rounds = if whole {
            MOST_ROUNDS
        } else {
            self.random.between(5, 200)
        };
        let host = match self.random_host() {
            Host::Absent if whole => Host::Sleepy,
            host => host,
        };
        self.serve(host, rounds);
        self.end_command();
        let place = self.random.below(self.plan.length - 64);
        self.say(format!("V {:X} 40", place));
    }

    /// A Type I command, from some tracks off its aim, while the lines change.
    pub fn stepping_scene(&mut self, byte: u8) {
        let aim = if self.random.one_in(3) {
            self.random.byte()
        } else {
            self.plan.track
        };
        let off = self.random.pick(&[0, 1, 2, 3, 254, 255]);
        self.load(1, aim.wrapping_add(off));
        self.load(3, aim);
        let wires = self
            .random
            .pick(&[0, READY, READY | HEAD_LOADED, 0xF, 0xD, 0xC]);
        self.set_wires(wires);
        self.load(0, byte);
        for _ in 0..40 {
            if !self.is_busy() {
                break;
            }
            self.while_stepping(aim);
        }
        self.end_command();
    }

    fn while_stepping(&mut self, aim: u8) {
        match self.random.below(12) {
            0 => self.toggle(TRACK_0),
            1 => self.toggle(HEAD_LOADED),
            2 => {
                let limit = self.random.below(1000);
                self.go(limit);
            }
            3 => self.byte_time(),
            4 => {
                let near = aim.wrapping_add(self.random.pick(&[0, 1, 2, 255]));
                self.load(3, near);
            }
            5 => self.refuse_something(),
            _ => {
                self.set_wires_for_end();
                let limit = self.random.pick(&[4000, 4000, 4000, NO_LIMIT]);
                self.go(limit);
            }
        }
    }

    /// A verify goes on only with HLT, so it mostly comes on before a long run.
    fn set_wires_for_end(&mut self) {
        if self.wires & HEAD_LOADED == 0 && !self.random.one_in(6) {
            self.toggle(HEAD_LOADED);
        }
    }
}
