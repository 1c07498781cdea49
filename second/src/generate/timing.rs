// Scenes whose outcome hangs on a single byte time.

use super::serving::Host;
use super::{Generator, Sector, HEAD_LOADED, READY};
use crate::activity::Activity;

/// Commands whose search begins with a byte time that a scene can reckon: Types II and III with E
/// and without, and Seek with V from the right track.
pub const BEGINNINGS: [u8; 10] = [0x80, 0xA0, 0xC0, 0x84, 0xA4, 0xC4, 0xF0, 0xF4, 0x14, 0x1C];

/// Those of them that settle.
pub const SETTLINGS: [u8; 8] = [0x84, 0x14, 0xA4, 0x1C, 0xC4, 0x14, 0xF4, 0x1C];

/// Commands and bytes of a record; the long records are rarer, since each byte takes two lines.
pub const RECORDS: [(u8, usize); 16] = [
    (0x80, 128),
    (0xA0, 128),
    (0x80, 256),
    (0xA1, 256),
    (0x80, 128),
    (0xA1, 128),
    (0x80, 512),
    (0xA0, 512),
    (0x80, 128),
    (0xA0, 128),
    (0x80, 256),
    (0xA0, 256),
    (0x80, 128),
    (0xA1, 128),
    (0x80, 1024),
    (0xA1, 1024),
];

impl Generator {
    /// A sound record of some length, deleted or normal, its mark well inside the window or at its
    /// end or just past it, read or written by a host that is always in time.
    pub fn record_scene(&mut self, record: (u8, usize)) {
        let (byte, size) = record;
        let window = self.plan.density.window();
        let mark_at = match size {
            128 => self.random.pick(&[15, window, window + 1]),
            _ => 15,
        };
        let number = self.random.byte();
        let place = self.random.below(self.plan.length);
        let deleted = self.random.one_in(2);
        let sector = Sector {
            size,
            mark: self.data_mark_for(deleted),
            mark_at,
            ..self.short_sector(number)
        };
        self.lay_sector(place, sector);
        self.ask_for(number);
        self.set_wires(READY | HEAD_LOADED);
        self.put_head(place);
        self.command(byte);
        self.serve(Host::Prompt, 1200);
        self.end_command();
    }

    /// The head stands so that the search begins with the first cell of an ID, or Write Track with
    /// the index pulse; or with the cell before it, or the cell after it.
    pub fn beginning_scene(&mut self, byte: u8) {
        let for_index = matches!(byte, 0xF0 | 0xF4);
        let place = if for_index {
            self.plan.length
        } else {
            self.random.between(20, self.plan.length - 200)
        };
        if !for_index {
            let number = self.random.byte();
            self.lay_sector(place, self.short_sector(number));
            self.ask_for(number);
        }
        self.load(3, self.plan.track);
        self.set_wires(READY | HEAD_LOADED);
        let off = self.random.pick(&[0, 0, 1, 1, 2]);
        let before = self.byte_times_before_search(byte);
        self.put_head(place + self.plan.length + 1 - off - before);
        if self.random.one_in(3) {
            self.begin_with_head_late(byte, before);
        } else {
            self.begin_served(byte);
        }
        if self.random.one_in(3) {
            self.go(before + 1);
            self.lose_head();
        }
        self.serve(Host::Prompt, 12);
        self.end_command();
    }

    /// Write Track asks for its first byte at once; once that is served, it waits as the others do.
    fn begin_served(&mut self, byte: u8) {
        self.command(byte);
        if self.bench.machine.data_request && !self.random.one_in(4) {
            self.serve_request();
        }
    }

    /// HLT goes off once the command has begun, and is not looked at again.
    fn lose_head(&mut self) {
        if !matches!(self.bench.machine.activity, Activity::Settling(_)) {
            self.toggle(HEAD_LOADED);
        }
    }

    /// Byte times that pass before the first one of the search: settling, and for a verify the
    /// one that decides to stop.
    pub fn byte_times_before_search(&self, byte: u8) -> usize {
        let settle = usize::from(self.plan.density.settle_time());
        match byte {
            0x00..=0x1F => 1 + settle,
            _ if byte & 4 != 0 => settle,
            _ => 0,
        }
    }

    /// HLT comes on just as the settling ends, or one byte time before or after.
    fn begin_with_head_late(&mut self, byte: u8, before: usize) {
        self.set_wires(READY);
        self.begin_served(byte);
        let around = self.random.below(4);
        self.go((before + around).saturating_sub(1));
        self.set_wires(READY | HEAD_LOADED);
    }

    /// A write whose first byte comes just in time or just too late: before byte time 10 of Write
    /// Sector, or before the first pulse of Write Track.
    pub fn late_write_scene(&mut self) {
        self.set_wires(READY | HEAD_LOADED);
        let waiting = if self.random.one_in(3) {
            self.put_head(self.plan.length - 4);
            self.command(0xF0);
            self.random.between(2, 5)
        } else {
            let place = self.random.below(self.plan.length);
            let number = self.random.byte();
            self.lay_sector(place, self.short_sector(number));
            self.ask_for(number);
            self.put_head(place);
            self.command(0xA0);
            self.go(60);
            self.random.between(6, 9)
        };
        for _ in 0..waiting {
            self.byte_time();
        }
        let byte = self.random.byte();
        self.load(3, byte);
        self.serve(Host::Slow, 8);
        self.end_command();
    }
}
