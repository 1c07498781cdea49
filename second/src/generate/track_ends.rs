// Short scenes of Write Track: the first cells, then, the head moved, the last ones.

use super::{Generator, HEAD_LOADED, READY};
use crate::density::Density;

const CRC_BYTE: u8 = 0xF7;
/// Bytes that Write Track may write in another way, by density.
const FM_MARKS: [u8; 11] = [
    0xF8, 0xF9, 0xFA, 0xFB, 0xFC, 0xFC, 0xFD, 0xFE, 0xFF, 0xF5, 0xF6,
];
const MFM_MARKS: [u8; 11] = [
    0xF5, 0xF5, 0xF6, 0xF6, 0xF8, 0xF9, 0xFA, 0xFB, 0xFC, 0xFE, 0xFD,
];
/// Pieces that one scene writes.
const PIECES: usize = 8;

impl Generator {
    /// Write Track whose first byte never comes.
    pub fn unserved_track_scene(&mut self) {
        self.set_wires(READY | HEAD_LOADED);
        self.put_head(self.plan.length - 2);
        self.command(0xF0);
        self.go(3);
        self.go(3);
        self.go(3);
        self.end_command();
    }

    /// Write Track with the bytes that it turns into marks and CRCs, at the track's beginning and
    /// at its end.
    pub fn marks_scene(&mut self) {
        self.set_wires(READY | HEAD_LOADED);
        self.put_head(self.plan.length - 1);
        self.command(0xF0);
        self.write_byte(0xE5);
        self.byte_time();
        if self.random.one_in(2) {
            self.write_crc();
        }
        for _ in 0..PIECES {
            self.write_piece();
        }
        self.move_head(self.plan.length - 3);
        while self.is_busy() {
            let at_last = usize::from(self.bench.machine.position) + 1 == self.plan.length;
            let byte = if at_last { CRC_BYTE } else { 0x4E };
            self.write_byte(byte);
        }
        self.say("V 0 30".to_string());
        self.say(format!("V {:X} 4", self.plan.length - 4));
        self.end_command();
    }

    /// A byte, if it is asked for, and a byte time.
    pub fn write_byte(&mut self, byte: u8) {
        if self.bench.machine.data_request && !self.random.one_in(30) {
            self.load(3, byte);
        }
        self.byte_time();
    }

    /// Something that may be a mark, a byte, and their CRC.
    fn write_piece(&mut self) {
        let mark = match self.plan.density {
            Density::Fm => self.random.pick(&FM_MARKS),
            Density::Mfm => self.random.pick(&MFM_MARKS),
        };
        self.write_byte(mark);
        let byte = self.random.byte() & 0x7F;
        self.write_byte(byte);
        self.write_crc();
    }

    /// F7 and its two cells. At times DR is loaded between them, which serves nothing.
    fn write_crc(&mut self) {
        self.write_byte(CRC_BYTE);
        if self.random.one_in(2) {
            self.load(3, 0x21);
        }
        self.byte_time();
    }
}
