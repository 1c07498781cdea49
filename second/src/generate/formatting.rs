// The bytes that a host loads while Write Track formats a track.

use super::Generator;
use crate::data_mark::DataMark;
use crate::density::Density;

const CRC_BYTE: u8 = 0xF7;

impl Generator {
    /// The byte for the cell under the head: the piece of a sector that its place in a frame of
    /// 200 cells calls for, or any control byte.
    pub fn next_format_byte(&mut self) -> u8 {
        let position = usize::from(self.bench.machine.position);
        if position + 1 == self.plan.length && !self.random.one_in(4) {
            // "F7 at the last cell writes only the high byte."
            return CRC_BYTE;
        }
        if self.random.one_in(30) {
            return self.random.between(0xF4, 0xFF) as u8;
        }
        let sector = (position / 200) as u8;
        let frame = self.format_frame(sector);
        let place = position % 200;
        frame.get(place).copied().unwrap_or(0x4E)
    }

    /// One sector of 128 bytes as Write Track takes it, each F7 twice since it fills two cells.
    fn format_frame(&self, sector: u8) -> Vec<u8> {
        let mut bytes = vec![0; 6];
        bytes.extend(self.format_mark(0xFE));
        let code = self.plan.code_of(128);
        bytes.extend([self.plan.track, self.plan.side, sector, code]);
        bytes.extend([CRC_BYTE, CRC_BYTE]);
        bytes.resize(bytes.len() + 12, 0x4E);
        let mark = DataMark::ALL[usize::from(sector % 4)];
        bytes.extend(self.format_mark(mark.byte()));
        bytes.resize(bytes.len() + 128, 0xE5);
        bytes.extend([CRC_BYTE, CRC_BYTE]);
        bytes
    }

    fn format_mark(&self, mark: u8) -> Vec<u8> {
        match self.plan.density {
            Density::Fm => vec![mark],
            Density::Mfm => vec![0xF5, 0xF5, 0xF5, mark],
        }
    }
}
