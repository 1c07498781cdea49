// The commands that write cells: Write Sector and Write Track.

use crate::activity::{Activity, RecordWrite, TrackWrite};
use crate::crc;
use crate::density::Density;
use crate::field::{self, FLAG};
use crate::machine::{ByteTime, Machine};

/// Byte times after the ID's last cell: "DRQ at 2".
const REQUEST_AT: usize = 2;
/// "Still on at 10: Lost Data, end, nothing written."
const LOOK_AT: usize = 10;
/// The byte after the CRC.
const FILLER: u16 = 0xFF;
/// The byte that Write Track turns into two CRC cells.
const CRC_BYTE: u8 = 0xF7;
/// "F5 flagged A1, register CDB4 after it."
const CRC_AFTER_F5: u16 = 0xCDB4;

/// What a byte time of Write Sector does after the ID.
enum Work {
    Nothing,
    Request,
    LookAtRequest,
    Zero,
    /// A cell of the mark, counted from 0.
    Mark(usize),
    Data,
    CrcHigh,
    CrcLow,
    Filler,
}

impl RecordWrite {
    /// The work of the byte time with this number: "FM writes from 12: six 00, flagged mark;
    /// MFM from 23: twelve 00, three flagged A1, mark. Then the data, two CRC bytes, one FF."
    fn work(&self, density: Density) -> Work {
        let (first, zeros) = match density {
            Density::Fm => (12, 6),
            Density::Mfm => (23, 12),
        };
        match self.byte_times {
            REQUEST_AT => Work::Request,
            LOOK_AT => Work::LookAtRequest,
            number if number < first => Work::Nothing,
            number if number < first + zeros => Work::Zero,
            number => self.work_behind_zeros(number - first - zeros, density),
        }
    }

    fn work_behind_zeros(&self, place: usize, density: Density) -> Work {
        let marks = field::mark_length(density);
        if place < marks {
            return Work::Mark(place);
        }
        let data_place = place - marks;
        if data_place < self.size {
            return Work::Data;
        }
        match data_place - self.size {
            0 => Work::CrcHigh,
            1 => Work::CrcLow,
            _ => Work::Filler,
        }
    }

    /// The last data byte has been written.
    fn data_is_complete(&self, density: Density) -> bool {
        self.field.len() == field::mark_length(density) + self.size
    }
}

impl Machine {
    /// The byte that a data cell takes: "DR, or 00 with Lost Data if DRQ is on".
    fn take_data_byte(&mut self) -> u8 {
        if self.data_request {
            self.status.lost_data = true;
            return 0;
        }
        self.data
    }

    pub(crate) fn go_on_writing_record(
        &mut self,
        write: RecordWrite,
        now: &mut ByteTime,
    ) -> Activity {
        let mut write = write;
        write.byte_times += 1;
        let mark = write.command.data_mark().byte();
        match write.work(self.density) {
            Work::Nothing => {}
            Work::Request => self.data_request = true,
            Work::LookAtRequest if self.data_request => {
                self.status.lost_data = true;
                return self.end();
            }
            Work::LookAtRequest => {}
            Work::Zero => *now.cell = 0,
            Work::Mark(place) => *now.cell = field::mark_cells(self.density, mark)[place],
            Work::Data => self.write_data_cell(&mut write, now),
            Work::CrcHigh => *now.cell = crc::of_field(&write.field) >> 8,
            Work::CrcLow => *now.cell = crc::of_field(&write.field) & 0xFF,
            Work::Filler => {
                *now.cell = FILLER;
                return self.end_record(write.command);
            }
        }
        Activity::WritingRecord(write)
    }

    /// "Then DRQ is on, but off after the last."
    fn write_data_cell(&mut self, write: &mut RecordWrite, now: &mut ByteTime) {
        let byte = self.take_data_byte();
        *now.cell = u16::from(byte);
        write.field.push(byte);
        self.data_request = !write.data_is_complete(self.density);
    }

    /// DRQ "still on at the first pulse: Lost Data, end".
    pub(crate) fn go_on_awaiting_index(&mut self, now: &mut ByteTime) -> Activity {
        if !now.index {
            return Activity::AwaitingIndex;
        }
        if self.data_request {
            self.status.lost_data = true;
            return self.end();
        }
        let write = TrackWrite {
            crc: crc::PRESET,
            second_of_f7: false,
        };
        self.go_on_writing_track(write, now)
    }

    /// "L cells from that pulse, each from DR; then DRQ again; cell L - 1 ends it, DRQ off."
    pub(crate) fn go_on_writing_track(
        &mut self,
        write: TrackWrite,
        now: &mut ByteTime,
    ) -> Activity {
        let next = self.write_track_cell(write, now);
        if self.position + 1 == self.length {
            self.data_request = false;
            return self.end();
        }
        // "F7 writes two CRC cells for one byte, and DRQ comes with the second."
        self.data_request = !next.second_of_f7;
        Activity::WritingTrack(next)
    }

    fn write_track_cell(&mut self, write: TrackWrite, now: &mut ByteTime) -> TrackWrite {
        if write.second_of_f7 {
            return write_crc_cell(write.crc, false, now);
        }
        match self.take_data_byte() {
            CRC_BYTE => write_crc_cell(write.crc, true, now),
            byte => {
                let (cell, crc) = formatted(self.density, byte, write.crc);
                *now.cell = cell;
                TrackWrite {
                    crc,
                    second_of_f7: false,
                }
            }
        }
    }
}

/// Writes the register's high byte. The register takes the CRC cells too, which brings its low
/// byte up for the second cell.
fn write_crc_cell(register: u16, second_of_f7: bool, now: &mut ByteTime) -> TrackWrite {
    let byte = (register >> 8) as u8;
    *now.cell = u16::from(byte);
    TrackWrite {
        crc: crc::take_byte(register, byte),
        second_of_f7,
    }
}

/// The cell that Write Track makes of a byte other than F7, and the CRC register after it. "FM:
/// F8-FB and FE flagged with preset, FC flagged. MFM: F5 flagged A1, register CDB4 after it; F6
/// flagged C2. All else plain."
fn formatted(density: Density, byte: u8, register: u16) -> (u16, u16) {
    match (density, byte) {
        (Density::Fm, 0xF8..=0xFB) | (Density::Fm, 0xFE) => {
            (FLAG + u16::from(byte), crc::take_byte(crc::PRESET, byte))
        }
        (Density::Fm, 0xFC) => (FLAG + 0xFC, crc::take_byte(register, 0xFC)),
        (Density::Mfm, 0xF5) => (FLAG + 0xA1, CRC_AFTER_F5),
        (Density::Mfm, 0xF6) => (FLAG + 0xC2, crc::take_byte(register, 0xC2)),
        _ => (u16::from(byte), crc::take_byte(register, byte)),
    }
}
