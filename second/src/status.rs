// The status register: what a command left in it and how it looks under the drive lines.

use crate::lines::Lines;

pub const NOT_READY: u8 = 0x80;
pub const PROTECTED: u8 = 0x40;
/// Type I: head loaded and HLT on.
pub const HEAD_LOADED: u8 = 0x20;
/// Read Sector: the record had a deleted mark.
pub const DELETED: u8 = 0x20;
/// Type I: Seek Error.
pub const SEEK_ERROR: u8 = 0x10;
/// Types II and III: Record Not Found.
pub const NOT_FOUND: u8 = 0x10;
pub const CRC_ERROR: u8 = 0x08;
/// Type I.
pub const TRACK_0: u8 = 0x04;
/// Types II and III.
pub const LOST_DATA: u8 = 0x04;
/// Type I.
pub const INDEX: u8 = 0x02;
/// Types II and III.
pub const DATA_REQUEST: u8 = 0x02;
pub const BUSY: u8 = 0x01;

/// Which meaning bits 1, 2, 5 and 6 have.
#[derive(Clone, Copy, Debug, PartialEq, Eq)]
pub enum StatusType {
    TypeOne,
    /// Types II and III.
    Transfer,
}

/// The bits that commands set and clear; the others follow the lines and the machine.
#[derive(Clone, Copy, Debug, PartialEq, Eq)]
pub struct Status {
    pub status_type: StatusType,
    /// Bit 6 of Types II and III: "set only by a write refused for protection".
    pub write_refused: bool,
    /// Bit 5 of Types II and III.
    pub deleted: bool,
    /// Bit 4: Seek Error or Record Not Found.
    pub not_found: bool,
    /// Bit 3.
    pub crc_error: bool,
    /// Bit 2 of Types II and III.
    pub lost_data: bool,
}

/// What the status byte takes from elsewhere in the machine.
#[derive(Clone, Copy, Debug)]
pub struct Surroundings {
    pub head_loaded: bool,
    pub index: bool,
    pub data_request: bool,
    pub busy: bool,
}

impl Status {
    /// All bits clear, as power-on and every accepted command but Force Interrupt leave them.
    pub fn clear(status_type: StatusType) -> Status {
        Status {
            status_type,
            write_refused: false,
            deleted: false,
            not_found: false,
            crc_error: false,
            lost_data: false,
        }
    }

    /// The byte that a read gives. "Bits 7 and, for Type I, 6, 5, 2 follow the lines at the
    /// read; index is on if the last byte time was a pulse."
    pub fn byte(&self, around: Surroundings, lines: Lines) -> u8 {
        let shared = bit(NOT_READY, !lines.ready)
            | bit(NOT_FOUND, self.not_found)
            | bit(CRC_ERROR, self.crc_error)
            | bit(BUSY, around.busy);
        match self.status_type {
            StatusType::TypeOne => shared | type_one_bits(around, lines),
            StatusType::Transfer => shared | self.transfer_bits(around),
        }
    }

    fn transfer_bits(&self, around: Surroundings) -> u8 {
        bit(PROTECTED, self.write_refused)
            | bit(DELETED, self.deleted)
            | bit(LOST_DATA, self.lost_data)
            | bit(DATA_REQUEST, around.data_request)
    }
}

fn type_one_bits(around: Surroundings, lines: Lines) -> u8 {
    bit(PROTECTED, lines.protect)
        | bit(HEAD_LOADED, around.head_loaded && lines.head_loaded)
        | bit(TRACK_0, lines.track_0)
        | bit(INDEX, around.index)
}

fn bit(mask: u8, on: bool) -> u8 {
    if on {
        mask
    } else {
        0
    }
}
