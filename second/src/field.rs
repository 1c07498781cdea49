// Marks, IDs and data marks, recognised by looking back at the cells that have passed.

use crate::crc;
use crate::data_mark::DataMark;
use crate::density::Density;

/// A cell is "a byte, plus 256 if written with missing clocks (flagged)".
pub const FLAG: u16 = 256;
pub const LARGEST_CELL: u16 = 511;

const FLAGGED_A1: u16 = FLAG + 0xA1;
pub const ID_MARK: u8 = 0xFE;
/// Track, side, sector, length and the two bytes of the CRC.
pub const ID_CELLS: usize = 6;

pub fn is_flagged(cell: u16) -> bool {
    cell >= FLAG
}

/// The byte of a cell, its flag ignored.
pub fn byte_of(cell: u16) -> u8 {
    (cell % FLAG) as u8
}

/// The bytes that a field's CRC takes first: "FM: a mark is one flagged cell; CRC starts with
/// it. MFM: CRC covers the A1s."
pub fn mark_bytes(density: Density, mark: u8) -> Vec<u8> {
    match density {
        Density::Fm => vec![mark],
        Density::Mfm => vec![0xA1, 0xA1, 0xA1, mark],
    }
}

/// How many cells a mark has.
pub fn mark_length(density: Density) -> usize {
    match density {
        Density::Fm => 1,
        Density::Mfm => 4,
    }
}

/// The cells of a mark as they stand on a track.
pub fn mark_cells(density: Density, mark: u8) -> Vec<u16> {
    match density {
        Density::Fm => vec![FLAG + u16::from(mark)],
        Density::Mfm => vec![FLAGGED_A1, FLAGGED_A1, FLAGGED_A1, u16::from(mark)],
    }
}

/// The byte of the mark that the last of these cells completes, if it completes one.
/// What stands before a mark's own cells does not count, so a fourth A1 does no harm.
pub fn mark_at_end(density: Density, passed: &[u16]) -> Option<u8> {
    match (density, passed) {
        (Density::Fm, [.., last]) if is_flagged(*last) => Some(byte_of(*last)),
        (Density::Mfm, [.., FLAGGED_A1, FLAGGED_A1, FLAGGED_A1, last]) if !is_flagged(*last) => {
            Some(byte_of(*last))
        }
        _ => None,
    }
}

/// "An ID is mark FE and six unflagged cells: track, side, sector, length, CRC."
#[derive(Clone, Copy, Debug, PartialEq, Eq)]
pub struct Id {
    pub track: u8,
    pub side: u8,
    pub sector: u8,
    pub length: u8,
    pub crc_good: bool,
}

/// What the two low bits of an ID's length mean.
#[derive(Clone, Copy, Debug, PartialEq, Eq)]
pub enum LengthCodes {
    /// "128, 256, 512, 1,024": everywhere but on a 1797 with L 0.
    Ibm,
    /// "With L 0 the codes 0 to 3 mean 256, 512, 1,024, 128."
    NonIbm,
}

impl LengthCodes {
    /// By code 0 to 3.
    pub fn sizes(self) -> [usize; 4] {
        match self {
            LengthCodes::Ibm => [128, 256, 512, 1024],
            LengthCodes::NonIbm => [256, 512, 1024, 128],
        }
    }
}

impl Id {
    pub fn size(&self, codes: LengthCodes) -> usize {
        codes.sizes()[usize::from(self.length & 3)]
    }
}

/// The ID that the last of these cells completes, if it completes one.
pub fn id_at_end(density: Density, passed: &[u16]) -> Option<Id> {
    let (before, six) = passed.split_at(passed.len().checked_sub(ID_CELLS)?);
    if mark_at_end(density, before) != Some(ID_MARK) || six.iter().any(|&cell| is_flagged(cell)) {
        return None;
    }
    let mut field = mark_bytes(density, ID_MARK);
    field.extend(six.iter().map(|&cell| byte_of(cell)));
    Some(Id {
        track: byte_of(six[0]),
        side: byte_of(six[1]),
        sector: byte_of(six[2]),
        length: byte_of(six[3]),
        crc_good: crc::of_field(&field) == 0,
    })
}

/// The data mark that the last of these cells completes, if it completes one. The cells are those
/// after the ID's last, so in MFM the three A1s are among them too.
pub fn data_mark_at_end(density: Density, after_id: &[u16]) -> Option<DataMark> {
    let byte = mark_at_end(density, after_id)?;
    DataMark::of_byte(byte, density)
}

/// The first data mark in the window after an ID, and how many cells it ends after the ID's
/// last. "Only the first data mark in the window is the ID's data mark."
pub fn first_data_mark(density: Density, after_id: &[u16]) -> Option<(usize, DataMark)> {
    let window = density.window().min(after_id.len());
    (1..=window)
        .find_map(|place| data_mark_at_end(density, &after_id[..place]).map(|mark| (place, mark)))
}

/// How many cells an ID has, its mark and its CRC with it.
pub fn id_length(density: Density) -> usize {
    mark_length(density) + ID_CELLS
}
