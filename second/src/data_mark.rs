// The data marks: which of them a density has, their bytes, and what they say of a record.

use crate::density::Density;

/// The marks that may begin a data field. "Disks from FD1771 machines carry F9 and FA."
#[derive(Clone, Copy, Debug, PartialEq, Eq)]
pub enum DataMark {
    F8,
    F9,
    FA,
    FB,
}

impl DataMark {
    pub const ALL: [DataMark; 4] = [DataMark::F8, DataMark::F9, DataMark::FA, DataMark::FB];

    /// "Data marks are FB (normal) and F8 (deleted)." "In FM only, flagged F9 and FA become data
    /// marks."
    pub fn of_density(density: Density) -> &'static [DataMark] {
        match density {
            Density::Fm => &DataMark::ALL,
            Density::Mfm => &[DataMark::F8, DataMark::FB],
        }
    }

    /// The data mark that a mark with this byte is, if the density has it.
    pub fn of_byte(byte: u8, density: Density) -> Option<DataMark> {
        let mut marks = DataMark::of_density(density).iter().copied();
        marks.find(|mark| mark.byte() == byte)
    }

    pub fn byte(self) -> u8 {
        match self {
            DataMark::F8 => 0xF8,
            DataMark::F9 => 0xF9,
            DataMark::FA => 0xFA,
            DataMark::FB => 0xFB,
        }
    }

    /// "F9 counts as deleted, FA as normal."
    pub fn is_deleted(self) -> bool {
        matches!(self, DataMark::F8 | DataMark::F9)
    }
}
