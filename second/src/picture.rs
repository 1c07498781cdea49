// Pictures of tracks, and their reader.

use crate::density::Density;
use crate::field::FLAG;
use crate::number;

/// Track and side, the bytes of a body before its data.
const BEFORE_DATA: usize = 2;

/// What the first byte of a picture says of it.
#[derive(Clone, Copy, Debug, PartialEq, Eq)]
pub struct Kind {
    pub byte: u8,
    pub density: Density,
    /// L.
    pub length: usize,
    /// Bytes after the kind: track, side, data and flag bits.
    pub body: usize,
    /// What the list prints for it.
    pub letter: char,
}

#[derive(Clone, Copy, Debug, PartialEq, Eq)]
pub struct PictureAnswer {
    pub number: u8,
    pub track: u8,
    pub side: u8,
}

impl Kind {
    /// "46 FM, L 3,125, body 3,518."
    pub const FM: Kind = Kind {
        byte: 0x46,
        density: Density::Fm,
        length: 3125,
        body: 3518,
        letter: 'F',
    };
    /// "4D MFM, L 6,250, body 7,034."
    pub const MFM: Kind = Kind {
        byte: 0x4D,
        density: Density::Mfm,
        length: 6250,
        body: 7034,
        letter: 'M',
    };
    /// "66 FM, 5,208 cells, body 5,861." "The list prints f and m as the kind."
    pub const EIGHT_INCH_FM: Kind = Kind {
        byte: 0x66,
        density: Density::Fm,
        length: 5208,
        body: 5861,
        letter: 'f',
    };
    /// "6D MFM, 10,416 cells, body 11,720."
    pub const EIGHT_INCH_MFM: Kind = Kind {
        byte: 0x6D,
        density: Density::Mfm,
        length: 10_416,
        body: 11_720,
        letter: 'm',
    };
    pub const ALL: [Kind; 4] = [
        Kind::FM,
        Kind::MFM,
        Kind::EIGHT_INCH_FM,
        Kind::EIGHT_INCH_MFM,
    ];

    pub fn of_byte(byte: u8) -> Option<Kind> {
        Kind::in_table(&Kind::ALL, byte)
    }

    fn in_table(kinds: &[Kind], byte: u8) -> Option<Kind> {
        kinds.iter().copied().find(|kind| kind.byte == byte)
    }

    pub fn flag_bytes(self) -> usize {
        self.body - BEFORE_DATA - self.length
    }

    /// The bits of the last flag byte that stand for no cell; none where that byte is full.
    pub fn padding(self) -> u8 {
        let bits = 8 * self.flag_bytes() - self.length;
        (1 << bits) - 1
    }
}

/// Reads the first picture of the bytes into the room. "The reader takes the first picture and
/// leaves bytes and room beyond it untouched."
pub fn read(bytes: &[u8], room: &mut [u16]) -> PictureAnswer {
    let kind = kind_among(&Kind::ALL, bytes);
    let answer = kind.and_then(|kind| read_as(kind, bytes, room));
    answer.unwrap_or_else(|number| PictureAnswer {
        number,
        track: 0,
        side: 0,
    })
}

/// The kind of the first picture, or its refusal: "empty (9), 8". A wrong list may have other kinds.
pub(crate) fn kind_among(kinds: &[Kind], bytes: &[u8]) -> Result<Kind, u8> {
    let first = *bytes.first().ok_or(number::CUT)?;
    Kind::in_table(kinds, first).ok_or(number::KIND)
}

/// Reads the first picture, which is of this kind, or gives its refusal: "9, 12, 10".
pub(crate) fn read_as(kind: Kind, bytes: &[u8], room: &mut [u16]) -> Result<PictureAnswer, u8> {
    let body = bytes.get(1..1 + kind.body).ok_or(number::CUT)?;
    if room.len() < kind.length {
        return Err(number::ROOM);
    }
    let (track, side) = (body[0], body[1]);
    if side > 1 || body[kind.body - 1] & kind.padding() != 0 {
        return Err(number::SIDE_OR_PADDING);
    }
    write_cells(kind, &body[BEFORE_DATA..], room);
    Ok(PictureAnswer {
        number: number::DONE,
        track,
        side,
    })
}

/// "L data bytes, flag bits (cell 0 at bit 7)."
fn write_cells(kind: Kind, data_and_flags: &[u8], room: &mut [u16]) {
    let (data, flags) = data_and_flags.split_at(kind.length);
    for (place, &byte) in data.iter().enumerate() {
        let flagged = flags[place / 8] << (place % 8) & 0x80 != 0;
        room[place] = u16::from(byte) + if flagged { FLAG } else { 0 };
    }
}
