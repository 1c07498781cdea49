// Whole fields as cells, the way a formatted track holds them.

use crate::crc;
use crate::density::Density;
use crate::field::{self, ID_MARK};

/// The byte that fills the gaps of a formatted track.
pub fn gap(density: Density) -> u16 {
    match density {
        Density::Fm => 0xFF,
        Density::Mfm => 0x4E,
    }
}

/// A field: its mark, its bytes and its CRC, high byte first.
pub fn field_cells(density: Density, mark: u8, bytes: &[u8]) -> Vec<u16> {
    let mut under_crc = field::mark_bytes(density, mark);
    under_crc.extend_from_slice(bytes);
    let register = crc::of_field(&under_crc);
    let mut cells = field::mark_cells(density, mark);
    cells.extend(bytes.iter().map(|&byte| u16::from(byte)));
    cells.push(register >> 8);
    cells.push(register & 0xFF);
    cells
}

/// An ID with a good CRC; the four bytes are track, side, sector and length.
pub fn id_cells(density: Density, bytes: [u8; 4]) -> Vec<u16> {
    field_cells(density, ID_MARK, &bytes)
}

/// Lays cells on a track from a place on, round the ring.
pub fn put(track: &mut [u16], place: usize, cells: &[u16]) {
    let length = track.len();
    for (offset, &cell) in cells.iter().enumerate() {
        track[(place + offset) % length] = cell;
    }
}
