// The viewer: finds a sector's data on two lent sides.

use std::ops::Range;

use crate::crc;
use crate::data_mark::DataMark;
use crate::density::Density;
use crate::field::{self, LengthCodes, LARGEST_CELL};
use crate::machine::length_in_range;
use crate::number;

const CRC_CELLS: usize = 2;

/// What the viewer looks for.
#[derive(Clone, Copy, Debug, PartialEq, Eq)]
pub struct Wanted {
    pub density: Density,
    pub track: u8,
    pub sector: u8,
}

#[derive(Clone, Copy, Debug, PartialEq, Eq)]
pub struct View<'a> {
    pub number: u8,
    /// "An empty part is of side 0."
    pub side: u8,
    /// The data cells, flags included, as a part of the side they stand on.
    pub cells: &'a [u16],
}

/// Finds an ID's data mark in the cells after the ID: how many cells it ends after the ID's last,
/// and which one it is.
pub type FindMark = fn(Density, &[u16]) -> Option<(usize, DataMark)>;

/// What the viewer finds on the two sides.
pub fn view<'a>(side_0: &'a [u16], side_1: &'a [u16], wanted: Wanted) -> View<'a> {
    view_by(field::first_data_mark, [side_0, side_1], wanted)
}

/// "Side 0 before side 1, lowest cell first." A wrong viewer may find data marks in another way.
pub(crate) fn view_by(find_mark: FindMark, sides: [&[u16]; 2], wanted: Wanted) -> View<'_> {
    let refused = |number| View {
        number,
        side: 0,
        cells: &sides[0][..0],
    };
    if sides.iter().any(|cells| !length_in_range(cells.len())) {
        return refused(number::LENGTH);
    }
    if sides.iter().any(|cells| has_bad_cell(cells)) {
        return refused(number::CELL);
    }
    for (side, cells) in (0..2).zip(sides) {
        if let Some(part) = find(find_mark, cells, wanted) {
            return View {
                number: number::DONE,
                side,
                cells: &cells[part],
            };
        }
    }
    refused(number::NO_SECTOR)
}

fn has_bad_cell(cells: &[u16]) -> bool {
    cells.iter().any(|&cell| cell > LARGEST_CELL)
}

fn find(find_mark: FindMark, cells: &[u16], wanted: Wanted) -> Option<Range<usize>> {
    (0..cells.len()).find_map(|first| data_of_id(find_mark, cells, first, wanted))
}

/// The data of the ID that begins at this cell, if all is good: "ID and data CRC good, mark in
/// its window, nothing from the ID's first cell to the data CRC past the last cell".
fn data_of_id(
    find_mark: FindMark,
    cells: &[u16],
    first: usize,
    wanted: Wanted,
) -> Option<Range<usize>> {
    let density = wanted.density;
    let id_end = first + field::id_length(density);
    let id = field::id_at_end(density, cells.get(first..id_end)?)?;
    if !id.crc_good || id.track != wanted.track || id.sector != wanted.sector {
        return None;
    }
    let (place, mark) = find_mark(density, &cells[id_end..])?;
    let start = id_end + place;
    let end = start + id.size(LengthCodes::Ibm);
    let behind_mark = cells.get(start..end + CRC_CELLS)?;
    let mut under_crc = field::mark_bytes(density, mark.byte());
    under_crc.extend(behind_mark.iter().map(|&cell| field::byte_of(cell)));
    if crc::of_field(&under_crc) == 0 {
        Some(start..end)
    } else {
        None
    }
}
