// What the scripts must meet of the four data marks.

use crate::met::{chip_name, density_name};
use second::activity::{RecordRead, Window};
use second::bench::Bench;
use second::chip::Chip;
use second::crc;
use second::data_mark::DataMark::{self, F8, F9, FA, FB};
use second::density::Density::{self, Fm, Mfm};
use second::field::{self, LengthCodes};
use second::machine::Machine;
use second::viewer::Wanted;

pub fn wanted() -> Vec<String> {
    let mut keys = Vec::new();
    for density in [Fm, Mfm] {
        for &mark in DataMark::of_density(density) {
            keys.extend(reads(mark, density));
            keys.extend(other_crcs(mark, density));
            keys.extend(places(mark, density));
        }
        for mark in DataMark::ALL {
            keys.extend(["good", "bad"].map(|crc| viewed_key(mark, density, crc)));
        }
    }
    for first in DataMark::ALL {
        keys.extend(DataMark::ALL.map(|second| before_key(first, second, Fm)));
    }
    for first in [F9, FA] {
        keys.extend([F8, FB].map(|second| before_key(first, second, Mfm)));
        keys.push(in_vain_key(first));
    }
    keys
}

/// Records read to their end.
fn reads(mark: DataMark, density: Density) -> Vec<String> {
    let mut keys = Vec::new();
    for chip in Chip::BOTH {
        for multiple in [false, true] {
            let crcs = ["good", "bad"];
            keys.extend(crcs.map(|crc| read_key(mark, density, chip, multiple, crc)));
        }
    }
    keys
}

fn read_key(mark: DataMark, density: Density, chip: Chip, multiple: bool, crc: &str) -> String {
    let command = if multiple { "with m" } else { "without m" };
    let (density, chip) = (density_name(density), chip_name(chip));
    format!("{:?} {} {} {} {}", mark, crc, command, density, chip)
}

/// Records whose CRC starts with another mark.
fn other_crcs(mark: DataMark, density: Density) -> Vec<String> {
    let others = DataMark::ALL.into_iter().filter(|&other| other != mark);
    others
        .map(|other| other_crc_key(mark, other, density))
        .collect()
}

fn other_crc_key(mark: DataMark, other: DataMark, density: Density) -> String {
    let density = density_name(density);
    format!("{:?} with the CRC of {:?} {}", mark, other, density)
}

fn places(mark: DataMark, density: Density) -> Vec<String> {
    ["at", "past"]
        .map(|place| place_key(mark, density, place))
        .to_vec()
}

/// A mark at the window's end, or just past it.
fn place_key(mark: DataMark, density: Density, place: &str) -> String {
    let density = density_name(density);
    format!("{:?} {} the window's end {}", mark, place, density)
}

/// Two marks of one window. In FM the first counts, in MFM it is passed over.
fn before_key(first: DataMark, second: DataMark, density: Density) -> String {
    let density = density_name(density);
    format!("{:?} before {:?} {}", first, second, density)
}

/// A mark that is passed over in MFM, and no data mark comes.
fn in_vain_key(mark: DataMark) -> String {
    format!("{:?} in vain", mark)
}

fn viewed_key(mark: DataMark, density: Density, crc: &str) -> String {
    format!("viewed {:?} {} {}", mark, crc, density_name(density))
}

/// The marks of all four, in MFM too, that end with one of these cells.
fn marks_among(density: Density, cells: &[u16]) -> Vec<DataMark> {
    let ends = 1..=cells.len();
    let bytes = ends.filter_map(|end| field::mark_at_end(density, &cells[..end]));
    bytes
        .filter_map(|byte| DataMark::of_byte(byte, Fm))
        .collect()
}

/// A data mark has been found. The window has the cells before the last one of the mark, which has
/// just passed.
pub fn found(window: &Window, mark: DataMark, bench: &Bench) -> Vec<String> {
    let density = bench.machine.density;
    let passed = window.passed.len();
    let mut keys: Vec<String> = marks_among(density, &window.passed)
        .into_iter()
        .map(|first| before_key(first, mark, density))
        .collect();
    if passed + 1 == density.window() {
        keys.push(place_key(mark, density, "at"));
    }
    if density == Fm {
        let ahead = ring_cells(bench, density.window() - passed - 1);
        let later = marks_among(density, &ahead).into_iter();
        keys.extend(later.map(|second| before_key(mark, second, density)));
    }
    keys
}

/// So many cells from the head on.
fn ring_cells(bench: &Bench, count: usize) -> Vec<u16> {
    let head = usize::from(bench.machine.position);
    let places = head..head + count;
    places
        .map(|place| bench.current[place % bench.current.len()])
        .collect()
}

/// The last cell of this window has passed, and no data mark of the density was in it; one may end
/// with the next cell.
pub fn missed(window: &Window, bench: &Bench) -> Vec<String> {
    let density = bench.machine.density;
    let mut cells = window.passed.clone();
    cells.push(bench.current[last_place(bench)]);
    let marks = marks_among(density, &cells).into_iter();
    let mut keys: Vec<String> = marks.map(in_vain_key).collect();
    cells.extend(ring_cells(bench, 1));
    let next = field::data_mark_at_end(density, &cells);
    keys.extend(next.map(|mark| place_key(mark, density, "past")));
    keys
}

/// The place of the cell that has just passed.
fn last_place(bench: &Bench) -> usize {
    let length = bench.current.len();
    (usize::from(bench.machine.position) + length - 1) % length
}

/// A record has ended; its field has all of its bytes.
pub fn ended(record: &RecordRead, machine: &Machine) -> Vec<String> {
    let (mark, density) = (record.mark, machine.density);
    let multiple = record.command.multiple();
    let key = |crc| vec![read_key(mark, density, machine.chip, multiple, crc)];
    if crc::of_field(&record.field) == 0 {
        return key("good");
    }
    let mut keys = key("bad");
    for other in DataMark::ALL {
        let mut field = field::mark_bytes(density, other.byte());
        field.extend(&record.field[field.len()..]);
        if crc::of_field(&field) == 0 {
            keys.push(other_crc_key(mark, other, density));
        }
    }
    keys
}

/// The viewer looks for a sector: the first of the four marks after each of its good IDs.
pub fn viewed(bench: &Bench, wanted: Wanted) -> Vec<String> {
    let rows = [&bench.current, &bench.other].into_iter();
    rows.flat_map(|row| viewed_on(row, wanted)).collect()
}

fn viewed_on(row: &[u16], wanted: Wanted) -> Vec<String> {
    let ends = 0..=row.len();
    ends.filter_map(|end| viewed_at(row, end, wanted)).collect()
}

fn viewed_at(row: &[u16], id_end: usize, wanted: Wanted) -> Option<String> {
    let density = wanted.density;
    let id = field::id_at_end(density, &row[..id_end])?;
    if !id.crc_good || (id.track, id.sector) != (wanted.track, wanted.sector) {
        return None;
    }
    let window = &row[id_end..row.len().min(id_end + density.window())];
    let places = 1..=window.len();
    let mut marks = places.filter_map(|place| {
        let byte = field::mark_at_end(density, &window[..place])?;
        DataMark::of_byte(byte, Fm).map(|mark| (place, mark))
    });
    let (place, mark) = marks.next()?;
    let start = id_end + place;
    let data = row.get(start..start + id.size(LengthCodes::Ibm) + 2)?;
    let mut field = field::mark_bytes(density, mark.byte());
    field.extend(data.iter().map(|&cell| field::byte_of(cell)));
    let crc = ["bad", "good"][usize::from(crc::of_field(&field) == 0)];
    Some(viewed_key(mark, density, crc))
}
