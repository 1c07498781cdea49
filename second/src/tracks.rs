// Tracks made from a seed: sectors sound and damaged, laid round the ring, and noise.

use crate::data_mark::DataMark;
use crate::density::Density;
use crate::field::{self, LengthCodes, FLAG};
use crate::layout;
use crate::random::Random;

/// What the sectors of a track have in common.
#[derive(Clone, Copy, Debug)]
pub struct Plan {
    pub density: Density,
    pub length: usize,
    /// The track number that most IDs bear.
    pub track: u8,
    /// The side that most IDs bear.
    pub side: u8,
    pub length_codes: LengthCodes,
    /// The number of the first sector.
    pub first_sector: u8,
    /// One ID in so many has a bad CRC.
    pub bad_ids: usize,
}

impl Plan {
    /// The length code of a record of so many bytes.
    pub fn code_of(&self, size: usize) -> u8 {
        let sizes = self.length_codes.sizes();
        let code = sizes.iter().position(|&it| it == size);
        code.expect("a size that a code stands for") as u8
    }
}

/// A whole track. It begins anywhere, so that some field often stands over the ring's end.
pub fn random_track(random: &mut Random, plan: Plan) -> Vec<u16> {
    let mut cells = vec![layout::gap(plan.density); plan.length];
    let start = random.below(plan.length);
    let mut laid = 0;
    let mut sector = plan.first_sector;
    loop {
        let size = random.pick(&[128, 128, 128, 128, 256, 256, 512, 512, 1024]);
        let piece = random_sector(random, plan, sector, size);
        if laid + piece.len() > plan.length {
            break;
        }
        layout::put(&mut cells, start + laid, &piece);
        laid += piece.len() + random.below(60);
        // Now and then the next sector bears the same number: several IDs then match.
        if !random.one_in(4) {
            sector = sector.wrapping_add(1);
        }
    }
    if random.one_in(4) {
        add_noise(random, plan, &mut cells);
    }
    cells
}

/// An ID and, mostly, a data field in or just past its window.
fn random_sector(random: &mut Random, plan: Plan, sector: u8, size: usize) -> Vec<u16> {
    let mut cells = vec![0; random.pick(&[0, 1, 6, 12])];
    if plan.density == Density::Mfm && random.one_in(8) {
        // "The three flagged A1 cells just before the byte count", so a fourth does no harm.
        cells.push(FLAG + 0xA1);
    }
    cells.extend(random_id(random, plan, sector, plan.code_of(size)));
    cells.extend(random_gap(random, plan.density));
    let mark = random.pick(&[0xFB, 0xFB, 0xFB, 0xF8, 0xF8, 0xF9, 0xFA]);
    let data = random.bytes(size);
    cells.extend(random_data(random, plan.density, mark, &data));
    cells
}

fn random_id(random: &mut Random, plan: Plan, sector: u8, code: u8) -> Vec<u16> {
    let track = if random.one_in(10) {
        random.byte()
    } else {
        plan.track
    };
    let (side, other) = (plan.side, plan.side ^ 1);
    let side = random.pick(&[side, side, side, other, other, side + 2, 0xFF]);
    // Only the two low bits of the length count.
    let length = code + random.pick(&[0, 0, 0, 0x54, 0xFC]);
    let mut cells = layout::id_cells(plan.density, [track, side, sector, length]);
    let last = cells.len() - 1;
    if random.one_in(plan.bad_ids) {
        cells[last - random.below(6)] ^= 1 << random.below(8);
    }
    if random.one_in(16) {
        cells[last - random.below(6)] += FLAG;
    }
    spoil_mark(random, plan.density, &mut cells);
    cells
}

/// Now and then one cell of a field's mark has the wrong flag, and so it is no mark.
fn spoil_mark(random: &mut Random, density: Density, cells: &mut [u16]) {
    if random.one_in(12) {
        cells[random.below(field::mark_length(density))] ^= FLAG;
    }
}

/// The cells between an ID and its data mark, so many that the mark byte stands at some cell
/// around the window's end, or well inside; at times with another mark among them.
fn random_gap(random: &mut Random, density: Density) -> Vec<u16> {
    let window = density.window();
    let marks = field::mark_length(density);
    let place = match random.below(8) {
        0 => window,
        1 => window + 1,
        2 => window - 1,
        3 => marks,
        _ => random.between(marks, window),
    };
    let mut cells = vec![layout::gap(density); place - marks];
    if random.one_in(4) && cells.len() > marks {
        let mark = random.pick(&[0xFE, 0xFC, 0xFB, 0xFA, 0xF9, 0xF8]);
        let start = random.below(cells.len() - marks);
        layout::put(&mut cells, start, &field::mark_cells(density, mark));
    }
    cells
}

/// A data field. Now and then its CRC is that of a field with another mark.
fn random_data(random: &mut Random, density: Density, mark: u8, data: &[u8]) -> Vec<u16> {
    let under_crc = match random.below(12) {
        0 => random.pick(&DataMark::ALL).byte(),
        _ => mark,
    };
    let mut cells = layout::field_cells(density, under_crc, data);
    layout::put(&mut cells, 0, &field::mark_cells(density, mark));
    let marks = field::mark_length(density);
    if random.one_in(6) {
        let place = random.between(marks, cells.len() - 1);
        cells[place] ^= 1 << random.below(8);
    }
    if random.one_in(6) {
        let place = random.between(marks, cells.len() - 1);
        cells[place] += FLAG;
    }
    spoil_mark(random, density, &mut cells);
    cells
}

/// A stretch of cells that look like pieces of marks and IDs.
fn add_noise(random: &mut Random, plan: Plan, cells: &mut [u16]) {
    let track = u16::from(plan.track);
    let pieces = [
        0x1A1, 0x1A1, 0x1A1, 0xA1, 0xFE, 0xFB, 0xFA, 0xF9, 0xF8, 0x1FE, 0x1FB, 0x1FA, 0x1F9, 0x1C2,
        track, track, 1, 0,
    ];
    let count = random.between(50, 300);
    let noise: Vec<u16> = (0..count).map(|_| random.pick(&pieces)).collect();
    layout::put(cells, random.below(plan.length), &noise);
}
