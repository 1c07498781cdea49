// Scenes of the four data marks, of which MFM has two, and of what a record's CRC starts with.

use super::serving::Host;
use super::{Generator, Sector};
use crate::data_mark::DataMark::{self, F8, F9, FA, FB};
use crate::density::Density;
use crate::field::{self, FLAG};
use crate::layout;

/// Bytes of each record.
const SIZE: usize = 128;
/// Rounds that a record and the search before it take at most, where nobody serves the read.
const MOST_ROUNDS: usize = 150;
/// The marks that only FM has stand here twice, since the others come in MFM too.
const WEIGHED_MARKS: [DataMark; 6] = [F8, F9, F9, FA, FA, FB];

/// The mark of a record, and the mark that its CRC starts with: each with each, and half of the
/// records are sound.
pub fn marked_records() -> Vec<(DataMark, DataMark)> {
    let mut all = Vec::new();
    for mark in DataMark::ALL {
        all.extend(DataMark::ALL.map(|under_crc| (mark, under_crc)));
        all.extend([(mark, mark); 2]);
    }
    all
}

impl Generator {
    /// Any of the four.
    pub fn any_data_mark(&mut self) -> u8 {
        self.random.pick(&DataMark::ALL).byte()
    }

    /// One that the density has, for a deleted record or a normal one.
    pub fn data_mark_for(&mut self, deleted: bool) -> u8 {
        let marks = DataMark::of_density(self.plan.density);
        let mut such = WEIGHED_MARKS.to_vec();
        such.retain(|mark| marks.contains(mark) && mark.is_deleted() == deleted);
        self.random.pick(&such).byte()
    }

    /// Any scene of data marks.
    pub fn data_mark_scene(&mut self) {
        match self.random.below(6) {
            0 => self.two_marks_scene(),
            1 | 2 => self.window_scene(),
            _ => {
                let marks = self.random.pick(&marked_records());
                self.marked_record_scene(marks);
            }
        }
    }

    /// A record that has the first of these marks, and a CRC that starts with the second. It is read
    /// to its end, nobody serving it, and then viewed. At times a bit of it is wrong.
    pub fn marked_record_scene(&mut self, marks: (DataMark, DataMark)) {
        let (mark, under_crc) = marks;
        let number = self.random.byte();
        let sector = Sector {
            mark: mark.byte(),
            ..self.short_sector(number)
        };
        let mut cells = self.sector_cells(sector);
        let end = cells.len();
        self.add_crc(&mut cells, end - SIZE - 2, under_crc.byte());
        if self.random.one_in(6) {
            cells[end - 1 - self.random.below(SIZE + 2)] ^= 1 << self.random.below(8);
        }
        self.lay_before_head(number, &cells);
        let byte = self.random.pick(&[0x80, 0x80, 0x90]);
        self.command(byte);
        self.serve(Host::Absent, MOST_ROUNDS);
        self.end_command();
        self.view_sector(number);
    }

    /// Gives the record whose data begin at this place a CRC that starts with this mark.
    fn add_crc(&self, cells: &mut [u16], place: usize, mark: u8) {
        let end = place + SIZE;
        let data: Vec<u8> = cells[place..end]
            .iter()
            .map(|&it| field::byte_of(it))
            .collect();
        let field = layout::field_cells(self.plan.density, mark, &data);
        cells[end..end + 2].copy_from_slice(&field[field.len() - 2..]);
    }

    /// Two marks in one window, one of their records with a good CRC: a few bytes of it, and a
    /// view. At times the first mark is spoilt.
    pub fn two_marks_scene(&mut self) {
        let density = self.plan.density;
        let marks = field::mark_length(density);
        let number = self.random.byte();
        let sector = Sector {
            mark: self.any_data_mark(),
            mark_at: self.random.between(2 * marks, density.window()),
            ..self.short_sector(number)
        };
        let mut cells = self.sector_cells(sector);
        let room = sector.mark_at - 2 * marks;
        let place = field::id_length(density) + self.random.between(0, room);
        let first = self.any_data_mark();
        layout::put(&mut cells, place, &field::mark_cells(density, first));
        if self.random.one_in(2) {
            self.add_crc(&mut cells, place + marks, first);
        }
        if self.random.one_in(3) {
            cells[place] %= FLAG;
        }
        self.lay_before_head(number, &cells);
        self.command(0x80);
        self.serve(Host::Prompt, 4);
        self.end_command();
        self.view_sector(number);
    }

    /// Write Sector over a record whose mark stands where it writes its own: "FM writes from 12: six
    /// 00, flagged mark; MFM from 23: twelve 00, three flagged A1, mark".
    pub fn overwriting_scene(&mut self) {
        let number = self.random.byte();
        let sector = Sector {
            mark: self.any_data_mark(),
            mark_at: match self.plan.density {
                Density::Fm => 12 + 6,
                Density::Mfm => 23 + 12 + 3,
            },
            ..self.short_sector(number)
        };
        let cells = self.sector_cells(sector);
        self.lay_before_head(number, &cells);
        let byte = self.random.pick(&[0xA0, 0xA1]);
        self.command(byte);
        self.serve(Host::Prompt, 4);
        self.end_command();
        self.show_round_head();
    }
}
