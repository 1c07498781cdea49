// The four data marks: which of them a density has, and what a record with each is.

use second::chip::Chip;
use second::data_mark::DataMark::{self, F8, F9, FA, FB};
use second::density::Density;
use second::field::{self, FLAG};
use second::layout;
use second::status::{BUSY, CRC_ERROR, DELETED, NOT_FOUND};

use crate::desk::{Desk, Fm, Mfm, BOTH};
use crate::reading::{last_crc_cell, put_sector};
use crate::writing::expected_record;

/// Read Sector of side 0 with document 01's length codes, single and with m.
const READS: [(Chip, u8); 4] = [
    (Chip::Wd1793, 0x80),
    (Chip::Wd1793, 0x90),
    (Chip::Wd1797, 0x88),
    (Chip::Wd1797, 0x98),
];

/// Sectors 1, 2, .. as `put_sector` lays them.
fn desk_with(chip: Chip, density: Density, marks: &[DataMark]) -> Desk {
    let mut desk = Desk::with_chip(chip, density);
    for (index, mark) in marks.iter().enumerate() {
        put_sector(&mut desk, index, [0, 0, index as u8 + 1, 0], mark.byte());
    }
    desk
}

/// An ID that ends before cell 100; the byte of a mark so many cells after it, and 128 bytes 5A
/// after that with their CRC.
fn desk_with_mark_at(density: Density, mark: u8, cell: usize) -> Desk {
    let mut desk = Desk::new(density);
    desk.put_id_before(100, [0, 0, 1, 0]);
    let place = 100 + cell - field::mark_length(density);
    desk.put_data(place, mark, &[0x5A; 128]);
    desk
}

/// Whether Read Sector hands over that record, good; else it ends with the window.
fn finds_record(density: Density, mark: u8, cell: usize) -> bool {
    let mut desk = desk_with_mark_at(density, mark, cell);
    desk.command(0x80);
    let served = desk.serve_reads();
    if served.bytes == [0x5A; 128] {
        assert_eq!(desk.status() & !DELETED, 0);
        return true;
    }
    let window = match density {
        Fm => 30,
        Mfm => 43,
    };
    assert_eq!((served.bytes.len(), served.byte_times), (0, 100 + window));
    assert_eq!(desk.status(), NOT_FOUND);
    false
}

/// Bit 5, if the record is a deleted one.
fn bit_5(mark: DataMark) -> u8 {
    match mark {
        F8 | F9 => DELETED,
        FA | FB => 0,
    }
}

#[test]
fn each_mark_has_its_byte() {
    assert_eq!(DataMark::ALL.map(DataMark::byte), [0xF8, 0xF9, 0xFA, 0xFB]);
}

#[test]
fn f8_and_f9_are_deleted_fa_and_fb_are_not() {
    assert_eq!(
        DataMark::ALL.map(DataMark::is_deleted),
        [true, true, false, false]
    );
}

#[test]
fn of_all_bytes_fm_has_four_data_marks_and_mfm_two() {
    for byte in 0..=255 {
        let fm = match byte {
            0xF8 => Some(F8),
            0xF9 => Some(F9),
            0xFA => Some(FA),
            0xFB => Some(FB),
            _ => None,
        };
        assert_eq!(DataMark::of_byte(byte, Fm), fm);
        let mfm = fm.filter(|mark| matches!(mark, F8 | FB));
        assert_eq!(DataMark::of_byte(byte, Mfm), mfm);
    }
}

#[test]
fn of_all_marks_only_data_marks_begin_a_record() {
    for byte in 0..=255 {
        let (fm, mfm) = (matches!(byte, 0xF8..=0xFB), matches!(byte, 0xF8 | 0xFB));
        assert_eq!(finds_record(Fm, byte, 12), fm, "{:02X}", byte);
        assert_eq!(finds_record(Mfm, byte, 12), mfm, "{:02X}", byte);
    }
}

#[test]
fn every_read_hands_over_a_record_with_each_mark() {
    for (chip, byte) in READS {
        for density in BOTH {
            for &mark in DataMark::of_density(density) {
                let mut desk = desk_with(chip, density, &[mark]);
                desk.command(byte);
                assert_eq!(desk.serve_reads().bytes, vec![1; 128]);
                assert_eq!(desk.status() & !NOT_FOUND, bit_5(mark));
            }
        }
    }
}

#[test]
fn bit_5_comes_with_the_second_crc_cell() {
    for density in BOTH {
        for &mark in DataMark::of_density(density) {
            let mut desk = desk_with(Chip::Wd1793, density, &[mark]);
            desk.command(0x80);
            desk.go_to(last_crc_cell(density, 0) as u16);
            assert_eq!(desk.status() & (BUSY | DELETED), BUSY);
            desk.byte_time();
            assert_eq!(desk.status() & (BUSY | DELETED), bit_5(mark));
        }
    }
}

#[test]
fn with_m_each_mark_sets_or_clears_bit_5() {
    for first in DataMark::ALL {
        for second in DataMark::ALL {
            let mut desk = desk_with(Chip::Wd1793, Fm, &[first, second]);
            desk.command(0x90);
            desk.go_to(last_crc_cell(Fm, 0) as u16 + 1);
            assert_eq!(desk.status() & DELETED, bit_5(first));
            desk.go_to(last_crc_cell(Fm, 1) as u16);
            assert_eq!(desk.status() & DELETED, bit_5(first));
            desk.byte_time();
            assert_eq!(desk.status() & DELETED, bit_5(second));
            assert_eq!(desk.machine.sector, 3);
        }
    }
}

#[test]
fn with_m_records_of_all_marks_follow_one_another() {
    let mut desk = desk_with(Chip::Wd1793, Fm, &[F9, FA, F8, FB, FA, F9]);
    desk.command(0x90);
    let expected: Vec<u8> = (1..=6).flat_map(|number| [number; 128]).collect();
    assert_eq!(desk.serve_reads().bytes, expected);
    assert_eq!(desk.status(), NOT_FOUND | DELETED);
    assert_eq!(desk.machine.sector, 7);
}

#[test]
fn a_broken_record_with_any_mark_ends_m() {
    for density in BOTH {
        for &mark in DataMark::of_density(density) {
            let mut desk = desk_with(Chip::Wd1793, density, &[F8, mark, FB]);
            desk.track[last_crc_cell(density, 1)] ^= 1;
            desk.command(0x90);
            assert_eq!(desk.serve_reads().bytes.len(), 2 * 128);
            assert_eq!(desk.status(), CRC_ERROR | bit_5(mark));
            assert_eq!(desk.machine.sector, 2);
        }
    }
}

#[test]
fn the_crc_starts_with_the_mark_met() {
    for density in BOTH {
        for &mark in DataMark::of_density(density) {
            for under_crc in DataMark::ALL {
                let mut desk = desk_with_mark_at(density, under_crc.byte(), 12);
                desk.track[111] = desk.track[111] / FLAG * FLAG + u16::from(mark.byte());
                desk.command(0x80);
                assert_eq!(desk.serve_reads().bytes, vec![0x5A; 128]);
                let bit_3 = if mark == under_crc { 0 } else { CRC_ERROR };
                assert_eq!(desk.status(), bit_5(mark) | bit_3);
            }
        }
    }
}

#[test]
fn each_mark_counts_up_to_the_windows_end() {
    for mark in DataMark::ALL {
        let byte = mark.byte();
        assert!(finds_record(Fm, byte, 30));
        assert!(!finds_record(Fm, byte, 31));
        assert_eq!(finds_record(Mfm, byte, 43), matches!(mark, F8 | FB));
        assert!(!finds_record(Mfm, byte, 44));
    }
}

#[test]
fn of_two_marks_in_fm_the_first_counts() {
    for first in DataMark::ALL {
        for second in DataMark::ALL {
            let mut desk = desk_with_mark_at(Fm, second.byte(), 20);
            desk.track[104] = FLAG + u16::from(first.byte());
            let after: Vec<u8> = desk.track[105..233].iter().map(|&c| c as u8).collect();
            desk.command(0x80);
            let served = desk.serve_reads();
            assert_eq!(served.bytes, after);
            assert_eq!(served.byte_times, 105 + 128 + 2);
            assert_eq!(desk.status(), bit_5(first) | CRC_ERROR);
        }
    }
}

#[test]
fn a_flagged_data_mark_among_the_data_is_data() {
    for first in DataMark::ALL {
        for second in DataMark::ALL {
            let mut desk = desk_with_mark_at(Fm, first.byte(), 5);
            let mut data = [0x5A; 128];
            data[3] = second.byte();
            desk.put_data(104, first.byte(), &data);
            desk.track[105 + 3] += FLAG;
            desk.command(0x80);
            assert_eq!(desk.serve_reads().bytes, data);
            assert_eq!(desk.status(), bit_5(first));
        }
    }
}

#[test]
fn in_mfm_f9_and_fa_are_passed_over_for_what_follows() {
    for first in [F9, FA] {
        for second in [F8, FB] {
            let mut desk = desk_with_mark_at(Mfm, second.byte(), 43);
            desk.put(110, &field::mark_cells(Mfm, first.byte()));
            desk.command(0x80);
            assert_eq!(desk.serve_reads().bytes, vec![0x5A; 128]);
            assert_eq!(desk.status(), bit_5(second));
        }
    }
}

#[test]
fn in_fm_a_data_mark_is_flagged() {
    for plain in DataMark::ALL {
        let mut desk = desk_with_mark_at(Fm, 0xFB, 20);
        desk.track[104] = u16::from(plain.byte());
        desk.command(0x80);
        assert_eq!(desk.serve_reads().bytes, vec![0x5A; 128]);
        assert_eq!(desk.status(), 0);
    }
}

/// The byte time of Write Sector in which it writes the byte of its mark.
fn written_at(density: Density) -> usize {
    match density {
        Fm => 18,
        Mfm => 38,
    }
}

#[test]
fn write_sector_writes_fb_or_f8_over_every_mark() {
    for density in BOTH {
        for before in DataMark::ALL {
            for (byte, mark) in [(0xA0, 0xFB), (0xA1, 0xF8)] {
                let mut desk = desk_with_mark_at(density, before.byte(), written_at(density));
                let (place, cells) = expected_record(density, mark, &[0x42; 128]);
                let mut expected = desk.track.clone();
                layout::put(&mut expected, place, &cells);
                desk.command(byte);
                assert_eq!(desk.serve_writes(&[0x42; 128]), 128);
                assert_eq!(desk.track, expected);
                desk.command(0x80);
                assert_eq!(desk.serve_reads().bytes, vec![0x42; 128]);
                assert_eq!(desk.status(), if mark == 0xF8 { DELETED } else { 0 });
            }
        }
    }
}

#[test]
fn write_track_in_fm_lays_records_that_are_read_with_each_mark() {
    for mark in DataMark::ALL {
        let mut desk = Desk::new(Fm);
        let mut bytes = vec![0xFE, 0, 0, 1, 0, 0xF7, 0xFF, mark.byte()];
        bytes.extend([0xE5; 128]);
        bytes.push(0xF7);
        bytes.resize(2048, 0xFF);
        desk.command(0xF0);
        desk.serve_writes(&bytes);
        desk.command(0x80);
        assert_eq!(desk.serve_reads().bytes, vec![0xE5; 128]);
        assert_eq!(desk.status(), bit_5(mark));
    }
}
