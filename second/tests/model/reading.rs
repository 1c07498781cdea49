// Read Sector.

use second::density::Density;
use second::field;
use second::status::{BUSY, CRC_ERROR, DATA_REQUEST, DELETED, LOST_DATA, NOT_FOUND};

use crate::desk::{Desk, Fm, BOTH, NO_LIMIT};

/// Sectors 1, 2, .. with the given marks, 128 bytes each, from cell 100 on, 300 cells apart.
fn desk_with_sectors(density: Density, marks: &[u8]) -> Desk {
    let mut desk = Desk::new(density);
    for (index, &mark) in marks.iter().enumerate() {
        put_sector(&mut desk, index, [0, 0, index as u8 + 1, 0], mark);
    }
    desk
}

/// Lays the sector with this index: its ID, and 128 times its number.
pub fn put_sector(desk: &mut Desk, index: usize, id: [u8; 4], mark: u8) {
    let place = 100 + 300 * index;
    desk.put_id_before(place, id);
    desk.put_data(place + 10, mark, &[id[2]; 128]);
}

/// The place of the second CRC cell of the sector with this index.
pub fn last_crc_cell(density: Density, index: usize) -> usize {
    100 + 300 * index + 10 + field::mark_length(density) + 128 + 1
}

#[test]
fn read_sector_hands_over_each_length() {
    for density in BOTH {
        for code in 0..4u8 {
            let size = 128 << code;
            let data: Vec<u8> = (0..size).map(|i| (i * 7 % 251) as u8).collect();
            let mut desk = Desk::new(density);
            desk.put_id_before(100, [0, 0, 1, 0xFC + code]);
            desk.put_data(110, 0xFB, &data);
            desk.command(0x80);
            let served = desk.serve_reads();
            assert_eq!(served.bytes, data);
            let marks = field::mark_length(density);
            assert_eq!(served.byte_times, 110 + marks + size + 2);
            assert_eq!(desk.status(), 0);
        }
    }
}

#[test]
fn a_byte_that_nobody_reads_is_lost_to_the_next_one() {
    for density in BOTH {
        let mut desk = Desk::new(density);
        let data: Vec<u8> = (0..128).collect();
        desk.put_id_before(100, [0, 0, 1, 0]);
        desk.put_data(110, 0xFB, &data);
        desk.command(0x80);
        desk.run(NO_LIMIT);
        desk.byte_times(5);
        assert_eq!(desk.status(), BUSY | DATA_REQUEST | LOST_DATA);
        assert_eq!(desk.read(3), 5);
        assert_eq!(desk.status(), BUSY | LOST_DATA);
    }
}

#[test]
fn flags_are_ignored_on_data_and_crc_cells() {
    for density in BOTH {
        let mut desk = desk_with_sectors(density, &[0xFB]);
        let end = last_crc_cell(density, 0);
        for place in end - 129..=end {
            desk.track[place] += 256;
        }
        desk.command(0x80);
        assert_eq!(desk.serve_reads().bytes, vec![1; 128]);
        assert_eq!(desk.status(), 0);
    }
}

#[test]
fn only_the_first_data_mark_counts() {
    for density in BOTH {
        let mut desk = desk_with_sectors(density, &[0xFB]);
        desk.put(105, &field::mark_cells(density, 0xF8));
        desk.command(0x80);
        desk.serve_reads();
        assert_eq!(desk.status(), CRC_ERROR | DELETED);
    }
}

#[test]
fn other_marks_in_the_window_are_passed_over() {
    for density in BOTH {
        for mark in [0xFE, 0xFC, 0xFD] {
            let mut desk = desk_with_sectors(density, &[0xFB]);
            desk.put(101, &field::mark_cells(density, mark));
            desk.command(0x80);
            assert_eq!(desk.serve_reads().bytes, vec![1; 128]);
        }
    }
}

#[test]
fn the_earliest_data_mark_follows_the_id_at_once() {
    for density in BOTH {
        let mut desk = Desk::new(density);
        desk.put_id_before(100, [0, 0, 1, 0]);
        desk.put_data(100, 0xFB, &[1; 128]);
        desk.command(0x80);
        assert_eq!(desk.serve_reads().bytes, vec![1; 128]);
    }
}

#[test]
fn bit_5_tells_a_deleted_record() {
    for density in BOTH {
        let mut desk = desk_with_sectors(density, &[0xF8]);
        desk.command(0x80);
        assert_eq!(desk.serve_reads().bytes, vec![1; 128]);
        assert_eq!(desk.status(), DELETED);
    }
}

#[test]
fn bit_5_is_kept_where_the_next_record_is_not_found() {
    for (marks, expected) in [
        ([0xFB, 0xF8], NOT_FOUND | DELETED),
        ([0xF8, 0xFB], NOT_FOUND),
    ] {
        let mut desk = desk_with_sectors(Fm, &marks);
        desk.command(0x90);
        assert_eq!(desk.serve_reads().bytes.len(), 256);
        assert_eq!(desk.status(), expected);
        assert_eq!(desk.machine.sector, 3);
    }
}

#[test]
fn drq_left_on_makes_lost_data_at_the_next_record() {
    let mut desk = desk_with_sectors(Fm, &[0xFB, 0xFB]);
    desk.command(0x90);
    for _ in 0..127 {
        desk.run(NO_LIMIT);
        desk.read(3);
    }
    desk.run(NO_LIMIT);
    desk.go_to(411);
    assert_eq!(desk.status(), DATA_REQUEST | BUSY);
    desk.byte_time();
    assert_eq!(desk.status(), DATA_REQUEST | BUSY | LOST_DATA);
}

#[test]
fn record_not_found_leaves_drq() {
    let mut desk = desk_with_sectors(Fm, &[0xFB]);
    desk.command(0x90);
    while !desk.machine.interrupt_request {
        desk.byte_time();
    }
    assert_eq!(desk.status(), NOT_FOUND | LOST_DATA | DATA_REQUEST);
}

#[test]
fn a_window_without_data_mark_leaves_drq_too() {
    let mut desk = desk_with_sectors(Fm, &[0xFB, 0xFC]);
    desk.command(0x90);
    while !desk.machine.interrupt_request {
        desk.byte_time();
    }
    assert_eq!(desk.machine.position, 400 + 30);
    assert_eq!(desk.status(), NOT_FOUND | LOST_DATA | DATA_REQUEST);
}

#[test]
fn m_raises_the_sector_register_from_255_to_0() {
    let mut desk = Desk::new(Fm);
    desk.put_id_before(100, [0, 0, 255, 0]);
    desk.put_data(110, 0xFB, &[1; 128]);
    desk.load(2, 255);
    desk.command(0x90);
    desk.serve_reads();
    assert_eq!(desk.machine.sector, 0);
    assert_eq!(desk.status(), NOT_FOUND);
}

#[test]
fn a_fresh_search_counts_its_pulses_anew() {
    let mut desk = desk_with_sectors(Fm, &[0xFB]);
    desk.command(0x90);
    let end = last_crc_cell(Fm, 0);
    assert_eq!(
        desk.serve_reads().byte_times,
        end + 1 + (2048 - end - 1) + 4 * 2048 + 1
    );
}
