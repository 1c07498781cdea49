// Write Sector and Write Track.

use second::crc;
use second::density::Density;
use second::layout;
use second::status::{BUSY, DATA_REQUEST, LOST_DATA};

use crate::desk::{Desk, Fm, Mfm, BOTH, NO_LIMIT};

fn desk_with_id(density: Density, code: u8) -> Desk {
    let mut desk = Desk::new(density);
    desk.put_id_before(100, [0, 0, 1, code]);
    desk
}

/// The cells that Write Sector lays after an ID that ends before cell 100.
pub fn expected_record(density: Density, mark: u8, data: &[u8]) -> (usize, Vec<u16>) {
    let (first, zeros) = match density {
        Fm => (12, 6),
        Mfm => (23, 12),
    };
    let mut cells = vec![0; zeros];
    cells.extend(layout::field_cells(density, mark, data));
    cells.push(0xFF);
    (100 + first - 1, cells)
}

#[test]
fn write_sector_lays_the_record_and_no_other_cell() {
    for density in BOTH {
        for (code, byte, mark) in [
            (0, 0xA0, 0xFB),
            (1, 0xA1, 0xF8),
            (2, 0xA0, 0xFB),
            (3, 0xA1, 0xF8),
        ] {
            let size = 128 << code;
            let data: Vec<u8> = (0..size).map(|i| (i % 253) as u8).collect();
            let mut desk = desk_with_id(density, code);
            let mut expected = desk.track.clone();
            let (place, cells) = expected_record(density, mark, &data);
            layout::put(&mut expected, place, &cells);
            desk.command(byte);
            assert_eq!(desk.serve_writes(&data), size);
            assert_eq!(desk.track, expected);
            assert_eq!(usize::from(desk.machine.position), place + cells.len());
            assert_eq!(desk.status(), 0);
            assert!(!desk.machine.data_request);
        }
    }
}

#[test]
fn write_sector_wraps_round_the_ring() {
    for density in BOTH {
        let mut desk = Desk::new(density);
        desk.put_id_before(2000, [0, 0, 1, 0]);
        let (place, cells) = expected_record(density, 0xFB, &[0xE5; 128]);
        let mut expected = desk.track.clone();
        layout::put(&mut expected, place + 1900, &cells);
        desk.command(0xA0);
        desk.serve_writes(&[0xE5; 128]);
        assert_eq!(desk.track, expected);
    }
}

#[test]
fn a_write_that_nobody_serves_ends_at_10_with_drq_on() {
    for density in BOTH {
        let mut desk = desk_with_id(density, 0);
        let before = desk.track.clone();
        desk.command(0xA0);
        desk.go_to(109);
        assert_eq!(desk.status(), BUSY | DATA_REQUEST);
        desk.byte_time();
        assert_eq!(desk.status(), LOST_DATA | DATA_REQUEST);
        assert!(desk.machine.interrupt_request);
        assert_eq!(desk.track, before);
    }
}

#[test]
fn drq_comes_at_2_even_if_dr_was_loaded_before() {
    let mut desk = desk_with_id(Fm, 0);
    desk.command(0xA0);
    desk.go_to(101);
    assert!(!desk.machine.data_request);
    desk.load(3, 0x11);
    desk.byte_time();
    assert!(desk.machine.data_request);
}

#[test]
fn at_10_drq_counts_as_the_host_left_it() {
    let mut desk = desk_with_id(Fm, 0);
    desk.command(0xA0);
    desk.go_to(109);
    desk.load(3, 0x11);
    desk.byte_time();
    assert_eq!(desk.status(), BUSY);
}

#[test]
fn a_late_byte_is_written_as_00_and_the_command_goes_on() {
    for density in BOTH {
        let mut desk = desk_with_id(density, 0);
        let mut data = vec![0x99; 1];
        data.resize(128, 0);
        let (place, cells) = expected_record(density, 0xFB, &data);
        desk.command(0xA0);
        assert_eq!(desk.serve_writes(&[0x99]), 1);
        assert_eq!(desk.track[place..place + cells.len()], cells[..]);
        assert_eq!(desk.status(), LOST_DATA);
    }
}

#[test]
fn m_writes_the_next_sector_too() {
    let mut desk = desk_with_id(Mfm, 0);
    desk.put_id_before(500, [0, 0, 2, 0]);
    desk.command(0xB0);
    assert_eq!(desk.serve_writes(&[0x42; 256]), 256);
    let (place, cells) = expected_record(Mfm, 0xFB, &[0x42; 128]);
    for start in [place, place + 400] {
        assert_eq!(desk.track[start..start + cells.len()], cells[..]);
    }
    assert_eq!(desk.machine.sector, 3);
}

#[test]
fn a_forced_end_keeps_the_cells_already_written() {
    let mut desk = desk_with_id(Fm, 0);
    desk.command(0xA0);
    desk.run(NO_LIMIT);
    desk.load(3, 0x31);
    desk.run(NO_LIMIT);
    desk.command(0xD0);
    desk.byte_times(300);
    assert_eq!(desk.track[111..120], [0, 0, 0, 0, 0, 0, 0x1FB, 0x31, 0xFF]);
}

/// A track written by Write Track with these bytes first and 00 after them.
fn formatted(density: Density, bytes: &[u8]) -> Desk {
    let mut desk = Desk::new(density);
    desk.go_to(2000);
    desk.command(0xF0);
    let mut all = bytes.to_vec();
    all.resize(4096, 0);
    desk.serve_writes(&all);
    desk
}

#[test]
fn write_track_in_fm_flags_marks_and_presets() {
    let desk = formatted(Fm, &[0x12, 0xFE, 0, 0, 1, 0, 0xF7, 0xF5, 0xF6, 0xFD, 0xFF]);
    let cells = [
        0x12, 0x1FE, 0, 0, 1, 0, 0xD2, 0xC3, 0xF5, 0xF6, 0xFD, 0xFF, 0,
    ];
    assert_eq!(desk.track[..13], cells);
    for mark in 0xF8..=0xFB {
        let desk = formatted(Fm, &[0x12, mark, 0xF7]);
        let register = crc::of_field(&[mark]);
        let cells = [
            0x12,
            0x100 + u16::from(mark),
            register >> 8,
            register & 0xFF,
        ];
        assert_eq!(desk.track[..4], cells);
    }
}

#[test]
fn write_track_in_mfm_flags_a1_and_c2_alone() {
    let bytes = [
        0xF6, 0xFC, 0xF5, 0xF5, 0xF5, 0xFE, 0, 0, 1, 0, 0xF7, 0xF8, 0xFB,
    ];
    let desk = formatted(Mfm, &bytes);
    assert_eq!(desk.track[..6], [0x1C2, 0xFC, 0x1A1, 0x1A1, 0x1A1, 0xFE]);
    let id = layout::id_cells(Mfm, [0, 0, 1, 0]);
    assert_eq!(desk.track[2..12], id[..]);
    assert_eq!(desk.track[12..14], [0xF8, 0xFB]);
}

#[test]
fn write_track_takes_c2_into_the_crc_and_c2_presets_nothing() {
    let desk = formatted(Mfm, &[0x55, 0xF6, 0xF7]);
    let register = crc::of_field(&[0x55, 0xC2]);
    assert_eq!(desk.track[2..4], [register >> 8, register & 0xFF]);
}

#[test]
fn the_register_is_0_after_an_f7() {
    for density in BOTH {
        let desk = formatted(density, &[0x12, 0x34, 0xF7, 0xF7, 0x01, 0xF7]);
        assert_eq!(desk.track[4..7], [0, 0, 1]);
        assert_eq!(desk.track[7..9], [0x10, 0x21]);
    }
}

#[test]
fn a_dr_loaded_between_the_two_cells_of_f7_serves_nothing() {
    let mut desk = Desk::new(Fm);
    desk.command(0xF0);
    desk.load(3, 0xF7);
    desk.byte_time();
    assert!(!desk.machine.data_request);
    desk.load(3, 0x44);
    desk.byte_time();
    assert!(desk.machine.data_request);
    desk.byte_time();
    assert_eq!(desk.track[2], 0);
    assert_eq!(desk.status() & LOST_DATA, LOST_DATA);
}

#[test]
fn a_late_f7_or_mark_is_written_as_00() {
    for byte in [0xF7, 0xFE] {
        let mut desk = Desk::new(Fm);
        desk.command(0xF0);
        desk.load(3, byte);
        desk.byte_times(5);
        assert_eq!(desk.machine.data, byte);
        assert_eq!(desk.track[3..5], [0, 0]);
    }
}

#[test]
fn the_first_byte_time_of_write_track_may_be_the_pulse() {
    for (byte, settle) in [(0xF0, 0), (0xF4, 469)] {
        let mut desk = Desk::new(Fm);
        desk.go_to((2048 - settle) % 2048);
        desk.command(byte);
        desk.load(3, 0x31);
        desk.byte_times(usize::from(settle) + 1);
        assert_eq!(desk.status(), BUSY | DATA_REQUEST);
        assert_eq!(desk.track[..2], [0x31, layout::gap(Fm)]);
    }
}

#[test]
fn write_track_unserved_at_its_first_pulse_ends_with_drq_on() {
    let mut desk = Desk::new(Fm);
    desk.go_to(2047);
    desk.command(0xF0);
    assert!(desk.machine.data_request);
    desk.byte_times(2);
    assert_eq!(desk.status(), LOST_DATA | DATA_REQUEST);
    assert!(desk.machine.interrupt_request);
    assert_eq!(desk.track[0], layout::gap(Fm));
}

#[test]
fn write_track_goes_on_with_00_and_ends_at_the_last_cell_with_drq_off() {
    let mut desk = Desk::new(Mfm);
    desk.command(0xF4);
    desk.load(3, 0x4E);
    let mut byte_times = 0;
    while !desk.machine.interrupt_request {
        desk.byte_time();
        byte_times += 1;
    }
    assert_eq!(byte_times, 2048 + 2048);
    assert_eq!(desk.track[0], 0x4E);
    assert!(desk.track[1..].iter().all(|&cell| cell == 0));
    assert_eq!(desk.status(), LOST_DATA);
}
