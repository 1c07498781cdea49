// The cases and the easy slips of document 01.

use second::chip::Chip;
use second::crc;
use second::density::Density;
use second::field;
use second::machine::Machine;
use second::number;
use second::status::{BUSY, DATA_REQUEST, LOST_DATA, NOT_FOUND};

use crate::desk::{Desk, Fm, Mfm, BOTH};

#[test]
fn a_length_out_of_range_leaves_the_fm_machine_of_2048() {
    let fallback = Machine::power_on(Chip::Wd1793, 2048, Fm).machine;
    for length in [0, 2047, 10_417, 65_535] {
        let answer = Machine::power_on(Chip::Wd1793, length, Mfm);
        assert_eq!(answer.number, number::LENGTH);
        assert_eq!(answer.machine, fallback);
    }
}

#[test]
fn lengths_2048_and_10416_are_taken_and_those_round_the_old_limit_too() {
    for length in [2048, 6400, 6401, 10_416] {
        let answer = Machine::power_on(Chip::Wd1793, length, Mfm);
        assert_eq!(answer.number, number::DONE);
        assert_eq!(answer.machine.length, length);
        assert_eq!(answer.machine.density, Mfm);
        assert_eq!((answer.machine.track, answer.machine.sector), (0, 1));
    }
}

#[test]
fn commands_80_and_c4_are_accepted_9f_and_c3_refused() {
    for byte in [0x80, 0xC4] {
        let mut desk = Desk::new(Fm);
        assert_eq!(desk.try_load(0, byte), number::DONE);
        assert_eq!(desk.status() & BUSY, BUSY);
    }
    for byte in [0x9F, 0xC3] {
        let mut desk = Desk::new(Fm);
        assert_eq!(desk.try_load(0, byte), number::NO_COMMAND);
        assert_eq!(desk.status() & BUSY, 0);
    }
}

#[test]
fn a_search_without_match_ends_at_8193_from_cell_0() {
    for density in BOTH {
        let mut desk = Desk::new(density);
        desk.command(0x80);
        assert_eq!(desk.serve_reads().byte_times, 8193);
        assert_eq!(desk.status(), NOT_FOUND);
    }
}

#[test]
fn a_search_without_match_ends_at_10240_from_cell_1() {
    for density in BOTH {
        let mut desk = Desk::new(density);
        desk.byte_time();
        desk.command(0x80);
        assert_eq!(desk.serve_reads().byte_times, 10_240);
        assert_eq!(desk.status(), NOT_FOUND);
    }
}

/// A track whose data mark byte is this many cells after the ID's last.
fn desk_with_mark_at(density: Density, cell: usize) -> Desk {
    let mut desk = Desk::new(density);
    desk.put_id_before(100, [0, 0, 1, 0]);
    let marks = field::mark_length(density);
    desk.put_data(100 + cell - marks, 0xFB, &[0x5A; 128]);
    desk
}

#[test]
fn a_data_mark_at_cell_30_or_43_is_served() {
    for (density, cell) in [(Fm, 30), (Mfm, 43)] {
        let mut desk = desk_with_mark_at(density, cell);
        desk.command(0x80);
        assert_eq!(desk.serve_reads().bytes, vec![0x5A; 128]);
        assert_eq!(desk.status(), 0);
    }
}

#[test]
fn a_data_mark_at_cell_31_or_44_is_record_not_found() {
    for (density, cell) in [(Fm, 31), (Mfm, 44)] {
        let mut desk = desk_with_mark_at(density, cell);
        desk.command(0x80);
        let served = desk.serve_reads();
        assert_eq!(served.bytes, Vec::new());
        assert_eq!(served.byte_times, 100 + cell - 1);
        assert_eq!(desk.status(), NOT_FOUND);
    }
}

#[test]
fn f7_at_the_last_cell_writes_only_the_high_byte() {
    for density in BOTH {
        let mut desk = Desk::new(density);
        desk.command(0xF0);
        let mut bytes = vec![0; 2048];
        bytes[2047] = 0xF7;
        assert_eq!(desk.serve_writes(&bytes), 2048);
        let register = crc::of_field(&[0; 2047]);
        assert_eq!(desk.track[2047], register >> 8);
        assert_eq!(desk.track[0], 0);
        assert_eq!(desk.status(), 0);
        assert_eq!(desk.machine.position, 0);
    }
}

#[test]
fn the_end_of_a_read_leaves_drq_on() {
    let mut desk = desk_with_mark_at(Fm, 10);
    desk.command(0x80);
    while !desk.machine.interrupt_request {
        desk.byte_time();
    }
    assert!(desk.machine.data_request);
    assert_eq!(desk.machine.data, 0x5A);
    assert_eq!(desk.status(), LOST_DATA | DATA_REQUEST);
}

#[test]
fn after_a_good_match_without_data_mark_no_second_id_is_tried() {
    for density in BOTH {
        let mut desk = desk_with_mark_at(density, 60);
        desk.put_id_before(140, [0, 0, 1, 0]);
        desk.command(0x80);
        assert_eq!(desk.serve_reads().byte_times, 100 + density.window());
        assert_eq!(desk.status(), NOT_FOUND);
    }
}

#[test]
fn fc_does_not_preset_the_crc() {
    let mut desk = Desk::new(Fm);
    desk.command(0xF0);
    let mut bytes = vec![0; 2047];
    bytes[10..12].copy_from_slice(&[0xFC, 0xF7]);
    desk.serve_writes(&bytes);
    let mut before = vec![0; 10];
    before.push(0xFC);
    let register = crc::of_field(&before);
    assert_eq!(desk.track[10..13], [0x1FC, register >> 8, register & 0xFF]);
}
