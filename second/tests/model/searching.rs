// Settling, HLT, and the search of Types II and III.

use second::density::Density;
use second::field;
use second::layout;
use second::status::{CRC_ERROR, NOT_FOUND};

use crate::desk::{Desk, Fm, Mfm, BOTH, NO_LIMIT};

/// A track with one sector, its ID ending just before cell 700, its data mark after it.
fn desk_with_sector(density: Density, side: u8) -> Desk {
    let mut desk = Desk::new(density);
    desk.put_id_before(700, [0, side, 1, 0]);
    desk.put_data(710, 0xFB, &[0xC3; 128]);
    desk
}

#[test]
fn hlt_is_not_looked_at_while_settling() {
    for density in BOTH {
        let settle = usize::from(density.settle_time());
        let mut desk = Desk::new(density);
        let id = layout::id_cells(density, [0, 0, 1, 0]);
        desk.put(settle, &id);
        desk.put_data(settle + id.len(), 0xFB, &[7; 128]);
        desk.command(0x84);
        desk.lines.head_loaded = false;
        desk.byte_times(settle);
        desk.lines.head_loaded = true;
        assert_eq!(
            usize::from(desk.run(NO_LIMIT).passed),
            id.len() + field::mark_length(density) + 1
        );
        assert_eq!(desk.machine.data, 7);
    }
}

#[test]
fn the_first_byte_time_with_hlt_is_the_first_of_the_search() {
    for (late, found) in [(0, true), (1, false)] {
        let mut desk = desk_with_sector(Fm, 0);
        desk.lines.head_loaded = false;
        desk.command(0x80);
        desk.byte_times(693 + late);
        desk.lines.head_loaded = true;
        desk.byte_time();
        desk.lines.head_loaded = false;
        desk.byte_times(100);
        assert_eq!(desk.machine.data_request, found);
    }
}

#[test]
fn hlt_is_not_looked_at_for_later_records() {
    let mut desk = desk_with_sector(Fm, 0);
    desk.put_id_before(1000, [0, 0, 2, 0]);
    desk.put_data(1010, 0xFB, &[0x3C; 128]);
    desk.command(0x90);
    desk.byte_time();
    desk.lines.head_loaded = false;
    let served = desk.serve_reads();
    assert_eq!(served.bytes.len(), 256);
    assert_eq!(desk.machine.sector, 3);
}

/// A search begun at cell 1, left 1,000 byte times after its pulse of this number.
fn search_after_pulse(density: Density, byte: u8, pulses: usize) -> Desk {
    let mut desk = Desk::new(density);
    desk.go_to(1);
    desk.command(byte);
    desk.byte_times(2048 * pulses + 1000);
    desk
}

#[test]
fn the_fifth_pulse_ends_the_search_before_its_cell_is_looked_at() {
    for density in BOTH {
        let mut desk = search_after_pulse(density, 0x80, 4);
        desk.put_id_before(1, [0, 0, 1, 0]);
        desk.put_data(10, 0xFB, &[1; 128]);
        assert_eq!(desk.serve_reads().bytes.len(), 0);
        assert_eq!(desk.status(), NOT_FOUND);
        assert_eq!(desk.machine.position, 1);
    }
}

#[test]
fn an_id_that_ends_with_the_fourth_pulse_is_found() {
    for density in BOTH {
        let mut desk = search_after_pulse(density, 0x80, 3);
        desk.put_id_before(1, [0, 0, 1, 0]);
        desk.put_data(10, 0xFB, &[1; 128]);
        assert_eq!(desk.serve_reads().bytes, vec![1; 128]);
    }
}

#[test]
fn pulses_after_the_id_no_longer_count() {
    for density in BOTH {
        let mut desk = search_after_pulse(density, 0x80, 4);
        desk.put_id_before(0, [0, 0, 1, 0]);
        desk.put_data(10, 0xFB, &[1; 128]);
        assert_eq!(desk.serve_reads().bytes, vec![1; 128]);
    }
}

#[test]
fn four_flagged_a1_cells_begin_an_id_too() {
    let mut desk = desk_with_sector(Mfm, 0);
    desk.track[700 - 11] = 0x1A1;
    desk.command(0x80);
    assert_eq!(desk.serve_reads().bytes.len(), 128);
}

#[test]
fn two_flagged_a1_cells_do_not() {
    let mut desk = desk_with_sector(Mfm, 0);
    desk.track[700 - 10] = 0xA1;
    desk.command(0x80);
    assert_eq!(desk.serve_reads().bytes.len(), 0);
    assert_eq!(desk.status(), NOT_FOUND);
}

#[test]
fn a_flagged_cell_among_the_six_makes_it_no_id() {
    for density in BOTH {
        for place in 694..700 {
            let mut desk = desk_with_sector(density, 0);
            desk.track[place] += 256;
            desk.command(0x80);
            assert_eq!(desk.serve_reads().bytes.len(), 0);
            assert_eq!(desk.status(), NOT_FOUND);
        }
    }
}

#[test]
fn the_flagged_cell_may_itself_begin_a_mark() {
    for density in BOTH {
        let mut desk = desk_with_sector(density, 0);
        let mark = field::mark_cells(density, 0xFE);
        let before = 700 - 6 - 2 * mark.len() - 2;
        desk.put(before, &mark);
        desk.command(0x80);
        assert_eq!(desk.serve_reads().bytes.len(), 128);
        assert_eq!(desk.status(), 0);
    }
}

#[test]
fn the_side_compare_is_of_the_whole_byte() {
    let cases = [
        (0x82, 0, 128),
        (0x82, 2, 0),
        (0x8A, 1, 128),
        (0x8A, 3, 0),
        (0x80, 3, 128),
    ];
    for (byte, side, taken) in cases {
        let mut desk = desk_with_sector(Fm, side);
        desk.command(byte);
        assert_eq!(desk.serve_reads().bytes.len(), taken);
    }
}

#[test]
fn a_matching_id_with_a_bad_crc_sets_bit_3_and_the_search_goes_on() {
    for density in BOTH {
        let mut desk = desk_with_sector(density, 0);
        let mut bad = layout::id_cells(density, [0, 0, 1, 0]);
        let last = bad.len() - 1;
        bad[last] ^= 1;
        desk.put(300, &bad);
        desk.command(0x80);
        desk.go_to(400);
        assert_eq!(desk.status() & CRC_ERROR, CRC_ERROR);
        assert_eq!(desk.serve_reads().bytes.len(), 128);
        assert_eq!(desk.status(), 0);
    }
}

#[test]
fn a_bad_crc_of_another_sector_leaves_bit_3() {
    let mut desk = desk_with_sector(Fm, 0);
    let mut bad = layout::id_cells(Fm, [0, 0, 2, 0]);
    bad[6] ^= 1;
    desk.put(300, &bad);
    desk.command(0x80);
    desk.go_to(400);
    assert_eq!(desk.status() & CRC_ERROR, 0);
}

#[test]
fn the_track_of_an_id_must_be_tr() {
    let mut desk = desk_with_sector(Fm, 0);
    desk.load(1, 1);
    desk.command(0x80);
    assert_eq!(desk.serve_reads().byte_times, 8193);
}

#[test]
fn an_id_over_the_ring_end_is_found() {
    for density in BOTH {
        let mut desk = Desk::new(density);
        desk.put_id_before(2, [0, 0, 1, 1]);
        desk.put_data(12, 0xFB, &[9; 256]);
        desk.go_to(1000);
        desk.command(0x80);
        assert_eq!(desk.serve_reads().bytes, vec![9; 256]);
    }
}

#[test]
fn read_address_takes_six_cells_whatever_their_flags() {
    for density in BOTH {
        let mut desk = Desk::new(density);
        desk.put_id_before(700, [5, 6, 7, 1]);
        for place in 694..700 {
            desk.track[place] += 256;
        }
        desk.command(0xC0);
        let served = desk.serve_reads();
        assert_eq!(served.bytes[..4], [5, 6, 7, 1]);
        assert_eq!((served.bytes.len(), served.byte_times), (6, 700));
        assert_eq!(desk.machine.sector, 5);
        assert_eq!(desk.status(), 0);
    }
}

#[test]
fn pulses_among_the_six_no_longer_count() {
    for density in BOTH {
        let mut desk = search_after_pulse(density, 0xC0, 4);
        desk.put_id_before(3, [5, 6, 7, 1]);
        assert_eq!(desk.serve_reads().bytes.len(), 6);
        assert_eq!(desk.status(), 0);
    }
}

#[test]
fn read_address_ends_at_the_fifth_pulse_even_at_the_mark_byte() {
    for density in BOTH {
        let mut desk = search_after_pulse(density, 0xC0, 4);
        desk.put_id_before(7, [5, 6, 7, 1]);
        assert_eq!(desk.serve_reads().bytes.len(), 0);
        assert_eq!(desk.status(), NOT_FOUND);
        assert_eq!(desk.machine.position, 1);
    }
}

#[test]
fn read_address_sets_bit_3_if_bad() {
    let mut desk = Desk::new(Fm);
    desk.put_id_before(700, [5, 6, 7, 1]);
    desk.track[695] ^= 1;
    desk.command(0xC0);
    assert_eq!(desk.serve_reads().bytes.len(), 6);
    assert_eq!(desk.status(), CRC_ERROR);
}
