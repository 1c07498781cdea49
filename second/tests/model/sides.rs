// What a 1797 asks of an ID's side, and what its length codes mean.

use second::chip::Chip;
use second::density::Density;
use second::field::{Id, LengthCodes};
use second::layout;
use second::status::NOT_FOUND;

use crate::desk::{Desk, Fm, BOTH, NO_LIMIT};
use crate::writing::expected_record;

/// L and U of a sector command.
const L: u8 = 0x08;
const U: u8 = 0x02;
/// The data sheet's table of the sector length field, by L and then by code.
const SECTOR_LENGTHS: [[usize; 4]; 2] = [[256, 512, 1024, 128], [128, 256, 512, 1024]];
/// Sides that a command can ask for, and others with the low bit of one.
const SIDES: [u8; 8] = [0, 1, 2, 3, 0x80, 0x81, 0xFE, 0xFF];

/// A track with one ID, which ends just before cell 100.
fn desk_with_id(chip: Chip, density: Density, side: u8, code: u8) -> Desk {
    let mut desk = Desk::with_chip(chip, density);
    desk.put_id_before(100, [0, side, 1, code]);
    desk
}

/// Whether the command finds a sector of this side.
fn finds(chip: Chip, density: Density, byte: u8, side: u8) -> bool {
    let mut desk = desk_with_id(chip, density, side, 0);
    desk.put_data(110, 0xFB, &[7; 1024]);
    desk.command(byte);
    desk.run(NO_LIMIT);
    let not_found = desk.machine.interrupt_request && desk.status() == NOT_FOUND;
    assert_eq!(not_found, !desk.machine.data_request);
    !not_found
}

#[test]
fn on_the_1797_the_whole_side_must_equal_u() {
    for density in BOTH {
        for byte in (0x80..=0xBF).filter(|byte| byte >= &0xA0 || byte % 2 == 0) {
            for side in SIDES {
                let asked = byte >> 1 & 1;
                let found = finds(Chip::Wd1797, density, byte, side);
                assert_eq!(found, side == asked, "{:02X}, side {}", byte, side);
            }
        }
    }
}

#[test]
fn on_the_1793_it_must_equal_s_where_c_is_set() {
    for byte in (0x80..=0xBF).filter(|byte| byte >= &0xA0 || byte % 2 == 0) {
        for side in SIDES {
            let (s, c) = (byte >> 3 & 1, byte >> 1 & 1);
            let found = finds(Chip::Wd1793, Fm, byte, side);
            assert_eq!(found, c == 0 || side == s, "{:02X}, side {}", byte, side);
        }
    }
}

#[test]
fn an_id_of_the_other_side_is_passed_over_for_one_of_the_right_side() {
    for (byte, data) in [(0x88, 0x10), (0x8A, 0x11)] {
        let mut desk = Desk::with_chip(Chip::Wd1797, Fm);
        for side in [1, 0] {
            let place = 600 - 400 * usize::from(side);
            desk.put_id_before(place, [0, side, 1, 0]);
            desk.put_data(place + 10, 0xFB, &[0x10 + side; 128]);
        }
        desk.command(byte);
        assert_eq!(desk.serve_reads().bytes, vec![data; 128]);
    }
}

#[test]
fn an_id_of_the_other_side_leaves_bit_3_alone() {
    for (byte, status) in [(0x88, NOT_FOUND), (0x8A, NOT_FOUND | 0x08)] {
        let mut desk = Desk::with_chip(Chip::Wd1797, Fm);
        let mut bad = layout::id_cells(Fm, [0, 1, 1, 0]);
        bad[6] ^= 1;
        desk.put(100, &bad);
        desk.command(byte);
        desk.run(NO_LIMIT);
        assert_eq!(desk.status(), status);
    }
}

#[test]
fn a_length_code_means_what_the_data_sheet_says() {
    for (codes, sizes) in [LengthCodes::NonIbm, LengthCodes::Ibm]
        .into_iter()
        .zip(SECTOR_LENGTHS)
    {
        for (code, size) in (0..4).zip(sizes) {
            for length in [code, code + 4, code + 0xFC] {
                let id = Id {
                    track: 0,
                    side: 0,
                    sector: 1,
                    length,
                    crc_good: true,
                };
                assert_eq!(id.size(codes), size);
            }
        }
    }
}

/// Bytes that are not all alike.
fn data_of(size: usize) -> Vec<u8> {
    (0..size).map(|place| (place * 7 % 251) as u8).collect()
}

/// The eight entries of the table, with the L, the code and the length of each.
fn entries() -> Vec<(u8, u8, usize)> {
    let lines = [0, L].into_iter().zip(SECTOR_LENGTHS);
    lines
        .flat_map(|(flag, sizes)| {
            (0..4)
                .zip(sizes)
                .map(move |(code, size)| (flag, code, size))
        })
        .collect()
}

#[test]
fn read_sector_follows_l() {
    for density in BOTH {
        for (flag, code, size) in entries() {
            let data = data_of(size);
            let mut desk = desk_with_id(Chip::Wd1797, density, 1, code);
            desk.put_data(110, 0xFB, &data);
            desk.command(0x80 | U | flag);
            assert_eq!(desk.serve_reads().bytes, data);
            assert_eq!(desk.status(), 0);
        }
    }
}

#[test]
fn write_sector_follows_l() {
    for density in BOTH {
        for (flag, code, size) in entries() {
            let data = data_of(size);
            let mut desk = desk_with_id(Chip::Wd1797, density, 0, code);
            let mut expected = desk.track.clone();
            let (place, cells) = expected_record(density, 0xF8, &data);
            layout::put(&mut expected, place, &cells);
            desk.command(0xA1 | flag);
            assert_eq!(desk.serve_writes(&data), size);
            assert_eq!(desk.track, expected);
        }
    }
}

#[test]
fn the_1793_has_no_l() {
    for byte in [0x80, 0x88] {
        let mut desk = desk_with_id(Chip::Wd1793, Fm, 0, 1);
        desk.put_data(110, 0xFB, &data_of(256));
        desk.command(byte);
        assert_eq!(desk.serve_reads().bytes, data_of(256));
    }
}

#[test]
fn side_and_l_hold_for_every_record_of_m() {
    let mut desk = Desk::with_chip(Chip::Wd1797, Fm);
    for (sector, side) in [(1, 1), (2, 1), (3, 0)] {
        let place = 400 * usize::from(sector);
        desk.put_id_before(place, [0, side, sector, 0]);
        desk.put_data(place + 10, 0xFB, &[sector; 256]);
    }
    desk.command(0x90 | U);
    let served = desk.serve_reads();
    assert_eq!(served.bytes, [[1; 256], [2; 256]].concat());
    assert_eq!(desk.status(), NOT_FOUND);
    assert_eq!(desk.machine.sector, 3);
    assert_eq!(desk.machine.side_output, 1);
}

#[test]
fn a_verify_compares_no_side() {
    for density in BOTH {
        for side in SIDES {
            for output in [0xC0, 0xC2] {
                let mut desk = desk_with_id(Chip::Wd1797, density, side, 0);
                desk.command(output);
                desk.command(0xD0);
                desk.command(0x14);
                desk.run(NO_LIMIT);
                assert_eq!(desk.machine.position, 100, "side {}", side);
                assert_eq!(desk.status() & NOT_FOUND, 0);
            }
        }
    }
}

#[test]
fn read_address_compares_no_side() {
    for density in BOTH {
        for side in SIDES {
            for byte in [0xC0, 0xC2] {
                let mut desk = desk_with_id(Chip::Wd1797, density, side, 0);
                desk.command(byte);
                let served = desk.serve_reads();
                assert_eq!(served.bytes[..4], [0, side, 1, 0]);
                assert_eq!(desk.machine.position, 100);
                assert_eq!(desk.status(), 0);
            }
        }
    }
}
