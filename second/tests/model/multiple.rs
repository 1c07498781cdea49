// Read Sector with m: a record with a bad data CRC ends it.

use second::chip::Chip;
use second::command::Command;
use second::density::Density;
use second::field;
use second::status::{BUSY, CRC_ERROR, DATA_REQUEST, DELETED, LOST_DATA, NOT_FOUND};

use crate::desk::{Desk, Fm, BOTH};
use crate::reading::{last_crc_cell, put_sector};

/// Every Read Sector with m, on either chip.
fn multiple_reads() -> Vec<(Chip, u8)> {
    let bytes = (0x90..=0x9E).step_by(2);
    bytes
        .flat_map(|byte| Chip::BOTH.map(|chip| (chip, byte)))
        .collect()
}

/// Sectors for this command with numbers from SR on and the given marks.
fn desk_for(chip: Chip, byte: u8, density: Density, sector: u8, marks: &[u8]) -> Desk {
    let command = Command::decode(byte, chip).expect("a command");
    let sizes = command.length_codes.sizes();
    let code = sizes.iter().position(|&size| size == 128);
    let length = code.expect("a code for 128 bytes") as u8;
    let mut desk = Desk::with_chip(chip, density);
    for (index, &mark) in marks.iter().enumerate() {
        let number = sector.wrapping_add(index as u8);
        let side = command.side_asked.unwrap_or(0);
        put_sector(&mut desk, index, [0, side, number, length], mark);
    }
    desk.load(2, sector);
    desk
}

/// Sectors for command 90 of a 1793, of which the one with this index has a bad data CRC.
fn desk_with_broken(density: Density, sector: u8, marks: &[u8], broken: usize) -> Desk {
    let mut desk = desk_for(Chip::Wd1793, 0x90, density, sector, marks);
    desk.track[last_crc_cell(density, broken)] ^= 1;
    desk
}

/// Status, SR, DR, DRQ and INTRQ.
fn seen(desk: &Desk) -> (u8, u8, u8, bool, bool) {
    let machine = &desk.machine;
    let (drq, intrq) = (machine.data_request, machine.interrupt_request);
    (desk.status(), machine.sector, machine.data, drq, intrq)
}

#[test]
fn after_good_records_a_broken_one_ends_it() {
    for (chip, byte) in multiple_reads() {
        for density in BOTH {
            let mut desk = desk_for(chip, byte, density, 1, &[0xFB; 4]);
            let end = last_crc_cell(density, 2);
            desk.track[end] ^= 0x80;
            desk.command(byte);
            assert_eq!(desk.serve_reads().bytes.len(), 3 * 128);
            assert_eq!(seen(&desk), (CRC_ERROR, 3, 3, false, true));
            assert_eq!(usize::from(desk.machine.position), end + 1);
        }
    }
}

#[test]
fn good_records_do_not_end_it() {
    for (chip, byte) in multiple_reads() {
        for density in BOTH {
            let mut desk = desk_for(chip, byte, density, 1, &[0xFB; 4]);
            desk.command(byte);
            assert_eq!(desk.serve_reads().bytes.len(), 4 * 128);
            assert_eq!(seen(&desk), (NOT_FOUND, 5, 4, false, true));
        }
    }
}

#[test]
fn it_ends_with_the_second_crc_cell_and_with_nothing_after_it() {
    for density in BOTH {
        let mut desk = desk_with_broken(density, 1, &[0xFB, 0xFB], 0);
        let end = last_crc_cell(density, 0) as u16;
        desk.command(0x90);
        desk.go_to(end);
        let lost = LOST_DATA | DATA_REQUEST;
        assert_eq!(seen(&desk), (BUSY | lost, 1, 1, true, false));
        desk.byte_time();
        let ended = (CRC_ERROR | lost, 1, 1, true, true);
        assert_eq!(seen(&desk), ended);
        desk.byte_times(2048);
        assert_eq!(seen(&desk), ended, "no further search");
    }
}

#[test]
fn any_wrong_bit_of_data_or_crc_ends_it() {
    for density in BOTH {
        let end = last_crc_cell(density, 0);
        for place in end - 129..=end {
            for bit in 0..8 {
                let mut desk = desk_for(Chip::Wd1793, 0x90, density, 1, &[0xFB, 0xFB]);
                desk.track[place] ^= 1 << bit;
                desk.command(0x90);
                desk.serve_reads();
                assert_eq!(desk.status(), CRC_ERROR);
                assert_eq!((desk.machine.sector, desk.machine.data_request), (1, false));
            }
        }
    }
}

#[test]
fn a_flag_breaks_no_record() {
    let mut desk = desk_for(Chip::Wd1793, 0x90, Fm, 1, &[0xFB, 0xFB]);
    desk.track[last_crc_cell(Fm, 0)] += field::FLAG;
    desk.command(0x90);
    assert_eq!(desk.serve_reads().bytes.len(), 2 * 128);
    assert_eq!(desk.machine.sector, 3);
}

#[test]
fn bit_5_goes_by_the_mark_of_the_broken_record() {
    for (marks, expected) in [
        (&[0xFB][..], CRC_ERROR),
        (&[0xF8], CRC_ERROR | DELETED),
        (&[0xF8, 0xFB], CRC_ERROR),
        (&[0xFB, 0xF8], CRC_ERROR | DELETED),
        (&[0xF8, 0xF8], CRC_ERROR | DELETED),
    ] {
        for density in BOTH {
            let mut desk = desk_with_broken(density, 1, marks, marks.len() - 1);
            desk.command(0x90);
            desk.serve_reads();
            assert_eq!(desk.status(), expected);
            assert_eq!(usize::from(desk.machine.sector), marks.len());
        }
    }
}

#[test]
fn sr_stays_at_255_and_at_0() {
    for (first, broken, expected) in [(255, 0, 255), (254, 1, 255), (255, 1, 0)] {
        let mut desk = desk_with_broken(Fm, first, &[0xFB, 0xFB], broken);
        desk.command(0x90);
        assert_eq!(desk.serve_reads().bytes.len(), 128 * (broken + 1));
        assert_eq!(desk.status(), CRC_ERROR);
        assert_eq!(desk.machine.sector, expected);
    }
}

#[test]
fn of_a_broken_record_m_reads_what_a_single_read_reads() {
    for density in BOTH {
        let mut desks = [0x80, 0x90].map(|byte| {
            let mut desk = desk_with_broken(density, 1, &[0xF8, 0xFB], 0);
            desk.command(byte);
            desk
        });
        let [single, multiple] = &mut desks;
        for _ in 0..4096 {
            single.byte_time();
            multiple.byte_time();
            assert_eq!(seen(single), seen(multiple));
        }
        assert!(!single.machine.is_busy());
    }
}

#[test]
fn the_next_command_clears_what_it_left() {
    let mut desk = desk_with_broken(Fm, 1, &[0xF8, 0xFB], 0);
    desk.command(0x90);
    desk.serve_reads();
    assert_eq!(desk.status(), CRC_ERROR | DELETED);
    desk.load(2, 2);
    desk.command(0x90);
    assert_eq!(seen(&desk), (BUSY, 2, 1, false, false));
    assert_eq!(desk.serve_reads().bytes, vec![2; 128]);
    assert_eq!(seen(&desk), (NOT_FOUND, 3, 2, false, true));
}

#[test]
fn a_bad_crc_of_an_id_does_not_end_it() {
    let mut desk = desk_for(Chip::Wd1793, 0x90, Fm, 1, &[0xFB, 0xFB]);
    desk.track[399] ^= 1;
    desk.command(0x90);
    desk.go_to(399);
    assert_eq!(desk.status() & (CRC_ERROR | BUSY), BUSY);
    desk.byte_time();
    assert_eq!(desk.status() & (CRC_ERROR | BUSY), CRC_ERROR | BUSY);
    desk.read(3);
    desk.serve_reads();
    assert_eq!(desk.status() & !LOST_DATA, NOT_FOUND | CRC_ERROR);
    assert_eq!(desk.machine.sector, 2);
}

#[test]
fn a_multiple_write_does_not_look_at_the_records_that_it_writes_over() {
    for density in BOTH {
        let mut desk = desk_with_broken(density, 1, &[0xFB, 0xFB], 0);
        desk.command(0xB0);
        assert_eq!(desk.serve_writes(&[0x42; 256]), 256);
        assert_eq!(desk.status(), NOT_FOUND);
        assert_eq!(desk.machine.sector, 3);
    }
}
