// Eight-inch disks: rings of up to 10,416 cells, on which every count stays as it is.

use second::activity::Activity;
use second::density::Density;
use second::field;
use second::layout;
use second::machine::RunAnswer;
use second::number;
use second::status::{BUSY, HEAD_LOADED, INDEX, NOT_FOUND, SEEK_ERROR};

use crate::desk::{Desk, Fm, Mfm, BOTH, NO_LIMIT};

const LONGEST: u16 = 10_416;
/// "L + 1,078", from a search's first byte time up to a record's second CRC cell.
const BEYOND_ROUND: usize = 1078;
/// Rings of the new range and of the old one.
const LENGTHS: [u16; 8] = [2048, 5208, 6400, 6401, 8192, 8193, 10_415, LONGEST];

/// The longest ring, the head before this cell.
fn desk_at(density: Density, position: u16) -> Desk {
    let mut desk = Desk::with_length(density, LONGEST);
    desk.machine.position = position;
    desk
}

/// "Step and settle counts in byte times stay as they are."
#[test]
fn step_times_are_the_same_on_every_ring() {
    let times = [(Fm, [94, 188, 313, 469]), (Mfm, [188, 375, 625, 938])];
    for (density, step_times) in times {
        for (rate, step_time) in (0..4).zip(step_times) {
            for length in LENGTHS {
                let mut desk = Desk::with_length(density, length);
                desk.load(3, 7);
                desk.command(0x10 + rate);
                let answer = desk.run(NO_LIMIT);
                assert_eq!((answer.passed, answer.pulses_in), (1 + 7 * step_time, 7));
                assert_eq!(desk.machine.position, (1 + 7 * step_time) % length);
            }
        }
    }
}

/// With E, and after the stepping of a verify.
#[test]
fn settling_is_the_same_on_every_ring() {
    for (density, settle) in [(Fm, 469), (Mfm, 938)] {
        for length in LENGTHS {
            for (byte, before) in [(0x84, settle), (0xC4, settle), (0x14, 1 + settle)] {
                let mut desk = Desk::with_length(density, length);
                let id = layout::id_cells(density, [0, 0, 1, 0]);
                desk.put(before, &id);
                desk.put_data(before + id.len(), 0xFB, &[7; 128]);
                desk.command(byte);
                desk.byte_times(before);
                let searched = matches!(desk.machine.activity, Activity::Searching(_));
                assert!(desk.machine.is_busy() && !searched);
                desk.byte_times(id.len());
                let found = !matches!(desk.machine.activity, Activity::Searching(_));
                assert!(found, "{:02X} on a ring of {}", byte, length);
            }
        }
    }
}

/// 4 L + 1 from cell 0 and 5 L from cell 1: document 01's 8,193 and 10,240 for L 2,048.
#[test]
fn a_search_without_match_ends_at_the_fifth_pulse_of_every_ring() {
    for density in BOTH {
        for length in LENGTHS {
            let rounds = usize::from(length);
            for (position, byte_times) in [(0, 4 * rounds + 1), (1, 5 * rounds)] {
                let mut desk = Desk::with_length(density, length);
                desk.machine.position = position;
                desk.command(0x80);
                assert_eq!(desk.serve_reads().byte_times, byte_times);
                assert_eq!(desk.status(), NOT_FOUND);
                assert_eq!(desk.machine.position, 1);
            }
        }
    }
}

#[test]
fn a_search_without_match_on_10416_cells_ends_at_41665_or_52080() {
    for (position, byte_times) in [(0, 41_665), (1, 52_080), (10_415, 41_666)] {
        let mut desk = desk_at(Mfm, position);
        desk.command(0xA0);
        let answer = desk.run(NO_LIMIT);
        assert_eq!((answer.number, answer.passed), (number::DONE, byte_times));
        assert_eq!(desk.status(), NOT_FOUND);
    }
}

#[test]
fn a_verify_without_its_track_on_10416_cells_ends_at_the_fifth_pulse() {
    let mut desk = desk_at(Fm, 0);
    desk.command(0x14);
    assert_eq!(desk.run(NO_LIMIT).passed, 5 * LONGEST + 1);
    assert_eq!(desk.status(), SEEK_ERROR | HEAD_LOADED | INDEX);
}

/// How long a read of 1,024 bytes takes whose search begins one cell too late for the ID, the mark at
/// its window's end; the ID begins at this cell.
fn longest_read(density: Density, place: usize) -> usize {
    let mut desk = Desk::with_length(density, LONGEST);
    let id = layout::id_cells(density, [0, 0, 1, 3]);
    let mark = place + id.len() + density.window() - field::mark_length(density);
    desk.put(place, &id);
    desk.put_data(mark, 0xFB, &[0x5A; 1024]);
    desk.machine.position = ((place + 1) % usize::from(LONGEST)) as u16;
    desk.command(0x80);
    let served = desk.serve_reads();
    assert_eq!(served.bytes, vec![0x5A; 1024]);
    assert_eq!(desk.status(), 0);
    served.byte_times
}

#[test]
fn the_longest_read_takes_l_and_1078_byte_times() {
    let length = usize::from(LONGEST);
    for place in [0, 6395, 8187, 9000, 10_400, 10_415] {
        assert_eq!(longest_read(Mfm, place), length + BEYOND_ROUND);
        // The mark of FM has three cells fewer, and its window is 13 cells shorter.
        assert_eq!(longest_read(Fm, place), length + BEYOND_ROUND - 3 - 13);
    }
}

#[test]
fn a_record_written_over_the_end_of_the_longest_ring_reads_back() {
    for density in BOTH {
        let mut desk = desk_at(density, 10_300);
        desk.put_id_before(10_380, [0, 0, 1, 0]);
        let bytes: Vec<u8> = (0..128).collect();
        desk.command(0xA0);
        assert_eq!(desk.serve_writes(&bytes), 128);
        assert_eq!(desk.status(), 0);
        desk.read(0);
        desk.command(0x80);
        assert_eq!(desk.serve_reads().bytes, bytes);
    }
}

#[test]
fn a_whole_track_of_10416_cells_is_written() {
    for density in BOTH {
        let bytes: Vec<u8> = (0..10_416).map(|place| (place % 241) as u8).collect();
        let mut desk = desk_at(density, 10_000);
        desk.command(0xF0);
        assert_eq!(desk.serve_writes(&bytes), 10_416);
        let cells: Vec<u16> = bytes.iter().map(|&byte| u16::from(byte)).collect();
        assert_eq!(desk.track, cells);
        assert_eq!(desk.machine.position, 0);
    }
}

/// A run that passes 65,535 byte times of a ring of 10,416: six rounds and 3,039 cells.
fn assert_longest_run(answer: &RunAnswer, from: u16) {
    assert_eq!((answer.number, answer.passed), (number::DONE, NO_LIMIT));
    assert_eq!(answer.machine.position, (from + 3039) % LONGEST);
}

#[test]
fn a_run_of_ffff_goes_round_the_longest_ring_while_idle() {
    for from in [0, 1, 6399, 6400, 7376, 7377, 8191, 8192, 10_415] {
        let mut desk = desk_at(Mfm, from);
        assert_longest_run(&desk.run(NO_LIMIT), from);
    }
    let mut desk = desk_at(Fm, 7378);
    desk.run(NO_LIMIT);
    assert_eq!((desk.machine.position, desk.status()), (1, INDEX));
}

#[test]
fn a_run_of_ffff_goes_round_the_longest_ring_while_a_command_waits() {
    for byte in [0x80, 0x84, 0xA4, 0xC0, 0xC4] {
        for from in [0, 10_415] {
            let mut desk = desk_at(Mfm, from);
            desk.lines.head_loaded = false;
            desk.command(byte);
            assert_longest_run(&desk.run(NO_LIMIT), from);
            assert_eq!(desk.status(), BUSY);
        }
    }
}

#[test]
fn a_run_of_ffff_counts_its_step_pulses_on_the_longest_ring() {
    for (density, pulses) in [(Fm, 140), (Mfm, 70)] {
        let mut desk = desk_at(density, 10_415);
        desk.command(0x03);
        let answer = desk.run(NO_LIMIT);
        assert_longest_run(&answer, 10_415);
        assert_eq!((answer.pulses_in, answer.pulses_out), (0, pulses));
        assert_eq!(usize::from(desk.machine.track), 255 - usize::from(pulses));
    }
}

#[test]
fn a_run_of_ffff_stops_where_the_search_ends() {
    for (from, passed) in [(0, 41_665), (1, 52_080), (5000, 47_081)] {
        let mut desk = desk_at(Fm, from);
        desk.command(0x80);
        let answer = desk.run(NO_LIMIT);
        assert_eq!((answer.number, answer.passed), (number::DONE, passed));
        assert_eq!(desk.machine.position, 1);
    }
}

#[test]
fn a_run_of_ffff_stops_at_each_index_pulse_that_a_condition_awaits() {
    for (from, passed) in [
        (0, 1),
        (1, LONGEST),
        (6400, 4017),
        (8192, 2225),
        (10_415, 2),
    ] {
        let mut desk = desk_at(Fm, from);
        desk.command(0xD4);
        assert_eq!(desk.run(NO_LIMIT).passed, passed);
        for _ in 0..7 {
            assert_eq!((desk.machine.position, desk.read(0)), (1, INDEX));
            assert_eq!(desk.run(NO_LIMIT).passed, LONGEST);
        }
    }
}

#[test]
fn a_track_of_another_length_is_3_on_both_sides_of_the_old_limit() {
    for (length, lent) in [
        (10_416, 6400),
        (6400, 10_416),
        (10_416, 10_415),
        (10_416, 2224),
    ] {
        let mut desk = Desk::with_length(Fm, length);
        desk.track = vec![0; lent];
        assert_eq!(desk.try_byte_time(), number::TRACK);
        assert_eq!(desk.run(0).number, number::TRACK);
    }
}

#[test]
fn the_last_cell_of_the_longest_ring_is_looked_at() {
    let mut desk = desk_at(Fm, 10_000);
    desk.track[10_415] = 512;
    let answer = desk.run(NO_LIMIT);
    assert_eq!((answer.number, answer.passed), (number::CELL, 415));
    assert_eq!(desk.machine.position, 10_415);
}
