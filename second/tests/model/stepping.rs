// Type I: stepping, the track 0 rule, Restore and the verify.

use second::layout;
use second::machine::Direction::{In, Out};
use second::status::{BUSY, CRC_ERROR, HEAD_LOADED, INDEX, SEEK_ERROR, TRACK_0};

use crate::desk::{Desk, Fm, Mfm, BOTH, NO_LIMIT};

#[test]
fn a_seek_of_k_steps_ends_in_byte_time_1_and_k_step_times() {
    let times = [(Fm, [94, 188, 313, 469]), (Mfm, [188, 375, 625, 938])];
    for (density, step_times) in times {
        for (rate, step_time) in (0..4).zip(step_times) {
            let mut desk = Desk::new(density);
            desk.load(3, 7);
            desk.command(0x10 + rate);
            let answer = desk.run(NO_LIMIT);
            assert_eq!(answer.passed, 1 + 7 * step_time);
            assert_eq!((answer.pulses_in, answer.pulses_out), (7, 0));
            assert_eq!(desk.machine.track, 7);
        }
    }
}

#[test]
fn a_seek_goes_towards_dr_however_far() {
    for (from, to, pulse) in [(0, 255, In), (255, 0, Out), (7, 8, In), (8, 7, Out)] {
        let mut desk = Desk::new(Fm);
        desk.load(1, from);
        desk.load(3, to);
        desk.command(0x10);
        assert_eq!(desk.byte_time(), Some(pulse));
        assert_eq!(desk.machine.direction, pulse);
    }
}

#[test]
fn a_dr_loaded_on_the_way_counts() {
    let mut desk = Desk::new(Fm);
    desk.load(1, 10);
    desk.load(3, 5);
    desk.command(0x10);
    assert_eq!(desk.byte_time(), Some(Out));
    desk.load(3, 11);
    let answer = desk.run(NO_LIMIT);
    assert_eq!((answer.passed, answer.pulses_in), (3 * 94, 2));
    assert_eq!(desk.machine.track, 11);
}

#[test]
fn step_commands_stop_a_step_time_after_their_pulse() {
    for (byte, pulse) in [(0x20, Out), (0x40, In), (0x60, Out)] {
        let mut desk = Desk::new(Fm);
        desk.load(1, 9);
        desk.command(byte);
        assert_eq!(desk.byte_time(), Some(pulse));
        assert_eq!(desk.run(NO_LIMIT).passed, 94);
        assert_eq!(desk.machine.track, 9);
    }
}

#[test]
fn bit_4_moves_the_track_register_and_wraps() {
    for (byte, from, to) in [(0x50, 255, 0), (0x70, 0, 255), (0x30, 0, 255), (0x50, 7, 8)] {
        let mut desk = Desk::new(Fm);
        desk.load(1, from);
        desk.command(byte);
        desk.byte_time();
        assert_eq!(desk.machine.track, to);
    }
}

#[test]
fn step_goes_on_in_the_last_direction() {
    let mut desk = Desk::new(Fm);
    desk.command(0x20);
    assert_eq!(desk.byte_time(), Some(Out));
    desk.run(NO_LIMIT);
    desk.command(0x40);
    desk.run(NO_LIMIT);
    desk.command(0x20);
    assert_eq!(desk.byte_time(), Some(In));
}

#[test]
fn the_track_0_rule_needs_no_bit_4_and_sets_the_direction() {
    let mut desk = Desk::new(Fm);
    desk.load(1, 9);
    desk.command(0x40);
    desk.run(NO_LIMIT);
    desk.lines.track_0 = true;
    desk.command(0x60);
    assert_eq!(desk.byte_time(), None);
    assert!(desk.machine.interrupt_request);
    assert_eq!(desk.machine.track, 0);
    assert_eq!(desk.machine.direction, Out);
}

#[test]
fn a_seek_that_finds_tr_equal_to_dr_leaves_the_direction() {
    let mut desk = Desk::new(Fm);
    desk.command(0x40);
    desk.run(NO_LIMIT);
    desk.command(0x10);
    assert_eq!(desk.run(NO_LIMIT).passed, 1);
    assert_eq!(desk.machine.direction, In);
}

#[test]
fn a_seek_outwards_stops_at_track_0() {
    let mut desk = Desk::new(Fm);
    desk.load(1, 9);
    desk.load(3, 5);
    desk.lines.track_0 = true;
    desk.command(0x10);
    assert_eq!(desk.run(NO_LIMIT).passed, 1);
    assert_eq!(desk.machine.track, 0);
}

#[test]
fn restore_sets_255_and_0_and_steps_out_until_track_0() {
    let mut desk = Desk::new(Fm);
    desk.load(1, 4);
    desk.load(3, 77);
    desk.command(0x00);
    assert_eq!((desk.machine.track, desk.machine.data), (255, 0));
    desk.byte_times(94);
    desk.lines.track_0 = true;
    assert_eq!(desk.run(NO_LIMIT).passed, 1);
    assert_eq!(desk.machine.track, 0);
    assert_eq!(desk.status(), TRACK_0);
}

#[test]
fn restore_without_track_0_is_seek_error_only_with_v() {
    for (byte, expected) in [(0x00, 0), (0x04, SEEK_ERROR)] {
        let mut desk = Desk::new(Fm);
        desk.command(byte);
        let answer = desk.run(NO_LIMIT);
        assert_eq!((answer.passed, answer.pulses_out), (1 + 255 * 94, 255));
        assert_eq!(desk.status() & !INDEX, expected);
        assert!(!desk.machine.head_loaded);
    }
}

#[test]
fn restore_looks_at_the_line_in_the_byte_time_that_stops() {
    let mut desk = Desk::new(Fm);
    desk.command(0x04);
    desk.load(3, 255);
    desk.lines.track_0 = true;
    desk.byte_time();
    assert!(desk.machine.is_busy() && desk.machine.head_loaded);
}

#[test]
fn the_verify_settles_after_the_byte_time_that_stops() {
    for density in BOTH {
        let settle = usize::from(density.settle_time());
        let mut desk = Desk::new(density);
        let id = layout::id_cells(density, [0, 9, 9, 9]);
        desk.put(1 + settle, &id);
        desk.command(0x14);
        assert_eq!(
            usize::from(desk.run(NO_LIMIT).passed),
            1 + settle + id.len()
        );
        assert_eq!(desk.status(), HEAD_LOADED);
    }
}

#[test]
fn the_verify_does_not_see_cells_that_pass_while_it_settles() {
    let mut desk = Desk::new(Fm);
    let id = layout::id_cells(Fm, [0, 0, 1, 0]);
    desk.put(469, &id);
    desk.command(0x14);
    assert_eq!(desk.run(NO_LIMIT).passed, 2048 + 469 + 7);
}

#[test]
fn a_verify_without_its_track_is_seek_error_at_the_fifth_pulse() {
    let mut desk = Desk::new(Fm);
    let mut bad = layout::id_cells(Fm, [0, 0, 1, 0]);
    bad[5] ^= 0x80;
    desk.put(1000, &bad);
    desk.put_id_before(1200, [1, 0, 1, 0]);
    desk.command(0x14);
    assert_eq!(desk.run(NO_LIMIT).passed, 5 * 2048 + 1);
    assert_eq!(desk.status(), SEEK_ERROR | CRC_ERROR | HEAD_LOADED | INDEX);
}

#[test]
fn a_good_match_of_the_verify_clears_bit_3() {
    let mut desk = Desk::new(Fm);
    let mut bad = layout::id_cells(Fm, [0, 0, 1, 0]);
    bad[5] ^= 0x80;
    desk.put(1000, &bad);
    desk.put_id_before(1200, [0, 0, 1, 0]);
    desk.command(0x14);
    desk.byte_times(1100);
    assert_eq!(desk.status(), CRC_ERROR | HEAD_LOADED | BUSY);
    desk.run(NO_LIMIT);
    assert_eq!(desk.status(), HEAD_LOADED);
}
