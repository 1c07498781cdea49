// Registers, refusals and their order, acceptance, and Force Interrupt.

use second::activity::{Activity, RecordWrite, Settling};
use second::chip::Chip;
use second::command::Command;
use second::layout;
use second::lines::Lines;
use second::number;
use second::status::{
    BUSY, CRC_ERROR, DATA_REQUEST, HEAD_LOADED, INDEX, LOST_DATA, NOT_FOUND, NOT_READY, PROTECTED,
    TRACK_0,
};

use crate::desk::{Desk, Fm, Mfm, NO_LIMIT};

const BAD_CELL: u16 = 512;

/// Positions and lengths out of range, in each way that they can be.
const OUT_OF_RANGE: [(u16, u16); 8] = [
    (2048, 2048),
    (65_535, 2048),
    (10_416, 10_416),
    (65_535, 10_416),
    (0, 0),
    (0, 2047),
    (0, 10_417),
    (0, 65_535),
];
/// And such as are just in range.
const IN_RANGE: [(u16, u16); 5] = [
    (2047, 2048),
    (6399, 6400),
    (6400, 6401),
    (0, 10_416),
    (10_415, 10_416),
];

/// A machine whose position and length were set.
fn desk_set_to(position: u16, length: u16) -> Desk {
    let mut desk = Desk::new(Fm);
    desk.machine.position = position;
    desk.machine.length = length;
    desk
}

#[test]
fn every_call_gives_2_first() {
    for (position, length) in OUT_OF_RANGE {
        let mut desk = desk_set_to(position, length);
        let before = desk.machine.clone();
        assert_eq!(desk.try_load(9, 0x9F), number::MACHINE);
        let read = desk.machine.clone().read_register(9, desk.lines);
        assert_eq!((read.number, read.byte), (number::MACHINE, 0));
        desk.track = vec![BAD_CELL; 7];
        assert_eq!(desk.try_byte_time(), number::MACHINE);
        assert_eq!(desk.run(0).number, number::MACHINE);
        assert_eq!(desk.machine, before);
        assert_eq!(desk.track, vec![BAD_CELL; 7]);
    }
}

#[test]
fn a_position_below_a_length_in_range_is_not_2() {
    for (position, length) in IN_RANGE {
        let mut desk = desk_set_to(position, length);
        assert_eq!(desk.read(1), 0);
        assert_eq!(desk.try_byte_time() == number::TRACK, length != 2048);
        desk.track = vec![0xFF; usize::from(length)];
        desk.machine.position = position;
        desk.byte_time();
        assert_eq!(desk.machine.position, (position + 1) % length);
        desk.load(0, 0xD0);
    }
}

#[test]
fn a_refused_read_gives_byte_0() {
    let desk = Desk::new(Fm);
    let read = desk.machine.clone().read_register(4, desk.lines);
    assert_eq!((read.number, read.byte), (number::REGISTER, 0));
    assert_eq!(read.machine, desk.machine);
}

#[test]
fn order_of_register_loads() {
    let mut desk = Desk::new(Fm);
    assert_eq!(desk.try_load(4, 0x9F), number::REGISTER);
    assert_eq!(desk.try_load(0, 0x9F), number::NO_COMMAND);
    desk.command(0x80);
    let before = desk.machine.clone();
    assert_eq!(desk.try_load(4, 0x9F), number::REGISTER);
    assert_eq!(desk.try_load(0, 0x9F), number::BUSY);
    assert_eq!(desk.try_load(0, 0x80), number::BUSY);
    assert_eq!(desk.try_load(1, 0xD0), number::BUSY);
    assert_eq!(desk.try_load(2, 0xD0), number::BUSY);
    assert_eq!(desk.machine, before);
}

#[test]
fn dr_may_be_loaded_at_any_time() {
    let mut desk = Desk::new(Fm);
    desk.load(3, 0x12);
    desk.command(0x80);
    desk.load(3, 0x34);
    assert_eq!(desk.read(3), 0x34);
}

#[test]
fn order_of_byte_time_and_run() {
    let mut desk = Desk::new(Fm);
    desk.track = vec![BAD_CELL; 2047];
    assert_eq!(desk.try_byte_time(), number::TRACK);
    assert_eq!(desk.run(0).number, number::TRACK);
    desk.track = vec![BAD_CELL; 2048];
    assert_eq!(desk.try_byte_time(), number::CELL);
    assert_eq!(desk.run(1).number, number::CELL);
    assert_eq!(desk.run(0).number, number::DONE);
    assert_eq!(desk.machine.position, 0);
}

#[test]
fn a_cell_above_511_is_refused_even_where_nobody_looks_at_it() {
    let mut idle = Desk::new(Fm);
    idle.track[3] = 511;
    idle.track[4] = BAD_CELL;
    let answer = idle.run(NO_LIMIT);
    assert_eq!((answer.number, answer.passed), (number::CELL, 4));
    assert_eq!(idle.machine.position, 4);
}

#[test]
fn a_run_stopped_by_4_keeps_earlier_writes() {
    let mut desk = Desk::new(Fm);
    desk.track[1] = BAD_CELL;
    desk.command(0xF0);
    desk.load(3, 0x77);
    assert_eq!(desk.run(NO_LIMIT).passed, 1);
    desk.load(3, 0x78);
    let before = desk.machine.clone();
    let answer = desk.run(NO_LIMIT);
    assert_eq!((answer.number, answer.passed), (number::CELL, 0));
    assert_eq!(answer.machine, before);
    assert_eq!(desk.track[..2], [0x77, BAD_CELL]);
}

#[test]
fn a_count_above_the_largest_is_2() {
    let command = Command::decode(0x84, Chip::Wd1793).expect("84 is a command");
    for (left, expected) in [(938, number::DONE), (939, number::MACHINE)] {
        let mut desk = Desk::new(Mfm);
        desk.machine.activity = Activity::Settling(Settling { command, left });
        assert_eq!(desk.try_byte_time(), expected);
    }
}

#[test]
fn a_machine_grown_from_power_on_reaches_the_largest_counts() {
    let mut desk = Desk::new(Mfm);
    desk.put_id_before(100, [0, 0, 1, 3]);
    desk.command(0xA4);
    let command = Command::decode(0xA4, Chip::Wd1793).expect("A4 is a command");
    let settling = Settling { command, left: 938 };
    assert_eq!(desk.machine.activity, Activity::Settling(settling));
    desk.byte_times(2048 + 102);
    desk.load(3, 0);
    desk.byte_times(1062);
    let longest = matches!(
        desk.machine.activity,
        Activity::WritingRecord(RecordWrite {
            size: 1024,
            byte_times: 1064,
            ..
        })
    );
    assert!(longest);
    desk.byte_time();
    assert!(!desk.machine.is_busy());
}

#[test]
fn a_run_that_begins_with_drq_on_makes_one_byte_time() {
    let mut desk = Desk::new(Fm);
    desk.go_to(5);
    desk.command(0xF0);
    assert!(desk.machine.data_request);
    assert_eq!(desk.run(100).passed, 1);
    assert_eq!(desk.machine.position, 6);
}

#[test]
fn a_run_passes_its_limit_and_no_more() {
    let mut desk = Desk::new(Fm);
    assert_eq!(desk.run(0).passed, 0);
    assert_eq!(desk.run(3000).passed, 3000);
    assert_eq!(desk.machine.position, 952);
}

#[test]
fn not_ready_ends_types_ii_and_iii_in_the_load_call() {
    for byte in [0x80, 0xA0, 0xC0, 0xF0] {
        let mut desk = Desk::new(Fm);
        desk.lines = Lines::from_bits(0xA);
        desk.command(byte);
        assert!(desk.machine.interrupt_request);
        assert!(!desk.machine.head_loaded && !desk.machine.data_request);
        assert_eq!(desk.machine.position, 0);
        assert_eq!(desk.read(0), NOT_READY);
        assert!(!desk.machine.interrupt_request);
    }
}

#[test]
fn protection_ends_writes_in_the_load_call() {
    for byte in [0xA0, 0xF0] {
        let mut desk = Desk::new(Fm);
        desk.lines = Lines::from_bits(0xB);
        desk.command(byte);
        assert!(desk.machine.interrupt_request);
        assert!(!desk.machine.head_loaded && !desk.machine.data_request);
        assert_eq!(desk.status(), PROTECTED);
        desk.lines.protect = false;
        assert_eq!(desk.status(), PROTECTED);
    }
}

#[test]
fn reads_do_not_look_at_protect() {
    let mut desk = Desk::new(Fm);
    desk.lines = Lines::from_bits(0xB);
    desk.command(0x80);
    assert_eq!(desk.status(), BUSY);
    desk.lines.ready = false;
    desk.byte_time();
    assert_eq!(desk.status(), NOT_READY | BUSY);
}

#[test]
fn bit_3_of_type_i_moves_the_head_at_acceptance() {
    let mut desk = Desk::new(Fm);
    desk.command(0x18);
    assert_eq!(desk.status(), HEAD_LOADED | BUSY);
    desk.byte_time();
    desk.command(0x14);
    assert_eq!(desk.status() & HEAD_LOADED, 0);
    desk.byte_time();
    assert_eq!(desk.status() & HEAD_LOADED, HEAD_LOADED);
    desk.lines.head_loaded = false;
    assert_eq!(desk.status() & HEAD_LOADED, 0);
}

#[test]
fn conditions_never_fire_at_acceptance() {
    let mut desk = Desk::new(Fm);
    desk.command(0xD7);
    assert!(!desk.machine.interrupt_request);
}

#[test]
fn ready_edges_are_seen_by_byte_times_alone() {
    let mut desk = Desk::new(Fm);
    desk.byte_time();
    desk.command(0xD2);
    desk.lines.ready = false;
    desk.read(0);
    desk.lines.ready = true;
    desk.byte_time();
    assert!(!desk.machine.interrupt_request);
    desk.lines.ready = false;
    desk.byte_time();
    assert!(desk.machine.interrupt_request);
}

#[test]
fn a_refused_byte_time_sees_no_edge() {
    let mut desk = Desk::new(Fm);
    desk.command(0xD1);
    desk.track[0] = BAD_CELL;
    assert_eq!(desk.try_byte_time(), number::CELL);
    assert!(!desk.machine.interrupt_request);
    desk.track[0] = 0;
    desk.byte_time();
    assert!(desk.machine.interrupt_request);
}

#[test]
fn a_status_read_keeps_the_conditions_a_command_drops_them() {
    let mut desk = Desk::new(Fm);
    desk.command(0xD4);
    desk.byte_time();
    assert!(desk.machine.interrupt_request);
    assert_eq!(desk.read(0), INDEX);
    assert_eq!(desk.try_load(0, 0x9F), number::NO_COMMAND);
    assert_eq!(desk.run(NO_LIMIT).passed, 2048);
    desk.command(0xD0);
    assert_eq!(desk.run(NO_LIMIT).passed, NO_LIMIT);
}

#[test]
fn each_ready_condition_has_its_own_edge() {
    for (byte, on, off) in [
        (0xD0, false, false),
        (0xD1, true, false),
        (0xD2, false, true),
    ] {
        let mut desk = Desk::new(Fm);
        desk.command(byte);
        desk.byte_time();
        assert_eq!(desk.machine.interrupt_request, on);
        desk.read(0);
        desk.lines.ready = false;
        desk.byte_time();
        assert_eq!(desk.machine.interrupt_request, off);
    }
}

#[test]
fn force_interrupt_leaves_drq_and_ends_without_intrq() {
    let mut desk = Desk::new(Fm);
    desk.command(0xF0);
    desk.command(0xD0);
    assert!(desk.machine.data_request);
    assert!(!desk.machine.interrupt_request);
    assert_eq!(desk.status(), DATA_REQUEST);
}

#[test]
fn bit_3_raises_intrq_and_d0_turns_it_off() {
    let mut desk = Desk::new(Fm);
    desk.command(0xD8);
    assert!(desk.machine.interrupt_request);
    desk.command(0xD0);
    assert!(!desk.machine.interrupt_request);
}

#[test]
fn the_status_keeps_its_type_where_a_command_ends() {
    let mut desk = Desk::new(Fm);
    desk.lines.track_0 = true;
    desk.command(0x80);
    desk.command(0xD0);
    assert_eq!(desk.status(), 0);
    desk.command(0xD0);
    assert_eq!(desk.status(), TRACK_0 | HEAD_LOADED);
}

/// A machine left idle with Record Not Found and a CRC error.
fn desk_after_bad_search() -> Desk {
    let mut desk = Desk::new(Fm);
    let mut bad = layout::id_cells(Fm, [0, 0, 1, 0]);
    bad[6] ^= 1;
    desk.put(50, &bad);
    desk.command(0x80);
    desk.run(NO_LIMIT);
    assert_eq!(desk.status(), NOT_FOUND | CRC_ERROR);
    desk
}

#[test]
fn an_idle_force_interrupt_turns_bits_3_and_4_off() {
    let mut desk = desk_after_bad_search();
    desk.command(0xD0);
    assert_eq!(desk.status(), HEAD_LOADED | INDEX);
}

#[test]
fn any_other_command_clears_bits_3_and_4() {
    for (byte, status) in [(0x80, BUSY), (0x18, BUSY | HEAD_LOADED | INDEX)] {
        let mut desk = desk_after_bad_search();
        desk.command(byte);
        assert_eq!(desk.status(), status);
    }
}

#[test]
fn an_accepted_command_clears_bits_5_and_6_too() {
    let mut desk = Desk::new(Fm);
    desk.lines.protect = true;
    desk.command(0xA0);
    assert_eq!(desk.status(), PROTECTED);
    desk.command(0x80);
    assert_eq!(desk.status(), BUSY);
}

#[test]
fn the_index_bit_is_off_until_the_first_byte_time_has_passed() {
    let mut desk = Desk::new(Fm);
    assert_eq!(desk.status(), 0);
    desk.byte_time();
    assert_eq!(desk.status(), INDEX);
    desk.byte_time();
    assert_eq!(desk.status(), 0);
}

#[test]
fn loading_a_command_clears_lost_data_and_drq() {
    for (byte, status) in [(0x80, BUSY), (0x18, BUSY | HEAD_LOADED | INDEX)] {
        let mut desk = Desk::new(Fm);
        desk.command(0xF0);
        desk.byte_time();
        assert_eq!(desk.status(), LOST_DATA | DATA_REQUEST);
        desk.command(byte);
        assert_eq!(desk.status(), status);
        assert!(!desk.machine.data_request && !desk.machine.interrupt_request);
    }
}

#[test]
fn reads_give_the_registers() {
    let mut desk = Desk::new(Fm);
    desk.load(1, 0x11);
    desk.load(2, 0x22);
    desk.load(3, 0x33);
    assert_eq!(
        [desk.read(1), desk.read(2), desk.read(3)],
        [0x11, 0x22, 0x33]
    );
}
