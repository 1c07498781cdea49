// E0, E2, E4 and E6, which are no commands of either chip, whatever the machine is doing.

use second::chip::Chip;
use second::density::Density;
use second::lines::Lines;
use second::number;

use crate::desk::{Desk, Fm, BOTH, NO_LIMIT};

const RETIRED: [u8; 4] = [0xE0, 0xE2, 0xE4, 0xE6];
/// Every activity but idle, and a command of both chips that leads to it.
const ACTIVITIES: [(&str, u8); 9] = [
    ("Stepping", 0x13),
    ("Settling", 0x8C),
    ("Searching", 0x88),
    ("ReadingAddress", 0xC4),
    ("AwaitingDataMark", 0x98),
    ("ReadingRecord", 0x88),
    ("WritingRecord", 0xA8),
    ("AwaitingIndex", 0xF0),
    ("WritingTrack", 0xF4),
];
/// Far more byte times than it takes to come to any of them.
const ENOUGH: usize = 10_000;

/// The bytes that a chip refuses: of 80 to 9F the odd ones, all of E0 to EF, and of C0 to CF and F0
/// to FF those that have other bits than E, or on the 1797 than E and U.
fn refused_by(chip: Chip) -> Vec<u8> {
    let type_three: &[u8] = match chip {
        Chip::Wd1793 => &[0, 4],
        Chip::Wd1797 => &[0, 2, 4, 6],
    };
    let others = (0x0..=0xF).filter(|low| !type_three.contains(low));
    let mut bytes: Vec<u8> = (0x81..=0x9F).step_by(2).collect();
    bytes.extend(others.clone().map(|low| 0xC0 + low));
    bytes.extend(0xE0..=0xEF);
    bytes.extend(others.map(|low| 0xF0 + low));
    bytes
}

#[test]
fn the_1793_refuses_60_bytes_and_the_1797_56() {
    for (chip, count) in [(Chip::Wd1793, 60), (Chip::Wd1797, 56)] {
        let answers = (0..=255).map(|byte| (byte, Desk::with_chip(chip, Fm).try_load(0, byte)));
        let refused: Vec<(u8, u8)> = answers.filter(|it| it.1 != number::DONE).collect();
        let expected: Vec<(u8, u8)> = refused_by(chip)
            .into_iter()
            .map(|byte| (byte, number::NO_COMMAND))
            .collect();
        assert_eq!(refused, expected);
        assert_eq!(refused.len(), count);
    }
}

/// Each of the four is refused with this number, and nothing changes.
fn assert_refused(desk: &mut Desk, number: u8) {
    let (machine, track) = (desk.machine.clone(), desk.track.clone());
    for byte in RETIRED {
        assert_eq!(desk.try_load(0, byte), number, "{:02X}", byte);
        assert_eq!(desk.machine, machine, "{:02X}", byte);
        assert_eq!(desk.track, track, "{:02X}", byte);
    }
}

/// A desk with a sector on its track, which has not begun to do anything.
fn idle_desk(chip: Chip, density: Density) -> Desk {
    let mut desk = Desk::with_chip(chip, density);
    desk.put_id_before(100, [0, 0, 1, 0]);
    desk.put_data(110, 0xFB, &[0x5A; 128]);
    desk.byte_time();
    desk
}

/// The same after this command has led to this activity.
fn busy_desk(chip: Chip, density: Density, name: &str, byte: u8) -> Desk {
    let mut desk = idle_desk(chip, density);
    desk.load(3, 7);
    desk.command(byte);
    for _ in 0..ENOUGH {
        if desk.machine.activity.name() == name {
            return desk;
        }
        desk.load(3, 0x4E);
        desk.byte_time();
    }
    panic!("{:02X} does not lead to {}", byte, name);
}

#[test]
fn in_every_activity_they_are_6_and_change_nothing() {
    for chip in Chip::BOTH {
        for density in BOTH {
            for (name, byte) in ACTIVITIES {
                let mut desk = busy_desk(chip, density, name, byte);
                assert_refused(&mut desk, number::BUSY);
            }
        }
    }
}

#[test]
fn while_idle_they_are_7_and_change_nothing_under_any_lines() {
    for chip in Chip::BOTH {
        for density in BOTH {
            for bits in 0x0..=0xF {
                let mut desk = idle_desk(chip, density);
                desk.lines = Lines::from_bits(bits);
                assert_refused(&mut desk, number::NO_COMMAND);
            }
        }
    }
}

/// INTRQ, DRQ, Lost Data, Record Not Found, the conditions and the side output stay on.
#[test]
fn what_a_command_left_stays_on() {
    for chip in Chip::BOTH {
        let mut unserved = idle_desk(chip, Fm);
        unserved.command(0x88);
        unserved.byte_times(300);
        assert!(unserved.machine.interrupt_request && unserved.machine.data_request);
        assert!(unserved.machine.status.lost_data);
        assert_refused(&mut unserved, number::NO_COMMAND);

        let mut not_found = idle_desk(chip, Fm);
        not_found.load(2, 9);
        not_found.command(0x88);
        not_found.run(NO_LIMIT);
        assert!(not_found.machine.status.not_found);
        assert_refused(&mut not_found, number::NO_COMMAND);

        let mut waiting = idle_desk(chip, Fm);
        waiting.command(0xDF);
        let conditions = waiting.machine.conditions;
        assert!(waiting.machine.interrupt_request && conditions.index);
        assert!(conditions.ready_goes_off && conditions.ready_comes_on);
        assert_refused(&mut waiting, number::NO_COMMAND);
    }
    let mut other_side = idle_desk(Chip::Wd1797, Fm);
    other_side.command(0xC2);
    other_side.command(0xD0);
    assert_eq!(other_side.machine.side_output, 1);
    assert_refused(&mut other_side, number::NO_COMMAND);
}

/// Read Address and Write Track with the same low bits.
#[test]
fn their_neighbours_of_type_iii_are_still_taken() {
    for high_bits in [0xC0, 0xF0] {
        for byte in RETIRED.map(|retired| high_bits | retired & 0x0F) {
            let on_1793 = match byte & 2 {
                0 => number::DONE,
                _ => number::NO_COMMAND,
            };
            assert_eq!(Desk::new(Fm).try_load(0, byte), on_1793);
            let mut desk = Desk::with_chip(Chip::Wd1797, Fm);
            assert_eq!(desk.try_load(0, byte), number::DONE);
        }
    }
}
