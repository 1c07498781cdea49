// The two chips: power-on, the bytes that each takes, and the side output.

use second::chip::Chip;
use second::command::{Command, Name};
use second::lines::Lines;
use second::machine::Machine;
use second::number;

use crate::desk::{Desk, Fm, Mfm, BOTH, NO_LIMIT};

/// Commands of both chips that do the same where the 1797's have L 1 and side 0 is all there is.
const SAME: [(u8, u8); 11] = [
    (0x80, 0x88),
    (0x84, 0x8C),
    (0x90, 0x98),
    (0xA0, 0xA8),
    (0xB1, 0xB9),
    (0xC0, 0xC0),
    (0xC4, 0xC6),
    (0xF0, 0xF2),
    (0xF4, 0xF6),
    (0x14, 0x14),
    (0xD4, 0xD4),
];

/// A 1797 with this side on its output.
fn desk_with_output(side: u8) -> Desk {
    let mut desk = Desk::with_chip(Chip::Wd1797, Fm);
    desk.command([0xC0, 0xC2][usize::from(side)]);
    desk.command(0xD0);
    assert_eq!(desk.machine.side_output, side);
    desk
}

/// The commands of a chip, each with its bytes as the documents list them.
fn commands_of(chip: Chip) -> Vec<(Name, Vec<u8>)> {
    let mut commands = vec![
        (Name::Restore, (0x00..=0x0F).collect()),
        (Name::Seek, (0x10..=0x1F).collect()),
        (Name::Step, (0x20..=0x3F).collect()),
        (Name::StepIn, (0x40..=0x5F).collect()),
        (Name::StepOut, (0x60..=0x7F).collect()),
        (Name::ReadSector, (0x80..=0x9E).step_by(2).collect()),
        (Name::WriteSector, (0xA0..=0xBF).collect()),
        (Name::ForceInterrupt, (0xD0..=0xDF).collect()),
    ];
    commands.extend(match chip {
        Chip::Wd1793 => [
            (Name::ReadAddress, vec![0xC0, 0xC4]),
            (Name::WriteTrack, vec![0xF0, 0xF4]),
        ],
        Chip::Wd1797 => [
            (Name::ReadAddress, vec![0xC0, 0xC2, 0xC4, 0xC6]),
            (Name::WriteTrack, vec![0xF0, 0xF2, 0xF4, 0xF6]),
        ],
    });
    commands
}

/// The name of each of the 256 bytes that is a command.
fn names_of(chip: Chip) -> Vec<Option<Name>> {
    let mut names = vec![None; 256];
    for (name, bytes) in commands_of(chip) {
        for byte in bytes {
            names[usize::from(byte)] = Some(name);
        }
    }
    names
}

#[test]
fn each_chip_takes_its_own_bytes_and_no_others() {
    for (chip, refused) in [(Chip::Wd1793, 60), (Chip::Wd1797, 56)] {
        let names = names_of(chip);
        for (byte, &name) in (0..=255).zip(&names) {
            let command = Command::decode(byte, chip);
            assert_eq!(command.map(|it| it.name), name, "{:02X}", byte);
            let expected = match name {
                Some(_) => number::DONE,
                None => number::NO_COMMAND,
            };
            assert_eq!(Desk::with_chip(chip, Fm).try_load(0, byte), expected);
        }
        assert_eq!(names.iter().filter(|name| name.is_none()).count(), refused);
    }
}

#[test]
fn power_on_names_the_chip_and_turns_its_side_output_to_0() {
    for chip in Chip::BOTH {
        for density in BOTH {
            for length in [6250, 10_416] {
                let answer = Machine::power_on(chip, length, density);
                assert_eq!(answer.number, number::DONE);
                assert_eq!((answer.machine.chip, answer.machine.side_output), (chip, 0));
            }
        }
    }
}

#[test]
fn a_refused_power_on_gives_the_fm_machine_of_2048_of_the_chip_named() {
    for chip in Chip::BOTH {
        let fallback = Machine::power_on(chip, 2048, Fm).machine;
        for length in [0, 2047, 10_417] {
            let answer = Machine::power_on(chip, length, Mfm);
            assert_eq!(answer.number, number::LENGTH);
            assert_eq!(answer.machine, fallback);
        }
        assert_eq!(fallback.chip, chip);
    }
}

/// All commands of Types II and III, with U.
fn transfers_of_1797() -> Vec<(u8, u8)> {
    let bytes = (0..=255).filter_map(|byte| Command::decode(byte, Chip::Wd1797));
    let transfers = bytes.filter(|command| command.is_transfer());
    transfers
        .map(|command| (command.byte, command.byte >> 1 & 1))
        .collect()
}

#[test]
fn u_goes_to_the_side_output_at_acceptance() {
    let transfers = transfers_of_1797();
    assert_eq!(transfers.len(), 48 + 8);
    for (byte, side) in transfers {
        for before in [0, 1] {
            let mut desk = desk_with_output(before);
            desk.command(byte);
            assert!(desk.machine.is_busy());
            assert_eq!(desk.machine.side_output, side, "{:02X}", byte);
        }
    }
}

#[test]
fn it_goes_there_also_where_the_command_ends_at_once() {
    for (byte, side) in transfers_of_1797() {
        for bits in [0x8, 0xA, 0xB] {
            let mut desk = desk_with_output(1 - side);
            desk.lines = Lines::from_bits(bits);
            desk.command(byte);
            let writes = byte >= 0xF0 || (0xA0..0xC0).contains(&byte);
            let goes_on = bits == 0xB && !writes;
            assert_eq!(desk.machine.is_busy(), goes_on);
            assert_eq!(desk.machine.side_output, side, "{:02X}", byte);
        }
    }
}

#[test]
fn type_i_leaves_the_side_output_to_its_end() {
    for byte in 0x00..0x80 {
        for side in [0, 1] {
            let mut desk = desk_with_output(side);
            desk.lines.track_0 = true;
            desk.command(byte);
            assert_eq!(desk.machine.side_output, side, "{:02X}", byte);
            while desk.machine.is_busy() {
                desk.run(NO_LIMIT);
            }
            assert_eq!(desk.machine.side_output, side, "{:02X}", byte);
        }
    }
}

#[test]
fn force_interrupt_leaves_the_side_output() {
    for byte in 0xD0..=0xDF {
        for side in [0, 1] {
            let mut desk = desk_with_output(side);
            desk.command(byte);
            assert_eq!(desk.machine.side_output, side, "when idle");
            desk.command([0xF0, 0xF2][usize::from(side)]);
            desk.command(byte);
            assert_eq!(desk.machine.side_output, side, "while Busy");
        }
    }
}

#[test]
fn a_refused_byte_leaves_the_side_output() {
    for side in [0, 1] {
        let mut desk = desk_with_output(side);
        for byte in [0x81, 0x83, 0xC1, 0xC3, 0xE0, 0xE2, 0xE4, 0xE6, 0xFA] {
            assert_eq!(desk.try_load(0, byte), number::NO_COMMAND);
            assert_eq!(desk.machine.side_output, side);
        }
        desk.command([0x88, 0x8A][usize::from(side)]);
        for byte in [0x88, 0x8A, 0xC0, 0xC2, 0xE0, 0xE2, 0xFF] {
            assert_eq!(desk.try_load(0, byte), number::BUSY);
            assert_eq!(desk.machine.side_output, side);
        }
    }
}

#[test]
fn the_1793_has_no_side_output() {
    for byte in 0..=255 {
        for bits in [0x8, 0x9, 0xB] {
            let mut desk = Desk::new(Fm);
            desk.lines = Lines::from_bits(bits);
            desk.try_load(0, byte);
            desk.byte_times(3);
            assert_eq!(desk.machine.side_output, 0);
        }
    }
}

/// What a host of either chip sees: status, registers, DRQ and INTRQ.
fn seen(desk: &Desk) -> (u8, [u8; 3], bool, bool) {
    let machine = &desk.machine;
    let registers = [machine.track, machine.sector, machine.data];
    let (drq, intrq) = (machine.data_request, machine.interrupt_request);
    (desk.status(), registers, drq, intrq)
}

#[test]
fn with_l_1_and_one_side_both_chips_do_the_same() {
    for density in BOTH {
        for (byte, other_byte) in SAME {
            let mut desks = Chip::BOTH.map(|chip| Desk::with_chip(chip, density));
            for desk in &mut desks {
                desk.put_id_before(100, [0, 0, 1, 0]);
                desk.put_data(110, 0xF8, &[0x5A; 128]);
                desk.put_id_before(600, [0, 0, 2, 1]);
            }
            let [desk, other] = &mut desks;
            desk.command(byte);
            other.command(other_byte);
            for _ in 0..5000 {
                assert_eq!(seen(desk), seen(other), "{:02X}", byte);
                if desk.machine.data_request {
                    desk.load(3, 0xE5);
                    other.load(3, 0xE5);
                }
                assert_eq!(desk.byte_time(), other.byte_time());
            }
            assert_eq!(desk.track, other.track);
        }
    }
}
