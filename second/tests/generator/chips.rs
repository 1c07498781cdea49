// What the scripts must meet of the two chips.

use crate::met::chip_name;
use second::chip::Chip;
use second::command::{Command, Name};
use second::field::LengthCodes;

const SECTOR_COMMANDS: [Name; 2] = [Name::ReadSector, Name::WriteSector];
const TYPE_THREE: [Name; 2] = [Name::ReadAddress, Name::WriteTrack];

pub fn wanted() -> Vec<String> {
    let mut keys = vec!["P bad of chip [2]".to_string()];
    for number in ["00", "01"] {
        keys.extend(["[]", "[0]", "[1]"].map(|chip| format!("P {} of chip {}", number, chip)));
    }
    for name in SECTOR_COMMANDS {
        keys.push(format!("{:?} of the 1793, any side asked", name));
    }
    for chip in Chip::BOTH {
        keys.extend(bytes_of(chip));
        keys.extend(sides_of(chip));
    }
    for name in SECTOR_COMMANDS.into_iter().chain(TYPE_THREE) {
        keys.extend(outputs_of(name));
    }
    keys.extend(lengths_of_1797());
    keys
}

/// Every byte of Types II and III, and every one that the chip refuses.
fn bytes_of(chip: Chip) -> Vec<String> {
    let bytes = (0x80..=0xFFu8).filter(|byte| !(0xD0..=0xDF).contains(byte));
    let kind = |byte| match Command::decode(byte, chip) {
        Some(_) => "command",
        None => "no command",
    };
    bytes
        .map(|byte| format!("{} {:02X} of the {}", kind(byte), byte, chip_name(chip)))
        .collect()
}

/// Either side asked for, and either there, or a byte that is no side.
fn sides_of(chip: Chip) -> Vec<String> {
    let mut keys = Vec::new();
    for name in SECTOR_COMMANDS {
        for side in [0, 1] {
            let asked = format!("{:?} of the {}, side {} asked", name, chip_name(chip), side);
            let there = ["side 0", "side 1", "another byte"];
            keys.extend(there.map(|it| format!("{}, {} there", asked, it)));
        }
    }
    keys
}

/// The side output from each side to each, however the command begins.
fn outputs_of(name: Name) -> Vec<String> {
    let begins: &[&str] = match name {
        Name::WriteSector | Name::WriteTrack => &["taken up", "not ready", "protected"],
        _ => &["taken up", "not ready"],
    };
    let mut keys = Vec::new();
    for begin in begins {
        let sides = ["0 to 0", "0 to 1", "1 to 0", "1 to 1"];
        keys.extend(sides.map(|it| format!("{:?} {}, side output from {}", name, begin, it)));
    }
    keys
}

/// Every length read and written with either L.
fn lengths_of_1797() -> Vec<String> {
    let mut keys = Vec::new();
    for codes in [LengthCodes::Ibm, LengthCodes::NonIbm] {
        for size in codes.sizes() {
            keys.extend(
                ["read", "write"].map(|it| format!("{} {} {:?} of the 1797", it, size, codes)),
            );
        }
    }
    keys
}
