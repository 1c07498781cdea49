// The command bytes: which are commands of a chip, and what their bits ask for. A command carries what
// differs between the chips, so search and transfer never ask which one it is.

use crate::chip::Chip;
use crate::data_mark::DataMark;
use crate::density::Density;
use crate::field::LengthCodes;

/// "On both chips E0, E2, E4, E6 are no longer commands."
pub const RETIRED: [u8; 4] = [0xE0, 0xE2, 0xE4, 0xE6];

#[derive(Clone, Copy, Debug, PartialEq, Eq)]
pub enum Name {
    Restore,
    Seek,
    Step,
    StepIn,
    StepOut,
    ReadSector,
    WriteSector,
    ReadAddress,
    WriteTrack,
    ForceInterrupt,
}

/// A byte that is a command, and what it asks for where the chips differ.
#[derive(Clone, Copy, Debug, PartialEq, Eq)]
pub struct Command {
    pub name: Name,
    pub byte: u8,
    /// The side that an ID must bear to match; none where any side does.
    pub side_asked: Option<u8>,
    /// What goes to the side output at acceptance; none where the output stays as it is.
    pub side_output: Option<u8>,
    /// What the length code of an ID means.
    pub length_codes: LengthCodes,
}

impl Command {
    /// The command of a byte, if the chip has it: the 1793 refuses 60 bytes, the 1797 56.
    pub fn decode(byte: u8, chip: Chip) -> Option<Command> {
        let command = Command {
            name: name_of(byte, chip)?,
            byte,
            side_asked: None,
            side_output: None,
            length_codes: LengthCodes::Ibm,
        };
        Some(match chip {
            Chip::Wd1793 => command.with_side_compare(),
            Chip::Wd1797 => command.with_side_select(),
        })
    }

    /// The 1793, bits 3 and 1 of Type II: "C asks that the ID's side equal S".
    fn with_side_compare(self) -> Command {
        let compares = self.is_type_two() && self.bit(1);
        Command {
            side_asked: Some(u8::from(self.bit(3))).filter(|_| compares),
            ..self
        }
    }

    /// The 1797: "bit 3 of Type II becomes L and bit 1 becomes U; bit 1 of Type III commands is U
    /// too". "U goes to the side output at acceptance, and for Type II the ID's side must equal
    /// U."
    fn with_side_select(self) -> Command {
        let side = Some(u8::from(self.bit(1)));
        Command {
            side_asked: side.filter(|_| self.is_type_two()),
            side_output: side.filter(|_| self.is_transfer()),
            length_codes: match self.is_type_two() && !self.bit(3) {
                true => LengthCodes::NonIbm,
                false => LengthCodes::Ibm,
            },
            ..self
        }
    }

    fn bit(self, place: u8) -> bool {
        self.byte >> place & 1 == 1
    }

    pub fn is_type_one(self) -> bool {
        self.byte < 0x80
    }

    pub fn forces(self) -> bool {
        self.name == Name::ForceInterrupt
    }

    /// Read Sector and Write Sector.
    pub fn is_type_two(self) -> bool {
        matches!(self.name, Name::ReadSector | Name::WriteSector)
    }

    /// Types II and III.
    pub fn is_transfer(self) -> bool {
        !self.is_type_one() && !self.forces()
    }

    /// Restore and Seek go towards DR; the other Type I commands step once.
    pub fn seeks(self) -> bool {
        matches!(self.name, Name::Restore | Name::Seek)
    }

    pub fn writes(self) -> bool {
        matches!(self.name, Name::WriteSector | Name::WriteTrack)
    }

    /// Type I, bit 3: "loads or unloads the head".
    pub fn loads_head(self) -> bool {
        self.bit(3)
    }

    /// Type I, bit 2: V.
    pub fn verifies(self) -> bool {
        self.bit(2)
    }

    /// Step, Step-in and Step-out, bit 4: "TR moves (wrapping) if bit 4".
    pub fn updates_track(self) -> bool {
        self.bit(4)
    }

    /// Type I, bits 1 and 0: the rate code.
    pub fn step_time(self, density: Density) -> u16 {
        density.step_time(self.byte & 3)
    }

    /// Type II, bit 4: m.
    pub fn multiple(self) -> bool {
        self.bit(4)
    }

    /// Types II and III, bit 2: E.
    pub fn settles(self) -> bool {
        self.bit(2)
    }

    /// Whether an ID of this side may match; the whole byte is compared.
    pub fn wants_side(self, side: u8) -> bool {
        self.side_asked.map_or(true, |asked| asked == side)
    }

    /// Write Sector, bit 0: the data mark is F8, for a deleted record, or FB. "Write Sector still
    /// writes FB or F8", in FM too.
    pub fn data_mark(self) -> DataMark {
        if self.bit(0) {
            DataMark::F8
        } else {
            DataMark::FB
        }
    }

    /// Force Interrupt, bits 3 to 0.
    pub fn conditions(self) -> Conditions {
        Conditions {
            at_once: self.bit(3),
            index: self.bit(2),
            ready_goes_off: self.bit(1),
            ready_comes_on: self.bit(0),
        }
    }
}

/// When a Force Interrupt raises INTRQ.
#[derive(Clone, Copy, Debug, PartialEq, Eq, Default)]
pub struct Conditions {
    pub at_once: bool,
    pub index: bool,
    pub ready_goes_off: bool,
    pub ready_comes_on: bool,
}

fn name_of(byte: u8, chip: Chip) -> Option<Name> {
    match byte {
        0x00..=0x0F => Some(Name::Restore),
        0x10..=0x1F => Some(Name::Seek),
        0x20..=0x3F => Some(Name::Step),
        0x40..=0x5F => Some(Name::StepIn),
        0x60..=0x7F => Some(Name::StepOut),
        0x80..=0x9F if byte % 2 == 0 => Some(Name::ReadSector),
        0xA0..=0xBF => Some(Name::WriteSector),
        0xC0..=0xCF if has_type_three_bits(byte, chip) => Some(Name::ReadAddress),
        0xD0..=0xDF => Some(Name::ForceInterrupt),
        0xF0..=0xFF if has_type_three_bits(byte, chip) => Some(Name::WriteTrack),
        _ => None,
    }
}

/// The low four bits of Type III: on both chips bit 2 is E, on the 1797 bit 1 is U; the others are
/// 0.
fn has_type_three_bits(byte: u8, chip: Chip) -> bool {
    let flags = match chip {
        Chip::Wd1793 => 0b0100,
        Chip::Wd1797 => 0b0110,
    };
    byte & 0x0F & !flags == 0
}
