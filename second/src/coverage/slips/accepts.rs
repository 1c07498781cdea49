// When a load is accepted as a command.

use crate::command::{Command, Name};
use crate::coverage::step::Step;

pub fn type_one(step: &Step) -> bool {
    step.accepts(Command::is_type_one)
}

/// Types II and III.
pub fn transfer(step: &Step) -> bool {
    step.accepts(Command::is_transfer)
}

pub fn force(step: &Step) -> bool {
    step.accepts(Command::forces)
}

pub fn name(step: &Step, name: Name) -> bool {
    step.accepted()
        .map_or(false, |command| command.name == name)
}

pub fn read_sector(step: &Step) -> bool {
    name(step, Name::ReadSector)
}

pub fn write_sector(step: &Step) -> bool {
    name(step, Name::WriteSector)
}

pub fn read_address(step: &Step) -> bool {
    name(step, Name::ReadAddress)
}

pub fn write_track(step: &Step) -> bool {
    name(step, Name::WriteTrack)
}

pub fn type_two(step: &Step) -> bool {
    step.accepts(Command::is_type_two)
}

/// A command of Types II and III that ends at once.
pub fn ending_at_once(step: &Step) -> bool {
    transfer(step) && !step.right.machine.is_busy()
}
