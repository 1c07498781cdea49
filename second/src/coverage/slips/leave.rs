// Slips that leave something as it was before the call.

use crate::coverage::step::{Outcome, Step};

/// DRQ stays on where it was on.
pub fn data_request(step: &Step, wrong: &mut Outcome) {
    wrong.machine.data_request |= step.before.data_request;
}

/// INTRQ stays on where it was on.
pub fn interrupt_request(step: &Step, wrong: &mut Outcome) {
    wrong.machine.interrupt_request |= step.before.interrupt_request;
}

/// Conditions of a Force Interrupt stay, beside those that come.
pub fn conditions(step: &Step, wrong: &mut Outcome) {
    let (before, conditions) = (step.before.conditions, &mut wrong.machine.conditions);
    conditions.index |= before.index;
    conditions.ready_goes_off |= before.ready_goes_off;
    conditions.ready_comes_on |= before.ready_comes_on;
}

/// Bit 3.
pub fn crc_error(step: &Step, wrong: &mut Outcome) {
    wrong.machine.status.crc_error = step.before.status.crc_error;
}

/// Bit 4.
pub fn not_found(step: &Step, wrong: &mut Outcome) {
    wrong.machine.status.not_found = step.before.status.not_found;
}

/// Bit 5 of Types II and III.
pub fn deleted(step: &Step, wrong: &mut Outcome) {
    wrong.machine.status.deleted = step.before.status.deleted;
}

pub fn lost_data(step: &Step, wrong: &mut Outcome) {
    wrong.machine.status.lost_data = step.before.status.lost_data;
}

/// TR.
pub fn track(step: &Step, wrong: &mut Outcome) {
    wrong.machine.track = step.before.track;
}

/// SR.
pub fn sector(step: &Step, wrong: &mut Outcome) {
    wrong.machine.sector = step.before.sector;
}

/// DR.
pub fn data(step: &Step, wrong: &mut Outcome) {
    wrong.machine.data = step.before.data;
}

pub fn direction(step: &Step, wrong: &mut Outcome) {
    wrong.machine.direction = step.before.direction;
}

pub fn head(step: &Step, wrong: &mut Outcome) {
    wrong.machine.head_loaded = step.before.head_loaded;
}

pub fn activity(step: &Step, wrong: &mut Outcome) {
    wrong.machine.activity = step.before.activity.clone();
}

/// The cell that a byte time writes.
pub fn cell(step: &Step, wrong: &mut Outcome) {
    wrong.cell = step.cell();
}

pub fn side_output(step: &Step, wrong: &mut Outcome) {
    wrong.machine.side_output = step.before.side_output;
}
