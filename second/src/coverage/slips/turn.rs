// Slips that turn something on or off.

use crate::command::Conditions;
use crate::coverage::step::{Outcome, Step};

pub fn drq_on(_: &Step, wrong: &mut Outcome) {
    wrong.machine.data_request = true;
}

pub fn drq_off(_: &Step, wrong: &mut Outcome) {
    wrong.machine.data_request = false;
}

pub fn intrq_on(_: &Step, wrong: &mut Outcome) {
    wrong.machine.interrupt_request = true;
}

pub fn intrq_off(_: &Step, wrong: &mut Outcome) {
    wrong.machine.interrupt_request = false;
}

pub fn bit_3_on(_: &Step, wrong: &mut Outcome) {
    wrong.machine.status.crc_error = true;
}

pub fn bit_3_off(_: &Step, wrong: &mut Outcome) {
    wrong.machine.status.crc_error = false;
}

pub fn bit_4_on(_: &Step, wrong: &mut Outcome) {
    wrong.machine.status.not_found = true;
}

pub fn bit_4_off(_: &Step, wrong: &mut Outcome) {
    wrong.machine.status.not_found = false;
}

/// Bit 5 of Types II and III.
pub fn bit_5_on(_: &Step, wrong: &mut Outcome) {
    wrong.machine.status.deleted = true;
}

/// Bit 5 of Types II and III.
pub fn bit_5_off(_: &Step, wrong: &mut Outcome) {
    wrong.machine.status.deleted = false;
}

/// Bit 6 of Types II and III.
pub fn bit_6_on(_: &Step, wrong: &mut Outcome) {
    wrong.machine.status.write_refused = true;
}

/// Bit 6 of Types II and III.
pub fn bit_6_off(_: &Step, wrong: &mut Outcome) {
    wrong.machine.status.write_refused = false;
}

pub fn lost_data_off(_: &Step, wrong: &mut Outcome) {
    wrong.machine.status.lost_data = false;
}

pub fn head_on(_: &Step, wrong: &mut Outcome) {
    wrong.machine.head_loaded = true;
}

pub fn index_on(_: &Step, wrong: &mut Outcome) {
    wrong.machine.index_seen = true;
}

pub fn index_off(_: &Step, wrong: &mut Outcome) {
    wrong.machine.index_seen = false;
}

pub fn conditions_off(_: &Step, wrong: &mut Outcome) {
    wrong.machine.conditions = Conditions::default();
}

/// The command ends.
pub fn busy_off(_: &Step, wrong: &mut Outcome) {
    wrong.end();
}

/// The command ends with Seek Error or Record Not Found.
pub fn busy_off_bit_4_on(step: &Step, wrong: &mut Outcome) {
    bit_4_on(step, wrong);
    wrong.end();
}
