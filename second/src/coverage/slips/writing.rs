// Slips of Write Sector after its ID.

use super::{leave, slip, turn, Sentence, Subject};
use crate::activity::{Activity, RecordWrite};
use crate::coverage::step::{Outcome, Step};
use crate::crc;
use crate::data_mark::DataMark;
use crate::density::Density;
use crate::field::{self, FLAG};

/// Byte times from the ID's last cell up to and with the mark.
const TO_MARK_FM: usize = 18;
const TO_MARK_MFM: usize = 38;

pub const SUBJECT: Subject = Subject {
    concerns: |step| write(step).is_some(),
    sentences: SENTENCES,
};

const SENTENCES: &[Sentence] = &[
    Sentence {
        says: "After the ID's last cell, number byte times from 1. DRQ at 2. Still on at 10: Lost \
               Data, end, nothing written.",
        slips: &[
            slip("DRQ at 1", |step| is_at(step, 1), turn::drq_on),
            slip(
                "DRQ at 3",
                |step| is_at(step, 2) || is_at(step, 3),
                request_at_3,
            ),
            slip("still on at 9", |step| is_at(step, 9), end_unserved),
            slip(
                "still on at 11",
                |step| is_at(step, 10) || is_at(step, 11),
                look_at_11,
            ),
            slip(
                "Lost Data stays off",
                |step| is_at(step, 10),
                turn::lost_data_off,
            ),
            slip("DRQ goes off", |step| is_at(step, 10), turn::drq_off),
        ],
    },
    Sentence {
        says: "FM writes from 12: six 00, flagged mark; MFM from 23: twelve 00, three flagged A1, \
               mark.",
        slips: &[
            slip("from 11 (FM)", |step| is_fm_at(step, 11), write_00),
            slip("from 13 (FM)", |step| is_fm_at(step, 12), leave::cell),
            slip(
                "plain mark (FM)",
                |step| is_fm_at(step, TO_MARK_FM),
                write_plain,
            ),
            slip("from 22 (MFM)", |step| is_mfm_at(step, 22), write_00),
            slip("from 24 (MFM)", |step| is_mfm_at(step, 23), leave::cell),
            slip(
                "plain A1 (MFM)",
                |step| is_mfm_at(step, TO_MARK_MFM - 1),
                write_plain,
            ),
        ],
    },
    Sentence {
        says: "Bits of Type II: 4 m, 3 S, 2 E, 1 C, 0 mark.",
        slips: &[slip("the mark is FB always", is_mark, |step, wrong| {
            write_mark(step, wrong, DataMark::FB)
        })],
    },
    Sentence {
        says: "Then the data, two CRC bytes, one FF: n + 10 or n + 19 cells in all, no other cell \
               changed.",
        slips: &[
            slip(
                "the low byte first",
                |step| is_after_data(step, 0),
                write_low_byte,
            ),
            slip("no FF", |step| is_after_data(step, 2), leave::cell),
        ],
    },
    Sentence {
        says: "Each data cell takes DR, or 00 with Lost Data if DRQ is on, and the command goes \
               on (000 over 003); then DRQ is on, but off after the last.",
        slips: &[
            slip("DR though DRQ is on", takes_00, take_late_byte),
            slip("Lost Data stays off", takes_00, leave::lost_data),
            slip("the command ends", takes_00, turn::busy_off),
            slip("DRQ stays off", is_data, turn::drq_off),
            slip("DRQ after the last", is_data, turn::drq_on),
        ],
    },
    Sentence {
        says: "The FF ends it. m as above.",
        slips: &[
            slip(
                "the CRC ends it",
                |step| is_after_data(step, 1),
                turn::busy_off,
            ),
            slip("m is not looked at", goes_on, turn::busy_off),
            slip("SR stays", goes_on, leave::sector),
            slip("SR stays at 255", goes_on, stay_at_255),
        ],
    },
];

/// The record that Write Sector writes, or is about to write.
pub fn write<'a>(step: &'a Step) -> Option<&'a RecordWrite> {
    match &step.before.activity {
        Activity::WritingRecord(write) if step.passes() => Some(write),
        _ => None,
    }
}

/// The byte time with this number after the ID's last cell.
fn is_at(step: &Step, number: usize) -> bool {
    write(step).map_or(false, |write| write.byte_times + 1 == number)
}

fn is_fm_at(step: &Step, number: usize) -> bool {
    step.before.density == Density::Fm && is_at(step, number)
}

fn is_mfm_at(step: &Step, number: usize) -> bool {
    step.before.density == Density::Mfm && is_at(step, number)
}

fn to_mark(step: &Step) -> usize {
    match step.before.density {
        Density::Fm => TO_MARK_FM,
        Density::Mfm => TO_MARK_MFM,
    }
}

/// The byte of the mark is written.
pub fn is_mark(step: &Step) -> bool {
    is_at(step, to_mark(step))
}

fn request_at_3(step: &Step, wrong: &mut Outcome) {
    wrong.machine.data_request = is_at(step, 3);
}

/// Ends as at 10, if DRQ is still on.
fn end_unserved(step: &Step, wrong: &mut Outcome) {
    if step.before.data_request {
        wrong.machine.status.lost_data = true;
        wrong.cell = step.cell();
        wrong.end();
    }
}

/// Passes over DRQ at 10, and looks at it at 11.
fn look_at_11(step: &Step, wrong: &mut Outcome) {
    if is_at(step, 11) {
        end_unserved(step, wrong);
    } else {
        *wrong = step.instead(|machine, _| machine.data_request = false);
        wrong.machine.data_request = step.before.data_request;
    }
}

fn write_00(_: &Step, wrong: &mut Outcome) {
    wrong.cell = 0;
}

fn write_plain(_: &Step, wrong: &mut Outcome) {
    wrong.cell %= FLAG;
}

/// Another mark is written, and the CRC starts with it.
pub fn write_mark(step: &Step, wrong: &mut Outcome, mark: DataMark) {
    wrong.cell = step.right.cell / FLAG * FLAG + u16::from(mark.byte());
    if let Activity::WritingRecord(write) = &mut wrong.machine.activity {
        write.field = field::mark_bytes(step.before.density, mark.byte());
    }
}

fn write_low_byte(step: &Step, wrong: &mut Outcome) {
    wrong.cell = write(step).map_or(0, |write| crc::of_field(&write.field) % 256);
}

/// Which cell after the mark this is, counted from 0.
fn cell_after_mark(step: &Step) -> Option<usize> {
    write(step)?.byte_times.checked_sub(to_mark(step))
}

fn is_data(step: &Step) -> bool {
    let size = write(step).map_or(0, |write| write.size);
    cell_after_mark(step).map_or(false, |place| place < size)
}

/// The cell with this number after the data, counted from 0: two of the CRC, and the FF.
fn is_after_data(step: &Step, number: usize) -> bool {
    let size = write(step).map_or(0, |write| write.size);
    cell_after_mark(step) == Some(size + number)
}

fn takes_00(step: &Step) -> bool {
    is_data(step) && step.before.data_request
}

fn take_late_byte(step: &Step, wrong: &mut Outcome) {
    *wrong = step.instead(|machine, _| machine.data_request = false);
    wrong.machine.status.lost_data = true;
}

/// The record ends, but not the command.
fn goes_on(step: &Step) -> bool {
    is_after_data(step, 2) && !step.ends()
}

fn stay_at_255(step: &Step, wrong: &mut Outcome) {
    wrong.machine.sector = step.before.sector.saturating_add(1);
}
