// Slips of Write Track.

use super::{accepts, leave, slip, turn, Sentence, Subject};
use crate::activity::{Activity, TrackWrite};
use crate::command::Name;
use crate::coverage::step::{Outcome, Step};
use crate::crc;
use crate::density::Density::{self, Fm, Mfm};
use crate::field::FLAG;

const CRC_BYTE: u8 = 0xF7;
/// A Write Track that has written nothing yet.
const BEGUN: TrackWrite = TrackWrite {
    crc: crc::PRESET,
    second_of_f7: false,
};

pub const SUBJECT: Subject = Subject {
    concerns: |step| step.loads(0) || awaits_pulse(step) || write(step).is_some(),
    sentences: SENTENCES,
};

const SENTENCES: &[Sentence] = &[
    Sentence {
        says: "DRQ at acceptance, unless it ends at once; still on at the first pulse: Lost Data, \
               end.",
        slips: &[
            slip("DRQ stays off", accepts::write_track, turn::drq_off),
            slip("DRQ if it ends at once", accepts::write_track, turn::drq_on),
            slip("Lost Data stays off", ends_unserved, turn::lost_data_off),
            slip("it does not end", ends_unserved, begin),
            slip("DRQ goes off", ends_unserved, turn::drq_off),
        ],
    },
    Sentence {
        says: "Else L cells from that pulse, each from DR, 00 with Lost Data where DRQ is still \
               on; then DRQ again; cell L - 1 ends it, DRQ off.",
        slips: &[
            slip("from the first byte time", begins_before_pulse, begin),
            slip("DR though DRQ is on", writes_00, write_late_byte),
            slip("Lost Data stays off", writes_00, leave::lost_data),
            slip("DRQ stays off", |step| write(step).is_some(), turn::drq_off),
            slip("cell L - 1 does not end it", ends, write_on),
            slip("DRQ at the end", ends, turn::drq_on),
        ],
    },
    Sentence {
        says: "F7 writes two CRC cells for one byte, and DRQ comes with the second.",
        slips: &[
            slip("one CRC cell", writes_second, write_one_cell),
            slip("DRQ comes with the first", writes_first, turn::drq_on),
            slip("a load before it serves it", writes_second, serve_early),
        ],
    },
    Sentence {
        says: "F7 at the last cell writes only the high byte.",
        slips: &[slip("the low byte", writes_last_f7, write_low_byte)],
    },
    Sentence {
        says: "FM: F8-FB and FE flagged with preset, FC flagged.",
        slips: &[
            slip("F8: no preset", |step| writes(step, Fm, 0xF8), take_as_any),
            slip("F9: no preset", |step| writes(step, Fm, 0xF9), take_as_any),
            slip("FA: no preset", |step| writes(step, Fm, 0xFA), take_as_any),
            slip("FB: no preset", |step| writes(step, Fm, 0xFB), take_as_any),
            slip("FE: no preset", |step| writes(step, Fm, 0xFE), take_as_any),
            slip("F9 plain", |step| writes(step, Fm, 0xF9), write_plain),
            slip("FA plain", |step| writes(step, Fm, 0xFA), write_plain),
            slip("FC plain", |step| writes(step, Fm, 0xFC), write_plain),
        ],
    },
    Sentence {
        says: "Easy slips: .. presetting CRC on FC.",
        slips: &[slip("FC presets", |step| writes(step, Fm, 0xFC), preset)],
    },
    Sentence {
        says: "MFM: F5 flagged A1, register CDB4 after it; F6 flagged C2.",
        slips: &[
            slip("F5 plain A1", |step| writes(step, Mfm, 0xF5), write_plain),
            slip("A1 as any byte", |step| writes(step, Mfm, 0xF5), take_a1),
            slip("F6 plain C2", |step| writes(step, Mfm, 0xF6), write_plain),
            slip(
                "F6 for C2 in the CRC",
                |step| writes(step, Mfm, 0xF6),
                take_as_any,
            ),
        ],
    },
    Sentence {
        says: "All else plain.",
        slips: &[
            slip(
                "F5 flagged (FM)",
                |step| writes(step, Fm, 0xF5),
                write_flagged,
            ),
            slip(
                "FD flagged (FM)",
                |step| writes(step, Fm, 0xFD),
                write_flagged,
            ),
            slip(
                "FF flagged (FM)",
                |step| writes(step, Fm, 0xFF),
                write_flagged,
            ),
            slip(
                "FC flagged (MFM)",
                |step| writes(step, Mfm, 0xFC),
                write_flagged,
            ),
            slip(
                "FE flagged (MFM)",
                |step| writes(step, Mfm, 0xFE),
                write_flagged,
            ),
        ],
    },
    Sentence {
        says: "CRC starts at FFFF and takes every byte.",
        slips: &[
            slip("it starts at 0000", begins_to_write, begin_at_0000),
            slip("not the CRC cells", writes_second, preset_after_crc),
            slip("not 00 for a late byte", writes_00, take_nothing),
        ],
    },
];

fn begins(step: &Step) -> bool {
    step.begins().map(|command| command.name) == Some(Name::WriteTrack)
}

fn begins_before_pulse(step: &Step) -> bool {
    begins(step) && !step.is_pulse()
}

/// Write Track has not met its first pulse before this byte time.
pub fn awaits_pulse(step: &Step) -> bool {
    match &step.before.activity {
        Activity::AwaitingIndex => step.passes(),
        _ => begins(step),
    }
}

fn begins_to_write(step: &Step) -> bool {
    awaits_pulse(step) && step.is_pulse() && !step.before.data_request
}

fn ends_unserved(step: &Step) -> bool {
    awaits_pulse(step) && step.is_pulse() && step.before.data_request
}

/// The Write Track that writes in this byte time, as it is before it.
fn write(step: &Step) -> Option<TrackWrite> {
    match &step.before.activity {
        Activity::WritingTrack(write) if step.passes() => Some(write.clone()),
        _ => Some(BEGUN).filter(|_| begins_to_write(step)),
    }
}

fn ends(step: &Step) -> bool {
    write(step).is_some() && step.ends()
}

/// The next cell is the first of another round.
fn write_on(_: &Step, wrong: &mut Outcome) {
    wrong.machine.interrupt_request = false;
    wrong.machine.data_request = true;
    wrong.machine.activity = Activity::WritingTrack(BEGUN);
}

/// Writes in this byte time as if Write Track were here.
fn write_as(step: &Step, wrong: &mut Outcome, write: TrackWrite) {
    *wrong = step.instead(|machine, _| machine.activity = Activity::WritingTrack(write.clone()));
}

fn begin(step: &Step, wrong: &mut Outcome) {
    write_as(step, wrong, BEGUN);
}

fn begin_at_0000(step: &Step, wrong: &mut Outcome) {
    write_as(step, wrong, TrackWrite { crc: 0, ..BEGUN });
}

/// Writes the byte of DR where the second cell should be.
fn write_one_cell(step: &Step, wrong: &mut Outcome) {
    let crc = crc_before(step);
    write_as(step, wrong, TrackWrite { crc, ..BEGUN });
}

fn writes_second(step: &Step) -> bool {
    write(step).map_or(false, |write| write.second_of_f7)
}

/// DRQ does not come where DR has been loaded after the first cell.
fn serve_early(step: &Step, wrong: &mut Outcome) {
    wrong.machine.data_request &= step.before.data == CRC_BYTE;
}

fn writes_00(step: &Step) -> bool {
    step.before.data_request && write(step).map_or(false, |write| !write.second_of_f7)
}

fn write_late_byte(step: &Step, wrong: &mut Outcome) {
    *wrong = step.instead(|machine, _| machine.data_request = false);
    wrong.machine.status.lost_data = true;
}

/// The cell is made from this byte of DR.
fn writes(step: &Step, density: Density, byte: u8) -> bool {
    let machine = step.before;
    let is_byte = machine.density == density && machine.data == byte && !machine.data_request;
    is_byte && write(step).map_or(false, |write| !write.second_of_f7)
}

/// The first of the two cells of an F7, and there is a second.
fn writes_first(step: &Step) -> bool {
    writes(step, step.before.density, CRC_BYTE) && !step.ends()
}

fn writes_last_f7(step: &Step) -> bool {
    writes(step, step.before.density, CRC_BYTE) && step.ends()
}

fn write_low_byte(step: &Step, wrong: &mut Outcome) {
    wrong.cell = crc_before(step) % 256;
}

fn write_plain(_: &Step, wrong: &mut Outcome) {
    wrong.cell %= FLAG;
}

fn write_flagged(_: &Step, wrong: &mut Outcome) {
    wrong.cell |= FLAG;
}

fn crc_before(step: &Step) -> u16 {
    write(step).map_or(crc::PRESET, |write| write.crc)
}

fn set_crc(wrong: &mut Outcome, register: u16) {
    if let Activity::WritingTrack(write) = &mut wrong.machine.activity {
        write.crc = register;
    }
}

/// The register takes the byte of DR as any other.
fn take_as_any(step: &Step, wrong: &mut Outcome) {
    set_crc(wrong, crc::take_byte(crc_before(step), step.before.data));
}

fn take_a1(step: &Step, wrong: &mut Outcome) {
    set_crc(wrong, crc::take_byte(crc_before(step), 0xA1));
}

fn take_nothing(step: &Step, wrong: &mut Outcome) {
    set_crc(wrong, crc_before(step));
}

fn preset(step: &Step, wrong: &mut Outcome) {
    set_crc(wrong, crc::take_byte(crc::PRESET, step.before.data));
}

fn preset_after_crc(_: &Step, wrong: &mut Outcome) {
    set_crc(wrong, crc::PRESET);
}
