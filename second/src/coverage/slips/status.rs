// Slips of the status byte, as it is looked at.

use super::{slip, Sentence, Subject};
use crate::coverage::step::{has_transfer_status, Call, Step};
use crate::status::{
    DATA_REQUEST, DELETED, HEAD_LOADED, INDEX, LOST_DATA, NOT_READY, PROTECTED, TRACK_0,
};

pub const SUBJECT: Subject = Subject {
    concerns: |step| step.call == Call::Look || step.before.index_seen,
    sentences: SENTENCES,
};

const SENTENCES: &[Sentence] = &[
    Sentence {
        says: "The status bits bear names: Not Ready 7; 6 protected; 5 head loaded and HLT on \
               (Type I) or deleted mark (read); 4 Seek Error or Record Not Found; 3 CRC; 2 track \
               0 (Type I) or Lost Data; 1 index (Type I) or DRQ; 0 Busy.",
        slips: &[
            slip(
                "5 is HLT alone",
                |step| looks_at_type_one(step) && step.lines.head_loaded,
                |_, wrong| wrong.byte |= HEAD_LOADED,
            ),
            slip(
                "5 is the loaded head alone",
                |step| looks_at_type_one(step) && step.before.head_loaded,
                |_, wrong| wrong.byte |= HEAD_LOADED,
            ),
            slip(
                "5 is the head for Types II and III too",
                |step| looks_at_transfer(step) && step.before.head_loaded && step.lines.head_loaded,
                |_, wrong| wrong.byte |= DELETED,
            ),
            slip(
                "2 is track 0 for Types II and III too",
                |step| looks_at_transfer(step) && step.lines.track_0,
                |_, wrong| wrong.byte |= LOST_DATA,
            ),
            slip(
                "1 is DRQ for Type I too",
                |step| looks_at_type_one(step) && step.before.data_request,
                |_, wrong| wrong.byte |= DATA_REQUEST,
            ),
            slip(
                "1 is the index for Types II and III too",
                |step| looks_at_transfer(step) && step.before.index_seen,
                |_, wrong| wrong.byte |= INDEX,
            ),
        ],
    },
    Sentence {
        says: "Bits 7 and, for Type I, 6, 5, 2 follow the lines at the read; index is on if the \
               last byte time was a pulse.",
        slips: &[
            slip(
                "7 is as the last byte time saw Ready",
                |step| looks(step) && step.lines.ready != step.before.ready_seen,
                |_, wrong| wrong.byte ^= NOT_READY,
            ),
            slip("6 stays off", looks_at_type_one, |_, wrong| {
                wrong.byte &= !PROTECTED;
            }),
            slip("2 stays off", looks_at_type_one, |_, wrong| {
                wrong.byte &= !TRACK_0;
            }),
            slip("index stays off", looks_at_type_one, |_, wrong| {
                wrong.byte &= !INDEX;
            }),
            slip(
                "index stays on",
                |step| step.passes() && step.before.index_seen,
                |_, wrong| wrong.machine.index_seen = true,
            ),
        ],
    },
    Sentence {
        says: "For Types II and III bit 6 is set only by a write refused for protection.",
        slips: &[slip(
            "it follows the line",
            |step| looks_at_transfer(step) && step.lines.protect,
            |_, wrong| wrong.byte |= PROTECTED,
        )],
    },
];

/// The status byte of a machine that can be read.
fn looks(step: &Step) -> bool {
    step.call == Call::Look && step.before.is_in_range()
}

fn looks_at_type_one(step: &Step) -> bool {
    looks(step) && !has_transfer_status(step.before)
}

fn looks_at_transfer(step: &Step) -> bool {
    looks(step) && has_transfer_status(step.before)
}
