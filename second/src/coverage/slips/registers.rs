// Slips of reading and loading registers, and of which command a byte is.

use super::{accepts, leave, slip, turn, Sentence, Subject};
use crate::coverage::step::{Call, Outcome, Step};

pub const SUBJECT: Subject = Subject {
    concerns: |step| matches!(step.call, Call::Load { .. } | Call::Read { .. }),
    sentences: SENTENCES,
};

const SENTENCES: &[Sentence] = &[
    Sentence {
        says: "Reads 0 to 3: status, TR, SR, DR.",
        slips: &[
            slip("0 reads DR", |step| step.reads(0), give_data),
            slip("1 reads DR", |step| step.reads(1), give_data),
            slip("2 reads DR", |step| step.reads(2), give_data),
            slip("3 reads TR", |step| step.reads(3), give_track),
        ],
    },
    Sentence {
        says: "Writes 0 to 3: command, TR, SR, DR.",
        slips: &[
            slip("1 loads nothing", |step| step.loads(1), leave::track),
            slip("2 loads nothing", |step| step.loads(2), leave::sector),
            slip("3 loads nothing", |step| step.loads(3), leave::data),
        ],
    },
    Sentence {
        says: "Reading or loading DR turns DRQ off.",
        slips: &[
            slip(
                "reading does not",
                |step| step.reads(3),
                leave::data_request,
            ),
            slip(
                "loading does not",
                |step| step.loads(3),
                leave::data_request,
            ),
            slip("reading status too", |step| step.reads(0), turn::drq_off),
        ],
    },
    Sentence {
        says: "Reading status or loading an accepted command turns INTRQ off.",
        slips: &[
            slip(
                "reading does not",
                |step| step.reads(0),
                leave::interrupt_request,
            ),
            slip(
                "Type I does not",
                accepts::type_one,
                leave::interrupt_request,
            ),
            slip(
                "II and III do not",
                accepts::transfer,
                leave::interrupt_request,
            ),
            slip("Force does not", accepts::force, leave::interrupt_request),
            slip("reading DR too", |step| step.reads(3), turn::intrq_off),
        ],
    },
    Sentence {
        says: "Commands: 00-0F Restore, 10-1F Seek, 20-3F Step, 40-5F Step-in, 60-7F Step-out, \
               all Type I; even 80-9E Read Sector; A0-BF Write Sector; C0, C4 Read Address; .. \
               F0, F4 Write Track; D0-DF Force Interrupt.",
        slips: &[
            slip("10-1F Restore", |step| takes(step, 0x10), as_restore),
            slip("30-3F Step-in", |step| takes(step, 0x30), as_step_in),
            slip("50-5F Step-out", |step| takes(step, 0x50), as_step_out),
            slip("70-7F Step", |step| takes(step, 0x70), as_step),
        ],
    },
];

fn give_data(step: &Step, wrong: &mut Outcome) {
    wrong.byte = step.before.data;
}

fn give_track(step: &Step, wrong: &mut Outcome) {
    wrong.byte = step.before.track;
}

/// Accepts a command byte with these high bits.
fn takes(step: &Step, high_bits: u8) -> bool {
    let byte = step.accepted().map(|command| command.byte);
    byte.map_or(false, |byte| byte & 0xF0 == high_bits)
}

/// Accepts the command byte as one with other high bits.
fn take_as(step: &Step, wrong: &mut Outcome, high_bits: u8) {
    let low_bits = step.accepted().map_or(0, |command| command.byte & 0x0F);
    let machine = step.before.clone();
    let answer = machine.load_register(0, high_bits | low_bits, step.lines);
    wrong.machine = answer.machine;
}

fn as_restore(step: &Step, wrong: &mut Outcome) {
    take_as(step, wrong, 0x00);
}

fn as_step_in(step: &Step, wrong: &mut Outcome) {
    take_as(step, wrong, 0x50);
}

fn as_step_out(step: &Step, wrong: &mut Outcome) {
    take_as(step, wrong, 0x70);
}

fn as_step(step: &Step, wrong: &mut Outcome) {
    take_as(step, wrong, 0x30);
}
