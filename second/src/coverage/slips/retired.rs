// Slips of E0, E2, E4 and E6, which are no longer commands.

use super::{accepts, chips, refusing, sides, slip, turn, Sentence, Subject};
use crate::chip::Chip::{self, Wd1793, Wd1797};
use crate::command::RETIRED;
use crate::coverage::step::{Call, Outcome, Step};
use crate::lines::Lines;
use crate::number::{BUSY, NO_COMMAND};
use crate::status::{Status, StatusType};

const READ_ADDRESS: u8 = 0xC0;
const WRITE_TRACK: u8 = 0xF0;

pub const SUBJECT: Subject = Subject {
    concerns: |step| matches!(step.call, Call::Load { register: 0, .. }),
    sentences: SENTENCES,
};

const SENTENCES: &[Sentence] = &[
    Sentence {
        says: "On both chips E0, E2, E4, E6 are no longer commands.",
        slips: &[
            slip("E2 on the 1793", |step| is(step, Wd1793, 0xE2), take),
            slip("E6 on the 1793", |step| is(step, Wd1793, 0xE6), take),
            slip("E0 on the 1797", |step| is(step, Wd1797, 0xE0), take),
            slip("E2 on the 1797", |step| is(step, Wd1797, 0xE2), take),
            slip("E4 on the 1797", |step| is(step, Wd1797, 0xE4), take),
            slip("E6 on the 1797", |step| is(step, Wd1797, 0xE6), take),
            slip("they are Write Track", is_refused, take_as_write_track),
            slip("they end at once", is_refused, take_and_end),
            slip("nor is Read Address", accepts::read_address, chips::refuse),
            slip("nor is Write Track", accepts::write_track, chips::refuse),
        ],
    },
    Sentence {
        says: "For the 1793 the bytes refused are now 60.",
        slips: &[
            slip("59, not E0", |step| is(step, Wd1793, 0xE0), take),
            slip("59, not E4", |step| is(step, Wd1793, 0xE4), take),
            slip("58 still, neither E0 nor E4", was_taken_by_1793, take),
        ],
    },
    Sentence {
        says: "Refusals: 7 grows by these.",
        slips: &[
            slip("0", is_refused, refusing::be_done),
            slip("6", is_refused, |_, wrong| wrong.number = BUSY),
            slip("7 while Busy too", is_refused_while_busy, |_, wrong| {
                wrong.number = NO_COMMAND;
            }),
            slip("Busy comes on", is_refused, begin),
            slip("INTRQ comes on", is_refused, turn::intrq_on),
            slip("INTRQ goes off", is_refused, turn::intrq_off),
            slip("DRQ goes off", is_refused, turn::drq_off),
            slip("conditions are dropped", is_refused, turn::conditions_off),
            slip("the head is loaded", is_refused, turn::head_on),
            slip("the status is cleared", is_refused, clear_status),
            slip("U goes to the output", is_refused_by_1797, sides::show_u),
        ],
    },
];

/// The one of the four that a load has and that this number refuses.
fn refused(step: &Step, number: u8) -> Option<u8> {
    match step.call {
        Call::Load { byte, .. } if step.right.number == number => {
            Some(byte).filter(|byte| RETIRED.contains(byte))
        }
        _ => None,
    }
}

fn is_refused(step: &Step) -> bool {
    refused(step, NO_COMMAND).is_some()
}

fn is_refused_while_busy(step: &Step) -> bool {
    refused(step, BUSY).is_some()
}

/// This chip refuses this byte.
fn is(step: &Step, chip: Chip, byte: u8) -> bool {
    step.before.chip == chip && refused(step, NO_COMMAND) == Some(byte)
}

/// The 1793 refuses a byte that was a command of it.
fn was_taken_by_1793(step: &Step) -> bool {
    is(step, Wd1793, 0xE0) || is(step, Wd1793, 0xE4)
}

fn is_refused_by_1797(step: &Step) -> bool {
    step.before.chip == Wd1797 && is_refused(step)
}

/// Accepts the byte as a Type III command that is left, under these lines.
fn take_as(step: &Step, wrong: &mut Outcome, high_bits: u8, lines: Lines) {
    let flags = match step.before.chip {
        Wd1793 => 0b0100,
        Wd1797 => 0b0110,
    };
    if let Some(byte) = refused(step, NO_COMMAND) {
        let machine = step.before.clone();
        let answer = machine.load_register(0, high_bits | byte & flags, lines);
        *wrong = Outcome::of(answer.number, answer.machine);
    }
}

fn take(step: &Step, wrong: &mut Outcome) {
    take_as(step, wrong, READ_ADDRESS, step.lines);
}

fn take_as_write_track(step: &Step, wrong: &mut Outcome) {
    take_as(step, wrong, WRITE_TRACK, step.lines);
}

/// Ends as a command does that finds the drive not ready.
fn take_and_end(step: &Step, wrong: &mut Outcome) {
    let lines = Lines {
        ready: false,
        ..step.lines
    };
    take_as(step, wrong, READ_ADDRESS, lines);
}

/// Refuses the byte, and begins all the same.
fn begin(step: &Step, wrong: &mut Outcome) {
    take(step, wrong);
    wrong.number = NO_COMMAND;
}

fn clear_status(_: &Step, wrong: &mut Outcome) {
    wrong.machine.status = Status::clear(StatusType::Transfer);
}
