// Slips of power-on: mostly something stays as it was.

use super::{leave, slip, Sentence, Subject};
use crate::coverage::step::{Outcome, Step};
use crate::density::Density;
use crate::machine::Direction;
use crate::number;

pub const SUBJECT: Subject = Subject {
    concerns: |step| step.powers_on(),
    sentences: SENTENCES,
};

const SENTENCES: &[Sentence] = &[
    Sentence {
        says: "Power-on is given L and density (FM or MFM), fixed from then on.",
        slips: &[slip("FM always", is_done, |_, wrong| {
            wrong.machine.density = Density::Fm;
        })],
    },
    Sentence {
        says: "It gives: position 0, track register (TR) 0, sector register (SR) 1, data register \
               (DR) 0, direction out, head unloaded, idle, Ready last seen off, DRQ and INTRQ \
               off, Type I status.",
        slips: &[
            slip("the position stays", is_done, leave_position),
            slip("TR stays", is_done, leave::track),
            slip("SR 0", is_done, |_, wrong| wrong.machine.sector = 0),
            slip("DR stays", is_done, leave::data),
            slip("direction in", is_done, |_, wrong| {
                wrong.machine.direction = Direction::In;
            }),
            slip("the head stays", is_done, leave::head),
            slip("a command goes on", is_done, leave::activity),
            slip("conditions stay", is_done, leave::conditions),
            slip("Ready stays as seen", is_done, |step, wrong| {
                wrong.machine.ready_seen = step.before.ready_seen;
            }),
            slip("DRQ stays", is_done, leave::data_request),
            slip("INTRQ stays", is_done, leave::interrupt_request),
            slip("the status stays", is_done, |step, wrong| {
                wrong.machine.status = step.before.status;
            }),
            slip("the index bit stays", is_done, |step, wrong| {
                wrong.machine.index_seen = step.before.index_seen;
            }),
        ],
    },
    Sentence {
        says: "1 | a length .. at power-on .. | power-on FM machine of 2,048",
        slips: &[slip(
            "the machine stays",
            |step| !is_done(step),
            |step, wrong| {
                wrong.machine = step.before.clone();
            },
        )],
    },
];

fn is_done(step: &Step) -> bool {
    step.right.number == number::DONE
}

fn leave_position(step: &Step, wrong: &mut Outcome) {
    if step.before.position < step.right.machine.length {
        wrong.machine.position = step.before.position;
    }
}
