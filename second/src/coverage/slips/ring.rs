// Slips of the ring and of runs.

use super::{slip, turn, Sentence, Subject};
use crate::coverage::step::{Call, Outcome, Step};
use crate::field::LARGEST_CELL;
use crate::machine::Direction;
use crate::number;

pub const SUBJECT: Subject = Subject {
    concerns: |step| step.call != Call::ByteTime || has_event(step),
    sentences: SENTENCES,
};

const SENTENCES: &[Sentence] = &[
    Sentence {
        says: "then the position goes up by one, and from L - 1 to 0.",
        slips: &[slip("it stays at L - 1", is_last_cell, stay)],
    },
    Sentence {
        says: "The byte time in which cell 0 passes is an index pulse, seen before the cell.",
        slips: &[slip("cell L - 1 too", is_last_cell, turn::index_on)],
    },
    Sentence {
        says: "stops after the first one that ends with DRQ or INTRQ on.",
        slips: &[
            slip("not with DRQ on", |step| step.passes(), go_on_with_drq),
            slip("not with INTRQ on", |step| step.passes(), go_on_with_intrq),
        ],
    },
    Sentence {
        says: "It counts step pulses in and out too.",
        slips: &[slip("out as in", |step| step.passes(), pulse_in)],
    },
    Sentence {
        says: "Limit 0 only makes the checks for 2 and 3.",
        slips: &[slip("the check for 4 too", is_run_of_none, check_cell)],
    },
];

/// A byte time at the ring's end, one with a step pulse, or one that stops a run.
fn has_event(step: &Step) -> bool {
    let machine = &step.right.machine;
    let stops = machine.data_request || machine.interrupt_request;
    is_last_cell(step) || step.right.pulse.is_some() || stops
}

fn is_last_cell(step: &Step) -> bool {
    step.passes() && step.before.position + 1 == step.before.length
}

fn stay(step: &Step, wrong: &mut Outcome) {
    wrong.machine.position = step.before.position;
}

fn go_on_with_drq(step: &Step, wrong: &mut Outcome) {
    let machine = &step.right.machine;
    wrong.goes_on = machine.data_request && !machine.interrupt_request;
}

fn go_on_with_intrq(step: &Step, wrong: &mut Outcome) {
    let machine = &step.right.machine;
    wrong.goes_on = machine.interrupt_request && !machine.data_request;
}

fn pulse_in(_: &Step, wrong: &mut Outcome) {
    wrong.pulse = wrong.pulse.map(|_| Direction::In);
}

/// A run with limit 0 that is not refused.
fn is_run_of_none(step: &Step) -> bool {
    step.call == Call::Run { limit: 0 } && step.right.number == number::DONE
}

fn check_cell(step: &Step, wrong: &mut Outcome) {
    if step.cell() > LARGEST_CELL {
        wrong.number = number::CELL;
    }
}
