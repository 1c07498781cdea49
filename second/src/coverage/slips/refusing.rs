// Slips of the refusals of the machine's calls.

use super::{accepts, slip, turn, Sentence, Subject};
use crate::activity::Activity;
use crate::command::Command;
use crate::coverage::step::{Call, Outcome, Step};
use crate::field::LARGEST_CELL;
use crate::machine;
use crate::number::{BUSY, CELL, DONE, MACHINE, NO_COMMAND, REGISTER, TRACK};

pub const SUBJECT: Subject = Subject {
    concerns: |step| step.right.number != DONE || matches!(step.call, Call::Load { .. }),
    sentences: SENTENCES,
};

const SENTENCES: &[Sentence] = &[
    Sentence {
        says: "2 | position not below L, L out of range, .. | machine as given",
        slips: &[
            slip("position L is taken", has_position_l, be_done),
            slip("L out of range is taken", has_no_length, be_done),
            slip("a read gives DR", |step| is(step, MACHINE), give_data),
            slip("a load loads DR", |step| is(step, MACHINE), load_data),
        ],
    },
    Sentence {
        says: "3 | lent track is not L cells | as given, track untouched",
        slips: &[
            slip("a longer one is taken", is_lent_more, be_done),
            slip("a shorter one is taken", is_lent_less, be_done),
        ],
    },
    Sentence {
        says: "4 | the cell under the head, .. is above 511 | as given",
        slips: &[
            slip("512 is taken", is_at_512, be_done),
            slip("the position goes up", |step| is(step, CELL), turn_ring),
        ],
    },
    Sentence {
        says: "5 | register number above 3 | as given, byte 0",
        slips: &[
            slip("it is taken", |step| is(step, REGISTER), be_done),
            slip("a read gives DR", |step| is(step, REGISTER), give_data),
        ],
    },
    Sentence {
        says: "6 | TR, SR or any command byte outside D0-DF loaded while Busy | as given",
        slips: &[
            slip("TR is loaded", |step| is_busy_load(step, 1), load),
            slip("SR is loaded", |step| is_busy_load(step, 2), load),
            slip("a command is accepted", |step| is_busy_load(step, 0), load),
            slip("DR is refused", |step| step.loads(3), refuse_busy),
            slip("D0-DF is refused", accepts::force, refuse_busy),
            slip("DRQ goes off", |step| is(step, BUSY), turn::drq_off),
        ],
    },
    Sentence {
        says: "7 | the byte is no command | as given",
        slips: &[
            slip(
                "odd 81-9F is taken",
                |step| is_no_command(step, 0x80),
                be_done,
            ),
            slip("C1-CF is taken", |step| is_no_command(step, 0xC0), be_done),
            slip("E0-EF is taken", |step| is_no_command(step, 0xE0), be_done),
            slip("F1-FF is taken", |step| is_no_command(step, 0xF0), be_done),
            slip(
                "INTRQ goes off",
                |step| is(step, NO_COMMAND),
                turn::intrq_off,
            ),
            slip("DRQ goes off", |step| is(step, NO_COMMAND), turn::drq_off),
        ],
    },
    Sentence {
        says: "Lowest first",
        slips: &[
            slip("5 before 2", names_no_register, |_, wrong| {
                wrong.number = REGISTER
            }),
            slip("6 before 2", is_guarded, |_, wrong| wrong.number = BUSY),
            slip("3 before 2", is_lent_other, |_, wrong| wrong.number = TRACK),
            slip("7 before 6", is_busy_no_command, |_, wrong| {
                wrong.number = NO_COMMAND
            }),
            slip("4 before 3", is_over_large_cell, |_, wrong| {
                wrong.number = CELL
            }),
        ],
    },
];

/// Refused with this number.
fn is(step: &Step, number: u8) -> bool {
    step.right.number == number
}

/// Says that the call is done, and does nothing.
pub fn be_done(_: &Step, wrong: &mut Outcome) {
    wrong.number = DONE;
}

fn length(step: &Step) -> usize {
    usize::from(step.before.length)
}

fn has_position_l(step: &Step) -> bool {
    is(step, MACHINE) && step.before.position == step.before.length
}

fn has_no_length(step: &Step) -> bool {
    is(step, MACHINE) && !machine::length_in_range(length(step))
}

fn give_data(step: &Step, wrong: &mut Outcome) {
    if matches!(step.call, Call::Read { .. }) {
        wrong.byte = step.before.data;
    }
}

fn load_data(step: &Step, wrong: &mut Outcome) {
    if let Call::Load { byte, .. } = step.call {
        wrong.machine.data = byte;
    }
}

fn is_lent_more(step: &Step) -> bool {
    is(step, TRACK) && step.row.len() > length(step)
}

fn is_lent_less(step: &Step) -> bool {
    is(step, TRACK) && step.row.len() < length(step)
}

fn is_at_512(step: &Step) -> bool {
    is(step, CELL) && step.cell() == LARGEST_CELL + 1
}

fn turn_ring(step: &Step, wrong: &mut Outcome) {
    wrong.machine.position = (step.before.position + 1) % step.before.length;
}

/// The byte that a load has for this register, refused or not.
fn byte_for(step: &Step, register: u8) -> Option<u8> {
    match step.call {
        Call::Load { register: to, byte } if to == register => Some(byte),
        _ => None,
    }
}

fn is_busy_load(step: &Step, register: u8) -> bool {
    is(step, BUSY) && byte_for(step, register).is_some()
}

/// Does what an idle machine would do; only a command changes what is under way.
fn load(step: &Step, wrong: &mut Outcome) {
    *wrong = step.instead(|machine, _| machine.activity = Activity::Idle);
    if !wrong.machine.is_busy() {
        wrong.machine.activity = step.before.activity.clone();
    }
}

fn refuse_busy(step: &Step, wrong: &mut Outcome) {
    if step.before.is_busy() {
        *wrong = Outcome::of(BUSY, step.before.clone());
    }
}

/// A byte with these high bits that 7 refuses. Of 80 and 90 the odd ones are no commands.
fn is_no_command(step: &Step, high_bits: u8) -> bool {
    let mask = if high_bits == 0x80 { 0xE0 } else { 0xF0 };
    let byte = byte_for(step, 0).filter(|byte| byte & mask == high_bits);
    is(step, NO_COMMAND) && byte.is_some()
}

fn names_no_register(step: &Step) -> bool {
    let register = match step.call {
        Call::Load { register, .. } | Call::Read { register } => register,
        _ => 0,
    };
    is(step, MACHINE) && register > 3
}

/// A load that 6 would refuse.
fn is_guarded(step: &Step) -> bool {
    let command = byte_for(step, 0).map_or(false, |byte| !(0xD0..=0xDF).contains(&byte));
    let register = byte_for(step, 1).or_else(|| byte_for(step, 2)).is_some();
    is(step, MACHINE) && step.before.is_busy() && (command || register)
}

fn is_lent_other(step: &Step) -> bool {
    let is_lent = matches!(step.call, Call::ByteTime | Call::Run { .. });
    is(step, MACHINE) && is_lent && step.row.len() != length(step)
}

fn is_busy_no_command(step: &Step) -> bool {
    let is_none = |byte| Command::decode(byte, step.before.chip).is_none();
    is(step, BUSY) && byte_for(step, 0).map_or(false, is_none)
}

fn is_over_large_cell(step: &Step) -> bool {
    is(step, TRACK) && step.cell() > LARGEST_CELL
}
