// Slips of which chip it is, and of what belongs to one of them only.

use super::{accepts, slip, Sentence, Subject};
use crate::chip::Chip;
use crate::command::Command;
use crate::coverage::step::{Call, Outcome, Step};
use crate::number::{DONE, NO_COMMAND};

/// U of Type III.
const SIDE_SELECT: u8 = 2;

pub const SUBJECT: Subject = Subject {
    concerns: |step| step.powers_on() || matches!(step.call, Call::Load { .. } | Call::Look),
    sentences: SENTENCES,
};

const SENTENCES: &[Sentence] = &[
    Sentence {
        says: "Power-on names the chip.",
        slips: &[
            slip("the 1793 always", powers_on, be_1793),
            slip("the 1797 always", powers_on, |_, wrong| {
                wrong.machine.chip = Chip::Wd1797;
            }),
            slip("the chip stays", powers_on, leave_chip),
            slip("a refused one gives the 1793", is_refused, be_1793),
            slip("a refused one leaves the chip", is_refused, leave_chip),
        ],
    },
    Sentence {
        says: "so C2, C6, .. F2, F6 become commands for this chip only.",
        slips: &[
            slip("C2, C6 refused", |step| takes(step, 0xC0), refuse),
            slip("F2, F6 refused", |step| takes(step, 0xF0), refuse),
            slip("C2, C6 on the 1793", |step| refuses(step, 0xC0), take),
            slip("F2, F6 on the 1793", |step| refuses(step, 0xF0), take),
        ],
    },
    Sentence {
        says: "All 1793 answers stay",
        slips: &[
            slip("it shows a side output", looks_at_1793, |step, wrong| {
                wrong.side_output = Some(step.before.side_output);
            }),
            slip("the ID's side must equal bit 1", begins_1793, ask_for_u),
            slip("bit 3 is L", begins_1793, have_length_flag),
        ],
    },
];

fn powers_on(step: &Step) -> bool {
    step.powers_on() && step.right.number == DONE
}

fn is_refused(step: &Step) -> bool {
    step.powers_on() && step.right.number != DONE
}

fn be_1793(_: &Step, wrong: &mut Outcome) {
    wrong.machine.chip = Chip::Wd1793;
}

fn leave_chip(step: &Step, wrong: &mut Outcome) {
    wrong.machine.chip = step.before.chip;
}

/// The byte that a load answers with this number, if it is one of Type III with U.
fn type_three_with_side(step: &Step, number: u8) -> Option<u8> {
    match step.call {
        Call::Load { register: 0, byte } if step.right.number == number => {
            Some(byte).filter(|&byte| byte >= 0xC0 && byte & 0b1011 == SIDE_SELECT)
        }
        _ => None,
    }
}

/// A byte with these high bits that only the 1797 takes, and that it takes.
fn takes(step: &Step, high_bits: u8) -> bool {
    let byte = type_three_with_side(step, DONE);
    byte.map_or(false, |byte| byte & 0xF0 == high_bits)
}

/// The byte is no command.
pub fn refuse(step: &Step, wrong: &mut Outcome) {
    *wrong = Outcome::of(NO_COMMAND, step.before.clone());
}

/// A byte with these high bits that only the 1797 takes, and that the 1793 refuses.
fn refuses(step: &Step, high_bits: u8) -> bool {
    let byte = type_three_with_side(step, NO_COMMAND);
    byte.map_or(false, |byte| byte & 0xF0 == high_bits)
}

/// Does what the byte without U does.
fn take(step: &Step, wrong: &mut Outcome) {
    if let Some(byte) = type_three_with_side(step, NO_COMMAND) {
        let machine = step.before.clone();
        let answer = machine.load_register(0, byte & !SIDE_SELECT, step.lines);
        *wrong = Outcome::of(answer.number, answer.machine);
    }
}

fn looks_at_1793(step: &Step) -> bool {
    step.call == Call::Look && step.before.chip == Chip::Wd1793
}

/// A 1793 accepts a sector command.
fn begins_1793(step: &Step) -> bool {
    step.before.chip == Chip::Wd1793 && accepts::type_two(step)
}

/// What the same byte asks a 1797 for.
fn on_1797(command: Command) -> Command {
    Command::decode(command.byte, Chip::Wd1797).unwrap_or(command)
}

fn ask_for_u(_: &Step, wrong: &mut Outcome) {
    wrong.change_command(|command| command.side_asked = on_1797(*command).side_asked);
}

fn have_length_flag(_: &Step, wrong: &mut Outcome) {
    wrong.change_command(|command| command.length_codes = on_1797(*command).length_codes);
}
