// Slips of U: the side output, and the side that an ID must bear.

use super::{accepts, leave, searching, slip, verifying, Sentence, Subject};
use crate::activity::Activity;
use crate::chip::Chip;
use crate::command::Command;
use crate::coverage::step::{Call, Outcome, Step};
use crate::field;
use crate::number::{BUSY, NO_COMMAND};

pub const SUBJECT: Subject = Subject {
    concerns: |step| step.right.machine.chip == Chip::Wd1797 && has_event(step),
    sentences: SENTENCES,
};

const SENTENCES: &[Sentence] = &[
    Sentence {
        says: "bit 3 of Type II becomes L and bit 1 becomes U; bit 1 of Type III commands is U \
               too",
        slips: &[
            slip("bit 3 goes to the output", accepts::type_two, show_bit_3),
            slip("bit 3 is the side asked", accepts::type_two, ask_for_bit_3),
            slip("bit 1 of Type II is C", accepts::type_two, ask_as_1793),
            slip("Type III has no U", accepts_type_three, clear),
        ],
    },
    Sentence {
        says: "U goes to the side output at acceptance",
        slips: &[
            slip(
                "not by Read Sector",
                accepts::read_sector,
                leave::side_output,
            ),
            slip(
                "not by Write Sector",
                accepts::write_sector,
                leave::side_output,
            ),
            slip("not by Type III", accepts_type_three, leave::side_output),
            slip("not if not ready", ends_not_ready, leave::side_output),
            slip("not if protected", ends_protected, leave::side_output),
            slip("it is 0 at the end", |step| step.ends(), clear),
            slip("by a byte that 6 refuses", |step| is(step, BUSY), show_u),
            slip(
                "by a byte that 7 refuses",
                |step| is(step, NO_COMMAND),
                show_u,
            ),
            slip("Force Interrupt sets it", accepts::force, show_u),
            slip("Force Interrupt clears it", accepts::force, clear),
        ],
    },
    Sentence {
        says: "Forced to logic 0 upon MASTER RESET (000, pin 25)",
        slips: &[
            slip("1 at power-on", powers_on, |_, wrong| {
                wrong.machine.side_output = 1;
            }),
            slip("power-on leaves it", powers_on, leave::side_output),
        ],
    },
    Sentence {
        says: "for Type II the ID's side must equal U",
        slips: &[
            slip("any side", accepts::type_two, ask_for_none),
            slip("for Read Sector alone", accepts::write_sector, ask_for_none),
            slip("for Write Sector alone", accepts::read_sector, ask_for_none),
            slip(
                "not for the next record of m",
                |step| step.begins_next_record(),
                ask_for_none,
            ),
            slip(
                "its low bit must",
                searching::meets_id,
                searching::match_low_bit,
            ),
            slip("for Read Address too", meets_id_mark, pass_other_side),
        ],
    },
    Sentence {
        says: "the SSO output is not affected during Type 1 commands, and an internal side \
               compare does not take place when the (V) Verify Flag is on. (000)",
        slips: &[
            slip("bit 1 goes there", accepts::type_one, show_u),
            slip("it goes to 0", accepts::type_one, clear),
            slip("V compares the side", verifying::meets_id, compare_side),
        ],
    },
];

/// A call, an ID or an ID mark that has passed, or the end of a record or of a command.
fn has_event(step: &Step) -> bool {
    let ends = step.ends() || step.begins_next_record();
    !step.passes() || step.may_end_id() || meets_id_mark(step) || ends
}

/// A load with this answer.
fn is(step: &Step, number: u8) -> bool {
    matches!(step.call, Call::Load { register: 0, .. }) && step.right.number == number
}

fn accepts_type_three(step: &Step) -> bool {
    step.accepts(|command| command.is_transfer() && !command.is_type_two())
}

/// This bit of the byte that a load has.
fn bit(step: &Step, place: u8) -> u8 {
    match step.call {
        Call::Load { byte, .. } => byte >> place & 1,
        _ => 0,
    }
}

fn ask_for_bit_3(step: &Step, wrong: &mut Outcome) {
    wrong.change_command(|command| command.side_asked = Some(bit(step, 3)));
}

/// With bit 1 the side must equal bit 3.
fn ask_as_1793(_: &Step, wrong: &mut Outcome) {
    let side_asked = |byte| Command::decode(byte, Chip::Wd1793)?.side_asked;
    wrong.change_command(|command| command.side_asked = side_asked(command.byte));
}

fn ask_for_none(_: &Step, wrong: &mut Outcome) {
    wrong.change_command(|command| command.side_asked = None);
}

fn ends_not_ready(step: &Step) -> bool {
    accepts::ending_at_once(step) && !step.lines.ready
}

fn ends_protected(step: &Step) -> bool {
    accepts::ending_at_once(step) && step.lines.ready
}

/// Bit 1 is shown on the output.
pub fn show_u(step: &Step, wrong: &mut Outcome) {
    wrong.machine.side_output = bit(step, 1);
}

fn show_bit_3(step: &Step, wrong: &mut Outcome) {
    wrong.machine.side_output = bit(step, 3);
}

fn clear(_: &Step, wrong: &mut Outcome) {
    wrong.machine.side_output = 0;
}

fn powers_on(step: &Step) -> bool {
    step.powers_on()
}

/// Read Address has met the mark of its ID.
fn meets_id_mark(step: &Step) -> bool {
    let has_met = |activity: &Activity| matches!(activity, Activity::ReadingAddress(_));
    step.passes() && has_met(&step.right.machine.activity) && !has_met(&step.before.activity)
}

/// The ID is passed over where its side is not the one on the output.
fn pass_other_side(step: &Step, wrong: &mut Outcome) {
    let side = step.row[(usize::from(step.before.position) + 2) % step.row.len()];
    if let Some(search) = step.search() {
        if field::byte_of(side) != step.before.side_output {
            *wrong = step.search_instead(search, 0);
        }
    }
}

/// The ID does not match where its side is not the one on the output.
fn compare_side(step: &Step, wrong: &mut Outcome) {
    if step.id().map(|id| id.side) != Some(step.before.side_output) {
        verifying::seek_track(step, wrong, !step.before.track);
    }
}
