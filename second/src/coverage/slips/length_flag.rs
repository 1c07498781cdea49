// Slips of L, the 1797's flag for what the length codes mean.

use super::{accepts, slip, Sentence, Subject};
use crate::chip::Chip;
use crate::coverage::step::{Outcome, Step};
use crate::field::LengthCodes;

pub const SUBJECT: Subject = Subject {
    concerns: |step| step.before.chip == Chip::Wd1797 && has_event(step),
    sentences: SENTENCES,
};

const SENTENCES: &[Sentence] = &[Sentence {
    says: "With L 1 the length codes are as before; with L 0 the codes 0 to 3 mean 256, 512, \
           1,024, 128.",
    slips: &[
        slip(
            "L 0 and L 1 change places",
            accepts::type_two,
            change_places,
        ),
        slip("as before with L 0 too", accepts::type_two, be_ibm),
        slip("with L 1 as with L 0", accepts::type_two, be_non_ibm),
        slip("Read Sector ignores L", accepts::read_sector, be_ibm),
        slip("Write Sector ignores L", accepts::write_sector, be_ibm),
        slip(
            "the next record of m ignores L",
            |step| step.begins_next_record(),
            be_ibm,
        ),
        slip("with L 0 code 3 means 1,024", meets_code_3, |_, wrong| {
            wrong.set_size(1024);
        }),
    ],
}];

/// A command is accepted, an ID may end, or another record is searched for.
fn has_event(step: &Step) -> bool {
    step.loads(0) || step.may_end_id() || step.begins_next_record()
}

fn be_ibm(_: &Step, wrong: &mut Outcome) {
    wrong.change_command(|command| command.length_codes = LengthCodes::Ibm);
}

fn be_non_ibm(_: &Step, wrong: &mut Outcome) {
    wrong.change_command(|command| command.length_codes = LengthCodes::NonIbm);
}

fn change_places(_: &Step, wrong: &mut Outcome) {
    wrong.change_command(|command| {
        command.length_codes = match command.length_codes {
            LengthCodes::Ibm => LengthCodes::NonIbm,
            LengthCodes::NonIbm => LengthCodes::Ibm,
        }
    });
}

/// An ID with length code 3 ends in the search of a command with L 0.
fn meets_code_3(step: &Step) -> bool {
    let codes = step.searches().map(|command| command.length_codes);
    codes == Some(LengthCodes::NonIbm) && step.id().map_or(false, |id| id.length & 3 == 3)
}
