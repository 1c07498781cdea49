// The table of slips: sentences of the documents, and for each the ways to get it wrong.

mod accepting;
mod accepts;
mod chips;
mod eight_inch;
mod forcing;
mod formatting;
mod leave;
mod length_flag;
mod multiple_read;
mod old_marks;
mod power_on;
mod reading;
mod refusing;
mod registers;
mod retired;
mod ring;
mod searching;
mod sides;
mod status;
mod stepping;
mod turn;
mod verifying;
pub mod viewing;
mod writing;

use super::step::{Outcome, Step};

/// All subjects, in the order of document 01; after them those of requests i, b, f, h and m.
pub const SUBJECTS: [&Subject; 21] = [
    &ring::SUBJECT,
    &power_on::SUBJECT,
    &refusing::SUBJECT,
    &registers::SUBJECT,
    &status::SUBJECT,
    &accepting::SUBJECT,
    &forcing::SUBJECT,
    &stepping::SUBJECT,
    &verifying::SUBJECT,
    &searching::SUBJECT,
    &reading::SUBJECT,
    &writing::SUBJECT,
    &formatting::SUBJECT,
    &chips::SUBJECT,
    &sides::SUBJECT,
    &length_flag::SUBJECT,
    &multiple_read::SUBJECT,
    &old_marks::SUBJECT,
    &viewing::SUBJECT,
    &eight_inch::SUBJECT,
    &retired::SUBJECT,
];

pub struct Subject {
    /// The calls of which its sentences speak; in others nothing of it slips.
    concerns: fn(&Step) -> bool,
    sentences: &'static [Sentence],
}

/// A sentence, or a part of one.
struct Sentence {
    /// As the document has it, which is 01 or 02 where none is named; ".." stands where words are
    /// left out.
    says: &'static str,
    slips: &'static [Slip],
}

/// One way to get it wrong; all else is right.
struct Slip {
    /// What the wrong machine does.
    does: &'static str,
    /// The calls in which it does it.
    when: fn(&Step) -> bool,
    /// What comes of the call then; it begins as what is right.
    slip: fn(&Step, &mut Outcome),
}

/// A row of the table: a sentence, and one way to get it wrong.
#[derive(Clone, Copy)]
pub struct Row {
    /// Which row it is, from 0.
    pub number: usize,
    /// Which subject it belongs to, from 0.
    pub subject: usize,
    pub says: &'static str,
    slip: &'static Slip,
}

const fn slip(does: &'static str, when: fn(&Step) -> bool, slip: fn(&Step, &mut Outcome)) -> Slip {
    Slip { does, when, slip }
}

/// The rows of all subjects.
pub fn table() -> Vec<Row> {
    let subjects = SUBJECTS.iter().enumerate();
    let rows = subjects.flat_map(|(number, subject)| subject.rows(number));
    let numbered = rows.enumerate();
    numbered
        .map(|(number, row)| Row { number, ..row })
        .collect()
}

impl Subject {
    /// Its rows; it is the subject with this number.
    fn rows(&self, subject: usize) -> impl Iterator<Item = Row> + '_ {
        let row = move |says, slip| Row {
            number: 0,
            subject,
            says,
            slip,
        };
        let sentences = self.sentences.iter();
        sentences.flat_map(move |it| it.slips.iter().map(move |slip| row(it.says, slip)))
    }

    pub fn concerns(&self, step: &Step) -> bool {
        (self.concerns)(step)
    }
}

impl Row {
    /// What the wrong machine does.
    pub fn does(&self) -> &'static str {
        self.slip.does
    }

    /// What comes of a call in the wrong machine, where it is not what is right.
    pub fn wrong(&self, step: &Step) -> Option<Outcome> {
        if !SUBJECTS[self.subject].concerns(step) || !(self.slip.when)(step) {
            return None;
        }
        let mut outcome = step.right.clone();
        (self.slip.slip)(step, &mut outcome);
        Some(outcome).filter(|outcome| outcome != step.right)
    }
}
