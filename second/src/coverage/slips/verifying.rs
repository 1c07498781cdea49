// Slips of the verify that ends Type I.

use super::{leave, slip, turn, Sentence, Subject};
use crate::activity::{Activity, Search, Settling};
use crate::command::Command;
use crate::coverage::step::{Outcome, Step};
use crate::density::Density;

pub const SUBJECT: Subject = Subject {
    concerns: |step| step.decides().is_some() || awaits_head(step) || verifies(step),
    sentences: SENTENCES,
};

const SENTENCES: &[Sentence] = &[Sentence {
    says: "V: load head, settle 469/938 from the next byte time, wait for HLT, then seek an ID \
           whose track is TR; none by the fifth pulse is Seek Error.",
    slips: &[
        slip(
            "the head stays",
            |step| settling(step).is_some(),
            leave::head,
        ),
        slip("470 (FM)", |step| settles(step, Density::Fm), settle_longer),
        slip(
            "468 (FM)",
            |step| settles(step, Density::Fm),
            settle_shorter,
        ),
        slip(
            "937 (MFM)",
            |step| settles(step, Density::Mfm),
            settle_shorter,
        ),
        slip("HLT is not awaited", awaits_head, seek_without_head),
        slip("it seeks a byte time later", awaits_head, seek_later),
        slip("of any track", meets_id, seek_any_track),
        slip("whose track is DR", meets_id, seek_data),
        slip("and whose sector is SR", meets_id, seek_sector),
        slip("no Seek Error", verifies, turn::bit_4_off),
        slip("by the fourth", meets_fourth_pulse, turn::busy_off_bit_4_on),
    ],
}];

/// The settling after the stepping.
fn settling<'a>(step: &'a Step) -> Option<&'a Settling> {
    match &step.right.machine.activity {
        Activity::Settling(settling) if step.decides().is_some() => Some(settling),
        _ => None,
    }
}

fn settles(step: &Step, density: Density) -> bool {
    settling(step).is_some() && step.before.density == density
}

fn settle_longer(_: &Step, wrong: &mut Outcome) {
    if let Activity::Settling(settling) = &mut wrong.machine.activity {
        settling.left += 1;
    }
}

fn settle_shorter(_: &Step, wrong: &mut Outcome) {
    if let Activity::Settling(settling) = &mut wrong.machine.activity {
        settling.left -= 1;
    }
}

fn is_verify(command: Option<Command>) -> bool {
    command.map_or(false, Command::is_type_one)
}

/// The head has settled, and HLT is looked at.
fn awaits_head(step: &Step) -> bool {
    is_verify(step.awaits_head())
}

fn verifies(step: &Step) -> bool {
    is_verify(step.searches())
}

pub fn meets_id(step: &Step) -> bool {
    verifies(step) && step.id().is_some()
}

fn meets_fourth_pulse(step: &Step) -> bool {
    verifies(step) && step.is_pulse() && step.pulses() == 3
}

fn seek_without_head(step: &Step, wrong: &mut Outcome) {
    *wrong = step.instead(|_, lines| lines.head_loaded = true);
}

/// Only the ring turns in the byte time that has HLT on.
fn seek_later(step: &Step, wrong: &mut Outcome) {
    if let Some(command) = step.begins() {
        *wrong = step.instead(|machine, _| machine.activity = Activity::Idle);
        wrong.machine.activity = Activity::Searching(Search::new(command));
    }
}

/// As if TR were this in this byte time.
pub fn seek_track(step: &Step, wrong: &mut Outcome, track: u8) {
    *wrong = step.instead(|machine, _| machine.track = track);
    wrong.machine.track = step.before.track;
}

fn seek_any_track(step: &Step, wrong: &mut Outcome) {
    seek_track(step, wrong, step.id().map_or(0, |id| id.track));
}

fn seek_data(step: &Step, wrong: &mut Outcome) {
    seek_track(step, wrong, step.before.data);
}

fn seek_sector(step: &Step, wrong: &mut Outcome) {
    if step.id().map(|id| id.sector) != Some(step.before.sector) {
        seek_track(step, wrong, !step.before.track);
    }
}
