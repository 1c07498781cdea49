// Slips of accepting a command, and of how Types II and III begin.

use super::{accepts, leave, slip, turn, Sentence, Subject};
use crate::activity::{Activity, Search, Settling};
use crate::command::{Command, Name};
use crate::coverage::step::{has_transfer_status, Outcome, Step};
use crate::density::Density;

pub const SUBJECT: Subject = Subject {
    concerns: |step| step.loads(0) || step.passes() && step.before.is_busy(),
    sentences: SENTENCES,
};

const SENTENCES: &[Sentence] = &[
    Sentence {
        says: "An accepted command other than Force Interrupt sets Busy and clears bits 3, 4, \
               Lost Data, type bits and DRQ.",
        slips: &[
            slip("bit 3 stays (I)", accepts::type_one, leave::crc_error),
            slip("bit 3 stays (II, III)", accepts::transfer, leave::crc_error),
            slip("bit 4 stays (I)", accepts::type_one, leave::not_found),
            slip("bit 4 stays (II, III)", accepts::transfer, leave::not_found),
            slip("Lost Data stays", accepts::transfer, leave::lost_data),
            slip("bit 5 stays", accepts::transfer, leave::deleted),
            slip("bit 6 stays", accepts::transfer, leave_refused),
            slip("DRQ stays (I)", accepts::type_one, leave::data_request),
            slip(
                "DRQ stays (Read Sector)",
                accepts::read_sector,
                leave::data_request,
            ),
            slip(
                "DRQ stays (Write Sector)",
                accepts::write_sector,
                leave::data_request,
            ),
            slip(
                "DRQ stays (Read Address)",
                accepts::read_address,
                leave::data_request,
            ),
        ],
    },
    Sentence {
        says: "When it ends by itself, Busy goes off and INTRQ on in that byte time.",
        slips: &[
            slip("INTRQ stays off (I)", ends_type_one, turn::intrq_off),
            slip("INTRQ stays off (II, III)", ends_transfer, turn::intrq_off),
        ],
    },
    Sentence {
        says: "Types II and III then look: not ready ends it at once with INTRQ; next, a write \
               under protection sets bit 6 and ends it.",
        slips: &[
            slip(
                "not ready does not end it",
                accepts::ending_at_once,
                begin_ready,
            ),
            slip("INTRQ stays off", accepts::ending_at_once, turn::intrq_off),
            slip("the head is loaded", accepts::ending_at_once, turn::head_on),
            slip("protection before Ready", refuses_both, turn::bit_6_on),
            slip("bit 6 stays off", accepts::ending_at_once, turn::bit_6_off),
            slip(
                "it does not end a write",
                accepts::ending_at_once,
                begin_unprotected,
            ),
            slip("it ends a read", begins_protected, refuse),
        ],
    },
    Sentence {
        says: "Ready is not looked at again.",
        slips: &[slip(
            "it ends the command",
            transfers_not_ready,
            turn::busy_off,
        )],
    },
    Sentence {
        says: "Types II and III load the head, settle for 469 (FM) or 938 (MFM) byte times if E \
               is 1, then begin with the first byte time that has HLT on.",
        slips: &[
            slip("the head stays", begins, leave::head),
            slip("470 (FM)", |step| settles(step, Density::Fm), settle_longer),
            slip(
                "468 (FM)",
                |step| settles(step, Density::Fm),
                settle_shorter,
            ),
            slip(
                "937 (MFM)",
                |step| settles(step, Density::Mfm),
                settle_shorter,
            ),
            slip("E is not looked at: none", begins, settle_never),
            slip("E is not looked at: all", begins, settle_always),
            slip("HLT is not awaited", awaits_head_in_vain, work_without_head),
            slip(
                "HLT before the settling",
                settles_without_head,
                leave::activity,
            ),
            slip("one byte time later", works, work_later),
            slip(
                "HLT in the search too",
                searches_without_head,
                leave::activity,
            ),
        ],
    },
];

/// Bit 6 stays on, where it was on; a write refused now sets it all the same.
fn leave_refused(step: &Step, wrong: &mut Outcome) {
    wrong.machine.status.write_refused |= step.before.status.write_refused;
}

fn ends_type_one(step: &Step) -> bool {
    step.ends() && !has_transfer_status(step.before)
}

fn ends_transfer(step: &Step) -> bool {
    step.ends() && has_transfer_status(step.before)
}

fn begin_ready(step: &Step, wrong: &mut Outcome) {
    *wrong = step.instead(|_, lines| lines.ready = true);
}

fn begin_unprotected(step: &Step, wrong: &mut Outcome) {
    *wrong = step.instead(|_, lines| lines.protect = false);
}

/// Not ready and protection both end a write.
fn refuses_both(step: &Step) -> bool {
    let lines = step.lines;
    accepts::ending_at_once(step) && step.accepts(Command::writes) && !lines.ready && lines.protect
}

fn begins_protected(step: &Step) -> bool {
    begins(step) && step.lines.protect
}

fn refuse(step: &Step, wrong: &mut Outcome) {
    turn::bit_6_on(step, wrong);
    wrong.end();
}

fn transfers_not_ready(step: &Step) -> bool {
    step.transfers() && !step.lines.ready
}

/// The settling with which a command of Types II and III begins; without E, of no byte time.
fn settling<'a>(step: &'a Step) -> Option<&'a Settling> {
    match &step.right.machine.activity {
        Activity::Settling(settling) if accepts::transfer(step) => Some(settling),
        _ => None,
    }
}

/// A command of Types II and III is accepted and does not end at once.
fn begins(step: &Step) -> bool {
    settling(step).is_some()
}

fn settles(step: &Step, density: Density) -> bool {
    let left = settling(step).map_or(0, |settling| settling.left);
    step.before.density == density && left > 0
}

/// Lets the settling be so long.
fn settle_for(wrong: &mut Outcome, byte_times: u16) {
    if let Activity::Settling(settling) = &mut wrong.machine.activity {
        settling.left = byte_times;
    }
}

fn settle_longer(step: &Step, wrong: &mut Outcome) {
    settle_for(wrong, step.before.density.settle_time() + 1);
}

fn settle_shorter(step: &Step, wrong: &mut Outcome) {
    settle_for(wrong, step.before.density.settle_time() - 1);
}

fn settle_never(_: &Step, wrong: &mut Outcome) {
    settle_for(wrong, 0);
}

fn settle_always(step: &Step, wrong: &mut Outcome) {
    settle_for(wrong, step.before.density.settle_time());
}

fn awaits_head_in_vain(step: &Step) -> bool {
    step.transfers() && step.awaits_head().is_some() && !step.lines.head_loaded
}

fn work_without_head(step: &Step, wrong: &mut Outcome) {
    *wrong = step.instead(|_, lines| lines.head_loaded = true);
}

fn settles_without_head(step: &Step) -> bool {
    let left = step.settling().map_or(0, |settling| settling.left);
    step.transfers() && left > 0 && !step.lines.head_loaded
}

/// A command of Types II and III has settled, and begins its work.
fn works(step: &Step) -> bool {
    step.transfers() && step.begins().is_some()
}

/// Only the ring turns in this byte time.
fn work_later(step: &Step, wrong: &mut Outcome) {
    if let Some(command) = step.begins() {
        *wrong = step.instead(|machine, _| machine.activity = Activity::Idle);
        wrong.machine.activity = match command.name {
            Name::WriteTrack => Activity::AwaitingIndex,
            _ => Activity::Searching(Search::new(command)),
        };
    }
}

fn searches_without_head(step: &Step) -> bool {
    let searching = matches!(step.before.activity, Activity::Searching(_));
    step.transfers() && searching && !step.lines.head_loaded
}
