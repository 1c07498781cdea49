// Slips of Type I up to the end of its stepping.

use super::{accepts, leave, slip, turn, Sentence, Subject};
use crate::activity::{Activity, Stepping};
use crate::command::{Command, Name};
use crate::coverage::step::{Outcome, Step};
use crate::density::Density::{self, Fm, Mfm};
use crate::machine::Direction;

pub const SUBJECT: Subject = Subject {
    concerns: |step| step.loads(0) || step.decides().is_some(),
    sentences: SENTENCES,
};

const SENTENCES: &[Sentence] = &[
    Sentence {
        says: "Step times, byte times by density and rate code 0-3, .. rounded up: FM (64 us) 94, \
               188, 313, 469; MFM (32 us) 188, 375, 625, 938.",
        slips: &[
            slip("93 (FM)", |step| steps_at(step, Fm, 0), step_sooner),
            slip("187 (FM)", |step| steps_at(step, Fm, 1), step_sooner),
            slip("312 (FM)", |step| steps_at(step, Fm, 2), step_sooner),
            slip("468 (FM)", |step| steps_at(step, Fm, 3), step_sooner),
            slip("187 (MFM)", |step| steps_at(step, Mfm, 0), step_sooner),
            slip("374 (MFM)", |step| steps_at(step, Mfm, 1), step_sooner),
            slip("624 (MFM)", |step| steps_at(step, Mfm, 2), step_sooner),
            slip("937 (MFM)", |step| steps_at(step, Mfm, 3), step_sooner),
        ],
    },
    Sentence {
        says: "Type I (bit 3 loads or unloads the head): in its first byte time and after each \
               wait the machine decides.",
        slips: &[
            slip("bit 3 on leaves it", accepts::type_one, load_no_head),
            slip("bit 3 off leaves it", accepts::type_one, unload_no_head),
            slip("first in its second", accepts::type_one, decide_in_second),
        ],
    },
    Sentence {
        says: "Seek: TR = DR stops; stepping out with track 0 on sets TR 0 and stops; else one \
               pulse is reported, TR moves by one towards DR, and the next decision comes a step \
               time later.",
        slips: &[
            slip("TR = DR stops later", is_at_aim, stop_later),
            slip(
                "TR stays (Seek)",
                |step| halts(step, Name::Seek),
                leave::track,
            ),
            slip(
                "TR stays (Restore)",
                |step| halts(step, Name::Restore),
                leave::track,
            ),
            slip(
                "Seek does not stop",
                |step| halts(step, Name::Seek),
                step_on,
            ),
            slip("stepping in stops too", steps_in_at_track_0, stop),
            slip("TR moves from DR", seeks, move_away),
        ],
    },
    Sentence {
        says: "Stepping sets the direction, pulse or none.",
        slips: &[
            slip("Seek leaves it", seeks, leave::direction),
            slip(
                "Step-in leaves it",
                |step| is(step, Name::StepIn),
                leave::direction,
            ),
            slip(
                "Step-out leaves it",
                |step| is(step, Name::StepOut),
                leave::direction,
            ),
            slip("no pulse leaves it", halts_at_all, leave::direction),
            slip("Step goes in always", |step| is(step, Name::Step), step_in),
            slip("TR = DR sets it too", is_at_aim, set_direction),
            slip(
                "Step-in sets it when loaded",
                accepts_step_in,
                set_direction,
            ),
        ],
    },
    Sentence {
        says: "Restore sets TR 255, DR 0 at acceptance, then seeks; if track 0 is still off at \
               the end, Seek Error if V (bit 2), no verify.",
        slips: &[
            slip("TR stays", accepts_restore, leave::track),
            slip("DR stays", accepts_restore, leave::data),
            slip("no Seek Error", fails_to_restore, turn::bit_4_off),
            slip("Seek Error without V", ends_off_track_0, turn::bit_4_on),
            slip("a verify", fails_to_restore, verify),
            slip("the head is loaded", fails_to_restore, turn::head_on),
        ],
    },
    Sentence {
        says: "Step, Step-in, Step-out: one pulse, TR moves (wrapping) if bit 4; the track 0 rule \
               holds.",
        slips: &[
            slip(
                "TR moves without bit 4",
                |step| pulses(step, false),
                move_track,
            ),
            slip(
                "TR stays with bit 4",
                |step| pulses(step, true),
                leave::track,
            ),
            slip("TR stays at 255", |step| pulses(step, true), leave_255),
            slip("TR stays at 0", |step| pulses(step, true), leave_0),
            slip("not for Step", |step| halts(step, Name::Step), step_on),
            slip(
                "not for Step-out",
                |step| halts(step, Name::StepOut),
                step_on,
            ),
            slip("TR stays without bit 4", halts_without_update, leave::track),
        ],
    },
];

fn accepts_restore(step: &Step) -> bool {
    accepts::name(step, Name::Restore)
}

fn accepts_step_in(step: &Step) -> bool {
    accepts::name(step, Name::StepIn)
}

/// A decision of this command.
fn is(step: &Step, name: Name) -> bool {
    step.decides().map_or(false, |command| command.name == name)
}

fn is_such(step: &Step, such: fn(Command) -> bool) -> bool {
    step.decides().map_or(false, such)
}

/// A pulse, after which the next decision comes a step time of this rate later.
fn steps_at(step: &Step, density: Density, rate: u8) -> bool {
    let command = step.decides().filter(|_| step.right.pulse.is_some());
    let time = density.step_time(rate);
    step.before.density == density && command.map_or(false, |it| it.step_time(density) == time)
}

fn step_sooner(step: &Step, wrong: &mut Outcome) {
    if let Some(command) = step.decides() {
        decide_in(wrong, command.step_time(step.before.density) - 1);
    }
}

/// The next decision comes in the byte time with this number.
fn decide_in(wrong: &mut Outcome, byte_time: u16) {
    if let Activity::Stepping(stepping) = &mut wrong.machine.activity {
        stepping.wait = byte_time;
    }
}

fn decide_in_second(_: &Step, wrong: &mut Outcome) {
    decide_in(wrong, 2);
}

fn load_no_head(step: &Step, wrong: &mut Outcome) {
    wrong.machine.head_loaded &= step.before.head_loaded;
}

fn unload_no_head(step: &Step, wrong: &mut Outcome) {
    wrong.machine.head_loaded |= step.before.head_loaded;
}

/// Restore or Seek gives a pulse.
fn seeks(step: &Step) -> bool {
    is_such(step, Command::seeks) && step.right.pulse.is_some()
}

fn move_away(step: &Step, wrong: &mut Outcome) {
    let moved = step.right.machine.track.wrapping_sub(step.before.track);
    wrong.machine.track = step.before.track.wrapping_sub(moved);
}

/// Restore or Seek finds TR = DR.
fn is_at_aim(step: &Step) -> bool {
    is_such(step, Command::seeks) && step.before.track == step.before.data
}

/// Where there was no step yet, a step time later.
fn stop_later(step: &Step, wrong: &mut Outcome) {
    if let Some(stepping) = step.stepping().filter(|stepping| !stepping.stepped) {
        *wrong = step.instead(|machine, _| machine.activity = Activity::Idle);
        wrong.machine.activity = Activity::Stepping(Stepping {
            wait: stepping.command.step_time(step.before.density),
            stepped: true,
            ..*stepping
        });
    }
}

/// Some command stops by the track 0 rule.
fn halts_at_all(step: &Step) -> bool {
    let goes_out = || {
        let outcome = step.instead(|_, lines| lines.track_0 = false);
        outcome.pulse == Some(Direction::Out)
    };
    step.decides().is_some() && step.lines.track_0 && goes_out()
}

fn halts(step: &Step, name: Name) -> bool {
    is(step, name) && halts_at_all(step)
}

fn halts_without_update(step: &Step) -> bool {
    let once = |command: Command| !command.seeks() && !command.updates_track();
    is_such(step, once) && halts_at_all(step)
}

/// Steps as with track 0 off.
fn step_on(step: &Step, wrong: &mut Outcome) {
    *wrong = step.instead(|_, lines| lines.track_0 = false);
}

fn steps_in_at_track_0(step: &Step) -> bool {
    step.right.pulse == Some(Direction::In) && step.lines.track_0
}

fn stop(step: &Step, wrong: &mut Outcome) {
    *wrong = step.instead(|machine, _| machine.activity = Activity::Idle);
    wrong.end();
}

fn step_in(step: &Step, wrong: &mut Outcome) {
    *wrong = step.instead(|machine, _| machine.direction = Direction::In);
}

fn set_direction(_: &Step, wrong: &mut Outcome) {
    wrong.machine.direction = Direction::In;
}

/// Restore ends with track 0 off and V.
fn fails_to_restore(step: &Step) -> bool {
    is(step, Name::Restore) && step.right.machine.status.not_found
}

/// Restore ends with track 0 off, whatever V.
fn ends_off_track_0(step: &Step) -> bool {
    is(step, Name::Restore) && step.ends() && !step.lines.track_0
}

fn verify(step: &Step, wrong: &mut Outcome) {
    *wrong = step.instead(|_, lines| lines.track_0 = true);
    wrong.machine.track = step.right.machine.track;
}

/// Step, Step-in or Step-out gives its pulse, with bit 4 or without.
fn pulses(step: &Step, updates: bool) -> bool {
    let command = step.decides().filter(|command| !command.seeks());
    step.right.pulse.is_some() && command.map_or(false, |it| it.updates_track() == updates)
}

fn move_track(step: &Step, wrong: &mut Outcome) {
    wrong.machine.track = match step.right.pulse {
        Some(Direction::In) => step.before.track.wrapping_add(1),
        _ => step.before.track.wrapping_sub(1),
    };
}

fn leave_255(step: &Step, wrong: &mut Outcome) {
    if step.right.machine.track == 0 && step.right.pulse == Some(Direction::In) {
        wrong.machine.track = 255;
    }
}

fn leave_0(step: &Step, wrong: &mut Outcome) {
    if step.right.machine.track == 255 && step.right.pulse == Some(Direction::Out) {
        wrong.machine.track = 0;
    }
}
