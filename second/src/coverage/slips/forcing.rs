// Slips of Force Interrupt and its conditions.

use super::{accepts, leave, slip, turn, Sentence, Subject};
use crate::coverage::step::{Call, Outcome, Step};
use crate::number;
use crate::status::{Status, StatusType};

pub const SUBJECT: Subject = Subject {
    concerns: |step| !step.passes() || step.is_pulse() || sees_edge(step),
    sentences: SENTENCES,
};

const SENTENCES: &[Sentence] = &[
    Sentence {
        says: "Force Interrupt ends a command: Busy off, other bits and cells already written \
               stay; when idle, status becomes Type I with bits 3 and 4 off.",
        slips: &[
            slip("bit 3 goes off", ends_command, turn::bit_3_off),
            slip("Lost Data goes off", ends_command, turn::lost_data_off),
            slip("bit 5 goes off", ends_command, turn::bit_5_off),
            slip("the type changes", ends_command, become_type_one),
            slip("DRQ goes off", accepts::force, turn::drq_off),
            slip("INTRQ comes on", ends_command, turn::intrq_on),
            slip("when idle, the type stays", finds_idle, leave_type),
            slip("when idle, bit 3 stays", finds_idle, leave::crc_error),
            slip("when idle, bit 4 stays", finds_idle, leave::not_found),
        ],
    },
    Sentence {
        says: "Bit 3 raises INTRQ at once, bit 2 at each index pulse, bits 0 and 1 when Ready \
               comes on or goes off between byte times.",
        slips: &[
            slip("bit 3 does not", accepts::force, turn::intrq_off),
            slip("bit 2 does not", accepts::force, ignore_pulses),
            slip("bit 2 once", |step| step.is_pulse(), ignore_pulses),
            slip("bit 0 does not", accepts::force, ignore_coming_on),
            slip("bit 1 does not", accepts::force, ignore_going_off),
            slip("bits 0 and 1 change places", accepts::force, change_places),
            slip("bits 0 and 1 once", sees_edge, ignore_edge),
            slip("bit 0 at once too", accepts::force, see_edge_at_once),
            slip("register calls see Ready", reads_or_loads, see_ready),
            slip("a refused byte time does", is_refused_byte_time, see_ready),
        ],
    },
    Sentence {
        says: "Any later command drops these.",
        slips: &[
            slip("Type I does not", accepts::type_one, leave::conditions),
            slip(
                "Types II and III do not",
                accepts::transfer,
                leave::conditions,
            ),
            slip(
                "Force Interrupt does not",
                accepts::force,
                leave::conditions,
            ),
            slip(
                "a refused one too",
                is_refused_command,
                turn::conditions_off,
            ),
            slip(
                "reading status too",
                |step| step.reads(0),
                turn::conditions_off,
            ),
        ],
    },
];

fn ends_command(step: &Step) -> bool {
    accepts::force(step) && step.before.is_busy()
}

fn finds_idle(step: &Step) -> bool {
    accepts::force(step) && !step.before.is_busy()
}

fn become_type_one(_: &Step, wrong: &mut Outcome) {
    wrong.machine.status.status_type = StatusType::TypeOne;
}

fn leave_type(step: &Step, wrong: &mut Outcome) {
    wrong.machine.status = Status {
        crc_error: false,
        not_found: false,
        ..step.before.status
    };
}

fn ignore_pulses(_: &Step, wrong: &mut Outcome) {
    wrong.machine.conditions.index = false;
}

fn ignore_coming_on(_: &Step, wrong: &mut Outcome) {
    wrong.machine.conditions.ready_comes_on = false;
}

fn ignore_going_off(_: &Step, wrong: &mut Outcome) {
    wrong.machine.conditions.ready_goes_off = false;
}

/// The conditions of bits 0 and 1.
fn change_places(step: &Step, wrong: &mut Outcome) {
    let conditions = step.right.machine.conditions;
    wrong.machine.conditions.ready_comes_on = conditions.ready_goes_off;
    wrong.machine.conditions.ready_goes_off = conditions.ready_comes_on;
}

/// A byte time that finds Ready changed.
fn sees_edge(step: &Step) -> bool {
    step.passes() && step.lines.ready != step.before.ready_seen
}

/// From now on such an edge meets no condition.
fn ignore_edge(step: &Step, wrong: &mut Outcome) {
    match step.lines.ready {
        true => ignore_coming_on(step, wrong),
        false => ignore_going_off(step, wrong),
    }
}

fn see_edge_at_once(step: &Step, wrong: &mut Outcome) {
    let edge = step.lines.ready && !step.before.ready_seen;
    wrong.machine.interrupt_request |= edge && wrong.machine.conditions.ready_comes_on;
}

fn see_ready(step: &Step, wrong: &mut Outcome) {
    wrong.machine.ready_seen = step.lines.ready;
}

fn reads_or_loads(step: &Step) -> bool {
    matches!(step.call, Call::Read { .. } | Call::Load { .. })
}

fn is_refused_byte_time(step: &Step) -> bool {
    step.call == Call::ByteTime && step.right.number != number::DONE
}

fn is_refused_command(step: &Step) -> bool {
    matches!(step.call, Call::Load { register: 0, .. }) && step.right.number != number::DONE
}
