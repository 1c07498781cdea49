// Slips of eight-inch disks: rings above 6,400 cells, and counts of so many byte times.

use super::{formatting, leave, refusing, slip, turn, Sentence, Subject};
use crate::activity::Activity;
use crate::coverage::step::{Call, Outcome, RunSoFar, Step};
use crate::machine::{self, LONGEST_TRACK};
use crate::number::{CELL, DONE, LENGTH, MACHINE, TRACK};
use crate::viewer;

/// The longest ring before this request.
const OLD_LONGEST: u16 = 6400;
/// What 13 bits hold is below it; 14 bits are needed now.
const OVER_13_BITS: u16 = 8192;
/// Five rounds of the longest ring before this request.
const OLD_ROUNDS: u16 = 5 * OLD_LONGEST;
/// What 15 bits hold is below it.
const OVER_15_BITS: u16 = 32_768;

pub const SUBJECT: Subject = Subject {
    concerns: |step| step.call != Call::ByteTime || is_long(step) || has_passed(step, OLD_ROUNDS),
    sentences: SENTENCES,
};

const SENTENCES: &[Sentence] = &[
    Sentence {
        says: "1 now means outside 2,048..10,416 (01's case becomes 10,416 taken, 10,417 refused)",
        slips: &[
            slip("6,400 at power-on", powers_on_long, refuse_power_on),
            slip("8,191 at power-on", powers_on_over_13_bits, refuse_power_on),
            slip("10,415 at power-on", powers_on_longest, refuse_power_on),
            slip("10,417 at power-on", fails_at_10417, power_on_10417),
            slip("2,047 at power-on", fails_at_2047, |_, wrong| {
                wrong.number = DONE;
            }),
            slip("2,049 at power-on", powers_on_shortest, refuse_power_on),
            slip("6,400 in the viewer", is_lent_long_side, refuse_view),
            slip(
                "8,191 in the viewer",
                is_lent_side_over_13_bits,
                refuse_view,
            ),
            slip("10,415 in the viewer", is_lent_longest_side, refuse_view),
        ],
    },
    Sentence {
        says: "The largest ring goes from 6,400 to 10,416 cells.",
        slips: &[
            slip("L stays 6,400 at most", powers_on_long, |_, wrong| {
                wrong.machine.length = OLD_LONGEST;
            }),
            slip("L in 13 bits", powers_on_long, |_, wrong| {
                wrong.machine.length %= OVER_13_BITS;
            }),
            slip("2 above 6,400", is_lent_long_machine, refuse_machine),
            slip("2 above 10,415", is_lent_longest_machine, refuse_machine),
            slip("2 above 10,417", is_lent_10417, take_machine),
            slip("2 for position 8,192", is_over_13_bits, refuse_machine),
            slip("3 in 13 bits", is_same_in_13_bits, refusing::be_done),
            slip("3 not above 6,400", are_both_long, refusing::be_done),
            slip(
                "4 not from cell 6,400 on",
                is_bad_over_limit,
                refusing::be_done,
            ),
            slip("the viewer sees 6,400 cells", views, |step, wrong| {
                view_up_to(step, wrong, OLD_LONGEST);
            }),
            slip("the viewer sees 8,192 cells", views, |step, wrong| {
                view_up_to(step, wrong, OVER_13_BITS);
            }),
        ],
    },
    Sentence {
        says: "Bytes pass twice as fast and the chip's clock doubles, so step and settle counts \
               in byte times stay as they are.",
        slips: &[
            slip("step counts double", waits_to_step, leave::activity),
            slip("step counts halve", begins_to_wait, halve_wait),
            slip("settle counts double", settles, leave::activity),
            slip("settle counts halve", begins_to_settle, halve_settling),
        ],
    },
    Sentence {
        says: "Each byte time the cell at the head position passes; then the position goes up by \
               one, and from L - 1 to 0. The byte time in which cell 0 passes is an index pulse",
        slips: &[
            slip(
                "from 6,399 to 0",
                |step| is_before(step, OLD_LONGEST),
                go_to_0,
            ),
            slip(
                "from 8,191 to 0",
                |step| is_before(step, OVER_13_BITS),
                go_to_0,
            ),
            slip("no index bit above 6,400", pulses, turn::index_off),
            slip("no INTRQ above 6,400", pulses_with_condition, see_no_pulse),
            slip(
                "no search sees it above 6,400",
                pulses_in_search,
                see_no_pulse,
            ),
            slip(
                "no track begins above 6,400",
                pulses_for_track,
                see_no_pulse,
            ),
            slip("cell 6,400 too", |step| is_at(step, OLD_LONGEST), see_pulse),
            slip(
                "cell 8,192 too",
                |step| is_at(step, OVER_13_BITS),
                see_pulse,
            ),
        ],
    },
    Sentence {
        says: "Demand 3's formulas hold over the new range.",
        slips: &[
            slip("none from cell 6,400 on", searches_over_limit, see_gap),
            slip("none from cell 8,192 on", searches_over_13_bits, see_gap),
            slip(
                "it ends after 5 x 6,400",
                |step| searches_for(step, OLD_ROUNDS),
                turn::busy_off_bit_4_on,
            ),
            slip(
                "it ends after 32,768",
                |step| searches_for(step, OVER_15_BITS),
                turn::busy_off_bit_4_on,
            ),
            slip(
                "a track ends at cell 6,399",
                |step| is_track_before(step, OLD_LONGEST),
                end,
            ),
            slip(
                "a track ends at cell 8,191",
                |step| is_track_before(step, OVER_13_BITS),
                end,
            ),
        ],
    },
    Sentence {
        says:
            "A run call makes byte times up to a lent limit (0 to 65,535) .. It reports how many \
               passed.",
        slips: &[
            slip("it counts in 15 bits", passes_15_bits, |_, wrong| {
                wrong.uncounted = OVER_15_BITS;
            }),
            slip("it stops after 32,768", passes_15_bits, stop_run),
            slip("it stops after 5 x 6,400", passes_old_rounds, stop_run),
            slip(
                "it stops where position and limit pass 65,535",
                passes_16_bits,
                stop_run,
            ),
            slip(
                "it leaves a position of 16 bits",
                ends_run_over_16_bits,
                wrap_position,
            ),
            slip(
                "it leaves a position of 6,400",
                ends_long_run,
                wrap_at_old_limit,
            ),
        ],
    },
];

/// The machine's ring is above 6,400.
fn is_long(step: &Step) -> bool {
    step.before.length > OLD_LONGEST
}

fn position(step: &Step) -> u16 {
    step.before.position
}

/// The length that a power-on asks for, done or not.
fn asked_length(step: &Step) -> u16 {
    match step.call {
        Call::PowerOn { length } => length,
        _ => 0,
    }
}

fn powers_on_long(step: &Step) -> bool {
    step.right.number == DONE && asked_length(step) > OLD_LONGEST
}

fn powers_on_over_13_bits(step: &Step) -> bool {
    step.right.number == DONE && asked_length(step) >= OVER_13_BITS
}

fn powers_on_longest(step: &Step) -> bool {
    asked_length(step) == LONGEST_TRACK
}

fn powers_on_shortest(step: &Step) -> bool {
    asked_length(step) == machine::SHORTEST_TRACK
}

fn fails_at_10417(step: &Step) -> bool {
    asked_length(step) == LONGEST_TRACK + 1
}

fn fails_at_2047(step: &Step) -> bool {
    asked_length(step) == machine::SHORTEST_TRACK - 1
}

fn refuse_power_on(_: &Step, wrong: &mut Outcome) {
    wrong.number = LENGTH;
}

fn power_on_10417(_: &Step, wrong: &mut Outcome) {
    wrong.number = DONE;
    wrong.machine.length = LONGEST_TRACK + 1;
}

fn views(step: &Step) -> bool {
    matches!(step.call, Call::View(_))
}

/// The viewer is lent two sides in range, one of them above this length.
fn is_lent_side_above(step: &Step, length: u16) -> bool {
    let lengths = [step.row.len(), step.other_row.len()];
    views(step)
        && lengths.iter().all(|&it| machine::length_in_range(it))
        && lengths.iter().any(|&it| it > usize::from(length))
}

fn is_lent_long_side(step: &Step) -> bool {
    is_lent_side_above(step, OLD_LONGEST)
}

fn is_lent_side_over_13_bits(step: &Step) -> bool {
    is_lent_side_above(step, OVER_13_BITS - 1)
}

fn is_lent_longest_side(step: &Step) -> bool {
    is_lent_side_above(step, LONGEST_TRACK - 1)
}

fn refuse_view(_: &Step, wrong: &mut Outcome) {
    wrong.viewed = vec![u16::from(LENGTH), 0];
}

/// Views at most so many cells of each side.
fn view_up_to(step: &Step, wrong: &mut Outcome, length: u16) {
    if let Call::View(wanted) = step.call {
        let sides = [step.row, step.other_row];
        let [side_0, side_1] = sides.map(|cells| &cells[..cells.len().min(usize::from(length))]);
        wrong.show_view(viewer::view(side_0, side_1, wanted));
    }
}

/// A call that takes a machine.
fn takes_machine(step: &Step) -> bool {
    !views(step) && !step.powers_on()
}

fn is_lent_long_machine(step: &Step) -> bool {
    takes_machine(step) && is_long(step)
}

fn is_lent_longest_machine(step: &Step) -> bool {
    takes_machine(step) && step.before.length == LONGEST_TRACK
}

fn is_over_13_bits(step: &Step) -> bool {
    takes_machine(step) && is_long(step) && position(step) >= OVER_13_BITS
}

/// What is looked at of a machine that 2 refuses is 00.
fn refuse_machine(step: &Step, wrong: &mut Outcome) {
    *wrong = Outcome::of(MACHINE, step.before.clone());
    wrong.side_output = step.right.side_output;
}

/// A ring of 10,417, the position below it.
fn is_lent_10417(step: &Step) -> bool {
    let machine = step.before;
    takes_machine(step) && machine.length == LONGEST_TRACK + 1 && machine.position < machine.length
}

/// No row has so many cells.
fn take_machine(step: &Step, wrong: &mut Outcome) {
    wrong.number = match step.call {
        Call::ByteTime | Call::Run { .. } => TRACK,
        _ => DONE,
    };
    if step.call == Call::Look {
        wrong.byte = step.before.status_byte(step.lines);
    }
}

/// The row's length and the machine's, where 3 refuses them.
fn unequal_lengths(step: &Step) -> Option<[usize; 2]> {
    let lengths = [step.row.len(), usize::from(step.before.length)];
    Some(lengths).filter(|_| step.right.number == TRACK)
}

fn is_same_in_13_bits(step: &Step) -> bool {
    let same = |[row, ring]: [usize; 2]| row.abs_diff(ring) == usize::from(OVER_13_BITS);
    unequal_lengths(step).map_or(false, same)
}

fn are_both_long(step: &Step) -> bool {
    let long = |lengths: [usize; 2]| lengths.iter().all(|&it| it > usize::from(OLD_LONGEST));
    unequal_lengths(step).map_or(false, long)
}

fn is_bad_over_limit(step: &Step) -> bool {
    step.right.number == CELL && position(step) >= OLD_LONGEST
}

/// Every second byte time the count stays as it is.
fn waits_to_step(step: &Step) -> bool {
    let waits = step.stepping().map_or(false, |it| it.wait > 1);
    is_long(step) && waits && position(step) % 2 == 1
}

fn begins_to_wait(step: &Step) -> bool {
    is_long(step) && step.right.pulse.is_some()
}

fn halve_wait(_: &Step, wrong: &mut Outcome) {
    if let Activity::Stepping(stepping) = &mut wrong.machine.activity {
        stepping.wait /= 2;
    }
}

/// Every second byte time the count stays as it is.
fn settles(step: &Step) -> bool {
    let settles = step.settling().map_or(false, |it| it.left > 0);
    is_long(step) && settles && position(step) % 2 == 1
}

/// A command that settles is accepted, or its stepping is over.
fn begins_to_settle(step: &Step) -> bool {
    is_long(step) && (step.loads(0) || step.decides().is_some())
}

fn halve_settling(_: &Step, wrong: &mut Outcome) {
    if let Activity::Settling(settling) = &mut wrong.machine.activity {
        settling.left /= 2;
    }
}

/// This cell passes, and is not the ring's first.
fn is_at(step: &Step, place: u16) -> bool {
    step.passes() && is_long(step) && position(step) == place
}

/// The cell before this one passes, and is not the ring's last.
fn is_before(step: &Step, place: u16) -> bool {
    is_at(step, place - 1) && step.before.length > place
}

fn go_to_0(_: &Step, wrong: &mut Outcome) {
    wrong.machine.position = 0;
}

/// An index pulse of a ring above 6,400.
fn pulses(step: &Step) -> bool {
    is_long(step) && step.is_pulse()
}

fn pulses_with_condition(step: &Step) -> bool {
    pulses(step) && step.before.conditions.index
}

fn pulses_in_search(step: &Step) -> bool {
    pulses(step) && step.searches().is_some()
}

fn pulses_for_track(step: &Step) -> bool {
    pulses(step) && formatting::awaits_pulse(step)
}

/// The byte time as if the head stood somewhere else.
fn stand_at(step: &Step, wrong: &mut Outcome, place: u16) {
    *wrong = step.instead(|machine, _| machine.position = place);
    wrong.machine.position = step.right.machine.position;
}

fn see_no_pulse(step: &Step, wrong: &mut Outcome) {
    stand_at(step, wrong, 1);
}

fn see_pulse(step: &Step, wrong: &mut Outcome) {
    stand_at(step, wrong, 0);
}

fn searches_over_limit(step: &Step) -> bool {
    position(step) >= OLD_LONGEST && step.searches().is_some()
}

fn searches_over_13_bits(step: &Step) -> bool {
    position(step) >= OVER_13_BITS && step.searches().is_some()
}

/// The cell under the head looks as if it were 00.
fn see_gap(step: &Step, wrong: &mut Outcome) {
    *wrong = step.over(0);
}

/// A search has gone on for so many byte times, all of them of one run.
fn searches_for(step: &Step, byte_times: u16) -> bool {
    has_passed(step, byte_times - 1) && !has_passed(step, byte_times) && step.searches().is_some()
}

/// Write Track passes the cell before this one.
fn is_track_before(step: &Step, place: u16) -> bool {
    matches!(step.before.activity, Activity::WritingTrack(_)) && is_before(step, place)
}

/// A Write Track that ends asks for no byte.
fn end(_: &Step, wrong: &mut Outcome) {
    wrong.machine.data_request = false;
    wrong.end();
}

/// At least so many byte times of a run have passed before this one.
fn has_passed(step: &Step, byte_times: u16) -> bool {
    step.run.map_or(false, |run| run.passed >= byte_times)
}

/// The run passes the byte time with this number.
fn passes_number(step: &Step, number: u16) -> bool {
    step.passes() && step.run.map_or(false, |run| run.passed == number - 1)
}

fn passes_15_bits(step: &Step) -> bool {
    passes_number(step, OVER_15_BITS)
}

fn passes_old_rounds(step: &Step) -> bool {
    passes_number(step, OLD_ROUNDS)
}

fn stop_run(_: &Step, wrong: &mut Outcome) {
    wrong.stops = true;
}

/// Where the head would stand after this byte time of the run on a ring without an end.
fn unrolled(run: RunSoFar) -> u32 {
    u32::from(run.from) + u32::from(run.passed) + 1
}

fn passes_16_bits(step: &Step) -> bool {
    step.passes() && step.run.map_or(false, |run| unrolled(run) == 0xFFFF)
}

/// The run on a ring above 6,400 that stops after this byte time.
fn ending_run(step: &Step) -> Option<RunSoFar> {
    let machine = &step.right.machine;
    let stops = |run: &RunSoFar| {
        run.passed + 1 == run.limit || machine.data_request || machine.interrupt_request
    };
    step.run
        .filter(|run| step.passes() && is_long(step) && stops(run))
}

fn ends_run_over_16_bits(step: &Step) -> bool {
    ending_run(step).map_or(false, |run| unrolled(run) > 0xFFFF)
}

fn wrap_position(step: &Step, wrong: &mut Outcome) {
    if let Some(run) = step.run {
        wrong.machine.position = unrolled(run) as u16 % step.before.length;
    }
}

fn ends_long_run(step: &Step) -> bool {
    ending_run(step).is_some()
}

/// Where a ring of 6,400 would leave the head.
fn wrap_at_old_limit(step: &Step, wrong: &mut Outcome) {
    if let Some(run) = step.run {
        wrong.machine.position = (unrolled(run) % u32::from(OLD_LONGEST)) as u16;
    }
}
