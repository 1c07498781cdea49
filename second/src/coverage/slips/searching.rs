// Slips of the search for an ID.

use super::{leave, slip, turn, Sentence, Subject};
use crate::activity::{Activity, Search};
use crate::chip::Chip;
use crate::command::{Command, Name};
use crate::coverage::step::{Outcome, Step};
use crate::field::{self, Id, FLAG, ID_CELLS, ID_MARK};
use crate::machine::SHORTEST_TRACK;

pub const SUBJECT: Subject = Subject {
    concerns: |step| step.begins().is_some() || step.is_pulse() || step.may_end_id(),
    sentences: SENTENCES,
};

const SENTENCES: &[Sentence] = &[
    Sentence {
        says: "An ID is mark FE and six unflagged cells: track, side, sector, length, CRC.",
        slips: &[slip("flags are ignored", meets_flagged_id, ignore_flags)],
    },
    Sentence {
        says: "The two low bits of length give 128, 256, 512, 1,024.",
        slips: &[slip("other bits give 1,024", meets_long_id, |_, wrong| {
            wrong.set_size(1024);
        })],
    },
    Sentence {
        says: "Only cells passing after the search began count.",
        slips: &[slip("those before count too", begins, look_back)],
    },
    Sentence {
        says: "Pulses count from its first byte time up to the ID's last cell; the fifth ends the \
               command with bit 4 before its cell is looked at.",
        slips: &[
            slip("from its second", begins_at_pulse, count_none),
            slip("up to the ID's mark", pulses_in_id, spare_pulse),
            slip(
                "the fourth",
                |step| is_pulse(step, 4),
                turn::busy_off_bit_4_on,
            ),
            slip("the sixth", |step| is_pulse(step, 5), spare_pulse),
            slip("bit 4 stays off", |step| is_pulse(step, 5), turn::bit_4_off),
            slip(
                "after its cell",
                |step| is_pulse(step, 5),
                look_at_cell_first,
            ),
        ],
    },
    Sentence {
        says: "No match, L 2,048: search from cell 0 ends at byte time 8,193, from cell 1 at \
               10,240.",
        slips: &[
            slip("10,241", |step| begins_at(step, 0), count_none),
            slip("8,192", |step| begins_at(step, 1), count_one),
        ],
    },
    Sentence {
        says: "An ID matches if its track is TR and, for Type II, its sector is SR and, with C, \
               its side is S.",
        slips: &[
            slip("any track", meets_id, match_any_track),
            slip("any sector", meets_id, match_any_sector),
            slip("any side", meets_id_1793, match_any_side),
            slip("its side is S without C", meets_id_1793, match_side),
            slip("its side is 0", meets_id_1793, match_side_0),
            slip("its side's low bit is S", meets_id_1793, match_low_bit),
        ],
    },
    Sentence {
        says: "One that matches but has a bad CRC sets bit 3 and the search goes on; a good match \
               clears it.",
        slips: &[
            slip("bit 3 stays off", meets_bad_match, leave::crc_error),
            slip("one that does not, too", meets_other_bad_id, turn::bit_3_on),
            slip("the search ends", meets_bad_match, turn::busy_off),
            slip("a good match leaves it", meets_good_match, leave::crc_error),
        ],
    },
];

/// An ID ends in the search of a sector command.
pub fn meets_id(step: &Step) -> bool {
    step.id().is_some() && step.searches().map_or(false, Command::is_transfer)
}

/// The same on a 1793, where bits 3 and 1 are S and C.
fn meets_id_1793(step: &Step) -> bool {
    step.before.chip == Chip::Wd1793 && meets_id(step)
}

/// Whether the command asks for this ID, whatever its CRC.
fn matches(step: &Step, id: Id) -> bool {
    let machine = step.before;
    let command = match step.searches() {
        Some(command) if id.track == machine.track => command,
        _ => return false,
    };
    command.is_type_one() || id.sector == machine.sector && command.wants_side(id.side)
}

fn meets_good_match(step: &Step) -> bool {
    let such = |id: Id| id.crc_good && matches(step, id);
    step.id().map_or(false, such)
}

/// An ID ends that the command asks for, but with a bad CRC.
pub fn meets_bad_match(step: &Step) -> bool {
    let such = |id: Id| !id.crc_good && matches(step, id);
    step.id().map_or(false, such)
}

fn meets_other_bad_id(step: &Step) -> bool {
    let such = |id: Id| !id.crc_good && !matches(step, id);
    step.id().map_or(false, such)
}

/// Its length byte has more than the two low bits.
fn meets_long_id(step: &Step) -> bool {
    step.id().map_or(false, |id| id.length > 3)
}

/// The search, the cells of an ID that could end here without their flags.
fn unflagged(step: &Step) -> Option<Search> {
    let mut search = step.search()?;
    for cell in search.passed.iter_mut().rev().take(ID_CELLS - 1) {
        *cell %= FLAG;
    }
    Some(search)
}

/// Six cells after a mark FE that would be an ID, but for a flag.
fn meets_flagged_id(step: &Step) -> bool {
    if !step.may_end_id() || step.id().is_some() {
        return false;
    }
    unflagged(step).map_or(false, |mut search| {
        search.pass(step.cell() % FLAG, step.before.density);
        field::id_at_end(step.before.density, &search.passed).is_some()
    })
}

fn ignore_flags(step: &Step, wrong: &mut Outcome) {
    if let Some(search) = unflagged(step) {
        *wrong = step.search_instead(search, step.cell() % FLAG);
    }
}

fn begins(step: &Step) -> bool {
    step.begins().is_some() && step.searches().is_some()
}

fn begins_at_pulse(step: &Step) -> bool {
    begins(step) && step.is_pulse()
}

/// A search of the shortest track begins with this cell.
fn begins_at(step: &Step, place: u16) -> bool {
    let machine = step.before;
    begins(step) && machine.length == SHORTEST_TRACK && machine.position == place
}

/// The cells just before the head count, as many as an ID has before its last.
fn look_back(step: &Step, wrong: &mut Outcome) {
    let (head, length) = (usize::from(step.before.position), step.row.len());
    let count = field::id_length(step.before.density) - 1;
    let places = (head + length - count)..(head + length);
    if let Some(mut search) = step.search() {
        search.passed = places.map(|place| step.row[place % length]).collect();
        *wrong = step.search_instead(search, step.cell());
    }
}

/// The pulse with this number of a search.
fn is_pulse(step: &Step, number: u8) -> bool {
    step.is_pulse() && step.searches().is_some() && step.pulses() + 1 == number
}

/// A pulse after an ID's mark, up to the ID's last cell.
fn pulses_in_id(step: &Step) -> bool {
    match step.search() {
        Some(search) if step.is_pulse() && search.command.name != Name::ReadAddress => {
            let count = search.passed.len();
            let mut ends = count.saturating_sub(ID_CELLS - 1)..=count;
            let mark = |end| field::mark_at_end(step.before.density, &search.passed[..end]);
            ends.any(|end| mark(end) == Some(ID_MARK))
        }
        _ => false,
    }
}

fn set_pulses(wrong: &mut Outcome, pulses: u8) {
    if let Activity::Searching(search) = &mut wrong.machine.activity {
        search.pulses = pulses;
    }
}

fn count_none(_: &Step, wrong: &mut Outcome) {
    set_pulses(wrong, 0);
}

fn count_one(_: &Step, wrong: &mut Outcome) {
    set_pulses(wrong, 1);
}

/// The byte time as it is when one pulse less has been counted before.
fn spare_pulse(step: &Step, wrong: &mut Outcome) {
    if let Some(mut search) = step.search() {
        search.pulses = search.pulses.saturating_sub(1);
        *wrong = step.search_instead(search, step.cell());
    }
}

/// The pulse ends the search only where its cell does not.
fn look_at_cell_first(step: &Step, wrong: &mut Outcome) {
    let mut looked = wrong.clone();
    spare_pulse(step, &mut looked);
    if !matches!(looked.machine.activity, Activity::Searching(_)) {
        *wrong = looked;
    }
}

fn match_any_track(step: &Step, wrong: &mut Outcome) {
    let track = step.id().map_or(0, |id| id.track);
    *wrong = step.instead(|machine, _| machine.track = track);
    wrong.machine.track = step.before.track;
}

fn match_any_sector(step: &Step, wrong: &mut Outcome) {
    let sector = step.id().map_or(0, |id| id.sector);
    *wrong = step.instead(|machine, _| machine.sector = sector);
    wrong.machine.sector = step.before.sector;
}

/// Searches as for another side from here on, or as for any.
fn ask_for_side(step: &Step, wrong: &mut Outcome, side: impl Fn(Command) -> Option<u8>) {
    if let Some(mut search) = step.search() {
        search.command.side_asked = side(search.command);
        *wrong = step.search_instead(search, step.cell());
    }
}

fn match_any_side(step: &Step, wrong: &mut Outcome) {
    ask_for_side(step, wrong, |_| None);
}

fn match_side(step: &Step, wrong: &mut Outcome) {
    ask_for_side(step, wrong, |command| Some(command.byte >> 3 & 1));
}

fn match_side_0(step: &Step, wrong: &mut Outcome) {
    ask_for_side(step, wrong, |command| command.side_asked.map(|_| 0));
}

/// A side with the low bit of the one that is asked for will do.
pub fn match_low_bit(step: &Step, wrong: &mut Outcome) {
    let side = step.id().map_or(0, |id| id.side);
    ask_for_side(step, wrong, |command| {
        command.side_asked.map(|asked| side & 0xFE | asked & 1)
    });
}
