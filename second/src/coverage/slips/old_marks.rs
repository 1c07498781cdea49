// Slips of the old single-density marks, F9 and FA.

use super::{leave, multiple_read, reading, slip, turn, writing, Sentence, Subject};
use crate::activity::{Activity, RecordRead};
use crate::chip::Chip;
use crate::coverage::step::{Outcome, Step};
use crate::data_mark::DataMark::{self, F8, F9, FA, FB};
use crate::density::Density::{self, Fm, Mfm};
use crate::field::{self, FLAG};

pub const SUBJECT: Subject = Subject {
    concerns: has_event,
    sentences: SENTENCES,
};

const SENTENCES: &[Sentence] = &[
    Sentence {
        says: "In FM only, flagged F9 and FA become data marks",
        slips: &[
            slip("F9 does not", |step| finds(step, F9), pass_over),
            slip("FA does not", |step| finds(step, FA), pass_over),
            slip(
                "not on the 1793",
                |step| is_of(step, Chip::Wd1793),
                pass_over,
            ),
            slip(
                "not on the 1797",
                |step| is_of(step, Chip::Wd1797),
                pass_over,
            ),
            slip("not with m", finds_old_with_m, pass_over),
            slip(
                "F9 in MFM too",
                |step| passes(step, Mfm, 0xF9),
                |step, wrong| take_as(step, wrong, F9),
            ),
            slip(
                "FA in MFM too",
                |step| passes(step, Mfm, 0xFA),
                |step, wrong| take_as(step, wrong, FA),
            ),
            slip("they end it in MFM", passes_old, turn::busy_off_bit_4_on),
            slip("plain F9 too", |step| is_plain(step, F9), take_plain),
            slip("plain FA too", |step| is_plain(step, FA), take_plain),
            slip(
                "FC too",
                |step| passes(step, Fm, 0xFC),
                |step, wrong| take_as(step, wrong, FB),
            ),
        ],
    },
    Sentence {
        says: "F9 counts as deleted, FA as normal.",
        slips: &[
            slip(
                "F9 as normal",
                |step| finds(step, F9),
                |_, wrong| count_as(wrong, FA),
            ),
            slip(
                "FA as deleted",
                |step| finds(step, FA),
                |_, wrong| count_as(wrong, F9),
            ),
            slip("F9 leaves bit 5", |step| ends(step, F9), leave::deleted),
            slip("FA leaves bit 5", |step| ends(step, FA), leave::deleted),
            slip(
                "bit 5 comes with F9",
                |step| finds(step, F9),
                turn::bit_5_on,
            ),
        ],
    },
    Sentence {
        says: "FM: a mark is one flagged cell; CRC starts with it.",
        slips: &[
            slip(
                "with F8 for F9",
                |step| finds(step, F9),
                |_, wrong| start_crc_with(wrong, F8),
            ),
            slip(
                "with FB for F9",
                |step| finds(step, F9),
                |_, wrong| start_crc_with(wrong, FB),
            ),
            slip(
                "with F8 for FA",
                |step| finds(step, FA),
                |_, wrong| start_crc_with(wrong, F8),
            ),
            slip(
                "with FB for FA",
                |step| finds(step, FA),
                |_, wrong| start_crc_with(wrong, FB),
            ),
            slip(
                "with F9 for F8",
                |step| finds(step, F8),
                |_, wrong| start_crc_with(wrong, F9),
            ),
            slip(
                "with FA for FB",
                |step| finds(step, FB),
                |_, wrong| start_crc_with(wrong, FA),
            ),
            slip("any will do for F9 or FA", ends_old, take_any_crc),
        ],
    },
    Sentence {
        says: "Window and bounds stay",
        slips: &[
            slip("29 for F9 or FA", finds_old_last, turn::busy_off_bit_4_on),
            slip("31 for F9 or FA", misses_old, reading::wait_longer),
        ],
    },
    Sentence {
        says: "Only the first data mark in the window is the ID's data mark (decisions, 19)",
        slips: &[
            slip(
                "FB or F8 after F9 or FA is",
                finds_old_before_new,
                pass_over,
            ),
            slip(
                "F9 or FA after FB or F8 is",
                finds_new_before_old,
                pass_over,
            ),
        ],
    },
    Sentence {
        says: "Write Sector still writes FB or F8.",
        slips: &[
            slip(
                "F9 for F8 (FM)",
                |step| writes(step, Fm, F8),
                |step, wrong| writing::write_mark(step, wrong, F9),
            ),
            slip(
                "FA for FB (FM)",
                |step| writes(step, Fm, FB),
                |step, wrong| writing::write_mark(step, wrong, FA),
            ),
            slip(
                "F9 for F8 (MFM)",
                |step| writes(step, Mfm, F8),
                |step, wrong| writing::write_mark(step, wrong, F9),
            ),
            slip(
                "FA for FB (MFM)",
                |step| writes(step, Mfm, FB),
                |step, wrong| writing::write_mark(step, wrong, FA),
            ),
            slip("F9 or FA where it stands", writing::is_mark, keep_old),
        ],
    },
];

/// A cell of the window, the end of a record that is read, or the mark of one that is written.
fn has_event(step: &Step) -> bool {
    reading::window(step).is_some() || reading::ends_record(step) || writing::is_mark(step)
}

/// One of the marks that only FM has.
pub fn is_old(mark: DataMark) -> bool {
    matches!(mark, F9 | FA)
}

pub fn is_new(mark: DataMark) -> bool {
    !is_old(mark)
}

fn finds(step: &Step, mark: DataMark) -> bool {
    step.before.density == Fm && reading::found_mark(step) == Some(mark)
}

fn finds_old(step: &Step) -> bool {
    reading::found_mark(step).map_or(false, is_old)
}

fn is_of(step: &Step, chip: Chip) -> bool {
    step.before.chip == chip && finds_old(step)
}

fn finds_old_with_m(step: &Step) -> bool {
    let multiple = reading::window(step).map_or(false, |window| window.command.multiple());
    multiple && finds_old(step)
}

fn finds_old_last(step: &Step) -> bool {
    reading::is_last_of_window(step) && finds_old(step)
}

fn misses_old(step: &Step) -> bool {
    reading::missed_mark(step).map_or(false, is_old)
}

/// In FM: without its flag the cell is no mark.
fn pass_over(step: &Step, wrong: &mut Outcome) {
    *wrong = step.over(step.cell() % FLAG);
}

/// A mark with this byte ends in the window, but is no data mark of the density.
fn passes(step: &Step, density: Density, byte: u8) -> bool {
    step.before.density == density && reading::other_mark(step) == Some(byte)
}

/// F9 or FA in MFM.
fn passes_old(step: &Step) -> bool {
    passes(step, Mfm, 0xF9) || passes(step, Mfm, 0xFA)
}

/// The mark that is passed over begins a record, as this data mark would.
fn take_as(step: &Step, wrong: &mut Outcome, mark: DataMark) {
    if let (Some(window), Some(byte)) = (reading::window(step), reading::other_mark(step)) {
        let read = RecordRead {
            command: window.command,
            size: window.size,
            mark,
            field: field::mark_bytes(step.before.density, byte),
        };
        reading::go_on_with(wrong, Activity::ReadingRecord(read));
    }
}

/// In FM: the byte of a data mark in the window, but not flagged.
fn is_plain(step: &Step, mark: DataMark) -> bool {
    let in_window = step.before.density == Fm && reading::window(step).is_some();
    in_window && step.cell() == u16::from(mark.byte())
}

fn take_plain(step: &Step, wrong: &mut Outcome) {
    *wrong = step.over(FLAG + step.cell());
}

fn read_begun(wrong: &mut Outcome) -> Option<&mut RecordRead> {
    match &mut wrong.machine.activity {
        Activity::ReadingRecord(read) => Some(read),
        _ => None,
    }
}

/// The mark says of the record what this one says; the CRC is right.
fn count_as(wrong: &mut Outcome, mark: DataMark) {
    if let Some(read) = read_begun(wrong) {
        read.mark = mark;
    }
}

fn start_crc_with(wrong: &mut Outcome, mark: DataMark) {
    if let Some(read) = read_begun(wrong) {
        read.field = field::mark_bytes(Fm, mark.byte());
    }
}

fn ends(step: &Step, mark: DataMark) -> bool {
    reading::ends_record_of(step, mark)
}

fn ends_old(step: &Step) -> bool {
    ends(step, F9) || ends(step, FA)
}

/// The record ends as a good one.
fn take_any_crc(step: &Step, wrong: &mut Outcome) {
    if step.ends() {
        multiple_read::go_on(step, wrong);
        leave::crc_error(step, wrong);
    }
}

/// Whether such a data mark is among the cells of the window after this one.
fn follows(step: &Step, such: fn(DataMark) -> bool) -> bool {
    let passed = reading::window(step).map_or(0, |window| window.passed.len());
    let head = usize::from(step.before.position);
    let ahead = head + 1..head + Fm.window() - passed;
    let mut cells = ahead.map(|place| step.row[place % step.row.len()]);
    cells.any(|cell| field::data_mark_at_end(Fm, &[cell]).map_or(false, such))
}

fn finds_old_before_new(step: &Step) -> bool {
    finds_old(step) && follows(step, is_new)
}

fn finds_new_before_old(step: &Step) -> bool {
    (finds(step, F8) || finds(step, FB)) && follows(step, is_old)
}

/// Write Sector writes this mark in this density.
fn writes(step: &Step, density: Density, mark: DataMark) -> bool {
    let written = writing::write(step).map(|write| write.command.data_mark());
    step.before.density == density && writing::is_mark(step) && written == Some(mark)
}

/// In FM: the old mark of the record before stays, and the CRC starts with it.
fn keep_old(step: &Step, wrong: &mut Outcome) {
    let there = field::data_mark_at_end(step.before.density, &[step.cell()]);
    if let Some(mark) = there.filter(|&mark| is_old(mark)) {
        writing::write_mark(step, wrong, mark);
    }
}
