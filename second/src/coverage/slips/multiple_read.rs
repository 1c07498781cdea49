// Slips of what ends a multiple read: a record with a bad data CRC.

use super::{leave, reading, searching, slip, turn, Sentence, Subject};
use crate::activity::{Activity, RecordRead, Search};
use crate::chip::Chip;
use crate::command::Name;
use crate::coverage::step::{Outcome, Step};
use crate::crc;
use crate::data_mark::DataMark::{self, F8, F9, FA, FB};
use crate::density::Density;
use crate::field;

/// Bit 0 of a Read Sector is 0, and nobody looks at it. A wrong machine keeps there that the
/// command has read a record.
const HAS_READ: u8 = 1;

pub const SUBJECT: Subject = Subject {
    concerns: |step| has_event(step) && is_multiple_read(step),
    sentences: SENTENCES,
};

const SENTENCES: &[Sentence] = &[
    Sentence {
        says: "A bad data CRC ends a multiple read.",
        slips: &[
            slip("it goes on", breaks, go_on),
            slip(
                "not that of a later record",
                reading::ends_record,
                look_at_first,
            ),
            slip(
                "not that of the first record",
                reading::ends_record,
                look_at_later,
            ),
            slip("not on the 1793", |step| is_of(step, Chip::Wd1793), go_on),
            slip("not on the 1797", |step| is_of(step, Chip::Wd1797), go_on),
            slip("not in FM", |step| is_in(step, Density::Fm), go_on),
            slip("not in MFM", |step| is_in(step, Density::Mfm), go_on),
            slip("not with F8", |step| breaks_with(step, F8), go_on),
            slip("not with F9", |step| breaks_with(step, F9), go_on),
            slip("not with FA", |step| breaks_with(step, FA), go_on),
            slip("not with FB", |step| breaks_with(step, FB), go_on),
            slip("not with Lost Data", breaks_with_loss, go_on),
            slip("not with DRQ off", breaks_served, go_on),
            slip("a good one too", reading::goes_on, end_after_good),
            slip(
                "that of an ID too",
                searching::meets_bad_match,
                turn::busy_off,
            ),
        ],
    },
    Sentence {
        says: "Bit 3 on, Busy off, INTRQ, and SR stays at the broken sector.",
        slips: &[
            slip("bit 3 stays off", breaks, turn::bit_3_off),
            slip("bit 4 comes on", breaks, turn::bit_4_on),
            slip("Busy stays on", breaks, stay_busy),
            slip("INTRQ stays off", breaks, turn::intrq_off),
            slip("SR goes up", breaks, reading::go_up),
            slip("SR goes from 255 to 0", breaks_at_255, reading::go_up),
            slip("DRQ goes off", breaks, turn::drq_off),
            slip("Lost Data goes off", breaks, turn::lost_data_off),
        ],
    },
    Sentence {
        says: "If there is a CRC error at the end of the data field, the CRC error status bit is \
               set, and the command is terminated (even if it is a multiple record command). \
               (004)",
        slips: &[
            slip("at the first CRC cell", will_break, end_early),
            slip("a byte time later", breaks, end_late),
        ],
    },
    Sentence {
        says: "At the end of the Read operation, the type of Data Address Mark encountered in the \
               data field is recorded in the Status Register (Bit 5) (004)",
        slips: &[
            slip(
                "not if F8 has a bad CRC",
                |step| breaks_with(step, F8),
                leave::deleted,
            ),
            slip(
                "not if F9 has a bad CRC",
                |step| breaks_with(step, F9),
                leave::deleted,
            ),
            slip(
                "not if FA has a bad CRC",
                |step| breaks_with(step, FA),
                leave::deleted,
            ),
            slip(
                "not if FB has a bad CRC",
                |step| breaks_with(step, FB),
                leave::deleted,
            ),
        ],
    },
];

/// A cell after the data of a record, or the end of an ID.
fn has_event(step: &Step) -> bool {
    let after_data = reading::cell_after_data(step).map_or(false, |place| place > 0);
    after_data || step.may_end_id()
}

/// Read Sector with m reads a record, or searches for one.
fn is_multiple_read(step: &Step) -> bool {
    let reads = reading::record(step).map(|read| read.command);
    let command = reads.or_else(|| step.searches());
    command.map_or(false, |it| it.name == Name::ReadSector && it.multiple())
}

/// A record with a bad data CRC ends the command.
fn breaks(step: &Step) -> bool {
    reading::ends_record(step) && step.ends()
}

fn is_of(step: &Step, chip: Chip) -> bool {
    breaks(step) && step.before.chip == chip
}

fn is_in(step: &Step, density: Density) -> bool {
    breaks(step) && step.before.density == density
}

fn breaks_with(step: &Step, mark: DataMark) -> bool {
    breaks(step) && reading::ends_record_of(step, mark)
}

fn breaks_with_loss(step: &Step) -> bool {
    breaks(step) && step.before.status.lost_data
}

fn breaks_served(step: &Step) -> bool {
    breaks(step) && !step.before.data_request
}

fn breaks_at_255(step: &Step) -> bool {
    breaks(step) && step.before.sector == 255
}

/// The command goes on as after a good record.
pub fn go_on(step: &Step, wrong: &mut Outcome) {
    if let Some(read) = reading::record(step) {
        wrong.machine.interrupt_request = false;
        wrong.machine.activity = wrong.machine.end_record(read.command);
    }
}

fn has_read(step: &Step) -> bool {
    reading::record(step).map_or(false, |read| read.command.byte & HAS_READ != 0)
}

fn keep_that_it_has_read(wrong: &mut Outcome) {
    wrong.change_command(|command| command.byte |= HAS_READ);
}

/// A bad CRC counts in the first record alone.
fn look_at_first(step: &Step, wrong: &mut Outcome) {
    if step.ends() && has_read(step) {
        go_on(step, wrong);
    }
    keep_that_it_has_read(wrong);
}

/// A bad CRC counts from the second record on.
fn look_at_later(step: &Step, wrong: &mut Outcome) {
    if step.ends() && !has_read(step) {
        go_on(step, wrong);
    }
    keep_that_it_has_read(wrong);
}

fn end_after_good(step: &Step, wrong: &mut Outcome) {
    leave::sector(step, wrong);
    wrong.end();
}

/// It searches for the same record again, INTRQ on.
fn stay_busy(step: &Step, wrong: &mut Outcome) {
    if let Some(read) = reading::record(step) {
        wrong.machine.activity = Activity::Searching(Search::new(read.command));
    }
}

/// The record, the cell that passes with it.
fn record_so_far(step: &Step) -> Option<RecordRead> {
    let mut read = reading::record(step)?.clone();
    read.field.push(field::byte_of(step.cell()));
    Some(read)
}

/// The first CRC cell of a record whose CRC is bad: so says the cell after it.
fn will_break(step: &Step) -> bool {
    if !reading::is_first_crc_cell(step) {
        return false;
    }
    let next = step.row[(usize::from(step.before.position) + 1) % step.row.len()];
    record_so_far(step).map_or(false, |mut read| {
        read.field.push(field::byte_of(next));
        crc::of_field(&read.field) != 0
    })
}

fn end_early(step: &Step, wrong: &mut Outcome) {
    let mark = reading::record(step).map(|read| read.mark);
    wrong.machine.status.deleted = mark.map_or(false, DataMark::is_deleted);
    wrong.machine.status.crc_error = true;
    wrong.end();
}

/// One more cell belongs to the record, and the CRC is bad with that too.
fn end_late(step: &Step, wrong: &mut Outcome) {
    if let Some(read) = record_so_far(step) {
        wrong.machine.status = step.before.status;
        wrong.machine.interrupt_request = false;
        wrong.machine.activity = Activity::ReadingRecord(read);
    }
}
