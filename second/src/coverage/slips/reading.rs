// Slips of Read Sector after its ID, and of Read Address.

use super::{leave, slip, turn, Sentence, Subject};
use crate::activity::{Activity, AddressField, RecordRead, Search, Window};
use crate::command::Name;
use crate::coverage::step::{Outcome, Step};
use crate::data_mark::DataMark;
use crate::density::Density;
use crate::field;

pub const SUBJECT: Subject = Subject {
    concerns: |step| step.ends() || is_reading(step),
    sentences: SENTENCES,
};

const SENTENCES: &[Sentence] = &[
    Sentence {
        says: "The mark byte must be among the first 30 (FM) or 43 (MFM) cells after the ID's \
               last; .. Other marks there are passed over.",
        slips: &[
            slip("29 (FM)", meets_mark_at_30, turn::busy_off_bit_4_on),
            slip("42 (MFM)", meets_mark_at_43, turn::busy_off_bit_4_on),
            slip(
                "another mark ends it",
                meets_other_mark,
                turn::busy_off_bit_4_on,
            ),
        ],
    },
    Sentence {
        says: "No data mark by the window's last cell: bit 4, end there.",
        slips: &[slip("bit 4 stays off", misses_mark, turn::bit_4_off)],
    },
    Sentence {
        says: "Data mark at cell 30 (FM), 43 (MFM) served; 31, 44 Record Not Found.",
        slips: &[
            slip(
                "31 served",
                |step| misses_next_mark(step, Density::Fm),
                wait_longer,
            ),
            slip(
                "44 served",
                |step| misses_next_mark(step, Density::Mfm),
                wait_longer,
            ),
        ],
    },
    Sentence {
        says: "Easy slips: clearing DRQ at the end of a read; going on to a second ID after a \
               good match without a data mark",
        slips: &[
            slip("DRQ goes off (Read Sector)", ends_record, turn::drq_off),
            slip("DRQ goes off (Read Address)", ends_address, turn::drq_off),
            slip("DRQ goes off (not found)", finds_nothing, turn::drq_off),
            slip("it goes on to a second ID", misses_mark, search_on),
        ],
    },
    Sentence {
        says: "Each data byte, flags ignored, goes to DR and sets DRQ; if DRQ was still on, Lost \
               Data.",
        slips: &[
            slip("DR stays", is_data, leave::data),
            slip("a flagged one is left", is_flagged_data, leave::data),
            slip("DRQ stays off", is_data, turn::drq_off),
            slip("Lost Data stays off", is_data, leave::lost_data),
        ],
    },
    Sentence {
        says: "At the second CRC cell: bit 3 if bad, bit 5 on if F8, else off, Busy off, INTRQ.",
        slips: &[
            slip("at the first", is_first_crc_cell, turn::busy_off),
            slip("bit 3 stays", ends_record, leave::crc_error),
            slip(
                "F8 leaves bit 5",
                |step| ends_record_of(step, DataMark::F8),
                leave::deleted,
            ),
            slip(
                "FB leaves bit 5",
                |step| ends_record_of(step, DataMark::FB),
                leave::deleted,
            ),
        ],
    },
    Sentence {
        says: "With m, SR goes up by one (255 to 0) and the search starts afresh instead",
        slips: &[
            slip("m is not looked at", goes_on, turn::busy_off),
            slip("SR stays", goes_on, leave::sector),
            slip("SR stays at 255", goes_on, stay_at_255),
            slip("SR goes up without m", ends_single, go_up),
            slip("pulses are not afresh", goes_on, count_one_pulse),
        ],
    },
    Sentence {
        says: "The six cells after the next ID mark go to DR as data bytes do; at the sixth, \
               track to SR, bit 3 if bad, end.",
        slips: &[
            slip("Lost Data stays off", reads_address, leave::lost_data),
            slip(
                "a flagged one ends it",
                reads_flagged_address,
                turn::busy_off,
            ),
            slip("SR stays", ends_address, leave::sector),
            slip("the sector to SR", ends_address, keep_sector),
            slip("the track to TR", ends_address, keep_track),
            slip("bit 3 stays off", ends_address, turn::bit_3_off),
        ],
    },
    Sentence {
        says: "Fifth pulse up to the mark byte: bit 4, end.",
        slips: &[
            slip("bit 4 stays off", finds_no_address, turn::bit_4_off),
            slip("after the mark byte too", pulses_in_address, turn::busy_off),
        ],
    },
];

fn is_reading(step: &Step) -> bool {
    window(step).is_some() || record(step).is_some() || reads_address(step)
}

/// The window that Read Sector looks for a data mark in.
pub fn window<'a>(step: &'a Step) -> Option<&'a Window> {
    match &step.before.activity {
        Activity::AwaitingDataMark(window) if step.passes() => Some(window),
        _ => None,
    }
}

/// The record that Read Sector reads in this byte time.
pub fn record<'a>(step: &'a Step) -> Option<&'a RecordRead> {
    match &step.before.activity {
        Activity::ReadingRecord(read) if step.passes() => Some(read),
        _ => None,
    }
}

fn address<'a>(step: &'a Step) -> Option<&'a AddressField> {
    match &step.before.activity {
        Activity::ReadingAddress(address) if step.passes() => Some(address),
        _ => None,
    }
}

/// The data mark that ends in the window with this cell.
pub fn found_mark(step: &Step) -> Option<DataMark> {
    match &step.right.machine.activity {
        Activity::ReadingRecord(read) => window(step).map(|_| read.mark),
        _ => None,
    }
}

/// This cell is the window's last.
pub fn is_last_of_window(step: &Step) -> bool {
    let place = window(step).map(|window| window.passed.len() + 1);
    place == Some(step.before.density.window())
}

/// The data mark ends with the window's last cell.
fn meets_last_mark(step: &Step, density: Density) -> bool {
    step.before.density == density && is_last_of_window(step) && found_mark(step).is_some()
}

fn meets_mark_at_30(step: &Step) -> bool {
    meets_last_mark(step, Density::Fm)
}

fn meets_mark_at_43(step: &Step) -> bool {
    meets_last_mark(step, Density::Mfm)
}

/// The byte of a mark that ends in the window with this cell, but is no data mark.
pub fn other_mark(step: &Step) -> Option<u8> {
    let mut passed = window(step)?.passed.clone();
    passed.push(step.cell());
    let mark = field::mark_at_end(step.before.density, &passed);
    mark.filter(|_| found_mark(step).is_none())
}

fn meets_other_mark(step: &Step) -> bool {
    other_mark(step).is_some()
}

fn misses_mark(step: &Step) -> bool {
    window(step).is_some() && step.ends()
}

/// The data mark that was not in the window, where the next cell would complete one.
pub fn missed_mark(step: &Step) -> Option<DataMark> {
    if !misses_mark(step) {
        return None;
    }
    let (head, length) = (usize::from(step.before.position), step.row.len());
    let places = (head + length - 2)..(head + length + 2);
    let cells: Vec<u16> = places.map(|place| step.row[place % length]).collect();
    field::data_mark_at_end(step.before.density, &cells)
}

fn misses_next_mark(step: &Step, density: Density) -> bool {
    step.before.density == density && missed_mark(step).is_some()
}

/// The window has one more cell.
pub fn wait_longer(step: &Step, wrong: &mut Outcome) {
    if let Some(mut window) = window(step).cloned() {
        window.passed.remove(0);
        window.passed.push(step.cell());
        go_on_with(wrong, Activity::AwaitingDataMark(window));
    }
}

fn search_on(step: &Step, wrong: &mut Outcome) {
    if let Some(window) = window(step) {
        go_on_with(wrong, Activity::Searching(Search::new(window.command)));
    }
}

/// The command does not end with Record Not Found, but goes on with this.
pub fn go_on_with(wrong: &mut Outcome, activity: Activity) {
    wrong.machine.status.not_found = false;
    wrong.machine.interrupt_request = false;
    wrong.machine.activity = activity;
}

/// Which cell after the mark this is, counted from 1.
fn cell_after_mark(step: &Step) -> Option<usize> {
    let read = record(step)?;
    Some(read.field.len() + 1 - field::mark_length(step.before.density))
}

fn is_data(step: &Step) -> bool {
    let size = record(step).map_or(0, |read| read.size);
    cell_after_mark(step).map_or(false, |place| place <= size)
}

fn is_flagged_data(step: &Step) -> bool {
    is_data(step) && field::is_flagged(step.cell())
}

/// Which cell after the data this is, counted from 1.
pub fn cell_after_data(step: &Step) -> Option<usize> {
    cell_after_mark(step)?.checked_sub(record(step)?.size)
}

/// The first CRC cell of a record that is read.
pub fn is_first_crc_cell(step: &Step) -> bool {
    cell_after_data(step) == Some(1)
}

/// The second CRC cell of a record that is read.
pub fn ends_record(step: &Step) -> bool {
    cell_after_data(step) == Some(2)
}

/// The second CRC cell of a record that begins with this mark.
pub fn ends_record_of(step: &Step, mark: DataMark) -> bool {
    ends_record(step) && record(step).map(|read| read.mark) == Some(mark)
}

/// The record ends, but not the command.
pub fn goes_on(step: &Step) -> bool {
    ends_record(step) && !step.ends()
}

/// The record of a command without m ends.
fn ends_single(step: &Step) -> bool {
    let is_single = record(step).map_or(false, |read| !read.command.multiple());
    is_single && ends_record(step)
}

fn stay_at_255(step: &Step, wrong: &mut Outcome) {
    wrong.machine.sector = step.before.sector.saturating_add(1);
}

/// SR goes up by one.
pub fn go_up(step: &Step, wrong: &mut Outcome) {
    wrong.machine.sector = step.before.sector.wrapping_add(1);
}

fn count_one_pulse(_: &Step, wrong: &mut Outcome) {
    if let Activity::Searching(search) = &mut wrong.machine.activity {
        search.pulses = 1;
    }
}

/// The end of a command of Types II and III by Record Not Found.
fn finds_nothing(step: &Step) -> bool {
    step.transfers() && step.ends() && step.right.machine.status.not_found
}

fn reads_address(step: &Step) -> bool {
    address(step).is_some()
}

fn reads_flagged_address(step: &Step) -> bool {
    reads_address(step) && field::is_flagged(step.cell())
}

fn pulses_in_address(step: &Step) -> bool {
    reads_address(step) && step.is_pulse()
}

fn ends_address(step: &Step) -> bool {
    reads_address(step) && step.ends()
}

/// The third of the six bytes goes to SR.
fn keep_sector(step: &Step, wrong: &mut Outcome) {
    if let Some(address) = address(step) {
        wrong.machine.sector = address.field[address.field.len() - 3];
    }
}

fn keep_track(step: &Step, wrong: &mut Outcome) {
    wrong.machine.track = step.right.machine.sector;
}

fn finds_no_address(step: &Step) -> bool {
    let command = step.searches().map(|command| command.name);
    command == Some(Name::ReadAddress) && step.ends()
}
