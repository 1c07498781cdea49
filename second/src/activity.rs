// What the machine is doing.

use crate::command::Command;
use crate::data_mark::DataMark;
use crate::density::Density;
use crate::field;

/// The longest wait of all: rate code 3, or settling, in MFM.
const LONGEST_WAIT: u16 = 938;
/// "The fifth ends the command", so no search that goes on has met more than four pulses.
pub const MOST_PULSES: u8 = 4;
const LARGEST_SIZE: usize = 1024;
/// The FF of an MFM record of 1,024 bytes stands at byte time 22 + 1,043 and ends the record.
const LAST_BYTE_TIME: usize = 1064;

#[derive(Clone, Debug, PartialEq, Eq)]
pub enum Activity {
    Idle,
    Stepping(Stepping),
    Settling(Settling),
    Searching(Search),
    /// Read Address after the ID mark.
    ReadingAddress(AddressField),
    /// Read Sector between the ID and its data mark.
    AwaitingDataMark(Window),
    ReadingRecord(RecordRead),
    WritingRecord(RecordWrite),
    /// Write Track before its first index pulse.
    AwaitingIndex,
    WritingTrack(TrackWrite),
}

/// A Type I command until its last decision.
#[derive(Clone, Debug, PartialEq, Eq)]
pub struct Stepping {
    pub command: Command,
    /// Byte times up to and with the one that decides next.
    pub wait: u16,
    /// Whether the command has given a pulse.
    pub stepped: bool,
}

/// Settling with so many byte times left, then waiting for HLT.
#[derive(Clone, Debug, PartialEq, Eq)]
pub struct Settling {
    pub command: Command,
    pub left: u16,
}

/// The search for an ID.
#[derive(Clone, Debug, PartialEq, Eq)]
pub struct Search {
    pub command: Command,
    pub pulses: u8,
    /// "Only cells passing after the search began count": the last of these, so many as an ID has.
    pub passed: Vec<u16>,
}

#[derive(Clone, Debug, PartialEq, Eq)]
pub struct AddressField {
    /// The bytes under the CRC so far, from the mark on.
    pub field: Vec<u8>,
}

#[derive(Clone, Debug, PartialEq, Eq)]
pub struct Window {
    pub command: Command,
    pub size: usize,
    /// The cells after the ID's last.
    pub passed: Vec<u16>,
}

#[derive(Clone, Debug, PartialEq, Eq)]
pub struct RecordRead {
    pub command: Command,
    pub size: usize,
    pub mark: DataMark,
    /// The bytes under the CRC so far, from the mark on.
    pub field: Vec<u8>,
}

#[derive(Clone, Debug, PartialEq, Eq)]
pub struct RecordWrite {
    pub command: Command,
    pub size: usize,
    /// "After the ID's last cell, number byte times from 1": how many have passed.
    pub byte_times: usize,
    /// The bytes under the CRC so far, from the mark on.
    pub field: Vec<u8>,
}

#[derive(Clone, Debug, PartialEq, Eq)]
pub struct TrackWrite {
    pub crc: u16,
    /// The next cell is the second of the two that an F7 writes.
    pub second_of_f7: bool,
}

impl Search {
    /// A search of which no byte time has passed.
    pub fn new(command: Command) -> Search {
        Search {
            command,
            pulses: 0,
            passed: Vec::new(),
        }
    }

    /// One more cell has passed.
    pub fn pass(&mut self, cell: u16, density: Density) {
        if self.passed.len() == field::id_length(density) {
            self.passed.remove(0);
        }
        self.passed.push(cell);
    }
}

impl Settling {
    pub fn full(command: Command, density: Density) -> Settling {
        Settling {
            command,
            left: density.settle_time(),
        }
    }
}

impl Activity {
    /// The activity's name, for reports and for the generator's aims.
    pub fn name(&self) -> &'static str {
        match self {
            Activity::Idle => "Idle",
            Activity::Stepping(_) => "Stepping",
            Activity::Settling(_) => "Settling",
            Activity::Searching(_) => "Searching",
            Activity::ReadingAddress(_) => "ReadingAddress",
            Activity::AwaitingDataMark(_) => "AwaitingDataMark",
            Activity::ReadingRecord(_) => "ReadingRecord",
            Activity::WritingRecord(_) => "WritingRecord",
            Activity::AwaitingIndex => "AwaitingIndex",
            Activity::WritingTrack(_) => "WritingTrack",
        }
    }

    /// False for "a count above the largest its activity holds in any machine grown from
    /// power-on". The lists are no counts: only byte times make them longer.
    pub fn counts_in_range(&self) -> bool {
        match self {
            Activity::Stepping(stepping) => stepping.wait <= LONGEST_WAIT,
            Activity::Settling(settling) => settling.left <= LONGEST_WAIT,
            Activity::Searching(search) => search.pulses <= MOST_PULSES,
            Activity::AwaitingDataMark(window) => window.size <= LARGEST_SIZE,
            Activity::ReadingRecord(read) => read.size <= LARGEST_SIZE,
            Activity::WritingRecord(write) => {
                write.size <= LARGEST_SIZE && write.byte_times <= LAST_BYTE_TIME
            }
            _ => true,
        }
    }
}
