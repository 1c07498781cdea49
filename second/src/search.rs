// The beginning of Types II and III, settling, and the search for an ID.

use crate::activity::{Activity, AddressField, RecordWrite, Search, Settling, Window};
use crate::command::{Command, Name};
use crate::field::{self, Id, ID_MARK};
use crate::lines::Lines;
use crate::machine::{ByteTime, Machine};

/// "The fifth ends the command with bit 4 before its cell is looked at."
const LAST_PULSE: u8 = 5;

impl Machine {
    /// "Not ready ends it at once with INTRQ; next, a write under protection sets bit 6 and
    /// ends it. Ready is not looked at again." Else the head is loaded.
    pub(crate) fn accept_transfer(&mut self, command: Command, lines: Lines) {
        if !lines.ready {
            self.activity = self.end();
            return;
        }
        if command.writes() && lines.protect {
            self.status.write_refused = true;
            self.activity = self.end();
            return;
        }
        self.head_loaded = true;
        // Write Track: "DRQ at acceptance, unless it ends at once".
        self.data_request = command.name == Name::WriteTrack;
        let mut settling = Settling::full(command, self.density);
        if !command.settles() {
            settling.left = 0;
        }
        self.activity = Activity::Settling(settling);
    }

    /// "Settle if E is 1, then begin with the first byte time that has HLT on." HLT is not
    /// looked at while settling.
    pub(crate) fn go_on_settling(&mut self, settling: Settling, now: &mut ByteTime) -> Activity {
        if settling.left > 0 {
            return Activity::Settling(Settling {
                left: settling.left - 1,
                ..settling
            });
        }
        if !now.lines.head_loaded {
            return Activity::Settling(settling);
        }
        match settling.command.name {
            Name::WriteTrack => self.go_on_awaiting_index(now),
            _ => self.go_on_searching(Search::new(settling.command), now),
        }
    }

    /// "Pulses count from its first byte time up to the ID's last cell", or for Read Address
    /// "up to the mark byte".
    pub(crate) fn go_on_searching(&mut self, search: Search, now: &mut ByteTime) -> Activity {
        let mut search = search;
        search.pulses += u8::from(now.index);
        if search.pulses == LAST_PULSE {
            self.status.not_found = true;
            return self.end();
        }
        search.pass(*now.cell, self.density);
        if search.command.name == Name::ReadAddress {
            return self.look_for_id_mark(search);
        }
        match field::id_at_end(self.density, &search.passed) {
            Some(id) if self.matches(search.command, &id) => self.meet(id, search),
            _ => Activity::Searching(search),
        }
    }

    fn look_for_id_mark(&self, search: Search) -> Activity {
        if field::mark_at_end(self.density, &search.passed) != Some(ID_MARK) {
            return Activity::Searching(search);
        }
        Activity::ReadingAddress(AddressField {
            field: field::mark_bytes(self.density, ID_MARK),
        })
    }

    /// "An ID matches if its track is TR and, for Type II, its sector is SR", and its side the one
    /// that the command asks for, if it asks for one.
    fn matches(&self, command: Command, id: &Id) -> bool {
        if command.is_type_one() {
            return id.track == self.track;
        }
        id.track == self.track && id.sector == self.sector && command.wants_side(id.side)
    }

    /// "One that matches but has a bad CRC sets bit 3 and the search goes on; a good match
    /// clears it."
    fn meet(&mut self, id: Id, search: Search) -> Activity {
        self.status.crc_error = !id.crc_good;
        if !id.crc_good {
            return Activity::Searching(search);
        }
        let command = search.command;
        let size = id.size(command.length_codes);
        match command.name {
            Name::ReadSector => Activity::AwaitingDataMark(Window {
                command,
                size,
                passed: Vec::new(),
            }),
            Name::WriteSector => Activity::WritingRecord(RecordWrite {
                command,
                size,
                byte_times: 0,
                field: field::mark_bytes(self.density, command.data_mark().byte()),
            }),
            _ => self.end(),
        }
    }

    /// The end of a record that was written, or read with a good CRC: "with m, SR goes up by one
    /// (255 to 0) and the search starts afresh instead".
    pub(crate) fn end_record(&mut self, command: Command) -> Activity {
        if !command.multiple() {
            return self.end();
        }
        self.sector = self.sector.wrapping_add(1);
        Activity::Searching(Search::new(command))
    }
}
