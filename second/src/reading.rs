// The commands that hand bytes to the host: Read Sector and Read Address.

use crate::activity::{Activity, AddressField, RecordRead, Window};
use crate::crc;
use crate::field::{self, ID_CELLS};
use crate::machine::{ByteTime, Machine};

const CRC_CELLS: usize = 2;

impl Machine {
    /// "Each data byte, flags ignored, goes to DR and sets DRQ; if DRQ was still on, Lost Data."
    fn hand_over(&mut self, byte: u8) {
        if self.data_request {
            self.status.lost_data = true;
        }
        self.data = byte;
        self.data_request = true;
    }

    /// "No data mark by the window's last cell: bit 4, end there." "Other marks there are passed
    /// over", ID marks too.
    pub(crate) fn go_on_awaiting_mark(&mut self, window: Window, now: &mut ByteTime) -> Activity {
        let mut window = window;
        window.passed.push(*now.cell);
        if let Some(mark) = field::data_mark_at_end(self.density, &window.passed) {
            return Activity::ReadingRecord(RecordRead {
                command: window.command,
                size: window.size,
                mark,
                field: field::mark_bytes(self.density, mark.byte()),
            });
        }
        if window.passed.len() == self.density.window() {
            self.status.not_found = true;
            return self.end();
        }
        Activity::AwaitingDataMark(window)
    }

    /// "At the second CRC cell: bit 3 if bad, bit 5 on if F8, else off, Busy off, INTRQ." F9 "counts
    /// as deleted", so bit 5 is on for it too. DRQ is left as it is. "If there is a CRC error at the
    /// end of the data field, the CRC error status bit is set, and the command is terminated (even
    /// if it is a multiple record command)." (004)
    pub(crate) fn go_on_reading_record(
        &mut self,
        read: RecordRead,
        now: &mut ByteTime,
    ) -> Activity {
        let mut read = read;
        let byte = field::byte_of(*now.cell);
        read.field.push(byte);
        let after_mark = self.cells_after_mark(&read.field);
        if after_mark <= read.size {
            self.hand_over(byte);
        }
        if after_mark < read.size + CRC_CELLS {
            return Activity::ReadingRecord(read);
        }
        self.status.deleted = read.mark.is_deleted();
        // A good CRC does not clear bit 3: the good match has done that already.
        if crc::of_field(&read.field) != 0 {
            self.status.crc_error = true;
            return self.end();
        }
        self.end_record(read.command)
    }

    /// "The six cells after the next ID mark go to DR as data bytes do; at the sixth, track to
    /// SR, bit 3 if bad, end."
    pub(crate) fn go_on_reading_address(
        &mut self,
        address: AddressField,
        now: &mut ByteTime,
    ) -> Activity {
        let mut address = address;
        let byte = field::byte_of(*now.cell);
        address.field.push(byte);
        self.hand_over(byte);
        if self.cells_after_mark(&address.field) < ID_CELLS {
            return Activity::ReadingAddress(address);
        }
        self.sector = address.field[address.field.len() - ID_CELLS];
        self.status.crc_error = crc::of_field(&address.field) != 0;
        self.end()
    }

    /// How many of a field's bytes stand after its mark.
    fn cells_after_mark(&self, field: &[u8]) -> usize {
        field.len() - field::mark_length(self.density)
    }
}
