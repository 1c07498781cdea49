// The machine and its calls: power-on, load register, read register, byte time and run.

use std::mem;

use crate::activity::Activity;
use crate::chip::Chip;
use crate::command::{Command, Conditions};
use crate::density::Density;
use crate::field::LARGEST_CELL;
use crate::lines::Lines;
use crate::number;
use crate::status::{Status, StatusType, Surroundings};

/// "L from 2,048"; "the largest ring goes from 6,400 to 10,416 cells". No other place has the range.
pub const SHORTEST_TRACK: u16 = 2048;
pub const LONGEST_TRACK: u16 = 10_416;

#[derive(Clone, Copy, Debug, PartialEq, Eq)]
pub enum Direction {
    In,
    Out,
}

/// The registers and what the machine is doing.
#[derive(Clone, Debug, PartialEq, Eq)]
pub struct Machine {
    pub chip: Chip,
    pub length: u16,
    pub density: Density,
    pub position: u16,
    /// TR.
    pub track: u8,
    /// SR.
    pub sector: u8,
    /// DR.
    pub data: u8,
    pub direction: Direction,
    pub head_loaded: bool,
    /// Ready as the last byte time saw it.
    pub ready_seen: bool,
    /// Whether the last byte time was an index pulse.
    pub index_seen: bool,
    /// DRQ.
    pub data_request: bool,
    /// INTRQ.
    pub interrupt_request: bool,
    /// The side output; on the 1793, which has none, always 0.
    pub side_output: u8,
    pub status: Status,
    pub conditions: Conditions,
    pub activity: Activity,
}

/// What power-on and a register load answer.
#[derive(Clone, Debug, PartialEq, Eq)]
pub struct Answer {
    pub number: u8,
    pub machine: Machine,
}

#[derive(Clone, Debug, PartialEq, Eq)]
pub struct ReadAnswer {
    pub number: u8,
    pub byte: u8,
    pub machine: Machine,
}

#[derive(Clone, Debug, PartialEq, Eq)]
pub struct ByteTimeAnswer {
    pub number: u8,
    /// The step pulse that the byte time reports.
    pub pulse: Option<Direction>,
    pub machine: Machine,
}

#[derive(Clone, Debug, PartialEq, Eq)]
pub struct RunAnswer {
    pub number: u8,
    pub passed: u16,
    pub pulses_in: u16,
    pub pulses_out: u16,
    pub machine: Machine,
}

/// One byte time as an activity meets it.
pub(crate) struct ByteTime<'a> {
    pub cell: &'a mut u16,
    /// "The byte time in which cell 0 passes is an index pulse, seen before the cell."
    pub index: bool,
    pub lines: Lines,
    /// The step pulse to report.
    pub pulse: Option<Direction>,
}

pub fn length_in_range(length: usize) -> bool {
    (usize::from(SHORTEST_TRACK)..=usize::from(LONGEST_TRACK)).contains(&length)
}

impl Machine {
    /// Power-on. A length out of range leaves the "power-on FM machine of 2,048", of the chip that
    /// was named.
    pub fn power_on(chip: Chip, length: u16, density: Density) -> Answer {
        if !length_in_range(usize::from(length)) {
            return Answer {
                number: number::LENGTH,
                machine: Machine::fresh(chip, SHORTEST_TRACK, Density::Fm),
            };
        }
        Answer {
            number: number::DONE,
            machine: Machine::fresh(chip, length, density),
        }
    }

    /// "Position 0, TR 0, SR 1, DR 0, direction out, head unloaded, idle, Ready last seen off,
    /// DRQ and INTRQ off, Type I status"; and side output 0.
    fn fresh(chip: Chip, length: u16, density: Density) -> Machine {
        Machine {
            chip,
            length,
            density,
            position: 0,
            track: 0,
            sector: 1,
            data: 0,
            direction: Direction::Out,
            head_loaded: false,
            ready_seen: false,
            index_seen: false,
            data_request: false,
            interrupt_request: false,
            side_output: 0,
            status: Status::clear(StatusType::TypeOne),
            conditions: Conditions::default(),
            activity: Activity::Idle,
        }
    }

    pub fn is_busy(&self) -> bool {
        self.activity != Activity::Idle
    }

    /// Refusal 2, which every call that takes a machine looks at first.
    pub fn is_in_range(&self) -> bool {
        length_in_range(usize::from(self.length))
            && self.position < self.length
            && self.activity.counts_in_range()
    }

    /// The status byte under these lines; looking at it changes nothing.
    pub fn status_byte(&self, lines: Lines) -> u8 {
        let around = Surroundings {
            head_loaded: self.head_loaded,
            index: self.index_seen,
            data_request: self.data_request,
            busy: self.is_busy(),
        };
        self.status.byte(around, lines)
    }

    /// "Reads 0 to 3: status, TR, SR, DR."
    pub fn read_register(self, register: u8, lines: Lines) -> ReadAnswer {
        let number = self.read_refusal(register);
        let mut machine = self;
        let byte = if number == number::DONE {
            machine.give_register(register, lines)
        } else {
            0
        };
        ReadAnswer {
            number,
            byte,
            machine,
        }
    }

    fn read_refusal(&self, register: u8) -> u8 {
        if !self.is_in_range() {
            number::MACHINE
        } else if register > 3 {
            number::REGISTER
        } else {
            number::DONE
        }
    }

    fn give_register(&mut self, register: u8, lines: Lines) -> u8 {
        match register {
            0 => {
                self.interrupt_request = false;
                self.status_byte(lines)
            }
            1 => self.track,
            2 => self.sector,
            _ => {
                self.data_request = false;
                self.data
            }
        }
    }

    /// "Writes 0 to 3: command, TR, SR, DR."
    pub fn load_register(self, register: u8, byte: u8, lines: Lines) -> Answer {
        let number = self.load_refusal(register, byte);
        let mut machine = self;
        if number == number::DONE {
            machine.take_register(register, byte, lines);
        }
        Answer { number, machine }
    }

    /// Lowest first: 2, 5, 6, 7. A byte that is no command is 6 while Busy.
    fn load_refusal(&self, register: u8, byte: u8) -> u8 {
        if !self.is_in_range() {
            number::MACHINE
        } else if register > 3 {
            number::REGISTER
        } else if self.is_busy() && !loads_while_busy(register, byte) {
            number::BUSY
        } else if register == 0 && Command::decode(byte, self.chip).is_none() {
            number::NO_COMMAND
        } else {
            number::DONE
        }
    }

    fn take_register(&mut self, register: u8, byte: u8, lines: Lines) {
        match register {
            0 => {
                if let Some(command) = Command::decode(byte, self.chip) {
                    self.accept(command, lines);
                }
            }
            1 => self.track = byte,
            2 => self.sector = byte,
            _ => {
                self.data = byte;
                self.data_request = false;
            }
        }
    }

    /// "Loading an accepted command turns INTRQ off"; "any later command drops" the conditions
    /// of a Force Interrupt.
    fn accept(&mut self, command: Command, lines: Lines) {
        self.interrupt_request = false;
        self.conditions = Conditions::default();
        if command.forces() {
            self.force_interrupt(command);
            return;
        }
        self.data_request = false;
        // "U goes to the side output at acceptance", also where the command ends at once.
        self.side_output = command.side_output.unwrap_or(self.side_output);
        if command.is_type_one() {
            self.status = Status::clear(StatusType::TypeOne);
            self.accept_type_one(command);
        } else {
            self.status = Status::clear(StatusType::Transfer);
            self.accept_transfer(command, lines);
        }
    }

    /// "Force Interrupt ends a command: Busy off, other bits and cells already written stay;
    /// when idle, status becomes Type I with bits 3 and 4 off. Bit 3 raises INTRQ at once."
    fn force_interrupt(&mut self, command: Command) {
        if self.is_busy() {
            self.activity = Activity::Idle;
        } else {
            self.status = Status::clear(StatusType::TypeOne);
        }
        self.conditions = command.conditions();
        self.interrupt_request = self.conditions.at_once;
    }

    /// One byte time: the cell at the head position passes, then the position goes up by one,
    /// "and from L - 1 to 0".
    pub fn byte_time(self, track: &mut [u16], lines: Lines) -> ByteTimeAnswer {
        let number = match self.track_refusal(track) {
            number::DONE if track[usize::from(self.position)] > LARGEST_CELL => number::CELL,
            other => other,
        };
        let mut machine = self;
        let pulse = if number == number::DONE {
            let cell = &mut track[usize::from(machine.position)];
            machine.pass_cell(cell, lines)
        } else {
            None
        };
        ByteTimeAnswer {
            number,
            pulse,
            machine,
        }
    }

    /// Refusals 2 and 3, which a run with limit 0 makes too.
    fn track_refusal(&self, track: &[u16]) -> u8 {
        if !self.is_in_range() {
            number::MACHINE
        } else if track.len() != usize::from(self.length) {
            number::TRACK
        } else {
            number::DONE
        }
    }

    /// A byte time that nothing refuses, over the cell under the head.
    pub(crate) fn pass_cell(&mut self, cell: &mut u16, lines: Lines) -> Option<Direction> {
        let index = self.position == 0;
        self.look_at_conditions(index, lines.ready);
        self.index_seen = index;
        self.ready_seen = lines.ready;
        let mut now = ByteTime {
            cell,
            index,
            lines,
            pulse: None,
        };
        let activity = mem::replace(&mut self.activity, Activity::Idle);
        self.activity = self.go_on(activity, &mut now);
        self.position = (self.position + 1) % self.length;
        now.pulse
    }

    /// "Bit 2 at each index pulse, bits 0 and 1 when Ready comes on or goes off between byte
    /// times."
    fn look_at_conditions(&mut self, index: bool, ready: bool) {
        let comes_on = ready && !self.ready_seen;
        let goes_off = !ready && self.ready_seen;
        if (self.conditions.index && index)
            || (self.conditions.ready_comes_on && comes_on)
            || (self.conditions.ready_goes_off && goes_off)
        {
            self.interrupt_request = true;
        }
    }

    fn go_on(&mut self, activity: Activity, now: &mut ByteTime) -> Activity {
        match activity {
            Activity::Idle => Activity::Idle,
            Activity::Stepping(stepping) => self.go_on_stepping(stepping, now),
            Activity::Settling(settling) => self.go_on_settling(settling, now),
            Activity::Searching(search) => self.go_on_searching(search, now),
            Activity::ReadingAddress(address) => self.go_on_reading_address(address, now),
            Activity::AwaitingDataMark(window) => self.go_on_awaiting_mark(window, now),
            Activity::ReadingRecord(read) => self.go_on_reading_record(read, now),
            Activity::WritingRecord(write) => self.go_on_writing_record(write, now),
            Activity::AwaitingIndex => self.go_on_awaiting_index(now),
            Activity::WritingTrack(write) => self.go_on_writing_track(write, now),
        }
    }

    /// "When it ends by itself, Busy goes off and INTRQ on in that byte time."
    pub(crate) fn end(&mut self) -> Activity {
        self.interrupt_request = true;
        Activity::Idle
    }

    /// "Makes byte times up to a lent limit and stops after the first one that ends with DRQ or
    /// INTRQ on." A run stopped by 4 hands back the machine before the refused byte time.
    pub fn run(self, track: &mut [u16], lines: Lines, limit: u16) -> RunAnswer {
        let mut answer = RunAnswer {
            number: self.track_refusal(track),
            passed: 0,
            pulses_in: 0,
            pulses_out: 0,
            machine: self,
        };
        let mut going = answer.number == number::DONE;
        while going && answer.passed < limit {
            answer = answer.one_more(track, lines);
            going = answer.number == number::DONE
                && !answer.machine.data_request
                && !answer.machine.interrupt_request;
        }
        answer
    }
}

impl RunAnswer {
    /// The run's answer after one byte time more.
    fn one_more(self, track: &mut [u16], lines: Lines) -> RunAnswer {
        let next = self.machine.byte_time(track, lines);
        RunAnswer {
            number: next.number,
            passed: self.passed + u16::from(next.number == number::DONE),
            pulses_in: self.pulses_in + u16::from(next.pulse == Some(Direction::In)),
            pulses_out: self.pulses_out + u16::from(next.pulse == Some(Direction::Out)),
            machine: next.machine,
        }
    }
}

/// DR may be loaded at any time; of the commands, D0-DF alone.
fn loads_while_busy(register: u8, byte: u8) -> bool {
    match register {
        0 => (0xD0..=0xDF).contains(&byte),
        1 | 2 => false,
        _ => true,
    }
}
