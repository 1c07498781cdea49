// One call of the machine, or one byte time of a run: what it meets, and what comes of it.

use crate::activity::{Activity, Search, Settling, Stepping, MOST_PULSES};
use crate::command::{Command, Name};
use crate::field::{self, Id, ID_CELLS, ID_MARK};
use crate::lines::Lines;
use crate::machine::{Direction, Machine};
use crate::number;
use crate::status::StatusType;
use crate::viewer::{View, Wanted};

#[derive(Clone, Copy, Debug, PartialEq, Eq)]
pub enum Call {
    PowerOn {
        length: u16,
    },
    Load {
        register: u8,
        byte: u8,
    },
    Read {
        register: u8,
    },
    /// Alone or in a run.
    ByteTime,
    /// What a run looks at before its first byte time.
    Run {
        limit: u16,
    },
    /// The status byte that a line shows.
    Look,
    /// The viewer, which is lent both rows and no machine.
    View(Wanted),
}

/// What a call gives and what it leaves; a part that it does not have is as `of` makes it.
#[derive(Clone, Debug, PartialEq, Eq)]
pub struct Outcome {
    pub number: u8,
    /// The byte read, or the status byte looked at.
    pub byte: u8,
    pub pulse: Option<Direction>,
    pub machine: Machine,
    /// The cell that was under the head.
    pub cell: u16,
    /// Whether a run goes on though DRQ or INTRQ is on.
    pub goes_on: bool,
    /// Whether a run stops though neither is on.
    pub stops: bool,
    /// Byte times of a run, up to here, that its count leaves out.
    pub uncounted: u16,
    /// The side output that a line shows; of a 1793 it shows none.
    pub side_output: Option<u8>,
    /// What a line shows of the viewer: its number, how many cells it finds, and the cells.
    pub viewed: Vec<u16>,
}

/// A run before one of its byte times.
#[derive(Clone, Copy, Debug, PartialEq, Eq)]
pub struct RunSoFar {
    pub limit: u16,
    /// Where the head stood when it began.
    pub from: u16,
    /// Byte times that have passed.
    pub passed: u16,
}

/// A call as the machine meets it.
pub struct Step<'a> {
    pub call: Call,
    /// The run that a byte time belongs to.
    pub run: Option<RunSoFar>,
    pub before: &'a Machine,
    pub lines: Lines,
    /// The row that is lent.
    pub row: &'a [u16],
    /// The row that the viewer is lent beside it.
    pub other_row: &'a [u16],
    /// What comes of it in the right machine.
    pub right: &'a Outcome,
}

impl Outcome {
    /// This number and this machine, and nothing else.
    pub fn of(number: u8, machine: Machine) -> Outcome {
        Outcome {
            number,
            byte: 0,
            pulse: None,
            machine,
            cell: 0,
            goes_on: false,
            stops: false,
            uncounted: 0,
            side_output: None,
            viewed: Vec::new(),
        }
    }

    pub fn show_view(&mut self, view: View) {
        self.viewed = vec![u16::from(view.number), view.cells.len() as u16];
        self.viewed.extend_from_slice(view.cells);
    }

    /// The command ends here by itself.
    pub fn end(&mut self) {
        self.machine.activity = self.machine.end();
    }

    /// Changes what a command asks for that has just been accepted, or that searches afresh.
    pub fn change_command(&mut self, change: impl Fn(&mut Command)) {
        match &mut self.machine.activity {
            Activity::Settling(settling) => change(&mut settling.command),
            Activity::Searching(search) => change(&mut search.command),
            _ => {}
        }
    }

    /// The record that has just been found, if one has, is of so many bytes.
    pub fn set_size(&mut self, size: usize) {
        match &mut self.machine.activity {
            Activity::AwaitingDataMark(window) => window.size = size,
            Activity::WritingRecord(write) => write.size = size,
            _ => {}
        }
    }
}

impl Step<'_> {
    fn is_done(&self) -> bool {
        self.right.number == number::DONE
    }

    /// A power-on, done or refused.
    pub fn powers_on(&self) -> bool {
        matches!(self.call, Call::PowerOn { .. })
    }

    pub fn reads(&self, register: u8) -> bool {
        self.call == Call::Read { register } && self.is_done()
    }

    /// The byte that a load takes into this register.
    pub fn loaded(&self, register: u8) -> Option<u8> {
        match self.call {
            Call::Load { register: to, byte } if to == register && self.is_done() => Some(byte),
            _ => None,
        }
    }

    pub fn loads(&self, register: u8) -> bool {
        self.loaded(register).is_some()
    }

    /// The command that a load accepts.
    pub fn accepted(&self) -> Option<Command> {
        let byte = self.loaded(0)?;
        Command::decode(byte, self.before.chip)
    }

    pub fn accepts(&self, such: fn(Command) -> bool) -> bool {
        self.accepted().map_or(false, such)
    }

    /// A byte time that is not refused.
    pub fn passes(&self) -> bool {
        self.call == Call::ByteTime && self.is_done()
    }

    /// A byte time over cell 0.
    pub fn is_pulse(&self) -> bool {
        self.passes() && self.before.position == 0
    }

    /// The cell under the head, as it is before a byte time.
    pub fn cell(&self) -> u16 {
        let place = usize::from(self.before.position);
        self.row.get(place).copied().unwrap_or(0)
    }

    /// The command has ended by itself, in this byte time.
    pub fn ends(&self) -> bool {
        self.passes() && self.before.is_busy() && !self.right.machine.is_busy()
    }

    /// A byte time of a command of Types II and III.
    pub fn transfers(&self) -> bool {
        self.passes() && self.before.is_busy() && has_transfer_status(self.before)
    }

    pub fn stepping(&self) -> Option<&Stepping> {
        match &self.before.activity {
            Activity::Stepping(stepping) if self.passes() => Some(stepping),
            _ => None,
        }
    }

    /// The Type I command that decides in this byte time.
    pub fn decides(&self) -> Option<Command> {
        let stepping = self.stepping()?;
        Some(stepping.command).filter(|_| stepping.wait <= 1)
    }

    pub fn settling(&self) -> Option<&Settling> {
        match &self.before.activity {
            Activity::Settling(settling) if self.passes() => Some(settling),
            _ => None,
        }
    }

    /// The command that awaits HLT, and for nothing else.
    pub fn awaits_head(&self) -> Option<Command> {
        let settling = self.settling()?;
        Some(settling.command).filter(|_| settling.left == 0)
    }

    /// The command whose work begins in this byte time.
    pub fn begins(&self) -> Option<Command> {
        self.awaits_head().filter(|_| self.lines.head_loaded)
    }

    /// The command that searches in this byte time; Write Track awaits the index pulse.
    pub fn searches(&self) -> Option<Command> {
        match &self.before.activity {
            Activity::Searching(search) if self.passes() => Some(search.command),
            _ => self
                .begins()
                .filter(|command| command.name != Name::WriteTrack),
        }
    }

    /// The search that goes on or begins in this byte time, before it has seen anything of it.
    pub fn search(&self) -> Option<Search> {
        match &self.before.activity {
            Activity::Searching(search) if self.passes() => Some(search.clone()),
            _ => self.searches().map(Search::new),
        }
    }

    /// A record has ended, and with m another is searched for.
    pub fn begins_next_record(&self) -> bool {
        let is_record = matches!(
            self.before.activity,
            Activity::ReadingRecord(_) | Activity::WritingRecord(_)
        );
        is_record && matches!(self.right.machine.activity, Activity::Searching(_))
    }

    /// How many pulses a search has counted before this byte time.
    pub fn pulses(&self) -> u8 {
        match &self.before.activity {
            Activity::Searching(search) => search.pulses,
            _ => 0,
        }
    }

    /// The ID that this cell completes in a search for IDs.
    pub fn id(&self) -> Option<Id> {
        if !self.may_end_id() || self.is_pulse() && self.pulses() == MOST_PULSES {
            return None;
        }
        let mut search = self.search()?;
        search.pass(self.cell(), self.before.density);
        field::id_at_end(self.before.density, &search.passed)
    }

    /// A search for IDs, with FE where an ID that ends here has its mark.
    pub fn may_end_id(&self) -> bool {
        match &self.before.activity {
            Activity::Searching(search) if search.command.name != Name::ReadAddress => {
                let mark = search.passed.len().checked_sub(ID_CELLS);
                mark.map_or(false, |place| {
                    field::byte_of(search.passed[place]) == ID_MARK
                })
            }
            _ => false,
        }
    }

    /// What the same load or byte time would do to a machine a little different, or under other
    /// lines.
    pub fn instead(&self, change: impl Fn(&mut Machine, &mut Lines)) -> Outcome {
        let (mut machine, mut lines) = (self.before.clone(), self.lines);
        change(&mut machine, &mut lines);
        match self.call {
            Call::Load { register, byte } => {
                let answer = machine.load_register(register, byte, lines);
                Outcome::of(answer.number, answer.machine)
            }
            _ => self.passed_by(machine, self.cell(), lines),
        }
    }

    /// What this byte time would be for another search, over another cell.
    pub fn search_instead(&self, search: Search, cell: u16) -> Outcome {
        let mut machine = self.before.clone();
        machine.activity = Activity::Searching(search);
        self.read_by(machine, cell)
    }

    /// What this byte time would be over another cell.
    pub fn over(&self, cell: u16) -> Outcome {
        self.read_by(self.before.clone(), cell)
    }

    /// The machine takes the cell for another, and writes nothing.
    fn read_by(&self, machine: Machine, cell: u16) -> Outcome {
        let outcome = self.passed_by(machine, cell, self.lines);
        Outcome {
            cell: self.cell(),
            ..outcome
        }
    }

    fn passed_by(&self, machine: Machine, cell: u16, lines: Lines) -> Outcome {
        let mut outcome = Outcome::of(number::DONE, machine);
        outcome.cell = cell;
        outcome.pulse = outcome.machine.pass_cell(&mut outcome.cell, lines);
        outcome
    }
}

/// Whether the status is one of Types II and III.
pub fn has_transfer_status(machine: &Machine) -> bool {
    machine.status.status_type == StatusType::Transfer
}
