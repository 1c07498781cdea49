// Carries out the lines of a script as the bench does, call by call, so that each can be put wrong.

use std::mem;

use super::step::{Call, Outcome, RunSoFar, Step};
use crate::bench::{self, Bench};
use crate::chip::Chip;
use crate::density::Density;
use crate::machine::{Direction, Machine, SHORTEST_TRACK};
use crate::number;
use crate::script::Line;
use crate::viewer;

/// What a line prints.
#[derive(Debug, PartialEq, Eq)]
pub enum Printed {
    /// The numbers of a line that shows the state, or what the viewer finds.
    Numbers(Vec<u16>),
    Text(String),
}

pub struct Desk<'a> {
    pub bench: &'a mut Bench,
    /// Sees each call; gives what comes of it instead, where that is something else.
    pub hand: &'a mut dyn FnMut(&Step) -> Option<Outcome>,
}

impl Desk<'_> {
    /// None where the line cannot be carried out.
    pub fn carry_out(&mut self, line: &Line) -> Option<Printed> {
        let mut numbers = match (line.letter, line.numbers.as_slice()) {
            (b'P', _) => self.power_on(line)?,
            (b'W', &[register, byte]) => self.load(byte_of(register)?, byte_of(byte)?),
            (b'R', &[register]) => self.read(byte_of(register)?),
            (b'B', &[]) => self.byte_time(),
            (b'G', &[limit]) => self.run(limit),
            (b'N' | b'X' | b'Y', _) => self.bench.carry_out(line).map(|_| Vec::new())?,
            (b'Q', &[density, track, sector]) => {
                return self.view(density, track, sector).map(Printed::Numbers);
            }
            _ => return self.bench.carry_out(line).map(Printed::Text),
        };
        numbers.extend(self.state());
        Some(Printed::Numbers(numbers))
    }

    /// Takes the machine off the bench; what comes of the call brings it back.
    fn take(&mut self) -> Machine {
        mem::replace(&mut self.bench.machine, no_machine())
    }

    /// What comes of a call, right or not. The machine goes back to the bench.
    fn meet(&mut self, call: Call, before: &Machine, right: Outcome) -> Outcome {
        self.meet_in_run(None, call, before, right)
    }

    fn meet_in_run(
        &mut self,
        run: Option<RunSoFar>,
        call: Call,
        before: &Machine,
        right: Outcome,
    ) -> Outcome {
        let step = Step {
            call,
            run,
            before,
            lines: self.bench.lines,
            row: &self.bench.current,
            other_row: &self.bench.other,
            right: &right,
        };
        let mut outcome = (self.hand)(&step).unwrap_or(right);
        self.bench.machine = mem::replace(&mut outcome.machine, no_machine());
        outcome
    }

    /// "The status byte, TR, SR, DR, DRQ and INTRQ, and the head position"; of a 1797 the side
    /// output too.
    fn state(&mut self) -> Vec<u16> {
        let machine = self.take();
        let mut right = Outcome::of(number::DONE, machine.clone());
        if machine.is_in_range() {
            right.byte = machine.status_byte(self.bench.lines);
        }
        right.side_output = Some(machine.side_output).filter(|_| machine.chip == Chip::Wd1797);
        let looked = self.meet(Call::Look, &machine, right);
        let mut columns = vec![
            u16::from(looked.byte),
            u16::from(machine.track),
            u16::from(machine.sector),
            u16::from(machine.data),
            u16::from(machine.data_request),
            u16::from(machine.interrupt_request),
            machine.position,
        ];
        columns.extend(looked.side_output.map(u16::from));
        columns
    }

    /// The viewer; the machine stays as it is.
    fn view(&mut self, density: u16, track: u16, sector: u16) -> Option<Vec<u16>> {
        let wanted = bench::wanted_of(density, track, sector)?;
        let machine = self.take();
        let mut right = Outcome::of(number::DONE, machine.clone());
        right.show_view(viewer::view(&self.bench.current, &self.bench.other, wanted));
        Some(self.meet(Call::View(wanted), &machine, right).viewed)
    }

    /// The bench does it, rows and all.
    fn power_on(&mut self, line: &Line) -> Option<Vec<u16>> {
        let before = self.bench.machine.clone();
        let printed = self.bench.carry_out(line)?;
        let done = printed.starts_with("P 00");
        let number = if done { number::DONE } else { number::LENGTH };
        let right = Outcome::of(number, self.take());
        let length = line.numbers[1];
        let outcome = self.meet(Call::PowerOn { length }, &before, right);
        Some(vec![u16::from(outcome.number)])
    }

    fn load(&mut self, register: u8, byte: u8) -> Vec<u16> {
        let before = self.take();
        let lines = self.bench.lines;
        let answer = before.clone().load_register(register, byte, lines);
        let right = Outcome::of(answer.number, answer.machine);
        let outcome = self.meet(Call::Load { register, byte }, &before, right);
        vec![u16::from(outcome.number)]
    }

    fn read(&mut self, register: u8) -> Vec<u16> {
        let before = self.take();
        let answer = before.clone().read_register(register, self.bench.lines);
        let mut right = Outcome::of(answer.number, answer.machine);
        right.byte = answer.byte;
        let outcome = self.meet(Call::Read { register }, &before, right);
        vec![u16::from(outcome.number), u16::from(outcome.byte)]
    }

    fn byte_time(&mut self) -> Vec<u16> {
        let outcome = self.pass(None);
        let pulse = pulses(&outcome, Direction::In) + 2 * pulses(&outcome, Direction::Out);
        vec![u16::from(outcome.number), pulse]
    }

    /// A byte time, alone or of a run. The cell is as it was until it is known what comes of it.
    fn pass(&mut self, run: Option<RunSoFar>) -> Outcome {
        let before = self.take();
        let place = usize::from(before.position);
        let cell = self.bench.current.get(place).copied().unwrap_or(0);
        let answer = before
            .clone()
            .byte_time(&mut self.bench.current, self.bench.lines);
        let mut right = Outcome::of(answer.number, answer.machine);
        right.pulse = answer.pulse;
        right.cell = self.put(place, cell);
        let outcome = self.meet_in_run(run, Call::ByteTime, &before, right);
        self.put(place, outcome.cell);
        outcome
    }

    /// Puts a cell into the row, if the row has the place. Gives the one that was there.
    fn put(&mut self, place: usize, cell: u16) -> u16 {
        match self.bench.current.get_mut(place) {
            Some(there) => mem::replace(there, cell),
            None => 0,
        }
    }

    fn run(&mut self, limit: u16) -> Vec<u16> {
        let mut run = RunSoFar {
            limit,
            from: self.bench.machine.position,
            passed: 0,
        };
        let (mut uncounted, mut pulses_in, mut pulses_out) = (0, 0, 0);
        let mut number = self.begin_run(limit);
        let mut going = number == number::DONE;
        while going && run.passed < limit {
            let outcome = self.pass(Some(run));
            number = outcome.number;
            run.passed += u16::from(number == number::DONE);
            uncounted += outcome.uncounted;
            pulses_in += pulses(&outcome, Direction::In);
            pulses_out += pulses(&outcome, Direction::Out);
            let stops = self.bench.machine.data_request || self.bench.machine.interrupt_request;
            going = number == number::DONE && !outcome.stops && (!stops || outcome.goes_on);
        }
        let counted = run.passed - uncounted;
        vec![u16::from(number), counted, pulses_in, pulses_out]
    }

    /// A run with limit 0 shows what a run looks at first.
    fn begin_run(&mut self, limit: u16) -> u8 {
        let before = self.take();
        let answer = before
            .clone()
            .run(&mut self.bench.current, self.bench.lines, 0);
        let right = Outcome::of(answer.number, answer.machine);
        self.meet(Call::Run { limit }, &before, right).number
    }
}

/// What stands in for the machine while a call has it.
fn no_machine() -> Machine {
    Machine::power_on(Chip::Wd1793, SHORTEST_TRACK, Density::Fm).machine
}

fn pulses(outcome: &Outcome, direction: Direction) -> u16 {
    u16::from(outcome.pulse == Some(direction))
}

fn byte_of(number: u16) -> Option<u8> {
    u8::try_from(number).ok()
}
