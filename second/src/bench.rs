// The bench: works one controller and two rows of cells from a script.

use crate::chip::Chip;
use crate::density::Density;
use crate::layout;
use crate::lines::Lines;
use crate::machine::{Direction, Machine, LONGEST_TRACK, SHORTEST_TRACK};
use crate::number;
use crate::script::Line;
use crate::session::Session;
use crate::viewer::{self, Wanted};

/// "The rows of every program hold 10,416 cells."
const ROOM: usize = LONGEST_TRACK as usize;
/// Cells that one line C may name.
const MOST_CELLS: usize = 64;
/// The largest value of the four drive lines.
const ALL_LINES: u16 = 0xF;

#[derive(Clone)]
pub struct Bench {
    pub machine: Machine,
    pub lines: Lines,
    /// The row that is lent to B and G.
    pub current: Vec<u16>,
    pub other: Vec<u16>,
    /// How many byte times have passed in all; no line prints it.
    pub byte_times: u64,
}

/// Everything that a script prints.
pub fn run(script: &[u8]) -> Vec<u8> {
    let mut session = Session::default();
    let printed = session.take(script);
    (printed + &session.end()).into_bytes()
}

impl Bench {
    /// "Before the first P there is the power-on FM machine of 2,048 cells", a 1793, "the drive
    /// lines are all off, and both rows hold 800 cells of 00FF."
    pub fn new() -> Bench {
        let row = vec![layout::gap(Density::Fm); usize::from(SHORTEST_TRACK)];
        Bench {
            machine: Machine::power_on(Chip::Wd1793, SHORTEST_TRACK, Density::Fm).machine,
            lines: Lines::default(),
            current: row.clone(),
            other: row,
            byte_times: 0,
        }
    }

    /// What the line prints, or none where it cannot be carried out.
    pub fn carry_out(&mut self, line: &Line) -> Option<String> {
        match (line.letter, line.numbers.as_slice()) {
            (b'P', &[density, length]) => self.power_on(density, length, Chip::Wd1793),
            (b'P', &[density, length, chip]) => self.power_on(density, length, chip_of(chip)?),
            (b'N', &[bits]) => self.set_lines(bits),
            (b'W', &[register, byte]) => self.load_register(register, byte),
            (b'R', &[register]) => self.read_register(register),
            (b'B', &[]) => Some(self.byte_time()),
            (b'G', &[limit]) => Some(self.run(limit)),
            (b'X', &[position]) => Some(self.set_position(position)),
            (b'Y', &[length]) => Some(self.set_length(length)),
            (b'K', &[length]) => self.set_row_length(length),
            (b'F', &[place, count, cell]) => self.fill(place, count, cell),
            (b'C', [place, cells @ ..]) => self.set_cells(*place, cells),
            (b'V', &[place, count]) => self.show(place, count),
            (b'U', &[]) => Some(self.change_rows()),
            (b'Q', &[density, track, sector]) => self.view(density, track, sector),
            _ => None,
        }
    }

    /// "The status byte that a read would give now under the present drive lines, 00 where a
    /// read would be refused; TR, SR, DR, DRQ and INTRQ, and the head position"; of a 1797 the
    /// side output too.
    fn state(&self) -> String {
        let machine = &self.machine;
        let status = if machine.is_in_range() {
            machine.status_byte(self.lines)
        } else {
            0
        };
        let side_output = match machine.chip {
            Chip::Wd1793 => String::new(),
            Chip::Wd1797 => format!(" {}", machine.side_output),
        };
        format!(
            "| {:02X} {:02X} {:02X} {:02X} {} {} {:04X}{}",
            status,
            machine.track,
            machine.sector,
            machine.data,
            u8::from(machine.data_request),
            u8::from(machine.interrupt_request),
            machine.position,
            side_output
        )
    }

    fn power_on(&mut self, density: u16, length: u16, chip: Chip) -> Option<String> {
        let density = density_of(density)?;
        let answer = Machine::power_on(chip, length, density);
        self.machine = answer.machine;
        if answer.number == number::DONE {
            self.current = vec![layout::gap(density); usize::from(length)];
            self.other = self.current.clone();
        }
        Some(format!("P {:02X} {}", answer.number, self.state()))
    }

    fn set_lines(&mut self, bits: u16) -> Option<String> {
        if bits > ALL_LINES {
            return None;
        }
        self.lines = Lines::from_bits(bits as u8);
        Some(format!("N {}", self.state()))
    }

    fn load_register(&mut self, register: u16, byte: u16) -> Option<String> {
        let (register, byte) = (byte_of(register)?, byte_of(byte)?);
        let answer = self
            .machine
            .clone()
            .load_register(register, byte, self.lines);
        self.machine = answer.machine;
        Some(format!("W {:02X} {}", answer.number, self.state()))
    }

    fn read_register(&mut self, register: u16) -> Option<String> {
        let register = byte_of(register)?;
        let answer = self.machine.clone().read_register(register, self.lines);
        self.machine = answer.machine;
        Some(format!(
            "R {:02X} {:02X} {}",
            answer.number,
            answer.byte,
            self.state()
        ))
    }

    fn byte_time(&mut self) -> String {
        let answer = self
            .machine
            .clone()
            .byte_time(&mut self.current, self.lines);
        self.machine = answer.machine;
        self.byte_times += u64::from(answer.number == number::DONE);
        let pulse = match answer.pulse {
            None => 0,
            Some(Direction::In) => 1,
            Some(Direction::Out) => 2,
        };
        format!("B {:02X} {:02X} {}", answer.number, pulse, self.state())
    }

    fn run(&mut self, limit: u16) -> String {
        let answer = self
            .machine
            .clone()
            .run(&mut self.current, self.lines, limit);
        self.machine = answer.machine;
        self.byte_times += u64::from(answer.passed);
        format!(
            "G {:02X} {:04X} {:04X} {:04X} {}",
            answer.number,
            answer.passed,
            answer.pulses_in,
            answer.pulses_out,
            self.state()
        )
    }

    fn set_position(&mut self, position: u16) -> String {
        self.machine.position = position;
        format!("X {}", self.state())
    }

    fn set_length(&mut self, length: u16) -> String {
        self.machine.length = length;
        format!("Y {}", self.state())
    }

    /// "The current row has k cells from now on; cells it did not have just before are 0000."
    fn set_row_length(&mut self, length: u16) -> Option<String> {
        let length = usize::from(length);
        if length > ROOM {
            return None;
        }
        self.current.resize(length, 0);
        Some("K".to_string())
    }

    fn fill(&mut self, place: u16, count: u16, cell: u16) -> Option<String> {
        self.part(place, usize::from(count))?.fill(cell);
        Some("F".to_string())
    }

    fn set_cells(&mut self, place: u16, cells: &[u16]) -> Option<String> {
        if cells.is_empty() || cells.len() > MOST_CELLS {
            return None;
        }
        self.part(place, cells.len())?.copy_from_slice(cells);
        Some("C".to_string())
    }

    fn show(&mut self, place: u16, count: u16) -> Option<String> {
        let cells = self.part(place, usize::from(count))?;
        Some(format!("V{}", cells_text(cells)))
    }

    fn change_rows(&mut self) -> String {
        std::mem::swap(&mut self.current, &mut self.other);
        "U".to_string()
    }

    /// The viewer, with the current row as side 0 and the other row as side 1.
    fn view(&self, density: u16, track: u16, sector: u16) -> Option<String> {
        let wanted = wanted_of(density, track, sector)?;
        let view = viewer::view(&self.current, &self.other, wanted);
        Some(format!(
            "Q {:02X} {:04X}{}",
            view.number,
            view.cells.len(),
            cells_text(view.cells)
        ))
    }

    /// So many cells of the current row; none where one of them is "past the row's present
    /// length".
    fn part(&mut self, place: u16, count: usize) -> Option<&mut [u16]> {
        let start = usize::from(place);
        self.current.get_mut(start..start + count)
    }
}

impl Default for Bench {
    fn default() -> Bench {
        Bench::new()
    }
}

/// Each cell with a space before it.
fn cells_text(cells: &[u16]) -> String {
    cells.iter().map(|cell| format!(" {:04X}", cell)).collect()
}

fn byte_of(number: u16) -> Option<u8> {
    u8::try_from(number).ok()
}

/// What the numbers of a line Q ask the viewer for.
pub fn wanted_of(density: u16, track: u16, sector: u16) -> Option<Wanted> {
    Some(Wanted {
        density: density_of(density)?,
        track: byte_of(track)?,
        sector: byte_of(sector)?,
    })
}

fn density_of(number: u16) -> Option<Density> {
    match number {
        0 => Some(Density::Fm),
        1 => Some(Density::Mfm),
        _ => None,
    }
}

fn chip_of(number: u16) -> Option<Chip> {
    match number {
        0 => Some(Chip::Wd1793),
        1 => Some(Chip::Wd1797),
        _ => None,
    }
}
