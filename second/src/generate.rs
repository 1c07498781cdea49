// Bench scripts made from a seed while the model runs, so that each line suits the machine.

mod accepting;
mod chaining;
mod commands;
mod data_marks;
mod edges;
mod eight_inch;
mod failing;
mod forcing;
mod formatting;
mod fresh;
mod line_ends;
mod moving;
mod power_on;
mod refusing;
mod searching;
mod serving;
mod settling;
mod sides;
mod soaking;
mod sparse;
mod stretching;
mod timing;
mod track_ends;
mod turns;
mod viewing;

use crate::bench::Bench;
use crate::chip::Chip;
use crate::density::Density;
use crate::field::{self, LengthCodes, FLAG};
use crate::layout;
use crate::random::{self, Random};
use crate::script::{self, Parsed};
use crate::tracks::{self, Plan};
use edges::Obstacle;

/// Cells that one line C may name.
const CELLS_PER_LINE: usize = 64;
/// Equal cells from which on a line F is shorter than lines C.
const FILL_FROM: usize = 16;
const NO_LIMIT: usize = 0xFFFF;
/// How long a script goes on at random at most, a last scene not counted.
const MOST_LINES_AT_RANDOM: usize = 300;
/// One seed in so many gives a script of long waits.
const LONG_WAITS_ONE_IN: u64 = 6;

const READY: u8 = 1;
const PROTECT: u8 = 2;
const TRACK_0: u8 = 4;
const HEAD_LOADED: u8 = 8;

/// One seed in so many ends with a bad line.
const BAD_LINE_ONE_IN: u64 = 4;

/// Lines that cannot be carried out, some of them after one that can; one of them may end a script.
const BAD_LINES: [&str; 23] = [
    "B 1",
    "G",
    "G 10000",
    "W 0",
    "W 100 0",
    "R 100",
    "N 10",
    "P 2 800",
    "P 0 800 2",
    "P 1 800 FFFF",
    "P 0 800 1 0",
    "K 28B1",
    "K 28B0\nV 28B0 1",
    "K 28B0\nV 28AF 2",
    "K 28B0\nF 0 28B1 0",
    "K 28B0\nC 28B0 0",
    "C 0",
    "Z",
    "b",
    "B\t",
    "G 1G",
    "B\r ",
    "\rB",
];

/// A sound sector.
#[derive(Clone, Copy)]
struct Sector {
    side: u8,
    number: u8,
    /// Bytes of its record.
    size: usize,
    mark: u8,
    /// Cells from the ID's last one to the mark byte.
    mark_at: usize,
}

struct Generator {
    random: Random,
    bench: Bench,
    script: String,
    /// How many lines the script has.
    line_count: usize,
    /// The drive lines as the script last named them.
    wires: u8,
    plan: Plan,
    /// The cells that a scene has changed for a while, the latest last.
    obstacles: Vec<Obstacle>,
}

/// A script for the soak.
pub struct LongScript {
    pub text: String,
    /// How many byte times pass in it.
    pub byte_times: u64,
}

/// The script of a seed.
pub fn script(seed: u64) -> String {
    let mut generator = Generator::new(seed, Bench::new());
    generator.begin(seed);
    generator.take_turns(seed);
    if has_long_waits(seed) {
        generator.stretch();
    } else {
        let enough = generator.line_count + generator.random.between(0, MOST_LINES_AT_RANDOM);
        while generator.line_count < enough {
            generator.scene();
        }
    }
    generator.finish(seed);
    line_ends::ended(generator.script, seed)
}

/// Whether the seed's script is one of long waits, cut into runs.
pub fn has_long_waits(seed: u64) -> bool {
    seed % LONG_WAITS_ONE_IN == LONG_WAITS_ONE_IN - 1
}

/// The script of a seed in which at least so many byte times pass.
pub fn long_script(seed: u64, byte_times: u64) -> LongScript {
    let mut generator = Generator::new(seed, Bench::new());
    generator.begin(seed);
    generator.take_soaking_turns(seed);
    while generator.bench.byte_times < byte_times {
        generator.soaking_scene();
    }
    generator.finish(seed);
    LongScript {
        text: generator.script,
        byte_times: generator.bench.byte_times,
    }
}

impl Generator {
    /// A generator with the machine that is there before the first P.
    fn new(seed: u64, bench: Bench) -> Generator {
        Generator {
            random: Random::new(seed),
            bench,
            script: String::new(),
            line_count: 0,
            wires: 0,
            plan: Plan {
                density: Density::Fm,
                length: 2048,
                track: 0,
                side: 0,
                length_codes: LengthCodes::Ibm,
                first_sector: 1,
                bad_ids: 8,
            },
            obstacles: Vec::new(),
        }
    }

    fn scene(&mut self) {
        match self.random.below(30) {
            0..=3 => {
                let byte = self.random.below(0x80) as u8;
                self.stepping_scene(byte);
            }
            4..=9 => {
                let byte = self.random.pick(&commands::sector_commands());
                self.sector_scene(byte);
            }
            10..=11 => self.address_scene(),
            12 => self.write_track_scene(),
            13..=18 => {
                let pair = self.random.pick(&forcing::pairs());
                self.forcing_scene(pair);
            }
            19 => self.waiting_scene(),
            20..=21 => self.refusing_scene(),
            22 => self.viewing_scene(),
            23..=25 => {
                let byte = self.random.pick(&timing::BEGINNINGS);
                self.beginning_scene(byte);
            }
            26 => {
                let chain = self.random.pick(&chaining::CHAINS);
                self.chain_scene(chain);
            }
            27 => self.late_write_scene(),
            28 => self.data_mark_scene(),
            _ if self.random.one_in(4) => self.power_on_either(),
            _ => self.comment(),
        }
    }

    /// The last cells of all, so that every write is compared; then at times a bad line.
    fn finish(&mut self, seed: u64) {
        self.show_row();
        if seed % BAD_LINE_ONE_IN == 1 {
            let bad = random::in_turn(&BAD_LINES, seed / BAD_LINE_ONE_IN);
            self.script.push_str(&format!("{}\nU\n", bad));
        }
    }

    fn show_row(&mut self) {
        for place in (0..self.bench.current.len()).step_by(CELLS_PER_LINE) {
            let count = CELLS_PER_LINE.min(self.bench.current.len() - place);
            self.say(format!("V {:X} {:X}", place, count));
        }
    }

    /// Writes one line into the script and carries it out.
    fn say(&mut self, text: String) {
        let line = match self.random.below(40) {
            0 => format!("  {}  ", text.replace(' ', "   ")),
            1 => format!("{} # a comment", text),
            _ => text,
        };
        if let Parsed::Line(parsed) = script::parse(line.as_bytes()) {
            let printed = self.bench.carry_out(&parsed);
            assert!(printed.is_some(), "the generator made the bad line {line}");
        }
        self.script.push_str(&line);
        self.script.push('\n');
        self.line_count += 1;
    }

    fn comment(&mut self) {
        let text = self.random.pick(&["", "  ", "# a comment", "   # B B B"]);
        self.say(text.to_string());
    }

    fn load(&mut self, register: u8, byte: u8) {
        if self.random.one_in(8) {
            self.say(format!("W {:x} {:x}", register, byte));
        } else {
            self.say(format!("W {:X} {:02X}", register, byte));
        }
    }

    fn read(&mut self, register: u8) {
        self.say(format!("R {:X}", register));
    }

    fn byte_time(&mut self) {
        self.say("B".to_string());
    }

    fn go(&mut self, limit: usize) {
        self.say(format!("G {:X}", limit));
    }

    fn set_wires(&mut self, wires: u8) {
        self.wires = wires;
        self.say(format!("N {:X}", wires));
    }

    fn toggle(&mut self, wire: u8) {
        self.set_wires(self.wires ^ wire);
    }

    fn chip(&self) -> Chip {
        self.bench.machine.chip
    }

    fn is_busy(&self) -> bool {
        self.bench.machine.is_busy()
    }

    /// Sets the head's place; only an idle machine is moved so.
    fn put_head(&mut self, position: usize) {
        if !self.is_busy() {
            self.say(format!("X {:X}", position % self.plan.length));
        }
    }

    /// Sets the head's place while a command goes on.
    fn move_head(&mut self, position: usize) {
        self.say(format!("X {:X}", position));
    }

    /// A place for the head before the next command: where it is, near the index, or anywhere.
    fn choose_head(&mut self) {
        let length = self.plan.length;
        match self.random.below(4) {
            0 => {}
            1 => {
                let place = length + 2 - self.random.between(1, 6);
                self.put_head(place);
            }
            _ => {
                let place = self.random.below(length);
                self.put_head(place);
            }
        }
    }

    fn lay_random_track(&mut self) {
        let track = tracks::random_track(&mut self.random, self.plan);
        self.lay(&track);
    }

    /// Writes the lines that turn the current row into this track.
    fn lay(&mut self, track: &[u16]) {
        let mut place = 0;
        while place < track.len() {
            if self.bench.current[place] == track[place] {
                place += 1;
                continue;
            }
            let cell = track[place];
            let equal = track[place..].iter().take_while(|&&c| c == cell).count();
            if equal >= FILL_FROM {
                self.say(format!("F {:X} {:X} {:X}", place, equal, cell));
                place += equal;
            } else {
                let end = track.len().min(place + CELLS_PER_LINE);
                self.set_cells(place, &track[place..end]);
                place = end;
            }
        }
    }

    fn set_cells(&mut self, place: usize, cells: &[u16]) {
        let named: String = cells.iter().map(|cell| format!(" {:X}", cell)).collect();
        self.say(format!("C {:X}{}", place, named));
    }

    fn change_rows(&mut self) {
        self.say("U".to_string());
    }

    /// A sector of the track's side with 128 bytes, its mark well inside the window.
    fn short_sector(&self, number: u8) -> Sector {
        Sector {
            side: self.plan.side,
            number,
            size: 128,
            mark: 0xFB,
            mark_at: 15,
        }
    }

    /// The ID of such a sector.
    fn short_id(&self, number: u8) -> Vec<u16> {
        let code = self.plan.code_of(128);
        let bytes = [self.plan.track, self.plan.side, number, code];
        layout::id_cells(self.plan.density, bytes)
    }

    /// Lays a sector with a good ID and a good data CRC from a place on.
    fn lay_sector(&mut self, place: usize, sector: Sector) {
        let cells = self.sector_cells(sector);
        self.lay_cells(place, &cells);
    }

    /// Lays cells from a place on, round the ring.
    fn lay_cells(&mut self, place: usize, cells: &[u16]) {
        let mut laid = self.bench.current.clone();
        layout::put(&mut laid, place, cells);
        self.lay(&laid);
    }

    /// Lays the cells of this sector anywhere, its number asked for and the head at the first of
    /// them.
    fn lay_before_head(&mut self, number: u8, cells: &[u16]) {
        let place = self.random.below(self.plan.length);
        self.lay_cells(place, cells);
        self.ask_for(number);
        self.set_wires(READY | HEAD_LOADED);
        self.put_head(place);
    }

    /// Only the two low bits of the length count, and a flag on a data cell does not.
    fn sector_cells(&mut self, sector: Sector) -> Vec<u16> {
        let density = self.plan.density;
        let code = self.plan.code_of(sector.size);
        let length = code + self.random.pick(&[0, 0, 0x54, 0xFC]);
        let data = self.random.bytes(sector.size);
        let bytes = [self.plan.track, sector.side, sector.number, length];
        let mut cells = layout::id_cells(density, bytes);
        let gap = sector.mark_at - field::mark_length(density);
        cells.resize(cells.len() + gap, layout::gap(density));
        let mut field = layout::field_cells(density, sector.mark, &data);
        if self.random.one_in(3) {
            field[field::mark_length(density) + self.random.below(128)] += FLAG;
        }
        cells.extend(field);
        cells
    }

    /// Loads TR and SR for a sector of the track.
    fn ask_for(&mut self, number: u8) {
        self.load(1, self.plan.track);
        self.load(2, number);
    }

    /// The numbers of the sectors whose IDs stand on the track, good or bad.
    fn sectors_on_track(&self) -> Vec<u8> {
        let track = &self.bench.current;
        let mut round = track.clone();
        round.extend_from_slice(&track[..track.len().min(10)]);
        (0..round.len())
            .filter_map(|end| field::id_at_end(self.plan.density, &round[..end]))
            .map(|id| id.sector)
            .collect()
    }

    fn flagged(&mut self) -> u16 {
        FLAG + u16::from(self.random.byte())
    }
}
