// Scenes of eight-inch disks: long rings, and what stands round the limits of lengths, rows and runs.

use super::power_on::LENGTHS;
use super::serving::Host;
use super::timing::SETTLINGS;
use super::{Generator, HEAD_LOADED, NO_LIMIT, READY};
use crate::field;
use crate::machine::LONGEST_TRACK;
use crate::random::in_turn;

/// The old limit of a ring, and what a position of 13 bits cannot tell from 0.
const PLACES: [usize; 2] = [6400, 8192];
/// Rings round these places, the longest ones, and the shorter one of an eight-inch disk. So many
/// that each scene meets each.
const RINGS: [usize; 9] = [
    10_416, 10_415, 10_416, 8193, 10_416, 6401, 10_416, 8192, 5208,
];
const SCENES: [fn(&mut Generator); 7] = [
    Generator::limits_scene,
    Generator::long_search_scene,
    Generator::long_idle_scene,
    Generator::long_wait_scene,
    Generator::long_steps_scene,
    Generator::long_sector_scene,
    Generator::long_track_scene,
];
/// Commands that go on for long without DRQ where HLT is off.
const WAITS: [u8; 8] = [0x80, 0x84, 0xA4, 0xC0, 0xC4, 0x14, 0x03, 0x07];
/// Lengths, rows and positions that one scene tries.
const TRIES: usize = 4;
/// Rounds that a record of 128 bytes and the search before it take at most.
const MOST_ROUNDS: usize = 150;

impl Generator {
    /// The seed's scene on the seed's ring, which begins as power-on leaves it.
    pub fn eight_inch_scene(&mut self, seed: u64) {
        let (chip, length) = (self.chip(), in_turn(&RINGS, seed));
        self.plan = self.random_plan(chip, length);
        self.say_power_on(self.plan.density, length, chip);
        in_turn(&SCENES, seed)(self);
    }

    /// Any scene on any of the rings; then the ring has a few sectors.
    pub fn any_eight_inch_scene(&mut self) {
        let any = self.random.below(SCENES.len() * RINGS.len());
        self.show_row();
        self.eight_inch_scene(any as u64);
        self.lay_sparse_track();
    }

    /// Those of the places that the ring has, and its end.
    fn places_on_ring(&self) -> Vec<usize> {
        let length = self.plan.length;
        let mut places = PLACES.to_vec();
        places.retain(|&place| place < length);
        places.push(length);
        places
    }

    /// Lengths, positions and rows round the limits.
    fn limits_scene(&mut self) {
        self.power_on_at_limits();
        self.set_lengths_at_limits();
        self.set_positions_at_limits();
        self.set_rows_at_limits();
    }

    fn power_on_at_limits(&mut self) {
        let (density, chip) = (self.plan.density, self.chip());
        for _ in 0..TRIES {
            let length = self.random.pick(&LENGTHS);
            self.say_power_on(density, length, chip);
        }
        self.say_power_on(density, self.plan.length, chip);
    }

    /// 2 for a length out of range, 3 for another one in range.
    fn set_lengths_at_limits(&mut self) {
        for _ in 0..TRIES {
            let length = self.random.pick(&LENGTHS);
            self.say(format!("Y {:X}", length));
            self.call_each();
        }
        self.say(format!("Y {:X}", self.plan.length));
    }

    /// 2 for a position that the ring does not have.
    fn set_positions_at_limits(&mut self) {
        for _ in 0..TRIES {
            let places = self.places_on_ring();
            let place = self.random.pick(&places) + self.random.below(3) - 1;
            self.move_head(place);
            self.call_each();
        }
        self.move_head(NO_LIMIT);
        self.call_each();
        self.move_head(0);
    }

    /// Each call that takes a machine; an idle one stays idle.
    fn call_each(&mut self) {
        let byte = self.random.byte();
        self.load(1, byte);
        self.read(1);
        self.byte_time();
        self.go(0);
    }

    /// 3 for a row of another length, also for one that has the same 13 bits. The viewer is lent it
    /// too, and its last cells are changed and looked at.
    fn set_rows_at_limits(&mut self) {
        let mut lengths = LENGTHS.to_vec();
        lengths.retain(|&length| length <= usize::from(LONGEST_TRACK));
        lengths.extend([self.plan.length % PLACES[1]; 3]);
        for _ in 0..TRIES {
            let length = self.random.pick(&lengths);
            self.say(format!("K {:X}", length));
            self.byte_time();
            let last = length.min(2);
            self.say(format!("F {:X} {:X} 1C2", length - last, last));
            self.say(format!("V {:X} {:X}", length - last, last));
            self.view_sector(1);
        }
        self.change_rows();
        self.view_sector(1);
        self.change_rows();
        self.say(format!("K {:X}", self.plan.length));
    }

    /// A search in vain up to the fifth pulse, in one run.
    fn long_search_scene(&mut self) {
        self.begin_in_vain();
        self.go(NO_LIMIT);
        self.end_command();
    }

    /// At times as long as a run can be, idle; then from pulse to pulse.
    fn long_idle_scene(&mut self) {
        let place = self.edge_place();
        self.put_head(place);
        self.byte_time();
        if self.random.one_in(2) {
            self.longest_run();
        }
        self.load(0, 0xD4);
        for _ in 0..2 {
            self.go(NO_LIMIT);
            self.read(0);
        }
    }

    /// At times as long as a run can be while a command waits, for HLT or to step.
    fn long_wait_scene(&mut self) {
        let place = self.edge_place();
        self.put_head(place);
        self.set_wires(READY);
        self.ask_for(1);
        self.load(3, self.plan.track);
        let byte = self.random.pick(&WAITS);
        self.command(byte);
        let limit = self.random.pick(&[NO_LIMIT, 2000]);
        self.go(limit);
        self.set_wires(READY | HEAD_LOADED);
        self.go(5);
        self.end_command();
    }

    /// One step at each rate; then a settling just before an ID or the index pulse.
    fn long_steps_scene(&mut self) {
        self.rates_scene();
        let byte = self.random.pick(&SETTLINGS);
        self.beginning_scene(byte);
    }

    /// At each of the places a sector, which may stand over it, is viewed, and with a cell above 511
    /// too; the last one is read or written.
    fn long_sector_scene(&mut self) {
        let (mut number, mut begins) = (0, 0);
        for place in self.places_on_ring() {
            number = self.random.byte();
            let cells = self.sector_cells(self.short_sector(number));
            begins = place - self.cells_before(cells.len());
            self.lay_cells(begins, &cells);
            self.view_sector(number);
            self.refuse_cell_at(place - 1);
        }
        self.ask_for(number);
        self.set_wires(READY | HEAD_LOADED);
        self.put_head(begins - 5);
        let byte = self.random.pick(&[0x80, 0x80, 0xA0]);
        self.command(byte);
        self.serve(Host::Prompt, MOST_ROUNDS);
        self.end_command();
        self.show_round_head();
    }

    /// How many of a sector's cells stand before a place: all of them, the ID and a part of the
    /// window after it, or any number.
    fn cells_before(&mut self, size: usize) -> usize {
        let any = self.random.between(0, size);
        let with_id = field::id_length(self.plan.density) + self.random.below(8);
        self.random.pick(&[any, with_id, size])
    }

    /// 4 for the viewer and for a byte time; then the cell as it was.
    fn refuse_cell_at(&mut self, place: usize) {
        let cell = self.bench.current[place];
        self.set_cells(place, &[0x200]);
        self.view_sector(1);
        self.put_head(place);
        self.byte_time();
        self.set_cells(place, &[cell]);
    }

    /// Write Track: its first cells, those round the places, and its last ones.
    fn long_track_scene(&mut self) {
        self.set_wires(READY | HEAD_LOADED);
        self.put_head(self.plan.length - 1);
        self.command(0xF0);
        for place in self.places_on_ring() {
            for _ in 0..3 {
                self.write_format_byte();
            }
            self.show_round_head();
            self.move_head(place - 2);
        }
        while self.is_busy() {
            self.write_format_byte();
        }
        self.say(format!("V {:X} 4", self.plan.length - 4));
        self.end_command();
    }

    fn write_format_byte(&mut self) {
        let byte = self.next_format_byte();
        self.write_byte(byte);
    }
}
