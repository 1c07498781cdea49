// Scenes of long waits, idle, settling and searching, cut into runs.

use super::commands::sector_commands;
use super::{Generator, HEAD_LOADED, NO_LIMIT, PROTECT, READY, TRACK_0};
use crate::activity::Activity;
use crate::command::Name;

/// V of a Type I command.
const VERIFY: u8 = 4;
/// Up to the first byte of a record of 128 bytes, then up to the last cell of its CRC.
const UNSERVED_RUNS: usize = 1 + 127 + 2;

impl Generator {
    /// What an ordinary script of long waits has in place of other scenes.
    pub fn stretch(&mut self) {
        self.lay_sparse_track();
        for _ in 0..self.random.between(30, 60) {
            self.stretching_scene();
        }
    }

    pub fn stretching_scene(&mut self) {
        match self.random.below(24) {
            0 => {
                self.new_ring();
                self.lay_sparse_track();
            }
            1 | 2 => {
                self.show_row();
                self.lay_sparse_track();
            }
            3 => {
                let rounds = self.random.between(20, 200);
                self.formatting_scene(rounds);
            }
            4 => self.unserved_stretch(),
            5..=9 => self.idle_stretch(),
            10..=12 => self.settling_stretch(),
            _ => {
                let byte = self.waiting_command();
                self.command_stretch(byte);
            }
        }
    }

    /// An idle machine under the conditions of a Force Interrupt, at times with DRQ left on by a
    /// Write Track that was ended.
    fn idle_stretch(&mut self) {
        if self.random.one_in(24) {
            self.longest_run();
        }
        self.set_the_scene(0);
        if self.random.one_in(4) {
            self.set_wires(READY | HEAD_LOADED);
            self.command(0xF0);
        }
        let byte = self.random.between(0xD0, 0xDF) as u8;
        self.load(0, byte);
        let runs = self.random.between(1, 6);
        self.make_runs(runs);
        if self.random.one_in(2) {
            self.tell_what_is_hidden();
        }
        self.clear_obstacles();
    }

    /// As long as a run can be: of an idle machine that waits for a Ready edge at most.
    pub fn longest_run(&mut self) {
        let byte = self.random.between(0xD0, 0xD3) as u8;
        self.load(0, byte);
        self.read(3);
        self.go(NO_LIMIT);
    }

    /// A command that waits; the head stands so that the command, or its search, begins at an
    /// edge.
    pub fn command_stretch(&mut self, byte: u8) {
        self.choose_sector();
        if self.random.one_in(2) {
            self.ask_in_vain();
        }
        self.choose_aim();
        self.choose_waiting_wires();
        let settling = self.byte_times_before_search(byte);
        let before = self.random.pick(&[0, settling]);
        self.set_the_scene(before);
        self.load(0, byte);
        if self.random.one_in(2) {
            self.pass_to_search();
        }
        let runs = self.random.pick(&[1, 2, 3, 4, 6, 12]);
        self.make_runs(runs);
        self.tell_what_is_hidden();
        self.clear_obstacles();
        self.show_round_head();
    }

    /// Any command but Force Interrupt; those of Type I mostly with V, since they wait for longer.
    fn waiting_command(&mut self) -> u8 {
        match self.random.below(8) {
            0 => self.random.below(0x80) as u8,
            1 | 2 => self.random.below(0x80) as u8 | VERIFY,
            3..=5 => self.random.pick(&sector_commands()),
            6 => self.command_named(Name::ReadAddress),
            _ => self.command_named(Name::WriteTrack),
        }
    }

    /// A track and a sector that are hardly there: the search goes on to the fifth pulse.
    fn ask_in_vain(&mut self) {
        let track = self.random.byte();
        let sector = self.random.byte();
        self.load(1, track);
        self.load(2, sector);
    }

    /// DR for Seek: mostly the track where the head is, so that it waits in its verify.
    fn choose_aim(&mut self) {
        let off = self.random.pick(&[0, 0, 0, 1, 255]);
        let aim = self.bench.machine.track.wrapping_add(off);
        self.load(3, aim);
    }

    /// Ready, and mostly with track 0 on, so that Restore is over soon; HLT may come late.
    fn choose_waiting_wires(&mut self) {
        let wires = self.random.pick(&[
            READY | TRACK_0,
            READY | TRACK_0,
            READY | HEAD_LOADED,
            READY | HEAD_LOADED | TRACK_0,
            READY | HEAD_LOADED | TRACK_0,
            READY | PROTECT | HEAD_LOADED | TRACK_0,
        ]);
        self.set_wires(wires);
    }

    /// The head so many cells before an edge, and what may stand in its way.
    fn set_the_scene(&mut self, before: usize) {
        let edge = self.edge_place();
        self.put_head(edge + self.plan.length - before);
        for _ in 0..self.random.pick(&[0, 0, 0, 1, 1, 2]) {
            self.add_obstacle();
        }
    }

    /// A search with DRQ still on: nobody has read a byte of the record before it, so each run up
    /// to there is one byte time.
    fn unserved_stretch(&mut self) {
        let place = self.edge_place();
        let number = self.random.byte();
        self.lay_sector(place, self.short_sector(number));
        self.ask_for(number);
        self.set_wires(READY | HEAD_LOADED);
        self.put_head(place);
        self.command(0x90);
        for _ in 0..UNSERVED_RUNS {
            self.go(NO_LIMIT);
        }
        self.make_runs(6);
        self.tell_what_is_hidden();
        self.clear_obstacles();
    }

    /// Runs with something between them, mostly as long as there is something to wait for. A
    /// scene may stop at the ring's ends, so that what the last run left is looked at there.
    fn make_runs(&mut self, runs: usize) {
        let began_busy = self.is_busy();
        for _ in 0..runs {
            if self.random.one_in(3) {
                self.run_to_obstacle();
            } else {
                let limit = self.edge_limit();
                self.go(limit);
            }
            let over = began_busy && !self.still_waits();
            let at_edge = usize::from(self.bench.machine.position) < 2;
            if over && !self.random.one_in(4) || at_edge && self.random.one_in(6) {
                return;
            }
            self.between_runs();
        }
    }

    /// A command that neither has ended nor moves bytes yet.
    fn still_waits(&self) -> bool {
        matches!(
            self.bench.machine.activity,
            Activity::Stepping(_)
                | Activity::Settling(_)
                | Activity::Searching(_)
                | Activity::AwaitingDataMark(_)
                | Activity::AwaitingIndex
        )
    }

    /// Mostly what lets the next run go on; then whatever a wait must bear.
    fn between_runs(&mut self) {
        if self.bench.machine.data_request && !self.random.one_in(4) {
            self.serve_request();
        }
        if self.bench.machine.interrupt_request && !self.random.one_in(4) {
            self.read(0);
        }
        if self.waits_for_head() && self.random.one_in(2) {
            self.toggle(HEAD_LOADED);
        }
        if self.is_stuck() && !self.random.one_in(3) {
            self.clear_obstacles();
        }
        match self.random.below(16) {
            0..=2 => self.toggle(READY),
            3 => self.toggle(HEAD_LOADED),
            4 => self.byte_time(),
            5 => self.refuse_something(),
            6 => self.read(0),
            _ => {}
        }
    }

    /// A run leaves more than its line prints. Two Force Interrupts make the status one of Type
    /// I, which has the index bit; an edge, or none, tells how Ready was last seen.
    pub fn tell_what_is_hidden(&mut self) {
        self.load(0, 0xD0);
        self.load(0, 0xD3);
        if self.random.one_in(2) {
            self.toggle(READY);
        }
        if self.is_stuck() {
            self.clear_obstacles();
        }
        self.byte_time();
        self.read(0);
    }
}
