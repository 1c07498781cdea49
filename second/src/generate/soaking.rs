// The scenes of a soak, and Write Track by a host that comes often.

use super::chaining::CHAINS;
use super::commands::sector_commands;
use super::timing::{BEGINNINGS, RECORDS};
use super::turns::SHORT_SCENES;
use super::{accepting, forcing, Generator, HEAD_LOADED, READY};
use crate::random::in_turn;

/// The longest run of a host that looks at DRQ often.
const SHORT_RUN: usize = 4;

/// Type I commands that each long script gives in its turn.
const TYPE_ONE_TURNS: u64 = 6;

impl Generator {
    /// What some scripts in a row must meet completely: each sector command on each chip, and each
    /// Type I command, half of a script's on each chip, and between them a scene of long rings; and
    /// Restore to its end, which takes so long that chance hardly gives it. Of the others there are
    /// fewer, and chance gives them all.
    pub fn take_soaking_turns(&mut self, seed: u64) {
        self.restore_scene();
        self.command_stretch(in_turn(&sector_commands(), seed));
        for turn in 0..TYPE_ONE_TURNS {
            if turn == TYPE_ONE_TURNS / 2 {
                self.change_chip(seed);
                self.command_stretch(in_turn(&sector_commands(), seed));
            }
            let number = seed.wrapping_mul(TYPE_ONE_TURNS).wrapping_add(turn);
            self.command_stretch((number % 0x80) as u8);
        }
    }

    /// Most scenes are long waits, the others of every kind. Whole tracks are formatted here
    /// alone, since that takes thousands of lines.
    pub fn soaking_scene(&mut self) {
        match self.random.below(94) {
            0 => self.new_ring(),
            1 => {
                let rounds = 3 * self.plan.length;
                self.formatting_scene(rounds);
                self.show_row();
            }
            2..=5 => self.scene(),
            6..=15 => {
                let record = self.random.pick(&RECORDS);
                self.record_scene(record);
            }
            16..=18 => {
                let chain = self.random.pick(&CHAINS);
                self.chain_scene(chain);
            }
            19..=26 => {
                let pair = self.random.pick(&forcing::pairs());
                self.forcing_scene(pair);
            }
            27..=30 => {
                let byte = self.random.pick(&BEGINNINGS);
                self.beginning_scene(byte);
            }
            31..=34 => {
                let loading = self.random.pick(&accepting::loadings());
                self.loading_scene(loading);
            }
            35..=40 => {
                let scene = self.random.pick(&SHORT_SCENES);
                scene(self);
            }
            41..=43 => self.side_scene(),
            44..=49 => self.data_mark_scene(),
            50 => self.any_eight_inch_scene(),
            _ => self.stretching_scene(),
        }
    }

    /// Write Track by a host that looks at DRQ after every few byte times, for so many rounds.
    pub fn formatting_scene(&mut self, rounds: usize) {
        self.set_wires(READY | HEAD_LOADED);
        let before = self.random.between(0, 40);
        self.put_head(self.plan.length - before);
        let byte = self.random.pick(&[0xF0, 0xF0, 0xF0, 0xF4]);
        self.command(byte);
        let misses_one_in = self.random.pick(&[8, 40, 400]);
        for _ in 0..rounds {
            if !self.is_busy() {
                break;
            }
            if self.bench.machine.data_request && !self.random.one_in(misses_one_in) {
                self.serve_request();
            }
            let limit = self.random.between(1, SHORT_RUN);
            self.go(limit);
        }
        self.end_command();
        self.show_round_head();
    }

    /// Cells that a write may just have changed.
    pub fn show_round_head(&mut self) {
        let place = usize::from(self.bench.machine.position).saturating_sub(40);
        let count = 64.min(self.plan.length - place);
        self.say(format!("V {:X} {:X}", place, count));
    }
}
