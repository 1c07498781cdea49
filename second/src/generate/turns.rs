// What every script begins with, so that some hundred seeds in a row meet all of it.

use super::{accepting, chaining, commands, data_marks, forcing, refusing, timing, Generator};
use crate::command::RETIRED;
use crate::random::in_turn;

/// Scenes of some lines each.
pub const SHORT_SCENES: [fn(&mut Generator); 21] = [
    Generator::side_output_scene,
    Generator::side_scene,
    Generator::side_scene,
    Generator::refused_transfer_scene,
    Generator::edges_scene,
    Generator::direction_scene,
    Generator::direction_scene,
    Generator::rates_scene,
    Generator::track_ends_scene,
    Generator::restore_scene,
    Generator::bad_id_scene,
    Generator::vain_scene,
    Generator::fifth_pulse_scene,
    Generator::window_scene,
    Generator::two_marks_scene,
    Generator::two_marks_scene,
    Generator::overwriting_scene,
    Generator::odd_address_scene,
    Generator::late_write_scene,
    Generator::unserved_track_scene,
    Generator::marks_scene,
];
/// Commands that a script loads while something is on.
const LOADINGS: u64 = 7;
/// One seed in so many has the viewer look.
const VIEW_ONE_IN: u64 = 4;

impl Generator {
    /// Each byte that is no command, more often those that no longer are, and each data mark with
    /// each CRC, on both chips. On one of them each Type I command and each sector command; each
    /// length read and written; each command that settles; each Force Interrupt in each activity;
    /// each scene of long rings. On the other each chain of records; each command with DRQ, INTRQ and
    /// each condition off and on; and every short scene.
    pub fn take_turns(&mut self, seed: u64) {
        self.load_no_command(seed);
        self.marked_record_scene(in_turn(&data_marks::marked_records(), seed));
        let type_one: Vec<u8> = (0x00..0x80).collect();
        self.stepping_scene(in_turn(&type_one, seed));
        self.sector_scene(in_turn(&commands::sector_commands(), seed));
        self.record_scene(in_turn(&timing::RECORDS, seed));
        self.beginning_scene(in_turn(&timing::BEGINNINGS, seed));
        self.beginning_scene(in_turn(&timing::SETTLINGS, seed));
        self.forcing_scene(in_turn(&forcing::pairs(), seed));
        self.change_chip(seed);
        self.load_no_command(seed);
        self.marked_record_scene(in_turn(&data_marks::marked_records(), seed));
        self.chain_scene(in_turn(&chaining::CHAINS, seed));
        for turn in 0..LOADINGS {
            let number = seed.wrapping_mul(LOADINGS).wrapping_add(turn);
            self.loading_scene(in_turn(&accepting::loadings(), number));
        }
        for scene in SHORT_SCENES {
            scene(self);
        }
        if seed % VIEW_ONE_IN == 0 {
            self.viewing_scene();
        }
    }

    fn load_no_command(&mut self, seed: u64) {
        self.load(0, in_turn(&refusing::no_commands(self.chip()), seed));
        self.load(0, in_turn(&RETIRED, seed));
    }
}
