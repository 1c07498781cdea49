// Scenes of settling, passed in runs, and what comes right after it.

use super::{Generator, HEAD_LOADED, READY};
use crate::activity::Activity;

/// Commands that settle and then look for an ID or for the index pulse.
const SETTLING_COMMANDS: [u8; 8] = [0x84, 0x94, 0xA4, 0xC4, 0xF4, 0xF4, 0x14, 0x1C];
/// Far more runs than a settling is ever cut into.
const MOST_RUNS: usize = 60;

impl Generator {
    /// Stepping and settling, each passed exactly to its end.
    pub fn pass_to_search(&mut self) {
        for _ in 0..3 {
            if let Some(left) = self.byte_times_to_settle() {
                self.go(left);
            }
        }
    }

    /// A settling in several runs, HLT off or on, after which the first byte time has the index
    /// pulse or the first cell of an ID, or is one off it: so one byte time more or less changes
    /// what is found.
    pub fn settling_stretch(&mut self) {
        let byte = self.random.pick(&SETTLING_COMMANDS);
        let number = self.random.byte();
        let place = match byte {
            0xF4 => 0,
            _ => self.edge_place(),
        };
        self.lay_sector(place, self.short_sector(number));
        self.ask_for(number);
        self.load(3, self.plan.track);
        let wires = self.random.pick(&[READY, READY | HEAD_LOADED]);
        self.set_wires(wires);
        let off = self.random.below(3);
        let before = self.byte_times_before_search(byte);
        self.put_head(place + self.plan.length + 1 - off - before);
        self.command(byte);
        self.read(3);
        self.settle_in_runs();
        self.set_wires(READY | HEAD_LOADED);
        if !self.random.one_in(4) {
            self.go(40);
        }
        self.tell_what_is_hidden();
    }

    /// The last run ends exactly with the settling, or one byte time later.
    fn settle_in_runs(&mut self) {
        for _ in 0..MOST_RUNS {
            let left = match self.byte_times_to_settle() {
                Some(left) => left,
                None => return,
            };
            let limit = match self.random.below(3) {
                0 => self.random.below(left),
                _ => left + self.random.below(3) - 1,
            };
            self.go(limit);
        }
    }

    /// Byte times up to the end of what the machine settles or steps in, if it does.
    fn byte_times_to_settle(&self) -> Option<usize> {
        match &self.bench.machine.activity {
            Activity::Stepping(stepping) => Some(usize::from(stepping.wait)),
            Activity::Settling(settling) if settling.left > 0 => Some(usize::from(settling.left)),
            _ => None,
        }
    }
}
