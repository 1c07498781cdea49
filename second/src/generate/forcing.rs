// Scenes of Force Interrupt: in every activity, with every nibble, and the wait that follows.

use super::{Generator, HEAD_LOADED, READY};
use crate::activity::Activity;
use crate::random::Random;

/// Every activity with commands that lead to it.
const AIMS: [(&str, &[u8]); 10] = [
    ("Idle", &[]),
    ("Stepping", &[0x10, 0x03, 0x41, 0x72, 0x33]),
    ("Settling", &[0x84, 0xA4, 0xC4, 0xF4, 0x44]),
    ("Searching", &[0x80, 0xA0, 0xC0, 0x90, 0x14, 0x1C]),
    ("ReadingAddress", &[0xC0]),
    ("AwaitingDataMark", &[0x80, 0x90]),
    ("ReadingRecord", &[0x80, 0x90]),
    ("WritingRecord", &[0xA0, 0xB1]),
    ("AwaitingIndex", &[0xF0]),
    ("WritingTrack", &[0xF0]),
];

/// An activity and the Force Interrupt that ends it.
#[derive(Clone, Copy)]
pub struct Pair {
    aim: &'static str,
    commands: &'static [u8],
    byte: u8,
}

/// Every Force Interrupt in every activity.
pub fn pairs() -> Vec<Pair> {
    let mut all = Vec::new();
    for byte in 0xD0..=0xDF {
        all.extend(AIMS.iter().map(|&(aim, commands)| Pair {
            aim,
            commands,
            byte,
        }));
    }
    all
}

/// Rounds after which a scene gives its aim up.
const MOST_ROUNDS: usize = 600;

impl Generator {
    /// Leads the machine into an activity, then forces an end. What is refused before it leaves the
    /// activity as it is.
    pub fn forcing_scene(&mut self, pair: Pair) {
        let Pair {
            aim,
            commands,
            byte,
        } = pair;
        let place = if self.random.one_in(4) {
            // Over the ring's end.
            self.plan.length - self.random.between(1, 40)
        } else {
            self.random.below(self.plan.length)
        };
        let number = self.random.byte();
        self.lay_sector(place, self.short_sector(number));
        self.ask_for(number);
        self.load(3, self.plan.track.wrapping_add(2));
        self.set_wires(READY | HEAD_LOADED);
        if commands.is_empty() {
            self.put_head(place);
        } else {
            self.begin_towards(aim, commands, place);
        }
        self.lead_to(aim);
        if self.random.one_in(2) {
            self.load_retired();
        }
        self.force(byte);
    }

    fn begin_towards(&mut self, aim: &str, commands: &[u8], place: usize) {
        let head = match aim {
            "WritingTrack" => self.plan.length - self.random.between(1, 4),
            _ => place + self.plan.length - self.random.between(1, 10),
        };
        self.put_head(head);
        let byte = self.random.pick(commands);
        self.command(byte);
    }

    /// Byte times until the activity is the wanted one, and at times some more of them.
    fn lead_to(&mut self, aim: &str) {
        for _ in 0..MOST_ROUNDS {
            let name = self.bench.machine.activity.name();
            let there = name == aim && !self.random.one_in(3);
            if there || name == "Idle" {
                return;
            }
            if self.bench.machine.data_request {
                let byte = self.random.byte();
                self.load(3, byte);
            }
            let limit = step_towards(&mut self.random, &self.bench.machine.activity, aim);
            self.go(limit);
        }
    }

    /// Force Interrupt, then what its conditions wait for: pulses and Ready edges.
    fn force(&mut self, byte: u8) {
        self.load(0, byte);
        for _ in 0..self.random.between(2, 8) {
            self.while_waiting();
        }
    }

    /// What a condition waits for, twice: Ready going off and coming on, or the index pulse. What
    /// is refused in between makes no difference.
    pub fn edges_scene(&mut self) {
        self.set_wires(READY | HEAD_LOADED);
        self.byte_time();
        let byte = self.random.pick(&[0xD1, 0xD2, 0xD3, 0xD4, 0xD9]);
        self.load(0, byte);
        for _ in 0..4 {
            self.put_head(0);
            self.toggle(READY);
            match self.random.below(4) {
                0 => self.refuse_cell_under_head(),
                1 => self.refuse_byte(),
                _ => {}
            }
            self.byte_time();
            self.read(0);
        }
    }

    /// An idle machine under the conditions of some Force Interrupt.
    pub fn waiting_scene(&mut self) {
        for _ in 0..self.random.between(1, 4) {
            let byte = self.random.between(0xD0, 0xDF) as u8;
            self.force(byte);
        }
    }

    fn while_waiting(&mut self) {
        match self.random.below(8) {
            0 | 1 => {
                self.toggle(READY);
                self.byte_time();
            }
            2 => self.byte_time(),
            3 => {
                let round = self.plan.length + 600;
                let limit = self.random.pick(&[0, 1, 100, round, round]);
                self.go(limit);
            }
            4 => self.read(0),
            5 => {
                let head = self.plan.length - self.random.between(1, 2);
                self.put_head(head);
                self.go(4);
            }
            6 => {
                // Register calls see no edge: Ready is back before the next byte time.
                self.toggle(READY);
                self.read(0);
                self.toggle(READY);
                self.byte_time();
            }
            _ => self.refuse_something(),
        }
    }
}

/// Byte times for the next run: few, so as not to run past the aim, but a wait that is not the aim
/// is passed at once.
fn step_towards(random: &mut Random, activity: &Activity, aim: &str) -> usize {
    match activity {
        _ if activity.name() == aim => random.between(1, 8),
        Activity::Stepping(stepping) => usize::from(stepping.wait),
        Activity::Settling(settling) if settling.left > 0 => usize::from(settling.left),
        _ => random.between(1, 3),
    }
}
