// Short scenes of Type I: the direction, the step times, TR at its ends, Restore.

use super::{Generator, HEAD_LOADED, NO_LIMIT, READY, TRACK_0};

const RESTORE: u8 = 0x00;
const SEEK: u8 = 0x10;
const STEP: u8 = 0x20;
const STEP_IN: u8 = 0x40;
const STEP_OUT: u8 = 0x60;
/// Bit 4 of Step, Step-in and Step-out.
const UPDATE: u8 = 0x10;
/// Commands that set the direction, or leave it.
const MOVES: [Move; 11] = [
    Move::Seek(1, 9),
    Move::Seek(9, 1),
    Move::Seek(5, 5),
    Move::Seek(0, 255),
    Move::Command(STEP_IN),
    Move::Command(STEP_OUT),
    Move::Command(RESTORE),
    Move::Halted(SEEK),
    Move::Halted(STEP_OUT),
    Move::Forced(STEP_IN),
    Move::Forced(STEP_IN),
];

#[derive(Clone, Copy)]
enum Move {
    /// From this TR to this DR.
    Seek(u8, u8),
    Command(u8),
    /// With track 0 on.
    Halted(u8),
    /// Ended before its first byte time.
    Forced(u8),
}

impl Generator {
    /// The direction is set one way; then something that sets it the other way, or leaves it; then
    /// Step tells which way it is.
    pub fn direction_scene(&mut self) {
        self.set_wires(READY | HEAD_LOADED);
        let first = self.random.pick(&[STEP_IN, STEP_OUT]);
        self.decide_once(first);
        let next = self.random.pick(&MOVES);
        self.make_move(next);
        self.decide_once(STEP);
    }

    /// The first byte time of a Type I command, and no more of it.
    fn decide_once(&mut self, byte: u8) {
        self.load(0, byte);
        self.byte_time();
        self.load(0, 0xD0);
    }

    fn make_move(&mut self, next: Move) {
        match next {
            Move::Seek(from, to) => {
                self.load(1, from);
                self.load(3, to);
                self.decide_once(SEEK);
            }
            Move::Command(byte) => self.decide_once(byte),
            Move::Halted(byte) => {
                self.load(1, 40);
                self.load(3, 2);
                self.toggle(TRACK_0);
                self.decide_once(byte);
                self.toggle(TRACK_0);
            }
            Move::Forced(byte) => {
                self.load(0, byte);
                self.load(0, 0xD0);
            }
        }
    }

    /// One step at each rate; the run's line tells how long it took.
    pub fn rates_scene(&mut self) {
        self.set_wires(READY | HEAD_LOADED);
        let byte = self.random.pick(&[STEP, STEP_IN, STEP_OUT, STEP | UPDATE]);
        for rate in 0..4 {
            self.load(0, byte | rate);
            self.go(NO_LIMIT);
        }
    }

    /// Steps from TR 0 out and from TR 255 in, with bit 4 and without; track 0 is off or on.
    pub fn track_ends_scene(&mut self) {
        for (track, byte) in [(255, STEP_IN), (0, STEP_OUT), (7, STEP_OUT)] {
            let wires = self.random.pick(&[0, TRACK_0]);
            self.set_wires(READY | HEAD_LOADED | wires);
            self.load(1, track);
            let update = self.random.pick(&[0, UPDATE, UPDATE]);
            self.decide_once(byte | update);
        }
    }

    /// Restore with DR loaded on the way, so that it stops soon, with track 0 off or on.
    pub fn restore_scene(&mut self) {
        let (track, data) = (self.random.byte(), self.random.byte());
        self.load(1, track);
        self.load(3, data);
        let wires = self.random.pick(&[0, 0, TRACK_0]);
        self.set_wires(READY | HEAD_LOADED | wires);
        let byte = self.random.below(0x10) as u8;
        self.load(0, RESTORE | byte);
        let near = self.random.pick(&[255, 255, 254]);
        self.load(3, near);
        self.go(1000);
        self.load(0, 0xD0);
    }
}
