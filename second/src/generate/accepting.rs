// Scenes of commands loaded while something is on: DRQ, INTRQ, conditions of a Force Interrupt.

use super::refusing::is_force;
use super::{Generator, HEAD_LOADED, PROTECT, READY, TRACK_0};
use crate::command::{Command, Name};

const NAMES: [Name; 10] = [
    Name::Restore,
    Name::Seek,
    Name::Step,
    Name::StepIn,
    Name::StepOut,
    Name::ReadSector,
    Name::WriteSector,
    Name::ReadAddress,
    Name::WriteTrack,
    Name::ForceInterrupt,
];
/// Force Interrupts: INTRQ off or on, and with either no condition or one.
const FORCES: [u8; 8] = [0xD0, 0xD1, 0xD2, 0xD4, 0xD8, 0xD9, 0xDA, 0xDC];
/// Of these Write Track alone asks for DRQ as soon as it is accepted.
const READ_ADDRESS: u8 = 0xC0;
const WRITE_TRACK: u8 = 0xF0;

/// A command and what it is loaded after.
#[derive(Clone, Copy)]
pub struct Loading {
    name: Name,
    /// Whether DRQ is on.
    request: bool,
    /// The Force Interrupt before it.
    force: u8,
}

/// Every command with DRQ off or on, INTRQ off or on, and each condition.
pub fn loadings() -> Vec<Loading> {
    let mut all = Vec::new();
    for name in NAMES {
        for force in FORCES {
            all.extend([false, true].map(|request| Loading {
                name,
                request,
                force,
            }));
        }
    }
    all
}

impl Generator {
    /// A command loaded with DRQ, INTRQ or a condition on; then what the condition waits for.
    pub fn loading_scene(&mut self, loading: Loading) {
        let wires = self.random.pick(&[0, 0, TRACK_0]);
        self.set_wires(READY | HEAD_LOADED | wires);
        let head = self.plan.length - self.random.between(1, 3);
        self.put_head(head);
        let byte = self.command_named(loading.name);
        let before = [READ_ADDRESS, WRITE_TRACK][usize::from(loading.request)];
        self.command(before);
        self.refuse_while_busy(byte);
        self.load(0, loading.force);
        if self.random.one_in(3) {
            let no_command = self.no_command();
            self.load(0, no_command);
        }
        self.load(0, byte);
        self.pass_pulse_and_edges();
        self.end_command();
    }

    /// Any byte of this command.
    pub fn command_named(&mut self, name: Name) -> u8 {
        let chip = self.chip();
        let is_named = |&byte: &u8| Command::decode(byte, chip).map(|it| it.name) == Some(name);
        let bytes: Vec<u8> = (0..=255).filter(is_named).collect();
        self.random.pick(&bytes)
    }

    /// 6 for a command, or for a byte that is none. Only Force Interrupt is taken.
    fn refuse_while_busy(&mut self, byte: u8) {
        let no_command = self.no_command();
        let tried = self.random.pick(&[byte, byte, no_command]);
        if !is_force(tried) {
            self.load(0, tried);
        }
    }

    /// A few byte times with an index pulse, Ready going off and coming on among them.
    fn pass_pulse_and_edges(&mut self) {
        self.byte_time();
        for _ in 0..2 {
            self.toggle(READY);
            self.byte_time();
        }
        self.byte_time();
    }

    /// A command of Types II and III that ends at once. The head is unloaded before it, and the
    /// status of Type I after it tells whether it still is.
    pub fn refused_transfer_scene(&mut self) {
        self.set_wires(READY | HEAD_LOADED);
        self.load(0, 0x10);
        self.load(0, 0xD0);
        let wires = self
            .random
            .pick(&[0, PROTECT, PROTECT | READY, PROTECT | READY]);
        self.set_wires(HEAD_LOADED | wires);
        let byte = self
            .random
            .pick(&[0x80, 0xA0, 0xA4, 0xB1, 0xC0, 0xC4, 0xF0, 0xF4]);
        self.command(byte);
        if self.random.one_in(2) {
            self.command(0xC0);
        }
        self.load(0, 0xD0);
        self.load(0, 0xD0);
    }
}
