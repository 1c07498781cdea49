// The host's part of a script: how it serves DRQ, and what else it does on the way.

use super::{Generator, HEAD_LOADED, NO_LIMIT, PROTECT, READY, TRACK_0};
use crate::activity::Activity;

/// How the host answers DRQ.
#[derive(Clone, Copy)]
pub enum Host {
    /// In time, always.
    Prompt,
    /// Mostly in time, now and then too late.
    Sleepy,
    /// Once in some byte times, so that it often comes just in time or just too late.
    Slow,
    Absent,
}

impl Generator {
    pub fn random_host(&mut self) -> Host {
        match self.random.below(8) {
            0 => Host::Absent,
            1 => Host::Sleepy,
            2 => Host::Slow,
            _ => Host::Prompt,
        }
    }

    /// Works the machine until the command ends, or for so many rounds.
    pub fn serve(&mut self, host: Host, rounds: usize) {
        for _ in 0..rounds {
            if !self.is_busy() {
                return;
            }
            if self.bench.machine.data_request && self.host_is_awake(host) {
                self.serve_request();
            }
            self.pass_time();
            if self.random.one_in(80) {
                self.disturb();
            }
        }
    }

    fn host_is_awake(&mut self, host: Host) -> bool {
        match host {
            _ if self.writes_last_cell() && self.random.one_in(3) => false,
            Host::Prompt => true,
            Host::Sleepy => !self.random.one_in(12),
            Host::Slow => self.random.one_in(6),
            Host::Absent => false,
        }
    }

    /// The last cell of Write Track: DRQ goes off there even where nobody has served it.
    fn writes_last_cell(&self) -> bool {
        let machine = &self.bench.machine;
        matches!(machine.activity, Activity::WritingTrack(_))
            && usize::from(machine.position) + 1 == self.plan.length
    }

    /// Reading as well as loading DR turns DRQ off; now and then the host does the wrong one.
    pub fn serve_request(&mut self) {
        let writes = matches!(
            self.bench.machine.activity,
            Activity::WritingRecord(_)
                | Activity::WritingTrack(_)
                | Activity::AwaitingIndex
                | Activity::Settling(_)
        );
        if writes != self.random.one_in(60) {
            let byte = self.next_written_byte();
            self.load(3, byte);
        } else {
            self.read(3);
        }
    }

    /// The next byte to write: any byte for a record, a formatting byte for a track.
    fn next_written_byte(&mut self) -> u8 {
        match self.bench.machine.activity {
            Activity::WritingRecord(_) => self.random.byte(),
            _ => self.next_format_byte(),
        }
    }

    fn pass_time(&mut self) {
        if self.waits_for_head() && !self.random.one_in(6) {
            self.set_wires(self.wires | HEAD_LOADED);
        }
        match self.random.below(40) {
            0 => self.byte_time(),
            1 => {
                let limit = self.random.below(60);
                self.go(limit);
            }
            _ => self.go(NO_LIMIT),
        }
    }

    /// Settled, and HLT is off: nothing happens until the line comes on.
    pub fn waits_for_head(&self) -> bool {
        match &self.bench.machine.activity {
            Activity::Settling(settling) => settling.left == 0 && self.wires & HEAD_LOADED == 0,
            _ => false,
        }
    }

    /// Something that a command under way must bear.
    fn disturb(&mut self) {
        match self.random.below(6) {
            0 => self.read(0),
            1 => self.toggle_some_wire(),
            2 => {
                let register = self.random.pick(&[1, 2]);
                self.read(register);
            }
            3 => {
                let byte = self.random.byte();
                self.load(3, byte);
            }
            _ => self.refuse_something(),
        }
    }

    fn toggle_some_wire(&mut self) {
        let wire = self.random.pick(&[READY, PROTECT, TRACK_0, HEAD_LOADED]);
        self.toggle(wire);
    }

    /// Ends what still runs, and mostly reads the status.
    pub fn end_command(&mut self) {
        if self.is_busy() {
            let byte = self.random.between(0xD0, 0xDF) as u8;
            self.load(0, byte);
        }
        if self.random.one_in(4) {
            self.byte_time();
        }
        if !self.random.one_in(4) {
            self.read(0);
        }
        if self.random.one_in(2) {
            self.read(3);
        }
    }
}
