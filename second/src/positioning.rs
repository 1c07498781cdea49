// Type I commands: Restore, Seek, Step, Step-in and Step-out.

use crate::activity::{Activity, Settling, Stepping};
use crate::command::{Command, Name};
use crate::machine::{ByteTime, Direction, Machine};

impl Machine {
    /// Bit 3 loads or unloads the head at acceptance. "Restore sets TR 255, DR 0 at acceptance."
    pub(crate) fn accept_type_one(&mut self, command: Command) {
        self.head_loaded = command.loads_head();
        if command.name == Name::Restore {
            self.track = 255;
            self.data = 0;
        }
        self.activity = Activity::Stepping(Stepping {
            command,
            wait: 1,
            stepped: false,
        });
    }

    /// "In its first byte time and after each wait the machine decides."
    pub(crate) fn go_on_stepping(&mut self, stepping: Stepping, now: &mut ByteTime) -> Activity {
        if stepping.wait > 1 {
            return Activity::Stepping(Stepping {
                wait: stepping.wait - 1,
                ..stepping
            });
        }
        match self.next_direction(&stepping) {
            None => self.stop_stepping(stepping.command, now),
            Some(direction) => self.step(stepping.command, direction, now),
        }
    }

    /// Where the next step goes, or none where the stepping is over.
    fn next_direction(&self, stepping: &Stepping) -> Option<Direction> {
        if stepping.command.seeks() {
            return self.direction_to_data();
        }
        if stepping.stepped {
            return None;
        }
        match stepping.command.name {
            Name::StepIn => Some(Direction::In),
            Name::StepOut => Some(Direction::Out),
            _ => Some(self.direction),
        }
    }

    /// "TR = DR stops", else the step goes towards DR.
    fn direction_to_data(&self) -> Option<Direction> {
        if self.track == self.data {
            None
        } else if self.track < self.data {
            Some(Direction::In)
        } else {
            Some(Direction::Out)
        }
    }

    /// "Stepping out with track 0 on sets TR 0 and stops; else one pulse is reported, TR moves
    /// by one, and the next decision comes a step time later. Stepping sets the direction,
    /// pulse or none."
    fn step(&mut self, command: Command, direction: Direction, now: &mut ByteTime) -> Activity {
        self.direction = direction;
        if direction == Direction::Out && now.lines.track_0 {
            self.track = 0;
            return self.stop_stepping(command, now);
        }
        now.pulse = Some(direction);
        if command.seeks() || command.updates_track() {
            self.move_track_register(direction);
        }
        Activity::Stepping(Stepping {
            command,
            wait: command.step_time(self.density),
            stepped: true,
        })
    }

    fn move_track_register(&mut self, direction: Direction) {
        self.track = match direction {
            Direction::In => self.track.wrapping_add(1),
            Direction::Out => self.track.wrapping_sub(1),
        };
    }

    /// Restore: "if track 0 is still off at the end, Seek Error if V, no verify". Else V:
    /// "load head, settle 469/938 from the next byte time".
    fn stop_stepping(&mut self, command: Command, now: &ByteTime) -> Activity {
        if !command.verifies() {
            return self.end();
        }
        if command.name == Name::Restore && !now.lines.track_0 {
            self.status.not_found = true;
            return self.end();
        }
        self.head_loaded = true;
        Activity::Settling(Settling::full(command, self.density))
    }
}
