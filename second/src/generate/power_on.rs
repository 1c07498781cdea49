// Power-on of either chip, and the track that the new machine gets.

use super::Generator;
use crate::chip::Chip;
use crate::density::Density;
use crate::field::LengthCodes;
use crate::tracks::Plan;

/// Which chip a script begins with depends on the seed modulo this number. Of what is taken in turn
/// on that chip, no number of choices has this factor: so seeds in a row meet each choice on each
/// chip.
const CHIP_PERIOD: u64 = 13;
/// Lengths round the limits, also round the old one, 6,400.
pub const LENGTHS: [usize; 9] = [0, 2047, 2048, 6400, 6401, 10_415, 10_416, 10_417, 0xFFFF];
/// Rings of pictures, round the limits, and round what 13 bits hold.
const LONG_RINGS: [usize; 9] = [5208, 6250, 6399, 6400, 6401, 8192, 8193, 10_415, 10_416];

impl Generator {
    /// Mostly power-on; now and then the 1793 that is there already gets a track.
    pub fn begin(&mut self, seed: u64) {
        let stays = self.random.one_in(8);
        match seed % CHIP_PERIOD {
            1 | 3 | 6 | 8 | 11 => self.power_on(Chip::Wd1797),
            _ if stays => self.lay_random_track(),
            _ => self.power_on(Chip::Wd1793),
        }
    }

    pub fn power_on_either(&mut self) {
        let chip = self.random.pick(&Chip::BOTH);
        self.power_on(chip);
    }

    /// Another length, density and chip, or the same; what was written on the old row is shown
    /// before it goes.
    pub fn new_ring(&mut self) {
        self.show_row();
        self.power_on_either();
    }

    /// A new ring for the other chip. Before it this one has a scene on a long ring.
    pub fn change_chip(&mut self, seed: u64) {
        let other = match self.chip() {
            Chip::Wd1793 => Chip::Wd1797,
            Chip::Wd1797 => Chip::Wd1793,
        };
        self.show_row();
        self.eight_inch_scene(seed);
        self.power_on(other);
    }

    /// A new machine with a new track; at times others come first.
    fn power_on(&mut self, chip: Chip) {
        self.leave_traces();
        for _ in 0..self.random.pick(&[0, 0, 1, 2]) {
            self.power_on_in_passing();
        }
        let length = self.random_length();
        self.plan = self.random_plan(chip, length);
        self.say_power_on(self.plan.density, length, chip);
        self.look_at_fresh();
        self.lay_random_track();
    }

    /// Mostly a short ring, since a long one takes more lines and more byte times.
    fn random_length(&mut self) -> usize {
        match self.random.below(16) {
            0 => self.random.pick(&LONG_RINGS),
            1 => self.random.between(2048, 10_416),
            2..=5 => self.random.between(2048, 2300),
            _ => self.random.pick(&[2048, 2048, 2049, 3125]),
        }
    }

    /// What the track is like. On a 1793 a scene can rely on side 0 and document 01's length codes.
    pub fn random_plan(&mut self, chip: Chip, length: usize) -> Plan {
        let (side, length_codes) = match chip {
            Chip::Wd1793 => (0, LengthCodes::Ibm),
            Chip::Wd1797 => (
                self.random.pick(&[0, 1]),
                self.random.pick(&[LengthCodes::Ibm, LengthCodes::NonIbm]),
            ),
        };
        Plan {
            density: self.random.pick(&[Density::Fm, Density::Mfm]),
            length,
            track: self.random.pick(&[0, 0, 1, 40, 255]),
            side,
            length_codes,
            first_sector: self.random.pick(&[1, 1, 1, 0, 254]),
            bad_ids: self.random.pick(&[8, 8, 8, 2, 1]),
        }
    }

    /// A power-on that is refused or is not the last one. Side 1 is on the output then, where there
    /// is one; a 1793 refuses the byte.
    fn power_on_in_passing(&mut self) {
        let chip = self.random.pick(&Chip::BOTH);
        let density = self.random.pick(&[Density::Fm, Density::Mfm]);
        let length = self.random.pick(&LENGTHS);
        self.say_power_on(density, length, chip);
        self.byte_time();
        self.load(0, 0xC2);
    }

    /// The 1793 may be left unnamed.
    pub fn say_power_on(&mut self, density: Density, length: usize, chip: Chip) {
        let density = u8::from(density == Density::Mfm);
        let chip = match chip {
            Chip::Wd1793 => self.random.pick(&["", " 0"]),
            Chip::Wd1797 => " 1",
        };
        self.say(format!("P {} {:X}{}", density, length, chip));
    }
}
