// Scenes of the viewer: sectors on either side, and its refusals.

use super::Generator;
use crate::density::Density;

impl Generator {
    pub fn viewing_scene(&mut self) {
        if self.is_busy() {
            return;
        }
        if self.random.one_in(2) {
            self.change_rows();
            self.lay_random_track();
            self.change_rows();
        }
        match self.random.below(6) {
            0 => self.view_with_bad_cell(),
            1 => self.view_with_other_length(),
            _ => {
                for _ in 0..4 {
                    self.view_some_sector();
                }
            }
        }
    }

    /// A sector that may be on the current row.
    fn view_some_sector(&mut self) {
        let mut sectors = self.sectors_on_track();
        sectors.push(self.plan.first_sector);
        sectors.push(self.random.byte());
        let sector = self.random.pick(&sectors);
        self.view_sector(sector);
    }

    /// A sector is looked for with the rows in either order, and now and then in the wrong density.
    pub fn view_sector(&mut self, sector: u8) {
        let wrong_density = u8::from(self.random.one_in(10));
        let density = u8::from(self.plan.density == Density::Mfm) ^ wrong_density;
        let swap = self.random.one_in(2);
        if swap {
            self.change_rows();
        }
        self.say(format!("Q {} {:X} {:X}", density, self.plan.track, sector));
        if swap {
            self.change_rows();
        }
    }

    fn view_with_bad_cell(&mut self) {
        let place = self.random.below(self.plan.length);
        let cell = self.bench.current[place];
        self.set_cells(place, &[0x200]);
        self.view_some_sector();
        self.set_cells(place, &[cell]);
    }

    /// The other row is shorter or longer for a while, first out of range and then in range; the
    /// two lengths may differ.
    fn view_with_other_length(&mut self) {
        self.change_rows();
        let out = self.random.pick(&[0, 0x7FF]);
        for other in [out, self.random.pick(&[0x800, 0x1900, 0x28B0])] {
            self.say(format!("K {:X}", other));
            self.view_some_sector();
            self.change_rows();
            self.view_some_sector();
            self.change_rows();
        }
        self.say(format!("K {:X}", self.plan.length));
        self.change_rows();
    }
}
