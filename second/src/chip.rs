// The two chips of the family that are modelled; power-on names one.

/// They differ in what some bits of a command byte ask for, and the 1797 has a side output.
#[derive(Clone, Copy, Debug, PartialEq, Eq)]
pub enum Chip {
    Wd1793,
    Wd1797,
}

impl Chip {
    pub const BOTH: [Chip; 2] = [Chip::Wd1793, Chip::Wd1797];
}
