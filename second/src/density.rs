// The two densities and the times and places that depend on them.

#[derive(Clone, Copy, Debug, PartialEq, Eq)]
pub enum Density {
    Fm,
    Mfm,
}

/// "FM (64 us) 94, 188, 313, 469", by rate code.
const FM_STEP_TIMES: [u16; 4] = [94, 188, 313, 469];
/// "MFM (32 us) 188, 375, 625, 938", by rate code.
const MFM_STEP_TIMES: [u16; 4] = [188, 375, 625, 938];

impl Density {
    /// "Settle for 469 (FM) or 938 (MFM) byte times."
    pub fn settle_time(self) -> u16 {
        match self {
            Density::Fm => 469,
            Density::Mfm => 938,
        }
    }

    /// Byte times from one step pulse to the next decision, by rate code 0-3.
    pub fn step_time(self, rate: u8) -> u16 {
        match self {
            Density::Fm => FM_STEP_TIMES[usize::from(rate)],
            Density::Mfm => MFM_STEP_TIMES[usize::from(rate)],
        }
    }

    /// "The mark byte must be among the first 30 (FM) or 43 (MFM) cells after the ID's last."
    pub fn window(self) -> usize {
        match self {
            Density::Fm => 30,
            Density::Mfm => 43,
        }
    }
}
