// The drive lines, which come with every call.

#[derive(Clone, Copy, Debug, PartialEq, Eq, Default)]
pub struct Lines {
    pub ready: bool,
    pub protect: bool,
    pub track_0: bool,
    /// HLT: the drive says that the head is loaded and at rest.
    pub head_loaded: bool,
}

impl Lines {
    /// The lines from their four bits: 0 Ready, 1 protect, 2 track 0, 3 head-loaded.
    pub fn from_bits(bits: u8) -> Lines {
        Lines {
            ready: bits & 1 != 0,
            protect: bits & 2 != 0,
            track_0: bits & 4 != 0,
            head_loaded: bits & 8 != 0,
        }
    }
}
