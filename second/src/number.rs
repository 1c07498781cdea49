// The numbers that a call hands back, as the table of document 01 names them.

/// Done.
pub const DONE: u8 = 0;
/// A length outside 2,048..10,416 at power-on or in the viewer.
pub const LENGTH: u8 = 1;
/// Position not below L, L out of range, or a count above the largest its activity holds.
pub const MACHINE: u8 = 2;
/// The lent track is not L cells.
pub const TRACK: u8 = 3;
/// The cell under the head, or any cell lent to the viewer, is above 511.
pub const CELL: u8 = 4;
/// Register number above 3.
pub const REGISTER: u8 = 5;
/// TR, SR or any command byte outside D0-DF loaded while Busy.
pub const BUSY: u8 = 6;
/// The byte is no command.
pub const NO_COMMAND: u8 = 7;
/// Picture kind is none of the four: 46, 4D, 66 and 6D (hex).
pub const KIND: u8 = 8;
/// Picture ends early or is empty.
pub const CUT: u8 = 9;
/// Side byte above 1, or a padding bit set.
pub const SIDE_OR_PADDING: u8 = 10;
/// The viewer finds no such sector.
pub const NO_SECTOR: u8 = 11;
/// Room for cells smaller than the kind's L.
pub const ROOM: u8 = 12;
