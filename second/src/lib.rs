// The second implementation of the WD1793 and WD1797 model, written from the documents alone.
//
// The controller is `machine` with the files of its commands (`positioning`, `search`, `reading`,
// `writing`); it decides what passes by looking back at lists of cells (`field`), and `data_mark` has
// the marks that begin a record. What a command asks for on each `chip` is in `command`. `bench` works
// the controller from a script, which comes in by a `session`; `generate` makes scripts from seeds,
// `compare` holds another program to the bench, `soak` does so until millions of byte times have
// passed, and `talk` awaits an answer to what it has typed. `coverage` counts the scripts that would
// tell a machine which gets a sentence of the documents wrong, and the inputs that would tell such a
// list.
// `picture`, `viewer` and `list` are document 01's pictures and viewer, `vectors` its CRC vectors;
// `pictures` makes inputs for the list from seeds.

#![forbid(unsafe_code)]

pub mod activity;
pub mod bench;
pub mod chip;
pub mod command;
pub mod compare;
pub mod coverage;
pub mod crc;
pub mod data_mark;
pub mod density;
pub mod field;
pub mod generate;
pub mod layout;
pub mod lines;
pub mod list;
pub mod machine;
pub mod number;
pub mod picture;
pub mod pictures;
mod positioning;
pub mod random;
mod reading;
pub mod script;
mod search;
pub mod session;
pub mod soak;
pub mod status;
pub mod talk;
pub mod tracks;
pub mod vectors;
pub mod viewer;
mod writing;
