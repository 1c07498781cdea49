// The tests of the controller: document 01's cases and refusals, the decided open points, and the
// requests of document 02.

mod calls;
mod cases;
mod chips;
mod data_marks;
mod desk;
mod eight_inch;
mod multiple;
mod reading;
mod retired;
mod searching;
mod sides;
mod stepping;
mod writing;
