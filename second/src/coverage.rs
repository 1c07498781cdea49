// How many scripts show it, where a machine gets a sentence of the documents wrong; and how many
// inputs show it, where a list does.

pub mod desk;
mod lists;
mod slips;
pub mod step;
mod tally;
mod watch;

use std::process::ExitCode;

use crate::{generate, pictures};
use tally::{Row, Survey};

/// Counts, as the arguments FROM TO ask, the scripts that show each wrong machine.
pub fn coverage(arguments: &[String]) -> ExitCode {
    let survey = Survey {
        program: "coverage",
        cases: "scripts",
        wrongs: "wrong machines",
        rows: rows(),
        shown: |seed| {
            let table = slips::table();
            let shown = watch::shown(&generate::script(seed), &table);
            shown.iter().map(|row| row.number).collect()
        },
    };
    survey.take(arguments)
}

/// What the table has: sentences, and what a machine does that gets one wrong.
pub fn rows() -> Vec<Row> {
    let table = slips::table();
    table.iter().map(|row| (row.says, row.does())).collect()
}

/// The rows whose wrong machines print something else for this script than the right one.
pub fn shown(script: &str) -> Vec<Row> {
    let table = slips::table();
    let shown = watch::shown(script, &table);
    shown.iter().map(|row| (row.says, row.does())).collect()
}

/// Counts, as the arguments FROM TO ask, the inputs that show each wrong list.
pub fn coverage_list(arguments: &[String]) -> ExitCode {
    let survey = Survey {
        program: "coverage_list",
        cases: "inputs",
        wrongs: "wrong lists",
        rows: list_rows(),
        shown: |seed| lists::shown(&pictures::input(seed)),
    };
    survey.take(arguments)
}

/// What the table of wrong lists has.
pub fn list_rows() -> Vec<Row> {
    lists::table()
        .iter()
        .map(|row| (row.0, row.1.does))
        .collect()
}

/// The rows whose wrong lists print something else for this input than the right one.
pub fn list_shown(input: &[u8]) -> Vec<Row> {
    let rows = list_rows();
    let shown = lists::shown(input);
    shown.into_iter().map(|number| rows[number]).collect()
}
