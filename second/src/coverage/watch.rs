// Watches a script at work on the right machine and on wrong ones, each wrong in one sentence.

use std::mem;

use super::desk::{Desk, Printed};
use super::slips::{Row, SUBJECTS};
use super::step::Step;
use crate::bench::Bench;
use crate::script::{self, Line, Parsed};

/// A wrong machine that has come to another state than the right one, but has printed the same.
struct Away<'a> {
    row: &'a Row,
    bench: Bench,
}

struct Watch<'a> {
    right: Bench,
    /// By subject, the rows whose wrong machines are in the right one's state.
    together: Vec<Vec<&'a Row>>,
    away: Vec<Away<'a>>,
    /// The rows whose wrong machines have printed something else.
    shown: Vec<&'a Row>,
}

/// The rows that a script shows: the wrong machine prints something else than the right one.
pub fn shown<'a>(script: &str, table: &'a [Row]) -> Vec<&'a Row> {
    let mut watch = Watch::new(table);
    for bytes in script.lines().map(str::as_bytes) {
        match script::parse(bytes) {
            Parsed::Empty => {}
            Parsed::Line(line) if watch.carry_out(&line) => {}
            _ => break,
        }
    }
    watch.shown
}

impl<'a> Watch<'a> {
    fn new(table: &'a [Row]) -> Watch<'a> {
        let mut together = vec![Vec::new(); SUBJECTS.len()];
        for row in table {
            together[row.subject].push(row);
        }
        Watch {
            right: Bench::new(),
            together,
            away: Vec::new(),
            shown: Vec::new(),
        }
    }

    /// Carries a line out on the right machine and on the wrong ones. False where it cannot be
    /// carried out.
    fn carry_out(&mut self, line: &Line) -> bool {
        let start = self.right.clone();
        let (together, away) = (&mut self.together, &mut self.away);
        let mut hand = |step: &Step| {
            for row in leaving(together, step) {
                let bench = start.clone();
                away.push(Away { row, bench });
            }
            None
        };
        let mut desk = Desk {
            bench: &mut self.right,
            hand: &mut hand,
        };
        let printed = desk.carry_out(line);
        printed.map(|it| self.carry_out_away(line, &it)).is_some()
    }

    /// Carries out a line for which the right machine has printed this. A machine that slips in
    /// the line has gone away as it was before it, and carries out all of it by itself.
    fn carry_out_away(&mut self, line: &Line, right_printed: &Printed) {
        let line = shortened(line, right_printed);
        for mut wrong in mem::take(&mut self.away) {
            if wrong.carry_out(&line).as_ref() != Some(right_printed) {
                self.shown.push(wrong.row);
            } else if is_same(&wrong.bench, &self.right) {
                self.together[wrong.row.subject].push(wrong.row);
            } else {
                self.away.push(wrong);
            }
        }
    }
}

/// Takes out the rows whose wrong machines slip here.
fn leaving<'a>(together: &mut [Vec<&'a Row>], step: &Step) -> Vec<&'a Row> {
    let mut leaving = Vec::new();
    for (rows, subject) in together.iter_mut().zip(SUBJECTS) {
        if subject.concerns(step) {
            rows.retain(|&row| {
                let stays = row.wrong(step).is_none();
                leaving.extend(Some(row).filter(|_| !stays));
                stays
            });
        }
    }
    leaving
}

impl Away<'_> {
    fn carry_out(&mut self, line: &Line) -> Option<Printed> {
        let row = self.row;
        let mut hand = |step: &Step| row.wrong(step);
        let mut desk = Desk {
            bench: &mut self.bench,
            hand: &mut hand,
        };
        desk.carry_out(line)
    }
}

/// A run that passes more byte times than the right one prints something else, whatever it does
/// after one more.
fn shortened(line: &Line, right_printed: &Printed) -> Line {
    let mut line = line.clone();
    if let (b'G', Printed::Numbers(numbers)) = (line.letter, right_printed) {
        line.numbers[0] = line.numbers[0].min(numbers[1].saturating_add(1));
    }
    line
}

/// Whether the two benches print the same from now on, as long as neither slips.
fn is_same(one: &Bench, other: &Bench) -> bool {
    one.machine == other.machine && one.current == other.current && one.other == other.other
}
