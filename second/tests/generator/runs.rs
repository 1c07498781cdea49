// Watches the runs of scripts and notes which begin or end where a shortcut could go wrong.

use std::collections::BTreeSet;

use second::activity::Activity;
use second::bench::Bench;
use second::density::Density;
use second::field::{self, LARGEST_CELL};
use second::lines::Lines;
use second::machine::Machine;
use second::script::{self, Line, Parsed};
use second::status::INDEX;

#[derive(Default)]
pub struct Runs {
    met: BTreeSet<String>,
    /// The wait whose last run has just passed the index pulse, until the next byte time.
    pulse_passed_in: Option<&'static str>,
}

/// A run as it began.
struct Begun {
    wait: &'static str,
    machine: Machine,
    row: Vec<u16>,
    lines: Lines,
    limit: usize,
}

/// What the machine waits in. Settling is over where HLT alone is missing.
fn wait_of(machine: &Machine) -> &'static str {
    match &machine.activity {
        Activity::Settling(settling) if settling.left == 0 => "Waiting",
        activity => activity.name(),
    }
}

/// Runs that hand bytes over are many and short; no shortcut passes them.
fn is_watched(machine: &Machine) -> bool {
    matches!(
        machine.activity,
        Activity::Idle
            | Activity::Stepping(_)
            | Activity::Settling(_)
            | Activity::Searching(_)
            | Activity::AwaitingIndex
    )
}

impl Begun {
    fn of(bench: &Bench, limit: u16) -> Begun {
        Begun {
            wait: wait_of(&bench.machine),
            machine: bench.machine.clone(),
            row: bench.current.clone(),
            lines: bench.lines,
            limit: usize::from(limit),
        }
    }

    fn head(&self) -> usize {
        usize::from(self.machine.position)
    }

    /// Byte times up to and with the next cell that is such.
    fn until(&self, such: impl Fn(usize) -> bool) -> Option<usize> {
        let length = self.row.len();
        (1..=length).find(|count| such((self.head() + count - 1) % length))
    }

    /// The name of a place, if it is one of those to watch.
    fn place_name(&self, place: usize) -> Option<&'static str> {
        let length = self.row.len();
        match place {
            0 => Some("0"),
            1 => Some("1"),
            _ if place + 1 == length => Some("L - 1"),
            _ => None,
        }
    }

    /// The cell that passes last in a whole round.
    fn behind_head(&self) -> usize {
        (self.head() + self.row.len() - 1) % self.row.len()
    }

    /// Neither 2 nor 3 refuses the run.
    fn could_begin(&self) -> bool {
        self.machine.is_in_range() && self.row.len() == usize::from(self.machine.length)
    }
}

impl Runs {
    pub fn has(&self, key: &str) -> bool {
        self.met.contains(key)
    }

    fn note(&mut self, density: Density, wait: &str, what: &str) {
        let name = match density {
            Density::Fm => "FM",
            Density::Mfm => "MFM",
        };
        self.met.insert(format!("{} {}: {}", name, wait, what));
    }

    fn note_run(&mut self, begun: &Begun, what: &str) {
        self.note(begun.machine.density, begun.wait, what);
    }

    pub fn watch_script(&mut self, text: &str) {
        let mut bench = Bench::new();
        for bytes in text.lines().map(str::as_bytes) {
            if let Parsed::Line(line) = script::parse(bytes) {
                self.watch_line(&mut bench, &line);
            }
        }
    }

    fn watch_line(&mut self, bench: &mut Bench, line: &Line) {
        let limit = match (line.letter, line.numbers.as_slice()) {
            (b'G', &[limit]) if is_watched(&bench.machine) => limit,
            _ => return self.watch_other_line(bench, line),
        };
        let begun = Begun::of(bench, limit);
        let before = bench.byte_times;
        bench.carry_out(line);
        let passed = (bench.byte_times - before) as usize;
        if passed > 0 {
            self.pulse_passed_in = None;
        }
        if begun.could_begin() {
            self.watch_run(&begun, bench, passed);
        }
    }

    /// The status of Types II and III has no index bit; a Force Interrupt of the idle machine
    /// brings it up before the next byte time.
    fn watch_other_line(&mut self, bench: &mut Bench, line: &Line) {
        let hidden = bench.machine.status_byte(bench.lines) & INDEX == 0;
        let before = bench.byte_times;
        bench.carry_out(line);
        if bench.byte_times > before {
            self.pulse_passed_in = None;
        }
        let told = hidden && bench.machine.status_byte(bench.lines) & INDEX != 0;
        if let Some(wait) = self.pulse_passed_in.filter(|_| told) {
            self.note(bench.machine.density, wait, "index bit told behind the run");
        }
    }

    fn watch_run(&mut self, begun: &Begun, bench: &Bench, passed: usize) {
        self.note_limit(begun);
        self.note_lines_on(begun);
        if passed > 1 {
            self.note_places(begun, bench, passed);
            self.note_settling(begun, passed);
        }
        if passed < begun.limit {
            self.note_stop(begun, bench, passed);
        } else if passed == 0xFFFF {
            self.note_run(begun, "FFFF byte times");
        }
        if passed > 0 && bench.machine.position == 1 {
            self.pulse_passed_in = Some(begun.wait);
        }
    }

    /// Limits of 0, 1 and 2, and those that end exactly at something or one byte time off it.
    fn note_limit(&mut self, begun: &Begun) {
        if begun.limit < 3 {
            self.note_run(begun, &format!("limit {}", begun.limit));
        }
        self.note_aim(begun, "pulse", begun.until(|place| place == 0));
        let flagged = begun.until(|place| field::is_flagged(begun.row[place]));
        self.note_aim(begun, "flagged cell", flagged);
        match &begun.machine.activity {
            Activity::Settling(settling) if settling.left > 0 => {
                self.note_aim(begun, "settling's end", Some(usize::from(settling.left)));
            }
            _ => {}
        }
    }

    fn note_aim(&mut self, begun: &Begun, what: &str, distance: Option<usize>) {
        let limit = begun.limit;
        match distance {
            Some(distance) if distance > 2 && limit + 1 == distance => {
                self.note_run(begun, &format!("limit before the {}", what));
            }
            Some(distance) if distance > 2 && limit == distance => {
                self.note_run(begun, &format!("limit at the {}", what));
            }
            Some(distance) if distance > 2 && limit == distance + 1 => {
                self.note_run(begun, &format!("limit behind the {}", what));
            }
            _ => {}
        }
    }

    /// What is on at the start of a run that could go on for long.
    fn note_lines_on(&mut self, begun: &Begun) {
        if begun.limit < 2 {
            return;
        }
        if begun.machine.data_request {
            self.note_run(begun, "DRQ on");
        }
        if begun.machine.interrupt_request {
            self.note_run(begun, "INTRQ on");
        }
    }

    /// Where a run of several byte times began and ended, and what it passed on the way.
    fn note_places(&mut self, begun: &Begun, bench: &Bench, passed: usize) {
        if let Some(name) = begun.place_name(begun.head()) {
            self.note_run(begun, &format!("begins at {}", name));
        }
        let stayed = wait_of(&bench.machine) == begun.wait;
        if let (true, Some(name)) = (
            stayed,
            begun.place_name(usize::from(bench.machine.position)),
        ) {
            self.note_run(begun, &format!("ends at {}", name));
        }
        for (name, place) in watched_cells(begun) {
            let met = begun.until(|other| other == place);
            let flagged = field::is_flagged(begun.row[place]);
            if flagged && met.map_or(false, |count| count <= passed) {
                self.note_run(begun, &format!("flagged cell {}", name));
            }
        }
    }

    /// Settling that ends in the middle of a run.
    fn note_settling(&mut self, begun: &Begun, passed: usize) {
        let left = match &begun.machine.activity {
            Activity::Settling(settling) => usize::from(settling.left),
            _ => return,
        };
        if left == 0 || passed <= left {
            return;
        }
        if !begun.lines.head_loaded {
            self.note_run(begun, "over with HLT off");
            return;
        }
        let first = (begun.head() + left) % begun.row.len();
        if let Some(name) = begun.place_name(first) {
            self.note_run(begun, &format!("over at {}", name));
        }
    }

    /// A run that did not reach its limit: what stopped it, and where.
    fn note_stop(&mut self, begun: &Begun, bench: &Bench, passed: usize) {
        let place = usize::from(bench.machine.position);
        if bench.current[place] > LARGEST_CELL && !bench.machine.interrupt_request {
            self.note_refusal(begun, place, passed);
        } else if begun.wait == "Idle" {
            self.note_condition(begun, bench, passed);
        }
    }

    fn note_refusal(&mut self, begun: &Begun, place: usize, passed: usize) {
        if passed == 0 {
            self.note_run(begun, "refused at once");
            return;
        }
        for (name, _) in watched_cells(begun).iter().filter(|cell| cell.1 == place) {
            self.note_run(begun, &format!("refused {}", name));
        }
    }

    /// A condition that an idle run met; Ready edges are met in its first byte time.
    fn note_condition(&mut self, begun: &Begun, bench: &Bench, passed: usize) {
        if begun.machine.interrupt_request || !bench.machine.interrupt_request {
            return;
        }
        match (passed, begun.head(), begun.lines.ready) {
            (1, 0, _) => self.note_run(begun, "index condition at once"),
            (1, _, true) => self.note_run(begun, "Ready comes on"),
            (1, _, false) => self.note_run(begun, "Ready goes off"),
            _ => self.note_run(begun, "index condition"),
        }
    }
}

/// The cells that a shortcut could miss.
fn watched_cells(begun: &Begun) -> [(&'static str, usize); 3] {
    [
        ("at 0", 0),
        ("at L - 1", begun.row.len() - 1),
        ("behind the head", begun.behind_head()),
    ]
}
