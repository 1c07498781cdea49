// Watches scripts at work, byte time by byte time, and notes what was met.

use std::collections::BTreeSet;

use crate::data_marks;
use second::activity::{Activity, RecordRead, Window};
use second::bench::{self, Bench};
use second::chip::Chip;
use second::command::Command;
use second::density::Density;
use second::field::{self, Id};
use second::lines::Lines;
use second::machine::{Machine, LONGEST_TRACK, SHORTEST_TRACK};
use second::number;
use second::script::{self, Line, Parsed};
use second::status::StatusType;

#[derive(Default)]
pub struct Met {
    keys: BTreeSet<String>,
    /// Records after which the read under way has gone on.
    records: usize,
}

/// What a byte time began with.
struct Before {
    name: &'static str,
    /// A record is being read with m.
    reads_multiple: bool,
    window: Option<Window>,
    /// The record whose second CRC cell passes now.
    ending: Option<RecordRead>,
    position: u16,
    data: u8,
    data_request: bool,
    interrupt_request: bool,
    crc_error: bool,
    lost_data: bool,
    sector: u8,
    ready_seen: bool,
}

impl Before {
    fn of(machine: &Machine) -> Before {
        Before {
            name: machine.activity.name(),
            reads_multiple: match &machine.activity {
                Activity::ReadingRecord(read) => read.command.multiple(),
                _ => false,
            },
            window: match &machine.activity {
                Activity::AwaitingDataMark(window) => Some(window.clone()),
                _ => None,
            },
            ending: match &machine.activity {
                Activity::ReadingRecord(read) if is_ending(read, machine.density) => {
                    Some(read.clone())
                }
                _ => None,
            },
            position: machine.position,
            data: machine.data,
            data_request: machine.data_request,
            interrupt_request: machine.interrupt_request,
            crc_error: machine.status.crc_error,
            lost_data: machine.status.lost_data,
            sector: machine.sector,
            ready_seen: machine.ready_seen,
        }
    }
}

pub fn chip_name(chip: Chip) -> &'static str {
    match chip {
        Chip::Wd1793 => "1793",
        Chip::Wd1797 => "1797",
    }
}

pub fn density_name(density: Density) -> &'static str {
    match density {
        Density::Fm => "FM",
        Density::Mfm => "MFM",
    }
}

impl Met {
    pub fn has(&self, key: &str) -> bool {
        self.keys.contains(key)
    }

    pub fn keys(&self) -> impl Iterator<Item = &String> {
        self.keys.iter()
    }

    fn note(&mut self, key: String) {
        self.keys.insert(key);
    }

    fn note_all(&mut self, keys: Vec<String>) {
        self.keys.extend(keys);
    }

    /// Watches a script work this bench.
    pub fn watch_script(&mut self, bench: Bench, text: &str) {
        let mut bench = bench;
        for bytes in text.lines().map(str::as_bytes) {
            match script::parse(bytes) {
                Parsed::Empty => {}
                Parsed::Line(line) => self.watch_line(&mut bench, &line),
                Parsed::Bad => self.note("bad line".to_string()),
            }
        }
    }

    fn watch_line(&mut self, bench: &mut Bench, line: &Line) {
        self.note_call(bench, line);
        let printed = match (line.letter, line.numbers.as_slice()) {
            (b'G', &[limit]) => self.watch_run(bench, limit),
            (b'B', []) => self.watch_run(bench, 1),
            _ => bench.carry_out(line).unwrap_or_default(),
        };
        let letter = char::from(line.letter);
        if "PWRBGQ".contains(letter) {
            let number = printed.get(2..4).unwrap_or("bad");
            self.note(format!("{} {}", letter, number));
            if let (b'P', [_, _, rest @ ..]) = (line.letter, line.numbers.as_slice()) {
                self.note(format!("P {} of chip {:X?}", number, rest));
            }
        }
        self.note_status(&bench.machine, bench.lines);
    }

    /// A run, made of single byte times so that each can be watched. What it gives back begins
    /// as the run's own line does.
    fn watch_run(&mut self, bench: &mut Bench, limit: u16) -> String {
        let nothing = bench
            .machine
            .clone()
            .run(&mut bench.current, bench.lines, 0);
        let mut number = nothing.number;
        let mut passed = 0;
        while number == number::DONE && passed < limit {
            let before = Before::of(&bench.machine);
            let fallback = Machine::power_on(Chip::Wd1793, SHORTEST_TRACK, Density::Fm).machine;
            let machine = std::mem::replace(&mut bench.machine, fallback);
            let answer = machine.byte_time(&mut bench.current, bench.lines);
            bench.machine = answer.machine;
            number = answer.number;
            if number == number::DONE {
                passed += 1;
                self.note_byte_time(&before, bench);
                if bench.machine.data_request || bench.machine.interrupt_request {
                    break;
                }
            } else if passed > 0 {
                self.note("run stopped by 4 after some byte times".to_string());
            }
        }
        format!("G {:02X}", number)
    }

    fn note_call(&mut self, bench: &Bench, line: &Line) {
        let machine = &bench.machine;
        match (line.letter, line.numbers.as_slice()) {
            (b'W', &[0, byte]) if machine.is_in_range() => self.note_command(bench, byte as u8),
            (b'G', &[0]) => self.note("run with limit 0".to_string()),
            (b'R', &[3]) if machine.data_request => self.note("DRQ served by a read".to_string()),
            (b'W', &[3, _]) if machine.data_request => {
                self.note("DRQ served by a load".to_string());
            }
            (b'Q', &[density, track, sector]) => {
                let wanted = bench::wanted_of(density, track, sector);
                self.note_all(wanted.map_or(Vec::new(), |it| data_marks::viewed(bench, it)));
            }
            _ => {}
        }
    }

    fn note_command(&mut self, bench: &Bench, byte: u8) {
        let machine = &bench.machine;
        let command = Command::decode(byte, machine.chip);
        if let Some(command) = command {
            self.note_wires(machine, command);
        }
        let activity = machine.activity.name();
        let (chip, density) = (chip_name(machine.chip), density_name(machine.density));
        match command {
            Some(_) if (0xD0..=0xDF).contains(&byte) => {
                self.note(format!("forced {:02X} in {}", byte, activity));
                self.note(format!("command {:02X} {}", byte, density));
            }
            Some(command) if !machine.is_busy() => {
                self.records = 0;
                self.note(format!("command {:02X}", byte));
                self.note(format!("command {:02X} of the {}", byte, chip));
                self.note(format!("{:?} {}", command.name, density));
                self.note_matches(bench, command);
                self.note_side_output(machine, command, bench.lines);
            }
            Some(_) => {}
            None => {
                let busy = if machine.is_busy() { ", Busy" } else { "" };
                self.note(format!("no command {:02X} of the {}{}", byte, chip, busy));
                self.note(format!("no command {:02X} in {}", byte, activity));
            }
        }
    }

    /// What is on where a command is loaded. While Busy, INTRQ and all conditions are off.
    fn note_wires(&mut self, machine: &Machine, command: Command) {
        let name = command.name;
        let drq = u8::from(machine.data_request);
        if machine.is_busy() {
            self.note(format!("{:?}, while Busy, DRQ {}", name, drq));
            return;
        }
        let intrq = u8::from(machine.interrupt_request);
        for condition in conditions_on(machine) {
            self.note(format!(
                "{:?}, DRQ {}, INTRQ {}, {}",
                name, drq, intrq, condition
            ));
        }
    }

    /// Several IDs of the wanted track and sector on the ring, and their sides.
    fn note_matches(&mut self, bench: &Bench, command: Command) {
        let machine = &bench.machine;
        let matching: Vec<Id> = (10..=bench.current.len())
            .filter_map(|end| field::id_at_end(machine.density, &bench.current[..end]))
            .filter(|id| id.track == machine.track && id.sector == machine.sector)
            .collect();
        if matching.len() > 1 {
            self.note(format!("several matches for {:?}", command.name));
        }
        for id in matching {
            let (chip, name) = (chip_name(machine.chip), command.name);
            self.note(match command.side_asked {
                None => format!("{:?} of the {}, any side asked", name, chip),
                Some(side) => format!(
                    "{:?} of the {}, side {} asked, {} there",
                    name,
                    chip,
                    side,
                    side_name(id.side)
                ),
            });
        }
    }

    /// What a command of a 1797 does to the side output, and how it begins.
    fn note_side_output(&mut self, machine: &Machine, command: Command, lines: Lines) {
        let side = match command.side_output {
            Some(side) => side,
            None => return,
        };
        let begins = match (lines.ready, lines.protect && command.writes()) {
            (false, _) => "not ready",
            (true, true) => "protected",
            (true, false) => "taken up",
        };
        self.note(format!(
            "{:?} {}, side output from {} to {}",
            command.name, begins, machine.side_output, side
        ));
    }

    fn note_status(&mut self, machine: &Machine, lines: Lines) {
        let letter = match machine.status.status_type {
            StatusType::TypeOne => "I",
            StatusType::Transfer => "II",
        };
        let byte = machine.status_byte(lines);
        for place in (0..8).filter(|place| byte >> place & 1 == 1) {
            self.note(format!("status {} bit {}", letter, place));
        }
    }

    fn note_byte_time(&mut self, before: &Before, bench: &Bench) {
        let machine = &bench.machine;
        let name = machine.activity.name();
        if let Some(ending) = &before.ending {
            let mut record = ending.clone();
            let last = bench.current[usize::from(before.position)];
            record.field.push(field::byte_of(last));
            self.note_all(data_marks::ended(&record, machine));
        }
        if before.name != name {
            self.note(format!("{} to {}", before.name, name));
            self.note_change(before, bench);
        }
        if before.name != "Idle" && machine.position == 0 {
            self.note(format!("ring's end in {}", before.name));
            if machine.length == LONGEST_TRACK {
                self.note(format!("longest ring's end in {}", before.name));
            }
        }
        if machine.status.lost_data && !before.lost_data {
            self.note(format!("Lost Data in {}", before.name));
        }
        if before.name == "Searching" {
            self.note_search(before, machine);
        }
        if before.name == "Idle" && machine.interrupt_request && !before.interrupt_request {
            self.note_condition(before, bench.lines.ready);
        }
        if name == "WritingTrack" || before.name == "WritingTrack" {
            self.note_format_byte(before, machine);
        }
    }

    fn note_search(&mut self, before: &Before, machine: &Machine) {
        if machine.status.crc_error && !before.crc_error {
            self.note("a match with a bad CRC".to_string());
        }
        if !machine.status.crc_error && before.crc_error {
            self.note("a good match after a bad one".to_string());
        }
    }

    fn note_condition(&mut self, before: &Before, ready: bool) {
        match (before.position, before.ready_seen, ready) {
            (0, _, _) => self.note("INTRQ at an index pulse".to_string()),
            (_, false, true) => self.note("INTRQ as Ready comes on".to_string()),
            (_, true, false) => self.note("INTRQ as Ready goes off".to_string()),
            _ => {}
        }
    }

    fn note_format_byte(&mut self, before: &Before, machine: &Machine) {
        if before.data_request || before.data < 0xF4 {
            return;
        }
        let density = density_name(machine.density);
        self.note(format!("formatted {:02X} {}", before.data, density));
        if machine.position == 0 && before.data == 0xF7 {
            self.note(format!("F7 at the last cell {}", density));
        }
    }

    fn note_change(&mut self, before: &Before, bench: &Bench) {
        let machine = &bench.machine;
        match &machine.activity {
            Activity::ReadingRecord(read) => {
                self.note_record("read", read.size, read.command, machine);
                let window = before.window.as_ref();
                self.note_all(
                    window.map_or(Vec::new(), |it| data_marks::found(it, read.mark, bench)),
                );
            }
            Activity::WritingRecord(write) => {
                self.note_record("write", write.size, write.command, machine);
            }
            Activity::Searching(_) => self.note_next_record(before, machine),
            Activity::Idle => self.note_end(before, bench),
            _ => {}
        }
    }

    fn note_record(&mut self, done: &str, size: usize, command: Command, machine: &Machine) {
        let (chip, density) = (chip_name(machine.chip), density_name(machine.density));
        self.note(format!("{} {} {}", done, size, density));
        let codes = command.length_codes;
        self.note(format!("{} {} {:?} of the {}", done, size, codes, chip));
    }

    /// A search begins, of a command or of m.
    fn note_next_record(&mut self, before: &Before, machine: &Machine) {
        self.records += usize::from(before.reads_multiple);
        if before.sector == 255 && machine.sector == 0 {
            self.note("SR from 255 to 0".to_string());
        }
    }

    fn note_end(&mut self, before: &Before, bench: &Bench) {
        let machine = &bench.machine;
        self.note_end_of_multiple(before, machine);
        let density = density_name(machine.density);
        if machine.status.not_found {
            self.note(format!("not found in {} {}", before.name, density));
        }
        if before.name == "ReadingRecord" && machine.status.crc_error {
            self.note(format!("bad data CRC {}", density));
        }
        if let Some(window) = &before.window {
            self.note_all(data_marks::missed(window, bench));
        }
    }

    /// What ended a read with m, and after how many records.
    fn note_end_of_multiple(&mut self, before: &Before, machine: &Machine) {
        let (chip, density) = (chip_name(machine.chip), density_name(machine.density));
        let (good, bit_3) = (self.records, u8::from(machine.status.crc_error));
        if before.reads_multiple {
            let kind = ["normal", "deleted"][usize::from(machine.status.deleted)];
            let drq = u8::from(machine.data_request);
            self.note(format!(
                "m: {} good, then {} broken {}",
                good, kind, density
            ));
            self.note(format!("m: broken, {}, DRQ {}", chip, drq));
            self.note(format!("m: broken, SR {}", machine.sector));
        } else if good > 0 && machine.status.not_found {
            self.note(format!("m: not found in {} {}", before.name, density));
            self.note(format!("m: not found, {}, bit 3 {}", chip, bit_3));
        }
    }
}

/// Of the record all cells have passed but the second of its CRC.
fn is_ending(read: &RecordRead, density: Density) -> bool {
    read.field.len() + 1 == field::mark_length(density) + read.size + 2
}

/// A side, or that it is none that a command can ask for.
fn side_name(side: u8) -> &'static str {
    match side {
        0 => "side 0",
        1 => "side 1",
        _ => "another byte",
    }
}

/// The conditions of a Force Interrupt that wait to be met.
fn conditions_on(machine: &Machine) -> Vec<&'static str> {
    let conditions = machine.conditions;
    let mut on = Vec::new();
    on.extend(Some("index").filter(|_| conditions.index));
    on.extend(Some("Ready off").filter(|_| conditions.ready_goes_off));
    on.extend(Some("Ready on").filter(|_| conditions.ready_comes_on));
    if on.is_empty() {
        on.push("no condition");
    }
    on
}
