// What the generator's scripts are like, and that together they meet everything they should.

mod chips;
mod data_marks;
mod eight_inch;
mod met;
mod multiple;
mod retired;
mod runs;
mod stretches;

use std::collections::BTreeMap;

use met::Met;
use second::bench::{self, Bench};
use second::generate;
use second::script::{self, Parsed};

const SEEDS: u64 = 300;
/// So many of them are many.
const MANY: usize = 10;
/// And so many are some.
const SOME: usize = 3;
const ACTIVITIES: [&str; 10] = [
    "Idle",
    "Stepping",
    "Settling",
    "Searching",
    "ReadingAddress",
    "AwaitingDataMark",
    "ReadingRecord",
    "WritingRecord",
    "AwaitingIndex",
    "WritingTrack",
];
const COMMANDS: [&str; 9] = [
    "Restore",
    "Seek",
    "Step",
    "StepIn",
    "StepOut",
    "ReadSector",
    "WriteSector",
    "ReadAddress",
    "WriteTrack",
];
/// INTRQ and a condition of a Force Interrupt.
const WAITING: [&str; 8] = [
    "0, no condition",
    "0, index",
    "0, Ready off",
    "0, Ready on",
    "1, no condition",
    "1, index",
    "1, Ready off",
    "1, Ready on",
];
/// Calls with the numbers that they answered.
const ANSWERS: [&str; 19] = [
    "P 00", "P 01", "W 00", "W 02", "W 05", "W 06", "W 07", "R 00", "R 02", "R 05", "B 00", "B 02",
    "B 03", "B 04", "G 00", "G 02", "G 03", "G 04", "bad line",
];
const EVENTS: [&str; 31] = [
    "run with limit 0",
    "run stopped by 4 after some byte times",
    "DRQ served by a read",
    "DRQ served by a load",
    "several matches for ReadSector",
    "several matches for WriteSector",
    "a match with a bad CRC",
    "a good match after a bad one",
    "INTRQ at an index pulse",
    "INTRQ as Ready comes on",
    "INTRQ as Ready goes off",
    "SR from 255 to 0",
    "Lost Data in ReadingAddress",
    "Lost Data in ReadingRecord",
    "Lost Data in WritingRecord",
    "Lost Data in WritingTrack",
    "Lost Data in AwaitingIndex",
    "ring's end in Searching",
    "ring's end in ReadingAddress",
    "ring's end in AwaitingDataMark",
    "ring's end in ReadingRecord",
    "ring's end in WritingRecord",
    "ring's end in Stepping",
    "ring's end in Settling",
    "Stepping to Settling",
    "Searching to Idle",
    "ReadingRecord to Searching",
    "WritingRecord to Searching",
    "WritingRecord to Idle",
    "ReadingAddress to Idle",
    "WritingTrack to Idle",
];
/// Events that must be met in each density.
const DENSITY_EVENTS: [&str; 13] = [
    "read 128",
    "read 256",
    "read 512",
    "read 1024",
    "write 128",
    "write 256",
    "write 512",
    "write 1024",
    "not found in AwaitingDataMark",
    "not found in Searching",
    "not found in Stepping",
    "bad data CRC",
    "F7 at the last cell",
];

fn wanted() -> Vec<String> {
    let mut keys: Vec<String> = Vec::new();
    keys.extend(ANSWERS.iter().chain(&EVENTS).map(|key| key.to_string()));
    for density in ["FM", "MFM"] {
        let both = DENSITY_EVENTS.iter().chain(&COMMANDS);
        keys.extend(both.map(|key| format!("{} {}", key, density)));
        keys.extend((0xF4..=0xFFu8).map(|byte| format!("formatted {:02X} {}", byte, density)));
    }
    keys.extend((0x00..0x80u8).map(|byte| format!("command {:02X}", byte)));
    for byte in 0xD0..=0xDFu8 {
        keys.extend(
            ACTIVITIES
                .iter()
                .map(|name| format!("forced {:02X} in {}", byte, name)),
        );
    }
    for place in 0..8 {
        keys.extend(
            ["I", "II"]
                .iter()
                .map(|kind| format!("status {} bit {}", kind, place)),
        );
    }
    keys
}

/// By key, how many of the seeds' scripts meet it.
fn count(seeds: u64) -> BTreeMap<String, usize> {
    let mut counts = BTreeMap::new();
    for seed in 0..seeds {
        let mut met = Met::default();
        met.watch_script(Bench::new(), &generate::script(seed));
        for key in met.keys() {
            *counts.entry(key.clone()).or_insert(0) += 1;
        }
    }
    counts
}

/// The keys that fewer scripts meet.
fn met_by_fewer(keys: Vec<String>, scripts: usize) -> Vec<String> {
    let counts = count(SEEDS);
    let is_rare = |key: &String| counts.get(key).map_or(0, |&count| count) < scripts;
    keys.into_iter().filter(is_rare).collect()
}

#[test]
fn together_the_scripts_meet_everything_they_should() {
    let keys = [wanted(), chips::wanted(), multiple::wanted()].concat();
    assert_eq!(met_by_fewer(keys, 1), Vec::<String>::new());
}

/// Every command with DRQ, INTRQ and each condition off and on; and while Busy, when INTRQ and the
/// conditions are off.
fn loadings() -> Vec<String> {
    let busy = (0..2).map(|drq| format!("while Busy, DRQ {}", drq));
    let idle = (0..2).flat_map(|drq| WAITING.map(|it| format!("DRQ {}, INTRQ {}", drq, it)));
    let states: Vec<String> = busy.chain(idle).collect();
    let names = COMMANDS.into_iter().chain(["ForceInterrupt"]);
    names
        .flat_map(|name| states.iter().map(move |it| format!("{}, {}", name, it)))
        .collect()
}

#[test]
fn many_scripts_load_every_command_in_every_state() {
    assert_eq!(met_by_fewer(loadings(), MANY), Vec::<String>::new());
}

#[test]
fn many_scripts_load_every_retired_byte_on_each_chip_and_in_each_activity() {
    assert_eq!(met_by_fewer(retired::wanted(), MANY), Vec::<String>::new());
}

#[test]
fn some_scripts_meet_every_data_mark() {
    assert_eq!(
        met_by_fewer(data_marks::wanted(), SOME),
        Vec::<String>::new()
    );
}

/// Long rings make a script long, so some scripts are enough.
#[test]
fn some_scripts_meet_every_limit_of_long_rings() {
    let mut counts: BTreeMap<String, usize> = BTreeMap::new();
    for key in (0..SEEDS).flat_map(|seed| eight_inch::met(&generate::script(seed))) {
        *counts.entry(key).or_insert(0) += 1;
    }
    let mut keys = eight_inch::wanted();
    keys.retain(|key| counts.get(key).map_or(0, |&count| count) < SOME);
    assert_eq!(keys, Vec::<String>::new());
    assert_eq!(met_by_fewer(eight_inch::ends(), SOME), Vec::<String>::new());
}

/// A long ring takes more lines and more byte times, so most lines work a short one.
#[test]
fn most_lines_work_a_short_ring() {
    let (mut short, mut all) = (0, 0);
    for seed in 0..60 {
        let mut bench = Bench::new();
        for text in generate::script(seed).lines() {
            if let Parsed::Line(line) = script::parse(text.as_bytes()) {
                bench.carry_out(&line);
                short += usize::from(bench.machine.length < 2300);
                all += 1;
            }
        }
    }
    assert!(2 * short > all, "{} of {}", short, all);
}

#[test]
fn the_scripts_meet_the_answers_of_the_viewer() {
    let counts = count(60);
    for answer in ["Q 00", "Q 01", "Q 04", "Q 0B"] {
        assert!(counts.contains_key(answer), "{}", answer);
    }
}

#[test]
fn a_seed_always_gives_the_same_script() {
    assert_eq!(generate::script(7), generate::script(7));
    assert_ne!(generate::script(7), generate::script(8));
}

#[test]
fn scripts_have_some_hundred_to_some_thousand_lines() {
    for seed in 0..40 {
        let lines = generate::script(seed).lines().count();
        assert!(
            (300..12_000).contains(&lines),
            "seed {} has {}",
            seed,
            lines
        );
    }
}

#[test]
fn only_a_last_bad_line_stops_a_script() {
    for seed in 0..40 {
        let script = generate::script(seed);
        let output = bench::run(script.as_bytes());
        let text = String::from_utf8_lossy(&output);
        let errors = text
            .lines()
            .filter(|line| line.starts_with("error"))
            .count();
        let stops = script.trim_end().ends_with("\nU") || script.ends_with('\r');
        assert_eq!(errors == 1, stops, "seed {}", seed);
        assert!(errors <= 1);
    }
}

#[test]
fn some_scripts_have_other_line_ends() {
    let count = |ends: fn(&str) -> bool| {
        let scripts = (0..33).map(generate::script);
        scripts.filter(|script| ends(script)).count()
    };
    assert_eq!(count(|script| script.ends_with("\r\n")), 3);
    assert_eq!(count(|script| script.ends_with('\r')), 3);
    assert_eq!(count(|script| !script.ends_with(['\r', '\n'])), 3);
}

#[test]
fn a_script_with_carriage_returns_prints_what_it_prints_without() {
    let script = generate::script(2);
    assert_eq!(script.lines().count(), script.matches("\r\n").count());
    let plain = script.replace("\r\n", "\n");
    assert_eq!(bench::run(script.as_bytes()), bench::run(plain.as_bytes()));
}
