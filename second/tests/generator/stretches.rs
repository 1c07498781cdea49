// That the scripts put every edge in the way of a shortcut over uneventful byte times.

use crate::met::{chip_name, Met};
use crate::runs::Runs;
use second::bench::Bench;
use second::chip::Chip;
use second::command::Command;
use second::generate;

const SEEDS: u64 = 300;
/// As much as `./test long` soaks for.
const SOAK_SEEDS: u64 = 50;
const SOAK_BYTE_TIMES: u64 = 200_000;
/// What a run may begin in and pass at once.
const WAITS: [&str; 4] = ["Idle", "Settling", "Waiting", "Searching"];
/// What runs of each wait must meet.
const EDGES: [&str; 21] = [
    "limit 0",
    "limit 1",
    "limit 2",
    "limit before the pulse",
    "limit at the pulse",
    "limit behind the pulse",
    "limit before the flagged cell",
    "limit at the flagged cell",
    "limit behind the flagged cell",
    "begins at 0",
    "begins at 1",
    "begins at L - 1",
    "ends at 0",
    "ends at 1",
    "ends at L - 1",
    "refused at once",
    "refused at 0",
    "refused at L - 1",
    "flagged cell at 0",
    "flagged cell at L - 1",
    "DRQ on",
];
/// What runs of single waits must meet. While Busy no INTRQ is on, and no settling goes round.
const SINGLE_EDGES: [&str; 24] = [
    "Idle: refused behind the head",
    "Idle: flagged cell behind the head",
    "Idle: INTRQ on",
    "Idle: index condition",
    "Idle: index condition at once",
    "Idle: Ready comes on",
    "Idle: Ready goes off",
    "Idle: FFFF byte times",
    "Settling: limit before the settling's end",
    "Settling: limit at the settling's end",
    "Settling: limit behind the settling's end",
    "Settling: over with HLT off",
    "Settling: over at 0",
    "Settling: over at 1",
    "Settling: over at L - 1",
    "Settling: index bit told behind the run",
    "Waiting: refused behind the head",
    "Waiting: flagged cell behind the head",
    "Waiting: index bit told behind the run",
    "Searching: refused behind the head",
    "Searching: flagged cell behind the head",
    "Searching: index bit told behind the run",
    "AwaitingIndex: limit before the pulse",
    "AwaitingIndex: limit at the pulse",
];

fn missing(runs: &Runs) -> Vec<String> {
    let mut keys: Vec<String> = Vec::new();
    for density in ["FM", "MFM"] {
        for wait in WAITS {
            keys.extend(EDGES.map(|edge| format!("{} {}: {}", density, wait, edge)));
        }
        keys.extend(SINGLE_EDGES.map(|edge| format!("{} {}", density, edge)));
    }
    keys.retain(|key| !runs.has(key));
    keys
}

#[test]
fn together_the_scripts_meet_every_edge() {
    let mut runs = Runs::default();
    for seed in (0..SEEDS).filter(|&seed| generate::has_long_waits(seed)) {
        runs.watch_script(&generate::script(seed));
    }
    assert_eq!(missing(&runs), Vec::<String>::new());
}

#[test]
fn a_soak_meets_every_edge() {
    let mut runs = Runs::default();
    for seed in 0..SOAK_SEEDS {
        runs.watch_script(&generate::long_script(seed, SOAK_BYTE_TIMES).text);
    }
    assert_eq!(missing(&runs), Vec::<String>::new());
}

#[test]
fn a_soak_gives_every_command() {
    let mut met = Met::default();
    for seed in 0..SOAK_SEEDS {
        let long = generate::long_script(seed, SOAK_BYTE_TIMES);
        met.watch_script(Bench::new(), &long.text);
    }
    let mut keys: Vec<String> = Vec::new();
    for byte in 0..=255 {
        match byte {
            0x00..=0x7F => keys.push(format!("command {:02X}", byte)),
            0xD0..=0xDF => keys
                .extend(["FM", "MFM"].map(|density| format!("command {:02X} {}", byte, density))),
            _ => keys.extend(chips_with(byte)),
        }
    }
    keys.retain(|key| !met.has(key));
    assert_eq!(keys, Vec::<String>::new());
}

/// The byte on each chip that has it as a command.
fn chips_with(byte: u8) -> Vec<String> {
    let chips = Chip::BOTH.into_iter();
    let having = chips.filter(|&chip| Command::decode(byte, chip).is_some());
    having
        .map(|chip| format!("command {:02X} of the {}", byte, chip_name(chip)))
        .collect()
}
