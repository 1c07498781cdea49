// What the scripts must meet of long rings, and of what stands round the limits of lengths and rows.

use std::collections::BTreeSet;

use second::bench::Bench;
use second::script::{self, Line, Parsed};

/// The longest ring.
const LONGEST: u16 = 10_416;
/// Activities in which a run of FFFF byte times passes on it.
const LONG_RUNS: [&str; 3] = ["Idle", "Stepping", "Settling"];
/// Rings that power-on is asked for, and its numbers.
const POWER_ONS: [&str; 9] = [
    "P 0 01",
    "P 7FF 01",
    "P 800 00",
    "P 1900 00",
    "P 1901 00",
    "P 28AF 00",
    "P 28B0 00",
    "P 28B1 01",
    "P FFFF 01",
];
/// Rings of pictures, and those round what 13 bits hold.
const RINGS: [&str; 5] = [
    "P C35 00",
    "P 1458 00",
    "P 186A 00",
    "P 2000 00",
    "P 2001 00",
];
/// Lengths that a machine is set to, and what a byte time says then.
const SET_LENGTHS: [&str; 6] = [
    "Y 7FF: 02",
    "Y 1900: 03",
    "Y 1901: 03",
    "Y 28AF: 03",
    "Y 28B0: 03",
    "Y 28B1: 02",
];
/// Positions on the longest ring, and what a byte time says there.
const SET_POSITIONS: [&str; 8] = [
    "X 18FF: 00",
    "X 1900: 00",
    "X 1FFF: 00",
    "X 2000: 00",
    "X 28AE: 00",
    "X 28AF: 00",
    "X 28B0: 02",
    "X FFFF: 02",
];
/// Lengths of a row while the ring is the longest, and what a byte time says.
const ROWS: [&str; 6] = [
    "K 800: 03",
    "K 8B0: 03",
    "K 1900: 03",
    "K 1901: 03",
    "K 28AF: 03",
    "K 28B0: 00",
];
/// The last cells of the longest row, changed and shown, and lines that it has no room for.
const ROW_ENDS: [&str; 7] = [
    "F 28AE 2 1C2",
    "V 28AE 2",
    "K 28B1: error",
    "V 28B0 1: error",
    "V 28AF 2: error",
    "F 0 28B1 0: error",
    "C 28B0 0: error",
];
/// What the viewer says where a side is the longest.
const VIEWS: [&str; 4] = [
    "Q 00 of 28B0",
    "Q 01 of 28B0",
    "Q 04 of 28B0",
    "Q 0B of 28B0",
];
/// Searches in vain of the longest ring, in one run, from cells 0, 1 and 2.
const SEARCHES: [&str; 3] = ["search of A2C1", "search of CB70", "search of CB6F"];

/// Activities that pass from the last cell of the longest ring to its first, or end there.
const OVER_END: [&str; 7] = [
    "Stepping",
    "Settling",
    "Searching",
    "AwaitingDataMark",
    "ReadingRecord",
    "WritingRecord",
    "WritingTrack",
];

/// What is told of single byte times.
pub fn ends() -> Vec<String> {
    OVER_END
        .map(|name| format!("longest ring's end in {}", name))
        .to_vec()
}

pub fn wanted() -> Vec<String> {
    let lists: [&[&str]; 8] = [
        &POWER_ONS,
        &RINGS,
        &SET_LENGTHS,
        &SET_POSITIONS,
        &ROWS,
        &ROW_ENDS,
        &VIEWS,
        &SEARCHES,
    ];
    let runs = LONG_RUNS.map(|name| format!("FFFF in {}", name));
    let keys = lists.concat().into_iter().map(str::to_string);
    keys.chain(runs).collect()
}

/// What a script meets of these.
pub fn met(text: &str) -> BTreeSet<String> {
    let mut keys = BTreeSet::new();
    let mut bench = Bench::new();
    // The line that set a length, a position or a row, up to the next byte time.
    let mut set = None;
    for bytes in text.lines().map(str::as_bytes) {
        if let Parsed::Line(line) = script::parse(bytes) {
            let name = bench.machine.activity.name();
            let printed = bench
                .carry_out(&line)
                .unwrap_or_else(|| "error".to_string());
            keys.extend(key_of(&line, &printed, &bench, name));
            match line.letter {
                b'X' | b'Y' | b'K' => set = Some(words(&line)),
                b'B' => keys.extend(set.take().map(|it| format!("{}: {}", it, &printed[2..4]))),
                _ => {}
            }
        }
    }
    keys
}

/// The line as the lists above have it.
fn words(line: &Line) -> String {
    let numbers = line.numbers.iter().map(|number| format!(" {:X}", number));
    format!("{}{}", char::from(line.letter), numbers.collect::<String>())
}

/// What a line by itself is a key of, the activity before it being this one.
fn key_of(line: &Line, printed: &str, bench: &Bench, name: &str) -> Option<String> {
    let on_longest = bench.machine.length == LONGEST;
    let sides = [&bench.current, &bench.other];
    let has_longest_side = sides
        .iter()
        .any(|cells| cells.len() == usize::from(LONGEST));
    match line.letter {
        b'P' if printed != "error" => Some(format!("P {:X} {}", line.numbers[1], &printed[2..4])),
        b'Q' if has_longest_side => Some(format!("{} of 28B0", &printed[..4])),
        b'G' if on_longest && printed.starts_with("G 00 FFFF") => Some(format!("FFFF in {}", name)),
        b'G' if on_longest && !bench.machine.is_busy() && name != "Idle" => {
            Some(format!("search of {}", &printed[5..9]))
        }
        _ if printed == "error" => Some(format!("{}: error", words(line))),
        b'F' | b'V' => Some(words(line)),
        _ => None,
    }
}
