// The count of scripts that show a wrong machine, alone and as a program.

use std::collections::BTreeSet;
use std::process::{Command, Output};

use second::bench::Bench;
use second::coverage::desk::{Desk, Printed};
use second::coverage::{rows, shown};
use second::density::Density;
use second::generate;
use second::layout;
use second::script::{self, Parsed};

const COVERAGE: &str = env!("CARGO_BIN_EXE_coverage");
/// As much as `./test long` soaks for, or a little more.
const SOAK_SEED: u64 = 1793;
const SOAK_SCRIPTS: u64 = 50;
const SOAK_BYTE_TIMES: u64 = 200_000;

/// An ID at cell 100, on an FM ring of 2,048 cells, with Ready and HLT on.
const SCENE: &str = "P 0 800\nN 9\nC 64 1FE 0 0 1 0 D2 C3\n";

/// The same with a 1797.
const TWO_SIDED_SCENE: &str = "P 0 800 1\nN 9\nC 64 1FE 0 0 1 0 D2 C3\n";

/// Whether these lines, in the scene, show the machine that does this in place of what a sentence
/// says that begins so.
fn shows(lines: &[&str], says: &str, does: &str) -> bool {
    scene_shows(SCENE, lines, says, does)
}

fn scene_shows(scene: &str, lines: &[&str], says: &str, does: &str) -> bool {
    let known = |row: &&(&str, &str)| row.0.starts_with(says) && row.1 == does;
    assert_eq!(rows().iter().filter(known).count(), 1, "{}: {}", says, does);
    let script = format!("{}{}\n", scene, lines.join("\n"));
    shown(&script).iter().any(|row| known(&row))
}

#[test]
fn a_cleared_drq_is_shown_only_where_it_was_on() {
    let clears = |lines: &[&str]| shows(lines, "An accepted command", "DRQ stays (I)");
    assert!(clears(&["W 0 F0", "W 0 D0", "W 0 10"]));
    assert!(!clears(&["W 0 F0", "W 3 0", "W 0 D0", "W 0 10"]));
    assert!(!clears(&["W 0 F0", "W 0 D0", "W 0 80"]));
}

#[test]
fn what_restore_sets_is_shown_only_where_it_was_something_else() {
    let sets = |lines: &[&str], does| shows(lines, "Restore sets TR 255", does);
    assert!(sets(&["W 1 7", "W 0 0"], "TR stays"));
    assert!(!sets(&["W 1 FF", "W 0 0"], "TR stays"));
    assert!(sets(&["W 3 7", "W 0 0"], "DR stays"));
    assert!(!sets(&["W 0 0"], "DR stays"));
}

#[test]
fn what_no_line_prints_is_shown_where_it_has_an_effect() {
    let direction = |lines: &[&str]| shows(lines, "It gives: position 0", "direction in");
    assert!(!direction(&["W 0 20"]));
    assert!(direction(&["W 0 20", "B"]));
    assert!(!direction(&["W 0 40", "B", "W 0 D0", "W 0 20", "B"]));
}

#[test]
fn a_condition_is_shown_where_something_meets_it() {
    let drops = |lines: &[&str]| shows(lines, "Any later command", "Type I does not");
    assert!(drops(&["X 0", "W 0 D4", "W 0 40", "B"]));
    assert!(!drops(&["X 5", "W 0 D4", "W 0 40", "B"]));
    assert!(!drops(&["X 0", "W 0 D2", "W 0 40", "B"]));
}

/// Read Address with E, the head placed so that its search begins with this cell.
fn settles_up_to(cell: u16, does: &str) -> bool {
    let head = format!("X {:X}", (cell + 2048 - 469) % 2048);
    shows(&[&head, "W 0 C4", "G FFFF"], "Types II and III load", does)
}

#[test]
fn a_settling_is_shown_where_its_last_byte_time_counts() {
    assert!(settles_up_to(100, "470 (FM)"));
    assert!(!settles_up_to(99, "470 (FM)"));
    assert!(settles_up_to(101, "468 (FM)"));
    assert!(!settles_up_to(100, "468 (FM)"));
}

#[test]
fn a_written_cell_is_shown_where_it_is_looked_at() {
    let writes = |lines: &[&str]| shows(lines, "FM: F8-FB and FE", "FC plain");
    let format = ["X 7FF", "W 0 F0", "W 3 FC", "G 2", "W 0 D0"];
    assert!(!writes(&format));
    assert!(writes(&[&format[..], &["V 0 1"]].concat()));
    assert!(!writes(&[&format[..], &["C 0 0", "V 0 1"]].concat()));
}

#[test]
fn a_run_that_goes_on_is_shown() {
    let ends = |lines: &[&str]| shows(lines, "When it ends by itself", "INTRQ stays off (I)");
    assert!(ends(&["W 0 10", "G FFFF"]));
    assert!(!ends(&["W 0 10", "W 3 7", "G 3"]));
}

#[test]
fn a_side_output_is_shown_where_it_changes() {
    let output =
        |lines: &[&str], does| scene_shows(TWO_SIDED_SCENE, lines, "U goes to the side", does);
    assert!(output(&["W 0 C2"], "not by Type III"));
    assert!(!output(&["W 0 C0"], "not by Type III"));
    assert!(!output(&["W 0 8A"], "not by Type III"));
    assert!(output(&["N 8", "W 0 C2"], "not if not ready"));
    assert!(!output(&["N B", "W 0 AA"], "not if not ready"));
    assert!(output(&["N B", "W 0 AA"], "not if protected"));
    assert!(output(&["W 0 C2", "W 0 D0"], "Force Interrupt clears it"));
    assert!(!output(&["W 0 C0", "W 0 D0"], "Force Interrupt clears it"));
}

#[test]
fn a_side_compare_is_shown_where_the_id_bears_another() {
    let compares =
        |lines: &[&str]| scene_shows(TWO_SIDED_SCENE, lines, "for Type II the ID's", "any side");
    assert!(compares(&["W 0 AA", "G FFFF"]));
    assert!(!compares(&["W 0 A8", "G FFFF"]));
    assert!(!compares(&["W 0 C2", "G FFFF"]));
}

#[test]
fn what_the_1793_has_alone_is_shown_on_it_alone() {
    let says = "An ID matches";
    let lines = &["W 0 AA", "G FFFF"];
    assert!(scene_shows(SCENE, lines, says, "any side"));
    assert!(!scene_shows(TWO_SIDED_SCENE, lines, says, "any side"));
}

#[test]
fn a_length_code_is_shown_at_the_end_of_its_record() {
    let says = "With L 1 the length codes";
    let ignores =
        |lines: &[&str]| scene_shows(TWO_SIDED_SCENE, lines, says, "as before with L 0 too");
    let served = vec!["W 3 0\nG FFFF"; 130].join("\n");
    assert!(ignores(&["W 0 A0", "G FFFF", &served]));
    assert!(!ignores(&["W 0 A8", "G FFFF", &served]));
    assert!(!ignores(&["W 0 A0", "G FFFF", "W 3 0", "G FFFF"]));
}

/// Cells as a line.
fn cells_line(place: usize, cells: &[u16]) -> String {
    let named: String = cells.iter().map(|cell| format!(" {:X}", cell)).collect();
    format!("C {:X}{}", place, named)
}

/// Lines that lay sectors 1, 2, .. of 128 bytes FF with this mark, their data CRCs good or not.
fn sectors(mark: u8, good: &[bool]) -> Vec<String> {
    let mut lines = Vec::new();
    for (index, good) in good.iter().enumerate() {
        let place = 100 + 200 * index;
        let id = layout::id_cells(Density::Fm, [0, 0, index as u8 + 1, 0]);
        let field = layout::field_cells(Density::Fm, mark, &[0xFF; 128]);
        let crc = [field[129], field[130] ^ u16::from(!good)];
        lines.push(cells_line(place, &id));
        lines.push(cells_line(place + 20, &field[..1]));
        lines.push(cells_line(place + 20 + 129, &crc));
    }
    lines
}

/// Lines that lay such sectors and read them with this command; nobody serves it.
fn marked_reads(byte: u8, mark: u8, good: &[bool]) -> Vec<String> {
    let mut lines = sectors(mark, good);
    lines.push(format!("W 0 {:X}", byte));
    lines.extend(vec!["B".to_string(); 100 + 200 * good.len()]);
    lines
}

fn reads(byte: u8, good: &[bool]) -> Vec<String> {
    marked_reads(byte, 0xFB, good)
}

/// The same for lines that were made.
fn made_show(lines: &[String], says: &str, does: &str) -> bool {
    let lines: Vec<&str> = lines.iter().map(String::as_str).collect();
    shows(&lines, says, does)
}

#[test]
fn a_broken_record_is_shown_where_m_reads_it() {
    let passes = |lines: Vec<String>, does| made_show(&lines, "A bad data CRC ends", does);
    assert!(passes(reads(0x90, &[false]), "it goes on"));
    assert!(!passes(reads(0x80, &[false]), "it goes on"));
    assert!(!passes(reads(0x90, &[true]), "it goes on"));
    let (first, later) = ("not that of the first record", "not that of a later record");
    assert!(passes(reads(0x90, &[false, true]), first));
    assert!(!passes(reads(0x90, &[false, true]), later));
    assert!(!passes(reads(0x90, &[true, false]), first));
    assert!(passes(reads(0x90, &[true, false]), later));
}

#[test]
fn an_old_mark_is_shown_where_it_is_met() {
    let says = "In FM only, flagged F9 and FA become data marks";
    let met = |cells: &str, byte: &str, does| {
        let (cells, command) = (format!("C 74 {}", cells), format!("W 0 {}", byte));
        shows(&[&cells, &command, "G FFFF"], says, does)
    };
    assert!(met("1F9", "80", "F9 does not"));
    assert!(!met("1FA", "80", "F9 does not"));
    assert!(!met("1FB", "80", "F9 does not"));
    assert!(!met("F9", "80", "F9 does not"));
    assert!(met("F9", "80", "plain F9 too"));
    assert!(!met("1F9", "80", "plain F9 too"));
    assert!(met("1FA", "90", "not with m"));
    assert!(!met("1FA", "80", "not with m"));
    assert!(met("1FC", "80", "FC too"));
    assert!(!met("1FD", "80", "FC too"));
}

#[test]
fn an_old_mark_of_mfm_is_shown_where_it_is_passed_over() {
    let says = "In FM only, flagged F9 and FA become data marks";
    let met = |mark: &str, does| {
        let id = cells_line(100, &layout::id_cells(Density::Mfm, [0, 0, 1, 0]));
        let scene = format!("P 1 800\nN 9\n{}\n", id);
        let cells = format!("C 78 1A1 1A1 1A1 {}", mark);
        scene_shows(&scene, &[&cells, "W 0 80", "G FFFF"], says, does)
    };
    assert!(met("F9", "F9 in MFM too"));
    assert!(!met("F9", "FA in MFM too"));
    assert!(met("FA", "FA in MFM too"));
    assert!(met("FA", "they end it in MFM"));
    assert!(!met("FC", "they end it in MFM"));
    assert!(!met("FB", "F9 in MFM too"));
    assert!(!met("FB", "they end it in MFM"));
}

#[test]
fn the_window_of_an_old_mark_is_shown_at_its_end() {
    let met = |place: usize, cell: u16, does| {
        let cells = cells_line(106 + place, &[cell]);
        shows(
            &[&cells, "W 0 80", "G FFFF"],
            "Window and bounds stay",
            does,
        )
    };
    assert!(met(30, 0x1F9, "29 for F9 or FA"));
    assert!(!met(29, 0x1F9, "29 for F9 or FA"));
    assert!(!met(30, 0x1FB, "29 for F9 or FA"));
    assert!(met(31, 0x1FA, "31 for F9 or FA"));
    assert!(!met(30, 0x1FA, "31 for F9 or FA"));
    assert!(!met(32, 0x1FA, "31 for F9 or FA"));
    assert!(!met(31, 0x1FB, "31 for F9 or FA"));
}

#[test]
fn which_mark_is_first_is_shown_where_there_are_two() {
    let met = |cells: &str, does| {
        let cells = format!("C 74 {}", cells);
        shows(
            &[&cells, "W 0 80", "G FFFF"],
            "Only the first data mark",
            does,
        )
    };
    let (new, old) = ("FB or F8 after F9 or FA is", "F9 or FA after FB or F8 is");
    assert!(met("1F9 FF 1FB", new));
    assert!(!met("1F9 FF 1FA", new));
    assert!(!met("1F9", new));
    assert!(!met("1FB FF 1F9", new));
    assert!(met("1FB FF 1F9", old));
    assert!(!met("1FB FF 1F8", old));
    assert!(!met("1F9 FF 1FB", old));
}

#[test]
fn bit_5_and_the_crc_of_an_old_mark_are_shown_at_the_end_of_its_record() {
    let read = |mark, good, says, does| made_show(&marked_reads(0x80, mark, &[good]), says, does);
    let counts = |mark, good, does| read(mark, good, "F9 counts as deleted", does);
    assert!(counts(0xF9, true, "F9 as normal"));
    assert!(counts(0xF9, false, "F9 as normal"));
    assert!(!counts(0xF8, true, "F9 as normal"));
    assert!(counts(0xFA, true, "FA as deleted"));
    assert!(!counts(0xFB, true, "FA as deleted"));
    let starts = |mark, good, does| read(mark, good, "FM: a mark is one flagged cell", does);
    assert!(starts(0xF9, true, "with F8 for F9"));
    assert!(!starts(0xF9, false, "with F8 for F9"));
    assert!(!starts(0xF8, true, "with F8 for F9"));
    assert!(starts(0xFA, true, "with FB for FA"));
    assert!(starts(0xFA, false, "any will do for F9 or FA"));
    assert!(!starts(0xFA, true, "any will do for F9 or FA"));
    assert!(!starts(0xFB, false, "any will do for F9 or FA"));
}

#[test]
fn a_written_mark_is_shown_where_it_is_looked_at() {
    let writes = |byte: &str, before: &[&str], does| {
        let command = format!("W 0 {}", byte);
        let served = [&command, "G FFFF", "W 3 0", "G FFFF", "V 7C 1"];
        shows(&[before, &served].concat(), "Write Sector still", does)
    };
    assert!(writes("A1", &[], "F9 for F8 (FM)"));
    assert!(!writes("A0", &[], "F9 for F8 (FM)"));
    assert!(!writes("A1", &[], "F9 for F8 (MFM)"));
    assert!(writes("A0", &[], "FA for FB (FM)"));
    assert!(writes("A0", &["C 7C 1F9"], "F9 or FA where it stands"));
    assert!(!writes("A0", &["C 7C 1F8"], "F9 or FA where it stands"));
    assert!(!writes("A0", &["C 7B 1F9"], "F9 or FA where it stands"));
}

#[test]
fn a_wrong_viewer_is_shown_where_it_looks() {
    let says = "What finds a data mark must say";
    let views = |mark, good, line: &str, does| {
        let mut lines = sectors(mark, &[good]);
        lines.push(line.to_string());
        made_show(&lines, says, does)
    };
    assert!(views(0xF9, true, "Q 0 0 1", "F9 is none"));
    assert!(!views(0xF9, true, "U", "F9 is none"));
    assert!(!views(0xF9, false, "Q 0 0 1", "F9 is none"));
    assert!(!views(0xF9, true, "Q 1 0 1", "F9 is none"));
    assert!(!views(0xF9, true, "Q 0 0 2", "F9 is none"));
    assert!(!views(0xFA, true, "Q 0 0 1", "F9 is none"));
    assert!(views(0xFA, true, "Q 0 0 1", "FA is none"));
    assert!(views(0xFA, true, "Q 0 0 1", "CRC with FB for FA"));
    assert!(!views(0xFB, true, "Q 0 0 1", "CRC with FB for FA"));
}

#[test]
fn a_limit_of_lengths_is_shown_by_the_lengths_round_it() {
    let says = "1 now means outside 2,048..10,416";
    let asks = |length: &str, does| shows(&[&format!("P 1 {}", length)], says, does);
    for (does, shown, others) in [
        ("6,400 at power-on", ["1901", "28B0"], ["1900", "28B1"]),
        ("10,415 at power-on", ["28B0", "28B0"], ["28AF", "28B1"]),
        ("10,417 at power-on", ["28B1", "28B1"], ["28B0", "28B2"]),
    ] {
        assert!(shown.iter().all(|length| asks(length, does)), "{}", does);
        assert!(!others.iter().any(|length| asks(length, does)), "{}", does);
    }
    let views = |length: &str, does| shows(&[&format!("K {}", length), "Q 0 0 1"], says, does);
    assert!(views("1901", "6,400 in the viewer"));
    assert!(!views("1900", "6,400 in the viewer"));
    assert!(views("28B0", "10,415 in the viewer"));
    assert!(!views("28AF", "10,415 in the viewer"));
}

#[test]
fn a_machine_out_of_range_is_shown_by_any_call() {
    let says = "The largest ring goes from 6,400 to 10,416 cells.";
    for call in ["R 1", "W 1 7", "B", "G 0"] {
        let set = |length: &str, does| shows(&[&format!("Y {}", length), call], says, does);
        assert!(set("1901", "2 above 6,400"));
        assert!(!set("1900", "2 above 6,400"));
        assert!(set("28B0", "2 above 10,415"));
        assert!(!set("28B1", "2 above 10,415"));
        assert!(set("28B1", "2 above 10,417"));
        assert!(!set("28B2", "2 above 10,417"));
    }
    let rows = |ring: &str, row: &str, does| {
        let lines = [
            format!("P 0 {}", ring),
            format!("K {}", row),
            "B".to_string(),
        ];
        made_show(&lines, says, does)
    };
    assert!(rows("28B0", "8B0", "3 in 13 bits"));
    assert!(!rows("28B0", "8B1", "3 in 13 bits"));
    assert!(rows("28B0", "28AF", "3 not above 6,400"));
    assert!(!rows("28B0", "1900", "3 not above 6,400"));
}

#[test]
fn a_count_that_changes_is_shown_on_a_long_ring_alone() {
    let says = "Bytes pass twice as fast";
    let works = |length: &str, byte: &str, does| {
        let power_on = format!("P 0 {}", length);
        let ids = "C 12C 1FE 0 0 1 0 D2 C3\nC 1D6 1FE 0 0 1 0 D2 C3";
        let command = format!("W 0 {}", byte);
        shows(&[&power_on, ids, &command, "G FFFF"], says, does)
    };
    for (byte, does) in [
        ("40", "step counts double"),
        ("40", "step counts halve"),
        ("C4", "settle counts double"),
        ("14", "settle counts double"),
        ("84", "settle counts halve"),
        ("14", "settle counts halve"),
    ] {
        assert!(works("1901", byte, does), "{} {}", byte, does);
        assert!(!works("1900", byte, does), "{} {}", byte, does);
    }
}

#[test]
fn a_long_search_is_shown_where_it_ends_too_early() {
    let says = "Demand 3's formulas hold";
    let searches = |length: &str, position: &str, does| {
        let lines = [format!("P 1 {}", length), format!("X {}", position)];
        let search = ["W 0 80".to_string(), "G FFFF".to_string()];
        made_show(&[lines, search].concat(), says, does)
    };
    assert!(searches("28B0", "0", "it ends after 32,768"));
    assert!(searches("2001", "0", "it ends after 32,768"));
    assert!(!searches("1FFF", "0", "it ends after 32,768"));
    assert!(searches("1FFF", "1", "it ends after 32,768"));
    assert!(searches("1F41", "0", "it ends after 5 x 6,400"));
    assert!(!searches("1900", "0", "it ends after 5 x 6,400"));
}

#[test]
fn a_long_run_is_shown_where_it_counts_too_little() {
    let says = "A run call makes byte times";
    let runs = |ring: &str, position: &str, limit: &str, does| {
        let lines = [
            format!("P 0 {}", ring),
            format!("X {}", position),
            format!("G {}", limit),
        ];
        made_show(&lines, says, does)
    };
    assert!(runs("800", "0", "8000", "it counts in 15 bits"));
    assert!(!runs("800", "0", "7FFF", "it counts in 15 bits"));
    assert!(runs("800", "0", "8001", "it stops after 32,768"));
    let both = "it stops where position and limit pass 65,535";
    assert!(runs("28B0", "28AF", "FFFF", both));
    assert!(runs("28B0", "1", "FFFF", both));
    assert!(!runs("28B0", "0", "FFFF", both));
    assert!(!runs("28B0", "28AF", "8000", both));
    assert!(runs(
        "28B0",
        "28AF",
        "FFFF",
        "it leaves a position of 16 bits"
    ));
    assert!(!runs(
        "28B0",
        "0",
        "FFFF",
        "it leaves a position of 16 bits"
    ));
    assert!(!runs(
        "1900",
        "1",
        "FFFF",
        "it leaves a position of 16 bits"
    ));
}

#[test]
fn a_retired_byte_that_is_taken_is_shown_on_its_chip() {
    let says = "On both chips E0, E2, E4, E6 are no longer commands.";
    let on_1793 = |lines: &[&str], does| scene_shows(SCENE, lines, says, does);
    let on_1797 = |lines: &[&str], does| scene_shows(TWO_SIDED_SCENE, lines, says, does);
    assert!(on_1793(&["W 0 E2"], "E2 on the 1793"));
    assert!(!on_1793(&["W 0 E6"], "E2 on the 1793"));
    assert!(!on_1797(&["W 0 E2"], "E2 on the 1793"));
    assert!(on_1797(&["W 0 E2"], "E2 on the 1797"));
    assert!(!on_1793(&["W 0 E2"], "E2 on the 1797"));
    assert!(!on_1797(&["W 0 80", "W 0 E2"], "E2 on the 1797"));
    assert!(on_1793(&["W 0 F4"], "nor is Write Track"));
    assert!(!on_1793(&["W 0 F2"], "nor is Write Track"));
    let refuses = |lines: &[&str], does| shows(lines, "For the 1793 the bytes refused", does);
    assert!(refuses(&["W 0 E4"], "59, not E4"));
    assert!(!refuses(&["W 0 E0"], "59, not E4"));
    assert!(!refuses(&["W 0 E5"], "59, not E4"));
}

#[test]
fn what_a_retired_byte_changes_is_shown_where_it_was_something_else() {
    let changes = |lines: &[&str], does| shows(lines, "Refusals: 7 grows by these.", does);
    assert!(changes(&["W 0 D8", "W 0 E0"], "INTRQ goes off"));
    assert!(!changes(&["W 0 D0", "W 0 E0"], "INTRQ goes off"));
    assert!(!changes(&["W 0 D8", "W 0 E1"], "INTRQ goes off"));
    assert!(changes(&["W 0 F0", "W 0 D0", "W 0 E6"], "DRQ goes off"));
    assert!(!changes(&["W 0 C0", "W 0 D0", "W 0 E6"], "DRQ goes off"));
    assert!(changes(
        &["W 0 D4", "W 0 E2", "B"],
        "conditions are dropped"
    ));
    assert!(!changes(
        &["W 0 D2", "W 0 E2", "B"],
        "conditions are dropped"
    ));
    assert!(changes(&["W 0 80", "W 0 E0"], "7 while Busy too"));
    assert!(!changes(&["W 0 E0"], "7 while Busy too"));
    assert!(!changes(&["W 0 80", "W 0 EF"], "7 while Busy too"));
}

#[test]
fn nothing_is_shown_by_lines_after_an_error() {
    let loads = |lines: &[&str]| shows(lines, "Writes 0 to 3", "1 loads nothing");
    assert!(loads(&["W 1 7"]));
    assert!(!loads(&["Z", "W 1 7"]));
    assert!(!loads(&["W 1 100", "W 1 7"]));
}

#[test]
fn no_row_stands_twice() {
    let rows = rows();
    let different: BTreeSet<_> = rows.iter().collect();
    assert_eq!(different.len(), rows.len());
}

/// What the bench prints, as the desk gives it.
fn printed(text: String) -> Printed {
    if !text.contains('|') && !text.starts_with('Q') {
        return Printed::Text(text);
    }
    let words = text[1..].split([' ', '|']).filter(|word| !word.is_empty());
    let number = |word| u16::from_str_radix(word, 16).expect("a number");
    Printed::Numbers(words.map(number).collect())
}

#[test]
fn where_nothing_slips_the_lines_print_what_the_bench_prints() {
    let (mut bench, mut watched) = (Bench::new(), Bench::new());
    for seed in 0..12 {
        for text in generate::script(seed).lines() {
            if let Parsed::Line(line) = script::parse(text.as_bytes()) {
                let mut desk = Desk {
                    bench: &mut watched,
                    hand: &mut |_| None,
                };
                let expected = bench.carry_out(&line).map(printed);
                assert_eq!(desk.carry_out(&line), expected, "seed {}: {}", seed, text);
            }
        }
    }
    assert_eq!(watched.machine, bench.machine);
    assert_eq!(watched.current, bench.current);
}

#[test]
fn a_long_soak_shows_every_wrong_machine() {
    let mut all: BTreeSet<_> = rows().into_iter().collect();
    for seed in SOAK_SEED..SOAK_SEED + SOAK_SCRIPTS {
        let long = generate::long_script(seed, SOAK_BYTE_TIMES);
        for row in shown(&long.text) {
            all.remove(&row);
        }
    }
    assert_eq!(all, BTreeSet::new());
}

fn run(arguments: &[&str]) -> Output {
    Command::new(COVERAGE)
        .args(arguments)
        .output()
        .expect("the program runs")
}

#[test]
fn the_program_counts_and_fails_where_too_few_scripts_show_a_machine() {
    let output = run(&["0", "2"]);
    let text = String::from_utf8_lossy(&output.stdout).to_string();
    assert!(text.contains("\nReading or loading DR turns DRQ off.\n     2  reading does not\n"));
    let rows = rows().len();
    let end =
        format!("\n2 scripts, {rows} wrong machines, {rows} of them shown by fewer than 10\n");
    assert!(text.ends_with(&end), "{}", text);
    assert_eq!(output.status.code(), Some(1));
}

#[test]
fn the_program_fails_without_its_arguments() {
    for arguments in [&["0"][..], &["0", "many"], &["0", "1", "2"]] {
        assert_eq!(run(arguments).status.code(), Some(2));
    }
}
