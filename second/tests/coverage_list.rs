// The count of inputs that show a wrong list, alone and as a program.

use std::collections::BTreeSet;
use std::process::{Command, Output};

use second::coverage::{list_rows, list_shown};
use second::density::Density;
use second::field;
use second::layout;
use second::picture::Kind;
use second::pictures;

const COVERAGE_LIST: &str = env!("CARGO_BIN_EXE_coverage_list");

/// Whether an input shows the list that does this in place of what a sentence says that begins so.
fn shows(input: &[u8], says: &str, does: &str) -> bool {
    let known = |row: &&(&str, &str)| row.0.starts_with(says) && row.1 == does;
    let count = list_rows().iter().filter(known).count();
    assert_eq!(count, 1, "{}: {}", says, does);
    list_shown(input).iter().any(|row| known(&row))
}

/// A picture of gap, but for these cells from this place on.
fn picture_with(kind: Kind, place: usize, cells: &[u16]) -> Vec<u8> {
    let mut track = vec![layout::gap(kind.density); kind.length];
    layout::put(&mut track, place, cells);
    pictures::picture(kind, 0x2A, 1, &track)
}

fn gap_picture(kind: Kind) -> Vec<u8> {
    picture_with(kind, 0, &[])
}

fn picture_with_id(kind: Kind, place: usize) -> Vec<u8> {
    picture_with(kind, place, &layout::id_cells(kind.density, [1, 0, 2, 3]))
}

#[test]
fn a_wrong_kind_is_shown_by_pictures_of_it() {
    let says = "Two picture kinds come";
    for kind in Kind::ALL {
        let input = gap_picture(kind);
        assert_eq!(shows(&input, says, "66 is refused by 8"), kind.byte == 0x66);
        assert_eq!(shows(&input, says, "6D is refused by 8"), kind.byte == 0x6D);
        assert_eq!(
            shows(&input, says, "66 has a body of 5,862"),
            kind.byte == 0x66
        );
        assert_eq!(
            shows(&input, says, "6D has a body of 11,719"),
            kind.byte == 0x6D
        );
        let letters = "The list prints f and m";
        assert_eq!(shows(&input, letters, "F for 66"), kind.byte == 0x66);
        assert_eq!(shows(&input, letters, "m for 4D"), kind.byte == 0x4D);
    }
    assert!(!shows(&gap_picture(Kind::EIGHT_INCH_FM), says, "66 is MFM"));
    assert!(shows(
        &picture_with_id(Kind::EIGHT_INCH_FM, 7),
        says,
        "66 is MFM"
    ));
}

#[test]
fn a_body_a_byte_too_short_is_shown_by_what_follows() {
    let says = "Two picture kinds come";
    let input = gap_picture(Kind::EIGHT_INCH_FM);
    assert!(shows(&input, says, "66 has a body of 5,860"));
    let cut = &input[..input.len() - 1];
    assert!(shows(cut, says, "66 has a body of 5,860"));
    assert!(!shows(cut, says, "66 has a body of 5,862"));
    assert!(!shows(&cut[1..], says, "66 has a body of 5,860"));
}

#[test]
fn a_byte_taken_for_a_kind_is_shown_where_it_stands() {
    let says = "Refusals: .. 8";
    for (byte, does) in [
        (0x56, "56 is as 46"),
        (0x7D, "7D is as 6D"),
        (0x47, "bit 0 does not count"),
        (0x26, "bit 6 does not count"),
        (0xED, "bit 7 does not count"),
    ] {
        assert!(shows(&[byte, 0], says, does));
        assert!(!shows(&[byte ^ 0x02, 0], says, does));
        assert!(!shows(&[0x46, 0], says, does));
    }
}

#[test]
fn padding_is_shown_where_a_bit_is_set() {
    let set = |kind: Kind, bit: u8| {
        let mut bytes = gap_picture(kind);
        bytes[kind.body] |= bit;
        bytes
    };
    let no_padding = "5,208 and 10,416 are multiples";
    for bit in [0x01, 0x80] {
        let input = set(Kind::EIGHT_INCH_FM, bit);
        assert!(shows(
            &input,
            no_padding,
            "the last flag byte of 66 is padding"
        ));
        assert!(!shows(
            &input,
            no_padding,
            "the last flag byte of 6D is padding"
        ));
    }
    let says = "A picture is a kind byte";
    assert!(shows(&set(Kind::FM, 0x04), says, "any padding (46)"));
    assert!(!shows(&set(Kind::FM, 0x08), says, "any padding (46)"));
    assert!(!shows(&set(Kind::MFM, 0x01), says, "any padding (46)"));
    assert!(shows(&set(Kind::MFM, 0x20), says, "any padding (4D)"));
}

#[test]
fn a_row_too_short_is_shown_by_the_longer_kinds() {
    let says = "The rows of every program";
    let shown_by = |does| {
        let kinds = Kind::ALL.into_iter();
        let such = kinds.filter(|&kind| shows(&gap_picture(kind), says, does));
        such.map(|kind| kind.byte).collect::<Vec<u8>>()
    };
    assert_eq!(shown_by("6,400"), [0x6D]);
    assert_eq!(shown_by("10,415"), [0x6D]);
    assert_eq!(shown_by("as many as 46 or 4D has"), [0x66, 0x6D]);
    let long = |place| picture_with_id(Kind::EIGHT_INCH_MFM, place);
    assert!(shows(&long(8189), says, "cells in 13 bits"));
    assert!(!shows(&long(8188), says, "cells in 13 bits"));
    assert!(shows(&long(9997), says, "cells of four digits"));
    assert!(!shows(&long(9996), says, "cells of four digits"));
}

#[test]
fn an_order_of_refusals_is_shown_where_there_are_two() {
    let says = "Lowest first";
    let mut side = gap_picture(Kind::FM);
    side[2] = 2;
    assert!(!shows(&side, says, "10 before 9"));
    assert!(shows(&side[..3000], says, "10 before 9"));
    assert!(!shows(&side[..2], says, "10 before 9"));
    assert!(shows(&[0x47], says, "9 before 8"));
    assert!(!shows(&[0x47; 3519], says, "9 before 8"));
    assert!(shows(&[], says, "8 before 9 where it is empty"));
    assert!(!shows(&[0x46], says, "8 before 9 where it is empty"));
}

#[test]
fn a_refusal_that_does_not_end_the_run_is_shown_by_what_follows() {
    let says = "A refusal prints";
    let mut side = gap_picture(Kind::EIGHT_INCH_FM);
    side[2] = 2;
    assert!(!shows(&side, says, "10 does not end it"));
    let input = [side, gap_picture(Kind::MFM)].concat();
    assert!(shows(&input, says, "10 does not end it"));
    assert!(!shows(&input, says, "nothing of pictures before it"));
    let input = [gap_picture(Kind::MFM), input].concat();
    assert!(shows(&input, says, "nothing of pictures before it"));
}

#[test]
fn ids_and_marks_at_the_ring_end_are_shown_there() {
    for kind in Kind::ALL {
        let says = "IDs by cell of FE";
        let size = field::id_length(kind.density);
        let at = |before| picture_with_id(kind, kind.length - before);
        assert!(!shows(&at(size), says, "not over the ring's end"));
        assert!(shows(&at(size - 1), says, "not over the ring's end"));
        let is_mfm = kind.density == Density::Mfm;
        assert_eq!(shows(&at(2), says, "not in the ring's first cells"), is_mfm);
        let mut cells = layout::id_cells(kind.density, [1, 0, 2, 3]);
        cells.extend(field::mark_cells(kind.density, 0xFB));
        let marked = |before| picture_with(kind, kind.length - before, &cells);
        let says = "data mark FB, F8";
        assert!(shows(
            &marked(cells.len() - 1),
            says,
            "not over the ring's end"
        ));
        assert!(!shows(
            &marked(cells.len()),
            says,
            "not over the ring's end"
        ));
    }
}

#[test]
fn no_row_stands_twice() {
    let rows = list_rows();
    let different: BTreeSet<_> = rows.iter().collect();
    assert_eq!(different.len(), rows.len());
}

fn run(arguments: &[&str]) -> Output {
    Command::new(COVERAGE_LIST)
        .args(arguments)
        .output()
        .expect("the program runs")
}

#[test]
fn the_program_counts_and_fails_where_too_few_inputs_show_a_list() {
    let output = run(&["0", "3"]);
    let text = String::from_utf8_lossy(&output.stdout).to_string();
    assert!(
        text.contains("\nThe list prints f and m as the kind.\n     "),
        "{}",
        text
    );
    let rows = list_rows().len();
    let end = format!("\n3 inputs, {rows} wrong lists, {rows} of them shown by fewer than 10\n");
    assert!(text.ends_with(&end), "{}", text);
    assert_eq!(output.status.code(), Some(1));
}

#[test]
fn the_inputs_of_the_gate_show_every_wrong_list() {
    let output = run(&["0", "300"]);
    let text = String::from_utf8_lossy(&output.stdout).to_string();
    assert!(
        text.ends_with(" 0 of them shown by fewer than 10\n"),
        "{}",
        text
    );
    assert_eq!(output.status.code(), Some(0));
}

#[test]
fn the_program_fails_without_its_arguments() {
    for arguments in [&["0"][..], &["0", "many"], &["0", "1", "2"]] {
        assert_eq!(run(arguments).status.code(), Some(2));
    }
}
