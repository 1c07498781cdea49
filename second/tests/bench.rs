// The bench language: its example, every line, and bad scripts of every kind.

use second::bench;
use second::session::Session;

fn printed(script: &str) -> String {
    String::from_utf8(bench::run(script.as_bytes())).expect("the bench prints text")
}

/// What the last line of a script prints.
fn last_line(script: &str) -> String {
    printed(script).lines().last().unwrap_or("").to_string()
}

#[test]
fn the_example() {
    let script = "P 0 800\nN 9\nC 64 1FE 0 0 1 0 D2 C3\nW 2 1\nW 0 80\nG FFFF\n";
    let expected = "P 00 | 80 00 01 00 0 0 0000\n\
                    N | 00 00 01 00 0 0 0000\n\
                    C\n\
                    W 00 | 00 00 01 00 0 0 0000\n\
                    W 00 | 01 00 01 00 0 0 0000\n\
                    G 00 0089 0000 0000 | 10 00 01 00 0 1 0089\n";
    assert_eq!(printed(script), expected);
}

#[test]
fn an_empty_script_prints_nothing() {
    assert_eq!(printed(""), "");
    assert_eq!(printed("\n\n"), "");
}

#[test]
fn comments_and_empty_lines_are_skipped_and_counted() {
    assert_eq!(printed("# one\n\n   \n  # four\nU\nz\n"), "U\nerror 6\n");
    assert_eq!(printed("U# behind\n"), "U\n");
    assert_eq!(printed("F 0 1 12# behind\nV 0 1"), "F\nV 0012\n");
}

#[test]
fn the_last_line_may_end_with_the_input() {
    assert_eq!(printed("U"), "U\n");
}

#[test]
fn spaces_may_stand_before_between_and_behind() {
    assert_eq!(printed("   F   0  1   aB   \nV 0 1\n"), "F\nV 00AB\n");
}

#[test]
fn numbers_have_one_to_four_digits_of_either_case() {
    assert_eq!(last_line("F 0000 1 beEF\nV 0 1"), "V BEEF");
    assert_eq!(printed("F 00000 1 0\n"), "error 1\n");
    assert_eq!(printed("F 0 1 12345\n"), "error 1\n");
}

#[test]
fn bytes_that_no_line_holds_are_errors() {
    for bad in [
        "\tU",
        "U\t",
        "\rU",
        "U\r ",
        "U\r\r",
        "U\r# a comment",
        "F 0\r1 1",
        "u",
        "UU",
        "F0 1 1",
        "F 0 1 G",
        "F 0 1 +1",
        "F 0 1 -1",
        "F 0 1 0x1",
        "\u{e9}",
        "U \u{0}",
        "9",
    ] {
        assert_eq!(printed(&format!("U\n{}\nU\n", bad)), "U\nerror 2\n");
    }
}

#[test]
fn a_carriage_return_before_a_newline_belongs_to_the_lines_end() {
    assert_eq!(printed("F 0 1 12\r\nV 0 1\r\nU \r\n"), "F\nV 0012\nU\n");
    assert_eq!(printed("\r\n  \r\n# one\r\nU# two\r\nU\n"), "U\nU\n");
    assert_eq!(printed("\r\nU\r\nz\r\n"), "U\nerror 3\n");
}

#[test]
fn a_carriage_return_at_the_end_of_the_input_is_an_error() {
    assert_eq!(printed("U\nU\r"), "U\nerror 2\n");
    assert_eq!(printed("U\r\n\r"), "U\nerror 2\n");
}

#[test]
fn a_comment_may_hold_carriage_returns() {
    assert_eq!(printed("U# \r \r\r\nU#\r"), "U\nU\n");
}

#[test]
fn a_script_may_come_in_any_pieces() {
    let script = b"N 9\r\n\n# \r\nF 0 1 12\nV 0 1\r\nB\r";
    let whole = bench::run(script);
    assert!(whole.ends_with(b"V 0012\nerror 6\n"));
    for cut in 0..=script.len() {
        let mut session = Session::default();
        let mut pieces = session.take(&script[..cut]);
        pieces.push_str(&session.take(&script[cut..]));
        pieces.push_str(&session.end());
        assert_eq!(pieces.as_bytes(), whole, "cut at {}", cut);
    }
}

#[test]
fn bytes_that_are_no_text_are_errors_too() {
    assert_eq!(bench::run(&[b'U', b'\n', 0xFF, b'\n']), b"U\nerror 2\n");
}

#[test]
fn unknown_letters_are_errors() {
    for letter in "ADEHIJLMOSTZ".chars() {
        assert_eq!(printed(&format!("{}\n", letter)), "error 1\n");
    }
}

#[test]
fn missing_and_extra_numbers_are_errors() {
    let counts = [
        ("P", 2..=3),
        ("N", 1..=1),
        ("W", 2..=2),
        ("R", 1..=1),
        ("B", 0..=0),
        ("G", 1..=1),
        ("X", 1..=1),
        ("Y", 1..=1),
    ];
    let rows = [
        ("K", 1..=1),
        ("F", 3..=3),
        ("V", 2..=2),
        ("U", 0..=0),
        ("Q", 3..=3),
    ];
    for (letter, taken) in counts.iter().chain(rows.iter()) {
        for given in 0..5 {
            let line = format!("{}{}", letter, " 1".repeat(given));
            let is_error = printed(&line) == "error 1\n";
            assert_eq!(is_error, !taken.contains(&given), "{}", line);
        }
    }
}

#[test]
fn bytes_registers_lines_and_densities_have_their_limits() {
    for bad in [
        "W 100 0",
        "W 0 100",
        "R 100",
        "N 10",
        "P 2 800",
        "P 0 800 2",
        "P 0 7FF FFFF",
        "Q 2 0 1",
    ] {
        assert_eq!(printed(bad), "error 1\n");
    }
    assert_eq!(printed("W FF FF"), "W 05 | 80 00 01 00 0 0 0000\n");
    assert_eq!(printed("R 4"), "R 05 00 | 80 00 01 00 0 0 0000\n");
}

#[test]
fn power_on_keeps_the_lines_and_makes_new_rows() {
    let script = "N F\nF 0 800 1\nU\nP 1 802\nV 801 1\nU\nV 801 1\n";
    let expected =
        "N | 44 00 01 00 0 0 0000\nF\nU\nP 00 | 44 00 01 00 0 0 0000\nV 004E\nU\nV 004E\n";
    assert_eq!(printed(script), expected);
}

#[test]
fn a_refused_power_on_keeps_the_rows() {
    let script = "P 1 900\nP 1 7FF\nV 8FF 1\nB\nP 1 28B1\nP 1 FFFF\n";
    let state = "| 80 00 01 00 0 0 0000";
    let expected = format!(
        "P 00 {0}\nP 01 {0}\nV 004E\nB 03 00 {0}\nP 01 {0}\nP 01 {0}\n",
        state
    );
    assert_eq!(printed(script), expected);
}

#[test]
fn before_the_first_power_on_the_machine_is_a_1793() {
    assert_eq!(printed("W 0 C2"), "W 07 | 80 00 01 00 0 0 0000\n");
}

#[test]
fn power_on_names_the_chip_or_leaves_the_1793_unnamed() {
    for (line, expected) in [
        ("P 1 800", "P 00 | 80 00 01 00 0 0 0000\n"),
        ("P 1 800 0", "P 00 | 80 00 01 00 0 0 0000\n"),
        ("P 1 800 1", "P 00 | 80 00 01 00 0 0 0000 0\n"),
        ("P 1 7FF 0", "P 01 | 80 00 01 00 0 0 0000\n"),
        ("P 1 7FF 1", "P 01 | 80 00 01 00 0 0 0000 0\n"),
    ] {
        assert_eq!(printed(line), expected);
        assert_eq!(
            last_line(&format!("P 0 900 1\nW 0 C2\n{}", line)),
            expected.trim_end()
        );
    }
}

#[test]
fn every_state_of_a_1797_ends_with_the_side_output() {
    let script = "P 0 800 1\nN 9\nW 0 C2\nR 1\nW 0 D0\nB\nG 2\nX 5\nY 900\nY 800\nV 0 1\nW 0 C0\n";
    let expected = "P 00 | 80 00 01 00 0 0 0000 0\n\
                    N | 00 00 01 00 0 0 0000 0\n\
                    W 00 | 01 00 01 00 0 0 0000 1\n\
                    R 00 00 | 01 00 01 00 0 0 0000 1\n\
                    W 00 | 00 00 01 00 0 0 0000 1\n\
                    B 00 00 | 00 00 01 00 0 0 0001 1\n\
                    G 00 0002 0000 0000 | 00 00 01 00 0 0 0003 1\n\
                    X | 00 00 01 00 0 0 0005 1\n\
                    Y | 00 00 01 00 0 0 0005 1\n\
                    Y | 00 00 01 00 0 0 0005 1\n\
                    V 00FF\n\
                    W 00 | 01 00 01 00 0 0 0005 0\n";
    assert_eq!(printed(script), expected);
}

#[test]
fn the_example_of_two_sides_reads_a_sector_of_each() {
    let path = concat!(env!("CARGO_MANIFEST_DIR"), "/../examples/two-sided.bench");
    let script = std::fs::read_to_string(path).expect("the example is there");
    let output = printed(&script);
    assert_eq!(output.matches("\nR 00 B1 | ").count(), 128);
    assert_eq!(output.matches("\nR 00 A0 | ").count(), 128);
    assert!(output.contains("\nR 00 10 | 10 00 01 A0 0 0 0001 1\n"));
    assert!(!output.contains("error"));
}

#[test]
fn byte_times_and_runs_report_pulses() {
    assert_eq!(last_line("W 0 40\nB"), "B 00 01 | 83 00 01 00 0 0 0001");
    assert_eq!(last_line("W 0 60\nB"), "B 00 02 | 83 00 01 00 0 0 0001");
    assert_eq!(last_line("B"), "B 00 00 | 82 00 01 00 0 0 0001");
    let seek = "W 3 3\nW 0 10\nG FFFF";
    assert_eq!(
        last_line(seek),
        "G 00 011B 0003 0000 | 80 03 01 03 0 1 011B"
    );
}

#[test]
fn position_and_length_may_be_anything() {
    assert_eq!(
        printed("X FFFF\nR 0\n"),
        "X | 00 00 01 00 0 0 FFFF\nR 02 00 | 00 00 01 00 0 0 FFFF\n"
    );
    assert_eq!(last_line("Y 7FF\nW 0 0"), "W 02 | 00 00 01 00 0 0 0000");
    assert_eq!(
        last_line("Y 900\nG 0"),
        "G 03 0000 0000 0000 | 80 00 01 00 0 0 0000"
    );
}

#[test]
fn rows_grow_with_0000_and_have_room_for_10416() {
    assert_eq!(last_line("K 802\nV 7FF 3"), "V 00FF 0000 0000");
    assert_eq!(last_line("K 10\nK 12\nV F 3"), "V 00FF 0000 0000");
    for taken in ["K 1900", "K 1901", "K 28B0"] {
        assert_eq!(printed(taken), "K\n");
    }
    assert_eq!(printed("K 28B1"), "error 1\n");
    assert_eq!(last_line("K 28B0\nU\nK 28B0\nU\nK 28B1"), "error 5");
    assert_eq!(last_line("K 0\nV 0 0"), "V");
}

#[test]
fn places_past_the_row_are_errors() {
    for bad in [
        "F 7FF 2 0",
        "F 800 1 0",
        "V 7FF 2",
        "V FFFF FFFF",
        "C 7FF 1 2",
        "C 800 1",
    ] {
        assert_eq!(printed(bad), "error 1\n");
    }
    for good in ["F 7FF 1 0", "F 0 0 0", "V 0 0", "C 7FE 1 2"] {
        assert_ne!(printed(good), "error 1\n");
    }
}

#[test]
fn the_last_cells_of_the_longest_rows_are_there() {
    for begin in ["K 28B0", "P 0 28B0"] {
        let at_end = format!("{}\nF 28AE 2 17\nC 28AF 18\nV 28AE 2\nV 28B0 0", begin);
        assert!(printed(&at_end).ends_with("F\nC\nV 0017 0018\nV\n"));
        assert!(printed(&format!("{}\nF 0 28B0 5\nV 28AF 1", begin)).ends_with("V 0005\n"));
        for bad in [
            "F 28AF 2 0",
            "F 0 28B1 0",
            "V 28B0 1",
            "V 0 28B1",
            "C 28B0 1",
        ] {
            assert_eq!(last_line(&format!("{}\n{}", begin, bad)), "error 2");
        }
    }
}

#[test]
fn a_ring_has_10416_cells_at_most() {
    let state = "| 80 00 01 00 0 0 0000";
    assert_eq!(printed("P 1 28B0"), format!("P 00 {}\n", state));
    assert_eq!(printed("P 1 28B1"), format!("P 01 {}\n", state));
    assert_eq!(
        last_line("P 1 28B0\nX 28AF\nB"),
        format!("B 00 00 {}", state)
    );
    assert_eq!(
        last_line("P 1 28B0\nX 28B0\nB"),
        "B 02 00 | 00 00 01 00 0 0 28B0"
    );
    assert_eq!(
        last_line("K 28B0\nY 28B0\nB"),
        "B 00 00 | 82 00 01 00 0 0 0001"
    );
    assert_eq!(
        last_line("K 28B0\nY 28B1\nB"),
        "B 02 00 | 00 00 01 00 0 0 0000"
    );
}

#[test]
fn c_names_1_to_64_cells() {
    assert_eq!(printed("C 0"), "error 1\n");
    assert_eq!(printed(&format!("C 0{}", " 1FE".repeat(64))), "C\n");
    assert_eq!(printed(&format!("C 0{}", " 1FE".repeat(65))), "error 1\n");
}

#[test]
fn lines_before_an_error_stay_carried_out() {
    assert_eq!(printed("B\nB\nB 1\nB\n").lines().count(), 3);
    assert_eq!(last_line("B\nB\nB 1\nB\n"), "error 3");
}
