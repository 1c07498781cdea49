// Holds the stored output of the cases of document 01 to what this implementation gives.

use second::bench;

const SCRIPT: &str = concat!(env!("CARGO_MANIFEST_DIR"), "/../crates/bench/stdin");
const STORED: &str = concat!(env!("CARGO_MANIFEST_DIR"), "/../crates/bench/stdout");

#[test]
fn the_stored_cases_are_the_computed_ones() {
    let script = std::fs::read(SCRIPT).expect("the script of the cases is there");
    let stored = std::fs::read(STORED).expect("their stored output is there");
    assert!(!stored.is_empty());
    assert_eq!(
        String::from_utf8_lossy(&bench::run(&script)),
        String::from_utf8_lossy(&stored)
    );
}
