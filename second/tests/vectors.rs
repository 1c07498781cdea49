// Holds the stored CRC vectors to the computed ones, and the CRC to the cases of document 01.

use second::crc;
use second::vectors;

const STORED: &str = concat!(env!("CARGO_MANIFEST_DIR"), "/../crates/crc_vectors/stdout");

#[test]
fn the_stored_vectors_are_the_computed_ones() {
    let stored = std::fs::read_to_string(STORED).expect("the stored vectors are there");
    assert_eq!(stored, vectors::text());
}

#[test]
fn the_vectors_have_one_line_for_each_field() {
    let text = vectors::text();
    assert_eq!(text.lines().count(), 1 + 256 + 7 + 3 + 128);
    assert_eq!(text.lines().next(), Some("0000 FFFF"));
    assert!(text.lines().all(|line| line.len() == 9));
}

#[test]
fn the_crc_cases_of_document_01() {
    assert_eq!(crc::of_field(&[0xFE]), 0xEF21);
    assert_eq!(crc::of_field(&[0xFB]), 0xBF84);
    assert_eq!(crc::of_field(&[0xF8]), 0x8FE7);
    assert_eq!(crc::of_field(&[0xA1, 0xA1, 0xA1]), 0xCDB4);
    assert_eq!(crc::of_field(&[0xA1, 0xA1, 0xA1, 0xFE]), 0xB230);
    assert_eq!(crc::of_field(&[0xFE, 0x00, 0x00, 0x01, 0x00]), 0xD2C3);
}

#[test]
fn a_field_is_good_when_the_register_is_0_after_its_own_crc() {
    assert_eq!(crc::of_field(&[0xFE, 0, 0, 1, 0, 0xD2, 0xC3]), 0);
    assert_ne!(crc::of_field(&[0xFE, 0, 0, 1, 0, 0xD2, 0xC2]), 0);
}
