// The viewer: what it finds, in which order, and its refusals.

use second::bench;
use second::data_mark::DataMark;
use second::density::Density::{self, Fm, Mfm};
use second::field::{self, FLAG};
use second::layout;
use second::number;
use second::viewer::{self, View, Wanted};

const BOTH: [Density; 2] = [Fm, Mfm];

fn empty_side(density: Density) -> Vec<u16> {
    vec![layout::gap(density); 2048]
}

/// Lays sector 5 of track 3 at a place, 128 bytes, its data mark byte so many cells after the
/// ID.
fn put_sector(
    cells: &mut [u16],
    density: Density,
    place: usize,
    byte: u8,
    mark_at: usize,
) -> usize {
    let id = layout::id_cells(density, [3, 9, 5, 0]);
    let marks = field::mark_length(density);
    let field = layout::field_cells(density, 0xFB, &[byte; 128]);
    layout::put(cells, place, &id);
    let start = place + id.len() + mark_at - marks;
    layout::put(cells, start, &field);
    start + marks
}

fn find<'a>(side_0: &'a [u16], side_1: &'a [u16], density: Density) -> View<'a> {
    let wanted = Wanted {
        density,
        track: 3,
        sector: 5,
    };
    viewer::view(side_0, side_1, wanted)
}

fn assert_empty(view: View, number: u8) {
    assert_eq!((view.number, view.side), (number, 0));
    assert!(view.cells.is_empty());
}

#[test]
fn the_data_of_a_sector_is_a_part_of_its_side() {
    for density in BOTH {
        let empty = empty_side(density);
        let mut cells = empty_side(density);
        let data = put_sector(&mut cells, density, 100, 0x61, 20);
        let view = find(&cells, &empty, density);
        assert_eq!((view.number, view.side), (number::DONE, 0));
        assert_eq!(view.cells.as_ptr(), cells[data..].as_ptr());
        assert_eq!(view.cells, [0x61; 128]);
        let view = find(&empty, &cells, density);
        assert_eq!(
            (view.number, view.side, view.cells),
            (number::DONE, 1, &[0x61; 128][..])
        );
    }
}

#[test]
fn side_0_comes_before_side_1_and_the_lowest_cell_first() {
    let mut side_0 = empty_side(Fm);
    let mut side_1 = empty_side(Fm);
    put_sector(&mut side_1, Fm, 50, 0x11, 20);
    put_sector(&mut side_0, Fm, 900, 0x22, 20);
    assert_eq!(find(&side_0, &side_1, Fm).cells, [0x22; 128]);
    put_sector(&mut side_0, Fm, 600, 0x33, 20);
    assert_eq!(find(&side_0, &side_1, Fm).cells, [0x33; 128]);
}

#[test]
fn a_bad_id_or_data_crc_is_passed_over() {
    for density in BOTH {
        for spoilt in [105, 300] {
            let mut cells = empty_side(density);
            put_sector(&mut cells, density, 100, 0x11, 20);
            let id_byte = 100 + field::mark_length(density);
            let data = put_sector(&mut cells, density, 100, 0x11, 20);
            let place = if spoilt == 105 {
                id_byte + 1
            } else {
                data + 60
            };
            cells[place] ^= 4;
            put_sector(&mut cells, density, 900, 0x22, 20);
            assert_eq!(
                find(&cells, &empty_side(density), density).cells,
                [0x22; 128]
            );
        }
    }
}

#[test]
fn the_mark_must_be_in_its_window() {
    for (density, window) in [(Fm, 30), (Mfm, 43)] {
        let empty = empty_side(density);
        let mut cells = empty_side(density);
        put_sector(&mut cells, density, 100, 0x61, window);
        assert_eq!(find(&cells, &empty, density).number, number::DONE);
        let mut cells = empty_side(density);
        put_sector(&mut cells, density, 100, 0x61, window + 1);
        assert_empty(find(&cells, &empty, density), number::NO_SECTOR);
    }
}

#[test]
fn only_the_first_data_mark_counts() {
    for density in BOTH {
        let mut cells = empty_side(density);
        put_sector(&mut cells, density, 100, 0x61, 20);
        let place = 100 + field::id_length(density) + 2;
        layout::put(&mut cells, place, &field::mark_cells(density, 0xF8));
        assert_empty(
            find(&cells, &empty_side(density), density),
            number::NO_SECTOR,
        );
    }
}

#[test]
fn nothing_may_stand_past_the_last_cell() {
    for density in BOTH {
        let field = field::mark_length(density) + 128 + 2;
        let sector = field::id_length(density) + 10 + field;
        let mark_at = 10 + field::mark_length(density);
        for (place, expected) in [
            (2048 - sector, number::DONE),
            (2049 - sector, number::NO_SECTOR),
        ] {
            let mut cells = empty_side(density);
            put_sector(&mut cells, density, place, 0x61, mark_at);
            assert_eq!(find(&cells, &empty_side(density), density).number, expected);
        }
    }
}

#[test]
fn the_part_keeps_flags_and_the_side_byte_does_not_count() {
    let mut cells = empty_side(Fm);
    let data = put_sector(&mut cells, Fm, 100, 0x61, 20);
    cells[data + 7] += 256;
    let view = find(&cells, &[0; 2048], Fm);
    assert_eq!(view.number, number::DONE);
    assert_eq!(view.cells[6..9], [0x61, 0x161, 0x61]);
}

#[test]
fn deleted_records_are_found_too() {
    let mut cells = empty_side(Mfm);
    layout::put(&mut cells, 10, &layout::id_cells(Mfm, [3, 0, 5, 1]));
    layout::put(&mut cells, 30, &layout::field_cells(Mfm, 0xF8, &[7; 256]));
    assert_eq!(find(&cells, &empty_side(Mfm), Mfm).cells, [7; 256]);
}

/// Sector 5 of track 3 with 128 bytes 61, its mark byte so many cells after the ID.
fn side_with_mark(density: Density, mark: u8, mark_at: usize) -> Vec<u16> {
    let mut cells = empty_side(density);
    let id = layout::id_cells(density, [3, 0, 5, 0]);
    layout::put(&mut cells, 100, &id);
    let place = 100 + id.len() + mark_at - field::mark_length(density);
    layout::put(
        &mut cells,
        place,
        &layout::field_cells(density, mark, &[0x61; 128]),
    );
    cells
}

/// The number and the cells that the viewer gives for a side.
fn viewed(cells: &[u16], density: Density) -> (u8, Vec<u16>) {
    let empty = empty_side(density);
    let [first, second] = [find(cells, &empty, density), find(&empty, cells, density)];
    assert_eq!((first.number, first.cells), (second.number, second.cells));
    (first.number, first.cells.to_vec())
}

#[test]
fn of_all_marks_those_of_the_density_begin_a_record() {
    let fm = &[0xF8, 0xF9, 0xFA, 0xFB][..];
    for (density, data_marks) in [(Fm, fm), (Mfm, &[0xF8, 0xFB])] {
        for byte in 0..=255 {
            let (number, cells) = viewed(&side_with_mark(density, byte, 20), density);
            if data_marks.contains(&byte) {
                assert_eq!((number, cells), (number::DONE, vec![0x61; 128]));
            } else {
                assert_eq!((number, cells), (number::NO_SECTOR, Vec::new()));
            }
        }
    }
}

#[test]
fn in_fm_each_data_mark_must_be_in_its_window() {
    for mark in DataMark::ALL.map(DataMark::byte) {
        let at_end = side_with_mark(Fm, mark, 30);
        assert_eq!(viewed(&at_end, Fm).0, number::DONE);
        let past_end = side_with_mark(Fm, mark, 31);
        assert_eq!(viewed(&past_end, Fm).0, number::NO_SECTOR);
    }
}

#[test]
fn the_data_crc_starts_with_the_mark_met() {
    for density in BOTH {
        for mark in DataMark::of_density(density) {
            for under_crc in DataMark::ALL {
                let mut cells = side_with_mark(density, under_crc.byte(), 20);
                let place = 100 + field::id_length(density) + 20 - 1;
                cells[place] = cells[place] / FLAG * FLAG + u16::from(mark.byte());
                let found = viewed(&cells, density).0 == number::DONE;
                assert_eq!(found, *mark == under_crc);
            }
        }
    }
}

#[test]
fn in_fm_the_first_of_the_four_counts() {
    for first in DataMark::ALL.map(DataMark::byte) {
        for second in DataMark::ALL.map(DataMark::byte) {
            let mut cells = side_with_mark(Fm, second, 20);
            cells[107 + 4] = FLAG + u16::from(first);
            assert_eq!(viewed(&cells, Fm).0, number::NO_SECTOR);
            let mut data = [0x61; 128];
            data[7] = second;
            let field = layout::field_cells(Fm, first, &data);
            layout::put(&mut cells, 107 + 4, &field);
            cells[107 + 5 + 7] += FLAG;
            assert_eq!(viewed(&cells, Fm).1, cells[107 + 5..107 + 5 + 128]);
        }
    }
}

#[test]
fn in_mfm_f9_and_fa_are_passed_over_for_what_follows() {
    for other in [0xF9, 0xFA] {
        for mark in [0xF8, 0xFB] {
            let mut cells = side_with_mark(Mfm, mark, 43);
            layout::put(&mut cells, 110 + 8, &field::mark_cells(Mfm, other));
            assert_eq!(viewed(&cells, Mfm), (number::DONE, vec![0x61; 128]));
        }
    }
}

#[test]
fn each_side_must_have_a_length_in_range_first_of_all() {
    let good = vec![0xFF; 2048];
    for length in [0, 2047, 10_417] {
        let bad = vec![0x200; length];
        assert_empty(find(&bad, &good, Fm), number::LENGTH);
        assert_empty(find(&good, &bad, Fm), number::LENGTH);
    }
    for length in [2048, 6400, 6401, 10_416] {
        let long = vec![0xFF; length];
        assert_empty(find(&long, &good, Fm), number::NO_SECTOR);
        assert_empty(find(&good, &long, Fm), number::NO_SECTOR);
    }
}

#[test]
fn a_sector_is_found_up_to_the_last_cell_of_the_longest_side() {
    for density in BOTH {
        let field = field::mark_length(density) + 128 + 2;
        let mark_at = 10 + field::mark_length(density);
        let last = 10_416 - field::id_length(density) - 10 - field;
        let empty = vec![layout::gap(density); 2048];
        for (place, found) in [(6390, true), (8180, true), (last, true), (last + 1, false)] {
            let mut cells = vec![layout::gap(density); 10_416];
            put_sector(&mut cells, density, place, 0x61, mark_at);
            let number = if found {
                number::DONE
            } else {
                number::NO_SECTOR
            };
            assert_eq!(find(&cells, &empty, density).number, number);
            let view = find(&empty, &cells, density);
            assert_eq!((view.number, view.side), (number, u8::from(found)));
        }
    }
}

#[test]
fn the_last_cell_of_the_longest_side_is_looked_at() {
    let good = vec![0x1FF; 10_416];
    let mut bad = good.clone();
    bad[10_415] = 512;
    assert_empty(find(&bad, &good, Fm), number::CELL);
    assert_empty(find(&good, &bad, Fm), number::CELL);
    assert_empty(find(&good, &good, Fm), number::NO_SECTOR);
}

#[test]
fn any_cell_above_511_is_4() {
    let good = vec![0x1FF; 2048];
    let mut bad = good.clone();
    bad[2047] = 512;
    assert_empty(find(&bad, &good, Fm), number::CELL);
    assert_empty(find(&good, &bad, Fm), number::CELL);
    assert_empty(find(&good, &good, Fm), number::NO_SECTOR);
}

#[test]
fn line_q_prints_the_number_the_count_and_the_cells() {
    let id = "C 64 1FE 0 0 1 0 D2 C3\n";
    let mut script = format!("P 0 800\n{}C 70 1FB\n", id);
    script.push_str("F 71 80 0\nQ 0 0 1\nQ 0 0 100\n");
    let printed = bench::run(script.as_bytes());
    let text = String::from_utf8_lossy(&printed).to_string();
    assert!(text.ends_with("F\nQ 0B 0000\nerror 6\n"));
    let field = layout::field_cells(Fm, 0xFB, &[0; 128]);
    let script = format!(
        "P 0 800\n{}C 70 1FB\nF 71 80 0\nC F1 {:X} {:X}\nU\nQ 0 0 1\n",
        id, field[129], field[130]
    );
    let printed = bench::run(script.as_bytes());
    let expected = format!("U\nQ 00 0080{}\n", " 0000".repeat(128));
    assert!(String::from_utf8_lossy(&printed).ends_with(&expected));
}
