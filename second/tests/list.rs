// Pictures and the list program: document 01's example, one test for each rule, and the inputs.

use second::data_mark::DataMark;
use second::density::Density::{self, Fm, Mfm};
use second::field;
use second::layout;
use second::list;
use second::number;
use second::picture::{self, Kind, PictureAnswer};
use second::pictures;

const UNTOUCHED: u16 = 0xAAAA;
/// As many inputs as the gate compares.
const SEEDS: u64 = 300;

fn empty_cells(kind: Kind) -> Vec<u16> {
    vec![0xFF; kind.length]
}

fn empty_picture(kind: Kind) -> Vec<u8> {
    pictures::picture(kind, 7, 1, &empty_cells(kind))
}

/// The list of one picture with these cells.
fn listed(kind: Kind, cells: &[u16]) -> String {
    list::text(&pictures::picture(kind, 0, 0, cells))
}

#[test]
fn the_example_of_document_01() {
    let mut bytes = vec![0x46, 0, 0];
    bytes.resize(3 + 3125, 0xFF);
    bytes[3 + 100..3 + 107].copy_from_slice(&[0xFE, 0x00, 0x00, 0x01, 0x00, 0xD2, 0xC3]);
    bytes.resize(1 + 3518, 0);
    bytes[3 + 3125 + 12] = 0x08;
    assert_eq!(
        list::text(&bytes),
        "F 00 0\n100 00 00 01 00 good none\nids 1\n"
    );
    // The proved list is tried on the same picture: the example, and the first of its stored ones.
    let example = include_bytes!("../../examples/one-id.picture");
    let stored = include_bytes!("../../crates/list/stdin");
    assert!(bytes == example[..] && bytes == stored[..bytes.len()]);
}

/// "46 FM, L 3,125, body 3,518; 4D MFM, L 6,250, body 7,034"; "66 FM, 5,208 cells, body 5,861; 6D
/// MFM, 10,416 cells, body 11,720".
#[test]
fn the_four_kinds_have_the_lengths_and_bodies_of_the_documents() {
    let kinds = [
        (0x46, Fm, 3125, 3518, 0x07),
        (0x4D, Mfm, 6250, 7034, 0x3F),
        (0x66, Fm, 5208, 5861, 0x00),
        (0x6D, Mfm, 10_416, 11_720, 0x00),
    ];
    for (kind, (byte, density, length, body, padding)) in Kind::ALL.into_iter().zip(kinds) {
        assert_eq!(Kind::of_byte(byte), Some(kind));
        assert_eq!((kind.byte, kind.density), (byte, density));
        assert_eq!((kind.length, kind.body), (length, body));
        assert_eq!(body, 2 + length + (length + 7) / 8);
        assert_eq!(
            (kind.flag_bytes(), kind.padding()),
            ((length + 7) / 8, padding)
        );
        assert_eq!(empty_picture(kind).len(), 1 + body);
    }
}

#[test]
fn every_byte_but_the_four_is_8() {
    let kinds: Vec<u8> = (0..=255)
        .filter(|&it| Kind::of_byte(it).is_some())
        .collect();
    assert_eq!(kinds, [0x46, 0x4D, 0x66, 0x6D]);
    for byte in (0..=255).filter(|byte| !kinds.contains(byte)) {
        let bytes = [&[byte][..], &[0; 11_720]].concat();
        assert_refused(&bytes, 10_416, number::KIND);
        assert_eq!(list::text(&bytes), "refused 8\n");
        assert_eq!(list::text(&[byte]), "refused 8\n");
    }
}

#[test]
fn the_list_prints_a_letter_for_each_kind() {
    for (kind, letter) in Kind::ALL.into_iter().zip(["F", "M", "f", "m"]) {
        let text = list::text(&empty_picture(kind));
        assert_eq!(text, format!("{} 07 1\nids 0\n", letter));
    }
}

#[test]
fn the_reader_takes_bytes_flags_track_and_side() {
    for kind in Kind::ALL {
        let cells: Vec<u16> = (0..kind.length).map(|i| (i * 37 % 512) as u16).collect();
        let bytes = pictures::picture(kind, 0x2A, 1, &cells);
        let mut room = vec![UNTOUCHED; kind.length];
        let answer = picture::read(&bytes, &mut room);
        assert_eq!(
            (answer.number, answer.track, answer.side),
            (number::DONE, 0x2A, 1)
        );
        assert_eq!(room, cells);
    }
}

#[test]
fn the_reader_leaves_room_and_bytes_beyond_the_picture() {
    for kind in Kind::ALL {
        let mut bytes = empty_picture(kind);
        bytes.extend([0xEE; 100]);
        let mut room = vec![UNTOUCHED; kind.length + 75];
        assert_eq!(picture::read(&bytes, &mut room).number, number::DONE);
        assert_eq!(room[..kind.length], empty_cells(kind));
        assert_eq!(room[kind.length..], [UNTOUCHED; 75]);
    }
}

/// A picture read into room for so many cells must be refused with this number.
fn assert_refused(bytes: &[u8], room: usize, number: u8) {
    let mut cells = vec![UNTOUCHED; room];
    let refused = PictureAnswer {
        number,
        track: 0,
        side: 0,
    };
    assert_eq!(picture::read(bytes, &mut cells), refused);
    assert!(cells.iter().all(|&cell| cell == UNTOUCHED));
}

#[test]
fn the_reader_refuses_in_its_own_order() {
    for kind in Kind::ALL {
        let mut bytes = empty_picture(kind);
        let last = bytes.len() - 1;
        bytes[2] = 2;
        bytes[last] = 1;
        let wrong_kind = [&[0x47], &bytes[1..last]].concat();
        assert_refused(&[], 0, number::CUT);
        assert_refused(&wrong_kind, 0, number::KIND);
        assert_refused(&bytes[..last], 0, number::CUT);
        assert_refused(&bytes[..1], 0, number::CUT);
        assert_refused(&bytes, kind.length - 1, number::ROOM);
        assert_refused(&bytes, kind.length, number::SIDE_OR_PADDING);
    }
}

#[test]
fn a_side_above_1_is_10() {
    for kind in Kind::ALL {
        for side in [2, 3, 0x80, 0xFF] {
            let mut bytes = empty_picture(kind);
            bytes[2] = side;
            assert_refused(&bytes, kind.length, number::SIDE_OR_PADDING);
        }
    }
}

#[test]
fn each_padding_bit_is_10_and_each_flag_bit_is_taken() {
    for (kind, padding_bits) in Kind::ALL.into_iter().zip([3, 6, 0, 0]) {
        for bit in 0..8 {
            let mut bytes = empty_picture(kind);
            let last = bytes.len() - 1;
            bytes[last] |= 1 << bit;
            let mut room = empty_cells(kind);
            let answer = picture::read(&bytes, &mut room);
            if bit < padding_bits {
                assert_eq!(answer.number, number::SIDE_OR_PADDING);
                assert_eq!(room, empty_cells(kind));
            } else {
                let mut flagged = empty_cells(kind);
                flagged[kind.length + padding_bits - 1 - bit] += field::FLAG;
                assert_eq!(answer.number, number::DONE);
                assert_eq!(room, flagged);
            }
        }
    }
}

#[test]
fn the_last_eight_cells_of_an_8_inch_picture_may_be_flagged() {
    for kind in [Kind::EIGHT_INCH_FM, Kind::EIGHT_INCH_MFM] {
        let mut cells = empty_cells(kind);
        let last_eight = kind.length - 8..;
        for cell in &mut cells[last_eight.clone()] {
            *cell += field::FLAG;
        }
        let bytes = pictures::picture(kind, 0, 0, &cells);
        assert_eq!(bytes[kind.body - 1..], [0x00, 0xFF]);
        let mut room = vec![UNTOUCHED; kind.length];
        assert_eq!(picture::read(&bytes, &mut room).number, number::DONE);
        assert_eq!(room[last_eight], [0x1FF; 8]);
        assert_eq!(room, cells);
    }
}

#[test]
fn only_wholly_empty_input_is_9_at_a_picture_start() {
    assert_eq!(list::text(&[]), "refused 9\n");
    assert_eq!(list::text(&empty_picture(Kind::FM)), "F 07 1\nids 0\n");
}

#[test]
fn pictures_of_all_kinds_follow_one_another() {
    let kinds = Kind::ALL.into_iter();
    for (first, second) in kinds.flat_map(|kind| Kind::ALL.map(|next| (kind, next))) {
        let both = [empty_picture(first), empty_picture(second)].concat();
        let printed = [first, second].map(|kind| format!("{} 07 1\nids 0\n", kind.letter));
        assert_eq!(list::text(&both), printed.concat());
        let cut = &both[..both.len() - 1];
        assert_eq!(list::text(cut), format!("{}refused 9\n", printed[0]));
    }
}

/// "Pictures 46 and 4D stay byte for byte": a body of one kind after the byte of another is cut, or
/// what is too much of it is the next picture's start.
#[test]
fn the_body_of_another_kind_is_cut_or_has_too_many_bytes() {
    for kind in Kind::ALL {
        for other in Kind::ALL.into_iter().filter(|&other| other != kind) {
            let mut bytes = vec![0; 1 + other.body];
            bytes[0] = kind.byte;
            let printed = match other.body < kind.body {
                true => "refused 9\n".to_string(),
                false => format!("{} 00 0\nids 0\nrefused 8\n", kind.letter),
            };
            assert_eq!(list::text(&bytes), printed);
        }
    }
}

#[test]
fn pictures_before_a_refused_one_stay_printed() {
    let good = empty_picture(Kind::MFM);
    let printed = "M 07 1\nids 0\n";
    let twice = [&good[..], &good[..]].concat();
    assert_eq!(list::text(&twice), printed.repeat(2));
    for (tail, number) in [(&[0x00][..], 8), (&[0x46][..], 9), (&good[..7034], 9)] {
        let input = [&good[..], tail].concat();
        assert_eq!(
            list::text(&input),
            format!("{}refused {}\n", printed, number)
        );
    }
}

#[test]
fn a_picture_with_side_2_is_refused_10() {
    let mut bytes = empty_picture(Kind::FM);
    bytes[2] = 2;
    assert_eq!(list::text(&bytes), "refused 10\n");
}

#[test]
fn ids_are_listed_by_their_fe_round_the_ring() {
    let mut fm = empty_cells(Kind::FM);
    layout::put(&mut fm, 3122, &layout::id_cells(Fm, [1, 0, 2, 3]));
    layout::put(&mut fm, 500, &layout::id_cells(Fm, [0xAB, 1, 0xCD, 0xEF]));
    let expected = "F 00 0\n500 AB 01 CD EF good none\n3122 01 00 02 03 good none\nids 2\n";
    assert_eq!(listed(Kind::FM, &fm), expected);
    let mut mfm = empty_cells(Kind::MFM);
    layout::put(&mut mfm, 6248, &layout::id_cells(Mfm, [1, 0, 2, 3]));
    layout::put(&mut mfm, 500, &layout::id_cells(Mfm, [4, 1, 5, 6]));
    let expected = "M 00 0\n1 01 00 02 03 good none\n503 04 01 05 06 good none\nids 2\n";
    assert_eq!(listed(Kind::MFM, &mfm), expected);
}

#[test]
fn ids_of_8_inch_pictures_are_listed_up_to_their_last_cell() {
    let mut fm = empty_cells(Kind::EIGHT_INCH_FM);
    layout::put(&mut fm, 5207, &layout::id_cells(Fm, [1, 0, 2, 3]));
    layout::put(&mut fm, 4000, &layout::id_cells(Fm, [4, 1, 5, 6]));
    let expected = "f 00 0\n4000 04 01 05 06 good none\n5207 01 00 02 03 good none\nids 2\n";
    assert_eq!(listed(Kind::EIGHT_INCH_FM, &fm), expected);
    let mut mfm = empty_cells(Kind::EIGHT_INCH_MFM);
    for place in [6396, 8188, 9997, 10_412] {
        layout::put(&mut mfm, place, &layout::id_cells(Mfm, [1, 0, 2, 3]));
    }
    layout::put(&mut mfm, 6, &field::mark_cells(Mfm, 0xF8));
    let id = "01 00 02 03 good";
    let expected = format!(
        "m 00 0\n6399 {0} none\n8191 {0} none\n10000 {0} none\n10415 {0} F8\nids 4\n",
        id
    );
    assert_eq!(listed(Kind::EIGHT_INCH_MFM, &mfm), expected);
}

#[test]
fn as_many_ids_are_listed_as_a_picture_can_hold() {
    for (kind, count) in Kind::ALL.into_iter().zip([446, 625, 744, 1041]) {
        let id = layout::id_cells(kind.density, [0xAB, 1, 0xCD, 0xEF]);
        let mut cells = empty_cells(kind);
        for index in 0..count {
            layout::put(&mut cells, index * id.len(), &id);
        }
        let text = listed(kind, &cells);
        assert_eq!(text.lines().count(), 1 + count + 1);
        assert_eq!(text.matches(" AB 01 CD EF good none\n").count(), count);
        assert!(text.ends_with(&format!("\nids {}\n", count)));
    }
}

#[test]
fn a_data_mark_may_stand_over_the_ring_end() {
    let mut cells = empty_cells(Kind::MFM);
    layout::put(&mut cells, 6230, &layout::id_cells(Mfm, [1, 0, 2, 3]));
    layout::put(&mut cells, 6248, &field::mark_cells(Mfm, 0xF8));
    assert_eq!(
        listed(Kind::MFM, &cells),
        "M 00 0\n6233 01 00 02 03 good F8\nids 1\n"
    );
}

#[test]
fn the_data_mark_is_told_even_if_the_crc_is_bad() {
    let mut cells = empty_cells(Kind::FM);
    layout::put(&mut cells, 40, &layout::id_cells(Fm, [1, 0, 2, 3]));
    cells[46] ^= 1;
    cells[60] = 0x1FB;
    cells[61] = 0x1F8;
    assert_eq!(
        listed(Kind::FM, &cells),
        "F 00 0\n40 01 00 02 03 bad FB\nids 1\n"
    );
}

#[test]
fn the_data_mark_must_be_in_its_window() {
    for (place, name) in [(46 + 30, "FB"), (46 + 31, "none")] {
        let mut cells = empty_cells(Kind::FM);
        layout::put(&mut cells, 40, &layout::id_cells(Fm, [1, 0, 2, 3]));
        cells[place] = 0x1FB;
        let expected = format!("F 00 0\n40 01 00 02 03 good {}\nids 1\n", name);
        assert_eq!(listed(Kind::FM, &cells), expected);
    }
}

/// What the list prints as the data mark of an ID whose last cell is 46, where these marks stand: for
/// each its byte, and how many cells its byte is after the ID.
fn listed_mark(density: Density, marks: &[(u8, usize)]) -> String {
    let kinds = Kind::ALL.into_iter();
    let names = kinds
        .filter(|kind| kind.density == density)
        .map(|kind| listed_mark_of(kind, marks));
    let names: Vec<String> = names.collect();
    assert_eq!(names[0], names[1]);
    names[0].clone()
}

/// The same in a picture of this kind.
fn listed_mark_of(kind: Kind, marks: &[(u8, usize)]) -> String {
    let density = kind.density;
    let mut cells = empty_cells(kind);
    let id = layout::id_cells(density, [1, 0, 2, 3]);
    layout::put(&mut cells, 47 - id.len(), &id);
    for &(mark, place) in marks {
        let mark = field::mark_cells(density, mark);
        layout::put(&mut cells, 47 + place - mark.len(), &mark);
    }
    let text = listed(kind, &cells);
    let line = text.lines().nth(1).expect("the line of the ID");
    let words: Vec<&str> = line.split(' ').collect();
    assert_eq!(words[..6], ["40", "01", "00", "02", "03", "good"]);
    words[6].to_string()
}

#[test]
fn of_all_marks_the_list_prints_the_data_marks_of_the_density() {
    for byte in 0..=255 {
        let name = format!("{:02X}", byte);
        let (fm, mfm) = (matches!(byte, 0xF8..=0xFB), matches!(byte, 0xF8 | 0xFB));
        for (density, is_data_mark) in [(Fm, fm), (Mfm, mfm)] {
            let expected = if is_data_mark { &name } else { "none" };
            assert_eq!(listed_mark(density, &[(byte, 20)]), expected);
        }
    }
}

#[test]
fn in_fm_each_data_mark_must_be_in_its_window() {
    for mark in DataMark::ALL.map(DataMark::byte) {
        let name = format!("{:02X}", mark);
        assert_eq!(listed_mark(Fm, &[(mark, 30)]), name);
        assert_eq!(listed_mark(Fm, &[(mark, 31)]), "none");
    }
}

#[test]
fn the_first_data_mark_of_the_window_is_printed() {
    for first in DataMark::ALL.map(DataMark::byte) {
        for second in DataMark::ALL.map(DataMark::byte) {
            let marks = [(first, 8), (second, 16)];
            assert_eq!(listed_mark(Fm, &marks), format!("{:02X}", first));
        }
    }
}

#[test]
fn in_mfm_f9_and_fa_are_passed_over() {
    for other in [0xF9, 0xFA] {
        for (mark, name) in [(0xF8, "F8"), (0xFB, "FB")] {
            assert_eq!(listed_mark(Mfm, &[(other, 8), (mark, 43)]), name);
            assert_eq!(listed_mark(Mfm, &[(other, 8), (mark, 44)]), "none");
        }
    }
}

#[test]
fn in_fm_a_data_mark_is_flagged() {
    for mark in DataMark::ALL {
        let mut cells = empty_cells(Kind::FM);
        layout::put(&mut cells, 40, &layout::id_cells(Fm, [1, 0, 2, 3]));
        cells[60] = u16::from(mark.byte());
        let expected = "F 00 0\n40 01 00 02 03 good none\nids 1\n";
        assert_eq!(listed(Kind::FM, &cells), expected);
    }
}

#[test]
fn a_flagged_cell_among_the_six_makes_it_no_id() {
    let mut cells = empty_cells(Kind::FM);
    layout::put(&mut cells, 40, &layout::id_cells(Fm, [1, 0, 2, 3]));
    cells[46] += 256;
    assert_eq!(listed(Kind::FM, &cells), "F 00 0\nids 0\n");
}

/// The pictures of this kind with which inputs begin, where they are sound, and their cells.
fn inputs_with(kind: Kind) -> Vec<(Vec<u8>, Vec<u16>)> {
    let mut cells = empty_cells(kind);
    let inputs = (0..SEEDS).map(pictures::input);
    let such = inputs.filter(|bytes| bytes.first() == Some(&kind.byte));
    such.filter_map(|bytes| match picture::read(&bytes, &mut cells).number {
        number::DONE => Some((bytes[..1 + kind.body].to_vec(), cells.clone())),
        _ => None,
    })
    .collect()
}

#[test]
fn the_inputs_hold_every_data_mark_in_mfm_too() {
    for kind in [Kind::MFM, Kind::EIGHT_INCH_MFM] {
        let inputs = inputs_with(kind);
        for mark in DataMark::ALL {
            let mark = field::mark_cells(Mfm, mark.byte());
            let holds = |cells: &[u16]| cells.windows(4).any(|four| four == mark);
            let count = inputs.iter().filter(|input| holds(&input.1)).count();
            assert!(count > 10, "{} of {}", count, inputs.len());
        }
    }
}

#[test]
fn the_inputs_set_flags_in_the_last_byte_of_each_kind() {
    for kind in Kind::ALL {
        let inputs = inputs_with(kind);
        let is_set = |input: &&(Vec<u8>, Vec<u16>)| input.0[kind.body] != 0;
        assert!(inputs.iter().filter(is_set).count() > 5);
        assert!(inputs.iter().filter(|input| !is_set(input)).count() > 5);
    }
}

#[test]
fn each_kind_is_as_likely_as_another() {
    let texts: String = (0..SEEDS)
        .map(|seed| list::text(&pictures::input(seed)))
        .collect();
    let count = |letter: char| {
        let heading = format!("{} ", letter);
        texts
            .lines()
            .filter(|line| line.starts_with(&heading))
            .count()
    };
    let counts = Kind::ALL.map(|kind| count(kind.letter));
    let all: usize = counts.iter().sum();
    assert!(counts.iter().all(|count| 5 * count > all), "{:?}", counts);
}

#[test]
fn some_inputs_hold_as_many_ids_as_a_picture_can_and_some_hold_none() {
    let texts: Vec<String> = (0..SEEDS)
        .map(|seed| list::text(&pictures::input(seed)))
        .collect();
    let most = [
        "\nids 446\n",
        "\nids 625\n",
        "\nids 744\n",
        "\nids 1041\n",
        "\nids 0\n",
    ];
    for piece in most {
        let count = texts.iter().filter(|text| text.contains(piece)).count();
        assert!(count > 5, "{}: {}", piece, count);
    }
}

#[test]
fn the_inputs_meet_every_answer() {
    let texts: Vec<String> = (0..150)
        .map(|seed| list::text(&pictures::input(seed)))
        .collect();
    let wanted = [
        "refused 8\n",
        "refused 9\n",
        "refused 10\n",
        "F ",
        "M ",
        "f ",
        "m ",
        " good F8\n",
        " good F9\n",
        " good FA\n",
        " good FB\n",
        " good none\n",
        " bad F8\n",
        " bad F9\n",
        " bad FA\n",
        " bad FB\n",
        " bad none\n",
    ];
    for piece in wanted {
        assert!(texts.iter().any(|text| text.contains(piece)), "{}", piece);
    }
    let sound = texts.iter().filter(|text| !text.contains("refused"));
    assert!(sound.clone().count() > 10);
    assert!(sound.clone().any(|text| text.matches("ids ").count() == 4));
    assert!(texts.iter().any(|text| text == "refused 9\n"));
}
