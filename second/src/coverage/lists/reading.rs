// Wrong lists of the picture reader: the bytes of a picture and what they say.

use super::{by_reader, wrong, Sentence};
use crate::field::{self, FLAG};
use crate::list::{self, Page};
use crate::number;
use crate::picture::Kind;

pub const SENTENCES: &[Sentence] = &[
    Sentence {
        says: "A picture is a kind byte, then track, side, L data bytes, flag bits (cell 0 at bit \
               7, padding 0)",
        wrongs: &[
            wrong("side, then track", |input| {
                by_changed(input, |_, bytes| bytes.swap(1, 2))
            }),
            wrong("cell 0 at bit 0", |input| {
                by_flags(input, |place| place ^ 7)
            }),
            wrong("cell 0 at bit 6", |input| {
                by_flags(input, |place| place + 1)
            }),
            wrong("flag bits, then data bytes", |input| {
                by_changed(input, |kind, bytes| {
                    bytes[3..].rotate_left(kind.flag_bytes())
                })
            }),
            wrong("any padding (46)", |input| pad_anyhow(input, Kind::FM)),
            wrong("any padding (4D)", |input| pad_anyhow(input, Kind::MFM)),
        ],
    },
    Sentence {
        says: "10 | side byte above 1, or a padding bit set | nothing written",
        wrongs: &[
            wrong("any side is taken", |input| {
                by_changed(input, |_, bytes| bytes[2] &= 1)
            }),
            wrong("side 1 is 10", |input| {
                by_reader(input, |kind, bytes| {
                    let page = list::read_page(kind, bytes)?;
                    Some(page)
                        .filter(|it| it.side == 0)
                        .ok_or(number::SIDE_OR_PADDING)
                })
            }),
            wrong("a padding bit is 9", |input| {
                by_reader(input, |kind, bytes| {
                    let is_padded = |number| number == number::SIDE_OR_PADDING && bytes[2] < 2;
                    list::read_page(kind, bytes).map_err(|number| match is_padded(number) {
                        true => number::CUT,
                        false => number,
                    })
                })
            }),
        ],
    },
    Sentence {
        says: "The reader takes the first picture and leaves bytes and room beyond it untouched.",
        wrongs: &[wrong(
            "the next picture's first byte is a flag byte",
            |input| by_reader(input, take_flags_late),
        )],
    },
];

/// What a list prints that takes a whole picture as if its bytes were these.
fn by_changed(input: &[u8], change: impl Fn(Kind, &mut [u8])) -> String {
    by_reader(input, |kind, bytes| {
        let mut bytes = bytes.to_vec();
        if let Some(picture) = bytes.get_mut(..1 + kind.body) {
            change(kind, picture);
        }
        list::read_page(kind, &bytes)
    })
}

/// What a list prints that takes the flag of each cell from another place.
fn by_flags(input: &[u8], place_of: impl Fn(usize) -> usize) -> String {
    by_reader(input, |kind, bytes| {
        let page = list::read_page(kind, bytes)?;
        let flag = |place: usize| {
            page.cells
                .get(place_of(place))
                .map_or(0, |cell| cell & FLAG)
        };
        let bytes_of = page
            .cells
            .iter()
            .map(|&cell| u16::from(field::byte_of(cell)));
        let cells = bytes_of.enumerate().map(|(place, byte)| byte + flag(place));
        Ok(Page {
            cells: cells.collect(),
            ..page
        })
    })
}

/// The padding bits of this kind are not looked at.
fn pad_anyhow(input: &[u8], padded: Kind) -> String {
    by_changed(input, |kind, bytes| {
        if kind == padded {
            bytes[kind.body] &= !kind.padding();
        }
    })
}

/// The flag bytes begin a byte late, so the last one is the first byte after the picture.
fn take_flags_late(kind: Kind, bytes: &[u8]) -> Result<Page, u8> {
    list::read_page(kind, bytes)?;
    let mut late = bytes.to_vec();
    late.remove(3 + kind.length);
    late.push(0);
    late[kind.body] &= !kind.padding();
    list::read_page(kind, &late)
}
