// Wrong lists of request h: the kinds of pictures, their lengths, bodies and letters.

use super::{by_entries, by_entry, by_kinds, by_lines, by_reader, wrong, Sentence};
use crate::density::Density::{self, Fm, Mfm};
use crate::list::{self, Steps, STEPS};
use crate::number;
use crate::picture::{self, Kind};

const EIGHT_FM: Kind = Kind::EIGHT_INCH_FM;
const EIGHT_MFM: Kind = Kind::EIGHT_INCH_MFM;

pub const SENTENCES: &[Sentence] = &[
    Sentence {
        says: "Two picture kinds come: 66 FM, 5,208 cells, body 5,861; 6D MFM, 10,416 cells, body \
               11,720.",
        wrongs: &[
            wrong("66 is refused by 8", |input| without(input, EIGHT_FM)),
            wrong("6D is refused by 8", |input| without(input, EIGHT_MFM)),
            wrong("66 is MFM", |input| with_density(input, EIGHT_FM, Mfm)),
            wrong("6D is FM", |input| with_density(input, EIGHT_MFM, Fm)),
            wrong("66 is as 46", |input| with_byte(input, 0x66, Kind::FM)),
            wrong("6D is as 4D", |input| with_byte(input, 0x6D, Kind::MFM)),
            wrong("66 has 5,207 cells", |input| {
                with(input, sized(EIGHT_FM, 5207))
            }),
            wrong("66 has 5,209 cells", |input| {
                with(input, sized(EIGHT_FM, 5209))
            }),
            wrong("6D has 10,415 cells", |input| {
                with(input, sized(EIGHT_MFM, 10_415))
            }),
            wrong("6D has 10,417 cells", |input| {
                with(input, sized(EIGHT_MFM, 10_417))
            }),
            wrong("66 has a body of 5,860", |input| {
                with_body(input, EIGHT_FM, 5860)
            }),
            wrong("66 has a body of 5,862", |input| {
                with_body(input, EIGHT_FM, 5862)
            }),
            wrong("6D has a body of 11,719", |input| {
                with_body(input, EIGHT_MFM, 11_719)
            }),
            wrong("6D has a body of 11,721", |input| {
                with_body(input, EIGHT_MFM, 11_721)
            }),
        ],
    },
    Sentence {
        says: "Pictures 46 and 4D stay byte for byte",
        wrongs: &[
            wrong("46 is refused by 8", |input| without(input, Kind::FM)),
            wrong("4D is refused by 8", |input| without(input, Kind::MFM)),
            wrong("46 has 5,208 cells", |input| {
                with(input, sized(Kind::FM, 5208))
            }),
            wrong("4D has 10,416 cells", |input| {
                with(input, sized(Kind::MFM, 10_416))
            }),
            wrong("46 has 3,124 cells", |input| {
                with(input, sized(Kind::FM, 3124))
            }),
            wrong("46 has 3,126 cells", |input| {
                with(input, sized(Kind::FM, 3126))
            }),
            wrong("4D has 6,249 cells", |input| {
                with(input, sized(Kind::MFM, 6249))
            }),
            wrong("4D has 6,251 cells", |input| {
                with(input, sized(Kind::MFM, 6251))
            }),
            wrong("46 has a body of 3,517", |input| {
                with_body(input, Kind::FM, 3517)
            }),
            wrong("46 has a body of 3,519", |input| {
                with_body(input, Kind::FM, 3519)
            }),
            wrong("4D has a body of 7,033", |input| {
                with_body(input, Kind::MFM, 7033)
            }),
            wrong("4D has a body of 7,035", |input| {
                with_body(input, Kind::MFM, 7035)
            }),
        ],
    },
    Sentence {
        says: "Refusals: .. 8 any kind but the four.",
        wrongs: &[
            wrong("56 is as 46", |input| with_bits(input, &[Kind::FM], 0x10)),
            wrong("5D is as 4D", |input| with_bits(input, &[Kind::MFM], 0x10)),
            wrong("76 is as 66", |input| with_bits(input, &[EIGHT_FM], 0x10)),
            wrong("7D is as 6D", |input| with_bits(input, &[EIGHT_MFM], 0x10)),
            wrong("bit 0 does not count", |input| {
                with_bits(input, &Kind::ALL, 0x01)
            }),
            wrong("45, 4E, 65 and 6E are as the next", |input| {
                with_bits(input, &Kind::ALL, 0x03)
            }),
            wrong("bit 6 does not count", |input| {
                with_bits(input, &Kind::ALL, 0x40)
            }),
            wrong("bit 7 does not count", |input| {
                with_bits(input, &Kind::ALL, 0x80)
            }),
        ],
    },
    Sentence {
        says: "The list prints f and m as the kind.",
        wrongs: &[
            wrong("F for 66", |input| with_letter(input, EIGHT_FM, 'F')),
            wrong("M for 6D", |input| with_letter(input, EIGHT_MFM, 'M')),
            wrong("m for 66", |input| with_letter(input, EIGHT_FM, 'm')),
            wrong("f for 6D", |input| with_letter(input, EIGHT_MFM, 'f')),
            wrong("f for 46", |input| with_letter(input, Kind::FM, 'f')),
            wrong("m for 4D", |input| with_letter(input, Kind::MFM, 'm')),
        ],
    },
    Sentence {
        says: "5,208 and 10,416 are multiples of eight: no padding bits.",
        wrongs: &[
            wrong("the last flag byte of 66 is padding", |input| {
                pad(input, EIGHT_FM)
            }),
            wrong("the last flag byte of 6D is padding", |input| {
                pad(input, EIGHT_MFM)
            }),
            wrong("the last flag byte of 66 is not read", |input| {
                forget_last_flags(input, EIGHT_FM)
            }),
            wrong("the last flag byte of 6D is not read", |input| {
                forget_last_flags(input, EIGHT_MFM)
            }),
        ],
    },
    Sentence {
        says: "The rows of every program hold 10,416 cells.",
        wrongs: &[
            wrong("6,400", |input| with_room(input, |_| 6400)),
            wrong("8,192", |input| with_room(input, |_| 8192)),
            wrong("10,415", |input| with_room(input, |_| 10_415)),
            wrong("as many as 46 or 4D has", |input| {
                with_room(input, |density| match density {
                    Fm => Kind::FM.length,
                    Mfm => Kind::MFM.length,
                })
            }),
            wrong("IDs up to cell 6,399", |input| list_up_to(input, 6400)),
            wrong("IDs up to cell 8,191", |input| list_up_to(input, 8192)),
            wrong("cells in 13 bits", |input| {
                by_entry(input, |_, entry| entry.cell %= 8192)
            }),
            wrong("cells of four digits", |input| {
                by_entry(input, |_, entry| entry.cell %= 10_000)
            }),
            wrong("255 IDs", |input| list_at_most(input, 255)),
            wrong("1,000 IDs", |input| list_at_most(input, 1000)),
            wrong("IDs counted in 8 bits", |input| {
                by_lines(input, |_, entries, lines| {
                    let [right, wrong] = [entries.len(), entries.len() % 256];
                    lines.replace(&format!("ids {}\n", right), &format!("ids {}\n", wrong))
                })
            }),
        ],
    },
];

fn without(input: &[u8], gone: Kind) -> String {
    let mut kinds = Kind::ALL.to_vec();
    kinds.retain(|&kind| kind != gone);
    by_kinds(input, &kinds)
}

/// The four kinds, this one in the place of the one that has its byte.
fn kinds_with(wrong: Kind) -> [Kind; 4] {
    Kind::ALL.map(|kind| if kind.byte == wrong.byte { wrong } else { kind })
}

fn with(input: &[u8], wrong: Kind) -> String {
    by_kinds(input, &kinds_with(wrong))
}

/// The kind with so many cells, and the body that they need.
fn sized(kind: Kind, length: usize) -> Kind {
    Kind {
        length,
        body: 2 + length + (length + 7) / 8,
        ..kind
    }
}

fn with_density(input: &[u8], kind: Kind, density: Density) -> String {
    with(input, Kind { density, ..kind })
}

/// The byte stands for a kind that has another.
fn with_byte(input: &[u8], byte: u8, kind: Kind) -> String {
    with(input, Kind { byte, ..kind })
}

fn with_letter(input: &[u8], kind: Kind, letter: char) -> String {
    with(input, Kind { letter, ..kind })
}

/// The cells are as they are; what follows the picture begins a byte earlier or later.
fn with_body(input: &[u8], kind: Kind, body: usize) -> String {
    let read = |asked: Kind, bytes: &[u8]| {
        bytes.get(asked.body).ok_or(number::CUT)?;
        let right = if asked.byte == kind.byte { kind } else { asked };
        list::read_page(right, &[bytes, &[0]].concat())
    };
    let steps = Steps {
        kinds: &kinds_with(Kind { body, ..kind }),
        read: &read,
        ..STEPS
    };
    list::run(steps, input).text()
}

/// These kinds come with these bits changed too.
fn with_bits(input: &[u8], more: &[Kind], bits: u8) -> String {
    let mut kinds = Kind::ALL.to_vec();
    kinds.extend(more.iter().map(|&kind| Kind {
        byte: kind.byte ^ bits,
        ..kind
    }));
    by_kinds(input, &kinds)
}

/// 10 for any bit of the kind's last flag byte.
fn pad(input: &[u8], padded: Kind) -> String {
    by_reader(input, |kind, bytes| {
        let page = list::read_page(kind, bytes)?;
        match kind == padded && bytes[kind.body] != 0 {
            true => Err(number::SIDE_OR_PADDING),
            false => Ok(page),
        }
    })
}

fn forget_last_flags(input: &[u8], forgotten: Kind) -> String {
    by_reader(input, |kind, bytes| {
        let mut bytes = bytes.to_vec();
        if let Some(last) = bytes.get_mut(kind.body).filter(|_| kind == forgotten) {
            *last = 0;
        }
        list::read_page(kind, &bytes)
    })
}

/// 12 for a kind with more cells.
fn with_room(input: &[u8], room: impl Fn(Density) -> usize) -> String {
    by_reader(input, |kind, bytes| {
        picture::read_as(kind, bytes, &mut vec![0; room(kind.density)])?;
        list::read_page(kind, bytes)
    })
}

fn list_up_to(input: &[u8], end: usize) -> String {
    by_entries(input, |_, entries| entries.retain(|entry| entry.cell < end))
}

fn list_at_most(input: &[u8], count: usize) -> String {
    by_entries(input, |_, entries| entries.truncate(count))
}
