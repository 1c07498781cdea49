// Inputs for the list program made from a seed: sound pictures, cut ones and spoilt ones.

use crate::field::{self, LengthCodes, FLAG};
use crate::layout;
use crate::picture::Kind;
use crate::random::{in_turn, Random};
use crate::tracks::{self, Plan};

/// Cells that the last flag byte of a picture has at most.
const CELLS_PER_FLAG_BYTE: usize = 8;
/// Fewer bytes than any picture has.
const SHORT: usize = 3000;
/// Cells between an ID and its data mark at most.
const WIDEST_GAP: usize = 20;

/// What is at the end of an input.
#[derive(Clone, Copy, PartialEq, Eq)]
enum End {
    /// A picture with nothing wrong.
    Sound,
    /// Nothing at all, and nothing before it.
    Empty,
    /// The first bytes of a picture.
    Begun,
    /// A picture cut anywhere.
    Cut,
    /// A picture without its last byte.
    LastByteMissing,
    /// A picture cut among its flag bytes, or before them.
    FlagsMissing,
    /// A kind byte that differs in these bits.
    KindBits(u8),
    /// The byte of another kind.
    OtherKind,
    /// Any byte for the kind, and a cut.
    KindAndCut,
    /// A bit set in the last flag byte: a padding bit, if the kind has one.
    LastFlags,
    /// A side above 1.
    Side,
    /// A side above 1, and a cut.
    SideAndCut,
    /// One byte changed, anywhere.
    AnyByte,
}

/// The ends that seeds in a row take in turn, so many times that each kind meets each often.
const ENDS: [End; 24] = [
    End::Sound,
    End::KindBits(0x10),
    End::LastFlags,
    End::Empty,
    End::Begun,
    End::KindBits(0x01),
    End::Side,
    End::KindBits(0x10),
    End::LastFlags,
    End::Cut,
    End::OtherKind,
    End::Sound,
    End::LastByteMissing,
    End::KindBits(0x10),
    End::LastFlags,
    End::SideAndCut,
    End::KindBits(0x80),
    End::KindAndCut,
    End::FlagsMissing,
    End::KindBits(0x10),
    End::LastFlags,
    End::AnyByte,
    End::KindBits(0x40),
    End::KindBits(0x03),
];

/// The picture of a track.
pub fn picture(kind: Kind, track: u8, side: u8, cells: &[u16]) -> Vec<u8> {
    let mut bytes = vec![kind.byte, track, side];
    bytes.extend(cells.iter().map(|&cell| field::byte_of(cell)));
    let mut flags = vec![0; kind.flag_bytes()];
    for (place, &cell) in cells.iter().enumerate() {
        if field::is_flagged(cell) {
            flags[place / 8] |= 0x80 >> (place % 8);
        }
    }
    bytes.extend(flags);
    bytes
}

/// The input of a seed: up to three sound pictures, then mostly something wrong, and at times a
/// sound picture after that.
pub fn input(seed: u64) -> Vec<u8> {
    let mut random = Random::new(seed);
    let end = in_turn(&ENDS, seed);
    let kind = in_turn(&Kind::ALL, seed / ENDS.len() as u64);
    let mut bytes = Vec::new();
    if end == End::Empty {
        return bytes;
    }
    for _ in 0..random.below(4) {
        bytes.extend(any_picture(&mut random));
    }
    let sound = random_picture(&mut random, kind);
    bytes.extend(end.spoil(&mut random, kind, sound));
    if !end.cuts() && random.one_in(2) {
        bytes.extend(any_picture(&mut random));
    }
    bytes
}

fn any_picture(random: &mut Random) -> Vec<u8> {
    let kind = random.pick(&Kind::ALL);
    random_picture(random, kind)
}

fn random_picture(random: &mut Random, kind: Kind) -> Vec<u8> {
    let plan = Plan {
        density: kind.density,
        length: kind.length,
        track: random.byte(),
        side: 0,
        length_codes: LengthCodes::Ibm,
        first_sector: random.byte(),
        bad_ids: random.pick(&[8, 8, 2]),
    };
    let mut cells = match random.below(12) {
        0 => vec![layout::gap(plan.density); plan.length],
        1 | 2 => dense_track(random, plan),
        _ => tracks::random_track(random, plan),
    };
    if random.one_in(3) {
        lay_id_at_end(random, plan, &mut cells);
    }
    if random.one_in(4) {
        let place = kind.length - random.between(1, CELLS_PER_FLAG_BYTE);
        cells[place] |= FLAG;
    }
    let side = random.below(2) as u8;
    picture(kind, plan.track, side, &cells)
}

/// A track with as many IDs as it can hold, one of them mostly over the ring's end.
fn dense_track(random: &mut Random, plan: Plan) -> Vec<u16> {
    let mut cells = vec![layout::gap(plan.density); plan.length];
    let size = field::id_length(plan.density);
    let start = random.below(plan.length);
    for index in 0..plan.length / size {
        let bytes = [plan.track, 0, index as u8, random.byte()];
        let mut id = layout::id_cells(plan.density, bytes);
        id[size - 1] ^= u16::from(random.one_in(plan.bad_ids));
        layout::put(&mut cells, start + index * size, &id);
    }
    cells
}

/// An ID at the ring's end or over it, its mark often among the cells of the last flag byte, and a
/// data mark after it.
fn lay_id_at_end(random: &mut Random, plan: Plan, cells: &mut [u16]) {
    let bytes = [plan.track, 0, random.byte(), random.byte()];
    let mut piece = layout::id_cells(plan.density, bytes);
    let before = random.between(1, 2 * piece.len());
    let gap = random.below(WIDEST_GAP);
    piece.resize(piece.len() + gap, layout::gap(plan.density));
    piece.extend(field::mark_cells(plan.density, random.pick(&[0xFB, 0xF8])));
    layout::put(cells, plan.length - before, &piece);
}

impl End {
    /// Whether bytes are missing: what came after them would be taken for them.
    fn cuts(self) -> bool {
        matches!(
            self,
            End::Begun
                | End::KindAndCut
                | End::Cut
                | End::LastByteMissing
                | End::FlagsMissing
                | End::SideAndCut
        )
    }

    /// The picture as it is at the end of an input.
    fn spoil(self, random: &mut Random, kind: Kind, sound: Vec<u8>) -> Vec<u8> {
        let mut bytes = sound;
        let last = bytes.len() - 1;
        match self {
            End::Sound => {}
            End::Empty => bytes.clear(),
            End::Begun => bytes.truncate(random.pick(&[1, 2, 3, 4])),
            End::Cut => bytes.truncate(random.between(1, last)),
            End::LastByteMissing => bytes.truncate(last),
            End::FlagsMissing => bytes.truncate(last - random.below(kind.flag_bytes())),
            End::KindBits(bits) => bytes[0] ^= bits,
            End::OtherKind => bytes[0] = other_kind(random, kind).byte,
            End::KindAndCut => {
                bytes[0] = random.byte();
                bytes.truncate(random.between(1, SHORT));
            }
            End::LastFlags => bytes[last] |= last_flags(random, kind),
            End::Side => bytes[2] = random.pick(&[2, 3, 0x80, 0xFF]),
            End::SideAndCut => {
                bytes[2] = random.pick(&[2, 3, 0x80, 0xFF]);
                bytes.truncate(random.between(3, last));
            }
            End::AnyByte => {
                let place = random.below(bytes.len());
                bytes[place] = random.byte();
            }
        }
        bytes
    }
}

fn other_kind(random: &mut Random, kind: Kind) -> Kind {
    let mut kinds = Kind::ALL.to_vec();
    kinds.retain(|&other| other != kind);
    random.pick(&kinds)
}

/// One of the padding bits of the last flag byte; where it has none, one of its flags.
fn last_flags(random: &mut Random, kind: Kind) -> u8 {
    let among = match kind.padding() {
        0 => 0xFF,
        padding => padding,
    };
    1 << random.below(u8::count_ones(among) as usize)
}
