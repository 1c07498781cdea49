// The text of the CRC vectors: one line for each field, its length and its CRC register.

use crate::crc;

/// The fields of document 01, Cases, and the last of them with its own CRC after it.
const CASES: [&[u8]; 7] = [
    &[0xFE],
    &[0xFB],
    &[0xF8],
    &[0xA1, 0xA1, 0xA1],
    &[0xA1, 0xA1, 0xA1, 0xFE],
    &[0xFE, 0x00, 0x00, 0x01, 0x00],
    &[0xFE, 0x00, 0x00, 0x01, 0x00, 0xD2, 0xC3],
];

const LONG_FIELD: usize = 1024;
const RULED_FIELDS: usize = 128;

/// The number x of the rule: it "begins at 1, once for all" the ruled fields.
struct Draws {
    x: u32,
}

impl Draws {
    /// x = (25,173 x + 13,849) modulo 65,536; the draw is the high byte of the new x.
    fn next_byte(&mut self) -> u8 {
        self.x = (25_173 * self.x + 13_849) % 65_536;
        (self.x / 256) as u8
    }

    /// One ruled field: draw a, then b; (256 a + b) modulo 1,025 bytes follow, each a draw.
    fn next_field(&mut self) -> Vec<u8> {
        let a = usize::from(self.next_byte());
        let b = usize::from(self.next_byte());
        let length = (256 * a + b) % 1025;
        (0..length).map(|_| self.next_byte()).collect()
    }
}

/// All fields, in the order of the vectors' rule.
fn fields() -> Vec<Vec<u8>> {
    let mut all = vec![Vec::new()];
    all.extend((0..=255u8).map(|byte| vec![byte]));
    all.extend(CASES.iter().map(|field| field.to_vec()));
    all.push(vec![0x00; LONG_FIELD]);
    all.push(vec![0xFF; LONG_FIELD]);
    all.push((0..LONG_FIELD).map(|i| (i % 256) as u8).collect());
    let mut draws = Draws { x: 1 };
    all.extend((0..RULED_FIELDS).map(|_| draws.next_field()));
    all
}

/// What the vectors program prints.
pub fn text() -> String {
    fields()
        .iter()
        .map(|field| format!("{:04X} {:04X}\n", field.len(), crc::of_field(field)))
        .collect()
}
