// The CRC register of the controller, worked bit by bit from its polynomial.

/// The terms below x^16 of x^16+x^12+x^5+1.
const POLYNOMIAL: u16 = 0x1021;

/// "Preset FFFF": the register before the first byte of a field.
pub const PRESET: u16 = 0xFFFF;

/// The register after one more bit: the bit that leaves at the top, added to the bit that comes
/// in, decides whether the polynomial is added.
fn take_bit(register: u16, bit: bool) -> u16 {
    let leaving = register & 0x8000 != 0;
    let shifted = register << 1;
    if leaving != bit {
        shifted ^ POLYNOMIAL
    } else {
        shifted
    }
}

/// The register after one more byte, "high bit first".
pub fn take_byte(register: u16, byte: u8) -> u16 {
    let mut next = register;
    for place in (0..8).rev() {
        next = take_bit(next, byte >> place & 1 == 1);
    }
    next
}

/// The register after a whole field, begun at FFFF.
pub fn of_field(bytes: &[u8]) -> u16 {
    bytes
        .iter()
        .fold(PRESET, |register, &byte| take_byte(register, byte))
}
