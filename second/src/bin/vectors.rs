// Prints the CRC vectors' text.

#![forbid(unsafe_code)]

fn main() {
    print!("{}", second::vectors::text());
}
