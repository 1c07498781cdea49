// The lines of a bench script: a capital letter and then hexadecimal numbers.

const MOST_DIGITS: usize = 4;

/// A line that asks for something.
#[derive(Clone, Debug, PartialEq, Eq)]
pub struct Line {
    pub letter: u8,
    pub numbers: Vec<u16>,
}

/// What the bytes of one line hold.
#[derive(Clone, Debug, PartialEq, Eq)]
pub enum Parsed {
    /// Nothing, or a comment alone.
    Empty,
    Line(Line),
    Bad,
}

/// Reads one line, its end taken off. "`#` starts a comment that runs to the end of the
/// line"; what it says does not count.
pub fn parse(bytes: &[u8]) -> Parsed {
    let text = bytes.split(|&byte| byte == b'#').next().unwrap_or(&[]);
    let mut words = text
        .split(|&byte| byte == b' ')
        .filter(|word| !word.is_empty());
    match words.next() {
        None => Parsed::Empty,
        Some(&[letter]) if letter.is_ascii_uppercase() => {
            match words.map(number).collect::<Option<Vec<u16>>>() {
                Some(numbers) => Parsed::Line(Line { letter, numbers }),
                None => Parsed::Bad,
            }
        }
        Some(_) => Parsed::Bad,
    }
}

/// The lines of a script that print something, with their numbers.
pub fn printing_lines(script: &str) -> Vec<String> {
    script
        .lines()
        .enumerate()
        .filter(|(_, text)| parse(text.as_bytes()) != Parsed::Empty)
        .map(|(index, text)| format!("script line {}: {}", index + 1, text))
        .collect()
}

/// "Every number is hexadecimal, 1 to 4 digits, upper or lower case."
fn number(word: &[u8]) -> Option<u16> {
    if word.len() > MOST_DIGITS {
        return None;
    }
    let mut value = 0;
    for &byte in word {
        let digit = char::from(byte).to_digit(16)?;
        value = value * 16 + digit as u16;
    }
    Some(value)
}
