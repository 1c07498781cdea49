// How the lines of a script end. The seed alone decides it, so what stands in the lines is the same.

/// One seed in so many has each of the rare ends.
const ONE_IN: u64 = 11;

/// The script, its lines ended as the seed has it: mostly each by a newline.
pub fn ended(script: String, seed: u64) -> String {
    match seed % ONE_IN {
        2 => with_carriage_returns(&script),
        5 => without_last_newline(&script),
        8 => without_last_newline(&with_carriage_returns(&script)),
        _ => script,
    }
}

fn with_carriage_returns(script: &str) -> String {
    script.replace('\n', "\r\n")
}

/// The last line ends with the input. A carriage return that is left there is an error.
fn without_last_newline(script: &str) -> String {
    script.strip_suffix('\n').unwrap_or(script).to_string()
}
