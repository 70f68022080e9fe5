//! What crates/rules/proofs/Examples.antt and Readings.antt name: patterns, and texts to read.

/// Each pattern, with the bits of its width, and with its text where the example says what it prints.
pub fn patterns(examples: &str) -> Vec<((u32, u64), Option<String>)> {
    examples.lines().filter_map(example).collect()
}

/// The pattern of a line such as `∷ prints w32 0x80000000 "-0.0"` or `∷ reads w64 "0.1" 0x3fb999999999999a`.
fn example(line: &str) -> Option<((u32, u64), Option<String>)> {
    let words: Vec<&str> = line.split_whitespace().collect();
    let at = words.iter().position(|word| *word == "w32" || *word == "w64")?;
    let bits = if words[at] == "w32" { 32 } else { 64 };
    let pattern = words[at + 1..].iter().find_map(|word| number(word))?;
    let printed = words[at - 1] == "prints";
    let text = printed.then(|| line.split('"').nth(1).unwrap_or_default().to_string());
    Some(((bits, pattern), text))
}

/// What an example says of a text.
pub enum Said {
    /// Its pattern of 32 bits, or of 64.
    Narrow(u64),
    Wide(u64),
    /// The number with which it is refused.
    Refused(u64),
}

/// Each text to read.
pub fn texts(examples: &str) -> Vec<(&str, Said)> {
    examples.lines().filter_map(reading).collect()
}

/// The text of a line such as `∷ reads w64 "0.1" 0x3fb999999999999a` or `∷ refuses "1e" 11`.
fn reading(line: &str) -> Option<(&str, Said)> {
    let (before, rest) = line.split_once('"')?;
    let (text, behind) = rest.split_once('"')?;
    let words: Vec<&str> = before.split_whitespace().collect();
    let says = match &words[..] {
        [.., "reads", "w32"] => Said::Narrow,
        [.., "reads", "w64"] => Said::Wide,
        [.., "refuses"] => Said::Refused,
        _ => return None,
    };
    Some((text, says(number(behind.trim())?)))
}

fn number(word: &str) -> Option<u64> {
    match word.strip_prefix("0x") {
        Some(digits) => u64::from_str_radix(digits, 16).ok(),
        None => word.parse().ok(),
    }
}
