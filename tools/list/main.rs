//! Writes the stored lists: patterns with the texts that the unchanged crate prints for them, and lines of text with the patterns
//! that Rust's `parse` reads.
//!
//! Usage: list CRATE-LIB-RS LIST STDIN STDOUT EXAMPLES-ANTT...
//! Reads the crate's lib.rs for its tables and the examples, which lie in crates/rules/proofs, for what they name. Writes LIST,
//! the patterns with their texts, STDIN, the lines, and STDOUT, what the program read is to write for them, and prints how many
//! of each kind there are. The same files give the same lists.

#[path = "../compare/damage.rs"]
#[allow(dead_code)] // of the short texts only those of one byte are listed
mod damage;
#[path = "../compare/decimal.rs"]
mod decimal;
#[path = "../compare/draws.rs"]
mod draws;
mod examples;
#[path = "../compare/form.rs"]
mod form;
mod lines;
#[path = "../random.rs"]
mod random;
mod rules;
#[path = "../compare/texts.rs"]
mod texts;
mod ties;
#[path = "../compare/width.rs"]
mod width;
#[path = "../compare/written.rs"]
mod written;

use std::collections::BTreeSet;
use std::fs;
use std::process::exit;

use examples::Said;
use lines::Line;
use random::random;
use rules::{Tie, Width};

/// A pattern, with the bits of its width.
type Pattern = (u32, u64);

/// The crate's text.
fn text((bits, pattern): Pattern) -> String {
    let mut buffer = dtoa::Buffer::new();
    match bits {
        32 => buffer.format(f32::from_bits(pattern as u32)).to_string(),
        _ => buffer.format(f64::from_bits(pattern)).to_string(),
    }
}

/// The magnitude with a sign that is settled by itself: about half of them are negative.
fn with_some_sign(width: &Width, magnitude: u64) -> Pattern {
    (width.bits, magnitude | (random(1, magnitude) & 1) << (width.bits - 1))
}

fn exponents(width: &Width) -> u64 {
    1 << (width.bits - width.s - 1)
}

/// Every exponent, with the first, second, middle and last significand.
fn edges(width: &Width) -> Vec<Pattern> {
    let significands = [0, 1, 1 << (width.s - 1), (1 << width.s) - 1];
    let every = (0..exponents(width)).flat_map(|exponent| significands.map(|significand| exponent << width.s | significand));
    every.map(|magnitude| with_some_sign(width, magnitude)).collect()
}

/// Both zeros, both infinities, and NaNs of both signs.
fn specials(width: &Width) -> Vec<Pattern> {
    let infinity = (exponents(width) - 1) << width.s;
    let quiet = infinity | 1 << (width.s - 1);
    let magnitudes = [0, infinity, infinity | 1, quiet, quiet | 1, infinity | ((1 << width.s) - 1)];
    magnitudes
        .iter()
        .flat_map(|magnitude| [*magnitude, 1 << (width.bits - 1) | magnitude])
        .map(|pattern| (width.bits, pattern))
        .collect()
}

/// All powers of two, the subnormal ones too.
fn powers_of_two(width: &Width) -> Vec<Pattern> {
    let subnormal = (0..width.s).map(|bit| 1 << bit);
    let normal = (1..exponents(width) - 1).map(|exponent| exponent << width.s);
    subnormal.chain(normal).map(|pattern| (width.bits, pattern)).collect()
}

/// The patterns nearest to the powers of ten.
fn powers_of_ten(width: &Width) -> Vec<Pattern> {
    let powers = |from: i32, to: i32| (from..=to).map(|power| format!("1e{power}"));
    match width.bits {
        32 => powers(-45, 38).map(|power| (32, u64::from(power.parse::<f32>().expect("a number").to_bits()))).collect(),
        _ => powers(-323, 308).map(|power| (64, power.parse::<f64>().expect("a number").to_bits())).collect(),
    }
}

/// The smallest and the largest subnormal magnitudes, and random ones of every length.
fn subnormals(width: &Width) -> Vec<Pattern> {
    let hidden = 1u64 << width.s;
    let ends = (1..=32).chain(hidden - 32..hidden);
    let random = (0..200).map(|n| (random(2, n) % hidden) >> (n % u64::from(width.s)));
    ends.chain(random).map(|magnitude| with_some_sign(width, magnitude)).collect()
}

/// Random patterns.
fn any(width: &Width) -> Vec<Pattern> {
    (0..500).map(|n| (width.bits, random(3, n) >> (64 - width.bits))).collect()
}

/// Patterns whose rest equals D: at every exponent one at each place for binary32; for binary64 one at a place of 0 or above and
/// one at a place below, the places taking turns. Where an exponent has none at the place whose turn it is, the next is tried.
fn ties(width: &Width, places: &[Tie]) -> Vec<Pattern> {
    let mut patterns = Vec::new();
    for biased in 1..exponents(width) - 1 {
        let turn = biased as usize % places.len();
        let found = places[turn..].iter().chain(&places[..turn]).filter_map(|place| ties::magnitude(width, biased, *place));
        let wanted = if width.bits == 32 { places.len() } else { 1 };
        patterns.extend(found.take(wanted).map(|magnitude| with_some_sign(width, magnitude)));
    }
    patterns
}

/// Each kind of pattern, with what it is called.
fn kinds(widths: &[Width; 2], named: &[(Pattern, Option<String>)]) -> Vec<(String, Vec<Pattern>)> {
    let above: Vec<_> = (0..8).map(Tie::Above).collect();
    let below: Vec<_> = (1..16).map(Tie::Below).collect();
    let mut kinds = Vec::new();
    for width in widths {
        let mut add = |kind: &str, patterns: Vec<Pattern>| kinds.push((format!("f{}: {kind}", width.bits), patterns));
        add("named in the examples", named.iter().map(|(pattern, _)| *pattern).filter(|(bits, _)| *bits == width.bits).collect());
        add("zeros, infinities and NaNs", specials(width));
        add("every exponent with the first, second, middle and last significand", edges(width));
        add("powers of two", powers_of_two(width));
        add("powers of ten", powers_of_ten(width));
        add("subnormal", subnormals(width));
        add("rest equals D at a place of 0 or above", ties(width, &above));
        add("rest equals D at a place below 0", ties(width, &below));
        add("random", any(width));
    }
    kinds
}

fn read(path: &str) -> String {
    fs::read_to_string(path).unwrap_or_else(|error| fail(&format!("{path} cannot be read: {error}")))
}

fn fail(message: &str) -> ! {
    eprintln!("list: {message}");
    exit(1)
}

fn write(path: &str, bytes: impl AsRef<[u8]>) {
    fs::write(path, bytes).unwrap_or_else(|error| fail(&format!("{path} cannot be written: {error}")));
}

/// Holds what the examples say against the crate and against Rust's `parse`.
fn check(named: &[(Pattern, Option<String>)], said: &[(&str, Said)]) {
    for (pattern, proved) in named {
        if proved.as_ref().is_some_and(|proved| *proved != text(*pattern)) {
            fail(&format!("the examples have {proved:?} for {:x}, and the crate prints {:?}", pattern.1, text(*pattern)));
        }
    }
    for (text, proved) in said {
        let (number, patterns) = lines::answer(text.as_bytes());
        let same = match proved {
            Said::Narrow(pattern) => patterns.is_some_and(|(narrow, _)| narrow == *pattern),
            Said::Wide(pattern) => patterns.is_some_and(|(_, wide)| wide == *pattern),
            Said::Refused(proved) => u64::from(number) == *proved,
        };
        if !same {
            fail(&format!("of {text:?} the examples say another thing than number {number} and the patterns {patterns:x?}"));
        }
    }
}

/// Writes the patterns with their texts, and answers the patterns in the order of the list.
fn list_patterns(list: &str, kinds: Vec<(String, Vec<Pattern>)>) -> Vec<Pattern> {
    let mut all = BTreeSet::new();
    for (kind, patterns) in kinds {
        println!("{:6} {kind}", patterns.len());
        all.extend(patterns);
    }
    // in an order that mixes widths and kinds
    let mut ordered: Vec<Pattern> = all.into_iter().collect();
    ordered.sort_by_key(|(bits, pattern)| random(u64::from(*bits), *pattern));
    let line = |pattern: &Pattern| format!("{:0digits$x} {}\n", pattern.1, text(*pattern), digits = pattern.0 as usize / 4);
    println!("{:6} lines, each pattern once", ordered.len());
    write(list, ordered.iter().map(line).collect::<String>());
    ordered
}

/// Writes the lines, and what is to be written for them.
fn list_lines(stdin: &str, stdout: &str, kinds: Vec<(&str, Vec<Line>)>) {
    let count = |lines: &[Line], kind: &str| {
        let read = lines.iter().filter(|line| lines::is_read(line)).count();
        println!("{read:6} {:7} {kind}", lines.len() - read);
    };
    println!("  read refused");
    let mut all = BTreeSet::new();
    for (kind, lines) in kinds {
        count(&lines, kind);
        all.extend(lines);
    }
    // in an order that mixes kinds, and at the end one that is read, without a line end
    let mut ordered: Vec<Line> = all.into_iter().collect();
    ordered.sort_by_key(|line| line.iter().fold(0, |key, byte| random(key, u64::from(*byte))));
    let last = ordered.iter().rposition(|line| lines::is_read(line)).expect("a line that is read");
    let last = ordered.remove(last);
    ordered.push(last);
    count(&ordered, "lines, each once");
    write(stdin, ordered.join(&b'\n'));
    write(stdout, ordered.iter().map(|line| lines::written(line)).collect::<String>());
}

fn main() {
    let words: Vec<String> = std::env::args().skip(1).collect();
    let [source, list, stdin, stdout, examples @ ..] = &words[..] else {
        fail("usage: list CRATE-LIB-RS LIST STDIN STDOUT EXAMPLES-ANTT...")
    };
    let examples: String = examples.iter().map(|path| read(path)).collect();
    let (named, said) = (examples::patterns(&examples), examples::texts(&examples));
    check(&named, &said);

    let patterns = list_patterns(list, kinds(&rules::widths(&read(source)), &named));
    println!();
    let printed = |bits| {
        patterns.iter().step_by(3).filter(|pattern| pattern.0 == bits).map(|pattern| text(*pattern).into_bytes()).collect()
    };
    let mut lines = vec![
        ("printed for f32, of every third pattern above", printed(32)),
        ("printed for f64, of every third pattern above", printed(64)),
        ("named in the examples", said.iter().map(|(text, _)| text.as_bytes().to_vec()).collect()),
    ];
    lines.extend(lines::kinds());
    list_lines(stdin, stdout, lines);
}
