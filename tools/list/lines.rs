//! The list of the program read: lines, and the patterns that it is to write for them.

use std::iter;
use std::str;

use crate::damage::{damage, short};
use crate::draws::Draws;
use crate::form;
use crate::random::random;
use crate::texts::{Kind, Texts};
use crate::width::{Binary32, Binary64, Width};

/// A line without its line end.
pub type Line = Vec<u8>;

/// The seed of the first kind that is drawn. Each next kind has the next.
const SEED: u64 = 0x7265_6164;

/// The kinds of texts that are drawn, and how many of each.
const DRAWN: [(&str, Kind, u64); 8] = [
    ("any digits with a point anywhere, and an exponent of 0 to 4 digits", Kind::Any, 2000),
    ("any digits, the first at a decimal place of -400 to 400", Kind::Near, 2000),
    ("any digits, near the ends of the decimal exponents of a width", Kind::NearEnds, 2000),
    ("halfway between two numbers of f32, or close to that", Kind::Halfway32, 2500),
    ("halfway between two numbers of f64, or close to that", Kind::Halfway64, 2500),
    ("the same from the smallest number to the largest, cut where it is too long", Kind::HalfwayAnywhere, 1000),
    ("zeros and names", Kind::ZeroOrName, 300),
    ("halfway between two numbers of f64, by few digits and a power of ten", Kind::HalfwayByPower, 300),
];

/// Texts that are refused, by kind, with a bar between two.
const REFUSED: [(&str, &str); 4] = [
    (
        "refused: parts missing, doubled or in the wrong place",
        "|-|.|-.|e|e5|-e5|.5|.e5|5.|5.e1|1e|1e-|1.5e|--1|-+1|1-|1-2|1.-5|1..5|1.5.0|1e5.0|1e5e5|1e--5|1e-5-|1e+5|1e-+5|1e12345|\
         1e-12345|-1e00000",
    ),
    (
        "refused: spaces and other signs",
        " | 1|1 |- 1|1 2|1 e5|1e 5|\t1|1\t|1\u{b}|1\u{c}|1_000|1,5|1'000|1d5|1f|1L|0x10|0x1p5|1%|$1|1/2|1\0|\0|\01|\u{feff}1|\
         \u{2212}1|\u{ff11}|\u{661}|\u{221e}|1\u{a0}",
    ),
    (
        "refused: names otherwise spelled",
        "nan|NAN|Nan|naN|-NaN|+NaN|-nan|NaN0|NaN()|Na|N| NaN|NaN |Inf|INF|iNF|+inf|-Inf|--inf|in|i|inf0|-infi|1inf|inf |infinity|\
         -infinity|+infinity|Infinity|INFINITY",
    ),
    (
        "refused: a carriage return that is not the line's last byte, or nothing before it",
        "\r|\r\r|1\r\r|\r1|-\r1|1\r2|1.\r5|1\r.5|1e\r5|1e5\r\r|NaN\r\r|in\rf|\rinf",
    ),
];

/// The lengths of lines that are too long: the program keeps 4,096 bytes of a line, and reads 65,536 at once.
const TOO_LONG: [usize; 12] = [65, 66, 67, 96, 127, 128, 129, 4095, 4096, 4097, 4098, 70_000];

/// The text of a line: a carriage return at its end is no part of it.
fn text(line: &[u8]) -> &[u8] {
    line.strip_suffix(b"\r").unwrap_or(line)
}

/// The number of reading's answer to a line, and its patterns of 32 and of 64 bits where it is read.
pub fn answer(line: &[u8]) -> (u32, Option<(u64, u64)>) {
    let text = text(line);
    let number = form::number(text);
    let patterns = (number == form::READ).then(|| {
        let text = str::from_utf8(text).expect("a text of the form is ASCII");
        (Binary32::parse(text), Binary64::parse(text))
    });
    (number, patterns)
}

pub fn is_read(line: &[u8]) -> bool {
    answer(line).1.is_some()
}

/// What the program is to write for a line.
pub fn written(line: &[u8]) -> String {
    answer(line).1.map_or(String::new(), |(narrow, wide)| format!("{narrow:08x} {wide:016x}\n"))
}

/// The kinds of lines that are not printed texts, each with what it is called.
pub fn kinds() -> Vec<(&'static str, Vec<Line>)> {
    let mut kinds = Vec::new();
    for (seed, (name, kind, count)) in (SEED..).zip(DRAWN) {
        kinds.push((name, drawn(kind, seed, count)));
    }
    let seed = SEED + DRAWN.len() as u64;
    kinds.push(("any of these with a carriage return at the line's end", with_return(seed, 300)));
    let one_byte = (0..256).map(|n| short(n).0[..1].to_vec()).filter(is_line).collect();
    kinds.push(("every text of one byte", one_byte));
    kinds.push(("damaged copies of good texts", damaged(seed + 1, 1500)));
    kinds.push(("refused: what Rust's parse takes and the form does not", parse_only(seed + 2, 400)));
    kinds.push(("refused: a carriage return within a good text", return_within(seed + 3, 100)));
    kinds.push(("refused: good texts with zeros before them, 65 to 70,000 bytes", too_long(seed + 4)));
    for (name, texts) in REFUSED {
        kinds.push((name, texts.split('|').map(|text| text.as_bytes().to_vec()).collect()));
    }
    for (name, lines) in &kinds {
        assert!(!name.starts_with("refused") || !lines.iter().any(|line| is_read(line)), "not all are refused: {name}");
    }
    kinds
}

/// Whether bytes stand on one line.
fn is_line(bytes: &Line) -> bool {
    !bytes.contains(&b'\n')
}

fn drawn(kind: Kind, seed: u64, count: u64) -> Vec<Line> {
    let mut texts = Texts::new();
    let mut draw = |n| {
        let mut draws = Draws::new(seed, n);
        let negative = draws.once_in(2);
        texts.make_kind(kind, negative, &mut draws).to_vec()
    };
    (0..count).map(&mut draw).inspect(|line| assert!(is_read(line), "not of the form: {}", line.escape_ascii())).collect()
}

/// Good texts of any kind, each changed.
fn changed(seed: u64, count: u64, change: impl Fn(&mut Line, &mut Draws)) -> Vec<Line> {
    let mut texts = Texts::new();
    let mut draw = |n| {
        let mut draws = Draws::new(seed, n);
        let mut line = texts.make(&mut draws).to_vec();
        change(&mut line, &mut draws);
        line
    };
    (0..count).map(&mut draw).collect()
}

fn with_return(seed: u64, count: u64) -> Vec<Line> {
    changed(seed, count, |line, _| line.push(b'\r'))
}

fn return_within(seed: u64, count: u64) -> Vec<Line> {
    changed(seed, count, |line, draws| line.insert(draws.below(line.len()), b'\r'))
}

fn damaged(seed: u64, count: u64) -> Vec<Line> {
    changed(seed, count, damage).into_iter().filter(is_line).collect()
}

/// Good texts with zeros before their digits up to each of the lengths, half of them with a carriage return at the line's end.
fn too_long(seed: u64) -> Vec<Line> {
    let lines = |(n, length): (u64, usize)| {
        let count = if length < 256 { 10 } else { 1 };
        changed(random(seed, n), count, |line, draws| {
            let front = usize::from(line[0] == b'-');
            line.splice(front..front, iter::repeat_n(b'0', length - line.len()));
            line.extend(draws.once_in(2).then_some(b'\r'));
        })
    };
    (0..).zip(TOO_LONG).flat_map(lines).collect()
}

/// Forms of a number that Rust's `parse` takes, and reading refuses.
fn parse_only(seed: u64, count: u64) -> Vec<Line> {
    let form = |n| {
        let mut draws = Draws::new(seed, n);
        let (digits, more) = (draws.bits() >> draws.below(64), draws.bits() >> draws.below(64));
        let power = draws.below(400);
        let text = match n % 10 {
            0 => format!("+{digits}"),
            1 => format!("+{digits}.{more}e{power}"),
            2 => format!("{digits}.{more}E{power}"),
            3 => format!("-{digits}E-{power}"),
            4 => format!("{digits}.{more}e+{power}"),
            5 => format!("{digits}e{power:05}"),
            6 => format!("-{digits}.{more}e-{}", 10_000 + power),
            7 => format!(".{digits}e-{power}"),
            8 => format!("-.{digits}"),
            _ => format!("{digits}."),
        };
        assert!(text.parse::<f64>().is_ok(), "parse does not take {text}");
        text.into_bytes()
    };
    (0..count).map(form).collect()
}
