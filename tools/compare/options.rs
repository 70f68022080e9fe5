//! The words that the program is started with.

use std::process::exit;
use std::time::{SystemTime, UNIX_EPOCH};

pub struct Options {
    pub quick: bool,
    pub seed: u64,
}

impl Options {
    /// Reads the program's words; ends the program where one is not understood.
    pub fn read() -> Options {
        let mut options = Options { quick: false, seed: clock() };
        let mut words = std::env::args().skip(1);
        while let Some(word) = words.next() {
            match word.as_str() {
                "--quick" => options.quick = true,
                "--seed" => options.seed = seed(&words.next().unwrap_or_default()),
                _ => refuse(&format!("the word {word:?} is not understood; usage: compare [--quick] [--seed NUMBER]")),
            }
        }
        options
    }
}

/// A seed that differs from run to run.
fn clock() -> u64 {
    SystemTime::now().duration_since(UNIX_EPOCH).map_or(0, |time| time.as_nanos() as u64)
}

fn seed(word: &str) -> u64 {
    let number = match word.strip_prefix("0x") {
        Some(digits) => u64::from_str_radix(digits, 16),
        None => word.parse(),
    };
    number.unwrap_or_else(|_| refuse(&format!("the seed {word:?} is no whole number below 2^64, decimal or hexadecimal with 0x")))
}

fn refuse(message: &str) -> ! {
    eprintln!("compare: {message}");
    exit(2)
}
