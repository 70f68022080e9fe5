//! What is said while the comparison runs, and of the differences.

use std::sync::atomic::{AtomicU64, Ordering::Relaxed};
use std::time::Duration;

/// So many differences are printed; the others are counted.
const SHOWN: u64 = 20;

/// The differences found by all threads.
pub struct Differences {
    count: AtomicU64,
}

impl Differences {
    pub fn new() -> Differences {
        Differences { count: AtomicU64::new(0) }
    }

    pub fn count(&self) -> u64 {
        self.count.load(Relaxed)
    }

    pub fn add(&self, describe: impl FnOnce() -> String) {
        let number = self.count.fetch_add(1, Relaxed) + 1;
        if number <= SHOWN {
            println!("difference {number}: {}", describe());
        }
        if number == SHOWN {
            println!("(more differences are counted, not printed)");
        }
    }
}

/// Says how far the sweeps are, and how long they still take at the pace so far.
pub fn progress(done: u64, of: u64, gone: Duration, differences: u64) {
    let left = match done {
        0 => "time left unknown".to_string(),
        _ => format!("about {} left", duration(gone.mul_f64((of - done) as f64 / done as f64))),
    };
    let percent = done * 100 / of;
    eprintln!("compare: {percent:3} %, {} gone, {left}, {} differences", duration(gone), grouped(differences));
}

pub fn duration(time: Duration) -> String {
    let seconds = time.as_secs_f64().round() as u64;
    match seconds / 60 {
        0 => format!("{seconds} s"),
        minutes => format!("{minutes} min {} s", seconds % 60),
    }
}

/// A number with a comma after every three digits: 4,294,967,296.
pub fn grouped(number: u64) -> String {
    let digits = number.to_string();
    let mut text = String::new();
    for (at, digit) in digits.chars().enumerate() {
        if at > 0 && (digits.len() - at) % 3 == 0 {
            text.push(',');
        }
        text.push(digit);
    }
    text
}
