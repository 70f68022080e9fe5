//! Times our calls beside the crate's, and beside other libraries' where they are installed; and our calls that read beside Rust's
//! `parse`.
//!
//! Usage: bench [--table FILE] [--plot FILE] [--reading-table FILE] [--reading-plot FILE] [--before FILE]
//! Prints nanoseconds per number, and the ratio to the crate or to `parse`; the last two lines have our worst ratios. Writes the
//! same as tables in Markdown and as plots in SVG, where files are named, and our times before and after as tables, where an
//! earlier archive is timed too.

#[path = "../archive.rs"]
mod archive;
mod plot;
mod printers;
#[path = "../random.rs"]
mod random;
mod readers;
mod results;
mod texts;
mod workloads;

use std::fs;
use std::hint::black_box;
use std::ops::Range;
use std::process::exit;
use std::time::Instant;

use printers::{Buffers, Printer, PRINTERS};
use readers::READERS;
use results::{Measured, Results, BASIS};
use texts::Texts;
use workloads::{workloads, Numbers, Workload, TURNS};

/// So often all numbers of a workload are gone through.
const ROUNDS: usize = 80;

/// The texts of so many workloads, the first ones, are read.
const READ_WORKLOADS: usize = 5;

/// Nanoseconds per number of one printer in one turn.
fn time_printer(printer: &Printer, numbers: &Numbers, turn: Range<usize>, buffers: &mut Buffers) -> f64 {
    let count = turn.len();
    let began = Instant::now();
    let bytes = match numbers {
        Numbers::F64(numbers) => (printer.print64)(black_box(&numbers[turn]), buffers),
        Numbers::F32(numbers) => (printer.print32)(black_box(&numbers[turn]), buffers),
        Numbers::Rows(numbers) => (printer.print_row)(black_box(&numbers[turn]), buffers),
    };
    let nanoseconds = began.elapsed().as_nanos() as f64;
    assert!(bytes >= 3 * count, "{} wrote fewer bytes than there can be", printer.name);
    nanoseconds / count as f64
}

/// Nanoseconds per text of one reader in one turn, and the sum of its patterns.
fn time_reader(read: fn(&[&str]) -> u64, texts: &[&str]) -> (f64, u64) {
    let began = Instant::now();
    let sum = read(black_box(texts));
    (began.elapsed().as_nanos() as f64 / texts.len() as f64, sum)
}

fn median(mut times: Vec<f64>) -> f64 {
    times.sort_by(f64::total_cmp);
    times[times.len() / 2]
}

/// Times so many printers or readers in turn, each with the same numbers before the next ones come and another one first in each
/// round, and takes the median of each one's turns.
fn measure(workload: &Workload, many: usize, mut time: impl FnMut(usize, Range<usize>) -> f64) -> Measured {
    let turn = workload.numbers.turn();
    let mut times = vec![Vec::new(); many];
    for round in 0..ROUNDS {
        for from in (0..TURNS).map(|n| n * turn) {
            for next in 0..many {
                let which = (round + next) % many;
                times[which].push(time(which, from..from + turn));
            }
        }
    }
    Measured { name: workload.name, nanoseconds: times.into_iter().map(median).collect() }
}

fn measure_printing(workload: &Workload) -> Measured {
    let mut buffers = Buffers::new();
    measure(workload, PRINTERS.len(), |which, turn| time_printer(&PRINTERS[which], &workload.numbers, turn, &mut buffers))
}

/// Times the readers with our texts of the numbers. All are to read the same numbers.
fn measure_reading(workload: &Workload) -> Measured {
    let texts = Texts::new(&workload.numbers);
    let texts = texts.slices();
    let readers: Vec<_> = READERS
        .iter()
        .map(|reader| if matches!(workload.numbers, Numbers::F64(_)) { reader.read64 } else { reader.read32 })
        .collect();
    let turn = workload.numbers.turn();
    let sums: Vec<u64> = texts.chunks(turn).map(readers[BASIS]).collect();
    measure(workload, readers.len(), |which, range| {
        let wanted = sums[range.start / turn];
        let (nanoseconds, sum) = time_reader(readers[which], &texts[range]);
        assert!(sum == wanted, "{} read other numbers than {}", READERS[which].name, READERS[BASIS].name);
        nanoseconds
    })
}

/// Measures workloads, and says which one it is at.
fn measure_all(what: &str, workloads: &[Workload], measure: fn(&Workload) -> Measured) -> Vec<Measured> {
    let mut all = Vec::new();
    for (at, workload) in workloads.iter().enumerate() {
        eprintln!("bench: {what}, workload {} of {}: {}", at + 1, workloads.len(), workload.name);
        all.push(measure(workload));
    }
    all
}

fn write(path: &str, contents: String) {
    if let Err(error) = fs::write(path, contents) {
        fail(&format!("{path} cannot be written: {error}"));
    }
}

fn fail(message: &str) -> ! {
    eprintln!("bench: {message}");
    exit(2)
}

/// The files that the program's words name.
#[derive(Default)]
struct Files {
    table: Option<String>,
    plot: Option<String>,
    reading_table: Option<String>,
    reading_plot: Option<String>,
    before: Option<String>,
}

fn files() -> Files {
    let mut files = Files::default();
    let mut words = std::env::args().skip(1);
    while let Some(word) = words.next() {
        match (word.as_str(), words.next()) {
            ("--table", Some(file)) => files.table = Some(file),
            ("--plot", Some(file)) => files.plot = Some(file),
            ("--reading-table", Some(file)) => files.reading_table = Some(file),
            ("--reading-plot", Some(file)) => files.reading_plot = Some(file),
            ("--before", Some(file)) if cfg!(before) => files.before = Some(file),
            _ => fail(
                "usage: bench [--table FILE] [--plot FILE] [--reading-table FILE] [--reading-plot FILE] [--before FILE], \
                 --before with an earlier archive alone",
            ),
        }
    }
    files
}

fn main() {
    let files = files();
    let workloads = workloads();
    let printing = Results {
        basis: "the crate",
        names: PRINTERS.iter().map(|printer| printer.name).collect(),
        compared: PRINTERS.len() - usize::from(cfg!(before)),
        all: measure_all("printing", &workloads, measure_printing),
    };
    let reading = Results {
        basis: "Rust's parse",
        names: READERS.iter().map(|reader| reader.name).collect(),
        compared: READERS.len() - usize::from(cfg!(before_reads)),
        all: measure_all("reading", &workloads[..READ_WORKLOADS], measure_reading),
    };
    for (what, results) in [("printing", &printing), ("reading", &reading)] {
        let (turns, basis) = (TURNS * ROUNDS, results.basis);
        println!("{what}: nanoseconds per number, median of {turns} turns; in brackets the ratio to {basis}");
        results.print_table();
    }
    for (file, results) in [(files.table, &printing), (files.reading_table, &reading)] {
        if let Some(file) = file {
            write(&file, results.table());
        }
    }
    for (file, results) in [(files.plot, &printing), (files.reading_plot, &reading)] {
        if let Some(file) = file {
            write(&file, plot::svg(results));
        }
    }
    if let Some(file) = files.before {
        let tables: Vec<_> = [&printing, &reading].into_iter().filter_map(Results::before_and_after).collect();
        write(&file, tables.join("\n"));
    }
    println!("{}", printing.worst());
    println!("{}", reading.worst());
}
