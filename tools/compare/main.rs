//! Compares the archive with the unchanged crate, call by call: number, length, text, and the bytes that are to stay; and its
//! reading with Rust's own.
//!
//! Usage: compare [--quick] [--seed NUMBER]
//! Progress goes to standard error; differences and the summary to standard output. Exit status 1 if there is a difference.

#[path = "../archive.rs"]
mod archive;
mod calls;
mod damage;
mod decimal;
mod draws;
mod form;
mod functions;
mod lent;
mod options;
mod plan;
#[path = "../random.rs"]
mod random;
mod reads;
mod report;
mod rows;
mod texts;
mod width;
mod written;

use std::process::exit;
use std::sync::atomic::{AtomicU64, Ordering::Relaxed};
use std::thread;
use std::time::{Duration, Instant};

use calls::Caller;
use damage::ALL_SHORT;
use functions::{Functions, ENTRIES};
use options::Options;
use plan::{edges, rooms, serving, spread, too_short, Block, Plan, Sweep};
use random::{random, subnormal};
use report::{duration, grouped, Differences};
use rows::Rows;
use width::{Binary32, Binary64};

/// Each of the patterns in every buffer, at both entries, and its text read back.
fn compare_edges<W: Functions>(caller: &mut Caller) -> u64 {
    let mut patterns = 0;
    for bits in edges::<W>() {
        for room in rooms() {
            for entry in ENTRIES {
                caller.inspect::<W>(entry, bits, room);
            }
        }
        caller.read_back::<W>(bits);
        patterns += 1;
    }
    patterns
}

/// A block of patterns, each at both entries in a buffer that serves and in one that is too short, and its text read back. Where
/// something that is printed differs, the block is gone through again, with a look at every byte after every call.
fn compare_block<W: Functions>(caller: &mut Caller, first: u64, end: u64, pattern: impl Fn(u64) -> u64) {
    let mut same = true;
    for n in first..end {
        same &= caller.agrees::<W>(pattern(n), serving(n), too_short(n));
    }
    same &= caller.left_nothing();
    if same {
        return;
    }
    let mut again = true;
    for n in first..end {
        for entry in ENTRIES {
            for room in [serving(n), too_short(n)] {
                again &= caller.inspect::<W>(entry, pattern(n), room);
            }
        }
    }
    if again {
        let lost = format!(
            "{} patterns from {:#x} on, as this run orders them: one differed, but not when called again",
            end - first,
            pattern(first)
        );
        caller.differences.add(|| lost);
    }
}

/// Takes blocks until none is left.
fn work(plan: &Plan, next: &AtomicU64, done: &AtomicU64, differences: &Differences) -> u64 {
    let (mut caller, mut rows) = (Caller::new(differences), Rows::new(differences));
    loop {
        let i = next.fetch_add(1, Relaxed);
        if i >= plan.blocks() {
            return caller.calls() + rows.calls;
        }
        let Block { sweep, first, end } = plan.block(i);
        match sweep {
            Sweep::All32 => compare_block::<Binary32>(&mut caller, first, end, spread),
            Sweep::Random64 => compare_block::<Binary64>(&mut caller, first, end, |n| random(plan.seed, n)),
            Sweep::Subnormal64 => compare_block::<Binary64>(&mut caller, first, end, |n| n << 63 | subnormal(plan.seed, n, 52)),
            Sweep::Rows => (first..end).for_each(|n| rows.compare_random(plan.seed, n)),
            Sweep::Texts => (first..end).for_each(|n| caller.reads.compare_text(plan.seed, n)),
            Sweep::ShortTexts => (first..end).for_each(|n| caller.reads.compare_short(n)),
            Sweep::DamagedTexts => (first..end).for_each(|n| caller.reads.compare_damaged(plan.seed, n)),
        }
        caller.reads.look_around();
        done.fetch_add(1, Relaxed);
    }
}

/// Compares the sweeps with as many threads as the machine has processors, and says now and then how far they are.
fn compare_sweeps(plan: &Plan, threads: usize, differences: &Differences) -> u64 {
    let (next, done) = (AtomicU64::new(0), AtomicU64::new(0));
    let began = Instant::now();
    let mut said = Duration::ZERO;
    thread::scope(|scope| {
        let workers: Vec<_> = (0..threads).map(|_| scope.spawn(|| work(plan, &next, &done, differences))).collect();
        while !workers.iter().all(|worker| worker.is_finished()) {
            thread::sleep(Duration::from_millis(50));
            let gone = began.elapsed();
            let pause = if said.is_zero() { 3 } else { 20 };
            if gone >= said + Duration::from_secs(pause) {
                said = gone;
                report::progress(done.load(Relaxed), plan.blocks(), gone, differences.count());
            }
        }
        workers.into_iter().map(|worker| worker.join().expect("a worker does not panic")).sum()
    })
}

/// Says which patterns were compared one by one.
fn print_patterns(plan: &Plan, edges32: u64, edges64: u64) {
    println!("f32: {} patterns{}", grouped(plan.all32), if plan.all32 == 1 << 32 { ", which are all" } else { "" });
    println!(
        "f64: {} random patterns, and {} random subnormals, each number of bits with the same chance",
        grouped(plan.random64),
        grouped(plan.subnormal64)
    );
    println!("  each at both entries, in a buffer of 25 to 64 or 4,096 bytes in turn, and in one of 0 to 24 bytes");
    println!("every exponent with the first, second, middle and last significand and both signs:");
    println!(
        "  {} patterns of f32 and {} of f64, each at both entries in every one of these buffers",
        grouped(edges32),
        grouped(edges64)
    );
}

/// Says which rows were compared.
fn print_rows(plan: &Plan, edge_rows: u64) {
    println!(
        "rows of f32: {} of random lengths up to 4,097, of random patterns, those of every exponent, NaNs and infinities",
        grouped(plan.rows)
    );
    println!("  and {} of 0, 1, 2, 4,096 and 4,097 patterns, those of every exponent in turn", grouped(edge_rows));
    println!("  each in a buffer of 0 bytes, of one too few, of 26 for each pattern, and of 1 to 64 more");
}

/// Says which texts were read.
fn print_texts(plan: &Plan) {
    println!("reading: the text of each pattern above at its width: the same pattern again, and one for all NaNs");
    println!("  {} texts of 1 to 64 bytes against Rust's parse, at both widths:", grouped(plan.texts));
    println!("    any digits with any point and exponent; numbers of 1e-400 to 1e400, many of them where a width ends;");
    println!("    points halfway between neighbours, to the last digit or the last that fits, and a little off; zeros and names");
    println!(
        "  {} texts of 1 to 3 bytes{}, at both widths",
        grouped(plan.short_texts),
        if plan.short_texts == ALL_SHORT { ", which are all" } else { "" }
    );
    println!("  {} damaged texts of 0 to 256 bytes, at both widths", grouped(plan.damaged_texts));
}

/// A sample, or everything.
fn plan(options: &Options) -> Plan {
    let all = Plan {
        seed: options.seed,
        all32: 1 << 32,
        random64: 500_000_000,
        subnormal64: 50_000_000,
        rows: 100_000,
        texts: 100_000_000,
        short_texts: ALL_SHORT,
        damaged_texts: 100_000_000,
    };
    if !options.quick {
        return all;
    }
    Plan {
        all32: 1 << 24,
        random64: 4_000_000,
        subnormal64: 1_000_000,
        rows: 1_000,
        texts: 1_000_000,
        short_texts: 1 << 20,
        damaged_texts: 1_000_000,
        ..all
    }
}

fn main() {
    let options = Options::read();
    let plan = plan(&options);
    let threads = thread::available_parallelism().map_or(1, |n| n.get());
    let differences = Differences::new();
    let began = Instant::now();
    println!("seed {:#018x}, threads {threads}{}", plan.seed, if options.quick { ", a sample only" } else { "" });

    let (mut caller, mut rows) = (Caller::new(&differences), Rows::new(&differences));
    let edges32 = compare_edges::<Binary32>(&mut caller);
    let edges64 = compare_edges::<Binary64>(&mut caller);
    let edge_rows = rows.compare_edges();
    let calls = caller.calls() + rows.calls + compare_sweeps(&plan, threads, &differences);

    print_patterns(&plan, edges32, edges64);
    print_rows(&plan, edge_rows);
    print_texts(&plan);
    println!("compare: {} differences in {} calls, {}", grouped(differences.count()), grouped(calls), duration(began.elapsed()));
    exit(i32::from(differences.count() > 0));
}
