//! The numbers that are printed.

use crate::random::{random, subnormal};

/// So many turns go through the numbers of a workload: too many numbers for the processor to learn by heart, few enough for its
/// cache.
pub const TURNS: usize = 25;

/// So many numbers are printed in a turn, which takes under a millisecond, so that most turns meet nothing else that the machine
/// does.
const TURN: usize = 4_000;

/// A turn of the workload of rows is one row, as long as a row may be.
pub const ROW: usize = 4_096;

pub enum Numbers {
    F64(Vec<f64>),
    F32(Vec<f32>),
    Rows(Vec<f32>),
}

impl Numbers {
    /// How many of them are printed in a turn.
    pub fn turn(&self) -> usize {
        match self {
            Numbers::Rows(_) => ROW,
            _ => TURN,
        }
    }
}

pub struct Workload {
    pub name: &'static str,
    pub numbers: Numbers,
}

/// A number in [-100, 9000], evenly spread.
fn height(n: u64) -> f64 {
    let unit = (random(1, n) >> 11) as f64 / (1u64 << 53) as f64;
    unit * 9100.0 - 100.0
}

fn f64s(number: impl Fn(u64) -> f64) -> Numbers {
    Numbers::F64((0..(TURNS * TURN) as u64).map(number).collect())
}

fn f32s(number: impl Fn(u64) -> f32) -> Numbers {
    Numbers::F32((0..(TURNS * TURN) as u64).map(number).collect())
}

fn rows(number: impl Fn(u64) -> f32) -> Numbers {
    Numbers::Rows((0..(TURNS * ROW) as u64).map(number).collect())
}

pub fn workloads() -> [Workload; 8] {
    [
        Workload { name: "f64, random bits", numbers: f64s(|n| f64::from_bits(random(0, n))) },
        Workload { name: "f64, -100 to 9000", numbers: f64s(height) },
        Workload { name: "f32, random bits", numbers: f32s(|n| f32::from_bits(random(0, n) as u32)) },
        Workload { name: "f32 heights, rounded to 1/64", numbers: f32s(|n| (height(n) * 64.0).round() as f32 / 64.0) },
        Workload { name: "f32 heights", numbers: f32s(|n| height(n) as f32) },
        Workload { name: "f64 subnormals", numbers: f64s(|n| f64::from_bits(subnormal(2, n, 52))) },
        Workload { name: "f32 subnormals", numbers: f32s(|n| f32::from_bits(subnormal(2, n, 23) as u32)) },
        Workload { name: "row of 4,096 f32 heights", numbers: rows(|n| height(n) as f32) },
    ]
}
