//! Random numbers that a seed settles: SplitMix64, by Steele, Lea and Flood.

/// The number that stands at place `n` of the seed's sequence.
pub fn random(seed: u64, n: u64) -> u64 {
    let state = seed.wrapping_add(n.wrapping_add(1).wrapping_mul(0x9e37_79b9_7f4a_7c15));
    let mixed = (state ^ state >> 30).wrapping_mul(0xbf58_476d_1ce4_e5b9);
    let mixed = (mixed ^ mixed >> 27).wrapping_mul(0x94d0_49bb_1331_11eb);
    mixed ^ mixed >> 31
}

/// The pattern of a random subnormal above zero, of 1 to `most` significant bits: each number of them has the same chance.
#[allow(dead_code)] // a program may have no use for it
pub fn subnormal(seed: u64, n: u64, most: u64) -> u64 {
    let bits = 1 + random(seed, 2 * n) % most;
    1 << (bits - 1) | random(seed, 2 * n + 1) >> (64 - bits)
}
