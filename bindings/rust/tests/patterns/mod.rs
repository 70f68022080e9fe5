//! What the tests print beside numbers of their own choice.

/// Numbers of every size and both signs, the same at each run.
pub fn patterns() -> impl Iterator<Item = u64> {
    (1..=200_000u64).map(|n| {
        let mixed = (n ^ n << 29).wrapping_mul(0xbf58_476d_1ce4_e5b9);
        (mixed ^ mixed >> 32).wrapping_mul(0x94d0_49bb_1331_11eb)
    })
}
