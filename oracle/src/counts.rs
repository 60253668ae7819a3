//! Inputs of the lower bound: counts and a background, bunched where its operations round, stop
//! being finite, or are refused.
use crate::{
    calls::Call,
    gen::{Rng, Size},
};

/// The largest count that is not refused.
const TOP: u64 = (1 << 53) - 1;
const INFINITY: u64 = 0x7ff << 52;

/// A count that is not refused.
fn count(rng: &mut Rng, background: f64) -> u64 {
    // The whole number at the background or below it, where there is one.
    let near = (background as u64).min(TOP);
    let by = rng.below(3);
    match rng.below(12) {
        0 => 0,
        1 => 1,
        2 => TOP - by,
        3 => near,
        4 => (near + by).min(TOP),
        5 => near.saturating_sub(by),
        6 => 1 << rng.below(53),
        7 => rng.below(TOP + 1),
        8 => (near + rng.skewed(1 << 20)).min(TOP),
        _ => rng.skewed(1 << 12),
    }
}

/// The bits of a double above 0 whose exponent's field is one of these.
fn with_exponent(rng: &mut Rng, lo: u64, hi: u64) -> u64 {
    rng.range(lo, hi) << 52 | rng.next() >> 12
}

/// A background's bits; about one in sixteen is refused.
fn background(rng: &mut Rng) -> u64 {
    let by = rng.below(3);
    match rng.below(32) {
        0 => rng.pick(&[0, 1 << 63, INFINITY, INFINITY | 1 << 63, f64::NAN.to_bits(), (-1f64).to_bits()]),
        1 => rng.next() | (1 << 63),
        2 => rng.pick(&[1, 2, (1 << 52) - 1, 1 << 52, (1 << 52) + 1]),
        3 | 4 => rng.next() >> rng.range(12, 63),
        5 => INFINITY - 1 - by,
        6 | 7 => rng.below(INFINITY),
        // Where the terms of large counts come near the largest double, and their sum passes it.
        8..=11 => with_exponent(rng, 90, 115),
        12..=14 => with_exponent(rng, 1, 60),
        15..=17 => rng.pick(&[0.1f64, 0.25, 0.5, 1.0, 2.5, 3.0, 1.0 / 3.0, 1e-3, 1e300]).to_bits(),
        // A whole number, and the doubles beside it.
        18..=22 => (rng.skewed(TOP) as f64).max(1.0).to_bits() + by - 1,
        23 => (rng.pick(&[1 << 52, TOP, TOP + 1]) as f64).to_bits() + by - 1,
        _ => with_exponent(rng, 1010, 1080),
    }
}

/// A count whose term is the largest double, give or take a few; now and then more behind it.
fn edge(rng: &mut Rng) -> Call {
    let count = 1 + rng.skewed(TOP - 1);
    let square = count as f64 * count as f64;
    let background = (square / f64::MAX).to_bits() + rng.range(0, 20) - 8;
    let mut counts = vec![count];
    counts.extend((0..rng.below(3)).map(|_| rng.skewed(TOP)));
    Call::Bound { counts, background }
}

pub fn call(rng: &mut Rng, size: Size) -> Call {
    if rng.one_in(16) {
        return edge(rng);
    }
    let background = background(rng);
    let n = match (rng.below(16), size) {
        (0, _) => 0,
        (1..=4, _) => 1,
        (5..=9, _) => rng.range(2, 4),
        (10, Size::Wide) => rng.range(100, 400),
        (_, Size::Wide) => rng.range(5, 40),
        (_, Size::Small) => rng.range(5, 9),
    };
    let mut counts: Vec<u64> = (0..n).map(|_| count(rng, f64::from_bits(background))).collect();
    if n > 0 && rng.one_in(16) {
        let at = rng.below(n) as usize;
        counts[at] = rng.pick(&[TOP + 1, TOP + 2, 1 << 63, u64::MAX, u64::MAX >> 10]);
    }
    Call::Bound { counts, background }
}
