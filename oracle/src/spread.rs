//! Panels of many ports, which stand on their lanes in one way or another.
use crate::{
    gen::{random_word, Rng},
    spec::{PortSpec, Spec},
};

/// How the ports of a lane stand on it.
#[derive(Clone, Copy, Debug)]
pub enum Spread {
    /// At equal distances.
    Even,
    /// Anywhere.
    Uniform,
    /// Most of them at the lane's start, fewer and fewer behind.
    Exponential,
    /// Most of them at the lane's end.
    Logarithmic,
    /// One behind the other from the lane's first base on, and the rest of the lane bare.
    Start,
    /// A hundred one behind the other, anywhere.
    Clumps,
}

pub const SPREADS: [Spread; 6] =
    [Spread::Even, Spread::Uniform, Spread::Exponential, Spread::Logarithmic, Spread::Start, Spread::Clumps];

impl Spread {
    pub fn name(self) -> &'static str {
        match self {
            Spread::Even => "even",
            Spread::Uniform => "anywhere",
            Spread::Exponential => "exponential",
            Spread::Logarithmic => "logarithmic",
            Spread::Start => "all at the start",
            Spread::Clumps => "in clumps of 100",
        }
    }

    /// So many anchors, rising, none past `last`; `last` is at least twice as many.
    fn anchors(self, rng: &mut Rng, n: u64, last: u64) -> Vec<u64> {
        const STEEP: f64 = 10.0;
        let part = |rng: &mut Rng| rng.below(1 << 53) as f64 / (1u64 << 53) as f64;
        let scaled = |x: f64| (x * last as f64) as u64;
        let mut anchors: Vec<u64> = match self {
            Spread::Even => (0..n).map(|i| i * last / n).collect(),
            Spread::Uniform => (0..n).map(|_| rng.range(0, last)).collect(),
            Spread::Exponential => {
                (0..n).map(|_| scaled((part(rng) * STEEP).exp_m1() / STEEP.exp_m1())).collect()
            }
            Spread::Logarithmic => {
                (0..n).map(|_| scaled((part(rng) * STEEP.exp_m1()).ln_1p() / STEEP)).collect()
            }
            Spread::Start => (0..n).collect(),
            Spread::Clumps => {
                let starts: Vec<u64> = (0..n.div_ceil(100)).map(|_| rng.range(0, last)).collect();
                (0..n).map(|i| starts[(i / 100) as usize] + i % 100).collect()
            }
        };
        anchors.sort_unstable();
        // No two at one place, and none past the last.
        for i in 1..anchors.len() {
            anchors[i] = anchors[i].max(anchors[i - 1] + 1);
        }
        for (left, anchor) in anchors.iter_mut().rev().enumerate() {
            *anchor = (*anchor).min(last - left as u64);
        }
        anchors
    }
}

pub struct Shape {
    pub ports: u64,
    pub lanes: u64,
    pub length: u64,
    pub k: u64,
    /// How many words there are; 0: each port has one of its own.
    pub words: u64,
    pub spread: Spread,
}

/// A sound panel, with as many ports on each lane, or one less.
pub fn panel(rng: &mut Rng, shape: &Shape) -> Spec {
    let Shape { ports: n, lanes, length, k, words, spread } = *shape;
    let pool: Vec<Vec<u8>> = (0..words).map(|_| random_word(rng, k, 4)).collect();
    let mut ports = Vec::with_capacity(n as usize);
    for source in 0..lanes {
        let own = n * (source + 1) / lanes - n * source / lanes;
        for anchor in spread.anchors(rng, own, length - k) {
            let word = if words == 0 { random_word(rng, k, 4) } else { rng.pick(&pool) };
            ports.push(PortSpec { word, source, anchor, reverse: rng.one_in(2) });
        }
    }
    let lanes = (0..lanes).map(|l| (length, l)).collect();
    Spec { k, lanes, families: vec![vec![0]], ports }
}
