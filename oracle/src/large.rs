//! Large panels: those of the benchmark, and the panel check on one of them.
use crate::{
    gen::Rng,
    library::Calls,
    plain, rules,
    spec::{PortSpec, Spec},
};
use std::time::Instant;

const K: u64 = 16;
const LANES: u64 = 8;
const LENGTH: u64 = 10_000;
const PORTS: u64 = 400;

/// 8 lanes of 10,000 bases with 400 ports each, k 16, words from a pool; DNA true to them.
pub fn pooled(seed: u64, pool: u64) -> Spec {
    let mut rng = Rng::new(seed, 200, pool);
    let words: Vec<Vec<u8>> = (0..pool).map(|_| (0..K).map(|_| rng.pick(b"ACGT")).collect()).collect();
    let mut ports = Vec::new();
    for source in 0..LANES {
        for i in 0..PORTS {
            let step = LENGTH / PORTS;
            let anchor = i * step + rng.below(step - K + 1);
            ports.push(PortSpec { word: rng.pick(&words), source, anchor, reverse: rng.one_in(2) });
        }
    }
    let families = (0..LANES).map(|l| vec![l]).collect();
    Spec { k: K, lanes: (0..LANES).map(|l| (LENGTH, l)).collect(), families, ports }
}

/// A panel of n ports on 64 lanes.
pub fn wide(seed: u64, n: u64) -> Spec {
    const WIDTH: u64 = 12;
    let mut rng = Rng::new(seed, 201, n);
    let each = n.div_ceil(64);
    let port = |i: u64, rng: &mut Rng| PortSpec {
        word: (0..WIDTH).map(|_| rng.pick(b"ACGT")).collect(),
        source: i / each,
        anchor: i % each,
        reverse: rng.one_in(2),
    };
    let ports: Vec<PortSpec> = (0..n).map(|i| port(i, &mut rng)).collect();
    let lanes = vec![(each + WIDTH, 0); 64];
    Spec { k: WIDTH, lanes, families: vec![vec![0]], ports }
}

/// The wide panel of n ports checked whole: accepted, and with its last global record a
/// stranger to its lane. Says whether the subject's answers are the judge's.
pub fn check(seed: u64, n: u64, subject: &Calls) -> bool {
    let mut image = wide(seed, n).image();
    let mut same = true;
    for what in ["sound", "its last global record moved by one"] {
        let start = Instant::now();
        let wanted = rules::panel(&image);
        let judged = start.elapsed().as_secs_f64();
        let start = Instant::now();
        let plain = plain::Panel::parse(&image).err().map_or(0, |r| r.number);
        println!(
            "{n} ports, {what}: refusal {wanted}, rules {judged:.2} s, plain {:.2} s",
            start.elapsed().as_secs_f64()
        );
        same &= plain == wanted;
        if let Some(check) = subject.panel {
            let start = Instant::now();
            // The image is a live slice.
            let reply = unsafe { check(image.as_ptr(), image.len()) };
            println!("    subject: refusal {}, {:.2} s", reply.refusal, start.elapsed().as_secs_f64());
            same &= reply.refusal == wanted && reply.place == 0;
        }
        let anchor = image.len() - 9;
        image[anchor] = image[anchor].wrapping_add(1);
    }
    same
}
