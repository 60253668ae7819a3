//! The panel check on panels of some thousand ports, whatever their spread: sound ones, and such with
//! one thing wrong in a record of a lane's list or of the global one.
use crate::{
    calls::{Call, Kind},
    compare::Run,
    gen::Rng,
    rules,
    spec::{PortSpec, Spec},
    spread::{panel, Shape, SPREADS},
};
use std::collections::BTreeMap;

/// Where 64 records at a time, a table of samples and the small panels begin and end.
const EDGES: [u64; 8] = [0, 1, 63, 64, 65, 4095, 4096, 4097];

fn shape(rng: &mut Rng) -> Shape {
    let ports = if rng.one_in(8) { rng.pick(&EDGES) } else { rng.range(3_000, 20_000) };
    let lanes = match rng.below(4) {
        0 => 1,
        1 => rng.range(1, 8),
        2 => rng.range(1, 300),
        _ => rng.range(1, 4096),
    };
    let k = rng.pick(&[1, 2, 7, 8, 9, 12, 15, 16, 17, 24, 31, 32]);
    let length = match rng.below(3) {
        0 => 2 * (ports / lanes + 1) + k + 2,
        1 => 100_000 + k,
        _ => u64::from(u32::MAX),
    };
    Shape { ports, lanes, length, k, words: rng.pick(&[0, 1, 3, 200]), spread: rng.pick(&SPREADS) }
}

/// The port of the global list is another one.
fn moved(rng: &mut Rng, spec: &Spec, port: &mut PortSpec) {
    match rng.below(6) {
        0 => port.reverse = !port.reverse,
        1 => port.anchor = port.anchor.saturating_sub(1),
        2 => port.anchor += 1,
        3 => port.source = rng.below(spec.lanes.len() as u64 + 1),
        4 => {
            let at = rng.below(spec.k) as usize;
            port.word[at] = rng.pick(b"ACGT");
        }
        _ => *port = rng.pick(&spec.ports),
    }
}

/// A byte of the record at `at` is another one.
fn damage(rng: &mut Rng, k: u64, image: &mut [u8], at: usize) {
    let size = k as usize + 17;
    match rng.below(4) {
        0 => image[at + rng.below(k) as usize] = rng.pick(b"ACGTacgtN\0"),
        1 => image[at + size - 1] = rng.pick(&[0, 1, 2, 255]),
        2 => image[at + rng.below(size as u64) as usize] ^= 1 << rng.below(8),
        _ => {
            let word = at + (k + 8 * rng.below(2)) as usize;
            image[word..word + 8].copy_from_slice(&u64::MAX.to_le_bytes());
        }
    }
}

fn image(rng: &mut Rng) -> Vec<u8> {
    let shape = shape(rng);
    let spec = panel(rng, &shape);
    let (n, size) = (spec.ports.len(), spec.k as usize + 17);
    if n == 0 {
        return spec.image();
    }
    let mut global = spec.ports.clone();
    if rng.one_in(4) {
        let i = rng.below(n as u64) as usize;
        moved(rng, &spec, &mut global[i]);
    }
    let mut image = spec.image_with(&global);
    let lists = image.len() - 2 * n * size;
    match rng.below(8) {
        // A record of one of the lists, or of both, damaged in the same way.
        0 => {
            let at = lists + rng.below(2 * n as u64) as usize * size;
            damage(rng, spec.k, &mut image, at);
        }
        1 => {
            let i = rng.below(n as u64) as usize;
            let old = image[lists + i * size..][..size].to_vec();
            let there = image[lists + n * size..].chunks(size).position(|r| r == &old[..]);
            damage(rng, spec.k, &mut image, lists + i * size);
            let new = image[lists + i * size..][..size].to_vec();
            if let Some(j) = there {
                image[lists + (n + j) * size..][..size].copy_from_slice(&new);
            }
        }
        // Two records of a list in each other's place, or one twice.
        2 => {
            let base = lists + rng.below(2) as usize * n * size;
            let i = rng.below(n as u64) as usize;
            let j = if rng.one_in(2) { (i + 1) % n } else { rng.below(n as u64) as usize };
            let one = image[base + i * size..][..size].to_vec();
            let other = image[base + j * size..][..size].to_vec();
            image[base + j * size..][..size].copy_from_slice(&one);
            if rng.one_in(2) {
                image[base + i * size..][..size].copy_from_slice(&other);
            }
        }
        _ => (),
    }
    image
}

pub fn hold(run: &Run) -> Result<(), ()> {
    let subject = run.subject();
    let mut met: BTreeMap<u64, u64> = BTreeMap::new();
    for index in run.from..run.from + run.count {
        let image = image(&mut Rng::new(run.seed, 15, index));
        let wanted = rules::panel(&image);
        *met.entry(wanted).or_default() += 1;
        if subject.has(Kind::Panel) {
            let found = subject.make(&image, &Call::Panel).reply;
            if found != [wanted, 0] {
                println!("DIFFERENCE in panels, input {index} of seed {}: {found:?}, not {wanted}", run.seed);
                return Err(());
            }
        }
    }
    let met: Vec<String> = met.iter().map(|(number, n)| format!("{number}:{n}")).collect();
    let asked = if subject.has(Kind::Panel) { "no difference" } else { "no call linked" };
    println!("panels: {} of up to 20,000 ports, {asked}; refusals {}", run.count, met.join(" "));
    Ok(())
}
