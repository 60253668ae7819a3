//! Inputs of the plain engine: panels whose walk is within reach, many with a deepest stack about
//! 64, and calls with from and room at the edges of the list.
use crate::{
    calls::Call,
    gen::{self, Rng, Size},
    judge::{self, REACH},
    plain::{Budget, Panel, Status},
    spec::{PortSpec, Spec},
};

/// Lanes with ports at rising anchors, each word in one place only unless it is given twice.
struct Build {
    spec: Spec,
    words: u64,
    /// The next anchor of each lane.
    free: Vec<u64>,
}

impl Build {
    fn new(rng: &mut Rng) -> Self {
        let k = rng.pick(&[4, 5, 6, 9, 16, 31]);
        Self { spec: Spec { k, lanes: vec![], families: vec![], ports: vec![] }, words: 0, free: vec![] }
    }

    fn lanes(&mut self, rng: &mut Rng, n: u64) -> Vec<u64> {
        let first = self.free.len() as u64;
        for _ in 0..n {
            self.spec.lanes.push((0, rng.below(3)));
            self.free.push(rng.below(3));
        }
        (first..first + n).collect()
    }

    /// A word that no port has; its number times an odd one, so that hubs are in no order.
    fn word(&mut self) -> Vec<u8> {
        self.words += 1;
        let n = self.words.wrapping_mul(0x9E37_79B9_7F4A_7C15);
        (0..self.spec.k).map(|i| b"ACGT"[(n >> (2 * i)) as usize % 4]).collect()
    }

    fn anchor(&mut self, rng: &mut Rng, lane: u64) -> u64 {
        let at = self.free[lane as usize] + rng.below(3);
        self.free[lane as usize] = at + 1;
        at
    }

    fn port(&mut self, word: &[u8], source: u64, anchor: u64, reverse: bool) {
        self.spec.ports.push(PortSpec { word: word.to_vec(), source, anchor, reverse });
    }

    /// Two equal forward ports: one place more on the way along this lane.
    fn pair(&mut self, rng: &mut Rng, lane: u64) {
        let word = self.word();
        for _ in 0..2 {
            let at = self.anchor(rng, lane);
            self.port(&word, lane, at, false);
        }
    }

    /// New lanes, each leading on to the next, the first one reached from `start`: so many places more,
    /// and one more where the last leads back.
    fn chain(&mut self, rng: &mut Rng, start: u64, lanes: u64, back: bool) -> Vec<u64> {
        let mut word = self.word();
        let at = self.anchor(rng, start);
        self.port(&word, start, at, false);
        let turned = rng.pick(&[0, 1, 3]);
        let all = self.lanes(rng, lanes);
        for &lane in &all {
            let (low, high) = (self.anchor(rng, lane), self.anchor(rng, lane));
            let reverse = turned > 0 && rng.one_in(turned);
            let (entry, exit) = if reverse { (high, low) } else { (low, high) };
            self.port(&word, lane, entry, reverse);
            word = self.word();
            self.port(&word, lane, exit, reverse);
        }
        if back {
            let at = self.anchor(rng, start);
            self.port(&word, start, at, false);
        }
        all
    }

    /// Lengths, and the lanes in any order.
    fn done(mut self, rng: &mut Rng) -> Spec {
        for (lane, free) in self.spec.lanes.iter_mut().zip(&self.free) {
            lane.0 = free + self.spec.k + rng.below(9);
        }
        let mut order: Vec<u64> = (0..self.free.len() as u64).collect();
        for i in (1..order.len()).rev() {
            order.swap(i, rng.below(i as u64 + 1) as usize);
        }
        let lanes = self.spec.lanes.clone();
        order.iter().zip(lanes).for_each(|(to, lane)| self.spec.lanes[*to as usize] = lane);
        self.spec.families.iter_mut().flatten().for_each(|x| *x = order[*x as usize]);
        self.spec.ports.iter_mut().for_each(|p| p.source = order[p.source as usize]);
        self.spec
    }
}

/// One family: slots, each of which is a descent, and pairs.
fn slots(b: &mut Build, rng: &mut Rng, depth: u64) {
    let paths = (depth - rng.below(4)).min(64);
    let targets = b.lanes(rng, paths);
    for _ in paths..depth {
        let lane = rng.pick(&targets);
        b.pair(rng, lane);
    }
    b.spec.families.push(targets);
}

/// One family of several slots, and a chain that one of them comes back from.
fn slots_and_chain(b: &mut Build, rng: &mut Rng, depth: u64) {
    let paths = rng.range(2, 50);
    let targets = b.lanes(rng, paths);
    let start = rng.pick(&targets);
    b.chain(rng, start, depth - paths - 1, true);
    if rng.one_in(4) {
        let lane = rng.pick(&targets);
        b.pair(rng, lane);
    }
    b.spec.families.push(targets);
}

/// A family of one lane, whose deepest chain comes behind others.
fn chains(b: &mut Build, rng: &mut Rng, depth: u64, others: u64) -> Vec<u64> {
    let start = b.lanes(rng, 1)[0];
    for _ in 0..others {
        let (short, back) = (rng.range(1, 20), rng.one_in(3));
        b.chain(rng, start, short, back);
    }
    let back = rng.one_in(2);
    b.spec.families.push(vec![start]);
    b.chain(rng, start, depth - 1 - u64::from(back), back)
}

/// A deep family before others or, mostly, behind them.
fn families(b: &mut Build, rng: &mut Rng, depth: u64) {
    let links = chains(b, rng, depth, 0);
    for _ in 0..rng.range(1, 4) {
        let (link, own) = (rng.pick(&links), b.lanes(rng, 1)[0]);
        if rng.one_in(2) {
            b.pair(rng, own);
        }
        b.spec.families.push(rng.pick(&[vec![link], vec![own], vec![link, own], vec![own, link]]));
    }
    if !rng.one_in(3) {
        b.spec.families.rotate_left(1);
    }
}

/// A panel whose deepest stack is from 62 to 67, or near that.
fn about_64(rng: &mut Rng) -> Spec {
    let mut b = Build::new(rng);
    let depth = rng.range(62, 67);
    match rng.below(5) {
        0 => slots(&mut b, rng, depth),
        1 => slots_and_chain(&mut b, rng, depth),
        2 => families(&mut b, rng, depth),
        others => drop(chains(&mut b, rng, depth, 2 * (others - 3))),
    }
    b.done(rng)
}

/// A panel that passes 1 to 8, with ports taken out until its walk is within reach.
pub fn panel(rng: &mut Rng, size: Size) -> Spec {
    let deep = size == Size::Wide && rng.one_in(12);
    let mut spec = if deep { about_64(rng) } else { gen::sound(rng, size) };
    let most = match size {
        Size::Small => 300,
        _ if deep || rng.one_in(32) => REACH / 2,
        _ => 1_500,
    };
    while !spec.ports.is_empty() {
        let panel = Panel::parse(&spec.image()).expect("a sound panel");
        if gen::size_of(&panel, 64, most).2 != Status::Work {
            break;
        }
        let gone = rng.below(spec.ports.len() as u64);
        spec.ports.remove(gone as usize);
        spec.ports.retain(|_| !rng.one_in(5));
    }
    spec
}

/// The words of each assignment of the list, as far as a large room holds them.
fn lengths(image: &[u8]) -> Option<Vec<u64>> {
    let panel = Panel::parse(image).ok()?;
    let budget = Budget {
        max_work: REACH,
        max_evaluations: u64::MAX,
        max_frontier: 64,
        max_optima: 1,
        tie_width: 0.0,
    };
    let (mut frames, mut slot, mut out) = (vec![0; 650], vec![0; 322], vec![0; 50_000]);
    let natives = panel.families.len() as u64;
    let listing = panel.list(budget, natives, &mut frames, &mut slot, &mut out).ok()?;
    let words = &out[..listing.words as usize];
    Some(judge::assignments(words).into_iter().map(|a| a.len() as u64).collect())
}

pub fn call(rng: &mut Rng, image: &[u8]) -> Call {
    let list = lengths(image).unwrap_or(vec![7, 15]);
    let n = list.len() as u64;
    let from = match rng.below(8) {
        0..=3 => 0,
        4 => rng.pick(&[u64::MAX, 1 << 63, n, n + 1]),
        5 => n.saturating_sub(1),
        _ => rng.below(n + 2),
    };
    let rest = &list[from.min(n) as usize..];
    let some = rng.below(rest.len() as u64 + 1) as usize;
    let (some, whole): (u64, u64) = (rest[..some].iter().sum(), rest.iter().sum());
    let out = match rng.below(8) {
        0 => 0,
        1 => whole,
        2 => whole.saturating_sub(1),
        3 => some,
        4 => some.saturating_sub(1),
        5 => some + rng.below(7),
        _ => whole + rng.range(1, 40),
    };
    Call::Plain { from, out: out as usize }
}

/// Every from and room at an edge of the list, or beside one.
pub fn tiny_calls(image: &[u8]) -> Vec<Call> {
    let list = lengths(image).unwrap_or_default();
    let n = list.len();
    let mut calls = vec![Call::Plain { from: u64::MAX, out: 9 }];
    for from in (0..n + 2).filter(|f| *f < 2 || f + 2 > n) {
        let rest = &list[from.min(n)..];
        let ends = [0, 1, 2, rest.len()].map(|e| rest.iter().take(e).sum::<u64>() as usize);
        let mut rooms: Vec<usize> = ends.into_iter().flat_map(|e| [e.saturating_sub(1), e, e + 1]).collect();
        rooms.sort_unstable();
        rooms.dedup();
        calls.extend(rooms.into_iter().map(|out| Call::Plain { from: from as u64, out }));
    }
    calls
}

/// Whether a walk that does not stop at 64 ends soon: an engine that is wrong there comes back.
pub fn is_short(image: &[u8]) -> bool {
    let end = |panel| gen::size_of(&panel, 1_024, REACH).2;
    Panel::parse(image).map_or(true, |panel| end(panel) == Status::Certified)
}

/// How many assignments the list of an accepted panel has.
pub fn count(image: &[u8]) -> u64 {
    let panel = Panel::parse(image).expect("an accepted panel");
    gen::size_of(&panel, 64, REACH).1 - panel.families.len() as u64
}

/// Whether the deepest stack on an accepted panel has so many frames.
pub fn is_depth(image: &[u8], n: u64) -> bool {
    let panel = Panel::parse(image).expect("an accepted panel");
    let end = |frontier| gen::size_of(&panel, frontier, REACH).2;
    end(n - 1) == Status::Frontier && end(n) == Status::Certified
}
