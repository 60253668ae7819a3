//! Inputs for the calls, each determined by a seed, a kind and a number.
use crate::{
    calls::{Call, Kind},
    counts, deep, lettered, named, plain,
    rules::{needs_of, BudgetWords},
    spec::{PortSpec, Spec},
};

/// SplitMix64.
pub struct Rng(u64);

impl Rng {
    pub fn new(seed: u64, stream: u64, index: u64) -> Self {
        let mut rng = Self(seed ^ stream.rotate_left(32) ^ index.wrapping_mul(0xD6E8_FEB8_6659_FD93));
        rng.next();
        Self(rng.next() ^ index)
    }
    pub fn next(&mut self) -> u64 {
        self.0 = self.0.wrapping_add(0x9E37_79B9_7F4A_7C15);
        let mut z = self.0;
        z = (z ^ (z >> 30)).wrapping_mul(0xBF58_476D_1CE4_E5B9);
        z = (z ^ (z >> 27)).wrapping_mul(0x94D0_49BB_1331_11EB);
        z ^ (z >> 31)
    }
    pub fn below(&mut self, n: u64) -> u64 {
        self.next() % n.max(1)
    }
    /// Both ends belong to it.
    pub fn range(&mut self, lo: u64, hi: u64) -> u64 {
        lo + self.below(hi - lo + 1)
    }
    pub fn one_in(&mut self, n: u64) -> bool {
        self.below(n) == 0
    }
    pub fn pick<T: Clone>(&mut self, of: &[T]) -> T {
        of[self.below(of.len() as u64) as usize].clone()
    }
    /// Small numbers more often than large ones.
    pub fn skewed(&mut self, most: u64) -> u64 {
        let bits = 64 - most.leading_zeros() as u64;
        let top = 1u64.checked_shl(self.range(0, bits) as u32).unwrap_or(u64::MAX);
        self.below(top.min(most) + 1)
    }
}

/// Damage done to an image, byte by byte; what lies outside it is passed over.
#[derive(Clone, Debug, PartialEq)]
pub enum Edit {
    Byte { at: usize, value: u8 },
    Word { at: usize, value: u64 },
    Truncate(usize),
    Extend(usize),
    Swap { a: usize, b: usize, len: usize },
    Copy { from: usize, to: usize, len: usize },
}

impl Edit {
    fn apply(&self, image: &mut Vec<u8>) {
        let fits = |at: usize, len: usize| at.checked_add(len).is_some_and(|e| e <= image.len());
        match *self {
            Edit::Byte { at, value } if fits(at, 1) => image[at] = value,
            Edit::Word { at, value } if fits(at, 8) => {
                image[at..at + 8].copy_from_slice(&value.to_le_bytes())
            }
            Edit::Truncate(len) => image.truncate(len),
            Edit::Extend(n) => image.extend(std::iter::repeat(b'A').take(n)),
            Edit::Swap { a, b, len } if fits(a, len) && fits(b, len) => {
                (0..len).for_each(|i| image.swap(a + i, b + i))
            }
            Edit::Copy { from, to, len } if fits(from, len) && fits(to, len) => {
                image.copy_within(from..from + len, to)
            }
            _ => {}
        }
    }
}

/// A panel, what was done to it, and the call.
#[derive(Clone, Debug, PartialEq)]
pub struct Input {
    pub spec: Spec,
    pub edits: Vec<Edit>,
    pub call: Call,
}

impl Input {
    pub fn image(&self) -> Vec<u8> {
        let mut image = self.spec.image();
        self.edits.iter().for_each(|e| e.apply(&mut image));
        image
    }
}

/// How wide the panels are: small ones are for recording.
#[derive(Clone, Copy, PartialEq)]
pub enum Size {
    Small,
    Wide,
}

const LETTERS: &[u8] = b"ACGT";
const TOP: u64 = 4_294_967_295;

pub fn turned(word: &[u8]) -> Vec<u8> {
    let other = |b: &u8| LETTERS[3 - LETTERS.iter().position(|l| l == b).unwrap()];
    word.iter().rev().map(other).collect()
}

pub fn random_word(rng: &mut Rng, k: u64, letters: u64) -> Vec<u8> {
    (0..k).map(|_| LETTERS[rng.below(letters) as usize]).collect()
}

fn lane_length(rng: &mut Rng, k: u64, size: Size) -> u64 {
    match rng.below(if size == Size::Small { 10 } else { 16 }) {
        0 => rng.range(1, k + 3),
        1..=8 => k + rng.below(15),
        9 => rng.range(20, 90),
        10 | 11 => rng.range(100, 400),
        12 => TOP,
        13 => rng.pick(&[(1 << 31) - 1, 1 << 31, (1 << 31) + k, TOP - 1]),
        14 => rng.range(1 << 31, TOP),
        _ => rng.range(1 << 16, 1 << 24),
    }
}

/// Anchors that lie in a lane, bunched where numbers turn over.
fn anchor(rng: &mut Rng, length: u64, k: u64) -> u64 {
    let last = length - k;
    let near = match rng.below(6) {
        0 => 0,
        1 => last,
        2 if last > 1 << 31 => (1 << 31) - k,
        _ => return rng.below(last.min(1 << 20) + 1),
    };
    (near + rng.below(24)).saturating_sub(rng.below(24)).min(last)
}

/// A panel that passes 1 to 8.
pub fn sound(rng: &mut Rng, size: Size) -> Spec {
    let k = match (rng.below(10), size) {
        (0..=1, _) => 1,
        (2..=4, _) => 2,
        (5, _) => 3,
        (6, _) => 5,
        (_, Size::Small) => rng.range(1, 6),
        (7, _) => rng.range(1, 32),
        (8, _) => rng.pick(&[16, 31, 32]),
        _ => rng.range(4, 9),
    };
    let lanes = if size == Size::Wide && rng.one_in(30) {
        rng.range(5, 30)
    } else {
        rng.pick(&[1, 2, 2, 2, 3, 3, 4])
    };
    let identities = rng.range(1, lanes + 1);
    let lanes: Vec<(u64, u64)> = (0..lanes)
        .map(|_| {
            let identity =
                if rng.one_in(20) { rng.pick(&[u64::MAX, 1 << 63]) } else { rng.below(identities) };
            (lane_length(rng, k, size), identity)
        })
        .collect();
    let families = match rng.below(12) {
        0 => 0,
        1..=6 => 1,
        7..=9 => 2,
        10 => 3,
        _ if size == Size::Wide => rng.range(1, 12),
        _ => 1,
    };
    let families = (0..families).map(|_| family(rng, lanes.len() as u64)).collect();
    let mut spec = Spec { k, lanes, families, ports: Vec::new() };
    let style = rng.below(10);
    let pool: Vec<Vec<u8>> = (0..rng.range(1, 4)).map(|_| random_word(rng, k, 4)).collect();
    let most = match rng.below(20) {
        0 if size == Size::Wide => 40,
        0..=3 => 2,
        4..=12 => 4,
        _ => 8,
    };
    for lane in 0..spec.lanes.len() {
        let length = spec.lanes[lane].0;
        if length < k {
            continue;
        }
        match style {
            0..=3 => sites(rng, &mut spec, lane as u64, length, &pool, most),
            4..=6 if length <= 100 => dense(rng, &mut spec, lane as u64, length, most),
            _ => scattered(rng, &mut spec, lane as u64, length, &pool, most),
        }
    }
    spec
}

pub fn family(rng: &mut Rng, lanes: u64) -> Vec<u64> {
    let mut all: Vec<u64> = (0..lanes).collect();
    for i in (1..all.len()).rev() {
        all.swap(i, rng.below(i as u64 + 1) as usize);
    }
    let paths = match rng.below(10) {
        0..=5 => 1,
        6..=7 => 2,
        8 => 3,
        _ => lanes,
    };
    all.truncate(paths.clamp(1, 64) as usize);
    all
}

/// Words planted apart from each other, forward or turned: DNA is true to the ports.
fn sites(rng: &mut Rng, spec: &mut Spec, lane: u64, length: u64, pool: &[Vec<u8>], most: u64) {
    let mut anchors: Vec<u64> = (0..rng.below(most + 1)).map(|_| anchor(rng, length, spec.k)).collect();
    anchors.sort_unstable();
    let mut free = 0;
    for a in anchors {
        if a < free {
            continue;
        }
        free = a + spec.k;
        let motif = rng.pick(pool);
        let here = if rng.one_in(3) { turned(&motif) } else { motif };
        push(spec, lane, a, !rng.one_in(4), &here, false);
        push(spec, lane, a, rng.one_in(2), &turned(&here), true);
    }
}

fn push(spec: &mut Spec, source: u64, anchor: u64, declared: bool, word: &[u8], reverse: bool) {
    if declared {
        spec.ports.push(PortSpec { word: word.to_vec(), source, anchor, reverse });
    }
}

/// A lane with its whole DNA, and ports that spell it.
fn dense(rng: &mut Rng, spec: &mut Spec, lane: u64, length: u64, most: u64) {
    let letters = rng.range(1, 4);
    let dna = random_word(rng, length, letters);
    let all = length - spec.k + 1;
    for a in 0..all {
        let here = dna[a as usize..(a + spec.k) as usize].to_vec();
        let (forward, reverse) = (rng.below(all) < most, rng.below(2 * all) < most);
        push(spec, lane, a, forward, &here, false);
        push(spec, lane, a, reverse, &turned(&here), true);
    }
}

/// Words anywhere: mostly no DNA is true to them.
fn scattered(rng: &mut Rng, spec: &mut Spec, lane: u64, length: u64, pool: &[Vec<u8>], most: u64) {
    let mut places: Vec<(u64, bool)> =
        (0..rng.below(most + 1)).map(|_| (anchor(rng, length, spec.k), rng.one_in(2))).collect();
    places.sort_unstable();
    places.dedup();
    for (a, reverse) in places {
        push(spec, lane, a, true, &rng.pick(pool), reverse);
    }
}

/// Makes a sound panel unsound in one of its parts, keeping the image packed.
fn spoil(rng: &mut Rng, spec: &mut Spec) {
    let lane = rng.below(spec.lanes.len() as u64) as usize;
    match rng.below(12) {
        0 => {
            spec.k = rng.pick(&[0, 33]);
            let k = spec.k as usize;
            spec.ports.iter_mut().for_each(|p| p.word.resize(k, b'A'));
        }
        1 => spec.lanes[lane].0 = rng.pick(&[0, TOP + 1, u64::MAX, 1 << 63]),
        2 => spec.families.push(vec![]),
        3 => {
            let wide = spec.lanes.len().max(66);
            spec.lanes.resize(wide, (10, 0));
            let paths = rng.range(63, 66);
            spec.families.push((0..paths).collect());
        }
        4 => {
            let lane = rng.pick(&[spec.lanes.len() as u64, u64::MAX, 0]);
            spec.families.push(vec![lane]);
        }
        5 => {
            let mut paths = family(rng, spec.lanes.len() as u64);
            paths.push(rng.pick(&paths));
            spec.families.push(paths);
        }
        6 if rng.one_in(20) => {
            let lanes = rng.range(4095, 4098) as usize;
            spec.lanes.resize(lanes, (10, 0));
        }
        7 if rng.one_in(20) => {
            let families = rng.range(4095, 4098) as usize;
            spec.families.resize(families, vec![0]);
        }
        8 if !spec.ports.is_empty() => {
            let mut twin = rng.pick(&spec.ports);
            twin.word = random_word(rng, spec.k, 4);
            spec.ports.push(twin);
        }
        _ if !spec.ports.is_empty() => {
            let i = rng.below(spec.ports.len() as u64) as usize;
            let k = spec.k;
            let p = &mut spec.ports[i];
            let length = spec.lanes[p.source as usize].0;
            p.anchor = rng.pick(&[length - k + 1, length, u64::MAX, u64::MAX - k + 1, u64::MAX - k + 2]);
        }
        _ => spec.lanes.clear(),
    }
}

pub fn word_near(rng: &mut Rng, old: u64) -> u64 {
    match rng.below(16) {
        0..=2 => old.wrapping_add(1),
        3..=5 => old.wrapping_sub(1),
        6 => 0,
        7 => u64::MAX,
        8 => 1 << 63,
        9 => old ^ (1 << 63),
        10 => old.wrapping_neg(),
        11 => rng.pick(&[32, 33, 64, 65, 4096, 4097, 4_194_304, 4_194_305, TOP, TOP + 1]),
        12 => old.wrapping_add(rng.range(2, 8)),
        13 => rng.below(16),
        _ => old ^ (1 << rng.below(64)),
    }
}

/// Bytes of an image changed so that one refusal or another is near.
fn damage(rng: &mut Rng, spec: &Spec, edits: &mut Vec<Edit>) {
    let image = spec.image();
    let (lanes, families) = (spec.lanes.len(), spec.families.len());
    let t: usize = spec.families.iter().map(Vec::len).sum();
    let (families_at, paths_at) = (80 + 24 * lanes, 80 + 24 * lanes + 8 * families);
    let records = paths_at + 8 * t;
    let (n, width) = (spec.ports.len(), spec.k as usize + 17);
    let old = |at: usize| u64::from_le_bytes(image[at..at + 8].try_into().unwrap());
    // A word to change is only named here, and changed at the end.
    let mut change = None;
    match rng.below(16) {
        0 => change = Some(8 * rng_index(rng, 5)),
        1 => change = Some(40 + 8 * rng_index(rng, 5)),
        2 => change = Some(80 + 24 * rng_index(rng, lanes) + 8 * rng_index(rng, 2)),
        3 if lanes > 1 => {
            // Two counts that add up only where a sum wraps.
            let (a, b) = (80 + 24 * rng_index(rng, lanes) + 8, 80 + 24 * rng_index(rng, lanes) + 8);
            for at in [a, b] {
                edits.push(Edit::Word { at, value: old(at) ^ (1 << 63) });
            }
        }
        4 if t > 0 => change = Some(families_at + 8 * rng_index(rng, families + t)),
        5 => edits.push(Edit::Truncate(image.len() - 1 - rng_index(rng, image.len().min(40)))),
        6 => edits.push(Edit::Extend(rng.range(1, 30) as usize)),
        7 => edits.push(Edit::Truncate(rng.pick(&[0, 1, 8, 79, 80, 81]))),
        8..=14 if n > 0 => {
            let k = spec.k as usize;
            let (i, j) = (rng_index(rng, 2 * n), rng_index(rng, 2 * n));
            let at = records + i * width;
            let byte = |at: usize, value: u8| Edit::Byte { at, value };
            match rng.below(8) {
                0 => {
                    let letter = at + rng_index(rng, k);
                    edits.push(byte(letter, rng.pick(b"ACGTNacgt\0\xff@BUZ")));
                }
                1 => edits.push(byte(at + width - 1, rng.pick(&[0, 1, 2, 128, 255]))),
                2 => change = Some(at + k),
                3 | 4 => change = Some(at + k + 8),
                5 => edits.push(Edit::Swap { a: at, b: records + j * width, len: width }),
                6 => edits.push(Edit::Copy { from: at, to: records + j * width, len: width }),
                _ => {
                    // In the global list only, where order often still holds: near 8.
                    let at = records + (n + i % n) * width;
                    match rng.below(3) {
                        0 => edits.push(byte(at + width - 1, 1 - image[at + width - 1])),
                        1 => change = Some(at + k + 8),
                        _ => edits.push(byte((at + k).saturating_sub(1), rng.pick(LETTERS))),
                    }
                }
            }
        }
        _ => {
            let at = rng_index(rng, image.len());
            edits.push(Edit::Byte { at, value: image[at] ^ (1 << rng.below(8)) });
        }
    }
    if let Some(at) = change.filter(|at| at + 8 <= image.len()) {
        edits.push(Edit::Word { at, value: word_near(rng, old(at)) });
    }
}

pub fn rng_index(rng: &mut Rng, n: usize) -> usize {
    rng.below(n as u64) as usize
}

fn port_call(rng: &mut Rng, spec: &Spec) -> Call {
    let mut lane = rng.below(spec.lanes.len().max(1) as u64);
    let mut cut = rng.skewed(TOP);
    let mut reverse = rng.one_in(2);
    if !spec.ports.is_empty() && !rng.one_in(5) {
        let p = rng.pick(&spec.ports);
        (lane, cut) = (p.source, spec.cut(&p));
        reverse = p.reverse;
        match rng.below(8) {
            0 => reverse = !reverse,
            1 => cut = cut.wrapping_add(1),
            2 => cut = cut.wrapping_sub(1),
            3 => cut = p.anchor,
            _ => {}
        }
    }
    if rng.one_in(12) {
        cut = word_near(rng, cut);
    }
    if rng.one_in(12) {
        lane = rng.pick(&[spec.lanes.len() as u64, u64::MAX, 1 << 63]);
    }
    Call::Port { lane, cut, reverse }
}

fn bucket_call(rng: &mut Rng, spec: &Spec) -> Call {
    let mut word = match rng.below(4) {
        0 => random_word(rng, spec.k, 4),
        _ if spec.ports.is_empty() => random_word(rng, spec.k, 2),
        _ => rng.pick(&spec.ports).word,
    };
    if rng.one_in(3) && !word.is_empty() {
        let at = rng_index(rng, word.len());
        word[at] = rng.pick(b"ACGT\0\xff@BFUZac");
    }
    if rng.one_in(12) {
        let length = rng.pick(&[0, word.len().saturating_sub(1), word.len() + 1, 33, 40, 100]);
        word.resize(length, b'A');
    }
    Call::Bucket { word }
}

/// Segments that begin at a route's start and hop along ports, mostly by the rules.
fn hopping(rng: &mut Rng, spec: &Spec, target: u64) -> Vec<[u64; 4]> {
    let (mut lane, mut cut, mut reverse) = (target, 0u64, false);
    let mut route = Vec::new();
    for _ in 0..rng.below(5) {
        let wild = rng.one_in(6);
        let out: Vec<&PortSpec> = spec
            .ports
            .iter()
            .filter(|p| p.source == lane && (wild || p.reverse == reverse))
            .filter(|p| wild || if reverse { spec.cut(p) < cut } else { spec.cut(p) > cut })
            .collect();
        if out.is_empty() {
            break;
        }
        let p = rng.pick(&out);
        let wild = rng.one_in(4);
        let into: Vec<&PortSpec> = spec.ports.iter().filter(|q| wild || q.word == p.word).collect();
        let q = rng.pick(&into);
        let to = spec.cut(p);
        route.push([lane, cut.min(to), cut.max(to), u64::from(reverse)]);
        (lane, cut, reverse) = (q.source, spec.cut(q), q.reverse);
    }
    let length = spec.lanes[lane as usize].0;
    route.push([lane, cut.min(length), length, u64::from(reverse)]);
    route
}

pub fn to_words(family: u64, routes: &[Vec<[u64; 4]>]) -> Vec<u64> {
    let mut words = vec![family, routes.len() as u64];
    for r in routes {
        words.push(r.len() as u64);
        words.extend(r.iter().flatten());
    }
    words
}

/// Cuts a segment in two that the normal form joins again.
pub fn split(rng: &mut Rng, route: &mut Vec<[u64; 4]>) {
    let i = rng_index(rng, route.len());
    let [lane, start, end, reverse] = route[i];
    if end <= start || end - start < 2 {
        return;
    }
    let middle = start + 1 + rng.below(end - start - 1);
    let (low, high) = ([lane, start, middle, reverse], [lane, middle, end, reverse]);
    let parts = if reverse == 1 { [high, low] } else { [low, high] };
    route.splice(i..=i, parts);
}

/// The assignments that a short walk makes.
pub fn walked(spec: &Spec) -> Vec<Vec<u64>> {
    let Ok(panel) = plain::Panel::parse(&spec.image()) else { return Vec::new() };
    let budget =
        plain::Budget { max_work: 200, max_evaluations: 20, max_frontier: 12, max_optima: 1, tie_width: 0.0 };
    let (mut frames, mut slot, mut out) = (vec![0; 130], vec![0; 2 + 5 * 80], vec![0; 3000]);
    let Ok(listing) = panel.list(budget, 0, &mut frames, &mut slot, &mut out) else { return Vec::new() };
    crate::judge::assignments(&out[..listing.words as usize]).into_iter().map(Vec::from).collect()
}

pub fn routes_of(words: &[u64]) -> Vec<Vec<[u64; 4]>> {
    let mut at = 2;
    (0..words[1])
        .map(|_| {
            let n = words[at] as usize;
            let here = words[at + 1..at + 1 + 4 * n].chunks(4).map(|s| s.try_into().unwrap()).collect();
            at += 1 + 4 * n;
            here
        })
        .collect()
}

pub fn check_call(rng: &mut Rng, spec: &Spec, size: Size) -> Call {
    let mut family = rng.below(spec.families.len().max(1) as u64);
    let walked = if rng.one_in(2) { walked(spec) } else { Vec::new() };
    let mut routes: Vec<Vec<[u64; 4]>> = if walked.is_empty() {
        let targets = spec.families.get(family as usize).cloned().unwrap_or(vec![0]);
        let known = |t: &u64| (*t as usize) < spec.lanes.len();
        targets.iter().filter(|t| known(t)).map(|&t| hopping(rng, spec, t)).collect()
    } else {
        let words = rng.pick(&walked);
        family = words[0];
        routes_of(&words)
    };
    for _ in 0..rng.below(4) {
        if !routes.is_empty() {
            let r = rng_index(rng, routes.len());
            if !routes[r].is_empty() {
                split(rng, &mut routes[r]);
            }
        }
    }
    if size == Size::Wide && rng.one_in(1500) {
        long_routes(rng, spec, family, &mut routes);
    }
    if rng.one_in(3) && !routes.is_empty() {
        bend(rng, spec, &mut family, &mut routes);
    }
    let mut words = to_words(family, &routes);
    if rng.one_in(6) {
        match rng.below(6) {
            0 => words.truncate(rng_index(rng, words.len() + 1)),
            1 => words.push(rng.below(3)),
            2 => {
                let at = rng_index(rng, words.len().min(4));
                words[at] = word_near(rng, words[at]);
            }
            3 => words = (0..rng.below(16)).map(|_| rng.below(4)).collect(),
            _ => {
                let at = rng_index(rng, words.len());
                words[at] = word_near(rng, words[at]);
            }
        }
    }
    let out = match rng.below(12) {
        0 => words.len().saturating_sub(1),
        1 => rng_index(rng, words.len() + 1),
        2 => words.len() + 7,
        _ => words.len(),
    };
    Call::Check { words, out }
}

/// Near the bound of 65,536 words.
pub fn long_routes(rng: &mut Rng, spec: &Spec, family: u64, routes: &mut [Vec<[u64; 4]>]) {
    let Some(targets) = spec.families.get(family as usize) else { return };
    let Some(&[target]) = targets.get(..1).map(|t| <&[u64; 1]>::try_from(t).unwrap()) else { return };
    let length = spec.lanes.get(target as usize).map_or(0, |l| l.0);
    let others: usize = routes.iter().skip(1).map(|r| 1 + 4 * r.len()).sum();
    let n = ((65_536 - 3 - others) / 4) as u64 + rng.below(2);
    if length > n && !routes.is_empty() {
        routes[0] = (0..n).map(|i| [target, i, if i + 1 == n { length } else { i + 1 }, 0]).collect();
    }
}

/// A change of an assignment that keeps its words well formed.
pub fn bend(rng: &mut Rng, spec: &Spec, family: &mut u64, routes: &mut Vec<Vec<[u64; 4]>>) {
    let r = rng_index(rng, routes.len());
    let n = routes[r].len();
    match rng.below(10) {
        0 => *family = word_near(rng, *family),
        1 => drop(routes.remove(r)),
        2 => {
            let again = routes[r].clone();
            routes.push(again);
        }
        3 => routes[r].clear(),
        4 if n > 0 => {
            let i = rng_index(rng, n);
            routes[r][i][3] ^= 1;
        }
        5 if n > 1 => {
            let (i, j) = (rng_index(rng, n), rng_index(rng, n));
            routes[r].swap(i, j);
        }
        6 if n > 0 => {
            let i = rng_index(rng, n);
            let again = routes[r][i];
            routes[r].insert(i, again);
        }
        7 if n > 0 => {
            let i = rng_index(rng, n);
            routes[r][i][0] = rng.below(spec.lanes.len() as u64 + 1);
        }
        8 if routes.len() > 1 => routes.swap(0, r),
        _ if n > 0 => {
            let (i, j) = (rng_index(rng, n), rng.range(1, 2) as usize);
            routes[r][i][j] = word_near(rng, routes[r][i][j]);
        }
        _ => {}
    }
}

/// The walk's size: units, evaluations, whether it ended.
pub fn size_of(panel: &plain::Panel, frontier: u64, cap: u64) -> (u64, u64, plain::Status) {
    let budget = plain::Budget {
        max_work: cap,
        max_evaluations: u64::MAX,
        max_frontier: frontier,
        max_optima: 1,
        tie_width: 0.0,
    };
    let mut frames = vec![0; 10 * (frontier as usize + 1)];
    let mut slot = vec![0; 2 + 64 + 4 * frontier.max(64) as usize];
    let l = panel.list(budget, 0, &mut frames, &mut slot, &mut []).unwrap();
    (l.tally.work, l.tally.evaluations, l.status)
}

fn width(rng: &mut Rng) -> u64 {
    let x = match rng.below(16) {
        0..=4 => 0.0,
        5 => -0.0,
        6..=8 => 1.0,
        9 => f64::EPSILON,
        10 => rng.pick(&[f64::MAX, f64::MIN_POSITIVE, f64::from_bits(1), 1e308]),
        11 => rng.pick(&[-1.0, f64::NAN, f64::INFINITY, f64::NEG_INFINITY, -f64::from_bits(1)]),
        12 => {
            return if rng.one_in(4) { rng.pick(&[0x7FF0_0000_0000_0001, 0xFFF8_0000_0000_0000]) } else { 0 }
        }
        _ => rng.below(5) as f64 / 2.0,
    };
    x.to_bits()
}

fn score(rng: &mut Rng, style: u64, base: f64) -> u64 {
    let x = match style {
        0..=2 => rng.below(4) as f64,
        3 => return (base.to_bits()).wrapping_add(rng.below(4)),
        4 => rng.pick(&[0.0, -0.0]),
        5 => rng.pick(&[
            f64::from_bits(1),
            -f64::from_bits(1),
            0.0,
            -0.0,
            f64::MIN_POSITIVE,
            f64::from_bits(2),
        ]),
        6 => rng.pick(&[f64::MAX, -f64::MAX, 0.0, 1e308, -1e308]),
        7 => base + rng.below(3) as f64 * f64::EPSILON,
        8 => -(rng.below(6) as f64),
        _ => f64::from_bits(rng.next()),
    };
    x.to_bits()
}

fn scores(rng: &mut Rng, evaluations: u64) -> Vec<u64> {
    let n = match rng.below(16) {
        0 => evaluations.saturating_sub(1),
        1 => rng.below(evaluations + 1),
        2 => 0,
        3..=8 => evaluations,
        _ => evaluations + rng.below(4),
    };
    let style = rng.below(9);
    let base = rng.pick(&[1.0, 0.1, -3.7, 1e300, 4.0]);
    let mut list: Vec<u64> = (0..n)
        .map(|_| {
            let style = if rng.one_in(12) { rng.below(9) } else { style };
            score(rng, style, base)
        })
        .collect();
    if rng.one_in(12) && !list.is_empty() {
        let at = rng_index(rng, list.len());
        let any = score(rng, 9, base);
        list[at] = rng.pick(&[
            f64::NAN.to_bits(),
            f64::INFINITY.to_bits(),
            f64::NEG_INFINITY.to_bits(),
            0x7FF0_0000_0000_0001,
            0xFFF8_0000_0000_0000,
            any,
        ]);
    }
    list
}

/// A budget around the sizes of the walk, and how many evaluations it makes under it.
fn budget(rng: &mut Rng, panel: Option<&plain::Panel>, size: Size) -> (BudgetWords, u64) {
    const CAP: u64 = 1500;
    let frontier = rng.pick(&[1, 2, 3, 4, 6, 10, 16, 24]);
    let mut b = [rng.skewed(CAP).max(1), rng.skewed(60).max(1), frontier, rng.range(1, 4), width(rng)];
    let mut evaluations = 3;
    if let Some(panel) = panel {
        let (units, made, status) = size_of(panel, 24, CAP);
        evaluations = made;
        if status == plain::Status::Certified {
            // The least frontier that does not stop the walk.
            let deepest = (1..24).find(|&d| size_of(panel, d, CAP).2 != plain::Status::Frontier);
            let deepest = deepest.unwrap_or(24);
            let around = |rng: &mut Rng, x: u64| match rng.below(8) {
                0 => x.saturating_sub(1).max(1),
                1 => x.max(1),
                2 => x + 1,
                3 => rng.range(1, x.max(1)),
                4 => u64::MAX,
                _ => x + 2,
            };
            (b[0], b[1]) = (around(rng, units), around(rng, made));
            b[2] = around(rng, deepest).min(24);
        } else if rng.one_in(2) {
            b[0] = rng.range(1, CAP);
            b[1] = rng.pick(&[made.max(1), made + 1, u64::MAX, 1 + made / 2]);
        }
    }
    if size == Size::Wide && rng.one_in(60) {
        b[rng.pick(&[2, 3])] = rng.pick(&[1023, 1024, 33, 17, 100]);
    }
    if rng.one_in(12) {
        let i = rng_index(rng, 4);
        b[i] = rng.pick(&[0, if i > 1 { 1025 } else { 0 }, if i > 1 { u64::MAX } else { 0 }]);
    }
    if rng.one_in(40) {
        b[rng.pick(&[2, 3])] = rng.pick(&[1025, 1 << 63, (1 << 63) + 1, u64::MAX - 1, 1 << 61]);
    }
    (b, evaluations)
}

fn room(rng: &mut Rng, needed: usize, short: bool) -> usize {
    match rng.below(6) {
        _ if short => match rng.below(3) {
            0 => 0,
            1 => rng_index(rng, needed),
            _ => needed - 1,
        },
        0 => needed + 1 + rng_index(rng, 30),
        _ => needed,
    }
}

fn walk_call(rng: &mut Rng, spec: &Spec, image: &[u8], kind: Kind, size: Size) -> Call {
    let panel = plain::Panel::parse(image).ok();
    let (b, evaluations) = budget(rng, panel.as_ref(), size);
    let most = spec.families.iter().map(Vec::len).max().unwrap_or(0) as u64;
    let needs = needs_of(most, b[2].min(1025), b[3].min(1025));
    let short = if rng.one_in(12) { rng.range(1, 3) } else { 0 };
    let frames = room(rng, needs.frames, short == 1);
    if kind == Kind::List {
        let slot = room(rng, needs.slot, short == 2);
        let from = match rng.below(8) {
            0..=3 => 0,
            4 => rng.pick(&[u64::MAX, 1 << 63, evaluations, evaluations.saturating_sub(1)]),
            _ => rng.below(evaluations + 2),
        };
        let out = match rng.below(6) {
            0 => 0,
            1 => rng.range(1, 12),
            2 => 2000,
            _ => rng.range(5, 120),
        };
        return Call::List { budget: b, from, frames, slot, out: out as usize };
    }
    let kept = room(rng, needs.kept, short == 2);
    let kept_scores = room(rng, needs.scores, short == 3);
    let made = evaluations.min(b[1].saturating_add(4)).min(1500);
    Call::Search { budget: b, scores: scores(rng, made), frames, kept, kept_scores }
}

/// Input `index` of a kind under a seed.
pub fn input(seed: u64, kind: Kind, index: u64, size: Size) -> Input {
    let mut rng = Rng::new(seed, kind as u64, index);
    let rng = &mut rng;
    if kind == Kind::Bound {
        let none = Spec { k: 0, lanes: vec![], families: vec![], ports: vec![] };
        return Input { spec: none, edits: vec![Edit::Truncate(0)], call: counts::call(rng, size) };
    }
    let mut letters = Vec::new();
    let mut spec = match kind {
        Kind::Plain => deep::panel(rng, size),
        Kind::Letters | Kind::Spell => lettered::panel(rng, size, &mut letters),
        Kind::Write | Kind::Read => named::panel(rng, size),
        _ => sound(rng, size),
    };
    let mut edits = Vec::new();
    let harm = match kind {
        Kind::Panel => 12,
        Kind::Letters => 3,
        _ => 1,
    };
    match rng.below(16) {
        x if x < harm / 3 => spoil(rng, &mut spec),
        x if x < harm => {
            for _ in 0..rng.range(1, 2) {
                damage(rng, &spec, &mut edits);
            }
        }
        _ => {}
    }
    let mut input = Input { spec, edits, call: Call::Panel };
    input.call = match kind {
        Kind::Panel => Call::Panel,
        Kind::Port => port_call(rng, &input.spec),
        Kind::Bucket => bucket_call(rng, &input.spec),
        Kind::Check => {
            if input.spec.lanes.is_empty() {
                Call::Check { words: vec![0, 0], out: 2 }
            } else {
                check_call(rng, &input.spec, size)
            }
        }
        Kind::List | Kind::Search => walk_call(rng, &input.spec, &input.image(), kind, size),
        Kind::Plain => deep::call(rng, &input.image()),
        Kind::Letters => lettered::letters_call(rng, letters),
        Kind::Spell => lettered::spell_call(rng, &input.spec, letters, size),
        Kind::Write => named::write_call(rng, &input.spec, size),
        Kind::Read => named::read_call(rng, &input.spec, size),
        Kind::Bound => unreachable!("it takes no panel"),
    };
    input
}

/// A job of the walk program: a sound one, or bytes near one.
pub fn job(seed: u64, index: u64, size: Size) -> Vec<u8> {
    let mut rng = Rng::new(seed, 7, index);
    let rng = &mut rng;
    let input = input(seed, Kind::Search, rng.next(), size);
    let Call::Search { budget, scores, .. } = &input.call else { unreachable!() };
    let mut scores: Vec<f64> = scores.iter().map(|&x| f64::from_bits(x)).collect();
    if rng.one_in(40) {
        scores.resize(rng.pick(&[1023, 1024, 1025]), 1.0);
    }
    let mut budget = Some(*budget).filter(|_| !rng.one_in(6));
    if let Some(b) = budget.as_mut().filter(|_| rng.one_in(8)) {
        // Around the program's own rooms.
        (b[2], b[3]) = (rng.pick(&[31, 32, 33, 34, 6]), rng.pick(&[15, 16, 17, 18, 2]));
    }
    let mut bytes = crate::spec::job(&input.image(), budget, &scores);
    match rng.below(24) {
        0 => bytes.truncate(rng_index(rng, bytes.len() + 1)),
        1 => bytes.push(0),
        2 => bytes.truncate(bytes.len() - 1),
        3 | 4 => {
            let at = 8 * rng_index(rng, 3);
            let old = u64::from_le_bytes(bytes[at..at + 8].try_into().unwrap());
            bytes[at..at + 8].copy_from_slice(&word_near(rng, old).to_le_bytes());
        }
        5 if rng.one_in(4) => {
            // A whole job of about the most bytes, its panel far from packed.
            let image = vec![0; rng.range(24_570, 24_580) as usize - 24];
            bytes = crate::spec::job(&image, None, &[]);
        }
        _ => {}
    }
    bytes
}

/// Every panel of k 1 and 2 with two short lanes, every set of ports over two words, and
/// seven ways to name families; `None` past the last.
pub fn tiny(index: u64) -> Option<Spec> {
    let shapes: [(u64, u64, u64); 9] =
        [(1, 1, 1), (1, 1, 2), (1, 2, 1), (1, 2, 2), (2, 1, 2), (2, 2, 2), (2, 2, 3), (2, 3, 2), (2, 3, 3)];
    let layouts: [&[&[u64]]; 7] =
        [&[], &[&[0]], &[&[1]], &[&[0], &[1]], &[&[0, 1]], &[&[1, 0]], &[&[0], &[0]]];
    let words: [[&[u8]; 2]; 2] = [[b"A", b"C"], [b"AC", b"GT"]];
    let mut rest = index;
    for (k, a, b) in shapes {
        let lanes = [a, b];
        let mut places = Vec::new();
        for (lane, length) in lanes.iter().enumerate() {
            for anchor in 0..(length + 1).saturating_sub(k) {
                places.extend([(lane, anchor, false), (lane, anchor, true)]);
            }
        }
        let here = 7 * 3u64.pow(places.len() as u32);
        if rest >= here {
            rest -= here;
            continue;
        }
        let families = layouts[(rest % 7) as usize].iter().map(|f| f.to_vec()).collect();
        let mut set = rest / 7;
        let mut ports = Vec::new();
        for (lane, anchor, reverse) in places {
            if set % 3 > 0 {
                let word = words[k as usize - 1][set as usize % 3 - 1].to_vec();
                ports.push(PortSpec { word, source: lane as u64, anchor, reverse });
            }
            set /= 3;
        }
        return Some(Spec { k, lanes: vec![(a, 0), (b, 1)], families, ports });
    }
    None
}

/// The calls that a tiny panel is put through.
pub fn tiny_calls(spec: &Spec, kind: Kind) -> Vec<Call> {
    let image = spec.image();
    match kind {
        Kind::Panel => vec![Call::Panel],
        Kind::Port => {
            let mut out = Vec::new();
            for lane in 0..3 {
                for cut in 0..spec.lanes.get(lane as usize).map_or(0, |l| l.0) + 2 {
                    out.extend([false, true].map(|reverse| Call::Port { lane, cut, reverse }));
                }
            }
            out
        }
        Kind::Bucket => {
            let letters = b"@ACGT~";
            let n = letters.len().pow(spec.k as u32);
            let word = |i: usize| {
                (0..spec.k as u32).map(|j| letters[i / letters.len().pow(j) % letters.len()]).collect()
            };
            (0..n).map(|i| Call::Bucket { word: word(i) }).collect()
        }
        Kind::Check => tiny_checks(spec),
        Kind::List | Kind::Search => {
            let panel = plain::Panel::parse(&image).unwrap();
            let most = spec.families.iter().map(Vec::len).max().unwrap_or(0) as u64;
            let budgets = tiny_budgets(&panel);
            budgets.iter().flat_map(|(b, made)| tiny_walks(kind, *b, *made, most)).collect()
        }
        Kind::Plain => deep::tiny_calls(&image),
        Kind::Letters | Kind::Spell => lettered::tiny_calls(spec, kind),
        Kind::Write | Kind::Read => named::tiny_calls(spec, kind),
        Kind::Bound => vec![],
    }
}

fn tiny_checks(spec: &Spec) -> Vec<Call> {
    let mut out = Vec::new();
    for words in walked(spec) {
        for at in 0..words.len() {
            for value in [words[at].wrapping_sub(1), words[at] + 1] {
                let mut other = words.clone();
                other[at] = value;
                out.push(Call::Check { out: words.len(), words: other });
            }
        }
        let mut routes = routes_of(&words);
        for route in &mut routes {
            *route = route.iter().flat_map(|&[l, s, e, r]| unit_pieces(l, s, e, r)).collect();
        }
        let apart = to_words(words[0], &routes);
        out.push(Call::Check { out: apart.len() + 1, words: apart });
        out.push(Call::Check { out: words.len(), words });
    }
    out
}

/// A segment as single bases, in its own direction.
pub fn unit_pieces(lane: u64, start: u64, end: u64, reverse: u64) -> Vec<[u64; 4]> {
    let mut all: Vec<[u64; 4]> = (start..end).map(|i| [lane, i, i + 1, reverse]).collect();
    if reverse == 1 {
        all.reverse();
    }
    all
}

/// Budgets around the sufficient ones, and the evaluations of the walk.
fn tiny_budgets(panel: &plain::Panel) -> Vec<([u64; 3], u64)> {
    const CAP: u64 = 4000;
    let (units, made, status) = size_of(panel, 40, CAP);
    if status != plain::Status::Certified {
        return vec![([CAP, 500, 40], made)];
    }
    let deepest = (1..40).find(|&d| size_of(panel, d, CAP).2 != plain::Status::Frontier).unwrap_or(40);
    let ample = [units, made + 1, deepest];
    let mut out = Vec::new();
    for (i, &enough) in ample.iter().enumerate() {
        // Every value of a short walk; of a long one its ends and some between.
        let step = (enough / 12).max(1);
        let values = (1..=enough + 1).filter(|x| *x <= 6 || *x + 3 > enough || x % step == 0);
        for x in values {
            let mut b = ample;
            b[i] = x;
            out.push((b, made));
        }
    }
    // Work and evaluations at their limits together.
    for x in 1..=made.min(6) {
        if let Some(at) = unit_of(panel, x, deepest) {
            out.push(([at, x, deepest], made));
        }
    }
    out
}

/// The work after which evaluation n is made.
fn unit_of(panel: &plain::Panel, n: u64, frontier: u64) -> Option<u64> {
    (1..300).find(|&w| size_of(panel, frontier, w).1 >= n)
}

fn tiny_walks(kind: Kind, b: [u64; 3], made: u64, most: u64) -> Vec<Call> {
    let call = |optima: u64, width: f64, scores: Vec<f64>, from: u64| {
        let needs = needs_of(most, b[2], optima);
        let budget = [b[0], b[1], b[2], optima, width.to_bits()];
        if kind == Kind::List {
            return Call::List { budget, from, frames: needs.frames, slot: needs.slot, out: 40 };
        }
        let scores = scores.into_iter().map(f64::to_bits).collect();
        Call::Search { budget, scores, frames: needs.frames, kept: needs.kept, kept_scores: needs.scores }
    };
    let rising = (0..made).map(|i| i as f64).collect();
    let falling = (0..made).map(|i| -(i as f64)).collect();
    let even = vec![1.0; made as usize];
    vec![call(1, 0.0, rising, 0), call(2, 1.0, falling, 1), call(3, 0.0, even, made.saturating_sub(1))]
}
