//! Inputs of the calls that take the lanes' letters: panels whose words are what random letters read,
//! and letters, words, crops and rooms at their edges or damaged.
use crate::{
    calls::{Call, Kind},
    gen::{self, rng_index, Rng, Size},
    rules,
    spec::{PortSpec, Spec},
};
use std::collections::BTreeSet;

/// More letters than an assignment of the most words has segments.
pub const LONG: u64 = 17_000;

fn read(letters: &[u8], anchor: u64, k: u64, reverse: bool) -> Vec<u8> {
    let own = &letters[anchor as usize..(anchor + k) as usize];
    if reverse {
        gen::turned(own)
    } else {
        own.to_vec()
    }
}

/// A lane's letters with words of the pool planted in them, forward or turned, and ports that mostly
/// stand where one is.
fn lane(rng: &mut Rng, k: u64, length: u64, letters: u64, pool: &[Vec<u8>]) -> (Vec<u8>, Vec<(u64, bool)>) {
    let mut own = gen::random_word(rng, length, letters);
    let mut ports = BTreeSet::new();
    let mut at = rng.below(3);
    while at + k <= length && ports.len() < 8 {
        if !rng.one_in(4) {
            let reverse = rng.below(5) < 2;
            let word = rng.pick(pool);
            let planted = if reverse { gen::turned(&word) } else { word };
            own[at as usize..(at + k) as usize].copy_from_slice(&planted);
            ports.extend((!rng.one_in(6)).then_some((at, reverse)));
            ports.extend(rng.one_in(5).then_some((at, !reverse)));
        }
        at += k + rng.below(4);
    }
    for _ in 0..rng.below(3) {
        if length >= k {
            ports.insert((rng.below(length - k + 1), rng.one_in(2)));
        }
    }
    (own, ports.into_iter().collect())
}

/// A panel that passes 1 to 8, and letters that its words are read from: lane after lane.
pub fn panel(rng: &mut Rng, size: Size, all: &mut Vec<u8>) -> Spec {
    let k = match (rng.below(12), size) {
        (0..=8, _) | (_, Size::Small) => rng.range(1, 6),
        (9, _) => rng.pick(&[31, 32]),
        _ => rng.range(7, 32),
    };
    let long = size == Size::Wide && rng.one_in(1_000);
    let lanes = if long { 1 } else { rng.pick(&[1, 2, 2, 2, 3, 3, 4]) };
    let letters = rng.pick(&[1, 2, 2, 3, 4, 4]);
    let pool: Vec<Vec<u8>> = (0..rng.range(1, 2)).map(|_| gen::random_word(rng, k, letters)).collect();
    let mut spec = Spec { k, lanes: vec![], families: vec![], ports: vec![] };
    for source in 0..lanes {
        let length = match (rng.below(16), size) {
            _ if long => LONG + rng.below(100),
            (0, _) => rng.range(1, k + 2),
            (1, Size::Wide) => rng.range(60, 300),
            (_, Size::Small) => k + rng.below(9),
            _ => (k + 1) * rng.range(1, 5) + rng.below(10),
        };
        let (own, ports) = lane(rng, k, length, letters, &pool);
        for (anchor, reverse) in ports {
            spec.ports.push(PortSpec { word: read(&own, anchor, k, reverse), source, anchor, reverse });
        }
        spec.lanes.push((length, rng.below(3)));
        all.extend(own);
    }
    let families = if rng.one_in(30) { 0 } else { rng.pick(&[1, 1, 1, 1, 2, 2, 3]) };
    spec.families = (0..families).map(|_| gen::family(rng, lanes)).collect();
    if rng.one_in(12) {
        other_word(rng, &mut spec);
    }
    spec
}

/// A letter of a word that the lane's letters do not have: of one port, or of all that share the word.
fn other_word(rng: &mut Rng, spec: &mut Spec) {
    if spec.ports.is_empty() {
        return;
    }
    let i = rng_index(rng, spec.ports.len());
    let (old, at, letter) = (spec.ports[i].word.clone(), rng_index(rng, spec.k as usize), rng.pick(b"ACGT"));
    let alone = rng.one_in(2);
    let same = |(j, p): &(usize, &mut PortSpec)| if alone { *j == i } else { p.word == old };
    spec.ports.iter_mut().enumerate().filter(same).for_each(|(_, p)| p.word[at] = letter);
}

/// One letter other than it was, or one too few or too many, or a byte that is none.
fn damage(rng: &mut Rng, letters: &mut Vec<u8>) {
    let at = rng_index(rng, letters.len());
    match rng.below(16) {
        0 => drop(letters.pop()),
        1 => letters.push(rng.pick(b"ACGTN")),
        2 => letters.insert(at, rng.pick(b"ACGT")),
        3 => letters.truncate(rng.pick(&[0, 1, at])),
        _ if letters.is_empty() => {}
        4 => drop(letters.remove(at)),
        5 => letters[at] = rng.pick(b"NRYSWKMBDHV"),
        6 => letters[at] = letters[at].to_ascii_lowercase(),
        7 => letters.make_ascii_lowercase(),
        8 => letters[at] = rng.below(256) as u8,
        9 => letters[at] = rng.pick(b"@BDFHSU\0\xff"),
        10 => letters.swap(at, 0),
        _ => letters[at] = rng.pick(b"ACGT"),
    }
}

pub fn letters_call(rng: &mut Rng, mut letters: Vec<u8>) -> Call {
    if rng.one_in(2) {
        damage(rng, &mut letters);
    }
    Call::Letters { letters }
}

/// Words of an assignment: mostly a legal one with a switch, in pieces, a long one near the bound;
/// else what the check gets.
pub fn words(rng: &mut Rng, spec: &Spec, size: Size, long: bool) -> Vec<u64> {
    let walked = gen::walked(spec);
    if walked.is_empty() || rng.one_in(5) {
        let Call::Check { words, .. } = gen::check_call(rng, spec, size) else { unreachable!() };
        return words;
    }
    let switched: Vec<Vec<u64>> = walked.iter().filter(|w| w.len() as u64 > 2 + 5 * w[1]).cloned().collect();
    let native = switched.is_empty() || rng.one_in(4);
    let legal = rng.pick(if native { &walked } else { &switched });
    let mut family = legal[0];
    let mut routes = gen::routes_of(&legal);
    if long {
        gen::long_routes(rng, spec, family, &mut routes);
    }
    for _ in 0..rng.below(4) {
        let r = rng_index(rng, routes.len());
        gen::split(rng, &mut routes[r]);
    }
    if rng.one_in(10) {
        gen::bend(rng, spec, &mut family, &mut routes);
    }
    gen::to_words(family, &routes)
}

/// The numbers at which the pieces of a route begin and end, from 0 to its length.
fn ends(route: &[[u64; 4]]) -> Vec<u64> {
    let mut all = vec![0u64];
    for [_, start, end, _] in route {
        all.push(all[all.len() - 1].saturating_add(end.saturating_sub(*start)));
    }
    all
}

/// A slot and a crop: at the edges of the route's pieces, beside them, or past the route.
fn crop(rng: &mut Rng, words: &[u64]) -> [u64; 3] {
    let routes = if rules::well_formed(words) { gen::routes_of(words) } else { vec![] };
    let n = routes.len() as u64;
    let slot = if rng.one_in(16) { rng.pick(&[n, n + 1, u64::MAX, 1 << 63]) } else { rng.below(n) };
    let ends = ends(routes.get(slot as usize).map_or(&[][..], Vec::as_slice));
    let length = ends[ends.len() - 1];
    let past = length.saturating_add(1);
    let near = |rng: &mut Rng| rng.pick(&ends).saturating_add(rng.below(3)).saturating_sub(rng.below(3));
    let inside = |rng: &mut Rng| rng.below(past);
    let (from, to) = match rng.below(28) {
        0..=5 => (0, length),
        6 => (0, past),
        7 => (length.saturating_sub(1), length),
        8 => (rng.pick(&[length, past, u64::MAX]), rng.pick(&[0, length, past, u64::MAX])),
        9 => (inside(rng), rng.pick(&[past, 1 << 63, u64::MAX - 1, u64::MAX])),
        10 => {
            let x = near(rng);
            (x, x.saturating_add(rng.below(2)))
        }
        11 => (inside(rng), inside(rng)),
        12..=21 => {
            let (a, b) = (near(rng), near(rng));
            (a.min(b), a.max(b).min(length))
        }
        _ => {
            let (a, b) = (inside(rng), inside(rng));
            (a.min(b), a.max(b).saturating_add(1).min(length))
        }
    };
    [slot, from, to]
}

pub fn spell_call(rng: &mut Rng, spec: &Spec, mut letters: Vec<u8>, size: Size) -> Call {
    let words = words(rng, spec, size, spec.lanes[0].0 >= LONG);
    let [slot, from, to] = crop(rng, &words);
    let needed = to.saturating_sub(from).min(2 * LONG) as usize;
    let out = match rng.below(12) {
        0 => needed.saturating_sub(1),
        1 => rng_index(rng, needed),
        2..=4 => needed + 1 + rng_index(rng, 20),
        _ => needed,
    };
    if rng.one_in(6) {
        damage(rng, &mut letters);
    }
    Call::Spell { letters, words, slot, from, to, out }
}

/// Letters that the ports of a panel read, where such letters are; A elsewhere.
fn letters_of(spec: &Spec) -> Vec<u8> {
    let mut all = Vec::new();
    for (lane, (length, _)) in spec.lanes.iter().enumerate() {
        let mut own = vec![b'A'; *length as usize];
        for p in spec.ports.iter().filter(|p| p.source == lane as u64) {
            let here = if p.reverse { gen::turned(&p.word) } else { p.word.clone() };
            own[p.anchor as usize..][..here.len()].copy_from_slice(&here);
        }
        all.extend(own);
    }
    all
}

/// Every letter changed, one too few and one too many; every crop of the assignments of a short walk,
/// as they are and base by base.
pub fn tiny_calls(spec: &Spec, kind: Kind) -> Vec<Call> {
    let letters = letters_of(spec);
    if kind == Kind::Letters {
        let mut all = vec![letters.clone(), letters[1..].to_vec(), [&letters[..], b"C"].concat()];
        for i in 0..letters.len() {
            for letter in b"ACGTa".iter().filter(|b| **b != letters[i]) {
                all.push(letters.clone());
                all.last_mut().unwrap()[i] = *letter;
            }
        }
        return all.into_iter().map(|letters| Call::Letters { letters }).collect();
    }
    let fits = rules::letters(&spec.image(), &letters) == 0;
    let mut calls = Vec::new();
    for words in gen::walked(spec) {
        let mut routes = gen::routes_of(&words);
        for route in &mut routes {
            *route = route.iter().flat_map(|&[l, s, e, r]| gen::unit_pieces(l, s, e, r)).collect();
        }
        for words in [gen::to_words(words[0], &routes), words] {
            for (slot, route) in routes.iter().enumerate() {
                let (slot, length) = (slot as u64, route.len() as u64);
                let crops = (0..=length).flat_map(|from| (from..length + 2).map(move |to| (from, to)));
                // Where no letters fit, one crop shows 40.
                for (from, to) in crops.take(if fits { usize::MAX } else { 1 }) {
                    let out = (to - from) as usize;
                    let (letters, words) = (letters.clone(), words.clone());
                    calls.push(Call::Spell { letters, words, slot, from, to, out });
                }
            }
        }
    }
    calls
}
