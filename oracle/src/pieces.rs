//! Assignments of many small segments that no refusal before 31 concerns, in one order or another.
use crate::{
    gen::{to_words, Rng},
    spec::{PortSpec, Spec},
};

/// The bases of a segment.
const STEP: u64 = 3;

/// In what order the segments stand.
#[derive(Clone, Copy, Debug)]
pub enum Order {
    /// Lane by lane, from its start to its end.
    Rising,
    /// Lane by lane, from its end to its start.
    Falling,
    /// A segment of each lane in turn, each lane rising.
    Turns,
    /// The last one first, and the others rising.
    LastFirst,
    /// Rising, but for a few that have changed places.
    Nearly,
    /// None.
    Shuffled,
}

pub const ORDERS: [Order; 6] =
    [Order::Rising, Order::Falling, Order::Turns, Order::LastFirst, Order::Nearly, Order::Shuffled];

/// So many lanes with room for so many segments each between their ends, and a port of the same word in
/// both orientations wherever one begins or ends: each may follow each. The family is of the first lanes.
pub fn panel(lanes: u64, each: u64, paths: u64) -> Spec {
    let port = |source, i, reverse| PortSpec { word: b"AC".into(), source, anchor: i * STEP - 1, reverse };
    let cuts = |l| (1..=each + 1).flat_map(move |i| [port(l, i, false), port(l, i, true)]);
    Spec {
        k: 2,
        lanes: (0..lanes).map(|l| (STEP * (each + 2), l)).collect(),
        families: vec![(0..paths).collect()],
        ports: (0..lanes).flat_map(cuts).collect(),
    }
}

fn shuffle<T>(rng: &mut Rng, of: &mut [T]) {
    for i in (1..of.len()).rev() {
        of.swap(i, rng.below(i as u64 + 1) as usize);
    }
}

/// All places of such a panel, or so many of them, by lane and number.
fn places(rng: &mut Rng, lanes: u64, each: u64, order: Order, most: usize) -> Vec<(u64, u64)> {
    let mut all: Vec<(u64, u64)> = (0..lanes).flat_map(|l| (1..=each).map(move |i| (l, i))).collect();
    while all.len() > most {
        all.swap_remove(rng.below(all.len() as u64) as usize);
    }
    all.sort_unstable();
    match order {
        Order::Rising => (),
        Order::Falling => all.reverse(),
        Order::Turns => all.sort_by_key(|(l, i)| (*i, *l)),
        Order::LastFirst => {
            let last = 1.min(all.len());
            all.rotate_right(last);
        }
        Order::Nearly => {
            for _ in 0..all.len().div_ceil(50) {
                let [i, j] = [(); 2].map(|_| rng.below(all.len() as u64) as usize);
                all.swap(i, j);
            }
        }
        Order::Shuffled => shuffle(rng, &mut all),
    }
    all
}

/// The words of an assignment over such a panel, of at most so many segments between the ends of its
/// routes; so many of them reach into the place behind them, which may be taken.
pub fn words(
    rng: &mut Rng,
    [lanes, each, paths]: [u64; 3],
    order: Order,
    most: usize,
    longer: u64,
) -> Vec<u64> {
    let places = places(rng, lanes, each, order, most);
    let piece = |(lane, i): (u64, u64), rng: &mut Rng| [lane, STEP * i, STEP * (i + 1), rng.below(2)];
    let mut pieces: Vec<[u64; 4]> = places.into_iter().map(|p| piece(p, rng)).collect();
    for _ in 0..longer.min(pieces.len() as u64) {
        let at = rng.below(pieces.len() as u64) as usize;
        if pieces[at][2] <= STEP * each {
            pieces[at][2] += STEP;
        }
    }
    let end = STEP * (each + 2);
    let size = pieces.len().div_ceil(paths as usize).max(1);
    let mut rest = pieces.chunks(size);
    let route = |lane| {
        let mut route = vec![[lane, 0, STEP, 0]];
        route.extend(rest.next().unwrap_or_default());
        route.push([lane, end - STEP, end, 0]);
        route
    };
    let routes: Vec<Vec<[u64; 4]>> = (0..paths).map(route).collect();
    to_words(0, &routes)
}
