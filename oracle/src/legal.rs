//! The legal assignments of a small panel, from 01's paragraph of that name alone, without a walk.
use crate::{gen, spec::Spec};
use std::collections::BTreeSet;

/// Lane, start, end, reverse, as in an assignment's words.
type Piece = [u64; 4];

/// More of them, or more tries to find a route's pieces, are too many.
const MOST: usize = 2_000;
const TRIES: usize = 2_000_000;

/// A piece between ports or a lane's ends, and the words of the ports that it enters and leaves by.
struct Part<'a> {
    piece: Piece,
    into: Option<&'a [u8]>,
    out: Option<&'a [u8]>,
}

impl Part<'_> {
    /// Equal words at the joint, and not one piece in normal form.
    fn leads_to(&self, next: &Part) -> bool {
        let ([l, s, e, r], [lane, start, end, reverse]) = (self.piece, next.piece);
        let (exit, entry) = (if r == 1 { s } else { e }, if reverse == 1 { end } else { start });
        self.out.is_some() && self.out == next.into && (l, r, exit) != (lane, reverse, entry)
    }
}

fn apart(a: &Piece, b: &Piece) -> bool {
    a[0] != b[0] || a[2] <= b[1] || b[2] <= a[1]
}

fn parts(spec: &Spec) -> Vec<Part<'_>> {
    let mut parts = Vec::new();
    for (lane, reverse) in (0..spec.lanes.len() as u64).flat_map(|l| [(l, false), (l, true)]) {
        let own = spec.ports.iter().filter(|p| (p.source, p.reverse) == (lane, reverse));
        let cuts = own.map(|p| (spec.cut(p), Some(&p.word[..])));
        let ends: Vec<_> = cuts.chain([(0, None), (spec.lanes[lane as usize].0, None)]).collect();
        let pairs = ends.iter().flat_map(|a| ends.iter().map(move |b| (*a, *b)));
        parts.extend(pairs.filter(|(a, b)| a.0 < b.0).map(|((start, low), (end, high))| {
            let (into, out) = if reverse { (high, low) } else { (low, high) };
            Part { piece: [lane, start, end, u64::from(reverse)], into, out }
        }));
    }
    parts
}

/// The routes of a target lane that are legal alone; none where that takes too long.
fn routes(parts: &[Part], target: u64, length: u64) -> Option<BTreeSet<Vec<Piece>>> {
    let begins = |p: &&Part| [p.piece[0], p.piece[1], p.piece[3]] == [target, 0, 0];
    let mut begun: Vec<Vec<&Part>> = parts.iter().filter(begins).map(|p| vec![p]).collect();
    let (mut whole, mut tries) = (BTreeSet::new(), 0);
    while let Some(route) = begun.pop() {
        let last = route[route.len() - 1];
        if [last.piece[0], last.piece[2], last.piece[3]] == [target, length, 0] {
            whole.insert(route.iter().map(|p| p.piece).collect());
        }
        let free = |p: &Part| route.iter().all(|q| apart(&p.piece, &q.piece));
        let next = parts.iter().filter(|p| last.leads_to(p) && free(p));
        begun.extend(next.map(|p| [&route[..], &[p]].concat()));
        tries += parts.len();
        if tries > TRIES || begun.len() + whole.len() > MOST {
            return None;
        }
    }
    Some(whole)
}

/// Every legal assignment: a route for each path, no base in two of them.
pub fn assignments(spec: &Spec) -> Option<BTreeSet<Vec<u64>>> {
    let parts = parts(spec);
    let mut legal = BTreeSet::new();
    for (family, targets) in (0..).zip(&spec.families) {
        let mut begun: Vec<Vec<Vec<Piece>>> = vec![vec![]];
        for &target in targets {
            let routes = routes(&parts, target, spec.lanes[target as usize].0)?;
            let mut more = Vec::new();
            for (old, new) in begun.iter().flat_map(|old| routes.iter().map(move |new| (old, new))) {
                if old.iter().flatten().all(|p| new.iter().all(|q| apart(p, q))) {
                    more.push([&old[..], &[new.clone()]].concat());
                }
                if more.len() > MOST {
                    return None;
                }
            }
            begun = more;
        }
        legal.extend(begun.iter().map(|routes| gen::to_words(family, routes)));
    }
    (legal.len() <= MOST).then_some(legal)
}
