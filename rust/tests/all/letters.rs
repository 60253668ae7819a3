//! The lanes' letters, and what routes read in them (document 02, item 7). What the crate's types keep
//! from the calls is tested beside them.
use crate::{
    panel_e::{builder_e, panel_e, refused},
    random::Rng,
};
use panel_routes::{Assignment, Letters, Panel, PanelBuilder, SearchBudget, Segment};
use std::ops::Range;

const E: &[u8] = b"TTTACTGGTACCCCCACGGC";
const MOSAIC: [[u64; 4]; 3] = [[0, 0, 4, 0], [1, 6, 8, 0], [0, 7, 10, 0]];
const SPELLED: &[u8] = b"TTTACGGTA";

fn segment([source, start, end, reverse]: [u64; 4]) -> Segment {
    Segment { source, start, end, reverse: reverse == 1 }
}

fn route(segments: &[[u64; 4]]) -> Assignment {
    Assignment::new(0, [segments.iter().copied().map(segment)]).unwrap()
}

fn turned(letters: &[u8]) -> Vec<u8> {
    let other = |b: &u8| b"ACGT"[3 - b"ACGT".iter().position(|l| l == b).unwrap()];
    letters.iter().rev().map(other).collect()
}

fn oriented(letters: &[u8], reverse: bool) -> Vec<u8> {
    if reverse {
        turned(letters)
    } else {
        letters.to_vec()
    }
}

/// The letters of each segment as given, one after the other.
fn read(letters: &Letters, assignment: &Assignment, slot: usize) -> Vec<u8> {
    let route = assignment.routes().nth(slot).unwrap();
    let lane = |s: &Segment| letters.lane(s.source as usize).unwrap();
    route.flat_map(|s| oriented(&lane(&s)[s.start as usize..s.end as usize], s.reverse)).collect()
}

/// The letters spelled into a room of so many, or the refusal. The rest of the room stays, and what
/// stands around it.
fn spelled(
    letters: &Letters,
    assignment: &Assignment,
    slot: usize,
    crop: Range<u64>,
    room: usize,
) -> Result<Vec<u8>, (u64, u64)> {
    const AROUND: usize = 40;
    let before: Vec<u8> = (0..room + 2 * AROUND).map(|i| b'a' + (i % 26) as u8).collect();
    let mut bytes = before.clone();
    let found = letters.spell_into(assignment, slot, crop, &mut bytes[AROUND..AROUND + room]);
    let end = AROUND + found.unwrap_or(0);
    assert_eq!((&bytes[..AROUND], &bytes[end..]), (&before[..AROUND], &before[end..]));
    found.map(|_| bytes[AROUND..end].to_vec()).map_err(|r| (r.number(), r.place()))
}

#[test]
fn lane_by_lane() {
    let panel = panel_e();
    let borrowed = panel.letters(E).unwrap();
    assert_eq!(borrowed, panel.letters(E.to_vec()).unwrap());
    assert_eq!(borrowed.as_bytes(), E);
    assert!(borrowed.lanes().eq([b"TTTACTGGTA", b"CCCCCACGGC"]));
    assert_eq!([0, 1, 2, usize::MAX].map(|l| borrowed.lane(l)), [Some(&E[..10]), Some(&E[10..]), None, None]);
    let said = format!("{borrowed:?}");
    assert_eq!(said, "Letters { panel: Panel { k: 2, lanes: 2, families: 1, ports: 4 }, letters: 20 }");
}

#[test]
fn another_number_of_letters() {
    let panel = panel_e();
    for n in (0..60).filter(|n| *n != E.len()) {
        let letters: Vec<u8> = E.iter().copied().cycle().take(n).collect();
        assert_eq!(refused(panel.letters(letters)), Some((39, 0)), "{n} letters");
    }
}

#[test]
fn another_letter() {
    let panel = panel_e();
    let ports = [3..5, 6..8, 15..17, 17..19];
    let changed = |at: usize, byte: u8| {
        let mut letters = E.to_vec();
        letters[at] = byte;
        letters
    };
    for at in 0..E.len() {
        for letter in *b"ACGT" {
            let differs = letter != E[at] && ports.iter().any(|p| p.contains(&at));
            let refusal = differs.then_some((40, 0));
            assert_eq!(refused(panel.letters(changed(at, letter))), refusal, "{letter} at {at}");
        }
    }
    for byte in (0..=255).filter(|b| !b"ACGT".contains(b)) {
        let at = usize::from(byte) % E.len();
        let mut letters = changed(at, byte);
        assert_eq!(refused(panel.letters(&letters)), Some((39, 0)), "{byte} at {at}");
        // The word of a port differs besides.
        letters[if at == 3 { 6 } else { 3 }] = b'T';
        assert_eq!(refused(panel.letters(&letters)), Some((39, 0)), "{byte} at {at}");
    }
    let said = panel.letters(&E[1..]).unwrap_err();
    assert_eq!(said.message(), "letters: not as many as the lanes have, or one other than A, C, G and T");
}

/// Two lanes, and a port at every place and in both orientations.
fn covered(k: usize, letters: &[u8]) -> PanelBuilder {
    let mut builder = PanelBuilder::new(k);
    let lanes = [&letters[..40], &letters[40..]];
    for (source, lane) in lanes.into_iter().enumerate() {
        builder.lane(lane.len() as u64, 0);
        for (anchor, there) in lane.windows(k).enumerate() {
            builder.port(there, source as u64, anchor as u64, false);
            builder.port(turned(there), source as u64, anchor as u64, true);
        }
    }
    builder
}

fn random_letters(rng: &mut Rng, n: u64) -> Vec<u8> {
    (0..n).map(|_| b"ACGT"[rng.below(4) as usize]).collect()
}

#[test]
fn every_port_reads_its_letters() {
    for k in [1, 2, 3, 4, 5, 16, 31, 32] {
        let letters = random_letters(&mut Rng(k), 40 + 33);
        let panel = covered(k as usize, &letters).build().unwrap();
        assert_eq!(refused(panel.letters(&letters)), None);
        for at in 0..letters.len() {
            let mut other = letters.clone();
            other[at] = turned(&letters[at..at + 1])[0];
            assert_eq!(refused(panel.letters(other)), Some((40, 0)), "{k} letters, at {at}");
        }
    }
}

#[test]
fn one_port_that_differs() {
    const K: usize = 5;
    let letters = random_letters(&mut Rng(9), 20);
    for anchor in 0..=20 - K {
        for reverse in [false, true] {
            let word = oriented(&letters[anchor..anchor + K], reverse);
            for at in 0..K {
                for letter in *b"ACGT" {
                    let mut other = word.clone();
                    other[at] = letter;
                    let mut builder = PanelBuilder::new(K);
                    let panel = builder.lane(20, 0).port(&other, 0, anchor as u64, reverse).build().unwrap();
                    let number = (other != word).then_some((40, 0));
                    assert_eq!(refused(panel.letters(&letters)), number);
                }
            }
        }
    }
}

#[test]
fn crops_and_rooms() {
    let panel = panel_e();
    let letters = panel.letters(E).unwrap();
    let mosaic = route(&MOSAIC);
    assert_eq!(letters.spell_route(&mosaic, 0).as_deref(), Ok(SPELLED));
    let n = SPELLED.len();
    for from in 0..n + 3 {
        for to in 0..n + 3 {
            let crop = from as u64..to as u64;
            let size = to.saturating_sub(from);
            for room in [0, size.saturating_sub(1), size, size + 2] {
                let wanted = if to <= from || to > n {
                    Err((41, 0))
                } else if room < size {
                    Err((37, 0))
                } else {
                    Ok(SPELLED[from..to].to_vec())
                };
                assert_eq!(spelled(&letters, &mosaic, 0, crop.clone(), room), wanted, "{crop:?} into {room}");
            }
            let found = letters.spell(&mosaic, 0, crop);
            match SPELLED.get(from..to).filter(|crop| !crop.is_empty()) {
                Some(crop) => assert_eq!(found.as_deref(), Ok(crop)),
                None => assert_eq!(refused(found), Some((41, 0))),
            }
        }
    }
    let said = letters.spell_into(&mosaic, 0, 0..9, &mut [0; 8]).unwrap_err();
    assert_eq!(said.to_string(), "refused 37 0: out too short");
}

#[test]
fn slots_and_crops_far_away() {
    let panel = panel_e();
    let letters = panel.letters(E).unwrap();
    let mosaic = route(&MOSAIC);
    const FAR: [u64; 4] = [10, 1 << 32, 1 << 63, u64::MAX];
    for slot in [1, 1 << 32, usize::MAX] {
        assert_eq!(refused(letters.spell(&mosaic, slot, 0..9)), Some((41, 0)));
        assert_eq!(refused(letters.spell_route(&mosaic, slot)), Some((41, 0)));
    }
    for far in FAR {
        for crop in [0..far, far..0, 8..far, far..far, far..9, far - 1..far] {
            assert_eq!(spelled(&letters, &mosaic, 0, crop.clone(), 20), Err((41, 0)), "{crop:?}");
            assert_eq!(refused(letters.spell(&mosaic, 0, crop)), Some((41, 0)));
        }
    }
    // Segments past their lanes, whose lengths sum up to anything.
    for far in FAR.into_iter().skip(1) {
        let long = [0, 0, far, 0];
        for ill in [route(&[long]), route(&[long; 3]), route(&[[0, 0, 10, 0], [1, far - 1, far, 1]])] {
            assert_eq!(refused(letters.spell(&ill, 0, 0..u64::MAX)), Some((26, 0)));
            assert_eq!(refused(letters.spell(&ill, 7, 3..3)), Some((26, 0)));
            assert_eq!(refused(letters.spell_route(&ill, 0)), Some((26, 0)));
        }
    }
    assert_eq!(refused(letters.spell_route(&route(&[[0, 10, 0, 0]]), 0)), Some((26, 0)));
}

#[test]
fn the_checks_refusals_come_first() {
    let panel = builder_e().family([1, 0]).build().unwrap();
    let letters = panel.letters(E).unwrap();
    let two = |second: &[[u64; 4]]| {
        let routes = [vec![[1, 0, 10, 0]], second.to_vec()];
        Assignment::new(1, routes.map(|r| r.into_iter().map(segment))).unwrap()
    };
    let cases: [(&[[u64; 4]], (u64, u64)); 8] = [
        (&[], (25, 1)),
        (&[[2, 0, 10, 0]], (26, 1)),
        (&[[0, 4, 4, 0]], (26, 1)),
        (&[[0, 0, 9, 0]], (27, 1)),
        (&[[0, 0, 3, 0], [0, 4, 10, 0]], (28, 1)),
        (&[[0, 0, 4, 0], [0, 5, 10, 0]], (29, 1)),
        (&[[0, 0, 4, 0], [0, 7, 10, 0]], (30, 1)),
        (&MOSAIC, (31, 0)),
    ];
    for (second, refusal) in cases {
        let assignment = two(second);
        assert_eq!(refused(panel.check_assignment(&assignment)), Some(refusal));
        for slot in [0, 1, 2, usize::MAX] {
            for crop in [0..1, 4..4, 0..u64::MAX] {
                assert_eq!(spelled(&letters, &assignment, slot, crop.clone(), 0), Err(refusal));
                assert_eq!(refused(letters.spell(&assignment, slot, crop)), Some(refusal));
            }
            assert_eq!(refused(letters.spell_route(&assignment, slot)), Some(refusal));
        }
    }
    let none: [[Segment; 0]; 0] = [];
    for (family, number) in [(2, 23), (u64::MAX, 23), (0, 24)] {
        let assignment = Assignment::new(family, none).unwrap();
        assert_eq!(spelled(&letters, &assignment, 0, 0..0, 0), Err((number, 0)));
    }
}

#[test]
fn two_routes() {
    let panel = builder_e().family([1, 0]).build().unwrap();
    let letters = panel.letters(E).unwrap();
    let whole = |source| [segment([source, 0, 10, 0])];
    let both = Assignment::new(1, [whole(1), whole(0)]).unwrap();
    assert_eq!(letters.spell_route(&both, 0).as_deref(), Ok(&E[10..]));
    assert_eq!(letters.spell_route(&both, 1).as_deref(), Ok(&E[..10]));
    assert_eq!(letters.spell(&both, 1, 2..7).as_deref(), Ok(&E[2..7]));
    assert_eq!(refused(letters.spell(&both, 2, 0..1)), Some((41, 0)));
    // The route in the other slot has as many letters as this one lacks.
    assert_eq!(refused(letters.spell(&both, 0, 5..11)), Some((41, 0)));
}

#[test]
fn no_ports_and_no_families() {
    let panel = PanelBuilder::new(4).lane(3, 0).build().unwrap();
    let letters = panel.letters(b"CAT").unwrap();
    assert_eq!(refused(letters.spell_route(&route(&[[0, 0, 3, 0]]), 0)), Some((23, 0)));
    let panel = PanelBuilder::new(4).lane(3, 0).lane(1, 0).family([1]).build().unwrap();
    let letters = panel.letters(b"CATG").unwrap();
    assert_eq!(letters.spell_route(&route(&[[1, 0, 1, 0]]), 0).as_deref(), Ok(&b"G"[..]));
    assert_eq!(spelled(&letters, &route(&[[1, 0, 1, 0]]), 0, 0..1, 0), Err((37, 0)));
}

/// A route that leaves lane 0 forward and comes back to it, over lane 1 forward and lanes 2 and 3 in
/// reverse: a panel with its letters, the route, and the words at its four switches.
fn all_ways(k: usize, seed: u64) -> (Panel<'static>, Vec<u8>, Assignment, Vec<Vec<u8>>) {
    let mut rng = Rng(seed);
    let (low, high) = (k + 1, 3 * k + 2);
    let length = 5 * k + 4;
    let mut lanes: Vec<Vec<u8>> = (0..4).map(|_| random_letters(&mut rng, length as u64)).collect();
    let words: Vec<Vec<u8>> = (0..4).map(|_| random_letters(&mut rng, k as u64)).collect();
    let mut builder = PanelBuilder::new(k);
    (0..4).fold(&mut builder, |b, lane| b.lane(length as u64, lane)).family([0]);
    // Each word at the place where it is left, and where it is entered.
    let pairs = [
        [(0, low, false), (1, low, false)],
        [(1, high, false), (2, high, true)],
        [(2, low, true), (3, high, true)],
        [(3, low, true), (0, high, false)],
    ];
    for (pair, word) in pairs.into_iter().zip(&words) {
        for (lane, anchor, reverse) in pair {
            lanes[lane][anchor..anchor + k].copy_from_slice(&oriented(word, reverse));
            builder.port(word, lane as u64, anchor as u64, reverse);
        }
    }
    let [forward, reverse] = [k / 2, k - k / 2];
    let cut =
        |lane: u64, start: usize, end: usize, turn: u64| segment([lane, start as u64, end as u64, turn]);
    let segments = [
        cut(0, 0, low + forward, 0),
        cut(1, low + forward, high + forward, 0),
        cut(2, low + reverse, high + reverse, 1),
        cut(3, low + reverse, high + reverse, 1),
        cut(0, high + forward, length, 0),
    ];
    (builder.build().unwrap(), lanes.concat(), Assignment::new(0, [segments]).unwrap(), words)
}

/// Where a route switches, in letters from its start.
fn switches(assignment: &Assignment, slot: usize) -> Vec<u64> {
    let route: Vec<Segment> = assignment.routes().nth(slot).unwrap().collect();
    let ends = route.iter().scan(0, |at, s| {
        *at += s.bases();
        Some(*at)
    });
    ends.take(route.len() - 1).collect()
}

#[test]
fn around_switches_of_all_orientations() {
    // Of 1 letter none stands before the switch, of 3 one does, of 4 two.
    for k in 1..=32u64 {
        for seed in 0..2 {
            let (panel, letters, assignment, words) = all_ways(k as usize, seed);
            let letters = panel.letters(letters).unwrap();
            assert_eq!(letters.spell_route(&assignment, 0), Ok(read(&letters, &assignment, 0)));
            let places = switches(&assignment, 0);
            assert_eq!(places.len(), words.len());
            for (at, word) in places.into_iter().zip(words) {
                let begin = at - k / 2;
                assert_eq!(letters.spell(&assignment, 0, begin..begin + k), Ok(word));
            }
        }
    }
}

#[test]
fn a_crop_cut_in_two() {
    for k in [1, 3] {
        let (panel, letters, assignment, _) = all_ways(k, 5);
        let letters = panel.letters(letters).unwrap();
        let whole = letters.spell_route(&assignment, 0).unwrap();
        for from in 0..whole.len() {
            for to in from + 2..=whole.len() {
                let middle = from + 1 + (from * 7 + to * 5) % (to - from - 1);
                let crops = [from..middle, middle..to].map(|c| c.start as u64..c.end as u64);
                let parts = crops.map(|crop| letters.spell(&assignment, 0, crop).unwrap());
                assert_eq!(parts.concat(), whole[from..to]);
            }
        }
    }
}

/// The assignment with every segment that has two letters cut in two, where `rng` says.
fn split(rng: &mut Rng, assignment: &Assignment) -> Assignment {
    let mut halves = |s: Segment| {
        if s.bases() < 2 {
            return vec![s];
        }
        let middle = s.start + 1 + rng.below(s.bases() - 1);
        let mut parts = vec![Segment { end: middle, ..s }, Segment { start: middle, ..s }];
        if s.reverse {
            parts.reverse();
        }
        parts
    };
    let routes: Vec<Vec<Segment>> = assignment.routes().map(|r| r.flat_map(&mut halves).collect()).collect();
    Assignment::new(assignment.family(), routes).unwrap()
}

/// Lanes of random letters, ports that read them and two families.
fn scattered(rng: &mut Rng, k: u64) -> (Panel<'static>, Vec<u8>) {
    let length = k + 6 + rng.below(12);
    let letters: Vec<u8> = (0..3 * length).map(|_| b"AATTCG"[rng.below(6) as usize]).collect();
    let mut builder = PanelBuilder::new(k as usize);
    builder.lane(length, 0).lane(length, 1).lane(length, 2).family([0]).family([2, 1]);
    for source in 0..3 {
        for anchor in 0..=length - k {
            for reverse in [false, true] {
                if rng.below(3) == 0 {
                    let there = &letters[(source * length + anchor) as usize..][..k as usize];
                    builder.port(oriented(there, reverse), source, anchor, reverse);
                }
            }
        }
    }
    (builder.build().unwrap(), letters)
}

#[test]
fn what_the_walk_lists_reads_its_words() {
    let budget = SearchBudget { max_work: 2_000, max_evaluations: 12, ..SearchBudget::default() };
    // By the orientation before the switch and behind it.
    let mut seen = [[0; 2]; 2];
    for seed in 0..60 {
        let mut rng = Rng(seed);
        let k = 1 + seed % 6;
        let (panel, letters) = scattered(&mut rng, k);
        let letters = panel.letters(letters).unwrap();
        for assignment in panel.assignments(budget).unwrap() {
            let given = split(&mut rng, &assignment);
            assert_eq!(panel.check_assignment(&given).as_ref(), Ok(&assignment));
            for (slot, route) in assignment.routes().enumerate() {
                let whole = read(&letters, &assignment, slot);
                assert_eq!(letters.spell_route(&assignment, slot).as_ref(), Ok(&whole));
                assert_eq!(letters.spell_route(&given, slot), Ok(whole));
                let route: Vec<Segment> = route.collect();
                for (pair, at) in route.windows(2).zip(switches(&assignment, slot)) {
                    let [left, right] = [pair[0], pair[1]];
                    if left.bases() < k / 2 || right.bases() < k - k / 2 {
                        continue;
                    }
                    let port = panel.port_at_cut(left.source, left.exit(), left.reverse).unwrap().unwrap();
                    let begin = at - k / 2;
                    let around = letters.spell(&given, slot, begin..begin + k);
                    assert_eq!(around.as_deref(), Ok(port.word.as_bytes()));
                    seen[usize::from(left.reverse)][usize::from(right.reverse)] += 1;
                }
            }
        }
    }
    assert!(seen.as_flattened().iter().all(|count| *count > 10), "{seen:?}");
}
