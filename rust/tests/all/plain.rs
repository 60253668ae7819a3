//! The plain listing (document 02, item 10), held to the walk's own listing behind its natives.
use crate::{
    panel_e::{builder_e, panel_e, refused},
    random::Rng,
};
use panel_routes::{Assignment, Panel, PanelBuilder, SearchBudget, Status};
use std::{collections::HashSet, thread};

/// Words of four letters, all different.
fn word(i: usize) -> String {
    [6, 4, 2, 0].map(|shift| b"ACGT"[i >> shift & 3] as char).iter().collect()
}

fn budget(max_work: u64, max_frontier: u64) -> SearchBudget {
    SearchBudget { max_work, max_evaluations: u64::MAX, max_frontier, ..SearchBudget::default() }
}

/// Holds the plain listing to the walk of at most so much work, and says how that walk ends.
fn compared(panel: &Panel, max_work: u64) -> Status {
    let walk = panel.assignments(budget(max_work, 64)).unwrap();
    let status = walk.status();
    match status {
        Status::Certified => {
            let listed = panel.plain_assignments().expect("a stack of at most 64");
            assert!(listed.eq(walk.skip(panel.family_count())), "{panel:?}");
        }
        Status::FrontierExhausted => {
            assert_eq!(refused(panel.plain_assignments()), Some((42, 0)), "{panel:?}");
        }
        _ => (),
    }
    status
}

/// Whether the unbudgeted walk's deepest stack is this deep; the walk is a small one.
fn is_deep(panel: &Panel, depth: u64) -> bool {
    let ends = |frontier| panel.assignments(budget(1_000_000, frontier)).unwrap().status();
    ends(depth) == Status::Certified && ends(depth - 1) == Status::FrontierExhausted
}

fn add_lanes(builder: &mut PanelBuilder, count: u64, length: u64) -> &mut PanelBuilder {
    (0..count).fold(builder, |builder, _| builder.lane(length, 0))
}

fn listed(panel: &Panel) -> Vec<Assignment> {
    assert_eq!(compared(panel, 1_000_000), Status::Certified);
    panel.plain_assignments().unwrap().collect()
}

#[test]
fn panel_e_has_two() {
    let routes: Vec<String> = listed(&panel_e()).iter().map(Assignment::to_string).collect();
    assert_eq!(routes, ["route 0 0 0 10 +\n", "route 0 0 0 4 +\nroute 0 1 6 8 +\nroute 0 0 7 10 +\n"]);
    let families: Vec<u64> =
        listed(&builder_e().family([1]).build().unwrap()).iter().map(|a| a.family()).collect();
    assert_eq!(families, [0, 0, 1, 1]);
}

#[test]
fn no_family_has_none() {
    assert_eq!(listed(&PanelBuilder::new(1).lane(1, 0).build().unwrap()), []);
}

/// So many paths, all different.
fn family(rng: &mut Rng, lanes: u64, paths: u64) -> Vec<u64> {
    let mut all: Vec<u64> = (0..lanes).collect();
    (1..all.len()).for_each(|i| all.swap(i, rng.below(i as u64 + 1) as usize));
    all.truncate(paths as usize);
    all
}

/// Few lanes, families of some of them, words from a small pool, half of the ports in reverse.
pub fn scattered(rng: &mut Rng) -> Panel<'static> {
    let (k, lanes, length, pool) = (1 + rng.below(3), 1 + rng.below(4), 4 + rng.below(24), 1 + rng.below(4));
    let mut builder = PanelBuilder::new(k as usize);
    add_lanes(&mut builder, lanes, length);
    for _ in 0..rng.below(4) {
        let paths = 1 + rng.below(lanes);
        builder.family(family(rng, lanes, paths));
    }
    let mut places = HashSet::new();
    for _ in 0..lanes * (1 + rng.below(6)) {
        let place = (rng.below(lanes), rng.below(length - k + 1), rng.below(2) == 1);
        // Words of one letter each.
        let letters = word(85 * rng.below(pool) as usize);
        if places.insert(place) {
            builder.port(&letters[..k as usize], place.0, place.1, place.2);
        }
    }
    builder.build().unwrap()
}

/// A chain of about 64 lanes, and further words that lead from one of them to another.
fn branching(rng: &mut Rng) -> Panel<'static> {
    let lanes = 56 + rng.below(14);
    let mut builder = chained(lanes);
    let paths = 1 + rng.below(2);
    builder.family(family(rng, lanes, paths));
    let mut places = HashSet::new();
    for i in 0..16 {
        let onto = if rng.below(2) == 0 { 0 } else { rng.below(lanes) };
        for lane in [rng.below(lanes), onto] {
            let place = (lane, [0, 8, 16, 20, 24][rng.below(5) as usize], rng.below(8) == 0);
            if places.insert(place) {
                builder.port(word(128 + i), place.0, place.1, place.2);
            }
        }
    }
    builder.build().unwrap()
}

/// How many panels were compared whole and how many are too deep, the mosaics, the most switches.
fn compared_all(panel: fn(&mut Rng) -> Panel<'static>, count: u64) -> [u64; 4] {
    let [mut whole, mut deep, mut mosaics, mut longest] = [0; 4];
    for seed in 0..count {
        let panel = panel(&mut Rng(seed));
        match compared(&panel, 10_000) {
            Status::Certified => {
                whole += 1;
                for switches in panel.plain_assignments().unwrap().map(|a| a.switches()) {
                    mosaics += u64::from(switches > 0);
                    longest = longest.max(switches);
                }
            }
            Status::FrontierExhausted => deep += 1,
            _ => (),
        }
    }
    [whole, deep, mosaics, longest]
}

#[test]
fn beside_the_walk_on_scattered_ports() {
    let [whole, _, mosaics, longest] = compared_all(scattered, 400);
    assert!(whole > 300 && mosaics > 1_000 && longest > 5);
}

#[test]
fn beside_the_walk_about_the_depth_of_64() {
    let [whole, deep, mosaics, longest] = compared_all(branching, 200);
    assert!(whole > 80 && deep > 80 && mosaics > 500 && longest > 60);
}

#[test]
fn a_family_of_64_lanes() {
    let mut builder = PanelBuilder::new(1);
    add_lanes(&mut builder, 65, 3).family(0..64);
    let panel = builder.build().unwrap();
    assert!(is_deep(&panel, 64));
    let [native] = &listed(&panel)[..] else { panic!("more than the native assignment") };
    assert_eq!((native.words().len(), native.switches()), (322, 0));
    // A way off the first path goes no deeper than the routes do; one off the last does.
    builder.port("A", 0, 1, false).port("A", 64, 1, false);
    let panel = builder.build().unwrap();
    assert!(is_deep(&panel, 64) && listed(&panel).len() == 1);
    builder.port("A", 63, 1, false);
    let panel = builder.build().unwrap();
    assert!(is_deep(&panel, 65));
    assert_eq!(compared(&panel, 1_000_000), Status::FrontierExhausted);
    let said = panel.plain_assignments().unwrap_err().to_string();
    assert_eq!(said, "refused 42 0: plain listing: the unbudgeted walk's deepest stack is over 64");
}

/// Lanes of which each leads to the next by a word of its own.
fn chain(builder: &mut PanelBuilder, lanes: impl Iterator<Item = u64> + Clone) {
    for (i, (from, to)) in lanes.clone().zip(lanes.skip(1)).enumerate() {
        builder.port(word(i), from, 12, false).port(word(i), to, 4, false);
    }
}

fn chained(lanes: u64) -> PanelBuilder {
    let mut builder = PanelBuilder::new(4);
    chain(add_lanes(&mut builder, lanes, 30).family([0]), 0..lanes);
    builder
}

#[test]
fn a_chain_of_lanes() {
    let panel = chained(64).build().unwrap();
    assert!(is_deep(&panel, 64) && listed(&panel).len() == 1);
    let panel = chained(65).build().unwrap();
    assert!(is_deep(&panel, 65));
    assert_eq!(compared(&panel, 1_000_000), Status::FrontierExhausted);
    // The last lane leads home: a mosaic of all of them.
    let home = |lanes| chained(lanes).port("TTTT", lanes - 1, 12, false).port("TTTT", 0, 20, false).build();
    let panel = home(63).unwrap();
    assert!(is_deep(&panel, 64));
    assert_eq!(listed(&panel).iter().map(Assignment::switches).collect::<Vec<_>>(), [0, 63]);
    assert_eq!(compared(&home(64).unwrap(), 1_000_000), Status::FrontierExhausted);
}

/// On a thread with a stack of 2 MiB.
fn on_a_small_stack<T: Send + 'static>(run: impl FnOnce() -> T + Send + 'static) -> T {
    thread::Builder::new().stack_size(2 << 20).spawn(run).unwrap().join().unwrap()
}

#[test]
fn a_hub_of_many_dead_ends() {
    // On each lane but the target, both ways end at the port.
    let mut builder = PanelBuilder::new(1);
    builder.lane(40, 0).family([0]).port("A", 0, 10, false);
    for lane in 1..4_096 {
        builder.lane(2, 0).port("A", lane, 1, false).port("A", lane, 0, true);
    }
    let panel = builder.build().unwrap();
    assert_eq!(on_a_small_stack(move || listed(&panel).len()), 1);
}

#[test]
fn the_way_on_is_the_last_of_many_at_every_depth() {
    const ENDS: u64 = 4_032;
    let mut builder = PanelBuilder::new(4);
    builder.lane(30, 0).family([0]);
    for lane in 1..=ENDS {
        let hub = word((lane % 63) as usize);
        builder.lane(30, 0).port(&hub, lane, 20, false).port(&hub, lane, 4, true);
    }
    add_lanes(&mut builder, 63, 30);
    let lanes: Vec<u64> = [0].into_iter().chain(ENDS + 1..ENDS + 64).collect();
    chain(&mut builder, lanes.into_iter());
    let panel = builder.build().unwrap();
    assert!(is_deep(&panel, 64));
    assert_eq!(on_a_small_stack(move || listed(&panel).len()), 1);
}

/// A chain of 64 frames whose second and last stand on lane 62: the second goes there in reverse
/// from one anchor to the other, the last opens a hub of 20,000 further on.
fn many_members_at_the_deepest([enter, leave]: [u64; 2]) -> Panel<'static> {
    let mut builder = PanelBuilder::new(4);
    add_lanes(&mut builder, 62, 30).lane(100, 0).family([0]);
    builder.port("TTTA", 0, 12, false).port("TTTA", 62, enter, true);
    builder.port("TTTC", 62, leave, true).port("TTTC", 1, 4, false);
    chain(&mut builder, 1..62);
    builder.port("TTTG", 61, 12, false).port("TTTG", 62, 4, false);
    builder.port("GGGG", 62, 80, false);
    add_lanes(&mut builder, 100, 1_000);
    for i in 0..20_000 {
        builder.port("GGGG", 63 + i / 200, i % 200, false);
    }
    builder.build().unwrap()
}

#[test]
fn many_members_at_the_deepest_place() {
    // The piece up to the hub was used before: all of its members are passed over.
    let panel = many_members_at_the_deepest([60, 30]);
    assert!(is_deep(&panel, 64));
    assert_eq!(on_a_small_stack(move || listed(&panel).len()), 1);
    // It was not: the first member lies too deep.
    let panel = many_members_at_the_deepest([94, 88]);
    let status = on_a_small_stack(move || compared(&panel, 1_000_000));
    assert_eq!(status, Status::FrontierExhausted);
}
