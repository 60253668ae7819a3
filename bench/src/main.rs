//! The library beside the original Rust and a tuned safe Rust of the same rule, in one process.
#![forbid(unsafe_code)]
mod agree;
mod panels;
mod table;
mod tuned;

use oracle::{
    gen::Rng,
    large, plain,
    spec::{PortSpec, Spec},
};
use original::{door, genome_inference::panel_routes::Scores};
use panel_routes::{Assignment, Names, Panel, SearchBudget, Segment};
use std::{env, fs, path::Path, process::ExitCode, time::Instant};
use table::{Row, Table};

const SEED: u64 = 1;
const FRONTIER: u64 = 1024;
const OPTIMA: u64 = 8;

/// The seconds that a run takes, and its answer.
fn timed<T>(run: impl FnOnce() -> T) -> (f64, T) {
    let start = Instant::now();
    let answer = run();
    (start.elapsed().as_secs_f64(), answer)
}

/// The least of several times each, taken by turns, and the last answers.
fn side_by_side<A, B>(mut ours: impl FnMut() -> A, mut tuned: impl FnMut() -> B) -> (f64, A, f64, B) {
    let begin = Instant::now();
    let mut least = (f64::INFINITY, f64::INFINITY);
    for turn in 1.. {
        let ((one, a), (two, b)) = (timed(&mut ours), timed(&mut tuned));
        least = (least.0.min(one), least.1.min(two));
        if turn >= 3 && begin.elapsed().as_secs_f64() > 1.0 {
            return (least.0, a, least.1, b);
        }
    }
    unreachable!()
}

fn budget(work: u64) -> SearchBudget {
    SearchBudget {
        max_work: work,
        max_evaluations: work,
        max_frontier: FRONTIER,
        max_optima: OPTIMA,
        tie_width: 0.0,
    }
}

fn tuned_budget(work: u64) -> tuned::Budget {
    let SearchBudget { max_work, max_evaluations, max_frontier, max_optima, tie_width } = budget(work);
    tuned::Budget { max_work, max_evaluations, max_frontier, max_optima, tie_width }
}

/// The rooms that a search lends, for panels of one path a family.
struct Rooms {
    frames: Vec<u64>,
    slot: Vec<u64>,
    kept: Vec<u64>,
    scores: Vec<f64>,
    out: Vec<u64>,
}

impl Rooms {
    fn new() -> Self {
        let needs = oracle::rules::needs_of(1, FRONTIER, OPTIMA);
        Self {
            frames: vec![0; needs.frames],
            slot: vec![0; needs.slot],
            kept: vec![0; needs.kept],
            scores: vec![0.0; needs.scores],
            out: vec![0; 1 << 16],
        }
    }
}

/// One walk with its scores, whole calls: the image is checked each time, by all but the original.
fn walk(name: &str, spec: &Spec, work: u64, with_original: bool, folder: &Path) -> Row {
    let image = spec.image();
    let scores: Vec<f64> = (0..work).map(|i| ((i * 7919) % 1009) as f64).collect();
    let panel = Panel::new(&image[..]).expect("a sound panel");
    let mut rooms = Rooms::new();
    let (ours, sheet, tuned, found) = side_by_side(
        || panel.search_with_scores(budget(work), &scores).unwrap(),
        || {
            let panel = tuned::Panel::new(&image).unwrap();
            let Rooms { frames, kept, scores: kept_scores, .. } = &mut rooms;
            panel.search(tuned_budget(work), &scores, frames, kept, kept_scores).unwrap()
        },
    );
    assert_eq!(sheet.counters.work, found.tally.work);
    assert_eq!(sheet.counters.evaluations, found.tally.evaluations);
    assert_eq!(sheet.counters.donors, found.tally.donors);
    let mut row = Row::new(format!("{name}, {} units", found.tally.work), ours).tuned(tuned);
    if with_original {
        let b = budget(work);
        let b = door::Budget {
            work: b.max_work,
            evaluations: b.max_evaluations,
            frontier: b.max_frontier,
            optima: b.max_optima,
            tie: b.tie_width,
        };
        let original = |folder: Option<&Path>| {
            let opened = door::Panel::open(&image, folder).unwrap();
            let (time, walk) = timed(|| opened.search(b, Scores::List(&scores), false).unwrap().unwrap());
            assert_eq!((walk.work, walk.donors), (found.tally.work, found.tally.donors));
            time
        };
        row = row.original(original(None), Some(original(Some(folder))));
    }
    row
}

/// One page of a listing, whole calls.
fn listing(name: &str, spec: &Spec, work: u64) -> Row {
    let image = spec.image();
    let panel = Panel::new(&image[..]).unwrap();
    let mut rooms = Rooms::new();
    let (ours, made, tuned, found) = side_by_side(
        || panel.assignments(budget(work)).unwrap().evaluations(),
        || {
            let panel = tuned::Panel::new(&image).unwrap();
            let Rooms { frames, slot, out, .. } = &mut rooms;
            panel.list(tuned_budget(work), 0, frames, slot, out).unwrap()
        },
    );
    assert_eq!(made, found.evaluations);
    Row::new(format!("listing, {name}, {} units, {made} assignments", found.work), ours).tuned(tuned)
}

/// One page of the plain listing, whole calls; the tuned listing leaves the natives out.
fn plain_listing(name: &str, spec: &Spec) -> Row {
    let image = spec.image();
    let panel = Panel::new(&image[..]).unwrap();
    let mut rooms = Rooms::new();
    let natives = panel.family_count() as u64;
    let (ours, page, tuned, found) = side_by_side(
        || panel.plain_assignments().unwrap(),
        || {
            let panel = tuned::Panel::new(&image).unwrap();
            let Rooms { frames, slot, out, .. } = &mut rooms;
            panel.list(agree::sufficient(u64::MAX), natives, frames, slot, out).unwrap()
        },
    );
    assert_eq!(found.status, tuned::EXHAUSTED);
    let words = page.take(found.written as usize).flat_map(Assignment::into_words);
    assert!(words.eq(rooms.out[..found.words as usize].iter().copied()));
    let (units, written, all) = (found.work - natives, found.written, found.evaluations - natives);
    Row::new(format!("plain listing, {name}, {units} units, {written} of {all} assignments"), ours)
        .tuned(tuned)
}

/// 6 lanes of 10,000 bases with so many words in their order, k 16: each word is on two or three lanes,
/// one port in eight is in reverse. So few ports that the unbudgeted walk comes to its end.
fn braided(words: u64) -> Spec {
    const K: u64 = 16;
    const LANES: u64 = 6;
    const LENGTH: u64 = 10_000;
    let mut rng = Rng::new(SEED, 10, words);
    let step = LENGTH / words;
    let mut ports = Vec::new();
    for i in 0..words {
        let word: Vec<u8> = (0..K).map(|_| rng.pick(b"ACGT")).collect();
        let mut sources: Vec<u64> = (0..LANES).collect();
        for _ in 0..rng.range(2, 3) {
            let source = sources.swap_remove(rng.below(sources.len() as u64) as usize);
            let anchor = i * step + rng.below(step - K + 1);
            ports.push(PortSpec { word: word.clone(), source, anchor, reverse: rng.one_in(8) });
        }
    }
    let families = (0..LANES).map(|l| vec![l]).collect();
    Spec { k: K, lanes: (0..LANES).map(|l| (LENGTH, l)).collect(), families, ports }
}

fn panel_check(name: &str, spec: &Spec) -> Row {
    let image = spec.image();
    let (ours, _, tuned, _) =
        side_by_side(|| Panel::new(&image[..]).is_ok(), || tuned::check(&image).is_ok());
    Row::new(format!("panel check, {name}"), ours).tuned(tuned)
}

/// The first lane whole, in so many pieces.
fn in_pieces(spec: &Spec, pieces: u64) -> Assignment {
    let length = spec.lanes[0].0;
    let at = |i: u64| i * length / pieces;
    let piece = |i| Segment { source: 0, start: at(i), end: at(i + 1), reverse: false };
    Assignment::new(0, [(0..pieces).map(piece)]).unwrap()
}

/// The first lane in so many pieces; the panel is checked too.
fn assignment_check(name: &str, spec: &Spec, pieces: u64) -> Row {
    let image = spec.image();
    let panel = Panel::new(&image[..]).unwrap();
    let assignment = in_pieces(spec, pieces);
    let mut out = vec![0; assignment.words().len()];
    let (ours, normal, tuned, used) = side_by_side(
        || panel.check_assignment(&assignment).unwrap(),
        || {
            let panel = plain::Panel::parse(&image).unwrap();
            panel.check_assignment(assignment.words(), &mut out).unwrap()
        },
    );
    assert_eq!(normal.words(), &out[..used]);
    Row::new(format!("assignment check, {name}, {pieces} segments"), ours).tuned(tuned)
}

/// A panel, and letters that its ports read.
struct Lettered {
    spec: Spec,
    letters: Vec<u8>,
}

/// Pairs of lanes of random letters, the second of each the first turned, with so many ports on each lane:
/// where the first has one, the second has one of that word in the other orientation.
fn lettered(pairs: u64, length: u64, each: u64, k: u64) -> Lettered {
    let turned = |letters: &[u8]| -> Vec<u8> {
        letters.iter().rev().map(|b| b"TGCA"[b"ACGT".iter().position(|l| l == b).unwrap()]).collect()
    };
    let mut rng = Rng::new(SEED, 7, each);
    let (mut letters, mut ports) = (Vec::new(), Vec::new());
    let step = length / each;
    for pair in 0..pairs {
        let lane: Vec<u8> = (0..length).map(|_| rng.pick(b"ACGT")).collect();
        for i in 0..each {
            let (anchor, reverse) = (i * step + rng.below((step + 1).saturating_sub(k)), rng.one_in(2));
            let there = &lane[anchor as usize..][..k as usize];
            let word = if reverse { turned(there) } else { there.to_vec() };
            ports.push(PortSpec { word: word.clone(), source: 2 * pair, anchor, reverse });
            let anchor = length - anchor - k;
            ports.push(PortSpec { word, source: 2 * pair + 1, anchor, reverse: !reverse });
        }
        letters.extend([lane.clone(), turned(&lane)].concat());
    }
    let lanes = vec![(length, 0); 2 * pairs as usize];
    Lettered { spec: Spec { k, lanes, families: vec![vec![0]], ports }, letters }
}

impl Lettered {
    /// Lane 0 from end to end.
    fn forward(&self) -> Assignment {
        let whole = Segment { source: 0, start: 0, end: self.spec.lanes[0].0, reverse: false };
        Assignment::new(0, [[whole]]).unwrap()
    }

    /// The same letters, between the outermost forward ports of lane 0 by way of lane 1 in reverse.
    fn reverse(&self) -> Assignment {
        let length = self.spec.lanes[0].0;
        let forward = self.spec.ports.iter().filter(|p| p.source == 0 && !p.reverse);
        let cuts = forward.map(|p| self.spec.cut(p));
        let (out, back) = (cuts.clone().min().unwrap(), cuts.max().unwrap());
        let home = |start, end| Segment { source: 0, start, end, reverse: false };
        let other = Segment { source: 1, start: length - back, end: length - out, reverse: true };
        Assignment::new(0, [[home(0, out), other, home(back, length)]]).unwrap()
    }
}

/// Letters that pass, whole calls: the image is checked each time.
fn letters_check(name: &str, lettered: &Lettered) -> Row {
    let (image, letters) = (lettered.spec.image(), &lettered.letters[..]);
    let panel = Panel::new(&image[..]).unwrap();
    let (ours, passed, tuned, same) = side_by_side(
        || panel.letters(letters).is_ok(),
        || tuned::check(&image).is_ok_and(|panel| panel.check_letters(letters).is_ok()),
    );
    assert!(passed && same);
    Row::new(format!("letters check, {name}"), ours).tuned(tuned)
}

/// A route that reads lane 0, whole calls: the image and the letters are checked each time.
fn spelling(name: &str, lettered: &Lettered, assignment: &Assignment) -> Row {
    let (image, letters) = (lettered.spec.image(), &lettered.letters[..]);
    let panel = Panel::new(&image[..]).unwrap();
    let checked = panel.letters(letters).unwrap();
    let length = lettered.spec.lanes[0].0;
    let [mut out, mut room] = [(); 2].map(|_| vec![0; length as usize]);
    let (ours, spelled, tuned, same) = side_by_side(
        || checked.spell_into(assignment, 0, 0..length, &mut out).unwrap(),
        || tuned::spell(&image, letters, assignment.words(), [0, 0, length], &mut room).unwrap(),
    );
    assert_eq!((spelled as u64, same), (length, length));
    assert!(out == checked.lane(0).unwrap() && out == room);
    Row::new(format!("spelling, {name}"), ours).tuned(tuned)
}

/// The panel's check is a part of the others, and timed by itself beside them.
fn letters(table: &mut Table) {
    let long = lettered(1, 1_000_000, 25_000, 16);
    table.put(panel_check("50,000 ports", &long.spec));
    table.put(letters_check("50,000 ports, 2,000,000 letters", &long));
    table.put(spelling("50,000 ports, 1,000,000 letters forward", &long, &long.forward()));
    table.put(spelling("50,000 ports, 1,000,000 letters reverse", &long, &long.reverse()));
    let wide = lettered(32, 15_637, 15_625, 12);
    table.put(panel_check("1,000,000 ports that read letters", &wide.spec));
    table.put(letters_check("1,000,000 ports, 1,000,768 letters", &wide));
}

/// So many lanes of 100,000 bases without a port, and a family of the first.
fn bare(lanes: usize) -> Spec {
    Spec { k: 16, lanes: vec![(100_000, 0); lanes], families: vec![vec![0]], ports: vec![] }
}

/// Names of 20 bytes.
fn ordinary(lanes: usize) -> Names {
    Names::new((0..lanes).map(|i| format!("accession-{i:010}"))).unwrap()
}

/// Names of 20 bytes that the library has in one chain: the last three bytes are chosen for it.
fn in_one_chain(lanes: usize) -> Names {
    let hash = |h: u64, bytes: &[u8]| bytes.iter().fold(h, |h, b| (131 * h + u64::from(*b)) % 1_048_573);
    let printing = || 33..=126u8;
    let ends = || printing().flat_map(|a| printing().flat_map(move |b| printing().map(move |c| [a, b, c])));
    let name = |i| {
        let front = format!("accession-{i:07}").into_bytes();
        let h = hash(0, &front);
        let end = ends().find(|end| hash(h, end) % 4096 == 0).unwrap();
        [&front[..], &end].concat()
    };
    Names::new((0..lanes).map(name)).unwrap()
}

/// The first lane in so many pieces written as BED, and read, whole calls: the image, the names and the
/// assignment are checked each time.
fn bed_rows(table: &mut Table, name: &str, spec: &Spec, names: &Names, pieces: u64) {
    let (image, lines) = (spec.image(), names.as_str().as_bytes());
    let panel = Panel::new(&image[..]).unwrap();
    let assignment = in_pieces(spec, pieces);
    let words = assignment.words();
    let segments = if pieces == 1 { "segment" } else { "segments" };
    let text = assignment.to_bed(&panel, names).unwrap();
    let [mut out, mut room] = [(); 2].map(|_| vec![0; text.len()]);
    let (ours, length, tuned, same) = side_by_side(
        || assignment.to_bed_into(&panel, names, &mut out).unwrap(),
        || tuned::write_bed(&image, lines, words, &mut room).unwrap(),
    );
    assert_eq!((length, same), (text.len(), text.len() as u64));
    assert!(out == text.as_bytes() && out == room);
    table.put(Row::new(format!("writing BED, {name}, {pieces} {segments}"), ours).tuned(tuned));

    let [mut out, mut room] = [(); 2].map(|_| vec![0; words.len()]);
    let (ours, length, tuned, same) = side_by_side(
        || panel.read_bed_into(names, 0, &text, &mut out).unwrap(),
        || tuned::read_bed(&image, lines, 0, text.as_bytes(), &mut room).unwrap(),
    );
    assert_eq!((length, same), (words.len(), words.len() as u64));
    assert!(out == words && out == room);
    table.put(Row::new(format!("reading BED, {name}, {pieces} {segments}"), ours).tuned(tuned));
}

fn beds(table: &mut Table) {
    let pool = large::pooled(SEED, 200);
    for pieces in [1, 10_000] {
        bed_rows(table, "8 lanes, 3,200 ports", &pool, &ordinary(8), pieces);
    }
    bed_rows(table, "2 lanes", &bare(2), &ordinary(2), 16_383);
    let many = bare(4096);
    bed_rows(table, "4,096 lanes", &many, &ordinary(4096), 1);
    bed_rows(table, "4,096 lanes, names in one chain", &many, &in_one_chain(4096), 1);
}

/// Counts from the least on, as many different ones as twice the background.
fn lower_bound(name: &str, n: u64, background: f64, least: u64) -> Row {
    let mut rng = Rng::new(SEED, 12, n);
    let counts: Vec<u64> = (0..n).map(|_| least + rng.below(2 * background as u64)).collect();
    door::observe(&counts, background);
    let (ours, bound, tuned, same) = side_by_side(
        || panel_routes::lower_bound(&counts, background).unwrap(),
        || tuned::lower_bound(&counts, background).unwrap(),
    );
    let (original, own) = timed(door::lower_bound);
    assert!(bound.is_some() && bound == same && bound == own);
    Row::new(format!("lower bound, {name}"), ours).tuned(tuned).original(original, None)
}

fn run(folder: &Path) {
    let mut table = Table::begin();
    let pools: Vec<(String, Spec)> =
        [16, 200, 1000].map(|p| (format!("pool of {p} words"), large::pooled(SEED, p))).into();
    for (name, spec) in &pools {
        table.put(walk(&format!("walk, {name}"), spec, 300_000, true, folder));
        table.put(walk(&format!("walk, {name}"), spec, 10_000_000, false, folder));
    }
    for (name, spec) in &pools {
        table.put(listing(name, spec, 1_000_000));
    }
    // All assignments of the first fit into a page, and a part of the second's.
    for words in [22, 23] {
        let (name, spec) = (format!("braid of {words} words"), braided(words));
        table.put(plain_listing(&name, &spec));
        table.put(listing(&name, &spec, u64::MAX));
    }
    let (name, spec) = &pools[1];
    table.put(panel_check("3,200 ports", spec));
    table.put(assignment_check(name, spec, 1));
    table.put(assignment_check(name, spec, 10_000));
    let wide = large::wide(SEED, 1_000_000);
    table.put(panel_check("1,000,000 ports", &wide));
    table.put(walk("walk, 1,000,000 ports", &wide, 300_000, true, folder));
    table.put(assignment_check("1,000,000 ports", &wide, 1));
    table.put(lower_bound("1,000,000 counts, all above", 1_000_000, 50.0, 100));
    table.put(lower_bound("1,000,000 counts, half above", 1_000_000, 50.0, 0));
    letters(&mut table);
    beds(&mut table);
    panels::rows(&mut table);
}

fn main() -> ExitCode {
    let words: Vec<String> = env::args().skip(1).collect();
    match words.iter().map(String::as_str).collect::<Vec<_>>()[..] {
        ["agree", count] => {
            let count = count.parse().expect("a count");
            let walks = agree::with_judge(count) && agree::plain(count);
            let agree = walks && agree::letters(count) && agree::beds(count);
            ExitCode::from(u8::from(!agree))
        }
        [] => {
            let folder = env::temp_dir().join(format!("panel-routes-bench-{}", std::process::id()));
            fs::create_dir_all(&folder).unwrap();
            run(&folder);
            fs::remove_dir_all(&folder).unwrap();
            ExitCode::SUCCESS
        }
        ["letters"] => {
            letters(&mut Table::begin());
            ExitCode::SUCCESS
        }
        ["beds"] => {
            beds(&mut Table::begin());
            ExitCode::SUCCESS
        }
        ["panels"] => {
            panels::rows(&mut Table::begin());
            ExitCode::SUCCESS
        }
        _ => {
            eprintln!("usage: bench, bench letters, bench beds, bench panels, or bench agree COUNT");
            ExitCode::from(2)
        }
    }
}
