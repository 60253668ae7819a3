//! The recorded sample: few small inputs for each call that show every refusal, every
//! status and every kind of unit, with the judge's answers.
use crate::{
    calls::{Call, Kind, Outcome, KINDS},
    examples, features,
    gen::{self, Edit, Input, Size},
    judge, plain, record, rules,
    spec::{PortSpec, Spec},
    stand_in,
};
use std::{
    collections::{BTreeMap, BTreeSet},
    fs, io,
    path::Path,
};

/// A replaying program needs no longer room than this for any record.
pub const LONGEST_ROOM: usize = 4096;
const MOST_ARGUMENTS: usize = 32;

struct Chosen {
    image: Vec<u8>,
    call: Call,
    outcome: Outcome,
    bytes: Vec<u8>,
}

fn chosen(image: Vec<u8>, call: Call) -> Chosen {
    let outcome = judge::outcome(&image, &call);
    let mut bytes = Vec::new();
    let answer = record::expected(&image, &call, &outcome);
    record::write(&mut bytes, call.kind() as u64, &image, &record::arguments(&call), &answer).unwrap();
    Chosen { image, call, outcome, bytes }
}

fn shown(c: &Chosen) -> Vec<String> {
    let mut all = vec![format!("refusal {}", c.outcome.reply[0])];
    all.extend(features::of(&c.image, &c.call, &c.outcome).into_iter().map(String::from));
    all
}

/// Random small inputs, the smallest first, until each thing shown has its share.
fn from_random(seed: u64, kind: Kind, share: u64, inputs: u64) -> Vec<Chosen> {
    let mut all: Vec<Chosen> = (0..inputs)
        .map(|i| gen::input(seed, kind, i, Size::Small))
        .filter(|i| i.call.rooms().iter().all(|r| *r <= LONGEST_ROOM))
        .map(|i| chosen(i.image(), i.call))
        .filter(|c| c.bytes.len() <= 1000 && record::arguments(&c.call).len() <= MOST_ARGUMENTS)
        .collect();
    all.sort_by_key(|c| c.bytes.len());
    let mut have: BTreeMap<String, u64> = BTreeMap::new();
    let mut twice: BTreeSet<Vec<u8>> = BTreeSet::new();
    all.retain(|c| {
        let things = shown(c);
        let wanted = things.iter().any(|t| have.get(t).copied().unwrap_or(0) < share);
        let new = wanted && twice.insert(c.bytes.clone());
        if new {
            things.into_iter().for_each(|t| *have.entry(t).or_default() += 1);
        }
        new
    });
    all
}

/// Panel E with one thing wrong, by the rows of 01's table.
fn spoiled_e() -> Vec<Vec<Edit>> {
    let word = |at: usize, value: u64| vec![Edit::Word { at, value }];
    let byte = |at: usize, value: u8| vec![Edit::Byte { at, value }];
    let half = 1u64 << 63;
    // E: lanes at 80, its family at 128, the path at 136, own records at 144, global at 220.
    let (own, global, width) = (144, 220, 19);
    let mut all = vec![vec![], vec![Edit::Truncate(0)], vec![Edit::Truncate(79)], vec![Edit::Truncate(80)]];
    all.extend([vec![Edit::Truncate(295)], vec![Edit::Extend(1)]]);
    for (at, values) in [
        (0, vec![0, 1, 3, 32, 33, half]),
        (8, vec![0, 1, 4096, 4097, u64::MAX]),
        (16, vec![0, 4096, 4097, half]),
        (24, vec![0, 64, 65, u64::MAX]),
        (32, vec![0, 5, 4_194_304, 4_194_305, half]),
        (40, vec![79, 81, u64::MAX]),
        (48, vec![127, half + 128]),
        (56, vec![144, u64::MAX - 7]),
        (64, vec![143, 0]),
        (72, vec![221, u64::MAX]),
        (80, vec![0, 1, 4_294_967_295, 4_294_967_296, u64::MAX]),
        (88, vec![0, 1, 3, u64::MAX]),
        (128, vec![0, 2, 65, u64::MAX]),
        (136, vec![1, 2, u64::MAX]),
    ] {
        all.extend(values.into_iter().map(|v| word(at, v)));
    }
    // Counts of 2^63 + 2 twice, which add up to 4 where a sum wraps.
    all.push([word(88, half + 2), word(112, half + 2)].concat());
    for list in [own, global] {
        all.extend([byte(list, b'N'), byte(list + 1, b'c'), byte(list + 18, 2), byte(list + 18, 1)]);
        all.extend([1, 2, u64::MAX].map(|v| word(list + 2, v)));
        all.extend([4, 8, 9, u64::MAX, u64::MAX - 1].map(|v| word(list + 10, v)));
        all.push(vec![Edit::Swap { a: list, b: list + width, len: width }]);
        all.push(vec![Edit::Copy { from: list, to: list + width, len: width }]);
    }
    all.push(byte(global + 1, b'A'));
    all.push([byte(own, b'N'), vec![Edit::Swap { a: global, b: global + width, len: width }]].concat());
    all
}

/// A family that names a lane twice, one of 65 paths, and panels with neither family nor port.
fn other_panels() -> Vec<Spec> {
    let e = Spec::panel_e();
    let many = Spec { lanes: vec![(1, 0); 66], families: vec![(0..65).collect()], ports: vec![], k: 1 };
    let most = Spec { families: vec![(0..64).collect()], ..many.clone() };
    let mut both = e.clone();
    both.ports.push(crate::spec::PortSpec { word: b"GT".to_vec(), source: 0, anchor: 3, reverse: true });
    vec![
        Spec { families: vec![vec![0, 1, 0]], ..e.clone() },
        Spec { families: vec![], ..e.clone() },
        Spec { ports: vec![], ..e.clone() },
        many,
        most,
        both,
    ]
}

/// Assignments on panel E, by the rows of 01's table.
fn checks_e() -> Vec<Call> {
    const MAX: u64 = u64::MAX;
    let all: [&[u64]; 32] = [
        &[],
        &[0],
        &[0, 1],
        &[0, MAX],
        &[0, 1, MAX],
        &[0, 1, 1 << 62, 0, 0, 10, 0],
        &[0, 1, 1, 0, 0, 10],
        &[0, 1, 1, 0, 0, 10, 2],
        &[0, 1, 1, 0, 0, 10, MAX],
        &[0, 1, 1, 0, 0, 10, 0, 0],
        &[1, 1, 1, 0, 0, 10, 0],
        &[MAX, 1, 1, 0, 0, 10, 0],
        &[0, 0],
        &[0, 2, 0, 0],
        &[0, 1, 0],
        &[0, 1, 1, 2, 0, 10, 0],
        &[0, 1, 1, MAX, 0, 10, 0],
        &[0, 1, 1, 0, 10, 10, 0],
        &[0, 1, 1, 0, 0, 11, 0],
        &[0, 1, 1, 0, 0, MAX, 0],
        &[0, 1, 1, 1, 0, 10, 0],
        &[0, 1, 1, 0, 0, 10, 1],
        &[0, 1, 1, 0, 1, 10, 0],
        &[0, 1, 1, 0, 0, 9, 0],
        // Legal: native, native in two pieces, by way of lane 1.
        &[0, 1, 1, 0, 0, 10, 0],
        &[0, 1, 2, 0, 0, 4, 0, 0, 4, 10, 0],
        &[0, 1, 3, 0, 0, 4, 0, 1, 6, 8, 0, 0, 7, 10, 0],
        &[0, 1, 4, 0, 0, 4, 0, 1, 6, 7, 0, 1, 7, 8, 0, 0, 7, 10, 0],
        // No outgoing port, no incoming port, other words.
        &[0, 1, 3, 0, 0, 5, 0, 1, 6, 8, 0, 0, 7, 10, 0],
        &[0, 1, 3, 0, 0, 4, 0, 1, 5, 8, 0, 0, 7, 10, 0],
        &[0, 1, 2, 0, 0, 7, 0, 0, 4, 10, 0],
        &[0, 1, 3, 0, 0, 4, 0, 1, 6, 8, 0, 0, 8, 10, 0],
    ];
    let full = |w: &&[u64]| Call::Check { words: w.to_vec(), out: w.len() + 2 };
    let mut calls: Vec<Call> = all.iter().map(full).collect();
    let native = vec![0, 1, 1, 0, 0, 10, 0];
    // 21 comes before 22; the normal form's own length is not enough.
    calls.push(Call::Check { words: native.clone(), out: 6 });
    calls.push(Call::Check { words: native[..6].to_vec(), out: 5 });
    calls.push(Call::Check { words: vec![0, 1, 2, 0, 0, 4, 0, 0, 4, 10, 0], out: 10 });
    calls
}

fn search_of(image: &[u8], budget: [u64; 5], scores: &[u64], kind: Kind) -> Call {
    let needs = rules::needs(image, &budget);
    let (frames, slot) = (needs.frames + 3, needs.slot + 2);
    if kind == Kind::List {
        return Call::List { budget, from: 0, frames, slot, out: 60 };
    }
    Call::Search {
        budget,
        scores: scores.to_vec(),
        frames,
        kept: needs.kept + 5,
        kept_scores: needs.scores + 1,
    }
}

/// A walk stopped after each of its units.
fn series(image: &[u8], units: u64, frontier: u64, scores: &[u64], kind: Kind) -> Vec<Chosen> {
    let budget = |w: u64| [w, 1000, frontier, 2, 1f64.to_bits()];
    (1..=units + 1).map(|w| chosen(image.to_vec(), search_of(image, budget(w), scores, kind))).collect()
}

const UNITS: [&str; 13] = [
    "a native",
    "an evaluation",
    "on to the next slot",
    "a terminal elsewhere",
    "a terminal that overlaps",
    "a member taken",
    "the outgoing port itself",
    "a member that overlaps",
    "closing a hub",
    "a port of the other orientation",
    "opening a forward port's hub",
    "opening a reverse port's hub",
    "leaving a frame",
];

/// Which kinds of unit the steps of a walk show, from the answers alone.
fn units_shown(spec: &Spec, steps: &[Outcome]) -> BTreeSet<usize> {
    let mut own: Vec<Vec<&crate::spec::PortSpec>> = vec![Vec::new(); spec.lanes.len()];
    spec.ports.iter().for_each(|p| own[p.source as usize].push(p));
    own.iter_mut().for_each(|l| l.sort_by_key(|p| (p.anchor, p.reverse)));
    let mut global: Vec<&crate::spec::PortSpec> = spec.ports.iter().collect();
    global.sort();
    let mut shown = BTreeSet::from([0]);
    for pair in steps.windows(2) {
        let (a, b) = (&pair[0], &pair[1]);
        let (ra, rb) = (&a.reply, &b.reply);
        if ra[14] == 0 || ra[3] == rb[3] {
            continue;
        }
        let at = 10 * (ra[14] as usize - 1);
        let (top, after) = (&a.rooms[0][at..at + 10], &b.rooms[0][at..at + 10]);
        let (source, reverse) = (top[1] as usize, top[3] == 1);
        let kind = if rb[11] > ra[11] || rb[14] < ra[14] {
            12
        } else if top[4] == 1 {
            let target = spec.families[ra[11] as usize][top[0] as usize];
            let home = top[1] == target && !reverse && top[2] < spec.lanes[source].0;
            match () {
                _ if rb[4] > ra[4] => 1,
                _ if rb[14] > ra[14] => 2,
                _ if home => 4,
                _ => 3,
            }
        } else if rb[6] > ra[6] {
            // The outgoing port is the one last stepped over.
            let outgoing = own[source][top[5] as usize - if reverse { 0 } else { 2 }];
            match () {
                _ if rb[14] > ra[14] => 5,
                _ if *global[top[6] as usize] == *outgoing => 6,
                _ => 7,
            }
        } else if top[7] > 0 {
            8
        } else if after[7] == 0 {
            9
        } else {
            10 + usize::from(reverse)
        };
        shown.insert(kind);
    }
    shown
}

/// A small panel whose walk has units of every kind, and its number of units.
fn all_units(seed: u64) -> (Spec, u64, u64) {
    let calls = stand_in::calls();
    let mut best: Option<(Spec, u64, u64)> = None;
    for index in 0..400_000 {
        let mut rng = gen::Rng::new(seed, 100, index);
        let spec = gen::sound(&mut rng, Size::Small);
        let image = spec.image();
        let longest = best.as_ref().map_or(80, |b| b.1 - 1);
        if spec.lanes.len() > 3 || spec.families.iter().map(Vec::len).max() != Some(2) || spec.ports.len() > 9
        {
            continue;
        }
        let panel = plain::Panel::parse(&image).unwrap();
        let (units, made, status) = gen::size_of(&panel, 12, longest + 1);
        if status != plain::Status::Certified || units > longest {
            continue;
        }
        let scores = vec![1f64.to_bits(); made as usize];
        let step = |w| calls.make(&image, &search_of(&image, [w, 1000, 12, 2, 0], &scores, Kind::Search));
        let steps: Vec<Outcome> = (1..=units + 1).map(step).collect();
        if units_shown(&spec, &steps).len() == UNITS.len() {
            best = Some((spec, units, made));
        }
    }
    best.expect("some small panel shows every kind of unit")
}

/// The inputs of `bound/specs/Try.antt`.
fn bounds() -> Vec<Call> {
    const TOP: u64 = (1 << 53) - 1;
    let bits = f64::from_bits;
    let cases: [(f64, &[u64]); 29] = [
        (0.5, &[]),
        (2.5, &[3, 0, 7, 12]),
        (2.5, &[3, 12]),
        (2.5, &[12, 3]),
        (3.0, &[4]),
        (0.1, &[1]),
        (4.0, &[4]),
        (TOP as f64, &[TOP]),
        (4.0, &[3]),
        (bits(1f64.to_bits() + 1), &[1]),
        ((TOP + 1) as f64, &[TOP]),
        (1.0, &[TOP, TOP]),
        (f64::MAX, &[TOP]),
        (bits(1), &[5, 1]),
        (f64::MIN_POSITIVE, &[1]),
        (bits(f64::MIN_POSITIVE.to_bits() - 1), &[1]),
        (bits(0x0054_4000_0000_0008), &[9]),
        (bits(0x0054_4000_0000_0007), &[9]),
        (bits(1), &[0]),
        (6e-277, &[TOP, TOP, 1]),
        (1.0, &[1, TOP + 1]),
        (f64::MAX, &[TOP + 1]),
        (bits(1), &[5, TOP + 1]),
        (0.0, &[]),
        (-0.0, &[]),
        (-1.0, &[1]),
        (f64::INFINITY, &[1]),
        (f64::NEG_INFINITY, &[]),
        (f64::NAN, &[1]),
    ];
    cases.map(|(b, counts)| Call::Bound { counts: counts.into(), background: b.to_bits() }).into()
}

/// A family of lanes of four bases, one slot each; with a pair of equal ports the last goes one deeper.
fn slots(paths: u64, pair: bool) -> Spec {
    let port = |anchor| PortSpec { word: b"A".to_vec(), source: paths - 1, anchor, reverse: false };
    let ports = if pair { vec![port(1), port(2)] } else { vec![] };
    Spec { k: 1, lanes: vec![(4, 0); paths as usize], families: vec![(0..paths).collect()], ports }
}

/// Panel E with every edge of its list, and stacks of 64 and 65 places.
fn plain_lists() -> Vec<(Spec, Call)> {
    let mut all = Vec::new();
    for from in 0..4 {
        all.extend([0, 6, 7, 21, 22, 30].map(|out| (Spec::panel_e(), Call::Plain { from, out })));
    }
    all.push((Spec::panel_e(), Call::Plain { from: u64::MAX, out: 30 }));
    for (spec, count) in [(slots(64, false), 1), (slots(63, true), 2), (slots(64, true), 0)] {
        all.push((spec.clone(), Call::Plain { from: 0, out: 40 }));
        all.push((spec, Call::Plain { from: count, out: 400 }));
    }
    // A family that could be listed, before and behind one that goes too deep.
    for at in [0, 1] {
        let mut spec = slots(64, true);
        spec.families.insert(at, vec![0]);
        all.push((spec, Call::Plain { from: 0, out: 40 }));
    }
    all
}

const LETTERS_E: &[u8] = b"TTTACTGGTACCCCCACGGC";

/// Panel E's letters, with one of them another byte.
fn letters_e(at: usize, letter: u8) -> Vec<u8> {
    let mut letters = LETTERS_E.to_vec();
    letters[at] = letter;
    letters
}

/// Letters of panel E by the rows of 02's item 7; of E with a reverse port, its word turned and not,
/// and of E without ports.
fn letters_on_e() -> Vec<(Spec, Call)> {
    let e = Spec::panel_e();
    let with = |word: &str| {
        let mut spec = e.clone();
        spec.ports.push(PortSpec { word: word.into(), source: 0, anchor: 3, reverse: true });
        spec
    };
    let mut two = letters_e(3, b'C');
    two[19] = b'N';
    let own = [
        LETTERS_E.to_vec(),
        letters_e(0, b'A'),
        LETTERS_E[..19].to_vec(),
        [LETTERS_E, b"A"].concat(),
        vec![],
        letters_e(0, b'N'),
        letters_e(0, b't'),
        two,
        letters_e(3, b'C'),
        letters_e(18, b'T'),
    ];
    let mut all: Vec<(Spec, Vec<u8>)> = own.into_iter().map(|l| (e.clone(), l)).collect();
    all.push((with("GT"), LETTERS_E.into()));
    all.push((with("GT"), letters_e(4, b'T')));
    all.push((with("AC"), LETTERS_E.into()));
    all.push((Spec { ports: vec![], ..e.clone() }, letters_e(3, b'C')));
    all.into_iter().map(|(spec, letters)| (spec, Call::Letters { letters })).collect()
}

/// Crops of panel E's mosaic, each refusal of the check with its first assignment in `checks_e`, and
/// the order of the refusals.
fn spellings_on_e() -> Vec<Call> {
    const MAX: u64 = u64::MAX;
    let call = |letters: &[u8], words: &[u64], slot, from, to, out| Call::Spell {
        letters: letters.into(),
        words: words.into(),
        slot,
        from,
        to,
        out,
    };
    let crops = [
        (0, 0, 9, 9),
        (0, 0, 9, 12),
        (0, 3, 7, 4),
        (0, 3, 4, 1),
        (0, 8, 9, 3),
        (0, 0, 9, 8),
        (0, 3, 4, 0),
        (1, 0, 9, 9),
        (MAX, 0, 9, 9),
        (0, 4, 4, 9),
        (0, 5, 4, 9),
        (0, 0, 10, 9),
        (0, 9, 10, 1),
        (0, 0, MAX, 9),
        (0, MAX, MAX, 9),
        (0, MAX, 0, 9),
    ];
    let mut all: Vec<Call> =
        crops.map(|(slot, from, to, out)| call(LETTERS_E, &MOSAIC, slot, from, to, out)).into();
    let image = Spec::panel_e().image();
    let mut seen = BTreeSet::new();
    for check in checks_e() {
        let number = judge::outcome(&image, &check).reply[0];
        let Call::Check { words, .. } = check else { unreachable!() };
        if number != 21 && seen.insert(number) {
            all.push(call(LETTERS_E, &words, 0, 0, 9, 9));
        }
    }
    // As given, in four pieces; 39 before 40, 40 before 22, 22 and 27 before 41.
    let pieces = [0, 1, 4, 0, 0, 4, 0, 1, 6, 7, 0, 1, 7, 8, 0, 0, 7, 10, 0];
    all.push(call(LETTERS_E, &pieces, 0, 2, 7, 5));
    all.push(call(&letters_e(0, b'a'), &MOSAIC, 0, 0, 9, 9));
    all.push(call(&letters_e(3, b'N'), &MOSAIC, 0, 0, 9, 9));
    all.push(call(&letters_e(3, b'C'), &[], 0, 0, 9, 9));
    all.push(call(LETTERS_E, &[], 1, 9, 0, 0));
    all.push(call(LETTERS_E, &[0, 1, 1, 0, 0, 9, 0], 1, 9, 0, 0));
    all
}

/// Panel E's names, and its mosaic in words and as BED.
const NAMES_E: &[u8] = b"left\nright\n";
const MOSAIC: [u64; 15] = [0, 1, 3, 0, 0, 4, 0, 1, 6, 8, 0, 0, 7, 10, 0];
const MOSAIC_BED: &str = "left\t0\t4\tr0\t0\t+\nright\t6\t8\tr0\t0\t+\nleft\t7\t10\tr0\t0\t+\n";

/// Tables of panel E's names by the rows of 02's item 2, good ones last.
fn tables_e() -> Vec<Vec<u8>> {
    let [long, longest] = [65, 64].map(|n| "x".repeat(n));
    let mut all: Vec<Vec<u8>> = [
        "",
        "\n",
        "\n\n",
        "left\n",
        "left\nright",
        "left\nright\n\n",
        "left\nright\nmore\n",
        "left\nright\nx",
        "left\n\nright\n",
        "left\n\n",
        "\nright\n",
        "left\nleft\n",
        "le ft\nright\n",
        "left\nright \n",
        "left\nri\tght\n",
        "left\r\nright\r\n",
        "le\u{7f}ft\nright\n",
        "le\u{e9}ft\nright\n",
        "le\0ft\nright\n",
    ]
    .map(|t| t.as_bytes().to_vec())
    .to_vec();
    all.push(format!("left\n{long}\n").into());
    all.push(format!("left\n{longest}\n").into());
    all.extend(["!\n~\n", "a\nb\n", "r0\n0\n", "#\n+\n", "a\nab\n"].map(|t| t.as_bytes().to_vec()));
    // Two names with the same hash.
    all.extend([&b"!!!\n^.R\n"[..], b"^.R\n!!!\n", NAMES_E].map(<[u8]>::to_vec));
    all
}

/// Panel E's mosaic by every table, each refusal of the check with its first assignment in `checks_e`,
/// every room near the text's length, and the order of the refusals.
fn writes_on_e() -> Vec<Call> {
    let call =
        |names: &[u8], words: &[u64], out| Call::Write { names: names.into(), words: words.into(), out };
    let length = MOSAIC_BED.len();
    let mut all: Vec<Call> = tables_e().iter().map(|t| call(t, &MOSAIC, 200)).collect();
    all.extend([0, 1, length - 1, length, length + 1, 100].map(|out| call(NAMES_E, &MOSAIC, out)));
    let image = Spec::panel_e().image();
    let mut seen = BTreeSet::new();
    for check in checks_e() {
        let number = judge::outcome(&image, &check).reply[0];
        let Call::Check { words, .. } = check else { unreachable!() };
        if number == 0 || number != 21 && seen.insert(number) {
            all.push(call(NAMES_E, &words, 100));
            // The check's before 37.
            all.push(call(NAMES_E, &words, 0));
        }
    }
    // 34 before 22.
    all.push(call(b"left\n", &[], 0));
    all
}

/// The mosaic's text with one thing changed, column by column.
fn texts_e() -> Vec<String> {
    let mut all = vec![MOSAIC_BED.to_string(), String::new(), "\n".into(), "left".into()];
    let big = (1u128 << 64).to_string();
    let numbers = ["", "00", "06", "006", "+6", "-6", "-0", "6 ", " 6", "6.0", "0x6", "6:", "/6", "5", "7"];
    let wide = [u64::MAX.to_string(), big, "18446744073709551622".into(), "6".repeat(40)];
    let numbers: Vec<String> = numbers.iter().map(|n| n.to_string()).chain(wide).collect();
    let names = ["", "righ", "rights", "Right", "left", "ri ght", "right\r", "\u{7f}", "#right", "r\0"];
    let long = [64, 65].map(|n| "x".repeat(n));
    let own = |texts: &[&str]| texts.iter().map(|t| t.to_string()).collect::<Vec<_>>();
    let slots = own(&["", "r", "0", "R0", "rr0", "r 0", "r1", "r2", "r-1", "0r", "r00"]);
    let columns: [Vec<String>; 6] = [
        own(&names).into_iter().chain(long).collect(),
        numbers.clone(),
        numbers.clone(),
        slots.into_iter().chain(numbers.iter().skip(1).map(|n| format!("r{n}"))).collect(),
        own(&["", "00", "1", "+0", "0 ", "."]),
        own(&["", ".", "+-", "++", "+ ", "-", "+\r"]),
    ];
    let lines: Vec<&str> = MOSAIC_BED.split_inclusive('\n').collect();
    let second: Vec<&str> = lines[1].trim_end().split('\t').collect();
    for (i, others) in columns.iter().enumerate() {
        for other in others {
            let mut line = second.clone();
            line[i] = other;
            all.push(format!("{}{}\n{}", lines[0], line.join("\t"), lines[2]));
        }
    }
    let others = [
        "".into(),
        lines[1].replace('\t', " "),
        lines[1].replace("\t+", "\t+\t"),
        lines[1].replace("\t+", "\t+\tx"),
        lines[1].replace("\t+", ""),
        format!("\t{}", lines[1]),
        "\n".into(),
        "#\n".into(),
        format!("# a comment\n{}", lines[1]),
        format!("track name=x\n{}", lines[1]),
        format!("\n{}", lines[1]),
        lines[1].trim_end().into(),
        format!("{}{}", lines[1], lines[1]),
        format!("{}{}", lines[1].replace("8", "7"), lines[1].replace("6", "7")),
    ];
    all.extend(others.map(|line| format!("{}{line}{}", lines[0], lines[2])));
    for order in [[1, 0, 2], [0, 2, 1], [2, 1, 0]] {
        all.push(order.map(|i| lines[i]).concat());
    }
    all.extend([1, 2, 30].map(|n| MOSAIC_BED[..MOSAIC_BED.len() - n].to_string()));
    all.push(format!("{MOSAIC_BED}\n"));
    all.push(format!("{MOSAIC_BED} "));
    all.push(MOSAIC_BED.replace('\n', "\r\n"));
    all.push(MOSAIC_BED.replace("r0", "r1"));
    all
}

/// Every text, the mosaic's by every table and in every room near its words, other families, and the
/// order of the refusals.
fn reads_on_e() -> Vec<Call> {
    const MAX: u64 = u64::MAX;
    let call = |names: &[u8], family, text: &str, out| Call::Read {
        names: names.into(),
        family,
        text: text.into(),
        out,
    };
    let mut all: Vec<Call> = texts_e().iter().map(|text| call(NAMES_E, 0, text, 24)).collect();
    for table in tables_e() {
        let names = String::from_utf8_lossy(&table);
        if let [left, right, _] = names.split('\n').collect::<Vec<_>>()[..] {
            let text = MOSAIC_BED.replace("left", left).replace("right", right);
            all.push(call(&table, 0, &text, 24));
        }
        all.push(call(&table, 0, MOSAIC_BED, 24));
    }
    all.extend([0, 1, 14, 15, 16].map(|out| call(NAMES_E, 0, MOSAIC_BED, out)));
    all.extend([1, MAX].map(|family| call(NAMES_E, family, MOSAIC_BED, 15)));
    all.extend([0, 1, 2, 3].map(|out| call(NAMES_E, 0, "", out)));
    all.push(call(NAMES_E, 1, "", 2));
    // Each refusal of the check, as lines; then 34 before 35, 35 before 36, 36 and 37 before the check's.
    for text in [
        "left\t0\t10\tr0\t0\t+\n",
        "left\t0\t4\tr0\t0\t+\nleft\t4\t10\tr0\t0\t+\n",
        "left\t0\t10\tr0\t0\t+\nright\t0\t10\tr1\t0\t+\n",
        "left\t10\t10\tr0\t0\t+\n",
        "left\t0\t11\tr0\t0\t+\n",
        "left\t0\t9\tr0\t0\t+\n",
        "left\t0\t10\tr0\t0\t-\n",
        "right\t0\t10\tr0\t0\t+\n",
        "left\t0\t5\tr0\t0\t+\nright\t6\t10\tr0\t0\t+\nleft\t7\t10\tr0\t0\t+\n",
        "left\t0\t4\tr0\t0\t+\nright\t5\t8\tr0\t0\t+\nleft\t7\t10\tr0\t0\t+\n",
        "left\t0\t4\tr0\t0\t+\nleft\t7\t10\tr0\t0\t+\n",
        "left\t0\t7\tr0\t0\t+\nleft\t4\t10\tr0\t0\t+\n",
    ] {
        all.push(call(NAMES_E, 0, text, 20));
        all.push(call(NAMES_E, 0, text, 6));
    }
    all.push(call(b"left\n", 0, "x", 0));
    all.push(call(NAMES_E, 0, "other\t0\t4\tr0\t0\t+\nleft\t4\t10\tr0\t0\t.\n", 0));
    all.push(call(NAMES_E, 9, "other\t0\t4\tr0\t0\t+\n", 0));
    all.push(call(NAMES_E, 9, "left\t0\t4\tr0\t0\t+\n", 0));
    all
}

fn sample(seed: u64, kind: Kind) -> Vec<Chosen> {
    let mut all = Vec::new();
    let e = Spec::panel_e();
    match kind {
        Kind::Panel => {
            let inputs =
                spoiled_e().into_iter().map(|edits| Input { spec: e.clone(), edits, call: Call::Panel });
            all.extend(inputs.map(|i| chosen(i.image(), i.call)));
            all.extend(other_panels().iter().map(|s| chosen(s.image(), Call::Panel)));
            all.extend(from_random(seed, kind, 3, 4000));
        }
        Kind::Port | Kind::Bucket => {
            if kind == Kind::Bucket {
                // P5.
                for word in ["AA", "AC", "AT", "GG"] {
                    all.push(chosen(e.image(), Call::Bucket { word: word.into() }));
                }
            }
            all.extend(from_random(seed, kind, 3, 8000));
        }
        Kind::Check => {
            all.extend(checks_e().into_iter().map(|call| chosen(e.image(), call)));
            all.extend(from_random(seed, kind, 2, 40_000));
        }
        Kind::List | Kind::Search => {
            let scores: Vec<u64> = [5f64, 5.0, 4.0].iter().map(|s| s.to_bits()).collect();
            if kind == Kind::Search {
                all.extend(series(&e.image(), 21, 4, &scores, kind).into_iter().step_by(2));
            }
            let (spec, units, made) = all_units(seed);
            let scores: Vec<u64> = (0..made).map(|i| ((i * 5 % 7) as f64).to_bits()).collect();
            let steps = series(&spec.image(), units, 12, &scores, kind).into_iter();
            all.extend(steps.step_by(if kind == Kind::List { 3 } else { 1 }));
            all.extend(from_random(seed, kind, 2, 40_000));
        }
        Kind::Bound => {
            all.extend(bounds().into_iter().map(|call| chosen(vec![], call)));
            all.extend(from_random(seed, kind, 4, 8000));
        }
        Kind::Plain => {
            all.extend(plain_lists().into_iter().map(|(spec, call)| chosen(spec.image(), call)));
            all.extend(from_random(seed, kind, 2, 8000));
        }
        Kind::Letters => {
            all.extend(letters_on_e().into_iter().map(|(spec, call)| chosen(spec.image(), call)));
            all.extend(from_random(seed, kind, 1, 8000));
        }
        Kind::Spell => {
            all.extend(spellings_on_e().into_iter().map(|call| chosen(e.image(), call)));
            all.extend(from_random(seed, kind, 1, 20_000));
        }
        Kind::Write => {
            all.extend(writes_on_e().into_iter().map(|call| chosen(e.image(), call)));
            all.extend(from_random(seed, kind, 5, 20_000));
        }
        Kind::Read => {
            all.extend(reads_on_e().into_iter().map(|call| chosen(e.image(), call)));
            all.extend(from_random(seed, kind, 5, 20_000));
        }
    }
    all
}

fn jobs(seed: u64) -> Vec<(Vec<u8>, String)> {
    let mut all: Vec<(Vec<u8>, String)> = examples::NAMES
        .iter()
        .map(|name| examples::named(name).unwrap())
        .map(|job| (job.clone(), judge::sheet(&job)))
        .collect();
    let mut random: Vec<(Vec<u8>, String)> = (0..6000)
        .map(|i| gen::job(seed, i, Size::Small))
        .filter(|job| job.len() < 900)
        .map(|job| (job.clone(), judge::sheet(&job)))
        .collect();
    random.sort_by_key(|(job, _)| job.len());
    let mut have: BTreeMap<String, u64> = BTreeMap::new();
    random.retain(|(_, sheet)| {
        let mut words = sheet.split_whitespace();
        let key = format!("{:?} {:?}", words.next(), words.next());
        let lines = format!("{key} {}", sheet.lines().count() / 4);
        [key, lines].iter().fold(false, |new, k| {
            let n = have.entry(k.clone()).or_default();
            *n += 1;
            new | (*n <= if k.len() > 60 { 1 } else { 2 })
        })
    });
    all.extend(random);
    all
}

/// Writes one file a call, and one of jobs for the walk program; says what each shows.
pub fn write(folder: &Path, seed: u64) -> io::Result<()> {
    fs::create_dir_all(folder)?;
    for kind in KINDS {
        let all = sample(seed, kind);
        let mut have: BTreeMap<String, u64> = BTreeMap::new();
        all.iter().flat_map(shown).for_each(|t| *have.entry(t).or_default() += 1);
        let bytes: Vec<u8> = all.iter().flat_map(|c| c.bytes.clone()).collect();
        println!("{}.bin: {} records, {} bytes; {have:?}", kind.name(), all.len(), bytes.len());
        fs::write(folder.join(format!("{}.bin", kind.name())), bytes)?;
    }
    let all = jobs(seed);
    let mut bytes = Vec::new();
    for (job, sheet) in &all {
        record::write(&mut bytes, record::JOB, job, &[], &record::text_words(sheet))?;
    }
    println!("job.bin: {} records, {} bytes", all.len(), bytes.len());
    fs::write(folder.join("job.bin"), bytes)
}
