//! What the original does outside 01's domain, seen by running it: the ground of
//! docs/DIFFERENCES.md. Panels go in unchecked here.
use crate::{
    calls::Call,
    gen::{Edit, Input},
    rules::{self, DEFAULT_BUDGET},
    spec::{PortSpec, Spec},
};
use original::{
    door::{self, Budget, Panel},
    genome_inference::panel_routes::Scores,
};
use std::panic::catch_unwind;

fn say<T: std::fmt::Debug>(
    name: &str,
    ours: &str,
    run: impl FnOnce() -> std::io::Result<T> + std::panic::UnwindSafe,
) {
    let original = match catch_unwind(run) {
        Ok(Ok(answer)) => format!("{answer:?}"),
        Ok(Err(error)) => format!("error: {error}"),
        Err(_) => "panics".into(),
    };
    println!("{name}\n    ours: {ours}\n    original: {original}");
}

fn edited(spec: &Spec, edits: Vec<Edit>) -> Vec<u8> {
    Input { spec: spec.clone(), edits, call: Call::Panel }.image()
}

/// A walk on any image that can be cut into its parts.
fn walk(name: &str, image: Vec<u8>, b: [u64; 5]) {
    let number = match rules::panel(&image) {
        0 => rules::budget(&b),
        n => n,
    };
    let ours = if number == 0 { "taken".into() } else { format!("refused {number} 0") };
    say(name, &ours, move || {
        let budget =
            Budget { work: b[0], evaluations: b[1], frontier: b[2], optima: b[3], tie: f64::from_bits(b[4]) };
        let scores = [5.0, 5.0, 4.0, 4.0, 4.0, 4.0, 4.0, 4.0];
        let found = Panel::open(&image, None)?.search(budget, Scores::List(&scores), false)?;
        Ok(found.map(|w| (w.status, w.work, w.evaluations, w.donors)))
    });
}

pub fn show() {
    std::panic::set_hook(Box::new(|_| {}));
    let e = Spec::panel_e();
    let d = DEFAULT_BUDGET;
    let word = |at, value| vec![Edit::Word { at, value }];
    let (own, global, width) = (144, 220, 19);

    let wide = |p: &PortSpec| PortSpec { word: [p.word.clone(), vec![b'A'; 31]].concat(), ..p.clone() };
    let k33 = Spec {
        k: 33,
        lanes: vec![(60, 0), (60, 1)],
        families: vec![vec![0]],
        ports: e.ports.iter().map(wide).collect(),
    };
    walk("k 33", k33.image(), d);
    walk("lane 0 of 2^32 bases", edited(&e, word(80, 1 << 32)), d);
    let many = Spec { k: 1, lanes: vec![(1, 0); 65], families: vec![(0..65).collect()], ports: vec![] };
    walk("a family of 65 paths", many.image(), d);
    walk("a family that names lane 0 twice", Spec { families: vec![vec![0, 0]], ..e.clone() }.image(), d);
    walk("a path that names lane 2", edited(&e, word(136, 2)), d);
    walk("a letter N in lane 0's first record", edited(&e, vec![Edit::Byte { at: own, value: b'N' }]), d);
    walk("lane 0's first record names lane 1", edited(&e, word(own + 2, 1)), d);
    walk("lane 0's first record with anchor 9", edited(&e, word(own + 10, 9)), d);
    walk("lane 0's records swapped", edited(&e, vec![Edit::Swap { a: own, b: own + width, len: width }]), d);
    walk(
        "the global list's middle records swapped",
        edited(&e, vec![Edit::Swap { a: global + width, b: global + 2 * width, len: width }]),
        d,
    );
    walk("the first global record with anchor 4", edited(&e, word(global + 10, 4)), d);
    walk("max_frontier 1025", e.image(), [d[0], d[1], 1025, d[3], d[4]]);
    walk("max_optima 1025", e.image(), [d[0], d[1], d[2], 1025, d[4]]);
    walk("max_work 0", e.image(), [0, d[1], d[2], d[3], d[4]]);
    walk("tie width -0.0", e.image(), [d[0], d[1], d[2], d[3], (-0.0f64).to_bits()]);
    walk("tie width NaN", e.image(), [d[0], d[1], d[2], d[3], f64::NAN.to_bits()]);
    walk("no family", Spec { families: vec![], ..e.clone() }.image(), d);

    for (lane, cut) in [(2, 0), (2, 1)] {
        let image = e.image();
        say(&format!("port at a cut: lane {lane}, cut {cut}, forward"), "refused 9 0", move || {
            Panel::open(&image, None)?.port_at_cut(lane, cut, false)
        });
    }
    for word in ["", "A", "ACA"] {
        let image = e.image();
        say(&format!("bucket of {word:?}"), "refused 10 0", move || {
            Panel::open(&image, None)?.bucket(word.as_bytes())
        });
    }
    let long = Spec { lanes: vec![(20_000, 0), (10, 1)], ..e.clone() }.image();
    let n = 16_384;
    let mut words = vec![0, 1, n];
    (0..n).for_each(|i| words.extend([0, i, if i + 1 == n { 20_000 } else { i + 1 }, 0]));
    let name = format!("an assignment of {} words", words.len());
    say(&name, "refused 22 0", move || Panel::open(&long, None)?.check(&words));
    let native = (vec![0, 1, 1, 0, 0, 10, 0], 10);
    let mosaic = (vec![0, 1, 3, 0, 0, 4, 0, 1, 6, 8, 0, 0, 7, 10, 0], 9);
    for (name, letters, (words, length)) in [
        ("E's letters, lane 0's fourth a C: the native assignment", "TTTCCTGGTACCCCCACGGC", &native),
        ("the same: E's mosaic", "TTTCCTGGTACCCCCACGGC", &mosaic),
        ("E's letters, lane 0's first an N: the mosaic", "NTTACTGGTACCCCCACGGC", &mosaic),
        ("E's letters, all small: the mosaic", "tttactggtacccccacggc", &mosaic),
        ("E's letters without the last: the mosaic", "TTTACTGGTACCCCCACGG", &mosaic),
        ("E's letters and one more: the mosaic", "TTTACTGGTACCCCCACGGCA", &mosaic),
        ("E's letters without the last two: the mosaic", "TTTACTGGTACCCCCACG", &mosaic),
    ] {
        let (image, words) = (e.image(), words.clone());
        let ours = format!("refused {} 0", rules::letters(&image, letters.as_bytes()));
        say(name, &ours, move || {
            let mut panel = Panel::open(&image, None)?;
            panel.lend(letters.as_bytes());
            Ok(match panel.check(&words)? {
                Err((39, _)) => "invalid source DNA".into(),
                Err((number, _)) => format!("switch DNA provenance mismatch ({number})"),
                Ok(_) => {
                    let spelled = panel.spell(&words, 0, 0, *length)?.unwrap_or_default();
                    format!("legal, spells {}", String::from_utf8_lossy(&spelled))
                }
            })
        });
    }
    for (count, background) in
        [(1 << 53, 1.0), (u64::MAX, 1.0), (3, 0.0), (3, -1.0), (3, f64::INFINITY), (3, f64::NAN)]
    {
        say(&format!("lower bound of {count} over {background:?}"), "refused 43 0", move || {
            door::observe(&[count], background);
            Ok(door::lower_bound())
        });
    }
    let _ = std::panic::take_hook();
}
