//! What the certificate says of the exported search, for every scoring function with which the lent
//! scores agree; of the original and of a subject.
use crate::{
    calls::{Call, Kind, Outcome},
    compare::Run,
    deep,
    gen::{self, rng_index, Rng, Size},
    judge::{self, REACH},
    legal,
    plain::{Panel, Status},
    rules::{self, BudgetWords},
    spec::Spec,
};
use std::collections::{BTreeMap, BTreeSet};

type Ask<'a> = &'a dyn Fn(&[u8], &Call) -> Outcome;
type Met = BTreeMap<&'static str, u64>;
type Held = Result<(), &'static str>;

/// A panel with a deeper stack is left out: the original takes long to write it down.
const DEEPEST: u64 = 40;
/// Neighbours of legal assignments, an input.
const NEAR: u64 = 4;

/// Scores from high to low, and how far apart they are: whole numbers, zeros, at the last bit, too far
/// to subtract.
const PALETTES: [(&[f64], f64); 6] = [
    (&[3.0, 2.0, 1.0, 0.0], 1.0),
    (&[1.0, 0.0, -0.0], 1.0 / 1024.0),
    (&[5.0, 5.0, 4.5, 3.5], 1.0),
    (&[0.5, 0.0, -0.0, -0.5, -1.0], 0.5),
    (&[1.0 + 2.0 * f64::EPSILON, 1.0 + f64::EPSILON, 1.0], f64::EPSILON),
    (&[f64::MAX, 1e308, 0.0, -1e308, -f64::MAX], f64::MAX),
];

const WIDTHS: [f64; 6] = [0.0, -0.0, 0.5, 1.0, 1.0 / 1024.0, f64::MAX];

/// Units, evaluations and deepest stack of the unbudgeted walk, where it ends soon. It is the stand-in's
/// walk: a fault in that shows as the original's.
fn sizes(image: &[u8]) -> Option<[u64; 3]> {
    let panel = Panel::parse(image).expect("a sound panel");
    let ends = |frontier| gen::size_of(&panel, frontier, REACH);
    let (units, evaluations, status) = ends(DEEPEST);
    let deepest = (1..=DEEPEST).find(|d| ends(*d).2 != Status::Frontier)?;
    (status == Status::Certified).then_some([units, evaluations, deepest])
}

/// A panel, and a scoring function: one of the palette's scores for the words of each assignment.
struct Given {
    spec: Spec,
    image: Vec<u8>,
    legal: BTreeSet<Vec<u64>>,
    sizes: [u64; 3],
    key: u64,
    palette: &'static [f64],
    step: f64,
}

impl Given {
    fn new(rng: &mut Rng) -> Option<Self> {
        let size = if rng.one_in(8) { Size::Wide } else { Size::Small };
        let mut spec = deep::panel(rng, size);
        let lanes = spec.lanes.len() as u64;
        for _ in 0..rng.pick(&[0, 0, 1, 3, 4]) {
            spec.families.push(gen::family(rng, lanes));
        }
        let image = spec.image();
        let (sizes, legal) = (sizes(&image)?, legal::assignments(&spec)?);
        let ((palette, step), key) = (rng.pick(&PALETTES), rng.next());
        Some(Self { spec, image, legal, sizes, key, palette, step })
    }

    /// Mostly no native scores lowest: a lower one then drops natives from the tied list.
    fn f(&self, words: &[u64]) -> f64 {
        let native = words.len() as u64 == 2 + 5 * words[1];
        let most = self.palette.len() - usize::from(native && self.key % 4 > 0);
        let mixed = words.iter().fold(self.key, |mixed, w| Rng::new(mixed, 0, *w).next());
        self.palette[mixed as usize % most]
    }

    fn natives(&self) -> Vec<Vec<u64>> {
        let whole = |lane: &u64| vec![[*lane, 0, self.spec.lanes[*lane as usize].0, 0]];
        let native = |paths: &Vec<u64>| paths.iter().map(whole).collect::<Vec<_>>();
        (0..).zip(&self.spec.families).map(|(f, paths)| gen::to_words(f, &native(paths))).collect()
    }

    /// One too few of one of the three, or just enough, which is an edge; or more.
    fn budget(&self, rng: &mut Rng) -> (BudgetWords, bool) {
        let width = if rng.one_in(2) { self.step } else { rng.pick(&WIDTHS) };
        let least = self.legal.iter().map(|a| self.f(a)).fold(f64::MAX, f64::min);
        let tied = self.legal.iter().filter(|a| self.f(a) - least <= width).count() as u64;
        let optima = rng.pick(&[1, 2, 2, 2, 3, tied.saturating_sub(1), tied, self.legal.len() as u64]);
        let just = [self.sizes[0].max(1), self.sizes[1] + 1, self.sizes[2]];
        let mut b = [0, 0, 0, optima.clamp(1, 1_024), width.to_bits()];
        let edge = rng_index(rng, 9);
        for (i, just) in just.into_iter().enumerate() {
            let more = if edge == 3 || edge == 4 { 0 } else { rng.pick(&[0, 1, 9, 50]) };
            b[i] = if edge == i { (just - 1).max(1) } else { just + more };
        }
        (b, edge < 5)
    }

    fn suffices(&self, b: &BudgetWords) -> bool {
        b[0] >= self.sizes[0] && b[1] > self.sizes[1] && b[2] >= self.sizes[2]
    }

    /// A legal assignment with a bound moved, a piece turned, dropped, cut in two or on another lane.
    fn neighbour(&self, rng: &mut Rng) -> Vec<u64> {
        let words = self.legal.iter().nth(rng_index(rng, self.legal.len())).expect("a legal one");
        let mut routes = gen::routes_of(words);
        let route = rng_index(rng, routes.len());
        let i = rng_index(rng, routes[route].len());
        let piece = &mut routes[route][i];
        let bound = rng.range(1, 2) as usize;
        match rng.below(7) {
            0 => piece[bound] = piece[bound].wrapping_add(1),
            1 => piece[bound] = piece[bound].wrapping_sub(1),
            2 if !self.spec.ports.is_empty() => piece[bound] = self.spec.cut(&rng.pick(&self.spec.ports)),
            3 => piece[3] ^= 1,
            4 => drop(routes[route].remove(i)),
            5 => gen::split(rng, &mut routes[route]),
            _ => piece[0] = rng.below(self.spec.lanes.len() as u64 + 1),
        }
        gen::to_words(words[0], &routes)
    }

    /// The check takes each legal assignment as it stands, and of those beside them no other.
    fn hold_check(&self, ask: Ask, rng: &mut Rng, met: &mut Met) -> Held {
        let passes = |words: &[u64]| {
            let o = ask(&self.image, &Call::Check { words: words.into(), out: words.len() });
            o.reply == [0, 0, words.len() as u64] && o.rooms[0] == words
        };
        need(self.legal.iter().all(|a| passes(a)), "the check refuses a legal assignment")?;
        let reverse = |a: &&Vec<u64>| gen::routes_of(a).iter().flatten().any(|p| p[3] == 1);
        note(met, "legal assignments", self.legal.len() as u64);
        note(met, "legal with a reverse piece", self.legal.iter().filter(reverse).count() as u64);
        for _ in 0..if self.legal.is_empty() { 0 } else { NEAR } {
            let words = self.neighbour(rng);
            let legal = self.legal.contains(&words);
            need(passes(&words) == legal, "the check's word of a neighbour is another")?;
            note(met, if legal { "legal neighbours" } else { "neighbours" }, 1);
        }
        Ok(())
    }
}

fn note(met: &mut Met, name: &'static str, n: u64) {
    *met.entry(name).or_default() += n;
}

fn need(holds: bool, what: &'static str) -> Held {
    holds.then_some(()).ok_or(what)
}

/// A search, and what the listing under its budget says is handed over.
struct Ran<'a> {
    given: &'a Given,
    budget: BudgetWords,
    slot: usize,
    handed: Vec<Vec<u64>>,
    list: Vec<u64>,
    search: Outcome,
}

impl<'a> Ran<'a> {
    fn new(given: &'a Given, budget: BudgetWords, ask: Ask, rng: &mut Rng) -> Self {
        let needs = rules::needs(&given.image, &budget);
        // Room for all that is due and for one too many.
        let due: usize = given.legal.iter().chain(&given.natives()).map(Vec::len).sum();
        let (frames, slot, out) = (needs.frames, needs.slot, due + needs.slot);
        let list = ask(&given.image, &Call::List { budget, from: 0, frames, slot, out });
        let handed = judge::assignments(&list.rooms[2][..list.reply[4] as usize]);
        let handed: Vec<Vec<u64>> = handed.into_iter().map(Vec::from).collect();
        // Scores that agree with f: of zero either sign does.
        let lent = |x: f64| if x == 0.0 { rng.pick(&[0.0, -0.0]) } else { x };
        let scores = handed.iter().map(|a| given.f(a)).map(lent).map(f64::to_bits).collect();
        let (kept, kept_scores) = (needs.kept, needs.scores);
        let search = ask(&given.image, &Call::Search { budget, scores, frames, kept, kept_scores });
        Self { given, budget, slot, handed, list: list.reply, search }
    }

    /// The legal assignment that a slot begins with, and its score.
    fn kept(&self, n: usize) -> Result<(&'a Vec<u64>, f64), &'static str> {
        let slot = self.search.rooms[1].chunks(self.slot).zip(&self.search.rooms[2]).nth(n);
        let found = slot.and_then(|(words, score)| {
            let legal = self.given.legal.iter().find(|a| words.starts_with(a));
            legal.map(|a| (a, f64::from_bits(*score)))
        });
        found.ok_or("a slot in use holds no legal assignment")
    }

    fn hold(&self, met: &mut Met) -> Held {
        let (r, given, natives) = (&self.search.reply, self.given, self.given.natives());
        need(r[0] == 0 && self.list[0] == 0, "a run is refused")?;
        need((1..=5).contains(&r[2]), "there is no such status")?;
        let count = self.handed.len() as u64;
        need([r[4], self.list[5]] == [count; 2], "evaluations are not what is handed over")?;
        let exhausted = r[2] <= 2;
        need(exhausted == given.suffices(&self.budget), "the status does not go by the three budgets")?;
        let names = ["certified", "support incomplete", "work", "evaluation", "frontier"];
        note(met, names[r[2] as usize - 1], 1);
        if !exhausted {
            return Ok(());
        }
        need(self.handed.starts_with(&natives), "what is handed over does not begin with the natives")?;
        let walked: BTreeSet<Vec<u64>> = self.handed[natives.len()..].iter().cloned().collect();
        let once = walked == given.legal && walked.len() + natives.len() == self.handed.len();
        need(once, "what is handed over then is not each legal assignment once")?;
        if natives.is_empty() {
            note(met, "no family", 1);
            return need(r[2] == 1 && r[12] == 0, "without a family it is not certified");
        }
        self.hold_kept(met)
    }

    /// The incumbent and the tied list of an exhausted run.
    fn hold_kept(&self, met: &mut Met) -> Held {
        let (r, given, width) = (&self.search.reply, self.given, f64::from_bits(self.budget[4]));
        let best = self.kept(0)?;
        let least = given.f(best.0);
        need(!given.legal.iter().any(|a| given.f(a) < least), "a legal assignment scores lower")?;
        let near = |a: &Vec<u64>| given.f(a) - least <= width;
        let tied = (1..=r[12] as usize).map(|n| self.kept(n)).collect::<Result<Vec<_>, _>>()?;
        need(tied.iter().all(|(a, _)| near(a)), "one is tied beyond the width")?;
        let mut scored = tied.iter().chain([&best]);
        need(scored.all(|(a, score)| *score == given.f(a)), "a kept score is not the assignment's")?;
        let different: BTreeSet<_> = tied.iter().map(|(a, _)| *a).collect();
        need(different.len() == tied.len(), "one is tied twice")?;
        let mut seen = BTreeSet::new();
        let firsts: Vec<_> = self.handed.iter().filter(|a| seen.insert(*a)).collect();
        need((r[2] == 2) == self.was_crowded(&firsts), "the status does not go by max_optima")?;
        let kept = firsts.into_iter().filter(|a| different.contains(a));
        let in_order = kept.eq(tied.iter().map(|(a, _)| *a));
        let complete = given.legal.iter().filter(|a| near(a)).count() == tied.len();
        need(r[2] == 2 || complete && in_order, "not all within the width are tied, in their order")?;
        let other_zero = |(a, score): &(&Vec<u64>, f64)| score.to_bits() != given.f(a).to_bits();
        note(met, "incomplete with room left", u64::from(r[2] == 2 && r[12] < self.budget[3]));
        note(met, "several tied", u64::from(tied.len() > 1));
        note(met, "tied out of order", u64::from(!in_order));
        note(met, "a zero of the other sign", u64::from(tied.iter().chain([&best]).any(other_zero)));
        Ok(())
    }

    /// Whether at some time more than max_optima were within the width of the best so far: one was then
    /// discarded, and the tied list full.
    fn was_crowded(&self, firsts: &[&Vec<u64>]) -> bool {
        let scores: Vec<f64> = firsts.iter().map(|a| self.given.f(a)).collect();
        (1..=scores.len()).any(|n| {
            let best = scores[..n].iter().copied().fold(f64::MAX, f64::min);
            let near = scores[..n].iter().filter(|x| **x - best <= f64::from_bits(self.budget[4]));
            near.count() as u64 > self.budget[3]
        })
    }
}

pub fn hold(run: &Run) -> Result<(), ()> {
    let subject = run.subject();
    let library = |image: &[u8], call: &Call| subject.make(image, call);
    let linked = [Kind::Check, Kind::List, Kind::Search].into_iter().all(|k| subject.has(k));
    let asks: [(&str, Ask); 2] = [("the original", &judge::outcome), ("the subject", &library)];
    let (mut met, mut runs, mut skipped) = (Met::new(), 0, 0);
    for index in run.from..run.from + run.count {
        let mut rng = Rng::new(run.seed, 15, index);
        let mut given = Given::new(&mut rng);
        // Where natives alone are legal there is little to hold: mostly another panel.
        while given.as_ref().is_some_and(|g| g.legal.len() == g.spec.families.len()) && !rng.one_in(4) {
            given = Given::new(&mut rng);
        }
        let Some(given) = given else {
            skipped += 1;
            continue;
        };
        let (budget, edge) = given.budget(&mut rng);
        for (name, ask) in asks.iter().take(1 + usize::from(linked)) {
            let mut rng = Rng::new(run.seed, 16, index);
            let ran = Ran::new(&given, budget, *ask, &mut rng);
            if let Err(what) = ran.hold(&mut met).and_then(|_| given.hold_check(*ask, &mut rng, &mut met)) {
                println!("BROKEN by {name}, input {index} of seed {}: {what}", run.seed);
                println!("panel {:?}, budget {budget:?}", given.spec);
                return Err(());
            }
            runs += 1;
            note(&mut met, "budgets at an edge", u64::from(edge));
        }
    }
    let met: Vec<String> = met.iter().map(|(name, n)| format!("{name} {n}")).collect();
    println!("sentence: {runs} runs hold; {}; {skipped} inputs left out", met.join(", "));
    Ok(())
}
