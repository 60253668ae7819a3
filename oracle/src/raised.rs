//! "A larger budget only adds" (02, item 13): two searches on one panel and one score list, the
//! second with no budget smaller, of the original and of a subject.
use crate::{
    calls::{Call, Kind, Outcome},
    compare::Run,
    gen::{self, Rng, Size},
    judge,
    rules::{self, BudgetWords},
};

/// Words of a listing's room, and the scores that a second run may ask for.
const OUT: usize = 20_000;
const SCORES: usize = 6_000;
/// The most work, unless the first run had more.
const WORK: u64 = 5_000;

/// No budget smaller, and the same tie width: of 0.0, -0.0 is the same number.
fn raised(rng: &mut Rng, b: &BudgetWords) -> BudgetWords {
    let mut c = *b;
    for (i, most) in [WORK, u64::MAX, 1_024, 1_024].into_iter().enumerate() {
        let by = [0, 0, 1, rng.below(10), rng.below(1_000), u64::MAX][rng.below(6) as usize];
        c[i] = b[i].saturating_add(by).min(most).max(b[i]);
    }
    if f64::from_bits(b[4]) == 0.0 && rng.one_in(2) {
        c[4] ^= 1 << 63;
    }
    c
}

/// A run: of its budget what the tied list goes by, its slot width, and what search and listing left.
struct Ran {
    optima: u64,
    width: f64,
    slot: usize,
    search: Outcome,
    list: Outcome,
}

impl Ran {
    fn new(image: &[u8], b: &BudgetWords, scores: &[u64], ask: &dyn Fn(&[u8], &Call) -> Outcome) -> Self {
        let needs = rules::needs(image, b);
        let search = Call::Search {
            budget: *b,
            scores: scores.into(),
            frames: needs.frames,
            kept: needs.kept,
            kept_scores: needs.scores,
        };
        let list = Call::List { budget: *b, from: 0, frames: needs.frames, slot: needs.slot, out: OUT };
        Self {
            optima: b[3],
            width: f64::from_bits(b[4]),
            slot: needs.slot,
            search: ask(image, &search),
            list: ask(image, &list),
        }
    }
    fn reply(&self) -> &[u64] {
        &self.search.reply
    }
    fn exhausted(&self) -> bool {
        self.reply()[2] <= 2
    }
    /// The assignment in a slot, and its score's bits.
    fn kept(&self, n: usize) -> (&[u64], u64) {
        let words = &self.search.rooms[1][n * self.slot..(n + 1) * self.slot];
        (&words[..judge::used_words(words)], self.search.rooms[2][n])
    }
    fn tied(&self) -> Vec<(&[u64], u64)> {
        (1..=self.reply()[12] as usize).map(|n| self.kept(n)).collect()
    }
    fn listed(&self) -> &[u64] {
        &self.list.rooms[2][..self.list.reply[4] as usize]
    }
}

/// What of item 13 the two runs break.
fn broken(first: &Ran, second: &Ran) -> Option<&'static str> {
    let (q, r) = (first.reply(), second.reply());
    if !second.listed().starts_with(first.listed()) || q[4] > r[4] {
        return Some("what the first handed over is not the first of the second's");
    }
    if q[4] > 0 {
        let (old, new) = (first.kept(0), second.kept(0));
        let lower = f64::from_bits(new.1) < f64::from_bits(old.1);
        if !lower && old != new {
            return Some("the incumbent is another one, and does not score lower");
        }
        if first.exhausted() && old != new {
            return Some("an exhausted run has another incumbent");
        }
    }
    if first.exhausted() && !(second.exhausted() && q[3..12] == r[3..12]) {
        return Some("an exhausted run does not stay so with its counters");
    }
    let same = first.optima == second.optima;
    let roomy = same || q[13] == 0;
    if roomy && first.exhausted() && (q != r || first.tied() != second.tied()) {
        return Some("an exhausted run, with nothing discarded or the same max_optima, is not as it was");
    }
    if roomy && q[4] > 0 {
        let best = f64::from_bits(second.kept(0).1);
        let mut stay = first.tied();
        stay.retain(|(_, score)| f64::from_bits(*score) - best <= first.width);
        if !second.tied().starts_with(&stay) {
            return Some("what was tied and is within the width of the new incumbent does not stay first");
        }
    }
    (same && q[13] > r[13]).then_some("a discarded mark is gone")
}

pub fn pairs(run: &Run) -> Result<(), ()> {
    let subject = run.subject();
    let library = |image: &[u8], call: &Call| subject.make(image, call);
    let linked = subject.has(Kind::Search) && subject.has(Kind::List);
    let (mut pairs, mut exhausted, mut lower, mut completed) = (0, 0, 0, 0);
    for index in run.from..run.from + run.count {
        let input = gen::input(run.seed, Kind::Search, index, Size::Wide);
        let image = input.image();
        let Call::Search { budget: b, mut scores, .. } = input.call else { unreachable!() };
        if rules::panel(&image) != 0 || rules::budget(&b) != 0 {
            continue;
        }
        let mut rng = Rng::new(run.seed, 13, index);
        scores.retain(|x| f64::from_bits(*x).is_finite());
        scores.push(4.5f64.to_bits());
        while scores.len() < SCORES {
            scores.push(rng.pick(&scores));
        }
        let c = raised(&mut rng, &b);
        let asks: [&dyn Fn(&[u8], &Call) -> Outcome; 2] = [&judge::outcome, &library];
        let names = ["the original", "the subject"].into_iter().take(1 + usize::from(linked));
        for (name, ask) in names.zip(asks) {
            let (first, second) = (Ran::new(&image, &b, &scores, ask), Ran::new(&image, &c, &scores, ask));
            if first.reply()[0] != 0 || second.reply()[0] != 0 {
                continue;
            }
            if let Some(what) = broken(&first, &second) {
                println!(
                    "BROKEN by {name}, input {index} of seed {}, budgets {b:?} and {c:?}: {what}",
                    run.seed
                );
                return Err(());
            }
            let scored = first.reply()[4] > 0;
            pairs += 1;
            exhausted += u64::from(first.exhausted());
            lower += u64::from(scored && first.kept(0) != second.kept(0));
            completed += u64::from(first.reply()[2] == 2 && second.reply()[2] == 1);
        }
    }
    println!("raised: {pairs} pairs of runs only add; {exhausted} exhausted before, {lower} with a lower incumbent, {completed} with support completed");
    Ok(())
}
