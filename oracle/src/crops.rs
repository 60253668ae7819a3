//! What 02's item 7 says of crops besides their letters: one cut in two, the normal form's, and the k
//! letters around each switch; of the original and of a subject.
use crate::{
    calls::{Call, Kind, Outcome},
    compare::Run,
    features::{joined, length, switches},
    gen::{self, Rng, Size},
    judge, rules,
};

type Ask<'a> = &'a dyn Fn(&[u8], &Call) -> Outcome;

/// A legal assignment on a panel whose letters are not refused.
struct Given<'a> {
    image: &'a [u8],
    letters: &'a [u8],
    words: &'a [u64],
    normal: &'a [u64],
}

#[derive(Default)]
struct Met {
    assignments: u64,
    cut: u64,
    joined: u64,
    /// Switches whose letters were read: + to +, + to -, - to + and - to -.
    read: [u64; 4],
    short: u64,
}

impl Given<'_> {
    fn spelled(&self, ask: Ask, words: &[u64], slot: u64, from: u64, to: u64) -> Option<Vec<u8>> {
        let (letters, words) = (self.letters.into(), words.into());
        let call = Call::Spell { letters, words, slot, from, to, out: (to - from) as usize };
        let o = ask(self.image, &call);
        (o.reply == [0, 0, to - from]).then(|| o.rooms[0].iter().map(|b| *b as u8).collect())
    }

    /// The word of the port at which a piece leaves its lane, by the original.
    fn word_behind(&self, [lane, start, end, reverse]: [u64; 4]) -> Vec<u8> {
        let cut = if reverse == 1 { start } else { end };
        let port = judge::outcome(self.image, &Call::Port { lane, cut, reverse: reverse == 1 }).reply;
        port[4..].iter().flat_map(|w| w.to_le_bytes()).filter(|b| *b != 0).collect()
    }

    /// What of the item an answer breaks.
    fn broken(&self, ask: Ask, rng: &mut Rng, met: &mut Met) -> Option<&'static str> {
        let k = rules::lanes_and_k(self.image).1;
        met.assignments += 1;
        met.joined += u64::from(self.normal.len() < self.words.len());
        for (slot, route) in (0..).zip(gen::routes_of(self.words)) {
            let n = length(&route);
            let Some(whole) = self.spelled(ask, self.words, slot, 0, n) else {
                return Some("a whole route is refused");
            };
            if self.spelled(ask, self.normal, slot, 0, n).as_ref() != Some(&whole) {
                return Some("the normal form spells other letters");
            }
            if n > 1 {
                let mid = rng.range(1, n - 1);
                let (from, to) = (rng.below(mid), rng.range(mid + 1, n));
                let part = |a, b| self.spelled(ask, self.words, slot, a, b).unwrap_or_default();
                let (crop, two) = (part(from, to), [part(from, mid), part(mid, to)].concat());
                if crop != two || crop != whole[from as usize..to as usize] {
                    return Some("a crop cut in two is not the two joined");
                }
                met.cut += 1;
            }
            let normal = joined(&route);
            for (i, (at, left, right)) in switches(&normal).into_iter().enumerate() {
                let (before, after) = (k / 2, k - k / 2);
                if length(&normal[i..=i]) < before || length(&normal[i + 1..=i + 1]) < after {
                    met.short += 1;
                    continue;
                }
                if whole[(at - before) as usize..(at + after) as usize] != self.word_behind(normal[i]) {
                    return Some("the letters around a switch are not its port's word");
                }
                met.read[2 * usize::from(left) + usize::from(right)] += 1;
            }
        }
        None
    }
}

pub fn hold(run: &Run) -> Result<(), ()> {
    let subject = run.subject();
    let library = |image: &[u8], call: &Call| subject.make(image, call);
    let asks: [Ask; 2] = [&judge::outcome, &library];
    let names = ["the original", "the subject"];
    let mut met = Met::default();
    for index in run.from..run.from + run.count {
        let input = gen::input(run.seed, Kind::Spell, index, Size::Wide);
        let image = input.image();
        let Call::Spell { letters, words, .. } = input.call else { unreachable!() };
        if rules::panel(&image) != 0 || rules::letters(&image, &letters) != 0 {
            continue;
        }
        let check = Call::Check { out: words.len(), words: words.clone() };
        let found = judge::outcome(&image, &check);
        if found.reply[0] != 0 {
            continue;
        }
        let normal = &found.rooms[0][..found.reply[2] as usize];
        let given = Given { image: &image, letters: &letters, words: &words, normal };
        for i in 0..1 + usize::from(subject.has(Kind::Spell)) {
            let mut rng = Rng::new(run.seed, 14, index);
            if let Some(what) = given.broken(asks[i], &mut rng, &mut met) {
                println!(
                    "BROKEN by {}, input {index} of seed {}, words {words:?}: {what}",
                    names[i], run.seed
                );
                return Err(());
            }
        }
    }
    let Met { assignments, cut, joined, read: [a, b, c, d], short } = met;
    println!("crops: {assignments} assignments spell what their normal forms do, {joined} not in it; {cut} crops cut in two; around switches the word: + to + {a}, + to - {b}, - to + {c}, - to - {d}; {short} with too short a piece");
    Ok(())
}
