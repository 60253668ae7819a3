//! 31 alone: assignments that no refusal before it concerns, of few segments and of thousands, held to
//! the plain reading and, where they are not too many, to the original; as words and as lines of BED.
use crate::{
    calls::{Call, Kind, Outcome},
    compare::Run,
    gen::Rng,
    judge, pieces, rules, stand_in,
};
use std::collections::BTreeMap;

/// So many segments are given to the original.
const ORIGINAL: usize = 400;

struct Given {
    image: Vec<u8>,
    words: Vec<u64>,
    lanes: u64,
}

fn given(rng: &mut Rng) -> Given {
    let most = match rng.below(40) {
        0 => 16_000,
        1..=4 => rng.range(1_000, 3_000),
        5..=15 => rng.range(40, 400),
        _ => rng.range(0, 40),
    };
    let lanes = match rng.below(4) {
        0 => 1,
        1 => rng.range(1, 4),
        2 => rng.range(1, 100),
        _ => rng.range(1, (most / 3).clamp(1, 4096)),
    };
    let each = most.div_ceil(lanes) + rng.below(3);
    let paths = rng.range(1, lanes.min(4));
    let (order, longer) = (rng.pick(&pieces::ORDERS), rng.pick(&[0, 0, 1, 1, 2]));
    let words = pieces::words(rng, [lanes, each, paths], order, most as usize, longer);
    Given { image: pieces::panel(lanes, each, paths).image(), words, lanes }
}

impl Given {
    fn read_call(&self) -> Call {
        let names: Vec<String> = (0..self.lanes).map(|l| format!("lane{l}")).collect();
        let table: Vec<&[u8]> = names.iter().map(|n| n.as_bytes()).collect();
        let text = rules::bed(&table, &self.words);
        let names = names.iter().flat_map(|n| [n.as_bytes(), b"\n"].concat()).collect();
        Call::Read { names, family: self.words[0], text, out: self.words.len() }
    }
}

pub fn hold(run: &Run) -> Result<(), ()> {
    let (subject, plain) = (run.subject(), stand_in::calls());
    let mut met: BTreeMap<u64, u64> = BTreeMap::new();
    let (mut by_original, mut texts, mut longest) = (0, 0, 0);
    for index in run.from..run.from + run.count {
        let given = given(&mut Rng::new(run.seed, 16, index));
        let segments = given.words.len() / 4;
        longest = longest.max(segments);
        let mut calls = vec![Call::Check { words: given.words.clone(), out: given.words.len() }];
        if index % 3 == 0 {
            calls.push(given.read_call());
        }
        for call in calls {
            let wanted: Outcome = if segments < ORIGINAL {
                by_original += 1;
                judge::outcome(&given.image, &call)
            } else {
                plain.make(&given.image, &call)
            };
            if ![0, 31].contains(&wanted.reply[0]) {
                println!("input {index} of seed {}: {:?} comes before 31", run.seed, wanted.reply);
                return Err(());
            }
            if call.kind() == Kind::Check {
                *met.entry(wanted.reply[0]).or_default() += 1;
            } else {
                texts += 1;
            }
            if subject.has(call.kind()) && subject.make(&given.image, &call) != wanted {
                println!(
                    "DIFFERENCE in overlaps, input {index} of seed {}, {}",
                    run.seed,
                    call.kind().name()
                );
                return Err(());
            }
        }
    }
    let met: Vec<String> = met.iter().map(|(number, n)| format!("{number}:{n}")).collect();
    let asked = if [Kind::Check, Kind::Read].iter().all(|k| subject.has(*k)) {
        "no difference"
    } else {
        "a call not linked"
    };
    println!(
        "overlaps: {} assignments of up to {longest} segments and {texts} texts, {asked}; {by_original} of them by the original; refusals {}",
        run.count,
        met.join(" ")
    );
    Ok(())
}
