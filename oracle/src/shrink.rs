//! Smaller inputs that still differ: one change at a time, as long as one helps.
use crate::{
    calls::{Call, Kind},
    gen::Input,
    spec::{PortSpec, Spec},
};
use std::time::{Duration, Instant};

/// Numbers below x, the boldest first; one less only where that gets somewhere.
fn below(x: u64) -> Vec<u64> {
    let mut out = vec![0, 1, 2, x / 2, x - x / 4, x - x / 16];
    if x <= 64 {
        out.push(x.saturating_sub(1));
    }
    out.retain(|y| *y < x);
    out.dedup();
    out
}

fn lengths(x: usize) -> Vec<usize> {
    below(x as u64).into_iter().map(|y| y as usize).collect()
}

fn without<T: Clone>(list: &[T], from: usize, n: usize) -> Vec<T> {
    [&list[..from], &list[(from + n).min(list.len())..]].concat()
}

/// Every list with a stretch left out, long stretches first.
fn thinned<T: Clone>(list: &[T]) -> Vec<Vec<T>> {
    let mut out = Vec::new();
    let mut n = list.len();
    while n > 0 {
        (0..list.len()).step_by(n).for_each(|i| out.push(without(list, i, n)));
        n /= 2;
    }
    out
}

/// A panel without lane i; what named it goes too.
fn without_lane(spec: &Spec, i: u64) -> Spec {
    let moved = |x: u64| if x > i { x - 1 } else { x };
    let mut s = spec.clone();
    s.lanes.remove(i as usize);
    s.ports.retain(|p| p.source != i);
    s.ports.iter_mut().for_each(|p| p.source = moved(p.source));
    for f in &mut s.families {
        f.retain(|l| *l != i);
        f.iter_mut().for_each(|l| *l = moved(*l));
    }
    s.families.retain(|f| !f.is_empty());
    s
}

fn specs(spec: &Spec) -> Vec<Spec> {
    let mut out = Vec::new();
    let mut with = |change: &dyn Fn(&mut Spec)| {
        let mut s = spec.clone();
        change(&mut s);
        out.push(s);
    };
    for i in 0..spec.lanes.len() {
        if spec.lanes.len() > 1 {
            with(&|s| *s = without_lane(s, i as u64));
        }
    }
    for ports in thinned(&spec.ports) {
        with(&|s| s.ports = ports.clone());
    }
    for families in thinned(&spec.families) {
        with(&|s| s.families = families.clone());
    }
    for (i, f) in spec.families.iter().enumerate() {
        for j in 0..f.len() {
            if f.len() > 1 {
                with(&|s| {
                    s.families[i].remove(j);
                });
            }
        }
    }
    if spec.k > 1 {
        for k in below(spec.k) {
            with(&|s| {
                s.k = k;
                s.ports.iter_mut().for_each(|p| p.word.truncate(k as usize));
            });
        }
    }
    for (i, lane) in spec.lanes.iter().enumerate() {
        let ends =
            spec.ports.iter().filter(|p| p.source == i as u64).map(|p| p.anchor.saturating_add(spec.k));
        if let Some(end) = ends.max().filter(|e| *e < lane.0) {
            with(&|s| s.lanes[i].0 = end);
        }
        below(lane.0).into_iter().for_each(|x| with(&|s| s.lanes[i].0 = x));
        below(lane.1).into_iter().take(1).for_each(|x| with(&|s| s.lanes[i].1 = x));
        // The lane and its ports moved down together.
        for d in [lane.0 / 2, lane.0 / 8, 1].into_iter().filter(|d| *d > 1 || lane.0 < 65) {
            with(&|s| {
                s.lanes[i].0 = s.lanes[i].0.saturating_sub(d);
                let own = s.ports.iter_mut().filter(|p| p.source == i as u64);
                own.for_each(|p| p.anchor = p.anchor.saturating_sub(d));
            });
        }
    }
    for (i, p) in spec.ports.iter().enumerate() {
        below(p.anchor).into_iter().for_each(|x| with(&|s| s.ports[i].anchor = x));
        if p.reverse {
            with(&|s| s.ports[i].reverse = false);
        }
    }
    let mut words: Vec<&Vec<u8>> = spec.ports.iter().map(|p| &p.word).collect();
    words.sort();
    words.dedup();
    for word in words.iter().filter(|w| w.iter().any(|b| *b != b'A')) {
        let plain = vec![b'A'; word.len()];
        let swap = |p: &mut PortSpec| {
            if p.word == **word {
                p.word = plain.clone();
            }
        };
        with(&|s| s.ports.iter_mut().for_each(swap));
    }
    out
}

fn calls(call: &Call) -> Vec<Call> {
    let mut out = Vec::new();
    let mut with = |change: &dyn Fn(&mut Call)| {
        let mut c = call.clone();
        change(&mut c);
        out.push(c);
    };
    match call {
        Call::Panel => {}
        Call::Port { lane, cut, reverse } => {
            below(*lane).into_iter().for_each(|x| {
                with(&|c| {
                    if let Call::Port { lane, .. } = c {
                        *lane = x
                    }
                })
            });
            below(*cut).into_iter().for_each(|x| {
                with(&|c| {
                    if let Call::Port { cut, .. } = c {
                        *cut = x
                    }
                })
            });
            if *reverse {
                with(&|c| {
                    if let Call::Port { reverse, .. } = c {
                        *reverse = false
                    }
                });
            }
        }
        Call::Bucket { word } => {
            for i in 0..word.len() {
                with(&|c| {
                    if let Call::Bucket { word } = c {
                        *word = without(word, i, 1)
                    }
                });
                if word[i] != b'A' {
                    with(&|c| {
                        if let Call::Bucket { word } = c {
                            word[i] = b'A'
                        }
                    });
                }
            }
        }
        Call::Check { words, out } => {
            for shorter in segments_dropped(words) {
                with(&|c| {
                    if let Call::Check { words, .. } = c {
                        words.clone_from(&shorter)
                    }
                });
            }
            if words.len() < 300 {
                for shorter in thinned(words) {
                    with(&|c| {
                        if let Call::Check { words, .. } = c {
                            words.clone_from(&shorter)
                        }
                    });
                }
                for i in 0..words.len() {
                    for x in below(words[i]) {
                        with(&|c| {
                            if let Call::Check { words, .. } = c {
                                words[i] = x
                            }
                        });
                    }
                }
            }
            for x in lengths(*out).into_iter().chain([words.len()]) {
                if x != *out {
                    with(&|c| {
                        if let Call::Check { out, .. } = c {
                            *out = x
                        }
                    });
                }
            }
        }
        Call::List { budget, from, frames, slot, out } => {
            for i in 0..5 {
                for x in below(budget[i]) {
                    with(&|c| {
                        if let Call::List { budget, .. } = c {
                            budget[i] = x
                        }
                    });
                }
            }
            below(*from).into_iter().for_each(|x| {
                with(&|c| {
                    if let Call::List { from, .. } = c {
                        *from = x
                    }
                })
            });
            lengths(*frames).into_iter().for_each(|x| {
                with(&|c| {
                    if let Call::List { frames, .. } = c {
                        *frames = x
                    }
                })
            });
            lengths(*slot).into_iter().for_each(|x| {
                with(&|c| {
                    if let Call::List { slot, .. } = c {
                        *slot = x
                    }
                })
            });
            lengths(*out).into_iter().for_each(|x| {
                with(&|c| {
                    if let Call::List { out, .. } = c {
                        *out = x
                    }
                })
            });
        }
        Call::Search { budget, scores, frames, kept, kept_scores } => {
            for i in 0..5 {
                for x in below(budget[i]) {
                    with(&|c| {
                        if let Call::Search { budget, .. } = c {
                            budget[i] = x
                        }
                    });
                }
            }
            if budget[4] != 0 {
                with(&|c| {
                    if let Call::Search { budget, .. } = c {
                        budget[4] = 1f64.to_bits()
                    }
                });
            }
            for fewer in thinned(scores) {
                with(&|c| {
                    if let Call::Search { scores, .. } = c {
                        scores.clone_from(&fewer)
                    }
                });
            }
            for i in 0..scores.len().min(40) {
                for x in [0.0f64, 1.0] {
                    if scores[i] != x.to_bits() && scores[i] != 0 {
                        with(&|c| {
                            if let Call::Search { scores, .. } = c {
                                scores[i] = x.to_bits()
                            }
                        });
                    }
                }
            }
            lengths(*frames).into_iter().for_each(|x| {
                with(&|c| {
                    if let Call::Search { frames, .. } = c {
                        *frames = x
                    }
                })
            });
            lengths(*kept).into_iter().for_each(|x| {
                with(&|c| {
                    if let Call::Search { kept, .. } = c {
                        *kept = x
                    }
                })
            });
            lengths(*kept_scores).into_iter().for_each(|x| {
                with(&|c| {
                    if let Call::Search { kept_scores, .. } = c {
                        *kept_scores = x
                    }
                })
            });
        }
        Call::Plain { from, out } => {
            for x in below(*from) {
                with(&|c| {
                    if let Call::Plain { from, .. } = c {
                        *from = x
                    }
                });
            }
            for x in lengths(*out) {
                with(&|c| {
                    if let Call::Plain { out, .. } = c {
                        *out = x
                    }
                });
            }
        }
        Call::Letters { letters } => {
            for other in thinned(letters).into_iter().chain(plainer(letters)) {
                with(&|c| *c = Call::Letters { letters: other.clone() });
            }
        }
        Call::Spell { letters, words, slot, from, to, out } => {
            let mut put = |letters: &[u8], words: &[u64], [slot, from, to]: [u64; 3], out: usize| {
                let (letters, words) = (letters.to_vec(), words.to_vec());
                let call = Call::Spell { letters, words, slot, from, to, out };
                with(&|c| c.clone_from(&call));
            };
            let crop = [*slot, *from, *to];
            fewer_words(words).iter().for_each(|w| put(letters, w, crop, *out));
            for (i, &old) in crop.iter().enumerate() {
                for x in below(old) {
                    let mut crop = crop;
                    crop[i] = x;
                    put(letters, words, crop, *out);
                    put(letters, words, crop, crop[2].saturating_sub(crop[1]).min(*out as u64) as usize);
                }
            }
            lengths(*out).into_iter().for_each(|x| put(letters, words, crop, x));
            plainer(letters).iter().for_each(|l| put(l, words, crop, *out));
        }
        Call::Write { names, words, out } => {
            let mut put = |names: &[u8], words: &[u64], out: usize| {
                let call = Call::Write { names: names.to_vec(), words: words.to_vec(), out };
                with(&|c| c.clone_from(&call));
            };
            for w in fewer_words(words) {
                put(names, &w, *out);
            }
            for n in plainer_names(names) {
                put(&n, words, *out);
            }
            lengths(*out).into_iter().for_each(|x| put(names, words, x));
        }
        Call::Read { names, family, text, out } => {
            let mut put = |names: &[u8], family: u64, text: &[u8], out: usize| {
                let call = Call::Read { names: names.to_vec(), family, text: text.to_vec(), out };
                with(&|c| c.clone_from(&call));
            };
            let lines: Vec<&[u8]> = text.split_inclusive(|b| *b == b'\n').collect();
            for fewer in thinned(&lines) {
                put(names, *family, &fewer.concat(), *out);
            }
            if text.len() < 1000 {
                for shorter in thinned(text) {
                    put(names, *family, &shorter, *out);
                }
            }
            for (old, new) in renamed(names) {
                let swap = |n: &[u8]| if n == old { new.clone() } else { n.to_vec() };
                put(&in_lines(names, &swap), *family, &in_first_columns(text, &swap), *out);
            }
            for n in plainer_names(names) {
                put(&n, *family, text, *out);
            }
            below(*family).into_iter().for_each(|x| put(names, x, text, *out));
            lengths(*out).into_iter().for_each(|x| put(names, *family, text, x));
        }
        Call::Bound { counts, background } => {
            for fewer in thinned(counts) {
                with(&|c| {
                    if let Call::Bound { counts, .. } = c {
                        counts.clone_from(&fewer)
                    }
                });
            }
            for i in 0..counts.len().min(40) {
                for x in below(counts[i]) {
                    with(&|c| {
                        if let Call::Bound { counts, .. } = c {
                            counts[i] = x
                        }
                    });
                }
            }
            let round = |bits: u32| *background >> bits << bits;
            for x in [1f64.to_bits(), round(48), round(32), round(16)] {
                if x.count_ones() < background.count_ones() {
                    with(&|c| {
                        if let Call::Bound { background, .. } = c {
                            *background = x
                        }
                    });
                }
            }
        }
    }
    out
}

/// Assignment words with some left out, or one smaller.
fn fewer_words(words: &[u64]) -> Vec<Vec<u64>> {
    let mut out = segments_dropped(words);
    if words.len() < 300 {
        out.extend(thinned(words));
        for i in 0..words.len() {
            for x in below(words[i]) {
                out.push(words.to_vec());
                out.last_mut().unwrap()[i] = x;
            }
        }
    }
    out
}

/// Every line changed, its line feed kept.
fn in_lines(text: &[u8], change: &dyn Fn(&[u8]) -> Vec<u8>) -> Vec<u8> {
    text.split(|b| *b == b'\n').map(change).collect::<Vec<_>>().join(&b'\n')
}

/// The bytes before the first tab of every line changed.
fn in_first_columns(text: &[u8], change: &dyn Fn(&[u8]) -> Vec<u8>) -> Vec<u8> {
    in_lines(text, &|line| {
        let at = line.iter().position(|b| *b == b'\t').unwrap_or(0);
        [&change(&line[..at])[..], &line[at..]].concat()
    })
}

/// Names of a table, each with a shorter or plainer one that is not there.
fn renamed(names: &[u8]) -> Vec<(&[u8], Vec<u8>)> {
    let all: Vec<&[u8]> = names.split(|b| *b == b'\n').take(40).collect();
    let mut out = Vec::new();
    for (i, &name) in all.iter().enumerate().filter(|(_, n)| !n.is_empty()) {
        let plain = vec![b'a' + (i % 26) as u8];
        let half = name[..name.len().div_ceil(2)].to_vec();
        out.extend([plain, half].into_iter().filter(|n| !all.contains(&&n[..])).map(|n| (name, n)));
    }
    out
}

/// Tables with a line or some bytes left out, or a name made plainer.
fn plainer_names(names: &[u8]) -> Vec<Vec<u8>> {
    let lines: Vec<&[u8]> = names.split_inclusive(|b| *b == b'\n').collect();
    let mut out: Vec<Vec<u8>> = thinned(&lines).into_iter().map(|l| l.concat()).collect();
    if names.len() < 300 {
        out.extend(thinned(names));
    }
    for (old, new) in renamed(names) {
        out.push(in_lines(names, &|n| if n == old { new.clone() } else { n.to_vec() }));
    }
    out
}

/// Letters with one of the first made an A.
fn plainer(letters: &[u8]) -> Vec<Vec<u8>> {
    let mut out = Vec::new();
    for i in (0..letters.len().min(80)).filter(|i| letters[*i] != b'A') {
        out.push(letters.to_vec());
        out.last_mut().unwrap()[i] = b'A';
    }
    out
}

/// Well-formed words with every segment changed.
fn segments_changed(words: &[u64], change: impl Fn(&mut [u64])) -> Vec<u64> {
    let mut out = words.to_vec();
    if crate::rules::well_formed(words) {
        let mut at = 2;
        for _ in 0..words[1] {
            let n = words[at] as usize;
            out[at + 1..at + 1 + 4 * n].chunks_mut(4).for_each(&change);
            at += 1 + 4 * n;
        }
    }
    out
}

/// A panel without a lane, or with the end of one cut off, and the letters and segments in step.
fn lanes_with_letters(input: &Input) -> Vec<Input> {
    let (Call::Letters { letters } | Call::Spell { letters, .. }) = &input.call else { return vec![] };
    let mut out = Vec::new();
    let mut put = |spec: Spec, letters: Vec<u8>, change: &dyn Fn(&mut [u64])| {
        let mut i = Input { spec, ..input.clone() };
        match &mut i.call {
            Call::Letters { letters: old } => *old = letters,
            Call::Spell { letters: old, words, .. } => {
                *old = letters;
                *words = segments_changed(words, change);
            }
            _ => unreachable!(),
        }
        out.push(i);
    };
    let mut first = 0;
    for (lane, &(length, _)) in (0u64..).zip(&input.spec.lanes) {
        if length > (letters.len() - first) as u64 {
            break;
        }
        if input.spec.lanes.len() > 1 {
            let rest = without(letters, first, length as usize);
            put(without_lane(&input.spec, lane), rest, &|s| s[0] -= u64::from(s[0] > lane));
        }
        let end = first + length as usize;
        for d in [length / 2, length / 8, 1].into_iter().filter(|d| *d > 0 && *d < length) {
            let mut spec = input.spec.clone();
            let left = length - d;
            spec.lanes[lane as usize].0 = left;
            spec.ports.retain(|p| p.source != lane || p.anchor.saturating_add(spec.k) <= left);
            put(spec, without(letters, end - d as usize, d as usize), &|s| {
                if s[0] == lane && s[2] == length {
                    s[2] = left;
                }
            });
        }
        first = end;
    }
    out
}

/// A panel without a lane, and its name and the segments' lanes in step.
fn lanes_with_names(input: &Input) -> Vec<Input> {
    let (Call::Write { names, .. } | Call::Read { names, .. }) = &input.call else { return vec![] };
    let lines: Vec<&[u8]> = names.split_inclusive(|b| *b == b'\n').collect();
    let mut out = Vec::new();
    for lane in 0..input.spec.lanes.len().min(lines.len()) {
        if input.spec.lanes.len() == 1 {
            break;
        }
        let mut i = Input { spec: without_lane(&input.spec, lane as u64), ..input.clone() };
        let rest = without(&lines, lane, 1).concat();
        match &mut i.call {
            Call::Write { names, words, .. } => {
                *names = rest;
                *words = segments_changed(words, |s| s[0] -= u64::from(s[0] > lane as u64));
            }
            Call::Read { names, .. } => *names = rest,
            _ => unreachable!(),
        }
        out.push(i);
    }
    out
}

/// Assignments with a stretch of segments left out and their count put right.
fn segments_dropped(words: &[u64]) -> Vec<Vec<u64>> {
    let mut out = Vec::new();
    if !crate::rules::well_formed(words) {
        return out;
    }
    let mut at = 2;
    for _ in 0..words[1] {
        let n = words[at] as usize;
        let mut stretch = n;
        while stretch > 0 {
            for i in (0..n).step_by(stretch) {
                let gone = stretch.min(n - i);
                let mut w = without(words, at + 1 + 4 * i, 4 * gone);
                w[at] = (n - gone) as u64;
                out.push(w);
            }
            stretch = if stretch > 64 { stretch / 8 } else { stretch / 2 };
        }
        at += 1 + 4 * n;
    }
    out
}

/// Changes that keep a panel and its call in step: k with the word asked for, anchors with
/// the cut asked for.
fn both(input: &Input) -> Vec<Input> {
    let mut out = [lanes_with_letters(input), lanes_with_names(input)].concat();
    if let Call::Bucket { word } = &input.call {
        for k in below(input.spec.k).into_iter().filter(|k| *k > 0) {
            let mut i = input.clone();
            i.spec.k = k;
            i.spec.ports.iter_mut().for_each(|p| p.word.truncate(k as usize));
            i.call = Call::Bucket { word: word[..word.len().min(k as usize)].to_vec() };
            out.push(i);
        }
    }
    if let Call::Port { lane, cut, reverse } = input.call {
        // k, with the cut that the same anchor then has.
        for k in below(input.spec.k).into_iter().filter(|k| *k > 0) {
            let mut i = input.clone();
            i.spec.k = k;
            i.spec.ports.iter_mut().for_each(|p| p.word.truncate(k as usize));
            let shift = |k: u64| if reverse { k - k / 2 } else { k / 2 };
            let cut = cut.saturating_sub(shift(input.spec.k)) + shift(k);
            i.call = Call::Port { lane, cut, reverse };
            out.push(i);
        }
        for d in [cut / 2, cut / 8, 1].into_iter().filter(|d| *d > 1 || cut < 65) {
            let mut i = input.clone();
            let own = i.spec.ports.iter_mut().filter(|p| p.source == lane);
            own.for_each(|p| p.anchor = p.anchor.saturating_sub(d));
            if let Call::Port { cut, .. } = &mut i.call {
                *cut = cut.saturating_sub(d);
            }
            out.push(i);
        }
    }
    out
}

/// The smallest input found within the time that still differs.
pub fn smallest(input: &Input, time: Duration, mut differs: impl FnMut(&Input) -> bool) -> Input {
    let end = Instant::now() + time;
    let mut best = input.clone();
    'again: loop {
        let mut next: Vec<Input> = Vec::new();
        if best.call.kind() != Kind::Bound {
            next.extend(both(&best));
            next.extend(thinned(&best.edits).into_iter().map(|edits| Input { edits, ..best.clone() }));
            next.extend(specs(&best.spec).into_iter().map(|spec| Input { spec, ..best.clone() }));
        }
        next.extend(calls(&best.call).into_iter().map(|call| Input { call, ..best.clone() }));
        for candidate in next {
            if Instant::now() > end {
                return best;
            }
            if candidate != best && differs(&candidate) {
                best = candidate;
                continue 'again;
            }
        }
        return best;
    }
}
