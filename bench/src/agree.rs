//! The tuned Rust held to the judge, the walk by every word of the answers and of the rooms; and the
//! plain listing, the letters' check and the spelling held to the tuned ones; and the tuned writing and
//! reading of BED held to the judge.
use crate::tuned::{self, Budget, Panel, Refused};
use oracle::{
    calls::{byte_filler, filled, filler, reply_words, Call, Kind, Outcome},
    gen::{self, Rng, Size},
    judge,
    rules::{needs_of, BudgetWords},
    spec::Spec,
};
use panel_routes::{Assignment, Refusal};

fn budget(b: &BudgetWords) -> Budget {
    Budget {
        max_work: b[0],
        max_evaluations: b[1],
        max_frontier: b[2],
        max_optima: b[3],
        tie_width: f64::from_bits(b[4]),
    }
}

/// Doubles in the place of a room's words.
fn with_doubles<T>(room: &mut [u64], run: impl FnOnce(&mut [f64]) -> T) -> T {
    let mut doubles: Vec<f64> = room.iter().map(|w| f64::from_bits(*w)).collect();
    let answer = run(&mut doubles);
    room.iter_mut().zip(doubles).for_each(|(w, d)| *w = d.to_bits());
    answer
}

fn answer(image: &[u8], call: &Call, rooms: &mut [Vec<u64>]) -> Result<Vec<u64>, Refused> {
    let panel = Panel::new(image)?;
    match call {
        Call::List { budget: b, from, .. } => {
            let [frames, slot, out] = rooms else { unreachable!() };
            let l = panel.list(budget(b), *from, frames, slot, out)?;
            Ok(vec![0, 0, l.status, l.written, l.words, l.evaluations])
        }
        Call::Search { budget: b, scores, .. } => {
            let scores: Vec<f64> = scores.iter().map(|s| f64::from_bits(*s)).collect();
            let [frames, kept, kept_scores] = rooms else { unreachable!() };
            let f =
                with_doubles(kept_scores, |doubles| panel.search(budget(b), &scores, frames, kept, doubles))?;
            let t = f.tally;
            let counters = [t.work, t.evaluations, t.natives, t.donors, t.non_native, t.mixed];
            let rest = [t.mixed_identity, t.switches, t.families, f.optima];
            let left = [u64::from(f.discarded), f.frames, u64::from(f.pending)];
            Ok([&[0, 0, f.status], &counters[..], &rest, &left].concat())
        }
        _ => Ok(vec![0, 0]),
    }
}

fn outcome(image: &[u8], call: &Call) -> Outcome {
    let mut rooms: Vec<Vec<u64>> = call.rooms().into_iter().map(filled).collect();
    let mut reply = answer(image, call, &mut rooms).unwrap_or_else(|(number, place)| vec![number, place]);
    reply.resize(reply_words(call.kind()), 0);
    Outcome { reply, rooms }
}

/// On so many random inputs of each kind, and the panel check alone beside it.
pub fn with_judge(count: u64) -> bool {
    for kind in [Kind::Panel, Kind::List, Kind::Search] {
        for i in 0..count {
            let size = if i % 4 == 0 { Size::Wide } else { Size::Small };
            let input = gen::input(1, kind, i, size);
            let image = input.image();
            let found = outcome(&image, &input.call);
            let alone = tuned::check(&image).err().map_or(0, |(number, _)| number);
            if found != judge::outcome(&image, &input.call) || alone != oracle::rules::panel(&image) {
                eprintln!("the tuned Rust differs from the judge in {} {i}", kind.name());
                return false;
            }
        }
    }
    println!("The tuned Rust agrees with the original on {count} panels, listings and searches each.");
    true
}

/// Budgets that suffice for a walk of at most so much work and a stack of at most 64 frames.
pub fn sufficient(max_work: u64) -> Budget {
    Budget { max_work, max_evaluations: u64::MAX, max_frontier: 64, max_optima: 1, tie_width: 0.0 }
}

/// Whether the plain listing is the tuned one behind the natives; `None` where the panel is refused, or
/// its walk takes too long.
fn is_plain(image: &[u8]) -> Option<bool> {
    const WORK: u64 = 20_000;
    let (ours, panel) = (panel_routes::Panel::new(image).ok()?, Panel::new(image).ok()?);
    let needs = needs_of(ours.families().map(|f| f.len()).max().unwrap_or(0) as u64, 64, 1);
    let (mut frames, mut slot) = (vec![0; needs.frames], vec![0; needs.slot]);
    // No unit gives more than one assignment.
    let mut out = vec![0; needs.slot * WORK as usize];
    let natives = ours.family_count() as u64;
    let found = panel.list(sufficient(WORK), natives, &mut frames, &mut slot, &mut out).ok()?;
    if ![tuned::EXHAUSTED, tuned::FRONTIER].contains(&found.status) {
        return None;
    }
    Some(match ours.plain_assignments() {
        Err(refusal) => refusal.number() == 42 && found.status == tuned::FRONTIER,
        Ok(listed) => {
            let words = listed.flat_map(|a| a.into_words());
            found.status == tuned::EXHAUSTED && words.eq(out[..found.words as usize].iter().copied())
        }
    })
}

/// On those of so many random panels whose walk is short, or soon goes too deep.
pub fn plain(count: u64) -> bool {
    let mut compared = 0;
    for i in 0..count {
        let found = is_plain(&gen::input(1, Kind::List, i, Size::Small).image());
        if found == Some(false) {
            eprintln!("the plain listing differs from the tuned one on the panel of list {i}");
            return false;
        }
        compared += u64::from(found.is_some());
    }
    println!("The plain listing is the tuned one behind the natives on {compared} panels.");
    true
}

/// Letters for a panel's lanes, of which ports that stand apart read their words; now and then others.
fn letters_for(rng: &mut Rng, spec: &Spec) -> Vec<u8> {
    let mut lanes: Vec<Vec<u8>> = Vec::new();
    for (length, _) in &spec.lanes {
        // Longer lanes do without.
        lanes.push((0..(*length).min(1_000)).map(|_| rng.pick(b"ACGT")).collect());
    }
    for port in &spec.ports {
        let mut word = port.word.clone();
        if port.reverse {
            word.reverse();
            word.iter_mut().for_each(|b| *b = b"TGCA"[b"ACGT".iter().position(|l| l == b).unwrap_or(0)]);
        }
        let lane = lanes.get_mut(port.source as usize).and_then(|l| l.get_mut(port.anchor as usize..));
        if let Some(there) = lane.and_then(|l| l.get_mut(..word.len())) {
            there.copy_from_slice(&word);
        }
    }
    let mut letters = lanes.concat();
    match rng.below(16) {
        0 => drop(letters.pop()),
        1 => letters.push(b'A'),
        2..=4 if !letters.is_empty() => {
            let at = rng.below(letters.len() as u64) as usize;
            letters[at] = rng.pick(b"ACGTACGTacgtN\0\xff");
        }
        _ => {}
    }
    letters
}

/// Slot, from and to, mostly within a route of the assignment.
fn crop_of(rng: &mut Rng, words: &[u64]) -> [u64; 3] {
    let Ok(assignment) = Assignment::from_words(words) else { return [0, 0, 1] };
    let past = u64::from(rng.one_in(8));
    let slot = rng.below(assignment.routes().count() as u64 + past);
    let route = assignment.routes().nth(slot as usize).into_iter().flatten();
    let length = route.fold(0, |sum: u64, s| sum.saturating_add(s.bases()));
    let to = length.saturating_sub(rng.skewed(length));
    match rng.below(12) {
        0 => [slot, rng.below(3), length.wrapping_add(rng.below(3))],
        1 => [rng.pick(&[slot, u64::MAX]), rng.pick(&[0, to, u64::MAX]), rng.pick(&[to, u64::MAX])],
        2..=4 => [slot, 0, length],
        _ => [slot, rng.below(to), to],
    }
}

/// What the library spells, by the crate's calls one after the other.
fn spelled(
    image: &[u8],
    letters: &[u8],
    words: &[u64],
    [slot, from, to]: [u64; 3],
    out: &mut [u8],
) -> Result<u64, Refusal> {
    let panel = panel_routes::Panel::new(image)?;
    let letters = panel.letters(letters)?;
    let assignment = Assignment::from_words(words)?;
    Ok(letters.spell_into(&assignment, slot as usize, from..to, out)? as u64)
}

/// On so many random panels with letters and assignments; the assignment's check, which the spelling
/// makes, is held to the judge besides.
pub fn letters(count: u64) -> bool {
    let mut read = 0;
    for i in 0..count {
        let input = gen::input(1, Kind::Check, i, Size::Small);
        let (image, rng) = (input.image(), &mut Rng::new(1, 7, i));
        let Call::Check { words, .. } = &input.call else { unreachable!() };
        let judged = judge::outcome(&image, &Call::Check { words: words.clone(), out: words.len() }).reply;
        let checked = tuned::check(&image).and_then(|panel| panel.check_assignment(words).map(|_| ()));
        let same = checked.err().unwrap_or((0, 0)) == (judged[0], judged[1]);
        let (letters, crop) = (letters_for(rng, &input.spec), crop_of(rng, words));
        let mut ours = vec![b'-'; rng.below(200) as usize];
        let mut room = ours.clone();
        let spelled = spelled(&image, &letters, words, crop, &mut ours).map_err(|r| (r.number(), r.place()));
        if !same || tuned::spell(&image, &letters, words, crop, &mut room) != spelled || ours != room {
            eprintln!("the tuned check, or the spelling, differs in check {i}");
            return false;
        }
        read += u64::from(spelled.is_ok());
    }
    println!("The spelling is the tuned one on {count} panels with letters, {read} crops of them spelled.");
    true
}

/// What the tuned writing or reading answers, and its room.
fn bed_outcome(image: &[u8], call: &Call) -> Outcome {
    let (answer, room) = match call {
        Call::Write { names, words, out } => {
            let mut bytes: Vec<u8> = (0..*out).map(byte_filler).collect();
            let answer = tuned::write_bed(image, names, words, &mut bytes);
            // The judge's bytes are words, and those that stay are a room's of words.
            let word = |i| if bytes[i] == byte_filler(i) { filler(i) } else { u64::from(bytes[i]) };
            (answer, (0..*out).map(word).collect())
        }
        Call::Read { names, family, text, out } => {
            let mut room = filled(*out);
            (tuned::read_bed(image, names, *family, text, &mut room), room)
        }
        _ => unreachable!(),
    };
    let reply = answer.map_or_else(|(number, place)| vec![number, place, 0], |length| vec![0, 0, length]);
    Outcome { reply, rooms: vec![room] }
}

/// On so many random panels with tables of names, assignments and texts.
pub fn beds(count: u64) -> bool {
    let mut done = [0, 0];
    for (kind, done) in [Kind::Write, Kind::Read].into_iter().zip(&mut done) {
        for i in 0..count {
            let size = if i % 4 == 0 { Size::Wide } else { Size::Small };
            let input = gen::input(1, kind, i, size);
            let image = input.image();
            let found = bed_outcome(&image, &input.call);
            if found != judge::outcome(&image, &input.call) {
                eprintln!("the tuned Rust differs from the judge in {} {i}", kind.name());
                return false;
            }
            *done += u64::from(found.reply[0] == 0);
        }
    }
    let [written, read] = done;
    println!("The tuned BED agrees with the judge on {count} assignments and texts each, {written} written and {read} read.");
    true
}
