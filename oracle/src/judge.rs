//! The expected outcome of a call: refusals that the original does not number from
//! `rules`, everything else from the original's own code.
use crate::{
    calls::{filled, reply_words, Call, Outcome},
    rules,
};
use original::{
    door::{self, Budget, Panel, Walk},
    genome_inference::panel_routes::Scores,
};
use std::{path::PathBuf, sync::OnceLock};

pub const STATUSES: [&str; 5] = [
    "domain-exhausted-optimum-and-correlated-support-certified",
    "domain-exhausted-optimum-certified-support-incomplete",
    "work-budget-exhausted",
    "evaluation-budget-exhausted",
    "frontier-budget-exhausted",
];

fn status(text: &str) -> u64 {
    1 + STATUSES.iter().position(|s| *s == text).expect("a status of document 01") as u64
}

fn budget(b: &rules::BudgetWords) -> Budget {
    Budget { work: b[0], evaluations: b[1], frontier: b[2], optima: b[3], tie: f64::from_bits(b[4]) }
}

/// A folder for the ports' files; without one they are bytes in memory.
pub static FILES: OnceLock<PathBuf> = OnceLock::new();

fn open(image: &[u8]) -> Panel {
    Panel::open(image, FILES.get().map(PathBuf::as_path)).expect("an accepted panel opens")
}

/// The panel with its lanes' letters, which the original's DNA test then reads.
fn lettered(image: &[u8], letters: &[u8]) -> Panel {
    let mut panel = open(image);
    panel.lend(letters);
    panel
}

/// Whether an optimum was ever discarded. The original says so only when it has exhausted
/// the domain, and is held to it there; a stopped walk keeps it to itself.
fn discarded(walk: &Walk, b: &rules::BudgetWords, scores: &[f64]) -> bool {
    let width = f64::from_bits(b[4]);
    let mut best: Option<f64> = None;
    let mut tied: Vec<(f64, &Vec<u64>)> = Vec::new();
    let mut lost = false;
    for (assignment, &score) in walk.listed.iter().zip(scores) {
        if best.is_none() || best.is_some_and(|b| score < b) {
            best = Some(score);
            tied.retain(|(s, _)| s - score <= width);
        }
        if score - best.unwrap() <= width && tied.iter().all(|(_, a)| *a != assignment) {
            if (tied.len() as u64) < b[3] {
                tied.push((score, assignment));
            } else {
                lost = true;
            }
        }
    }
    assert!(tied.len() == walk.optima.len(), "the tied list is the original's");
    if walk.exhausted {
        assert_eq!(walk.complete, !lost, "discarded is the original's");
    }
    lost
}

/// The same of a stopped walk, from the original itself: walked to its end under scores that
/// can no longer tie, it says whether one was discarded before. `None` where it has no end
/// within reach, or a width that lets everything tie.
pub fn discarded_by_original(image: &[u8], call: &Call) -> Option<(bool, bool)> {
    const ENOUGH: u64 = 20_000;
    let Call::Search { budget: b, scores, .. } = call else { return None };
    let found = outcome(image, call);
    let stopped = found.reply[0] == 0 && found.reply[2] > 2;
    let mut scores: Vec<f64> = scores.iter().map(|&x| f64::from_bits(x)).collect();
    scores.truncate(found.reply[4] as usize);
    let tame = |x: f64| x.abs() < 1e300;
    if !stopped || !tame(f64::from_bits(b[4])) || !scores.iter().all(|x| tame(*x)) {
        return None;
    }
    scores.resize(ENOUGH as usize, f64::MAX);
    let wide = [ENOUGH, ENOUGH, 1000, b[3], b[4]];
    let walk = open(image).search(budget(&wide), Scores::List(&scores), false).ok()?.ok()?;
    walk.exhausted.then_some((found.reply[13] == 1, !walk.complete))
}

pub fn outcome(image: &[u8], call: &Call) -> Outcome {
    within_reach(image, call).expect("a walk within reach")
}

/// The outcome; none where the plain engine's walk, which has no budget, is too long.
pub fn within_reach(image: &[u8], call: &Call) -> Option<Outcome> {
    let mut rooms: Vec<Vec<u64>> = call.rooms().into_iter().map(filled).collect();
    let mut reply = match call {
        Call::Plain { from, .. } => plain_list(image, *from, &mut rooms[0])?,
        _ => answer(image, call, &mut rooms),
    };
    reply.resize(reply_words(call.kind()), 0);
    Some(Outcome { reply, rooms })
}

/// The units of a walk that are waited for.
pub const REACH: u64 = 20_000;

/// Under a frontier of 64 the original stops on it exactly when the deepest stack is over 64.
fn plain_list(image: &[u8], from: u64, out: &mut [u64]) -> Option<Vec<u64>> {
    let number = rules::panel(image);
    if number != 0 {
        return Some(vec![number, 0]);
    }
    let budget = Budget { work: REACH, evaluations: u64::MAX, frontier: 64, optima: 1, tie: 0.0 };
    let walk = open(image).search(budget, Scores::Free, true).expect("the walk");
    let walk = walk.expect("every score is 0");
    if !walk.exhausted {
        return (status(&walk.status) == 5).then(|| vec![42, 0]);
    }
    let (written, words) = lay(&walk.listed[walk.natives as usize..], from, out);
    Some(vec![0, 0, written, words])
}

/// Assignments one after another, those before `from` left out, until one doesn't fit: how many, and
/// their words.
fn lay(listed: &[Vec<u64>], from: u64, out: &mut [u64]) -> (u64, u64) {
    let (mut written, mut words) = (0, 0);
    for a in listed.iter().skip(usize::try_from(from).unwrap_or(usize::MAX)) {
        if a.len() > out.len() - words {
            break;
        }
        out[words..words + a.len()].copy_from_slice(a);
        words += a.len();
        written += 1;
    }
    (written, words as u64)
}

/// An accepted panel with its lanes' letters, or 39 or 40. The original tests the ports of a switch
/// only; its test made of every port is held to 40.
fn worded(image: &[u8], letters: &[u8]) -> Result<Panel, u64> {
    let number = rules::letters(image, letters);
    if number == 39 {
        return Err(number);
    }
    let panel = lettered(image, letters);
    let stand = panel.words_stand().expect("every port's letters are there");
    assert_eq!(number == 0, stand, "40 is the original's test of every port");
    if stand {
        Ok(panel)
    } else {
        Err(number)
    }
}

/// A crop of an assignment's route on an accepted panel, by the original's own check and spelling.
fn spell(
    image: &[u8],
    letters: &[u8],
    words: &[u64],
    slot: u64,
    from: u64,
    to: u64,
    out: &mut [u64],
) -> Vec<u64> {
    let panel = match worded(image, letters) {
        Ok(_) if !rules::well_formed(words) => return vec![22, 0],
        Ok(panel) => panel,
        Err(number) => return vec![number, 0],
    };
    if let Err((number, place)) = panel.check(words).expect("the check") {
        assert!(number <= 31, "no switch is refused for its DNA where 39 and 40 pass");
        return vec![number, place];
    }
    let number = rules::crop(words, slot, from, to, out.len());
    if slot < words[1] {
        let spelled = panel.spell(words, slot as usize, from, to).expect("the spelling");
        assert_eq!(spelled.is_none(), number == 41, "41 is the original's invalid crop");
        if number == 0 {
            let spelled = spelled.unwrap_or_default();
            out.iter_mut().zip(&spelled).for_each(|(o, b)| *o = u64::from(*b));
            return vec![0, 0, spelled.len() as u64];
        }
    }
    vec![number, 0]
}

/// The normal form of a legal assignment by the original's check, or a refusal from 22 on.
fn checked(image: &[u8], words: &[u64]) -> Result<Vec<u64>, (u64, u64)> {
    if !rules::well_formed(words) {
        return Err((22, 0));
    }
    open(image).check(words).expect("the check")
}

/// An assignment as BED on an accepted panel.
fn write_bed(image: &[u8], names: &[u8], words: &[u64], out: &mut [u64]) -> Vec<u64> {
    let Some(names) = rules::names(image, names) else { return vec![34, 0] };
    if let Err((number, place)) = checked(image, words) {
        return vec![number, place];
    }
    let text = rules::bed(&names, words);
    if text.len() > out.len() {
        return vec![37, 0];
    }
    out.iter_mut().zip(&text).for_each(|(o, b)| *o = u64::from(*b));
    vec![0, 0, text.len() as u64]
}

/// Lines of BED back into words on an accepted panel.
fn read_bed(image: &[u8], names: &[u8], family: u64, text: &[u8], out: &mut [u64]) -> Vec<u64> {
    let Some(names) = rules::names(image, names) else { return vec![34, 0] };
    let Some(lines) = rules::bed_lines(text) else { return vec![35, 0] };
    let Some(words) = rules::bed_words(&names, family, &lines) else { return vec![36, 0] };
    if words.len() > out.len() {
        return vec![37, 0];
    }
    if let Err((number, place)) = checked(image, &words) {
        return vec![number, place];
    }
    out[..words.len()].copy_from_slice(&words);
    vec![0, 0, words.len() as u64]
}

/// Whether the original takes an assignment though 39 or 40 refuses its panel's letters: it looks at
/// the ports of its switches alone, and takes small letters and codes besides A, C, G and T. None
/// where the assignment is refused by other letters too.
pub fn taken_by_original(image: &[u8], letters: &[u8], words: &[u64]) -> Option<bool> {
    if !rules::well_formed(words) {
        return None;
    }
    let normal = open(image).check(words).expect("the check").ok()?;
    let found = lettered(image, letters).check(words).expect("the check");
    if rules::letters(image, letters) == 40 {
        let wrong = rules::switch_wrong(image, letters, &normal);
        let due = if wrong { Err((40, 0)) } else { Ok(normal) };
        assert_eq!(found, due, "the original's test is of the switches' ports");
    }
    Some(found.is_ok())
}

fn answer(image: &[u8], call: &Call, rooms: &mut [Vec<u64>]) -> Vec<u64> {
    let number = match call {
        Call::Bound { counts, background } => rules::bound(counts, f64::from_bits(*background)),
        _ => rules::panel(image),
    };
    if number != 0 {
        return vec![number, 0];
    }
    match call {
        Call::Panel => vec![0, 0],
        Call::Port { lane, .. } if *lane >= rules::lanes_and_k(image).0 => vec![9, 0],
        Call::Port { lane, cut, reverse } => {
            let port = open(image).port_at_cut(*lane as usize, *cut, *reverse).expect("at_cut");
            let Some((anchor, word)) = port else { return vec![0, 0, 0, 0] };
            let mut letters = [0; 32];
            letters[..word.len()].copy_from_slice(&word);
            let words = letters.chunks(8).map(|c| u64::from_le_bytes(c.try_into().unwrap()));
            [0, 0, 1, anchor].into_iter().chain(words).collect()
        }
        Call::Bucket { word } if word.len() as u64 != rules::lanes_and_k(image).1 => vec![10, 0],
        Call::Bucket { word } => {
            let (lo, hi) = open(image).bucket(word).expect("bucket");
            vec![0, 0, lo, hi]
        }
        Call::Check { words, out } if *out < words.len() => vec![21, 0],
        Call::Check { words, .. } => match checked(image, words) {
            Err((number, place)) => vec![number, place],
            Ok(normal) => {
                rooms[0][..normal.len()].copy_from_slice(&normal);
                vec![0, 0, normal.len() as u64]
            }
        },
        Call::List { budget: b, from, frames, slot, .. } => {
            let number = rules::budget(b);
            if number != 0 {
                return vec![number, 0];
            }
            let needs = rules::needs(image, b);
            if *frames < needs.frames || *slot < needs.slot {
                return vec![13, 0];
            }
            let walk = open(image).search(budget(b), Scores::Free, true).expect("the walk");
            let walk = walk.expect("every score is 0");
            leave_frames(&walk, &mut rooms[0][..needs.frames]);
            rooms[1][..needs.slot].fill(0);
            let (written, words) = lay(&walk.listed, *from, &mut rooms[2]);
            // Nothing is discarded in a listing, whatever max_optima is.
            let status = if walk.exhausted { 1 } else { status(&walk.status) };
            vec![0, 0, status, written, words, walk.evaluations]
        }
        Call::Search { budget: b, scores, frames, kept, kept_scores } => {
            let number = rules::budget(b);
            if number != 0 {
                return vec![number, 0];
            }
            let needs = rules::needs(image, b);
            if *frames < needs.frames || *kept < needs.kept || *kept_scores < needs.scores {
                return vec![13, 0];
            }
            let scores: Vec<f64> = scores.iter().map(|&x| f64::from_bits(x)).collect();
            let found = open(image).search(budget(b), Scores::List(&scores), true).expect("the walk");
            rooms[1][..needs.kept].fill(0);
            rooms[2][..needs.scores].fill(0);
            let walk = match found {
                Err((number, evaluation)) => {
                    rooms[0][..needs.frames].fill(0);
                    return vec![number, evaluation];
                }
                Ok(walk) => walk,
            };
            leave_frames(&walk, &mut rooms[0][..needs.frames]);
            for (i, (score, a)) in walk.incumbent.iter().chain(&walk.optima).enumerate() {
                rooms[1][i * needs.slot..][..a.len()].copy_from_slice(a);
                rooms[2][i] = score.to_bits();
            }
            search_reply(&walk, discarded(&walk, b, &scores))
        }
        Call::Bound { counts, background } => {
            door::observe(counts, f64::from_bits(*background));
            match door::lower_bound() {
                None => vec![0, 0, 0, 0],
                Some(bound) => vec![0, 0, 1, bound.to_bits()],
            }
        }
        Call::Plain { .. } => unreachable!("its walk may be out of reach"),
        Call::Letters { letters } => vec![worded(image, letters).err().unwrap_or(0), 0],
        Call::Spell { letters, words, slot, from, to, .. } => {
            spell(image, letters, words, *slot, *from, *to, &mut rooms[0])
        }
        Call::Write { names, words, .. } => write_bed(image, names, words, &mut rooms[0]),
        Call::Read { names, family, text, .. } => read_bed(image, names, *family, text, &mut rooms[0]),
    }
}

fn leave_frames(walk: &Walk, room: &mut [u64]) {
    room.fill(0);
    for (at, record) in room.chunks_mut(10).zip(walk.frames.iter().chain(&walk.pending)) {
        at.copy_from_slice(record);
    }
}

fn search_reply(walk: &Walk, discarded: bool) -> Vec<u64> {
    vec![
        0,
        0,
        status(&walk.status),
        walk.work,
        walk.evaluations,
        walk.natives,
        walk.donors,
        walk.non_native,
        walk.mixed,
        walk.mixed_identity,
        walk.switches,
        walk.families,
        walk.optima.len() as u64,
        u64::from(discarded),
        walk.frames.len() as u64,
        u64::from(walk.pending.is_some()),
    ]
}

/// The rooms of the walk program: for max_frontier 32, max_optima 16 and P 8.
pub fn program_rooms() -> rules::Needs {
    rules::needs_of(8, 32, 16)
}

/// The call that a job stands for, with the program's rooms; or 16.
pub fn job_call(job: &[u8]) -> Result<(&[u8], Call), u64> {
    let job = rules::job(job)?;
    let rooms = program_rooms();
    let call = Call::Search {
        budget: job.budget,
        scores: job.scores.iter().map(|s| s.to_bits()).collect(),
        frames: rooms.frames,
        kept: rooms.kept,
        kept_scores: rooms.scores,
    };
    Ok((job.image, call))
}

/// What the walk program prints.
pub fn sheet(job: &[u8]) -> String {
    let (image, call) = match job_call(job) {
        Ok(found) => found,
        Err(number) => return format!("refused {number} 0\n"),
    };
    let found = outcome(image, &call);
    let r = &found.reply;
    if r[0] != 0 {
        return format!("refused {} {}\n", r[0], r[1]);
    }
    let mut text = format!("status {}\n", STATUSES[r[2] as usize - 1]);
    let names = [
        "work",
        "evaluations",
        "natives",
        "donors",
        "non-native",
        "mixed",
        "mixed-identity",
        "switches",
        "families",
        "optima",
    ];
    for (name, value) in names.iter().zip(&r[3..]) {
        text += &format!("{name} {value}\n");
    }
    let incumbent = &found.rooms[1];
    let targets = targets(image, incumbent[0]);
    let (mut foreign, mut lines) = (0, String::new());
    let mut at = 2;
    for slot in 0..incumbent[1] {
        let segments = incumbent[at];
        at += 1;
        for _ in 0..segments {
            let [lane, start, end, reverse] = [0, 1, 2, 3].map(|i| incumbent[at + i]);
            if lane != targets[slot as usize] {
                foreign += end - start;
            }
            let sign = if reverse == 1 { '-' } else { '+' };
            lines += &format!("route {slot} {lane} {start} {end} {sign}\n");
            at += 4;
        }
    }
    text + &format!("foreign {foreign}\n") + &lines
}

/// The target lanes of a family of an accepted panel.
fn targets(image: &[u8], family: u64) -> Vec<u64> {
    let header: Vec<usize> = (0..10).map(|i| rules::word_at(image, 8 * i) as usize).collect();
    if header[2] == 0 {
        return Vec::new();
    }
    let count = |f: usize| rules::word_at(image, header[6] + 8 * f) as usize;
    let before: usize = (0..family as usize).map(count).sum();
    (before..before + count(family as usize)).map(|i| rules::word_at(image, header[7] + 8 * i)).collect()
}

/// The full answer of a job, for reading.
pub fn full(job: &[u8]) -> String {
    let (image, call) = match job_call(job) {
        Ok(found) => found,
        Err(number) => return format!("refused {number} 0\n"),
    };
    let found = outcome(image, &call);
    let r = &found.reply;
    if r[0] != 0 {
        return format!("refused {} {}\n", r[0], r[1]);
    }
    let mut text = sheet(job);
    text += &format!("discarded {}\nframes {}\npending {}\n", r[13], r[14], r[15]);
    let records = (r[14] + r[15]) as usize;
    for record in found.rooms[0].chunks(10).take(records) {
        text += &format!("frame {}\n", spaced(record));
    }
    let Call::Search { budget, .. } = &call else { unreachable!() };
    let v = rules::needs(image, budget).slot;
    let slots = if r[4] == 0 { 0 } else { 1 + r[12] as usize };
    for i in 0..slots {
        let name = if i == 0 { "incumbent" } else { "tied" };
        let words = &found.rooms[1][i * v..(i + 1) * v];
        let used = used_words(words);
        text += &format!("{name} {:016x} {}\n", found.rooms[2][i], spaced(&words[..used]));
    }
    text
}

pub fn spaced(words: &[u64]) -> String {
    words.iter().map(u64::to_string).collect::<Vec<_>>().join(" ")
}

/// How many words an assignment at the front takes.
pub fn used_words(words: &[u64]) -> usize {
    let mut at = 2;
    for _ in 0..words[1] {
        at += 1 + 4 * words[at] as usize;
    }
    at
}

/// Assignments that stand one after another, apart.
pub fn assignments(words: &[u64]) -> Vec<&[u64]> {
    let mut all = Vec::new();
    let mut rest = words;
    while !rest.is_empty() {
        let (one, later) = rest.split_at(used_words(rest));
        all.push(one);
        rest = later;
    }
    all
}

fn assignment_lines(words: &[u64]) -> String {
    assignments(words).iter().map(|one| format!("assignment {}\n", spaced(one))).collect()
}

/// The first bytes of a room of bytes, which are ASCII.
fn bytes_of(room: &[u64], n: u64) -> String {
    room[..n as usize].iter().map(|b| char::from(*b as u8)).collect()
}

/// An outcome for reading: the reply's words, then those of the rooms that were written.
pub fn text(image: &[u8], call: &Call) -> String {
    let Some(found) = within_reach(image, call) else { return "too long\n".into() };
    if found.reply[0] != 0 {
        return format!("refused {} {}\n", found.reply[0], found.reply[1]);
    }
    let r = &found.reply[2..];
    match call {
        Call::Panel | Call::Letters { .. } => "accepted\n".into(),
        Call::Port { .. } if r[0] == 0 => "no port\n".into(),
        Call::Port { .. } => {
            let letters: Vec<u8> = r[2..].iter().flat_map(|w| w.to_le_bytes()).filter(|b| *b != 0).collect();
            format!("port {} {}\n", r[1], String::from_utf8_lossy(&letters))
        }
        Call::Bucket { .. } => format!("bucket {} {}\n", r[0], r[1]),
        Call::Check { .. } => format!("legal {}\n", spaced(&found.rooms[0][..r[0] as usize])),
        Call::List { .. } => {
            let text = format!(
                "status {}\nwritten {}\nwords {}\nevaluations {}\n",
                STATUSES[r[0] as usize - 1],
                r[1],
                r[2],
                r[3]
            );
            text + &assignment_lines(&found.rooms[2][..r[2] as usize])
        }
        Call::Plain { .. } => {
            let text = format!("written {}\nwords {}\n", r[0], r[1]);
            text + &assignment_lines(&found.rooms[0][..r[1] as usize])
        }
        Call::Search { .. } => spaced(&found.reply) + "\n",
        Call::Bound { .. } if r[0] == 0 => "no bound\n".into(),
        Call::Bound { .. } => format!("bound {:?}\n", f64::from_bits(r[1])),
        Call::Spell { .. } => format!("spelled {}\n", bytes_of(&found.rooms[0], r[0])),
        Call::Write { .. } => bytes_of(&found.rooms[0], r[0]),
        Call::Read { .. } => format!("words {}\n", spaced(&found.rooms[0][..r[0] as usize])),
    }
}
