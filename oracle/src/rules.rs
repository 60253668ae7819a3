//! What the original has no numbers for, read from documents 01 and 02 as plainly as possible:
//! refusals 1 to 13, 16, 21, 22, 34 to 37, 39 to 41 and 43, and the rooms. Whole numbers are u128, so that no sum
//! of u64 words can wrap; nothing here is shared with the stand-in.
use std::collections::{HashMap, HashSet};

pub fn word_at(image: &[u8], at: usize) -> u64 {
    u64::from_le_bytes(image[at..at + 8].try_into().unwrap())
}

/// The image cut into its parts, once its header is sound.
struct Parts<'a> {
    k: usize,
    lanes: Vec<[u64; 3]>,
    families: Vec<u64>,
    paths: Vec<u64>,
    own: Vec<&'a [u8]>,
    global: Vec<&'a [u8]>,
}

fn words(bytes: &[u8]) -> Vec<u64> {
    (0..bytes.len() / 8).map(|i| word_at(bytes, 8 * i)).collect()
}

/// Refusals 1 to 3.
fn cut_up(image: &[u8]) -> Result<Parts<'_>, u64> {
    if image.len() < 80 {
        return Err(1);
    }
    let header = words(&image[..80]);
    let [k, l, f, t, n] = [0, 1, 2, 3, 4].map(|i| u128::from(header[i]));
    if !(1..=32).contains(&k) || !(1..=4096).contains(&l) || f > 4096 || n > 4_194_304 || t > 64 * f {
        return Err(2);
    }
    let lanes = 80;
    let families = lanes + 24 * l;
    let paths = families + 8 * f;
    let own = paths + 8 * t;
    let global = own + n * (k + 17);
    let end = global + n * (k + 17);
    let given: Vec<u128> = header[5..].iter().map(|&x| u128::from(x)).collect();
    if given != [lanes, families, paths, own, global] || image.len() as u128 != end {
        return Err(3);
    }
    let part = |from: u128, to: u128| &image[from as usize..to as usize];
    let k = k as usize;
    Ok(Parts {
        k,
        lanes: words(part(lanes, families)).chunks(3).map(|w| [w[0], w[1], w[2]]).collect(),
        families: words(part(families, paths)),
        paths: words(part(paths, own)),
        own: part(own, global).chunks(k + 17).collect(),
        global: part(global, end).chunks(k + 17).collect(),
    })
}

impl Parts<'_> {
    fn lane_numbers(&self) -> Vec<u64> {
        let each = self.lanes.iter().enumerate();
        each.flat_map(|(i, lane)| std::iter::repeat(i as u64).take(lane[1] as usize)).collect()
    }

    fn lanes_wrong(&self) -> bool {
        let sum: u128 = self.lanes.iter().map(|l| u128::from(l[1])).sum();
        self.lanes.iter().any(|l| l[0] < 1 || l[0] > 4_294_967_295) || sum != self.global.len() as u128
    }

    fn families_wrong(&self) -> bool {
        let sum: u128 = self.families.iter().map(|&c| u128::from(c)).sum();
        if self.families.iter().any(|c| !(1..=64).contains(c)) || sum != self.paths.len() as u128 {
            return true;
        }
        let mut rest = &self.paths[..];
        for &count in &self.families {
            let (here, later) = rest.split_at(count as usize);
            let different: HashSet<_> = here.iter().collect();
            if different.len() != here.len() || here.iter().any(|&p| p >= self.lanes.len() as u64) {
                return true;
            }
            rest = later;
        }
        false
    }

    fn source(&self, r: &[u8]) -> u64 {
        word_at(r, self.k)
    }
    fn anchor(&self, r: &[u8]) -> u64 {
        word_at(r, self.k + 8)
    }
    fn reverse(&self, r: &[u8]) -> u8 {
        r[self.k + 16]
    }

    fn record_wrong(&self, r: &[u8]) -> bool {
        r[..self.k].iter().any(|b| !b"ACGT".contains(b))
            || self.reverse(r) > 1
            || self.source(r) >= self.lanes.len() as u64
            || u128::from(self.anchor(r)) + self.k as u128
                > u128::from(self.lanes[self.source(r) as usize][0])
    }

    fn records_wrong(&self) -> bool {
        let strays = self.own.iter().zip(self.lane_numbers()).any(|(r, lane)| self.source(r) != lane);
        strays || self.own.iter().chain(&self.global).any(|r| self.record_wrong(r))
    }

    fn order_wrong(&self) -> bool {
        let place = |r: &[u8]| (self.anchor(r), self.reverse(r));
        let lanes = self.lane_numbers();
        let own = (1..self.own.len())
            .any(|i| lanes[i - 1] == lanes[i] && place(self.own[i - 1]) >= place(self.own[i]));
        let full = |r: &[u8]| (r[..self.k].to_vec(), self.source(r), place(r));
        own || self.global.windows(2).any(|w| full(w[0]) >= full(w[1]))
    }

    fn global_stray(&self) -> bool {
        // Own records name their lane, so equal bytes are the same record of that lane.
        let own: HashSet<&[u8]> = self.own.iter().copied().collect();
        self.global.iter().any(|r| !own.contains(r))
    }
}

/// Refusals 1 to 8; 0 for an accepted panel.
pub fn panel(image: &[u8]) -> u64 {
    let parts = match cut_up(image) {
        Ok(parts) => parts,
        Err(number) => return number,
    };
    match () {
        _ if parts.lanes_wrong() => 4,
        _ if parts.families_wrong() => 5,
        _ if parts.records_wrong() => 6,
        _ if parts.order_wrong() => 7,
        _ if parts.global_stray() => 8,
        _ => 0,
    }
}

/// Budget words as a job has them: work, evaluations, frontier, optima, tie width's bits.
pub type BudgetWords = [u64; 5];

/// Refusals 11 and 12; 0 for neither.
pub fn budget(b: &BudgetWords) -> u64 {
    let tie = f64::from_bits(b[4]);
    if b[..4].contains(&0) || tie.is_nan() || tie.is_infinite() || tie < 0.0 {
        11
    } else if b[2] > 1024 || b[3] > 1024 {
        12
    } else {
        0
    }
}

/// The needed words of the rooms.
#[derive(Clone, Copy, Debug)]
pub struct Needs {
    pub frames: usize,
    /// V, a slot's words.
    pub slot: usize,
    pub kept: usize,
    pub scores: usize,
}

/// The rooms for a most paths of a family, under a budget that passes 11 and 12.
pub fn needs_of(most_paths: u64, frontier: u64, optima: u64) -> Needs {
    let slot = 2 + most_paths + 4 * most_paths.max(frontier);
    Needs {
        frames: (10 * (frontier + 1)) as usize,
        slot: slot as usize,
        kept: (slot * (optima + 2)) as usize,
        scores: (optima + 1) as usize,
    }
}

/// The rooms on an accepted panel.
pub fn needs(image: &[u8], b: &BudgetWords) -> Needs {
    let most = cut_up(image).ok().and_then(|p| p.families.iter().copied().max()).unwrap_or(0);
    needs_of(most, b[2], b[3])
}

/// The lanes L and the width k of an accepted panel.
pub fn lanes_and_k(image: &[u8]) -> (u64, u64) {
    (word_at(image, 8), word_at(image, 0))
}

/// Whether words are an assignment's, within the bound (22).
pub fn well_formed(words: &[u64]) -> bool {
    words.len() <= 65_536 && is_assignment(words)
}

/// Whether words are an assignment's, however many.
pub fn is_assignment(words: &[u64]) -> bool {
    let mut at = 0;
    let mut next = || {
        at += 1;
        words.get(at - 1).copied()
    };
    let mut read = || -> Option<()> {
        next()?;
        for _ in 0..next()? {
            for _ in 0..next()? {
                next()?;
                next()?;
                next()?;
                if next()? > 1 {
                    return None;
                }
            }
        }
        Some(())
    };
    read().is_some() && at == words.len()
}

/// The segments of each route of well-formed words.
fn routes(words: &[u64]) -> Vec<Vec<[u64; 4]>> {
    let mut at = 2;
    let mut route = || {
        let end = at + 1 + 4 * words[at] as usize;
        let own: Vec<[u64; 4]> = words[at + 1..end].chunks(4).map(|s| [s[0], s[1], s[2], s[3]]).collect();
        at = end;
        own
    };
    (0..words[1]).map(|_| route()).collect()
}

/// Refusals 41 and 37 of a legal assignment, or 0.
pub fn crop(words: &[u64], slot: u64, from: u64, to: u64, room: usize) -> u64 {
    let routes = routes(words);
    let Some(route) = usize::try_from(slot).ok().and_then(|s| routes.get(s)) else { return 41 };
    let length: u128 = route.iter().map(|s| u128::from(s[2]) - u128::from(s[1])).sum();
    if to <= from || u128::from(to) > length {
        41
    } else if u128::from(to) - u128::from(from) > room as u128 {
        37
    } else {
        0
    }
}

impl Parts<'_> {
    /// Whether a record's word is another than its k letters, turned where it is reverse.
    fn word_wrong(&self, r: &[u8], letters: &[u8]) -> bool {
        let before = self.lanes.iter().take(self.source(r) as usize).map(|lane| lane[0]);
        let first = (before.sum::<u64>() + self.anchor(r)) as usize;
        let own = &letters[first..first + self.k];
        let pairs = [(b'A', b'T'), (b'C', b'G'), (b'G', b'C'), (b'T', b'A')];
        let other = |b: u8| pairs.iter().find(|(x, _)| *x == b).map(|(_, y)| *y);
        (0..self.k).any(|i| {
            let reads = if self.reverse(r) == 1 { other(own[self.k - 1 - i]) } else { Some(own[i]) };
            reads != Some(r[i])
        })
    }
}

/// Refusals 39 and 40 of an accepted panel, or 0.
pub fn letters(image: &[u8], letters: &[u8]) -> u64 {
    let Ok(parts) = cut_up(image) else { unreachable!("an accepted panel") };
    let total: u128 = parts.lanes.iter().map(|lane| u128::from(lane[0])).sum();
    if total != letters.len() as u128 || letters.iter().any(|b| !b"ACGT".contains(b)) {
        39
    } else {
        40 * u64::from(parts.own.iter().chain(&parts.global).any(|r| parts.word_wrong(r, letters)))
    }
}

/// Whether an accepted panel has a port of this orientation.
pub fn is_any_port(image: &[u8], reverse: u8) -> bool {
    cut_up(image).is_ok_and(|parts| parts.own.iter().any(|r| parts.reverse(r) == reverse))
}

/// Whether a switch of a legal assignment in normal form goes by a port that 40 is given for.
pub fn switch_wrong(image: &[u8], letters: &[u8], normal: &[u64]) -> bool {
    let Ok(parts) = cut_up(image) else { unreachable!("an accepted panel") };
    let wrong = |lane: u64, cut: u64, reverse: u64| {
        let half = parts.k as u64 / 2;
        let shift = if reverse == 1 { parts.k as u64 - half } else { half };
        parts.own.iter().any(|r| {
            let place = (parts.source(r), parts.anchor(r) + shift, u64::from(parts.reverse(r)));
            place == (lane, cut, reverse) && parts.word_wrong(r, letters)
        })
    };
    let leaves = |s: &[u64; 4]| wrong(s[0], if s[3] == 1 { s[1] } else { s[2] }, s[3]);
    let enters = |s: &[u64; 4]| wrong(s[0], if s[3] == 1 { s[2] } else { s[1] }, s[3]);
    routes(normal).iter().any(|route| route.windows(2).any(|w| leaves(&w[0]) || enters(&w[1])))
}

/// 1 to 64 printing ASCII bytes without a space.
pub fn is_name(name: &[u8]) -> bool {
    (1..=64).contains(&name.len()) && name.iter().all(|b| (33..=126).contains(b))
}

/// The lines of a text that ends with the line feed of its last one.
fn lines(text: &[u8]) -> Option<Vec<&[u8]>> {
    let mut lines: Vec<&[u8]> = text.split(|b| *b == b'\n').collect();
    lines.pop().filter(|rest| rest.is_empty())?;
    Some(lines)
}

/// The names of an accepted panel's lanes; none where their table is bad (34).
pub fn names<'a>(image: &[u8], table: &'a [u8]) -> Option<Vec<&'a [u8]>> {
    let names = lines(table)?;
    let different: HashSet<_> = names.iter().collect();
    let fits = names.len() as u64 == lanes_and_k(image).0 && different.len() == names.len();
    Some(names).filter(|names| fits && names.iter().all(|n| is_name(n)))
}

/// Well-formed words as lines of BED, their lanes named.
pub fn bed(names: &[&[u8]], words: &[u64]) -> Vec<u8> {
    let mut text = Vec::new();
    for (slot, route) in routes(words).into_iter().enumerate() {
        for [lane, start, end, reverse] in route {
            let strand = if reverse == 1 { '-' } else { '+' };
            text.extend(names[lane as usize]);
            text.extend(format!("\t{start}\t{end}\tr{slot}\t0\t{strand}\n").into_bytes());
        }
    }
    text
}

/// What a line of BED says.
pub struct BedLine<'a> {
    pub name: &'a [u8],
    pub slot: u64,
    start: u64,
    end: u64,
    reverse: u64,
}

/// A number below 2^64 in decimal without leading zeros.
pub fn decimal(column: &[u8]) -> Option<u64> {
    let digits = std::str::from_utf8(column).ok().filter(|c| c.bytes().all(|b| b.is_ascii_digit()))?;
    digits.parse().ok().filter(|_| digits == "0" || !digits.starts_with('0'))
}

fn bed_line(line: &[u8]) -> Option<BedLine<'_>> {
    let columns: Vec<&[u8]> = line.split(|b| *b == b'\t').collect();
    let [name, start, end, slot, b"0", strand] = columns[..] else { return None };
    let reverse = [&b"+"[..], b"-"].iter().position(|s| *s == strand)? as u64;
    let (start, end, slot) = (decimal(start)?, decimal(end)?, decimal(slot.strip_prefix(b"r")?)?);
    Some(BedLine { name, start, end, slot, reverse }).filter(|_| is_name(name))
}

/// The lines of a text, each in the form and their slots from 0 without a gap; else none (35).
pub fn bed_lines(text: &[u8]) -> Option<Vec<BedLine<'_>>> {
    let all: Vec<BedLine> = lines(text)?.into_iter().map(bed_line).collect::<Option<_>>()?;
    let first = all.first().map_or(true, |l| l.slot == 0);
    let on = |w: &[BedLine]| w[0].slot == w[1].slot || u128::from(w[0].slot) + 1 == u128::from(w[1].slot);
    Some(all).filter(|all| first && all.windows(2).all(on))
}

/// The words that lines hold; none where a name is not in the table (36).
pub fn bed_words(names: &[&[u8]], family: u64, lines: &[BedLine]) -> Option<Vec<u64>> {
    let numbers: HashMap<&[u8], u64> = names.iter().copied().zip(0..).collect();
    let mut routes: Vec<Vec<[u64; 4]>> = Vec::new();
    for line in lines {
        if line.slot == routes.len() as u64 {
            routes.push(vec![]);
        }
        routes.last_mut()?.push([*numbers.get(line.name)?, line.start, line.end, line.reverse]);
    }
    let mut words = vec![family, routes.len() as u64];
    for route in routes {
        words.push(route.len() as u64);
        words.extend(route.concat());
    }
    Some(words)
}

/// A job of the walk program, or 16.
pub struct Job<'a> {
    pub image: &'a [u8],
    pub budget: BudgetWords,
    pub scores: Vec<f64>,
}

pub const DEFAULT_BUDGET: BudgetWords = [100_000, 1000, 32, 8, 0];

pub fn job(bytes: &[u8]) -> Result<Job<'_>, u64> {
    if bytes.len() < 24 || bytes.len() > 24_576 {
        return Err(16);
    }
    let head = words(&bytes[..24]);
    let size = 24 + u128::from(head[0]) + 8 * (u128::from(head[1]) + u128::from(head[2]));
    if ![0, 5].contains(&head[1]) || head[2] > 1024 || size != bytes.len() as u128 {
        return Err(16);
    }
    let (image, rest) = bytes[24..].split_at(head[0] as usize);
    let (budget, scores) = rest.split_at(8 * head[1] as usize);
    Ok(Job {
        image,
        budget: words(budget).try_into().unwrap_or(DEFAULT_BUDGET),
        scores: words(scores).into_iter().map(f64::from_bits).collect(),
    })
}

/// Refusal 43 of the lower bound, or 0.
pub fn bound(counts: &[u64], background: f64) -> u64 {
    let counts_wrong = counts.iter().any(|&c| u128::from(c) >= 1 << 53);
    let background_right = background.is_finite() && background > 0.0;
    43 * u64::from(counts_wrong || !background_right)
}
