//! The lanes' letters, and the spelling of a route: letters are tested without a branch, a word or a
//! piece is one slice.
use super::{check, need, Checked, Refused};

fn are_letters(letters: &[u8]) -> bool {
    letters.iter().fold(true, |all, b| all & matches!(b, b'A' | b'C' | b'G' | b'T'))
}

const COMPLEMENT: [u8; 256] = {
    let mut of = [0; 256];
    (of[b'A' as usize], of[b'C' as usize], of[b'G' as usize], of[b'T' as usize]) = (b'T', b'G', b'C', b'A');
    of
};

fn complement(letter: u8) -> u8 {
    COMPLEMENT[usize::from(letter)]
}

/// Whether the letters, turned for a reverse port, are the word.
fn is_word(word: &[u8], letters: &[u8], reverse: bool) -> bool {
    if reverse {
        let pairs = word.iter().zip(letters.iter().rev());
        pairs.fold(true, |all, (w, l)| all & (*w == complement(*l)))
    } else {
        word == letters
    }
}

#[derive(Clone, Copy)]
struct Segment {
    source: usize,
    start: u64,
    end: u64,
    reverse: bool,
}

impl Segment {
    fn entry(&self) -> u64 {
        if self.reverse {
            self.end
        } else {
            self.start
        }
    }

    fn exit(&self) -> u64 {
        if self.reverse {
            self.start
        } else {
            self.end
        }
    }
}

/// The words of each route's segments; refusal 22.
fn routes(words: &[u64]) -> Result<Vec<&[u64]>, Refused> {
    need((2..=65_536).contains(&words.len()), 22)?;
    let mut routes = Vec::new();
    let mut rest = &words[2..];
    for _ in 0..words[1] {
        let (count, segments) = rest.split_first().ok_or((22, 0))?;
        need(*count <= (segments.len() / 4) as u64, 22)?;
        let (route, later) = segments.split_at(4 * *count as usize);
        need(route.chunks_exact(4).all(|s| s[3] <= 1), 22)?;
        routes.push(route);
        rest = later;
    }
    need(rest.is_empty(), 22)?;
    Ok(routes)
}

impl Checked<'_> {
    /// The letters of each lane; refusals 39 and 40. By 8 every global record stands in a lane's list.
    pub fn check_letters<'l>(&self, letters: &'l [u8]) -> Result<Vec<&'l [u8]>, Refused> {
        let total: u64 = self.lanes.iter().map(|lane| lane.length).sum();
        need(total == letters.len() as u64 && letters.chunks(4096).all(are_letters), 39)?;
        let mut rest = letters;
        let mut lanes = Vec::with_capacity(self.lanes.len());
        let mut ports = self.own.chunks_exact(self.k + 17).zip(&self.keys);
        for lane in &self.lanes {
            let (own, later) = rest.split_at(lane.length as usize);
            rest = later;
            lanes.push(own);
            let true_to = |(record, key): (&[u8], &u64)| {
                let there = &own[(key >> 1) as usize..][..self.k];
                is_word(&record[..self.k], there, key & 1 == 1)
            };
            need(ports.by_ref().take(lane.ports.len()).all(true_to), 40)?;
        }
        Ok(lanes)
    }

    /// The word of a lane's port at a cut.
    fn word_at(&self, lane: usize, cut: u64, reverse: bool) -> Option<&[u8]> {
        let shift = if reverse { self.k - self.k / 2 } else { self.k / 2 };
        let key = 2 * cut.checked_sub(shift as u64)? + u64::from(reverse);
        let ports = self.lanes[lane].ports.clone();
        let place = ports.start + self.keys[ports].binary_search(&key).ok()?;
        Some(&self.own[place * (self.k + 17)..][..self.k])
    }

    /// A route's normal form; the number of 25 to 30.
    fn normal(&self, words: &[u64], target: usize) -> Result<Vec<Segment>, u64> {
        let mut normal: Vec<Segment> = Vec::new();
        for s in words.chunks_exact(4) {
            let lane = usize::try_from(s[0]).ok().and_then(|lane| self.lanes.get(lane));
            if !lane.is_some_and(|lane| s[1] < s[2] && s[2] <= lane.length) {
                return Err(26);
            }
            let next = Segment { source: s[0] as usize, start: s[1], end: s[2], reverse: s[3] == 1 };
            match normal.last_mut() {
                Some(last)
                    if (last.source, last.reverse, last.exit())
                        == (next.source, next.reverse, next.entry()) =>
                {
                    last.start = last.start.min(next.start);
                    last.end = last.end.max(next.end);
                }
                _ => normal.push(next),
            }
        }
        let (Some(first), Some(last)) = (normal.first(), normal.last()) else { return Err(25) };
        let home = |s: &Segment| s.source == target && !s.reverse;
        if !(home(first) && first.start == 0 && home(last) && last.end == self.lanes[target].length) {
            return Err(27);
        }
        for pair in normal.windows(2) {
            let left = self.word_at(pair[0].source, pair[0].exit(), pair[0].reverse).ok_or(28u64)?;
            let right = self.word_at(pair[1].source, pair[1].entry(), pair[1].reverse).ok_or(29u64)?;
            if left != right {
                return Err(30);
            }
        }
        Ok(normal)
    }

    /// The words of each route as given; refusals 22 to 31.
    pub fn check_assignment<'w>(&self, words: &'w [u64]) -> Result<Vec<&'w [u64]>, Refused> {
        let routes = routes(words)?;
        let family = usize::try_from(words[0]).ok().and_then(|f| self.families.get(f)).ok_or((23, 0))?;
        need(routes.len() == family.len(), 24)?;
        let mut spans = Vec::new();
        for (i, (route, target)) in routes.iter().zip(&self.paths[family.clone()]).enumerate() {
            spans.extend(self.normal(route, *target).map_err(|number| (number, i as u64))?);
        }
        spans.sort_unstable_by_key(|s| (s.source, s.start));
        let apart = |w: &[Segment]| w[0].source != w[1].source || w[0].end <= w[1].start;
        need(spans.windows(2).all(apart), 31)?;
        Ok(routes)
    }
}

/// How many letters were written: refusals 1 to 8, 39, 40, 22 to 31, 41 and 37. The crop is slot, from, to.
pub fn spell(
    image: &[u8],
    letters: &[u8],
    words: &[u64],
    crop: [u64; 3],
    out: &mut [u8],
) -> Result<u64, Refused> {
    let panel = check(image)?;
    let lanes = panel.check_letters(letters)?;
    let routes = panel.check_assignment(words)?;
    let [slot, from, to] = crop;
    let route = usize::try_from(slot).ok().and_then(|slot| routes.get(slot)).ok_or((41, 0))?;
    let length: u64 = route.chunks_exact(4).map(|s| s[2] - s[1]).sum();
    need(from < to && to <= length, 41)?;
    let mut room = out.get_mut(..(to - from) as usize).ok_or((37, 0))?;
    let mut before = from as usize;
    for s in route.chunks_exact(4) {
        let piece = &lanes[s[0] as usize][s[1] as usize..s[2] as usize];
        let begin = before.min(piece.len());
        before -= begin;
        let end = piece.len().min(begin + room.len());
        let (here, later) = room.split_at_mut(end - begin);
        room = later;
        if s[3] == 1 {
            let there = &piece[piece.len() - end..piece.len() - begin];
            here.iter_mut().zip(there.iter().rev()).for_each(|(h, t)| *h = complement(*t));
        } else {
            here.copy_from_slice(&piece[begin..end]);
        }
    }
    Ok(to - from)
}
