//! Assignments: a family, and one route for each of its paths.
use crate::Refusal;
use std::fmt;

/// A piece of a lane, walked forward or in reverse.
#[derive(Clone, Copy, Debug, PartialEq, Eq, Hash)]
pub struct Segment {
    /// The lane's number.
    pub source: u64,
    pub start: u64,
    pub end: u64,
    pub reverse: bool,
}

impl Segment {
    /// Where the walk comes in: the start, or the end in reverse.
    pub fn entry(&self) -> u64 {
        if self.reverse {
            self.end
        } else {
            self.start
        }
    }

    /// Where the walk goes out: the end, or the start in reverse.
    pub fn exit(&self) -> u64 {
        if self.reverse {
            self.start
        } else {
            self.end
        }
    }

    /// Its length in bases.
    pub fn bases(&self) -> u64 {
        self.end.saturating_sub(self.start)
    }

    fn words(&self) -> [u64; 4] {
        [self.source, self.start, self.end, u64::from(self.reverse)]
    }

    fn read(words: &[u64]) -> Self {
        Self { source: words[0], start: words[1], end: words[2], reverse: words[3] == 1 }
    }
}

/// Lane, start, end, orientation: `1 6 8 +`.
impl fmt::Display for Segment {
    fn fmt(&self, f: &mut fmt::Formatter) -> fmt::Result {
        let sign = if self.reverse { '-' } else { '+' };
        write!(f, "{} {} {} {sign}", self.source, self.start, self.end)
    }
}

/// Well-formed assignment words: family, route count, then per route its segment count and
/// per segment source, start, end, reverse. Whether it is legal says
/// [`Panel::check_assignment`](crate::Panel::check_assignment).
#[derive(Clone, Debug, PartialEq, Eq, Hash)]
pub struct Assignment {
    words: Vec<u64>,
}

/// The most words of an assignment.
const MOST_WORDS: usize = 65_536;

/// How many words the assignment at the front takes; `None` where they are malformed.
fn front_words(words: &[u64]) -> Option<usize> {
    let routes = *words.get(1)?;
    let mut at = 2;
    for _ in 0..routes {
        let segments = usize::try_from(*words.get(at)?).ok()?;
        at += 1;
        let end = segments.checked_mul(4)?.checked_add(at)?;
        if words.get(at..end)?.chunks_exact(4).any(|s| s[3] > 1) {
            return None;
        }
        at = end;
    }
    Some(at)
}

impl Assignment {
    /// Refusal 22 where its words are over the bound.
    pub fn new<R>(family: u64, routes: impl IntoIterator<Item = R>) -> Result<Self, Refusal>
    where
        R: IntoIterator<Item = Segment>,
    {
        let mut words = vec![family, 0];
        for route in routes {
            let count = words.len();
            words.push(0);
            words.extend(route.into_iter().flat_map(|s| s.words()));
            words[count] = ((words.len() - count) / 4) as u64;
            words[1] += 1;
        }
        Self::from_words(words)
    }

    /// Refusal 22.
    pub fn from_words(words: impl Into<Vec<u64>>) -> Result<Self, Refusal> {
        let words = words.into();
        if words.len() > MOST_WORDS || front_words(&words) != Some(words.len()) {
            return Err(Refusal::new(22, 0));
        }
        Ok(Self { words })
    }

    /// The assignment at the front of words that the library wrote.
    pub(crate) fn front(words: &[u64]) -> Option<Self> {
        front_words(words).map(|used| Self { words: words[..used].to_vec() })
    }

    pub fn words(&self) -> &[u64] {
        &self.words
    }

    pub fn into_words(self) -> Vec<u64> {
        self.words
    }

    pub fn family(&self) -> u64 {
        self.words[0]
    }

    /// The segments of each route, slot by slot.
    pub fn routes(&self) -> impl Iterator<Item = impl ExactSizeIterator<Item = Segment> + '_> + '_ {
        let mut at = 2;
        (0..self.words[1]).map(move |_| {
            let from = at + 1;
            at = from + 4 * self.words[at] as usize;
            self.words[from..at].chunks_exact(4).map(Segment::read)
        })
    }

    /// Segments less routes.
    pub fn switches(&self) -> u64 {
        let segments: usize = self.routes().map(|r| r.len()).sum();
        (segments as u64).saturating_sub(self.words[1])
    }
}

/// A line `route SLOT LANE START END ORIENTATION` for each segment, as on a sheet.
impl fmt::Display for Assignment {
    fn fmt(&self, f: &mut fmt::Formatter) -> fmt::Result {
        for (slot, route) in self.routes().enumerate() {
            for segment in route {
                writeln!(f, "route {slot} {segment}")?;
            }
        }
        Ok(())
    }
}
