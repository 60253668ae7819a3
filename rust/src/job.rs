//! Jobs of the walk program.
use crate::{storage::word_at, Panel, Refusal, SearchBudget};

/// What the walk program reads: a panel, a budget (without one, the default) and scores.
#[derive(Clone, Debug, PartialEq)]
pub struct Job<'a> {
    pub panel: Panel<'a>,
    pub budget: Option<SearchBudget>,
    pub scores: Vec<f64>,
}

const HEAD: usize = 24;
const MOST_BYTES: usize = 24_576;
const MOST_SCORES: usize = 1_024;

impl<'a> Job<'a> {
    /// Refusal 16, then 1 to 8.
    pub fn from_bytes(bytes: &'a [u8]) -> Result<Self, Refusal> {
        let (image, budget, scores) = split(bytes).ok_or(Refusal::new(16, 0))?;
        let words = |bytes: &[u8]| -> Vec<u64> { bytes.chunks_exact(8).map(|w| word_at(w, 0)).collect() };
        let budget = match words(budget)[..] {
            [max_work, max_evaluations, max_frontier, max_optima, bits] => {
                let tie_width = f64::from_bits(bits);
                Some(SearchBudget { max_work, max_evaluations, max_frontier, max_optima, tie_width })
            }
            _ => None,
        };
        let scores = words(scores).into_iter().map(f64::from_bits).collect();
        Ok(Self { panel: Panel::new(image)?, budget, scores })
    }

    /// Refusal 16 where it has more scores or bytes than the program takes.
    pub fn to_bytes(&self) -> Result<Vec<u8>, Refusal> {
        let budget = self.budget.map_or(vec![], |b| {
            vec![b.max_work, b.max_evaluations, b.max_frontier, b.max_optima, b.tie_width.to_bits()]
        });
        let image = self.panel.image();
        let mut bytes = Vec::new();
        let mut put = |word: u64| bytes.extend(word.to_le_bytes());
        [image.len(), budget.len(), self.scores.len()].into_iter().for_each(|n| put(n as u64));
        bytes.extend(image);
        let scores = self.scores.iter().map(|s| s.to_bits());
        bytes.extend(budget.into_iter().chain(scores).flat_map(u64::to_le_bytes));
        match split(&bytes) {
            Some(_) => Ok(bytes),
            None => Err(Refusal::new(16, 0)),
        }
    }
}

/// The image, the budget's words and the scores' of a job; `None` where it is none.
fn split(bytes: &[u8]) -> Option<(&[u8], &[u8], &[u8])> {
    if bytes.len() < HEAD || bytes.len() > MOST_BYTES {
        return None;
    }
    let (head, rest) = bytes.split_at(HEAD);
    let size = |at: usize| usize::try_from(word_at(head, at)).ok();
    let (image, budget, scores) = (size(0)?, size(8)?, size(16)?);
    if ![0, 5].contains(&budget) || scores > MOST_SCORES || image > rest.len() {
        return None;
    }
    let (image, rest) = rest.split_at(image);
    if rest.len() != 8 * (budget + scores) {
        return None;
    }
    let (budget, scores) = rest.split_at(8 * budget);
    Some((image, budget, scores))
}
