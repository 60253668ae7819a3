//! The walk: budgets, rooms, and the search with its scores.
use crate::{
    exports,
    listing::Assignments,
    sheet::{Counters, Frame, Scored, Sheet, Status, FRAME_WORDS},
    Assignment, Panel, Refusal,
};

/// A walk's budgets, and the width within which two scores tie.
///
/// A larger budget only adds: with no budget smaller and the same tie width, the walk evaluates
/// the same assignments first, the incumbent is the same unless one scores lower, and an
/// exhausted walk stays exhausted with the same counters. A certified sheet stays as it is.
#[repr(C)]
#[derive(Clone, Copy, Debug, PartialEq)]
pub struct SearchBudget {
    /// Units of the walk.
    pub max_work: u64,
    pub max_evaluations: u64,
    /// Frames on the stack, to 1,024.
    pub max_frontier: u64,
    /// Tied optima kept, to 1,024.
    pub max_optima: u64,
    pub tie_width: f64,
}

/// What a job without budget words gets.
impl Default for SearchBudget {
    fn default() -> Self {
        Self { max_work: 100_000, max_evaluations: 1_000, max_frontier: 32, max_optima: 8, tie_width: 0.0 }
    }
}

/// The bound of max_frontier and of max_optima.
const MOST: u64 = 1_024;

/// The words of each lent room, as document 01 states them.
pub(crate) struct Rooms {
    pub frames: usize,
    /// V, the words of a slot.
    pub slot: usize,
    pub kept: usize,
    pub scores: usize,
}

impl Rooms {
    /// A budget over its bound is cut to it: the call refuses it whatever the rooms are.
    pub fn new(panel: &Panel, budget: &SearchBudget) -> Self {
        let frontier = budget.max_frontier.min(MOST) as usize;
        let optima = budget.max_optima.min(MOST) as usize;
        let paths = panel.most_paths();
        let slot = 2 + paths + 4 * frontier.max(paths);
        Self { frames: FRAME_WORDS * (frontier + 1), slot, kept: slot * (optima + 2), scores: optima + 1 }
    }
}

/// How far the scoring of a search has come.
#[derive(Clone, Copy, Debug, PartialEq, Eq)]
pub struct Progress {
    /// Evaluations that have their score.
    pub scored: u64,
    /// Evaluations that the walk makes under its budget.
    pub evaluations: u64,
}

impl Panel<'_> {
    /// The assignments that the walk evaluates under a budget, in its order: the native one of
    /// each family, then the legal ones family by family. Refusals 11 and 12.
    ///
    /// It keeps and discards nothing, but 11 and 12 look at the whole budget.
    pub fn assignments(&self, budget: SearchBudget) -> Result<Assignments<'_>, Refusal> {
        Assignments::new(self, budget)
    }

    /// Lists the assignments, scores each of them once, lower being better, and walks.
    /// Refusals 11, 12 and, for a score that is not finite, 15.
    ///
    /// The walk evaluates a family's native assignment twice, while seeding and on its way, and
    /// every other one at most once; the second time it gets the score of the first. So the scores
    /// are those of one function of assignments, which "certified" asks for (see [`Status`]).
    pub fn search(
        &self,
        budget: SearchBudget,
        score: impl FnMut(&Assignment) -> f64,
    ) -> Result<Sheet, Refusal> {
        self.search_with_progress(budget, score, |_| ())
    }

    /// [`Panel::search`], telling after each evaluation how far the scoring has come.
    pub fn search_with_progress(
        &self,
        budget: SearchBudget,
        mut score: impl FnMut(&Assignment) -> f64,
        mut progress: impl FnMut(Progress),
    ) -> Result<Sheet, Refusal> {
        let listing = self.assignments(budget)?;
        let evaluations = listing.evaluations();
        let natives = self.family_count();
        let mut scores: Vec<f64> = Vec::new();
        for assignment in listing {
            let again = scores.len() >= natives && assignment.switches() == 0;
            let native = scores.get(assignment.family() as usize).filter(|_| again);
            let value = native.copied().unwrap_or_else(|| score(&assignment));
            scores.push(value);
            progress(Progress { scored: scores.len() as u64, evaluations });
            // The walk is refused at the first such score.
            if !value.is_finite() {
                break;
            }
        }
        self.search_with_scores(budget, &scores)
    }

    /// The walk with score n, from 1, for evaluation n. Refusals 11, 12, 14 and 15.
    ///
    /// Nothing holds equal assignments to equal scores here. Where they differ (0.0 and -0.0 do
    /// not), they are no function's, and "certified" does not say what is best.
    pub fn search_with_scores(&self, budget: SearchBudget, scores: &[f64]) -> Result<Sheet, Refusal> {
        let rooms = Rooms::new(self, &budget);
        let mut frames = vec![0; rooms.frames];
        let mut kept = vec![0; rooms.kept];
        let mut kept_scores = vec![0.0; rooms.scores];
        let image = self.image();
        let r = exports::search(image, budget, scores, &mut frames, &mut kept, &mut kept_scores)?;
        let mut records = frames.chunks_exact(FRAME_WORDS).map(Frame::read);
        let mut slots = kept.chunks_exact(rooms.slot).zip(kept_scores).map_while(Scored::read);
        // The first evaluation sets the incumbent.
        let incumbent = if r.evaluations > 0 { slots.next() } else { None };
        Ok(Sheet {
            status: Status::numbered(r.status),
            counters: Counters {
                work: r.work,
                evaluations: r.evaluations,
                natives: r.natives,
                donors: r.donors,
                non_native: r.non_native,
                mixed: r.mixed,
                mixed_identity: r.mixed_identity,
                switches: r.switches,
                families: r.families,
            },
            optima: slots.take(r.optima as usize).collect(),
            discarded: r.discarded == 1,
            frames: records.by_ref().take(r.frames as usize).collect(),
            pending: records.next().filter(|_| r.pending == 1),
            foreign: incumbent.as_ref().map_or(0, |i| self.foreign(&i.assignment)),
            incumbent,
        })
    }

    /// The bases of an assignment off its routes' target lanes.
    fn foreign(&self, assignment: &Assignment) -> u64 {
        let targets = self.families().nth(assignment.family() as usize).unwrap_or_default();
        let routes = assignment.routes().zip(targets);
        routes.flat_map(|(route, target)| route.filter(move |s| s.source != target)).map(|s| s.bases()).sum()
    }
}
