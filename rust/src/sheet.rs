//! What a search comes back with.
use crate::Assignment;
use std::fmt;

/// How a walk ended.
///
/// What the first two say is a theorem about the calls that this crate links
/// (`certificate/specs/Sentence.antt`); that the crate reads their rooms rightly is tested. Of a
/// search that was not refused:
///
/// - the status is one of these two exactly when `max_work`, `max_evaluations` and `max_frontier`
///   suffice for the walk without budgets, which ends on every panel;
/// - then one native assignment per family was evaluated, and after them each legal assignment
///   exactly once.
///
/// If besides there is a family, then for every scoring function f with which the scores agree, as
/// doubles are equal (0.0 and -0.0 are one score):
///
/// - the incumbent is a legal assignment, and no legal assignment has a lower score by f;
/// - each of the tied optima is a legal assignment whose score minus the incumbent's, by one
///   subtraction of doubles, is within the tie width, and none is there twice;
/// - with [`Status::Certified`] these are all such assignments, the incumbent among them, in the
///   order in which they were first evaluated.
///
/// A panel without families has no legal assignment: its walk is `Certified`, with no incumbent.
/// Nothing is said of f itself, nor of what is best where a budget stopped the walk. In a listing
/// `Certified` says that every legal assignment is listed.
#[derive(Clone, Copy, Debug, PartialEq, Eq, Hash)]
pub enum Status {
    /// Every legal assignment was scored: none scores below the incumbent, and the tied optima
    /// are exactly those within the tie width.
    Certified,
    /// Every legal assignment was scored and none scores below the incumbent, but one that tied
    /// when it was evaluated found no room: more may tie than were kept.
    SupportIncomplete,
    /// Stopped at max_work.
    WorkExhausted,
    /// Stopped at max_evaluations.
    EvaluationExhausted,
    /// Stopped where a child would have been deeper than max_frontier.
    FrontierExhausted,
}

impl Status {
    /// The string that the walk program prints.
    pub fn as_str(&self) -> &'static str {
        match self {
            Self::Certified => "domain-exhausted-optimum-and-correlated-support-certified",
            Self::SupportIncomplete => "domain-exhausted-optimum-certified-support-incomplete",
            Self::WorkExhausted => "work-budget-exhausted",
            Self::EvaluationExhausted => "evaluation-budget-exhausted",
            Self::FrontierExhausted => "frontier-budget-exhausted",
        }
    }

    /// By a reply's number, 1 to 5.
    pub(crate) fn numbered(number: u64) -> Self {
        match number {
            1 => Self::Certified,
            2 => Self::SupportIncomplete,
            3 => Self::WorkExhausted,
            4 => Self::EvaluationExhausted,
            _ => Self::FrontierExhausted,
        }
    }
}

impl fmt::Display for Status {
    fn fmt(&self, f: &mut fmt::Formatter) -> fmt::Result {
        f.write_str(self.as_str())
    }
}

/// What a walk counted.
#[derive(Clone, Copy, Debug, Default, PartialEq, Eq)]
pub struct Counters {
    /// Units.
    pub work: u64,
    pub evaluations: u64,
    pub natives: u64,
    /// Hub members taken, those passed over included.
    pub donors: u64,
    /// Assignments with a switch.
    pub non_native: u64,
    /// Assignments with a route over two lanes.
    pub mixed: u64,
    /// Assignments with a route over two identities.
    pub mixed_identity: u64,
    /// Most switches of an assignment.
    pub switches: u64,
    /// Families done.
    pub families: u64,
}

/// An assignment with its score.
#[derive(Clone, Debug, PartialEq)]
pub struct Scored {
    pub assignment: Assignment,
    pub score: f64,
}

impl Scored {
    /// A slot of the kept room and its score; `None` for words that are none.
    pub(crate) fn read((slot, score): (&[u64], f64)) -> Option<Self> {
        Assignment::front(slot).map(|assignment| Self { assignment, score })
    }
}

pub(crate) const FRAME_WORDS: usize = 10;

/// A place on the walk's stack.
#[derive(Clone, Copy, Debug, PartialEq, Eq)]
pub struct Frame {
    pub slot: u64,
    /// The lane's number.
    pub source: u64,
    pub cut: u64,
    pub reverse: bool,
    /// Whether the closing piece is still to be tried.
    pub terminal_pending: bool,
    /// The next port's index in its lane, plus 1.
    pub next_port_plus_1: u64,
    /// The next member of the open hub, and the hub's end; 0 and 0 without one.
    pub hub_next: u64,
    pub hub_end: u64,
    /// The piece that leads here; 0 and 0 at the root.
    pub start: u64,
    pub end: u64,
}

impl Frame {
    pub(crate) fn read(words: &[u64]) -> Self {
        Self {
            slot: words[0],
            source: words[1],
            cut: words[2],
            reverse: words[3] == 1,
            terminal_pending: words[4] == 1,
            next_port_plus_1: words[5],
            hub_next: words[6],
            hub_end: words[7],
            start: words[8],
            end: words[9],
        }
    }
}

/// A search's outcome. It prints as the walk program prints it, each line with its end.
#[derive(Clone, Debug, PartialEq)]
pub struct Sheet {
    pub status: Status,
    pub counters: Counters,
    /// The best assignment; `None` only for a panel without families.
    pub incumbent: Option<Scored>,
    /// The assignments that tie with it. Where none was discarded and equal assignments had equal
    /// scores, itself is among them, and they stand in the order in which they were first evaluated.
    pub optima: Vec<Scored>,
    /// Whether one that tied found max_optima of them there.
    pub discarded: bool,
    /// The stack that a stopped walk leaves, the root first.
    pub frames: Vec<Frame>,
    /// The child for which the stack had no room.
    pub pending: Option<Frame>,
    /// The incumbent's bases off its routes' target lanes.
    pub foreign: u64,
}

impl fmt::Display for Sheet {
    fn fmt(&self, f: &mut fmt::Formatter) -> fmt::Result {
        let c = &self.counters;
        writeln!(f, "status {}", self.status)?;
        writeln!(f, "work {}", c.work)?;
        writeln!(f, "evaluations {}", c.evaluations)?;
        writeln!(f, "natives {}", c.natives)?;
        writeln!(f, "donors {}", c.donors)?;
        writeln!(f, "non-native {}", c.non_native)?;
        writeln!(f, "mixed {}", c.mixed)?;
        writeln!(f, "mixed-identity {}", c.mixed_identity)?;
        writeln!(f, "switches {}", c.switches)?;
        writeln!(f, "families {}", c.families)?;
        writeln!(f, "optima {}", self.optima.len())?;
        writeln!(f, "foreign {}", self.foreign)?;
        self.incumbent.iter().try_for_each(|i| i.assignment.fmt(f))
    }
}
