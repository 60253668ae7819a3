//! The folder of the four files: the names that `use super::*` gives them, one
//! constructor each for graph and evaluate, and an Evaluator with scores from outside.
use super::{checksum, read_json, write_json, PanelIdentity, COUNT_POLICY};
use crate::{file::File, rust_htslib, rustc_hash, sample_mem_bwt::invalid, syng::SyngIndex};
use serde::{Deserialize, Serialize};
use std::{
    collections::{BTreeMap, BTreeSet},
    fs,
    io::{self, BufReader, BufWriter, Read, Seek, SeekFrom, Write},
    ops::{Deref, DerefMut},
    path::{Path, PathBuf},
};

pub use evaluate::{Assignment, Route, Segment};
pub use graph::{Family, Graph, Lane, Ports};
pub use search::{search, SearchBudget, SearchResult};
pub use storage::{Port, Seal};

pub const MODEL: &str = "judge";
pub const VERSION: u32 = 1;
pub const RULE: &str = "";
pub const UNIVERSE: &str = "";

pub(crate) fn require(ok: bool, message: &str) -> io::Result<()> {
    ok.then_some(()).ok_or_else(|| invalid(message))
}

fn add(n: &mut u64, x: u64) -> io::Result<()> {
    *n = n.checked_add(x).ok_or_else(|| invalid("overflow"))?;
    Ok(())
}

fn digest(value: &impl Serialize) -> io::Result<String> {
    let json = serde_json::to_vec(value).map_err(io::Error::other)?;
    Ok(format!("{:016x}", checksum(&json)))
}

pub fn compiler_identity() -> String {
    String::new()
}

pub mod storage {
    include!(concat!(env!("OUT_DIR"), "/storage.rs"));
}

pub mod graph {
    include!(concat!(env!("OUT_DIR"), "/graph.rs"));

    impl Sources {
        /// Without `open`, which takes lanes only up to 2^31 - 1.
        pub fn of_ports(lanes: &[Lane]) -> Self {
            Self {
                indexes: vec![UnifiedSequenceIndex::Fasta(())],
                chosen: vec![0; lanes.len()],
                lanes: lanes.iter().map(|l| (l.name.clone(), l.length)).collect(),
                fetch_memo: Mutex::new(FxHashMap::default()),
            }
        }
    }
}

pub mod evaluate {
    include!(concat!(env!("OUT_DIR"), "/evaluate.rs"));

    impl<'a> Evaluator<'a> {
        /// Without `new`, which runs Graph::validate and wants a sample to score by.
        pub fn unscored(root: &Path, graph: &'a Graph, panel: &'a SyngIndex) -> io::Result<Self> {
            Ok(Self {
                graph,
                panel,
                ports: graph::Ports::open(root, graph)?,
                sources: graph::Sources::of_ports(&graph.lanes),
                store: profiles::Store::default(),
                observed: Counts::new(),
                histogram: Vec::new(),
                denominator: 1.0,
                depth: 1.0,
                background: 1.0,
                max_terms: 0,
                cache: BTreeMap::new(),
                cache_terms: 0,
                max_cache_terms: 0,
                cache_hits: 0,
                graph_checksum: graph.digest()?,
            })
        }

        /// What `lower_bound` reads: counts, which it takes in this order, and the background.
        pub fn observe(&mut self, counts: &[u64], background: f64) {
            self.observed = (0..).zip(counts).map(|(i, &c)| ([i, 0, 0], c)).collect();
            self.background = background;
        }
    }
}

include!(concat!(env!("OUT_DIR"), "/search_module.rs"));

/// Names of profiles.rs that the scoring in evaluate.rs mentions; the scoring is not run.
pub mod profiles {
    use super::*;

    pub type Counts = BTreeMap<[u64; 3], u64>;

    #[derive(Clone, Debug, Serialize, Deserialize)]
    pub struct NativeIndex {}
    impl NativeIndex {
        pub fn validate(&self, _: u64, _: u64) -> io::Result<()> {
            Ok(())
        }
    }

    pub struct Event {
        pub start: u64,
        pub end: u64,
        pub counts: Vec<([u64; 3], u64)>,
    }

    #[derive(Default)]
    pub struct Store {
        pub queried_starts: u64,
    }
    impl Store {
        pub fn new(_: &Path) -> Self {
            Self::default()
        }
        #[allow(clippy::too_many_arguments)]
        pub fn integrate(
            &mut self,
            _: &Graph,
            _: usize,
            _: usize,
            _: u64,
            _: u64,
            _: &mut Counts,
            _: bool,
            _: usize,
        ) -> io::Result<()> {
            unreachable!("scores come from outside")
        }
    }

    #[allow(clippy::too_many_arguments)]
    pub fn events(
        _: &SyngIndex,
        _: u64,
        _: u64,
        _: u64,
        _: u64,
        _: u64,
        _: impl FnMut(u64, u64) -> io::Result<Vec<u8>>,
        _: impl FnMut(Event) -> io::Result<()>,
    ) -> io::Result<()> {
        unreachable!("scores come from outside")
    }

    pub fn accumulate(_: &mut Counts, _: [u64; 3], _: u64, _: bool, _: usize) -> io::Result<()> {
        unreachable!("scores come from outside")
    }
}

/// Where the score of an evaluation comes from.
pub enum Scores<'a> {
    List(&'a [f64]),
    /// Every evaluation scores 0: for the listing.
    Free,
}

/// What search.rs calls an Evaluator: evaluate.rs's own one, with its own check of the
/// assignment, but evaluation n takes score n of a list.
pub struct Evaluator<'a> {
    inner: evaluate::Evaluator<'a>,
    scores: Scores<'a>,
    /// Every assignment that was evaluated, in order.
    pub listed: Vec<Assignment>,
    /// A score that was missing (14) or not finite (15), and its evaluation's number.
    pub unscored: Option<(u64, u64)>,
    keep: bool,
    count: u64,
}

pub struct Judged {
    pub assignment: Assignment,
    pub relative_objective: f64,
}

impl<'a> Evaluator<'a> {
    pub fn new(inner: evaluate::Evaluator<'a>, scores: Scores<'a>, keep: bool) -> Self {
        Self { inner, scores, listed: Vec::new(), unscored: None, keep, count: 0 }
    }

    pub fn evaluate(&mut self, assignment: &Assignment) -> io::Result<Judged> {
        let assignment = self.inner.validate_assignment(assignment)?;
        self.count += 1;
        let n = self.count;
        let score = match &self.scores {
            Scores::List(list) => list.get(n as usize - 1).copied(),
            Scores::Free => Some(0.0),
        };
        let fault = match score {
            None => Some((14, n)),
            Some(x) if !x.is_finite() => Some((15, n)),
            Some(_) => None,
        };
        if fault.is_some() {
            self.unscored = fault;
            return Err(invalid("no finite score"));
        }
        if self.keep {
            self.listed.push(assignment.clone());
        }
        Ok(Judged { assignment, relative_objective: score.unwrap() })
    }
}

impl<'a> Deref for Evaluator<'a> {
    type Target = evaluate::Evaluator<'a>;
    fn deref(&self) -> &Self::Target {
        &self.inner
    }
}

impl DerefMut for Evaluator<'_> {
    fn deref_mut(&mut self) -> &mut Self::Target {
        &mut self.inner
    }
}
