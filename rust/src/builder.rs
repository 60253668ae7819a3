//! Panels from their parts.
use crate::{storage::RECORD_EXCESS, Lane, Panel, Port, Refusal, Word};
use std::{collections::HashSet, error::Error, fmt};

/// Lanes, families and ports in any order; [`PanelBuilder::build`] sorts and packs them.
///
/// ```
/// # use panel_routes::PanelBuilder;
/// let panel = PanelBuilder::new(2)
///     .lane(10, 0)
///     .lane(10, 1)
///     .family([0])
///     .port("AC", 0, 3, false)
///     .port("AC", 1, 5, false)
///     .build()?;
/// assert_eq!(panel.hub_bucket("AC")?, 0..2);
/// # Ok::<(), Box<dyn std::error::Error>>(())
/// ```
#[derive(Clone, Debug)]
pub struct PanelBuilder {
    k: usize,
    lanes: Vec<Lane>,
    families: Vec<Vec<u64>>,
    /// `None` stands for a word that is none.
    ports: Vec<Option<Port>>,
}

/// What keeps the parts of a builder from being a panel. Parts go by their index, from 0.
#[derive(Clone, Copy, Debug, PartialEq, Eq)]
pub enum BuildError {
    /// k is not 1 to 32.
    K,
    /// There are not 1 to 4,096 lanes.
    LaneCount,
    /// There are more than 4,096 families.
    FamilyCount,
    /// There are more than 4,194,304 ports.
    PortCount,
    /// The lane's length is not 1 to 4,294,967,295.
    LaneLength { lane: usize },
    /// The family does not have 1 to 64 paths.
    PathCount { family: usize },
    /// A path of the family names no lane.
    PathLane { family: usize },
    /// The family names a lane twice.
    LaneTwice { family: usize },
    /// The port's word is not k letters from ACGT.
    PortWord { port: usize },
    /// The port's source is not a lane.
    PortLane { port: usize },
    /// The port's word goes past the end of its lane.
    PortPastLane { port: usize },
    /// An earlier port has the same lane, anchor and orientation.
    PortTwice { port: usize },
    /// The library's own answer on the packed image.
    Refused(Refusal),
}

const LANES: usize = 4_096;
const FAMILIES: usize = 4_096;
const PATHS: usize = 64;
const PORTS: usize = 4_194_304;
const BASES: u64 = 4_294_967_295;

impl PanelBuilder {
    /// Of words of k letters.
    pub fn new(k: usize) -> Self {
        Self { k, lanes: Vec::new(), families: Vec::new(), ports: Vec::new() }
    }

    /// The next lane; the first has number 0.
    pub fn lane(&mut self, length: u64, identity: u64) -> &mut Self {
        self.lanes.push(Lane { length, identity });
        self
    }

    /// The next family, by its target lanes.
    pub fn family(&mut self, paths: impl IntoIterator<Item = u64>) -> &mut Self {
        // One past the bound is enough to refuse it.
        self.families.push(paths.into_iter().take(PATHS + 1).collect());
        self
    }

    /// A port of lane `source` whose word begins at `anchor`.
    pub fn port(&mut self, word: impl AsRef<[u8]>, source: u64, anchor: u64, reverse: bool) -> &mut Self {
        self.ports.push(Word::new(word).map(|word| Port { word, source, anchor, reverse }));
        self
    }

    /// The panel, or the first fault in the order of [`BuildError`]'s cases.
    pub fn build(&self) -> Result<Panel<'static>, BuildError> {
        self.check_counts()?;
        self.check_lanes()?;
        self.check_families()?;
        let ports = self.checked_ports()?;
        Panel::new(self.packed(ports)).map_err(BuildError::Refused)
    }

    fn check_counts(&self) -> Result<(), BuildError> {
        need((1..=32).contains(&self.k), BuildError::K)?;
        need((1..=LANES).contains(&self.lanes.len()), BuildError::LaneCount)?;
        need(self.families.len() <= FAMILIES, BuildError::FamilyCount)?;
        need(self.ports.len() <= PORTS, BuildError::PortCount)
    }

    fn check_lanes(&self) -> Result<(), BuildError> {
        let bad = self.lanes.iter().position(|l| !(1..=BASES).contains(&l.length));
        bad.map_or(Ok(()), |lane| Err(BuildError::LaneLength { lane }))
    }

    fn check_families(&self) -> Result<(), BuildError> {
        for (family, paths) in self.families.iter().enumerate() {
            need((1..=PATHS).contains(&paths.len()), BuildError::PathCount { family })?;
            let known = paths.iter().all(|lane| *lane < self.lanes.len() as u64);
            need(known, BuildError::PathLane { family })?;
            let different: HashSet<_> = paths.iter().collect();
            need(different.len() == paths.len(), BuildError::LaneTwice { family })?;
        }
        Ok(())
    }

    fn checked_ports(&self) -> Result<Vec<Port>, BuildError> {
        let mut places = HashSet::with_capacity(self.ports.len());
        let check = |(port, given): (usize, &Option<Port>)| {
            let good = given.filter(|p| p.word.as_bytes().len() == self.k);
            let p = good.ok_or(BuildError::PortWord { port })?;
            let lane = usize::try_from(p.source).ok().and_then(|l| self.lanes.get(l));
            let lane = lane.ok_or(BuildError::PortLane { port })?;
            let end = p.anchor.checked_add(self.k as u64);
            need(end.is_some_and(|e| e <= lane.length), BuildError::PortPastLane { port })?;
            need(places.insert((p.source, p.anchor, p.reverse)), BuildError::PortTwice { port })?;
            Ok(p)
        };
        self.ports.iter().enumerate().map(check).collect()
    }

    fn packed(&self, mut ports: Vec<Port>) -> Vec<u8> {
        let (lanes, families) = (self.lanes.len(), self.families.len());
        let paths: usize = self.families.iter().map(Vec::len).sum();
        let list = ports.len() * (self.k + RECORD_EXCESS);
        let mut words: Vec<u64> = [self.k, lanes, families, paths, ports.len()].map(|n| n as u64).to_vec();
        let mut at = 80;
        for bytes in [24 * lanes, 8 * families, 8 * paths, list, list] {
            words.push(at as u64);
            at += bytes;
        }
        let mut counts = vec![0; lanes];
        ports.iter().for_each(|p| counts[p.source as usize] += 1);
        let entries = self.lanes.iter().zip(counts);
        words.extend(entries.flat_map(|(lane, count)| [lane.length, count, lane.identity]));
        words.extend(self.families.iter().map(|p| p.len() as u64));
        words.extend(self.families.iter().flatten());
        let mut image = Vec::with_capacity(at);
        image.extend(words.iter().flat_map(|w| w.to_le_bytes()));
        ports.sort_unstable_by_key(|p| (p.source, p.anchor, p.reverse));
        ports.iter().for_each(|p| p.write(&mut image));
        ports.sort_unstable();
        ports.iter().for_each(|p| p.write(&mut image));
        image
    }
}

fn need(holds: bool, fault: BuildError) -> Result<(), BuildError> {
    if holds {
        Ok(())
    } else {
        Err(fault)
    }
}

impl fmt::Display for BuildError {
    fn fmt(&self, f: &mut fmt::Formatter) -> fmt::Result {
        match self {
            Self::K => write!(f, "k is not 1 to 32"),
            Self::LaneCount => write!(f, "not 1 to {LANES} lanes"),
            Self::FamilyCount => write!(f, "more than {FAMILIES} families"),
            Self::PortCount => write!(f, "more than {PORTS} ports"),
            Self::LaneLength { lane } => write!(f, "lane {lane}: its length is not 1 to {BASES}"),
            Self::PathCount { family } => write!(f, "family {family}: not 1 to {PATHS} paths"),
            Self::PathLane { family } => write!(f, "family {family}: a path names no lane"),
            Self::LaneTwice { family } => write!(f, "family {family}: it names a lane twice"),
            Self::PortWord { port } => write!(f, "port {port}: its word is not k letters from ACGT"),
            Self::PortLane { port } => write!(f, "port {port}: its source is not a lane"),
            Self::PortPastLane { port } => write!(f, "port {port}: its word goes past its lane"),
            Self::PortTwice { port } => {
                write!(f, "port {port}: an earlier one has its lane, anchor and orientation")
            }
            Self::Refused(refusal) => refusal.fmt(f),
        }
    }
}

impl Error for BuildError {}
