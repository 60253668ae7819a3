//! The judge's door to the original: an accepted panel image goes in, its answers come
//! out as numbers. What is said here about an answer was said by the original's code.
use crate::{
    file::{self, File, MEMORY},
    genome_inference::{
        checksum,
        panel_routes::{
            evaluate, graph::Sources, search, storage, Assignment, Evaluator, Family, Graph, Lane, Ports,
            Route, Scores, Seal, SearchBudget, Segment, MODEL, VERSION,
        },
        take_written, PanelIdentity,
    },
    graph, sequence_index,
    syng::SyngIndex,
};
use serde_json::Value;
use std::{
    cell::RefCell,
    fs, io,
    path::{Path, PathBuf},
};

/// A whole-number budget of the walk, and its tie width.
#[derive(Clone, Copy, Debug)]
pub struct Budget {
    pub work: u64,
    pub evaluations: u64,
    pub frontier: u64,
    pub optima: u64,
    pub tie: f64,
}

/// What a walk leaves.
#[derive(Clone, Debug, Default)]
pub struct Walk {
    pub status: String,
    pub work: u64,
    pub evaluations: u64,
    pub natives: u64,
    pub donors: u64,
    pub non_native: u64,
    pub mixed: u64,
    pub mixed_identity: u64,
    pub switches: u64,
    pub families: u64,
    pub exhausted: bool,
    pub complete: bool,
    /// Records of ten words; the pending child's is apart.
    pub frames: Vec<[u64; 10]>,
    pub pending: Option<[u64; 10]>,
    pub incumbent: Option<(f64, Vec<u64>)>,
    pub optima: Vec<(f64, Vec<u64>)>,
    /// Every assignment evaluated, in order, where they were asked for.
    pub listed: Vec<Vec<u64>>,
}

pub struct Panel {
    graph: Graph,
    syng: SyngIndex,
    root: PathBuf,
    /// Ports that no DNA can be true to: the original's DNA test is waived.
    pub contradicted: bool,
}

fn word(image: &[u8], at: usize) -> u64 {
    u64::from_le_bytes(image[at..at + 8].try_into().unwrap())
}

impl Panel {
    /// From an image that passes refusals 1 to 8. With a folder, the ports are real files.
    pub fn open(image: &[u8], folder: Option<&Path>) -> io::Result<Self> {
        let header = |i: usize| word(image, 8 * i) as usize;
        let (k, lanes, families, ports) = (header(0), header(1), header(2), header(4));
        let (lane_at, family_at, path_at) = (header(5), header(6), header(7));
        let (mut own_at, global_at) = (header(8), header(9));
        let record = k + 17;
        let root = folder.map_or_else(|| PathBuf::from(MEMORY), PathBuf::from);
        file::clear();
        let mut own = Vec::new();
        let mut graph_lanes = Vec::with_capacity(lanes);
        for id in 0..lanes {
            let entry = lane_at + 24 * id;
            let port_count = word(image, entry + 8);
            let end = own_at + record * port_count as usize;
            let path = format!("lane-{id}");
            let bytes = &image[own_at..end];
            for r in bytes.chunks(record) {
                own.push((id, word(r, k + 8), r[k + 16] == 1, r[..k].to_vec()));
            }
            graph_lanes.push(Lane {
                id,
                name: id.to_string(),
                length: word(image, entry),
                sequence_fnv1a64: String::new(),
                family: word(image, entry + 16) as usize,
                ports: store(&root, path, bytes)?,
                port_count,
                profiles: Vec::new(),
            });
            own_at = end;
        }
        let mut at = path_at;
        let mut graph_families = Vec::with_capacity(families);
        for f in 0..families {
            let paths = word(image, family_at + 8 * f) as usize;
            graph_families.push(Family {
                identity: f.to_string(),
                paths: (0..paths).map(|i| word(image, at + 8 * i) as usize).collect(),
            });
            at += 8 * paths;
        }
        let none = || Seal { path: "none".into(), bytes: 0, hash: String::new() };
        let graph = Graph {
            version: VERSION,
            model: MODEL.into(),
            panel: PanelIdentity {},
            compiler_identity: String::new(),
            count_policy: String::new(),
            generation_rule: String::new(),
            generation_complete: true,
            endpoint_semantics: String::new(),
            k: k as u64,
            cut_offset: k as u64 / 2,
            core_bp: 1,
            read_lengths: Vec::new(),
            lanes: graph_lanes,
            families: graph_families,
            ports: store(&root, "ports".into(), &image[global_at..global_at + record * ports])?,
            port_count: ports as u64,
            ownership: none(),
            original_ownership: none(),
            registry: none(),
            registry_count: 0,
            catalog_provenance: Value::Null,
            source_files: Vec::new(),
            source_paths: Vec::new(),
            source_access: Vec::new(),
            total_source_bp: 0,
        };
        let contradicted = sequence_index::set_ports(own.into_iter());
        Ok(Self { graph, syng: SyngIndex::default(), root, contradicted })
    }

    /// The lanes' letters, lane after lane, for what is asked until another panel opens: the
    /// original's DNA test reads them. Where there are too few, the last lanes lack them.
    pub fn lend(&mut self, letters: &[u8]) {
        let mut rest = letters;
        let lanes = self.graph.lanes.iter().map(|lane| {
            let (own, later) = rest.split_at(rest.len().min(lane.length as usize));
            rest = later;
            own.to_vec()
        });
        sequence_index::lend(lanes.collect());
        self.contradicted = false;
    }

    /// The test that `validate_assignment` makes of a switch's ports, made of every lane's ports.
    pub fn words_stand(&self) -> io::Result<bool> {
        let (k, sources) = (self.graph.k, Sources::of_ports(&self.graph.lanes));
        for lane in &self.graph.lanes {
            let mut file = File::open(self.root.join(&lane.ports.path))?;
            for i in 0..lane.port_count {
                let p = storage::port_at(&mut file, k as usize, i)?;
                let mut dna = sources.fetch(p.source, p.anchor, p.anchor + k)?;
                if p.reverse {
                    dna = graph::reverse_complement(&dna);
                }
                if dna != p.word {
                    return Ok(false);
                }
            }
        }
        Ok(true)
    }

    /// A crop of a route as given, by the letters lent; none where the original calls it invalid.
    pub fn spell(&self, words: &[u64], slot: usize, from: u64, to: u64) -> io::Result<Option<Vec<u8>>> {
        let route = &self.assignment(words)?.routes[slot];
        match Sources::of_ports(&self.graph.lanes).spell(route, from, to) {
            Err(error) if error.to_string() == "invalid route crop" => Ok(None),
            spelled => spelled.map(Some),
        }
    }

    pub fn port_at_cut(&self, lane: usize, cut: u64, reverse: bool) -> io::Result<Option<(u64, Vec<u8>)>> {
        let port = Ports::open(&self.root, &self.graph)?.at_cut(&self.graph, lane, cut, reverse)?;
        Ok(port.map(|p| (p.anchor, p.word)))
    }

    pub fn bucket(&self, word: &[u8]) -> io::Result<(u64, u64)> {
        let mut ports = Ports::open(&self.root, &self.graph)?;
        let k = self.graph.k as usize;
        storage::bucket(&mut ports.global, k, self.graph.port_count, word)
    }

    /// The normal form's words, or the refusal with its route: 39 or 40 where it is the letters lent
    /// that a switch is refused for. Words are well formed.
    pub fn check(&self, words: &[u64]) -> io::Result<Result<Vec<u64>, (u64, u64)>> {
        let inner = evaluate::Evaluator::unscored(&self.root, &self.graph, &self.syng)?;
        let mut e = Evaluator::new(inner, Scores::Free, false);
        let given = self.assignment(words)?;
        let number = match e.validate_assignment(&given) {
            Ok(normal) => return Ok(Ok(to_words(&normal))),
            Err(error) => refusal(&error)?,
        };
        if !(25..=30).contains(&number) {
            return Ok(Err((number, 0)));
        }
        // The original names no route. With the later routes native, which pass on their
        // own, the first prefix that it refuses so ends in the route concerned.
        let native = self.graph.native_assignment(given.family)?;
        for r in 0..given.routes.len() {
            let mut part = native.clone();
            part.routes[..=r].clone_from_slice(&given.routes[..=r]);
            if let Err(error) = e.validate_assignment(&part) {
                let here = refusal(&error)?;
                if here != 31 {
                    return Ok(Err((here, r as u64)));
                }
            }
        }
        Err(io::Error::other("a refused route passes"))
    }

    /// The walk, or the refusal of a score with its evaluation.
    pub fn search(
        &self,
        budget: Budget,
        scores: Scores<'_>,
        list: bool,
    ) -> io::Result<Result<Walk, (u64, u64)>> {
        let inner = evaluate::Evaluator::unscored(&self.root, &self.graph, &self.syng)?;
        let mut e = Evaluator::new(inner, scores, list);
        let budget = SearchBudget {
            max_work: budget.work,
            max_evaluations: budget.evaluations,
            max_frontier: budget.frontier as usize,
            max_optima: budget.optima as usize,
            tie_epsilon: budget.tie,
        };
        let result = match search(&mut e, budget, &self.root) {
            Ok(result) => result,
            Err(error) => return e.unscored.map(Err).ok_or(error),
        };
        let left = take_written().ok_or_else(|| io::Error::other("no frontier was written"))?;
        let scored = |s: &crate::genome_inference::panel_routes::search::Scored| {
            (s.relative_objective, to_words(&s.assignment))
        };
        Ok(Ok(Walk {
            status: result.status,
            work: result.work,
            evaluations: result.evaluations,
            natives: result.native_families_evaluated as u64,
            donors: result.donor_transitions_examined,
            non_native: result.non_native_assignments_evaluated,
            mixed: result.mixed_assignments_evaluated,
            mixed_identity: result.mixed_identity_assignments_evaluated,
            switches: result.maximum_switches_evaluated as u64,
            families: result.family_searches_exhausted as u64,
            exhausted: result.search_exhausted,
            complete: result.correlated_optima_complete,
            frames: left["frames"].as_array().unwrap().iter().map(frame).collect(),
            pending: left["pending_child"].is_object().then(|| child(&left["pending_child"])),
            incumbent: result.incumbent.as_ref().map(scored),
            optima: result.correlated_optima.iter().map(scored).collect(),
            listed: e.listed.iter().map(to_words).collect(),
        }))
    }

    fn assignment(&self, words: &[u64]) -> io::Result<Assignment> {
        let mut words = words.iter().copied();
        let mut next = || words.next().ok_or_else(|| io::Error::other("a word is missing"));
        let family = next()? as usize;
        let routes = next()?;
        let mut given = Vec::new();
        for _ in 0..routes {
            let mut segments = Vec::new();
            for _ in 0..next()? {
                segments.push(Segment {
                    source: next()? as usize,
                    start: next()?,
                    end: next()?,
                    reverse: next()? == 1,
                });
            }
            given.push(Route { segments });
        }
        Ok(Assignment {
            version: VERSION,
            model: MODEL.into(),
            graph_checksum: self.graph.digest()?,
            family,
            routes: given,
        })
    }
}

/// One lane of one base: an Evaluator wants a panel, which the lower bound does not look at.
const LEAST_PANEL: [u64; 13] = [1, 1, 0, 0, 0, 80, 104, 104, 104, 104, 1, 0, 0];

fn evaluator() -> RefCell<evaluate::Evaluator<'static>> {
    let image: Vec<u8> = LEAST_PANEL.iter().flat_map(|w| w.to_le_bytes()).collect();
    let panel = Box::leak(Box::new(Panel::open(&image, None).expect("a sound panel opens")));
    RefCell::new(
        evaluate::Evaluator::unscored(&panel.root, &panel.graph, &panel.syng).expect("its ports open"),
    )
}

thread_local! {
    static OBSERVED: RefCell<evaluate::Evaluator<'static>> = evaluator();
}

/// What the next `lower_bound` is of: any counts and any background.
pub fn observe(counts: &[u64], background: f64) {
    OBSERVED.with(|e| e.borrow_mut().observe(counts, background));
}

pub fn lower_bound() -> Option<f64> {
    OBSERVED.with(|e| e.borrow().lower_bound())
}

/// Keeps bytes as a file and seals them; the original's own `verify` is run against it.
fn store(root: &Path, path: String, bytes: &[u8]) -> io::Result<Seal> {
    if root.starts_with(MEMORY) {
        file::put(root.join(&path), bytes.to_vec());
    } else {
        fs::write(root.join(&path), bytes)?;
    }
    let hash = format!("{:016x}", checksum(bytes));
    Ok(Seal { path, bytes: bytes.len() as u64, hash })
}

/// The documents' number for the original's message.
fn refusal(error: &io::Error) -> io::Result<u64> {
    let text = error.to_string();
    let number = match text.as_str() {
        "route assignment identity mismatch" => 23,
        "incomplete topology assignment" => 24,
        "empty route" => 25,
        "invalid/zero-length physical traversal" => 26,
        "route violates native endpoint pairing" => 27,
        "undeclared outgoing switch" => 28,
        "undeclared incoming switch" => 29,
        "switch words/oriented cuts disagree" => 30,
        "conflicting canonical source-span reuse across genome" => 31,
        "invalid source DNA" => 39,
        "switch DNA provenance mismatch" => 40,
        _ => return Err(io::Error::other(format!("unforeseen: {text}"))),
    };
    Ok(number)
}

fn to_words(a: &Assignment) -> Vec<u64> {
    let mut words = vec![a.family as u64, a.routes.len() as u64];
    for r in &a.routes {
        words.push(r.segments.len() as u64);
        for s in &r.segments {
            words.extend([s.source as u64, s.start, s.end, u64::from(s.reverse)]);
        }
    }
    words
}

/// The words of a state that 01's record keeps: where it stands and the piece leading there.
fn child(state: &Value) -> [u64; 10] {
    let number = |v: &Value| v.as_u64().unwrap();
    let completed = state["completed"].as_array().unwrap();
    let inside = state["segments"].as_array().unwrap().last();
    let leading = inside.or_else(|| completed.last()?["segments"].as_array()?.last());
    let (start, end) = leading.map_or((0, 0), |s| (number(&s["start"]), number(&s["end"])));
    let reverse = u64::from(state["reverse"].as_bool().unwrap());
    let [slot, source, cut] = ["slot", "source", "cut"].map(|f| number(&state[f]));
    [slot, source, cut, reverse, 1, 0, 0, 0, start, end]
}

fn frame(frame: &Value) -> [u64; 10] {
    let mut words = child(&frame["state"]);
    words[4] = u64::from(frame["terminal_pending"].as_bool().unwrap());
    words[5] = (frame["next_port"].as_i64().unwrap() + 1) as u64;
    if let Some(hub) = frame["pending"].as_array() {
        words[6] = hub[1].as_u64().unwrap();
        words[7] = hub[2].as_u64().unwrap();
    }
    words
}
