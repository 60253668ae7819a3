//! The rule of document 01 as an in-memory Rust walk written for speed: every port's hub and
//! every hub member's landing are tables, the stack's top is held apart, the loop turns once
//! for each unit and allocates nothing, and the piece up to an open hub is tested once.
mod beds;
mod letters;

pub use beds::{read_bed, write_bed};
pub use letters::spell;
use std::ops::Range;

/// A refusal's number and place.
pub type Refused = (u64, u64);

fn need(holds: bool, number: u64) -> Result<(), Refused> {
    if holds {
        Ok(())
    } else {
        Err((number, 0))
    }
}

fn word(bytes: &[u8], at: usize) -> u64 {
    u64::from_le_bytes(bytes[at..at + 8].try_into().unwrap())
}

struct Lane {
    length: u64,
    identity: u64,
    ports: Range<usize>,
}

/// An accepted image, with what its check has found out.
pub struct Checked<'a> {
    k: usize,
    lanes: Vec<Lane>,
    families: Vec<Range<usize>>,
    paths: Vec<usize>,
    /// The records of the lanes' lists, and of the global one.
    own: &'a [u8],
    global: &'a [u8],
    /// Twice the anchor of each lane port, and 1 for reverse: in the order of its lane's list.
    keys: Vec<u64>,
    /// Which lane port each global record is.
    places: Vec<u32>,
}

/// Refusal 4.
fn lanes(entries: &[u8], ports: usize) -> Result<Vec<Lane>, Refused> {
    let mut lanes = Vec::with_capacity(entries.len() / 24);
    let mut at = 0;
    for e in entries.chunks_exact(24) {
        let (length, count) = (word(e, 0), word(e, 8));
        need((1..=u64::from(u32::MAX)).contains(&length) && count <= (ports - at) as u64, 4)?;
        let ports = at..at + count as usize;
        at = ports.end;
        lanes.push(Lane { length, identity: word(e, 16), ports });
    }
    need(at == ports, 4)?;
    Ok(lanes)
}

/// Refusal 5.
fn families(counts: &[u8], entries: &[u8], lanes: usize) -> Result<(Vec<Range<usize>>, Vec<usize>), Refused> {
    let mut paths = Vec::with_capacity(entries.len() / 8);
    for e in entries.chunks_exact(8) {
        need(word(e, 0) < lanes as u64, 5)?;
        paths.push(word(e, 0) as usize);
    }
    let mut families = Vec::with_capacity(counts.len() / 8);
    // The family that last named a lane.
    let mut named = vec![usize::MAX; lanes];
    let mut at = 0;
    for (f, e) in counts.chunks_exact(8).enumerate() {
        need((1..=64).contains(&word(e, 0)) && word(e, 0) <= (paths.len() - at) as u64, 5)?;
        let family = at..at + word(e, 0) as usize;
        for &lane in &paths[family.clone()] {
            need(std::mem::replace(&mut named[lane], f) != f, 5)?;
        }
        at = family.end;
        families.push(family);
    }
    need(at == paths.len(), 5)?;
    Ok((families, paths))
}

/// A record's source, and twice its anchor and 1 for reverse; refusal 6.
fn record(record: &[u8], k: usize, lanes: &[Lane]) -> Result<(usize, u64), Refused> {
    let letters = record[..k].iter().all(|b| matches!(b, b'A' | b'C' | b'G' | b'T'));
    let (source, anchor, reverse) = (word(record, k), word(record, k + 8), record[k + 16]);
    need(letters && reverse <= 1 && source < lanes.len() as u64, 6)?;
    let source = source as usize;
    need(anchor.checked_add(k as u64).is_some_and(|end| end <= lanes[source].length), 6)?;
    Ok((source, 2 * anchor + u64::from(reverse)))
}

/// Refusals 1 to 8.
pub fn check(image: &[u8]) -> Result<Checked<'_>, Refused> {
    need(image.len() >= 80, 1)?;
    let head: [u64; 10] = std::array::from_fn(|i| word(image, 8 * i));
    let [k, l, f, t, n, ..] = head;
    let bounds = (1..=32).contains(&k) && (1..=4096).contains(&l) && f <= 4096 && n <= 4_194_304;
    need(bounds && t <= 64 * f, 2)?;
    let list = n * (k + 17);
    let mut at = 80;
    let packed = [24 * l, 8 * f, 8 * t, list, list].map(|bytes| {
        at += bytes;
        at - bytes
    });
    need(head[5..] == packed && at == image.len() as u64, 3)?;
    let [lanes_at, families_at, paths_at, own_at, global_at] = packed.map(|x| x as usize);
    let (k, n) = (k as usize, n as usize);
    let lanes = lanes(&image[lanes_at..families_at], n)?;
    let (families, paths) = families(&image[families_at..paths_at], &image[paths_at..own_at], lanes.len())?;
    let (own, global) = (&image[own_at..global_at], &image[global_at..]);

    let mut rising = true;
    let mut keys = Vec::with_capacity(n);
    let mut records = own.chunks_exact(k + 17);
    for (i, lane) in lanes.iter().enumerate() {
        let mut last = None;
        for r in records.by_ref().take(lane.ports.len()) {
            let (source, key) = record(r, k, &lanes)?;
            need(source == i, 6)?;
            rising &= last < Some(key);
            last = Some(key);
            keys.push(key);
        }
    }
    let mut listed = true;
    let mut places = Vec::with_capacity(n);
    let mut last: Option<(&[u8], usize, u64)> = None;
    for r in global.chunks_exact(k + 17) {
        let (source, key) = record(r, k, &lanes)?;
        let now = Some((&r[..k], source, key));
        rising &= last < now;
        last = now;
        let ports = lanes[source].ports.clone();
        let place = ports.start + keys[ports.clone()].partition_point(|x| *x < key);
        let there = place < ports.end && keys[place] == key && own[place * (k + 17)..][..k] == r[..k];
        listed &= there;
        places.push(place as u32);
    }
    need(rising, 7)?;
    need(listed, 8)?;
    Ok(Checked { k, lanes, families, paths, own, global, keys, places })
}

/// A port of a lane: its cut in its own orientation, and its hub.
#[derive(Clone, Copy, Default)]
struct Out {
    cut: u32,
    reverse: bool,
    hub: u32,
    hub_end: u32,
}

/// A hub member: where one lands who takes it, and the port from which one goes on.
#[derive(Clone, Copy)]
struct Landing {
    source: u32,
    cut: u32,
    next: u32,
    reverse: bool,
}

/// An accepted panel with its tables.
pub struct Panel {
    lanes: Vec<Lane>,
    families: Vec<Range<usize>>,
    paths: Vec<usize>,
    outs: Vec<Out>,
    landings: Vec<Landing>,
    /// The first port past cut 0, lane by lane.
    roots: Vec<u32>,
}

impl Panel {
    pub fn new(image: &[u8]) -> Result<Self, Refused> {
        let Checked { k, lanes, families, paths, global, keys, places, .. } = check(image)?;
        let shift = |reverse: bool| if reverse { k - k / 2 } else { k / 2 } as u64;
        let cut = |key: u64| ((key >> 1) + shift(key & 1 == 1)) as u32;
        let mut outs: Vec<Out> =
            keys.iter().map(|key| Out { cut: cut(*key), reverse: key & 1 == 1, ..Out::default() }).collect();
        let letters = |i: usize| &global[i * (k + 17)..][..k];
        let mut landings = Vec::with_capacity(places.len());
        let mut lo = 0;
        for hi in 1..=places.len() {
            if hi < places.len() && letters(hi) == letters(lo) {
                continue;
            }
            for &place in &places[lo..hi] {
                (outs[place as usize].hub, outs[place as usize].hub_end) = (lo as u32, hi as u32);
            }
            lo = hi;
        }
        for (i, &place) in places.iter().enumerate() {
            let source = word(global, i * (k + 17) + k) as u32;
            let (place, ports) = (place as usize, &lanes[source as usize].ports);
            let Out { cut, reverse, .. } = outs[place];
            let same = |other: usize| ports.contains(&other) && keys[other] >> 1 == keys[place] >> 1;
            let next = match reverse {
                true => place - usize::from(same(place.wrapping_sub(1))),
                false => place + 1 + usize::from(same(place + 1)),
            };
            landings.push(Landing { source, cut, next: next as u32, reverse });
        }
        let root = |lane: &Lane| {
            let past = keys[lane.ports.clone()].partition_point(|key| (key >> 1) + shift(false) == 0);
            (lane.ports.start + past) as u32
        };
        let roots = lanes.iter().map(root).collect();
        Ok(Self { lanes, families, paths, outs, landings, roots })
    }
}

/// A budget of the walk, as the library takes it.
#[derive(Clone, Copy)]
pub struct Budget {
    pub max_work: u64,
    pub max_evaluations: u64,
    pub max_frontier: u64,
    pub max_optima: u64,
    pub tie_width: f64,
}

impl Budget {
    /// Refusals 11 and 12.
    fn check(&self) -> Result<(), Refused> {
        let whole = [self.max_work, self.max_evaluations, self.max_frontier, self.max_optima];
        need(!whole.contains(&0) && self.tie_width.is_finite() && self.tie_width >= 0.0, 11)?;
        need(self.max_frontier <= 1024 && self.max_optima <= 1024, 12)
    }
}

/// A piece of the path, with the slot that it belongs to and what the route up to it has met.
#[derive(Clone, Copy)]
struct Piece {
    source: u32,
    start: u32,
    end: u32,
    slot: u16,
    reverse: bool,
    /// Whether any piece up to this one is off its target lane, or off its identity.
    mixed: bool,
    mixed_identity: bool,
}

#[derive(Clone, Copy)]
struct Frame {
    source: u32,
    cut: u32,
    /// The next port, or one past it in reverse; none is left at `stop`.
    next: u32,
    stop: u32,
    hub_next: u32,
    hub_end: u32,
    /// The cut of the open hub's port, and whether the path has room for the piece up to it.
    out_cut: u32,
    slot: u16,
    reverse: bool,
    terminal_pending: bool,
    fits: bool,
}

/// What a walk counted.
#[derive(Clone, Copy, Default)]
pub struct Tally {
    pub work: u64,
    pub evaluations: u64,
    pub natives: u64,
    pub donors: u64,
    pub non_native: u64,
    pub mixed: u64,
    pub mixed_identity: u64,
    pub switches: u64,
    pub families: u64,
}

/// What is done with evaluation n.
trait Evaluations {
    fn take(&mut self, n: u64, family: usize, routes: usize, path: &[Piece]) -> Result<(), Refused>;
}

/// Numbers of the statuses.
pub const EXHAUSTED: u64 = 1;
const DISCARDED: u64 = 2;
const WORK: u64 = 3;
const EVALUATION: u64 = 4;
pub const FRONTIER: u64 = 5;

struct Walk<'a, E> {
    panel: &'a Panel,
    budget: Budget,
    tally: Tally,
    /// The frames below the top; at the end all of them.
    stack: Vec<Frame>,
    /// The piece leading to each frame but the first.
    path: Vec<Piece>,
    pending: Option<Frame>,
    sink: E,
}

impl<'a, E: Evaluations> Walk<'a, E> {
    fn new(panel: &'a Panel, budget: Budget, sink: E) -> Self {
        let depth = budget.max_frontier as usize;
        let most = panel.families.iter().map(Range::len).max().unwrap_or(0);
        Self {
            panel,
            budget,
            tally: Tally::default(),
            stack: Vec::with_capacity(depth + 1),
            path: Vec::with_capacity(depth.max(most) + 1),
            pending: None,
            sink,
        }
    }

    fn frame(&self, slot: u16, landing: Landing) -> Frame {
        let Landing { source, cut, next, reverse } = landing;
        let ports = &self.panel.lanes[source as usize].ports;
        let stop = if reverse { ports.start } else { ports.end } as u32;
        Frame {
            source,
            cut,
            next,
            stop,
            hub_next: 0,
            hub_end: 0,
            out_cut: 0,
            slot,
            reverse,
            terminal_pending: true,
            fits: false,
        }
    }

    fn root(&self, slot: u16, lane: usize) -> Frame {
        let next = self.panel.roots[lane];
        self.frame(slot, Landing { source: lane as u32, cut: 0, next, reverse: false })
    }

    fn fits(&self, source: u32, start: u32, end: u32) -> bool {
        !self.path.iter().any(|p| p.source == source && p.start < end && start < p.end)
    }

    /// The next piece of the path.
    fn piece(&self, target: usize, slot: u16, source: u32, span: (u32, u32), reverse: bool) -> Piece {
        let lanes = &self.panel.lanes;
        let (mixed, mixed_identity) =
            self.path.last().map_or((false, false), |p| (p.mixed, p.mixed_identity));
        Piece {
            source,
            start: span.0,
            end: span.1,
            slot,
            reverse,
            mixed: mixed | (source as usize != target),
            mixed_identity: mixed_identity | (lanes[source as usize].identity != lanes[target].identity),
        }
    }

    fn evaluate(&mut self, family: usize, routes: usize) -> Result<(), Refused> {
        self.tally.evaluations += 1;
        self.sink.take(self.tally.evaluations, family, routes, &self.path)?;
        let switches = (self.path.len() - routes) as u64;
        let last = &self.path[self.path.len() - 1];
        self.tally.non_native += u64::from(switches > 0);
        self.tally.mixed += u64::from(last.mixed);
        self.tally.mixed_identity += u64::from(last.mixed_identity);
        self.tally.switches = self.tally.switches.max(switches);
        Ok(())
    }

    fn seed(&mut self) -> Result<Option<u64>, Refused> {
        let panel = self.panel;
        for (f, family) in panel.families.iter().enumerate() {
            if self.tally.natives >= self.budget.max_evaluations {
                return Ok(Some(EVALUATION));
            }
            if self.tally.work >= self.budget.max_work {
                return Ok(Some(WORK));
            }
            self.tally.work += 1;
            self.path.clear();
            for (slot, &lane) in panel.paths[family.clone()].iter().enumerate() {
                let span = (0, panel.lanes[lane].length as u32);
                let piece = self.piece(lane, slot as u16, lane as u32, span, false);
                self.path.push(piece);
            }
            self.evaluate(f, family.len())?;
            self.tally.natives += 1;
        }
        self.path.clear();
        Ok(None)
    }

    /// The walk from seeding on; the number of its status, but for what was discarded.
    fn run(&mut self) -> Result<u64, Refused> {
        if let Some(stopped) = self.seed()? {
            return Ok(stopped);
        }
        let panel = self.panel;
        for (f, family) in panel.families.iter().enumerate() {
            if let Some(stopped) = self.family(f, &panel.paths[family.clone()])? {
                return Ok(stopped);
            }
            self.tally.families += 1;
        }
        Ok(EXHAUSTED)
    }

    fn family(&mut self, family: usize, targets: &[usize]) -> Result<Option<u64>, Refused> {
        let panel = self.panel;
        let mut top = self.root(0, targets[0]);
        loop {
            let stopped = if self.tally.work >= self.budget.max_work {
                WORK
            } else if self.tally.evaluations >= self.budget.max_evaluations {
                EVALUATION
            } else {
                0
            };
            if stopped > 0 {
                self.stack.push(top);
                return Ok(Some(stopped));
            }
            self.tally.work += 1;
            let (piece, child) = if top.hub_next < top.hub_end {
                self.tally.donors += 1;
                let landing = panel.landings[top.hub_next as usize];
                top.hub_next += 1;
                let itself = landing.source == top.source
                    && landing.reverse == top.reverse
                    && landing.cut == top.out_cut;
                if itself || !top.fits {
                    continue;
                }
                let span = (top.cut.min(top.out_cut), top.cut.max(top.out_cut));
                let target = targets[usize::from(top.slot)];
                (self.piece(target, top.slot, top.source, span, top.reverse), self.frame(top.slot, landing))
            } else if top.terminal_pending {
                top.terminal_pending = false;
                let target = targets[usize::from(top.slot)];
                let length = panel.lanes[target].length as u32;
                let home = top.source as usize == target && !top.reverse && top.cut < length;
                if !home || !self.fits(top.source, top.cut, length) {
                    continue;
                }
                let piece = self.piece(target, top.slot, top.source, (top.cut, length), false);
                let slot = usize::from(top.slot) + 1;
                if slot == targets.len() {
                    self.path.push(piece);
                    self.evaluate(family, slot)?;
                    self.path.pop();
                    continue;
                }
                (piece, self.root(slot as u16, targets[slot]))
            } else if top.hub_end > 0 {
                (top.hub_next, top.hub_end) = (0, 0);
                continue;
            } else if top.next == top.stop {
                match self.stack.pop() {
                    Some(below) => top = below,
                    None => return Ok(None),
                }
                self.path.pop();
                continue;
            } else {
                let out = if top.reverse {
                    top.next -= 1;
                    panel.outs[top.next as usize]
                } else {
                    top.next += 1;
                    panel.outs[top.next as usize - 1]
                };
                if out.reverse == top.reverse {
                    (top.hub_next, top.hub_end, top.out_cut) = (out.hub, out.hub_end, out.cut);
                    top.fits = self.fits(top.source, top.cut.min(out.cut), top.cut.max(out.cut));
                }
                continue;
            };
            self.path.push(piece);
            self.stack.push(top);
            if self.stack.len() as u64 >= self.budget.max_frontier {
                self.pending = Some(child);
                return Ok(Some(FRONTIER));
            }
            top = child;
        }
    }

    /// The frames left and a pending child after them, in records of ten words.
    fn leave_frames(&self, room: &mut [u64]) {
        room.fill(0);
        for (i, (f, record)) in
            self.stack.iter().chain(&self.pending).zip(room.chunks_exact_mut(10)).enumerate()
        {
            let lead = i.checked_sub(1).map_or((0, 0), |i| (self.path[i].start, self.path[i].end));
            let first = self.panel.lanes[f.source as usize].ports.start as u32;
            let next_port = f.next - first + u32::from(!f.reverse);
            let words = [
                u32::from(f.slot),
                f.source,
                f.cut,
                u32::from(f.reverse),
                u32::from(f.terminal_pending),
                if i == self.stack.len() { 0 } else { next_port },
                f.hub_next,
                f.hub_end,
                lead.0,
                lead.1,
            ];
            record.copy_from_slice(&words.map(u64::from));
        }
    }
}

/// How many words an assignment takes.
fn words_of(routes: usize, path: &[Piece]) -> usize {
    2 + routes + 4 * path.len()
}

fn write(family: usize, routes: usize, path: &[Piece], out: &mut [u64]) {
    (out[0], out[1]) = (family as u64, routes as u64);
    let mut at = 2;
    for route in path.chunk_by(|a, b| a.slot == b.slot) {
        out[at] = route.len() as u64;
        at += 1;
        for p in route {
            let piece = [p.source, p.start, p.end, u32::from(p.reverse)].map(u64::from);
            out[at..at + 4].copy_from_slice(&piece);
            at += 4;
        }
    }
}

/// The incumbent, the tied optima in order and a spare slot.
struct Kept<'a> {
    scores: &'a [f64],
    tie_width: f64,
    /// The words of a slot, and how many of each are in use.
    v: usize,
    used: Vec<usize>,
    words: &'a mut [u64],
    kept_scores: &'a mut [f64],
    tied: usize,
    max_optima: usize,
    discarded: bool,
    incumbent: bool,
}

impl Kept<'_> {
    fn put(&mut self, slot: usize, family: usize, routes: usize, path: &[Piece]) {
        self.used[slot] = words_of(routes, path);
        write(family, routes, path, &mut self.words[slot * self.v..]);
    }

    fn slot(&self, i: usize) -> &[u64] {
        &self.words[i * self.v..][..self.used[i]]
    }

    fn copy(&mut self, from: usize, to: usize) {
        self.used[to] = self.used[from];
        let start = from * self.v;
        self.words.copy_within(start..start + self.used[from], to * self.v);
    }

    fn drop_worse(&mut self, score: f64) {
        let mut stay = 0;
        for i in 1..=self.tied {
            if self.kept_scores[i] - score <= self.tie_width {
                stay += 1;
                self.copy(i, stay);
                self.kept_scores[stay] = self.kept_scores[i];
            }
        }
        self.tied = stay;
    }

    /// Leaves zero wherever nothing is kept.
    fn clear_behind(&mut self, slots: usize) {
        for (i, slot) in self.words.chunks_exact_mut(self.v).enumerate() {
            slot[if i < slots { self.used[i] } else { 0 }..].fill(0);
        }
        self.kept_scores[slots..].fill(0.0);
    }
}

impl Evaluations for Kept<'_> {
    fn take(&mut self, n: u64, family: usize, routes: usize, path: &[Piece]) -> Result<(), Refused> {
        let score = *self.scores.get(n as usize - 1).ok_or((14, n))?;
        if !score.is_finite() {
            return Err((15, n));
        }
        if !self.incumbent || score < self.kept_scores[0] {
            self.incumbent = true;
            self.kept_scores[0] = score;
            self.put(0, family, routes, path);
            self.drop_worse(score);
        }
        if score - self.kept_scores[0] > self.tie_width {
            return Ok(());
        }
        let spare = self.max_optima + 1;
        self.put(spare, family, routes, path);
        let known = (1..=self.tied).any(|i| self.slot(i) == self.slot(spare));
        if !known && self.tied < self.max_optima {
            self.tied += 1;
            self.copy(spare, self.tied);
            self.kept_scores[self.tied] = score;
        } else if !known {
            self.discarded = true;
        }
        Ok(())
    }
}

struct Listed<'a> {
    from: u64,
    out: &'a mut [u64],
    written: u64,
    words: usize,
    full: bool,
}

impl Evaluations for Listed<'_> {
    fn take(&mut self, n: u64, family: usize, routes: usize, path: &[Piece]) -> Result<(), Refused> {
        if n <= self.from || self.full {
            return Ok(());
        }
        let used = words_of(routes, path);
        self.full = used > self.out.len() - self.words;
        if !self.full {
            write(family, routes, path, &mut self.out[self.words..]);
            self.words += used;
            self.written += 1;
        }
        Ok(())
    }
}

/// A search's answer.
pub struct Found {
    pub status: u64,
    pub tally: Tally,
    pub optima: u64,
    pub discarded: bool,
    pub frames: u64,
    pub pending: bool,
}

/// A listing's answer.
pub struct Listing {
    pub status: u64,
    pub written: u64,
    pub words: u64,
    pub evaluations: u64,
    pub work: u64,
}

impl Panel {
    /// The words of a slot, and of the frames.
    fn needed(&self, budget: &Budget) -> (usize, usize) {
        let (paths, frontier) =
            (self.families.iter().map(Range::len).max().unwrap_or(0), budget.max_frontier as usize);
        (2 + paths + 4 * paths.max(frontier), 10 * (frontier + 1))
    }

    /// Refusals 11 to 15.
    pub fn search(
        &self,
        budget: Budget,
        scores: &[f64],
        frames: &mut [u64],
        kept: &mut [u64],
        kept_scores: &mut [f64],
    ) -> Result<Found, Refused> {
        budget.check()?;
        let (v, frame_words) = self.needed(&budget);
        let optima = budget.max_optima as usize;
        let rooms = frames.len() >= frame_words && kept.len() >= v * (optima + 2);
        need(rooms && kept_scores.len() > optima, 13)?;
        let sink = Kept {
            scores,
            tie_width: budget.tie_width,
            v,
            used: vec![0; optima + 2],
            words: &mut kept[..v * (optima + 2)],
            kept_scores: &mut kept_scores[..=optima],
            tied: 0,
            max_optima: optima,
            discarded: false,
            incumbent: false,
        };
        let mut walk = Walk::new(self, budget, sink);
        let status = walk.run();
        let slots = walk.sink.tied + usize::from(walk.sink.incumbent);
        walk.sink.clear_behind(if status.is_ok() { slots } else { 0 });
        if status.is_err() {
            frames[..frame_words].fill(0);
        }
        let status = status?;
        walk.leave_frames(&mut frames[..frame_words]);
        Ok(Found {
            status: if status == EXHAUSTED && walk.sink.discarded { DISCARDED } else { status },
            tally: walk.tally,
            optima: walk.sink.tied as u64,
            discarded: walk.sink.discarded,
            frames: walk.stack.len() as u64,
            pending: walk.pending.is_some(),
        })
    }

    /// Refusals 11 to 13.
    pub fn list(
        &self,
        budget: Budget,
        from: u64,
        frames: &mut [u64],
        slot: &mut [u64],
        out: &mut [u64],
    ) -> Result<Listing, Refused> {
        budget.check()?;
        let (v, frame_words) = self.needed(&budget);
        need(frames.len() >= frame_words && slot.len() >= v, 13)?;
        let sink = Listed { from, out, written: 0, words: 0, full: false };
        let mut walk = Walk::new(self, budget, sink);
        let status = walk.run()?;
        walk.leave_frames(&mut frames[..frame_words]);
        slot[..v].fill(0);
        let (Listed { written, words, .. }, Tally { work, evaluations, .. }) = (walk.sink, walk.tally);
        Ok(Listing { status, written, words: words as u64, evaluations, work })
    }
}

/// `lower_bound` of evaluate.rs over a slice in the place of its map, behind refusal 43.
pub fn lower_bound(counts: &[u64], background: f64) -> Result<Option<f64>, Refused> {
    need(background.is_finite() && background > 0.0 && counts.iter().all(|c| *c < 1 << 53), 43)?;
    let mut bound = 0.0f64;
    for &c in counts {
        let upper = (c as f64).next_up();
        if upper > background {
            let delta = (upper - background).next_up();
            let term = ((delta * delta).next_up() / background).next_up();
            bound = (bound - term).next_down();
            if !bound.is_finite() {
                return Ok(None);
            }
        }
    }
    Ok(Some(bound))
}
