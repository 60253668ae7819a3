//! Documents 01 and 02 in plain safe Rust, in memory: the stand-in for the library while its
//! calls are missing. Ports are parsed once, the walk makes one turn of its loop for each
//! unit and allocates nothing on the way.
use std::ops::Range;

pub const HEADER: usize = 80;
pub const FRAME_WORDS: usize = 10;

/// A refusal's number and place.
#[derive(Clone, Copy, Debug, PartialEq, Eq)]
pub struct Refusal {
    pub number: u64,
    pub place: u64,
}

fn refuse<T>(number: u64, place: u64) -> Result<T, Refusal> {
    Err(Refusal { number, place })
}

pub fn need(number: u64, holds: bool) -> Result<(), Refusal> {
    if holds {
        Ok(())
    } else {
        refuse(number, 0)
    }
}

/// Letters beyond k are 0. The order is that of the global list.
#[derive(Clone, Copy, Debug, PartialEq, Eq, PartialOrd, Ord)]
pub struct Port {
    pub word: [u8; 32],
    pub source: usize,
    pub anchor: u64,
    pub reverse: bool,
}

#[derive(Clone, Debug)]
pub struct Lane {
    pub length: u64,
    pub identity: u64,
    ports: Range<usize>,
}

/// An accepted panel.
#[derive(Clone, Debug)]
pub struct Panel {
    pub k: u64,
    pub lanes: Vec<Lane>,
    pub families: Vec<Range<usize>>,
    paths: Vec<usize>,
    own: Vec<Port>,
    pub global: Vec<Port>,
}

fn word(image: &[u8], at: usize) -> u64 {
    let mut bytes = [0; 8];
    bytes.copy_from_slice(&image[at..at + 8]);
    u64::from_le_bytes(bytes)
}

/// Lane entries, each with its stretch of the lane ports; refusal 4.
fn read_lanes(bytes: &[u8], ports: u64) -> Result<Vec<Lane>, Refusal> {
    let mut lanes = Vec::with_capacity(bytes.len() / 24);
    let mut total = 0;
    for entry in bytes.chunks_exact(24) {
        let (length, count) = (word(entry, 0), word(entry, 8));
        need(4, (1..=u64::from(u32::MAX)).contains(&length) && count <= ports - total)?;
        let ports = total as usize..(total + count) as usize;
        total += count;
        lanes.push(Lane { length, identity: word(entry, 16), ports });
    }
    need(4, total == ports)?;
    Ok(lanes)
}

/// Each family's stretch of the path entries, and those; refusal 5.
fn read_families(
    counts: &[u8],
    entries: &[u8],
    lanes: usize,
) -> Result<(Vec<Range<usize>>, Vec<usize>), Refusal> {
    let paths: Vec<u64> = entries.chunks_exact(8).map(|e| word(e, 0)).collect();
    need(5, paths.iter().all(|p| *p < lanes as u64))?;
    let paths: Vec<usize> = paths.into_iter().map(|p| p as usize).collect();
    let mut families = Vec::with_capacity(counts.len() / 8);
    let mut from = 0;
    for entry in counts.chunks_exact(8) {
        let count = word(entry, 0);
        need(5, (1..=64).contains(&count) && count <= (paths.len() - from) as u64)?;
        let family = from..from + count as usize;
        let twice = |i: usize| paths[from..i].contains(&paths[i]);
        need(5, !family.clone().any(twice))?;
        from = family.end;
        families.push(family);
    }
    need(5, from == paths.len())?;
    Ok((families, paths))
}

/// Reads records, holding each to refusal 6; `lane` is the list's own lane, if it has one.
fn read_ports(
    bytes: &[u8],
    k: usize,
    lanes: &[Lane],
    lane: Option<usize>,
    into: &mut Vec<Port>,
) -> Result<(), Refusal> {
    for record in bytes.chunks_exact(k + 17) {
        let source = word(record, k);
        let anchor = word(record, k + 8);
        let reverse = record[k + 16];
        let known = lane.map_or(source < lanes.len() as u64, |l| source == l as u64);
        let letters = record[..k].iter().all(|b| matches!(b, b'A' | b'C' | b'G' | b'T'));
        need(6, letters && reverse <= 1 && known)?;
        let end = anchor.checked_add(k as u64);
        need(6, end.is_some_and(|e| e <= lanes[source as usize].length))?;
        let mut letters = [0; 32];
        letters[..k].copy_from_slice(&record[..k]);
        into.push(Port { word: letters, source: source as usize, anchor, reverse: reverse == 1 });
    }
    Ok(())
}

impl Panel {
    /// Refusals 1 to 8.
    pub fn parse(image: &[u8]) -> Result<Self, Refusal> {
        need(1, image.len() >= HEADER)?;
        let header: [u64; 10] = std::array::from_fn(|i| word(image, 8 * i));
        let [k, l, f, t, n, ..] = header;
        let counts = (1..=32).contains(&k) && (1..=4096).contains(&l) && f <= 4096;
        need(2, counts && n <= 4_194_304 && t <= 64 * f)?;
        let ports = n * (k + 17);
        let mut at = HEADER as u64;
        let mut packed = [0; 5];
        for (offset, bytes) in packed.iter_mut().zip([24 * l, 8 * f, 8 * t, ports, ports]) {
            *offset = at;
            at += bytes;
        }
        need(3, header[5..] == packed && at == image.len() as u64)?;
        let [lanes_at, families_at, paths_at, own_at, global_at] = packed.map(|x| x as usize);
        let (k, n) = (k as usize, n as usize);

        let lanes = read_lanes(&image[lanes_at..families_at], n as u64)?;
        let (families, paths) =
            read_families(&image[families_at..paths_at], &image[paths_at..own_at], lanes.len())?;
        let mut own = Vec::with_capacity(n);
        let mut global = Vec::with_capacity(n);
        for (id, lane) in lanes.iter().enumerate() {
            let at = |i: usize| own_at + i * (k + 17);
            let bytes = &image[at(lane.ports.start)..at(lane.ports.end)];
            read_ports(bytes, k, &lanes, Some(id), &mut own)?;
        }
        read_ports(&image[global_at..], k, &lanes, None, &mut global)?;
        let in_lane = |p: &Port| (p.anchor, p.reverse);
        let rising =
            |lane: &Lane| own[lane.ports.clone()].windows(2).all(|w| in_lane(&w[0]) < in_lane(&w[1]));
        need(7, lanes.iter().all(rising) && global.windows(2).all(|w| w[0] < w[1]))?;
        let panel = Self { k: k as u64, lanes, families, paths, own, global };
        let stands = |p: &Port| {
            let found = panel.find(p.source, p.anchor, p.reverse);
            found == Some(p) || (cfg!(feature = "fault-stray") && found.is_some())
        };
        need(8, panel.global.iter().all(stands))?;
        Ok(panel)
    }

    /// From a port's anchor to its cut.
    fn shift(&self, reverse: bool) -> u64 {
        if reverse && !cfg!(feature = "fault-cut") {
            self.k - self.k / 2
        } else {
            self.k / 2
        }
    }

    pub fn cut(&self, port: &Port) -> u64 {
        port.anchor + self.shift(port.reverse)
    }

    pub fn lane_ports(&self, lane: usize) -> &[Port] {
        &self.own[self.lanes[lane].ports.clone()]
    }

    fn find(&self, lane: usize, anchor: u64, reverse: bool) -> Option<&Port> {
        let ports = self.lane_ports(lane);
        let at = ports.partition_point(|p| (p.anchor, p.reverse) < (anchor, reverse));
        ports.get(at).filter(|p| (p.anchor, p.reverse) == (anchor, reverse))
    }

    pub fn port_at_cut(&self, lane: u64, cut: u64, reverse: bool) -> Result<Option<&Port>, Refusal> {
        need(9, lane < self.lanes.len() as u64)?;
        let anchor = cut.checked_sub(self.shift(reverse));
        Ok(anchor.and_then(|a| self.find(lane as usize, a, reverse)))
    }

    fn bucket(&self, word: &[u8; 32]) -> Range<usize> {
        let lo = if cfg!(feature = "fault-bucket") {
            self.global.partition_point(|p| p.word <= *word)
        } else {
            self.global.partition_point(|p| p.word < *word)
        };
        lo..lo + self.global[lo..].partition_point(|p| p.word == *word)
    }

    pub fn hub_bucket(&self, word: &[u8]) -> Result<(u64, u64), Refusal> {
        need(10, word.len() as u64 == self.k)?;
        let mut letters = [0; 32];
        letters[..word.len()].copy_from_slice(word);
        let bucket = self.bucket(&letters);
        Ok((bucket.start as u64, bucket.end as u64))
    }

    /// The most paths of a family.
    fn most_paths(&self) -> usize {
        self.families.iter().map(Range::len).max().unwrap_or(0)
    }

    pub fn targets(&self, family: usize) -> &[usize] {
        &self.paths[self.families[family].clone()]
    }
}

/// A piece of a lane, walked forward or in reverse.
#[derive(Clone, Copy, Debug, PartialEq, Eq)]
pub struct Segment {
    pub source: usize,
    pub start: u64,
    pub end: u64,
    pub reverse: bool,
}

impl Segment {
    fn entry(&self) -> u64 {
        if self.reverse {
            self.end
        } else {
            self.start
        }
    }
    fn exit(&self) -> u64 {
        if self.reverse {
            self.start
        } else {
            self.end
        }
    }
    pub fn shares_a_base(&self, other: &Segment) -> bool {
        self.source == other.source && self.start < other.end && other.start < self.end
    }
    pub fn words(&self) -> [u64; 4] {
        [self.source as u64, self.start, self.end, u64::from(self.reverse)]
    }
}

const MOST_WORDS: usize = 65_536;

/// Where each route's segments begin in the words, or 22.
pub fn route_starts(words: &[u64]) -> Result<Vec<usize>, Refusal> {
    need(22, (2..=MOST_WORDS).contains(&words.len()))?;
    // Each route takes a word, so a count past the words left has one missing.
    need(22, words[1] <= (words.len() - 2) as u64)?;
    let mut starts = Vec::with_capacity(words[1] as usize);
    let mut at = 2;
    for _ in 0..words[1] {
        need(22, at < words.len())?;
        let left = (words.len() - at - 1) as u64;
        let segments = words[at];
        need(22, segments <= left / 4)?;
        let end = at + 1 + 4 * segments as usize;
        need(22, words[at + 1..end].chunks_exact(4).all(|s| s[3] <= 1))?;
        starts.push(at + 1);
        at = end;
    }
    need(22, at == words.len())?;
    Ok(starts)
}

impl Panel {
    /// One route of a candidate in normal form, or the refusal's number.
    fn route(&self, words: &[u64], target: usize) -> Result<Vec<Segment>, u64> {
        let mut normal: Vec<Segment> = Vec::with_capacity(words.len() / 4);
        if words.is_empty() {
            return Err(25);
        }
        for s in words.chunks_exact(4) {
            let lane = usize::try_from(s[0]).ok().and_then(|l| self.lanes.get(l));
            if !lane.is_some_and(|lane| s[1] < s[2] && s[2] <= lane.length) {
                return Err(26);
            }
            let piece = Segment { source: s[0] as usize, start: s[1], end: s[2], reverse: s[3] == 1 };
            match normal.last_mut() {
                Some(last)
                    if last.source == piece.source
                        && last.reverse == piece.reverse
                        && last.exit() == piece.entry() =>
                {
                    last.start = last.start.min(piece.start);
                    last.end = last.end.max(piece.end);
                }
                _ => normal.push(piece),
            }
        }
        let (first, last) = (normal[0], normal[normal.len() - 1]);
        let home = |s: &Segment| s.source == target && !s.reverse;
        if !(home(&first) && first.start == 0 && home(&last) && last.end == self.lanes[target].length) {
            return Err(27);
        }
        for pair in normal.windows(2) {
            let at = |s: &Segment, cut: u64| self.port_at_cut(s.source as u64, cut, s.reverse).ok().flatten();
            let left = at(&pair[0], pair[0].exit()).ok_or(28u64)?;
            let right = at(&pair[1], pair[1].entry()).ok_or(29u64)?;
            if left.word != right.word {
                return Err(30);
            }
        }
        Ok(normal)
    }

    /// Refusals 21 to 31; `out` then begins with the normal form, whose length is given.
    pub fn check_assignment(&self, words: &[u64], out: &mut [u64]) -> Result<usize, Refusal> {
        need(21, out.len() >= words.len())?;
        let starts = route_starts(words)?;
        let family = usize::try_from(words[0]).ok().filter(|f| *f < self.families.len());
        let Some(family) = family else { return refuse(23, 0) };
        let targets = self.targets(family);
        need(24, starts.len() == targets.len())?;
        let mut normal = Vec::with_capacity(starts.len());
        for (i, (&at, &target)) in starts.iter().zip(targets).enumerate() {
            let end = at + 4 * words[at - 1] as usize;
            match self.route(&words[at..end], target) {
                Ok(route) => normal.push(route),
                Err(number) => return refuse(number, i as u64),
            }
        }
        let mut spans: Vec<Segment> = normal.iter().flatten().copied().collect();
        if !cfg!(feature = "fault-unsorted") {
            spans.sort_unstable_by_key(|s| (s.source, s.start));
        }
        need(31, spans.windows(2).all(|w| !w[0].shares_a_base(&w[1])))?;
        let mut room = out.iter_mut();
        let mut given = 0;
        let mut put = |word: u64| {
            *room.next().unwrap() = word;
            given += 1;
        };
        put(words[0]);
        put(words[1]);
        for route in &normal {
            put(route.len() as u64);
            route.iter().flat_map(Segment::words).for_each(&mut put);
        }
        Ok(given)
    }
}

#[derive(Clone, Copy, Debug, PartialEq)]
pub struct Budget {
    pub max_work: u64,
    pub max_evaluations: u64,
    pub max_frontier: u64,
    pub max_optima: u64,
    pub tie_width: f64,
}

impl Budget {
    /// Refusals 11 and 12.
    fn check(&self) -> Result<(), Refusal> {
        let whole = [self.max_work, self.max_evaluations, self.max_frontier, self.max_optima];
        need(11, !whole.contains(&0) && self.tie_width.is_finite() && self.tie_width >= 0.0)?;
        need(12, self.max_frontier <= 1024 && self.max_optima <= 1024)
    }
}

#[derive(Clone, Copy, Debug, PartialEq, Eq)]
pub enum Status {
    Certified = 1,
    SupportIncomplete = 2,
    Work = 3,
    Evaluation = 4,
    Frontier = 5,
}

#[derive(Clone, Copy, Debug, Default, PartialEq, Eq)]
pub struct Tally {
    pub work: u64,
    pub evaluations: u64,
    pub natives: u64,
    pub donors: u64,
    pub non_native: u64,
    pub mixed: u64,
    pub mixed_identity: u64,
    pub switches: u64,
    pub families: u64,
}

/// A place on the stack. The pieces leading here from the root are kept beside the stack.
#[derive(Clone, Copy, Debug)]
struct Frame {
    slot: usize,
    source: usize,
    cut: u64,
    reverse: bool,
    terminal_pending: bool,
    /// One more than the index of the next port.
    next_port: usize,
    hub_next: usize,
    hub_end: usize,
    /// The piece up to the open hub's port, and whether the path has room for it.
    outgoing: Segment,
    fits: bool,
}

/// What is done with an evaluation: scored and kept, or listed.
trait Evaluations {
    fn take(
        &mut self,
        n: u64,
        family: usize,
        routes: usize,
        pieces: &[(usize, Segment)],
    ) -> Result<(), Refusal>;
}

struct Walk<'a, E> {
    panel: &'a Panel,
    budget: Budget,
    tally: Tally,
    /// Room for the whole stack is made before the walk begins.
    frames: Vec<Frame>,
    /// The piece leading to each frame but the first, with the slot it belongs to.
    path: Vec<(usize, Segment)>,
    pending: Option<Frame>,
    sink: E,
}

/// What a unit asks of the loop around it.
enum Unit {
    Stay,
    Leave,
    Descend(Frame, Segment),
    Evaluate(Segment),
}

impl<'a, E: Evaluations> Walk<'a, E> {
    fn new(panel: &'a Panel, budget: Budget, sink: E) -> Self {
        let depth = budget.max_frontier as usize;
        Self {
            panel,
            budget,
            tally: Tally::default(),
            frames: Vec::with_capacity(depth),
            path: Vec::with_capacity(depth.max(panel.most_paths()) + 1),
            pending: None,
            sink,
        }
    }

    fn frame(&self, slot: usize, source: usize, cut: u64, reverse: bool) -> Frame {
        let shift = self.panel.shift(reverse);
        let ports = self.panel.lane_ports(source);
        let next_port = if reverse {
            ports.partition_point(|p| p.anchor + shift < cut)
        } else {
            ports.partition_point(|p| p.anchor + shift <= cut) + 1
        };
        let nowhere = Segment { source, start: 0, end: 0, reverse };
        Frame {
            slot,
            source,
            cut,
            reverse,
            terminal_pending: true,
            next_port,
            hub_next: 0,
            hub_end: 0,
            outgoing: nowhere,
            fits: false,
        }
    }

    fn fits(&self, piece: &Segment) -> bool {
        self.path.iter().all(|(_, other)| !other.shares_a_base(piece))
    }

    /// Counts the assignment whose pieces lie on the path, and hands it on.
    fn evaluate(&mut self, family: usize) -> Result<(), Refusal> {
        let targets = self.panel.targets(family);
        self.tally.evaluations += 1;
        self.sink.take(self.tally.evaluations, family, targets.len(), &self.path)?;
        let switches = (self.path.len() - targets.len()) as u64;
        let (mut lanes, mut identities) = (false, false);
        for (slot, piece) in &self.path {
            // Every route begins on its target lane.
            let target = targets[*slot];
            lanes |= piece.source != target;
            identities |= self.panel.lanes[piece.source].identity != self.panel.lanes[target].identity;
        }
        self.tally.non_native += u64::from(switches > 0);
        self.tally.mixed += u64::from(lanes);
        self.tally.mixed_identity += u64::from(identities);
        self.tally.switches = self.tally.switches.max(switches);
        Ok(())
    }

    /// Evaluates the native assignments; says which budget stopped it short.
    fn seed(&mut self) -> Result<Option<Status>, Refusal> {
        for family in 0..self.panel.families.len() {
            if self.tally.natives >= self.budget.max_evaluations {
                return Ok(Some(Status::Evaluation));
            }
            if self.tally.work >= self.budget.max_work {
                return Ok(Some(Status::Work));
            }
            self.tally.work += 1;
            self.path.clear();
            for (slot, &source) in self.panel.targets(family).iter().enumerate() {
                let end = self.panel.lanes[source].length;
                self.path.push((slot, Segment { source, start: 0, end, reverse: false }));
            }
            self.evaluate(family)?;
            self.tally.natives += 1;
        }
        self.path.clear();
        Ok(None)
    }

    /// One unit on the top frame.
    fn advance(&mut self, targets: &[usize]) -> Unit {
        let top = self.frames.len() - 1;
        let frame = &self.frames[top];
        if frame.terminal_pending {
            self.terminal(top, targets)
        } else if frame.hub_next < frame.hub_end {
            self.member(top)
        } else if frame.hub_end > 0 {
            self.frames[top].hub_next = 0;
            self.frames[top].hub_end = 0;
            Unit::Stay
        } else {
            self.next_port(top)
        }
    }

    /// The closing piece to the target lane's end, where the path has room for it.
    fn terminal(&mut self, top: usize, targets: &[usize]) -> Unit {
        let frame = &mut self.frames[top];
        frame.terminal_pending = false;
        let target = targets[frame.slot];
        let length = self.panel.lanes[target].length;
        if frame.source != target || frame.reverse || frame.cut >= length {
            return Unit::Stay;
        }
        let slot = frame.slot + 1;
        let piece = Segment { source: target, start: frame.cut, end: length, reverse: false };
        if !self.fits(&piece) {
            return Unit::Stay;
        }
        match targets.get(slot) {
            None => Unit::Evaluate(piece),
            Some(&source) => Unit::Descend(self.frame(slot, source, 0, false), piece),
        }
    }

    /// The open hub's next member.
    fn member(&mut self, top: usize) -> Unit {
        self.tally.donors += 1;
        let frame = &mut self.frames[top];
        let donor = &self.panel.global[frame.hub_next];
        frame.hub_next += 1;
        let cut = self.panel.cut(donor);
        let outgoing = frame.outgoing;
        let itself = donor.source == frame.source && donor.reverse == frame.reverse && cut == outgoing.exit();
        if itself || !frame.fits {
            return Unit::Stay;
        }
        let slot = frame.slot;
        Unit::Descend(self.frame(slot, donor.source, cut, donor.reverse), outgoing)
    }

    /// The next port of the lane, whose hub opens if it goes the frame's way.
    fn next_port(&mut self, top: usize) -> Unit {
        let frame = &mut self.frames[top];
        let ports = self.panel.lane_ports(frame.source);
        let Some(port) = frame.next_port.checked_sub(1).and_then(|i| ports.get(i)) else {
            return Unit::Leave;
        };
        frame.next_port = if frame.reverse { frame.next_port - 1 } else { frame.next_port + 1 };
        if port.reverse == frame.reverse {
            let cut = self.panel.cut(port);
            let (start, end) = (frame.cut.min(cut), frame.cut.max(cut));
            let outgoing = Segment { source: frame.source, start, end, reverse: frame.reverse };
            let bucket = self.panel.bucket(&port.word);
            // The piece is the same for every member of the hub.
            let fits = self.fits(&outgoing);
            let frame = &mut self.frames[top];
            (frame.hub_next, frame.hub_end) = (bucket.start, bucket.end);
            (frame.outgoing, frame.fits) = (outgoing, fits);
        }
        Unit::Stay
    }

    /// The whole walk; which budget stopped it, if one did.
    fn run(&mut self) -> Result<Option<Status>, Refusal> {
        if let Some(stop) = self.seed()? {
            return Ok(Some(stop));
        }
        for family in 0..self.panel.families.len() {
            let targets = self.panel.targets(family);
            let root = self.frame(0, targets[0], 0, false);
            self.frames.push(root);
            while !self.frames.is_empty() {
                if cfg!(feature = "fault-order") && self.tally.evaluations >= self.budget.max_evaluations {
                    return Ok(Some(Status::Evaluation));
                }
                if self.tally.work >= self.budget.max_work {
                    return Ok(Some(Status::Work));
                }
                if self.tally.evaluations >= self.budget.max_evaluations {
                    return Ok(Some(Status::Evaluation));
                }
                self.tally.work += 1;
                match self.advance(targets) {
                    Unit::Stay => {}
                    Unit::Leave => {
                        self.frames.pop();
                        self.path.pop();
                    }
                    Unit::Descend(child, piece) => {
                        let slot = self.frames[self.frames.len() - 1].slot;
                        self.path.push((slot, piece));
                        if self.frames.len() as u64 >= self.budget.max_frontier {
                            if cfg!(feature = "fault-frontier") {
                                self.path.pop();
                                continue;
                            }
                            self.pending = Some(child);
                            return Ok(Some(Status::Frontier));
                        }
                        self.frames.push(child);
                    }
                    Unit::Evaluate(piece) => {
                        self.path.push((targets.len() - 1, piece));
                        self.evaluate(family)?;
                        self.path.pop();
                    }
                }
            }
            self.tally.families += 1;
        }
        Ok(None)
    }

    /// The frames left, and a pending child after them, in records of ten words.
    fn leave_frames(&self, room: &mut [u64]) {
        room.fill(0);
        let mut records = room.chunks_exact_mut(FRAME_WORDS);
        for (i, f) in self.frames.iter().chain(&self.pending).enumerate() {
            let (start, end) =
                if i == 0 { (0, 0) } else { (self.path[i - 1].1.start, self.path[i - 1].1.end) };
            let pending = i == self.frames.len();
            records.next().unwrap().copy_from_slice(&[
                f.slot as u64,
                f.source as u64,
                f.cut,
                u64::from(f.reverse),
                u64::from(f.terminal_pending),
                if pending { 0 } else { f.next_port as u64 },
                f.hub_next as u64,
                f.hub_end as u64,
                start,
                end,
            ]);
        }
    }
}

fn assignment_words(routes: usize, pieces: &[(usize, Segment)]) -> usize {
    2 + routes + 4 * pieces.len()
}

/// Writes an assignment whose pieces come slot by slot.
fn write_assignment(family: usize, routes: usize, pieces: &[(usize, Segment)], out: &mut [u64]) {
    out[0] = family as u64;
    out[1] = routes as u64;
    let mut at = 2;
    let mut rest = pieces;
    for slot in 0..routes {
        let here = rest.iter().take_while(|(s, _)| *s == slot).count();
        out[at] = here as u64;
        at += 1;
        for (_, piece) in &rest[..here] {
            out[at..at + 4].copy_from_slice(&piece.words());
            at += 4;
        }
        rest = &rest[here..];
    }
}

/// The incumbent, the tied optima in order and a spare slot, in the lent rooms.
struct Kept<'a> {
    scores: &'a [f64],
    tie_width: f64,
    /// The width of a slot.
    v: usize,
    words: &'a mut [u64],
    /// How many words of each slot are in use; what stands behind them is cleared at the end.
    used: Vec<usize>,
    kept_scores: &'a mut [f64],
    tied: usize,
    max_optima: usize,
    discarded: bool,
    incumbent: bool,
}

impl Kept<'_> {
    fn slot(&self, i: usize) -> &[u64] {
        &self.words[i * self.v..][..self.used[i]]
    }

    fn copy(&mut self, from: usize, to: usize) {
        let start = from * self.v;
        self.words.copy_within(start..start + self.used[from], to * self.v);
        self.used[to] = self.used[from];
    }

    /// Leaves zero wherever nothing is kept.
    fn clear_rest(&mut self, slots: usize) {
        for (i, slot) in self.words.chunks_exact_mut(self.v).enumerate() {
            let used = if i < slots { self.used[i] } else { 0 };
            slot[used..].fill(0);
        }
        self.kept_scores[slots..].fill(0.0);
    }

    fn is_tied(&self, score: f64, best: f64) -> bool {
        let over = score - best;
        over < self.tie_width || (!cfg!(feature = "fault-tie") && over == self.tie_width)
    }

    /// Drops the tied that the new score leaves behind, keeping the order of the others.
    fn drop_worse(&mut self, score: f64) {
        let mut stay = 0;
        for i in 0..self.tied {
            if cfg!(feature = "fault-drop") || self.is_tied(self.kept_scores[1 + i], score) {
                if stay != i {
                    self.copy(1 + i, 1 + stay);
                    self.kept_scores[1 + stay] = self.kept_scores[1 + i];
                }
                stay += 1;
            }
        }
        self.tied = stay;
    }
}

impl Evaluations for Kept<'_> {
    fn take(
        &mut self,
        n: u64,
        family: usize,
        routes: usize,
        pieces: &[(usize, Segment)],
    ) -> Result<(), Refusal> {
        let score = match usize::try_from(n - 1).ok().and_then(|i| self.scores.get(i)) {
            None => return refuse(14, n),
            Some(x) if !x.is_finite() => return refuse(15, n),
            Some(x) => *x,
        };
        let spare = self.max_optima + 1;
        self.used[spare] = assignment_words(routes, pieces);
        write_assignment(family, routes, pieces, &mut self.words[spare * self.v..]);
        if !self.incumbent || score < self.kept_scores[0] {
            self.incumbent = true;
            self.kept_scores[0] = score;
            self.copy(spare, 0);
            self.drop_worse(score);
        }
        if self.is_tied(score, self.kept_scores[0]) {
            let known = (1..=self.tied).any(|i| self.slot(i) == self.slot(spare));
            if !known && self.tied < self.max_optima {
                self.tied += 1;
                self.kept_scores[self.tied] = score;
                self.copy(spare, self.tied);
            } else if !known {
                self.discarded = true;
            }
        }
        Ok(())
    }
}

/// Writes the assignments numbered from `from` + 1 on, until one doesn't fit.
struct Listed<'a> {
    from: u64,
    out: &'a mut [u64],
    written: u64,
    words: usize,
    full: bool,
}

impl Evaluations for Listed<'_> {
    fn take(
        &mut self,
        n: u64,
        family: usize,
        routes: usize,
        pieces: &[(usize, Segment)],
    ) -> Result<(), Refusal> {
        if n <= self.from || self.full {
            return Ok(());
        }
        let used = assignment_words(routes, pieces);
        if used > self.out.len() - self.words {
            self.full = true;
            return Ok(());
        }
        write_assignment(family, routes, pieces, &mut self.out[self.words..]);
        self.words += used;
        self.written += 1;
        Ok(())
    }
}

#[derive(Clone, Copy, Debug)]
pub struct Found {
    pub status: Status,
    pub tally: Tally,
    pub optima: u64,
    pub discarded: bool,
    pub frames: u64,
    pub pending: bool,
}

#[derive(Clone, Copy, Debug)]
pub struct Listing {
    pub status: Status,
    pub written: u64,
    pub words: u64,
    pub tally: Tally,
}

impl Panel {
    fn slot_words(&self, budget: &Budget) -> usize {
        let paths = self.most_paths();
        2 + paths + 4 * paths.max(budget.max_frontier as usize)
    }

    fn frame_words(budget: &Budget) -> usize {
        FRAME_WORDS * (budget.max_frontier as usize + 1)
    }

    /// The walk with its scores: refusals 11 to 15.
    pub fn search(
        &self,
        budget: Budget,
        scores: &[f64],
        frames: &mut [u64],
        kept: &mut [u64],
        kept_scores: &mut [f64],
    ) -> Result<Found, Refusal> {
        budget.check()?;
        let v = self.slot_words(&budget);
        let optima = budget.max_optima as usize;
        let (frame_words, kept_words) = (Self::frame_words(&budget), v * (optima + 2));
        let rooms = frames.len() >= frame_words && kept.len() >= kept_words;
        need(13, rooms && kept_scores.len() > optima)?;
        let sink = Kept {
            scores,
            tie_width: budget.tie_width,
            v,
            words: &mut kept[..kept_words],
            used: vec![0; optima + 2],
            kept_scores: &mut kept_scores[..optima + 1],
            tied: 0,
            max_optima: optima,
            discarded: false,
            incumbent: false,
        };
        let mut walk = Walk::new(self, budget, sink);
        let stop = walk.run();
        let slots = walk.sink.tied + usize::from(walk.sink.incumbent);
        walk.sink.clear_rest(if stop.is_ok() { slots } else { 0 });
        let stop = match stop {
            Ok(stop) => stop,
            Err(refusal) => {
                frames[..frame_words].fill(0);
                return Err(refusal);
            }
        };
        walk.leave_frames(&mut frames[..frame_words]);
        let complete = if walk.sink.discarded { Status::SupportIncomplete } else { Status::Certified };
        Ok(Found {
            status: stop.unwrap_or(complete),
            tally: walk.tally,
            optima: walk.sink.tied as u64,
            discarded: walk.sink.discarded,
            frames: walk.frames.len() as u64,
            pending: walk.pending.is_some(),
        })
    }

    /// The walk without scores: refusals 11 to 13.
    pub fn list(
        &self,
        budget: Budget,
        from: u64,
        frames: &mut [u64],
        slot: &mut [u64],
        out: &mut [u64],
    ) -> Result<Listing, Refusal> {
        budget.check()?;
        let (v, frame_words) = (self.slot_words(&budget), Self::frame_words(&budget));
        need(13, frames.len() >= frame_words && slot.len() >= v)?;
        let sink = Listed { from, out, written: 0, words: 0, full: false };
        let mut walk = Walk::new(self, budget, sink);
        let stop = walk.run()?;
        walk.leave_frames(&mut frames[..frame_words]);
        slot[..v].fill(0);
        Ok(Listing {
            status: stop.unwrap_or(Status::Certified),
            written: walk.sink.written,
            words: walk.sink.words as u64,
            tally: walk.tally,
        })
    }
}

/// The next double up from one that is not below 0: its bits stand in the order of its values.
fn outward(x: f64) -> f64 {
    if x.is_finite() {
        f64::from_bits(x.to_bits() + 1)
    } else {
        x
    }
}

/// The lower bound: what the counts take off, kept as a sum that is not below 0. Refusal 43.
pub fn lower_bound(counts: &[u64], background: f64) -> Result<Option<f64>, Refusal> {
    need(43, background.is_finite() && background > 0.0 && counts.iter().all(|c| c >> 53 == 0))?;
    let mut off = 0.0f64;
    for &count in counts {
        let upper = outward(count as f64);
        if upper > background {
            let delta = outward(upper - background);
            let square = delta * delta;
            let square = if cfg!(feature = "fault-step") { square } else { outward(square) };
            off = outward(off + outward(square / background));
            if off.is_infinite() {
                return Ok(None);
            }
        }
    }
    Ok(Some(0.0 - off))
}
