//! Document 02's item 10 in plain safe Rust: the search without a stored stack. A place calls its
//! hubs, a hub the next places, with the depth left going down. Of the walk it has only the panel and
//! its segments.
use crate::plain::{Panel, Port, Refusal, Segment};

/// The deepest stack that is listed, its first place counted.
const DEPTH: u64 = if cfg!(feature = "fault-depth") { 65 } else { 64 };

#[derive(Clone, Copy)]
struct Place {
    slot: usize,
    source: usize,
    cut: u64,
    reverse: bool,
}

struct Engine<'a> {
    panel: &'a Panel,
    family: usize,
    /// The pieces leading here, each with its slot.
    path: Vec<(usize, Segment)>,
    found: Vec<Vec<u64>>,
}

impl Engine<'_> {
    fn is_free(&self, piece: &Segment) -> bool {
        self.path.iter().all(|(_, other)| !other.shares_a_base(piece))
    }

    /// The closing piece, then the ports ahead, each with its hub. Refusal 42 where no depth is left.
    fn place(&mut self, at: Place, left: u64) -> Result<(), Refusal> {
        if left == 0 {
            let passed_over = cfg!(feature = "fault-child");
            return if passed_over { Ok(()) } else { Err(Refusal { number: 42, place: 0 }) };
        }
        self.close(at, left)?;
        let panel = self.panel;
        let same_way = panel.lane_ports(at.source).iter().filter(|p| p.reverse == at.reverse);
        let mut ahead: Vec<&Port> = if at.reverse {
            same_way.filter(|p| panel.cut(p) < at.cut).collect()
        } else {
            same_way.filter(|p| panel.cut(p) > at.cut).collect()
        };
        if at.reverse {
            ahead.reverse();
        }
        ahead.into_iter().try_for_each(|port| self.hub(at, port, left))
    }

    /// To the end of the target lane: the assignment is complete, or the next slot begins.
    fn close(&mut self, at: Place, left: u64) -> Result<(), Refusal> {
        let targets = self.panel.targets(self.family);
        let end = self.panel.lanes[at.source].length;
        let piece = Segment { source: at.source, start: at.cut, end, reverse: false };
        if at.source != targets[at.slot] || at.reverse || at.cut >= end || !self.is_free(&piece) {
            return Ok(());
        }
        self.path.push((at.slot, piece));
        match targets.get(at.slot + 1) {
            None => self.found.push(self.words(targets.len())),
            Some(&source) => {
                self.place(Place { slot: at.slot + 1, source, cut: 0, reverse: false }, left - 1)?
            }
        }
        self.path.pop();
        Ok(())
    }

    /// Through the hub of a port ahead, to each of its members but the port itself.
    fn hub(&mut self, at: Place, port: &Port, left: u64) -> Result<(), Refusal> {
        let panel = self.panel;
        let to = panel.cut(port);
        let (start, end) = (at.cut.min(to), at.cut.max(to));
        let piece = Segment { source: at.source, start, end, reverse: at.reverse };
        if !self.is_free(&piece) {
            return Ok(());
        }
        self.path.push((at.slot, piece));
        for member in panel.global.iter().filter(|m| m.word == port.word && *m != port) {
            let (source, cut, reverse) = (member.source, panel.cut(member), member.reverse);
            self.place(Place { slot: at.slot, source, cut, reverse }, left - 1)?;
        }
        self.path.pop();
        Ok(())
    }

    fn words(&self, routes: usize) -> Vec<u64> {
        let mut words = vec![self.family as u64, routes as u64];
        for slot in 0..routes {
            let own: Vec<u64> =
                self.path.iter().filter(|(s, _)| *s == slot).flat_map(|(_, p)| p.words()).collect();
            words.push(own.len() as u64 / 4);
            words.extend(own);
        }
        words
    }
}

/// How many assignments were written, and their words.
pub fn list(panel: &Panel, from: u64, out: &mut [u64]) -> Result<(u64, u64), Refusal> {
    let mut engine = Engine { panel, family: 0, path: Vec::new(), found: Vec::new() };
    for family in 0..panel.families.len() {
        engine.family = family;
        let source = panel.targets(family)[0];
        engine.place(Place { slot: 0, source, cut: 0, reverse: false }, DEPTH)?;
    }
    let (mut written, mut words) = (0, 0);
    for assignment in engine.found.iter().skip(usize::try_from(from).unwrap_or(usize::MAX)) {
        let Some(room) = out.get_mut(words..words + assignment.len()) else { break };
        room.copy_from_slice(assignment);
        written += 1;
        words += assignment.len();
    }
    Ok((written, words as u64))
}
