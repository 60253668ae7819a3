//! The exported calls: their C layouts, the archive's own where its features are on,
//! and one way to make a call and take down everything that it left.
use crate::{
    calls::{byte_filler, filled, Call, Kind, Outcome},
    rules::BudgetWords,
};

#[repr(C)]
#[derive(Clone, Copy, Default)]
pub struct PanelReply {
    pub refusal: u64,
    pub place: u64,
}

#[repr(C)]
#[derive(Clone, Copy, Default)]
pub struct PortReply {
    pub refusal: u64,
    pub place: u64,
    pub found: u64,
    pub anchor: u64,
    pub word: [u8; 32],
}

#[repr(C)]
#[derive(Clone, Copy, Default)]
pub struct BucketReply {
    pub refusal: u64,
    pub place: u64,
    pub lo: u64,
    pub hi: u64,
}

#[repr(C)]
#[derive(Clone, Copy, Default)]
pub struct AssignmentReply {
    pub refusal: u64,
    pub place: u64,
    pub words: u64,
}

#[repr(C)]
#[derive(Clone, Copy)]
pub struct SearchBudget {
    pub max_work: u64,
    pub max_evaluations: u64,
    pub max_frontier: u64,
    pub max_optima: u64,
    pub tie_width: f64,
}

#[repr(C)]
#[derive(Clone, Copy, Default)]
pub struct ListReply {
    pub refusal: u64,
    pub place: u64,
    pub status: u64,
    pub written: u64,
    pub words: u64,
    pub evaluations: u64,
}

#[repr(C)]
#[derive(Clone, Copy, Default)]
pub struct SearchReply {
    pub refusal: u64,
    pub place: u64,
    pub status: u64,
    pub work: u64,
    pub evaluations: u64,
    pub natives: u64,
    pub donors: u64,
    pub non_native: u64,
    pub mixed: u64,
    pub mixed_identity: u64,
    pub switches: u64,
    pub families: u64,
    pub optima: u64,
    pub discarded: u64,
    pub frames: u64,
    pub pending: u64,
}

#[repr(C)]
#[derive(Clone, Copy, Default)]
pub struct BoundReply {
    pub refusal: u64,
    pub place: u64,
    pub given: u64,
    pub bound: f64,
}

#[repr(C)]
#[derive(Clone, Copy, Default)]
pub struct PlainReply {
    pub refusal: u64,
    pub place: u64,
    pub written: u64,
    pub words: u64,
}

#[repr(C)]
#[derive(Clone, Copy, Default)]
pub struct SpellReply {
    pub refusal: u64,
    pub place: u64,
    pub letters: u64,
}

#[repr(C)]
#[derive(Clone, Copy, Default)]
pub struct BedReply {
    pub refusal: u64,
    pub place: u64,
    pub length: u64,
}

pub type CheckPanel = unsafe extern "C" fn(*const u8, usize) -> PanelReply;
pub type PortAtCut = unsafe extern "C" fn(*const u8, usize, u64, u64, bool) -> PortReply;
pub type HubBucket = unsafe extern "C" fn(*const u8, usize, *const u8, usize) -> BucketReply;
pub type CheckAssignment =
    unsafe extern "C" fn(*const u8, usize, *const u64, usize, *mut u64, usize) -> AssignmentReply;
pub type List = unsafe extern "C" fn(
    *const u8,
    usize,
    SearchBudget,
    u64,
    *mut u64,
    usize,
    *mut u64,
    usize,
    *mut u64,
    usize,
) -> ListReply;
pub type Search = unsafe extern "C" fn(
    *const u8,
    usize,
    SearchBudget,
    *const f64,
    usize,
    *mut u64,
    usize,
    *mut u64,
    usize,
    *mut f64,
    usize,
) -> SearchReply;

pub type LowerBound = unsafe extern "C" fn(*const u64, usize, f64) -> BoundReply;
pub type PlainList = unsafe extern "C" fn(*const u8, usize, u64, *mut u64, usize) -> PlainReply;
pub type CheckLetters = unsafe extern "C" fn(*const u8, usize, *const u8, usize) -> PanelReply;
pub type Spell = unsafe extern "C" fn(
    *const u8,
    usize,
    *const u8,
    usize,
    *const u64,
    usize,
    u64,
    u64,
    u64,
    *mut u8,
    usize,
) -> SpellReply;
pub type WriteBed =
    unsafe extern "C" fn(*const u8, usize, *const u8, usize, *const u64, usize, *mut u8, usize) -> BedReply;
pub type ReadBed = unsafe extern "C" fn(
    *const u8,
    usize,
    *const u8,
    usize,
    u64,
    *const u8,
    usize,
    *mut u64,
    usize,
) -> BedReply;

/// The calls to compare; one that is not there yet is `None`.
#[derive(Clone, Copy, Default)]
pub struct Calls {
    pub panel: Option<CheckPanel>,
    pub port: Option<PortAtCut>,
    pub bucket: Option<HubBucket>,
    pub check: Option<CheckAssignment>,
    pub list: Option<List>,
    pub search: Option<Search>,
    pub bound: Option<LowerBound>,
    pub plain: Option<PlainList>,
    pub letters: Option<CheckLetters>,
    pub spell: Option<Spell>,
    pub write: Option<WriteBed>,
    pub read: Option<ReadBed>,
}

/// Declares one exported call and puts it into the table, where its feature is on.
macro_rules! linked {
    ($calls:ident, $feature:literal, $field:ident, $name:ident, ($($arg:ty),*) -> $reply:ty) => {
        #[cfg(feature = $feature)]
        {
            extern "C" {
                fn $name($(_: $arg),*) -> $reply;
            }
            $calls.$field = Some($name);
        }
    };
}

/// The calls of the linked archive.
#[allow(clashing_extern_declarations)]
pub fn linked() -> Calls {
    #[allow(unused_mut)]
    let mut calls = Calls::default();
    linked!(calls, "panel", panel, panel_routes_check_panel, (*const u8, usize) -> PanelReply);
    linked!(calls, "port", port, panel_routes_port_at_cut,
        (*const u8, usize, u64, u64, bool) -> PortReply);
    linked!(calls, "bucket", bucket, panel_routes_hub_bucket,
        (*const u8, usize, *const u8, usize) -> BucketReply);
    linked!(calls, "check", check, panel_routes_check_assignment,
        (*const u8, usize, *const u64, usize, *mut u64, usize) -> AssignmentReply);
    linked!(calls, "list", list, panel_routes_list,
        (*const u8, usize, SearchBudget, u64, *mut u64, usize, *mut u64, usize, *mut u64, usize)
        -> ListReply);
    linked!(calls, "search", search, panel_routes_search,
        (*const u8, usize, SearchBudget, *const f64, usize, *mut u64, usize, *mut u64, usize,
         *mut f64, usize) -> SearchReply);
    linked!(calls, "bound", bound, panel_routes_lower_bound, (*const u64, usize, f64) -> BoundReply);
    linked!(calls, "plain", plain, panel_routes_plain_list,
        (*const u8, usize, u64, *mut u64, usize) -> PlainReply);
    linked!(calls, "letters", letters, panel_routes_check_letters,
        (*const u8, usize, *const u8, usize) -> PanelReply);
    linked!(calls, "spell", spell, panel_routes_spell,
        (*const u8, usize, *const u8, usize, *const u64, usize, u64, u64, u64, *mut u8, usize)
        -> SpellReply);
    linked!(calls, "write", write, panel_routes_write_bed,
        (*const u8, usize, *const u8, usize, *const u64, usize, *mut u8, usize) -> BedReply);
    linked!(calls, "read", read, panel_routes_read_bed,
        (*const u8, usize, *const u8, usize, u64, *const u8, usize, *mut u64, usize) -> BedReply);
    calls
}

fn budget(b: &BudgetWords) -> SearchBudget {
    SearchBudget {
        max_work: b[0],
        max_evaluations: b[1],
        max_frontier: b[2],
        max_optima: b[3],
        tie_width: f64::from_bits(b[4]),
    }
}

/// Words behind each lent room, which no call may touch.
const GUARD: usize = 16;

fn filled_bytes(n: usize) -> Vec<u8> {
    (0..n).map(byte_filler).collect()
}

/// What was written to a room of bytes, a word for each.
fn take_bytes(bytes: &[u8], room: &mut [u64]) {
    let written = (0..bytes.len()).filter(|i| bytes[*i] != byte_filler(*i));
    written.for_each(|i| room[i] = u64::from(bytes[i]));
}

impl Calls {
    pub fn has(&self, kind: Kind) -> bool {
        match kind {
            Kind::Panel => self.panel.is_some(),
            Kind::Port => self.port.is_some(),
            Kind::Bucket => self.bucket.is_some(),
            Kind::Check => self.check.is_some(),
            Kind::List => self.list.is_some(),
            Kind::Search => self.search.is_some(),
            Kind::Bound => self.bound.is_some(),
            Kind::Plain => self.plain.is_some(),
            Kind::Letters => self.letters.is_some(),
            Kind::Spell => self.spell.is_some(),
            Kind::Write => self.write.is_some(),
            Kind::Read => self.read.is_some(),
        }
    }

    /// Makes a call that is there. A room whose guard was touched comes back too long, and an
    /// input that was written to adds a word to the reply, so that both count as a difference.
    pub fn make(&self, image: &[u8], call: &Call) -> Outcome {
        let lent = image.to_vec();
        let (p, n) = (lent.as_ptr(), lent.len());
        let lengths = call.rooms();
        let mut rooms: Vec<Vec<u64>> = lengths.iter().map(|&w| filled(w + GUARD)).collect();
        let mut inputs_kept = true;
        // The lengths given are those of live allocations, or shorter by the guard.
        let mut reply: Vec<u64> = unsafe {
            match call {
                Call::Panel => {
                    let r = self.panel.unwrap()(p, n);
                    vec![r.refusal, r.place]
                }
                Call::Port { lane, cut, reverse } => {
                    let r = self.port.unwrap()(p, n, *lane, *cut, *reverse);
                    let letters = r.word.chunks(8).map(|c| u64::from_le_bytes(c.try_into().unwrap()));
                    [r.refusal, r.place, r.found, r.anchor].into_iter().chain(letters).collect()
                }
                Call::Bucket { word } => {
                    let own = word.clone();
                    let r = self.bucket.unwrap()(p, n, own.as_ptr(), own.len());
                    inputs_kept &= own == *word;
                    vec![r.refusal, r.place, r.lo, r.hi]
                }
                Call::Check { words, out } => {
                    let own = words.clone();
                    let room = rooms[0].as_mut_ptr();
                    let r = self.check.unwrap()(p, n, own.as_ptr(), own.len(), room, *out);
                    inputs_kept &= own == *words;
                    vec![r.refusal, r.place, r.words]
                }
                Call::List { budget: b, from, frames, slot, out } => {
                    let [f, s, o] = [0, 1, 2].map(|i| rooms[i].as_mut_ptr());
                    let r = self.list.unwrap()(p, n, budget(b), *from, f, *frames, s, *slot, o, *out);
                    vec![r.refusal, r.place, r.status, r.written, r.words, r.evaluations]
                }
                Call::Search { budget: b, scores, frames, kept, kept_scores } => {
                    let own = scores.clone();
                    let [f, k, s] = [0, 1, 2].map(|i| rooms[i].as_mut_ptr());
                    let r = self.search.unwrap()(
                        p,
                        n,
                        budget(b),
                        own.as_ptr().cast(),
                        own.len(),
                        f,
                        *frames,
                        k,
                        *kept,
                        s.cast(),
                        *kept_scores,
                    );
                    inputs_kept &= own == *scores;
                    vec![
                        r.refusal,
                        r.place,
                        r.status,
                        r.work,
                        r.evaluations,
                        r.natives,
                        r.donors,
                        r.non_native,
                        r.mixed,
                        r.mixed_identity,
                        r.switches,
                        r.families,
                        r.optima,
                        r.discarded,
                        r.frames,
                        r.pending,
                    ]
                }
                Call::Bound { counts, background } => {
                    let own = counts.clone();
                    let r = self.bound.unwrap()(own.as_ptr(), own.len(), f64::from_bits(*background));
                    inputs_kept &= own == *counts;
                    vec![r.refusal, r.place, r.given, r.bound.to_bits()]
                }
                Call::Plain { from, out } => {
                    let r = self.plain.unwrap()(p, n, *from, rooms[0].as_mut_ptr(), *out);
                    vec![r.refusal, r.place, r.written, r.words]
                }
                Call::Letters { letters } => {
                    let own = letters.clone();
                    let r = self.letters.unwrap()(p, n, own.as_ptr(), own.len());
                    inputs_kept &= own == *letters;
                    vec![r.refusal, r.place]
                }
                Call::Spell { letters, words, slot, from, to, out } => {
                    let (own, given) = (letters.clone(), words.clone());
                    let mut bytes = filled_bytes(*out + GUARD);
                    let r = self.spell.unwrap()(
                        p,
                        n,
                        own.as_ptr(),
                        own.len(),
                        given.as_ptr(),
                        given.len(),
                        *slot,
                        *from,
                        *to,
                        bytes.as_mut_ptr(),
                        *out,
                    );
                    inputs_kept &= own == *letters && given == *words;
                    take_bytes(&bytes, &mut rooms[0]);
                    vec![r.refusal, r.place, r.letters]
                }
                Call::Write { names, words, out } => {
                    let (own, given) = (names.clone(), words.clone());
                    let mut bytes = filled_bytes(*out + GUARD);
                    let room = bytes.as_mut_ptr();
                    let (table, table_len) = (own.as_ptr(), own.len());
                    let r =
                        self.write.unwrap()(p, n, table, table_len, given.as_ptr(), given.len(), room, *out);
                    inputs_kept &= own == *names && given == *words;
                    take_bytes(&bytes, &mut rooms[0]);
                    vec![r.refusal, r.place, r.length]
                }
                Call::Read { names, family, text, out } => {
                    let (own, given) = (names.clone(), text.clone());
                    let room = rooms[0].as_mut_ptr();
                    let (table, table_len) = (own.as_ptr(), own.len());
                    let (lines, lines_len) = (given.as_ptr(), given.len());
                    let read = self.read.unwrap();
                    let r = read(p, n, table, table_len, *family, lines, lines_len, room, *out);
                    inputs_kept &= own == *names && given == *text;
                    vec![r.refusal, r.place, r.length]
                }
            }
        };
        if !inputs_kept || lent != image {
            reply.push(u64::MAX);
        }
        for (room, &length) in rooms.iter_mut().zip(&lengths) {
            if (length..length + GUARD).all(|i| room[i] == crate::calls::filler(i)) {
                room.truncate(length);
            }
        }
        Outcome { reply, rooms }
    }
}
