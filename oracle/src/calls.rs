//! The public calls as data: what goes in, and what comes out of the answer and of
//! every lent room, whole.
use crate::rules::BudgetWords;

#[derive(Clone, Copy, Debug, PartialEq, Eq)]
pub enum Kind {
    Panel = 1,
    Port = 2,
    Bucket = 3,
    Check = 4,
    List = 5,
    Search = 6,
    /// 7 is a job of the walk program.
    Bound = 8,
    Plain = 9,
    Letters = 10,
    Spell = 11,
    Write = 12,
    Read = 13,
}

pub const KINDS: [Kind; 12] = [
    Kind::Panel,
    Kind::Port,
    Kind::Bucket,
    Kind::Check,
    Kind::List,
    Kind::Search,
    Kind::Bound,
    Kind::Plain,
    Kind::Letters,
    Kind::Spell,
    Kind::Write,
    Kind::Read,
];

impl Kind {
    pub fn name(self) -> &'static str {
        match self {
            Kind::Panel => "panel",
            Kind::Port => "port",
            Kind::Bucket => "bucket",
            Kind::Check => "check",
            Kind::List => "list",
            Kind::Search => "search",
            Kind::Bound => "bound",
            Kind::Plain => "plain",
            Kind::Letters => "letters",
            Kind::Spell => "spell",
            Kind::Write => "write",
            Kind::Read => "read",
        }
    }
    pub fn named(name: &str) -> Option<Self> {
        KINDS.into_iter().find(|k| k.name() == name)
    }
}

#[derive(Clone, Debug, PartialEq)]
pub enum Call {
    Panel,
    Port {
        lane: u64,
        cut: u64,
        reverse: bool,
    },
    Bucket {
        word: Vec<u8>,
    },
    Check {
        words: Vec<u64>,
        out: usize,
    },
    List {
        budget: BudgetWords,
        from: u64,
        frames: usize,
        slot: usize,
        out: usize,
    },
    /// Scores and tie width go by their bits.
    Search {
        budget: BudgetWords,
        scores: Vec<u64>,
        frames: usize,
        kept: usize,
        kept_scores: usize,
    },
    /// The background goes by its bits; there is no image.
    Bound {
        counts: Vec<u64>,
        background: u64,
    },
    /// The plain engine's list.
    Plain {
        from: u64,
        out: usize,
    },
    /// The lanes' letters, lane after lane.
    Letters {
        letters: Vec<u8>,
    },
    /// A crop of a route; `out` is in bytes.
    Spell {
        letters: Vec<u8>,
        words: Vec<u64>,
        slot: u64,
        from: u64,
        to: u64,
        out: usize,
    },
    /// An assignment as BED by a table of names; `out` is in bytes.
    Write {
        names: Vec<u8>,
        words: Vec<u64>,
        out: usize,
    },
    /// Lines of BED back into the words they hold.
    Read {
        names: Vec<u8>,
        family: u64,
        text: Vec<u8>,
        out: usize,
    },
}

impl Call {
    pub fn kind(&self) -> Kind {
        match self {
            Call::Panel => Kind::Panel,
            Call::Port { .. } => Kind::Port,
            Call::Bucket { .. } => Kind::Bucket,
            Call::Check { .. } => Kind::Check,
            Call::List { .. } => Kind::List,
            Call::Search { .. } => Kind::Search,
            Call::Bound { .. } => Kind::Bound,
            Call::Plain { .. } => Kind::Plain,
            Call::Letters { .. } => Kind::Letters,
            Call::Spell { .. } => Kind::Spell,
            Call::Write { .. } => Kind::Write,
            Call::Read { .. } => Kind::Read,
        }
    }

    /// The lengths of the rooms that the call lends, in the order of its arguments.
    pub fn rooms(&self) -> Vec<usize> {
        match *self {
            Call::Panel
            | Call::Port { .. }
            | Call::Bucket { .. }
            | Call::Bound { .. }
            | Call::Letters { .. } => vec![],
            Call::Check { out, .. }
            | Call::Plain { out, .. }
            | Call::Spell { out, .. }
            | Call::Write { out, .. }
            | Call::Read { out, .. } => vec![out],
            Call::List { frames, slot, out, .. } => vec![frames, slot, out],
            Call::Search { frames, kept, kept_scores, .. } => vec![frames, kept, kept_scores],
        }
    }
}

/// The answer's fields as words in their order, and each room after the call; a room of bytes has a
/// word for each.
#[derive(Clone, Debug, PartialEq)]
pub struct Outcome {
    pub reply: Vec<u64>,
    pub rooms: Vec<Vec<u64>>,
}

/// What stands in word i of a room before the call: no word is 0 and no two are equal.
pub fn filler(i: usize) -> u64 {
    0xA5A5_5A5A_0000_0001 + i as u64
}

pub fn filled(words: usize) -> Vec<u64> {
    (0..words).map(filler).collect()
}

/// Likewise in byte i of a room of bytes: no letter, and none of BED.
pub fn byte_filler(i: usize) -> u8 {
    0x80 + (i % 127) as u8
}

/// How many words an answer has.
pub fn reply_words(kind: Kind) -> usize {
    match kind {
        Kind::Panel | Kind::Letters => 2,
        Kind::Port => 8,
        Kind::Bucket | Kind::Bound | Kind::Plain => 4,
        Kind::Check | Kind::Spell | Kind::Write | Kind::Read => 3,
        Kind::List => 6,
        Kind::Search => 16,
    }
}
