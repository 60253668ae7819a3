//! Panels: bytes that were checked, and what stands in them.
use crate::{
    exports,
    storage::{word_at, Port, Word, RECORD_EXCESS},
    Assignment, Refusal,
};
use std::{borrow::Cow, fmt, ops::Range};

/// A panel image that passed refusals 1 to 8, borrowed or owned.
///
/// Each call of the library checks the whole image again, so a single lookup costs as much as
/// [`Panel::new`]; [`Panel::ports`] and its like read the image without a call.
#[derive(Clone, PartialEq, Eq)]
pub struct Panel<'a> {
    image: Cow<'a, [u8]>,
}

/// A lane of a panel.
#[derive(Clone, Copy, Debug, PartialEq, Eq, Hash)]
pub struct Lane {
    /// Bases.
    pub length: u64,
    /// Whose lane it is: `mixed_identity` counts assignments with a route over two identities.
    pub identity: u64,
}

/// The header's words, in their order; behind each offset stands the list of that name.
enum Header {
    K,
    Lanes = 1,
    Families = 2,
    LanesAt = 5,
    FamiliesAt,
    PathsAt,
    LanePortsAt,
    GlobalPortsAt,
}

impl<'a> Panel<'a> {
    /// Refusals 1 to 8.
    pub fn new(image: impl Into<Cow<'a, [u8]>>) -> Result<Self, Refusal> {
        let image = image.into();
        exports::check_panel(&image)?;
        Ok(Self { image })
    }

    pub fn image(&self) -> &[u8] {
        &self.image
    }

    fn header(&self, word: Header) -> usize {
        word_at(&self.image, 8 * word as usize) as usize
    }

    /// The letters of a word.
    pub fn k(&self) -> usize {
        self.header(Header::K)
    }

    pub fn lanes(&self) -> impl ExactSizeIterator<Item = Lane> + '_ {
        let entries = &self.image[self.header(Header::LanesAt)..self.header(Header::FamiliesAt)];
        entries.chunks_exact(24).map(|e| Lane { length: word_at(e, 0), identity: word_at(e, 16) })
    }

    fn path_counts(&self) -> impl ExactSizeIterator<Item = usize> + '_ {
        let entries = &self.image[self.header(Header::FamiliesAt)..self.header(Header::PathsAt)];
        entries.chunks_exact(8).map(|e| word_at(e, 0) as usize)
    }

    /// How many families there are.
    pub fn family_count(&self) -> usize {
        self.header(Header::Families)
    }

    /// The most paths of a family, 0 without one.
    pub(crate) fn most_paths(&self) -> usize {
        self.path_counts().max().unwrap_or(0)
    }

    /// Each family's paths: the numbers of its target lanes.
    pub fn families(&self) -> impl ExactSizeIterator<Item = Vec<u64>> + '_ {
        let mut paths = self.image[self.header(Header::PathsAt)..self.header(Header::LanePortsAt)]
            .chunks_exact(8)
            .map(|e| word_at(e, 0));
        self.path_counts().map(move |count| paths.by_ref().take(count).collect())
    }

    fn records(&self, bytes: Range<usize>) -> impl ExactSizeIterator<Item = Port> + '_ {
        self.image[bytes].chunks_exact(self.k() + RECORD_EXCESS).map(Port::read)
    }

    /// The ports of each lane in turn, by anchor, forward before reverse.
    pub fn ports(&self) -> impl ExactSizeIterator<Item = Port> + '_ {
        self.records(self.header(Header::LanePortsAt)..self.header(Header::GlobalPortsAt))
    }

    /// The same ports by word; a hub is a stretch of them.
    pub fn global_ports(&self) -> impl ExactSizeIterator<Item = Port> + '_ {
        self.records(self.header(Header::GlobalPortsAt)..self.image.len())
    }

    /// The port of a lane with this cut and orientation, if it declares one. Refusal 9.
    pub fn port_at_cut(&self, lane: u64, cut: u64, reverse: bool) -> Result<Option<Port>, Refusal> {
        let found = exports::port_at_cut(&self.image, lane, cut, reverse)?;
        let port = |(anchor, word): (u64, [u8; 32])| Port {
            word: Word::padded(&word),
            source: lane,
            anchor,
            reverse,
        };
        Ok(found.map(port))
    }

    /// Which of the [`Panel::global_ports`] have this word. Refusal 10.
    pub fn hub_bucket(&self, word: impl AsRef<[u8]>) -> Result<Range<u64>, Refusal> {
        exports::hub_bucket(&self.image, word.as_ref())
    }

    /// The normal form of a legal assignment. Refusals 22 to 31.
    pub fn check_assignment(&self, assignment: &Assignment) -> Result<Assignment, Refusal> {
        let words = assignment.words();
        let mut out = vec![0; words.len()];
        let used = exports::check_assignment(&self.image, words, &mut out)?;
        out.truncate(used);
        Assignment::from_words(out)
    }
}

impl fmt::Debug for Panel<'_> {
    fn fmt(&self, f: &mut fmt::Formatter) -> fmt::Result {
        f.debug_struct("Panel")
            .field("k", &self.k())
            .field("lanes", &self.header(Header::Lanes))
            .field("families", &self.family_count())
            .field("ports", &self.ports().len())
            .finish()
    }
}
