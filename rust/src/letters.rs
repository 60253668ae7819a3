//! The lanes' letters beside a panel, and what routes read in them.
use crate::{exports, Assignment, Panel, Refusal};
use std::{borrow::Cow, fmt, ops::Range};

/// The letters of a panel's lanes that passed refusals 39 and 40, borrowed or owned; see
/// [`Panel::letters`].
///
/// Each call of the library checks the whole panel and all letters again, so a crop costs as much as
/// [`Panel::letters`] before its first letter: spell a route once, and cut it afterwards.
/// [`Letters::lanes`] reads the letters without a call.
#[derive(Clone, PartialEq, Eq)]
pub struct Letters<'a> {
    panel: &'a Panel<'a>,
    letters: Cow<'a, [u8]>,
}

impl Panel<'_> {
    /// The lanes' letters, held against the panel: lane after lane with nothing between, only
    /// A, C, G and T. Refusals 39 and 40.
    ///
    /// 39 says that there are not as many as the lanes have together, or that there is another letter
    /// (a lower-case one, an N); 40 that the word of a port differs from its k letters, those from
    /// its anchor on, reverse complemented when the port is reverse. Where one lane ends and the next
    /// begins, the panel says: hold the records of a file to the lanes' lengths before joining them.
    ///
    /// ```
    /// # use panel_routes::PanelBuilder;
    /// # let panel = PanelBuilder::new(2)
    /// #     .lane(10, 0)
    /// #     .lane(10, 1)
    /// #     .family([0])
    /// #     .port("AC", 0, 3, false)
    /// #     .port("AC", 1, 5, false)
    /// #     .port("GG", 0, 6, false)
    /// #     .port("GG", 1, 7, false)
    /// #     .build()?;
    /// // Panel E: AC at 3 and GG at 6 of lane 0, AC at 5 and GG at 7 of lane 1.
    /// let letters = panel.letters(b"TTTACTGGTACCCCCACGGC")?;
    /// assert_eq!(letters.lane(1), Some(&b"CCCCCACGGC"[..]));
    ///
    /// let refused = |letters: &[u8]| panel.letters(letters).unwrap_err().to_string();
    /// assert!(refused(b"TTTACTGGTACCCCCACGGc").starts_with("refused 39 0: "));
    /// assert!(refused(b"TTTACTGGTACCCCCTCGGC").starts_with("refused 40 0: "));
    /// # Ok::<(), Box<dyn std::error::Error>>(())
    /// ```
    pub fn letters<'a>(&'a self, letters: impl Into<Cow<'a, [u8]>>) -> Result<Letters<'a>, Refusal> {
        let letters = letters.into();
        exports::check_letters(self.image(), &letters)?;
        Ok(Letters { panel: self, letters })
    }
}

impl Letters<'_> {
    /// All of them, lane after lane.
    pub fn as_bytes(&self) -> &[u8] {
        &self.letters
    }

    /// The letters of each lane in turn.
    pub fn lanes(&self) -> impl ExactSizeIterator<Item = &[u8]> + '_ {
        let mut rest = self.as_bytes();
        self.panel.lanes().map(move |lane| {
            let (own, later) = rest.split_at(lane.length as usize);
            rest = later;
            own
        })
    }

    /// The letters of a lane, `None` where there is no such lane.
    pub fn lane(&self, lane: usize) -> Option<&[u8]> {
        self.lanes().nth(lane)
    }

    /// The letters of a crop of the route in a slot, both counted from 0. Refusals 22 to 31 and 41.
    ///
    /// A route reads the letters of its segments as they are given, one after the other, those of a
    /// reverse segment reverse complemented; its normal form reads the same. Around each switch of a
    /// legal route the k letters, k/2 (rounded down) before it and the others after it, are the word
    /// of its ports, where the pieces on both sides are that long. 41 says that there is no such
    /// slot, or that the crop is empty or goes past its route.
    ///
    /// ```
    /// # use panel_routes::{Assignment, PanelBuilder, Segment};
    /// # let panel = PanelBuilder::new(2)
    /// #     .lane(10, 0)
    /// #     .lane(10, 1)
    /// #     .family([0])
    /// #     .port("AC", 0, 3, false)
    /// #     .port("AC", 1, 5, false)
    /// #     .port("GG", 0, 6, false)
    /// #     .port("GG", 1, 7, false)
    /// #     .build()?;
    /// // The mosaic of panel E: TTTA of lane 0, CG of lane 1, GTA of lane 0 again.
    /// let letters = panel.letters(b"TTTACTGGTACCCCCACGGC")?;
    /// let piece = |source, start, end| Segment { source, start, end, reverse: false };
    /// let mosaic = Assignment::new(0, [[piece(0, 0, 4), piece(1, 6, 8), piece(0, 7, 10)]])?;
    /// assert_eq!(letters.spell_route(&mosaic, 0)?, b"TTTACGGTA");
    ///
    /// // It switches behind 4 letters and behind 6, with k 2 in the middle of AC and of GG.
    /// assert_eq!(letters.spell(&mosaic, 0, 3..5)?, b"AC");
    /// assert_eq!(letters.spell(&mosaic, 0, 5..7)?, b"GG");
    ///
    /// assert_eq!(letters.spell(&mosaic, 0, 5..10).unwrap_err().number(), 41);
    /// # Ok::<(), Box<dyn std::error::Error>>(())
    /// ```
    pub fn spell(&self, assignment: &Assignment, slot: usize, crop: Range<u64>) -> Result<Vec<u8>, Refusal> {
        // No two segments of a legal assignment share a base: a crop of more letters than the lanes
        // have is refused whatever the room is.
        let size = crop.end.saturating_sub(crop.start).min(self.letters.len() as u64);
        let mut out = vec![0; size as usize];
        self.spell_into(assignment, slot, crop, &mut out)?;
        Ok(out)
    }

    /// [`Letters::spell`] into the front of `out`, the rest of which stays: how many letters the crop
    /// has. Refusal 37 besides, after 41, where `out` is too short; a refusal leaves `out` as it is.
    pub fn spell_into(
        &self,
        assignment: &Assignment,
        slot: usize,
        crop: Range<u64>,
        out: &mut [u8],
    ) -> Result<usize, Refusal> {
        let (image, words) = (self.panel.image(), assignment.words());
        let spelled = exports::spell(image, &self.letters, words, slot as u64, crop.start, crop.end, out)?;
        Ok(spelled as usize)
    }

    /// All letters of the route in a slot. Refusals 22 to 31 and 41.
    pub fn spell_route(&self, assignment: &Assignment, slot: usize) -> Result<Vec<u8>, Refusal> {
        let route = assignment.routes().nth(slot).into_iter().flatten();
        let bases = route.fold(0, |sum: u64, segment| sum.saturating_add(segment.bases()));
        self.spell(assignment, slot, 0..bases)
    }
}

impl fmt::Debug for Letters<'_> {
    fn fmt(&self, f: &mut fmt::Formatter) -> fmt::Result {
        f.debug_struct("Letters").field("panel", self.panel).field("letters", &self.letters.len()).finish()
    }
}
