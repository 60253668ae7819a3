//! The lanes' names, and the routes of assignments as lines of BED.
use crate::{exports, Assignment, Panel, Refusal};
use std::{collections::HashSet, error::Error, fmt};

/// Names for the lanes of a panel, in the lanes' order: each of 1 to 64 printing ASCII bytes
/// without a space, all different.
///
/// A browser or another tool may know a line by its beginning: to bedtools one that begins with
/// `#`, `!` or `>`, or with `track`, `browser` or `visibility`, is a header. Such names are taken
/// here; what is written with them is skipped there.
#[derive(Clone, Debug, PartialEq, Eq, Hash)]
pub struct Names {
    /// A line for each lane, each ended by a line feed.
    table: String,
}

/// What keeps names from being a table. Lanes go by their number, from 0.
#[derive(Clone, Copy, Debug, PartialEq, Eq, Hash)]
pub enum NamesError {
    /// The lane's name is not 1 to 64 printing ASCII bytes without a space.
    Name { lane: usize },
    /// An earlier lane has the lane's name.
    Twice { lane: usize },
    /// The last line of a text is not ended by a line feed.
    LastLine,
}

const LONGEST_NAME: usize = 64;

/// That these suffice for what the check accepts is proved (`RoomSuffices` in the library's
/// crates/bed/specs/Theorems.antt).
const BYTES_A_WORD: usize = 25;

/// Of any text that is taken: names and numbers of one byte each.
const SHORTEST_LINE: usize = 13;

impl Names {
    /// The first lane's name first.
    ///
    /// ```
    /// # use panel_routes::{Names, NamesError};
    /// let names = Names::new(["barke.2H", "morex.2H"])?;
    /// assert_eq!(names.get(1), Some("morex.2H"));
    /// assert_eq!(Names::new(["2H", "2H"]), Err(NamesError::Twice { lane: 1 }));
    /// assert_eq!(Names::new(["barke 2H"]), Err(NamesError::Name { lane: 0 }));
    /// # Ok::<(), NamesError>(())
    /// ```
    pub fn new<N: AsRef<[u8]>>(names: impl IntoIterator<Item = N>) -> Result<Self, NamesError> {
        let mut table = String::new();
        let mut seen = HashSet::new();
        for (lane, name) in names.into_iter().enumerate() {
            let name = name.as_ref();
            let printing = name.iter().all(u8::is_ascii_graphic);
            if !printing || !(1..=LONGEST_NAME).contains(&name.len()) {
                return Err(NamesError::Name { lane });
            }
            if !seen.insert(name.to_vec()) {
                return Err(NamesError::Twice { lane });
            }
            table.extend(name.iter().map(|b| char::from(*b)));
            table.push('\n');
        }
        Ok(Self { table })
    }

    /// From a text with a line for each lane, each ended by a line feed, the last too.
    pub fn parse(text: impl AsRef<[u8]>) -> Result<Self, NamesError> {
        let text = text.as_ref();
        match text.strip_suffix(b"\n") {
            Some(lines) => Self::new(lines.split(|b| *b == b'\n')),
            None if text.is_empty() => Self::new([""; 0]),
            None => Err(NamesError::LastLine),
        }
    }

    /// The lines that [`Names::parse`] takes.
    pub fn as_str(&self) -> &str {
        &self.table
    }

    pub fn iter(&self) -> impl Iterator<Item = &str> + '_ {
        self.table.lines()
    }

    /// The name of a lane, `None` where there is none.
    pub fn get(&self, lane: usize) -> Option<&str> {
        self.iter().nth(lane)
    }
}

impl Assignment {
    /// A line of six columns, tab-separated, for each segment as it is given, route by route: the
    /// lane's name, start, end, `r` and the slot, score 0, strand. Refusals 34, then 22 to 31.
    ///
    /// 34 says that there are not as many names as lanes. Read back by [`Panel::read_bed`] it is the
    /// same assignment: the family is not in the lines, and is to be kept beside them.
    ///
    /// ```
    /// # use panel_routes::{Assignment, Names, PanelBuilder, Segment};
    /// # let panel = PanelBuilder::new(2)
    /// #     .lane(10, 0)
    /// #     .lane(10, 1)
    /// #     .family([0])
    /// #     .port("AC", 0, 3, false)
    /// #     .port("AC", 1, 5, false)
    /// #     .port("GG", 0, 6, false)
    /// #     .port("GG", 1, 7, false)
    /// #     .build()?;
    /// // Panel E's mosaic.
    /// let names = Names::new(["left", "right"])?;
    /// let piece = |source, start, end| Segment { source, start, end, reverse: false };
    /// let mosaic = Assignment::new(0, [[piece(0, 0, 4), piece(1, 6, 8), piece(0, 7, 10)]])?;
    /// let bed = mosaic.to_bed(&panel, &names)?;
    /// assert!(bed.starts_with("left\t0\t4\tr0\t0\t+\nright\t6\t8\tr0\t0\t+\n"));
    ///
    /// let one = Names::new(["left"])?;
    /// assert_eq!(mosaic.to_bed(&panel, &one).unwrap_err().number(), 34);
    /// # Ok::<(), Box<dyn std::error::Error>>(())
    /// ```
    pub fn to_bed(&self, panel: &Panel, names: &Names) -> Result<String, Refusal> {
        let mut out = vec![0; BYTES_A_WORD * self.words().len()];
        let length = self.to_bed_into(panel, names, &mut out)?;
        Ok(String::from_utf8_lossy(&out[..length]).into_owned())
    }

    /// [`Assignment::to_bed`] into the front of `out`, the rest of which stays: how many bytes the
    /// lines have. Refusal 37 besides, after the others, where `out` is too short; a refusal leaves
    /// `out` as it is.
    pub fn to_bed_into(&self, panel: &Panel, names: &Names, out: &mut [u8]) -> Result<usize, Refusal> {
        let length = exports::write_bed(panel.image(), names.table.as_bytes(), self.words(), out)?;
        Ok(length as usize)
    }
}

impl Panel<'_> {
    /// The assignment of a family that lines of BED hold, as [`Assignment::to_bed`] writes them.
    /// Refusals 34 to 36, then 22 to 31.
    ///
    /// 35 says that a line is not in this form: six columns with a tab between, each line ended by a
    /// line feed, numbers below 2^64 in decimal without leading zeros, score 0, the slots from 0
    /// without a gap and in order; 36 that a name is not in the table. A text that was sorted by lane
    /// is another text: it is refused, or holds other routes. Lines are read as they are, and the
    /// assignment is not brought into normal form.
    ///
    /// ```
    /// # use panel_routes::{Names, PanelBuilder};
    /// # let panel = PanelBuilder::new(2)
    /// #     .lane(10, 0)
    /// #     .lane(10, 1)
    /// #     .family([0])
    /// #     .port("AC", 0, 3, false)
    /// #     .port("AC", 1, 5, false)
    /// #     .port("GG", 0, 6, false)
    /// #     .port("GG", 1, 7, false)
    /// #     .build()?;
    /// let names = Names::new(["left", "right"])?;
    /// let native = panel.read_bed(&names, 0, "left\t0\t10\tr0\t0\t+\n")?;
    /// assert_eq!(native.words(), [0, 1, 1, 0, 0, 10, 0]);
    ///
    /// let number = |text| panel.read_bed(&names, 0, text).unwrap_err().number();
    /// assert_eq!(number("left\t0\t10\tr1\t0\t+\n"), 35);
    /// assert_eq!(number("middle\t0\t10\tr0\t0\t+\n"), 36);
    /// assert_eq!(number("left\t0\t9\tr0\t0\t+\n"), 27);
    /// # Ok::<(), Box<dyn std::error::Error>>(())
    /// ```
    pub fn read_bed(
        &self,
        names: &Names,
        family: u64,
        text: impl AsRef<[u8]>,
    ) -> Result<Assignment, Refusal> {
        // A line has a segment of four words, and may be the first of its route.
        let text = text.as_ref();
        let mut out = vec![0; 2 + 5 * (text.len() / SHORTEST_LINE)];
        let words = self.read_bed_into(names, family, text, &mut out)?;
        out.truncate(words);
        Assignment::from_words(out)
    }

    /// [`Panel::read_bed`] into the front of `out`, the rest of which stays: how many words there are.
    /// Refusal 37 besides, between 36 and 22, where `out` is too short; a refusal leaves `out` as it
    /// is.
    pub fn read_bed_into(
        &self,
        names: &Names,
        family: u64,
        text: impl AsRef<[u8]>,
        out: &mut [u64],
    ) -> Result<usize, Refusal> {
        let table = names.table.as_bytes();
        let words = exports::read_bed(self.image(), table, family, text.as_ref(), out)?;
        Ok(words as usize)
    }
}

impl fmt::Display for NamesError {
    fn fmt(&self, f: &mut fmt::Formatter) -> fmt::Result {
        match self {
            Self::Name { lane } => {
                write!(f, "lane {lane}: its name is not 1 to 64 printing ASCII bytes without a space")
            }
            Self::Twice { lane } => write!(f, "lane {lane}: an earlier one has its name"),
            Self::LastLine => write!(f, "names: the last line is not ended by a line feed"),
        }
    }
}

impl Error for NamesError {}
