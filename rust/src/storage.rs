//! Port records.
use std::fmt;

/// The most letters of a word.
const MOST_LETTERS: usize = 32;

/// A word of 1 to 32 letters from ACGT, in the order of the alphabet.
#[derive(Clone, Copy, PartialEq, Eq, PartialOrd, Ord, Hash)]
pub struct Word {
    /// Zero-padded: of words of one length, the order is that of the letters.
    letters: [u8; MOST_LETTERS],
}

impl Word {
    /// `None` for another letter, for no letter and for more than 32.
    ///
    /// ```
    /// # use panel_routes::Word;
    /// assert_eq!(Word::new("ACGT").unwrap().as_str(), "ACGT");
    /// assert!(Word::new("ACGN").is_none());
    /// ```
    pub fn new(word: impl AsRef<[u8]>) -> Option<Self> {
        let word = word.as_ref();
        let known = word.iter().all(|b| b"ACGT".contains(b));
        (known && (1..=MOST_LETTERS).contains(&word.len())).then(|| Self::padded(word))
    }

    /// A word of an accepted panel's record, or of its lookup.
    pub(crate) fn padded(word: &[u8]) -> Self {
        let mut letters = [0; MOST_LETTERS];
        letters[..word.len()].copy_from_slice(word);
        Self { letters }
    }

    pub fn as_bytes(&self) -> &[u8] {
        let end = self.letters.iter().position(|b| *b == 0).unwrap_or(MOST_LETTERS);
        &self.letters[..end]
    }

    pub fn as_str(&self) -> &str {
        std::str::from_utf8(self.as_bytes()).unwrap_or_default()
    }
}

impl fmt::Display for Word {
    fn fmt(&self, f: &mut fmt::Formatter) -> fmt::Result {
        f.write_str(self.as_str())
    }
}

impl fmt::Debug for Word {
    fn fmt(&self, f: &mut fmt::Formatter) -> fmt::Result {
        write!(f, "{:?}", self.as_str())
    }
}

/// A place at which a mosaic may switch lanes. The order is that of the global list.
#[derive(Clone, Copy, Debug, PartialEq, Eq, PartialOrd, Ord, Hash)]
pub struct Port {
    pub word: Word,
    /// The lane's number.
    pub source: u64,
    /// Where the word begins on its lane.
    pub anchor: u64,
    pub reverse: bool,
}

impl Port {
    /// anchor + k/2 forward, anchor + k - k/2 reverse, k/2 rounded down.
    pub fn cut(&self) -> u64 {
        let k = self.word.as_bytes().len() as u64;
        self.anchor.saturating_add(if self.reverse { k - k / 2 } else { k / 2 })
    }

    /// Appends the record's bytes.
    pub(crate) fn write(&self, image: &mut Vec<u8>) {
        image.extend(self.word.as_bytes());
        image.extend(self.source.to_le_bytes());
        image.extend(self.anchor.to_le_bytes());
        image.push(u8::from(self.reverse));
    }

    /// Reads an accepted panel's record.
    pub(crate) fn read(record: &[u8]) -> Self {
        let (word, numbers) = record.split_at(record.len() - RECORD_EXCESS);
        Self {
            word: Word::padded(word),
            source: word_at(numbers, 0),
            anchor: word_at(numbers, 8),
            reverse: numbers[16] == 1,
        }
    }
}

/// The bytes of a record beside its word: source, anchor, reverse byte.
pub(crate) const RECORD_EXCESS: usize = 17;

/// The little-endian word at a byte offset.
pub(crate) fn word_at(bytes: &[u8], at: usize) -> u64 {
    let mut word = [0; 8];
    word.copy_from_slice(&bytes[at..at + 8]);
    u64::from_le_bytes(word)
}
