use std::{error::Error, fmt};

/// Why a call was refused: document 01's number, its place, and its words as the message.
#[derive(Clone, Copy, Debug, PartialEq, Eq, Hash)]
pub struct Refusal {
    number: u64,
    place: u64,
}

impl Refusal {
    pub(crate) fn new(number: u64, place: u64) -> Self {
        Self { number, place }
    }

    /// 1 to 31, by the table of refusals, 34 to 37 of routes as BED, 37 and 39 to 41 of the letters,
    /// 42 of the plain listing and 43 of the lower bound.
    pub fn number(&self) -> u64 {
        self.number
    }

    /// The evaluation's number for 14 and 15, the route's index for 25 to 30, otherwise 0.
    pub fn place(&self) -> u64 {
        self.place
    }

    /// When it is given, in the words of the table.
    pub fn message(&self) -> &'static str {
        match self.number {
            1 => "image under 80 bytes",
            2 => "k, L, F, N out of bounds, or T over 64 times F",
            3 => "an offset or the image length is not the packed one",
            4 => "a lane length out of bounds, or port counts don't sum to N",
            5 => {
                "a path count out of bounds, counts don't sum to T, a path names no lane, \
                 or a family names a lane twice"
            }
            6 => {
                "a record has another letter, a reverse byte over 1, a source not a lane \
                 (in a lane list: not that lane), or anchor + k past its lane"
            }
            7 => {
                "a lane list not strictly rising by (anchor, reverse), or the global list by \
                 (word, source, anchor, reverse); forward before reverse"
            }
            8 => "a global record that isn't in its lane's list",
            9 => "port at a cut: no such lane",
            10 => "hub bucket: word not k bytes",
            11 => "a whole budget is 0, or the tie width is not finite or below 0 (-0.0 passes)",
            12 => "max_frontier or max_optima over its bound",
            13 => "a lent room shorter than stated below",
            14 => "an evaluation has no score in the list",
            15 => "its score is not finite",
            16 => "program only: job not as below",
            21 => "out shorter than the words given",
            22 => "assignment words malformed or over the bound",
            23 => "no such family",
            24 => "wrong number of routes",
            25 => "empty route",
            26 => "a segment with no such lane, start not below end, or end past the lane",
            27 => "endpoints wrong",
            28 => "no outgoing port",
            29 => "no incoming port",
            30 => "words differ",
            31 => "spans overlap",
            34 => "routes as BED: name table bad",
            35 => "routes as BED: a line not in this form",
            36 => "routes as BED: a name not in the table",
            37 => "out too short",
            39 => "letters: not as many as the lanes have, or one other than A, C, G and T",
            40 => "letters: a port whose word differs",
            41 => "spelling: no such slot, or crop empty or past its route",
            42 => "plain listing: the unbudgeted walk's deepest stack is over 64",
            43 => "lower bound: a count of 2^53 or more, or a background not finite or not above 0",
            _ => "a number that the table does not have",
        }
    }
}

/// As the walk program prints it, with the words behind: `refused 14 3: an evaluation has ...`.
impl fmt::Display for Refusal {
    fn fmt(&self, f: &mut fmt::Formatter) -> fmt::Result {
        write!(f, "refused {} {}: {}", self.number, self.place, self.message())
    }
}

impl Error for Refusal {}
