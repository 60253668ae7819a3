//! Mosaics of founder haplotypes, listed, scored and certified.
//!
//! A [`Panel`] holds founders' haplotypes as lanes, with the marker ports at which a mosaic may
//! switch from one lane to another, and families of lanes that a line is to be read as. The
//! walk goes through every legal mosaic of every family; your code scores them; the [`Sheet`]
//! says which is best, and says [`Status::Certified`] only where all of them were scored.
//!
//! Everything that decides is done by `libpanel_routes.a`, whose calls are proved to answer as
//! document 01 says; this crate allocates the rooms, calls and puts the answers into types.
//! Bad input is a [`Refusal`] with the document's number and words, a [`BuildError`] or a
//! [`NamesError`].
//!
//! # Panel E
//!
//! Two lanes of 10 bases, one family with lane 0 as its only path, two words with a forward port
//! on each lane. Scores come from your likelihood; this toy takes half a point off for each
//! switch: 5 for the native lane, 4 for the mosaic with bases 6 to 8 of lane 1.
//!
//! ```
//! use panel_routes::{PanelBuilder, SearchBudget, Status};
//!
//! let panel = PanelBuilder::new(2)
//!     .lane(10, 0)
//!     .lane(10, 1)
//!     .family([0])
//!     .port("AC", 0, 3, false)
//!     .port("AC", 1, 5, false)
//!     .port("GG", 0, 6, false)
//!     .port("GG", 1, 7, false)
//!     .build()?;
//!
//! // What there is to score: the native assignment, the same again on the way, the mosaic.
//! let budget = SearchBudget::default();
//! let listed: Vec<u64> = panel.assignments(budget)?.map(|a| a.switches()).collect();
//! assert_eq!(listed, [0, 0, 2]);
//!
//! let sheet = panel.search(budget, |assignment| 5.0 - assignment.switches() as f64 / 2.0)?;
//! assert_eq!(sheet.status, Status::Certified);
//! assert_eq!(sheet.incumbent.as_ref().unwrap().score, 4.0);
//! assert_eq!(
//!     sheet.to_string(),
//!     "\
//! status domain-exhausted-optimum-and-correlated-support-certified
//! work 21
//! evaluations 3
//! natives 1
//! donors 6
//! non-native 1
//! mixed 1
//! mixed-identity 1
//! switches 2
//! families 1
//! optima 1
//! foreign 2
//! route 0 0 0 4 +
//! route 0 1 6 8 +
//! route 0 0 7 10 +
//! "
//! );
//! # Ok::<(), Box<dyn std::error::Error>>(())
//! ```
//!
//! # All of them, without a budget
//!
//! [`Panel::plain_assignments`] lists every legal assignment by a second, plain engine, made for
//! teaching. It has no budget and may take very long; [`Panel::assignments`] has budgets.
//!
//! # The DNA behind the ports
//!
//! [`Panel::letters`] takes the lanes' letters and holds the word of every port to them;
//! [`Letters::spell`] then gives the letters of any crop of a legal route:
//!
//! ```
//! # use panel_routes::PanelBuilder;
//! # let panel = PanelBuilder::new(2)
//! #     .lane(10, 0)
//! #     .lane(10, 1)
//! #     .family([0])
//! #     .port("AC", 0, 3, false)
//! #     .port("AC", 1, 5, false)
//! #     .port("GG", 0, 6, false)
//! #     .port("GG", 1, 7, false)
//! #     .build()?;
//! let letters = panel.letters(b"TTTACTGGTACCCCCACGGC")?;
//! let all = panel.plain_assignments()?;
//! let spelled: Vec<Vec<u8>> = all.map(|a| letters.spell_route(&a, 0)).collect::<Result<_, _>>()?;
//! // The native lane, and the mosaic.
//! assert_eq!(spelled, [&b"TTTACTGGTA"[..], b"TTTACGGTA"]);
//! # Ok::<(), Box<dyn std::error::Error>>(())
//! ```
//!
//! # Routes as BED
//!
//! [`Assignment::to_bed`] writes the routes of an assignment for a genome browser, with the lanes'
//! [`Names`]; [`Panel::read_bed`] reads such lines back:
//!
//! ```
//! # use panel_routes::PanelBuilder;
//! # let panel = PanelBuilder::new(2)
//! #     .lane(10, 0)
//! #     .lane(10, 1)
//! #     .family([0])
//! #     .port("AC", 0, 3, false)
//! #     .port("AC", 1, 5, false)
//! #     .port("GG", 0, 6, false)
//! #     .port("GG", 1, 7, false)
//! #     .build()?;
//! use panel_routes::Names;
//!
//! let names = Names::new(["barke.2H", "morex.2H"])?;
//! let mosaic = panel.plain_assignments()?.last().unwrap();
//! let bed = mosaic.to_bed(&panel, &names)?;
//! assert_eq!(
//!     bed,
//!     "barke.2H\t0\t4\tr0\t0\t+\nmorex.2H\t6\t8\tr0\t0\t+\nbarke.2H\t7\t10\tr0\t0\t+\n"
//! );
//! assert_eq!(panel.read_bed(&names, mosaic.family(), &bed)?, mosaic);
//! # Ok::<(), Box<dyn std::error::Error>>(())
//! ```
//!
//! # A lower bound
//!
//! [`lower_bound`] takes counts and a background, and no panel: what the original reports beside
//! its best score as a floor of all scores of its model.
//!
//! # Stack
//!
//! The calls keep their tables on the stack, up to half a MiB; the plain listing, whose search is
//! a recursion of bounded depth, needs up to 1.55 MB of it (x86-64). On a thread with a smaller stack
//! than that they end at its guard page, as too deep a recursion in Rust does.

mod bed;
mod bound;
mod builder;
mod evaluate;
mod exports;
mod graph;
mod job;
mod letters;
mod listing;
mod page;
mod plain;
mod refusal;
mod search;
mod sheet;
mod storage;

pub use bed::{Names, NamesError};
pub use bound::lower_bound;
pub use builder::{BuildError, PanelBuilder};
pub use evaluate::{Assignment, Segment};
pub use graph::{Lane, Panel};
pub use job::Job;
pub use letters::Letters;
pub use listing::Assignments;
pub use plain::PlainAssignments;
pub use refusal::Refusal;
pub use search::{Progress, SearchBudget};
pub use sheet::{Counters, Frame, Scored, Sheet, Status};
pub use storage::{Port, Word};
