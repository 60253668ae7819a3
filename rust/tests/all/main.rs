//! The crate from outside, over the archive that it is linked to.
mod bed;
mod bounds;
mod builder;
mod certified;
mod examples;
mod larger;
mod letters;
mod panel_e;
mod plain;
mod random;
mod recorded;
mod refusals;
