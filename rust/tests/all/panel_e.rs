//! Panel E, as document 01 has it.
use panel_routes::{Panel, PanelBuilder, Refusal};

pub fn builder_e() -> PanelBuilder {
    let mut builder = PanelBuilder::new(2);
    builder.lane(10, 0).lane(10, 1).family([0]);
    builder.port("AC", 0, 3, false).port("AC", 1, 5, false);
    builder.port("GG", 0, 6, false).port("GG", 1, 7, false);
    builder
}

pub fn panel_e() -> Panel<'static> {
    builder_e().build().unwrap()
}

pub const SCORES: [f64; 3] = [5.0, 5.0, 4.0];

pub fn refused<T>(found: Result<T, Refusal>) -> Option<(u64, u64)> {
    found.err().map(|r| (r.number(), r.place()))
}
