//! The panel check on every spread of ports, and 31 on every order of segments.
use crate::{
    side_by_side,
    table::{Row, Table},
    tuned, SEED,
};
use oracle::{
    gen::Rng,
    pieces::{self, Order},
    spread::{self, Shape, Spread, SPREADS},
};
use panel_routes::{Assignment, Panel};

const MILLION: u64 = 1_000_000;
const MOST: u64 = 4_194_304;

fn check(table: &mut Table, name: &str, shape: Shape) {
    let image = spread::panel(&mut Rng::new(SEED, 17, shape.ports), &shape).image();
    let megabytes = image.len() as f64 / 1e6;
    let (ours, sound, tuned, same) =
        side_by_side(|| Panel::new(&image[..]).is_ok(), || tuned::check(&image).is_ok());
    assert!(sound && same);
    table.put(Row::new(format!("panel check, {name}, {megabytes:.1} MB"), ours).tuned(tuned));
}

/// The ports of one lane are on the longest one that there may be, those of several on lanes of a hundred
/// bases a port.
fn shape(ports: u64, lanes: u64, spread: Spread) -> Shape {
    let length = if lanes == 1 { u64::from(u32::MAX) } else { 100 * (ports / lanes + 1) };
    Shape { ports, lanes, length, k: 16, words: 0, spread }
}

/// One route in so many segments, its two ends included; the panel's check is a part of it.
fn assignment(table: &mut Table, name: &str, lanes: u64, order: Order) {
    const SEGMENTS: u64 = 16_383;
    let each = (SEGMENTS - 2).div_ceil(lanes);
    let mut rng = Rng::new(SEED, 18, lanes);
    let words = pieces::words(&mut rng, [lanes, each, 1], order, SEGMENTS as usize - 2, 0);
    let image = pieces::panel(lanes, each, 1).image();
    let panel = Panel::new(&image[..]).unwrap();
    let given = Assignment::from_words(words.clone()).unwrap();
    let (ours, legal, tuned, same) = side_by_side(
        || panel.check_assignment(&given).is_ok(),
        || tuned::check(&image).is_ok_and(|panel| panel.check_assignment(&words).is_ok()),
    );
    assert!(legal && same);
    table.put(Row::new(format!("assignment check, 16,383 segments, {name}"), ours).tuned(tuned));
}

pub fn rows(table: &mut Table) {
    use Spread::{Even, Start, Uniform};
    check(table, "4,096 lanes, 20,479 ports", shape(20_479, 4096, Uniform));
    for spread in [Even, Uniform] {
        check(table, &format!("64 lanes, 1,000,000 ports, {}", spread.name()), shape(MILLION, 64, spread));
    }
    for spread in SPREADS {
        check(table, &format!("one lane, 1,000,000 ports, {}", spread.name()), shape(MILLION, 1, spread));
    }
    for spread in [Uniform, Start] {
        check(table, &format!("one lane, 4,194,304 ports, {}", spread.name()), shape(MOST, 1, spread));
    }
    check(table, "4,096 lanes, 1,000,000 ports, anywhere", shape(MILLION, 4096, Uniform));
    check(
        table,
        "64 lanes, 1,000,000 ports of 200 words",
        Shape { words: 200, ..shape(MILLION, 64, Uniform) },
    );
    check(table, "64 lanes, 1,000,000 ports, k 12", Shape { k: 12, ..shape(MILLION, 64, Uniform) });

    assignment(table, "one lane, rising", 1, Order::Rising);
    assignment(table, "one lane, falling", 1, Order::Falling);
    assignment(table, "one lane, the last first", 1, Order::LastFirst);
    assignment(table, "one lane, no order", 1, Order::Shuffled);
    assignment(table, "four lanes, no order", 4, Order::Shuffled);
    assignment(table, "4,096 lanes in turns", 4096, Order::Turns);
    assignment(table, "4,096 lanes, no order", 4096, Order::Shuffled);
}
