//! Every refusal of document 01's table that the crate's types allow, on panel E; and 02's.
//! 13 and 21 cannot be reached through them; they are tested beside the exported calls.
use crate::panel_e::{builder_e, panel_e, refused, SCORES};
use panel_routes::{lower_bound, Assignment, Job, Panel, SearchBudget};

/// Byte offsets in panel E's image.
const LANES: usize = 80;
const FAMILIES: usize = LANES + 2 * 24;
const PATHS: usize = FAMILIES + 8;
const LANE_PORTS: usize = PATHS + 8;
const RECORD: usize = 2 + 17;
const GLOBAL_PORTS: usize = LANE_PORTS + 4 * RECORD;

fn with_word(at: usize, value: u64) -> Option<(u64, u64)> {
    let mut image = panel_e().image().to_vec();
    image[at..at + 8].copy_from_slice(&value.to_le_bytes());
    refused(Panel::new(image))
}

fn with_byte(at: usize, value: u8) -> Option<(u64, u64)> {
    let mut image = panel_e().image().to_vec();
    image[at] = value;
    refused(Panel::new(image))
}

fn with_swapped(a: usize, b: usize) -> Option<(u64, u64)> {
    let mut image = panel_e().image().to_vec();
    (0..RECORD).for_each(|i| image.swap(a + i, b + i));
    refused(Panel::new(image))
}

#[test]
fn panels() {
    let panel = panel_e();
    assert_eq!(refused(Panel::new(panel.image())), None);
    assert_eq!(refused(Panel::new(&panel.image()[..79])), Some((1, 0)));
    assert_eq!(refused(Panel::new(vec![])), Some((1, 0)));
    for (word, value) in [(0, 0), (0, 33), (1, 0), (1, 4_097), (2, 4_097), (3, 65), (4, 4_194_305)] {
        assert_eq!(with_word(8 * word, value), Some((2, 0)), "header word {word}");
    }
    for word in 5..10 {
        assert_eq!(with_word(8 * word, 81), Some((3, 0)), "header word {word}");
    }
    assert_eq!(refused(Panel::new([panel.image(), &[0]].concat())), Some((3, 0)));
    assert_eq!(with_word(LANES, 0), Some((4, 0)));
    assert_eq!(with_word(LANES, 1 << 32), Some((4, 0)));
    assert_eq!(with_word(LANES + 8, 3), Some((4, 0)));
    assert_eq!(with_word(FAMILIES, 0), Some((5, 0)));
    assert_eq!(with_word(FAMILIES, 65), Some((5, 0)));
    assert_eq!(with_word(PATHS, 2), Some((5, 0)));
    assert_eq!(with_byte(LANE_PORTS, b'N'), Some((6, 0)));
    assert_eq!(with_byte(LANE_PORTS + RECORD - 1, 2), Some((6, 0)));
    assert_eq!(with_word(LANE_PORTS + 2, 1), Some((6, 0)));
    assert_eq!(with_word(GLOBAL_PORTS + 2, 2), Some((6, 0)));
    assert_eq!(with_word(LANE_PORTS + 10, 9), Some((6, 0)));
    assert_eq!(with_swapped(LANE_PORTS, LANE_PORTS + RECORD), Some((7, 0)));
    assert_eq!(with_swapped(GLOBAL_PORTS, GLOBAL_PORTS + RECORD), Some((7, 0)));
    assert_eq!(with_word(GLOBAL_PORTS + 10, 4), Some((8, 0)));
}

#[test]
fn lookups() {
    let panel = panel_e();
    assert_eq!(refused(panel.port_at_cut(2, 4, false)), Some((9, 0)));
    assert_eq!(refused(panel.port_at_cut(u64::MAX, u64::MAX, true)), Some((9, 0)));
    for word in ["", "A", "ACG"] {
        assert_eq!(refused(panel.hub_bucket(word)), Some((10, 0)));
    }
}

#[test]
fn budgets_and_scores() {
    let panel = panel_e();
    let default = SearchBudget::default();
    let refusals = |budget: SearchBudget| {
        let walked = refused(panel.search_with_scores(budget, &SCORES));
        assert_eq!(walked, refused(panel.assignments(budget)));
        assert_eq!(walked, refused(panel.search(budget, |_| 0.0)));
        walked
    };
    assert_eq!(refusals(default), None);
    assert_eq!(refusals(SearchBudget { tie_width: -0.0, ..default }), None);
    for budget in [
        SearchBudget { max_work: 0, ..default },
        SearchBudget { max_evaluations: 0, ..default },
        SearchBudget { max_frontier: 0, ..default },
        SearchBudget { max_optima: 0, ..default },
        SearchBudget { tie_width: f64::NAN, ..default },
        SearchBudget { tie_width: f64::INFINITY, ..default },
        SearchBudget { tie_width: -1e-300, ..default },
        SearchBudget { max_frontier: u64::MAX, max_optima: 0, ..default },
    ] {
        assert_eq!(refusals(budget), Some((11, 0)), "{budget:?}");
    }
    for most in [1_025, u64::MAX] {
        assert_eq!(refusals(SearchBudget { max_frontier: most, ..default }), Some((12, 0)));
        assert_eq!(refusals(SearchBudget { max_optima: most, ..default }), Some((12, 0)));
    }
    let scored = |scores: &[f64]| refused(panel.search_with_scores(default, scores));
    assert_eq!(scored(&[]), Some((14, 1)));
    assert_eq!(scored(&[5.0, 5.0]), Some((14, 3)));
    assert_eq!(scored(&[5.0, f64::NAN, 4.0]), Some((15, 2)));
    assert_eq!(scored(&[5.0, 5.0, f64::INFINITY]), Some((15, 3)));
    assert_eq!(scored(&[5.0, f64::NAN]), Some((15, 2)));
}

#[test]
fn a_score_that_is_not_finite_ends_the_scoring() {
    let panel = panel_e();
    let mut asked = 0;
    let found = panel.search(SearchBudget::default(), |_| {
        asked += 1;
        f64::NAN
    });
    assert_eq!(refused(found), Some((15, 1)));
    assert_eq!(asked, 1);
    let mosaic = |switches: u64| if switches > 0 { f64::NEG_INFINITY } else { 1.0 };
    let found = panel.search(SearchBudget::default(), |a| mosaic(a.switches()));
    assert_eq!(refused(found), Some((15, 3)));
}

#[test]
fn jobs() {
    let job = Job { panel: panel_e(), budget: None, scores: SCORES.to_vec() };
    let bytes = job.to_bytes().unwrap();
    assert_eq!(Job::from_bytes(&bytes), Ok(job.clone()));
    assert_eq!(refused(Job::from_bytes(&bytes[..23])), Some((16, 0)));
    assert_eq!(refused(Job::from_bytes(&bytes[..bytes.len() - 1])), Some((16, 0)));
    assert_eq!(refused(Job::from_bytes(&[&bytes[..], &[0]].concat())), Some((16, 0)));
    for (at, value) in [(0, u64::MAX), (8, 1), (8, 1 << 61), (16, 1_025), (16, u64::MAX)] {
        let mut other = bytes.clone();
        other[at..at + 8].copy_from_slice(&value.to_le_bytes());
        assert_eq!(refused(Job::from_bytes(&other)), Some((16, 0)), "{value} at {at}");
    }
    let long = Job { scores: vec![0.0; 1_025], ..job.clone() };
    assert_eq!(refused(long.to_bytes()), Some((16, 0)));
    let mut wrong = bytes;
    wrong[24..32].copy_from_slice(&33u64.to_le_bytes());
    assert_eq!(refused(Job::from_bytes(&wrong)), Some((2, 0)));
}

/// What the check says of words, once they are well formed.
fn checked(panel: &Panel, words: &[u64]) -> Option<(u64, u64)> {
    refused(Assignment::from_words(words).and_then(|a| panel.check_assignment(&a)))
}

#[test]
fn assignments() {
    let panel = panel_e();
    let route =
        |segments: &[[u64; 4]]| [&[0, 1, segments.len() as u64], segments.concat().as_slice()].concat();
    let one = |segments: &[[u64; 4]]| checked(&panel, &route(segments));
    assert_eq!(one(&[[0, 0, 10, 0]]), None);
    assert_eq!(one(&[[0, 0, 4, 0], [1, 6, 8, 0], [0, 7, 10, 0]]), None);
    for malformed in
        [&[][..], &[0], &[0, 1], &[0, 1, 1, 0, 0, 10], &[0, 1, 1, 0, 0, 10, 2], &[0, 0, 0], &[0, 1, u64::MAX]]
    {
        assert_eq!(checked(&panel, malformed), Some((22, 0)), "{malformed:?}");
    }
    let long = [&[0, 1, 16_384][..], &[0, 0, 10, 0].repeat(16_384)].concat();
    assert_eq!(checked(&panel, &long), Some((22, 0)));
    assert_eq!(checked(&panel, &[1, 1, 1, 0, 0, 10, 0]), Some((23, 0)));
    assert_eq!(checked(&panel, &[0, 0]), Some((24, 0)));
    assert_eq!(one(&[]), Some((25, 0)));
    assert_eq!(one(&[[2, 0, 10, 0]]), Some((26, 0)));
    assert_eq!(one(&[[0, 4, 4, 0]]), Some((26, 0)));
    assert_eq!(one(&[[0, 0, 11, 0]]), Some((26, 0)));
    assert_eq!(one(&[[0, 0, 9, 0]]), Some((27, 0)));
    assert_eq!(one(&[[0, 0, 10, 1]]), Some((27, 0)));
    assert_eq!(one(&[[0, 0, 3, 0], [0, 4, 10, 0]]), Some((28, 0)));
    assert_eq!(one(&[[0, 0, 4, 0], [0, 5, 10, 0]]), Some((29, 0)));
    assert_eq!(one(&[[0, 0, 4, 0], [0, 7, 10, 0]]), Some((30, 0)));
}

#[test]
fn a_refusal_in_a_later_route_names_it() {
    let two = builder_e().family([0, 1]).build().unwrap();
    let words = |second: [u64; 4]| [&[1, 2, 1, 0, 0, 10, 0, 1][..], &second].concat();
    assert_eq!(checked(&two, &words([1, 0, 10, 0])), None);
    assert_eq!(checked(&two, &words([1, 0, 9, 0])), Some((27, 1)));
    assert_eq!(checked(&two, &words([1, 0, 11, 0])), Some((26, 1)));
    // Both routes whole, the second by way of lane 0.
    let overlap = [1, 2, 1, 0, 0, 10, 0, 3, 1, 0, 6, 0, 0, 4, 7, 0, 1, 8, 10, 0];
    assert_eq!(checked(&two, &overlap), Some((31, 0)));
}

#[test]
fn the_message_is_the_documents() {
    let panel = panel_e();
    let refusal = panel.search_with_scores(SearchBudget::default(), &[5.0, 5.0]).unwrap_err();
    assert_eq!(refusal.message(), "an evaluation has no score in the list");
    assert_eq!(refusal.to_string(), "refused 14 3: an evaluation has no score in the list");
    let error: Box<dyn std::error::Error> = Box::new(refusal);
    assert!(error.to_string().starts_with("refused 14 3"));
}

#[test]
fn bounds() {
    let top = 1 << 53;
    for counts in [&[top][..], &[1, top + 1, 2], &[u64::MAX], &[5, top]] {
        for background in [1.0, f64::from_bits(1)] {
            assert_eq!(refused(lower_bound(counts, background)), Some((43, 0)));
        }
    }
    for background in
        [0.0, -0.0, -1.0, -f64::from_bits(1), f64::INFINITY, -f64::INFINITY, f64::NAN, -f64::NAN]
    {
        for counts in [&[][..], &[3]] {
            assert_eq!(refused(lower_bound(counts, background)), Some((43, 0)));
        }
    }
    assert_eq!(refused(lower_bound(&[top - 1], 1.0)), None);
    let said = lower_bound(&[], 0.0).unwrap_err().to_string();
    assert!(said.starts_with("refused 43 0: lower bound: "), "{said}");
}
