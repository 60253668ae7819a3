//! What "certified" says (certificate/specs/Sentence.antt), over a scoring function.
use crate::{
    panel_e::{builder_e, panel_e},
    plain::scattered,
    random::Rng,
};
use panel_routes::{Assignment, Panel, PanelBuilder, SearchBudget, Sheet, Status};
use std::collections::{HashMap, HashSet};

fn words(sheet: &Sheet) -> Vec<&[u64]> {
    sheet.optima.iter().map(|o| o.assignment.words()).collect()
}

/// Whether the list is in the order in which its assignments are first listed.
fn in_order(panel: &Panel, budget: SearchBudget, sheet: &Sheet) -> bool {
    let mut first = HashMap::new();
    for (n, a) in panel.assignments(budget).unwrap().enumerate() {
        first.entry(a).or_insert(n);
    }
    sheet.optima.windows(2).all(|two| first[&two[0].assignment] < first[&two[1].assignment])
}

#[test]
fn zeros_of_both_signs_are_one_score() {
    let panel = panel_e();
    for scores in [[0.0, -0.0, 4.0], [-0.0, 0.0, 4.0], [4.0, 4.0, -0.0], [0.0, -0.0, -0.0]] {
        let sheet = panel.search_with_scores(SearchBudget::default(), &scores).unwrap();
        assert_eq!(sheet.status, Status::Certified);
        // The score that is kept is the lent one, to the bit.
        let lent = scores[if scores[0] == 4.0 { 2 } else { 0 }];
        assert_eq!(sheet.incumbent.as_ref().unwrap().score.to_bits(), f64::to_bits(lent));
        assert_eq!(sheet.optima.len(), if scores[2] == 0.0 && scores[0] == 0.0 { 2 } else { 1 });
    }
}

/// With one discarded, the third native finds no room when it is seeded; the mosaic, which scores
/// lower, makes room; the walk hands the native over again.
#[test]
fn with_one_discarded_the_order_is_not_kept() {
    let panel = builder_e().family([1]).family([0]).build().unwrap();
    let budget = SearchBudget { max_optima: 2, tie_width: 1.0, ..SearchBudget::default() };
    let score = |a: &Assignment| match (a.family(), a.switches()) {
        (0, 2) => 3.5,
        (2, 0) => 4.5,
        _ => 5.0,
    };
    let sheet = panel.search(budget, score).unwrap();
    assert_eq!(sheet.status, Status::SupportIncomplete);
    let mosaic = [0, 1, 3, 0, 0, 4, 0, 1, 6, 8, 0, 0, 7, 10, 0];
    assert_eq!(words(&sheet), [&mosaic[..], &[2, 1, 1, 0, 0, 10, 0]]);
    assert!(!in_order(&panel, budget, &sheet));
    // With room for all that ever tied nothing is discarded, and the order is kept.
    let roomy = SearchBudget { max_optima: 3, ..budget };
    let sheet = panel.search(roomy, score).unwrap();
    assert_eq!(sheet.status, Status::Certified);
    assert_eq!(words(&sheet), [&[2, 1, 1, 0, 0, 10, 0], &mosaic[..]]);
    assert!(in_order(&panel, roomy, &sheet));
}

#[test]
fn without_a_family_there_is_nothing_to_certify() {
    let panel = PanelBuilder::new(1).lane(1, 0).build().unwrap();
    let sheet = panel.search(SearchBudget::default(), |_| unreachable!()).unwrap();
    assert_eq!((sheet.status, sheet.incumbent, sheet.optima.len()), (Status::Certified, None, 0));
    assert_eq!(panel.assignments(SearchBudget::default()).unwrap().count(), 0);
}

/// Scores that are often equal, zeros of both signs among them.
fn score(turn: u64, a: &Assignment) -> f64 {
    let palette = [0.0, -0.0, 0.5, 1.0, 1.0 + f64::EPSILON, 2.0, -3.0];
    let hash = a.words().iter().fold(turn, |h, w| (h ^ w).wrapping_mul(0x100_0000_01B3));
    palette[(hash >> 7) as usize % palette.len()]
}

/// The best and its ties by f, of all legal assignments as the plain engine lists them.
fn is_best(panel: &Panel, budget: SearchBudget, sheet: &Sheet, f: impl Fn(&Assignment) -> f64) {
    let legal: HashSet<Assignment> = panel.plain_assignments().unwrap().collect();
    let best = sheet.incumbent.as_ref().unwrap();
    let tied = |a: &Assignment| f(a) - f(&best.assignment) <= budget.tie_width;
    assert!(legal.contains(&best.assignment) && best.score == f(&best.assignment));
    assert!(legal.iter().all(|a| f(a) >= f(&best.assignment)));
    for o in &sheet.optima {
        assert!(legal.contains(&o.assignment) && tied(&o.assignment) && o.score == f(&o.assignment));
    }
    assert_eq!(words(sheet).iter().collect::<HashSet<_>>().len(), sheet.optima.len());
    if sheet.status == Status::Certified {
        assert_eq!(sheet.optima.len(), legal.iter().filter(|a| tied(a)).count());
        assert!(in_order(panel, budget, sheet));
    }
}

#[test]
fn the_best_of_all_by_any_scoring_function() {
    let (mut certified, mut incomplete, mut ties) = (0, 0, 0);
    for seed in 0..80 {
        let mut rng = Rng(seed);
        let panel = scattered(&mut rng);
        let turn = rng.below(1_000);
        for (max_optima, tie_width) in [(1, 0.5), (2, 1.0), (64, 0.0), (64, 1.0)] {
            let budget = SearchBudget { max_work: 2_000, max_optima, tie_width, ..SearchBudget::default() };
            let sheet = panel.search(budget, |a| score(turn, a)).unwrap();
            match sheet.status {
                Status::Certified => certified += u64::from(sheet.incumbent.is_some()),
                Status::SupportIncomplete => incomplete += 1,
                _ => continue,
            }
            if sheet.incumbent.is_some() {
                is_best(&panel, budget, &sheet, |a| score(turn, a));
                ties += u64::from(sheet.status == Status::Certified && sheet.optima.len() > 1);
            }
        }
    }
    assert!(certified > 100 && incomplete > 20 && ties > 20, "{certified} {incomplete} {ties}");
}
