//! Document 01's proved examples, and what a search asks of its caller.
use crate::panel_e::{builder_e, panel_e, SCORES};
use panel_routes::{Assignment, Port, Progress, SearchBudget, Segment, Sheet, Status, Word};
use std::collections::HashSet;

fn walked(budget: SearchBudget) -> Sheet {
    panel_e().search_with_scores(budget, &SCORES).unwrap()
}

fn segment(source: u64, start: u64, end: u64, reverse: bool) -> Segment {
    Segment { source, start, end, reverse }
}

#[test]
fn p1_and_p2_cuts() {
    let port = |reverse| Port { word: Word::new("ACGTA").unwrap(), source: 0, anchor: 7, reverse };
    assert_eq!([port(false).cut(), port(true).cut()], [9, 10]);
    let mut builder = panel_routes::PanelBuilder::new(5);
    let panel = builder.lane(20, 0).port("ACGTA", 0, 0, false).port("ACGTA", 0, 7, true).build().unwrap();
    assert_eq!(panel.port_at_cut(0, 1, false), Ok(None));
    assert_eq!(panel.port_at_cut(0, 2, false).unwrap().unwrap().anchor, 0);
    assert_eq!(panel.port_at_cut(0, 10, true), Ok(Some(port(true))));
}

#[test]
fn p4_normal_form() {
    let panel = panel_routes::PanelBuilder::new(1).lane(9, 0).family([0]).build().unwrap();
    let given = Assignment::new(0, [[segment(0, 0, 4, false), segment(0, 4, 9, false)]]).unwrap();
    let whole = Assignment::new(0, [[segment(0, 0, 9, false)]]).unwrap();
    assert_eq!(panel.check_assignment(&given), Ok(whole));
}

#[test]
fn p5_buckets() {
    let panel = panel_e();
    for (word, bucket) in [("AA", 0..0), ("AC", 0..2), ("AT", 2..2), ("GG", 2..4)] {
        assert_eq!(panel.hub_bucket(word), Ok(bucket.clone()));
        let members =
            panel.global_ports().skip(bucket.start as usize).take((bucket.end - bucket.start) as usize);
        assert!(members.into_iter().all(|p| p.word.as_str() == word));
    }
}

#[test]
fn p6_work() {
    let budget = SearchBudget::default();
    let sheet = walked(SearchBudget { max_work: 21, ..budget });
    assert_eq!((sheet.status, sheet.frames.len()), (Status::Certified, 0));
    let sheet = walked(SearchBudget { max_work: 20, ..budget });
    assert_eq!((sheet.status, sheet.frames.len()), (Status::WorkExhausted, 1));
    assert_eq!(sheet.status.as_str(), "work-budget-exhausted");
}

#[test]
fn p7_and_p8_evaluations() {
    let budget = SearchBudget::default();
    assert_eq!(walked(SearchBudget { max_evaluations: 4, ..budget }).status, Status::Certified);
    let sheet = walked(SearchBudget { max_evaluations: 3, ..budget });
    assert_eq!(sheet.status.to_string(), "evaluation-budget-exhausted");
    assert_eq!((sheet.counters.work, sheet.frames.len()), (9, 3));
    let sheet = walked(SearchBudget { max_work: 9, max_evaluations: 3, ..budget });
    assert_eq!(sheet.status, Status::WorkExhausted);
}

#[test]
fn p9_frontier() {
    let sheet = walked(SearchBudget { max_frontier: 2, ..SearchBudget::default() });
    assert_eq!(sheet.status.as_str(), "frontier-budget-exhausted");
    let c = sheet.counters;
    assert_eq!((c.work, c.evaluations, c.donors, sheet.frames.len()), (8, 2, 3, 2));
    let child = sheet.pending.unwrap();
    assert_eq!((child.source, child.cut, child.terminal_pending), (0, 7, true));
    assert_eq!((child.start, child.end), (6, 8));
    let root = sheet.frames[0];
    assert_eq!((root.slot, root.source, root.cut, root.start, root.end), (0, 0, 0, 0, 0));
}

#[test]
fn p10_ties() {
    let budget = SearchBudget { tie_width: 1.0, ..SearchBudget::default() };
    let sheet = walked(budget);
    assert_eq!(sheet.status, Status::Certified);
    let kept: Vec<(f64, u64)> = sheet.optima.iter().map(|o| (o.score, o.assignment.switches())).collect();
    assert_eq!(kept, [(5.0, 0), (4.0, 2)]);
    let sheet = walked(SearchBudget { max_optima: 1, ..budget });
    assert_eq!(sheet.status.as_str(), "domain-exhausted-optimum-certified-support-incomplete");
    assert!(sheet.discarded);
    assert_eq!(sheet.optima.len(), 1);
    assert_eq!(sheet.optima[0].assignment.switches(), 0);
}

#[test]
fn p11_stopped_while_seeding() {
    let two = builder_e().family([1]).build().unwrap();
    let budget = SearchBudget { max_work: 1, max_evaluations: 1, ..SearchBudget::default() };
    let sheet = two.search_with_scores(budget, &SCORES).unwrap();
    assert_eq!((sheet.status, sheet.frames.len()), (Status::EvaluationExhausted, 0));
    assert_eq!(two.assignments(budget).unwrap().status(), Status::EvaluationExhausted);
}

#[test]
fn no_family() {
    let panel = panel_routes::PanelBuilder::new(1).lane(1, 0).build().unwrap();
    let sheet = panel.search(SearchBudget::default(), |_| unreachable!()).unwrap();
    assert_eq!((sheet.status, sheet.incumbent.clone(), sheet.foreign), (Status::Certified, None, 0));
    assert!(sheet.to_string().ends_with("optima 0\nforeign 0\n"));
}

#[test]
fn each_assignment_is_scored_once() {
    let panel = builder_e().family([1]).build().unwrap();
    let budget = SearchBudget::default();
    let listed: Vec<Assignment> = panel.assignments(budget).unwrap().collect();
    let different: HashSet<&Assignment> = listed.iter().collect();
    assert!(different.len() < listed.len());
    let (mut seen, mut told) = (Vec::new(), Vec::new());
    let score = |a: &Assignment| {
        seen.push(a.clone());
        seen.len() as f64
    };
    let sheet = panel.search_with_progress(budget, score, |p| told.push(p)).unwrap();
    assert_eq!(seen.len(), different.len());
    assert_eq!(seen.iter().collect::<HashSet<_>>(), different);
    let evaluations = listed.len() as u64;
    assert!(told.iter().copied().eq((1..=evaluations).map(|scored| Progress { scored, evaluations })));
    // The same by hand: each assignment with the score of its first time.
    let first = |a: &Assignment| 1.0 + seen.iter().position(|s| s == a).unwrap() as f64;
    let scores: Vec<f64> = listed.iter().map(first).collect();
    assert_eq!(panel.search_with_scores(budget, &scores), Ok(sheet));
}

#[test]
fn what_the_walk_lists_is_legal_and_normal() {
    let panel = builder_e().family([1, 0]).build().unwrap();
    for assignment in panel.assignments(SearchBudget::default()).unwrap() {
        assert_eq!(panel.check_assignment(&assignment).as_ref(), Ok(&assignment));
        let routes: Vec<Vec<Segment>> = assignment.routes().map(Iterator::collect).collect();
        assert_eq!(Assignment::new(assignment.family(), routes), Ok(assignment));
    }
}

#[test]
fn entry_and_exit() {
    let forward = segment(3, 4, 9, false);
    assert_eq!((forward.entry(), forward.exit(), forward.bases()), (4, 9, 5));
    let reverse = segment(3, 4, 9, true);
    assert_eq!((reverse.entry(), reverse.exit(), reverse.to_string().as_str()), (9, 4, "3 4 9 -"));
}
