//! A larger budget only adds (document 02, item 13), on panel E with a second family.
use crate::panel_e::builder_e;
use panel_routes::{Assignment, SearchBudget, Sheet, Status};

struct Run {
    budget: SearchBudget,
    listed: Vec<Assignment>,
    sheet: Sheet,
}

impl Run {
    fn exhausted(&self) -> bool {
        matches!(self.sheet.status, Status::Certified | Status::SupportIncomplete)
    }
}

fn no_smaller(b: &SearchBudget, c: &SearchBudget) -> bool {
    b.max_work <= c.max_work
        && b.max_evaluations <= c.max_evaluations
        && b.max_frontier <= c.max_frontier
        && b.max_optima <= c.max_optima
        && b.tie_width == c.tie_width
}

/// Mosaics score lower than natives, the second family's lower than the first's.
fn score(a: &Assignment) -> f64 {
    8.0 - a.switches() as f64 - a.family() as f64 / 2.0
}

fn runs() -> Vec<Run> {
    let panel = builder_e().family([1]).build().unwrap();
    let mut runs = Vec::new();
    for max_work in [1, 10, 24, 100] {
        for max_evaluations in [1, 4, 7] {
            for max_frontier in [1, 2, 3] {
                for max_optima in [1, 8] {
                    for tie_width in [0.0, -0.0, 2.0] {
                        let budget =
                            SearchBudget { max_work, max_evaluations, max_frontier, max_optima, tie_width };
                        let listed = panel.assignments(budget).unwrap().collect();
                        runs.push(Run { budget, listed, sheet: panel.search(budget, score).unwrap() });
                    }
                }
            }
        }
    }
    runs
}

#[test]
fn a_larger_budget_only_adds() {
    let runs = runs();
    let (mut stopped, mut lower, mut exhausted, mut completed) = (0, 0, 0, 0);
    for b in &runs {
        for c in runs.iter().filter(|c| no_smaller(&b.budget, &c.budget)) {
            let (old, new) = (&b.sheet, &c.sheet);
            assert!(c.listed.starts_with(&b.listed));
            let (i, j) = (old.incumbent.as_ref().unwrap(), new.incumbent.as_ref().unwrap());
            assert!(j.score < i.score || j == i);
            let alike = b.budget.max_optima == c.budget.max_optima;
            assert!(!alike || !old.discarded || new.discarded);
            if !b.exhausted() {
                stopped += 1;
                lower += usize::from(j != i);
                continue;
            }
            exhausted += 1;
            assert!(c.exhausted() && new.counters == old.counters && j == i);
            assert!(old.optima.iter().all(|o| new.optima.contains(o)));
            completed += usize::from(new.status != old.status);
            if alike || !old.discarded {
                assert_eq!(new, old);
            }
        }
    }
    assert!(stopped > 0 && lower > 0 && exhausted > 0 && completed > 0);
}
