//! 01's proved examples that need a walk, P6 to P11, and panel E's sheet.
use crate::{
    judge,
    rules::DEFAULT_BUDGET,
    spec::{job, Spec},
};

pub const SHEET_E: &str = "\
status domain-exhausted-optimum-and-correlated-support-certified
work 21
evaluations 3
natives 1
donors 6
non-native 1
mixed 1
mixed-identity 1
switches 2
families 1
optima 1
foreign 2
route 0 0 0 4 +
route 0 1 6 8 +
route 0 0 7 10 +
";

const SCORES: [f64; 3] = [5.0, 5.0, 4.0];

/// The job of an example by its name in 01; a variant follows a dot.
pub fn named(name: &str) -> Option<Vec<u8>> {
    let e = Spec::panel_e();
    let mut b = DEFAULT_BUDGET;
    match name {
        "E" => return Some(job(&e.image(), None, &SCORES)),
        "P6" => b[0] = 21,
        "P6.20" => b[0] = 20,
        "P7" => b[1] = 4,
        "P7.3" => b[1] = 3,
        "P8" => (b[0], b[1]) = (9, 3),
        "P9" => b[2] = 2,
        "P10" => b[4] = 1f64.to_bits(),
        "P10.1" => (b[3], b[4]) = (1, 1f64.to_bits()),
        "P11" => {
            let two = Spec { families: vec![vec![0], vec![1]], ..e };
            (b[0], b[1]) = (1, 1);
            return Some(job(&two.image(), Some(b), &SCORES));
        }
        _ => return None,
    }
    Some(job(&e.image(), Some(b), &SCORES))
}

pub const NAMES: [&str; 10] = ["E", "P6", "P6.20", "P7", "P7.3", "P8", "P9", "P10", "P10.1", "P11"];

/// Holds the original to each example; the first line that is missing is the error.
pub fn check() -> Result<(), String> {
    let wanted: [(&str, &[&str]); 9] = [
        ("P6", &["status domain-exhausted-optimum-and-correlated-support-certified", "work 21", "frames 0"]),
        ("P6.20", &["status work-budget-exhausted", "work 20", "frames 1", "pending 0"]),
        ("P7", &["status domain-exhausted-optimum-and-correlated-support-certified", "frames 0"]),
        ("P7.3", &["status evaluation-budget-exhausted", "work 9", "evaluations 3", "frames 3"]),
        ("P8", &["status work-budget-exhausted", "work 9", "evaluations 3"]),
        (
            "P9",
            &[
                "status frontier-budget-exhausted",
                "work 8",
                "evaluations 2",
                "donors 3",
                "frames 2",
                "pending 1",
                "frame 0 0 7 0 1 0 0 0 6 8",
            ],
        ),
        (
            "P10",
            &[
                "optima 2",
                "tied 4014000000000000 0 1 1 0 0 10 0",
                "tied 4010000000000000 0 1 3 0 0 4 0 1 6 8 0 0 7 10 0",
            ],
        ),
        (
            "P10.1",
            &[
                "status domain-exhausted-optimum-certified-support-incomplete",
                "optima 1",
                "tied 4014000000000000 0 1 1 0 0 10 0",
                "discarded 1",
            ],
        ),
        ("P11", &["status evaluation-budget-exhausted", "natives 1", "families 0", "frames 0"]),
    ];
    if judge::sheet(&named("E").unwrap()) != SHEET_E {
        return Err("panel E's sheet differs".into());
    }
    for (name, lines) in wanted {
        let text = judge::full(&named(name).unwrap());
        for line in lines {
            if !text.lines().any(|l| l == *line) {
                return Err(format!("{name}: no line \"{line}\" in\n{text}"));
            }
        }
    }
    Ok(())
}
