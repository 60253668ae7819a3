use crate::{exports, Refusal};

/// A double that is at most minus the sum of (c - background)^2 / background, over the counts c
/// above the background.
///
/// That it is so is proved over whole numbers, whatever the roundings: each operation is followed
/// by a step to the next double outward. `None`: the running bound went past the lowest double, and
/// no bound is given. No counts give 0.0.
///
/// The counts are taken in their order. In another order the last digits may differ, and near the
/// lowest double one order may give a bound where another gives none; each that is given is a
/// bound. A count of 0 takes nothing off. That no score of a likelihood lies below minus that sum
/// is a matter of its model: the original says so of its own, and it is not proved here.
///
/// Refusal 43: a count of 2^53 or more, or a background that is not finite or not above 0.
///
/// ```
/// // Minus a third; the nearest double would be too high.
/// let bound = panel_routes::lower_bound(&[4], 3.0)?;
/// assert_eq!(bound, Some(-0.33333333333333426));
///
/// assert_eq!(panel_routes::lower_bound(&[], 3.0)?, Some(0.0));
/// assert_eq!(panel_routes::lower_bound(&[5], 5e-324)?, None);
/// assert_eq!(panel_routes::lower_bound(&[5], 0.0).unwrap_err().number(), 43);
/// # Ok::<(), panel_routes::Refusal>(())
/// ```
pub fn lower_bound(counts: &[u64], background: f64) -> Result<Option<f64>, Refusal> {
    exports::lower_bound(counts, background)
}
