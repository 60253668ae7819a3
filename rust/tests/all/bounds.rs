//! The lower bound (document 02, item 12), held to its sum over whole numbers.
use panel_routes::lower_bound;

/// Whether a finite double is at most -(sum / scale).
fn is_at_most_minus(bound: f64, sum: u128, scale: u128) -> bool {
    if bound >= 0.0 || sum == 0 {
        return bound <= 0.0 && sum == 0;
    }
    // The double is -(m * 2^e).
    let bits = bound.abs().to_bits();
    let (field, digits) = (bits >> 52, bits & ((1 << 52) - 1));
    let m = u128::from(if field == 0 { digits } else { digits | 1 << 52 });
    let e = field.max(1) as i32 - 1075;
    if e >= 0 {
        (m << e) * scale >= sum
    } else {
        m * scale >= sum << -e
    }
}

/// The sum of (c - n/d)^2 / (n/d) over the counts above n/d, times n * d.
fn sum(counts: &[u64], n: u64, d: u64) -> u128 {
    counts.iter().map(|c| u128::from((c * d).saturating_sub(n))).map(|excess| excess * excess).sum()
}

#[test]
fn at_most_minus_the_sum() {
    assert!(is_at_most_minus(-0.5, 1, 2) && !is_at_most_minus(-0.5, 2, 3) && !is_at_most_minus(0.0, 1, 9));
    let mut nearest_is_too_high = 0;
    for d in [1, 2, 8, 1 << 20] {
        for n in (1..60).chain([1_000_003]) {
            let background = n as f64 / d as f64;
            for counts in (0..40).flat_map(|c| [vec![c], vec![c, 7, c * c], (c..c + 30).collect()]) {
                let bound = lower_bound(&counts, background).unwrap().unwrap();
                let (sum, scale) = (sum(&counts, n, d), u128::from(n) * u128::from(d));
                assert!(is_at_most_minus(bound, sum, scale), "{counts:?} over {background}");
                let exact = sum as f64 / scale as f64;
                assert!(-bound <= exact * (1.0 + 1e-13) + 1e-20, "{counts:?} over {background}");
                nearest_is_too_high += u64::from(!is_at_most_minus(-exact, sum, scale));
            }
        }
    }
    assert!(nearest_is_too_high > 1000);
}

#[test]
fn none_where_it_is_not_finite() {
    let top = (1 << 53) - 1;
    assert_eq!(lower_bound(&[5], f64::from_bits(1)), Ok(None));
    assert_eq!(lower_bound(&[top; 3], 6e-277), Ok(None));
    assert!(lower_bound(&[top], 6e-277).unwrap().is_some_and(|b| b < -1e308));
    assert_eq!(lower_bound(&[top; 1000], f64::MAX), Ok(Some(0.0)));
    // The lowest double is a bound; one background further the last step leads past it.
    let background = f64::from_bits(0x0054_4000_0000_0008);
    assert_eq!(lower_bound(&[9], background), Ok(Some(f64::MIN)));
    assert_eq!(lower_bound(&[9], background.next_down()), Ok(None));
}

#[test]
fn no_counts_give_zero() {
    for background in [f64::from_bits(1), 0.1, 1.0, f64::MAX] {
        for counts in [&[][..], &[0], &[0; 5]] {
            let bound = lower_bound(counts, background).unwrap().unwrap();
            assert_eq!(bound.to_bits(), 0);
        }
    }
}
