//! The tightest gap of some hues on a ring, worked out from the hues alone.

/// The tightest gap on a ring of n positions: the least over all pairs of these hues and both ways round;
/// n for one hue, and 0 for none.
pub fn tightest(hues: &[usize], n: usize) -> usize {
    let gap = |one: usize, other: usize| {
        let between = one.abs_diff(other);
        between.min(n - between)
    };
    let least = |i: usize| hues[..i].iter().map(|other| gap(hues[i], *other)).min();
    match hues {
        [] => 0,
        [_] => n,
        _ => (1..hues.len()).filter_map(least).min().expect("two hues"),
    }
}
