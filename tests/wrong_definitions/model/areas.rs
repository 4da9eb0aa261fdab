//! `crates/areas/specs`: Parts.

/// The part `xs[base..base + size]`, clipped to `xs`.
pub fn part<T>(xs: &[T], base: usize, size: usize) -> &[T] {
    let rest = rest_of(xs, base);
    rest.get(..size).unwrap_or(rest)
}

/// What stands behind the first `front` of `xs`.
pub fn rest_of<T>(xs: &[T], front: usize) -> &[T] {
    xs.get(front..).unwrap_or(&[])
}
