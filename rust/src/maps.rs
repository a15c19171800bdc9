//! The matrix maps of Jiang, Kim, Lauter and Song. A matrix slot is d·d slots, d = 2^log_d, with the entries of a d by d
//! matrix row after row; in matrix slot s a map does what its formula says of that matrix.
//!
//! ```
//! use sibukyaran::{LinearTransformationStrategy::Direct, Refusal, maps};
//!
//! // A·B of 2 by 2 matrices in two stages.
//! let b = [[5, 6], [7, 8]];
//! let skewed = maps::sigma(4, 1)?.evaluate(&[1, 2, 3, 4], Direct)?;
//! let product = maps::right_jkls(4, 1, 1, |_, r, c| b[r][c])?.evaluate(&skewed, Direct)?;
//! assert_eq!(product, [19, 22, 43, 50]);
//! # Ok::<(), Refusal>(())
//! ```

use std::ops::RangeInclusive;

use crate::diagonals::{Diagonals, Terms};
use crate::lent::{self, Numbers};
use crate::refusal::{MOST, Refusal, unexpected};

/// d, where there is one.
fn side(log_d: usize) -> Option<usize> {
    (log_d <= 8).then(|| 1 << log_d)
}

/// The room of a map whose diagonals are read from one matrix slot: at most 2d - 1 of them, at a period. A log_d that is
/// refused needs none.
fn room(log_d: usize, period: impl FnOnce(usize) -> usize) -> (usize, usize) {
    side(log_d).map_or((0, 0), |d| (2 * d - 1, (2 * d - 1) * period(d)))
}

/// A shift and its range.
type Shift = (usize, RangeInclusive<usize>);

/// What a number of the library is about.
fn refused(number: u32, slots: usize, log_d: usize, count: usize, shift: Option<Shift>) -> Refusal {
    match (number, shift) {
        (1, _) => Refusal::of_slots(slots),
        (5, _) => Refusal::Matrices { log_d, count, slots: Some(slots) },
        (6, Some((k, range))) => Refusal::Shift { k, least: *range.start(), most: *range.end() },
        _ => unexpected(number),
    }
}

/// The maps of slots and log_d alone.
macro_rules! plain_maps {
    ($($(#[$doc:meta])* $name:ident is $call:ident;)*) => {
        $(
            $(#[$doc])*
            /// Refused with 1, 5.
            pub fn $name(slots: usize, log_d: usize) -> Result<Diagonals, Refusal> {
                let (count, values) = room(log_d, |d| d * d);
                Diagonals::built(slots, count, values, |p, v| lent::$call(slots, log_d, p, v))
                    .map_err(|number| refused(number, slots, log_d, 1, None))
            }
        )*
    };
}

plain_maps! {
    /// JKLS sigma: output (r, c) reads (r, r + c mod d).
    sigma is sigma;
    /// JKLS tau: output (r, c) reads (r + c mod d, c).
    tau is tau;
    /// Output (r, c) reads (c, r).
    transpose is transpose_matrices;
    /// tau on an input that repeats every d·d slots: a diagonal at each c·d, the mask of column c.
    tau_rep is tau_rep;
    /// Output (r, c) reads (r, c) where r is 0, else 0.
    first_row is first_row;
    /// Output (r, c) reads (r, c) where c is 0, else 0.
    first_col is first_col;
}

/// The maps with a shift k, and its range by d.
macro_rules! shift_maps {
    ($($(#[$doc:meta])* $name:ident takes $range:expr;)*) => {
        $(
            $(#[$doc])*
            /// Refused with 1, 5, 6.
            pub fn $name(slots: usize, log_d: usize, k: usize) -> Result<Diagonals, Refusal> {
                let (count, values) = room(log_d, |d| d * d);
                let range: fn(usize) -> RangeInclusive<usize> = $range;
                let shift = side(log_d).map(|d| (k, range(d)));
                Diagonals::built(slots, count, values, |p, v| lent::$name(slots, log_d, k, p, v))
                    .map_err(|number| refused(number, slots, log_d, 1, shift))
            }
        )*
    };
}

shift_maps! {
    /// JKLS psi^k: output (r, c) reads (r + k mod d, c), for k to 65,536.
    rotate_rows takes |_| 0..=MOST;
    /// JKLS phi^k: output (r, c) reads (r, c + k mod d), for k to 65,536.
    rotate_cols takes |_| 0..=MOST;
    /// Output (r, c) reads (r + k, c) where r + k < d, else 0.
    rows_upper takes |d| 0..=d;
    /// Output (r, c) reads (r + k - d, c) where r + k >= d, else 0.
    rows_lower takes |d| 0..=d;
    /// Output (r, c) reads (r, c + k) where c + k < d, else 0.
    cols_left takes |d| 0..=d;
    /// Output (r, c) reads (r, c + k - d) where c + k >= d, else 0.
    cols_right takes |d| 0..=d;
    /// Output (r, c) reads (r + k mod d, c) where c + k < d, else 0.
    rows_left takes |d| 0..=d;
    /// Output (r, c) reads (r + k mod d, c) where c + k >= d, else 0.
    rows_right takes |d| 0..=d;
    /// rotate_rows on an input that repeats every d·d slots: one diagonal at k·d, for k from 1 to d - 1.
    rotate_rows_rep takes |d| 1..=d - 1;
}

/// Public matrices b(s, r, c) row after row; none where there are too many for any slots, so that nothing is laid out for
/// a call that is refused.
fn laid_out(log_d: usize, count: usize, b: impl Fn(usize, usize, usize) -> u64) -> Vec<u64> {
    let values = side(log_d).and_then(|d| Some((d, count.checked_mul(d * d).filter(|&n| n <= MOST)?)));
    values.map_or_else(Vec::new, |(d, n)| (0..n).map(|t| b(t / (d * d), t / d % d, t % d)).collect())
}

/// The products by public matrices.
macro_rules! products {
    ($($(#[$doc:meta])* $name:ident;)*) => {
        $(
            $(#[$doc])*
            /// Refused with 1, 5.
            pub fn $name(
                slots: usize,
                log_d: usize,
                count: usize,
                b: impl Fn(usize, usize, usize) -> u64,
            ) -> Result<Diagonals, Refusal> {
                let b = laid_out(log_d, count, b);
                let (diagonals, values) = room(log_d, |_| b.len());
                Diagonals::built(slots, diagonals, values, |p, v| lent::$name(slots, log_d, count, &b, p, v))
                    .map_err(|number| refused(number, slots, log_d, count, None))
            }
        )*
    };
}

products! {
    /// Output (r, c) of matrix slot s sums in(r, l)·b(s mod count, l, c).
    right_mul;
    /// Output (r, c) of matrix slot s sums b(s mod count, r, l)·in(l, c).
    left_mul;
    /// Stage 2 of the right product, on the product of [`sigma`].
    right_jkls;
    /// Stage 2 of the left product, on the product of [`tau`].
    left_jkls;
}

/// [`left_mul`] of one matrix b(0, r, c) on an input that repeats every d·d slots. Refused with 1, 5.
pub fn left_mul_rep(slots: usize, log_d: usize, b: impl Fn(usize, usize, usize) -> u64) -> Result<Diagonals, Refusal> {
    let b = laid_out(log_d, 1, b);
    let (count, values) = room(log_d, |_| b.len());
    Diagonals::built(slots, count, values, |p, v| lent::left_mul_rep(slots, log_d, &b, p, v))
        .map_err(|number| refused(number, slots, log_d, 1, None))
}

/// The map whose output (r, c) in every matrix slot sums w·in(r2, c2) over the terms (r2, c2, w) of (r, c), stored at the
/// smallest period that holds it. Refused with 1, 5, 8.
pub fn per_matrix_map<I: IntoIterator<Item = (usize, usize, u64)>>(
    slots: usize,
    log_d: usize,
    terms: impl Fn(usize, usize) -> I,
) -> Result<Diagonals, Refusal> {
    let d = side(log_d).unwrap_or(0);
    let of = |i: usize| {
        let at = move |(r, c, w): (usize, usize, u64)| (i, r.saturating_mul(d).saturating_add(c), w);
        terms(i / d, i % d).into_iter().map(at)
    };
    per_matrix_terms(slots, log_d, (0..d * d).flat_map(of))
}

/// The same of a list of terms (i, j, w): output i of a matrix slot, below d·d, sums w times slot j, counted from the
/// matrix slot's first. Refused with 1, 5, 8.
pub fn per_matrix_terms(
    slots: usize,
    log_d: usize,
    terms: impl IntoIterator<Item = (usize, usize, u64)>,
) -> Result<Diagonals, Refusal> {
    let terms = Terms::of(terms);
    let period = side(log_d).map_or(0, |d| d * d);
    let call = |p: &mut [u32], v: &mut [u64]| lent::per_matrix_map(slots, log_d, &terms.is, &terms.js, &terms.ws, p, v);
    terms.built(slots, period, call).map_err(|number| match number {
        8 => terms.refused(period, slots),
        number => refused(number, slots, log_d, 1, None),
    })
}

/// The product by the slot vector of these values rotated: one diagonal at offset 0. Refused with 1, 4.
pub fn slot_product(slots: usize, values: &[u64], rotation: i64) -> Result<Diagonals, Refusal> {
    let call = |p: &mut [u32], v: &mut [u64]| lent::slot_product(slots, values, rotation, p, v);
    Diagonals::built(slots, 1, values.len(), call).map_err(|number| match number {
        4 => Refusal::Period { argument: "the length of the values", length: values.len(), slots },
        number => refused(number, slots, 0, 1, None),
    })
}

/// The values that a call writes for public matrices.
fn skewed(
    log_d: usize,
    count: usize,
    b: impl Fn(usize, usize, usize) -> u64,
    call: fn(usize, usize, &[u64], &mut [u64]) -> Numbers,
) -> Result<Vec<u64>, Refusal> {
    let b = laid_out(log_d, count, b);
    let mut out = vec![0; b.len()];
    match call(log_d, count, &b, &mut out).refusal {
        0 => Ok(out),
        5 => Err(Refusal::Matrices { log_d, count, slots: None }),
        number => unexpected(number),
    }
}

/// Tau of public matrices: entry (r, c) of matrix s is b(s, r + c mod d, c). Refused with 5.
pub fn tau_values(log_d: usize, count: usize, b: impl Fn(usize, usize, usize) -> u64) -> Result<Vec<u64>, Refusal> {
    skewed(log_d, count, b, lent::tau_values)
}

/// Sigma of public matrices: entry (r, c) of matrix s is b(s, r, r + c mod d). Refused with 5.
pub fn sigma_values(log_d: usize, count: usize, b: impl Fn(usize, usize, usize) -> u64) -> Result<Vec<u64>, Refusal> {
    skewed(log_d, count, b, lent::sigma_values)
}
