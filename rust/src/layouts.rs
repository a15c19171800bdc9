//! The names and signatures of `poulpy_core::layouts` and `poulpy_blas::layouts`, for programs that are written against
//! them with slots modulo 2^64: such a program changes its import and nothing else.
//!
//! ```
//! // use poulpy_blas::layouts::right_mul;
//! // use poulpy_core::layouts::{Diagonals, Evaluate, LinearTransformationLayout, LinearTransformationStrategy};
//! use sibukyaran::layouts::right_mul;
//! use sibukyaran::layouts::{Diagonals, Evaluate, LinearTransformationLayout, LinearTransformationStrategy};
//! use std::num::Wrapping;
//!
//! let b = [[5, 6], [7, 8]];
//! let map: Diagonals<Wrapping<u64>> = right_mul(4, 1, 1, |_, r, c| Wrapping(b[r][c]));
//! let strategy = LinearTransformationStrategy::BsgsPowersOfTwo { giant_step: 2 };
//! let product = map.evaluate(&[1, 2, 3, 4].map(Wrapping), strategy);
//! assert_eq!(product, [19, 22, 43, 50].map(Wrapping));
//!
//! let plan = LinearTransformationLayout { indexes: map.indexes(), slots: map.slots(), strategy }.index();
//! assert_eq!(plan.giant_steps, [0, 2]);
//! assert_eq!(plan.rotations.giant_key_switches(plan.giant_steps), 1);
//! ```
//!
//! # Panics
//!
//! What the library refuses panics here, with "refused with", its number and the sentence of the [`Refusal`]: what poulpy
//! asserts, and what document 01 leaves out, such as more than 65,536 slots or half of a rotation by more than d.
//!
//! # What differs
//!
//! [`Diagonals::get`] answers a slice where poulpy has a `&Vec`, and a program that is generic over its slots bounds them by
//! [`Slot`]. Galois elements, blocks of larger matrices and what is encrypted are not here.

use std::collections::BTreeMap;
use std::fmt;
use std::marker::PhantomData;
use std::num::Wrapping;

use crate::refusal::Refusal;
use crate::{lent, maps};

pub use crate::plans::LinearTransformationStrategy;

mod sealed {
    /// A slot as the library's word, and words as slots.
    pub trait Word: Copy {
        fn word(self) -> u64;
        fn slots(words: &[u64]) -> &[Self];
    }
}

use sealed::Word;

/// A slot modulo 2^64: a `Wrapping<u64>`, or a `u64`, which these functions wrap as well.
pub trait Slot: Word + PartialEq + fmt::Debug {}

impl Word for u64 {
    fn word(self) -> u64 {
        self
    }

    fn slots(words: &[u64]) -> &[u64] {
        words
    }
}

impl Word for Wrapping<u64> {
    fn word(self) -> u64 {
        self.0
    }

    fn slots(words: &[u64]) -> &[Wrapping<u64>] {
        lent::wrapping(words)
    }
}

impl Slot for u64 {}
impl Slot for Wrapping<u64> {}

/// What a call answers; it panics on a refusal.
fn taken<A>(answer: Result<A, Refusal>) -> A {
    answer.unwrap_or_else(|refusal| panic!("refused with {}: {refusal}", refusal.number()))
}

fn words<T: Slot>(slots: &[T]) -> Vec<u64> {
    slots.iter().map(|slot| slot.word()).collect()
}

fn of_words<T: Slot>(words: Vec<u64>) -> Vec<T> {
    T::slots(&words).to_vec()
}

/// A map by its diagonals: a [`crate::Diagonals`] in poulpy's signatures, made from one and into one by `From`.
///
/// ```
/// use sibukyaran::{LinearTransformationStrategy::Direct, layouts::Diagonals};
///
/// let mut map = Diagonals::<u64>::new(4);
/// map.set(1, vec![12, 0]);
/// let run = sibukyaran::Diagonals::from(map).evaluate_keyed(&[1, 2, 3, 4], Direct, &[1]);
/// assert_eq!(run.unwrap().out(), Some(&[24, 0, 48, 0][..]));
/// ```
#[derive(Clone)]
pub struct Diagonals<T> {
    map: crate::Diagonals,
    slot: PhantomData<T>,
}

impl<T> From<crate::Diagonals> for Diagonals<T> {
    fn from(map: crate::Diagonals) -> Self {
        Diagonals { map, slot: PhantomData }
    }
}

impl<T> From<Diagonals<T>> for crate::Diagonals {
    fn from(diagonals: Diagonals<T>) -> Self {
        diagonals.map
    }
}

/// As poulpy shows its own.
impl<T: Slot> fmt::Debug for Diagonals<T> {
    fn fmt(&self, f: &mut fmt::Formatter) -> fmt::Result {
        let map: BTreeMap<_, _> = self.map.iter().map(|(offset, values)| (offset, T::slots(values))).collect();
        f.debug_struct("Diagonals").field("slots", &self.slots()).field("map", &map).finish()
    }
}

impl<T: Slot> Diagonals<T> {
    /// The empty map. Panics where it is refused with 1.
    pub fn new(slots: usize) -> Self {
        taken(crate::Diagonals::new(slots)).into()
    }

    /// The slots.
    pub fn slots(&self) -> usize {
        self.map.slots()
    }

    /// Replaces or inserts the diagonal at an index by one period of it. Panics where it is refused with 4.
    pub fn set(&mut self, index: i64, values: Vec<T>) {
        taken(self.map.set(index, words(&values)));
    }

    /// One period of the diagonal at an index.
    pub fn get(&self, index: i64) -> Option<&[T]> {
        self.map.get(index).map(T::slots)
    }

    /// The stored length of the diagonal at an index.
    pub fn period(&self, index: i64) -> Option<usize> {
        self.map.period(index)
    }

    /// The offsets of the stored diagonals, rising.
    pub fn indexes(&self) -> Vec<i64> {
        self.map.indexes()
    }

    /// Whether none is stored.
    pub fn is_empty(&self) -> bool {
        self.map.is_empty()
    }

    /// The map of terms (i, j, w): [`crate::Diagonals::from_slot_map`]. Panics where it is refused with 1, 4, 8.
    pub fn from_slot_map(slots: usize, period: usize, terms: impl IntoIterator<Item = (usize, usize, T)>) -> Self {
        let terms = terms.into_iter().map(|(i, j, w)| (i, j, w.word()));
        taken(crate::Diagonals::from_slot_map(slots, period, terms)).into()
    }

    /// Stores every diagonal at the least common multiple of their smallest periods.
    pub fn shrink_period(&mut self) {
        self.map.shrink_period();
    }

    /// Transposes the matrix.
    pub fn transpose(&mut self) {
        self.map.transpose();
    }
}

/// A map that can be evaluated on an input.
pub trait Evaluate<In, Out> {
    /// The product of the map and an input.
    fn evaluate(&self, input: In, strategy: LinearTransformationStrategy) -> Out;
}

impl<'a, T: Slot> Evaluate<&'a [T], Vec<T>> for Diagonals<T> {
    /// The product of the matrix and an input, the same for each strategy. Panics where it is refused with 3, 7.
    fn evaluate(&self, input: &'a [T], strategy: LinearTransformationStrategy) -> Vec<T> {
        of_words(taken(self.map.evaluate(&words(input), strategy)))
    }
}

/// The least common multiple of two periods. Panics where it is refused with 3.
pub fn period_lcm(a: usize, b: usize) -> usize {
    taken(crate::period_lcm(a, b))
}

/// `out[j] = src[(j + k) mod src.len()]`. Panics where it is refused with 3, 7.
pub fn rotate_slots_into<T: Slot>(src: &[T], k: i64, out: &mut [T]) {
    let mut rotated = vec![0; out.len()];
    taken(crate::rotate_slots_into(&words(src), k, &mut rotated));
    out.copy_from_slice(T::slots(&rotated));
}

/// The best width: [`crate::optimal_bsgs_giant_step`]. Panics where it is refused with 1.
pub fn optimal_bsgs_giant_step<I: IntoIterator<Item = i64>>(diagonal_indexes: I, slots: usize) -> usize {
    taken(crate::optimal_bsgs_giant_step(diagonal_indexes, slots))
}

/// How the baby and giant rotations are reached: [`crate::BsgsRotations`].
#[derive(Clone, Copy, Debug, Default, PartialEq, Eq)]
pub enum BsgsRotations {
    /// Each rotation has its own key.
    #[default]
    PerRotation,
    /// Only the powers of two of the two steps have keys.
    PowersOfTwo {
        /// Every baby is a multiple of it.
        baby_step: i64,
        /// Every giant is a multiple of it.
        giant_step: i64,
        /// The modulus of the rotations.
        slots: i64,
    },
}

impl BsgsRotations {
    fn of(rotations: crate::BsgsRotations) -> Self {
        match rotations {
            crate::BsgsRotations::PerRotation => Self::PerRotation,
            crate::BsgsRotations::PowersOfTwo { baby_step, giant_step, slots } => {
                Self::PowersOfTwo { baby_step, giant_step, slots }
            }
        }
    }

    fn owned(self) -> crate::BsgsRotations {
        match self {
            Self::PerRotation => crate::BsgsRotations::PerRotation,
            Self::PowersOfTwo { baby_step, giant_step, slots } => {
                crate::BsgsRotations::PowersOfTwo { baby_step, giant_step, slots }
            }
        }
    }

    /// The rotations that the babies need keys for. Panics where it is refused with 1, 3, 9.
    pub fn baby_key_rotations(&self, babies: impl IntoIterator<Item = i64>) -> Vec<i64> {
        taken(self.owned().baby_key_rotations(babies))
    }

    /// The rotations of the tree's levels that have pairs; none per rotation. Panics where it is refused with 1, 3, 10.
    pub fn giant_key_rotations(&self, giants: impl IntoIterator<Item = i64>) -> Vec<i64> {
        taken(self.owned().giant_key_rotations(giants))
    }

    /// The pairs of all levels; per rotation the giants that are not 0. Panics where it is refused with 1, 3, 10.
    pub fn giant_key_switches(&self, giants: impl IntoIterator<Item = i64>) -> usize {
        taken(self.owned().giant_key_switches(giants))
    }
}

/// What a plan is made of: [`crate::LinearTransformationLayout`].
#[derive(Clone, Debug, PartialEq, Eq)]
pub struct LinearTransformationLayout {
    /// The diagonal indexes.
    pub indexes: Vec<i64>,
    /// The slots.
    pub slots: usize,
    /// The strategy.
    pub strategy: LinearTransformationStrategy,
}

/// A plan: [`crate::LinearTransformationPlan`].
#[derive(Clone, Debug, Default, PartialEq, Eq)]
pub struct LinearTransformationPlan {
    /// The baby rotations, rising, always with 0.
    pub baby_steps: Vec<i64>,
    /// The giant rotations, rising.
    pub giant_steps: Vec<i64>,
    /// The babies of each giant, rising.
    pub index: Vec<Vec<i64>>,
    /// How the rotations are reached.
    pub rotations: BsgsRotations,
}

impl LinearTransformationLayout {
    fn owned(&self) -> crate::LinearTransformationLayout {
        let LinearTransformationLayout { indexes, slots, strategy } = self.clone();
        crate::LinearTransformationLayout { indexes, slots, strategy }
    }

    /// The plan. Panics where it is refused with 1, 3.
    pub fn index(&self) -> LinearTransformationPlan {
        planned(self.owned().index())
    }

    /// The plan of a width, whatever the strategy, with a key for each rotation. Panics where it is refused with 1, 3.
    pub fn plan(&self, giant_step: usize) -> LinearTransformationPlan {
        planned(self.owned().plan(giant_step))
    }

    /// The plan's babies. Panics where it is refused with 1, 3.
    pub fn baby_steps(&self) -> Vec<i64> {
        taken(self.owned().baby_steps())
    }
}

/// A plan of the crate's own, or a panic.
fn planned(answer: Result<crate::LinearTransformationPlan, Refusal>) -> LinearTransformationPlan {
    let crate::LinearTransformationPlan { baby_steps, giant_steps, index, rotations } = taken(answer);
    LinearTransformationPlan { baby_steps, giant_steps, index, rotations: BsgsRotations::of(rotations) }
}

/// The matrix maps that are given by numbers alone.
macro_rules! matrix_maps {
    ($($name:ident($($x:ident),*);)*) => {
        $(
            #[doc = concat!("[`maps::", stringify!($name), "`]. Panics where that is refused.")]
            pub fn $name<F: Slot>($($x: usize),*) -> Diagonals<F> {
                taken(maps::$name($($x),*)).into()
            }
        )*
    };
}

matrix_maps! {
    sigma(slots, log_d);
    tau(slots, log_d);
    tau_rep(slots, log_d);
    transpose(slots, log_d);
    rotate_rows(slots, log_d, k);
    rotate_rows_rep(slots, log_d, k);
    rotate_cols(slots, log_d, k);
    rows_upper(slots, log_d, k);
    rows_lower(slots, log_d, k);
    cols_left(slots, log_d, k);
    cols_right(slots, log_d, k);
    rows_left(slots, log_d, k);
    rows_right(slots, log_d, k);
    first_row(slots, log_d);
    first_col(slots, log_d);
}

/// Those of public matrices b(s, r, c).
macro_rules! products {
    ($($name:ident($($x:ident),*) -> $answer:ty, by $made:expr;)*) => {
        $(
            #[doc = concat!("[`maps::", stringify!($name), "`]. Panics where that is refused.")]
            pub fn $name<F: Slot>($($x: usize,)* b: impl Fn(usize, usize, usize) -> F) -> $answer {
                $made(taken(maps::$name($($x,)* |s, r, c| b(s, r, c).word())))
            }
        )*
    };
}

products! {
    right_mul(slots, log_d, count) -> Diagonals<F>, by Diagonals::from;
    left_mul(slots, log_d, count) -> Diagonals<F>, by Diagonals::from;
    left_mul_rep(slots, log_d) -> Diagonals<F>, by Diagonals::from;
    right_jkls(slots, log_d, count) -> Diagonals<F>, by Diagonals::from;
    left_jkls(slots, log_d, count) -> Diagonals<F>, by Diagonals::from;
    tau_values(log_d, count) -> Vec<F>, by of_words;
    sigma_values(log_d, count) -> Vec<F>, by of_words;
}

/// [`maps::per_matrix_map`]. Panics where that is refused.
pub fn per_matrix_map<F, I>(slots: usize, log_d: usize, terms: impl Fn(usize, usize) -> I) -> Diagonals<F>
where
    F: Slot,
    I: IntoIterator<Item = (usize, usize, F)>,
{
    let terms = |r, c| terms(r, c).into_iter().map(|(r2, c2, w)| (r2, c2, w.word()));
    taken(maps::per_matrix_map(slots, log_d, terms)).into()
}

/// [`maps::slot_product`]. Panics where that is refused.
pub fn slot_product<F: Slot>(slots: usize, values: &[F], rotation: i64) -> Diagonals<F> {
    taken(maps::slot_product(slots, &words(values), rotation)).into()
}
