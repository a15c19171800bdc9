//! Diagonal maps, rotation plans and keyed runs for homomorphic matrix products, over a library in which each function is
//! proved for all arguments (`include/sibukyaran.h`). No slot is added, multiplied or rotated outside it: this crate owns
//! the memory, sizes it by the library's own calls, so that none of its users meets refusal 12, and gives refusals a
//! sentence.
//!
//! Names are those of poulpy's `layouts`. There a wrong argument panics; here it is a [`Refusal`]. A program that is
//! written against poulpy's own signatures changes its import to [`layouts`].
//!
//! ```
//! use sibukyaran::{Diagonals, LinearTransformationStrategy::BsgsPowersOfTwo, Refusal, optimal_bsgs_giant_step};
//!
//! // Each of 8 blocks of 4 slots sums its slots into its first.
//! let map = Diagonals::from_slot_map(32, 4, (0..4).map(|j| (0, j, 1)))?;
//! let giant_step = optimal_bsgs_giant_step(map.indexes(), map.slots())?;
//! let strategy = BsgsPowersOfTwo { giant_step };
//!
//! // The keys on the plan's list are all that a run needs.
//! let keys = map.layout(strategy).key_rotations()?;
//! let input: Vec<u64> = (0..32).collect();
//! let run = map.evaluate_keyed(&input, strategy, &keys)?;
//! assert_eq!(run.out().unwrap()[..5], [6, 0, 0, 0, 22]);
//! # Ok::<(), Refusal>(())
//! ```
//!
//! Who wants to lend memory finds every call of the library in [`lent`]. A call needs up to 581 KiB of stack, so that a
//! thread of 1 MiB is enough.

mod diagonals;
mod file;
mod keyed;
pub mod layouts;
#[allow(unsafe_code)] // here, and nowhere else
pub mod lent;
pub mod maps;
mod plans;
mod refusal;
mod rotations;

pub use diagonals::{Diagonals, min_period, period_lcm, rotate_slots_into};
pub use keyed::KeyedRun;
pub use lent::PairRecord;
pub use plans::{
    LinearTransformationLayout, LinearTransformationPlan, LinearTransformationStrategy, optimal_bsgs_giant_step,
};
pub use refusal::{FileFault, MOST, Refusal};
pub use rotations::{BabyPass, BsgsRotations, GiantTree, GiantTreeLevel};

/// The example of the repository's README is tested as one of this crate's.
#[cfg(doctest)]
#[doc = include_str!("../../README.md")]
struct Readme;
