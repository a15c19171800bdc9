//! The two traits that the reference uses, for the scalars that it is run on.

use std::num::Wrapping;
use std::ops::{Add, Mul};

pub trait Zero: Sized + Add<Self, Output = Self> {
    fn zero() -> Self;
}

pub trait One: Sized + Mul<Self, Output = Self> {
    fn one() -> Self;
}

impl Zero for Wrapping<u64> {
    fn zero() -> Self {
        Wrapping(0)
    }
}

impl One for Wrapping<u64> {
    fn one() -> Self {
        Wrapping(1)
    }
}
