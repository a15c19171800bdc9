//! Diagonal indexes, baby multiples and giant digits beside document 000.

use poulpy_core::layouts::{call_baby_multiple, call_giant_digit, call_normalize_linear_transform_diagonal};
use sibukyaran::lent::{self as ours, Numbers, SignedDigit};

use crate::calls::Expected;
use crate::random::Random;
use crate::ring::{MOST, outside};
use crate::sample::Sample;
use crate::tally::Tally;

fn right_normal(diagonal: i64, slots: usize) -> Numbers {
    if outside(slots) {
        return Numbers::refused(1);
    }
    Numbers::is(call_normalize_linear_transform_diagonal(diagonal, slots))
}

fn right_multiple(baby: i64, step: usize) -> Numbers {
    if outside(step) {
        return Numbers::refused(3);
    }
    if !(0..MOST as i64).contains(&baby) || baby % step as i64 != 0 {
        return Numbers::refused(9);
    }
    Numbers::is(call_baby_multiple(baby, step as i64) as usize)
}

fn right_digit(rot: i64, step: usize, slots: usize) -> SignedDigit {
    let refused = |refusal| SignedDigit { refusal, value: 0 };
    if outside(slots) {
        return refused(1);
    }
    if outside(step) {
        return refused(3);
    }
    if rot.rem_euclid(slots as i64) % step as i64 != 0 {
        return refused(10);
    }
    SignedDigit { refusal: 0, value: call_giant_digit(rot, step as i64, slots as i64) }
}

/// Counts at and past the limits, and some between.
fn counts(random: &mut Random) -> Vec<usize> {
    let mut all = vec![0, 1, 2, 3, 65_535, 65_536, 65_537, usize::MAX, 1 << 32, (1 << 32) + 1];
    all.extend((0..20).map(|_| random.below(70_000)));
    all
}

/// Numbers at and past the limits of i64 and of the slots, and some between.
fn signed(random: &mut Random) -> Vec<i64> {
    let mut all = vec![i64::MIN, i64::MIN + 1, -65_536, -1, 0, 1, 65_535, 65_536, 65_537, i64::MAX];
    all.extend((0..20).flat_map(|_| [random.word() as i64, random.below(140_000) as i64 - 70_000]));
    all
}

pub fn compare(tally: &mut Tally) {
    let mut random = Random::new(10);
    tally.run("normalize_linear_transform_diagonal: small, at the limits and past them", |cases| {
        for slots in 1..=40 {
            for k in -100..=100 {
                cases.same(
                    || format!("{k} {slots}"),
                    ours::normalize_linear_transform_diagonal(k, slots),
                    right_normal(k, slots),
                );
            }
        }
        for slots in counts(&mut random) {
            for k in signed(&mut random) {
                cases.same(
                    || format!("{k} {slots}"),
                    ours::normalize_linear_transform_diagonal(k, slots),
                    right_normal(k, slots),
                );
            }
        }
    });
    tally.run("baby_multiple: small, at the limits and past them", |cases| {
        for step in 0..=40 {
            for baby in -50..=200 {
                cases.same(|| format!("{baby} {step}"), ours::baby_multiple(baby, step), right_multiple(baby, step));
            }
        }
        for step in counts(&mut random) {
            let near = [0, 1, 2, 65_535 / step.max(1)].map(|k| k.wrapping_mul(step) as i64);
            for baby in signed(&mut random).into_iter().chain(near) {
                cases.same(|| format!("{baby} {step}"), ours::baby_multiple(baby, step), right_multiple(baby, step));
            }
        }
    });
    tally.run("giant_digit: all of up to 40 slots, at the limits and past them", |cases| {
        for slots in 0..=40 {
            for step in 0..=slots + 2 {
                for rot in -2 * slots as i64..=2 * slots as i64 {
                    let right = right_digit(rot, step, slots);
                    cases.same(|| format!("{rot} {step} {slots}"), ours::giant_digit(rot, step, slots), right);
                }
            }
        }
        for slots in counts(&mut random) {
            for step in counts(&mut random) {
                // Multiples of the step, half the period among them.
                let half = (slots / step.max(1) / 2).wrapping_mul(step) as i64;
                let near = [half, half.wrapping_neg(), half.wrapping_sub(step as i64), step as i64];
                for rot in signed(&mut random).into_iter().chain(near) {
                    let right = right_digit(rot, step, slots);
                    cases.same(|| format!("{rot} {step} {slots}"), ours::giant_digit(rot, step, slots), right);
                }
            }
        }
        for step in (0..=16).map(|b| 1 << b) {
            for j in 0..MOST / step {
                let rot = (j * step) as i64;
                let right = right_digit(rot, step, MOST);
                cases.same(|| format!("{rot} {step} {MOST}"), ours::giant_digit(rot, step, MOST), right);
            }
        }
    });
}

pub fn sample(sample: &mut Sample) {
    let told = |answer: Numbers| [answer.refusal as u64, answer.value as u64];
    for slots in [0, 1, 10, 16, 65_536, 65_537] {
        for k in [i64::MIN, -17, -1, 0, 15, 65_536, i64::MAX] {
            sample.call(17, &[k as u64, slots as u64], &told(right_normal(k, slots)));
            sample.call(18, &[k as u64, slots as u64], &told(right_multiple(k, slots)));
        }
        for step in [0, 1, 4, 5, 65_537] {
            for rot in [-12, -8, 0, 4, 5, 8, 12, 32_768, i64::MIN, i64::MAX] {
                let digit = right_digit(rot, step, slots);
                let words = [rot as u64, step as u64, slots as u64];
                sample.call(19, &words, &[digit.refusal as u64, digit.value.rem_euclid(MOST as i64) as u64]);
            }
        }
    }
}
