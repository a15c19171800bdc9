//! Ring, residues and periods beside document 001 and `gcd_i64` of 000.

use std::num::Wrapping;

use poulpy_core::layouts::{
    DiagonalArithmetic, call_gcd_i64, call_min_period, call_normalize_linear_transform_diagonal, period_lcm,
};
use sibukyaran::lent::{self as ours, Numbers};

use crate::bench::{Bench, keep};
use crate::calls::Expected;
use crate::guards::Lent;
use crate::random::{Random, divisors};
use crate::sample::Sample;
use crate::tally::Tally;

const ENDS: [u64; 11] = [
    0,
    1,
    2,
    3,
    0xffff_ffff,
    0x1_0000_0000,
    0x1_0000_0001,
    0x7fff_ffff_ffff_ffff,
    0x8000_0000_0000_0000,
    0xffff_ffff_ffff_fffe,
    0xffff_ffff_ffff_ffff,
];

const SHIFTS: [i64; 11] =
    [i64::MIN, i64::MIN + 1, i64::MIN + 65_536, -65_537, -65_536, -1, 0, 1, 65_536, i64::MAX - 1, i64::MAX];

/// Lengths with odd and repeated prime factors, and the largest.
const LONG: [usize; 6] = [46_189, 59_049, 64_974, 65_521, 65_535, 65_536];

/// The most slots, and the largest width, step, period and length.
pub const MOST: usize = 65_536;

/// A number of the Rust's as a word. One that is no word is a fault of the comparison: it is never cut.
pub fn word<T: TryInto<u32>>(number: T) -> u32 {
    number.try_into().ok().expect("a number of the Rust's is no word")
}

/// Below 1 or above the most: document 01's condition of refusals 1 and 3.
pub fn outside(n: usize) -> bool {
    !(1..=MOST).contains(&n)
}

/// What the Rust answers, or refusal 3 where document 01 has it.
fn right_lcm(a: usize, b: usize) -> Numbers {
    if outside(a) || outside(b) { Numbers::refused(3) } else { Numbers::is(period_lcm(a, b)) }
}

fn right_min_period(v: &[u64]) -> Numbers {
    if outside(v.len()) { Numbers::refused(3) } else { Numbers::is(call_min_period(v)) }
}

fn right_multiply_add(a: &[u64], b: &[u64], out: &[u64]) -> (u32, Vec<u64>) {
    if a.len() != out.len() || b.len() != out.len() {
        return (7, out.to_vec());
    }
    let sum = |i: usize| {
        let mut slot = Wrapping(out[i]);
        slot.add_assign(&Wrapping(a[i]).mul(&Wrapping(b[i])));
        slot.0
    };
    (0, (0..out.len()).map(sum).collect())
}

/// n words that repeat after d; the base takes few values, so that it may repeat sooner.
fn planted(random: &mut Random, n: usize, d: usize) -> Vec<u64> {
    let base: Vec<u64> = (0..d).map(|_| random.word() % 3).collect();
    (0..n).map(|t| base[t % d]).collect()
}

pub fn compare(tally: &mut Tally) {
    let mut random = Random::new(1);
    tally.run("wrapping_mul: ends and random words", |cases| {
        let mut pairs: Vec<(u64, u64)> = ENDS.iter().flat_map(|&a| ENDS.map(|b| (a, b))).collect();
        pairs.extend((0..1_000_000).map(|_| (random.any_size(), random.any_size())));
        for (a, b) in pairs {
            cases.same(|| format!("{a} {b}"), ours::wrapping_mul(a, b), Wrapping(a).mul(&Wrapping(b)).0);
        }
    });
    tally.run("multiply_add_into: every word of out, lengths alike and not", |cases| {
        for n in (0usize..40).chain([1_000, 65_536]) {
            for (na, nb) in [(n, n), (n, n), (n + 1, n), (n, n + 1), (n.saturating_sub(1), n), (n, 0)] {
                let (a, b, out) = (random.words(na), random.words(nb), random.words(n));
                let mut lent = Lent::new(&out);
                let refusal = ours::multiply_add_into(&a, &b, lent.part());
                let (words, around) = lent.back();
                let (right, expected) = right_multiply_add(&a, &b, &out);
                cases.same(|| format!("lengths {na} {nb} {n}"), (refusal, words, around), (right, expected, true));
            }
        }
    });
    tally.run("residue: i64's ends at every modulus, and random numbers", |cases| {
        let mut calls: Vec<(i64, u32)> = (1..=65_536).flat_map(|m| SHIFTS.map(|x| (x, m))).collect();
        calls.extend((0..1_000_000).map(|_| {
            let x = random.any_size() as i64;
            (if random.below(2) == 0 { x } else { x.wrapping_neg() }, 1 + random.below(65_536) as u32)
        }));
        for (x, m) in calls {
            let right = word(call_normalize_linear_transform_diagonal(x, m as usize));
            cases.same(|| format!("{x} {m}"), ours::residue(x, m), right);
        }
    });
    tally.run("residue: modulus 0, and moduli past the slots", |cases| {
        for x in SHIFTS {
            cases.same(|| format!("{x} 0"), ours::residue(x, 0), 0);
            for m in [65_537, 0x7fff_ffff, 0x8000_0000, 0xffff_ffff] {
                cases.same(|| format!("{x} {m}"), ours::residue(x, m), word(x.rem_euclid(m as i64)));
            }
        }
    });
    tally.run("gcd: all pairs to 300, ends and random pairs", |cases| {
        let mut pairs: Vec<(u32, u32)> = (0..=300).flat_map(|a| (0..=300).map(move |b| (a, b))).collect();
        let ends = [0, 1, 65_535, 65_536, 0x7fff_ffff, 0x8000_0000, 0xffff_fffe, 0xffff_ffff];
        pairs.extend(ends.iter().flat_map(|&a| ends.map(|b| (a, b))));
        pairs.extend((0..200_000).map(|_| ((random.any_size() >> 32) as u32, (random.any_size() >> 32) as u32)));
        pairs.extend((0..200_000).map(|_| (random.below(65_537) as u32, random.below(65_537) as u32)));
        for (a, b) in pairs {
            cases.same(|| format!("{a} {b}"), ours::gcd(a, b), word(call_gcd_i64(a as i64, b as i64)));
        }
    });
    tally.run("period_lcm: all pairs to 300", |cases| {
        for a in 0..=300 {
            for b in 0..=300 {
                cases.same(|| format!("{a} {b}"), ours::period_lcm(a, b), right_lcm(a, b));
            }
        }
    });
    tally.run("period_lcm: random pairs to the limit, at it and past it", |cases| {
        let ends = [0, 1, 2, 65_535, 65_536, 65_537, 0x1_0000_0000, 0x1_0000_0001, usize::MAX];
        let mut pairs: Vec<(usize, usize)> = ends.iter().flat_map(|&a| ends.map(|b| (a, b))).collect();
        pairs.extend((0..300_000).map(|_| (1 + random.below(65_536), 1 + random.below(65_536))));
        pairs.extend((0..50_000).map(|_| (random.any_size() as usize, random.any_size() as usize)));
        for (a, b) in pairs {
            cases.same(|| format!("{a} {b}"), ours::period_lcm(a, b), right_lcm(a, b));
        }
    });
    tally.run("min_period: all vectors over 0 and 1 up to length 14", |cases| {
        for n in 0..=14 {
            for bits in 0..1u64 << n {
                let v: Vec<u64> = (0..n).map(|t| bits >> t & 1).collect();
                cases.same(|| format!("{v:?}"), ours::min_period(&v), right_min_period(&v));
            }
        }
    });
    tally.run("min_period: planted periods, every length to 500 and every divisor", |cases| {
        for n in 1..=500 {
            for d in divisors(n) {
                let mut v = planted(&mut random, n, d);
                cases.same(|| format!("{d} in {n}"), ours::min_period(&v), right_min_period(&v));
                let at = random.below(n);
                v[at] ^= 1 << 63;
                cases.same(|| format!("{d} in {n}, spoilt at {at}"), ours::min_period(&v), right_min_period(&v));
            }
        }
    });
    tally.run("min_period: long vectors, every divisor planted, spoilt at the ends", |cases| {
        for n in LONG {
            for d in divisors(n) {
                let mut v = planted(&mut random, n, d);
                cases.same(|| format!("{d} in {n}"), ours::min_period(&v), right_min_period(&v));
                for at in [0, n / 2, n - 1] {
                    v[at] ^= 1;
                    cases.same(|| format!("{d} in {n}, spoilt at {at}"), ours::min_period(&v), right_min_period(&v));
                    v[at] ^= 1;
                }
            }
        }
    });
    tally.run("min_period: lengths 0 and past the limit", |cases| {
        for n in [0, 65_537, 65_538, 131_072] {
            let v = vec![7; n];
            cases.same(|| format!("length {n}"), ours::min_period(&v), right_min_period(&v));
        }
    });
}

pub fn sample(sample: &mut Sample) {
    let mut random = Random::new(2);
    let pair = |n: Numbers| vec![n.refusal as u64, n.value as u64];
    for a in ENDS {
        for b in ENDS {
            sample.call(1, &[a, b], &[Wrapping(a).mul(&Wrapping(b)).0]);
        }
    }
    for x in SHIFTS {
        for m in [1, 2, 3, 10, 255, 4_096, 65_535, 65_536] {
            sample.call(2, &[x as u64, m], &[call_normalize_linear_transform_diagonal(x, m as usize) as u64]);
        }
    }
    for _ in 0..100 {
        let (a, b) = (random.below(65_537) as u64, random.below(1_000) as u64);
        sample.call(3, &[a, b], &[call_gcd_i64(a as i64, b as i64) as u64]);
    }
    let sides = [0, 1, 2, 3, 4, 6, 8, 12, 255, 256, 4_096, 59_049, 65_535, 65_536, 65_537, usize::MAX];
    for a in sides {
        for b in sides {
            sample.call(4, &[a as u64, b as u64], &pair(right_lcm(a, b)));
        }
    }
    for n in (0..=30).chain([36, 60, 105, 210, 243, 256]) {
        for d in divisors(n) {
            let v = planted(&mut random, n, d);
            sample.call(5, &v, &pair(right_min_period(&v)));
        }
    }
    sample.call(5, &[], &pair(right_min_period(&[])));
    for (na, nb) in [(16, 16), (15, 16), (16, 15), (17, 17), (0, 16), (0, 0)] {
        let (a, b) = (random.words(na), random.words(nb));
        let (refusal, out) = right_multiply_add(&a, &b, &[3; 16]);
        let words: Vec<u64> = [na as u64].into_iter().chain(a).chain(b).collect();
        let answer: Vec<u64> = [refusal as u64].into_iter().chain(out).collect();
        sample.call(6, &words, &answer);
    }
}

pub fn bench(bench: &mut Bench) {
    let mut random = Random::new(3);
    let n = 65_536;
    let vectors = [
        ("min_period, 65,536 equal words", vec![7; n]),
        ("min_period, 65,536 random words", random.words(n)),
        ("min_period, period 4,096 in 65,536", {
            let base = random.words(4_096);
            (0..n).map(|t| base[t % 4_096]).collect()
        }),
        ("min_period, period 21 in 64,974", {
            let base = random.words(21);
            (0..64_974).map(|t| base[t % 21]).collect()
        }),
    ];
    for (name, v) in &vectors {
        bench.pair(name, Some(1.0), || keep(ours::min_period(keep(v))), || keep(call_min_period(keep(v))));
    }
    let pairs: Vec<(usize, usize)> = (0..1_000).map(|_| (1 + random.below(n), 1 + random.below(n))).collect();
    bench.pair(
        "period_lcm, 1,000 random pairs",
        Some(1.0),
        || pairs.iter().map(|&(a, b)| ours::period_lcm(keep(a), keep(b)).value).fold(0, usize::wrapping_add),
        || pairs.iter().map(|&(a, b)| plain_lcm(keep(a), keep(b))).fold(0, usize::wrapping_add),
    );
    let (a, b) = (random.words(4_096), random.words(4_096));
    let (mut x, mut y) = (random.words(4_096), random.words(4_096));
    bench.pair(
        "multiply_add_into, 4,096 words, beside a plain loop",
        Some(0.9),
        || keep(ours::multiply_add_into(keep(&a), keep(&b), keep(&mut x))),
        || plain_multiply_add(keep(&a), keep(&b), keep(&mut y)),
    );
}

// A call from another library is no candidate for inlining, so the Rust's are none either.
#[inline(never)]
fn plain_lcm(a: usize, b: usize) -> usize {
    period_lcm(a, b)
}

#[inline(never)]
fn plain_multiply_add(a: &[u64], b: &[u64], out: &mut [u64]) {
    for ((out, a), b) in out.iter_mut().zip(a).zip(b) {
        *out = out.wrapping_add(a.wrapping_mul(*b));
    }
}
