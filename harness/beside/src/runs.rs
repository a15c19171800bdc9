//! The plain run beside `evaluate` of document 001.

use poulpy_core::layouts::{Evaluate, LinearTransformationStrategy as Strategy};
use sibukyaran::lent::{self as ours, BSGS, BSGS_POWERS_OF_TWO, DIRECT, Map};

use crate::bench::{Bench, keep};
use crate::diagonals::{Stored, any_map, every_map, map_words, right_map_refusal, rust_map, wide_map, wrapped};
use crate::guards::Lent;
use crate::random::Random;
use crate::ring::outside;
use crate::sample::Sample;
use crate::tally::Tally;

/// Ours by a strategy of the Rust's.
fn evaluate(map: Map, input: &[u64], strategy: Strategy, out: &mut [u64]) -> u32 {
    let (kind, giant_step) = match strategy {
        Strategy::Bsgs { giant_step } => (BSGS, giant_step),
        Strategy::BsgsPowersOfTwo { giant_step } => (BSGS_POWERS_OF_TWO, giant_step),
        Strategy::Direct => (DIRECT, 0),
    };
    ours::evaluate(map, input, kind, giant_step, out)
}

fn width(strategy: Strategy) -> Option<usize> {
    match strategy {
        Strategy::Bsgs { giant_step } | Strategy::BsgsPowersOfTwo { giant_step } => Some(giant_step),
        Strategy::Direct => None,
    }
}

fn right_evaluate(map: Map, input: &[u64], strategy: Strategy, out: &[u64]) -> (u32, Vec<u64>) {
    let refusal = match right_map_refusal(map) {
        0 if width(strategy).is_some_and(outside) => 3,
        0 if input.len() != map.slots => 7,
        0 if out.len() < map.slots => 12,
        refusal => refusal,
    };
    if refusal != 0 {
        return (refusal, out.to_vec());
    }
    let product = rust_map(map).evaluate(&wrapped(input), strategy);
    (0, product.iter().map(|w| w.0).chain(out[map.slots..].iter().copied()).collect())
}

pub fn any_strategy(random: &mut Random, slots: usize) -> Strategy {
    let widths = [1, 2, slots, slots + 1, 65_536, 1 + random.below(2 * slots), 1 + random.below(slots)];
    let giant_step = widths[random.below(widths.len())].min(65_536);
    match random.below(3) {
        0 => Strategy::Bsgs { giant_step },
        1 => Strategy::BsgsPowersOfTwo { giant_step },
        _ => Strategy::Direct,
    }
}

pub fn compare(tally: &mut Tally) {
    tally.run("evaluate: all maps and inputs over 0 and 1 of up to 3 slots, each strategy", |cases| {
        for slots in 1..=3 {
            for map in every_map(slots).iter().map(Stored::of) {
                for bits in 0..1u64 << slots {
                    let input: Vec<u64> = (0..slots).map(|t| bits >> t & 1).collect();
                    for giant_step in 1..=slots + 1 {
                        for strategy in
                            [Strategy::Bsgs { giant_step }, Strategy::BsgsPowersOfTwo { giant_step }, Strategy::Direct]
                        {
                            let held = vec![7; slots + 1];
                            let mut lent = Lent::new(&held);
                            let refusal = evaluate(map.lent(), &input, strategy, lent.part());
                            let (right, words) = right_evaluate(map.lent(), &input, strategy, &held);
                            let call = || format!("{map:?} {input:?} {strategy:?}");
                            cases.same(call, (refusal, lent.back()), (right, (words, true)));
                        }
                    }
                }
            }
        }
    });
    let mut random = Random::new(7);
    tally.run("evaluate: random maps, each strategy, widths at and past slots, words behind kept", |cases| {
        for slots in (1..=400).chain([1_024, 4_096, 46_189, 65_535, 65_536]) {
            for _ in 0..6 {
                let stored = Stored::of(&any_map(&mut random, slots)).longer(&mut random);
                let strategy = any_strategy(&mut random, slots);
                let input = random.words(slots);
                let room = slots + random.below(4);
                let held = random.words(room);
                let mut lent = Lent::new(&held);
                let refusal = evaluate(stored.lent(), &input, strategy, lent.part());
                let (right, words) = right_evaluate(stored.lent(), &input, strategy, &held);
                cases.same(|| format!("{stored:?} {strategy:?}"), (refusal, lent.back()), (right, (words, true)));
            }
        }
    });
    tally.run("evaluate: refusals in order, nothing changed", |cases| {
        for slots in 1..=40 {
            let good = Stored::of(&any_map(&mut random, slots)).longer(&mut random);
            let mut bad = good.clone();
            bad.count = bad.pairs.len() / 2 + 1;
            let mut none = good.clone();
            none.slots = 0;
            for map in [&good, &bad, &none] {
                for giant_step in [0, 1, 65_536, 65_537, usize::MAX] {
                    // No strategy has this kind, so it has no width.
                    let (input, held) = (random.words(slots), random.words(slots));
                    let mut lent = Lent::new(&held);
                    let refusal = ours::evaluate(map.lent(), &input, 3, giant_step, lent.part());
                    let right = [right_map_refusal(map.lent()), 3].into_iter().find(|&e| e != 0).unwrap();
                    cases.same(
                        || format!("{map:?} kind 3 {giant_step}"),
                        (refusal, lent.back()),
                        (right, (held, true)),
                    );
                    for strategy in
                        [Strategy::Bsgs { giant_step }, Strategy::BsgsPowersOfTwo { giant_step }, Strategy::Direct]
                    {
                        for (n, m) in [(slots, slots), (slots - 1, slots), (slots + 1, slots), (slots, slots - 1)] {
                            let (input, held) = (random.words(n), random.words(m));
                            let mut lent = Lent::new(&held);
                            let refusal = evaluate(map.lent(), &input, strategy, lent.part());
                            let (right, words) = right_evaluate(map.lent(), &input, strategy, &held);
                            let call = || format!("{map:?} {strategy:?} {n} {m}");
                            cases.same(call, (refusal, lent.back()), (right, (words, true)));
                        }
                    }
                }
            }
        }
    });
}

pub fn sample(sample: &mut Sample) {
    let mut random = Random::new(8);
    for slots in [1, 2, 3, 4, 6, 12] {
        for kind in 0..3 {
            for (giant_step, n, m) in [
                (1, slots, slots),
                (3, slots, slots + 2),
                (0, slots, slots),
                (2, slots + 1, slots),
                (2, slots, slots - 1),
            ] {
                let stored = Stored::of(&any_map(&mut random, slots)).longer(&mut random);
                let strategy = match kind {
                    0 => Strategy::Bsgs { giant_step },
                    1 => Strategy::BsgsPowersOfTwo { giant_step },
                    _ => Strategy::Direct,
                };
                let input = random.words(n);
                let (refusal, out) = right_evaluate(stored.lent(), &input, strategy, &vec![7; m]);
                let head = vec![kind, giant_step as u64, m as u64, n as u64];
                let call = [head, input, map_words(stored.lent())].concat();
                sample.call(13, &call, &[vec![refusal as u64], out].concat());
            }
        }
    }
}

/// A plain loop over the same arrays: straight runs where the period is whole, wrapping counters where it is not.
#[inline(never)]
fn plain(map: Map, input: &[u64], out: &mut [u64]) {
    out.fill(0);
    let mut start = 0;
    for pair in map.pairs.chunks(2).take(map.count) {
        let (k, n) = (pair[0] as usize, pair[1] as usize);
        let values = &map.values[start..start + n];
        start += n;
        if n == map.slots {
            let cut = map.slots - k;
            let (low, high) = out.split_at_mut(cut);
            for ((o, v), x) in low.iter_mut().zip(values).zip(&input[k..]) {
                *o = o.wrapping_add(v.wrapping_mul(*x));
            }
            for ((o, v), x) in high.iter_mut().zip(&values[cut..]).zip(input) {
                *o = o.wrapping_add(v.wrapping_mul(*x));
            }
            continue;
        }
        let (mut i, mut j) = (0, k);
        for o in out.iter_mut() {
            *o = o.wrapping_add(values[i].wrapping_mul(input[j]));
            i = if i + 1 == n { 0 } else { i + 1 };
            j = if j + 1 == map.slots { 0 } else { j + 1 };
        }
    }
}

pub fn bench(bench: &mut Bench) {
    let mut random = Random::new(9);
    let slots = 65_536;
    let input = random.words(slots);
    let rust_input = wrapped(&input);
    for length in [slots, 256, 1] {
        let rust = wide_map(&mut random, 511, length);
        let stored = Stored::of(&rust);
        let (mut x, mut y) = (vec![0; slots], vec![0; slots]);
        bench.pair(
            &format!("evaluate, 511 diagonals of {length}, beside Direct"),
            Some(3.0),
            || evaluate(keep(stored.lent()), &input, Strategy::Direct, &mut x),
            || keep(&rust).evaluate(&rust_input, Strategy::Direct),
        );
        bench.pair(
            &format!("evaluate, 511 diagonals of {length}, beside a plain loop"),
            Some(1.0 / 1.2),
            || evaluate(keep(stored.lent()), &input, Strategy::Direct, &mut x),
            || plain(keep(stored.lent()), &input, &mut y),
        );
        assert_eq!(x, y, "the plain loop is right");
    }
}
