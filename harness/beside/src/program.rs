// A program as poulpy's users write them: it names what poulpy's `layouts` have, and whose they are its includer says
// (drop_in.rs).

use std::num::Wrapping;

use crate::diagonals::{any_period, wrapped};
use crate::plans::{any_list, any_width};
use crate::random::{Random, divisors};

type Word = Wrapping<u64>;

/// What the program prints for a seed, part by part.
pub fn run(seed: u64) -> [String; 6] {
    let mut random = Random::new(seed);
    [store, product, schedule, reach, matrices, products].map(|part| part(&mut random))
}

/// All that a map shows.
fn shown(map: &Diagonals<Word>) -> String {
    let slots = map.slots() as i64;
    let stored = |k| (k, map.period(k - slots), map.get(k + slots).map(|values| values.to_vec()));
    let all: Vec<_> = map.indexes().into_iter().chain(-2..2).map(stored).collect();
    format!("{slots} {} {all:?} {map:?}", map.is_empty())
}

/// A map is set, and a copy of it transposed and shrunk.
fn store(random: &mut Random) -> String {
    let slots = 1 + random.below(120);
    let mut map = Diagonals::new(slots);
    for _ in 0..random.below(9) {
        map.set(random.word() as i64, wrapped(&any_period(random, slots)));
    }
    let mut other = map.clone();
    other.transpose();
    let transposed = shown(&other);
    other.shrink_period();
    format!("{} {transposed} {}", shown(&map), shown(&other))
}

/// A map of terms, its product by each strategy, and rotations of the input.
fn product(random: &mut Random) -> String {
    let slots = 1 + random.below(120);
    let periods: Vec<usize> = divisors(slots).collect();
    let [period, other] = [0; 2].map(|_| periods[random.below(periods.len())]);
    let terms = (0..random.below(20)).map(|_| (random.below(period), random.below(slots), Wrapping(random.word())));
    let map = Diagonals::from_slot_map(slots, period, terms.collect::<Vec<_>>());
    let best = optimal_bsgs_giant_step(map.indexes(), slots);
    let input = wrapped(&random.words(slots));
    let mut products = Vec::new();
    for giant_step in [best, any_width(random, slots)] {
        products.push(map.evaluate(&input, LinearTransformationStrategy::Bsgs { giant_step }));
        products.push(map.evaluate(&input, LinearTransformationStrategy::BsgsPowersOfTwo { giant_step }));
    }
    products.push(map.evaluate(&input, LinearTransformationStrategy::Direct));
    let mut rotated = vec![Wrapping(0); slots * random.below(3)];
    // Far enough from the ends that no sum of poulpy's overflows.
    rotate_slots_into(&input, random.word() as i64 >> 1, &mut rotated);
    format!("{} {best} {products:?} {rotated:?} {}", shown(&map), period_lcm(period, other))
}

/// The plan of a layout and its keys.
fn schedule(random: &mut Random) -> String {
    let slots = 1 + random.below(3_000);
    let giant_step = any_width(random, slots);
    let strategies = [
        LinearTransformationStrategy::Bsgs { giant_step },
        LinearTransformationStrategy::BsgsPowersOfTwo { giant_step },
        LinearTransformationStrategy::Direct,
    ];
    let strategy = strategies[random.below(3)];
    let layout = LinearTransformationLayout { indexes: any_list(random, slots), slots, strategy };
    let plan = layout.index();
    let babies = plan.rotations.baby_key_rotations(plan.baby_steps.iter().copied());
    let giants = plan.rotations.giant_key_rotations(plan.giant_steps.clone());
    let LinearTransformationPlan { baby_steps, giant_steps, index, rotations } = plan.clone();
    let switches = rotations.giant_key_switches(giant_steps);
    let same = (layout.clone() == layout, plan == layout.plan(giant_step), baby_steps == layout.baby_steps());
    let none = LinearTransformationPlan::default();
    format!("{layout:?} {plan:?} {} {babies:?} {giants:?} {switches} {same:?} {none:?}", index.len())
}

/// Rotations that are not a plan's.
fn reach(random: &mut Random) -> String {
    let [baby_step, giant_step, slots] = [0; 3].map(|_| 1 + random.below(300) as i64);
    let mut multiples = |step: i64, most: i64| -> Vec<i64> {
        (0..random.below(12)).map(|_| random.below((most / step) as usize + 1) as i64 * step).collect()
    };
    let (babies, giants) = (multiples(baby_step, 60_000), multiples(giant_step, slots - 1));
    let both = [BsgsRotations::PerRotation, BsgsRotations::PowersOfTwo { baby_step, giant_step, slots }];
    let told = both.map(|rotations| {
        let keys = rotations.baby_key_rotations(babies.clone());
        let giant_keys = rotations.giant_key_rotations(giants.iter().copied());
        (rotations, keys, giant_keys, rotations.giant_key_switches(giants.iter().copied()))
    });
    format!("{babies:?} {giants:?} {told:?}")
}

/// The matrix maps that are given by numbers alone.
fn matrices(random: &mut Random) -> String {
    let log_d = random.below(4);
    let d = 1 << log_d;
    let slots = d * d * (1 + random.below(5));
    let (k, round) = (random.below(d + 1), random.below(65_537));
    let mut maps = vec![
        sigma(slots, log_d),
        tau(slots, log_d),
        tau_rep(slots, log_d),
        transpose(slots, log_d),
        first_row(slots, log_d),
        first_col(slots, log_d),
        rotate_rows(slots, log_d, round),
        rotate_cols(slots, log_d, round),
        rows_upper(slots, log_d, k),
        rows_lower(slots, log_d, k),
        cols_left(slots, log_d, k),
        cols_right(slots, log_d, k),
        rows_left(slots, log_d, k),
        rows_right(slots, log_d, k),
    ];
    if 0 < k && k < d {
        maps.push(rotate_rows_rep::<Word>(slots, log_d, k));
    }
    maps.iter().map(shown).collect()
}

/// The matrix maps of public matrices, and a product in two stages.
fn products(random: &mut Random) -> String {
    let (log_d, count) = (random.below(4), 1 + random.below(3));
    let d = 1usize << log_d;
    let slots = d * d * count * (1 + random.below(3));
    let b = random.words(count * d * d);
    let entry = |s: usize, r: usize, c: usize| Wrapping(b[(s * d + r) * d + c]);
    let terms = |r: usize, c: usize| (0..(r + c) % 3).map(move |l| ((r + l) % d, c / (l + 1), Wrapping(l as u64 + 7)));
    let (stage_1, stage_2) = (sigma(slots, log_d), right_jkls(slots, log_d, count, entry));
    let direct = LinearTransformationStrategy::Direct;
    let product = stage_2.evaluate(&stage_1.evaluate(&wrapped(&random.words(slots)), direct), direct);
    let maps = [
        stage_2,
        left_jkls(slots, log_d, count, entry),
        right_mul(slots, log_d, count, entry),
        left_mul(slots, log_d, count, entry),
        left_mul_rep(slots, log_d, entry),
        per_matrix_map(slots, log_d, terms),
        slot_product(slots, &wrapped(&any_period(random, slots)), random.word() as i64),
    ];
    let values = [tau_values(log_d, count, entry), sigma_values(log_d, count, entry)];
    maps.iter().map(shown).chain([format!("{product:?} {values:?}")]).collect()
}

/// Calls that poulpy's assertions forbid, and the number that document 01 refuses each with.
pub const WRONG: [(u32, fn()); 18] = [
    (1, || drop(Diagonals::<Word>::new(0))),
    (4, || Diagonals::<Word>::new(4).set(0, vec![])),
    (4, || Diagonals::new(4).set(1, vec![Wrapping(1); 3])),
    (4, || drop(Diagonals::<Word>::from_slot_map(4, 3, []))),
    (8, || drop(Diagonals::from_slot_map(4, 2, [(2, 0, Wrapping(1))]))),
    (7, || drop(Diagonals::<Word>::new(2).evaluate(&[], LinearTransformationStrategy::Direct))),
    (3, || {
        let strategy = LinearTransformationStrategy::Bsgs { giant_step: 0 };
        drop(Diagonals::new(1).evaluate(&[Wrapping(1)], strategy));
    }),
    (1, || drop(layout(0).index())),
    (3, || drop(layout(4).plan(0))),
    (1, || drop(layout(0).baby_steps())),
    (1, || assert_eq!(optimal_bsgs_giant_step([1, 2], 0), 0)),
    (9, || drop(powers_of_two(2, 1).baby_key_rotations([1]))),
    (10, || drop(powers_of_two(1, 2).giant_key_rotations([1]))),
    (10, || assert_eq!(powers_of_two(1, 2).giant_key_switches([1]), 0)),
    (5, || drop(sigma::<Word>(5, 1))),
    (5, || drop(right_mul(4, 1, 0, |_, _, _| Wrapping(1)))),
    (6, || drop(rotate_rows_rep::<Word>(4, 1, 2))),
    (4, || drop(slot_product::<Word>(4, &[], 0))),
];

fn layout(slots: usize) -> LinearTransformationLayout {
    LinearTransformationLayout { indexes: vec![1], slots, strategy: LinearTransformationStrategy::Direct }
}

fn powers_of_two(baby_step: i64, giant_step: i64) -> BsgsRotations {
    BsgsRotations::PowersOfTwo { baby_step, giant_step, slots: 4 }
}
