//! The crate's owned types beside documents 000, 001 and 002, and its keyed run beside document 01's machine as well.

use std::collections::BTreeSet;
use std::num::Wrapping;

use poulpy_blas::layouts as rust_maps;
use poulpy_core::layouts::{
    BsgsRotations as RustRotations, Evaluate, LinearTransformationPlan as RustPlan,
    LinearTransformationStrategy as Strategy, call_baby_closure, call_baby_passes, call_giant_tree,
    call_linear_transform_index, call_linear_transformation_plan, call_min_period, optimal_bsgs_giant_step, period_lcm,
    rotate_slots_into,
};
use sibukyaran::{
    BsgsRotations, Diagonals, KeyedRun, LinearTransformationLayout, LinearTransformationPlan,
    LinearTransformationStrategy, Refusal, lent, maps,
};

use crate::diagonals::{
    Stored, Words, any_index, any_map, any_period, any_terms, right_rotate, rust_map, slot_counts, wrapped,
};
use crate::files::{file_of, map_of};
use crate::keyed::{Run, any_run, lent as any_buffers, on_kinds, on_subsets};
use crate::keys::{Reach, accepted_babies, accepted_giants, shuffled, times};
use crate::machine;
use crate::matrices::{
    PLAIN, PRODUCTS, RULES, any_matrices, right_left_mul_rep, right_product, right_rows_rep, right_rule,
    right_slot_product, right_values, square, tiled,
};
use crate::plans::{How, accepted, any_list, any_width, disguised, plan_keys, plan_switches, subsets, wide};
use crate::random::{Random, divisors};
use crate::ring::{MOST, outside, word};
use crate::runs::any_strategy;
use crate::tally::{Cases, Tally};

/// The crate's answers, a refusal as its number.
fn numbered<T>(answer: Result<T, Refusal>) -> Result<T, u32> {
    answer.map_err(|refusal| refusal.number())
}

/// Slots, and each diagonal's offset and stored values.
type Stretches = (usize, Vec<(usize, Vec<u64>)>);

fn stretches(map: Diagonals) -> Stretches {
    (map.slots(), map.iter().map(|(offset, values)| (offset, values.to_vec())).collect())
}

fn rust_stretches(map: Words) -> Stretches {
    let stored = |k: i64| (k as usize, map.get(k).unwrap().iter().map(|w| w.0).collect());
    (map.slots(), map.indexes().into_iter().map(stored).collect())
}

/// The crate's map of well-formed words.
fn owned(stored: &Stored) -> Diagonals {
    let Stored { slots, count, pairs, values } = stored;
    Diagonals::from_lent(lent::Map { slots: *slots, count: *count, pairs, values }).unwrap()
}

fn own_strategy(strategy: Strategy) -> LinearTransformationStrategy {
    match strategy {
        Strategy::Bsgs { giant_step } => LinearTransformationStrategy::Bsgs { giant_step },
        Strategy::BsgsPowersOfTwo { giant_step } => LinearTransformationStrategy::BsgsPowersOfTwo { giant_step },
        Strategy::Direct => LinearTransformationStrategy::Direct,
    }
}

/// Every reader of a map.
fn check_map(cases: &mut Cases, random: &mut Random, ours: &Diagonals, right: &Words) {
    let told = || format!("{right:?}");
    let (slots, list) = rust_stretches(right.clone());
    cases.same(told, stretches(ours.clone()), (slots, list.clone()));
    let counts = (ours.count(), ours.is_empty(), ours.indexes());
    cases.same(told, counts, (list.len(), right.is_empty(), right.indexes()));
    let stored = list.last().map_or(0, |&(offset, _)| offset as i64);
    for index in [any_index(random, slots), any_index(random, slots), stored, stored - slots as i64] {
        let values = right.get(index).map(|values| values.iter().map(|w| w.0).collect());
        let ours = (ours.period(index), ours.get(index).map(<[u64]>::to_vec));
        cases.same(|| format!("{index} of {right:?}"), ours, (right.period(index), values));
    }
}

/// One change of both: a diagonal set, the map transposed, shrunk, or written and read.
fn change(cases: &mut Cases, random: &mut Random, ours: &mut Diagonals, right: &mut Words) {
    let slots = right.slots();
    match random.below(10) {
        0 => {
            ours.transpose();
            right.transpose();
        }
        1 => {
            ours.shrink_period();
            right.shrink_period();
        }
        2 => {
            let bytes = ours.write_map_file();
            cases.same(|| format!("{right:?}"), &bytes, &file_of(Stored::of(right).lent()));
            *ours = Diagonals::read_map_file(&bytes).unwrap();
        }
        3 => {
            let refused = ours.set(any_index(random, slots), vec![1; slots + 1]);
            cases.same(|| format!("{slots}"), numbered(refused), Err(4));
        }
        _ => {
            let (index, values) = (any_index(random, slots), any_period(random, slots));
            right.set(index, wrapped(&values));
            ours.set(index, values).unwrap();
        }
    }
}

fn check_slot_map(cases: &mut Cases, random: &mut Random, slots: usize, period: usize) {
    let n = random.below(30);
    let terms = any_terms(random, slots, period, n);
    let list = || (0..terms.is.len()).map(|t| (terms.is[t] as usize, terms.js[t] as usize, terms.ws[t]));
    let right = Words::from_slot_map(slots, period, list().map(|(i, j, w)| (i, j, Wrapping(w))));
    let ours = Diagonals::from_slot_map(slots, period, list()).unwrap();
    check_map(cases, random, &ours, &right);
}

fn check_evaluate(cases: &mut Cases, random: &mut Random, slots: usize) {
    let right = any_map(random, slots);
    let (ours, input, strategy) = (owned(&Stored::of(&right)), random.words(slots), any_strategy(random, slots));
    let product: Vec<u64> = right.evaluate(&wrapped(&input), strategy).iter().map(|w| w.0).collect();
    let told = || format!("{right:?} {strategy:?}");
    cases.same(told, numbered(ours.evaluate(&input, own_strategy(strategy))), Ok(product.clone()));
    let behind = random.words(3);
    let mut out = [random.words(slots), behind.clone()].concat();
    let answer = ours.evaluate_into(&input, own_strategy(strategy), &mut out);
    cases.same(told, (numbered(answer), out), (Ok(()), [product, behind].concat()));
}

/// A length, a number or a source at the limits, past them, and between.
fn any_count(random: &mut Random) -> usize {
    [0, 1, 12, 1 + random.below(400), 1 + random.below(MOST), MOST, MOST + 1][random.below(7)]
}

fn check_periods(cases: &mut Cases, random: &mut Random) {
    let (a, b) = (any_count(random), any_count(random));
    let right = if outside(a) || outside(b) { Err(3) } else { Ok(period_lcm(a, b)) };
    cases.same(|| format!("period_lcm {a} {b}"), numbered(sibukyaran::period_lcm(a, b)), right);
    let v: Vec<u64> = (0..a).map(|t| (t % b.clamp(1, 60)) as u64 / 7).collect();
    let right = if outside(a) { Err(3) } else { Ok(call_min_period(&v)) };
    cases.same(|| format!("min_period {v:?}"), numbered(sibukyaran::min_period(&v)), right);
    let (k, length) = (any_index(random, a.max(1)), [0, b, 2 * a][random.below(3)]);
    let mut out = random.words(length);
    let (refusal, rotated) = right_rotate(&v, k, &out);
    let answer = numbered(sibukyaran::rotate_slots_into(&v, k, &mut out)).err().unwrap_or(0);
    cases.same(|| format!("rotate_slots_into {v:?} {k}"), (answer, out), (refusal, rotated));
}

fn compare_maps(tally: &mut Tally) {
    let mut random = Random::new(81);
    tally.run("owned period_lcm, min_period, rotate_slots_into: to the limits and past them", |cases| {
        (0..400).for_each(|_| check_periods(cases, &mut random));
    });
    tally.run("owned maps: chains of sets, transposes, shrinkings and files, each map read", |cases| {
        for slots in slot_counts() {
            let (mut ours, mut right) = (Diagonals::new(slots).unwrap(), Words::new(slots));
            for _ in 0..16 {
                change(cases, &mut random, &mut ours, &mut right);
                check_map(cases, &mut random, &ours, &right);
            }
        }
    });
    tally.run("owned maps: slot maps and products, each strategy", |cases| {
        for slots in slot_counts() {
            let periods: Vec<usize> = divisors(slots).filter(|&period| period <= 1_000).collect();
            for _ in 0..3 {
                let period = periods[random.below(periods.len())];
                check_slot_map(cases, &mut random, slots, period);
                check_evaluate(cases, &mut random, slots);
            }
        }
    });
    tally.run("owned maps: files with one bit changed", |cases| {
        for slots in (1..=200).chain([MOST]) {
            let mut bytes = owned(&Stored::of(&any_map(&mut random, slots))).write_map_file();
            let at = random.below(bytes.len().min(40));
            bytes[at] ^= 1 << random.below(8);
            let right = map_of(&bytes).map(|map| rust_stretches(rust_map(map.lent()))).ok_or(13);
            let ours = numbered(Diagonals::read_map_file(&bytes)).map(stretches);
            cases.same(|| format!("{bytes:?}"), ours, right);
        }
    });
}

fn rust_rotations(rotations: BsgsRotations) -> RustRotations {
    match rotations {
        BsgsRotations::PerRotation => RustRotations::PerRotation,
        BsgsRotations::PowersOfTwo { baby_step, giant_step, slots } => {
            RustRotations::PowersOfTwo { baby_step, giant_step, slots }
        }
    }
}

fn rust_plan(plan: LinearTransformationPlan) -> RustPlan {
    let LinearTransformationPlan { baby_steps, giant_steps, index, rotations } = plan;
    RustPlan { baby_steps, giant_steps, index, rotations: rust_rotations(rotations) }
}

/// The cost in `optimal_bsgs_giant_step`: twice the larger of the numbers of distinct babies and giants, 0 not forced.
fn right_cost(indexes: &[i64], slots: usize, strategy: Strategy) -> usize {
    let baby = |k: usize| match strategy {
        Strategy::Bsgs { giant_step } | Strategy::BsgsPowersOfTwo { giant_step } => k % giant_step,
        Strategy::Direct => 0,
    };
    let diagonals = || indexes.iter().map(|k| k.rem_euclid(slots as i64) as usize);
    let babies: BTreeSet<usize> = diagonals().map(baby).collect();
    let giants: BTreeSet<usize> = diagonals().map(|k| k - baby(k)).collect();
    2 * babies.len().max(giants.len())
}

/// Every call of a layout. The kinds are those of strategies.
fn check_layout(cases: &mut Cases, indexes: &[i64], slots: usize, how: How) {
    let (kind, giant_step) = how;
    let asked =
        [Strategy::Bsgs { giant_step }, Strategy::BsgsPowersOfTwo { giant_step }, Strategy::Direct][kind as usize];
    let layout = LinearTransformationLayout { indexes: indexes.to_vec(), slots, strategy: own_strategy(asked) };
    let told = || format!("{layout:?}");
    let plan = accepted(slots, how).map(|strategy| call_linear_transform_index(indexes, slots, strategy));
    cases.same(told, numbered(layout.index()).map(rust_plan), plan.clone());
    let by_width =
        accepted(slots, (0, giant_step)).map(|_| call_linear_transformation_plan(indexes, slots, giant_step));
    cases.same(told, numbered(layout.plan(giant_step)).map(rust_plan), by_width);
    let keys = plan.as_ref().map(|plan| wide(&plan_keys(plan))).map_err(|&refusal| refusal);
    cases.same(told, numbered(layout.key_rotations()), keys);
    let switches = plan.as_ref().map(plan_switches).map_err(|&refusal| refusal);
    cases.same(told, numbered(layout.key_switches()), switches);
    cases.same(told, numbered(layout.baby_steps()), plan.map(|plan| plan.baby_steps));
    let cost = accepted(slots, how).map(|strategy| right_cost(indexes, slots, strategy));
    cases.same(told, numbered(layout.cost()), cost);
}

fn check_best(cases: &mut Cases, indexes: &[i64], slots: usize) {
    let best = optimal_bsgs_giant_step(indexes.iter().copied(), slots);
    let ours = sibukyaran::optimal_bsgs_giant_step(indexes.iter().copied(), slots);
    cases.same(|| format!("best width {indexes:?} {slots}"), numbered(ours), Ok(best));
}

fn compare_plans(tally: &mut Tally) {
    let mut random = Random::new(82);
    tally.run("owned layouts: all subsets of up to 7 slots, every width and strategy, best width", |cases| {
        for slots in 1..=7 {
            for list in subsets(slots) {
                let list = disguised(&mut random, &list, slots);
                for width in 1..=slots + 1 {
                    check_layout(cases, &list, slots, (0, width));
                    check_layout(cases, &list, slots, (1, width));
                }
                check_layout(cases, &list, slots, (2, 0));
                check_best(cases, &list, slots);
            }
        }
    });
    tally.run("owned layouts: random lists to 65,536 slots, slots and widths out of range", |cases| {
        for slots in [1, 16, 100, 255, 1_000, 4_096, 46_189, MOST] {
            for kind in [0, 1, 1, 2].repeat(6) {
                let list = any_list(&mut random, slots);
                check_layout(cases, &list, slots, (kind, any_width(&mut random, slots)));
                check_best(cases, &list[..list.len().min(100)], slots.min(1_000));
            }
        }
        for slots in [0, 1, MOST + 1, usize::MAX] {
            for width in [0, 1, MOST, MOST + 1, usize::MAX] {
                (0..3).for_each(|kind| check_layout(cases, &[3, -1, 4], slots, (kind, width)));
            }
        }
    });
}

fn own_rotations(reach: Reach) -> BsgsRotations {
    match reach.kind {
        0 => BsgsRotations::PerRotation,
        _ => {
            let [baby_step, giant_step, slots] = [reach.baby_step, reach.giant_step, reach.slots].map(|n| n as i64);
            BsgsRotations::PowersOfTwo { baby_step, giant_step, slots }
        }
    }
}

fn check_babies(cases: &mut Cases, reach: Reach, list: &[i64]) {
    let (ours, right, babies) = (own_rotations(reach), reach.rotations(), || list.iter().copied());
    let told = || format!("{reach:?} {list:?}");
    let taken = accepted_babies(reach, list);
    let closure = taken.map(|()| call_baby_closure(right, list));
    cases.same(told, numbered(ours.baby_closure(babies())), closure);
    cases.same(told, numbered(ours.baby_passes(babies())), taken.map(|()| call_baby_passes(right, list)));
    let keys = taken.map(|()| right.baby_key_rotations(babies()));
    cases.same(told, numbered(ours.baby_key_rotations(babies())), keys);
}

fn check_giants(cases: &mut Cases, reach: Reach, list: &[i64]) {
    let (ours, right, giants) = (own_rotations(reach), reach.rotations(), || list.iter().copied());
    let told = || format!("{reach:?} {list:?}");
    let taken = accepted_giants(reach, list);
    let tree = ours.giant_tree(giants()).map(|tree| {
        tree.map(|(leaves, levels)| (leaves, levels.into_iter().map(|level| (level.rot, level.pairs)).collect()))
    });
    cases.same(told, numbered(tree), taken.map(|()| call_giant_tree(right, list)));
    let keys = taken.map(|()| right.giant_key_rotations(giants()));
    cases.same(told, numbered(ours.giant_key_rotations(giants())), keys);
    let switches = taken.map(|()| right.giant_key_switches(giants()));
    cases.same(told, numbered(ours.giant_key_switches(giants())), switches);
}

fn compare_rotations(tally: &mut Tally) {
    let mut random = Random::new(83);
    tally.run("owned rotations: all subsets of 0..7 and of up to 7 slots, every step, any order", |cases| {
        for list in subsets(7) {
            for step in 1..=7 {
                let reach = Reach::powers(step, 1 + random.below(9), 1 + random.below(9));
                check_babies(cases, reach, &times(&shuffled(&mut random, &list), step));
                check_babies(cases, reach, &shuffled(&mut random, &list));
                let slots = 1 + random.below(7 * step);
                let reach = Reach::powers(1 + random.below(9), step, slots);
                check_giants(cases, reach, &disguised(&mut random, &times(&list, step), slots));
                check_giants(cases, reach, &disguised(&mut random, &list, slots));
            }
            check_babies(cases, Reach::PER_ROTATION, &shuffled(&mut random, &list));
            check_giants(cases, Reach::PER_ROTATION, &disguised(&mut random, &list, 7));
        }
    });
    tally.run("owned rotations: random lists to the limits, steps and slots out of range", |cases| {
        for _ in 0..200 {
            let slots = [1, 7, 100, 4_096, 46_189, MOST][random.below(6)];
            let step = [1, 2, 3, 37, 256, 1 + random.below(slots), MOST][random.below(7)];
            let babies: Vec<i64> = (0..random.below(300)).map(|_| random.below(MOST.div_ceil(step)) as i64).collect();
            let giants: Vec<i64> = (0..random.below(300)).map(|_| random.below(slots.div_ceil(step)) as i64).collect();
            let (babies, giants) = (times(&babies, step), disguised(&mut random, &times(&giants, step), slots));
            for reach in [Reach::powers(step, step, slots), Reach::PER_ROTATION] {
                check_babies(cases, reach, &babies);
                check_giants(cases, reach, &giants);
            }
        }
        let numbers = [0, 1, 4, MOST, MOST + 1, i64::MAX as usize];
        for (slots, step, other) in
            numbers.iter().flat_map(|&s| numbers.iter().flat_map(move |&t| numbers.map(|u| (s, t, u))))
        {
            for list in [&[][..], &[0], &[4, -4], &[65_536], &[65_535], &[i64::MIN, 3], &[i64::MAX]] {
                check_babies(cases, Reach::powers(step, other, slots), list);
                check_giants(cases, Reach::powers(step, other, slots), list);
            }
        }
    });
}

type Shifted = fn(usize, usize, usize) -> Result<Diagonals, Refusal>;

/// The crate's, as [`RULES`] has the Rust's.
const OWN_RULES: [Shifted; RULES.len()] = [
    |slots, log_d, _| maps::sigma(slots, log_d),
    |slots, log_d, _| maps::tau(slots, log_d),
    |slots, log_d, _| maps::transpose(slots, log_d),
    maps::rotate_rows,
    maps::rotate_cols,
    maps::rows_upper,
    maps::rows_lower,
    maps::cols_left,
    maps::cols_right,
    maps::rows_left,
    maps::rows_right,
];

type Tiled = fn(usize, usize) -> Result<Diagonals, Refusal>;

/// As [`PLAIN`].
const OWN_PLAIN: [Tiled; PLAIN.len()] = [maps::tau_rep, maps::first_row, maps::first_col];

/// A matrix map beside the Rust's.
fn same_map(cases: &mut Cases, told: String, ours: Result<Diagonals, Refusal>, right: Result<Words, u32>) {
    cases.same(|| told, numbered(ours).map(stretches), right.map(rust_stretches));
}

/// The maps of numbers alone.
fn check_matrix_maps(cases: &mut Cases, slots: usize, log_d: usize, k: usize) {
    for (rule, map) in OWN_RULES.into_iter().enumerate() {
        let told = format!("{} {slots} {log_d} {k}", RULES[rule].name);
        same_map(cases, told, map(slots, log_d, k), right_rule(rule, slots, log_d, k));
    }
    for ((name, right, _), map) in PLAIN.into_iter().zip(OWN_PLAIN) {
        let right = tiled(slots, log_d, 1).map(|()| right(slots, log_d));
        same_map(cases, format!("{name} {slots} {log_d}"), map(slots, log_d), right);
    }
    let told = format!("rotate_rows_rep {slots} {log_d} {k}");
    same_map(cases, told, maps::rotate_rows_rep(slots, log_d, k), right_rows_rep(slots, log_d, k));
}

/// The maps and values of public matrices b.
fn check_products(cases: &mut Cases, slots: usize, log_d: usize, count: usize, b: &[u64]) {
    let d = 1usize << log_d;
    let entry = |s: usize, r: usize, c: usize| b[(s * d + r) * d + c];
    let products = [
        maps::right_mul(slots, log_d, count, entry),
        maps::left_mul(slots, log_d, count, entry),
        maps::right_jkls(slots, log_d, count, entry),
        maps::left_jkls(slots, log_d, count, entry),
    ];
    for (p, ours) in products.into_iter().enumerate() {
        let told = format!("{} {slots} {log_d} {count}", PRODUCTS[p].0);
        same_map(cases, told, ours, right_product(p, slots, log_d, count, b));
    }
    let right = right_left_mul_rep(slots, log_d, &b[..square(log_d)]);
    same_map(cases, format!("left_mul_rep {slots} {log_d}"), maps::left_mul_rep(slots, log_d, entry), right);
    for (rows, ours) in
        [(true, maps::tau_values(log_d, count, entry)), (false, maps::sigma_values(log_d, count, entry))]
    {
        cases.same(|| format!("values {log_d} {count}"), numbered(ours), right_values(rows, log_d, count, b));
    }
}

/// Random terms of each output, some that reach behind the matrix slot, few behind the last slot.
fn check_per_matrix(cases: &mut Cases, random: &mut Random, slots: usize, log_d: usize) {
    let d = 1usize << log_d;
    let mut term = || (random.below(slots / d + 1) * random.below(2), random.below(d), random.word() % 3);
    let lists: Vec<Vec<(usize, usize, u64)>> = (0..d * d).map(|i| (0..i % 3).map(|_| term()).collect()).collect();
    let of = |r: usize, c: usize| lists[r * d + c].iter().copied();
    let behind = lists.iter().flatten().any(|&(r, c, _)| r * d + c >= slots);
    let right = || rust_maps::per_matrix_map(slots, log_d, |r, c| of(r, c).map(|(r2, c2, w)| (r2, c2, Wrapping(w))));
    let right = if behind { Err(8) } else { Ok(right()) };
    same_map(cases, format!("per_matrix_map {slots} {log_d} {lists:?}"), maps::per_matrix_map(slots, log_d, of), right);
}

fn compare_matrices(tally: &mut Tally) {
    let mut random = Random::new(84);
    tally.run("owned matrix maps: log_d 0 to 3, every shift to 4d, every count", |cases| {
        for log_d in 0..=3 {
            for (blocks, count) in (1..=6).flat_map(|blocks| (1..=4).map(move |count| (blocks, count))) {
                let slots = square(log_d) * blocks;
                (0..=4 << log_d).for_each(|k| check_matrix_maps(cases, slots, log_d, k));
                let b = any_matrices(&mut random, count * square(log_d));
                check_products(cases, slots, log_d, count, &b);
                check_per_matrix(cases, &mut random, slots, log_d);
            }
        }
    });
    tally.run("owned matrix maps: 65,536 slots, log_d to 6; slots, log_d and shifts out of range", |cases| {
        for log_d in 4..=6 {
            check_matrix_maps(cases, MOST, log_d, random.below((1 << log_d) + 1));
            check_matrix_maps(cases, MOST, log_d, random.below(MOST + 1));
            let b = random.words(4 * square(log_d));
            check_products(cases, MOST, log_d, 4, &b);
        }
        for slots in [0, 3, 64, MOST + 1, usize::MAX] {
            for log_d in [0, 2, 9, 64, usize::MAX] {
                for k in [0, 1, 5, MOST, MOST + 1, usize::MAX] {
                    check_matrix_maps(cases, slots, log_d, k);
                }
            }
        }
    });
    tally.run("owned slot_product: every divisor, rotations of any size", |cases| {
        for slots in [0, 1, 12, 100, MOST, MOST + 1] {
            for n in divisors(slots.min(MOST)).chain([0, 7]) {
                let (values, rotation) = (random.words(n), random.word() as i64);
                let right = right_slot_product(slots, &values, rotation);
                same_map(cases, format!("{slots} {n} {rotation}"), maps::slot_product(slots, &values, rotation), right);
            }
        }
    });
}

/// A run's map in both crates' types, and the Rust's plan.
struct Beside<'a> {
    run: &'a Run,
    map: Diagonals,
    rust: Words,
    strategy: Strategy,
    plan: RustPlan,
}

impl Beside<'_> {
    fn of(run: &Run) -> Beside<'_> {
        let rust = rust_map(run.map.lent());
        let strategy = accepted(run.map.slots, run.how).unwrap();
        let plan = call_linear_transform_index(&rust.indexes(), run.map.slots, strategy);
        Beside { map: owned(&run.map), run, rust, strategy, plan }
    }

    fn up_to(&self, held: &[u64], n: u64) -> Result<KeyedRun, Refusal> {
        self.map.evaluate_keyed_up_to(&self.run.input, own_strategy(self.strategy), held, n)
    }

    fn told(&self, n: u64) -> String {
        format!("n {n}, {:?}, {} slots, {:?}", self.strategy, self.rust.slots(), self.rust.indexes())
    }

    /// The plan and the tree are whole, whatever n is.
    fn check_plan(&self, cases: &mut Cases, ours: &KeyedRun, n: u64) {
        let signed = |words: &[u32]| words.iter().map(|&w| w as i64).collect::<Vec<i64>>();
        let plan = RustPlan {
            baby_steps: signed(ours.babies()),
            giant_steps: signed(ours.giants()),
            index: (0..ours.giants().len()).map(|g| signed(ours.babies_of(g))).collect(),
            rotations: self.plan.rotations,
        };
        cases.same(|| self.told(n), &plan, &self.plan);
        let levels: Vec<_> = ours.levels().iter().map(|level| (level.rot, level.pairs.clone())).collect();
        let tree = call_giant_tree(self.plan.rotations, &self.plan.giant_steps);
        cases.same(|| self.told(n), levels, tree.map_or_else(Vec::new, |(_, levels)| levels));
        let numbers = (ours.diagonals(), ours.all_switches());
        cases.same(|| self.told(n), numbers, (self.run.map.count, plan_switches(&self.plan)));
    }

    /// Each baby's vector is the input rotated by it once its switch is made; no other number has one.
    fn check_cache(&self, cases: &mut Cases, ours: &KeyedRun, n: u64) {
        let mut vector = vec![0; self.run.map.slots];
        for (place, &baby) in self.plan.baby_steps.iter().enumerate() {
            rotate_slots_into(&self.run.input, baby, &mut vector);
            let right = (0 < place && place <= ours.switches()).then_some(&vector[..]);
            cases.same(|| self.told(n), ours.cached(word(baby)), right);
        }
        let absent = word(self.plan.baby_steps.last().unwrap() + 1);
        cases.same(|| self.told(n), ours.cached(absent), None);
    }

    /// Log, nodes and out are the machine's, as far as it has written them.
    fn check_machine(&self, cases: &mut Cases, random: &mut Random, ours: &KeyedRun, held: &[u64], n: u64) {
        let (numbers, words) = machine::run(self.run.job(held, n), &any_buffers(random, self.run.plan().rooms()));
        let made = (numbers.switches, numbers.finished, &words.log[..numbers.switches]);
        cases.same(|| self.told(n), (ours.switches(), ours.is_finished(), ours.log()), made);
        let (slots, giants) = (self.run.map.slots, self.plan.giant_steps.len());
        let all_babies = numbers.switches + 1 >= self.plan.baby_steps.len();
        for g in 0..=giants {
            let right = (all_babies && g < giants).then(|| &words.nodes[g * slots..][..slots]);
            cases.same(|| self.told(n), ours.node(g), right);
        }
        cases.same(|| self.told(n), ours.out(), numbers.finished.then_some(&words.out[..]));
        cases.same(|| self.told(n), ours.clone().into_out(), numbers.finished.then_some(words.out));
    }
}

/// No switch, some and all; the whole run; and what a list without some keys is refused with.
fn check_keyed(cases: &mut Cases, random: &mut Random, run: &Run) {
    let beside = Beside::of(run);
    let (keys, switches) = (wide(&plan_keys(&beside.plan)), plan_switches(&beside.plan));
    for n in [0, random.below(switches + 1), random.below(switches + 1), switches] {
        let ours = beside.up_to(&keys, n as u64).unwrap();
        beside.check_plan(cases, &ours, n as u64);
        beside.check_cache(cases, &ours, n as u64);
        beside.check_machine(cases, random, &ours, &keys, n as u64);
    }
    let whole = beside.map.evaluate_keyed(&run.input, own_strategy(beside.strategy), &keys).unwrap();
    let product: Vec<Wrapping<u64>> = beside.rust.evaluate(&wrapped(&run.input), beside.strategy);
    let made = (whole.log().len(), whole.into_out().map(|out| wrapped(&out)));
    cases.same(|| beside.told(u64::MAX), made, (switches, Some(product)));
    let distinct: BTreeSet<u64> = keys.iter().copied().collect();
    for gone in [1, 2, distinct.len()] {
        let missing: Vec<u64> =
            keys.iter().copied().filter(|key| distinct.iter().take(gone).any(|k| k == key)).collect();
        let Some(&rotation) = missing.first() else { continue };
        let held: Vec<u64> = keys.iter().copied().filter(|key| !missing.contains(key)).collect();
        let right = Refusal::Key { rotation, needed: distinct.len(), missing: gone.min(distinct.len()) };
        cases.same(|| beside.told(0), beside.up_to(&held, 0).err(), Some(right));
    }
}

fn compare_keyed(tally: &mut Tally) {
    let mut random = Random::new(85);
    tally.run("owned keyed run: all subsets of up to 8 slots, every width and strategy, some n", |cases| {
        on_subsets(&mut random, |random, run| check_keyed(cases, random, run));
    });
    tally.run("owned keyed run: random maps to 65,536 slots, some n", |cases| {
        for slots in (9..=120).chain([256, 1_000, 4_096]) {
            on_kinds(&mut random, slots, |random, run| check_keyed(cases, random, run));
        }
        for slots in [46_189, MOST] {
            let mut run = any_run(&mut random, slots);
            run.map = Stored::of(&any_map(&mut random, slots));
            check_keyed(cases, &mut random, &run);
        }
    });
}

pub fn compare(tally: &mut Tally) {
    compare_maps(tally);
    compare_plans(tally);
    compare_rotations(tally);
    compare_matrices(tally);
    compare_keyed(tally);
}
