//! Plans, their keys and switches, and the best width beside document 000.

use poulpy_core::layouts::{
    BsgsRotations, LinearTransformationLayout, LinearTransformationPlan, LinearTransformationStrategy as Strategy,
    call_linear_transform_index, call_linear_transformation_plan, optimal_bsgs_giant_step,
};
use sibukyaran::lent::{self as ours, Numbers, PlanNumbers};

use crate::bench::{Bench, keep};
use crate::calls::Expected;
use crate::diagonals::in_front;
use crate::guards::Lent;
use crate::random::Random;
use crate::ring::{MOST, outside, word};
use crate::sample::Sample;
use crate::tally::{Cases, Tally};

/// A strategy as C takes it: its kind and its width.
pub type How = (u32, usize);

/// Document 01's refusals of a plan before the room is known, or the strategy.
pub fn accepted(slots: usize, (kind, giant_step): How) -> Result<Strategy, u32> {
    if outside(slots) {
        return Err(1);
    }
    match kind {
        0 | 1 if outside(giant_step) => Err(3),
        0 => Ok(Strategy::Bsgs { giant_step }),
        1 => Ok(Strategy::BsgsPowersOfTwo { giant_step }),
        2 => Ok(Strategy::Direct),
        // No strategy, so none with a width.
        _ => Err(3),
    }
}

pub fn narrow(words: &[i64]) -> Vec<u32> {
    words.iter().copied().map(word).collect()
}

/// The plan's words: babies, giants, pairs, index.
pub fn plan_words(plan: &LinearTransformationPlan) -> Vec<u32> {
    let mut words = narrow(&plan.baby_steps);
    words.extend(narrow(&plan.giant_steps));
    let mut start = 0;
    for babies in &plan.index {
        words.extend([start, word(babies.len())]);
        start += word(babies.len());
    }
    words.extend(plan.index.iter().flat_map(|babies| narrow(babies)));
    words
}

fn plan_numbers(plan: &LinearTransformationPlan) -> PlanNumbers {
    PlanNumbers {
        refusal: 0,
        babies: word(plan.baby_steps.len()),
        giants: word(plan.giant_steps.len()),
        diagonals: word(plan.index.iter().map(Vec::len).sum::<usize>()),
    }
}

fn no_plan(refusal: u32) -> PlanNumbers {
    PlanNumbers { refusal, babies: 0, giants: 0, diagonals: 0 }
}

/// A list that is written in front of a lent buffer: its answer and what the buffer holds then.
pub fn listed(list: Result<Vec<u32>, u32>, held: &[u32]) -> (Numbers, Vec<u32>) {
    match list.and_then(|list| in_front(&list, held).map(|words| (list.len(), words)).ok_or(12)) {
        Ok((n, words)) => (Numbers::is(n), words),
        Err(refusal) => (Numbers::refused(refusal), held.to_vec()),
    }
}

fn right_plan(plan: Result<&LinearTransformationPlan, u32>, held: &[u32]) -> (PlanNumbers, Vec<u32>) {
    match plan.and_then(|plan| in_front(&plan_words(plan), held).map(|words| (plan_numbers(plan), words)).ok_or(12)) {
        Ok(answer) => answer,
        Err(refusal) => (no_plan(refusal), held.to_vec()),
    }
}

/// Document 01's key rotations of a plan: `giant_key_rotations` has none per rotation.
pub fn plan_keys(plan: &LinearTransformationPlan) -> Vec<u32> {
    let mut keys = plan.rotations.baby_key_rotations(plan.baby_steps.iter().copied());
    match plan.rotations {
        BsgsRotations::PerRotation => keys.extend(plan.giant_steps.iter().filter(|&&g| g != 0)),
        BsgsRotations::PowersOfTwo { .. } => {
            keys.extend(plan.rotations.giant_key_rotations(plan.giant_steps.iter().copied()));
        }
    }
    narrow(&keys)
}

pub fn plan_switches(plan: &LinearTransformationPlan) -> usize {
    let babies = plan.baby_steps.iter().filter(|&&b| b != 0).count();
    babies + plan.rotations.giant_key_switches(plan.giant_steps.iter().copied())
}

fn right_baby_step(indexes: &[i64], slots: usize, giant_step: usize) -> Numbers {
    match accepted(slots, (1, giant_step)) {
        Err(refusal) => Numbers::refused(refusal),
        Ok(strategy) => match call_linear_transform_index(indexes, slots, strategy).rotations {
            BsgsRotations::PowersOfTwo { baby_step, .. } => Numbers::is(baby_step as usize),
            BsgsRotations::PerRotation => unreachable!("powers of two are asked for"),
        },
    }
}

fn right_best(indexes: &[i64], slots: usize) -> Numbers {
    if outside(slots) {
        return Numbers::refused(1);
    }
    Numbers::is(optimal_bsgs_giant_step(indexes.iter().copied(), slots))
}

/// Rooms to lend for a result of n words: exactly full, one short, and longer.
fn rooms(n: usize) -> [usize; 3] {
    [n, n.saturating_sub(1), n + 3]
}

pub fn held(room: usize) -> Vec<u32> {
    (0..room as u32).map(|w| 0x7000_0000 + w).collect()
}

/// A call that writes a list, with each room.
pub fn check_listed(
    cases: &mut Cases,
    call: impl Fn() -> String,
    list: Result<Vec<u32>, u32>,
    ours: impl Fn(&mut [u32]) -> Numbers,
) {
    for room in rooms(list.as_ref().map_or(3, Vec::len)) {
        let held = held(room);
        let mut lent = Lent::new(&held);
        let numbers = ours(lent.part());
        let (right, words) = listed(list.clone(), &held);
        cases.same(&call, (numbers, lent.back()), (right, (words, true)));
    }
}

/// A call that writes a plan, with each room.
fn check_plan(
    cases: &mut Cases,
    call: impl Fn() -> String,
    plan: Result<&LinearTransformationPlan, u32>,
    ours: impl Fn(&mut [u32]) -> PlanNumbers,
) {
    for room in rooms(plan.map_or(3, |plan| plan_words(plan).len())) {
        let held = held(room);
        let mut lent = Lent::new(&held);
        let numbers = ours(lent.part());
        let (right, words) = right_plan(plan, &held);
        cases.same(&call, (numbers, lent.back()), (right, (words, true)));
    }
}

/// Every call of a plan on one list, with each room.
fn check(cases: &mut Cases, indexes: &[i64], slots: usize, how: How) {
    let call = |name: &str| format!("{name} {indexes:?} {slots} {how:?}");
    let strategy = accepted(slots, how);
    let layout = |strategy| LinearTransformationLayout { indexes: indexes.to_vec(), slots, strategy };
    let plan = strategy.map(|strategy| layout(strategy).index());
    let plan = plan.as_ref().map_err(|&refusal| refusal);
    let (kind, width) = how;
    let index = |out: &mut [u32]| ours::linear_transform_index(indexes, slots, kind, width, out);
    check_plan(cases, || call("index"), plan, index);
    let steps = strategy.map(|strategy| narrow(&layout(strategy).baby_steps()));
    check_listed(cases, || call("baby_steps"), steps, |out| ours::baby_steps(indexes, slots, kind, width, out));
    let keys = |out: &mut [u32]| ours::plan_key_rotations(indexes, slots, kind, width, out);
    check_listed(cases, || call("key rotations"), plan.map(plan_keys), keys);
    let right = plan.map_or_else(Numbers::refused, |plan| Numbers::is(plan_switches(plan)));
    cases.same(|| call("key switches"), ours::plan_key_switches(indexes, slots, kind, width), right);
}

/// The calls that take a width and no strategy.
fn check_width(cases: &mut Cases, indexes: &[i64], slots: usize, width: usize) {
    let call = |name: &str| format!("{name} {indexes:?} {slots} {width}");
    let plan = accepted(slots, (0, width)).map(|_| call_linear_transformation_plan(indexes, slots, width));
    let plan = plan.as_ref().map_err(|&refusal| refusal);
    check_plan(cases, || call("plan"), plan, |out| ours::linear_transformation_plan(indexes, slots, width, out));
    let right = right_baby_step(indexes, slots, width);
    cases.same(|| call("baby step"), ours::baby_step(indexes, slots, width), right);
}

/// The subsets of 0..slots, each as a list.
pub fn subsets(slots: usize) -> impl Iterator<Item = Vec<i64>> {
    (0..1u32 << slots).map(move |bits| (0..slots as i64).filter(|k| bits >> k & 1 == 1).collect())
}

/// The same diagonals in another order, some twice, some as other numbers of the same residue.
pub fn disguised(random: &mut Random, list: &[i64], slots: usize) -> Vec<i64> {
    let mut other = list.to_vec();
    for &k in list {
        if random.below(3) == 0 {
            let turns = random.below(5) as i64 - 2;
            other.push(k + turns * slots as i64);
        }
    }
    random.shuffle(&mut other);
    other
}

/// A list of diagonals: dense, sparse, or multiples of a gap.
pub fn any_list(random: &mut Random, slots: usize) -> Vec<i64> {
    let gap = [1, 1, 2, 3, 32, 256][random.below(6)];
    let most = (slots / gap).max(1);
    let longest = [4, 40, 600, most + 1][random.below(4)];
    let n = random.below(longest.min(most + 1));
    let list: Vec<i64> = (0..n).map(|_| (random.below(most) * gap) as i64).collect();
    disguised(random, &list, slots)
}

pub fn any_width(random: &mut Random, slots: usize) -> usize {
    let widths = [1, 2, 16, 256, slots.div_ceil(2), slots - 1, slots, slots + 1, MOST, 1 + random.below(slots)];
    widths[random.below(widths.len())].clamp(1, MOST)
}

const SLOTS: [usize; 12] = [1, 2, 3, 16, 100, 255, 256, 1_000, 4_096, 46_189, 65_535, 65_536];

pub fn compare(tally: &mut Tally) {
    let mut random = Random::new(11);
    tally.run("plans: all subsets of up to 9 slots, every width and strategy, each room", |cases| {
        for slots in 1..=9 {
            for list in subsets(slots) {
                for width in (1..=slots + 2).chain([MOST]) {
                    check_width(cases, &list, slots, width);
                    check(cases, &list, slots, (0, width));
                    check(cases, &disguised(&mut random, &list, slots), slots, (1, width));
                }
                check(cases, &list, slots, (2, 0));
            }
        }
    });
    tally.run("plans: random lists to 65,536 slots, negative, repeated and unsorted", |cases| {
        for slots in SLOTS {
            for _ in 0..40 {
                let list = any_list(&mut random, slots);
                let width = any_width(&mut random, slots);
                check_width(cases, &list, slots, width);
                check(cases, &list, slots, (random.below(3) as u32, width));
            }
        }
        let all: Vec<i64> = (0..MOST as i64).rev().collect();
        for width in [1, 2, 255, 256, 32_768, MOST] {
            for kind in 0..3 {
                check(cases, &all, MOST, (kind, width));
            }
        }
        let ends = [i64::MIN, i64::MAX, -1, 0, 65_535, 65_536, i64::MIN + 1];
        for slots in SLOTS {
            for kind in 0..3 {
                check(cases, &ends, slots, (kind, any_width(&mut random, slots)));
            }
        }
    });
    tally.run("plans: refusals in order, nothing changed", |cases| {
        for slots in [0, 1, 5, MOST, MOST + 1, usize::MAX, 1 << 32] {
            for width in [0, 1, MOST, MOST + 1, usize::MAX, 1 << 32] {
                for list in [&[][..], &[3, 1, 4]] {
                    check_width(cases, list, slots, width);
                    for kind in [0, 1, 2, 3, u32::MAX] {
                        check(cases, list, slots, (kind, width));
                    }
                }
            }
        }
    });
    tally.run("best width: all subsets of up to 12 slots, random lists, slots out of range", |cases| {
        let mut same = |list: &[i64], slots: usize| {
            cases.same(
                || format!("{list:?} {slots}"),
                ours::optimal_bsgs_giant_step(list, slots),
                right_best(list, slots),
            );
        };
        for slots in 1..=12 {
            for list in subsets(slots) {
                same(&disguised(&mut random, &list, slots), slots);
            }
        }
        for slots in [16, 31, 100, 255, 256, 1_000, 4_096] {
            for _ in 0..30 {
                same(&any_list(&mut random, slots), slots);
            }
        }
        for gap in [32, 37, 4_096] {
            let list: Vec<i64> = (0..MOST / gap).map(|k| (k * gap) as i64).collect();
            same(&list, MOST);
            same(&disguised(&mut random, &list[..list.len() / 2], MOST), MOST);
        }
        for slots in [0, MOST + 1, usize::MAX] {
            same(&[1, 2, 3], slots);
        }
    });
}

fn told(n: PlanNumbers) -> [u64; 4] {
    [n.refusal, n.babies, n.giants, n.diagonals].map(u64::from)
}

pub fn pair(n: Numbers) -> [u64; 2] {
    [n.refusal as u64, n.value as u64]
}

pub fn wide(words: &[u32]) -> Vec<u64> {
    words.iter().map(|&w| w as u64).collect()
}

fn sample_list(sample: &mut Sample, indexes: &[i64], slots: usize, how: How, slack: i64) {
    let sevens = |n: usize| vec![7; (n as i64 + slack).max(0) as usize];
    let tail: Vec<u64> = indexes.iter().map(|&k| k as u64).collect();
    let strategy = accepted(slots, how);
    let plan = strategy.map(|strategy| call_linear_transform_index(indexes, slots, strategy));
    let plan = plan.as_ref().map_err(|&refusal| refusal);
    let head = |room: usize| vec![how.0 as u64, how.1 as u64, slots as u64, room as u64];
    let room = sevens(plan.map_or(3, |plan| plan_words(plan).len()));
    let (numbers, words) = right_plan(plan, &room);
    sample.call(20, &[head(room.len()), tail.clone()].concat(), &[told(numbers).to_vec(), wide(&words)].concat());
    let room = sevens(plan.map_or(3, |plan| plan.baby_steps.len()));
    let (numbers, words) = listed(plan.map(|plan| narrow(&plan.baby_steps)), &room);
    sample.call(21, &[head(room.len()), tail.clone()].concat(), &[pair(numbers).to_vec(), wide(&words)].concat());
    let room = sevens(plan.map_or(3, |plan| plan_keys(plan).len()));
    let (numbers, words) = listed(plan.map(plan_keys), &room);
    sample.call(22, &[head(room.len()), tail.clone()].concat(), &[pair(numbers).to_vec(), wide(&words)].concat());
    let right = plan.map_or_else(Numbers::refused, |plan| Numbers::is(plan_switches(plan)));
    sample.call(23, &[head(0), tail.clone()].concat(), &pair(right));
    sample.call(24, &[head(0), tail.clone()].concat(), &pair(right_baby_step(indexes, slots, how.1)));
    sample.call(25, &[head(0), tail].concat(), &pair(right_best(indexes, slots)));
}

pub fn sample(sample: &mut Sample) {
    let mut random = Random::new(12);
    sample_list(sample, &[0, 1, 2, 5, 15], 16, (0, 4), 0);
    sample_list(sample, &[0, 1, 2, 5, 15], 16, (1, 4), 0);
    sample_list(sample, &[0, 2, 5], 8, (2, 0), 0);
    sample_list(sample, &[], 16, (1, 4), 0);
    for slots in [1, 2, 5, 16, 60, 65_536] {
        for kind in 0..3 {
            for slack in [0, -1, 2] {
                let list: Vec<i64> = (0..random.below(14)).map(|_| random.below(slots) as i64).collect();
                let width = [1, 2, 3, 4, 16, slots][random.below(6)];
                sample_list(sample, &disguised(&mut random, &list, slots), slots, (kind, width), slack);
            }
        }
    }
    for slots in [0, 1, 16, 65_537] {
        for width in [0, 1, 65_536, 65_537] {
            for kind in 0..4 {
                sample_list(sample, &[3, -1, 4], slots, (kind, width), 0);
            }
        }
    }
}

pub fn bench(bench: &mut Bench) {
    let mut random = Random::new(13);
    let sigma: Vec<i64> = (-255..=255).collect();
    let spread: Vec<i64> = (0..511).map(|_| random.below(MOST) as i64).collect();
    let all: Vec<i64> = (0..MOST as i64).collect();
    for (name, list) in [("511 of a sigma", &sigma), ("511 spread out", &spread), ("65,536", &all)] {
        for (by, how) in [("Bsgs(32)", (0, 32)), ("powers of two (32)", (1, 32)), ("Direct", (2, 0))] {
            let strategy = accepted(MOST, how).unwrap();
            let (kind, width) = how;
            let mut plan = vec![0; 4 * MOST + 1];
            bench.pair(
                &format!("plan of {name} diagonals, {by}"),
                Some(2.0),
                || ours::linear_transform_index(keep(list), MOST, kind, width, &mut plan),
                || call_linear_transform_index(keep(list), MOST, strategy),
            );
        }
    }
    let list: Vec<i64> = (0..2_048).map(|k| k * 32).collect();
    bench.pair(
        "best width of 2,048 diagonals with gap 32",
        Some(3.0),
        || ours::optimal_bsgs_giant_step(keep(&list), MOST),
        || optimal_bsgs_giant_step(keep(&list).iter().copied(), MOST),
    );
}
