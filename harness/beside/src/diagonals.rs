//! The map store beside document 001.

use std::num::Wrapping;

use poulpy_core::layouts::{Diagonals, rotate_slots_into};
use sibukyaran::lent::{self as ours, Map, Numbers, Truth};

use crate::bench::{Bench, keep};
use crate::calls::{Expected, Terms, from_slot_map};
use crate::guards::Lent;
use crate::random::{Random, divisors};
use crate::ring::{outside, word};
use crate::sample::Sample;
use crate::tally::Tally;

pub type Words = Diagonals<Wrapping<u64>>;

/// The words of a map, in buffers that may be longer.
#[derive(Clone, PartialEq, Eq, Debug, Default)]
pub struct Stored {
    pub slots: usize,
    pub count: usize,
    pub pairs: Vec<u32>,
    pub values: Vec<u64>,
}

impl Stored {
    /// The words of the Rust's map, in buffers that are just full.
    pub fn of(map: &Words) -> Self {
        let mut stored = Stored { slots: map.slots(), ..Default::default() };
        for index in map.indexes() {
            let values = map.get(index).unwrap();
            stored.pairs.extend([word(index), word(values.len())]);
            stored.values.extend(values.iter().map(|w| w.0));
            stored.count += 1;
        }
        stored
    }

    pub fn lent(&self) -> Map<'_> {
        Map { slots: self.slots, count: self.count, pairs: &self.pairs, values: &self.values }
    }

    /// The same map in longer buffers.
    pub fn longer(&self, random: &mut Random) -> Self {
        let mut stored = self.clone();
        stored.pairs.extend((0..random.below(5)).map(|_| random.word() as u32));
        stored.values.extend((0..random.below(9)).map(|_| random.word()));
        stored
    }
}

/// Document 01's refusals 1 and 2 of a lent map.
pub fn right_map_refusal(map: Map) -> u32 {
    if outside(map.slots) {
        return 1;
    }
    let Some(pairs) = map.count.checked_mul(2).and_then(|n| map.pairs.get(..n)) else {
        return 2;
    };
    let (mut total, mut least) = (0, 0);
    for pair in pairs.chunks(2) {
        let (offset, length) = (pair[0] as usize, pair[1] as usize);
        if offset < least || offset >= map.slots || length == 0 || !map.slots.is_multiple_of(length) {
            return 2;
        }
        total += length;
        least = offset + 1;
    }
    if total > map.values.len() { 2 } else { 0 }
}

/// A result in front of what a buffer held, or refusal 12 and what it held.
pub fn in_front<T: Copy>(result: &[T], held: &[T]) -> Option<Vec<T>> {
    (result.len() <= held.len()).then(|| [result, &held[result.len()..]].concat())
}

/// What a call that writes a map answers and leaves, for buffers that held these words.
pub type Written<T = Numbers> = (T, Vec<u32>, Vec<u64>);

pub fn right_written(refusal: u32, map: impl FnOnce() -> Stored, pairs: &[u32], values: &[u64]) -> Written {
    let refused = |e| (Numbers::refused(e), pairs.to_vec(), values.to_vec());
    if refusal != 0 {
        return refused(refusal);
    }
    let map = map();
    match (in_front(&map.pairs, pairs), in_front(&map.values, values)) {
        (Some(p), Some(v)) => (Numbers::is(map.count), p, v),
        _ => refused(12),
    }
}

/// Ours, with the words around the buffers watched.
pub fn written<T>(pairs: &[u32], values: &[u64], call: impl FnOnce(&mut [u32], &mut [u64]) -> T) -> (Written<T>, bool) {
    let (mut p, mut v) = (Lent::new(pairs), Lent::new(values));
    let answer = call(p.part(), v.part());
    let ((p, p_kept), (v, v_kept)) = (p.back(), v.back());
    ((answer, p, v), p_kept && v_kept)
}

/// Buffers for a result: just full, longer, and one short in either.
pub fn buffers(random: &mut Random, result: &Stored) -> Vec<(Vec<u32>, Vec<u64>)> {
    let (p, v) = (result.pairs.len(), result.values.len());
    let mut lengths = vec![(p, v), (p + random.below(7), v + random.below(7)), (p + 1, v + 1)];
    if p > 0 {
        lengths.push((p - 1, v));
    }
    if v > 0 {
        lengths.push((p, v - 1));
    }
    lengths.into_iter().map(|(p, v)| (random.words(p).iter().map(|&w| w as u32).collect(), random.words(v))).collect()
}

/// An index: of a stored diagonal, near, negative, huge.
pub fn any_index(random: &mut Random, slots: usize) -> i64 {
    let near = random.below(2 * slots) as i64;
    match random.below(6) {
        0 => near - slots as i64,
        1 => random.word() as i64,
        2 => [i64::MIN, i64::MAX, i64::MIN + 1, -1, 0][random.below(5)],
        _ => near,
    }
}

/// One period of values, from few values so that it may repeat sooner.
pub fn any_period(random: &mut Random, slots: usize) -> Vec<u64> {
    let lengths: Vec<usize> = divisors(slots).collect();
    let length = lengths[random.below(lengths.len())];
    let kinds = 1 + random.below(3) as u64;
    (0..length).map(|_| if kinds == 3 { random.word() } else { random.word() % (kinds + 1) }).collect()
}

pub fn wrapped(values: &[u64]) -> Vec<Wrapping<u64>> {
    values.iter().map(|&w| Wrapping(w)).collect()
}

pub fn any_map(random: &mut Random, slots: usize) -> Words {
    let mut map = Words::new(slots);
    for _ in 0..random.below(8) {
        map.set(any_index(random, slots), wrapped(&any_period(random, slots)));
    }
    map
}

/// Every period of values 0 and 1 that a diagonal of so many slots can store.
fn every_period(slots: usize) -> Vec<Vec<u64>> {
    let vectors = |n: usize| (0..1 << n).map(move |bits: u64| (0..n).map(|t| bits >> t & 1).collect());
    divisors(slots).flat_map(vectors).collect()
}

/// Every map of so many slots over 0 and 1.
pub fn every_map(slots: usize) -> Vec<Words> {
    let mut all = vec![Words::new(slots)];
    for k in 0..slots as i64 {
        for i in 0..all.len() {
            for period in every_period(slots) {
                let mut map = all[i].clone();
                map.set(k, wrapped(&period));
                all.push(map);
            }
        }
    }
    all
}

/// Every list of up to two terms with weights 0, 1 and -1.
fn every_terms(slots: usize, period: usize) -> Vec<Terms> {
    let mut one = Vec::new();
    for i in 0..period as u32 {
        for j in 0..slots as u32 {
            one.extend([0, 1, u64::MAX].map(|w| (i, j, w)));
        }
    }
    let mut lists = vec![Vec::new()];
    lists.extend(one.iter().map(|&t| vec![t]));
    lists.extend(one.iter().flat_map(|&t| one.iter().map(move |&u| vec![t, u])));
    let terms = |list: Vec<(u32, u32, u64)>| Terms {
        is: list.iter().map(|t| t.0).collect(),
        js: list.iter().map(|t| t.1).collect(),
        ws: list.iter().map(|t| t.2).collect(),
    };
    lists.into_iter().map(terms).collect()
}

/// The slot counts of the random maps.
pub fn slot_counts() -> impl Iterator<Item = usize> {
    (1..=400).chain([1_024, 4_096, 46_189, 59_049, 65_535, 65_536])
}

/// The map, damaged in every way that well-formedness names.
pub fn damaged(stored: &Stored, random: &mut Random) -> Vec<Stored> {
    let mut all = Vec::new();
    let mut damage = |change: &dyn Fn(&mut Stored)| {
        let mut copy = stored.clone();
        change(&mut copy);
        all.push(copy);
    };
    damage(&|m| m.slots = 0);
    damage(&|m| m.slots = 65_537);
    damage(&|m| m.slots = usize::MAX);
    damage(&|m| m.count = m.pairs.len() / 2 + 1);
    damage(&|m| m.count = usize::MAX);
    if stored.count > 0 {
        let i = random.below(stored.count);
        damage(&|m| m.pairs[2 * i] = m.slots as u32);
        damage(&|m| m.pairs[2 * i] = u32::MAX);
        damage(&|m| m.pairs[2 * i + 1] = 0);
        damage(&|m| m.pairs[2 * i + 1] = m.slots as u32 + 1);
        damage(&|m| m.pairs[2 * i + 1] = u32::MAX);
        damage(&|m| m.pairs.truncate(2 * m.count - 1));
        damage(&|m| {
            let total: u32 = m.pairs[..2 * m.count].chunks(2).map(|p| p[1]).sum();
            m.values.truncate(total as usize - 1);
        });
    }
    if stored.count > 1 {
        let i = 1 + random.below(stored.count - 1);
        damage(&|m| m.pairs[2 * i] = m.pairs[2 * i - 2]);
        damage(&|m| m.pairs.swap(2 * i, 2 * i - 2));
    }
    all
}

fn right_indexes(map: Map, out: &[u32]) -> (Numbers, Vec<u32>) {
    let refusal = right_map_refusal(map);
    if refusal != 0 {
        return (Numbers::refused(refusal), out.to_vec());
    }
    let offsets: Vec<u32> = map.pairs.chunks(2).take(map.count).map(|p| p[0]).collect();
    match in_front(&offsets, out) {
        Some(words) => (Numbers::is(map.count), words),
        None => (Numbers::refused(12), out.to_vec()),
    }
}

/// The Rust's map of well-formed words.
pub fn rust_map(map: Map) -> Words {
    let mut rust = Words::new(map.slots);
    let mut start = 0;
    for pair in map.pairs.chunks(2).take(map.count) {
        let end = start + pair[1] as usize;
        rust.set(pair[0] as i64, wrapped(&map.values[start..end]));
        start = end;
    }
    rust
}

fn right_get(map: Map, index: i64) -> (Numbers, Vec<u64>) {
    match right_map_refusal(map) {
        0 => {
            let rust = rust_map(map);
            let stretch: Vec<u64> = rust.get(index).map(|v| v.iter().map(|w| w.0).collect()).unwrap_or_default();
            assert_eq!(rust.period(index).unwrap_or(0), stretch.len());
            (Numbers::is(stretch.len()), stretch)
        }
        refusal => (Numbers::refused(refusal), Vec::new()),
    }
}

fn right_set(map: Map, index: i64, new: &[u64]) -> Written {
    let refusal = match right_map_refusal(map) {
        0 if new.is_empty() || !map.slots.is_multiple_of(new.len()) => 4,
        refusal => refusal,
    };
    let grown = || {
        let mut rust = rust_map(map);
        rust.set(index, wrapped(new));
        Stored::of(&rust)
    };
    right_written(refusal, grown, map.pairs, map.values)
}

fn right_from_slot_map(slots: usize, period: usize, terms: &Terms, pairs: &[u32], values: &[u64]) -> Written {
    let zipped = || terms.is.iter().zip(&terms.js).zip(&terms.ws).map(|((&i, &j), &w)| (i as usize, j as usize, w));
    let refusal = if outside(slots) {
        1
    } else if period == 0 || !slots.is_multiple_of(period) {
        4
    } else if terms.is.len() != terms.js.len() || terms.is.len() != terms.ws.len() {
        7
    } else if zipped().any(|(i, j, _)| i >= period || j >= slots) {
        8
    } else {
        0
    };
    let built = || Stored::of(&Words::from_slot_map(slots, period, zipped().map(|(i, j, w)| (i, j, Wrapping(w)))));
    right_written(refusal, built, pairs, values)
}

pub fn right_rotate(src: &[u64], k: i64, out: &[u64]) -> (u32, Vec<u64>) {
    if outside(src.len()) {
        return (3, out.to_vec());
    }
    if !out.len().is_multiple_of(src.len()) {
        return (7, out.to_vec());
    }
    let mut rotated = out.to_vec();
    // j + k overflows in the Rust near the ends: its residue is the same rotation.
    rotate_slots_into(src, k.rem_euclid(src.len() as i64), &mut rotated);
    (0, rotated)
}

fn shrunk(map: Map) -> Stored {
    let mut rust = rust_map(map);
    rust.shrink_period();
    Stored::of(&rust)
}

fn transposed(map: Map) -> Stored {
    let mut rust = rust_map(map);
    rust.transpose();
    Stored::of(&rust)
}

pub fn any_terms(random: &mut Random, slots: usize, period: usize, n: usize) -> Terms {
    let mut terms = Terms::default();
    while terms.is.len() < n {
        let (i, j) = (random.below(period) as u32, random.below(slots) as u32);
        let w = if random.below(4) == 0 { 0 } else { random.word() };
        let repeats = [vec![w], vec![w, w.wrapping_neg()], vec![w, 1, w]][random.below(3)].clone();
        for w in repeats {
            terms.is.push(i);
            terms.js.push(j);
            terms.ws.push(w);
        }
    }
    terms
}

/// All maps over 0 and 1 of up to three slots, all slot maps of up to two terms.
fn compare_all(tally: &mut Tally) {
    let mut random = Random::new(11);
    tally.run("get, set, shrink_period, transpose: all maps over 0 and 1 of up to 3 slots", |cases| {
        for slots in 1..=3 {
            for map in every_map(slots) {
                let map = Stored::of(&map).longer(&mut random);
                for index in -4..=4 {
                    let (answer, stretch) = right_get(map.lent(), index);
                    cases.same(|| format!("{map:?} {index}"), ours::period(map.lent(), index), answer);
                    let mut lent = Lent::new(&stretch);
                    let got = ours::get_into(map.lent(), index, lent.part());
                    cases.same(|| format!("{map:?} {index}"), (got, lent.back()), (answer, (stretch, true)));
                }
                for new in every_period(slots) {
                    let index = random.below(slots) as i64;
                    let right = right_set(map.lent(), index, &new);
                    let ours =
                        written(&map.pairs, &map.values, |p, v| ours::set(map.slots, map.count, p, v, index, &new));
                    cases.same(|| format!("{map:?} {index} {new:?}"), ours, (right, true));
                }
                for (result, call) in SECONDS.map(|(_, result, call)| (result, call)) {
                    for (pairs, values) in buffers(&mut random, &result(map.lent())) {
                        let right = right_written(0, || result(map.lent()), &pairs, &values);
                        let ours = written(&pairs, &values, |p, v| call(map.lent(), p, v));
                        cases.same(|| format!("{map:?}"), ours, (right, true));
                    }
                }
            }
        }
    });
    tally.run("from_slot_map: all lists of up to 2 terms of up to 3 slots", |cases| {
        for slots in 1..=3 {
            for period in divisors(slots) {
                for terms in every_terms(slots, period) {
                    for (p, v) in [(6, 9), (4, 2 * period), (3, 2 * period), (4, 2 * period - 1)] {
                        let (pairs, values) = (vec![7; p], vec![7; v]);
                        let right = right_from_slot_map(slots, period, &terms, &pairs, &values);
                        let ours = written(&pairs, &values, |p, v| from_slot_map(slots, period, &terms, p, v));
                        cases.same(|| format!("{slots} {period} {terms:?}"), ours, (right, true));
                    }
                }
            }
        }
    });
}

/// A call that writes a second map: its name, the Rust's result, ours.
type Second = (&'static str, fn(Map) -> Stored, fn(Map, &mut [u32], &mut [u64]) -> Numbers);

const SECONDS: [Second; 2] =
    [("shrink_period", shrunk, ours::shrink_period), ("transpose", transposed, ours::transpose)];

pub fn compare(tally: &mut Tally) {
    compare_all(tally);
    let mut random = Random::new(4);
    tally.run("new: slots at and past the limits", |cases| {
        for slots in [0, 1, 2, 65_535, 65_536, 65_537, usize::MAX] {
            let right = if outside(slots) { Numbers::refused(1) } else { Numbers::is(0) };
            cases.same(|| format!("{slots}"), ours::new(slots), right);
        }
    });
    tally.run("map_refusal, is_empty: random maps and damaged ones", |cases| {
        for slots in slot_counts() {
            for _ in 0..4 {
                let stored = Stored::of(&any_map(&mut random, slots)).longer(&mut random);
                let mut all = damaged(&stored, &mut random);
                all.push(stored);
                for map in &all {
                    let right = right_map_refusal(map.lent());
                    cases.same(|| format!("{map:?}"), ours::map_refusal(map.lent()), right);
                    let truth = Truth { refusal: right, value: right == 0 && map.count == 0 };
                    cases.same(|| format!("{map:?}"), ours::is_empty(map.lent()), truth);
                }
            }
        }
    });
    tally.run("indexes: damaged maps, buffers full, one short and longer", |cases| {
        for slots in slot_counts() {
            let stored = Stored::of(&any_map(&mut random, slots)).longer(&mut random);
            let mut all = damaged(&stored, &mut random);
            all.push(stored.clone());
            for map in &all {
                for n in stored.count.saturating_sub(1)..stored.count + 3 {
                    let held: Vec<u32> = (0..n).map(|_| random.word() as u32).collect();
                    let mut lent = Lent::new(&held);
                    let answer = ours::indexes(map.lent(), lent.part());
                    let (right, words) = right_indexes(map.lent(), &held);
                    cases.same(|| format!("{map:?} {n}"), (answer, lent.back()), (right, (words, true)));
                }
            }
        }
    });
    tally.run("get, period: stored, absent, negative and huge indexes; damaged maps; buffers", |cases| {
        for slots in slot_counts() {
            for _ in 0..3 {
                let stored = Stored::of(&any_map(&mut random, slots)).longer(&mut random);
                let mut all = damaged(&stored, &mut random);
                all.push(stored.clone());
                for map in &all {
                    let offsets = stored.pairs.chunks(2).take(stored.count).map(|p| p[0] as i64);
                    let mut indexes: Vec<i64> = offsets.flat_map(|k| [k, k - slots as i64, k + slots as i64]).collect();
                    indexes.extend((0..3).map(|_| any_index(&mut random, slots)));
                    for index in indexes {
                        let (answer, stretch) = right_get(map.lent(), index);
                        cases.same(|| format!("{map:?} {index}"), ours::period(map.lent(), index), answer);
                        for n in [stretch.len() + 2, stretch.len(), stretch.len().saturating_sub(1)] {
                            let held = random.words(n);
                            let mut lent = Lent::new(&held);
                            let got = ours::get_into(map.lent(), index, lent.part());
                            let right = match in_front(&stretch, &held) {
                                Some(words) => (answer, (words, true)),
                                None => (Numbers::refused(12), (held, true)),
                            };
                            cases.same(|| format!("{map:?} {index} {n}"), (got, lent.back()), right);
                        }
                    }
                }
            }
        }
    });
    tally.run("set: chains of sets on one map, words behind kept, refusals, buffers full and short", |cases| {
        for slots in slot_counts() {
            let mut map = Stored { slots, ..Default::default() };
            let rounds = if slots > 400 { 8 } else { 14 };
            for _ in 0..rounds {
                let index = any_index(&mut random, slots);
                let mut new = any_period(&mut random, slots);
                if random.below(12) == 0 {
                    new.push(1);
                }
                if random.below(20) == 0 {
                    new.clear();
                }
                // Room for one diagonal more, for two, or none to spare.
                let spare = [0, 1, 2, 3][random.below(4)];
                map.pairs.extend((0..spare).map(|_| random.word() as u32));
                let spare = [0, 1, new.len(), new.len() + 3][random.below(4)];
                map.values.extend(random.words(spare));
                for lent in [vec![map.clone()], damaged(&map, &mut random)].concat() {
                    let right = right_set(lent.lent(), index, &new);
                    let ours =
                        written(&lent.pairs, &lent.values, |p, v| ours::set(lent.slots, lent.count, p, v, index, &new));
                    cases.same(|| format!("{lent:?} {index} {new:?}"), ours, (right, true));
                }
                let (answer, pairs, values) = right_set(map.lent(), index, &new);
                if answer.refusal == 0 {
                    map = Stored { slots, count: answer.value, pairs, values };
                }
            }
        }
    });
    tally.run("from_slot_map: repeated and cancelling terms, zeros, refusals in order, buffers", |cases| {
        for slots in slot_counts() {
            let periods: Vec<usize> = divisors(slots).collect();
            for _ in 0..3 {
                let period = periods[random.below(periods.len())];
                if slots > 400 && period > 1_000 {
                    continue;
                }
                let n = random.below(30);
                let terms = any_terms(&mut random, slots, period, n);
                let mut calls = vec![(slots, period, terms.clone())];
                calls.push((0, period, terms.clone()));
                calls.push((65_537, period, terms.clone()));
                calls.push((slots, 0, terms.clone()));
                calls.push((slots, period + 1, terms.clone()));
                calls.push((slots, slots + 1, terms.clone()));
                let mut odd = terms.clone();
                odd.js.push(0);
                calls.push((slots, period, odd));
                let mut odd = terms.clone();
                odd.ws.push(0);
                calls.push((slots, period, odd));
                for (i, j) in [(period as u32, 0), (0, slots as u32), (u32::MAX, 0), (0, u32::MAX)] {
                    let mut odd = terms.clone();
                    odd.is.push(i);
                    odd.js.push(j);
                    odd.ws.push(1);
                    calls.push((slots, period, odd));
                }
                for (slots, period, terms) in calls {
                    let (answer, mut p, mut v) = right_from_slot_map(
                        slots,
                        period,
                        &terms,
                        &vec![0; 2 * 100],
                        &vec![0; 100 * period.min(1_001)],
                    );
                    p.truncate(2 * answer.value);
                    v.truncate(answer.value * period);
                    let result = Stored { slots, count: answer.value, pairs: p, values: v };
                    for (pairs, values) in buffers(&mut random, &result) {
                        let right = right_from_slot_map(slots, period, &terms, &pairs, &values);
                        let ours = written(&pairs, &values, |p, v| from_slot_map(slots, period, &terms, p, v));
                        cases.same(|| format!("{slots} {period} {terms:?}"), ours, (right, true));
                    }
                }
            }
        }
    });
    tally.run("rotate_slots_into: any shift, out empty, longer than 65,536 or no multiple", |cases| {
        for n in (0..=40).chain([1_000, 65_535, 65_536, 65_537]) {
            let src = random.words(n);
            let mut lengths = vec![0, 1, n, 2 * n, 3 * n, n + 1, 2 * n + 1];
            if n > 1_000 {
                lengths = vec![0, n, 2 * n, n + 1];
            }
            for m in lengths {
                for k in [any_index(&mut random, n.max(1)), any_index(&mut random, n.max(1)), i64::MIN, i64::MAX, 0] {
                    let held = random.words(m);
                    let mut lent = Lent::new(&held);
                    let refusal = ours::rotate_slots_into(&src, k, lent.part());
                    let (right, words) = right_rotate(&src, k, &held);
                    cases.same(|| format!("{n} {k} {m}"), (refusal, lent.back()), (right, (words, true)));
                }
            }
        }
    });
    for (name, result, call) in SECONDS {
        tally.run(&format!("{name}: random and damaged maps, buffers full, short and longer"), |cases| {
            for slots in slot_counts() {
                for _ in 0..4 {
                    let stored = Stored::of(&any_map(&mut random, slots)).longer(&mut random);
                    let result_words = result(stored.lent());
                    for (pairs, values) in buffers(&mut random, &result_words) {
                        let mut all = vec![stored.clone()];
                        if slots <= 400 {
                            all.extend(damaged(&stored, &mut random));
                        }
                        for map in &all {
                            let right =
                                right_written(right_map_refusal(map.lent()), || result(map.lent()), &pairs, &values);
                            let ours = written(&pairs, &values, |p, v| call(map.lent(), p, v));
                            cases.same(|| format!("{map:?}"), ours, (right, true));
                        }
                    }
                }
            }
        });
    }
}

/// A map as the words of a recorded call.
pub fn map_words(map: Map) -> Vec<u64> {
    let head = [map.slots, map.count, map.pairs.len(), map.values.len()].map(|n| n as u64);
    head.into_iter().chain(map.pairs.iter().map(|&w| w as u64)).chain(map.values.iter().copied()).collect()
}

fn written_words((answer, pairs, values): Written) -> Vec<u64> {
    let head = [answer.refusal as u64, answer.value as u64];
    head.into_iter().chain(pairs.iter().map(|&w| w as u64)).chain(values).collect()
}

pub fn sample(sample: &mut Sample) {
    let mut random = Random::new(5);
    for slots in [0, 1, 65_536, 65_537] {
        sample.call(16, &[slots as u64], &[outside(slots) as u64, 0]);
    }
    for slots in [1, 2, 3, 4, 6, 12] {
        for _ in 0..2 {
            let stored = Stored::of(&any_map(&mut random, slots)).longer(&mut random);
            let mut all = damaged(&stored, &mut random);
            let first = random.below(all.len() - 2);
            all.drain(..first);
            all.truncate(3);
            all.push(stored);
            for map in &all {
                let words = map_words(map.lent());
                let refusal = right_map_refusal(map.lent());
                sample.call(15, &words, &[refusal as u64, (refusal == 0 && map.count == 0) as u64]);
                for n in map.count.clamp(1, 8) - 1..map.count.min(8) + 2 {
                    let (answer, out) = right_indexes(map.lent(), &vec![7; n]);
                    let answer: Vec<u64> = [answer.refusal as u64, answer.value as u64]
                        .into_iter()
                        .chain(out.iter().map(|&w| w as u64))
                        .collect();
                    sample.call(14, &[vec![n as u64], words.clone()].concat(), &answer);
                }
                for _ in 0..2 {
                    let index = any_index(&mut random, slots);
                    let (answer, stretch) = right_get(map.lent(), index);
                    let answer = [vec![answer.refusal as u64, answer.value as u64], stretch].concat();
                    sample.call(7, &[vec![index as u64], words.clone()].concat(), &answer);
                    let new = any_period(&mut random, slots);
                    let answer = written_words(right_set(map.lent(), index, &new));
                    let call = [vec![index as u64, new.len() as u64], new, words.clone()].concat();
                    sample.call(8, &call, &answer);
                }
                for (code, result) in [(11, shrunk as fn(Map) -> Stored), (12, transposed)] {
                    for spare in [0, 1] {
                        let room = if refusal == 0 { result(map.lent()) } else { Stored::default() };
                        let (p, v) = (room.pairs.len() + spare, (room.values.len() + 2 * spare).saturating_sub(1));
                        let right = right_written(refusal, || result(map.lent()), &vec![7; p], &vec![7; v]);
                        sample.call(code, &[vec![p as u64, v as u64], words.clone()].concat(), &written_words(right));
                    }
                }
            }
        }
        let period = divisors(slots).nth(random.below(divisors(slots).count())).unwrap();
        let n = random.below(8);
        let terms = any_terms(&mut random, slots, period, n);
        for (slots, period) in [(slots, period), (slots, period + 1), (0, period)] {
            for (p, v) in [(16, 64), (2, 64), (16, 1)] {
                let right = right_from_slot_map(slots, period, &terms, &vec![7; p], &vec![7; v]);
                let lengths = [terms.is.len(), terms.js.len(), terms.ws.len()].map(|n| n as u64);
                let call: Vec<u64> = [slots as u64, period as u64, p as u64, v as u64]
                    .into_iter()
                    .chain(lengths)
                    .chain(terms.is.iter().chain(&terms.js).map(|&w| w as u64))
                    .chain(terms.ws.iter().copied())
                    .collect();
                sample.call(9, &call, &written_words(right));
            }
        }
        let src = random.words(slots);
        for m in [0, slots, 3 * slots, slots + 1] {
            let k = any_index(&mut random, slots);
            let (refusal, out) = right_rotate(&src, k, &vec![7; m]);
            let call = [vec![k as u64, m as u64], src.clone()].concat();
            sample.call(10, &call, &[vec![refusal as u64], out].concat());
        }
    }
}

/// `count` diagonals of 65,536 slots, each of `length` values, at offsets spread over the slots.
pub fn wide_map(random: &mut Random, count: usize, length: usize) -> Words {
    let mut map = Words::new(65_536);
    for k in 0..count {
        map.set((k * 128) as i64, wrapped(&random.words(length)));
    }
    map
}

pub fn bench(bench: &mut Bench) {
    let mut random = Random::new(6);
    let d = 256;
    let (slots, n) = (65_536, d * d);
    let mut terms = Terms::default();
    for t in 0..n {
        let (r, c) = (t / d, t % d);
        terms.is.push(t as u32);
        terms.js.push((r * d + (r + c) % d) as u32);
        terms.ws.push(1);
    }
    let rust_terms: Vec<(usize, usize, Wrapping<u64>)> =
        (0..n).map(|t| (t, terms.js[t] as usize, Wrapping(1))).collect();
    {
        let (mut p, mut v) = (vec![0; 2 * 511], vec![0; 511 * slots]);
        bench.pair(
            "from_slot_map, 65,536 terms of a 256 by 256 sigma",
            Some(3.0),
            || from_slot_map(slots, slots, keep(&terms), &mut p, &mut v),
            || Words::from_slot_map(slots, slots, keep(&rust_terms).iter().copied()),
        );
    }
    for (name, planted) in [("random values", slots), ("period 256", 256)] {
        let mut rust = Words::new(slots);
        for k in 0..511 {
            let base = random.words(planted);
            rust.set(k * 128, (0..slots).map(|t| Wrapping(base[t % planted])).collect());
        }
        let stored = Stored::of(&rust);
        let (mut p, mut v) = (vec![0; 2 * 511], vec![0; 511 * slots]);
        bench.pair(
            &format!("shrink_period, 511 by 65,536, {name}"),
            Some(1.0),
            || ours::shrink_period(keep(stored.lent()), &mut p, &mut v),
            || {
                let mut second = keep(&rust).clone();
                second.shrink_period();
                second
            },
        );
        if planted == slots {
            bench.pair(
                "transpose, 511 by 65,536",
                Some(1.0),
                || ours::transpose(keep(stored.lent()), &mut p, &mut v),
                || {
                    let mut second = keep(&rust).clone();
                    second.transpose();
                    second
                },
            );
        }
    }
    for length in [1, 256] {
        let rust = wide_map(&mut random, 511, length);
        let stored = Stored::of(&rust);
        let indexes: Vec<i64> = (0..64).map(|_| (random.below(511) * 128) as i64).collect();
        let mut out = vec![0; length];
        bench.pair(
            // Refusal 2 is about every pair, so a read looks at all of them: see docs/DECISIONS.md.
            &format!("get, 64 of 511 diagonals of {length}, values copied"),
            Some(1.0),
            || indexes.iter().map(|&k| ours::get_into(keep(stored.lent()), k, &mut out).value).sum::<usize>(),
            || {
                let mut copy = vec![Wrapping(0); length];
                let mut sum = 0;
                for &k in &indexes {
                    let stretch = keep(&rust).get(k).unwrap();
                    copy.copy_from_slice(stretch);
                    sum += keep(&copy).len();
                }
                sum
            },
        );
    }
    let rust = wide_map(&mut random, 511, slots);
    let stored = Stored::of(&rust);
    let words = |values: &[u64]| values.iter().fold(0u64, |s, &w| s.wrapping_add(w));
    let mut out = vec![0; slots];
    let mut read = || {
        ours::get_into(keep(stored.lent()), 128 * 255, &mut out);
        words(&out)
    };
    let sum = |values: &[Wrapping<u64>]| values.iter().fold(Wrapping(0), |s, &w| s + w);
    let stretch = || keep(&rust).get(128 * 255).unwrap();
    bench.pair("get, one of 511 of 65,536, copied and summed", Some(1.0), &mut read, || sum(&stretch().clone()));
    bench.pair("get, one of 511 of 65,536, summed; the Rust in place", Some(1.0), &mut read, || sum(stretch()));
    let new = random.words(slots);
    let new_rust = wrapped(&new);
    let (mut pairs, mut values) = (stored.pairs.clone(), stored.values.clone());
    let mut rust = rust;
    bench.pair(
        "set in place, the middle of 511 diagonals of 65,536",
        None,
        || ours::set(slots, 511, &mut pairs, &mut values, 128 * 255, keep(&new)),
        || rust.set(128 * 255, keep(&new_rust).clone()),
    );
}
