//! The matrix maps beside document 002.

use std::num::Wrapping;

use poulpy_blas::layouts as rust;
use sibukyaran::lent::{self as ours, Numbers};

use crate::bench::{Bench, keep};
use crate::calls::{Expected, Terms, per_matrix_map};
use crate::diagonals::{Stored, Words, right_written, wrapped, written};
use crate::guards::Lent;
use crate::random::{Random, divisors};
use crate::ring::{MOST, outside};
use crate::sample::Sample;
use crate::tally::{Cases, Tally};

type F = Wrapping<u64>;

/// What a map does with the shift k: it leaves k alone, takes it to d, or takes it to 65,536 and goes round (document 02, A2).
#[derive(Clone, Copy, PartialEq)]
pub enum Shift {
    None,
    Half,
    Round,
}

/// A map that reads one entry or none.
pub struct Rule {
    pub name: &'static str,
    pub shift: Shift,
    rust: fn(usize, usize, usize) -> Words,
    ours: fn(usize, usize, usize, &mut [u32], &mut [u64]) -> Numbers,
}

pub const RULES: [Rule; 11] = [
    Rule {
        name: "sigma",
        shift: Shift::None,
        rust: |slots, log_d, _| rust::sigma::<F>(slots, log_d),
        ours: |slots, log_d, _, p, v| ours::sigma(slots, log_d, p, v),
    },
    Rule {
        name: "tau",
        shift: Shift::None,
        rust: |slots, log_d, _| rust::tau::<F>(slots, log_d),
        ours: |slots, log_d, _, p, v| ours::tau(slots, log_d, p, v),
    },
    Rule {
        name: "transpose",
        shift: Shift::None,
        rust: |slots, log_d, _| rust::transpose::<F>(slots, log_d),
        ours: |slots, log_d, _, p, v| ours::transpose_matrices(slots, log_d, p, v),
    },
    Rule { name: "rotate_rows", shift: Shift::Round, rust: rust::rotate_rows::<F>, ours: ours::rotate_rows },
    Rule { name: "rotate_cols", shift: Shift::Round, rust: rust::rotate_cols::<F>, ours: ours::rotate_cols },
    Rule { name: "rows_upper", shift: Shift::Half, rust: rust::rows_upper::<F>, ours: ours::rows_upper },
    Rule { name: "rows_lower", shift: Shift::Half, rust: rust::rows_lower::<F>, ours: ours::rows_lower },
    Rule { name: "cols_left", shift: Shift::Half, rust: rust::cols_left::<F>, ours: ours::cols_left },
    Rule { name: "cols_right", shift: Shift::Half, rust: rust::cols_right::<F>, ours: ours::cols_right },
    Rule { name: "rows_left", shift: Shift::Half, rust: rust::rows_left::<F>, ours: ours::rows_left },
    Rule { name: "rows_right", shift: Shift::Half, rust: rust::rows_right::<F>, ours: ours::rows_right },
];

/// The products by public matrices: their names, and ours.
pub type Product = (&'static str, fn(usize, usize, usize, &[u64], &mut [u32], &mut [u64]) -> Numbers);

pub const PRODUCTS: [Product; 4] = [
    ("right_mul", ours::right_mul),
    ("left_mul", ours::left_mul),
    ("right_jkls", ours::right_jkls),
    ("left_jkls", ours::left_jkls),
];

pub fn square(log_d: usize) -> usize {
    1 << (2 * log_d)
}

/// Document 01's refusals 1 and 5.
pub fn tiled(slots: usize, log_d: usize, count: usize) -> Result<(), u32> {
    if outside(slots) {
        return Err(1);
    }
    let tiles = log_d <= 8 && count > 0 && count.checked_mul(square(log_d)).is_some_and(|n| slots.is_multiple_of(n));
    if tiles { Ok(()) } else { Err(5) }
}

/// Refusals 1, 5 and 6.
fn ruled(rule: usize, slots: usize, log_d: usize, k: usize) -> Result<(), u32> {
    tiled(slots, log_d, 1)?;
    let most = match RULES[rule].shift {
        Shift::None => usize::MAX,
        Shift::Half => 1 << log_d,
        Shift::Round => MOST,
    };
    if k > most { Err(6) } else { Ok(()) }
}

pub fn right_rule(rule: usize, slots: usize, log_d: usize, k: usize) -> Result<Words, u32> {
    ruled(rule, slots, log_d, k).map(|()| (RULES[rule].rust)(slots, log_d, k))
}

fn product(p: usize, slots: usize, log_d: usize, count: usize, b: &[u64]) -> Words {
    let d = 1usize << log_d;
    let entry = |s: usize, r: usize, c: usize| Wrapping(b[(s * d + r) * d + c]);
    match p {
        0 => rust::right_mul(slots, log_d, count, entry),
        1 => rust::left_mul(slots, log_d, count, entry),
        2 => rust::right_jkls(slots, log_d, count, entry),
        _ => rust::left_jkls(slots, log_d, count, entry),
    }
}

pub fn right_product(p: usize, slots: usize, log_d: usize, count: usize, b: &[u64]) -> Result<Words, u32> {
    tiled(slots, log_d, count)?;
    if b.len() != count * square(log_d) { Err(7) } else { Ok(product(p, slots, log_d, count, b)) }
}

/// Rooms for pairs and values of a result: exactly full, one short in either, longer.
fn rooms(pairs: usize, values: usize) -> [(usize, usize); 4] {
    [(pairs, values), (pairs.saturating_sub(1), values), (pairs, values.saturating_sub(1)), (pairs + 3, values + 5)]
}

fn held(room: (usize, usize)) -> (Vec<u32>, Vec<u64>) {
    ((0..room.0 as u32).map(|w| 0x7000_0000 + w).collect(), (0..room.1 as u64).map(|w| !w).collect())
}

/// A map that is not shrunk, with each room.
fn check_map(
    cases: &mut Cases,
    name: &str,
    right: Result<Words, u32>,
    call: impl Fn(&mut [u32], &mut [u64]) -> Numbers,
) {
    let refusal = right.as_ref().err().copied().unwrap_or(0);
    let map = right.as_ref().map_or_else(|_| Stored::default(), Stored::of);
    for room in rooms(map.pairs.len(), map.values.len()) {
        let (pairs, values) = held(room);
        let ours = written(&pairs, &values, &call);
        let right = right_written(refusal, || map.clone(), &pairs, &values);
        cases.same(|| name.to_string(), ours, (right, true));
    }
}

/// A map that is built at a period and shrunk in its place: room is needed for the unshrunk map, and the values between
/// the two totals are free.
fn check_shrunk(
    cases: &mut Cases,
    name: &str,
    period: usize,
    right: Result<Words, u32>,
    call: impl Fn(&mut [u32], &mut [u64]) -> Numbers,
) {
    let refusal = right.as_ref().err().copied().unwrap_or(0);
    let map = right.as_ref().map_or_else(|_| Stored::default(), Stored::of);
    let (total, whole) = (map.values.len(), map.count * period);
    for room in rooms(map.pairs.len(), whole) {
        let (pairs, values) = held(room);
        let ((answer, p, mut v), kept) = written(&pairs, &values, &call);
        let refusal = match refusal {
            0 if room.0 < map.pairs.len() || room.1 < whole => 12,
            refusal => refusal,
        };
        let right = right_written(refusal, || map.clone(), &pairs, &values);
        if refusal == 0 {
            v[total..whole].copy_from_slice(&values[total..whole]);
        }
        cases.same(|| name.to_string(), ((answer, p, v), kept), (right, true));
    }
}

fn check_rule(cases: &mut Cases, rule: usize, slots: usize, log_d: usize, k: usize) {
    let name = format!("{} {slots} {log_d} {k}", RULES[rule].name);
    let call = |p: &mut [u32], v: &mut [u64]| (RULES[rule].ours)(slots, log_d, k, p, v);
    let period = if log_d > 8 { 0 } else { square(log_d) };
    check_shrunk(cases, &name, period, right_rule(rule, slots, log_d, k), call);
}

fn check_product(cases: &mut Cases, p: usize, slots: usize, log_d: usize, count: usize, b: &[u64]) {
    let (name, ours) = PRODUCTS[p];
    let call = |pairs: &mut [u32], v: &mut [u64]| ours(slots, log_d, count, b, pairs, v);
    let name = format!("{name} {slots} {log_d} {count}");
    check_map(cases, &name, right_product(p, slots, log_d, count, b), call);
}

pub fn right_left_mul_rep(slots: usize, log_d: usize, b: &[u64]) -> Result<Words, u32> {
    tiled(slots, log_d, 1)?;
    if b.len() != square(log_d) {
        return Err(7);
    }
    let d = 1usize << log_d;
    Ok(rust::left_mul_rep(slots, log_d, |_, r, c| Wrapping(b[r * d + c])))
}

pub fn right_rows_rep(slots: usize, log_d: usize, k: usize) -> Result<Words, u32> {
    tiled(slots, log_d, 1)?;
    if k < 1 || k >= 1 << log_d { Err(6) } else { Ok(rust::rotate_rows_rep(slots, log_d, k)) }
}

/// A map of slots and log_d alone that does not shrink: its name, the Rust's, ours.
pub type Plain = (&'static str, fn(usize, usize) -> Words, fn(usize, usize, &mut [u32], &mut [u64]) -> Numbers);

pub const PLAIN: [Plain; 3] = [
    ("tau_rep", rust::tau_rep::<F>, ours::tau_rep),
    ("first_row", rust::first_row::<F>, ours::first_row),
    ("first_col", rust::first_col::<F>, ours::first_col),
];

fn check_plain(cases: &mut Cases, slots: usize, log_d: usize) {
    for (name, rust, ours) in PLAIN {
        let right = tiled(slots, log_d, 1).map(|()| rust(slots, log_d));
        let call = |p: &mut [u32], v: &mut [u64]| ours(slots, log_d, p, v);
        check_map(cases, &format!("{name} {slots} {log_d}"), right, call);
    }
}

fn check_rows_rep(cases: &mut Cases, slots: usize, log_d: usize, k: usize) {
    let call = |p: &mut [u32], v: &mut [u64]| ours::rotate_rows_rep(slots, log_d, k, p, v);
    check_map(cases, &format!("rotate_rows_rep {slots} {log_d} {k}"), right_rows_rep(slots, log_d, k), call);
}

fn check_left_mul_rep(cases: &mut Cases, slots: usize, log_d: usize, b: &[u64]) {
    let call = |p: &mut [u32], v: &mut [u64]| ours::left_mul_rep(slots, log_d, b, p, v);
    check_map(cases, &format!("left_mul_rep {slots} {log_d}"), right_left_mul_rep(slots, log_d, b), call);
}

/// tau_values and sigma_values.
pub fn right_values(rows: bool, log_d: usize, count: usize, b: &[u64]) -> Result<Vec<u64>, u32> {
    let fits = log_d <= 8 && count > 0 && count.checked_mul(square(log_d)).is_some_and(|n| n <= MOST);
    if !fits {
        return Err(5);
    }
    if b.len() != count * square(log_d) {
        return Err(7);
    }
    let d = 1usize << log_d;
    let entry = |s: usize, r: usize, c: usize| b[(s * d + r) * d + c];
    Ok(if rows { rust::tau_values(log_d, count, entry) } else { rust::sigma_values(log_d, count, entry) })
}

fn check_values(cases: &mut Cases, log_d: usize, count: usize, b: &[u64]) {
    for rows in [true, false] {
        let values = right_values(rows, log_d, count, b);
        let n = values.as_ref().map_or(3, Vec::len);
        for room in [n, n.saturating_sub(1), n + 3] {
            let held: Vec<u64> = (0..room as u64).map(|w| !w).collect();
            let mut lent = Lent::new(&held);
            let ours = if rows { ours::tau_values } else { ours::sigma_values };
            let answer = ours(log_d, count, b, lent.part());
            let right = match &values {
                Ok(v) if v.len() <= room => (Numbers::is(v.len()), [&v[..], &held[v.len()..]].concat()),
                Ok(_) => (Numbers::refused(12), held),
                Err(refusal) => (Numbers::refused(*refusal), held),
            };
            let name = || format!("values {rows} {log_d} {count}");
            cases.same(name, (answer, lent.back()), (right.0, (right.1, true)));
        }
    }
}

pub fn right_slot_product(slots: usize, v: &[u64], rotation: i64) -> Result<Words, u32> {
    if outside(slots) {
        return Err(1);
    }
    if v.is_empty() || !slots.is_multiple_of(v.len()) {
        return Err(4);
    }
    Ok(rust::slot_product(slots, &wrapped(v), rotation))
}

fn check_slot_product(cases: &mut Cases, slots: usize, v: &[u64], rotation: i64) {
    let call = |p: &mut [u32], values: &mut [u64]| ours::slot_product(slots, v, rotation, p, values);
    let name = format!("slot_product {slots} {} {rotation}", v.len());
    check_map(cases, &name, right_slot_product(slots, v, rotation), call);
}

/// per_matrix_map by its terms; the Rust's closure hands out those of each output.
fn right_per_matrix(slots: usize, log_d: usize, terms: &Terms) -> Result<Words, u32> {
    tiled(slots, log_d, 1)?;
    let n = terms.is.len();
    if terms.js.len() != n || terms.ws.len() != n {
        return Err(7);
    }
    let period = square(log_d);
    if (0..n).any(|t| terms.is[t] as usize >= period || terms.js[t] as usize >= slots) {
        return Err(8);
    }
    let list = (0..n).map(|t| (terms.is[t] as usize, terms.js[t] as usize, Wrapping(terms.ws[t])));
    let mut map = Words::from_slot_map(slots, period, list);
    map.shrink_period();
    Ok(map)
}

fn check_per_matrix(cases: &mut Cases, slots: usize, log_d: usize, terms: &Terms) {
    let call = |p: &mut [u32], v: &mut [u64]| per_matrix_map(slots, log_d, terms, p, v);
    let period = if log_d > 8 { 0 } else { square(log_d) };
    let name = format!("per_matrix_map {slots} {log_d} {terms:?}");
    check_shrunk(cases, &name, period, right_per_matrix(slots, log_d, terms), call);
}

/// The Rust's own closure form, for terms inside the matrix slot.
fn check_closure(cases: &mut Cases, slots: usize, log_d: usize, terms: &Terms) {
    let d = 1usize << log_d;
    let of = |r: usize, c: usize| {
        let at = (r * d + c) as u32;
        let mine = (0..terms.is.len()).filter(move |&t| terms.is[t] == at);
        mine.map(|t| (terms.js[t] as usize / d, terms.js[t] as usize % d, Wrapping(terms.ws[t]))).collect::<Vec<_>>()
    };
    let right = rust::per_matrix_map(slots, log_d, of);
    let call = |p: &mut [u32], v: &mut [u64]| per_matrix_map(slots, log_d, terms, p, v);
    check_shrunk(cases, &format!("per_matrix_map {slots} {log_d} {terms:?}"), square(log_d), Ok(right), call);
}

/// Public matrices: random, zero, or with a period.
pub fn any_matrices(random: &mut Random, n: usize) -> Vec<u64> {
    match random.below(3) {
        0 => vec![0; n],
        1 => {
            let lengths: Vec<usize> = divisors(n).collect();
            let length = lengths[random.below(lengths.len())];
            let base = random.words(length);
            (0..n).map(|t| base[t % base.len()]).collect()
        }
        _ => random.words(n),
    }
}

fn any_terms(random: &mut Random, n: usize, is: usize, js: usize) -> Terms {
    Terms {
        is: (0..n).map(|_| random.below(is) as u32).collect(),
        js: (0..n).map(|_| random.below(js) as u32).collect(),
        ws: (0..n).map(|_| random.word() % 3).collect(),
    }
}

pub fn compare(tally: &mut Tally) {
    let mut random = Random::new(16);
    tally.run("matrix maps that read one entry: log_d 0 to 3, every shift to 4d, each room", |cases| {
        for log_d in 0..=3 {
            for blocks in [1, 2, 3, 5, 6, 8] {
                let slots = square(log_d) * blocks;
                for (rule, Rule { shift, .. }) in RULES.iter().enumerate() {
                    for k in 0..=if *shift == Shift::None { 0 } else { 4 << log_d } {
                        check_rule(cases, rule, slots, log_d, k);
                    }
                }
                check_plain(cases, slots, log_d);
                for k in 0..=(1 << log_d) + 1 {
                    check_rows_rep(cases, slots, log_d, k);
                }
            }
        }
    });
    tally.run("rotate_rows, rotate_cols: log_d 0 to 8, every shift to 4d, random ones to 65,536, the limit", |cases| {
        for log_d in 0..=8 {
            let every = (0..=4usize << log_d).chain((0..40).map(|_| random.below(MOST + 1)));
            for k in every.chain([MOST - 1, MOST, MOST + 1, usize::MAX]) {
                for (rule, _) in RULES.iter().enumerate().filter(|(_, rule)| rule.shift == Shift::Round) {
                    check_rule(cases, rule, square(log_d), log_d, k);
                }
            }
        }
    });
    tally.run("matrix products: log_d 0 to 3, every count, each room", |cases| {
        for log_d in 0..=3 {
            for count in 1..=4 {
                for times in [1, 2, 3, 5] {
                    let slots = square(log_d) * count * times;
                    for p in 0..PRODUCTS.len() {
                        let b = any_matrices(&mut random, count * square(log_d));
                        check_product(cases, p, slots, log_d, count, &b);
                    }
                    let b = any_matrices(&mut random, square(log_d));
                    check_left_mul_rep(cases, slots, log_d, &b);
                }
                let b = any_matrices(&mut random, count * square(log_d));
                check_values(cases, log_d, count, &b);
            }
        }
    });
    tally.run("matrix maps and products of 65,536 slots, log_d to 8", |cases| {
        for log_d in 4..=8 {
            for (rule, Rule { shift, .. }) in RULES.iter().enumerate() {
                let k = match shift {
                    Shift::None => 0,
                    Shift::Half => random.below((1 << log_d) + 1),
                    Shift::Round => random.below(MOST + 1),
                };
                check_rule(cases, rule, MOST, log_d, k);
            }
            check_plain(cases, MOST, log_d);
            check_rows_rep(cases, MOST, log_d, 1 + random.below((1 << log_d) - 1));
            let count = (MOST / square(log_d)).min(4);
            for p in 0..PRODUCTS.len() {
                let b = any_matrices(&mut random, count * square(log_d));
                check_product(cases, p, MOST, log_d, count, &b);
            }
            let b = random.words(square(log_d));
            check_left_mul_rep(cases, MOST, log_d, &b);
            let b = random.words(count * square(log_d));
            check_values(cases, log_d, count, &b);
        }
    });
    tally.run("slot_product: every divisor, rotations of any size", |cases| {
        for slots in (1..=40).chain([4_096, 46_189, MOST]) {
            for n in divisors(slots).chain([0, slots + 1, 7]) {
                let v = random.words(n);
                for rotation in [0, 1, -1, i64::MIN, i64::MAX, random.word() as i64] {
                    check_slot_product(cases, slots, &v, rotation);
                }
            }
        }
        for slots in [0, MOST + 1, usize::MAX] {
            check_slot_product(cases, slots, &[1], 0);
        }
    });
    tally.run("per_matrix_map: random terms, those of a closure, refusals in order", |cases| {
        for log_d in 0..=3 {
            for blocks in [1, 2, 3, 5] {
                let (period, slots) = (square(log_d), square(log_d) * blocks);
                for _ in 0..30 {
                    let n = random.below(2 * period + 2);
                    check_per_matrix(cases, slots, log_d, &any_terms(&mut random, n, period, slots));
                    check_per_matrix(cases, slots, log_d, &any_terms(&mut random, n, period + 1, slots + 1));
                    check_closure(cases, slots, log_d, &any_terms(&mut random, n, period, period));
                }
                let mut terms = any_terms(&mut random, 4, period + 1, slots);
                terms.js.pop();
                check_per_matrix(cases, slots, log_d, &terms);
                check_per_matrix(cases, slots + 1, log_d, &terms);
                check_per_matrix(cases, 0, log_d, &terms);
            }
        }
    });
    tally.run("matrix maps: refusals in order, nothing changed", |cases| {
        for slots in [0, 1, 3, 4, 8, 12, 64, MOST, MOST + 1, usize::MAX] {
            for log_d in [0, 1, 2, 8, 9, 31, 32, 63, 64, usize::MAX] {
                for k in [0, 1, 2, 3, 5, 257, MOST, MOST + 1, usize::MAX] {
                    for rule in 0..RULES.len() {
                        // Large maps that are taken are compared above.
                        if log_d < 8 || ruled(rule, slots, log_d, k).is_err() {
                            check_rule(cases, rule, slots, log_d, k);
                        }
                    }
                    check_rows_rep(cases, slots, log_d, k);
                }
                check_plain(cases, slots, log_d);
                for count in [0, 1, 2, 3, usize::MAX, 1 << 32] {
                    for n in [0, 1, 4, 8, 9] {
                        let b = random.words(n);
                        for p in 0..PRODUCTS.len() {
                            check_product(cases, p, slots, log_d, count, &b);
                        }
                        check_values(cases, log_d, count, &b);
                        check_left_mul_rep(cases, slots, log_d, &b);
                    }
                }
            }
        }
        for rule in 0..RULES.len() {
            // rows_lower of d = 2: k = 2 is the identity, k = 3 is refused.
            check_rule(cases, rule, 4, 1, 2);
            check_rule(cases, rule, 4, 1, 3);
        }
    });
}

pub fn bench(bench: &mut Bench) {
    let mut random = Random::new(17);
    for Rule { name, rust, ours, .. } in &RULES[..3] {
        let (mut p, mut v) = (vec![0; 2 * 511], vec![0; 511 * MOST]);
        bench.pair(
            &format!("{name} of 256 by 256, 65,536 slots"),
            Some(4.0),
            || ours(keep(MOST), 8, 0, &mut p, &mut v),
            || rust(keep(MOST), 8, 0),
        );
    }
    for Rule { name, rust, ours, .. } in RULES.iter().filter(|rule| rule.shift == Shift::Round) {
        let (mut p, mut v) = (vec![0; 4], vec![0; 2 * MOST]);
        for k in [1, MOST - 1] {
            bench.pair(
                &format!("{name} of 256 by 256 by {k}"),
                Some(4.0),
                || ours(keep(MOST), 8, k, &mut p, &mut v),
                || rust(keep(MOST), 8, k),
            );
        }
    }
    for (p, log_d, count) in [(2, 6, 16), (3, 6, 16), (0, 8, 1)] {
        let (name, ours) = PRODUCTS[p];
        let d = 1 << log_d;
        let b = random.words(count * d * d);
        let (mut pairs, mut v) = (vec![0; 2 * (2 * d - 1)], vec![0; (2 * d - 1) * count * d * d]);
        bench.pair(
            &format!("{name} of {d} by {d}, {count} matrices"),
            Some(2.0),
            || ours(MOST, log_d, count, keep(&b), &mut pairs, &mut v),
            || product(p, MOST, log_d, count, keep(&b)),
        );
    }
}

/// What a call of a map that shrinks is shown with: the values between the totals are free, so only the map is told.
fn told(right: Result<Words, u32>, period: Option<usize>, room: (usize, usize)) -> Vec<u64> {
    let map = match right {
        Ok(map) => Stored::of(&map),
        Err(refusal) => return vec![refusal as u64, 0],
    };
    let whole = period.map_or(map.values.len(), |p| map.count * p);
    if room.0 < map.pairs.len() || room.1 < whole {
        return vec![12, 0];
    }
    let pairs = map.pairs.iter().map(|&w| w as u64);
    [0, map.count as u64].into_iter().chain(pairs).chain(map.values.iter().copied()).collect()
}

/// The rooms of the replaying program.
const PAIRS: usize = 64;
const VALUES: usize = 512;

pub fn sample(sample: &mut Sample) {
    let mut random = Random::new(18);
    let full = (PAIRS, VALUES);
    for log_d in 0..=2 {
        for blocks in [1, 2, 3] {
            let slots = square(log_d) * blocks;
            for (rule, Rule { shift, .. }) in RULES.iter().enumerate() {
                let d = 1 << log_d;
                let shifts: &[usize] = match shift {
                    Shift::None => &[0],
                    Shift::Half => &[0, 1, d, d + 1],
                    Shift::Round => &[0, 1, d, d + 1, 4 * d - 1, MOST - 1, MOST, MOST + 1, usize::MAX],
                };
                for &k in shifts {
                    let words = [rule, slots, log_d, k].map(|w| w as u64);
                    sample.call(32, &words, &told(right_rule(rule, slots, log_d, k), Some(square(log_d)), full));
                }
            }
            for (n, (_, rust, _)) in PLAIN.iter().enumerate() {
                let words = [n, slots, log_d].map(|w| w as u64);
                sample.call(33, &words, &told(Ok(rust(slots, log_d)), None, full));
            }
            for k in 0..=(1 << log_d) {
                let words = [slots, log_d, k].map(|w| w as u64);
                sample.call(34, &words, &told(right_rows_rep(slots, log_d, k), None, full));
            }
            for p in 0..PRODUCTS.len() {
                for count in [1, blocks, 0] {
                    let b = random.words(count * square(log_d));
                    let words = [p, slots, log_d, count].map(|w| w as u64);
                    let right = right_product(p, slots, log_d, count, &b);
                    sample.call(35, &[&words[..], &b].concat(), &told(right, None, full));
                }
            }
            let b = random.words(square(log_d));
            let words = [slots, log_d].map(|w| w as u64);
            sample.call(36, &[&words[..], &b].concat(), &told(right_left_mul_rep(slots, log_d, &b), None, full));
            let b = random.words(blocks * square(log_d));
            for rows in [true, false] {
                let values = right_values(rows, log_d, blocks, &b).unwrap();
                let words = [rows as u64, log_d as u64, blocks as u64];
                sample.call(37, &[&words[..], &b].concat(), &[&[0, values.len() as u64], &values[..]].concat());
            }
            for rotation in [0, 1, -3, i64::MIN] {
                let v = random.words(square(log_d));
                let words = [slots as u64, rotation as u64];
                sample.call(38, &[&words[..], &v].concat(), &told(right_slot_product(slots, &v, rotation), None, full));
            }
        }
    }
    for slots in [0, 4, 5, 65_537] {
        for log_d in [0, 1, 9] {
            for (rule, k) in [(0, 0), (6, 1), (6, 2), (6, 3)] {
                let words = [rule, slots, log_d, k].map(|w| w as u64);
                let right = right_rule(rule, slots, log_d, k);
                sample.call(32, &words, &told(right, Some(if log_d > 8 { 0 } else { square(log_d) }), full));
            }
        }
    }
}
