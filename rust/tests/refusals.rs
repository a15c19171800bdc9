//! Each refusal by a call that gives it, with its number, its variant and its sentence; and that calls at the limits of
//! their arguments are refused with the numbers of their documentation alone, never with 12, and never panic.

use std::fmt::Debug;

use sibukyaran::LinearTransformationStrategy::{Bsgs, BsgsPowersOfTwo, Direct};
use sibukyaran::{
    BsgsRotations, Diagonals, FileFault, LinearTransformationLayout, LinearTransformationStrategy, MOST, Refusal, lent,
    maps, min_period, optimal_bsgs_giant_step, period_lcm, rotate_slots_into,
};

/// The answer is this refusal, of this number and sentence.
#[track_caller]
fn refused<T: Debug>(answer: Result<T, Refusal>, number: u32, refusal: Refusal, sentence: &str) {
    let told = answer.unwrap_err();
    assert_eq!(told, refusal);
    assert_eq!((told.number(), told.to_string().as_str()), (number, sentence));
}

/// E3 of document 01: slots 4, diagonals 1 and 3 at period 2.
fn example() -> Diagonals {
    Diagonals::from_slot_map(4, 2, [(0, 1, 5), (0, 1, 7), (1, 0, 2)]).unwrap()
}

fn layout(slots: usize, strategy: LinearTransformationStrategy) -> LinearTransformationLayout {
    LinearTransformationLayout { indexes: vec![0, 1, 2, 5, -1], slots, strategy }
}

fn powers(baby_step: i64, giant_step: i64, slots: i64) -> BsgsRotations {
    BsgsRotations::PowersOfTwo { baby_step, giant_step, slots }
}

#[test]
fn refusal_1_is_of_slots() {
    let of = |slots| Refusal::Slots { slots };
    refused(Diagonals::new(0), 1, of(0), "slots is 0: it must be from 1 to 65536");
    let sentence = "slots is 65537: it must be from 1 to 65536";
    refused(Diagonals::from_slot_map(65_537, 1, []), 1, of(65_537), sentence);
    refused(layout(65_537, Direct).index(), 1, of(65_537), sentence);
    refused(layout(65_537, Direct).key_rotations(), 1, of(65_537), sentence);
    refused(layout(65_537, Direct).key_switches(), 1, of(65_537), sentence);
    refused(optimal_bsgs_giant_step([1], 65_537), 1, of(65_537), sentence);
    refused(powers(1, 1, 65_537).baby_closure([]), 1, of(65_537), sentence);
    refused(powers(1, 1, 65_537).giant_tree([]), 1, of(65_537), sentence);
    refused(maps::sigma(65_537, 0), 1, of(65_537), sentence);
    refused(powers(1, 1, -5).giant_tree([]), 1, of(-5), "slots is -5: it must be from 1 to 65536");
    let map = lent::Map { slots: 0, count: 0, pairs: &[], values: &[] };
    refused(Diagonals::from_lent(map), 1, of(0), "slots is 0: it must be from 1 to 65536");
}

#[test]
fn refusal_2_is_of_words_that_are_no_map() {
    let sentence =
        "the words are no map: offsets must rise below slots, lengths divide slots, pairs and values be there";
    // An offset at slots, a length that does not divide them, offsets that do not rise, pairs and values too short.
    for (count, pairs, values) in
        [(1, vec![4, 1], 1), (1, vec![0, 3], 3), (2, vec![1, 1, 1, 1], 2), (2, vec![0, 1], 2), (1, vec![0, 2], 1)]
    {
        let map = lent::Map { slots: 4, count, pairs: &pairs, values: &vec![7; values] };
        refused(Diagonals::from_lent(map), 2, Refusal::NotAMap, sentence);
    }
}

#[test]
fn refusal_3_is_of_a_number_out_of_range() {
    let of = |argument, value| Refusal::OutOfRange { argument, value };
    let sentence = "the first period is 0: it must be from 1 to 65536";
    refused(period_lcm(0, 65_537), 3, of("the first period", 0), sentence);
    let sentence = "the second period is 65537: it must be from 1 to 65536";
    refused(period_lcm(1, 65_537), 3, of("the second period", 65_537), sentence);
    refused(min_period(&[]), 3, of("the length", 0), "the length is 0: it must be from 1 to 65536");
    let sentence = "the length of the source is 0: it must be from 1 to 65536";
    refused(rotate_slots_into(&[], 1, &mut []), 3, of("the length of the source", 0), sentence);
    let sentence = "the giant step is 65537: it must be from 1 to 65536";
    let wide = of("the giant step", 65_537);
    let strategy = BsgsPowersOfTwo { giant_step: 65_537 };
    refused(example().evaluate(&[1, 2, 3, 4], strategy), 3, wide.clone(), sentence);
    refused(example().evaluate_keyed(&[1, 2, 3, 4], strategy, &[]), 3, wide.clone(), sentence);
    refused(layout(16, strategy).baby_steps(), 3, wide.clone(), sentence);
    refused(layout(16, strategy).cost(), 3, wide.clone(), sentence);
    refused(layout(16, Direct).plan(65_537), 3, wide.clone(), sentence);
    refused(powers(1, 65_537, 16).giant_key_switches([]), 3, wide, sentence);
    let sentence = "the baby step is 0: it must be from 1 to 65536";
    refused(powers(0, 0, 16).baby_passes([]), 3, of("the baby step", 0), sentence);
    let sentence = "the giant step is -4: it must be from 1 to 65536";
    refused(powers(4, -4, 16).baby_closure([]), 3, of("the giant step", -4), sentence);
}

#[test]
fn refusal_4_is_of_a_period_and_a_refused_set_changes_nothing() {
    let of = |argument, length| Refusal::Period { argument, length, slots: 4 };
    let sentence = "the period is 3: it must be at least 1 and divide the 4 slots";
    refused(Diagonals::from_slot_map(4, 3, [(9, 9, 9)]), 4, of("the period", 3), sentence);
    let values = "the length of the values";
    let sentence = "the length of the values is 0: it must be at least 1 and divide the 4 slots";
    refused(maps::slot_product(4, &[], 0), 4, of(values, 0), sentence);
    let (mut map, before) = (example(), example());
    refused(map.set(1, []), 4, of(values, 0), sentence);
    let sentence = "the length of the values is 3: it must be at least 1 and divide the 4 slots";
    // A diagonal that is there, and one that is not.
    refused(map.set(1, [1, 2, 3]), 4, of(values, 3), sentence);
    refused(map.set(2, [1, 2, 3]), 4, of(values, 3), sentence);
    assert_eq!(map, before);
    assert_eq!((map.lent().pairs, map.lent().values), (&[1, 2, 3, 2][..], &[12, 0, 0, 2][..]));
}

#[test]
fn refusal_5_is_of_matrices() {
    let of = |log_d, count, slots| Refusal::Matrices { log_d, count, slots };
    refused(maps::sigma(4, 9), 5, of(9, 1, Some(4)), "log_d is 9: it must be from 0 to 8");
    let one = |_, _, _| 1;
    refused(maps::right_mul(4, 1, 0, one), 5, of(1, 0, Some(4)), "count is 0: it must be at least 1");
    let sentence = "count is 2 and d is 2: count * d * d must divide the 4 slots";
    refused(maps::left_jkls(4, 1, 2, one), 5, of(1, 2, Some(4)), sentence);
    let sentence = "count is 1 and d is 2: count * d * d must divide the 5 slots";
    refused(maps::left_mul_rep(5, 1, one), 5, of(1, 1, Some(5)), sentence);
    refused(maps::per_matrix_map(5, 1, |_, _| [(9, 9, 9)]), 5, of(1, 1, Some(5)), sentence);
    let sentence = "count is 65537 and d is 1: count * d * d must be at most 65536";
    refused(maps::tau_values(0, 65_537, one), 5, of(0, 65_537, None), sentence);
}

#[test]
fn refusal_6_is_of_a_shift() {
    let of = |k, least, most| Refusal::Shift { k, least, most };
    refused(maps::rows_lower(4, 1, 3), 6, of(3, 0, 2), "k is 3: the shift must be from 0 to 2");
    for rotate in [maps::rotate_rows, maps::rotate_cols] {
        refused(rotate(4, 1, 65_537), 6, of(65_537, 0, 65_536), "k is 65537: the shift must be from 0 to 65536");
        assert_eq!(rotate(4, 1, 65_536), rotate(4, 1, 0));
        assert_eq!(rotate(4, 1, 65_535), rotate(4, 1, 1));
    }
    refused(maps::rotate_rows_rep(16, 2, 4), 6, of(4, 1, 3), "k is 4: the shift must be from 1 to 3");
    refused(maps::rotate_rows_rep(1, 0, 1), 6, of(1, 1, 0), "k is 1: there is no shift of matrices of one row");
}

#[test]
fn refusal_7_is_of_a_length() {
    let of = |argument, length, wanted, multiple| Refusal::Length { argument, length, wanted, multiple };
    let input = of("the input", 3, 4, false);
    let sentence = "the input has length 3: it must be 4";
    refused(example().evaluate(&[1, 2, 3], Direct), 7, input.clone(), sentence);
    refused(example().evaluate_keyed(&[1, 2, 3], Direct, &[]), 7, input, sentence);
    let sentence = "out has length 3: it must be a multiple of 2";
    refused(rotate_slots_into(&[1, 2], 0, &mut [0; 3]), 7, of("out", 3, 2, true), sentence);
}

#[test]
fn refusal_8_is_of_a_term() {
    let of = |at, i, j, period, slots| Refusal::Term { at, i, j, period, slots };
    let sentence = "term 1 has i = 2 and j = 0: i must be below the period 2 and j below the 4 slots";
    refused(Diagonals::from_slot_map(4, 2, [(0, 0, 1), (2, 0, 1)]), 8, of(1, 2, 0, 2, 4), sentence);
    let sentence = "term 0 has i = 0 and j = 4: i must be below the period 2 and j below the 4 slots";
    refused(Diagonals::from_slot_map(4, 2, [(0, 4, 1)]), 8, of(0, 0, 4, 2, 4), sentence);
    let sentence = "term 1 has i = 0 and j = 4294967297: i must be below the period 2 and j below the 4 slots";
    let beyond = [(0, 0, 1), (0, (1 << 32) + 1, 1), (1 << 40, 0, 1)];
    refused(Diagonals::from_slot_map(4, 2, beyond), 8, of(1, 0, (1 << 32) + 1, 2, 4), sentence);
    let sentence = "term 3 has i = 3 and j = 6: i must be below the period 4 and j below the 4 slots";
    let terms = |r, c| [if (r, c) == (1, 1) { (3, 0, 1) } else { (r, c, 1) }];
    refused(maps::per_matrix_map(4, 1, terms), 8, of(3, 3, 6, 4, 4), sentence);
}

#[test]
fn refusal_9_is_of_a_baby() {
    let of = |baby, baby_step| Refusal::Baby { baby, baby_step };
    let sentence = "baby rotation 3: it must be from 0 to 65535 and a multiple of 2";
    refused(powers(2, 1, 16).baby_key_rotations([2, 3, -1]), 9, of(3, 2), sentence);
    let sentence = "baby rotation -1: it must be from 0 to 65535 and a multiple of 1";
    refused(BsgsRotations::PerRotation.baby_closure([-1]), 9, of(-1, 1), sentence);
    let sentence = "baby rotation 65536: it must be from 0 to 65535 and a multiple of 1";
    refused(BsgsRotations::PerRotation.baby_passes([65_536]), 9, of(65_536, 1), sentence);
}

#[test]
fn refusal_10_is_of_a_giant() {
    let of = |giant| Refusal::Giant { giant, giant_step: 4, slots: 16 };
    let sentence = "giant rotation -3: its residue modulo 16 must be a multiple of 4";
    refused(powers(1, 4, 16).giant_tree([-4, -3]), 10, of(-3), sentence);
    refused(powers(1, 4, 16).giant_key_rotations([-4, -3]), 10, of(-3), sentence);
    refused(powers(1, 4, 16).giant_key_switches([-4, -3]), 10, of(-3), sentence);
}

#[test]
fn refusal_11_is_of_a_key() {
    let refusal = Refusal::Key { rotation: 3, needed: 2, missing: 1 };
    let sentence = "the key for rotation 3 is not held: 1 of the plan's 2 are missing";
    refused(example().evaluate_keyed(&[1, 2, 3, 4], Direct, &[1, 2, u64::MAX]), 11, refusal, sentence);
    let refusal = Refusal::Key { rotation: 1, needed: 2, missing: 2 };
    let sentence = "the key for rotation 1 is not held: 2 of the plan's 2 are missing";
    refused(example().evaluate_keyed_up_to(&[1, 2, 3, 4], Direct, &[], 0), 11, refusal, sentence);
}

#[test]
fn refusal_12_is_of_room() {
    let mut out = [7; 3];
    let refusal = Refusal::Room { argument: "out", length: 3, wanted: 4 };
    let sentence = "out has length 3: the result needs 4";
    refused(example().evaluate_into(&[1, 2, 3, 4], Direct, &mut out), 12, refusal, sentence);
    assert_eq!(out, [7; 3]);
}

#[test]
fn refusal_13_is_of_a_file() {
    let file = example().write_map_file();
    let spoilt = |at: usize, byte: u8| {
        let mut bytes = file.clone();
        bytes[at] = byte;
        bytes
    };
    let longer = [&file[..], &[0]].concat();
    let faults = [
        (file[..7].to_vec(), FileFault::Short { length: 7, wanted: 8 }, "there are 7, and 8 are asked for"),
        (spoilt(0, 0), FileFault::Slots { slots: 0 }, "slots is 0: it must be from 1 to 65536"),
        (file[..23].to_vec(), FileFault::Short { length: 23, wanted: 24 }, "there are 23, and 24 are asked for"),
        (spoilt(8, 4), FileFault::Offset { at: 0, offset: 4, slots: 4 }, "offset 0 is 4: it must be below the 4 slots"),
        (
            spoilt(16, 1),
            FileFault::Order { at: 1, offset: 1, before: 1 },
            "offset 1 is 1: it must be above the one before it, 1",
        ),
        (
            spoilt(20, 3),
            FileFault::Length { at: 1, length: 3, slots: 4 },
            "length 1 is 3: it must be at least 1 and divide the 4 slots",
        ),
        (file[..55].to_vec(), FileFault::Short { length: 55, wanted: 56 }, "there are 55, and 56 are asked for"),
        (longer, FileFault::Long { length: 57, wanted: 56 }, "there are 57, and only 56 are asked for"),
    ];
    for (bytes, fault, sentence) in faults {
        let sentence = format!("the bytes are no map file: {sentence}");
        refused(Diagonals::read_map_file(&bytes), 13, Refusal::File { fault }, &sentence);
    }
}

const SLOTS: [usize; 6] = [0, 1, 12, MOST, MOST + 1, usize::MAX];
const NUMBERS: [usize; 6] = [0, 1, 3, MOST, MOST + 1, usize::MAX];
const INDEXES: [i64; 7] = [i64::MIN, i64::MIN + 1, -1, 0, 1, 65_536, i64::MAX];

/// The call is answered, or refused with a number of its documentation.
#[track_caller]
fn tried<T>(answer: Result<T, Refusal>, numbers: &[u32]) -> Option<T> {
    match answer {
        Ok(answer) => Some(answer),
        Err(refusal) if numbers.contains(&refusal.number()) => None,
        Err(refusal) => panic!("refused with {}, which is not of {numbers:?}: {refusal}", refusal.number()),
    }
}

fn strategies() -> impl Iterator<Item = LinearTransformationStrategy> {
    NUMBERS.into_iter().flat_map(|giant_step| [Bsgs { giant_step }, BsgsPowersOfTwo { giant_step }, Direct])
}

#[test]
fn maps_at_the_limits() {
    for slots in SLOTS {
        for (period, i, j) in
            NUMBERS.iter().flat_map(|&p| NUMBERS.iter().flat_map(move |&i| NUMBERS.map(|j| (p, i, j))))
        {
            tried(Diagonals::from_slot_map(slots, period, [(i, j, 1), (0, 0, 2)]), &[1, 4, 8]);
        }
        let Some(mut map) = tried(Diagonals::new(slots), &[1]) else { continue };
        for (index, n) in INDEXES.iter().flat_map(|&index| [0, 1, 2, slots, slots + 1].map(|n| (index, n))) {
            tried(map.set(index, vec![1; n]), &[4]);
            assert_eq!(map.get(index).map(<[u64]>::len), map.period(index));
        }
        map.shrink_period();
        map.transpose();
        assert_eq!(Diagonals::read_map_file(&map.write_map_file()), Ok(map.clone()));
        for (strategy, n) in strategies().flat_map(|strategy| [0, 1, slots].map(|n| (strategy, n))) {
            let input = vec![3; n];
            tried(map.evaluate(&input, strategy), &[3, 7]);
            tried(map.evaluate_into(&input, strategy, &mut vec![0; slots]), &[3, 7]);
        }
    }
}

#[test]
fn keyed_runs_at_the_limits() {
    for slots in [1, 2, 12, 4_096] {
        let mut map = Diagonals::new(slots).unwrap();
        for (place, index) in INDEXES.into_iter().enumerate() {
            for strategy in strategies() {
                let keys = map.layout(strategy).key_rotations().unwrap_or_default();
                for held in [&keys[..], &[], &[0, u64::MAX]] {
                    for n in [0, 1, u64::MAX] {
                        tried(map.evaluate_keyed_up_to(&vec![5; slots], strategy, held, n), &[3, 11]);
                        tried(map.evaluate_keyed_up_to(&[], strategy, held, n), &[3, 7]);
                    }
                }
            }
            map.set(index, vec![place as u64; slots]).unwrap();
        }
    }
}

#[test]
fn layouts_at_the_limits() {
    let all: Vec<i64> = (0..MOST as i64).collect();
    for indexes in [&[][..], &INDEXES, &[65_534, 65_535], &[65_535; 40], &all] {
        for (slots, strategy) in SLOTS.iter().flat_map(|&slots| strategies().map(move |strategy| (slots, strategy))) {
            let layout = LinearTransformationLayout { indexes: indexes.to_vec(), slots, strategy };
            tried(layout.index(), &[1, 3]);
            tried(layout.baby_steps(), &[1, 3]);
            tried(layout.key_rotations(), &[1, 3]);
            tried(layout.key_switches(), &[1, 3]);
            tried(layout.cost(), &[1, 3]);
        }
        for (slots, giant_step) in SLOTS.iter().flat_map(|&slots| NUMBERS.map(|giant_step| (slots, giant_step))) {
            tried(
                LinearTransformationLayout { indexes: indexes.to_vec(), slots, strategy: Direct }.plan(giant_step),
                &[1, 3],
            );
        }
    }
    for slots in SLOTS {
        tried(optimal_bsgs_giant_step([], slots), &[1]);
        tried(optimal_bsgs_giant_step(INDEXES, slots), &[1]);
    }
}

#[test]
fn rotations_at_the_limits() {
    let steps = [i64::MIN, -1, 0, 1, 3, 65_536, 65_537, i64::MAX];
    let rotations = steps.iter().flat_map(|&b| steps.iter().flat_map(move |&g| steps.map(|slots| powers(b, g, slots))));
    for rotations in rotations.chain([BsgsRotations::PerRotation]) {
        for list in [&[][..], &INDEXES, &[0], &[65_535], &[0, 65_535], &[3, 65_535, 3, 0]] {
            let list = || list.iter().copied();
            tried(rotations.baby_closure(list()), &[1, 3, 9]);
            tried(rotations.baby_passes(list()), &[1, 3, 9]);
            tried(rotations.baby_key_rotations(list()), &[1, 3, 9]);
            tried(rotations.giant_tree(list()), &[1, 3, 10]);
            tried(rotations.giant_key_rotations(list()), &[1, 3, 10]);
            tried(rotations.giant_key_switches(list()), &[1, 3, 10]);
        }
    }
}

#[test]
fn matrix_maps_at_the_limits() {
    let plain = [maps::sigma, maps::tau, maps::transpose, maps::tau_rep, maps::first_row, maps::first_col];
    let halves =
        [maps::rows_upper, maps::rows_lower, maps::cols_left, maps::cols_right, maps::rows_left, maps::rows_right];
    let shifts = [maps::rotate_rows, maps::rotate_cols, maps::rotate_rows_rep].into_iter().chain(halves);
    for slots in SLOTS {
        for log_d in [0, 1, 8, 9, 64, usize::MAX] {
            for map in plain {
                tried(map(slots, log_d), &[1, 5]);
            }
            for (map, k) in shifts.clone().flat_map(|map| [1, 257, 65_536, 65_537, usize::MAX].map(|k| (map, k))) {
                tried(map(slots, log_d, k), &[1, 5, 6]);
            }
            for far in [0, 1, usize::MAX] {
                let terms = |r, c| [(r, c, 1), if r + c == 0 { (far, far, 1) } else { (r, c, 2) }];
                tried(maps::per_matrix_map(slots, log_d, terms), &[1, 5, 8]);
            }
        }
    }
}

#[test]
fn products_at_the_limits() {
    let b = |s: usize, r: usize, c: usize| (s + 2 * r + 3 * c) as u64;
    for log_d in [0, 1, 8, 9, 64, usize::MAX] {
        for count in [0, 1, 2, MOST, usize::MAX] {
            for slots in SLOTS {
                tried(maps::right_mul(slots, log_d, count, b), &[1, 5]);
                tried(maps::left_mul(slots, log_d, count, b), &[1, 5]);
                tried(maps::right_jkls(slots, log_d, count, b), &[1, 5]);
                tried(maps::left_jkls(slots, log_d, count, b), &[1, 5]);
                tried(maps::left_mul_rep(slots, log_d, b), &[1, 5]);
            }
            tried(maps::tau_values(log_d, count, b), &[5]);
            tried(maps::sigma_values(log_d, count, b), &[5]);
        }
    }
    for (slots, rotation) in SLOTS.iter().flat_map(|&slots| INDEXES.map(|rotation| (slots, rotation))) {
        for n in [0, 1, 5, 12, MOST, MOST + 1] {
            tried(maps::slot_product(slots, &vec![1; n], rotation), &[1, 4]);
        }
    }
}

#[test]
fn periods_and_rotated_slots_at_the_limits() {
    for (a, b) in NUMBERS.iter().flat_map(|&a| NUMBERS.map(|b| (a, b))) {
        tried(period_lcm(a, b), &[3]);
    }
    for n in [0, 1, 3, MOST, MOST + 1] {
        let source: Vec<u64> = (0..n as u64).collect();
        tried(min_period(&source), &[3]);
        for (k, length) in INDEXES.iter().flat_map(|&k| [0, 1, n, 2 * n].map(|length| (k, length))) {
            tried(rotate_slots_into(&source, k, &mut vec![0; length]), &[3, 7]);
        }
    }
}
