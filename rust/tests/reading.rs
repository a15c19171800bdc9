//! What an owned map shows, beside the library's own reading of its words.

use sibukyaran::{Diagonals, lent};

/// Numbers that are the same in every run (SplitMix64).
fn next(state: &mut u64) -> u64 {
    *state = state.wrapping_add(0x9e37_79b9_7f4a_7c15);
    let z = (*state ^ (*state >> 30)).wrapping_mul(0xbf58_476d_1ce4_e5b9);
    let z = (z ^ (z >> 27)).wrapping_mul(0x94d0_49bb_1331_11eb);
    z ^ (z >> 31)
}

/// One period of the diagonal at an index, as the library reads it; none where it is absent.
fn read(map: &Diagonals, index: i64) -> Option<Vec<u64>> {
    let mut out = vec![0; map.slots()];
    let answer = lent::get_into(map.lent(), index, &mut out);
    assert_eq!(answer.refusal, 0);
    out.truncate(answer.value);
    Some(out).filter(|values| !values.is_empty())
}

/// Each reader of the map, at each stored offset and at these indexes.
fn check(map: &Diagonals, indexes: &[i64]) {
    assert_eq!(lent::map_refusal(map.lent()), 0);
    let told: Vec<(i64, Option<Vec<u64>>)> = map.iter().map(|(k, values)| (k as i64, Some(values.to_vec()))).collect();
    let right: Vec<_> = map.indexes().into_iter().map(|k| (k, read(map, k))).collect();
    assert_eq!(told, right);
    assert_eq!((map.count(), map.is_empty()), (right.len(), right.is_empty()));
    for &index in indexes {
        let right = read(map, index);
        assert_eq!(map.get(index).map(<[u64]>::to_vec), right, "{index}");
        assert_eq!(map.period(index), right.map(|values| values.len()), "{index}");
    }
}

#[test]
fn maps_are_read_as_the_library_reads_them() {
    let mut state = 91;
    for slots in [1usize, 2, 6, 12, 60, 1_024, 65_536] {
        let divisors: Vec<usize> = (1..=slots).filter(|n| slots.is_multiple_of(*n)).collect();
        let mut map = Diagonals::new(slots).unwrap();
        check(&map, &[0, -1, i64::MIN]);
        for _ in 0..24 {
            let length = divisors[next(&mut state) as usize % divisors.len()];
            // Half of them near 0, so that some are set again at another length.
            let near = next(&mut state).is_multiple_of(2);
            let index = next(&mut state) as i64 >> if near { 60 } else { 1 };
            map.set(index, (0..length).map(|_| next(&mut state)).collect::<Vec<u64>>()).unwrap();
            let turn = slots as i64;
            check(&map, &[index, index - turn, index + turn, index + 1, next(&mut state) as i64, i64::MIN, i64::MAX]);
        }
        map.transpose();
        check(&map, &[0, 1, -1]);
        map.shrink_period();
        check(&map, &[0, 1, -1]);
    }
}

#[test]
fn a_copy_of_lent_words_is_the_map_without_what_stands_behind_it() {
    let map = Diagonals::from_slot_map(4, 2, [(0, 1, 12), (1, 0, 2)]).unwrap();
    let (pairs, values) = ([map.lent().pairs, &[9, 9, 9]].concat(), [map.lent().values, &[9]].concat());
    let lent = lent::Map { slots: 4, count: 2, pairs: &pairs, values: &values };
    assert_eq!(Diagonals::from_lent(lent), Ok(map));
}
