//! Calls that are refused, where a map of their terms would take 32 GiB: none is made room for.

use sibukyaran::{Diagonals, maps};

#[test]
fn refused_terms_take_no_room() {
    let map = Diagonals::from_slot_map(65_535, 65_534, (0..65_534).map(|i| (i, 0, 1)));
    assert_eq!(map.unwrap_err().number(), 4);
    let map = Diagonals::from_slot_map(65_536, 65_536, (0..65_536).map(|i| (i, 65_536, 1)));
    assert_eq!(map.unwrap_err().number(), 8);
    assert_eq!(maps::per_matrix_map(65_535, 8, |_, _| [(0, 0, 1)]).unwrap_err().number(), 5);
    assert_eq!(maps::per_matrix_map(65_536, 8, |_, _| [(256, 0, 1)]).unwrap_err().number(), 8);
}
