//! The one name that the reference uses of this crate. Its callers are never run.

pub mod layouts {
    pub fn galois_elements_from_rotations(_rotations: impl IntoIterator<Item = i64>, _cyclotomic_order: i64) -> Vec<i64> {
        unimplemented!("Galois elements are not part of what is compared")
    }
}
