include!("../assemble.rs");

fn main() {
    assemble(&[
        Part {
            module: "linear_transformation",
            file: "poulpy-core/src/layouts/linear_transformation.rs",
            appended: "
pub fn call_gcd_i64(a: i64, b: i64) -> i64 {
    gcd_i64(a, b)
}
pub fn call_normalize_linear_transform_diagonal(diagonal: i64, slots: usize) -> usize {
    normalize_linear_transform_diagonal(diagonal, slots)
}
pub fn call_baby_multiple(baby: i64, baby_step: i64) -> i64 {
    baby_multiple(baby, baby_step)
}
pub fn call_giant_digit(rot: i64, giant_step: i64, slots: i64) -> i64 {
    giant_digit(rot, giant_step, slots)
}
pub fn call_linear_transformation_plan(indexes: &[i64], slots: usize, giant_step: usize) -> LinearTransformationPlan {
    linear_transformation_plan(indexes.iter().copied(), slots, giant_step)
}
pub fn call_linear_transform_index(
    indexes: &[i64],
    slots: usize,
    strategy: LinearTransformationStrategy,
) -> LinearTransformationPlan {
    linear_transform_index(indexes.iter().copied(), slots, strategy)
}
pub fn call_baby_closure(rotations: BsgsRotations, babies: &[i64]) -> Vec<i64> {
    rotations.baby_closure(babies.iter().copied())
}
pub fn call_baby_passes(rotations: BsgsRotations, babies: &[i64]) -> Vec<(i64, Vec<(i64, i64)>)> {
    rotations.baby_passes(babies.iter().copied())
}
/// The leaves, and each level's rotation and pairs (even, odd).
pub type GiantTree = (Vec<usize>, Vec<(i64, Vec<(Option<usize>, usize)>)>);
pub fn call_giant_tree(rotations: BsgsRotations, giants: &[i64]) -> Option<GiantTree> {
    let (leaves, levels) = rotations.giant_tree(giants.iter().copied())?;
    Some((leaves, levels.into_iter().map(|level| (level.rot, level.pairs)).collect()))
}
",
        },
        Part {
            module: "diagonals",
            file: "poulpy-core/src/layouts/diagonals.rs",
            appended: "
pub fn call_min_period<T: PartialEq>(v: &[T]) -> usize {
    min_period(v)
}
",
        },
    ]);
}
