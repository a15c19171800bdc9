//! The calls of the library on memory that the caller lends, as the header `include/sibukyaran.h` has them: nothing is
//! allocated, and an answer is its numbers, the refusal first (0 for none). A refused call leaves every lent word and record
//! as it was, and every other number of its answer is 0 or false. All `unsafe` of the crate is here.
//!
//! A call needs up to 581 KiB of stack (the best width), so a thread of 1 MiB is enough for each. Frames are touched page by
//! page, so that on a smaller stack a call ends the program and writes to no other memory.
//!
//! ```
//! use sibukyaran::lent;
//!
//! // Diagonal 1 of a map of 4 slots, [12, 0] over and over, in buffers that are longer.
//! let (mut pairs, mut values) = ([7; 4], [7; 8]);
//! let answer = lent::set(4, 0, &mut pairs, &mut values, 1, &[12, 0]);
//! assert_eq!((answer.refusal, answer.value), (0, 1));
//! assert_eq!((pairs, values), ([1, 2, 7, 7], [12, 0, 7, 7, 7, 7, 7, 7]));
//!
//! // Three values do not divide 4 slots: refused with 4, and nothing is changed.
//! assert_eq!(lent::set(4, 1, &mut pairs, &mut values, 2, &[1, 2, 3]).refusal, 4);
//! assert_eq!(pairs, [1, 2, 7, 7]);
//! ```

use std::num::Wrapping;

/// A refusal and a value.
#[repr(C)]
#[derive(Clone, Copy, PartialEq, Eq, Debug)]
pub struct Numbers {
    /// The number of the refusal, 0 for none.
    pub refusal: u32,
    /// What the call answers.
    pub value: usize,
}

/// A refusal and a truth.
#[repr(C)]
#[derive(Clone, Copy, PartialEq, Eq, Debug)]
pub struct Truth {
    /// The number of the refusal, 0 for none.
    pub refusal: u32,
    /// What the call answers.
    pub value: bool,
}

/// A refusal and a digit.
#[repr(C)]
#[derive(Clone, Copy, PartialEq, Eq, Debug)]
pub struct SignedDigit {
    /// The number of the refusal, 0 for none.
    pub refusal: u32,
    /// The digit.
    pub value: i64,
}

/// A refusal, and the numbers of babies, giants and diagonals of a plan.
#[repr(C)]
#[derive(Clone, Copy, PartialEq, Eq, Debug)]
pub struct PlanNumbers {
    /// The number of the refusal, 0 for none.
    pub refusal: u32,
    /// The number of babies.
    pub babies: u32,
    /// The number of giants.
    pub giants: u32,
    /// The number of diagonals.
    pub diagonals: u32,
}

/// A refusal, and the numbers of passes and moves.
#[repr(C)]
#[derive(Clone, Copy, PartialEq, Eq, Debug)]
pub struct PassNumbers {
    /// The number of the refusal, 0 for none.
    pub refusal: u32,
    /// The number of passes.
    pub passes: u32,
    /// The number of moves, all passes together.
    pub moves: usize,
}

/// A refusal, and the bits and the number of pairs of a tree; 0 too where there is no tree.
#[repr(C)]
#[derive(Clone, Copy, PartialEq, Eq, Debug)]
pub struct TreeNumbers {
    /// The number of the refusal, 0 for none.
    pub refusal: u32,
    /// The number of levels.
    pub bits: u32,
    /// The number of pairs, all levels together.
    pub pairs: usize,
}

/// A pair of a tree: the odd node, and whether node odd - 1 is there.
#[repr(C)]
#[derive(Clone, Copy, PartialEq, Eq, Debug, Default)]
pub struct PairRecord {
    /// The odd node.
    pub odd: u32,
    /// Whether node odd - 1 is there.
    pub even_there: bool,
}

/// A refusal, and the room that a file's map needs: words of pairs, and values.
#[repr(C)]
#[derive(Clone, Copy, PartialEq, Eq, Debug)]
pub struct FileRoomNumbers {
    /// The number of the refusal, 0 for none.
    pub refusal: u32,
    /// Words of pairs.
    pub pairs: usize,
    /// Words of values.
    pub values: usize,
}

/// A refusal, and the slots and the number of pairs of a map that was read.
#[repr(C)]
#[derive(Clone, Copy, PartialEq, Eq, Debug)]
pub struct FileMapNumbers {
    /// The number of the refusal, 0 for none.
    pub refusal: u32,
    /// The slots of the map.
    pub slots: usize,
    /// The number of its pairs.
    pub count: usize,
}

/// A refusal, and what a keyed run made: its switches, whether it finished, the plan's numbers and the tree's pairs.
#[repr(C)]
#[derive(Clone, Copy, PartialEq, Eq, Debug)]
pub struct KeyedNumbers {
    /// The number of the refusal, 0 for none.
    pub refusal: u32,
    /// The switches that were made.
    pub switches: usize,
    /// Whether they are all.
    pub finished: bool,
    /// The number of babies.
    pub babies: u32,
    /// The number of giants.
    pub giants: u32,
    /// The number of diagonals.
    pub diagonals: u32,
    /// The number of the tree's pairs.
    pub pairs: usize,
}

/// The kind of strategy `Bsgs`.
pub const BSGS: u32 = 0;
/// The kind of strategy `BsgsPowersOfTwo`.
pub const BSGS_POWERS_OF_TWO: u32 = 1;
/// The kind of strategy `Direct`, which has no giant step: any number stands for it.
pub const DIRECT: u32 = 2;

/// The kind of rotations that have a key each.
pub const PER_ROTATION: u32 = 0;
/// The kind of rotations by powers of two.
pub const POWERS_OF_TWO: u32 = 1;

/// A lent map: slots (1 to 65,536), the number of its pairs, pairs of words (diagonal offset, stored length) with offsets
/// rising strictly, and the values of the diagonals back to back. The buffers may be longer than the map. A map that is not
/// well formed is refused with 2.
#[derive(Clone, Copy, Debug)]
pub struct Map<'a> {
    /// The number of slots.
    pub slots: usize,
    /// The number of pairs.
    pub count: usize,
    /// Offset and stored length of each diagonal, and perhaps more words.
    pub pairs: &'a [u32],
    /// The stored values, and perhaps more words.
    pub values: &'a [u64],
}

/// Declares functions of the library and makes a safe one of each. An argument `x: &[T]` or `x: &mut [T]` is a pointer and a
/// count in C, and `map: Map` is the map's six.
macro_rules! library {
    ($($(#[$doc:meta])* fn $name:ident($($args:tt)*) -> $answer:ty;)*) => {
        $(library! { @ [$(#[$doc])* $name $answer] [] [] [] $($args)* })*
    };
    // The lists in brackets: what C takes, what the safe function takes, what it hands on.
    (@ $head:tt [$($c:tt)*] [$($safe:tt)*] [$($on:tt)*] $x:ident: &mut [$t:ty] $(, $($rest:tt)*)?) => {
        library! {
            @ $head [$($c)* a: *mut $t, n: usize,] [$($safe)* $x: &mut [$t],] [$($on)* $x.as_mut_ptr(), $x.len(),]
            $($($rest)*)?
        }
    };
    (@ $head:tt [$($c:tt)*] [$($safe:tt)*] [$($on:tt)*] $x:ident: &[$t:ty] $(, $($rest:tt)*)?) => {
        library! {
            @ $head [$($c)* a: *const $t, n: usize,] [$($safe)* $x: &[$t],] [$($on)* $x.as_ptr(), $x.len(),]
            $($($rest)*)?
        }
    };
    (@ $head:tt [] [] [] $x:ident: Map $(, $($rest:tt)*)?) => {
        library! {
            @ $head [a: usize, b: usize, c: *const u32, d: usize, e: *const u64, f: usize,] [$x: Map,]
            [$x.slots, $x.count, $x.pairs.as_ptr(), $x.pairs.len(), $x.values.as_ptr(), $x.values.len(),]
            $($($rest)*)?
        }
    };
    (@ $head:tt [$($c:tt)*] [$($safe:tt)*] [$($on:tt)*] $x:ident: $t:ty $(, $($rest:tt)*)?) => {
        library! { @ $head [$($c)* a: $t,] [$($safe)* $x: $t,] [$($on)* $x,] $($($rest)*)? }
    };
    (@ [$(#[$doc:meta])* $name:ident $answer:ty] [$($c:tt)*] [$($safe:tt)*] [$($on:tt)*]) => {
        $(#[$doc])*
        #[inline]
        // The arguments are the header's.
        #[allow(clippy::too_many_arguments)]
        pub fn $name($($safe)*) -> $answer {
            // SAFETY: the declaration is the header's and that of the function in the archive, which tests/bindings.rs
            // holds to each other.
            unsafe extern "C" {
                #[link_name = concat!("sibukyaran_", stringify!($name))]
                fn call($($c)*) -> $answer;
            }
            // SAFETY: each pointer is that of a slice, beside the slice's length, and both are borrowed for as long as the
            // call lasts. What is written is borrowed by `&mut`, so it overlaps nothing else that is lent. The library
            // reads and writes inside these slices alone, for all arguments, and what it writes and answers is of the
            // declared types, a `bool` being 0 or 1: that is proved.
            unsafe { call($($on)*) }
        }
    };
}

library! {
    /// `a * b` modulo 2^64.
    fn wrapping_mul(a: u64, b: u64) -> u64;

    /// `out[i] += a[i] * b[i]` modulo 2^64. 7: the three lengths differ.
    fn multiply_add_into(a: &[u64], b: &[u64], out: &mut [u64]) -> u32;

    /// The least non-negative residue of x modulo m; 0 where m is 0.
    fn residue(x: i64, m: u32) -> u32;

    /// The greatest common divisor.
    fn gcd(a: u32, b: u32) -> u32;

    /// The least common multiple. 3: an argument is outside 1..65536.
    fn period_lcm(a: usize, b: usize) -> Numbers;

    /// The smallest p dividing v's length with `v[t] = v[t mod p]` for every t. 3: the length is outside 1..65536.
    fn min_period(v: &[u64]) -> Numbers;

    /// The number of pairs of the empty map, 0.
    fn new(slots: usize) -> Numbers;

    /// 1 or 2 where the map would be refused, else 0.
    fn map_refusal(map: Map) -> u32;

    /// Whether the map stores no diagonal.
    fn is_empty(map: Map) -> Truth;

    /// The offsets into out; the value is their number.
    fn indexes(map: Map, out: &mut [u32]) -> Numbers;

    /// The stored length of the diagonal at an index, 0 where it is absent.
    fn period(map: Map, index: i64) -> Numbers;

    /// One period of the diagonal at an index into out; the value is its length, 0 where it is absent.
    fn get_into(map: Map, index: i64, out: &mut [u64]) -> Numbers;

    /// Replaces or inserts the diagonal at an index; the value is the new number of pairs. 4: a length that is 0 or
    /// does not divide slots.
    fn set(
        slots: usize,
        count: usize,
        pairs: &mut [u32],
        values: &mut [u64],
        index: i64,
        new_values: &[u64],
    ) -> Numbers;

    /// The map whose output i + q*period sums `w * input[(j + q*period) mod slots]` over the terms (i, j, w). 4: the
    /// period is 0 or does not divide slots. 7: the lists differ in length. 8: a term has i >= period or j >= slots.
    fn from_slot_map(
        slots: usize,
        period: usize,
        is: &[u32],
        js: &[u32],
        ws: &[u64],
        pairs: &mut [u32],
        values: &mut [u64],
    ) -> Numbers;

    /// `out[j] = src[(j + k) mod length of src]`. 3: src's length is outside 1..65536. 7: out's is no multiple of it.
    fn rotate_slots_into(src: &[u64], k: i64, out: &mut [u64]) -> u32;

    /// Every diagonal at the least common multiple of their smallest periods, into a second map.
    fn shrink_period(map: Map, pairs_out: &mut [u32], values_out: &mut [u64]) -> Numbers;

    /// The transposed matrix, into a second map.
    fn transpose(map: Map, pairs_out: &mut [u32], values_out: &mut [u64]) -> Numbers;

    /// The number of bytes of a map's file. 1, 2: the map is refused.
    fn map_file_size(map: Map) -> Numbers;

    /// The file of a map into out; the value is the number of its bytes. 1, 2: the map is refused.
    fn write_map_file(map: Map, out: &mut [u8]) -> Numbers;

    /// The room that the map of a file needs.
    fn map_file_room(bytes: &[u8]) -> FileRoomNumbers;

    /// The map of a file into pairs and values.
    fn read_map_file(bytes: &[u8], pairs: &mut [u32], values: &mut [u64]) -> FileMapNumbers;

    /// The product of a map and an input into the first slots words of out, the same for each strategy. 3: the giant step
    /// is outside 1..65536, or the strategy's kind is none. 7: the input is not slots long.
    fn evaluate(map: Map, input: &[u64], strategy: u32, giant_step: usize, out: &mut [u64]) -> u32;

    /// The same product by key switches alone, each a rotation whose key is held, stopped after n of them.
    ///
    /// With B babies, G giants and D diagonals: plan, of B + 3G + D words, and records, one for each pair of the tree, are
    /// written in full for every n. cache, of (B - 1) slots words, nodes, of G slots, log, with a word for each switch of
    /// the plan, and out, of slots, hold what the machine leaves after n switches; words that it has not written, and those
    /// behind a result, are kept. 3 and 7: as for [`evaluate`]. 11: a key rotation of the plan is not on the held list.
    fn evaluate_keyed(
        map: Map,
        input: &[u64],
        strategy: u32,
        giant_step: usize,
        held: &[u64],
        n: u64,
        plan: &mut [u32],
        records: &mut [PairRecord],
        cache: &mut [u64],
        nodes: &mut [u64],
        log: &mut [u32],
        out: &mut [u64],
    ) -> KeyedNumbers;

    /// The residue of a diagonal index modulo slots. 1: slots.
    fn normalize_linear_transform_diagonal(diagonal: i64, slots: usize) -> Numbers;

    /// k of the baby rotation k * baby_step. 3: the step. 9: the baby is negative, above 65535 or no multiple of the
    /// step.
    fn baby_multiple(baby: i64, baby_step: usize) -> Numbers;

    /// j of the giant rotation j * giant_step; where the step divides slots, the j of least magnitude, half the
    /// period being negative. 1: slots. 3: the step. 10: the rotation's residue is no multiple of the step.
    fn giant_digit(rot: i64, giant_step: usize, slots: usize) -> SignedDigit;

    /// The plan of a list of diagonal indexes, of any order, with repeats, any of a residue's numbers: babies,
    /// giants, a pair (start, length) a giant, and the index that the pairs point into, back to back in plan.  1:
    /// slots. 3: the giant step. 12: plan is shorter than babies + 3 * giants + diagonals words.
    fn linear_transformation_plan(indexes: &[i64], slots: usize, giant_step: usize, plan: &mut [u32]) -> PlanNumbers;

    /// The same by a strategy: with powers of two the babies are closed under clearing top bits.
    fn linear_transform_index(
        indexes: &[i64],
        slots: usize,
        strategy: u32,
        giant_step: usize,
        plan: &mut [u32],
    ) -> PlanNumbers;

    /// The plan's babies alone.
    fn baby_steps(indexes: &[i64], slots: usize, strategy: u32, giant_step: usize, out: &mut [u32]) -> Numbers;

    /// The baby step of the plan with powers of two: the greatest common divisor of the babies, or 1 if that is 0.
    fn baby_step(indexes: &[i64], slots: usize, giant_step: usize) -> Numbers;

    /// The rotations that a run of the plan needs keys for: of the babies, then of the giants.
    fn plan_key_rotations(
        indexes: &[i64],
        slots: usize,
        strategy: u32,
        giant_step: usize,
        out: &mut [u32],
    ) -> Numbers;

    /// The number of key switches that a run of the plan makes.
    fn plan_key_switches(indexes: &[i64], slots: usize, strategy: u32, giant_step: usize) -> Numbers;

    /// The best width: of the multiples of the smallest gap below slots, the largest of least cost. 1: slots.
    fn optimal_bsgs_giant_step(indexes: &[i64], slots: usize) -> Numbers;

    /// The babies, sorted and distinct, and with powers of two what is met by clearing top bits of their multiples.
    fn baby_closure(
        rotations: u32,
        baby_step: usize,
        giant_step: usize,
        slots: usize,
        babies: &[i64],
        out: &mut [u32],
    ) -> Numbers;

    /// The passes over the babies, in their order: a pass is three words (rotation, number of moves, least word
    /// first), a move two (source, target). None per rotation.
    fn baby_passes(
        rotations: u32,
        baby_step: usize,
        giant_step: usize,
        slots: usize,
        babies: &[i64],
        passes: &mut [u32],
        moves: &mut [u32],
    ) -> PassNumbers;

    /// The rotations that the babies need keys for: those that are not 0, or the passes of their closure.
    fn baby_key_rotations(
        rotations: u32,
        baby_step: usize,
        giant_step: usize,
        slots: usize,
        babies: &[i64],
        out: &mut [u32],
    ) -> Numbers;

    /// The tree over the giants: a leaf a giant, two words (rotation, number of pairs) a level, a record a pair,
    /// level after level. records_len counts records; those behind the tree's are kept. Per rotation there is none,
    /// and nothing is written.
    fn giant_tree(
        rotations: u32,
        baby_step: usize,
        giant_step: usize,
        slots: usize,
        giants: &[i64],
        leaves: &mut [u32],
        levels: &mut [u32],
        records: &mut [PairRecord],
    ) -> TreeNumbers;

    /// The rotations of the tree's levels that have pairs; none per rotation.
    fn giant_key_rotations(
        rotations: u32,
        baby_step: usize,
        giant_step: usize,
        slots: usize,
        giants: &[i64],
        out: &mut [u32],
    ) -> Numbers;

    /// The pairs of all levels; per rotation the giants that are not 0.
    fn giant_key_switches(
        rotations: u32,
        baby_step: usize,
        giant_step: usize,
        slots: usize,
        giants: &[i64],
    ) -> Numbers;

    /// JKLS sigma: output (r, c) reads (r, r + c mod d).
    fn sigma(slots: usize, log_d: usize, pairs: &mut [u32], values: &mut [u64]) -> Numbers;

    /// JKLS tau: output (r, c) reads (r + c mod d, c).
    fn tau(slots: usize, log_d: usize, pairs: &mut [u32], values: &mut [u64]) -> Numbers;

    /// Output (r, c) reads (c, r).
    fn transpose_matrices(slots: usize, log_d: usize, pairs: &mut [u32], values: &mut [u64]) -> Numbers;

    /// JKLS psi^k: output (r, c) reads (r + k mod d, c). 6: k is above 65,536.
    fn rotate_rows(slots: usize, log_d: usize, k: usize, pairs: &mut [u32], values: &mut [u64]) -> Numbers;

    /// JKLS phi^k: output (r, c) reads (r, c + k mod d). 6: k is above 65,536.
    fn rotate_cols(slots: usize, log_d: usize, k: usize, pairs: &mut [u32], values: &mut [u64]) -> Numbers;

    /// Output (r, c) reads (r + k, c) where r + k < d, else 0.
    fn rows_upper(slots: usize, log_d: usize, k: usize, pairs: &mut [u32], values: &mut [u64]) -> Numbers;

    /// Output (r, c) reads (r + k - d, c) where r + k >= d, else 0.
    fn rows_lower(slots: usize, log_d: usize, k: usize, pairs: &mut [u32], values: &mut [u64]) -> Numbers;

    /// Output (r, c) reads (r, c + k) where c + k < d, else 0.
    fn cols_left(slots: usize, log_d: usize, k: usize, pairs: &mut [u32], values: &mut [u64]) -> Numbers;

    /// Output (r, c) reads (r, c + k - d) where c + k >= d, else 0.
    fn cols_right(slots: usize, log_d: usize, k: usize, pairs: &mut [u32], values: &mut [u64]) -> Numbers;

    /// Output (r, c) reads (r + k mod d, c) where c + k < d, else 0.
    fn rows_left(slots: usize, log_d: usize, k: usize, pairs: &mut [u32], values: &mut [u64]) -> Numbers;

    /// Output (r, c) reads (r + k mod d, c) where c + k >= d, else 0.
    fn rows_right(slots: usize, log_d: usize, k: usize, pairs: &mut [u32], values: &mut [u64]) -> Numbers;

    /// The slot map of the terms (i, j, w) at period d * d, shrunk.
    fn per_matrix_map(
        slots: usize,
        log_d: usize,
        is: &[u32],
        js: &[u32],
        ws: &[u64],
        pairs: &mut [u32],
        values: &mut [u64],
    ) -> Numbers;

    /// tau on an input that repeats every d * d slots: a diagonal at each c * d, the mask of column c.
    fn tau_rep(slots: usize, log_d: usize, pairs: &mut [u32], values: &mut [u64]) -> Numbers;

    /// rotate_rows on such an input: one diagonal at k * d. 6: k is not in 1..d-1.
    fn rotate_rows_rep(slots: usize, log_d: usize, k: usize, pairs: &mut [u32], values: &mut [u64]) -> Numbers;

    /// Output (r, c) reads (r, c) where r is 0, else 0.
    fn first_row(slots: usize, log_d: usize, pairs: &mut [u32], values: &mut [u64]) -> Numbers;

    /// Output (r, c) reads (r, c) where c is 0, else 0.
    fn first_col(slots: usize, log_d: usize, pairs: &mut [u32], values: &mut [u64]) -> Numbers;

    /// Products by public matrices b, count of them row after row, of which matrix slot s has number s mod count.
    /// Output (r, c) is the sum of in(r, l) * b(l, c).
    fn right_mul(
        slots: usize,
        log_d: usize,
        count: usize,
        b: &[u64],
        pairs: &mut [u32],
        values: &mut [u64],
    ) -> Numbers;

    /// Output (r, c) is the sum of b(r, l) * in(l, c).
    fn left_mul(
        slots: usize,
        log_d: usize,
        count: usize,
        b: &[u64],
        pairs: &mut [u32],
        values: &mut [u64],
    ) -> Numbers;

    /// Stage 2 of the right product, on the product of sigma.
    fn right_jkls(
        slots: usize,
        log_d: usize,
        count: usize,
        b: &[u64],
        pairs: &mut [u32],
        values: &mut [u64],
    ) -> Numbers;

    /// Stage 2 of the left product, on the product of tau.
    fn left_jkls(
        slots: usize,
        log_d: usize,
        count: usize,
        b: &[u64],
        pairs: &mut [u32],
        values: &mut [u64],
    ) -> Numbers;

    /// left_mul of one matrix on an input that repeats every d * d slots.
    fn left_mul_rep(slots: usize, log_d: usize, b: &[u64], pairs: &mut [u32], values: &mut [u64]) -> Numbers;

    /// The product by the slot vector v rotated: one diagonal at offset 0. 1: slots. 4: v's length is 0 or does not
    /// divide slots.
    fn slot_product(slots: usize, v: &[u64], rotation: i64, pairs: &mut [u32], values: &mut [u64]) -> Numbers;

    /// Tau of public matrices, count * d * d words: entry (r, c) is b(r + c mod d, c). 5: log_d is above 8, count is 0, or
    /// count * d * d exceeds 65536. 7: b is not count * d * d words.
    fn tau_values(log_d: usize, count: usize, b: &[u64], out: &mut [u64]) -> Numbers;

    /// Sigma of public matrices, as [`tau_values`]: entry (r, c) is b(r, r + c mod d).
    fn sigma_values(log_d: usize, count: usize, b: &[u64], out: &mut [u64]) -> Numbers;
}

/// Words as slots modulo 2^64 in the standard library's type.
pub(crate) fn wrapping(words: &[u64]) -> &[Wrapping<u64>] {
    // SAFETY: `Wrapping<u64>` is `repr(transparent)` over `u64`, so a slice of either is one of the other, of the same
    // length and lifetime.
    unsafe { std::slice::from_raw_parts(words.as_ptr().cast(), words.len()) }
}
