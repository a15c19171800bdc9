//! How a plan's rotations are reached: closures, passes and trees.

use crate::lent::{self, Numbers, PairRecord};
use crate::plans::signed;
use crate::refusal::{MOST, Refusal, is_outside, unexpected};

/// How the baby and giant rotations are reached.
#[derive(Clone, Copy, PartialEq, Eq, Debug, Default)]
pub enum BsgsRotations {
    /// Each rotation has its own key.
    #[default]
    PerRotation,
    /// Only the powers of two of the two steps have keys. The baby k·baby_step is made from the one with the top bit of k
    /// cleared, and the giants are summed as a tree over the bits of their digits.
    PowersOfTwo {
        /// Every baby is a multiple of it.
        baby_step: i64,
        /// Every giant is a multiple of it.
        giant_step: i64,
        /// The modulus of the rotations.
        slots: i64,
    },
}

/// One level of a tree.
#[derive(Clone, PartialEq, Eq, Debug)]
pub struct GiantTreeLevel {
    /// The rotation of the level.
    pub rot: i64,
    /// The pairs (even, odd), odd rising: node odd rotated is added to node even, which may not be there.
    pub pairs: Vec<(Option<usize>, usize)>,
}

/// The moves (source, target) of a pass, and its rotation.
pub type BabyPass = (i64, Vec<(i64, i64)>);

/// The leaf of each giant, and the levels upward.
pub type GiantTree = (Vec<usize>, Vec<GiantTreeLevel>);

/// A call that writes a list for one of babies or giants: the rotations' numbers, the list, and where.
type Listing = fn(u32, usize, usize, usize, &[i64], &mut [u32]) -> Numbers;

/// A step or slots as the library takes it: one that is negative is refused as 0 is.
fn size(n: i64) -> usize {
    usize::try_from(n).unwrap_or(0)
}

impl PairRecord {
    /// The pair (even, odd).
    pub fn nodes(self) -> (Option<usize>, usize) {
        let odd = self.odd as usize;
        (self.even_there.then(|| odd - 1), odd)
    }
}

impl BsgsRotations {
    /// The kind, the two steps and slots, as the calls on lent memory take them.
    pub fn numbers(self) -> (u32, usize, usize, usize) {
        match self {
            Self::PerRotation => (lent::PER_ROTATION, 0, 0, 0),
            Self::PowersOfTwo { baby_step, giant_step, slots } => {
                (lent::POWERS_OF_TWO, size(baby_step), size(giant_step), size(slots))
            }
        }
    }

    /// What a number of the library is about, for a list of babies or giants.
    fn refused(self, number: u32, list: &[i64]) -> Refusal {
        let first = |is_bad: &dyn Fn(i64) -> bool| {
            list.iter().copied().find(|&k| is_bad(k)).unwrap_or_else(|| unexpected(number))
        };
        let is_baby = |k: i64| (0..MOST as i64).contains(&k);
        match (number, self) {
            (1, Self::PowersOfTwo { slots, .. }) => Refusal::Slots { slots: slots.into() },
            (3, Self::PowersOfTwo { baby_step, giant_step, .. }) => {
                let steps = [("the baby step", baby_step), ("the giant step", giant_step)];
                let (argument, value) = if is_outside(size(baby_step)) { steps[0] } else { steps[1] };
                Refusal::OutOfRange { argument, value: value.into() }
            }
            (9, Self::PerRotation) => Refusal::Baby { baby: first(&|k| !is_baby(k)), baby_step: 1 },
            (9, Self::PowersOfTwo { baby_step, .. }) => {
                let baby = first(&|k| !is_baby(k) || k % baby_step != 0);
                Refusal::Baby { baby, baby_step: size(baby_step) }
            }
            (10, Self::PowersOfTwo { giant_step, slots, .. }) => {
                let (giant_step, slots) = (size(giant_step), size(slots));
                let giant = first(&|k| lent::giant_digit(k, giant_step, slots).refusal == 10);
                Refusal::Giant { giant, giant_step, slots }
            }
            _ => unexpected(number),
        }
    }

    /// The list that a call writes.
    fn listed(self, list: &[i64], room: usize, call: Listing) -> Result<Vec<i64>, Refusal> {
        let (kind, baby_step, giant_step, slots) = self.numbers();
        let mut out = vec![0; room];
        match call(kind, baby_step, giant_step, slots, list, &mut out) {
            Numbers { refusal: 0, value } => Ok(signed(&out[..value])),
            Numbers { refusal, .. } => Err(self.refused(refusal, list)),
        }
    }

    /// The babies, sorted and distinct, and with powers of two all that clearing top bits of their multiples meets.
    /// Refused with 1, 3, 9.
    pub fn baby_closure(&self, babies: impl IntoIterator<Item = i64>) -> Result<Vec<i64>, Refusal> {
        let babies: Vec<i64> = babies.into_iter().collect();
        self.listed(&babies, (16 * babies.len()).min(MOST), lent::baby_closure)
    }

    /// The passes over babies, which make each from one with its top bit cleared; none per rotation. Refused with 1, 3, 9.
    pub fn baby_passes(&self, babies: impl IntoIterator<Item = i64>) -> Result<Vec<BabyPass>, Refusal> {
        let babies: Vec<i64> = babies.into_iter().collect();
        let (kind, baby_step, giant_step, slots) = self.numbers();
        // A pass is three words, a move two; a top bit is below 2^16.
        let (mut passes, mut moves) = (vec![0; 3 * 16], vec![0; 2 * babies.len()]);
        let answer = lent::baby_passes(kind, baby_step, giant_step, slots, &babies, &mut passes, &mut moves);
        if answer.refusal != 0 {
            return Err(self.refused(answer.refusal, &babies));
        }
        let mut rest = moves.chunks_exact(2).map(|two| (two[0].into(), two[1].into()));
        let told = passes.chunks_exact(3).take(answer.passes as usize).map(|pass| {
            let count = pass[1] as usize + ((pass[2] as usize) << 32);
            (pass[0].into(), rest.by_ref().take(count).collect())
        });
        Ok(told.collect())
    }

    /// The rotations that the babies need keys for. Refused with 1, 3, 9.
    pub fn baby_key_rotations(&self, babies: impl IntoIterator<Item = i64>) -> Result<Vec<i64>, Refusal> {
        let babies: Vec<i64> = babies.into_iter().collect();
        self.listed(&babies, babies.len().max(16), lent::baby_key_rotations)
    }

    /// The tree over the giants; none per rotation. Refused with 1, 3, 10.
    pub fn giant_tree(&self, giants: impl IntoIterator<Item = i64>) -> Result<Option<GiantTree>, Refusal> {
        let giants: Vec<i64> = giants.into_iter().collect();
        let (kind, baby_step, giant_step, slots) = self.numbers();
        // Per rotation these count giants, and there is no tree.
        let mut records = vec![PairRecord::default(); self.switches_of(&giants)?];
        let (mut leaves, mut levels) = (vec![0; giants.len()], [0; 2 * 16]);
        let answer =
            lent::giant_tree(kind, baby_step, giant_step, slots, &giants, &mut leaves, &mut levels, &mut records);
        if answer.refusal != 0 {
            return Err(self.refused(answer.refusal, &giants));
        }
        if kind == lent::PER_ROTATION {
            return Ok(None);
        }
        let mut rest = records.into_iter().map(PairRecord::nodes);
        let levels = levels.chunks_exact(2).take(answer.bits as usize).map(|level| GiantTreeLevel {
            rot: level[0].into(),
            pairs: rest.by_ref().take(level[1] as usize).collect(),
        });
        Ok(Some((leaves.into_iter().map(|leaf| leaf as usize).collect(), levels.collect())))
    }

    /// The rotations of the tree's levels that have pairs; none per rotation. Refused with 1, 3, 10.
    pub fn giant_key_rotations(&self, giants: impl IntoIterator<Item = i64>) -> Result<Vec<i64>, Refusal> {
        let giants: Vec<i64> = giants.into_iter().collect();
        self.listed(&giants, 16, lent::giant_key_rotations)
    }

    /// The pairs of all levels; per rotation the giants that are not 0. Refused with 1, 3, 10.
    pub fn giant_key_switches(&self, giants: impl IntoIterator<Item = i64>) -> Result<usize, Refusal> {
        self.switches_of(&giants.into_iter().collect::<Vec<i64>>())
    }

    fn switches_of(self, giants: &[i64]) -> Result<usize, Refusal> {
        let (kind, baby_step, giant_step, slots) = self.numbers();
        match lent::giant_key_switches(kind, baby_step, giant_step, slots, giants) {
            Numbers { refusal: 0, value } => Ok(value),
            Numbers { refusal, .. } => Err(self.refused(refusal, giants)),
        }
    }
}
