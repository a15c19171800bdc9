//! Strategies, plans, their keys, and the best width.

use crate::lent::{self, Numbers, PlanNumbers};
use crate::refusal::{MOST, Refusal, unexpected};
use crate::rotations::BsgsRotations;

/// How the diagonals of a map are split into baby and giant rotations.
#[derive(Clone, Copy, PartialEq, Eq, Debug)]
pub enum LinearTransformationStrategy {
    /// Diagonal k is read by the baby k mod width and the giant that is left of k, each with a key of its own.
    Bsgs {
        /// The width.
        giant_step: usize,
    },
    /// The same babies and giants, reached with the keys of powers of two alone.
    BsgsPowersOfTwo {
        /// The width.
        giant_step: usize,
    },
    /// One giant for each diagonal, and no babies.
    Direct,
}

impl LinearTransformationStrategy {
    /// The kind and the giant step, as the calls on lent memory take them.
    pub fn numbers(self) -> (u32, usize) {
        match self {
            Self::Bsgs { giant_step } => (lent::BSGS, giant_step),
            Self::BsgsPowersOfTwo { giant_step } => (lent::BSGS_POWERS_OF_TWO, giant_step),
            Self::Direct => (lent::DIRECT, 0),
        }
    }

    /// Refusal 3.
    pub(crate) fn refused(self) -> Refusal {
        Refusal::out_of_range("the giant step", self.numbers().1)
    }
}

/// What a plan is made of: diagonal indexes in any order, with repeats, each any number of its residue; slots; a strategy.
///
/// ```
/// use sibukyaran::{LinearTransformationLayout, LinearTransformationStrategy::BsgsPowersOfTwo, Refusal};
///
/// let strategy = BsgsPowersOfTwo { giant_step: 4 };
/// let layout = LinearTransformationLayout { indexes: vec![0, 1, 2, 5, -1], slots: 16, strategy };
/// let plan = layout.index()?;
/// assert_eq!(plan.baby_steps, [0, 1, 2, 3]);
/// assert_eq!(plan.giant_steps, [0, 4, 12]);
/// assert_eq!(plan.index, [vec![0, 1, 2], vec![1], vec![3]]);
/// assert_eq!(layout.key_rotations()?, [1, 2, 4, 8]);
/// assert_eq!(layout.key_switches()?, 6);
/// # Ok::<(), Refusal>(())
/// ```
#[derive(Clone, PartialEq, Eq, Debug)]
pub struct LinearTransformationLayout {
    /// The diagonal indexes.
    pub indexes: Vec<i64>,
    /// The slots.
    pub slots: usize,
    /// The strategy.
    pub strategy: LinearTransformationStrategy,
}

/// A plan: diagonal `giant_steps[g] + k` is read by the baby rotation k, for each k of `index[g]`, and then by the giant's.
#[derive(Clone, PartialEq, Eq, Debug, Default)]
pub struct LinearTransformationPlan {
    /// The baby rotations, rising, always with 0; with powers of two closed under clearing top bits.
    pub baby_steps: Vec<i64>,
    /// The giant rotations, rising.
    pub giant_steps: Vec<i64>,
    /// The babies of each giant, rising.
    pub index: Vec<Vec<i64>>,
    /// How the rotations are reached.
    pub rotations: BsgsRotations,
}

pub(crate) fn signed(words: &[u32]) -> Vec<i64> {
    words.iter().map(|&w| w.into()).collect()
}

/// The words of a plan, and where its parts stand in them.
#[derive(Clone, Debug)]
pub(crate) struct PlanWords {
    pub words: Vec<u32>,
    pub babies: usize,
    pub giants: usize,
}

impl PlanWords {
    /// Room for any plan of so many indexes.
    pub fn room(indexes: usize, slots: usize) -> Vec<u32> {
        let diagonals = indexes.min(slots).min(MOST);
        // Clearing top bits meets at most 15 further babies for each.
        vec![0; (1 + 16 * diagonals).min(MOST) + 4 * diagonals]
    }

    /// What a call has written, or its refusal.
    pub fn cut(mut words: Vec<u32>, numbers: PlanNumbers) -> Result<PlanWords, u32> {
        let (babies, giants) = (numbers.babies as usize, numbers.giants as usize);
        words.truncate(babies + 3 * giants + numbers.diagonals as usize);
        if numbers.refusal == 0 { Ok(PlanWords { words, babies, giants }) } else { Err(numbers.refusal) }
    }

    pub fn babies(&self) -> &[u32] {
        &self.words[..self.babies]
    }

    pub fn giants(&self) -> &[u32] {
        &self.words[self.babies..self.babies + self.giants]
    }

    /// The babies of giant number g.
    pub fn babies_of(&self, g: usize) -> &[u32] {
        let pairs = self.babies + self.giants;
        let (start, length) = (self.words[pairs + 2 * g] as usize, self.words[pairs + 2 * g + 1] as usize);
        &self.words[pairs + 2 * self.giants + start..][..length]
    }

    fn plan(&self, rotations: BsgsRotations) -> LinearTransformationPlan {
        LinearTransformationPlan {
            baby_steps: signed(self.babies()),
            giant_steps: signed(self.giants()),
            index: (0..self.giants).map(|g| signed(self.babies_of(g))).collect(),
            rotations,
        }
    }
}

/// How many residues a list names; 0 where slots is refused.
pub(crate) fn distinct(indexes: &[i64], slots: usize) -> usize {
    let mut plan = PlanWords::room(indexes.len(), slots);
    lent::linear_transform_index(indexes, slots, lent::DIRECT, 0, &mut plan).diagonals as usize
}

impl LinearTransformationLayout {
    /// What a number of the library is about.
    fn refused(&self, number: u32) -> Refusal {
        match number {
            1 => Refusal::of_slots(self.slots),
            3 => self.strategy.refused(),
            _ => unexpected(number),
        }
    }

    fn told(&self, answer: Numbers) -> Result<usize, Refusal> {
        if answer.refusal == 0 { Ok(answer.value) } else { Err(self.refused(answer.refusal)) }
    }

    /// The words of the plan.
    pub(crate) fn words(&self) -> Result<PlanWords, u32> {
        self.words_by(self.strategy.numbers())
    }

    /// The words of the plan by another kind and giant step.
    fn words_by(&self, (kind, giant_step): (u32, usize)) -> Result<PlanWords, u32> {
        let mut words = PlanWords::room(self.indexes.len(), self.slots);
        let numbers = lent::linear_transform_index(&self.indexes, self.slots, kind, giant_step, &mut words);
        PlanWords::cut(words, numbers)
    }

    /// How the plan's rotations are reached. With powers of two, the giant step is the width and the baby step is the
    /// greatest common divisor of the babies.
    pub(crate) fn rotations(&self) -> BsgsRotations {
        let LinearTransformationStrategy::BsgsPowersOfTwo { giant_step } = self.strategy else {
            return BsgsRotations::PerRotation;
        };
        let baby_step = lent::baby_step(&self.indexes, self.slots, giant_step).value as i64;
        BsgsRotations::PowersOfTwo { baby_step, giant_step: giant_step as i64, slots: self.slots as i64 }
    }

    /// The plan. Refused with 1, 3.
    pub fn index(&self) -> Result<LinearTransformationPlan, Refusal> {
        let words = self.words().map_err(|number| self.refused(number))?;
        Ok(words.plan(self.rotations()))
    }

    /// The plan of a width, whatever the strategy, with a key for each rotation. Refused with 1, 3.
    pub fn plan(&self, giant_step: usize) -> Result<LinearTransformationPlan, Refusal> {
        let strategy = LinearTransformationStrategy::Bsgs { giant_step };
        LinearTransformationLayout { strategy, ..self.clone() }.index()
    }

    /// The plan's babies. Refused with 1, 3.
    pub fn baby_steps(&self) -> Result<Vec<i64>, Refusal> {
        Ok(self.index()?.baby_steps)
    }

    /// The rotations that a run of the plan needs keys for, in the plan's order; two of them can be equal, and then one key
    /// serves both. Refused with 1, 3.
    pub fn key_rotations(&self) -> Result<Vec<u64>, Refusal> {
        let (kind, giant_step) = self.strategy.numbers();
        // Each key is for a baby or a giant that is not 0, or for a pass or a level, of which there are at most 16.
        let room = self.words().map_err(|number| self.refused(number))?;
        let mut keys = vec![0; room.babies + room.giants + 32];
        let answer = lent::plan_key_rotations(&self.indexes, self.slots, kind, giant_step, &mut keys);
        keys.truncate(self.told(answer)?);
        Ok(keys.into_iter().map(u64::from).collect())
    }

    /// The number of key switches that a run of the plan makes. Refused with 1, 3.
    pub fn key_switches(&self) -> Result<usize, Refusal> {
        let (kind, giant_step) = self.strategy.numbers();
        self.told(lent::plan_key_switches(&self.indexes, self.slots, kind, giant_step))
    }

    /// What the width costs: twice the larger of the numbers of distinct babies and distinct giants of the diagonals.
    /// Refused with 1, 3.
    ///
    /// ```
    /// use sibukyaran::{LinearTransformationLayout, LinearTransformationStrategy::BsgsPowersOfTwo, Refusal};
    ///
    /// // Babies 0, 2 and 3, giant 0. The run makes baby 1 too, on its way to 3, which the width is not charged for.
    /// let strategy = BsgsPowersOfTwo { giant_step: 4 };
    /// let layout = LinearTransformationLayout { indexes: vec![0, 2, 3], slots: 8, strategy };
    /// assert_eq!((layout.baby_steps()?.len(), layout.cost()?), (4, 6));
    /// # Ok::<(), Refusal>(())
    /// ```
    pub fn cost(&self) -> Result<usize, Refusal> {
        let (kind, giant_step) = self.strategy.numbers();
        // With powers of two the plan's babies are the closure, which no width is charged for.
        let kind = if kind == lent::BSGS_POWERS_OF_TWO { lent::BSGS } else { kind };
        let plan = self.words_by((kind, giant_step)).map_err(|number| self.refused(number))?;
        let zero_is_met = (0..plan.giants).any(|g| plan.babies_of(g).first() == Some(&0));
        // The plan has the baby 0 in any case.
        let babies = plan.babies - usize::from(!zero_is_met);
        Ok(2 * babies.max(plan.giants))
    }
}

/// The best width: among the multiples of the smallest gap between diagonals, below slots, the largest of least cost; 1 for
/// one diagonal or none. Refused with 1.
///
/// ```
/// assert_eq!(sibukyaran::optimal_bsgs_giant_step([0, 2, 5], 8), Ok(6));
/// ```
pub fn optimal_bsgs_giant_step(indexes: impl IntoIterator<Item = i64>, slots: usize) -> Result<usize, Refusal> {
    let indexes: Vec<i64> = indexes.into_iter().collect();
    let answer = lent::optimal_bsgs_giant_step(&indexes, slots);
    match answer.refusal {
        0 => Ok(answer.value),
        1 => Err(Refusal::of_slots(slots)),
        number => unexpected(number),
    }
}
