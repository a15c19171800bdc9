//! The keyed run.

use std::collections::BTreeSet;

use crate::diagonals::Diagonals;
use crate::lent::{self, KeyedNumbers, PairRecord};
use crate::plans::{LinearTransformationLayout, LinearTransformationStrategy, PlanWords, signed};
use crate::refusal::{Refusal, unexpected};
use crate::rotations::GiantTreeLevel;

/// What a keyed run has made when it stops: its plan and pairs whole, and what its switches have left in cache, nodes, log
/// and out.
///
/// ```
/// use sibukyaran::{Diagonals, LinearTransformationStrategy::BsgsPowersOfTwo, Refusal};
///
/// let mut map = Diagonals::new(16)?;
/// for k in [0, 1, 2, 5, 15] {
///     map.set(k, [k as u64 + 1])?;
/// }
/// let (input, strategy) = ((0..16).collect::<Vec<u64>>(), BsgsPowersOfTwo { giant_step: 4 });
/// let run = map.evaluate_keyed(&input, strategy, &[1, 2, 4, 8])?;
/// assert_eq!(run.log(), [1, 2, 2, 4, 4, 8]);
/// assert_eq!(run.out(), Some(&map.evaluate(&input, strategy)?[..]));
///
/// // Without the key for 8 it is refused with 11.
/// let refusal = map.evaluate_keyed(&input, strategy, &[1, 2, 4]).unwrap_err();
/// assert_eq!((refusal.number(), refusal), (11, Refusal::Key { rotation: 8, needed: 4, missing: 1 }));
///
/// // Stopped after two switches, it has two of the three babies, no nodes and no answer.
/// let run = map.evaluate_keyed_up_to(&input, strategy, &[1, 2, 4, 8], 2)?;
/// assert_eq!((run.switches(), run.is_finished(), run.out()), (2, false, None));
/// assert_eq!(run.cached(2).map(|vector| vector[0]), Some(2));
/// assert_eq!((run.cached(3), run.node(0)), (None, None));
/// # Ok::<(), Refusal>(())
/// ```
#[derive(Clone, Debug)]
pub struct KeyedRun {
    slots: usize,
    numbers: KeyedNumbers,
    plan: PlanWords,
    levels: Vec<GiantTreeLevel>,
    cache: Vec<u64>,
    nodes: Vec<u64>,
    log: Vec<u32>,
    out: Vec<u64>,
}

impl KeyedRun {
    /// The plan's babies, rising, with 0.
    pub fn babies(&self) -> &[u32] {
        self.plan.babies()
    }

    /// The plan's giants, rising.
    pub fn giants(&self) -> &[u32] {
        self.plan.giants()
    }

    /// The babies of giant number g, in rising order.
    pub fn babies_of(&self, g: usize) -> &[u32] {
        self.plan.babies_of(g)
    }

    /// The number of diagonals.
    pub fn diagonals(&self) -> usize {
        self.numbers.diagonals as usize
    }

    /// The tree's levels upward, each with its rotation and its pairs; none but with powers of two.
    pub fn levels(&self) -> &[GiantTreeLevel] {
        &self.levels
    }

    /// The switches that were made.
    pub fn switches(&self) -> usize {
        self.numbers.switches
    }

    /// The switches of the whole plan.
    pub fn all_switches(&self) -> usize {
        self.log.len()
    }

    /// Whether all were made.
    pub fn is_finished(&self) -> bool {
        self.numbers.finished
    }

    /// The rotation of each switch that was made, in order.
    pub fn log(&self) -> &[u32] {
        &self.log[..self.switches()]
    }

    /// The input rotated by a baby, once its switch is made. Rotation 0 is the input itself and is not cached.
    pub fn cached(&self, baby: u32) -> Option<&[u64]> {
        // Babies are made in rising order, one a switch.
        let place = self.babies()[1..].binary_search(&baby).ok().filter(|&place| place < self.switches())?;
        Some(&self.cache[place * self.slots..][..self.slots])
    }

    /// The vector in the place of giant number g, once all babies are made.
    pub fn node(&self, g: usize) -> Option<&[u64]> {
        let made = g < self.giants().len() && self.switches() + 1 >= self.babies().len();
        made.then(|| &self.nodes[g * self.slots..][..self.slots])
    }

    /// The product, once the run is finished.
    pub fn out(&self) -> Option<&[u64]> {
        self.is_finished().then_some(&self.out[..])
    }

    /// The product, taken out of the run.
    pub fn into_out(self) -> Option<Vec<u64>> {
        self.numbers.finished.then_some(self.out)
    }
}

/// The memory that a run is lent, but for the plan's.
#[derive(Default)]
struct Buffers {
    records: Vec<PairRecord>,
    cache: Vec<u64>,
    nodes: Vec<u64>,
    log: Vec<u32>,
    out: Vec<u64>,
}

/// A run's arguments.
struct Job<'a> {
    map: &'a Diagonals,
    input: &'a [u64],
    layout: LinearTransformationLayout,
    held: &'a [u64],
    n: u64,
}

impl Job<'_> {
    fn run(&self, plan: &mut [u32], lent: &mut Buffers) -> KeyedNumbers {
        let (kind, giant_step) = self.layout.strategy.numbers();
        let Buffers { records, cache, nodes, log, out } = lent;
        let map = self.map.lent();
        lent::evaluate_keyed(
            map, self.input, kind, giant_step, self.held, self.n, plan, records, cache, nodes, log, out,
        )
    }

    fn refused(&self, number: u32) -> Refusal {
        match number {
            3 => self.layout.strategy.refused(),
            7 => self.map.refused_input(self.input),
            11 => self.missing().unwrap_or_else(|| unexpected(11)),
            _ => unexpected(number),
        }
    }

    /// Refusal 11: the first key in the plan's order that is not held, and how many are not.
    fn missing(&self) -> Option<Refusal> {
        let held: BTreeSet<u64> = self.held.iter().copied().collect();
        let keys = self.layout.key_rotations().ok()?;
        let rotation = *keys.iter().find(|key| !held.contains(key))?;
        let keys: BTreeSet<u64> = keys.into_iter().collect();
        Some(Refusal::Key { rotation, needed: keys.len(), missing: keys.difference(&held).count() })
    }

    /// The tree's levels, none but with powers of two.
    fn levels(&self, plan: &PlanWords) -> Result<Vec<GiantTreeLevel>, Refusal> {
        let tree = self.layout.rotations().giant_tree(signed(plan.giants()))?;
        Ok(tree.map_or_else(Vec::new, |(_, levels)| levels))
    }

    fn finish(self) -> Result<KeyedRun, Refusal> {
        // Without room: a refusal before that of the room, so that no run is made room for in vain.
        let refusal = self.run(&mut [], &mut Buffers::default()).refusal;
        if refusal != 12 {
            return Err(self.refused(refusal));
        }
        let mut plan = self.layout.words().unwrap_or_else(|number| unexpected(number));
        let levels = self.levels(&plan)?;
        let slots = self.map.slots();
        let mut lent = Buffers {
            records: vec![PairRecord::default(); levels.iter().map(|level| level.pairs.len()).sum()],
            cache: vec![0; (plan.babies - 1) * slots],
            nodes: vec![0; plan.giants * slots],
            log: vec![0; self.layout.key_switches()?],
            out: vec![0; slots],
        };
        let numbers = self.run(&mut plan.words, &mut lent);
        if numbers.refusal != 0 {
            unexpected(numbers.refusal);
        }
        let Buffers { cache, nodes, log, out, .. } = lent;
        Ok(KeyedRun { slots, numbers, plan, levels, cache, nodes, log, out })
    }
}

impl Diagonals {
    /// What a plan of the map by a strategy is made of.
    pub fn layout(&self, strategy: LinearTransformationStrategy) -> LinearTransformationLayout {
        LinearTransformationLayout { indexes: self.indexes(), slots: self.slots(), strategy }
    }

    /// The product by key switches alone, each a rotation whose key is held. The held list may be in any order. Refused
    /// with 3, 7, 11.
    pub fn evaluate_keyed(
        &self,
        input: &[u64],
        strategy: LinearTransformationStrategy,
        held: &[u64],
    ) -> Result<KeyedRun, Refusal> {
        self.evaluate_keyed_up_to(input, strategy, held, u64::MAX)
    }

    /// The same, stopped after n switches. Refused with 3, 7, 11.
    pub fn evaluate_keyed_up_to(
        &self,
        input: &[u64],
        strategy: LinearTransformationStrategy,
        held: &[u64],
        n: u64,
    ) -> Result<KeyedRun, Refusal> {
        Job { map: self, input, layout: self.layout(strategy), held, n }.finish()
    }
}
