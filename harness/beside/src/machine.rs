//! Document 01's keyed run, read plainly: what a run answers and what its six buffers hold after n switches. Quoted
//! sentences are document 01's. Neither the proved library nor the Rust has a part in it, so that both can be held to it.

use std::collections::{BTreeMap, BTreeSet};

use sibukyaran::lent::{KeyedNumbers, Map, PairRecord};

use crate::calls::{Buffers, Job};
use crate::diagonals::right_map_refusal;
use crate::ring::{outside, word};

/// "Rotation by k: out[j] = source[(j + k) mod length]."
fn rotated(source: &[u64], k: usize) -> Vec<u64> {
    (0..source.len()).map(|j| source[(j + k) % source.len()]).collect()
}

fn add(to: &mut [u64], what: &[u64]) {
    for (slot, word) in to.iter_mut().zip(what) {
        *slot = slot.wrapping_add(*word);
    }
}

/// The stretch of each diagonal of a well-formed map.
fn stretches(map: Map) -> BTreeMap<usize, Vec<u64>> {
    let mut rest = map.values;
    let mut all = BTreeMap::new();
    for pair in map.pairs.chunks(2).take(map.count) {
        let (stretch, behind) = rest.split_at(pair[1] as usize);
        all.insert(pair[0] as usize, stretch.to_vec());
        rest = behind;
    }
    all
}

/// One use of a key. Babies are named by their rotation, nodes by the giant in whose place their vector stands.
enum Switch {
    /// "Target = source rotated by the pass rotation", or a baby from the input.
    Baby { source: usize, target: usize },
    /// "Node g is rotated by g."
    Giant { node: usize },
    /// A pair of a level: an odd, and the even before it if that is there.
    Pair { odd: usize, even: Option<usize> },
}

/// A switch and the rotation that it logs.
type Step = (usize, Switch);

/// A plan, and the switches that a run of it makes.
pub struct Plan {
    slots: usize,
    by_powers: bool,
    /// Of the cache, 0 among them.
    babies: BTreeSet<usize>,
    /// Each giant's babies.
    index: BTreeMap<usize, BTreeSet<usize>>,
    baby_steps: Vec<Step>,
    giant_steps: Vec<Step>,
    /// "The odd node and whether node odd - 1 is there, odd rising, level after level."
    records: Vec<PairRecord>,
    /// Where the tree's top node stands.
    top: Option<usize>,
}

/// "For diagonal k: baby = k mod width, giant = k - baby." By Direct each diagonal is a giant with the baby 0.
fn index_of(diagonals: &BTreeSet<usize>, width: Option<usize>) -> BTreeMap<usize, BTreeSet<usize>> {
    let mut index: BTreeMap<usize, BTreeSet<usize>> = BTreeMap::new();
    for &k in diagonals {
        let baby = width.map_or(0, |width| k % width);
        index.entry(k - baby).or_default().insert(baby);
    }
    index
}

fn gcd(a: usize, b: usize) -> usize {
    if b == 0 { a } else { gcd(b, a % b) }
}

/// "The greatest common divisor of the plan's babies, or 1 if that is 0."
fn baby_step_of(babies: &BTreeSet<usize>) -> usize {
    babies.iter().fold(0, |a, &b| gcd(a, b)).max(1)
}

/// "Also k·step for every nonzero k met by clearing top bits."
fn closed(babies: &BTreeSet<usize>, step: usize) -> BTreeSet<usize> {
    let mut all = babies.clone();
    for baby in babies {
        let mut k = baby / step;
        while k != 0 {
            all.insert(k * step);
            k -= 1 << k.ilog2();
        }
    }
    all
}

/// "Pass i, i rising: every cached k whose top bit is 2^i, read from k - 2^i, rotation 2^i·step."
fn passes(babies: &BTreeSet<usize>, step: usize) -> Vec<Step> {
    let mut steps = Vec::new();
    for i in 0..usize::BITS {
        for &target in babies.iter().filter(|&&baby| (baby / step) >> i == 1) {
            let rotation = step << i;
            steps.push((rotation, Switch::Baby { source: target - rotation, target }));
        }
    }
    steps
}

/// "Rotation / giant step; if the step divides slots and 2j >= period (slots / step), j - period."
fn digit(giant: usize, step: usize, slots: usize) -> i128 {
    let [giant, step, slots] = [giant, step, slots].map(|n| n as i128);
    let (j, period) = (giant / step, slots / step);
    if slots % step == 0 && 2 * j >= period { j - period } else { j }
}

/// "The least number from 1 with all digits in -2^(b-1)..2^(b-1)-1."
fn bits_of(digits: impl Iterator<Item = i128> + Clone) -> u32 {
    (1..).find(|b| digits.clone().all(|j| -(1 << (b - 1)) <= j && j < 1 << (b - 1))).unwrap()
}

/// "Level i has rotation 2^i·step mod slots, the top one -2^(b-1)·step mod slots."
fn level_rotation(i: u32, bits: u32, step: usize, slots: usize) -> usize {
    let signed = if i + 1 == bits { -(1 << i) } else { 1i128 << i };
    (signed * step as i128).rem_euclid(slots as i128) as usize
}

impl Plan {
    /// Of a well-formed map and a strategy that there is.
    pub fn of(map: Map, kind: u32, giant_step: usize) -> Plan {
        let diagonals = map.pairs.chunks(2).take(map.count).map(|pair| pair[0] as usize).collect();
        let index = index_of(&diagonals, (kind != 2).then_some(giant_step));
        let babies = index.values().flatten().copied().chain([0]).collect();
        let mut plan = Plan {
            slots: map.slots,
            by_powers: kind == 1,
            babies,
            index,
            baby_steps: Vec::new(),
            giant_steps: Vec::new(),
            records: Vec::new(),
            top: None,
        };
        if plan.by_powers {
            plan.reach_by_powers(giant_step);
        } else {
            plan.reach_each();
        }
        plan
    }

    /// Steps 2 and 4 per rotation: each nonzero baby, rising, from the input; each nonzero giant, rising.
    fn reach_each(&mut self) {
        let nonzero = |k: &&usize| **k != 0;
        self.baby_steps =
            self.babies.iter().filter(nonzero).map(|&k| (k, Switch::Baby { source: 0, target: k })).collect();
        self.giant_steps = self.index.keys().filter(nonzero).map(|&g| (g, Switch::Giant { node: g })).collect();
    }

    /// Steps 2 and 4 with powers of two: the passes, and the levels upward.
    fn reach_by_powers(&mut self, giant_step: usize) {
        let baby_step = baby_step_of(&self.babies);
        self.babies = closed(&self.babies, baby_step);
        self.baby_steps = passes(&self.babies, baby_step);
        let digits = self.index.keys().map(|&g| digit(g, giant_step, self.slots));
        let bits = bits_of(digits.clone());
        // "Leaf: j mod 2^b." Where the vector of each node of the level stands; a leaf's is its giant's.
        let leaves = digits.map(|j| j.rem_euclid(1 << bits) as usize);
        let mut nodes: BTreeMap<usize, usize> = leaves.zip(self.index.keys().copied()).collect();
        for i in 0..bits {
            let rotation = level_rotation(i, bits, giant_step, self.slots);
            for (&node, &odd) in nodes.iter().filter(|(node, _)| *node % 2 == 1) {
                let even = nodes.get(&(node - 1)).copied();
                self.records.push(PairRecord { odd: word(node), even_there: even.is_some() });
                self.giant_steps.push((rotation, Switch::Pair { odd, even }));
            }
            nodes = halved(nodes);
        }
        self.top = nodes.get(&0).copied();
    }

    fn steps(&self) -> impl Iterator<Item = &Step> {
        self.baby_steps.iter().chain(&self.giant_steps)
    }

    pub fn switches(&self) -> usize {
        self.baby_steps.len() + self.giant_steps.len()
    }

    /// The key rotations, each once: a pass or level with no switch asks for no key.
    pub fn keys(&self) -> Vec<u64> {
        let keys: BTreeSet<u64> = self.steps().map(|&(rotation, _)| rotation as u64).collect();
        keys.into_iter().collect()
    }

    fn diagonals(&self) -> usize {
        self.index.values().map(BTreeSet::len).sum()
    }

    /// The words of plan, cache, nodes, log and out that a whole run takes, and the records.
    pub fn rooms(&self) -> [usize; 6] {
        let (babies, giants) = (self.babies.len(), self.index.len());
        [
            babies + 3 * giants + self.diagonals(),
            self.records.len(),
            (babies - 1) * self.slots,
            giants * self.slots,
            self.switches(),
            self.slots,
        ]
    }

    /// "Babies, giants, pairs, index, back to back."
    fn words(&self) -> Vec<u32> {
        let mut words: Vec<usize> = self.babies.iter().chain(self.index.keys()).copied().collect();
        let mut start = 0;
        for babies in self.index.values() {
            words.extend([start, babies.len()]);
            start += babies.len();
        }
        words.extend(self.index.values().flatten());
        words.into_iter().map(word).collect()
    }
}

/// "Then all nodes are halved": an even's vector becomes its parent's, and an odd's where there is no even.
fn halved(nodes: BTreeMap<usize, usize>) -> BTreeMap<usize, usize> {
    let mut parents = BTreeMap::new();
    for (node, place) in nodes {
        // The even comes first.
        parents.entry(node / 2).or_insert(place);
    }
    parents
}

/// The machine: what has been written so far.
struct Machine<'a> {
    plan: &'a Plan,
    input: &'a [u64],
    stretches: BTreeMap<usize, Vec<u64>>,
    /// The vectors of the babies that have been made.
    cache: BTreeMap<usize, Vec<u64>>,
    /// The vectors in the places of the giants, none before step 3.
    nodes: BTreeMap<usize, Vec<u64>>,
    log: Vec<u32>,
    /// Nothing before the run is finished.
    out: Option<Vec<u64>>,
}

impl Machine<'_> {
    /// Step 1: "rotation 0 is read from the input, any other from the cache."
    fn read(&self, baby: usize) -> &[u64] {
        if baby == 0 { self.input } else { &self.cache[&baby] }
    }

    /// Step 3: the sum over the giant's babies k of (input rotated by k)[s]·diagonal_(g+k)[(s - g) mod slots].
    fn node(&self, giant: usize, babies: &BTreeSet<usize>) -> Vec<u64> {
        let slots = self.plan.slots;
        let mut node = vec![0u64; slots];
        for &k in babies {
            let (vector, stretch) = (self.read(k), &self.stretches[&(giant + k)]);
            for s in 0..slots {
                let diagonal = stretch[(s + slots - giant) % slots % stretch.len()];
                node[s] = node[s].wrapping_add(vector[s].wrapping_mul(diagonal));
            }
        }
        node
    }

    /// Step 5: the sum of all nodes, or the tree's top node; zeros if there is no giant.
    fn result(&self) -> Vec<u64> {
        let mut out = vec![0; self.plan.slots];
        if self.plan.by_powers {
            self.plan.top.iter().for_each(|top| add(&mut out, &self.nodes[top]));
        } else {
            self.nodes.values().for_each(|node| add(&mut out, node));
        }
        out
    }

    /// What steps 3 and 5 do before the next switch.
    fn settle(&mut self) {
        if self.log.len() == self.plan.baby_steps.len() {
            self.nodes = self.plan.index.iter().map(|(&g, babies)| (g, self.node(g, babies))).collect();
        }
        if self.log.len() == self.plan.switches() {
            self.out = Some(self.result());
        }
    }

    /// Steps 2 and 4: one switch, which "logs its rotation".
    fn switch(&mut self, (rotation, switch): &Step) {
        match *switch {
            Switch::Baby { source, target } => {
                let vector = rotated(self.read(source), *rotation);
                self.cache.insert(target, vector);
            }
            Switch::Giant { node } | Switch::Pair { odd: node, even: None } => {
                let vector = rotated(&self.nodes[&node], *rotation);
                self.nodes.insert(node, vector);
            }
            Switch::Pair { odd, even: Some(even) } => {
                let vector = rotated(&self.nodes[&odd], *rotation);
                add(self.nodes.get_mut(&even).unwrap(), &vector);
            }
        }
        self.log.push(word(*rotation));
    }

    /// The buffers, with every word and record that no step has written as it was lent.
    fn written(&self, lent: &Buffers) -> Buffers {
        let plan = self.plan;
        let mut now = lent.clone();
        put(&mut now.plan, 0, &plan.words());
        put(&mut now.records, 0, &plan.records);
        // "One vector per nonzero plan baby, rising."
        for (place, baby) in plan.babies.iter().filter(|&&baby| baby != 0).enumerate() {
            self.cache.get(baby).iter().for_each(|vector| put(&mut now.cache, place * plan.slots, vector));
        }
        // "Nodes stand one vector a giant, rising."
        for (place, giant) in plan.index.keys().enumerate() {
            self.nodes.get(giant).iter().for_each(|vector| put(&mut now.nodes, place * plan.slots, vector));
        }
        put(&mut now.log, 0, &self.log);
        self.out.iter().for_each(|vector| put(&mut now.out, 0, vector));
        now
    }
}

fn put<T: Copy>(buffer: &mut [T], at: usize, what: &[T]) {
    buffer[at..at + what.len()].copy_from_slice(what);
}

/// Refusals 1, 2, 3 and 7, or 0. A kind that there is not has no width.
fn refused_before_plan(job: Job) -> u32 {
    match right_map_refusal(job.map) {
        0 if job.kind > 2 || job.kind < 2 && outside(job.giant_step) => 3,
        0 if job.input.len() != job.map.slots => 7,
        refusal => refusal,
    }
}

/// Refusals 11 and 12, or 0.
fn refused_by_plan(plan: &Plan, held: &[u64], lent: &Buffers) -> u32 {
    let lengths =
        [lent.plan.len(), lent.records.len(), lent.cache.len(), lent.nodes.len(), lent.log.len(), lent.out.len()];
    if plan.keys().iter().any(|key| !held.contains(key)) {
        11
    } else if plan.rooms().iter().zip(lengths).any(|(&room, length)| length < room) {
        12
    } else {
        0
    }
}

/// What a refused run answers.
pub fn refused(refusal: u32) -> KeyedNumbers {
    KeyedNumbers { refusal, switches: 0, finished: false, babies: 0, giants: 0, diagonals: 0, pairs: 0 }
}

/// What a keyed run answers, and what the lent buffers hold then.
pub fn run(job: Job, lent: &Buffers) -> (KeyedNumbers, Buffers) {
    let refusal = refused_before_plan(job);
    if refusal != 0 {
        return (refused(refusal), lent.clone());
    }
    let plan = Plan::of(job.map, job.kind, job.giant_step);
    let refusal = refused_by_plan(&plan, job.held, lent);
    if refusal != 0 {
        return (refused(refusal), lent.clone());
    }
    let mut machine = Machine {
        plan: &plan,
        input: job.input,
        stretches: stretches(job.map),
        cache: BTreeMap::new(),
        nodes: BTreeMap::new(),
        log: Vec::new(),
        out: None,
    };
    machine.settle();
    for step in plan.steps().take(usize::try_from(job.n).unwrap_or(usize::MAX)) {
        machine.switch(step);
        machine.settle();
    }
    let numbers = KeyedNumbers {
        refusal: 0,
        switches: machine.log.len(),
        finished: machine.out.is_some(),
        babies: word(plan.babies.len()),
        giants: word(plan.index.len()),
        diagonals: word(plan.diagonals()),
        pairs: plan.records.len(),
    };
    (numbers, machine.written(lent))
}
