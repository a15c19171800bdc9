//! Calls of ours in the forms that several comparisons take, and the answers that they expect. All other calls are those
//! of `sibukyaran::lent`, which stands as `ours` wherever the two are compared.

use sibukyaran::lent::{self as ours, KeyedNumbers, Map, Numbers, PairRecord};

use crate::guards::Lent;

/// The two answers that a comparison expects of most calls.
pub trait Expected {
    fn is(value: usize) -> Self;
    fn refused(refusal: u32) -> Self;
}

impl Expected for Numbers {
    fn is(value: usize) -> Self {
        Numbers { refusal: 0, value }
    }

    fn refused(refusal: u32) -> Self {
        Numbers { refusal, value: 0 }
    }
}

/// The lists of the terms (i, j, w).
#[derive(Clone, Default, Debug)]
pub struct Terms {
    pub is: Vec<u32>,
    pub js: Vec<u32>,
    pub ws: Vec<u64>,
}

pub fn from_slot_map(slots: usize, period: usize, terms: &Terms, pairs: &mut [u32], values: &mut [u64]) -> Numbers {
    ours::from_slot_map(slots, period, &terms.is, &terms.js, &terms.ws, pairs, values)
}

pub fn per_matrix_map(slots: usize, log_d: usize, terms: &Terms, pairs: &mut [u32], values: &mut [u64]) -> Numbers {
    ours::per_matrix_map(slots, log_d, &terms.is, &terms.js, &terms.ws, pairs, values)
}

/// What a keyed run takes besides the buffers that it writes, with any number for the kind of strategy.
#[derive(Clone, Copy, Debug)]
pub struct Job<'a> {
    pub n: u64,
    pub kind: u32,
    pub giant_step: usize,
    pub held: &'a [u64],
    pub map: Map<'a>,
    pub input: &'a [u64],
}

/// The buffers that a keyed run writes.
#[derive(Clone, PartialEq, Eq, Debug)]
pub struct Buffers {
    pub plan: Vec<u32>,
    pub records: Vec<PairRecord>,
    pub cache: Vec<u64>,
    pub nodes: Vec<u64>,
    pub log: Vec<u32>,
    pub out: Vec<u64>,
}

pub fn evaluate_keyed(job: Job, buffers: &mut Buffers) -> KeyedNumbers {
    let Job { n, kind, giant_step, held, map, input } = job;
    let Buffers { plan, records, cache, nodes, log, out } = buffers;
    ours::evaluate_keyed(map, input, kind, giant_step, held, n, plan, records, cache, nodes, log, out)
}

/// The same on a copy of the buffers: the answer, what they hold then, and whether what stands around them is as it was.
pub fn watched_keyed(job: Job, before: &Buffers) -> (KeyedNumbers, Buffers, bool) {
    let Job { n, kind, giant_step, held, map, input } = job;
    let (mut plan, mut records) = (Lent::new(&before.plan), Lent::new(&before.records));
    let (mut cache, mut nodes) = (Lent::new(&before.cache), Lent::new(&before.nodes));
    let (mut log, mut out) = (Lent::new(&before.log), Lent::new(&before.out));
    let numbers = ours::evaluate_keyed(
        map,
        input,
        kind,
        giant_step,
        held,
        n,
        plan.part(),
        records.part(),
        cache.part(),
        nodes.part(),
        log.part(),
        out.part(),
    );
    let ((plan, a), (records, b), (log, c)) = (plan.back(), records.back(), log.back());
    let ((cache, d), (nodes, e), (out, f)) = (cache.back(), nodes.back(), out.back());
    (numbers, Buffers { plan, records, cache, nodes, log, out }, [a, b, c, d, e, f] == [true; 6])
}
