//! The keyed run beside document 01's machine (machine.rs) after each switch, and finished beside the Rust's `evaluate`,
//! plans, passes and trees.

use std::fmt::Debug;
use std::num::Wrapping;

use poulpy_core::layouts::{
    Evaluate, LinearTransformationPlan, call_baby_passes, call_giant_tree, call_linear_transform_index,
    rotate_slots_into,
};
use sibukyaran::lent::{self as ours, BSGS_POWERS_OF_TWO, KeyedNumbers, POWERS_OF_TWO, PairRecord};

use crate::bench::{Bench, keep};
use crate::calls::{Buffers, Job, evaluate_keyed, watched_keyed};
use crate::diagonals::{Stored, any_map, any_period, damaged, map_words, right_map_refusal, rust_map, wrapped};
use crate::keys::tree_records;
use crate::machine::{self, Plan};
use crate::plans::{How, accepted, any_list, any_width, plan_keys, plan_switches, plan_words, subsets, wide};
use crate::random::Random;
use crate::ring::{MOST, word};
use crate::sample::{Sample, held_records, record_numbers};
use crate::tally::{Cases, Tally};

/// A run but for its held list and its n.
#[derive(Clone)]
pub struct Run {
    pub map: Stored,
    pub input: Vec<u64>,
    pub how: How,
}

impl Run {
    /// Of a map of these diagonals and any input.
    fn of(random: &mut Random, slots: usize, offsets: &[i64], how: How) -> Run {
        Run { map: map_of(random, slots, offsets), input: random.words(slots), how }
    }

    pub fn job<'a>(&'a self, held: &'a [u64], n: u64) -> Job<'a> {
        let (kind, giant_step) = self.how;
        Job { n, kind, giant_step, held, map: self.map.lent(), input: &self.input }
    }

    pub fn plan(&self) -> Plan {
        Plan::of(self.map.lent(), self.how.0, self.how.1)
    }
}

/// A map of these diagonals, each with a stored length of its own, in buffers that may be longer.
fn map_of(random: &mut Random, slots: usize, offsets: &[i64]) -> Stored {
    let mut map = Stored { slots, count: offsets.len(), ..Default::default() };
    for &k in offsets {
        let period = any_period(random, slots);
        map.pairs.extend([word(k), word(period.len())]);
        map.values.extend(period);
    }
    map.longer(random)
}

/// A map of the diagonals of any list, or of few.
pub fn any_run(random: &mut Random, slots: usize) -> Run {
    let map = if random.below(2) == 0 {
        Stored::of(&any_map(random, slots))
    } else {
        let mut list: Vec<i64> = any_list(random, slots).iter().map(|k| k.rem_euclid(slots as i64)).collect();
        // So that a run stays short; the list is in no order.
        list.truncate(100);
        list.sort_unstable();
        list.dedup();
        map_of(random, slots, &list)
    };
    let how = (random.below(3) as u32, any_width(random, slots));
    Run { map, input: random.words(slots), how }
}

/// Every strategy of widths 1 to slots + 1; Direct has no width, whatever number stands for it.
fn every_how(slots: usize) -> impl Iterator<Item = How> {
    let widths = (1..=slots + 1).flat_map(|width| [(0, width), (1, width)]);
    widths.chain([(2, 0), (2, usize::MAX)])
}

/// Buffers of so many words and records, all different.
pub fn lent(random: &mut Random, rooms: [usize; 6]) -> Buffers {
    let [plan, records, cache, nodes, log, out] = rooms.map(|room| random.words(room));
    let narrow = |words: Vec<u64>| words.into_iter().map(|w| w as u32).collect();
    let records = records.into_iter().map(|w| PairRecord { odd: w as u32, even_there: w >> 63 == 1 }).collect();
    Buffers { plan: narrow(plan), records, cache, nodes, log: narrow(log), out }
}

fn longer(random: &mut Random, rooms: [usize; 6]) -> [usize; 6] {
    rooms.map(|room| room + 1 + random.below(4))
}

/// The keys in another order, some twice, among others that nobody asks for.
fn held_among(random: &mut Random, keys: &[u64], others: &[u64]) -> Vec<u64> {
    let mut held = [keys, others].concat();
    held.extend(keys.iter().filter(|_| random.below(3) == 0));
    random.shuffle(&mut held);
    held
}

/// The first place where two buffers differ, and what they hold there, if anything, as a text.
type Difference = Option<String>;

const SAME: [Difference; 6] = [const { None }; 6];

fn difference<T: PartialEq + Debug>(ours: &[T], right: &[T]) -> Difference {
    let same = ours.iter().zip(right).take_while(|(a, b)| a == b).count();
    let told = || format!("at {same} {:?}, should be {:?}", ours.get(same), right.get(same));
    (same < ours.len().max(right.len())).then(told)
}

fn differences(ours: &Buffers, right: &Buffers) -> [Difference; 6] {
    [
        difference(&ours.plan, &right.plan),
        difference(&ours.records, &right.records),
        difference(&ours.cache, &right.cache),
        difference(&ours.nodes, &right.nodes),
        difference(&ours.log, &right.log),
        difference(&ours.out, &right.out),
    ]
}

/// A job in few words, so that what differs is read behind it.
fn told(job: Job) -> String {
    let Job { n, kind, giant_step, held, map, input } = job;
    let sizes = (map.slots, map.count, input.len());
    let mut text = format!("n {n}, kind {kind}, width {giant_step}, sizes {sizes:?}, {:?}, held {held:?}", map.pairs);
    text.truncate(250);
    text
}

/// Ours on these buffers, beside an answer and what they should hold.
fn check_against(cases: &mut Cases, job: Job, lent: &Buffers, (right, words): &(KeyedNumbers, Buffers)) {
    let (numbers, now, around) = watched_keyed(job, lent);
    cases.same(|| told(job), (numbers, differences(&now, words), around), (*right, SAME, true));
}

/// Every number, every word and every record, beside the machine's.
fn check(cases: &mut Cases, job: Job, lent: &Buffers) {
    check_against(cases, job, lent, &machine::run(job, lent));
}

/// Refused by this number, with no word changed.
fn check_refused(cases: &mut Cases, job: Job, lent: &Buffers, refusal: u32) {
    check_against(cases, job, lent, &(machine::refused(refusal), lent.clone()));
}

/// Every n to one past the last switch, and n that are huge; buffers that are full and longer ones in turn.
fn check_every_n(cases: &mut Cases, random: &mut Random, run: &Run) {
    let plan = run.plan();
    let keys = plan.keys();
    let more = held_among(random, &keys, &[0, u64::MAX]);
    let (full, room) = (lent(random, plan.rooms()), longer(random, plan.rooms()));
    let spare = lent(random, room);
    for n in 0..=plan.switches() as u64 + 1 {
        check(cases, run.job(&keys, n), &full);
        check(cases, run.job(&more, n), &spare);
    }
    for n in [1 << 32, u64::MAX] {
        check(cases, run.job(&keys, n), &full);
    }
}

/// No switch, some and all, in buffers that are full or longer.
fn check_some_n(cases: &mut Cases, random: &mut Random, run: &Run) {
    let plan = run.plan();
    let keys = plan.keys();
    let rooms = if random.below(2) == 0 { plan.rooms() } else { longer(random, plan.rooms()) };
    let lent = lent(random, rooms);
    for n in [0, random.below(plan.switches() + 1), random.below(plan.switches() + 1), plan.switches()] {
        check(cases, run.job(&keys, n as u64), &lent);
    }
}

/// What a finished run logs, by the Rust's plan, passes and tree.
fn rust_log(plan: &LinearTransformationPlan) -> Vec<u32> {
    let Some((_, levels)) = call_giant_tree(plan.rotations, &plan.giant_steps) else {
        return plan_keys(plan);
    };
    let passes = call_baby_passes(plan.rotations, &plan.baby_steps);
    let babies = passes.iter().flat_map(|(rot, moves)| vec![word(*rot); moves.len()]);
    babies.chain(levels.iter().flat_map(|(rot, pairs)| vec![word(*rot); pairs.len()])).collect()
}

/// The pairs of the Rust's tree, none per rotation.
fn rust_records(plan: &LinearTransformationPlan) -> Vec<PairRecord> {
    call_giant_tree(plan.rotations, &plan.giant_steps).map_or_else(Vec::new, |tree| tree_records(&tree))
}

/// The input rotated by each nonzero baby, back to back.
fn rust_cache(plan: &LinearTransformationPlan, input: &[u64]) -> Vec<u64> {
    let mut vector = vec![0; input.len()];
    let mut cache = Vec::new();
    for &baby in plan.baby_steps.iter().filter(|&&baby| baby != 0) {
        rotate_slots_into(input, baby, &mut vector);
        cache.extend(&vector);
    }
    cache
}

/// A run that holds the Rust's keys and has room for the Rust's plan: all but the nodes when it finishes, `out` untouched
/// one switch before, and refused without one of the keys, with no word changed.
fn check_finished(cases: &mut Cases, random: &mut Random, run: &Run) {
    let slots = run.map.slots;
    let rust = rust_map(run.map.lent());
    let strategy = accepted(slots, run.how).unwrap();
    let plan = call_linear_transform_index(&rust.indexes(), slots, strategy);
    let (keys, switches) = (wide(&plan_keys(&plan)), plan_switches(&plan));
    let product: Vec<Wrapping<u64>> = rust.evaluate(&wrapped(&run.input), strategy);
    let mut words = Buffers {
        plan: plan_words(&plan),
        records: rust_records(&plan),
        cache: rust_cache(&plan, &run.input),
        nodes: vec![0; plan.giant_steps.len() * slots],
        log: rust_log(&plan),
        out: product.iter().map(|w| w.0).collect(),
    };
    let rooms = [words.plan.len(), words.records.len(), words.cache.len(), words.nodes.len(), switches, slots];
    let lent = lent(random, rooms);
    let right = KeyedNumbers {
        refusal: 0,
        switches,
        finished: true,
        babies: word(plan.baby_steps.len()),
        giants: word(plan.giant_steps.len()),
        diagonals: word(run.map.count),
        pairs: words.records.len(),
    };
    let (numbers, now, around) = watched_keyed(run.job(&keys, switches as u64), &lent);
    words.nodes.clone_from(&now.nodes);
    let call = || told(run.job(&keys, switches as u64));
    cases.same(call, (numbers, differences(&now, &words), around), (right, SAME, true));
    if let Some(before) = switches.checked_sub(1) {
        let (numbers, now, _) = watched_keyed(run.job(&keys, before as u64), &lent);
        let right = KeyedNumbers { switches: before, finished: false, ..right };
        cases.same(call, (numbers, difference(&now.out, &lent.out)), (right, None));
        let missing = keys[random.below(keys.len())];
        let held: Vec<u64> = keys.iter().copied().filter(|&key| key != missing).collect();
        check_refused(cases, run.job(&held, random.word()), &lent, 11);
    }
}

/// Each key missing in turn from a list that has the others in any order, and numbers like it.
fn check_missing(cases: &mut Cases, random: &mut Random, run: &Run) {
    let plan = run.plan();
    let lent = lent(random, plan.rooms());
    let (slots, keys) = (run.map.slots as u64, plan.keys());
    for &key in &keys {
        let near = [key + (1 << 32), key + slots, key << 32, key.wrapping_neg(), slots - key, !key, u64::MAX, 0];
        let near: Vec<u64> = near.into_iter().filter(|&other| other != key).collect();
        let others: Vec<u64> = keys.iter().copied().filter(|&other| other != key).collect();
        let n = random.below(plan.switches() + 2) as u64;
        check_refused(cases, run.job(&others, n), &lent, 11);
        check_refused(cases, run.job(&held_among(random, &others, &near), n), &lent, 11);
        let back = [&others[..], &[key]].concat();
        check(cases, run.job(&held_among(random, &back, &near), n), &lent);
    }
    check_held_none(cases, run, &lent, if keys.is_empty() { 0 } else { 11 });
}

/// No key held, which is enough where none is asked for.
fn check_held_none(cases: &mut Cases, run: &Run, lent: &Buffers, refusal: u32) {
    match refusal {
        0 => check(cases, run.job(&[], 0), lent),
        _ => check_refused(cases, run.job(&[], 0), lent, refusal),
    }
}

/// The rooms with one of them one short; those that need nothing cannot be.
fn short_rooms(rooms: [usize; 6]) -> impl Iterator<Item = [usize; 6]> {
    (0..6).filter(move |&i| rooms[i] > 0).map(move |i| {
        let mut short = rooms;
        short[i] -= 1;
        short
    })
}

/// Each buffer one short in turn, the others full and longer, for any n.
fn check_short(cases: &mut Cases, random: &mut Random, run: &Run) {
    let plan = run.plan();
    let keys = plan.keys();
    for rooms in short_rooms(plan.rooms()) {
        let lent = lent(random, rooms);
        for n in [0, random.below(plan.switches() + 1) as u64, u64::MAX] {
            check_refused(cases, run.job(&keys, n), &lent, 12);
        }
    }
}

/// 65,536 giants of 65,536 slots ask for 2^32 words of nodes, and as many babies for 2^32 - 2^16 of cache.
fn check_huge_rooms(cases: &mut Cases, random: &mut Random) {
    let mut map = Stored { slots: MOST, count: MOST, ..Default::default() };
    map.pairs = (0..MOST as u32).flat_map(|k| [k, 1]).collect();
    map.values = random.words(MOST);
    for (width, huge) in [(1, 3), (MOST, 2)] {
        let run = Run { map: map.clone(), input: random.words(MOST), how: (1, width) };
        let plan = run.plan();
        let keys = plan.keys();
        for room in [0, 1, MOST] {
            let mut rooms = plan.rooms();
            rooms[huge] = room;
            let lent = lent(random, rooms);
            check_refused(cases, run.job(&keys, 0), &lent, 12);
            check_refused(cases, run.job(&keys[1..], u64::MAX), &lent, 11);
        }
    }
}

/// Strategies that there are not, by their kind or by their width.
const BAD_HOW: [How; 12] = [
    (0, 0),
    (1, 0),
    (0, MOST + 1),
    (1, MOST + 1),
    (0, usize::MAX),
    (1, (1 << 32) + 1),
    (3, 0),
    (3, 4),
    (256, 4),
    (257, 4),
    (1 << 31, 1),
    (u32::MAX, MOST),
];

/// The run's refusals, in checking order.
const REFUSALS: [u32; 6] = [1, 2, 3, 7, 11, 12];

fn one_of<T: Copy>(random: &mut Random, list: &[T]) -> T {
    list[random.below(list.len())]
}

/// Every set of the six refusals, of which the first counts.
fn check_order(cases: &mut Cases, random: &mut Random, run: &Run) {
    let slots = run.map.slots;
    let plan = run.plan();
    let keys = plan.keys();
    for set in 0..1u32 << REFUSALS.len() {
        let reasons: Vec<u32> = (0..REFUSALS.len()).filter(|i| set >> i & 1 == 1).map(|i| REFUSALS[i]).collect();
        let mut spoilt = run.clone();
        if reasons.contains(&2) {
            let mut maps = damaged(&run.map, random);
            maps.retain(|map| right_map_refusal(map.lent()) == 2);
            spoilt.map = maps[random.below(maps.len())].clone();
        }
        if reasons.contains(&1) {
            spoilt.map.slots = one_of(random, &[0, MOST + 1, usize::MAX, (1 << 32) + slots]);
        }
        if reasons.contains(&3) {
            spoilt.how = one_of(random, &BAD_HOW);
        }
        if reasons.contains(&7) {
            let length = one_of(random, &[0, slots - 1, slots + 1, 2 * slots]);
            spoilt.input = random.words(length);
        }
        let held = if reasons.contains(&11) { &keys[1..] } else { &keys };
        let short: Vec<[usize; 6]> = short_rooms(plan.rooms()).collect();
        let rooms = if reasons.contains(&12) { one_of(random, &short) } else { plan.rooms() };
        let (lent, job) = (lent(random, rooms), spoilt.job(held, random.below(4) as u64));
        match reasons.first() {
            Some(&refusal) => check_refused(cases, job, &lent, refusal),
            None => check(cases, job, &lent),
        }
    }
}

/// E6: slots 16, diagonals 0 1 2 5 15, width 4.
fn example(random: &mut Random, kind: u32) -> Run {
    Run::of(random, 16, &[0, 1, 2, 5, 15], (kind, 4))
}

/// A kind of strategy, and the keys, pairs and log of E6 by it.
type Example<'a> = (u32, &'a [u64], &'a [PairRecord], &'a [u32]);

const E6_PLAN: [u32; 18] = [0, 1, 2, 3, 0, 4, 12, 0, 3, 3, 1, 4, 1, 0, 1, 2, 1, 3];

const E7_PAIRS: [PairRecord; 3] = [
    PairRecord { odd: 1, even_there: true },
    PairRecord { odd: 3, even_there: false },
    PairRecord { odd: 1, even_there: true },
];

/// E6 and E7: plan, pairs and log as document 01 has them, with room for no more.
fn check_examples(cases: &mut Cases, random: &mut Random) {
    let numbers =
        KeyedNumbers { refusal: 0, switches: 6, finished: true, babies: 4, giants: 3, diagonals: 5, pairs: 3 };
    let jobs: [Example; 2] =
        [(1, &[1, 2, 4, 8], &E7_PAIRS, &[1, 2, 2, 4, 4, 8]), (0, &[1, 2, 3, 4, 12], &[], &[1, 2, 3, 4, 12])];
    for (kind, keys, records, log) in jobs {
        let run = example(random, kind);
        let lent = lent(random, [18, records.len(), 3 * 16, 3 * 16, log.len(), 16]);
        let (ours, now, _) = watched_keyed(run.job(keys, 6), &lent);
        let right = KeyedNumbers { switches: log.len(), pairs: records.len(), ..numbers };
        let written = (&now.plan[..], &now.records[..], &now.log[..]);
        cases.same(|| format!("E6, E7, kind {kind}"), (ours, written), (right, (&E6_PLAN[..], records, log)));
        for i in 0..keys.len() {
            let held = [&keys[..i], &keys[i + 1..]].concat();
            check_refused(cases, run.job(&held, 6), &lent, 11);
        }
    }
}

/// E10: babies [0], no key, zeros, finished from the start.
fn check_empty(cases: &mut Cases, random: &mut Random, slots: usize, how: How) {
    let run = Run::of(random, slots, &[], how);
    let mut lent = lent(random, [1, 0, 0, 0, 0, slots]);
    let numbers =
        KeyedNumbers { refusal: 0, switches: 0, finished: true, babies: 1, giants: 0, diagonals: 0, pairs: 0 };
    let (ours, now, around) = watched_keyed(run.job(&[], 0), &lent);
    lent.plan[0] = 0;
    lent.out.fill(0);
    let call = || format!("E10, {slots} slots, {how:?}");
    cases.same(call, (ours, differences(&now, &lent), around), (numbers, SAME, true));
}

/// A run of each subset of up to 8 diagonals, by every width and strategy.
pub fn on_subsets(random: &mut Random, mut check: impl FnMut(&mut Random, &Run)) {
    for slots in 1..=8 {
        for list in subsets(slots) {
            for how in every_how(slots) {
                let run = Run::of(random, slots, &list, how);
                check(random, &run);
            }
        }
    }
}

/// Any run by each kind of strategy.
pub fn on_kinds(random: &mut Random, slots: usize, mut check: impl FnMut(&mut Random, &Run)) {
    for kind in 0..3 {
        let mut run = any_run(random, slots);
        run.how.0 = kind;
        check(random, &run);
    }
}

pub fn compare(tally: &mut Tally) {
    let mut random = Random::new(18);
    tally.run("keyed run: document 01's E6, E7 and E10", |cases| {
        check_examples(cases, &mut random);
        for slots in [1, 2, 16, 46_189, MOST] {
            for how in [(0, 4), (1, 4), (2, 0), (0, MOST), (1, MOST)] {
                check_empty(cases, &mut random, slots, how);
            }
        }
    });
    tally.run("keyed run: all subsets of up to 8 slots, every width and strategy, every n, every word", |cases| {
        on_subsets(&mut random, |random, run| check_every_n(cases, random, run));
    });
    tally.run("keyed run: some subsets of 9 to 16 slots, every width and strategy, every n, every word", |cases| {
        for slots in 9..=16 {
            for how in every_how(slots) {
                for _ in 0..16 {
                    let bits = random.word() | if random.below(4) == 0 { random.word() } else { 0 };
                    let list: Vec<i64> = (0..slots as i64).filter(|k| bits >> k & 1 == 1).collect();
                    let run = Run::of(&mut random, slots, &list, how);
                    check_every_n(cases, &mut random, &run);
                }
            }
        }
    });
    tally.run("keyed run: random maps of 64 to 1,024 slots, any width, some n, every word", |cases| {
        for _ in 0..600 {
            let slots = 64 + random.below(961);
            let slots = if random.below(2) == 0 { 1 << slots.ilog2() } else { slots };
            let run = any_run(&mut random, slots);
            check_some_n(cases, &mut random, &run);
        }
    });
    tally.run("keyed run: finished, all subsets of up to 8 slots, beside the Rust", |cases| {
        on_subsets(&mut random, |random, run| check_finished(cases, random, run));
    });
    tally.run("keyed run: finished, random maps to 65,536 slots, beside the Rust", |cases| {
        for slots in (1..=300).chain([1_024, 4_096]) {
            let run = any_run(&mut random, slots);
            check_finished(cases, &mut random, &run);
        }
        for slots in [46_189, 65_535, MOST] {
            on_kinds(&mut random, slots, |random, run| {
                check_finished(cases, random, run);
                check_some_n(cases, random, run);
            });
        }
    });
    tally.run("keyed run: each key missing, among others in any order and numbers like it", |cases| {
        for slots in 1..=100 {
            on_kinds(&mut random, slots, |random, run| check_missing(cases, random, run));
        }
    });
    tally.run("keyed run: each buffer one short, nothing changed; rooms of 2^32 words", |cases| {
        for slots in 1..=100 {
            on_kinds(&mut random, slots, |random, run| check_short(cases, random, run));
        }
        check_huge_rooms(cases, &mut random);
    });
    tally.run("keyed run: every set of refusals, the first counts, nothing changed", |cases| {
        for slots in 2..=40 {
            for kind in 0..3 {
                let k = 1 + random.below(slots - 1) as i64;
                let list: Vec<i64> = (0..slots as i64).filter(|&i| i == k || random.below(4) == 0).collect();
                let how = (kind, any_width(&mut random, slots));
                let run = Run::of(&mut random, slots, &list, how);
                check_order(cases, &mut random, &run);
            }
        }
    });
}

/// A call and the machine's answer, with sevens in every buffer of words before.
fn record(sample: &mut Sample, run: &Run, held: &[u64], n: u64, rooms: [usize; 6]) {
    let [plan, log] = [rooms[0], rooms[4]].map(|room| vec![7; room]);
    let [cache, nodes, out] = [rooms[2], rooms[3], rooms[5]].map(|room| vec![7; room]);
    let records = held_records(rooms[1]);
    let (numbers, now) = machine::run(run.job(held, n), &Buffers { plan, records, cache, nodes, log, out });
    let mut call = vec![run.how.0 as u64, run.how.1 as u64, n];
    call.extend(rooms.map(|room| room as u64));
    for list in [held, &run.input] {
        call.push(list.len() as u64);
        call.extend(list);
    }
    call.extend(map_words(run.map.lent()));
    let mut answer = vec![numbers.refusal as u64, numbers.switches as u64, numbers.finished as u64];
    answer.extend([numbers.babies, numbers.giants, numbers.diagonals].map(u64::from));
    answer.push(numbers.pairs as u64);
    answer.extend([wide(&now.plan), record_numbers(&now.records), now.cache, now.nodes].concat());
    answer.extend([wide(&now.log), now.out].concat());
    sample.call(39, &call, &answer);
}

/// A map with few digits a word, as its text is short.
fn small_run(random: &mut Random, slots: usize, pairs: &[[u32; 2]], how: How) -> Run {
    let mut small = |n: usize| (0..n).map(|_| random.word() % 9 + 1).collect::<Vec<u64>>();
    let total = pairs.iter().map(|pair| pair[1] as usize).sum();
    let map = Stored { slots, count: pairs.len(), pairs: pairs.concat(), values: small(total) };
    Run { map, input: small(slots), how }
}

/// A finished run in longer buffers, one switch of it, and refusals: a key missing, each buffer short, the input, the kind.
fn record_around(sample: &mut Sample, run: &Run) {
    let plan = run.plan();
    let keys: Vec<u64> = plan.keys().into_iter().rev().collect();
    record(sample, run, &keys, u64::MAX, plan.rooms().map(|room| room + 2));
    record(sample, run, &keys, 1, plan.rooms());
    let near = keys[0] + run.map.slots as u64;
    record(sample, run, &[&keys[1..], &[near]].concat(), 9, plan.rooms());
    for rooms in short_rooms(plan.rooms()) {
        record(sample, run, &keys, 9, rooms);
    }
    let short = Run { input: run.input[1..].to_vec(), ..run.clone() };
    record(sample, &short, &keys, 9, plan.rooms());
    record(sample, &Run { how: (3, 2), ..run.clone() }, &keys, 9, plan.rooms());
}

pub fn sample(sample: &mut Sample) {
    let mut random = Random::new(19);
    let example = [[0, 1], [1, 2], [2, 1], [5, 4], [15, 1]];
    // E7 after each switch, and E6's last two.
    for (how, steps) in [((1, 4), 0..7), ((0, 4), 4..6)] {
        let run = small_run(&mut random, 16, &example, how);
        let plan = run.plan();
        let keys = plan.keys();
        for n in steps {
            record(sample, &run, &keys, n, plan.rooms());
        }
    }
    for how in [(0, 4), (1, 4), (2, 0)] {
        // E10.
        record(sample, &small_run(&mut random, 4, &[], how), &[], 0, [1, 0, 0, 0, 0, 4]);
        // With powers of two, an odd without its even, of a width that does not divide slots.
        let mut run = small_run(&mut random, 6, &[[4, 1], [5, 3]], how);
        run.map.values[0] = u64::MAX;
        record_around(sample, &run);
    }
}

/// The 511 diagonals of a 256 by 256 sigma, each of `length` values.
fn sigma_sized(random: &mut Random, length: usize) -> Stored {
    let mut map = Stored { slots: MOST, count: 511, ..Default::default() };
    let offsets = (0..256).chain(MOST as u32 - 255..MOST as u32);
    map.pairs = offsets.flat_map(|k| [k, word(length)]).collect();
    map.values = random.words(511 * length);
    map
}

/// Whether a key is not held, by a table of the held ones.
fn is_missing(keys: &[u32], held: &[u64]) -> bool {
    let mut marks = vec![false; MOST];
    for &k in held {
        marks[k as usize] = true;
    }
    keys.iter().any(|&k| !marks[k as usize])
}

/// What a run stopped before its first switch has to do, each by a call of its own: map test, plan and pair records, key
/// test. Gives whether a key is missing.
fn prepare(run: &Run, indexes: &[i64], held: &[u64], buffers: &mut Buffers, keys: &mut [u32]) -> bool {
    assert_eq!(ours::map_refusal(keep(run.map.lent())), 0);
    let (kind, width) = run.how;
    let plan = ours::linear_transform_index(keep(indexes), MOST, kind, width, &mut buffers.plan);
    if kind == BSGS_POWERS_OF_TWO {
        let giants = &buffers.plan[plan.babies as usize..][..plan.giants as usize];
        let giants: Vec<i64> = giants.iter().map(|&g| g.into()).collect();
        let (mut leaves, mut levels) = ([0; 16], [0; 32]);
        let records = &mut buffers.records;
        ours::giant_tree(POWERS_OF_TWO, 1, 32, MOST, &giants, &mut leaves, &mut levels, records);
    }
    let count = ours::plan_key_rotations(keep(indexes), MOST, kind, width, keys).value;
    is_missing(&keys[..count], keep(held))
}

/// Beside the Rust's `evaluate`; beside our plain run; and, stopped at n = 0, beside our map test, plan and key test.
pub fn bench(bench: &mut Bench) {
    let mut random = Random::new(20);
    for length in [MOST, 256] {
        let map = sigma_sized(&mut random, length);
        let rust = rust_map(map.lent());
        let input = random.words(MOST);
        let rust_input = wrapped(&input);
        let indexes = rust.indexes();
        let mut run = Run { map, input, how: (0, 32) };
        // at most 1.4 and 1.5 times the plain run's time
        for (name, kind, slower) in [("Bsgs(32)", 0, 1.4), ("powers of two (32)", 1, 1.5)] {
            run.how.0 = kind;
            let strategy = accepted(MOST, run.how).unwrap();
            let keys = run.plan().keys();
            let mut buffers = lent(&mut random, run.plan().rooms());
            let mut plain = vec![0; MOST];
            if kind == 0 {
                bench.pair(
                    &format!("keyed, 511 of {length}, {name}, the Rust's evaluate"),
                    Some(2.0),
                    || evaluate_keyed(keep(run.job(&keys, u64::MAX)), &mut buffers),
                    || keep(&rust).evaluate(&rust_input, strategy),
                );
            }
            bench.pair(
                &format!("keyed, 511 of {length}, {name}, plain run"),
                Some(1.0 / slower),
                || evaluate_keyed(keep(run.job(&keys, u64::MAX)), &mut buffers),
                || ours::evaluate(keep(run.map.lent()), &run.input, run.how.0, run.how.1, &mut plain),
            );
            assert_eq!(buffers.out, plain, "the keyed run and the plain run agree");
            let mut prepared = lent(&mut random, run.plan().rooms());
            let mut listed = vec![0; keys.len()];
            assert!(!prepare(&run, &indexes, &keys, &mut prepared, &mut listed), "all keys are held");
            assert_eq!((&prepared.plan, &prepared.records), (&buffers.plan, &buffers.records), "both prepare the same");
            bench.pair(
                &format!("keyed, n = 0, 511 of {length}, {name}, parts"),
                Some(1.0),
                || evaluate_keyed(keep(run.job(&keys, 0)), &mut buffers),
                || prepare(&run, &indexes, &keys, &mut prepared, &mut listed),
            );
        }
    }
}
