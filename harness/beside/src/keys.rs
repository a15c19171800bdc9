//! `BsgsRotations`: closure, passes, tree and keys of lists in any order with repeats, beside document 000.

use poulpy_core::layouts::{BsgsRotations, GiantTree, call_baby_closure, call_baby_passes, call_giant_tree};
use sibukyaran::lent::{self as ours, Numbers, PER_ROTATION, POWERS_OF_TWO, PairRecord, PassNumbers, TreeNumbers};

use crate::calls::Expected;
use crate::diagonals::in_front;
use crate::guards::Lent;
use crate::plans::{check_listed, disguised, held, listed, narrow, pair, subsets, wide};
use crate::random::Random;
use crate::ring::{MOST, outside, word};
use crate::sample::{Sample, held_records, record_numbers};
use crate::tally::{Cases, Tally};

/// Rotations as C's four numbers.
#[derive(Clone, Copy, PartialEq, Eq, Debug)]
pub struct Reach {
    pub kind: u32,
    pub baby_step: usize,
    pub giant_step: usize,
    pub slots: usize,
}

impl Reach {
    pub const PER_ROTATION: Reach = Reach { kind: PER_ROTATION, baby_step: 0, giant_step: 0, slots: 0 };

    pub fn powers(baby_step: usize, giant_step: usize, slots: usize) -> Reach {
        Reach { kind: POWERS_OF_TWO, baby_step, giant_step, slots }
    }

    /// The Rust's.
    pub fn rotations(self) -> BsgsRotations {
        match self.kind {
            PER_ROTATION => BsgsRotations::PerRotation,
            _ => BsgsRotations::PowersOfTwo {
                baby_step: self.baby_step as i64,
                giant_step: self.giant_step as i64,
                slots: self.slots as i64,
            },
        }
    }
}

/// Document 01's refusals of the rotations.
fn accepted(reach: Reach) -> Result<(), u32> {
    match reach.kind {
        0 => Ok(()),
        _ if outside(reach.slots) => Err(1),
        // Rotations of no kind have no steps.
        1 if outside(reach.baby_step) || outside(reach.giant_step) => Err(3),
        1 => Ok(()),
        _ => Err(3),
    }
}

/// and of a list of babies, before the room is known
pub fn accepted_babies(reach: Reach, babies: &[i64]) -> Result<(), u32> {
    accepted(reach)?;
    let step = if reach.kind == 0 { 1 } else { reach.baby_step as i64 };
    let good = babies.iter().all(|b| (0..MOST as i64).contains(b) && b % step == 0);
    if good { Ok(()) } else { Err(9) }
}

/// and of a list of giants
pub fn accepted_giants(reach: Reach, giants: &[i64]) -> Result<(), u32> {
    accepted(reach)?;
    let bad = |g: &i64| g.rem_euclid(reach.slots as i64) % reach.giant_step as i64 != 0;
    if reach.kind != 0 && giants.iter().any(bad) { Err(10) } else { Ok(()) }
}

fn right_closure(reach: Reach, babies: &[i64]) -> Result<Vec<u32>, u32> {
    accepted_babies(reach, babies).map(|()| narrow(&call_baby_closure(reach.rotations(), babies)))
}

fn right_baby_keys(reach: Reach, babies: &[i64]) -> Result<Vec<u32>, u32> {
    accepted_babies(reach, babies).map(|()| narrow(&reach.rotations().baby_key_rotations(babies.iter().copied())))
}

fn right_giant_keys(reach: Reach, giants: &[i64]) -> Result<Vec<u32>, u32> {
    accepted_giants(reach, giants).map(|()| narrow(&reach.rotations().giant_key_rotations(giants.iter().copied())))
}

fn right_switches(reach: Reach, giants: &[i64]) -> Numbers {
    let switches =
        accepted_giants(reach, giants).map(|()| reach.rotations().giant_key_switches(giants.iter().copied()));
    switches.map_or_else(Numbers::refused, Numbers::is)
}

/// The words of a pass: its rotation, and its number of moves in two, least first.
const PASS_SIZE: usize = 3;

/// The words of the passes and of the moves.
fn pass_words(reach: Reach, babies: &[i64]) -> Result<(Vec<u32>, Vec<u32>), u32> {
    accepted_babies(reach, babies)?;
    let passes = call_baby_passes(reach.rotations(), babies);
    let two = |n: usize| [n as u64 as u32, (n as u64 >> 32) as u32];
    let words = passes.iter().flat_map(|(rot, moves)| [&[word(*rot)][..], &two(moves.len())].concat()).collect();
    let moves = passes.iter().flat_map(|(_, moves)| moves.iter().flat_map(|&(s, t)| [word(s), word(t)])).collect();
    Ok((words, moves))
}

type Passed = (PassNumbers, Vec<u32>, Vec<u32>);

fn right_passes(words: &Result<(Vec<u32>, Vec<u32>), u32>, passes: &[u32], moves: &[u32]) -> Passed {
    let refused = |refusal| (PassNumbers { refusal, passes: 0, moves: 0 }, passes.to_vec(), moves.to_vec());
    let (p, m) = match words {
        Ok(words) => words,
        Err(refusal) => return refused(*refusal),
    };
    match (in_front(p, passes), in_front(m, moves)) {
        (Some(passes), Some(moves)) => {
            (PassNumbers { refusal: 0, passes: word(p.len() / PASS_SIZE), moves: m.len() / 2 }, passes, moves)
        }
        _ => refused(12),
    }
}

/// What a tree writes: the words of its leaves and of its levels, and the records of its pairs.
#[derive(Clone, PartialEq, Eq, Debug)]
struct TreeLists {
    leaves: Vec<u32>,
    levels: Vec<u32>,
    records: Vec<PairRecord>,
}

impl TreeLists {
    fn of(tree: &GiantTree) -> TreeLists {
        let (leaves, levels) = tree;
        TreeLists {
            leaves: leaves.iter().copied().map(word).collect(),
            levels: levels.iter().flat_map(|(rot, pairs)| [word(*rot), word(pairs.len())]).collect(),
            records: tree_records(tree),
        }
    }

    fn sizes(&self) -> [usize; 3] {
        [self.leaves.len(), self.levels.len(), self.records.len()]
    }

    /// These in front of what is held.
    fn in_front(&self, held: &TreeLists) -> Option<TreeLists> {
        Some(TreeLists {
            leaves: in_front(&self.leaves, &held.leaves)?,
            levels: in_front(&self.levels, &held.levels)?,
            records: in_front(&self.records, &held.records)?,
        })
    }
}

/// The pairs of all levels.
pub fn tree_records((_, levels): &GiantTree) -> Vec<PairRecord> {
    let pairs = levels.iter().flat_map(|(_, pairs)| pairs);
    pairs.map(|&(even, odd)| PairRecord { odd: word(odd), even_there: even.is_some() }).collect()
}

type Grown = Result<Option<GiantTree>, u32>;

fn grown(reach: Reach, giants: &[i64]) -> Grown {
    accepted_giants(reach, giants).map(|()| call_giant_tree(reach.rotations(), giants))
}

/// The rooms that a tree takes, or some where there is none.
fn tree_rooms(tree: &Grown) -> [usize; 3] {
    match tree {
        Ok(Some(tree)) => TreeLists::of(tree).sizes(),
        _ => [2, 2, 2],
    }
}

fn right_tree(tree: &Grown, held: &TreeLists) -> (TreeNumbers, TreeLists) {
    let none = |refusal| (TreeNumbers { refusal, bits: 0, pairs: 0 }, held.clone());
    let tree = match tree {
        Ok(Some(tree)) => TreeLists::of(tree),
        Ok(None) => return none(0),
        Err(refusal) => return none(*refusal),
    };
    match tree.in_front(held) {
        Some(lists) => {
            (TreeNumbers { refusal: 0, bits: word(tree.levels.len() / 2), pairs: tree.records.len() }, lists)
        }
        None => none(12),
    }
}

fn check_babies(cases: &mut Cases, reach: Reach, babies: &[i64]) {
    let call = |name: &str| format!("{name} {reach:?} {babies:?}");
    let Reach { kind, baby_step, giant_step, slots } = reach;
    type Ours = fn(u32, usize, usize, usize, &[i64], &mut [u32]) -> Numbers;
    type Right = fn(Reach, &[i64]) -> Result<Vec<u32>, u32>;
    let lists: [(&str, Ours, Right); 2] =
        [("closure", ours::baby_closure, right_closure), ("baby keys", ours::baby_key_rotations, right_baby_keys)];
    for (name, ours, right) in lists {
        let list = |out: &mut [u32]| ours(kind, baby_step, giant_step, slots, babies, out);
        check_listed(cases, || call(name), right(reach, babies), list);
    }
    let words = pass_words(reach, babies);
    let (p, m) = words.as_ref().map_or((3, 3), |(p, m)| (p.len(), m.len()));
    for (pn, mn) in [(p, m), (p.saturating_sub(1), m), (p, m.saturating_sub(1)), (p + 2, m + 5)] {
        let (passes, moves) = (held(pn), held(mn));
        let mut lent = (Lent::new(&passes), Lent::new(&moves));
        let numbers = ours::baby_passes(kind, baby_step, giant_step, slots, babies, lent.0.part(), lent.1.part());
        let (right, passes, moves) = right_passes(&words, &passes, &moves);
        let ours = (numbers, lent.0.back(), lent.1.back());
        cases.same(|| call("passes"), ours, (right, (passes, true), (moves, true)));
    }
}

fn check_giants(cases: &mut Cases, reach: Reach, giants: &[i64]) {
    let call = |name: &str| format!("{name} {reach:?} {giants:?}");
    let Reach { kind, baby_step, giant_step, slots } = reach;
    let keys = |out: &mut [u32]| ours::giant_key_rotations(kind, baby_step, giant_step, slots, giants, out);
    check_listed(cases, || call("giant keys"), right_giant_keys(reach, giants), keys);
    let switches = ours::giant_key_switches(kind, baby_step, giant_step, slots, giants);
    cases.same(|| call("giant switches"), switches, right_switches(reach, giants));
    let tree = grown(reach, giants);
    let sizes = tree_rooms(&tree);
    for short in 0..5 {
        // One of the three is one short, or none is, or all are longer.
        let rooms: [usize; 3] = std::array::from_fn(|i| match short {
            4 => sizes[i] + 3,
            _ if short == i => sizes[i].saturating_sub(1),
            _ => sizes[i],
        });
        let lists = TreeLists { leaves: held(rooms[0]), levels: held(rooms[1]), records: kept_records(rooms[2]) };
        let (mut leaves, mut levels) = (Lent::new(&lists.leaves), Lent::new(&lists.levels));
        let mut records = Lent::new(&lists.records);
        let lent = (leaves.part(), levels.part(), records.part());
        let numbers = ours::giant_tree(kind, baby_step, giant_step, slots, giants, lent.0, lent.1, lent.2);
        let ((leaves, a), (levels, b), (records, c)) = (leaves.back(), levels.back(), records.back());
        let (right, lists) = right_tree(&tree, &lists);
        let ours = (numbers, TreeLists { leaves, levels, records }, [a, b, c]);
        cases.same(|| call("tree"), ours, (right, lists, [true; 3]));
    }
}

/// Records that no tree has, with either flag.
fn kept_records(room: usize) -> Vec<PairRecord> {
    held(room).into_iter().map(|odd| PairRecord { odd, even_there: odd % 3 == 0 }).collect()
}

/// Each entry times the step.
pub fn times(list: &[i64], step: usize) -> Vec<i64> {
    list.iter().map(|&k| k * step as i64).collect()
}

pub fn compare(tally: &mut Tally) {
    let mut random = Random::new(14);
    tally.run("babies: all subsets of 0..9, every step, unsorted and repeated, each room", |cases| {
        for list in subsets(9) {
            for step in 1..=9 {
                let reach = Reach::powers(step, 1 + random.below(9), 1 + random.below(9));
                check_babies(cases, reach, &times(&shuffled(&mut random, &list), step));
                check_babies(cases, reach, &shuffled(&mut random, &list));
            }
            check_babies(cases, Reach::PER_ROTATION, &shuffled(&mut random, &list));
        }
    });
    tally.run("giants: all subsets of 0..slots for up to 9 slots, every step, each room", |cases| {
        for slots in 1..=9 {
            for list in subsets(slots) {
                for step in 1..=slots + 1 {
                    let reach = Reach::powers(1 + random.below(9), step, slots);
                    check_giants(cases, reach, &disguised(&mut random, &times(&list, step), slots));
                    check_giants(cases, reach, &disguised(&mut random, &list, slots));
                }
                check_giants(cases, Reach::PER_ROTATION, &disguised(&mut random, &list, slots));
            }
        }
    });
    tally.run("babies and giants: random lists to the limits", |cases| {
        for _ in 0..600 {
            let slots = [1, 7, 100, 4_096, 46_189, 65_535, MOST][random.below(7)];
            let step = [1, 2, 3, 37, 256, 1 + random.below(slots), slots, MOST][random.below(8)];
            let reach = Reach::powers(step, step, slots);
            let n = [3, 30, 300, 3_000][random.below(4)];
            let most = (MOST - 1) / step + 1;
            let babies: Vec<i64> = (0..random.below(n)).map(|_| (random.below(most) * step) as i64).collect();
            check_babies(cases, reach, &babies);
            check_babies(cases, Reach::PER_ROTATION, &babies);
            let most = (slots - 1) / step + 1;
            let giants: Vec<i64> = (0..random.below(n)).map(|_| (random.below(most) * step) as i64).collect();
            let giants = disguised(&mut random, &giants, slots);
            check_giants(cases, reach, &giants);
            check_giants(cases, Reach::PER_ROTATION, &giants);
        }
        let all: Vec<i64> = (0..MOST as i64).rev().collect();
        check_babies(cases, Reach::powers(1, 1, MOST), &all);
        check_babies(cases, Reach::PER_ROTATION, &all);
        check_giants(cases, Reach::powers(1, 1, MOST), &all);
        check_giants(cases, Reach::PER_ROTATION, &[i64::MIN, 0, i64::MAX, -1, 0]);
    });
    tally.run("babies and giants: refusals in order, nothing changed", |cases| {
        let numbers = [0, 1, 4, MOST, MOST + 1, usize::MAX, 1 << 32];
        for slots in numbers {
            for giant_step in numbers {
                for baby_step in numbers {
                    for kind in [0, 1, 2, u32::MAX] {
                        let reach = Reach { kind, baby_step, giant_step, slots };
                        for list in [&[][..], &[0], &[4, -4], &[65_536], &[65_535], &[i64::MIN, 3], &[-1]] {
                            check_babies(cases, reach, list);
                            check_giants(cases, reach, list);
                        }
                    }
                }
            }
        }
    });
}

/// The same numbers in another order, some twice.
pub fn shuffled(random: &mut Random, list: &[i64]) -> Vec<i64> {
    let mut other = list.to_vec();
    for &k in list {
        if random.below(3) == 0 {
            other.push(k);
        }
    }
    random.shuffle(&mut other);
    other
}

fn head(reach: Reach) -> Vec<u64> {
    vec![reach.kind as u64, reach.baby_step as u64, reach.giant_step as u64, reach.slots as u64]
}

fn sample_lists(sample: &mut Sample, reach: Reach, babies: &[i64], giants: &[i64], slack: i64) {
    let room = |n: usize| (n as i64 + slack).max(0) as usize;
    let sevens = |n: usize| vec![7; room(n)];
    let words = |list: &[i64]| list.iter().map(|&k| k as u64).collect::<Vec<u64>>();
    let lists = [
        (26, right_closure(reach, babies), babies),
        (27, right_baby_keys(reach, babies), babies),
        (28, right_giant_keys(reach, giants), giants),
    ];
    for (code, list, of) in lists {
        let held = sevens(list.as_ref().map_or(3, Vec::len));
        let (numbers, written) = listed(list, &held);
        let call = [head(reach), vec![held.len() as u64], words(of)].concat();
        sample.call(code, &call, &[pair(numbers).to_vec(), wide(&written)].concat());
    }
    sample.call(29, &[head(reach), vec![0], words(giants)].concat(), &pair(right_switches(reach, giants)));
    let passes = pass_words(reach, babies);
    let (p, m) = passes.as_ref().map_or((3, 3), |(p, m)| (p.len(), m.len()));
    let (p, m) = (sevens(p), sevens(m));
    let (numbers, pw, mw) = right_passes(&passes, &p, &m);
    let call = [head(reach), vec![p.len() as u64, m.len() as u64], words(babies)].concat();
    let answer = [numbers.refusal as u64, numbers.passes as u64, numbers.moves as u64];
    sample.call(30, &call, &[answer.to_vec(), wide(&pw), wide(&mw)].concat());
    let tree = grown(reach, giants);
    let rooms = tree_rooms(&tree).map(room);
    let [leaves, levels] = [rooms[0], rooms[1]].map(|room| vec![7; room]);
    let (numbers, lists) = right_tree(&tree, &TreeLists { leaves, levels, records: held_records(rooms[2]) });
    let call = [head(reach), rooms.map(|room| room as u64).to_vec(), words(giants)].concat();
    let answer = [numbers.refusal as u64, numbers.bits as u64, numbers.pairs as u64];
    let lists = [wide(&lists.leaves), wide(&lists.levels), record_numbers(&lists.records)].concat();
    sample.call(31, &call, &[answer.to_vec(), lists].concat());
}

pub fn sample(sample: &mut Sample) {
    let mut random = Random::new(15);
    sample_lists(sample, Reach::powers(1, 4, 16), &[0, 1, 2, 3], &[0, 4, 12], 0);
    sample_lists(sample, Reach::powers(1, 4, 20), &[5], &[12], 0);
    sample_lists(sample, Reach::PER_ROTATION, &[3, 0, 3], &[0, -4, 12], 0);
    for slots in [1, 5, 16, 60, 65_536] {
        for step in [1, 3, 4, 256] {
            for slack in [0, -1, 2] {
                let babies: Vec<i64> = (0..random.below(8)).map(|_| (random.below(20) * step) as i64).collect();
                let most = (slots - 1) / step + 1;
                let giants: Vec<i64> = (0..random.below(8)).map(|_| (random.below(most) * step) as i64).collect();
                let reach = Reach::powers(step, step, slots);
                sample_lists(sample, reach, &babies, &disguised(&mut random, &giants, slots), slack);
            }
        }
    }
    for reach in [
        Reach::powers(0, 1, 16),
        Reach::powers(1, 65_537, 16),
        Reach::powers(1, 1, 0),
        Reach::powers(2, 4, 65_537),
        Reach { kind: 7, baby_step: 1, giant_step: 1, slots: 8 },
        Reach::powers(2, 4, 16),
        Reach::PER_ROTATION,
    ] {
        for list in [&[][..], &[4, 1], &[-4], &[65_536]] {
            sample_lists(sample, reach, list, list, 0);
        }
    }
}
