//! The map store, the plain run and map files.

use crate::file;
use crate::lent::{self, Numbers};
use crate::plans::{LinearTransformationStrategy, distinct};
use crate::refusal::{Refusal, is_outside, unexpected};

/// A linear map over slots by its diagonals: diagonal k of a map M of s slots holds `M[i][(i + k) mod s]` at slot i. A
/// diagonal is stored as one period of its values, whose length divides the slots.
///
/// ```
/// use sibukyaran::{Diagonals, LinearTransformationStrategy::Bsgs, Refusal};
///
/// // Output 0 reads input 1 twelve times, output 1 input 0 twice, and so on every 2 of 4 slots.
/// let mut map = Diagonals::from_slot_map(4, 2, [(0, 1, 5), (0, 1, 7), (1, 0, 2)])?;
/// assert_eq!(map.indexes(), [1, 3]);
/// assert_eq!(map.get(1), Some(&[12, 0][..]));
/// assert_eq!(map.evaluate(&[1, 2, 3, 4], Bsgs { giant_step: 2 })?, [24, 2, 48, 6]);
///
/// map.transpose();
/// assert_eq!(map.get(-1), Some(&[0, 12][..]));
/// # Ok::<(), Refusal>(())
/// ```
#[derive(Clone, PartialEq, Eq, Debug)]
pub struct Diagonals {
    slots: usize,
    pairs: Vec<u32>,
    values: Vec<u64>,
}

/// The sum of the stored lengths.
fn total(pairs: &[u32]) -> usize {
    pairs.chunks_exact(2).map(|pair| pair[1] as usize).sum()
}

/// The lists of terms (i, j, w), as the library takes them. A number that is no word is out of every range, as the largest
/// word is.
pub(crate) struct Terms {
    pub is: Vec<u32>,
    pub js: Vec<u32>,
    pub ws: Vec<u64>,
    /// The first term that has such a number, to be told as it was given: its place, i and j.
    beyond: Option<(usize, usize, usize)>,
}

impl Terms {
    pub fn of(terms: impl IntoIterator<Item = (usize, usize, u64)>) -> Terms {
        let mut lists = Terms { is: Vec::new(), js: Vec::new(), ws: Vec::new(), beyond: None };
        for (at, (i, j, w)) in terms.into_iter().enumerate() {
            let words = [i, j].map(|n| u32::try_from(n).ok());
            if words.contains(&None) {
                lists.beyond.get_or_insert((at, i, j));
            }
            lists.is.push(words[0].unwrap_or(u32::MAX));
            lists.js.push(words[1].unwrap_or(u32::MAX));
            lists.ws.push(w);
        }
        lists
    }

    /// How many diagonals the terms reach.
    fn diagonals(&self, slots: usize) -> usize {
        let offsets: Vec<i64> = self.is.iter().zip(&self.js).map(|(&i, &j)| j as i64 - i as i64).collect();
        distinct(&offsets, slots)
    }

    /// The map that a call makes of the terms, each diagonal that they reach at a period, or its refusal.
    pub fn built(
        &self,
        slots: usize,
        period: usize,
        call: impl Fn(&mut [u32], &mut [u64]) -> Numbers,
    ) -> Result<Diagonals, u32> {
        // Without room: a refusal before that of the room, so that no map is made room for in vain.
        let refusal = call(&mut [], &mut []).refusal;
        if refusal != 0 && refusal != 12 {
            return Err(refusal);
        }
        let count = self.diagonals(slots);
        Diagonals::built(slots, count, count * period, call)
    }

    /// Refusal 8.
    pub fn refused(&self, period: usize, slots: usize) -> Refusal {
        let outside = |&at: &usize| self.is[at] as usize >= period || self.js[at] as usize >= slots;
        let at = (0..self.is.len()).find(outside).unwrap_or_else(|| unexpected(8));
        let as_listed = (at, self.is[at] as usize, self.js[at] as usize);
        let (at, i, j) = self.beyond.filter(|&(beyond, ..)| beyond == at).unwrap_or(as_listed);
        Refusal::Term { at, i, j, period, slots }
    }
}

impl Diagonals {
    /// The empty map. Refused with 1.
    pub fn new(slots: usize) -> Result<Diagonals, Refusal> {
        match lent::new(slots).refusal {
            0 => Ok(Diagonals { slots, pairs: Vec::new(), values: Vec::new() }),
            1 => Err(Refusal::of_slots(slots)),
            number => unexpected(number),
        }
    }

    /// What a call writes into memory for so many diagonals and values, or its refusal.
    pub(crate) fn built(
        slots: usize,
        count: usize,
        values: usize,
        call: impl FnOnce(&mut [u32], &mut [u64]) -> Numbers,
    ) -> Result<Diagonals, u32> {
        let mut map = Diagonals { slots, pairs: vec![0; 2 * count], values: vec![0; values] };
        let Numbers { refusal, value } = call(&mut map.pairs, &mut map.values);
        if refusal != 0 {
            return Err(refusal);
        }
        map.cut(value);
        map.values.shrink_to_fit();
        Ok(map)
    }

    /// Drops what stands behind the first `count` diagonals.
    fn cut(&mut self, count: usize) {
        self.pairs.truncate(2 * count);
        self.values.truncate(total(&self.pairs));
    }

    /// The map of lent words, copied. Refused with 1, 2.
    pub fn from_lent(map: lent::Map) -> Result<Diagonals, Refusal> {
        match lent::map_refusal(map) {
            0 => {
                let mut owned = Diagonals { slots: map.slots, pairs: map.pairs.to_vec(), values: map.values.to_vec() };
                owned.cut(map.count);
                Ok(owned)
            }
            1 => Err(Refusal::of_slots(map.slots)),
            2 => Err(Refusal::NotAMap),
            number => unexpected(number),
        }
    }

    /// The words of the map, for the calls on lent memory.
    pub fn lent(&self) -> lent::Map<'_> {
        lent::Map { slots: self.slots, count: self.count(), pairs: &self.pairs, values: &self.values }
    }

    /// The slots.
    pub fn slots(&self) -> usize {
        self.slots
    }

    /// How many diagonals are stored.
    pub fn count(&self) -> usize {
        self.pairs.len() / 2
    }

    /// Whether none is stored.
    pub fn is_empty(&self) -> bool {
        lent::is_empty(self.lent()).value
    }

    /// The offsets of the stored diagonals, rising.
    pub fn indexes(&self) -> Vec<i64> {
        let mut offsets = vec![0; self.count()];
        lent::indexes(self.lent(), &mut offsets);
        offsets.into_iter().map(i64::from).collect()
    }

    /// The stored length of the diagonal at an index, which counts modulo slots.
    pub fn period(&self, index: i64) -> Option<usize> {
        Some(lent::period(self.lent(), index).value).filter(|&length| length > 0)
    }

    /// One period of the diagonal at an index, which counts modulo slots.
    pub fn get(&self, index: i64) -> Option<&[u64]> {
        let length = self.period(index)?;
        let offset = lent::normalize_linear_transform_diagonal(index, self.slots).value;
        let before = self.pairs.chunks_exact(2).take_while(|pair| pair[0] as usize != offset);
        let start = before.map(|pair| pair[1] as usize).sum::<usize>();
        Some(&self.values[start..start + length])
    }

    /// The stored diagonals, rising: offset and one period.
    pub fn iter(&self) -> impl Iterator<Item = (usize, &[u64])> {
        let mut rest = &self.values[..];
        self.pairs.chunks_exact(2).map(move |pair| {
            let (period, behind) = rest.split_at(pair[1] as usize);
            rest = behind;
            (pair[0] as usize, period)
        })
    }

    /// Replaces or inserts the diagonal at an index, which counts modulo slots, by one period of it. Refused with 4.
    pub fn set(&mut self, index: i64, values: impl AsRef<[u64]>) -> Result<(), Refusal> {
        let (slots, count, new) = (self.slots, self.count(), values.as_ref());
        let old = self.period(index).unwrap_or(0);
        self.pairs.extend([0, 0]);
        let held = self.values.len();
        self.values.resize(held + new.len().saturating_sub(old), 0);
        let answer = lent::set(slots, count, &mut self.pairs, &mut self.values, index, new);
        match answer.refusal {
            0 => {
                self.cut(answer.value);
                Ok(())
            }
            4 => {
                self.cut(count);
                Err(Refusal::Period { argument: "the length of the values", length: new.len(), slots })
            }
            number => unexpected(number),
        }
    }

    /// The map whose output i + q period sums `w * input[(j + q period) mod slots]` over the terms (i, j, w), for each
    /// q < slots / period. Each diagonal that a term reaches is stored at the period. Refused with 1, 4, 8.
    pub fn from_slot_map(
        slots: usize,
        period: usize,
        terms: impl IntoIterator<Item = (usize, usize, u64)>,
    ) -> Result<Diagonals, Refusal> {
        let terms = Terms::of(terms);
        let call =
            |p: &mut [u32], v: &mut [u64]| lent::from_slot_map(slots, period, &terms.is, &terms.js, &terms.ws, p, v);
        terms.built(slots, period, call).map_err(|number| match number {
            1 => Refusal::of_slots(slots),
            4 => Refusal::Period { argument: "the period", length: period, slots },
            8 => terms.refused(period, slots),
            _ => unexpected(number),
        })
    }

    /// Stores every diagonal at the least common multiple of their smallest periods.
    pub fn shrink_period(&mut self) {
        let smallest = |values: &[u64]| lent::min_period(values).value;
        let period = self.iter().fold(1, |all, (_, values)| lent::period_lcm(all, smallest(values)).value);
        let call = |p: &mut [u32], v: &mut [u64]| lent::shrink_period(self.lent(), p, v);
        *self = Diagonals::built(self.slots, self.count(), self.count() * period, call)
            .unwrap_or_else(|number| unexpected(number));
    }

    /// Transposes the matrix.
    pub fn transpose(&mut self) {
        let call = |p: &mut [u32], v: &mut [u64]| lent::transpose(self.lent(), p, v);
        *self = Diagonals::built(self.slots, self.count(), self.values.len(), call)
            .unwrap_or_else(|number| unexpected(number));
    }

    /// The product of the matrix and an input, modulo 2^64, the same for each strategy. Refused with 3, 7.
    pub fn evaluate(&self, input: &[u64], strategy: LinearTransformationStrategy) -> Result<Vec<u64>, Refusal> {
        let mut out = vec![0; self.slots];
        self.evaluate_into(input, strategy, &mut out)?;
        Ok(out)
    }

    /// The same into the first slots words of `out`, the others kept. Refused with 3, 7, 12.
    pub fn evaluate_into(
        &self,
        input: &[u64],
        strategy: LinearTransformationStrategy,
        out: &mut [u64],
    ) -> Result<(), Refusal> {
        let (kind, giant_step) = strategy.numbers();
        match lent::evaluate(self.lent(), input, kind, giant_step, out) {
            0 => Ok(()),
            3 => Err(strategy.refused()),
            7 => Err(self.refused_input(input)),
            12 => Err(Refusal::Room { argument: "out", length: out.len(), wanted: self.slots }),
            number => unexpected(number),
        }
    }

    /// Refusal 7.
    pub(crate) fn refused_input(&self, input: &[u64]) -> Refusal {
        Refusal::Length { argument: "the input", length: input.len(), wanted: self.slots, multiple: false }
    }

    /// The bytes of the map's file: slots and count, four bytes each, the pairs, four bytes a number, the values, eight
    /// bytes each, all least byte first.
    ///
    /// ```
    /// use sibukyaran::{Diagonals, Refusal};
    ///
    /// let mut map = Diagonals::new(2)?;
    /// map.set(1, [258])?;
    /// let file = map.write_map_file();
    /// assert_eq!(file, [2, 0, 0, 0, 1, 0, 0, 0, 1, 0, 0, 0, 1, 0, 0, 0, 2, 1, 0, 0, 0, 0, 0, 0]);
    /// assert_eq!(Diagonals::read_map_file(&file)?, map);
    /// assert_eq!(Diagonals::read_map_file(&file[1..]).unwrap_err().number(), 13);
    /// # Ok::<(), Refusal>(())
    /// ```
    pub fn write_map_file(&self) -> Vec<u8> {
        let mut file = vec![0; lent::map_file_size(self.lent()).value];
        match lent::write_map_file(self.lent(), &mut file).refusal {
            0 => file,
            number => unexpected(number),
        }
    }

    /// The map of a file. Refused with 13.
    pub fn read_map_file(bytes: &[u8]) -> Result<Diagonals, Refusal> {
        let room = lent::map_file_room(bytes);
        let mut map = Diagonals { slots: 0, pairs: vec![0; room.pairs], values: vec![0; room.values] };
        let answer = lent::read_map_file(bytes, &mut map.pairs, &mut map.values);
        map.slots = answer.slots;
        match answer.refusal {
            0 => Ok(map),
            13 => Err(Refusal::File { fault: file::fault(bytes).unwrap_or_else(|| unexpected(13)) }),
            number => unexpected(number),
        }
    }
}

/// The least common multiple of two periods. Refused with 3.
pub fn period_lcm(a: usize, b: usize) -> Result<usize, Refusal> {
    let answer = lent::period_lcm(a, b);
    match answer.refusal {
        0 => Ok(answer.value),
        3 if is_outside(a) => Err(Refusal::out_of_range("the first period", a)),
        3 => Err(Refusal::out_of_range("the second period", b)),
        number => unexpected(number),
    }
}

/// The smallest p dividing the length of `v` with `v[t] = v[t mod p]` for every t. Refused with 3.
pub fn min_period(v: &[u64]) -> Result<usize, Refusal> {
    let answer = lent::min_period(v);
    match answer.refusal {
        0 => Ok(answer.value),
        3 => Err(Refusal::out_of_range("the length", v.len())),
        number => unexpected(number),
    }
}

/// `out[j] = src[(j + k) mod src.len()]`. Refused with 3, 7.
pub fn rotate_slots_into(src: &[u64], k: i64, out: &mut [u64]) -> Result<(), Refusal> {
    match lent::rotate_slots_into(src, k, out) {
        0 => Ok(()),
        3 => Err(Refusal::out_of_range("the length of the source", src.len())),
        7 => Err(Refusal::Length { argument: "out", length: out.len(), wanted: src.len(), multiple: true }),
        number => unexpected(number),
    }
}
