//! Buffers that are lent in the middle of others, so that a write outside them is seen.

use sibukyaran::lent::PairRecord;

/// What is lent: bytes, words and records.
pub trait Element: Copy + PartialEq {
    /// What stands on either side of a lent buffer.
    const GUARD: [Self; 4];
}

const GUARD: u32 = 0x5a5a_1234;

impl Element for u8 {
    const GUARD: [u8; 4] = GUARD.to_le_bytes();
}

impl Element for u32 {
    const GUARD: [u32; 4] = [GUARD; 4];
}

impl Element for u64 {
    const GUARD: [u64; 4] = [GUARD as u64; 4];
}

impl Element for PairRecord {
    // Both flags on either side, so that either is seen where it does not belong.
    const GUARD: [PairRecord; 4] = {
        let (with, without) =
            (PairRecord { odd: GUARD, even_there: true }, PairRecord { odd: GUARD, even_there: false });
        [with, without, with, without]
    };
}

/// Elements lent in the middle of others, which a call must leave alone.
pub struct Lent<T> {
    elements: Vec<T>,
}

impl<T: Element> Lent<T> {
    pub fn new(elements: &[T]) -> Self {
        Lent { elements: [&T::GUARD, elements, &T::GUARD].concat() }
    }

    fn end(&self) -> usize {
        self.elements.len() - T::GUARD.len()
    }

    pub fn part(&mut self) -> &mut [T] {
        let end = self.end();
        &mut self.elements[T::GUARD.len()..end]
    }

    /// The lent elements, and whether those around them are as they were.
    pub fn back(self) -> (Vec<T>, bool) {
        let (front, behind) = self.elements.split_at(self.end());
        let around = front[..T::GUARD.len()] == T::GUARD && behind == T::GUARD;
        (front[T::GUARD.len()..].to_vec(), around)
    }
}
