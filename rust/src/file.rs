//! What keeps bytes that the library has refused from being a map file.

use crate::refusal::{FileFault, is_outside};

/// Word `at` of the bytes, four bytes each, least first.
fn word(bytes: &[u8], at: usize) -> u32 {
    u32::from_le_bytes(bytes[4 * at..4 * at + 4].try_into().unwrap())
}

/// What is wrong with the pair at a place, beside the offset before it.
fn pair_fault(at: usize, slots: u32, before: Option<u32>, offset: u32, length: u32) -> Option<FileFault> {
    match before {
        _ if offset >= slots => Some(FileFault::Offset { at, offset, slots }),
        Some(before) if offset <= before => Some(FileFault::Order { at, offset, before }),
        _ if length == 0 || !slots.is_multiple_of(length) => Some(FileFault::Length { at, length, slots }),
        _ => None,
    }
}

/// The first fault of the bytes in their own order; none if they are a file.
pub(crate) fn fault(bytes: &[u8]) -> Option<FileFault> {
    let length = bytes.len() as u128;
    let short = |wanted| (length < wanted).then_some(FileFault::Short { length, wanted });
    if let Some(fault) = short(8) {
        return Some(fault);
    }
    let (slots, count) = (word(bytes, 0), word(bytes, 1) as usize);
    if is_outside(slots as usize) {
        return Some(FileFault::Slots { slots });
    }
    let mut wanted = 8 + 8 * count as u128;
    if let Some(fault) = short(wanted) {
        return Some(fault);
    }
    let mut before = None;
    for at in 0..count {
        let (offset, stored) = (word(bytes, 2 + 2 * at), word(bytes, 3 + 2 * at));
        let fault = pair_fault(at, slots, before, offset, stored);
        if fault.is_some() {
            return fault;
        }
        wanted += 8 * stored as u128;
        before = Some(offset);
    }
    short(wanted).or((length > wanted).then_some(FileFault::Long { length, wanted }))
}

#[cfg(test)]
mod tests {
    use super::fault;
    use crate::{Diagonals, Refusal, lent};

    /// A fault is found in these bytes just where the library refuses them.
    #[track_caller]
    fn same(bytes: &[u8]) {
        assert_eq!(fault(bytes).is_some(), lent::map_file_room(bytes).refusal != 0, "{bytes:?}");
    }

    #[test]
    fn a_fault_is_found_where_the_library_refuses() -> Result<(), Refusal> {
        let maps = [
            Diagonals::new(1)?,
            Diagonals::new(65_536)?,
            Diagonals::from_slot_map(4, 2, [(0, 1, 12), (1, 0, 2)])?,
            Diagonals::from_slot_map(6, 3, [(0, 0, 1), (2, 5, u64::MAX), (1, 5, 0)])?,
        ];
        for file in maps.map(|map| map.write_map_file()) {
            assert_eq!(fault(&file), None);
            (0..file.len()).for_each(|n| same(&file[..n]));
            (0..=255).for_each(|byte| same(&[&file[..], &[byte]].concat()));
            for (at, byte) in (0..file.len()).flat_map(|at| (0..=255).map(move |byte| (at, byte))) {
                let mut bytes = file.clone();
                bytes[at] = byte;
                same(&bytes);
            }
        }
        Ok(())
    }
}
