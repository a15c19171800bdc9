//! Why a call is refused.

use std::error::Error;
use std::fmt;

/// The most slots, and the largest width, step, period and length.
pub const MOST: usize = 65_536;

/// Why a call is refused: document 01's and 02's numbers, each with the argument that it is about and that argument's limit.
/// A refused call changes nothing. The number is always the library's; what stands beside it is for the reader.
///
/// ```
/// use sibukyaran::{Diagonals, Refusal};
///
/// let refusal = Diagonals::new(65_537).unwrap_err();
/// assert_eq!(refusal, Refusal::Slots { slots: 65_537 });
/// assert_eq!(refusal.number(), 1);
/// assert_eq!(refusal.to_string(), "slots is 65537: it must be from 1 to 65536");
/// ```
#[derive(Clone, PartialEq, Eq, Debug)]
#[non_exhaustive]
pub enum Refusal {
    /// 1: slots is below 1 or above 65,536.
    Slots {
        /// The slots; a list of rotations can name negative ones.
        slots: i128,
    },
    /// 2: words that were lent as a map are none.
    NotAMap,
    /// 3: a width, step, argument or length is below 1 or above 65,536.
    OutOfRange {
        /// What it is.
        argument: &'static str,
        /// How much it is; rotations can have a negative step.
        value: i128,
    },
    /// 4: a period or the length of values is 0 or does not divide slots.
    Period {
        /// What it is.
        argument: &'static str,
        /// How long it is.
        length: usize,
        /// What it must divide.
        slots: usize,
    },
    /// 5: log_d is above 8, count is 0, or the matrices do not fit the slots.
    Matrices {
        /// The matrices are d by d, d = 2^log_d.
        log_d: usize,
        /// How many there are.
        count: usize,
        /// What their d * d * count slots must divide; for values without slots, what they must not exceed.
        slots: Option<usize>,
    },
    /// 6: a matrix map's shift is out of range.
    Shift {
        /// The shift.
        k: usize,
        /// The least that there is.
        least: usize,
        /// The most.
        most: usize,
    },
    /// 7: a list has another length than it must.
    Length {
        /// What it is.
        argument: &'static str,
        /// How long it is.
        length: usize,
        /// How long it must be.
        wanted: usize,
        /// Whether any multiple of that is taken.
        multiple: bool,
    },
    /// 8: a term has i >= period or j >= slots.
    Term {
        /// Where it stands in the list, from 0.
        at: usize,
        /// The output.
        i: usize,
        /// The input.
        j: usize,
        /// What i must be below.
        period: usize,
        /// What j must be below.
        slots: usize,
    },
    /// 9: a listed baby is negative, above 65,535 or no multiple of the baby step.
    Baby {
        /// The baby.
        baby: i64,
        /// The baby step, 1 where each rotation has its own key.
        baby_step: usize,
    },
    /// 10: a listed giant's residue is no multiple of the giant step.
    Giant {
        /// The giant.
        giant: i64,
        /// The giant step.
        giant_step: usize,
        /// What the residue is taken modulo.
        slots: usize,
    },
    /// 11: a key rotation of the plan is not on the held list.
    Key {
        /// The first key that is missing.
        rotation: u64,
        /// How many the plan needs.
        needed: usize,
        /// How many of them are missing.
        missing: usize,
    },
    /// 12: memory that was lent is shorter than the result.
    Room {
        /// What it is.
        argument: &'static str,
        /// How long it is.
        length: usize,
        /// How long it must be.
        wanted: usize,
    },
    /// 13: bytes are no map file.
    File {
        /// What is wrong with them.
        fault: FileFault,
    },
}

/// What keeps bytes from being a map file.
#[derive(Clone, PartialEq, Eq, Debug)]
#[non_exhaustive]
pub enum FileFault {
    /// There are fewer than their head asks for.
    Short {
        /// How many there are.
        length: u128,
        /// How many there must be.
        wanted: u128,
    },
    /// There are more.
    Long {
        /// How many there are.
        length: u128,
        /// How many there must be.
        wanted: u128,
    },
    /// The slots are below 1 or above 65,536.
    Slots {
        /// The slots.
        slots: u32,
    },
    /// An offset is not below slots.
    Offset {
        /// Which pair has it, from 0.
        at: usize,
        /// The offset.
        offset: u32,
        /// The slots.
        slots: u32,
    },
    /// An offset is not above the one before it.
    Order {
        /// Which pair has it, from 0.
        at: usize,
        /// The offset.
        offset: u32,
        /// The one before it.
        before: u32,
    },
    /// A stored length is 0 or does not divide slots.
    Length {
        /// Which pair has it, from 0.
        at: usize,
        /// The length.
        length: u32,
        /// The slots.
        slots: u32,
    },
}

impl Refusal {
    /// Refusal 1.
    pub(crate) fn of_slots(slots: usize) -> Refusal {
        Refusal::Slots { slots: slots as i128 }
    }

    /// Refusal 3.
    pub(crate) fn out_of_range(argument: &'static str, value: usize) -> Refusal {
        Refusal::OutOfRange { argument, value: value as i128 }
    }

    /// Document 01's or 02's number.
    pub fn number(&self) -> u32 {
        match self {
            Refusal::Slots { .. } => 1,
            Refusal::NotAMap => 2,
            Refusal::OutOfRange { .. } => 3,
            Refusal::Period { .. } => 4,
            Refusal::Matrices { .. } => 5,
            Refusal::Shift { .. } => 6,
            Refusal::Length { .. } => 7,
            Refusal::Term { .. } => 8,
            Refusal::Baby { .. } => 9,
            Refusal::Giant { .. } => 10,
            Refusal::Key { .. } => 11,
            Refusal::Room { .. } => 12,
            Refusal::File { .. } => 13,
        }
    }
}

impl fmt::Display for Refusal {
    fn fmt(&self, f: &mut fmt::Formatter) -> fmt::Result {
        match self {
            Refusal::Slots { slots } => write!(f, "slots is {slots}: it must be from 1 to {MOST}"),
            Refusal::NotAMap => write!(
                f,
                "the words are no map: offsets must rise below slots, lengths divide slots, pairs and values be there"
            ),
            Refusal::OutOfRange { argument, value } => {
                write!(f, "{argument} is {value}: it must be from 1 to {MOST}")
            }
            Refusal::Period { argument, length, slots } => {
                write!(f, "{argument} is {length}: it must be at least 1 and divide the {slots} slots")
            }
            Refusal::Matrices { log_d, count, slots } => show_matrices(f, *log_d, *count, *slots),
            Refusal::Shift { k, least, most } if least > most => {
                write!(f, "k is {k}: there is no shift of matrices of one row")
            }
            Refusal::Shift { k, least, most } => write!(f, "k is {k}: the shift must be from {least} to {most}"),
            Refusal::Length { argument, length, wanted, multiple } => {
                let form = if *multiple { "a multiple of " } else { "" };
                write!(f, "{argument} has length {length}: it must be {form}{wanted}")
            }
            Refusal::Term { at, i, j, period, slots } => write!(
                f,
                "term {at} has i = {i} and j = {j}: i must be below the period {period} and j below the {slots} slots"
            ),
            Refusal::Baby { baby, baby_step } => {
                write!(f, "baby rotation {baby}: it must be from 0 to {} and a multiple of {baby_step}", MOST - 1)
            }
            Refusal::Giant { giant, giant_step, slots } => {
                write!(f, "giant rotation {giant}: its residue modulo {slots} must be a multiple of {giant_step}")
            }
            Refusal::Key { rotation, needed, missing } => {
                write!(f, "the key for rotation {rotation} is not held: {missing} of the plan's {needed} are missing")
            }
            Refusal::Room { argument, length, wanted } => {
                write!(f, "{argument} has length {length}: the result needs {wanted}")
            }
            Refusal::File { fault } => write!(f, "the bytes are no map file: {fault}"),
        }
    }
}

fn show_matrices(f: &mut fmt::Formatter, log_d: usize, count: usize, slots: Option<usize>) -> fmt::Result {
    if log_d > 8 {
        return write!(f, "log_d is {log_d}: it must be from 0 to 8");
    }
    if count == 0 {
        return write!(f, "count is 0: it must be at least 1");
    }
    let d = 1 << log_d;
    match slots {
        Some(slots) => {
            write!(f, "count is {count} and d is {d}: count * d * d must divide the {slots} slots")
        }
        None => write!(f, "count is {count} and d is {d}: count * d * d must be at most {MOST}"),
    }
}

impl fmt::Display for FileFault {
    fn fmt(&self, f: &mut fmt::Formatter) -> fmt::Result {
        match self {
            FileFault::Short { length, wanted } => write!(f, "there are {length}, and {wanted} are asked for"),
            FileFault::Long { length, wanted } => write!(f, "there are {length}, and only {wanted} are asked for"),
            FileFault::Slots { slots } => write!(f, "slots is {slots}: it must be from 1 to {MOST}"),
            FileFault::Offset { at, offset, slots } => {
                write!(f, "offset {at} is {offset}: it must be below the {slots} slots")
            }
            FileFault::Order { at, offset, before } => {
                write!(f, "offset {at} is {offset}: it must be above the one before it, {before}")
            }
            FileFault::Length { at, length, slots } => {
                write!(f, "length {at} is {length}: it must be at least 1 and divide the {slots} slots")
            }
        }
    }
}

impl Error for Refusal {}

/// A number that the call at hand does not give, so that the crate and the library are not of one version.
pub(crate) fn unexpected(number: u32) -> ! {
    panic!("the library refused with {number}, which this call does not give");
}

/// Whether a number is outside 1..=65,536.
pub(crate) fn is_outside(n: usize) -> bool {
    !(1..=MOST).contains(&n)
}
