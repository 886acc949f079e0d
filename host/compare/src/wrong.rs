//! Models of `child`, `name`, `write`, `write_records` and `table` with one fault each, made from the answers
//! of the fast ones. (Those of the other calls are faults inside `fast`.)

use crate::cases::leb128;
use crate::{Makes, Outcome};

pub mod records;
pub mod table;
pub mod write;

const RECORD: u8 = 66;
const FUNCTION: u8 = 67;
const SYMBOL: u8 = 68;

/// How many parts there are, as 18 tells it; none if the encoding is bad.
fn count(right: crate::Parts, bytes: &[u8]) -> u64 {
    match right(bytes, u64::MAX) {
        Outcome {
            number: 18, place, ..
        } => place.into(),
        _ => 0,
    }
}

fn first(bytes: &[u8]) -> u8 {
    bytes.first().copied().unwrap_or(0)
}

/// The answer, changed; a refusal as it is.
fn answered(mut outcome: Outcome, change: impl Fn(&mut Outcome)) -> Outcome {
    if outcome.number == 0 {
        change(&mut outcome);
    }
    outcome
}

/// The refusal with 18, its place changed; all else as it is.
fn none(mut outcome: Outcome, change: impl Fn(&mut u32)) -> Outcome {
    if outcome.number == 18 {
        change(&mut outcome.place);
    }
    outcome
}

/// The bytes that a number takes.
fn size(number: u32) -> u32 {
    leb128(number as usize).len() as u32
}

/// Wrong models of `child`.
pub mod child {
    use super::*;
    use crate::child::fast as right;
    use crate::name::fast as name;

    pub fn return_first(bytes: &[u8], k: u64) -> Outcome {
        let count = count(right, bytes);
        match k {
            _ if first(bytes) != FUNCTION || k >= count => right(bytes, k),
            0 => right(bytes, count - 1),
            _ => right(bytes, k - 1),
        }
    }

    pub fn no_return(bytes: &[u8], k: u64) -> Outcome {
        let count = count(right, bytes);
        match first(bytes) {
            FUNCTION if count > 0 && k >= count - 1 => Outcome::refusal(18, count as u32 - 1),
            _ => right(bytes, k),
        }
    }

    pub fn at_its_name(bytes: &[u8], k: u64) -> Outcome {
        answered(right(bytes, k), |child| {
            if first(bytes) == RECORD {
                let name = name(bytes, k);
                child.place = name.place - size(name.length);
            }
        })
    }

    pub fn packed_swapped(bytes: &[u8], k: u64) -> Outcome {
        match first(bytes) {
            101..=125 if k < 2 => right(bytes, 1 - k),
            _ => right(bytes, k),
        }
    }

    pub fn packed_as_parts(bytes: &[u8], k: u64) -> Outcome {
        answered(right(bytes, k), |child| {
            if child.extra == 1 {
                *child = Outcome::part(0, 1, 0);
            }
        })
    }

    pub fn packed_without(bytes: &[u8], k: u64) -> Outcome {
        match first(bytes) {
            96..=125 if bytes.len() == 1 => Outcome::refusal(18, 0),
            _ => right(bytes, k),
        }
    }

    pub fn parts_as_packed(bytes: &[u8], k: u64) -> Outcome {
        answered(right(bytes, k), |child| {
            match bytes.get(child.place as usize) {
                Some(byte @ 32..=36) if child.extra == 0 => {
                    *child = Outcome::part(*byte as usize - 32, 0, 1)
                }
                _ => (),
            }
        })
    }

    pub fn texts_too(bytes: &[u8], k: u64) -> Outcome {
        match first(bytes) {
            SYMBOL => name(bytes, k),
            _ => right(bytes, k),
        }
    }

    pub fn length_one_less(bytes: &[u8], k: u64) -> Outcome {
        answered(right(bytes, k), |child| child.length -= 1 - child.extra)
    }

    pub fn in_the_payload(bytes: &[u8], k: u64) -> Outcome {
        answered(right(bytes, k), |child| {
            child.place -= 3 * (1 - child.extra)
        })
    }

    pub fn count_of_one_byte(bytes: &[u8], k: u64) -> Outcome {
        answered(right(bytes, k), |child| {
            if matches!(first(bytes), RECORD | FUNCTION) && bytes[3] >= 128 {
                child.place -= 1;
            }
        })
    }

    pub fn one_more_counted(bytes: &[u8], k: u64) -> Outcome {
        none(right(bytes, k), |count| *count += 1)
    }

    pub fn k_for_the_count(bytes: &[u8], k: u64) -> Outcome {
        none(right(bytes, k), |count| *count = k as u32)
    }

    pub fn k_of_32_bits(bytes: &[u8], k: u64) -> Outcome {
        right(bytes, k as u32 as u64)
    }

    pub fn eighteen_first(bytes: &[u8], k: u64) -> Outcome {
        match bytes.first() {
            Some(0..=36 | 68 | 69) => Outcome::refusal(18, 0),
            _ => right(bytes, k),
        }
    }

    pub fn refuses_everything(_: &[u8], _: u64) -> Outcome {
        Outcome::refusal(18, 0)
    }
}

/// Wrong models of `name`.
pub mod name {
    use super::*;
    use crate::child::fast as child;
    use crate::name::fast as right;

    pub fn at_its_length(bytes: &[u8], k: u64) -> Outcome {
        answered(right(bytes, k), |name| name.place -= size(name.length))
    }

    pub fn with_its_length(bytes: &[u8], k: u64) -> Outcome {
        answered(right(bytes, k), |name| name.length += size(name.length))
    }

    pub fn length_of_one_byte(bytes: &[u8], k: u64) -> Outcome {
        answered(right(bytes, k), |name| name.place -= size(name.length) - 1)
    }

    pub fn count_of_one_byte(bytes: &[u8], k: u64) -> Outcome {
        answered(right(bytes, k), |name| name.place -= (bytes[3] >> 7) as u32)
    }

    pub fn in_the_payload(bytes: &[u8], k: u64) -> Outcome {
        answered(right(bytes, k), |name| name.place -= 3)
    }

    pub fn function_too(bytes: &[u8], k: u64) -> Outcome {
        match first(bytes) {
            FUNCTION => child(bytes, k),
            _ => right(bytes, k),
        }
    }

    pub fn symbol_without(bytes: &[u8], k: u64) -> Outcome {
        match right(bytes, k).number {
            0 | 18 if first(bytes) == SYMBOL => Outcome::refusal(18, 0),
            _ => right(bytes, k),
        }
    }

    pub fn field_for_name(bytes: &[u8], k: u64) -> Outcome {
        match first(bytes) {
            RECORD => child(bytes, k),
            _ => right(bytes, k),
        }
    }

    pub fn empty_left_out(bytes: &[u8], k: u64) -> Outcome {
        let names = (0..count(right, bytes)).map(|k| right(bytes, k));
        let full: Vec<Outcome> = names.filter(|name| name.length > 0).collect();
        match full.get(k.min(4096) as usize) {
            Some(name) => *name,
            None => none(right(bytes, u64::MAX), |count| *count = full.len() as u32),
        }
    }

    pub fn first_of_equals(bytes: &[u8], k: u64) -> Outcome {
        let text = |name: &Outcome| {
            let place = name.place as usize;
            bytes[place..place + name.length as usize].to_vec()
        };
        answered(right(bytes, k), |name| {
            let mut names = (0..=k).map(|k| right(bytes, k));
            *name = names.find(|other| text(other) == text(name)).unwrap();
        })
    }

    pub fn one_more_counted(bytes: &[u8], k: u64) -> Outcome {
        none(right(bytes, k), |count| *count += 1)
    }

    pub fn k_for_the_count(bytes: &[u8], k: u64) -> Outcome {
        none(right(bytes, k), |count| *count = k as u32)
    }

    pub fn k_of_32_bits(bytes: &[u8], k: u64) -> Outcome {
        right(bytes, k as u32 as u64)
    }

    pub fn eighteen_first(bytes: &[u8], k: u64) -> Outcome {
        match bytes.first() {
            Some(0..=65 | 67 | 69..=125) => Outcome::refusal(18, 0),
            _ => right(bytes, k),
        }
    }

    pub fn refuses_everything(_: &[u8], _: u64) -> Outcome {
        Outcome::refusal(18, 0)
    }
}

// -------------------------------------------------------------------------------------------------
// Calls that are lent a buffer

/// The answer, if there is room for it, or 12.
fn lend(answer: &[u8], out: &mut [u8]) -> Outcome {
    match out.get_mut(..answer.len()) {
        Some(front) => {
            front.copy_from_slice(answer);
            Outcome::answer(answer.len(), 0)
        }
        None => Outcome::refusal(12, answer.len() as u32),
    }
}

/// What is said whatever buffer is lent: a refusal with 12 if there is an answer.
fn told(right: Makes, bytes: &[u8]) -> Outcome {
    right(bytes, &mut [])
}

/// A refusal with one of these numbers, its place changed; all else as it is.
fn placed(
    right: Makes,
    numbers: &[u32],
    bytes: &[u8],
    out: &mut [u8],
    change: impl Fn(usize) -> usize,
) -> Outcome {
    let said = right(bytes, out);
    match numbers.contains(&said.number) {
        true => Outcome::refusal(said.number, change(said.place as usize) as u32),
        false => said,
    }
}

fn room_to_spare(right: Makes, bytes: &[u8], out: &mut [u8]) -> Outcome {
    match told(right, bytes) {
        short if short.number == 12 && short.place as usize == out.len() => short,
        _ => right(bytes, out),
    }
}

fn one_byte_more(right: Makes, bytes: &[u8], out: &mut [u8]) -> Outcome {
    let said = right(bytes, out);
    if let (0, Some(byte)) = (said.number, out.get_mut(said.length as usize)) {
        *byte = 0;
    }
    said
}

fn writes_what_fits(right: Makes, bytes: &[u8], out: &mut [u8]) -> Outcome {
    let said = right(bytes, out);
    if said.number == 12 {
        let mut all = vec![0; said.place as usize];
        right(bytes, &mut all);
        out.copy_from_slice(&all[..out.len()]);
    }
    said
}
