//! The sheet check written in Rust for speed: one loop over the entries for their numbers and
//! lengths, and one for the encodings, in which one of one byte is taken without a call.
//!
//! `check::<0>` is right. Any other number puts one fault in, as for the reader. `check_each` hands
//! each entry on as its encoding is read, to `fill` and `join`.

use super::read;

const MAX_ENTRIES: usize = 32;
const MAX_LENGTH: usize = 2048;
const MAX_ENCODINGS: usize = 16_384;

/// A sheet that is sound.
#[derive(Clone, Copy, Debug, PartialEq, Eq)]
pub struct Checked {
    pub entries: usize,
    pub encodings: usize,
}

/// What is wrong with a sheet: 01-scope.md, "Sheets", in its order.
#[derive(Clone, Copy, Debug, PartialEq, Eq)]
pub enum Rule {
    NoCount,
    Over32,
    EntriesCut,
    NotRising,
    BadLength,
    NoSecondCount,
    Over16384,
    NotTheSum,
    EncodingsCut,
    LeftOver,
    BadEncoding,
}

impl Rule {
    /// All of them in words.
    pub const ALL: [&'static str; 11] = [
        "count missing",
        "count over 32",
        "entries past the end",
        "entry not rising",
        "entry of bad length",
        "second count missing",
        "second count over 16,384",
        "second count not the sum",
        "bytes past the end",
        "bytes left over",
        "encoding refused",
    ];
}

/// A sheet that is refused with 13.
#[derive(Clone, Copy, Debug, PartialEq, Eq)]
pub struct Broken {
    pub rule: Rule,
    pub place: u32,
}

/// An entry whose encoding was read.
pub struct Entry {
    pub blank: usize,
    /// where its encoding starts in the sheet, and how long and deep it is
    pub start: usize,
    pub length: usize,
    pub depth: u32,
}

/// The faults of the wrong models, one each.
pub mod fault {
    pub const REFUSES_EVERYTHING: u8 = 1;
    pub const WHOLE_LENGTH: u8 = 2;
    pub const ENTRIES_33: u8 = 3;
    pub const MISSING_ENTRY: u8 = 4;
    pub const EQUAL_NUMBERS: u8 = 5;
    pub const FALLING_NUMBERS: u8 = 6;
    pub const LOW_BYTES: u8 = 7;
    pub const LENGTH_0: u8 = 8;
    pub const LONGER: u8 = 9;
    pub const NUMBERS_FIRST: u8 = 10;
    pub const SECOND_COUNT_AT_END: u8 = 11;
    pub const MORE_BYTES: u8 = 12;
    pub const NO_SUM: u8 = 13;
    pub const SUM_OF_16_BITS: u8 = 14;
    pub const LEFT_OVER: u8 = 15;
    pub const LEFT_OVER_AT_COUNT: u8 = 16;
    pub const ENCODINGS_FIRST: u8 = 17;
    pub const NOT_READ: u8 = 18;
    pub const LAST_NOT_READ: u8 = 19;
    pub const PLACE_IN_ENCODING: u8 = 20;
    pub const PLACE_IN_SHEET: u8 = 21;
}

use fault::*;

#[inline(always)]
fn broken<T>(rule: Rule, place: usize) -> Result<T, Broken> {
    let place = place as u32;
    Err(Broken { rule, place })
}

#[inline(always)]
pub(super) fn number(low: u8, high: u8) -> usize {
    u16::from_le_bytes([low, high]) as usize
}

/// Checks a sheet, whatever the bytes are.
pub fn check<const FAULT: u8>(bytes: &[u8]) -> Result<Checked, Broken> {
    check_each::<FAULT>(bytes, |_| ())
}

/// Checks a sheet. The entries handed on mean nothing if it is refused.
#[inline(always)]
pub fn check_each<const FAULT: u8>(
    bytes: &[u8],
    mut each: impl FnMut(Entry),
) -> Result<Checked, Broken> {
    if FAULT == REFUSES_EVERYTHING {
        return broken(Rule::NoCount, 0);
    }
    let [low, high, rest @ ..] = bytes else {
        return broken(Rule::NoCount, 0);
    };
    let count = number(*low, *high);
    if count > MAX_ENTRIES + (FAULT == ENTRIES_33) as usize {
        return broken(Rule::Over32, 0);
    }
    if rest.len() < 4 * count {
        let place = if FAULT == MISSING_ENTRY {
            rest.len() / 4
        } else {
            0
        };
        return broken(Rule::EntriesCut, place);
    }
    let (entries, rest) = rest.split_at(4 * count);
    let sum = if FAULT == NUMBERS_FIRST {
        entries_are_good::<FAULT>(entries, true, false)?;
        entries_are_good::<FAULT>(entries, false, true)?
    } else {
        entries_are_good::<FAULT>(entries, true, true)?
    };

    let second_count = 2 + 4 * count;
    let [low, high, encodings @ ..] = rest else {
        let place = if FAULT == SECOND_COUNT_AT_END {
            bytes.len()
        } else {
            second_count
        };
        return broken(Rule::NoSecondCount, place);
    };
    let total = number(*low, *high);
    if total > MAX_ENCODINGS && FAULT != MORE_BYTES {
        return broken(Rule::Over16384, second_count);
    }
    if total != sum && FAULT != NO_SUM && !(FAULT == SUM_OF_16_BITS && total == sum % 65_536) {
        return broken(Rule::NotTheSum, second_count);
    }
    if encodings.len() < total {
        return broken(Rule::EncodingsCut, second_count);
    }
    if FAULT == ENCODINGS_FIRST {
        encodings_are_good::<FAULT>(entries, encodings, |_| ())?;
    }
    if encodings.len() > total && FAULT != LEFT_OVER {
        let place = if FAULT == LEFT_OVER_AT_COUNT {
            second_count
        } else {
            second_count + 2 + total
        };
        return broken(Rule::LeftOver, place);
    }
    if FAULT != NOT_READ {
        encodings_are_good::<FAULT>(entries, encodings, &mut each)?;
    }
    Ok(Checked {
        entries: count,
        encodings: if FAULT == WHOLE_LENGTH {
            bytes.len()
        } else {
            total
        },
    })
}

/// The sum of the lengths, if the entries' numbers and lengths are good.
#[inline(always)]
fn entries_are_good<const FAULT: u8>(
    entries: &[u8],
    numbers: bool,
    lengths: bool,
) -> Result<usize, Broken> {
    let mut least = 0; // the least number that rises
    let mut sum = 0;
    for (index, entry) in entries.chunks_exact(4).enumerate() {
        let high = if FAULT == LOW_BYTES { 0 } else { entry[1] };
        let blank = number(entry[0], high);
        let length = number(entry[2], entry[3]);
        let equal = FAULT == EQUAL_NUMBERS && blank + 1 == least;
        if numbers && blank < least && !equal && FAULT != FALLING_NUMBERS {
            return broken(Rule::NotRising, index);
        }
        let short = length == 0 && FAULT != LENGTH_0;
        let long = length > MAX_LENGTH && FAULT != LONGER;
        if lengths && (short || long) {
            return broken(Rule::BadLength, index);
        }
        least = blank + 1;
        sum += length;
    }
    Ok(sum)
}

/// Reads each encoding. (Only with a fault can there be too few bytes.)
#[inline(always)]
fn encodings_are_good<const FAULT: u8>(
    entries: &[u8],
    encodings: &[u8],
    mut each: impl FnMut(Entry),
) -> Result<(), Broken> {
    let mut left = encodings;
    let last = (entries.len() / 4).wrapping_sub(1);
    for (index, entry) in entries.chunks_exact(4).enumerate() {
        let start = 4 + entries.len() + encodings.len() - left.len();
        let length = number(entry[2], entry[3]);
        let (own, after) = left.split_at(length.min(left.len()));
        if FAULT == LAST_NOT_READ && index == last {
            break;
        }
        left = after;
        let depth = match own {
            [0..=36] => 1,
            [96..=125] => 2,
            _ => match read::<0>(own) {
                Ok(accepted) => accepted.depth,
                Err(refusal) => {
                    let place = match FAULT {
                        PLACE_IN_ENCODING => refusal.place as usize,
                        PLACE_IN_SHEET => start + refusal.place as usize,
                        _ => index,
                    };
                    return broken(Rule::BadEncoding, place);
                }
            },
        };
        each(Entry {
            blank: number(entry[0], entry[1]),
            start,
            length,
            depth,
        });
    }
    Ok(())
}
