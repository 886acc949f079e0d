//! Child and name written in Rust for speed: the reader judges the bytes in one pass, and a second
//! one goes over the root's own list as far as part k. In it a shape is passed over by its head, for
//! the bytes are known to be good.

use super::{read, refused, Refusal, ARRAY, FUNCTION, MAP, RECORD, SYMBOL, VARIABLE};

const NO_SUCH_PART: u32 = 18;

/// Where a list starts that has no count.
const PAYLOAD: usize = 3;

/// A child: place and length, or the number of a packed parent's primitive.
#[derive(Clone, Copy, Debug, PartialEq, Eq)]
pub enum Child {
    Part { place: usize, length: usize },
    Primitive(u8),
}

/// Child k, whatever the bytes and k are.
pub fn child(bytes: &[u8], k: u64) -> Result<Child, Refusal> {
    read::<0>(bytes)?;
    let first = bytes[0];
    let (count, from) = match first {
        96..=100 => (1, 0),
        101..=125 => (2, 0),
        ARRAY => (1, PAYLOAD),
        MAP => (2, PAYLOAD),
        RECORD => leb128(bytes, PAYLOAD),
        FUNCTION => {
            let (parameters, from) = leb128(bytes, PAYLOAD);
            (parameters + 1, from)
        }
        _ => (0, 0),
    };
    if k >= count as u64 {
        return refused(NO_SUCH_PART, count);
    }
    let mut place = from;
    match (first, k) {
        (96..=100, _) => return Ok(Child::Primitive(first - 96)),
        (101..=125, 0) => return Ok(Child::Primitive((first - 101) / 5)),
        (101..=125, _) => return Ok(Child::Primitive((first - 101) % 5)),
        (RECORD, _) => {
            for _ in 0..k {
                place = past_shape(bytes, past_text(bytes, place));
            }
            place = past_text(bytes, place);
        }
        _ => {
            for _ in 0..k {
                place = past_shape(bytes, place);
            }
        }
    }
    let length = past_shape(bytes, place) - place;
    Ok(Child::Part { place, length })
}

/// Place and length of name k, whatever the bytes and k are.
pub fn name(bytes: &[u8], k: u64) -> Result<(usize, usize), Refusal> {
    read::<0>(bytes)?;
    let (count, mut at) = match bytes[0] {
        RECORD | SYMBOL => leb128(bytes, PAYLOAD),
        _ => (0, 0),
    };
    if k >= count as u64 {
        return refused(NO_SUCH_PART, count);
    }
    if bytes[0] == RECORD {
        for _ in 0..k {
            at = past_shape(bytes, past_text(bytes, at));
        }
    } else {
        for _ in 0..k {
            at = past_text(bytes, at);
        }
    }
    let (length, place) = leb128(bytes, at);
    Ok((place, length))
}

/// The good LEB128 number at a place, and the place after it.
#[inline(always)]
pub(super) fn leb128(bytes: &[u8], at: usize) -> (usize, usize) {
    match bytes[at] {
        low @ 0..=127 => (low as usize, at + 1),
        low => ((low & 127) as usize + 128 * bytes[at + 1] as usize, at + 2),
    }
}

/// The place after the text whose length stands at a place.
#[inline(always)]
pub(super) fn past_text(bytes: &[u8], at: usize) -> usize {
    let (length, from) = leb128(bytes, at);
    from + length
}

/// The place after the shape at a place.
#[inline(always)]
pub(super) fn past_shape(bytes: &[u8], at: usize) -> usize {
    let first = bytes[at];
    if !(ARRAY..=VARIABLE).contains(&first) {
        return at + 1;
    }
    let size = &bytes[at + 1..at + 3];
    at + 3 + u16::from_le_bytes([size[0], size[1]]) as usize
}
