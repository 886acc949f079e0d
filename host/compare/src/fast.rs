//! The reader written in Rust for speed, over slices, with the tricks of the proved one: a list is
//! one loop, in which a child of one byte is taken without a call; text is tried in blocks of 64
//! and of 8 bytes with one test each, and each class of character has a test of its own. It has two
//! more: a loop for each kind of list, and a window that is a slice which ends where the window
//! ends, so that the test of the window is the test of the slice.
//!
//! `read::<0>` is right. Any other number puts one fault in (see `fault`): these are the wrong
//! models that the comparison has to tell apart from the model. The fault is a constant of the
//! compiled function, so the right reader does not pay for it.

pub mod fill;
pub mod parts;
pub mod pieces;
pub mod sheet;
pub mod table;
pub mod write;

/// An encoding that was accepted.
#[derive(Clone, Copy, Debug, PartialEq, Eq)]
pub struct Accepted {
    pub length: usize,
    pub depth: u32,
}

/// 01-scope.md, "Numbers that a refusal carries".
#[derive(Clone, Copy, Debug, PartialEq, Eq)]
pub struct Refusal {
    pub number: u32,
    pub place: u32,
}

const CUT_SHORT: u32 = 1;
const NOT_ASSIGNED: u32 = 2;
const SIZE_WRONG: u32 = 3;
const BAD_LEB128: u32 = 4;
const NOT_UTF8: u32 = 5;
const LONG_FORM: u32 = 6;
const TOO_DEEP: u32 = 7;
const INPUT_TOO_LONG: u32 = 8;

const MAX_BYTES: usize = 2048;
const MAX_LEVELS: u32 = 16;

const ARRAY: u8 = 64;
const MAP: u8 = 65;
const RECORD: u8 = 66;
const FUNCTION: u8 = 67;
const SYMBOL: u8 = 68;
const VARIABLE: u8 = 69;

/// The faults of the wrong models, one each.
pub mod fault {
    pub const NONE: u8 = 0;
    pub const REFUSES_EVERYTHING: u8 = 1;
    pub const ONE_FIXED_ANSWER: u8 = 2;
    pub const PACKED_AT_LEVEL_16: u8 = 3;
    pub const LEVEL_17: u8 = 4;
    pub const LONGER_INPUT: u8 = 5;
    pub const SEVEN_BEFORE_TWO: u8 = 6;
    pub const BIT_7_DROPPED: u8 = 7;
    pub const BYTE_126: u8 = 8;
    pub const LONG_ARRAY: u8 = 9;
    pub const LONG_MAP: u8 = 10;
    pub const LONG_VARIABLE: u8 = 11;
    pub const SIX_BEFORE_THREE: u8 = 12;
    pub const LEFT_OVER: u8 = 13;
    pub const PLACE_OF_THREE: u8 = 14;
    pub const ONE_ITEM_LESS: u8 = 15;
    pub const DEPTH_OF_THE_LAST: u8 = 16;
    pub const DEPTH_OF_RETURN: u8 = 17;
    pub const MISSING_LENGTH: u8 = 18;
    pub const SECOND_BYTE_ZERO: u8 = 19;
    pub const THIRD_BYTE: u8 = 20;
    pub const PLACE_OF_FIVE: u8 = 21;
    pub const PLACE_OF_CUT_TEXT: u8 = 22;
    pub const SURROGATES: u8 = 23;
    pub const OVERLONG: u8 = 24;
    pub const PAST_LAST_CHARACTER: u8 = 25;
    pub const LAST_OF_BLOCK: u8 = 26;
}

use fault::*;

/// A refusal, or the place after what was read and its depth.
type Walked = Result<(usize, u32), Refusal>;

#[inline(always)]
fn refused<T>(number: u32, place: usize) -> Result<T, Refusal> {
    Err(Refusal {
        number,
        place: place as u32,
    })
}

/// Judges an encoding, whatever the bytes are.
pub fn read<const FAULT: u8>(bytes: &[u8]) -> Result<Accepted, Refusal> {
    if FAULT == REFUSES_EVERYTHING {
        return refused(CUT_SHORT, 0);
    }
    if FAULT == ONE_FIXED_ANSWER {
        return Ok(Accepted {
            length: 1,
            depth: 1,
        });
    }
    if bytes.len() > MAX_BYTES + (FAULT == LONGER_INPUT) as usize {
        return refused(INPUT_TOO_LONG, MAX_BYTES);
    }
    let levels = MAX_LEVELS + (FAULT == LEVEL_17) as u32;
    let (next, depth) = shape::<FAULT>(bytes, 0, levels)?;
    if next != bytes.len() {
        let place = if FAULT == PLACE_OF_THREE { 0 } else { next };
        return refused(SIZE_WRONG, place);
    }
    Ok(Accepted {
        length: next,
        depth,
    })
}

/// A shape at a place of a window, with so many levels left, its own among them.
fn shape<const FAULT: u8>(window: &[u8], at: usize, left: u32) -> Walked {
    let Some(&byte) = window.get(at) else {
        return refused(CUT_SHORT, at);
    };
    if FAULT == SEVEN_BEFORE_TWO && left == 0 {
        return refused(TOO_DEEP, at);
    }
    match seen::<FAULT>(byte) {
        0..=36 if left >= 1 => Ok((at + 1, 1)),
        96..=125 if left >= packed_levels::<FAULT>() => Ok((at + 1, 2)),
        kind @ ARRAY..=VARIABLE if left >= 1 => long::<FAULT>(window, at, left - 1, kind),
        0..=36 | 96..=125 | ARRAY..=VARIABLE => refused(TOO_DEEP, at),
        _ => refused(NOT_ASSIGNED, at),
    }
}

/// The first byte that the reader sees.
#[inline(always)]
fn seen<const FAULT: u8>(byte: u8) -> u8 {
    match byte {
        128.. if FAULT == BIT_7_DROPPED => byte & 127,
        126 if FAULT == BYTE_126 => 125,
        _ => byte,
    }
}

/// The levels that a packed byte takes.
#[inline(always)]
fn packed_levels<const FAULT: u8>() -> u32 {
    if FAULT == PACKED_AT_LEVEL_16 {
        1
    } else {
        2
    }
}

/// A shape in a list or payload: one of a single byte is taken here, without a call.
#[inline(always)]
fn child<const FAULT: u8>(window: &[u8], at: usize, left: u32) -> Walked {
    match window.get(at).map(|&byte| seen::<FAULT>(byte)) {
        Some(0..=36) if left >= 1 => Ok((at + 1, 1)),
        Some(96..=125) if left >= packed_levels::<FAULT>() => Ok((at + 1, 2)),
        _ => shape::<FAULT>(window, at, left),
    }
}

/// A shape with a size and a payload; its children have so many levels left.
#[inline(always)]
fn long<const FAULT: u8>(window: &[u8], at: usize, left: u32, kind: u8) -> Walked {
    let Some(&[_, low, high]) = window[at..].first_chunk() else {
        return refused(CUT_SHORT, at);
    };
    let from = at + 3;
    let stop = from + u16::from_le_bytes([low, high]) as usize;
    let Some(payload) = window.get(..stop) else {
        return refused(CUT_SHORT, at);
    };
    let (next, deepest, short) = match kind {
        ARRAY => {
            let (next, depth) = child::<FAULT>(payload, from, left)?;
            let short = FAULT != LONG_ARRAY && primitive(payload, from);
            (next, depth, short)
        }
        MAP => {
            let (middle, key) = child::<FAULT>(payload, from, left)?;
            let (next, value) = child::<FAULT>(payload, middle, left)?;
            let short =
                FAULT != LONG_MAP && primitive(payload, from) && primitive(payload, from + 1);
            (next, deeper::<FAULT>(key, value), short)
        }
        RECORD => {
            let (count, mut next) = leb128::<FAULT>(payload, from)?;
            let mut deepest = 0;
            for _ in 0..items::<FAULT>(count) {
                next = text::<FAULT>(payload, next)?;
                let (after, depth) = child::<FAULT>(payload, next, left)?;
                next = after;
                deepest = deeper::<FAULT>(deepest, depth);
            }
            (next, deepest, false)
        }
        FUNCTION => {
            let (count, mut next) = leb128::<FAULT>(payload, from)?;
            let mut deepest = 0;
            let mut before = 0;
            for _ in 0..items::<FAULT>(count + 1) {
                let (after, depth) = child::<FAULT>(payload, next, left)?;
                next = after;
                before = deepest;
                deepest = deeper::<FAULT>(deepest, depth);
            }
            if FAULT == DEPTH_OF_RETURN {
                deepest = before;
            }
            (next, deepest, false)
        }
        SYMBOL => {
            let (count, mut next) = leb128::<FAULT>(payload, from)?;
            for _ in 0..items::<FAULT>(count) {
                next = text::<FAULT>(payload, next)?;
            }
            (next, 0, false)
        }
        _ => {
            let &[low, high] = &payload[from..] else {
                return refused(SIZE_WRONG, at);
            };
            (stop, 0, FAULT != LONG_VARIABLE && high == 0 && low < 32)
        }
    };
    if FAULT == SIX_BEFORE_THREE && short {
        return refused(LONG_FORM, at);
    }
    if next != stop && FAULT != LEFT_OVER {
        return refused(SIZE_WRONG, at);
    }
    if short {
        return refused(LONG_FORM, at);
    }
    Ok((stop, deepest + 1))
}

/// How many items of a list are read.
#[inline(always)]
fn items<const FAULT: u8>(count: usize) -> usize {
    if FAULT == ONE_ITEM_LESS {
        count.saturating_sub(1)
    } else {
        count
    }
}

/// The depth of the deepest child so far.
#[inline(always)]
fn deeper<const FAULT: u8>(deepest: u32, depth: u32) -> u32 {
    if FAULT == DEPTH_OF_THE_LAST {
        depth
    } else {
        deepest.max(depth)
    }
}

/// Whether a primitive stands at a place.
#[inline(always)]
fn primitive(window: &[u8], at: usize) -> bool {
    matches!(window.get(at), Some(32..=36))
}

/// A LEB128 number at a place of a window, and the place after it.
#[inline(always)]
fn leb128<const FAULT: u8>(window: &[u8], at: usize) -> Result<(usize, usize), Refusal> {
    let Some(&low) = window.get(at) else {
        let number = if FAULT == MISSING_LENGTH {
            CUT_SHORT
        } else {
            BAD_LEB128
        };
        return refused(number, at);
    };
    if low < 128 {
        return Ok((low as usize, at + 1));
    }
    match window.get(at + 1) {
        Some(&high @ 1..=127) => Ok(((low & 127) as usize + 128 * high as usize, at + 2)),
        Some(0) if FAULT == SECOND_BYTE_ZERO => Ok(((low & 127) as usize, at + 2)),
        Some(128..) if FAULT == THIRD_BYTE => Ok(((low & 127) as usize, at + 3)),
        _ => refused(BAD_LEB128, at),
    }
}

/// The place after the text whose length stands at a place of a window.
#[inline(always)]
fn text<const FAULT: u8>(window: &[u8], at: usize) -> Result<usize, Refusal> {
    let (length, from) = leb128::<FAULT>(window, at)?;
    let Some(text) = window.get(from..from + length) else {
        let place = if FAULT == PLACE_OF_CUT_TEXT { from } else { at };
        return refused(CUT_SHORT, place);
    };
    if !well_formed::<FAULT>(text) {
        let place = if FAULT == PLACE_OF_FIVE { at } else { from };
        return refused(NOT_UTF8, place);
    }
    Ok(from + length)
}

/// Whether a text is UTF-8.
#[inline(always)]
fn well_formed<const FAULT: u8>(text: &[u8]) -> bool {
    let mut at = 0;
    while at < text.len() {
        if text[at] < 128 {
            at = past_ascii::<FAULT>(text, at + 1);
        } else {
            match character::<FAULT>(&text[at..]) {
                0 => return false,
                size => at += size,
            }
        }
    }
    true
}

/// The place after the bytes that are each a character.
#[inline(always)]
fn past_ascii<const FAULT: u8>(text: &[u8], from: usize) -> usize {
    let mut at = from;
    while let Some(block) = text[at..].first_chunk::<64>() {
        let looked_at = if FAULT == LAST_OF_BLOCK { 63 } else { 64 };
        if bits(&block[..looked_at]) >= 128 {
            break;
        }
        at += 64;
    }
    while let Some(&block) = text[at..].first_chunk::<8>() {
        if u64::from_ne_bytes(block) & 0x8080_8080_8080_8080 != 0 {
            break;
        }
        at += 8;
    }
    while at < text.len() && text[at] < 128 {
        at += 1;
    }
    at
}

/// The bits that any byte of a block has.
#[inline(always)]
fn bits(block: &[u8]) -> u8 {
    block.iter().fold(0, |bits, byte| bits | byte)
}

/// The size of the character that starts a text and is not of one byte, or 0. Each class of first
/// byte has a call of its own, which the compiler then specialises.
#[inline(always)]
fn character<const FAULT: u8>(text: &[u8]) -> usize {
    match text[0] {
        0xC2..=0xDF => with::<1>(text, 0x80, 0xBF),
        0xE0 if FAULT == OVERLONG => with::<2>(text, 0x80, 0xBF),
        0xE0 => with::<2>(text, 0xA0, 0xBF),
        0xED if FAULT == SURROGATES => with::<2>(text, 0x80, 0xBF),
        0xED => with::<2>(text, 0x80, 0x9F),
        0xE1..=0xEF => with::<2>(text, 0x80, 0xBF),
        0xF0 => with::<3>(text, 0x90, 0xBF),
        0xF1..=0xF3 => with::<3>(text, 0x80, 0xBF),
        0xF4 if FAULT == PAST_LAST_CHARACTER => with::<3>(text, 0x80, 0xBF),
        0xF4 => with::<3>(text, 0x80, 0x8F),
        _ => 0,
    }
}

/// The size of a character whose first byte asks for so many more, the first of them from low to
/// high, or 0 where they do not follow.
#[inline(always)]
fn with<const MORE: usize>(text: &[u8], low: u8, high: u8) -> usize {
    match text[1..].first_chunk::<MORE>() {
        Some(more)
            if (low..=high).contains(&more[0])
                && more[1..].iter().all(|byte| (0x80..=0xBF).contains(byte)) =>
        {
            1 + MORE
        }
        _ => 0,
    }
}
