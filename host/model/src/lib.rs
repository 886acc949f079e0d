//! A reference model of shapes, sheets and fillings, written from 01-scope.md, from the base part of
//! DECISIONS-GIVEN.md and from W-203 of 02-change-requests.md (`pieces`), and from nothing else.
//! Lines that start with `>` in comments, and words in double quotes, are the documents' own.
//!
//! The program `card` (src/bin/card.rs) runs the bench card's cases over it.
#![forbid(unsafe_code)]

pub mod limits;
pub mod parts;
pub mod pieces;
pub mod read;
pub mod shape;
pub mod sheet;
pub mod table;

/// > A refusal is a number and a place.
#[derive(Clone, Copy, Debug, PartialEq, Eq)]
pub struct Refusal {
    pub number: u32,
    pub place: u32,
}

/// The refusal as an `Err`, whatever the answer would have been.
pub(crate) fn refuse<T>(number: u32, place: usize) -> Result<T, Refusal> {
    let place = u32::try_from(place).expect("places are far below 2^32");
    Err(Refusal { number, place })
}

/// The number of two bytes, "low first".
pub(crate) fn two_bytes(low: u8, high: u8) -> u16 {
    u16::from(low) + 256 * u16::from(high)
}

/// The number in the two bytes at `place`, if both are there.
pub(crate) fn number_at(bytes: &[u8], place: usize) -> Option<usize> {
    if place + 2 <= bytes.len() {
        Some(usize::from(two_bytes(bytes[place], bytes[place + 1])))
    } else {
        None
    }
}

/// A number as "two bytes, low first".
pub(crate) fn put_number(bytes: &mut Vec<u8>, number: usize) {
    let number = u16::try_from(number).expect("numbers in tables and sheets fit two bytes");
    bytes.push((number % 256) as u8);
    bytes.push((number / 256) as u8);
}

/// The answer, if the lent buffer has room for it:
/// > 12 | lent buffer shorter than the answer | the length needed
pub(crate) fn lend(answer: Vec<u8>, room: usize) -> Result<Vec<u8>, Refusal> {
    if room < answer.len() {
        return refuse(12, answer.len());
    }
    Ok(answer)
}
