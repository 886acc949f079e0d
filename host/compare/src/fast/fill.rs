//! Fill and join written in Rust for speed. Once template and sheet are read, nothing of them can be
//! wrong, and two more passes go over the template: one measures what is made of it, and one writes
//! it straight into the lent buffer. In both a shape of one byte is looked up in a table by that
//! byte, whether it is a blank or not: what stands for it, and how long and deep that is.
//!
//! `fill::<0>` and `join::<0>` are right. Any other number puts one fault in, as for the reader.

use super::parts::{leb128, past_text};
use super::sheet::{check, check_each, number, Entry};
use super::{read, refused, Refusal};
use super::{ARRAY, FUNCTION, MAP, MAX_BYTES, MAX_LEVELS, RECORD, SYMBOL, VARIABLE};

const BUFFER_SHORT: u32 = 12;
const SHEET_BROKEN: u32 = 13;
const SECOND_BROKEN: u32 = 14;
const MADE_TOO_DEEP: u32 = 15;
const MADE_TOO_LONG: u32 = 16;
const JOINED_TOO_LARGE: u32 = 17;

const MAX_ENTRIES: usize = 32;
const MAX_ENCODINGS: usize = 16_384;

/// The faults of the wrong models, one each.
pub mod fault {
    // of either call
    pub const REFUSES_EVERYTHING: u8 = 1;
    pub const FILLS_AGAIN: u8 = 2;
    pub const LONG_ARRAY: u8 = 3;
    pub const LONG_MAP: u8 = 4;
    pub const PACKED_SWAPPED: u8 = 5;
    pub const LEVEL_17: u8 = 6;
    pub const LONGER: u8 = 7;
    pub const SIXTEEN_FIRST: u8 = 8;
    pub const NEEDED_ONE_MORE: u8 = 9;
    pub const ROOM_TO_SPARE: u8 = 10;
    pub const ONE_BYTE_MORE: u8 = 11;
    pub const WRITES_WHAT_FITS: u8 = 12;
    pub const SHORT_BLANKS_ONLY: u8 = 13;
    pub const LOW_BYTES: u8 = 14;
    pub const NEXT_ENTRY: u8 = 15;
    pub const NOT_IN_RETURN: u8 = 16;
    pub const OLD_SIZES: u8 = 17;
    // of fill
    pub const COPIES_TEMPLATE: u8 = 20;
    pub const STAGE_BY_STAGE: u8 = 21;
    pub const DEPTH_OF_ALL: u8 = 22;
    pub const TWELVE_FIRST: u8 = 23;
    pub const SHEET_FIRST: u8 = 24;
    pub const PLACE_OF_SIXTEEN: u8 = 25;
    // of join
    pub const COPIES_FIRST: u8 = 30;
    pub const NOT_FILLED: u8 = 31;
    pub const SECOND_WINS: u8 = 32;
    pub const SECOND_FILLED: u8 = 33;
    pub const FILLED_BY_ITSELF: u8 = 34;
    pub const FIFTEENS_FIRST: u8 = 35;
    pub const PLACE_0: u8 = 36;
    pub const PLACE_OF_ENTRY: u8 = 37;
    pub const BOTH_COUNTED: u8 = 38;
    pub const ENTRIES_LATER: u8 = 39;
    pub const BYTES_FIRST: u8 = 40;
    pub const WHOLE_SHEET: u8 = 41;
    pub const BYTES_UNFILLED: u8 = 42;
    pub const ENTRIES_33: u8 = 43;
    pub const MORE_BYTES: u8 = 44;
    pub const NOT_RISING: u8 = 45;
    pub const SECOND_FIRST: u8 = 46;
    pub const SECOND_AS_13: u8 = 47;
    pub const OLD_LENGTHS: u8 = 48;
}

use fault::*;

// -------------------------------------------------------------------------------------------------
// What stands for a blank

/// What stands for a shape of one byte, or for a blank: itself, or what the sheet has for it.
#[derive(Clone, Copy)]
struct Put {
    first: u8,
    depth: u8,
    /// 0 for a first byte that a size follows
    length: u16,
    /// in the sheet; 0 where it stands for itself
    start: u16,
}

const SIZE_FOLLOWS: Put = Put {
    first: 0,
    depth: 0,
    length: 0,
    start: 0,
};

/// All first bytes when no blank is named. Those that mean nothing do not come.
static ITSELF: [Put; 128] = itself();

const BLANKS: [Put; 32] = *itself().first_chunk().unwrap();

const fn itself() -> [Put; 128] {
    let mut all = [SIZE_FOLLOWS; 128];
    let mut first = 0;
    while first < 128 {
        if first < ARRAY || first > VARIABLE {
            all[first as usize] = Put {
                first,
                depth: if first < ARRAY { 1 } else { 2 },
                length: 1,
                start: 0,
            };
        }
        first += 1;
    }
    all
}

/// What a sheet puts.
struct Puts<'a> {
    sheet: &'a [u8],
    /// for blanks under 32
    short: [Put; 32],
    /// for blanks from 32 up, which rise
    count: usize,
    blanks: [u16; MAX_ENTRIES],
    long: [Put; MAX_ENTRIES],
}

/// What is made of a shape: its first byte, length and depth; and the place after the shape.
struct Made {
    next: usize,
    first: u8,
    length: usize,
    depth: u32,
}

#[inline(always)]
fn primitive(first: u8) -> bool {
    matches!(first, 32..=36)
}

/// The packed byte of a Map.
#[inline(always)]
fn packed<const FAULT: u8>(key: u8, value: u8) -> u8 {
    match FAULT {
        PACKED_SWAPPED => 101 + 5 * (value - 32) + (key - 32),
        _ => 101 + 5 * (key - 32) + (value - 32),
    }
}

impl<'a> Puts<'a> {
    #[inline(always)]
    fn none(sheet: &'a [u8]) -> Puts<'a> {
        Puts {
            sheet,
            short: BLANKS,
            count: 0,
            blanks: [0; MAX_ENTRIES],
            long: [SIZE_FOLLOWS; MAX_ENTRIES],
        }
    }

    #[inline(always)]
    fn add(&mut self, entry: Entry) {
        let put = Put {
            first: self.sheet[entry.start],
            depth: entry.depth as u8,
            length: entry.length as u16,
            start: entry.start as u16,
        };
        if entry.blank < 32 {
            self.short[entry.blank] = put;
        } else {
            self.blanks[self.count] = entry.blank as u16;
            self.long[self.count] = put;
            self.count += 1;
        }
    }

    /// Reads the sheet, and puts what it has; or a refusal with this number.
    fn read(&mut self, number: u32) -> Result<(), Refusal> {
        match check_each::<0>(self.sheet, |entry| self.add(entry)) {
            Ok(_) => Ok(()),
            Err(broken) => refused(number, broken.place as usize),
        }
    }

    /// What stands for the shape at a place, if it is of one byte.
    #[inline(always)]
    fn put(&self, bytes: &[u8], at: usize) -> Put {
        match bytes[at] {
            blank @ 0..=31 => self.short[blank as usize],
            first => ITSELF[(first & 127) as usize],
        }
    }

    fn own(&self, put: Put) -> &'a [u8] {
        &self.sheet[put.start as usize..][..put.length as usize]
    }

    /// What the sheet has for the long blank at a place.
    #[inline(always)]
    fn named<const FAULT: u8>(&self, bytes: &[u8], at: usize) -> Option<Put> {
        let blank = number(bytes[at + 3], bytes[at + 4]) as u16;
        let blanks = &self.blanks[..self.count];
        let found = match FAULT {
            SHORT_BLANKS_ONLY => return None,
            LOW_BYTES => blanks.iter().position(|other| other & 255 == blank & 255),
            NEXT_ENTRY => blanks.iter().position(|other| *other >= blank),
            _ => blanks.binary_search(&blank).ok(),
        };
        found.map(|index| self.long[index])
    }

    // ---------------------------------------------------------------------------------------------
    // The first pass

    #[inline(always)]
    fn measure<const FAULT: u8>(&self, bytes: &[u8], at: usize) -> Made {
        match self.put(bytes, at) {
            Put { length: 0, .. } => self.measure_long::<FAULT>(bytes, at),
            put => self.measure_put::<FAULT>(put, at + 1),
        }
    }

    #[inline(always)]
    fn measure_put<const FAULT: u8>(&self, put: Put, next: usize) -> Made {
        if FAULT == FILLS_AGAIN && put.start != 0 {
            let again = self.measure::<0>(self.own(put), 0);
            return Made { next, ..again };
        }
        Made {
            next,
            first: put.first,
            length: put.length as usize,
            depth: put.depth as u32,
        }
    }

    fn measure_long<const FAULT: u8>(&self, bytes: &[u8], at: usize) -> Made {
        let kind = bytes[at];
        let from = at + 3;
        let next = from + number(bytes[at + 1], bytes[at + 2]);
        let one_byte = |first: u8| Made {
            next,
            first,
            length: 1,
            depth: 2,
        };
        let mut length = 3;
        let mut deepest = 0;
        match kind {
            ARRAY => {
                let element = self.measure::<FAULT>(bytes, from);
                if primitive(element.first) && FAULT != LONG_ARRAY {
                    return one_byte(96);
                }
                length += element.length;
                deepest = element.depth;
            }
            MAP => {
                let key = self.measure::<FAULT>(bytes, from);
                let value = self.measure::<FAULT>(bytes, key.next);
                if primitive(key.first) && primitive(value.first) && FAULT != LONG_MAP {
                    return one_byte(101);
                }
                length += key.length + value.length;
                deepest = key.depth.max(value.depth);
            }
            RECORD => {
                let (count, mut at) = leb128(bytes, from);
                length += at - from;
                for _ in 0..count {
                    let after = past_text(bytes, at);
                    let field = self.measure::<FAULT>(bytes, after);
                    length += after - at + field.length;
                    deepest = deepest.max(field.depth);
                    at = field.next;
                }
            }
            FUNCTION => {
                let (count, mut at) = leb128(bytes, from);
                length += at - from;
                for _ in 0..count {
                    let parameter = self.measure::<FAULT>(bytes, at);
                    length += parameter.length;
                    deepest = deepest.max(parameter.depth);
                    at = parameter.next;
                }
                let result = match FAULT {
                    NOT_IN_RETURN => Puts::none(&[]).measure::<0>(bytes, at),
                    _ => self.measure::<FAULT>(bytes, at),
                };
                length += result.length;
                deepest = deepest.max(result.depth);
            }
            SYMBOL => length = next - at,
            _ => match self.named::<FAULT>(bytes, at) {
                Some(put) => return self.measure_put::<FAULT>(put, next),
                None => length = 5,
            },
        }
        Made {
            next,
            first: kind,
            length,
            depth: 1 + deepest,
        }
    }

    // ---------------------------------------------------------------------------------------------
    // The second pass: the places after the shape and after what was written for it

    #[inline(always)]
    fn write<const FAULT: u8>(
        &self,
        bytes: &[u8],
        at: usize,
        out: &mut [u8],
        to: usize,
    ) -> (usize, usize) {
        match self.put(bytes, at) {
            Put { length: 0, .. } => self.write_long::<FAULT>(bytes, at, out, to),
            put => (at + 1, self.write_put::<FAULT>(put, out, to)),
        }
    }

    #[inline(always)]
    fn write_put<const FAULT: u8>(&self, put: Put, out: &mut [u8], to: usize) -> usize {
        if FAULT == FILLS_AGAIN && put.start != 0 {
            return self.write::<0>(self.own(put), 0, out, to).1;
        }
        match put.length {
            1 => {
                out[to] = put.first;
                to + 1
            }
            _ => copy(self.own(put), out, to),
        }
    }

    /// The first byte of what is made of a shape in an Array or a Map, and the place after the shape;
    /// for a shape with a list, its kind.
    #[inline(always)]
    fn first<const FAULT: u8>(&self, bytes: &[u8], at: usize) -> (u8, usize) {
        let (put, next) = match self.put(bytes, at) {
            Put { length: 0, .. } if bytes[at] != VARIABLE => return (bytes[at], at),
            Put { length: 0, .. } => match self.named::<FAULT>(bytes, at) {
                Some(put) => (put, at + 5),
                None => return (VARIABLE, at + 5),
            },
            put => (put, at + 1),
        };
        if FAULT == FILLS_AGAIN && put.start != 0 {
            return (self.first::<0>(self.own(put), 0).0, next);
        }
        (put.first, next)
    }

    fn write_long<const FAULT: u8>(
        &self,
        bytes: &[u8],
        at: usize,
        out: &mut [u8],
        to: usize,
    ) -> (usize, usize) {
        let kind = bytes[at];
        let from = at + 3;
        let next = from + number(bytes[at + 1], bytes[at + 2]);
        let mut end = to + 3;
        match kind {
            ARRAY => {
                let (first, _) = self.first::<FAULT>(bytes, from);
                if primitive(first) && FAULT != LONG_ARRAY {
                    out[to] = 96 + first - 32;
                    return (next, to + 1);
                }
                (_, end) = self.write::<FAULT>(bytes, from, out, end);
            }
            MAP => {
                let (key, after) = self.first::<FAULT>(bytes, from);
                if primitive(key) && FAULT != LONG_MAP {
                    let (value, _) = self.first::<FAULT>(bytes, after);
                    if primitive(value) {
                        out[to] = packed::<FAULT>(key, value);
                        return (next, to + 1);
                    }
                }
                let (after, middle) = self.write::<FAULT>(bytes, from, out, end);
                (_, end) = self.write::<FAULT>(bytes, after, out, middle);
            }
            RECORD => {
                let (count, mut at) = leb128(bytes, from);
                end = copy(&bytes[from..at], out, end);
                for _ in 0..count {
                    let after = past_text(bytes, at);
                    end = copy(&bytes[at..after], out, end);
                    (at, end) = self.write::<FAULT>(bytes, after, out, end);
                }
            }
            FUNCTION => {
                let (count, mut at) = leb128(bytes, from);
                end = copy(&bytes[from..at], out, end);
                for _ in 0..count {
                    (at, end) = self.write::<FAULT>(bytes, at, out, end);
                }
                (_, end) = match FAULT {
                    NOT_IN_RETURN => Puts::none(&[]).write::<0>(bytes, at, out, end),
                    _ => self.write::<FAULT>(bytes, at, out, end),
                };
            }
            SYMBOL => return (next, copy(&bytes[at..next], out, to)),
            _ => {
                return match self.named::<FAULT>(bytes, at) {
                    Some(put) => (next, self.write_put::<FAULT>(put, out, to)),
                    None => (next, copy(&bytes[at..next], out, to)),
                }
            }
        }
        let size = match FAULT {
            OLD_SIZES => next - from,
            _ => end - to - 3,
        };
        out[to] = kind;
        out[to + 1..to + 3].copy_from_slice(&(size as u16).to_le_bytes());
        (next, end)
    }
}

/// Copies the bytes to a place, and gives the place after them.
#[inline(always)]
fn copy(bytes: &[u8], out: &mut [u8], to: usize) -> usize {
    let end = to + bytes.len();
    out[to..end].copy_from_slice(bytes);
    end
}

// -------------------------------------------------------------------------------------------------
// The calls

/// 15 or 16 at a place, if what is made is too deep or too long.
#[inline(always)]
fn within<const FAULT: u8>(made: &Made, place: usize) -> Result<(), Refusal> {
    let deep = made.depth > MAX_LEVELS + (FAULT == LEVEL_17) as u32;
    let long = made.length > MAX_BYTES + (FAULT == LONGER) as usize;
    if deep && !(FAULT == SIXTEEN_FIRST && long) {
        return refused(MADE_TOO_DEEP, place);
    }
    if long {
        let place = match FAULT {
            PLACE_OF_SIXTEEN => made.length,
            _ => place,
        };
        return refused(MADE_TOO_LONG, place);
    }
    Ok(())
}

/// Writes an answer of so many bytes, if the buffer has room for it, or gives 12.
#[inline(always)]
fn lent<const FAULT: u8>(
    out: &mut [u8],
    needed: usize,
    write: impl FnOnce(&mut [u8]),
) -> Result<usize, Refusal> {
    if out.len() < needed + (FAULT == ROOM_TO_SPARE) as usize {
        if FAULT == WRITES_WHAT_FITS {
            let mut all = vec![0; needed];
            write(&mut all);
            out.copy_from_slice(&all[..out.len()]);
        }
        return refused(BUFFER_SHORT, needed + (FAULT == NEEDED_ONE_MORE) as usize);
    }
    let (answer, rest) = out.split_at_mut(needed);
    write(answer);
    if FAULT == ONE_BYTE_MORE && !rest.is_empty() {
        rest[0] = 0;
    }
    Ok(needed)
}

/// Length and depth of what is made of a template, if it and the sheet are good.
pub fn measured(template: &[u8], sheet: &[u8]) -> Option<(usize, u32)> {
    read::<0>(template).ok()?;
    let mut puts = Puts::none(sheet);
    puts.read(SHEET_BROKEN).ok()?;
    let made = puts.measure::<0>(template, 0);
    Some((made.length, made.depth))
}

/// Fills a template, whatever the bytes are. The answer is how many bytes of the buffer it takes.
pub fn fill<const FAULT: u8>(
    template: &[u8],
    sheet: &[u8],
    out: &mut [u8],
) -> Result<usize, Refusal> {
    if FAULT == REFUSES_EVERYTHING {
        return refused(SHEET_BROKEN, 0);
    }
    if FAULT == SHEET_FIRST {
        Puts::none(sheet).read(SHEET_BROKEN)?;
    }
    let accepted = read::<0>(template)?;
    let mut puts = Puts::none(sheet);
    puts.read(SHEET_BROKEN)?;
    let mut made = puts.measure::<FAULT>(template, 0);
    match FAULT {
        COPIES_TEMPLATE => {
            puts = Puts::none(sheet);
            made = puts.measure::<0>(template, 0);
        }
        STAGE_BY_STAGE => {
            let mut stage = Puts::none(sheet);
            let mut fits = Ok(());
            _ = check_each::<0>(sheet, |entry| {
                stage.add(entry);
                fits = fits.and(within::<0>(&stage.measure::<0>(template, 0), 0));
            });
            fits?;
        }
        DEPTH_OF_ALL => {
            let puts = puts.short.iter().chain(&puts.long);
            let deepest = puts.map(|put| put.depth).max().unwrap_or(1);
            made.depth = accepted.depth - 1 + deepest as u32;
        }
        _ => (),
    }
    if FAULT == TWELVE_FIRST && out.len() < made.length {
        return refused(BUFFER_SHORT, made.length);
    }
    within::<FAULT>(&made, 0)?;
    lent::<FAULT>(out, made.length, |out| {
        puts.write::<FAULT>(template, 0, out, 0);
    })
}

/// The entries of a sound sheet that are left, and where the next encoding starts.
struct Entries<'a> {
    left: &'a [u8],
    start: usize,
}

/// Larger than every blank's number.
const NO_BLANK: usize = 65_536;

impl<'a> Entries<'a> {
    fn of(sheet: &'a [u8]) -> Entries<'a> {
        let entries = 4 * sheet[0] as usize;
        Entries {
            left: &sheet[2..2 + entries],
            start: 4 + entries,
        }
    }

    /// The next blank.
    #[inline(always)]
    fn blank(&self) -> usize {
        match self.left {
            [low, high, ..] => number(*low, *high),
            _ => NO_BLANK,
        }
    }

    /// Takes the next entry: where its encoding starts, and how long it is.
    #[inline(always)]
    fn take(&mut self) -> (usize, usize) {
        let (start, length) = (self.start, number(self.left[2], self.left[3]));
        self.left = &self.left[4..];
        self.start += length;
        (start, length)
    }
}

/// An entry of a joined sheet: its shape is in the first sheet or in the second.
#[derive(Clone, Copy)]
struct Joined {
    blank: u16,
    start: u16,
    length: u16,
    /// the length of what is made of it
    made: u16,
    of_first: bool,
}

const NOT_JOINED: Joined = Joined {
    blank: 0,
    start: 0,
    length: 0,
    made: 0,
    of_first: false,
};

/// The blanks of two sound sheets, rising, each once. How many there are.
#[inline(always)]
fn merge<const FAULT: u8>(
    first: &[u8],
    second: &[u8],
    joined: &mut [Joined; 2 * MAX_ENTRIES],
) -> usize {
    let (mut firsts, mut seconds) = (Entries::of(first), Entries::of(second));
    let mut count = 0;
    loop {
        let (a, b) = (firsts.blank(), seconds.blank());
        let blank = a.min(b);
        if blank == NO_BLANK {
            return count;
        }
        let mut of_first = a == blank;
        let (start, length) = match (of_first, b == blank) {
            (true, false) => firsts.take(),
            (false, _) => seconds.take(),
            (true, true) => {
                let (of_a, of_b) = (firsts.take(), seconds.take());
                of_first = FAULT != SECOND_WINS;
                if of_first {
                    of_a
                } else {
                    of_b
                }
            }
        };
        joined[count] = Joined {
            blank: blank as u16,
            start: start as u16,
            length: length as u16,
            made: length as u16,
            of_first,
        };
        count += 1;
    }
}

/// Joins two sheets, whatever the bytes are. The answer is how many bytes of the buffer it takes.
pub fn join<const FAULT: u8>(
    first: &[u8],
    second: &[u8],
    out: &mut [u8],
) -> Result<usize, Refusal> {
    if FAULT == REFUSES_EVERYTHING {
        return refused(SHEET_BROKEN, 0);
    }
    if FAULT == SECOND_FIRST {
        Puts::none(second).read(SECOND_BROKEN)?;
    }
    if let Err(broken) = check::<0>(first) {
        return refused(SHEET_BROKEN, broken.place as usize);
    }
    let second_broken = match FAULT {
        SECOND_AS_13 => SHEET_BROKEN,
        _ => SECOND_BROKEN,
    };
    let mut puts = Puts::none(second);
    puts.read(second_broken)?;
    if FAULT == FILLED_BY_ITSELF {
        puts = Puts::none(first);
        puts.read(SHEET_BROKEN)?;
    }
    if FAULT == COPIES_FIRST {
        return lent::<0>(out, first.len(), |out| out.copy_from_slice(first));
    }

    let mut joined = [NOT_JOINED; 2 * MAX_ENTRIES];
    let count = merge::<FAULT>(first, second, &mut joined);
    let joined = &mut joined[..count];
    if FAULT == NOT_RISING {
        joined.sort_by_key(|entry| !entry.of_first);
    }
    let own = |entry: &Joined| {
        let sheet = if entry.of_first { first } else { second };
        &sheet[entry.start as usize..][..entry.length as usize]
    };
    let filled = |entry: &Joined| match FAULT {
        NOT_FILLED => false,
        SECOND_FILLED => true,
        _ => entry.of_first,
    };
    let counted = match FAULT {
        BOTH_COUNTED => first[0] as usize + second[0] as usize,
        _ => count,
    };
    let too_many = counted > MAX_ENTRIES + (FAULT == ENTRIES_33) as usize;
    if too_many && FAULT != ENTRIES_LATER {
        return refused(JOINED_TOO_LARGE, counted);
    }

    if FAULT == FIFTEENS_FIRST || FAULT == BYTES_FIRST {
        let mut bytes = 0;
        for entry in joined.iter() {
            let made = match entry.of_first {
                true => puts.measure::<0>(own(entry), 0),
                false => Puts::none(&[]).measure::<0>(own(entry), 0),
            };
            if FAULT == FIFTEENS_FIRST && made.depth > MAX_LEVELS {
                return refused(MADE_TOO_DEEP, entry.blank as usize);
            }
            bytes += made.length;
        }
        if FAULT == BYTES_FIRST && bytes > MAX_ENCODINGS {
            return refused(JOINED_TOO_LARGE, bytes);
        }
    }
    let mut bytes = 0;
    for (index, entry) in joined.iter_mut().enumerate() {
        if filled(entry) {
            let made = puts.measure::<FAULT>(own(entry), 0);
            let place = match FAULT {
                PLACE_0 => 0,
                PLACE_OF_ENTRY => index,
                _ => entry.blank as usize,
            };
            within::<FAULT>(&made, place)?;
            entry.made = made.length as u16;
        }
        bytes += entry.made as usize;
    }
    if too_many {
        return refused(JOINED_TOO_LARGE, counted);
    }
    let counted = match FAULT {
        BYTES_UNFILLED => joined.iter().map(|entry| entry.length as usize).sum(),
        _ => bytes,
    };
    if counted > MAX_ENCODINGS + (FAULT == MORE_BYTES) as usize {
        let place = match FAULT {
            WHOLE_SHEET => 4 + 4 * count + bytes,
            _ => counted,
        };
        return refused(JOINED_TOO_LARGE, place);
    }

    lent::<FAULT>(out, 4 + 4 * count + bytes, |out| {
        out[..2].copy_from_slice(&(count as u16).to_le_bytes());
        let (heads, encodings) = out[2..].split_at_mut(4 * count);
        encodings[..2].copy_from_slice(&(bytes as u16).to_le_bytes());
        let mut to = 2;
        for (head, entry) in heads.chunks_exact_mut(4).zip(joined.iter()) {
            let length = match FAULT {
                OLD_LENGTHS => entry.length,
                _ => entry.made,
            };
            head[..2].copy_from_slice(&entry.blank.to_le_bytes());
            head[2..].copy_from_slice(&length.to_le_bytes());
            to = match own(entry) {
                own if filled(entry) => puts.write::<FAULT>(own, 0, encodings, to).1,
                &[byte] => copy(&[byte], encodings, to),
                own => copy(own, encodings, to),
            };
        }
    })
}
