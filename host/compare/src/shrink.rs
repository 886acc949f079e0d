//! The smallest input that still shows a difference, as far as simplifying and dropping bytes finds
//! it.

use crate::cases::leb128;
use crate::cases::table::{RecordTable, Table};
use std::ops::Range;

/// Simplifies and drops bytes while the input differs.
pub fn shrink(input: &[u8], differs: impl Fn(&[u8]) -> bool) -> Vec<u8> {
    let mut bytes = input.to_vec();
    loop {
        let before = bytes.clone();
        bytes = match inner(&before).find(|inner| differs(inner)) {
            Some(inner) => inner.to_vec(),
            None => bytes,
        };
        simplify(&mut bytes, &differs);
        drop_some(&mut bytes, &differs);
        if bytes == before {
            return bytes;
        }
    }
}

/// As `shrink`, for a sheet: first drops entries with their encodings, and makes encodings shorter.
pub fn shrink_sheet(input: &[u8], differs: impl Fn(&[u8]) -> bool) -> Vec<u8> {
    let bytes = drop_entries(input, &differs);
    match bytes.len() {
        0..=LONGEST => shrink(&bytes, differs),
        _ => bytes,
    }
}

/// Drops entries of a sheet with their encodings, and makes encodings shorter.
pub fn drop_entries(input: &[u8], differs: impl Fn(&[u8]) -> bool) -> Vec<u8> {
    let mut bytes = input.to_vec();
    loop {
        let before = bytes.clone();
        for index in (0..33).rev() {
            while let Some(smaller) = Entry::of(&bytes, index)
                .map_or(vec![], |entry| entry.smaller())
                .into_iter()
                .find(|smaller| smaller.len() < bytes.len() && differs(smaller))
            {
                bytes = smaller;
            }
        }
        if bytes == before {
            return bytes;
        }
    }
}

/// As `shrink`, for a table: first drops nodes, links, names and text, in each section as many at once
/// as can be. Of a section with many entries only whole blocks are dropped, so that a table which has
/// to be large does not take too long.
pub fn shrink_table(input: &[u8], differs: impl Fn(&[u8]) -> bool) -> Vec<u8> {
    let mut bytes = input.to_vec();
    loop {
        let before = bytes.len();
        for section in 0..4 {
            for size in sizes(before) {
                let mut at = 0;
                while let Some(smaller) = Table::apart(&bytes)
                    .filter(|table| entries(table)[section] <= MOST_BLOCKS * size)
                    .and_then(|table| without_entries(table, section, at, size))
                    .map(|table| table.bytes())
                {
                    match differs(&smaller) {
                        true => bytes = smaller,
                        false => at += size,
                    }
                }
            }
        }
        if bytes.len() == before {
            break;
        }
    }
    match bytes.len() {
        0..=SHORT => shrink(&bytes, differs),
        _ => bytes,
    }
}

/// As `shrink_table`, for a table whose nodes are records. More than two bytes can count are only made
/// fewer, from the end.
pub fn shrink_records(input: &RecordTable, differs: impl Fn(&RecordTable) -> bool) -> RecordTable {
    let mut table = input.clone();
    for size in sizes(table.nodes.len()) {
        let mut fewer = table.clone();
        fewer.nodes.truncate(table.nodes.len().saturating_sub(size));
        if fewer != table && differs(&fewer) {
            table = fewer;
        }
    }
    let Some(bytes) = table.bytes() else {
        return table;
    };
    let small = shrink_table(&bytes, |bytes| {
        RecordTable::of(bytes).is_some_and(|table| differs(&table))
    });
    RecordTable::of(&small).unwrap_or(table)
}

/// Longer tables are not changed byte by byte.
const SHORT: usize = 512;

/// A section of more blocks of a size than this is not gone through for blocks of that size.
const MOST_BLOCKS: usize = 256;

/// How many entries each section has.
fn entries(table: &Table) -> [usize; 4] {
    [
        table.nodes.len(),
        table.links.len(),
        table.names.len(),
        table.text.len(),
    ]
}

/// The table without some entries of a section, if they are there. Its count is as wrong as it was, and
/// the numbers of other entries fit.
fn without_entries(mut table: Table, section: usize, at: usize, size: usize) -> Option<Table> {
    let dropped = at..at + size;
    // a number that counts entries: those after the dropped ones have another
    let fitted = |number: &mut u16| {
        let before = (*number as usize).saturating_sub(at).min(size);
        *number -= before as u16;
    };
    let fit_range = |start: &mut u16, length: &mut u16| {
        let mut end = start.saturating_add(*length);
        fitted(start);
        fitted(&mut end);
        *length = end.saturating_sub(*start);
    };
    if at + size > entries(&table)[section] {
        return None;
    }
    table.counts[section] = table.counts[section].wrapping_sub(size as u16);
    match section {
        0 => {
            table.nodes.drain(dropped);
            table.links.iter_mut().for_each(|link| fitted(&mut link.0));
        }
        1 => {
            table.links.drain(dropped);
            for node in table.nodes.iter_mut().filter(|node| node.is_list()) {
                fit_range(&mut node.a, &mut node.b);
            }
        }
        2 => {
            table.names.drain(dropped);
            table.links.iter_mut().for_each(|link| fitted(&mut link.1));
        }
        _ => {
            table.text.drain(dropped);
            for (start, length) in &mut table.names {
                fit_range(start, length);
            }
        }
    }
    Some(table)
}

/// Longer inputs would take too long, byte by byte.
const LONGEST: usize = 4096;

/// An entry of a sheet, which may be broken.
struct Entry<'a> {
    sheet: &'a [u8],
    /// where the entry is
    place: usize,
    /// where the second count is
    second_count: usize,
    /// where the encoding is, as far as it is there
    own: Range<usize>,
}

impl Entry<'_> {
    fn of(sheet: &[u8], index: usize) -> Option<Entry<'_>> {
        let count = number(sheet, 0)? as usize;
        let second_count = 2 + 4 * count;
        number(sheet, second_count)?;
        if index >= count {
            return None;
        }
        let length = |index: usize| number(sheet, 4 + 4 * index).map(usize::from);
        let before: Option<usize> = (0..index).map(length).sum();
        let start = (second_count + 2 + before?).min(sheet.len());
        let stop = (start + length(index)?).min(sheet.len());
        Some(Entry {
            sheet,
            place: 2 + 4 * index,
            second_count,
            own: start..stop,
        })
    }

    /// The sheet without the entry, and with a shorter encoding for it.
    fn smaller(&self) -> Vec<Vec<u8>> {
        let own = &self.sheet[self.own.clone()];
        let half = own.len() / 2;
        let mut all = vec![self.dropped(), self.with(&[0x20])];
        all.extend([1, half].map(|length| self.with(&own[..length.min(own.len())])));
        all.extend([half, 1].map(|from| self.with(&own[from.min(own.len())..])));
        all.extend(inner(own).map(|inner| self.with(inner)).take(20));
        all
    }

    /// The sheet with another encoding. The length and the second count are as wrong as they were.
    fn with(&self, new: &[u8]) -> Vec<u8> {
        let fewer = (self.own.len() as u16).wrapping_sub(new.len() as u16);
        let mut bytes = self.sheet.to_vec();
        bytes.splice(self.own.clone(), new.iter().copied());
        for place in [self.place + 2, self.second_count] {
            let less = number(self.sheet, place).map(|number| number.wrapping_sub(fewer));
            bytes[place..place + 2].copy_from_slice(&less.unwrap_or(0).to_le_bytes());
        }
        bytes
    }

    /// The sheet without the entry. The counts are as wrong as they were.
    fn dropped(&self) -> Vec<u8> {
        let mut bytes = self.with(&[]);
        bytes.drain(self.place..self.place + 4);
        let fewer = number(self.sheet, 0).map_or(0, |count| count - 1);
        bytes[..2].copy_from_slice(&fewer.to_le_bytes());
        bytes
    }
}

fn number(bytes: &[u8], place: usize) -> Option<u16> {
    let two = bytes.get(place..place + 2)?;
    Some(u16::from_le_bytes([two[0], two[1]]))
}

/// What looks like a shape with a size inside another, the last first: it is the innermost.
fn inner(bytes: &[u8]) -> impl Iterator<Item = &[u8]> {
    (1..bytes.len()).rev().filter_map(|first| {
        let stop = first + 3 + number(bytes, first + 1)? as usize;
        (64..=69).contains(&bytes[first]).then_some(())?;
        bytes.get(first..stop)
    })
}

/// How many bytes are tried at once: the powers of two, so that whole blocks of text can go, and
/// three, a first byte with its size.
fn sizes(length: usize) -> impl Iterator<Item = usize> {
    let most = length.max(1).ilog2();
    (0..=most).rev().map(|power| 1 << power).chain([3])
}

/// Puts a simpler byte for some: 0, or else 1, or else 32.
fn simplify(bytes: &mut Vec<u8>, differs: &impl Fn(&[u8]) -> bool) {
    let rank = |byte: u8| {
        [0, 1, 32]
            .iter()
            .position(|&simple| simple == byte)
            .unwrap_or(3)
    };
    for size in sizes(bytes.len()) {
        for at in 0..bytes.len().saturating_sub(size - 1) {
            for simple in [0, 1, 32] {
                if bytes[at..at + size]
                    .iter()
                    .all(|&byte| rank(byte) <= rank(simple))
                {
                    break;
                }
                let mut simpler = bytes.clone();
                simpler[at..at + size].fill(simple);
                if differs(&simpler) {
                    *bytes = simpler;
                    break;
                }
            }
        }
    }
}

fn drop_some(bytes: &mut Vec<u8>, differs: &impl Fn(&[u8]) -> bool) {
    for size in sizes(bytes.len()) {
        let mut at = 0;
        while at + size <= bytes.len() {
            match without(bytes, at, size)
                .into_iter()
                .find(|shorter| differs(shorter))
            {
                Some(shorter) => *bytes = shorter,
                None => at += 1,
            }
        }
    }
}

/// The bytes without some of them: as they are, with the payload sizes round them made to fit, and
/// with a count or a text's length before them made to fit too.
fn without(bytes: &[u8], at: usize, size: usize) -> Vec<Vec<u8>> {
    let mut plain = bytes.to_vec();
    plain.drain(at..at + size);
    let fitted = replace(bytes, at, size, &[]);
    let mut all = vec![plain, fitted.clone()];
    let Some(payload) = enclosing(bytes, at, size).last().map(|first| first + 3) else {
        return all;
    };
    for place in payload..at {
        let (number, length) = match bytes[place..] {
            [low @ 0..=127, ..] => (low as usize, 1),
            [low, high @ 1..=127, ..] => ((low & 127) as usize + 128 * high as usize, 2),
            _ => continue,
        };
        let covers = place + length <= at && at + size <= place + length + number;
        let fewer = match place == payload {
            true => vec![size, size / 2, 1],
            false if covers => vec![size],
            false => continue,
        };
        for fewer in fewer.into_iter().filter(|&fewer| fewer <= number) {
            all.push(replace(&fitted, place, length, &leb128(number - fewer)));
        }
    }
    all
}

/// The bytes with others in the place of some, and the payload sizes round them made to fit.
fn replace(bytes: &[u8], at: usize, size: usize, new: &[u8]) -> Vec<u8> {
    let mut result = bytes.to_vec();
    for first in enclosing(bytes, at, size) {
        let payload = u16::from_le_bytes([bytes[first + 1], bytes[first + 2]]);
        let payload = payload - size as u16 + new.len() as u16;
        result[first + 1..first + 3].copy_from_slice(&payload.to_le_bytes());
    }
    result.splice(at..at + size, new.iter().copied());
    result
}

/// The first bytes of what look like shapes whose payloads hold these bytes.
fn enclosing(bytes: &[u8], at: usize, size: usize) -> impl Iterator<Item = usize> + '_ {
    (0..at.saturating_sub(2)).filter(move |&first| {
        let payload = u16::from_le_bytes([bytes[first + 1], bytes[first + 2]]) as usize;
        let stop = first + 3 + payload;
        (64..=69).contains(&bytes[first]) && at + size <= stop && stop <= bytes.len()
    })
}
