//! Inputs for `sheet`: sound sheets of all sizes, and sheets in which one to three things are broken.

use super::{
    any_tree, changed, encode, long, symbol, tree, Slip, Style, MAX_BYTES, MAX_LEVELS, SLIPS,
    SYMBOL, TELLING,
};
use crate::fast;
use crate::random::Random;

pub(super) const MAX_ENTRIES: usize = 32;
pub(super) const MAX_ENCODINGS: usize = 16_384;

/// A sheet to write. Its parts need not fit one another.
#[derive(Clone)]
pub struct Sheet {
    pub count: u16,
    /// blank and length
    pub entries: Vec<(u16, u16)>,
    pub second_count: u16,
    pub encodings: Vec<u8>,
}

impl Sheet {
    /// The sheet that has these encodings for these blanks.
    pub fn of<'a>(blanks: impl IntoIterator<Item = (u16, &'a [u8])>) -> Sheet {
        let mut sheet = Sheet {
            count: 0,
            entries: Vec::new(),
            second_count: 0,
            encodings: Vec::new(),
        };
        for (blank, own) in blanks {
            sheet.count += 1;
            sheet.entries.push((blank, own.len() as u16));
            sheet.encodings.extend(own);
        }
        sheet.second_count = sheet.encodings.len() as u16;
        sheet
    }

    pub fn bytes(&self) -> Vec<u8> {
        let mut bytes = self.count.to_le_bytes().to_vec();
        for (blank, length) in &self.entries {
            bytes.extend(blank.to_le_bytes());
            bytes.extend(length.to_le_bytes());
        }
        bytes.extend(self.second_count.to_le_bytes());
        bytes.extend(&self.encodings);
        bytes
    }

    /// Where the encoding of an entry stands among the encodings, as far as they go.
    fn range(&self, entry: usize) -> std::ops::Range<usize> {
        let before = self.entries[..entry]
            .iter()
            .map(|(_, length)| *length as usize);
        let start = before.sum::<usize>().min(self.encodings.len());
        let stop = start + self.entries[entry].1 as usize;
        start..stop.min(self.encodings.len())
    }

    /// Puts other bytes for an entry's encoding. The length fits, and the second count if it fitted.
    fn put(&mut self, entry: usize, own: &[u8]) {
        let range = self.range(entry);
        let more = (own.len() as u16).wrapping_sub(range.len() as u16);
        self.second_count = self.second_count.wrapping_add(more);
        self.entries[entry].1 = own.len() as u16;
        self.encodings.splice(range, own.iter().copied());
    }
}

/// A sheet of so many entries, for the blanks from 0 on, that all have this encoding.
pub fn equal(count: u16, encoding: &[u8]) -> Vec<u8> {
    Sheet::of((0..count).map(|blank| (blank, encoding))).bytes()
}

/// A Symbol that takes so many bytes, at least 5.
pub fn symbol_of(bytes: usize) -> Vec<u8> {
    match bytes {
        133 => long(SYMBOL, &[&[2, 0, 127][..], &[b'a'; 127]].concat()),
        5..=132 => symbol(&vec![b'a'; bytes - 5]),
        _ => symbol(&vec![b'a'; bytes - 6]),
    }
}

/// Generated inputs for `sheet`, without end.
pub struct SheetInputs {
    random: Random,
}

impl SheetInputs {
    pub fn new(seed: u64) -> SheetInputs {
        SheetInputs {
            random: Random::new(seed),
        }
    }
}

impl Iterator for SheetInputs {
    type Item = Vec<u8>;

    fn next(&mut self) -> Option<Vec<u8>> {
        let random = &mut self.random;
        Some(match random.below(32) {
            0..=12 => sound(random).bytes(),
            13 => at_the_limits(random).bytes(),
            14 => random_bytes(random),
            15 => {
                let bytes = sound(random).bytes();
                changed(random, &bytes)
            }
            16 | 17 => {
                let bytes = sound(random).bytes();
                cut(random, bytes)
            }
            _ => several_broken(random),
        })
    }
}

/// Blank numbers that rise, in different ways.
pub(super) fn blanks(random: &mut Random, count: usize) -> Vec<u16> {
    let from = random.pick(&[0, 0, 1, 31, 255, 256, 65_535 - 33]);
    let mut blanks: Vec<u16> = match random.below(4) {
        0 => (0..count as u16).map(|i| from + i).collect(),
        1 => (0..count as u16).map(|i| i * 256 + 255 - i).collect(),
        _ => (0..2 * count).map(|_| random.number() as u16).collect(),
    };
    blanks.sort();
    blanks.dedup();
    while blanks.len() > count {
        let at = random.below(blanks.len());
        blanks.remove(at);
    }
    blanks
}

/// An accepted encoding of at most so many bytes, or if it is to be large of about so many.
fn accepted(random: &mut Random, most: usize, large: bool) -> Vec<u8> {
    loop {
        let tree = match large {
            true => tree(random, most, MAX_LEVELS, Style::Wide),
            false => any_tree(random, most),
        };
        let bytes = encode(&tree, Slip::None, random);
        if fast::read::<0>(&bytes).is_ok() {
            return bytes;
        }
    }
}

/// A sound sheet of 0 to 32 entries.
pub(super) fn sound(random: &mut Random) -> Sheet {
    let count = match random.below(4) {
        0 => random.pick(&[0, 0, 1, 1, 2, 31, 32, 32]),
        1 => random.between(0, 6),
        _ => random.between(0, MAX_ENTRIES),
    };
    let blanks = blanks(random, count);
    let large = random.once_in(6);
    let mut left = match large {
        true => MAX_ENCODINGS,
        false => MAX_ENTRIES << random.between(0, 9),
    };
    let mut encodings = Vec::new();
    for i in 0..blanks.len() {
        let others = blanks.len() - 1 - i;
        let most = left - others;
        let most = match random.below(4) {
            0 => most,
            _ => random.between(1, most.min(2 * left / (others + 1))),
        };
        let own = accepted(random, most.min(MAX_BYTES), large);
        left -= own.len();
        encodings.push(own);
    }
    Sheet::of(
        blanks
            .iter()
            .zip(&encodings)
            .map(|(blank, own)| (*blank, &own[..])),
    )
}

/// A sheet whose encodings are as long as they may be, or a little less or more.
fn at_the_limits(random: &mut Random) -> Sheet {
    let total: usize = match random.below(8) {
        0..=3 => MAX_ENCODINGS,
        4 => MAX_ENCODINGS - 1,
        5 => MAX_ENCODINGS + 1,
        6 => random.between(MAX_ENCODINGS + 1, 65_535),
        _ => 65_536, // 32 of 2,048: the low two bytes are 0
    };
    let fewest = total.div_ceil(MAX_BYTES);
    let count = match random.below(3) {
        0 => fewest,
        _ => random.between(fewest, MAX_ENTRIES),
    };
    let blanks = loop {
        let blanks = blanks(random, count);
        if blanks.len() == count {
            break blanks;
        }
    };
    let mut left = total;
    let mut encodings = Vec::new();
    for others in (0..count).rev() {
        let least = left.saturating_sub(MAX_BYTES * others).max(5);
        let most = (left - 5 * others).min(MAX_BYTES);
        let length = match random.below(3) {
            0 => most,
            1 => random.between(least, most),
            _ => (left / (others + 1)).clamp(least, most),
        };
        encodings.push(symbol_of(length));
        left -= length;
    }
    Sheet::of(
        blanks
            .iter()
            .zip(&encodings)
            .map(|(blank, own)| (*blank, &own[..])),
    )
}

/// A sheet in which one to three things are broken, and which may be cut.
pub(super) fn several_broken(random: &mut Random) -> Vec<u8> {
    let mut sheet = match random.below(12) {
        0 => at_the_limits(random),
        _ => sound(random),
    };
    for _ in 0..random.pick(&[1, 1, 1, 2, 2, 3]) {
        break_one(random, &mut sheet);
    }
    let bytes = sheet.bytes();
    match random.below(12) {
        0 => cut(random, bytes),
        _ => bytes,
    }
}

/// Breaks one thing. Those that need an entry break the count where there is none.
fn break_one(random: &mut Random, sheet: &mut Sheet) {
    let entries = sheet.entries.len();
    let what = if entries == 0 {
        random.below(5)
    } else {
        random.below(16)
    };
    let entry = random.below(entries.max(1));
    match what {
        0 => {
            let (one, any) = (random.pick(&[1, u16::MAX]), random.number() as u16);
            let other = sheet.count.wrapping_add(one);
            sheet.count = random.pick(&[other, other, other, 33, 256, 0x2000, any]);
        }
        1 | 2 => {
            // the second count: off by a little, as long as what is there, or any
            let by = random.pick(&[1, u16::MAX, 2, 256, 0xFF00]);
            let other = sheet.second_count.wrapping_add(by);
            let there = sheet.encodings.len() as u16 + random.below(2) as u16;
            let any = random.number() as u16;
            sheet.second_count = random.pick(&[other, other, there, 0, 16_384, 16_385, any]);
        }
        3 | 4 => {
            let more = random.pick(&[1, 1, 2, 3, 4, 100]);
            let byte = random.pick(&[0, 0x20, 0xFF]);
            sheet.encodings.resize(sheet.encodings.len() + more, byte);
        }
        // 33 entries, or one more than there were
        5 => {
            let all = if random.once_in(2) {
                MAX_ENTRIES + 1
            } else {
                entries + 1
            };
            let mut blank = sheet.entries[entries - 1].0;
            while sheet.entries.len() < all {
                blank = blank.saturating_add(1);
                sheet.entries.push((blank, 0));
                let own = accepted(random, 20, false);
                sheet.put(sheet.entries.len() - 1, &own);
            }
            sheet.count = all as u16;
        }
        // an entry with its encoding a second time
        6 => {
            let own = sheet.encodings[sheet.range(entry)].to_vec();
            sheet.entries.insert(entry, (sheet.entries[entry].0, 0));
            sheet.put(entry, &own);
            sheet.count = sheet.count.wrapping_add(1);
        }
        7 => sheet.entries.swap(entry, random.below(entries)),
        8 => {
            let other = sheet.entries[random.below(entries)].0;
            let by = random.pick(&[0, 0, 1, u16::MAX, 256]);
            sheet.entries[entry].0 = other.wrapping_add(by);
        }
        9 => sheet.put(entry, &[]),
        10 => {
            let length = random.pick(&[2049, 2049, 2050, 2304, 4096]);
            sheet.put(entry, &symbol_of(length));
        }
        // a length alone, or with it that of the next
        11 => {
            let (one, any) = (random.pick(&[1, u16::MAX]), random.number() as u16);
            let length = sheet.entries[entry].1;
            let other = length.wrapping_add(one);
            sheet.entries[entry].1 = random.pick(&[other, other, 0, 2049, any]);
            if random.once_in(2) && entry + 1 < entries {
                let by = length.wrapping_sub(sheet.entries[entry].1);
                let next = &mut sheet.entries[entry + 1].1;
                *next = next.wrapping_add(by);
            }
        }
        _ => {
            let own = bad_encoding(random, &sheet.encodings[sheet.range(entry)]);
            sheet.put(entry, &own);
        }
    }
}

/// An encoding that is damaged, or of another shape, with a slip, or too deep.
fn bad_encoding(random: &mut Random, own: &[u8]) -> Vec<u8> {
    let mut bytes = match random.below(4) {
        0 => {
            let tree = any_tree(random, 200);
            let slip = random.pick(&SLIPS);
            encode(&tree, slip, random)
        }
        1 => super::at_the_last_level(random),
        2 => {
            let mut bytes = own.to_vec();
            if let Some(last) = bytes.last_mut() {
                *last = random.pick(&TELLING);
            }
            bytes
        }
        _ => changed(random, own),
    };
    bytes.truncate(MAX_BYTES);
    bytes
}

/// What is left of a sheet that is cut off: anywhere, or near where a section starts or ends.
fn cut(random: &mut Random, mut bytes: Vec<u8>) -> Vec<u8> {
    let entries = 4 * bytes[0].min(33) as usize;
    let near = random.pick(&[0, 2, entries, entries + 2, entries + 4, bytes.len()]);
    let at = match random.below(3) {
        0 => random.below(bytes.len() + 1),
        _ => (near + random.below(5)).saturating_sub(2),
    };
    bytes.truncate(at);
    bytes
}

/// Any bytes, mostly with counts, numbers and lengths that are small.
fn random_bytes(random: &mut Random) -> Vec<u8> {
    let length = random.pick(&[0, 1, 2, 3, 4, 5, 6, 8, 9, 10, 12, 14, 40, 140]);
    let any = random.once_in(4);
    let mut bytes: Vec<u8> = (0..length)
        .map(|place| match (any, place % 2) {
            (true, _) => random.byte(),
            (_, 0) => random.pick(&[0, 1, 1, 2, 3, 4, 32, 33]),
            (_, _) => random.pick(&[0, 0, 0, 0, 0, 0, 0, 0, 1, 32]),
        })
        .collect();
    if length >= 9 && random.once_in(2) {
        bytes[..2].copy_from_slice(&[1, 0]);
        bytes[4..8].copy_from_slice(&[length as u8 - 8, 0, length as u8 - 8, 0]);
    }
    bytes
}

/// The inputs for `sheet` that are always among the cases.
pub fn always() -> Vec<Vec<u8>> {
    const INT: &[u8] = &[0x20];
    let m13 = Sheet::of([(0, INT)]);
    let m14 = Sheet::of([(0, INT), (1, INT)]);
    let three = Sheet::of([(2, INT), (40, &[0x40, 1, 0, 0]), (65_535, INT)]);
    let changed = |sheet: &Sheet, change: &dyn Fn(&mut Sheet)| {
        let mut sheet = sheet.clone();
        change(&mut sheet);
        sheet.bytes()
    };
    let mut inputs = Vec::new();
    // cut at each place, and with more bytes
    for sheet in [Sheet::of([]), m13, m14, three.clone()] {
        let bytes = sheet.bytes();
        inputs.extend((0..=bytes.len()).map(|place| bytes[..place].to_vec()));
        inputs.push([&bytes[..], &[0]].concat());
        inputs.push([&bytes[..], &[0; 100_000]].concat());
    }
    // each rule that an entry can break, in each entry
    for entry in 0..3 {
        for length in [0, 2048, 2049, 65_535] {
            inputs.push(changed(&three, &|sheet| sheet.entries[entry].1 = length));
        }
        for blank in [0, 1, 2, 3, 39, 40, 41, 65_534, 65_535] {
            inputs.push(changed(&three, &|sheet| sheet.entries[entry].0 = blank));
        }
        for bad in [&[][..], &[0xFF], &[0x20, 0x20], &[0x40, 1, 0, 0x20]] {
            inputs.push(changed(&three, &|sheet| sheet.put(entry, bad)));
        }
    }
    for count in [0, 1, 2, 4, 32, 33, 256, 65_535] {
        inputs.push(changed(&three, &|sheet| sheet.count = count));
        inputs.push(changed(&three, &|sheet| sheet.second_count = count));
    }
    // limits
    for count in [31, 32, 33, 34] {
        inputs.push(equal(count, INT));
        inputs.push(equal(count, &symbol_of(512)));
        inputs.push(equal(count, &symbol_of(2048)));
    }
    for count in [7, 8, 9] {
        inputs.push(equal(count, &symbol_of(2048)));
        inputs.push(equal(count, &symbol_of(2049)));
    }
    // 16,384 bytes in nine entries, and 16,385
    for last in [1024, 1025] {
        let mut sheet = Sheet::of((0..9).map(|blank| (blank, INT)));
        (0..7).for_each(|entry| sheet.put(entry, &symbol_of(2048)));
        sheet.put(7, &symbol_of(1024));
        sheet.put(8, &symbol_of(last));
        inputs.push(sheet.bytes());
    }
    inputs.push(vec![0xFF; 100_000]);
    inputs.extend(
        crate::stack::worst_for_sheet()
            .into_iter()
            .map(|(_, bytes)| bytes),
    );
    inputs
}
