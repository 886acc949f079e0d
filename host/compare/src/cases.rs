//! Inputs for the calls: a fixed list that is always among the cases, and as many generated ones as
//! wanted, the same for the same seed. Shapes are written by an encoder of their own, which can
//! make one slip on the way.

use crate::random::Random;

pub mod fills;
pub mod pieces;
pub mod sheets;
pub mod table;
pub mod tables;

const MAX_BYTES: usize = 2048;
const MAX_LEVELS: usize = 16;

const ARRAY: u8 = 64;
const MAP: u8 = 65;
const RECORD: u8 = 66;
const FUNCTION: u8 = 67;
const SYMBOL: u8 = 68;
const VARIABLE: u8 = 69;

// -------------------------------------------------------------------------------------------------
// Writing

/// A LEB128 number in the fewest bytes.
pub fn leb128(number: usize) -> Vec<u8> {
    match number {
        0..=127 => vec![number as u8],
        _ => vec![number as u8 | 128, (number >> 7) as u8],
    }
}

/// A shape with a size and a payload.
pub fn long(first: u8, payload: &[u8]) -> Vec<u8> {
    let mut bytes = vec![first, payload.len() as u8, (payload.len() >> 8) as u8];
    bytes.extend(payload);
    bytes
}

/// So many levels round an encoding.
pub fn nested(levels: usize, inner: &[u8], round: impl Fn(&[u8]) -> Vec<u8>) -> Vec<u8> {
    (0..levels).fold(inner.to_vec(), |inner, _| round(&inner))
}

/// A Function of so many parameters.
pub fn function(count: usize, parameters: &[u8], result: &[u8]) -> Vec<u8> {
    let mut payload = leb128(count);
    payload.extend(parameters);
    payload.extend(result);
    long(FUNCTION, &payload)
}

/// A Record of so many fields, each with its name.
pub fn record(count: usize, fields: &[u8]) -> Vec<u8> {
    let mut payload = leb128(count);
    payload.extend(fields);
    long(RECORD, &payload)
}

/// A Symbol of one text.
pub fn symbol(text: &[u8]) -> Vec<u8> {
    let mut payload = vec![1];
    payload.extend(leb128(text.len()));
    payload.extend(text);
    long(SYMBOL, &payload)
}

/// A shape to write. A Function's return is the last of its list. Texts are any bytes.
pub enum Tree {
    Primitive(u8),
    Variable(u16),
    Array(Box<Tree>),
    Map(Box<[Tree; 2]>),
    Record(Vec<(Vec<u8>, Tree)>),
    Function(Vec<Tree>),
    Symbol(Vec<Vec<u8>>),
}

/// What the encoder gets wrong, in one place of all where it could.
#[derive(Clone, Copy, PartialEq, Eq)]
enum Slip {
    None,
    /// a payload size that is off by one or more
    Size,
    /// a count that is off by one
    Count,
    /// a text's length that is off by one
    Length,
    /// a LEB128 number that is missing, unfinished, over two bytes or not shortest
    Leb128,
    /// a text that is not UTF-8
    Text,
    /// a long form where a short one exists
    LongForm,
}

const SLIPS: [Slip; 6] = [
    Slip::Size,
    Slip::Count,
    Slip::Length,
    Slip::Leb128,
    Slip::Text,
    Slip::LongForm,
];

struct Encoder<'a> {
    random: &'a mut Random,
    bytes: Vec<u8>,
    slip: Slip,
    /// places for the slip that come before the one where it is made
    before: usize,
    /// where the payload is cut off that ends next after this place
    cut: Option<usize>,
}

/// The encoding of a shape, with a slip in one place, where there is one for it.
fn encode(tree: &Tree, slip: Slip, random: &mut Random) -> Vec<u8> {
    let mut before = 0;
    if slip != Slip::None {
        let mut dry = Encoder::new(random, slip, usize::MAX);
        dry.shape(tree);
        let places = usize::MAX - dry.before;
        before = random.below(places.max(1));
    }
    let mut encoder = Encoder::new(random, slip, before);
    encoder.shape(tree);
    encoder.bytes
}

impl Encoder<'_> {
    fn new(random: &mut Random, slip: Slip, before: usize) -> Encoder<'_> {
        Encoder {
            random,
            bytes: Vec::new(),
            slip,
            before,
            cut: None,
        }
    }

    /// Whether the slip is made here.
    fn slips(&mut self, slip: Slip) -> bool {
        if self.slip != slip {
            return false;
        }
        if self.before == 0 {
            self.slip = Slip::None;
            return true;
        }
        self.before -= 1;
        false
    }

    fn shape(&mut self, tree: &Tree) {
        match tree {
            Tree::Primitive(number) => self.bytes.push(32 + number),
            Tree::Variable(number) => {
                if *number < 32 && !self.slips(Slip::LongForm) {
                    self.bytes.push(*number as u8);
                } else {
                    self.long(VARIABLE, |to| to.bytes.extend(number.to_le_bytes()));
                }
            }
            Tree::Array(element) => match **element {
                Tree::Primitive(number) if !self.slips(Slip::LongForm) => {
                    self.bytes.push(96 + number)
                }
                _ => self.long(ARRAY, |to| to.shape(element)),
            },
            Tree::Map(pair) => match **pair {
                [Tree::Primitive(key), Tree::Primitive(value)] if !self.slips(Slip::LongForm) => {
                    self.bytes.push(101 + 5 * key + value)
                }
                _ => self.long(MAP, |to| pair.iter().for_each(|tree| to.shape(tree))),
            },
            Tree::Record(fields) => self.long(RECORD, |to| {
                to.count(fields.len());
                for (name, tree) in fields {
                    to.text(name);
                    to.shape(tree);
                }
            }),
            Tree::Function(list) => self.long(FUNCTION, |to| {
                to.count(list.len() - 1);
                list.iter().for_each(|tree| to.shape(tree));
            }),
            Tree::Symbol(texts) => self.long(SYMBOL, |to| {
                to.count(texts.len());
                texts.iter().for_each(|text| to.text(text));
            }),
        }
    }

    fn long(&mut self, first: u8, payload: impl FnOnce(&mut Self)) {
        self.bytes.extend([first, 0, 0]);
        let start = self.bytes.len();
        payload(self);
        if let Some(place) = self.cut.filter(|&place| place >= start) {
            self.bytes.truncate(place);
            self.cut = None;
        }
        let mut size = self.bytes.len() - start;
        if self.slips(Slip::Size) {
            let by = self.random.pick(&[1, 1, 1, 2, 256]);
            size = if self.random.once_in(2) {
                size + by
            } else {
                size.saturating_sub(by)
            };
        }
        self.bytes[start - 2] = size as u8;
        self.bytes[start - 1] = (size >> 8) as u8;
    }

    fn count(&mut self, count: usize) {
        let slips = self.slips(Slip::Count);
        self.number(count, slips);
    }

    fn text(&mut self, text: &[u8]) {
        if self.slips(Slip::Text) {
            let text = bad_text(self.random, text);
            self.number(text.len(), false);
            self.bytes.extend(text);
        } else {
            let slips = self.slips(Slip::Length);
            self.number(text.len(), slips);
            self.bytes.extend(text);
        }
    }

    fn number(&mut self, number: usize, off_by_one: bool) {
        let number = match off_by_one {
            true if self.random.once_in(2) => number + 1,
            true => number.saturating_sub(1),
            false => number,
        };
        if !self.slips(Slip::Leb128) {
            self.bytes.extend(leb128(number));
            return;
        }
        let (low, high) = (number as u8 | 128, (number >> 7) as u8);
        match self.random.below(5) {
            0 => self.cut = Some(self.bytes.len()),
            1 => {
                self.bytes.push(low);
                self.cut = Some(self.bytes.len());
            }
            2 => self.bytes.extend([low, high | 128, 0]),
            3 => {
                let third = self.random.byte();
                self.bytes.extend([low, high | 128, third]);
            }
            _ => self.bytes.extend([low, 0]),
        }
    }
}

// -------------------------------------------------------------------------------------------------
// Texts

/// Characters of each size, the first and the last of each among them.
const CHARACTERS: [char; 16] = [
    '\u{0}',
    'a',
    '\u{7F}',
    '\u{80}',
    'é',
    '\u{7FF}',
    '\u{800}',
    '€',
    '\u{CFFF}',
    '\u{D7FF}',
    '\u{E000}',
    '\u{FFFF}',
    '\u{10000}',
    '\u{3FFFF}',
    '\u{100000}',
    '\u{10FFFF}',
];

/// Overlong, surrogate, past the last character, cut, and bytes that start no character.
const NOT_UTF8: [&[u8]; 28] = [
    &[0xC0, 0x80],
    &[0xC1, 0xBF],
    &[0xE0, 0x80, 0x80],
    &[0xE0, 0x9F, 0xBF],
    &[0xF0, 0x80, 0x80, 0x80],
    &[0xF0, 0x8F, 0xBF, 0xBF],
    &[0xED, 0xA0, 0x80],
    &[0xED, 0xAF, 0xBF],
    &[0xED, 0xB0, 0x80],
    &[0xED, 0xBF, 0xBF],
    &[0xF4, 0x90, 0x80, 0x80],
    &[0xF4, 0xBF, 0xBF, 0xBF],
    &[0xF5, 0x80, 0x80, 0x80],
    &[0xFF],
    &[0xFE],
    &[0x80],
    &[0xBF],
    &[0xC2],
    &[0xDF, 0x7F],
    &[0xC3, 0xC0],
    &[0xE2, 0x82],
    &[0xE2, 0x28, 0xA1],
    &[0xEF, 0xBF, 0xC0],
    &[0xF0, 0x9F, 0x9A],
    &[0xF0, 0x9F, 0x41, 0x80],
    &[0xF1, 0x80, 0x80, 0x7F],
    &[0xF3, 0xBF],
    &[0xF4, 0x8F, 0xBF],
];

/// A text of at most so many bytes. Lengths next to a block of text that the readers try at once,
/// or next to a second byte of LEB128, come often.
fn text(random: &mut Random, most: usize) -> Vec<u8> {
    let length = match random.below(4) {
        0 => random.pick(&[0, 1, 2, 7, 8, 9, 63, 64, 65, 71, 72, 73, 127, 128, 129, 130]),
        1 => random.below(most + 1),
        _ => random.below(most.min(12) + 1),
    };
    let length = length.min(most);
    let others = random.pick(&[0, 0, 1, 10, 100]);
    let mut bytes = Vec::with_capacity(length);
    while bytes.len() < length {
        let mut character = (b'a' + random.below(26) as u8) as char;
        if random.below(100) < others {
            character = random.pick(&CHARACTERS);
        }
        if bytes.len() + character.len_utf8() <= length {
            bytes.extend(character.encode_utf8(&mut [0; 4]).bytes());
        } else {
            bytes.push(b'z');
        }
    }
    bytes
}

/// The text with bytes put in that are not UTF-8: at its start, at its end or anywhere.
fn bad_text(random: &mut Random, text: &[u8]) -> Vec<u8> {
    let at = match random.below(3) {
        0 => 0,
        1 => text.len(),
        _ => random.below(text.len() + 1),
    };
    let mut bytes = text.to_vec();
    bytes.splice(at..at, random.pick(&NOT_UTF8).iter().copied());
    bytes
}

// -------------------------------------------------------------------------------------------------
// Shapes

#[derive(Clone, Copy)]
enum Style {
    Mixed,
    Deep,
    Wide,
    Texts,
}

/// A shape of at most so many bytes and levels, both at least 1.
fn tree(random: &mut Random, bytes: usize, levels: usize, style: Style) -> Tree {
    if bytes < 5 || levels < 2 && random.once_in(2) {
        return short(random, levels);
    }
    let kinds: &[u8] = match style {
        _ if levels < 2 => &[SYMBOL, SYMBOL, VARIABLE, RECORD],
        Style::Mixed if random.once_in(4) => return short(random, levels),
        Style::Mixed => &[ARRAY, MAP, RECORD, FUNCTION, SYMBOL, VARIABLE],
        Style::Deep => &[ARRAY, MAP, RECORD, FUNCTION],
        Style::Wide => &[RECORD, FUNCTION, FUNCTION, SYMBOL],
        Style::Texts => &[RECORD, SYMBOL],
    };
    let mut left = bytes - 3;
    match random.pick(kinds) {
        ARRAY => {
            if left < 5 && random.once_in(2) {
                return short(random, levels);
            }
            let element = tree(random, left, levels - 1, style);
            if matches!(element, Tree::Primitive(_)) || random.once_in(8) {
                return Tree::Array(Box::new(short(random, levels - 1)));
            }
            Tree::Array(Box::new(element))
        }
        MAP => {
            let first = part(random, left - 1, style);
            let mut pair = [
                tree(random, first, levels - 1, style),
                tree(random, left - first, levels - 1, style),
            ];
            if random.once_in(2) {
                pair.reverse();
            }
            Tree::Map(Box::new(pair))
        }
        RECORD => {
            left -= 2;
            let mut fields = Vec::new();
            while levels >= 2 && left >= 4 && more(random, fields.len(), style) {
                let name = match style {
                    Style::Texts => text(random, left - 3),
                    _ => text(random, (left - 3).min(10)),
                };
                left -= leb128(name.len()).len() + name.len();
                let bytes = part(random, left, style);
                let tree = tree(random, bytes, levels - 1, style);
                left -= length(&tree);
                fields.push((name, tree));
            }
            Tree::Record(fields)
        }
        FUNCTION => {
            left = left.saturating_sub(2).max(1);
            let mut list = Vec::new();
            while left >= 1 && (list.is_empty() || more(random, list.len(), style)) {
                let bytes = part(random, left, style);
                let tree = tree(random, bytes, levels - 1, style);
                left -= length(&tree);
                list.push(tree);
            }
            let last = list.len() - 1;
            list.swap(random.below(last + 1), last);
            Tree::Function(list)
        }
        SYMBOL => {
            left -= 2;
            let mut texts = Vec::new();
            while left >= 2 && more(random, texts.len(), style) {
                let text = match style {
                    Style::Wide => text(random, (left - 2).min(3)),
                    _ => text(random, left - 2),
                };
                left -= leb128(text.len()).len() + text.len();
                texts.push(text);
            }
            Tree::Symbol(texts)
        }
        _ => {
            let any = random.number() as u16;
            Tree::Variable(random.pick(&[32, 33, 255, 256, 65_535, any]))
        }
    }
}

/// A shape of one byte.
fn short(random: &mut Random, levels: usize) -> Tree {
    match random.below(if levels < 2 { 4 } else { 6 }) {
        0 | 1 => Tree::Variable(random.below(32) as u16),
        2 | 3 => Tree::Primitive(random.below(5) as u8),
        4 => Tree::Array(Box::new(Tree::Primitive(random.below(5) as u8))),
        _ => Tree::Map(Box::new([
            Tree::Primitive(random.below(5) as u8),
            Tree::Primitive(random.below(5) as u8),
        ])),
    }
}

/// The bytes for the next child, of those that are left.
fn part(random: &mut Random, left: usize, style: Style) -> usize {
    match style {
        Style::Mixed => random.between(1, left),
        Style::Deep if random.once_in(4) => random.between(1, left.min(6)),
        Style::Deep => left,
        Style::Wide if random.once_in(8) => random.between(1, left.min(12)),
        Style::Wide => 1,
        Style::Texts => random.between(1, left.min(40)),
    }
}

/// Whether a list goes on that has so many items.
fn more(random: &mut Random, items: usize, style: Style) -> bool {
    match style {
        Style::Mixed => !random.once_in(5),
        Style::Deep => items == 0 || random.once_in(3),
        Style::Wide => !random.once_in(500),
        Style::Texts => !random.once_in(12),
    }
}

/// The length of a shape's encoding.
fn length(tree: &Tree) -> usize {
    let text = |text: &Vec<u8>| leb128(text.len()).len() + text.len();
    match tree {
        Tree::Primitive(_) | Tree::Variable(0..=31) => 1,
        Tree::Variable(_) => 5,
        Tree::Array(element) if matches!(**element, Tree::Primitive(_)) => 1,
        Tree::Array(element) => 3 + length(element),
        Tree::Map(pair) if matches!(**pair, [Tree::Primitive(_), Tree::Primitive(_)]) => 1,
        Tree::Map(pair) => 3 + length(&pair[0]) + length(&pair[1]),
        Tree::Record(fields) => {
            let fields = fields.iter().map(|(name, tree)| text(name) + length(tree));
            3 + leb128(fields.len()).len() + fields.sum::<usize>()
        }
        Tree::Function(list) => {
            3 + leb128(list.len() - 1).len() + list.iter().map(length).sum::<usize>()
        }
        Tree::Symbol(texts) => {
            3 + leb128(texts.len()).len() + texts.iter().map(text).sum::<usize>()
        }
    }
}

/// A shape of any size class, up to so many bytes: of a few tries the longest, for a list may end
/// early.
fn any_tree(random: &mut Random, most: usize) -> Tree {
    let class = 1 << random.between(2, 11);
    let bytes = random.between(class / 2 + 1, class).min(most);
    let levels = match random.below(8) {
        0 => random.between(MAX_LEVELS + 1, MAX_LEVELS + 2),
        1..=3 => MAX_LEVELS,
        _ => random.between(1, MAX_LEVELS),
    };
    let style = random.pick(&[Style::Mixed, Style::Deep, Style::Wide, Style::Texts]);
    let mut longest = tree(random, bytes, levels, style);
    for _ in 0..3 {
        if 2 * length(&longest) > bytes {
            break;
        }
        let other = tree(random, bytes, levels, style);
        if length(&other) > length(&longest) {
            longest = other;
        }
    }
    longest
}

// -------------------------------------------------------------------------------------------------
// Inputs for read

/// The encoding of a shape of 40 to 160 bytes, of all kinds.
pub fn typical(random: &mut Random) -> Vec<u8> {
    loop {
        let tree = tree(random, 160, MAX_LEVELS, Style::Mixed);
        if length(&tree) >= 40 {
            return encode(&tree, Slip::None, random);
        }
    }
}

/// Generated inputs for `read`, without end.
pub struct Inputs {
    random: Random,
    ready: Vec<Vec<u8>>,
}

impl Inputs {
    pub fn new(seed: u64) -> Inputs {
        Inputs {
            random: Random::new(seed),
            ready: Vec::new(),
        }
    }
}

impl Iterator for Inputs {
    type Item = Vec<u8>;

    fn next(&mut self) -> Option<Vec<u8>> {
        while self.ready.is_empty() {
            generate(&mut self.random, &mut self.ready);
        }
        self.ready.pop()
    }
}

/// Generated inputs for `child` and `name`, without end: more of them than for `read` are accepted.
pub struct PartInputs {
    random: Random,
    others: Inputs,
}

impl PartInputs {
    pub fn new(seed: u64) -> PartInputs {
        PartInputs {
            random: Random::new(seed),
            others: Inputs::new(seed.wrapping_add(1)),
        }
    }
}

impl Iterator for PartInputs {
    type Item = Vec<u8>;

    fn next(&mut self) -> Option<Vec<u8>> {
        let random = &mut self.random;
        match random.below(16) {
            0..=10 => {
                let mut tree = any_tree(random, MAX_BYTES);
                if random.once_in(2) {
                    while !has_a_list(&tree) {
                        tree = any_tree(random, MAX_BYTES);
                    }
                }
                Some(encode(&tree, Slip::None, random))
            }
            11 => Some(at_the_last_level(random)),
            12 => Some(at_the_last_byte(random)),
            _ => self.others.next(),
        }
    }
}

/// Whether the root has a list with something in it.
fn has_a_list(tree: &Tree) -> bool {
    match tree {
        Tree::Record(fields) => !fields.is_empty(),
        Tree::Function(_) => true,
        Tree::Symbol(texts) => !texts.is_empty(),
        _ => false,
    }
}

/// A k for a shape of so many parts: mostly a part that is there, else one too large by a little or
/// by much. Some of the large ones are a part's number in their low bits.
pub fn any_k(random: &mut Random, count: u64) -> u64 {
    let below = random.below(count.max(1) as usize) as u64;
    match random.below(20) {
        0 | 1 => 0,
        2 | 3 => 1,
        4..=11 => below,
        12 | 13 => count.saturating_sub(1),
        14 | 15 => count,
        16 => count + 1,
        17 => random.pick(&[1 << 32, 1 << 63, u64::MAX]),
        18 => below + random.pick(&[1 << 8, 1 << 16, 1 << 31, 1 << 32, 1 << 63]),
        _ => random.number(),
    }
}

/// A few inputs of one sort.
fn generate(random: &mut Random, to: &mut Vec<Vec<u8>>) {
    match random.below(1000) {
        0..=499 => {
            let tree = any_tree(random, MAX_BYTES);
            to.push(encode(&tree, Slip::None, random));
        }
        500..=589 => to.push(at_the_last_level(random)),
        590..=619 => to.push(at_the_last_byte(random)),
        620..=625 => cut_everywhere(random, 64, to),
        626 if random.once_in(2) => cut_everywhere(random, MAX_BYTES, to),
        626..=719 => {
            let tree = any_tree(random, MAX_BYTES);
            let bytes = encode(&tree, Slip::None, random);
            (0..4).for_each(|_| to.push(changed(random, &bytes)));
        }
        720..=899 => {
            let tree = any_tree(random, MAX_BYTES);
            for slip in SLIPS {
                to.push(encode(&tree, slip, random));
            }
        }
        _ => (0..4).for_each(|_| to.push(random_bytes(random))),
    }
}

/// 14 to 17 levels round something whose level then matters.
fn at_the_last_level(random: &mut Random) -> Vec<u8> {
    let inner: [&[u8]; 14] = [
        &[],
        &[0x00],
        &[0x24],
        &[0x60],
        &[0x7D],
        &[0x7E],
        &[0x25],
        &[0xFF],
        &[0x40],
        &[0x40, 0x01, 0x00, 0x20],
        &[0x40, 0x01, 0x00, 0x00],
        &[0x42, 0x01, 0x00, 0x00],
        &[0x44, 0x03, 0x00, 0x01, 0x01, 0x61],
        &[0x45, 0x02, 0x00, 0x20, 0x00],
    ];
    let inner = random.pick(&inner);
    let only_arrays = random.once_in(3);
    let levels = random.between(14, 17);
    in_levels(random, inner, levels, only_arrays)
}

/// So many levels of all kinds, or Arrays only, round an encoding.
fn in_levels(random: &mut Random, inner: &[u8], levels: usize, only_arrays: bool) -> Vec<u8> {
    let mut bytes = inner.to_vec();
    for _ in 0..levels {
        let (first, before, after): (u8, &[u8], &[u8]) = match random.below(6) {
            _ if only_arrays => (ARRAY, &[], &[]),
            0 => (ARRAY, &[], &[]),
            1 => (MAP, &[0x01], &[]),
            2 => (MAP, &[], &[0x60]),
            3 => (RECORD, &[0x01, 0x01, 0x61], &[]),
            4 => (FUNCTION, &[0x00], &[]),
            _ => (FUNCTION, &[0x02, 0x01], &[0x20]),
        };
        bytes = long(first, &[before, &bytes, after].concat());
    }
    bytes
}

/// A shape of 2,046 to 2,050 bytes, or longer bytes of any sort.
fn at_the_last_byte(random: &mut Random) -> Vec<u8> {
    if random.once_in(8) {
        let length = random.between(MAX_BYTES + 1, 2 * MAX_BYTES);
        return (0..length).map(|_| random.byte()).collect();
    }
    let tree = any_tree(random, 1800);
    let inner = encode(&tree, Slip::None, random);
    let length = random.pick(&[2046, 2047, 2048, 2048, 2048, 2049, 2049, 2050]);
    let name = vec![b'n'; length - 6 - inner.len()];
    long(RECORD, &[vec![1], leb128(name.len()), name, inner].concat())
}

/// A shape, and what is left of it when it is cut off at each of its places.
fn cut_everywhere(random: &mut Random, most: usize, to: &mut Vec<Vec<u8>>) {
    let tree = any_tree(random, most);
    let bytes = encode(&tree, Slip::None, random);
    to.extend((0..=bytes.len()).map(|place| bytes[..place].to_vec()));
}

/// Bytes that mean something to the reader.
const TELLING: [u8; 34] = [
    0, 1, 2, 3, 31, 32, 36, 37, 63, 64, 65, 66, 67, 68, 69, 70, 95, 96, 100, 101, 125, 126, 127,
    128, 129, 0xC2, 0xC3, 0xE0, 0xED, 0xF0, 0xF4, 254, 255, b'a',
];

/// The bytes with one to three bytes changed, put in or dropped.
fn changed(random: &mut Random, bytes: &[u8]) -> Vec<u8> {
    let mut bytes = bytes.to_vec();
    for _ in 0..random.pick(&[1, 1, 1, 2, 3]) {
        let new = match random.below(2) {
            0 => random.byte(),
            _ => random.pick(&TELLING),
        };
        if bytes.is_empty() {
            bytes.push(new);
        }
        let at = match random.below(2) {
            0 => random.below(bytes.len()),
            _ => random.below(bytes.len().min(16)),
        };
        match random.below(8) {
            0 | 1 => bytes[at] = new,
            2 => bytes[at] = bytes[at].wrapping_add(1),
            3 => bytes[at] = bytes[at].wrapping_sub(1),
            4 => bytes[at] ^= 1 << random.below(8),
            5 => bytes.insert(at, new),
            6 => bytes.push(new),
            _ => {
                bytes.remove(at);
            }
        }
    }
    bytes
}

/// Any bytes, or a few that mean something to the reader, in a payload or not.
fn random_bytes(random: &mut Random) -> Vec<u8> {
    let most = random.pick(&[4, 8, 24, 64]);
    let length = random.below(most);
    let any = random.once_in(4);
    let bytes: Vec<u8> = (0..length)
        .map(|_| match any {
            true => random.byte(),
            false => random.pick(&TELLING),
        })
        .collect();
    match random.once_in(3) {
        true => bytes,
        false => long(random.between(64, 69) as u8, &bytes),
    }
}

/// The inputs for `read` that are always among the cases.
pub fn always() -> Vec<Vec<u8>> {
    let mut inputs: Vec<Vec<u8>> = (0..=255).map(|byte| vec![byte]).collect();
    let telling: [&[u8]; 46] = [
        // M1 to M11 of the bench card
        &[0x20],
        &[0x76],
        &[0x40, 0x01, 0x00, 0x20],
        &[0x42, 0x07, 0x00, 0x02, 0x01, 0x61, 0x20, 0x01, 0x62, 0x62],
        &[0x45, 0x02, 0x00, 0x20, 0x00],
        &[0x45, 0x02, 0x00, 0x1F, 0x00],
        &[],
        &[0x20, 0x20],
        &[0x43, 0x02, 0x00, 0x00, 0x20],
        &[0x44, 0x03, 0x00, 0x81, 0x00, 0x00],
        &[0xA0],
        // "To run"
        &[0x44, 0x02, 0x00, 0x01, 0x05],
        // empty Record and Symbol, also with a payload of no bytes
        &[0x42, 0x01, 0x00, 0x00],
        &[0x44, 0x01, 0x00, 0x00],
        &[0x42, 0x00, 0x00],
        &[0x44, 0x00, 0x00],
        // names: empty, repeated, unordered
        &[0x42, 0x03, 0x00, 0x01, 0x00, 0x20],
        &[0x42, 0x05, 0x00, 0x02, 0x00, 0x20, 0x00, 0x21],
        &[0x42, 0x07, 0x00, 0x02, 0x01, 0x61, 0x20, 0x01, 0x61, 0x20],
        &[0x42, 0x07, 0x00, 0x02, 0x01, 0x62, 0x20, 0x01, 0x61, 0x21],
        &[0x44, 0x05, 0x00, 0x02, 0x01, 0x62, 0x01, 0x61],
        &[0x44, 0x03, 0x00, 0x02, 0x00, 0x00],
        // Function without parameters, and without a return
        &[0x43, 0x02, 0x00, 0x00, 0x60],
        &[0x43, 0x01, 0x00, 0x00],
        &[0x43, 0x02, 0x00, 0x01, 0x20],
        &[0x43, 0x00, 0x00],
        // Variables 31 in both forms, 255, 256 and 65,535; sizes 1 and 3
        &[0x1F],
        &[0x45, 0x02, 0x00, 0x00, 0x00],
        &[0x45, 0x02, 0x00, 0xFF, 0x00],
        &[0x45, 0x02, 0x00, 0x00, 0x01],
        &[0x45, 0x02, 0x00, 0xFF, 0xFF],
        &[0x45, 0x01, 0x00, 0x20],
        &[0x45, 0x03, 0x00, 0x20, 0x00, 0x00],
        // long forms, and long forms with bytes left over
        &[0x40, 0x02, 0x00, 0x20, 0x20],
        &[0x41, 0x02, 0x00, 0x20, 0x24],
        &[0x41, 0x03, 0x00, 0x20, 0x24, 0x00],
        &[0x41, 0x02, 0x00, 0x20, 0x01],
        &[0x41, 0x02, 0x00, 0x60, 0x20],
        // payloads that pass their window
        &[0x40],
        &[0x40, 0x01],
        &[0x40, 0x01, 0x00],
        &[0x40, 0x00, 0x00],
        &[0x40, 0x04, 0x00, 0x40, 0x02, 0x00, 0x00, 0x00],
        // LEB128: unfinished, over two bytes, the most in two bytes
        &[0x44, 0x01, 0x00, 0x80],
        &[0x44, 0x04, 0x00, 0x80, 0x80, 0x01, 0x00],
        &[0x44, 0x03, 0x00, 0xFF, 0x7F, 0x00],
    ];
    inputs.extend(telling.iter().map(|bytes| bytes.to_vec()));
    for bad in NOT_UTF8 {
        inputs.push(symbol(bad));
    }
    for levels in 14..=17 {
        for inner in [&[0x20][..], &[0x60], &[0x00], &[0xFF], &[0x42, 1, 0, 0]] {
            inputs.push(nested(levels, inner, |inner| long(ARRAY, inner)));
        }
    }
    for letters in [0, 1, 127, 128, 2041, 2042, 2043] {
        inputs.push(symbol(&vec![b'a'; letters]));
    }
    inputs.push(vec![0; MAX_BYTES]);
    inputs.push(vec![0; MAX_BYTES + 1]);
    inputs.push(vec![0xFF; 100_000]);
    inputs.extend(
        crate::stack::worst_for_read()
            .into_iter()
            .map(|(_, bytes)| bytes),
    );
    inputs
}
