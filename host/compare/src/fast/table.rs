//! The way back written in Rust for speed. The reader judges the bytes; a second pass counts what each
//! section will have, so that a refusal has written nothing; and a third one writes all four sections at
//! once. In it the numbers of children whose parent is not there yet are kept in a list of their own,
//! which is short for short inputs, so that little is cleared. A shape that has no list is taken without
//! a call in both.

use super::parts::{leb128, past_shape, past_text};
use super::sheet::number;
use super::{read, refused, Refusal, ARRAY, FUNCTION, MAP, MAX_BYTES, RECORD, SYMBOL, VARIABLE};

const BUFFER_SHORT: u32 = 12;

/// A first byte that a size follows, as the kind of a node.
const KIND: u8 = 59;
const BLANK: u8 = 10;

/// What the sections have. Each node but the root is the target of one link, and each text of a Symbol
/// has one more.
#[derive(Clone, Copy, Default)]
struct Counts {
    nodes: usize,
    names: usize,
    /// of the names, the texts of Symbols
    texts: usize,
    text: usize,
}

impl Counts {
    fn links(&self) -> usize {
        self.nodes - 1 + self.texts
    }

    /// Counts the shape at a place, and gives the place after it.
    #[inline(always)]
    fn shape(&mut self, bytes: &[u8], at: usize) -> usize {
        match bytes[at] {
            0..=36 => self.nodes += 1,
            96..=100 => self.nodes += 2,
            101.. => self.nodes += 3,
            kind => return self.long(bytes, at, kind),
        }
        at + 1
    }

    fn long(&mut self, bytes: &[u8], at: usize, kind: u8) -> usize {
        self.nodes += 1;
        let from = at + 3;
        match kind {
            ARRAY => self.shape(bytes, from),
            MAP => {
                let value = self.shape(bytes, from);
                self.shape(bytes, value)
            }
            RECORD => {
                let (count, mut at) = leb128(bytes, from);
                self.names += count;
                for _ in 0..count {
                    at = self.name(bytes, at);
                    at = self.shape(bytes, at);
                }
                at
            }
            FUNCTION => {
                let (count, mut at) = leb128(bytes, from);
                for _ in 0..=count {
                    at = self.shape(bytes, at);
                }
                at
            }
            SYMBOL => {
                let (count, mut at) = leb128(bytes, from);
                self.names += count;
                self.texts += count;
                for _ in 0..count {
                    at = self.name(bytes, at);
                }
                at
            }
            _ => from + 2,
        }
    }

    #[inline(always)]
    fn name(&mut self, bytes: &[u8], at: usize) -> usize {
        let (length, from) = leb128(bytes, at);
        self.text += length;
        from + length
    }
}

/// A section that is written, and how many entries of it are.
struct Section<'a> {
    entries: &'a mut [u8],
    count: usize,
}

impl<'a> Section<'a> {
    /// The section of so many entries at the front of the buffer, after its count.
    fn at_front(out: &mut &'a mut [u8], count: usize, size: usize) -> Section<'a> {
        let (front, rest) = std::mem::take(out).split_at_mut(2 + size * count);
        *out = rest;
        let (head, entries) = front.split_at_mut(2);
        head.copy_from_slice(&(count as u16).to_le_bytes());
        Section { entries, count: 0 }
    }

    #[inline(always)]
    fn put<const SIZE: usize>(&mut self, entry: [u8; SIZE]) {
        self.entries[SIZE * self.count..][..SIZE].copy_from_slice(&entry);
        self.count += 1;
    }

    /// An entry of two numbers.
    #[inline(always)]
    fn put_two(&mut self, one: usize, other: usize) {
        let (one, other) = ((one as u16).to_le_bytes(), (other as u16).to_le_bytes());
        self.put([one[0], one[1], other[0], other[1]]);
    }
}

/// A table that is written, of at most so many bytes of encoding.
struct Table<'a, const N: usize> {
    nodes: Section<'a>,
    links: Section<'a>,
    names: Section<'a>,
    text: Section<'a>,
    /// children whose parent is not there yet: each has a byte of its own
    waiting: [u16; N],
    count: usize,
}

impl<const N: usize> Table<'_, N> {
    #[inline(always)]
    fn node(&mut self, kind: u8, a: usize, b: usize) {
        let (a, b) = ((a as u16).to_le_bytes(), (b as u16).to_le_bytes());
        self.nodes.put([kind, 0, a[0], a[1], b[0], b[1]]);
    }

    /// Adds the shape at a place, which then waits for its parent. Gives the place after it.
    #[inline(always)]
    fn shape(&mut self, bytes: &[u8], at: usize) -> usize {
        let next = match bytes[at] {
            blank @ 0..=31 => {
                self.node(BLANK, blank as usize, 0);
                at + 1
            }
            first @ 32..=36 => {
                self.node(first - 32, 0, 0);
                at + 1
            }
            first @ 96..=100 => {
                let element = self.nodes.count;
                self.node(first - 96, 0, 0);
                self.node(ARRAY - KIND, self.links.count, 1);
                self.links.put_two(element, 0);
                at + 1
            }
            first @ 101.. => {
                let key = self.nodes.count;
                self.node((first - 101) / 5, 0, 0);
                self.node((first - 101) % 5, 0, 0);
                self.node(MAP - KIND, self.links.count, 2);
                self.links.put_two(key, 0);
                self.links.put_two(key + 1, 0);
                at + 1
            }
            VARIABLE => {
                self.node(BLANK, number(bytes[at + 3], bytes[at + 4]), 0);
                at + 5
            }
            kind => self.long(bytes, at, kind),
        };
        self.waiting[self.count] = self.nodes.count as u16 - 1;
        self.count += 1;
        next
    }

    fn long(&mut self, bytes: &[u8], at: usize, kind: u8) -> usize {
        let from = at + 3;
        let before = self.count;
        let next = match kind {
            ARRAY => self.shape(bytes, from),
            MAP => {
                let value = self.shape(bytes, from);
                self.shape(bytes, value)
            }
            RECORD => {
                let (count, first) = leb128(bytes, from);
                let mut at = first;
                for _ in 0..count {
                    at = self.shape(bytes, past_text(bytes, at));
                }
                self.node(RECORD - KIND, self.links.count, count);
                let mut name_at = first;
                for child in before..self.count {
                    let target = self.waiting[child] as usize;
                    self.links.put_two(target, self.names.count);
                    let field = self.name(bytes, name_at);
                    name_at = past_shape(bytes, field);
                }
                self.count = before;
                return at;
            }
            FUNCTION => {
                let (count, mut at) = leb128(bytes, from);
                for _ in 0..=count {
                    at = self.shape(bytes, at);
                }
                at
            }
            _ => {
                let (count, mut at) = leb128(bytes, from);
                self.node(SYMBOL - KIND, self.links.count, count);
                for _ in 0..count {
                    self.links.put_two(0, self.names.count);
                    at = self.name(bytes, at);
                }
                return at;
            }
        };
        self.node(kind - KIND, self.links.count, self.count - before);
        for child in before..self.count {
            self.links.put_two(self.waiting[child] as usize, 0);
        }
        self.count = before;
        next
    }

    /// Adds the name whose length stands at a place, and gives the place after it.
    #[inline(always)]
    fn name(&mut self, bytes: &[u8], at: usize) -> usize {
        let (length, from) = leb128(bytes, at);
        let start = self.text.count;
        self.names.put_two(start, length);
        self.text.entries[start..start + length].copy_from_slice(&bytes[from..from + length]);
        self.text.count += length;
        from + length
    }
}

/// Makes the table of an encoding, whatever the bytes are. The answer is how many bytes of the buffer
/// it takes.
pub fn table(bytes: &[u8], out: &mut [u8]) -> Result<usize, Refusal> {
    read::<0>(bytes)?;
    let mut counts = Counts::default();
    counts.shape(bytes, 0);
    let needed = 8 + 6 * counts.nodes + 4 * (counts.links() + counts.names) + counts.text;
    if out.len() < needed {
        return refused(BUFFER_SHORT, needed);
    }
    match bytes.len() {
        0..=64 => put::<64>(bytes, &counts, &mut out[..needed]),
        _ => put::<MAX_BYTES>(bytes, &counts, &mut out[..needed]),
    }
    Ok(needed)
}

#[inline(never)]
fn put<const N: usize>(bytes: &[u8], counts: &Counts, mut out: &mut [u8]) {
    let mut table = Table {
        nodes: Section::at_front(&mut out, counts.nodes, 6),
        links: Section::at_front(&mut out, counts.links(), 4),
        names: Section::at_front(&mut out, counts.names, 4),
        text: Section::at_front(&mut out, counts.text, 1),
        waiting: [0; N],
        count: 0,
    };
    table.shape(bytes, 0);
}
