//! The writer written in Rust for speed. One pass over the nodes checks each and notes how long and how
//! deep its shape is; children come before what is built from them, so what is noted of them is there.
//! The sums stop at one over their limits, and no shared child is walked over twice. A second pass goes
//! down from the root and writes straight into the lent buffer: as all lengths are known, each head is
//! written before its payload. In both passes a list is one loop, and a child of one byte is taken
//! without a call. Small tables have small arrays for what is noted, so that little is cleared. Nodes that
//! are lent as records are looked at where they are: none is copied.

use super::{refused, well_formed, Refusal, MAX_BYTES, MAX_LEVELS};
use shiulbart::NodeRecord;

const BUFFER_SHORT: u32 = 12;
const MADE_TOO_DEEP: u32 = 15;
const MADE_TOO_LONG: u32 = 16;

const MAX_NODES: usize = 6144;
const MAX_LINKS: usize = 6144;
const MAX_NAMES: usize = 2048;
const MAX_TEXT: usize = 2048;

const ARRAY: u8 = 5;
const MAP: u8 = 6;
const RECORD: u8 = 7;
const FUNCTION: u8 = 8;
const SYMBOL: u8 = 9;
const BLANK: u8 = 10;

/// What is wrong with a table: 01-scope.md, "Node table". Those of a section come in its order.
#[derive(Clone, Copy, Debug, PartialEq, Eq)]
pub enum Rule {
    NoNodeCount,
    NodeCount,
    NodesCut,
    NoLinkCount,
    LinkCount,
    LinksCut,
    NoNameCount,
    NameCount,
    NamesCut,
    NoTextCount,
    TextCount,
    TextCut,
    LeftOver,
    Kind,
    SecondByte,
    Primitive,
    Blank,
    Links,
    PastLinks,
    Target,
    SymbolTarget,
    Name,
    NameNotZero,
    Range,
    NotUtf8,
}

impl Rule {
    /// All of them in words.
    pub const ALL: [&'static str; 25] = [
        "node count missing",
        "node count 0 or over 6,144",
        "nodes past the end",
        "link count missing",
        "link count over 6,144",
        "links past the end",
        "name count missing",
        "name count over 2,048",
        "names past the end",
        "text count missing",
        "text count over 2,048",
        "text past the end",
        "bytes left over",
        "kind over 10",
        "second byte not 0",
        "primitive with a or b",
        "blank with b",
        "Array, Map, Function: links",
        "a + b past the links",
        "target not before its node",
        "Symbol's target not 0",
        "name not among the names",
        "name not 0",
        "name past the text",
        "name not UTF-8",
    ];

    fn number(self) -> u32 {
        match self as usize {
            0..=12 => 9,
            13..=22 => 10,
            _ => 11,
        }
    }
}

/// A table whose sections, nodes or names are refused.
#[derive(Clone, Copy, Debug, PartialEq, Eq)]
pub struct Broken {
    pub rule: Rule,
    pub place: usize,
}

impl From<Broken> for Refusal {
    fn from(broken: Broken) -> Refusal {
        Refusal {
            number: broken.rule.number(),
            place: broken.place as u32,
        }
    }
}

#[inline(always)]
fn broken<T>(rule: Rule, place: usize) -> Result<T, Broken> {
    Err(Broken { rule, place })
}

#[inline(always)]
fn number(bytes: &[u8], at: usize) -> usize {
    u16::from_le_bytes([bytes[at], bytes[at + 1]]) as usize
}

/// The bytes that a LEB128 number takes.
#[inline(always)]
fn leb_size(number: usize) -> usize {
    1 + (number >= 128) as usize
}

/// The four sections, without their counts.
struct Sections<'a, T> {
    nodes: T,
    links: &'a [u8],
    names: &'a [u8],
    text: &'a [u8],
}

struct Node {
    kind: u8,
    second: u8,
    a: usize,
    b: usize,
}

/// The nodes of a table: bytes or records.
trait Nodes: Copy {
    fn count(self) -> usize;
    fn node(self, index: usize) -> Node;
    fn kind(self, index: usize) -> u8;
}

impl Nodes for &[u8] {
    #[inline(always)]
    fn count(self) -> usize {
        self.len() / 6
    }

    #[inline(always)]
    fn node(self, index: usize) -> Node {
        let entry = &self[6 * index..6 * index + 6];
        Node {
            kind: entry[0],
            second: entry[1],
            a: number(entry, 2),
            b: number(entry, 4),
        }
    }

    #[inline(always)]
    fn kind(self, index: usize) -> u8 {
        self[6 * index]
    }
}

impl Nodes for &[NodeRecord] {
    #[inline(always)]
    fn count(self) -> usize {
        self.len()
    }

    #[inline(always)]
    fn node(self, index: usize) -> Node {
        let NodeRecord { kind, a, b } = self[index];
        Node {
            kind,
            second: 0,
            a: a.into(),
            b: b.into(),
        }
    }

    #[inline(always)]
    fn kind(self, index: usize) -> u8 {
        self[index].kind
    }
}

/// The entries of the section whose count stands at a place, and the place after them.
#[inline(always)]
fn section(
    table: &[u8],
    place: usize,
    size: usize,
    limits: [usize; 2],
    rules: [Rule; 3],
) -> Result<(&[u8], usize), Broken> {
    let from = place + 2;
    if table.len() < from {
        return broken(rules[0], place);
    }
    let count = number(table, place);
    if count < limits[0] || count > limits[1] {
        return broken(rules[1], place);
    }
    match table.get(from..from + size * count) {
        Some(entries) => Ok((entries, from + size * count)),
        None => broken(rules[2], place),
    }
}

#[inline(always)]
fn sections(table: &[u8]) -> Result<Sections<'_, &[u8]>, Broken> {
    use Rule::*;
    let rules = [NoNodeCount, NodeCount, NodesCut];
    let (nodes, at) = section(table, 0, 6, [1, MAX_NODES], rules)?;
    with_rest(nodes, table, at)
}

/// The places in the rest are those of the whole table.
#[inline(always)]
fn sections_of<'a>(
    nodes: &'a [NodeRecord],
    rest: &'a [u8],
) -> Result<Sections<'a, &'a [NodeRecord]>, Broken> {
    if !(1..=MAX_NODES).contains(&nodes.len()) {
        return broken(Rule::NodeCount, 0);
    }
    with_rest(nodes, rest, 0).map_err(|Broken { rule, place }| Broken {
        rule,
        place: 2 + 6 * nodes.len() + place,
    })
}

/// These nodes, and the other sections, of which the first stands at a place.
#[inline(always)]
fn with_rest<T>(nodes: T, table: &[u8], at: usize) -> Result<Sections<'_, T>, Broken> {
    use Rule::*;
    let rules = [NoLinkCount, LinkCount, LinksCut];
    let (links, at) = section(table, at, 4, [0, MAX_LINKS], rules)?;
    let rules = [NoNameCount, NameCount, NamesCut];
    let (names, at) = section(table, at, 4, [0, MAX_NAMES], rules)?;
    let rules = [NoTextCount, TextCount, TextCut];
    let (text, at) = section(table, at, 1, [0, MAX_TEXT], rules)?;
    if at < table.len() {
        return broken(LeftOver, at);
    }
    Ok(Sections {
        nodes,
        links,
        names,
        text,
    })
}

impl<'a, T: Nodes> Sections<'a, T> {
    /// Target and name of each link of a node.
    #[inline(always)]
    fn links_of(&self, node: &Node) -> impl Iterator<Item = (usize, usize)> + 'a {
        let links = &self.links[4 * node.a..4 * (node.a + node.b)];
        links
            .chunks_exact(4)
            .map(|link| (number(link, 0), number(link, 2)))
    }

    #[inline(always)]
    fn target(&self, link: usize) -> usize {
        number(self.links, 4 * link)
    }

    /// The text of a good name.
    #[inline(always)]
    fn text_of(&self, name: usize) -> &'a [u8] {
        let name = &self.names[4 * name..4 * name + 4];
        &self.text[number(name, 0)..][..number(name, 2)]
    }

    /// The length of a name with its length before it.
    #[inline(always)]
    fn name_size(&self, name: usize) -> usize {
        let name = &self.names[4 * name..4 * name + 4];
        leb_size(number(name, 2)) + number(name, 2)
    }

    /// Whether each name is a range of the text, and UTF-8.
    fn names_are_good(&self) -> Result<(), Broken> {
        let letters = self.text.is_ascii();
        for (index, name) in self.names.chunks_exact(4).enumerate() {
            let (start, length) = (number(name, 0), number(name, 2));
            let Some(text) = self.text.get(start..start + length) else {
                return broken(Rule::Range, index);
            };
            if !letters && !well_formed::<0>(text) {
                return broken(Rule::NotUtf8, index);
            }
        }
        Ok(())
    }
}

/// A sound table, and how long and deep the shape of each node is, up to one over each limit.
struct Sound<'a, T, const N: usize> {
    sections: Sections<'a, T>,
    lengths: [u16; N],
    depths: [u8; N],
}

impl<T: Nodes, const N: usize> Sound<'_, T, N> {
    /// Checks all nodes, and notes the length and depth of each.
    fn note(&mut self) -> Result<(), Broken> {
        for index in 0..self.sections.nodes.count() {
            match self.extent(index) {
                Ok((length, depth)) => {
                    self.lengths[index] = length.min(MAX_BYTES + 1) as u16;
                    self.depths[index] = depth.min(MAX_LEVELS as u8 + 1);
                }
                Err(rule) => return broken(rule, index),
            }
        }
        Ok(())
    }

    /// The length and depth of a node's shape, if the node is good. A sum of so many links, with
    /// whatever names, is far below 2^32.
    #[inline(always)]
    fn extent(&self, index: usize) -> Result<(usize, u8), Rule> {
        let sections = &self.sections;
        let node = sections.nodes.node(index);
        if node.second != 0 {
            return Err(Rule::SecondByte);
        }
        if node.kind < ARRAY {
            return match (node.a, node.b) {
                (0, 0) => Ok((1, 1)),
                _ => Err(Rule::Primitive),
            };
        }
        if node.kind >= BLANK {
            return match (node.kind, node.b) {
                (BLANK, 0) if node.a < 32 => Ok((1, 1)),
                (BLANK, 0) => Ok((5, 1)),
                (BLANK, _) => Err(Rule::Blank),
                _ => Err(Rule::Kind),
            };
        }
        let links_wrong = match node.kind {
            ARRAY => node.b != 1,
            MAP => node.b != 2,
            FUNCTION => node.b == 0,
            _ => false,
        };
        if links_wrong {
            return Err(Rule::Links);
        }
        if node.a + node.b > sections.links.len() / 4 {
            return Err(Rule::PastLinks);
        }
        let names = sections.names.len() / 4;
        let mut length = 3;
        let mut deepest = 0;
        match node.kind {
            RECORD => {
                length += leb_size(node.b);
                for (target, name) in sections.links_of(&node) {
                    if target >= index {
                        return Err(Rule::Target);
                    }
                    if name >= names {
                        return Err(Rule::Name);
                    }
                    length += sections.name_size(name) + self.lengths[target] as usize;
                    deepest = deepest.max(self.depths[target]);
                }
            }
            SYMBOL => {
                length += leb_size(node.b);
                for (target, name) in sections.links_of(&node) {
                    if target != 0 {
                        return Err(Rule::SymbolTarget);
                    }
                    if name >= names {
                        return Err(Rule::Name);
                    }
                    length += sections.name_size(name);
                }
            }
            kind => {
                let mut all_primitive = kind != FUNCTION;
                for (target, name) in sections.links_of(&node) {
                    if target >= index {
                        return Err(Rule::Target);
                    }
                    if name != 0 {
                        return Err(Rule::NameNotZero);
                    }
                    length += self.lengths[target] as usize;
                    deepest = deepest.max(self.depths[target]);
                    all_primitive = all_primitive && sections.nodes.kind(target) < ARRAY;
                }
                if all_primitive {
                    return Ok((1, 2));
                }
                if kind == FUNCTION {
                    length += leb_size(node.b - 1);
                }
            }
        }
        Ok((length, deepest + 1))
    }

    /// Writes the shape of a node, and gives the place after it. One of a single byte needs no call.
    #[inline(always)]
    fn put(&self, index: usize, out: &mut [u8], to: usize) -> usize {
        let node = self.sections.nodes.node(index);
        match node.kind {
            0..=4 => out[to] = 32 + node.kind,
            BLANK if node.a < 32 => out[to] = node.a as u8,
            _ => return self.put_list(index, out, to),
        }
        to + 1
    }

    fn put_list(&self, index: usize, out: &mut [u8], to: usize) -> usize {
        let sections = &self.sections;
        let node = sections.nodes.node(index);
        let length = self.lengths[index];
        if length == 1 {
            let first = sections.nodes.kind(sections.target(node.a));
            out[to] = match node.kind {
                ARRAY => 96 + first,
                _ => 101 + 5 * first + sections.nodes.kind(sections.target(node.a + 1)),
            };
            return to + 1;
        }
        let size = (length - 3).to_le_bytes();
        out[to..to + 3].copy_from_slice(&[59 + node.kind, size[0], size[1]]);
        let mut to = to + 3;
        match node.kind {
            RECORD => {
                to = put_leb(node.b, out, to);
                for (target, name) in sections.links_of(&node) {
                    to = put_text(sections.text_of(name), out, to);
                    to = self.put(target, out, to);
                }
            }
            SYMBOL => {
                to = put_leb(node.b, out, to);
                for (_, name) in sections.links_of(&node) {
                    to = put_text(sections.text_of(name), out, to);
                }
            }
            BLANK => {
                out[to..to + 2].copy_from_slice(&(node.a as u16).to_le_bytes());
                to += 2;
            }
            kind => {
                if kind == FUNCTION {
                    to = put_leb(node.b - 1, out, to);
                }
                for (target, _) in sections.links_of(&node) {
                    to = self.put(target, out, to);
                }
            }
        }
        to
    }
}

#[inline(always)]
fn put_leb(number: usize, out: &mut [u8], to: usize) -> usize {
    if number < 128 {
        out[to] = number as u8;
        return to + 1;
    }
    out[to..to + 2].copy_from_slice(&[number as u8 | 128, (number >> 7) as u8]);
    to + 2
}

#[inline(always)]
fn put_text(text: &[u8], out: &mut [u8], to: usize) -> usize {
    let from = put_leb(text.len(), out, to);
    out[from..from + text.len()].copy_from_slice(text);
    from + text.len()
}

/// Checks a table, whatever the bytes are: its sections, nodes and names.
pub fn check(table: &[u8]) -> Result<(), Broken> {
    noted::<_, MAX_NODES>(sections(table)?).map(|_| ())
}

/// As `check`, of a table whose nodes are records.
pub fn check_records(nodes: &[NodeRecord], rest: &[u8]) -> Result<(), Broken> {
    noted::<_, MAX_NODES>(sections_of(nodes, rest)?).map(|_| ())
}

fn noted<T: Nodes, const N: usize>(sections: Sections<'_, T>) -> Result<Sound<'_, T, N>, Broken> {
    let mut sound = Sound {
        sections,
        lengths: [0; N],
        depths: [0; N],
    };
    sound.note()?;
    sound.sections.names_are_good()?;
    Ok(sound)
}

/// Writes the encoding of a table's root, whatever the bytes are. The answer is how many bytes of the
/// buffer it takes.
pub fn write(table: &[u8], out: &mut [u8]) -> Result<usize, Refusal> {
    write_sections(sections(table)?, out)
}

/// As `write`, of a table whose nodes are records.
pub fn write_records(nodes: &[NodeRecord], rest: &[u8], out: &mut [u8]) -> Result<usize, Refusal> {
    write_sections(sections_of(nodes, rest)?, out)
}

#[inline(always)]
fn write_sections<T: Nodes>(sections: Sections<'_, T>, out: &mut [u8]) -> Result<usize, Refusal> {
    match sections.nodes.count() {
        0..=32 => write_sound::<_, 32>(sections, out),
        33..=512 => write_sound::<_, 512>(sections, out),
        _ => write_sound::<_, MAX_NODES>(sections, out),
    }
}

#[inline(never)]
fn write_sound<T: Nodes, const N: usize>(
    sections: Sections<'_, T>,
    out: &mut [u8],
) -> Result<usize, Refusal> {
    let sound = noted::<_, N>(sections)?;
    let root = sound.sections.nodes.count() - 1;
    let needed = sound.lengths[root] as usize;
    if sound.depths[root] > MAX_LEVELS as u8 {
        return refused(MADE_TOO_DEEP, 0);
    }
    if needed > MAX_BYTES {
        return refused(MADE_TOO_LONG, 0);
    }
    if out.len() < needed {
        return refused(BUFFER_SHORT, needed);
    }
    sound.put(root, &mut out[..needed], 0);
    Ok(needed)
}
