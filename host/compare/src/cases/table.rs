//! Node tables to write: their parts need not fit one another. And tables that tests name.

use super::MAX_BYTES;
use shiulbart::NodeRecord;

pub const MAX_NODES: usize = 6144;
pub const MAX_LINKS: usize = 6144;
pub const MAX_NAMES: usize = 2048;
pub const MAX_TEXT: usize = 2048;

/// The kinds of nodes after the primitives, which are 0 to 4.
pub mod kind {
    pub const ARRAY: u8 = 5;
    pub const MAP: u8 = 6;
    pub const RECORD: u8 = 7;
    pub const FUNCTION: u8 = 8;
    pub const SYMBOL: u8 = 9;
    pub const BLANK: u8 = 10;
}

use kind::{ARRAY, BLANK, FUNCTION, MAP, RECORD, SYMBOL};

/// A node to write.
#[derive(Clone, Copy, Debug, PartialEq, Eq)]
pub struct Node {
    pub kind: u8,
    pub second: u8,
    pub a: u16,
    pub b: u16,
}

impl Node {
    pub fn new(kind: u8, a: u16, b: u16) -> Node {
        Node {
            kind,
            second: 0,
            a,
            b,
        }
    }

    /// Whether it has links.
    pub fn is_list(&self) -> bool {
        (ARRAY..=SYMBOL).contains(&self.kind)
    }

    /// Where its links are.
    pub fn run(&self) -> std::ops::Range<usize> {
        self.a as usize..self.a as usize + self.b as usize
    }

    /// Whether its links have names.
    pub fn is_named(&self) -> bool {
        matches!(self.kind, RECORD | SYMBOL)
    }
}

/// A table to write. Its parts need not fit one another.
#[derive(Clone, Default)]
pub struct Table {
    /// of nodes, links, names and text
    pub counts: [u16; 4],
    pub nodes: Vec<Node>,
    /// target and name
    pub links: Vec<(u16, u16)>,
    /// start and length
    pub names: Vec<(u16, u16)>,
    pub text: Vec<u8>,
    pub left_over: Vec<u8>,
}

impl Table {
    /// The table of these parts, with counts that fit.
    pub fn new(nodes: &[(u8, u16, u16)], links: &[(u16, u16)], names: &[(u16, u16)]) -> Table {
        let nodes = nodes.iter().map(|&(kind, a, b)| Node::new(kind, a, b));
        Table {
            nodes: nodes.collect(),
            links: links.to_vec(),
            names: names.to_vec(),
            ..Table::default()
        }
        .counted()
    }

    pub fn with_text(mut self, text: &[u8]) -> Table {
        self.text = text.to_vec();
        self.counted()
    }

    /// With counts that fit.
    pub fn counted(mut self) -> Table {
        let counts = [
            self.nodes.len(),
            self.links.len(),
            self.names.len(),
            self.text.len(),
        ];
        self.counts = counts.map(|count| count as u16);
        self
    }

    pub fn bytes(&self) -> Vec<u8> {
        let mut bytes = self.counts[0].to_le_bytes().to_vec();
        for node in &self.nodes {
            bytes.extend([node.kind, node.second]);
            bytes.extend(node.a.to_le_bytes());
            bytes.extend(node.b.to_le_bytes());
        }
        for (count, pairs) in [(1, &self.links), (2, &self.names)] {
            bytes.extend(self.counts[count].to_le_bytes());
            for (one, other) in pairs {
                bytes.extend(one.to_le_bytes());
                bytes.extend(other.to_le_bytes());
            }
        }
        bytes.extend(self.counts[3].to_le_bytes());
        bytes.extend(&self.text);
        bytes.extend(&self.left_over);
        bytes
    }

    /// The bytes as a table, if its counts are there and their entries; limits do not matter.
    pub fn apart(bytes: &[u8]) -> Option<Table> {
        let number = |entry: &[u8], at: usize| u16::from_le_bytes([entry[at], entry[at + 1]]);
        let mut left = bytes;
        let mut counts = [0; 4];
        let mut sections: [&[u8]; 4] = [&[]; 4];
        for (section, size) in [6, 4, 4, 1].into_iter().enumerate() {
            let count = number(left.get(..2)?, 0);
            counts[section] = count;
            sections[section] = left.get(2..2 + size * count as usize)?;
            left = &left[2 + size * count as usize..];
        }
        let pair = |entry: &[u8]| (number(entry, 0), number(entry, 2));
        let node = |entry: &[u8]| Node {
            kind: entry[0],
            second: entry[1],
            a: number(entry, 2),
            b: number(entry, 4),
        };
        let [nodes, links, names, text] = sections;
        Some(Table {
            counts,
            nodes: nodes.chunks_exact(6).map(node).collect(),
            links: links.chunks_exact(4).map(pair).collect(),
            names: names.chunks_exact(4).map(pair).collect(),
            text: text.to_vec(),
            left_over: left.to_vec(),
        })
    }

    /// Where the count of each section stands.
    pub fn places(&self) -> [usize; 4] {
        let links = 2 + 6 * self.nodes.len();
        let names = links + 2 + 4 * self.links.len();
        [0, links, names, names + 2 + 4 * self.names.len()]
    }

    /// Adds a node of these links, and gives its index.
    pub fn push(&mut self, kind: u8, links: &[(u16, u16)]) -> u16 {
        let node = Node::new(kind, self.links.len() as u16, links.len() as u16);
        self.links.extend(links);
        self.push_node(node)
    }

    pub fn push_node(&mut self, node: Node) -> u16 {
        self.nodes.push(node);
        self.nodes.len() as u16 - 1
    }

    /// Adds a name of this text, and gives its index.
    pub fn push_name(&mut self, text: &[u8]) -> u16 {
        self.names.push((self.text.len() as u16, text.len() as u16));
        self.text.extend(text);
        self.names.len() as u16 - 1
    }

    pub fn text_of(&self, name: u16) -> &[u8] {
        let (start, length) = self.names[name as usize];
        &self.text[start as usize..][..length as usize]
    }

    /// The length and depth of each node's shape; those of what is broken are any. They stop growing
    /// far over their limits.
    pub fn extents(&self) -> Vec<(u64, u64)> {
        const MOST: u64 = 1 << 60;
        let leb = |number: u64| 1 + (number >= 128) as u64;
        let mut all: Vec<(u64, u64)> = Vec::new();
        for node in &self.nodes {
            let links = match node.is_list() {
                true => self.links.get(node.run()).unwrap_or(&[]),
                false => &[],
            };
            let primitive = |target: u16| {
                let target = self.nodes.get(target as usize);
                !target.is_some_and(|target| target.kind >= ARRAY)
            };
            let mut sum = match node.kind {
                FUNCTION => 3 + leb((links.len() as u64).saturating_sub(1)),
                RECORD | SYMBOL => 3 + leb(links.len() as u64),
                _ => 3,
            };
            let mut deepest = 0;
            for &(target, name) in links {
                if node.is_named() {
                    let length = self.names.get(name as usize).map_or(0, |name| name.1) as u64;
                    sum += leb(length) + length;
                }
                if node.kind != SYMBOL {
                    let (length, depth) = all.get(target as usize).copied().unwrap_or((1, 1));
                    sum += length;
                    deepest = deepest.max(depth);
                }
            }
            let packs = matches!(node.kind, ARRAY | MAP);
            all.push(match node.kind {
                0..=4 => (1, 1),
                _ if packs && links.iter().all(|&(target, _)| primitive(target)) => (1, 2),
                BLANK => (if node.a < 32 { 1 } else { 5 }, 1),
                _ => (sum.min(MOST), deepest + 1),
            });
        }
        all
    }

    /// The length and depth of the root's shape.
    pub fn extent(&self) -> (u64, u64) {
        self.extents().last().copied().unwrap_or((1, 1))
    }
}

// -------------------------------------------------------------------------------------------------
// Nodes as records

/// A table whose nodes are records: any number of them, without second bytes, and any bytes behind.
#[derive(Clone, Debug, Default, PartialEq, Eq)]
pub struct RecordTable {
    pub nodes: Vec<NodeRecord>,
    pub rest: Vec<u8>,
}

impl RecordTable {
    /// The table of these bytes, if they hold the first section whole and all second bytes are 0.
    pub fn of(bytes: &[u8]) -> Option<RecordTable> {
        let number = |entry: &[u8], at: usize| u16::from_le_bytes([entry[at], entry[at + 1]]);
        let count = number(bytes.get(..2)?, 0) as usize;
        let nodes = bytes.get(2..2 + 6 * count)?.chunks_exact(6).map(|entry| {
            let record = NodeRecord::new(entry[0], number(entry, 2), number(entry, 4));
            (entry[1] == 0).then_some(record)
        });
        Some(RecordTable {
            nodes: nodes.collect::<Option<_>>()?,
            rest: bytes[2 + 6 * count..].to_vec(),
        })
    }

    /// The same table in bytes, if two bytes can count its nodes.
    pub fn bytes(&self) -> Option<Vec<u8>> {
        in_bytes(&self.nodes, &self.rest)
    }
}

/// The table of these nodes and this rest in bytes, if two bytes can count the nodes.
pub fn in_bytes(nodes: &[NodeRecord], rest: &[u8]) -> Option<Vec<u8>> {
    let count = u16::try_from(nodes.len()).ok()?;
    let mut bytes = count.to_le_bytes().to_vec();
    for node in nodes {
        bytes.extend([node.kind, 0]);
        bytes.extend(node.a.to_le_bytes());
        bytes.extend(node.b.to_le_bytes());
    }
    bytes.extend(rest);
    Some(bytes)
}

// -------------------------------------------------------------------------------------------------
// Named ones

/// M4 of the bench card, and its table.
pub const M4: [u8; 10] = [0x42, 7, 0, 2, 1, b'a', 0x20, 1, b'b', 0x62];

pub fn m4_table() -> Table {
    Table::new(
        &[(0, 0, 0), (2, 0, 0), (ARRAY, 0, 1), (RECORD, 1, 2)],
        &[(1, 0), (0, 0), (2, 1)],
        &[(0, 1), (1, 1)],
    )
    .with_text(b"ab")
}

/// So many Maps of the node before, twice, round a leaf.
pub fn doubled(levels: u16) -> Table {
    let mut table = Table::new(&[(BLANK, 0, 0)], &[], &[]);
    for node in 0..levels {
        table.push(MAP, &[(node, 0), (node, 0)]);
    }
    table.counted()
}

/// So many Arrays round a leaf.
pub fn chain(levels: u16, leaf: Node) -> Table {
    let mut table = Table::default();
    table.push_node(leaf);
    for node in 0..levels {
        table.push(ARRAY, &[(node, 0)]);
    }
    table.counted()
}

/// A Symbol of one text of so many letters.
pub fn letters(count: usize) -> Table {
    let mut table = Table::default();
    let name = table.push_name(&vec![b'a'; count]);
    table.push(SYMBOL, &[(0, name)]);
    table.counted()
}

/// So many nodes, all but the first a Record with all of so many links.
pub fn records(nodes: usize, links: usize) -> Table {
    let mut table = Table::new(&[(0, 0, 0)], &vec![(0, 0); links], &[(0, 0)]);
    let record = Node::new(RECORD, 0, links as u16);
    table.nodes.resize(nodes, record);
    table.counted()
}

/// A table with every section at its limit, and so many more in each.
pub fn largest(more: [usize; 4]) -> Table {
    let limits = [MAX_NODES, MAX_LINKS, MAX_NAMES, MAX_TEXT];
    let length = |section: usize| limits[section] + more[section];
    Table {
        nodes: vec![Node::new(0, 0, 0); length(0)],
        links: vec![(0xFFFF, 0xFFFF); length(1)],
        names: vec![(0, 2048); length(2)],
        text: vec![b'x'; length(3)],
        ..Table::default()
    }
    .counted()
}

/// A Function whose length is so many bytes: a Symbol of 2,048 several times, and blanks. Its links
/// stand one after the other, the Symbol's first, so that a part of them is a shorter Function.
fn of_length(table: &mut Table, symbol: u16, blank: u16, bytes: usize) -> u16 {
    let symbols = (bytes - 200) / MAX_BYTES;
    let rest = bytes - symbols * MAX_BYTES;
    let blanks = match symbols + rest - 4 - 1 {
        0..=127 => rest - 4,
        _ => rest - 5,
    };
    let mut links = vec![(symbol, 0); symbols];
    links.extend(vec![(blank, 0); blanks]);
    table.push(FUNCTION, &links)
}

/// Tables that mean 2^16 or 2^32 bytes and a few more.
pub fn wrapping() -> Vec<Table> {
    let mut table = Table::default();
    let name = table.push_name(&[b'a'; 2042]);
    let symbol = table.push(SYMBOL, &[(0, name)]);
    let blank = table.push_node(Node::new(BLANK, 0, 0));
    let mut short = table.clone();
    short.push(FUNCTION, &[(symbol, 0); 32]);
    let mut exact = table.clone();
    of_length(&mut exact, symbol, blank, 65_536 + 1000);
    let million = of_length(&mut table, symbol, blank, 1 << 22);
    table.push(FUNCTION, &[(million, 0); 1024]);
    vec![short.counted(), exact.counted(), table.counted()]
}
