//! Inputs for `write` and `table`. Tables are made from shapes, in the way back's order or in others,
//! with shared names, links and nodes and with some that are not used; or node by node, so that what
//! they mean grows faster than they do; at the limits and over them; and with something broken.

use super::table::kind::{ARRAY, BLANK, FUNCTION, MAP, RECORD, SYMBOL};
use super::table::{
    chain, doubled, largest, letters, m4_table, records, wrapping, Node, Table, M4, MAX_LINKS,
    MAX_NAMES, MAX_NODES, MAX_TEXT,
};
use super::{
    any_tree, changed, encode, function, leb128, long, nested, record, text, PartInputs, Slip,
    Tree, MAX_BYTES, NOT_UTF8,
};
use crate::random::Random;

pub mod records;

// -------------------------------------------------------------------------------------------------
// Tables of shapes

/// How a table is laid out: each of these, or the way back's own order.
#[derive(Clone, Copy, Default)]
struct Layout {
    nodes_shared: bool,
    links_shared: bool,
    names_shared: bool,
    text_shared: bool,
    /// names before those of the children
    names_first: bool,
    /// an empty list's a is any
    any_a: bool,
    /// once in so many nodes something that is not used, if not 0
    unused: usize,
}

struct Builder<'a> {
    random: &'a mut Random,
    layout: Layout,
    table: Table,
}

/// How far back something is looked for that can be shared.
const SHARED: usize = 200;

impl Builder<'_> {
    fn node(&mut self, kind: u8, a: u16, b: u16) -> u16 {
        let node = Node::new(kind, a, b);
        if self.layout.nodes_shared {
            let some = self.table.nodes.len().saturating_sub(SHARED);
            let found = self.table.nodes[some..]
                .iter()
                .position(|other| *other == node);
            if let Some(found) = found {
                return (some + found) as u16;
            }
        }
        self.table.push_node(node)
    }

    fn list(&mut self, kind: u8, links: &[(u16, u16)]) -> u16 {
        let table = &mut self.table;
        let mut a = table.links.len();
        if links.is_empty() {
            if self.layout.any_a {
                a = self.random.below(a + 1);
            }
        } else {
            let some = a.saturating_sub(SHARED);
            let mut windows = table.links[some..].windows(links.len());
            let found = match self.layout.links_shared {
                true => windows.position(|window| window == links),
                false => None,
            };
            match found {
                Some(found) => a = some + found,
                None => table.links.extend(links),
            }
        }
        self.node(kind, a as u16, links.len() as u16)
    }

    fn name(&mut self, text: &[u8]) -> u16 {
        let table = &mut self.table;
        if self.layout.names_shared {
            let some = table.names.len().saturating_sub(SHARED);
            let found = (some..table.names.len()).find(|&name| table.text_of(name as u16) == text);
            if let Some(found) = found {
                return found as u16;
            }
        }
        if self.layout.text_shared && !text.is_empty() {
            let mut windows = table.text.windows(text.len());
            if let Some(found) = windows.position(|window| window == text) {
                table.names.push((found as u16, text.len() as u16));
                return table.names.len() as u16 - 1;
            }
        }
        table.push_name(text)
    }

    /// Something that is not used: a node, links, a name or text.
    fn unused(&mut self) {
        let Builder { random, table, .. } = self;
        if table.nodes.len() > 5000 || table.names.len() > 1500 || table.text.len() > 1500 {
            return;
        }
        match random.below(5) {
            0 => {
                let node = any_leaf(random);
                table.push_node(node);
            }
            1 if !table.nodes.is_empty() => {
                let kind = random.pick(&[ARRAY, MAP, FUNCTION]);
                let links = any_links(random, table, kind);
                table.push(kind, &links);
            }
            2 => {
                let link = (random.number() as u16, random.number() as u16);
                let times = random.between(1, 4);
                table.links.extend(vec![link; times]);
            }
            3 => {
                let text = text(random, 12);
                table.push_name(&text);
            }
            _ => {
                let junk = random.pick(&NOT_UTF8);
                table.text.extend(junk);
            }
        }
    }

    fn shape(&mut self, tree: &Tree) -> u16 {
        if self.layout.unused > 0 && self.random.once_in(self.layout.unused) {
            self.unused();
        }
        let bare = |children: Vec<u16>| -> Vec<(u16, u16)> {
            children.into_iter().map(|target| (target, 0)).collect()
        };
        match tree {
            Tree::Primitive(number) => self.node(*number, 0, 0),
            Tree::Variable(number) => self.node(BLANK, *number, 0),
            Tree::Array(element) => {
                let element = self.shape(element);
                self.list(ARRAY, &[(element, 0)])
            }
            Tree::Map(pair) => {
                let pair = pair.iter().map(|tree| self.shape(tree)).collect();
                self.list(MAP, &bare(pair))
            }
            Tree::Function(list) => {
                let list = list.iter().map(|tree| self.shape(tree)).collect();
                self.list(FUNCTION, &bare(list))
            }
            Tree::Record(fields) => {
                let mut names = Vec::new();
                if self.layout.names_first {
                    names.extend(fields.iter().map(|(name, _)| self.name(name)));
                }
                let targets: Vec<u16> = fields.iter().map(|(_, tree)| self.shape(tree)).collect();
                if !self.layout.names_first {
                    names.extend(fields.iter().map(|(name, _)| self.name(name)));
                }
                let links: Vec<(u16, u16)> = targets.into_iter().zip(names).collect();
                self.list(RECORD, &links)
            }
            Tree::Symbol(texts) => {
                let links: Vec<(u16, u16)> =
                    texts.iter().map(|text| (0, self.name(text))).collect();
                self.list(SYMBOL, &links)
            }
        }
    }
}

/// The table of a shape in any layout.
fn laid_out(random: &mut Random, tree: &Tree) -> Table {
    let layout = match random.below(4) {
        0 => Layout::default(),
        _ => Layout {
            nodes_shared: random.once_in(2),
            links_shared: random.once_in(2),
            names_shared: random.once_in(2),
            text_shared: random.once_in(2),
            names_first: random.once_in(2),
            any_a: random.once_in(2),
            unused: random.pick(&[0, 0, 2, 5, 50]),
        },
    };
    let mut builder = Builder {
        random,
        layout,
        table: Table::default(),
    };
    let root = builder.shape(tree);
    let mut table = builder.table;
    if root as usize + 1 < table.nodes.len() {
        table.push_node(table.nodes[root as usize]);
    }
    table.counted()
}

/// A table of a shape of any size, mostly a small one.
fn of_a_shape(random: &mut Random) -> Table {
    let most = random.pick(&[10, 30, 30, 100, 100, 300, MAX_BYTES]);
    let tree = any_tree(random, most);
    laid_out(random, &tree)
}

// -------------------------------------------------------------------------------------------------
// Tables node by node

fn any_leaf(random: &mut Random) -> Node {
    match random.below(3) {
        0 => Node::new(
            BLANK,
            random.pick(&[0, 1, 31, 32, 33, 255, 256, 0x2000, 65_535]),
            0,
        ),
        _ => Node::new(random.below(5) as u8, 0, 0),
    }
}

/// Good links for the next node of a table, which has a node: mostly to those before it.
fn any_links(random: &mut Random, table: &Table, kind: u8) -> Vec<(u16, u16)> {
    let count = match kind {
        ARRAY => 1,
        MAP => 2,
        FUNCTION => random.between(1, 4),
        _ if table.names.is_empty() => 0,
        _ => random.between(0, 4),
    };
    let nodes = table.nodes.len();
    let near = random.pick(&[1, 3, 10, nodes]).min(nodes);
    let mut link = || {
        let target = match kind {
            SYMBOL => 0,
            _ => nodes - 1 - random.below(near),
        };
        let name = match kind {
            RECORD | SYMBOL => random.below(table.names.len()),
            _ => 0,
        };
        (target as u16, name as u16)
    };
    (0..count).map(|_| link()).collect()
}

/// A few names, some of which share text.
fn any_names(random: &mut Random, table: &mut Table) {
    for _ in 0..random.below(5) {
        let text = text(random, 20);
        table.push_name(&text);
        if random.once_in(3) {
            let name = table.names[random.below(table.names.len())];
            table.names.push(name);
        }
    }
}

/// A table of up to so many nodes that share their children. What it means is kept within the limits,
/// or not.
fn shared(random: &mut Random, most: usize) -> Table {
    let mut table = Table::default();
    any_names(random, &mut table);
    let within = !random.once_in(4);
    let nodes = random.between(1, most);
    let leaf = any_leaf(random);
    table.push_node(leaf);
    while table.nodes.len() < nodes {
        let before = table.links.len();
        let kind = random.pick(&[ARRAY, ARRAY, MAP, RECORD, RECORD, FUNCTION, SYMBOL, BLANK]);
        if kind == BLANK {
            let leaf = any_leaf(random);
            table.push_node(leaf);
            continue;
        }
        let links = any_links(random, &table, kind);
        // now and then a run that is there, or a part of one
        let run = table.nodes[random.below(table.nodes.len())];
        if run.kind == kind && random.once_in(3) {
            table.push_node(run);
        } else {
            table.push(kind, &links);
        }
        let (length, depth) = table.extent();
        if within && (length > MAX_BYTES as u64 || depth > 16) {
            table.nodes.pop();
            table.links.truncate(before);
            let leaf = any_leaf(random);
            table.push_node(leaf);
        }
    }
    table.counted()
}

/// So many nodes, each of which has the one before it several times, round a leaf.
fn multiplied(random: &mut Random, levels: usize) -> Table {
    let mut table = Table::default();
    any_names(random, &mut table);
    let leaf = any_leaf(random);
    table.push_node(leaf);
    let times = random.pick(&[2, 2, 3, 16, 100]);
    let same = random.once_in(2);
    for node in 0..levels as u16 {
        let kind = match (same, random.below(3)) {
            (true, _) | (_, 0) => MAP,
            (_, 1) if !table.names.is_empty() => RECORD,
            _ => FUNCTION,
        };
        let times = if kind == MAP { 2 } else { times };
        table.push(kind, &vec![(node, 0); times]);
    }
    table.counted()
}

/// 14 to 17 levels of all kinds round something.
fn at_the_last_level(random: &mut Random) -> Table {
    let mut table = Table::default();
    table.push_name(b"n");
    let inner = match random.below(4) {
        0 => Node::new(random.below(5) as u8, 0, 0),
        1 => Node::new(random.pick(&[RECORD, SYMBOL]), 0, 0),
        _ => Node::new(BLANK, random.pick(&[0, 31, 32]), 0),
    };
    let leaf = any_leaf(random);
    table.push_node(leaf);
    let mut inner = table.push_node(inner);
    let only_arrays = random.once_in(3);
    for _ in 0..random.between(12, 17) {
        inner = match random.below(6) {
            _ if only_arrays => table.push(ARRAY, &[(inner, 0)]),
            0 => table.push(ARRAY, &[(inner, 0)]),
            1 => table.push(MAP, &[(inner, 0), (0, 0)]),
            2 => table.push(MAP, &[(0, 0), (inner, 0)]),
            3 => table.push(RECORD, &[(0, 0), (inner, 0)]),
            4 => table.push(FUNCTION, &[(inner, 0)]),
            _ => table.push(FUNCTION, &[(0, 0), (inner, 0), (0, 0)]),
        };
    }
    // now and then what is deep is not reached, or long as well
    match random.below(8) {
        0 => {
            let leaf = any_leaf(random);
            table.push_node(leaf);
        }
        1 => {
            table.push(FUNCTION, &vec![(inner, 0); 100]);
        }
        _ => (),
    }
    table.counted()
}

/// A Record with a long name, so that 2,046 to 2,050 bytes are made.
fn at_the_last_byte(random: &mut Random) -> Table {
    loop {
        let mut table = match random.once_in(2) {
            true => shared(random, 30),
            false => of_a_shape(random),
        };
        let (length, depth) = table.extent();
        let wanted = random.pick(&[2046, 2047, 2048, 2048, 2048, 2049, 2049, 2050]);
        let letters = (wanted - 6u64).saturating_sub(length) as usize;
        if letters < 128 || depth > 15 || table.text.len() + letters > MAX_TEXT {
            continue;
        }
        let name = table.push_name(&vec![b'n'; letters]);
        let root = table.nodes.len() as u16 - 1;
        table.push(RECORD, &[(root, name)]);
        return table.counted();
    }
}

/// A table with one section or more at its limit or next to it. The root is a small shape.
fn full(random: &mut Random) -> Table {
    let mut table = shared(random, 10);
    let root = table.nodes.pop().unwrap_or(Node::new(0, 0, 0));
    let limits = [MAX_NODES - 1, MAX_LINKS, MAX_NAMES, MAX_TEXT];
    let section = random.below(6);
    let wanted = |which: usize, random: &mut Random| match section {
        5 => limits[which],
        4 => limits[which] + random.below(2) * random.below(2),
        _ if which == section => limits[which] - 1 + random.below(3),
        _ => 0,
    };
    let leaf = any_leaf(random);
    let length = wanted(0, random).max(table.nodes.len());
    table.nodes.resize(length, leaf);
    table.nodes.push(root);
    let length = wanted(1, random).max(table.links.len());
    table.links.resize(length, (0xFFFF, 0xFFFF));
    let length = wanted(3, random).max(table.text.len());
    table.text.resize(length, b'x');
    let length = wanted(2, random).max(table.names.len());
    let start = table.text.len() as u16;
    table.names.resize(length, (start, 0));
    table.counted()
}

// -------------------------------------------------------------------------------------------------
// Broken ones

/// Breaks one thing, if there is something to break.
fn break_one(random: &mut Random, table: &mut Table) {
    let nodes = table.nodes.len();
    let any = random.number() as u16;
    // a node that is a list, or has names, or is one of these kinds, if there is one
    let pick = |random: &mut Random, wanted: &dyn Fn(&Node) -> bool| {
        let some: Vec<usize> = (0..nodes)
            .filter(|&node| wanted(&table.nodes[node]))
            .collect();
        (!some.is_empty()).then(|| random.pick(&some))
    };
    let with_links =
        |node: &Node| node.is_list() && node.b > 0 && node.run().end <= table.links.len();
    let links = table.links.len() as u16;
    match random.below(28) {
        0 => {
            let count = table.counts[0];
            table.counts[0] = random.pick(&[
                0,
                0,
                count.wrapping_add(1),
                count.wrapping_sub(1),
                6144,
                6145,
                any,
            ]);
        }
        section @ 1..=3 => {
            let most = [6144, 6144, 2048, 2048][section];
            let count = table.counts[section];
            let one_less = count.wrapping_sub(1);
            table.counts[section] = random.pick(&[
                count.wrapping_add(1),
                count.wrapping_add(1),
                one_less,
                most,
                most + 1,
                any,
            ]);
        }
        4 => {
            let more = random.pick(&[1, 1, 2, 3, 4, 100]);
            table.left_over = vec![random.pick(&[0, 1, 0xFF]); more];
        }
        5 => {
            let node = random.below(nodes);
            table.nodes[node].kind = random.pick(&[11, 11, 12, 255, any as u8 | 16]);
        }
        6 => {
            let node = random.below(nodes);
            table.nodes[node].second = random.pick(&[1, 1, 0x80, 0xFF]);
        }
        7 | 8 => {
            if let Some(node) = pick(random, &|node| node.kind < ARRAY) {
                let number = random.pick(&[1, 1, 256, any | 1]);
                match random.below(2) {
                    0 => table.nodes[node].a = number,
                    _ => table.nodes[node].b = number,
                }
            }
        }
        9 | 10 => {
            if let Some(node) = pick(random, &|node| node.kind == BLANK) {
                table.nodes[node].b = random.pick(&[1, 1, 256, any | 1]);
            }
        }
        11 => {
            let counted = |node: &Node| matches!(node.kind, ARRAY | MAP | FUNCTION);
            if let Some(node) = pick(random, &counted) {
                let b = table.nodes[node].b;
                let other =
                    random.pick(&[0, b.wrapping_add(1), b.wrapping_sub(1), b.wrapping_add(256)]);
                table.nodes[node].b = if table.nodes[node].kind == FUNCTION {
                    0
                } else {
                    other
                };
            }
        }
        12 | 13 => {
            if let Some(node) = pick(random, &|node| node.is_list()) {
                // past the links by one, by more, or so that a + b is 2^16 or a little more
                let b = table.nodes[node].b;
                let past = (links + 1).wrapping_sub(b);
                let wraps = 0u16.wrapping_sub(b).wrapping_add(any % 3);
                let a = random.pick(&[past, past, past.wrapping_add(1), wraps, wraps, 65_535, any]);
                table.nodes[node].a = a;
            }
        }
        14 => {
            if let Some(node) = pick(random, &|node| node.is_list() && node.b == 0) {
                table.nodes[node].a = random.pick(&[links + 1, links + 1, links + 2, 65_535]);
            }
        }
        15 | 16 => {
            let wanted = |node: &Node| with_links(node) && node.kind != SYMBOL;
            if let Some(node) = pick(random, &wanted) {
                let run = table.nodes[node].run();
                let link = random.between(run.start, run.end - 1);
                let node = node as u16;
                let target = random.pick(&[node, node, node, node + 1, nodes as u16, any]);
                table.links[link].0 = target;
            }
        }
        17..=19 => {
            if let Some(node) = pick(random, &|node| with_links(node) && node.kind == SYMBOL) {
                let run = table.nodes[node].run();
                let link = random.between(run.start, run.end - 1);
                table.links[link].0 = random.pick(&[1, 1, node as u16, any | 1]);
            }
        }
        20 => {
            if let Some(node) = pick(random, &|node| with_links(node) && node.is_named()) {
                let run = table.nodes[node].run();
                let link = random.between(run.start, run.end - 1);
                let count = table.names.len() as u16;
                table.links[link].1 =
                    random.pick(&[count, count, count.wrapping_add(1), any | 0x1000]);
            }
        }
        21 => {
            if let Some(node) = pick(random, &|node| with_links(node) && !node.is_named()) {
                let run = table.nodes[node].run();
                let link = random.between(run.start, run.end - 1);
                table.links[link].1 = random.pick(&[1, 1, 256, any | 1]);
            }
        }
        22..=24 => break_a_name(random, table, any),
        25 => {
            // a node that is not reached, just before the root
            let node = Node {
                kind: random.pick(&[0, 4, 5, 7, 10, 11]),
                second: random.pick(&[0, 0, 1]),
                a: random.pick(&[0, 1, any]),
                b: random.pick(&[0, 1, 2]),
            };
            table.nodes.insert(nodes - 1, node);
            table.counts[0] = table.counts[0].wrapping_add(1);
        }
        26 => {
            if let Some(node) = pick(random, &|node| node.is_list()) {
                table.nodes[node].kind = random.between(ARRAY as usize, SYMBOL as usize) as u8;
            }
        }
        _ => {
            let (one, other) = (random.below(nodes), random.below(nodes));
            table.nodes.swap(one, other);
        }
    }
}

/// Breaks a name that is there, or one that no link has.
fn break_a_name(random: &mut Random, table: &mut Table, any: u16) {
    let (names, bytes) = (table.names.len() as u16, table.text.len() as u16);
    let mut name = random.below(table.names.len().max(1));
    if table.names.is_empty() || random.once_in(3) {
        let text = random.pick(&[&b"unused"[..], "tr\u{E4}g\u{20AC}".as_bytes()]);
        name = table.push_name(text) as usize;
    }
    let (start, length) = table.names[name];
    let text = table.text.len() as u16;
    let range = start as usize..start as usize + length as usize;
    match random.below(8) {
        0 => table.names[name].1 = random.pick(&[text - start.min(text) + 1, any, 65_535]),
        1 => table.names[name].0 = (text + 1).wrapping_sub(length),
        2 => {
            let length = random.pick(&[1, 2, length.max(1)]);
            table.names[name] = (0u16.wrapping_sub(length), length);
        }
        3 => table.names[name] = (text + 1, 0),
        4 | 5 => {
            // a part of it, which may cut a character
            let from = random.below(length as usize + 1) as u16;
            let less = random.below((length - from) as usize + 1) as u16;
            table.names[name] = (start.wrapping_add(from), length - from - less);
        }
        _ => {
            let bad = random.pick(&NOT_UTF8);
            match table.text.get(range.clone()) {
                Some(own) if own.len() >= bad.len() => {
                    let at = match random.below(2) {
                        0 => range.end - bad.len(),
                        _ => range.start + random.below(own.len() - bad.len() + 1),
                    };
                    table.text[at..at + bad.len()].copy_from_slice(bad);
                }
                _ => {
                    table.push_name(bad);
                }
            }
        }
    }
    // the counts are as wrong as they were
    table.counts[2] = table.counts[2].wrapping_add(table.names.len() as u16 - names);
    table.counts[3] = table.counts[3].wrapping_add(table.text.len() as u16 - bytes);
}

/// A table in which one to three things are broken, and which may be cut.
fn several_broken(random: &mut Random) -> Vec<u8> {
    let mut table = match random.below(8) {
        0..=2 => of_a_shape(random),
        3 => at_the_last_level(random),
        _ => shared(random, 20),
    };
    for _ in 0..random.pick(&[1, 1, 1, 1, 2, 3]) {
        break_one(random, &mut table);
    }
    let bytes = table.bytes();
    match random.below(16) {
        0 => cut(random, bytes, &table.places()),
        _ => bytes,
    }
}

/// What is left of a table that is cut off: anywhere, or near where a section starts or ends.
fn cut(random: &mut Random, mut bytes: Vec<u8>, places: &[usize; 4]) -> Vec<u8> {
    let near = random.pick(places);
    let at = match random.below(4) {
        0 => random.below(bytes.len() + 1),
        _ => (near + random.below(6)).saturating_sub(2),
    };
    bytes.truncate(at);
    bytes
}

/// Any bytes, mostly of numbers that are small.
fn random_bytes(random: &mut Random) -> Vec<u8> {
    let length = random.pick(&[0, 1, 2, 3, 8, 9, 10, 11, 12, 13, 14, 15, 24, 40, 100]);
    let any = random.once_in(4);
    let mut bytes: Vec<u8> = (0..length)
        .map(|place| match (any, place % 2) {
            (true, _) => random.byte(),
            (_, 0) => random.pick(&[0, 0, 1, 1, 2, 3, 5, 6, 7, 8, 9, 10, 11]),
            (_, _) => random.pick(&[0, 0, 0, 0, 0, 0, 0, 0, 1, 24]),
        })
        .collect();
    if length >= 8 && !any {
        bytes[0] = random.pick(&[1, 1, 2, 3]);
        bytes[1] = 0;
    }
    bytes
}

// -------------------------------------------------------------------------------------------------
// Inputs for write

/// Generated inputs for `write`, without end.
pub struct WriteInputs {
    random: Random,
    ready: Vec<Vec<u8>>,
}

impl WriteInputs {
    pub fn new(seed: u64) -> WriteInputs {
        WriteInputs {
            random: Random::new(seed),
            ready: Vec::new(),
        }
    }
}

impl Iterator for WriteInputs {
    type Item = Vec<u8>;

    fn next(&mut self) -> Option<Vec<u8>> {
        while self.ready.is_empty() {
            generate(&mut self.random, &mut self.ready);
        }
        self.ready.pop()
    }
}

/// A few inputs of one sort.
fn generate(random: &mut Random, to: &mut Vec<Vec<u8>>) {
    match random.below(1000) {
        0..=239 => to.push(of_a_shape(random).bytes()),
        240..=399 => {
            let most = random.pick(&[3, 8, 20, 40, 40, 200]);
            to.push(shared(random, most).bytes());
        }
        400..=459 => to.push(at_the_last_level(random).bytes()),
        460..=499 => to.push(at_the_last_byte(random).bytes()),
        500..=519 => {
            let levels = random.pick(&[2, 5, 8, 9, 10, 12, 14, 15, 16, 39, 100]);
            to.push(multiplied(random, levels).bytes());
        }
        520..=523 => {
            let all = wrapping();
            to.push(all[random.below(all.len())].bytes());
        }
        524..=535 => to.push(full(random).bytes()),
        536..=537 => {
            let table = shared(random, 6);
            let bytes = table.bytes();
            to.extend((0..=bytes.len()).map(|place| bytes[..place].to_vec()));
        }
        538..=569 => {
            let table = match random.once_in(2) {
                true => of_a_shape(random),
                false => shared(random, 20),
            };
            let bytes = table.bytes();
            to.push(cut(random, bytes, &table.places()));
        }
        570..=609 => {
            let bytes = shared(random, 12).bytes();
            to.push(changed(random, &bytes));
        }
        610..=639 => to.push(random_bytes(random)),
        _ => to.push(several_broken(random)),
    }
}

/// The inputs for `write` that are always among the cases.
pub fn always_write() -> Vec<Vec<u8>> {
    let mut inputs = Vec::new();
    let m4 = m4_table().bytes();
    inputs.extend((0..=m4.len()).map(|place| m4[..place].to_vec()));
    for more in [1, 2, 100_000] {
        inputs.push([&m4[..], &vec![0; more]].concat());
    }
    for place in 0..m4.len() {
        for byte in [0, 1, 2, 3, 5, 9, 10, 11, 0x80, 0xFF] {
            let mut bytes = m4.clone();
            bytes[place] = byte;
            inputs.push(bytes);
        }
    }
    // each kind as the only node, and with each a and b
    for kind in 0..=11 {
        for a in [0, 1, 2, 31, 32, 65_535] {
            for b in [0, 1, 2, 3, 65_535] {
                let own = Table::new(&[(kind, a, b)], &[], &[]);
                let links = [(0, 0), (1, 0), (0, 1)];
                let third = Table::new(
                    &[(0, 0, 0), (2, 0, 0), (kind, a, b)],
                    &links,
                    &[(0, 1), (1, 1)],
                );
                inputs.extend([own.bytes(), third.with_text(b"ab").bytes()]);
            }
        }
    }
    // limits
    for levels in (0..=18).chain([39, 100, 3072, 6143]) {
        inputs.push(chain(levels, Node::new(0, 0, 0)).bytes());
        inputs.push(chain(levels, Node::new(RECORD, 0, 0)).bytes());
    }
    for levels in (0..=18).chain([39, 3072]) {
        inputs.push(doubled(levels).bytes());
    }
    for count in [0, 1, 127, 128, 2041, 2042, 2043, 2048] {
        inputs.push(letters(count).bytes());
    }
    for links in [1, 2, 128, 129, 2042, 2043, 2044, 6143] {
        let table = Table::new(
            &[(0, 0, 0), (FUNCTION, 0, links)],
            &vec![(0, 0); links as usize],
            &[],
        );
        inputs.push(table.bytes());
    }
    for section in 0..4 {
        let mut more = [0; 4];
        inputs.push(largest(more).bytes());
        more[section] = 1;
        inputs.push(largest(more).bytes());
    }
    inputs.extend(wrapping().iter().map(Table::bytes));
    // 400^15 Ints, and the same below a root that is an Int
    let mut many = Table::new(&[(0, 0, 0)], &[], &[]);
    for node in 0..15 {
        many.push(FUNCTION, &[(node, 0); 400]);
    }
    inputs.push(many.clone().counted().bytes());
    many.push_node(Node::new(0, 0, 0));
    inputs.push(many.counted().bytes());
    inputs.push(records(300, 3000).bytes());
    // text: each that is not UTF-8, and names that cut a character
    for bad in NOT_UTF8 {
        let table = Table::new(&[(0, 0, 0)], &[], &[(0, bad.len() as u16)]);
        inputs.push(table.clone().with_text(bad).bytes());
        let table = Table::new(&[(0, 0, 0)], &[], &[(0, 0), (1, 0)]);
        inputs.push(table.with_text(bad).bytes());
    }
    let characters = "a\u{E9}\u{20AC}\u{1F6A1}".as_bytes();
    for start in 0..=11 {
        for length in 0..=11 {
            let table = Table::new(&[(SYMBOL, 0, 1)], &[(0, 0)], &[(start, length)]);
            inputs.push(table.with_text(characters).bytes());
        }
    }
    inputs.push(vec![0xFF; 100_000]);
    inputs.push(vec![0; 100_000]);
    let worst = crate::stack::worst_for_write();
    inputs.extend(worst.into_iter().map(|(_, bytes)| bytes));
    inputs
}

// -------------------------------------------------------------------------------------------------
// Inputs for table

/// Generated inputs for `table`, without end.
pub struct EncodingInputs {
    random: Random,
    others: PartInputs,
}

impl EncodingInputs {
    pub fn new(seed: u64) -> EncodingInputs {
        EncodingInputs {
            random: Random::new(seed),
            others: PartInputs::new(seed.wrapping_add(2)),
        }
    }
}

impl Iterator for EncodingInputs {
    type Item = Vec<u8>;

    fn next(&mut self) -> Option<Vec<u8>> {
        let random = &mut self.random;
        match random.below(16) {
            0 => Some(wide(random)),
            1..=3 => {
                let tree = any_tree(random, 100);
                Some(encode(&tree, Slip::None, random))
            }
            _ => self.others.next(),
        }
    }
}

/// A list of short shapes or texts, mostly a long one.
fn wide(random: &mut Random) -> Vec<u8> {
    let most = random.pick(&[3, 30, 127, 128, 500, 1000, 2042]);
    let count = match random.below(3) {
        0 => most,
        _ => random.between(1, most),
    };
    let short = |random: &mut Random| match random.below(5) {
        0 => random.below(32) as u8,
        1 => random.between(32, 36) as u8,
        2 => random.between(96, 100) as u8,
        _ => random.between(101, 125) as u8,
    };
    let same = random.once_in(2).then(|| short(random));
    let list: Vec<u8> = (0..count)
        .map(|_| same.unwrap_or_else(|| short(random)))
        .collect();
    match random.below(5) {
        0 => {
            let fields = list.iter().take(1021);
            let count = fields.len();
            record(
                count,
                &fields.flat_map(|&byte| [0, byte]).collect::<Vec<u8>>(),
            )
        }
        1 => long(0x44, &[leb128(count), vec![0; count]].concat()),
        2 => {
            let count = count.min(680);
            long(
                0x44,
                &[leb128(count), [2, b'a', b'b'].repeat(count)].concat(),
            )
        }
        _ => function(count, &list, &[0x76]),
    }
}

/// The inputs for `table` that are always among the cases.
pub fn always_table() -> Vec<Vec<u8>> {
    let mut inputs = super::always();
    inputs.push(M4.to_vec());
    // the largest tables: of nodes and links, of links and names, of text
    inputs.push(function(2042, &[0x76; 2042], &[0x76]));
    inputs.push(long(0x44, &[leb128(2043), vec![0; 2043]].concat()));
    inputs.push(record(1021, &[0, 0x76].repeat(1021)));
    // empty lists after other links, and names in one another
    inputs.push(function(2, &[0x60, 0x42, 1, 0, 0], &[0x44, 1, 0, 0]));
    inputs.push(nested(12, &[0x20], |inner| {
        record(
            2,
            &[&[1, b'a'], inner, &[1, b'b', 0x44, 3, 0, 1, 1, b'c']].concat(),
        )
    }));
    let worst = crate::stack::worst_for_table();
    inputs.extend(worst.into_iter().map(|(_, bytes)| bytes));
    inputs
}
