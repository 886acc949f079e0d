//! 01-scope.md, "Node table": from a table to bytes and back.

use crate::read::read;
use crate::shape::{encode, primitive, primitive_number, Measure, Shape};
use crate::{lend, limits, number_at, put_number, refuse, Refusal};

/// > Kinds 0 to 4 primitives (a = b = 0); 5 Array, 6 Map, 7 Record, 8 Function, 9 Symbol (a first
/// > link, b how many links); 10 Variable (a its number, b = 0).
const ARRAY: u8 = 5;
const MAP: u8 = 6;
const RECORD: u8 = 7;
const FUNCTION: u8 = 8;
const SYMBOL: u8 = 9;
const VARIABLE: u8 = 10;

/// > nodes of 6 bytes: kind, a zero byte, a, b.
#[derive(Clone, Copy)]
struct Node {
    kind: u8,
    zero: u8,
    a: usize,
    b: usize,
}

/// > links of 4 bytes: target, name.
#[derive(Clone, Copy)]
struct Link {
    target: usize,
    name: usize,
}

/// > names of 4 bytes: start, length in the text.
#[derive(Clone, Copy)]
struct Name {
    start: usize,
    length: usize,
}

/// > Four sections in this order, each after its count (all numbers two bytes, low first)
struct Table {
    nodes: Vec<Node>,
    links: Vec<Link>,
    names: Vec<Name>,
    text: Vec<u8>,
}

// ---------------------------------------------------------------------------------------------
// From a table to bytes.

/// The encoding of the root.
/// > Checks: 9 by section (count missing, outside its limits, or entries past the end; then
/// > leftover bytes), 10 by node, 11 by name (range, then UTF-8), then 15, 16, 12 for the root.
pub fn write(table: &[u8], room: usize) -> Result<Vec<u8>, Refusal> {
    let table = sections(table)?;
    for index in 0..table.nodes.len() {
        if !node_is_good(&table, index) {
            return refuse(10, index);
        }
    }
    for index in 0..table.names.len() {
        if !name_is_good(&table, index) {
            return refuse(11, index);
        }
    }
    // > The last node is the root.
    let root = table.nodes.len() - 1;
    let made = measures(&table)[root];
    // > 15 | made shape deeper than 16 | 0; when joining, the blank's number
    if made.depth > limits::DEPTH {
        return refuse(15, 0);
    }
    // > 16 | made shape over 2,048 bytes | as 15
    if made.length > limits::ENCODING as u64 {
        return refuse(16, 0);
    }
    lend(encode(&shape_of(&table, root)), room)
}

/// One section: its entries start 2 after `place`. Answers how many there are and the place after
/// them.
/// > 9 | table section broken | its count; for leftover bytes, the first
/// > count missing, outside its limits, or entries past the end
/// > a missing count's place is where it should start
fn section(
    table: &[u8],
    place: usize,
    entry: usize,
    least: usize,
    most: usize,
) -> Result<(usize, usize), Refusal> {
    let Some(count) = number_at(table, place) else {
        return refuse(9, place);
    };
    if count < least || count > most {
        return refuse(9, place);
    }
    let after = place + 2 + entry * count;
    if after > table.len() {
        return refuse(9, place);
    }
    Ok((count, after))
}

/// The four sections, taken apart.
fn sections(table: &[u8]) -> Result<Table, Refusal> {
    // > Table: 1 to 6,144 nodes, up to 6,144 links, 2,048 names, 2,048 bytes of text.
    let node_count = 0;
    let (nodes, link_count) = section(table, node_count, 6, limits::NODES_LEAST, limits::NODES)?;
    let (links, name_count) = section(table, link_count, 4, 0, limits::LINKS)?;
    let (names, text_count) = section(table, name_count, 4, 0, limits::NAMES)?;
    let (_, end) = section(table, text_count, 1, 0, limits::TEXT)?;
    // "for leftover bytes, the first"
    if end < table.len() {
        return refuse(9, end);
    }
    let number = |place: usize| number_at(table, place).expect("entries are inside");
    Ok(Table {
        nodes: (0..nodes)
            .map(|index| node_count + 2 + 6 * index)
            .map(|place| Node {
                kind: table[place],
                zero: table[place + 1],
                a: number(place + 2),
                b: number(place + 4),
            })
            .collect(),
        links: (0..links)
            .map(|index| link_count + 2 + 4 * index)
            .map(|place| Link {
                target: number(place),
                name: number(place + 2),
            })
            .collect(),
        names: (0..names)
            .map(|index| name_count + 2 + 4 * index)
            .map(|place| Name {
                start: number(place),
                length: number(place + 2),
            })
            .collect(),
        text: table[text_count + 2..end].to_vec(),
    })
}

/// > A node that breaks any of this, has a kind over 10 or a second byte other than zero is 10.
/// > Unreached nodes are checked too but mean nothing; links that no node uses are not looked at.
fn node_is_good(table: &Table, index: usize) -> bool {
    let node = table.nodes[index];
    if node.kind > VARIABLE || node.zero != 0 {
        return false;
    }
    // > Kinds 0 to 4 primitives (a = b = 0)
    if node.kind < ARRAY {
        return node.a == 0 && node.b == 0;
    }
    // > 10 Variable (a its number, b = 0)
    if node.kind == VARIABLE {
        return node.b == 0;
    }
    // > Array has 1 link, Map 2, Function at least 1 (the return last).
    let right_number = match node.kind {
        ARRAY => node.b == 1,
        MAP => node.b == 2,
        FUNCTION => node.b >= 1,
        _ => true,
    };
    // > For kinds 5 to 9 a + b is at most the link count.
    if !right_number || node.a + node.b > table.links.len() {
        return false;
    }
    links_of(table, node).iter().all(|link| {
        // > Targets are smaller than the node's own index, but a Symbol's are always 0.
        let good_target = if node.kind == SYMBOL {
            link.target == 0
        } else {
            link.target < index
        };
        // > Names are name indexes, below the name count, for Record and Symbol, else 0.
        let good_name = if node.kind == RECORD || node.kind == SYMBOL {
            link.name < table.names.len()
        } else {
            link.name == 0
        };
        good_target && good_name
    })
}

/// "(a first link, b how many links)", of a node of kinds 5 to 9.
fn links_of(table: &Table, node: Node) -> &[Link] {
    &table.links[node.a..node.a + node.b]
}

/// > 11 by name (range, then UTF-8)
///
/// decided: "name by name, each its range and then its text"; "names that no link uses" are
/// "checked like the others; text bytes that no name covers are not looked at"
fn name_is_good(table: &Table, index: usize) -> bool {
    let name = table.names[index];
    name.start + name.length <= table.text.len()
        && std::str::from_utf8(text_of(table, index)).is_ok()
}

/// The text of a name whose range is good.
fn text_of(table: &Table, index: usize) -> &[u8] {
    let name = table.names[index];
    &table.text[name.start..name.start + name.length]
}

/// The measure of every node of a checked table. "Targets are smaller than the node's own index":
/// those of the children are there when a node needs them, and none is found twice, however many
/// nodes share it.
fn measures(table: &Table) -> Vec<Measure> {
    let mut all: Vec<Measure> = Vec::new();
    for node in &table.nodes {
        let children = || -> Vec<Measure> {
            let links = links_of(table, *node).iter();
            links.map(|link| all[link.target]).collect()
        };
        let names = || -> Vec<u64> {
            let links = links_of(table, *node).iter();
            links
                .map(|link| table.names[link.name].length as u64)
                .collect()
        };
        let found = match node.kind {
            ARRAY => Measure::array(children()[0]),
            MAP => Measure::map(children()[0], children()[1]),
            RECORD => Measure::record(&names(), &children()),
            FUNCTION => Measure::function(&children()),
            SYMBOL => Measure::symbol(&names()),
            VARIABLE => Measure::variable(node.a as u16),
            _ => Measure::primitive(),
        };
        all.push(found);
    }
    all
}

/// The shape that a node of a checked table means. "Nodes may share children."
/// Only for nodes whose measure is within the limits: it walks everything.
fn shape_of(table: &Table, index: usize) -> Shape {
    let node = table.nodes[index];
    match node.kind {
        VARIABLE => Shape::Variable(node.a as u16),
        // > links of 4 bytes: target, name.
        ARRAY | MAP | RECORD | FUNCTION => {
            let links = links_of(table, node);
            let mut children: Vec<Shape> = links
                .iter()
                .map(|link| shape_of(table, link.target))
                .collect();
            match node.kind {
                ARRAY => Shape::Array(Box::new(children.remove(0))),
                MAP => {
                    let value = children.remove(1);
                    let key = children.remove(0);
                    Shape::Map(Box::new(key), Box::new(value))
                }
                RECORD => {
                    let names = links.iter().map(|link| text_of(table, link.name).to_vec());
                    Shape::Record(names.zip(children).collect())
                }
                // "the return last"
                _ => {
                    let result = children.pop().expect("at least 1 link");
                    Shape::Function(children, Box::new(result))
                }
            }
        }
        SYMBOL => Shape::Symbol(
            links_of(table, node)
                .iter()
                .map(|link| text_of(table, link.name).to_vec())
                .collect(),
        ),
        _ => primitive(node.kind),
    }
}

// ---------------------------------------------------------------------------------------------
// From lent records to bytes.

/// A node as the editor lends it; not the shape of that name.
/// > the editor lends its nodes as a slice of records (kind, a, b), the rest of the table as one
/// > byte buffer
///
/// decided: "kind is one byte, a and b two bytes each"
#[derive(Clone, Copy, Debug, PartialEq, Eq)]
pub struct Record {
    pub kind: u8,
    pub a: u16,
    pub b: u16,
}

/// The encoding of the root of the table with these nodes and this rest.
/// > the answer and places are those of the same table in bytes (no records, or more than 6,144:
/// > 9 at 0)
pub fn write_records(nodes: &[Record], rest: &[u8], room: usize) -> Result<Vec<u8>, Refusal> {
    // Before the count is put in two bytes: any number of records may come.
    if nodes.is_empty() || nodes.len() > limits::NODES {
        return refuse(9, 0);
    }
    write(&same_table(nodes, rest), room)
}

/// "the same table in bytes", of at most 6,144 records.
///
/// decided: "places in the rest are those of the whole table in bytes, so the rest starts at
/// 2 + 6 x records"
fn same_table(nodes: &[Record], rest: &[u8]) -> Vec<u8> {
    let mut bytes = Vec::new();
    put_number(&mut bytes, nodes.len());
    for node in nodes {
        bytes.push(node.kind);
        // decided: "the second byte of the table form counts as zero"
        bytes.push(0);
        put_number(&mut bytes, usize::from(node.a));
        put_number(&mut bytes, usize::from(node.b));
    }
    bytes.extend(rest);
    bytes
}

// ---------------------------------------------------------------------------------------------
// From bytes to a table.

/// > From bytes to table nothing is shared: children first, then the node; with each node its
/// > links, names and texts are added in order. An empty Record or Symbol has the number of links
/// > so far as a. Faults: 1 to 8, then 12.
pub fn to_table(bytes: &[u8], room: usize) -> Result<Vec<u8>, Refusal> {
    let shape = read(bytes)?;
    let mut table = Table {
        nodes: Vec::new(),
        links: Vec::new(),
        names: Vec::new(),
        text: Vec::new(),
    };
    add(&mut table, &shape);
    lend(table_bytes(&table), room)
}

/// Adds the shape's nodes, its own last; answers the index of that one.
fn add(table: &mut Table, shape: &Shape) -> usize {
    // "children first"
    let children: Vec<usize> = shape
        .children()
        .iter()
        .map(|child| add(table, child))
        .collect();
    // "then the node; with each node its links, names and texts are added in order"
    // decided: a Record's names and texts are added "with the Record's own node, after everything
    // of its children"
    let first_link = table.links.len();
    let (kind, a, b) = match shape {
        Shape::Int | Shape::Float | Shape::Bool | Shape::Str | Shape::Bytes => {
            let number = primitive_number(shape).expect("it is a primitive");
            (number, 0, 0)
        }
        Shape::Variable(number) => (VARIABLE, usize::from(*number), 0),
        Shape::Array(_) => {
            add_links(table, &children);
            (ARRAY, first_link, 1)
        }
        Shape::Map(_, _) => {
            add_links(table, &children);
            (MAP, first_link, 2)
        }
        Shape::Function(_, _) => {
            add_links(table, &children);
            (FUNCTION, first_link, children.len())
        }
        Shape::Record(fields) => {
            for ((name, _), target) in fields.iter().zip(children) {
                let name = add_name(table, name);
                table.links.push(Link { target, name });
            }
            (RECORD, first_link, fields.len())
        }
        Shape::Symbol(parts) => {
            // "a Symbol's are always 0"
            for part in parts {
                let name = add_name(table, part);
                table.links.push(Link { target: 0, name });
            }
            (SYMBOL, first_link, parts.len())
        }
    };
    table.nodes.push(Node {
        kind,
        zero: 0,
        a,
        b,
    });
    table.nodes.len() - 1
}

/// Links without names: "else 0".
fn add_links(table: &mut Table, targets: &[usize]) {
    for target in targets {
        table.links.push(Link {
            target: *target,
            name: 0,
        });
    }
}

/// Adds a name and its text ("nothing is shared"); answers its index.
fn add_name(table: &mut Table, text: &[u8]) -> usize {
    table.names.push(Name {
        start: table.text.len(),
        length: text.len(),
    });
    table.text.extend(text);
    table.names.len() - 1
}

/// The four sections, each after its count.
fn table_bytes(table: &Table) -> Vec<u8> {
    let mut bytes = Vec::new();
    put_number(&mut bytes, table.nodes.len());
    for node in &table.nodes {
        bytes.push(node.kind);
        bytes.push(node.zero);
        put_number(&mut bytes, node.a);
        put_number(&mut bytes, node.b);
    }
    put_number(&mut bytes, table.links.len());
    for link in &table.links {
        put_number(&mut bytes, link.target);
        put_number(&mut bytes, link.name);
    }
    put_number(&mut bytes, table.names.len());
    for name in &table.names {
        put_number(&mut bytes, name.start);
        put_number(&mut bytes, name.length);
    }
    put_number(&mut bytes, table.text.len());
    bytes.extend(&table.text);
    bytes
}
