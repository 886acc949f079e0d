//! Node tables.

mod common;

use common::{array, arrays, function, hex, map, no, record, symbol, Random};
use model::limits;
use model::read::read;
use model::shape::{encode, encoded_len, Shape};
use model::table::{to_table, write, write_records, Record};
use model::Refusal;

const ROOM: usize = 100_000;

/// A table of these parts, right or wrong.
#[derive(Clone, Default)]
struct Raw {
    /// kind, second byte, a, b
    nodes: Vec<(u8, u8, u16, u16)>,
    links: Vec<(u16, u16)>,
    names: Vec<(u16, u16)>,
    text: Vec<u8>,
}

impl Raw {
    fn bytes(&self) -> Vec<u8> {
        let mut bytes = (self.nodes.len() as u16).to_le_bytes().to_vec();
        for (kind, second, a, b) in &self.nodes {
            bytes.extend([*kind, *second]);
            bytes.extend(a.to_le_bytes());
            bytes.extend(b.to_le_bytes());
        }
        for pairs in [&self.links, &self.names] {
            bytes.extend((pairs.len() as u16).to_le_bytes());
            for (one, other) in pairs {
                bytes.extend(one.to_le_bytes());
                bytes.extend(other.to_le_bytes());
            }
        }
        bytes.extend((self.text.len() as u16).to_le_bytes());
        bytes.extend(&self.text);
        bytes
    }

    fn write(&self) -> Result<Vec<u8>, Refusal> {
        write(&self.bytes(), ROOM)
    }
}

fn raw(nodes: &[(u8, u16, u16)], links: &[(u16, u16)], names: &[(u16, u16)], text: &[u8]) -> Raw {
    Raw {
        nodes: nodes
            .iter()
            .map(|(kind, a, b)| (*kind, 0, *a, *b))
            .collect(),
        links: links.to_vec(),
        names: names.to_vec(),
        text: text.to_vec(),
    }
}

#[test]
fn each_kind() {
    let cases: Vec<(Raw, Shape)> = vec![
        (raw(&[(0, 0, 0)], &[], &[], &[]), Shape::Int),
        (raw(&[(1, 0, 0)], &[], &[], &[]), Shape::Float),
        (raw(&[(2, 0, 0)], &[], &[], &[]), Shape::Bool),
        (raw(&[(3, 0, 0)], &[], &[], &[]), Shape::Str),
        (raw(&[(4, 0, 0)], &[], &[], &[]), Shape::Bytes),
        (raw(&[(10, 0, 0)], &[], &[], &[]), Shape::Variable(0)),
        (
            raw(&[(10, 65_535, 0)], &[], &[], &[]),
            Shape::Variable(65_535),
        ),
        (
            raw(&[(4, 0, 0), (5, 0, 1)], &[(0, 0)], &[], &[]),
            array(Shape::Bytes),
        ),
        (
            raw(
                &[(3, 0, 0), (2, 0, 0), (6, 0, 2)],
                &[(0, 0), (1, 0)],
                &[],
                &[],
            ),
            map(Shape::Str, Shape::Bool),
        ),
        (raw(&[(7, 0, 0)], &[], &[], &[]), record(&[])),
        (raw(&[(9, 0, 0)], &[], &[], &[]), symbol(&[])),
        (
            raw(&[(0, 0, 0), (8, 0, 1)], &[(0, 0)], &[], &[]),
            function(vec![], Shape::Int),
        ),
        (
            raw(
                &[(0, 0, 0), (1, 0, 0), (8, 0, 3)],
                &[(0, 0), (0, 0), (1, 0)],
                &[],
                &[],
            ),
            function(vec![Shape::Int, Shape::Int], Shape::Float),
        ),
        // Names may share text, links may share names, a Symbol may be the first node.
        (
            raw(
                &[(9, 0, 3)],
                &[(0, 1), (0, 0), (0, 1)],
                &[(0, 2), (1, 1), (2, 0)],
                b"ab",
            ),
            symbol(&["b", "ab", "b"]),
        ),
        (
            raw(
                &[(0, 0, 0), (7, 0, 2)],
                &[(0, 0), (0, 0)],
                &[(0, 2)],
                "é".as_bytes(),
            ),
            record(&[("é", Shape::Int), ("é", Shape::Int)]),
        ),
    ];
    for (table, shape) in cases {
        assert_eq!(table.write(), Ok(encode(&shape)), "{shape:?}");
    }
}

#[test]
fn broken_sections() {
    let cases: &[(&str, u32)] = &[
        // Node count missing, zero, over 6,144, entries past the end.
        ("", 0),
        ("01", 0),
        ("00 00 00 00 00 00 00 00", 0),
        ("01 18 00 00 00 00 00 00", 0),
        ("FF FF", 0),
        ("01 00", 0),
        ("01 00 00 00 00 00 00", 0),
        ("02 00 00 00 00 00 00 00 00 00 00 00 00", 0),
        // Link count.
        ("02 00 00 00 00 00 00 00 00 00 00 00 00 00", 14),
        ("01 00 00 00 00 00 00 00", 8),
        ("01 00 00 00 00 00 00 00 00", 8),
        ("01 00 00 00 00 00 00 00 01 18 00 00 00 00", 8),
        ("01 00 00 00 00 00 00 00 01 00", 8),
        ("01 00 00 00 00 00 00 00 01 00 00 00 00", 8),
        // Name count.
        ("01 00 00 00 00 00 00 00 00 00", 10),
        ("01 00 00 00 00 00 00 00 00 00 00", 10),
        ("01 00 00 00 00 00 00 00 00 00 01 08 00 00", 10),
        ("01 00 00 00 00 00 00 00 00 00 01 00 00 00 00", 10),
        ("01 00 00 00 00 00 00 00 01 00 00 00 00 00 01 00", 14),
        // Text count.
        ("01 00 00 00 00 00 00 00 00 00 00 00", 12),
        ("01 00 00 00 00 00 00 00 00 00 00 00 00", 12),
        ("01 00 00 00 00 00 00 00 00 00 00 00 01 00", 12),
        ("01 00 00 00 00 00 00 00 00 00 00 00 01 08", 12),
        ("01 00 00 00 00 00 00 00 00 00 01 00 00 00 00 00", 16),
        // Leftover bytes: the first.
        ("01 00 00 00 00 00 00 00 00 00 00 00 00 00 00", 14),
        ("01 00 00 00 00 00 00 00 00 00 00 00 01 00 61 62 63", 15),
        // 9 comes before 10 and 11.
        ("01 00 FF FF FF FF FF FF 00 00 00 00 00 00 00", 14),
    ];
    for (bytes, place) in cases {
        assert_eq!(write(&hex(bytes), 0), no(9, *place), "{bytes}");
    }
    // At the limits and one over.
    let mut table = raw(&[(0, 0, 0)], &[], &[], &[]);
    table.nodes = vec![(0, 0, 0, 0); 6_144];
    table.links = vec![(9, 9); 6_144];
    table.names = vec![(0, 2_048); 2_048];
    table.text = vec![b'x'; 2_048];
    assert_eq!(table.write(), Ok(hex("20")));
    let mut over = table.clone();
    over.nodes.push((0, 0, 0, 0));
    assert_eq!(over.write(), no(9, 0));
    let mut over = table.clone();
    over.links.push((0, 0));
    assert_eq!(over.write(), no(9, 2 + 6 * 6_144));
    let mut over = table.clone();
    over.names.push((0, 0));
    assert_eq!(over.write(), no(9, 4 + 10 * 6_144));
    let mut over = table.clone();
    over.text.push(b'x');
    assert_eq!(over.write(), no(9, 6 + 10 * 6_144 + 4 * 2_048));
}

#[test]
fn broken_nodes() {
    // Nodes 0 Int, 1 Bool, 2 under test, 3 Int; three links, two names.
    let with = |node: (u8, u8, u16, u16), links: &[(u16, u16)]| {
        let nodes = vec![(0, 0, 0, 0), (2, 0, 0, 0), node, (0, 0, 0, 0)];
        let table = Raw {
            nodes,
            links: links.to_vec(),
            names: vec![(0, 1), (1, 1)],
            text: b"ab".to_vec(),
        };
        table.write()
    };
    let zero = [(0, 0); 3];
    let good: &[(u8, u16, u16)] = &[
        (0, 0, 0),
        (4, 0, 0),
        (5, 0, 1),
        (5, 2, 1),
        (6, 0, 2),
        (6, 1, 2),
        (7, 0, 0),
        (7, 3, 0),
        (7, 0, 3),
        (8, 0, 1),
        (8, 0, 3),
        (9, 0, 0),
        (9, 3, 0),
        (9, 0, 3),
        (10, 0, 0),
        (10, 65_535, 0),
    ];
    for (kind, a, b) in good {
        assert_eq!(with((*kind, 0, *a, *b), &zero), Ok(hex("20")));
        // Unreached nodes are checked too; a second byte other than zero.
        assert_eq!(with((*kind, 1, *a, *b), &zero), no(10, 2));
        assert_eq!(with((*kind, 255, *a, *b), &zero), no(10, 2));
    }
    let bad: &[(u8, u16, u16)] = &[
        (0, 1, 0),
        (0, 0, 1),
        (4, 256, 0),
        (4, 0, 256),
        (5, 0, 0),
        (5, 0, 2),
        (5, 3, 1),
        (5, 65_535, 1),
        (6, 0, 1),
        (6, 0, 3),
        (6, 2, 2),
        (6, 65_535, 2),
        (7, 4, 0),
        (7, 0, 4),
        (7, 1, 3),
        (7, 65_535, 0),
        (7, 65_535, 1),
        (7, 65_535, 65_535),
        (8, 0, 0),
        (8, 3, 1),
        (8, 0, 4),
        (9, 4, 0),
        (9, 0, 4),
        (10, 0, 1),
        (10, 0, 65_535),
        (11, 0, 0),
        (255, 0, 0),
    ];
    for (kind, a, b) in bad {
        assert_eq!(with((*kind, 0, *a, *b), &zero), no(10, 2), "{kind} {a} {b}");
    }
    // Links: targets, names.
    type Links = [(u16, u16); 3];
    let good: &[(u8, u16, Links)] = &[
        (5, 1, [(1, 0), (9, 9), (9, 9)]),
        (6, 2, [(1, 0), (0, 0), (9, 9)]),
        (7, 3, [(1, 1), (0, 1), (1, 0)]),
        (8, 3, [(1, 0), (0, 0), (1, 0)]),
        (9, 3, [(0, 1), (0, 1), (0, 0)]),
        (9, 0, [(9, 9), (9, 9), (9, 9)]),
    ];
    for (kind, b, links) in good {
        assert_eq!(with((*kind, 0, 0, *b), links), Ok(hex("20")));
    }
    let bad: &[(u8, u16, Links)] = &[
        (5, 1, [(2, 0), (0, 0), (0, 0)]),
        (5, 1, [(3, 0), (0, 0), (0, 0)]),
        (5, 1, [(0, 1), (0, 0), (0, 0)]),
        (6, 2, [(0, 0), (2, 0), (0, 0)]),
        (6, 2, [(0, 0), (0, 1), (0, 0)]),
        (7, 3, [(0, 0), (0, 0), (2, 0)]),
        (7, 3, [(0, 0), (0, 0), (0, 2)]),
        (7, 3, [(0, 0), (0, 65_535), (0, 0)]),
        (8, 3, [(0, 0), (0, 0), (65_535, 0)]),
        (8, 3, [(0, 0), (0, 0), (0, 1)]),
        (9, 3, [(0, 0), (0, 0), (1, 0)]),
        (9, 3, [(0, 0), (0, 0), (0, 2)]),
    ];
    for (kind, b, links) in bad {
        assert_eq!(
            with((*kind, 0, 0, *b), links),
            no(10, 2),
            "{kind} {links:?}"
        );
    }
    // The first broken node; before 11 and what comes after.
    let table = raw(
        &[(0, 0, 0), (5, 0, 1), (5, 0, 0), (11, 0, 0)],
        &[(0, 0)],
        &[(9, 9)],
        b"",
    );
    assert_eq!(table.write(), no(10, 2));
    // Node 0 has no smaller target, but may be a Symbol; without names none may be named.
    assert_eq!(raw(&[(5, 0, 1)], &[(0, 0)], &[], b"").write(), no(10, 0));
    assert_eq!(raw(&[(9, 0, 1)], &[(0, 0)], &[], b"").write(), no(10, 0));
    assert_eq!(
        raw(&[(9, 0, 1)], &[(0, 0)], &[(0, 0)], b"").write(),
        Ok(hex("44 02 00 01 00"))
    );
}

#[test]
fn broken_names() {
    let with = |names: &[(u16, u16)], text: &[u8]| raw(&[(0, 0, 0)], &[], names, text).write();
    assert_eq!(
        with(&[(0, 0), (2, 0), (1, 1), (0, 2)], b"ab"),
        Ok(hex("20"))
    );
    // Range.
    assert_eq!(with(&[(0, 3)], b"ab"), no(11, 0));
    assert_eq!(with(&[(3, 0)], b"ab"), no(11, 0));
    assert_eq!(with(&[(0, 0), (2, 1)], b"ab"), no(11, 1));
    assert_eq!(with(&[(0, 0), (65_535, 1)], b"ab"), no(11, 1));
    assert_eq!(with(&[(0, 0), (65_535, 65_535)], b"ab"), no(11, 1));
    // UTF-8, name by name.
    assert_eq!(with(&[(0, 1)], b"\xFF"), no(11, 0));
    assert_eq!(with(&[(0, 2), (0, 1)], "é".as_bytes()), no(11, 1));
    assert_eq!(with(&[(0, 2), (1, 1)], "é".as_bytes()), no(11, 1));
    assert_eq!(with(&[(0, 1), (0, 9)], b"\xFF"), no(11, 0));
    assert_eq!(with(&[(0, 9), (0, 1)], b"\xFF"), no(11, 0));
    // Text that no name covers is not looked at.
    assert_eq!(with(&[(1, 1)], b"\xFFa\xFF"), Ok(hex("20")));
    // 11 comes before 15.
    let mut deep = chain(20, (0, 0, 0, 0));
    assert_eq!(deep.write(), no(15, 0));
    deep.names.push((0, 1));
    assert_eq!(deep.write(), no(11, 0));
}

/// `count` Arrays round this node.
fn chain(count: u16, inner: (u8, u8, u16, u16)) -> Raw {
    let mut table = Raw::default();
    table.nodes.push(inner);
    for index in 0..count {
        table.nodes.push((5, 0, index, 1));
        table.links.push((index, 0));
    }
    table
}

#[test]
fn depth_and_length_of_the_root() {
    let fifteen = chain(15, (0, 0, 0, 0));
    assert_eq!(fifteen.write(), Ok(encode(&arrays(15, Shape::Int))));
    assert_eq!(write(&fifteen.bytes(), 42), no(12, 43));
    assert_eq!(chain(16, (0, 0, 0, 0)).write(), no(15, 0));
    // 15 and 16 come before 12.
    assert_eq!(write(&chain(16, (0, 0, 0, 0)).bytes(), 0), no(15, 0));
    assert_eq!(chain(6_143, (0, 0, 0, 0)).write(), no(15, 0));
    // What is not reached has neither.
    let mut table = chain(6_142, (0, 0, 0, 0));
    table.nodes.push((3, 0, 0, 0));
    assert_eq!(table.write(), Ok(hex("23")));
    // 2,042 parameters fit, 2,043 do not.
    let wide = |count: u16| {
        let mut table = raw(&[(0, 0, 0), (8, 0, count + 1)], &[], &[], &[]);
        table.links = vec![(0, 0); usize::from(count) + 1];
        table
    };
    assert_eq!(wide(2_042).write().unwrap().len(), 2_048);
    assert_eq!(wide(2_043).write(), no(16, 0));
    assert_eq!(wide(6_143).write(), no(16, 0));
}

/// Maps of a node with itself: depth and length double without the table growing.
fn doubled(count: u16, inner: (u8, u8, u16, u16)) -> Raw {
    let mut table = Raw::default();
    table.nodes.push(inner);
    for index in 0..count {
        table.nodes.push((6, 0, 2 * index, 2));
        table.links.extend([(index, 0), (index, 0)]);
    }
    table
}

#[test]
fn shared_nodes() {
    let mut shape = Shape::Variable(3);
    for count in 1..=16 {
        shape = map(shape.clone(), shape);
        let expected = if count == 16 {
            no(15, 0)
        } else if encoded_len(&shape) > 2_048 {
            no(16, 0)
        } else {
            Ok(encode(&shape))
        };
        assert_eq!(doubled(count, (10, 0, 3, 0)).write(), expected);
    }
    assert_eq!(doubled(15, (0, 0, 0, 0)).write(), no(16, 0));
    // 2^3072 leaves; too deep as well.
    assert_eq!(doubled(3_072, (0, 0, 0, 0)).write(), no(15, 0));
    // Within the depth: 15 Functions, each with all the links on the one before. 400^15 is far
    // over 2^64.
    let mut table = Raw::default();
    table.nodes.push((0, 0, 0, 0));
    for index in 0..15 {
        table.nodes.push((8, 0, 400 * index, 400));
        table.links.extend([(index, 0); 400]);
    }
    assert_eq!(table.write(), no(16, 0));
    // The same below an unused node means nothing.
    table.nodes.push((2, 0, 0, 0));
    assert_eq!(table.write(), Ok(hex("22")));
}

#[test]
fn bytes_to_table() {
    // Faults of the reader, then 12.
    assert_eq!(to_table(&hex("FF"), 0), no(2, 0));
    assert_eq!(to_table(&hex("20 20"), 0), no(3, 1));
    assert_eq!(to_table(&[0; 2_049], 0), no(8, 2_048));
    assert_eq!(to_table(&hex("20"), 13), no(12, 14));
    assert_eq!(
        to_table(&hex("20"), 14),
        Ok(hex("01 00 00 00 00 00 00 00 00 00 00 00 00 00"))
    );
    // Packed children have nodes.
    let table = raw(
        &[(3, 0, 0), (2, 0, 0), (6, 0, 2)],
        &[(0, 0), (1, 0)],
        &[],
        &[],
    );
    assert_eq!(to_table(&hex("76"), ROOM), Ok(table.bytes()));
    // Nothing is shared; a long Variable.
    let shape = map(Shape::Variable(300), Shape::Variable(300));
    let table = raw(
        &[(10, 300, 0), (10, 300, 0), (6, 0, 2)],
        &[(0, 0), (1, 0)],
        &[],
        &[],
    );
    assert_eq!(to_table(&encode(&shape), ROOM), Ok(table.bytes()));
    // An empty Record or Symbol has the number of links so far as a.
    let shape = function(
        vec![array(Shape::Int), record(&[]), array(Shape::Int)],
        symbol(&[]),
    );
    let table = raw(
        &[
            (0, 0, 0),
            (5, 0, 1),
            (7, 1, 0),
            (0, 0, 0),
            (5, 1, 1),
            (9, 2, 0),
            (8, 2, 4),
        ],
        &[(0, 0), (3, 0), (1, 0), (2, 0), (4, 0), (5, 0)],
        &[],
        &[],
    );
    assert_eq!(to_table(&encode(&shape), ROOM), Ok(table.bytes()));
    // A Record's names and texts come after everything of its children; a Symbol's targets are 0.
    let shape = record(&[
        ("out", Shape::Int),
        ("in", record(&[("x", symbol(&["s", "", "tt"]))])),
        ("out", Shape::Variable(7)),
    ]);
    let table = raw(
        &[(0, 0, 0), (9, 0, 3), (7, 3, 1), (10, 7, 0), (7, 4, 3)],
        &[(0, 0), (0, 1), (0, 2), (1, 3), (0, 4), (2, 5), (3, 6)],
        &[(0, 1), (1, 0), (1, 2), (3, 1), (4, 3), (7, 2), (9, 3)],
        b"sttxoutinout",
    );
    assert_eq!(to_table(&encode(&shape), ROOM), Ok(table.bytes()));
}

#[test]
fn round_trips() {
    let mut random = Random(7);
    for _ in 0..5_000 {
        let bytes = encode(&random.fitting_shape());
        let table = to_table(&bytes, ROOM).unwrap();
        assert!(table.len() <= limits::TABLE_OF_AN_ENCODING);
        assert_eq!(write(&table, bytes.len()), Ok(bytes.clone()));
        assert_eq!(write(&table, bytes.len() - 1), no(12, bytes.len() as u32));
        let needed = table.len();
        assert_eq!(to_table(&bytes, needed), Ok(table));
        assert_eq!(to_table(&bytes, needed - 1), no(12, needed as u32));
    }
}

#[test]
fn largest_tables() {
    // As many packed Maps as there is room for: three nodes to the byte.
    let shape = function(
        vec![map(Shape::Int, Shape::Str); 2_042],
        map(Shape::Bool, Shape::Bool),
    );
    let bytes = encode(&shape);
    assert_eq!(bytes.len(), 2_048);
    let table = to_table(&bytes, ROOM).unwrap();
    assert_eq!(table.len(), 8 + 6 * (3 * 2_043 + 1) + 4 * (3 * 2_043));
    assert!(table.len() <= limits::TABLE_OF_AN_ENCODING);
    assert_eq!(write(&table, ROOM), Ok(bytes));
    // As many names as there is room for.
    let bytes = encode(&Shape::Symbol(vec![Vec::new(); 2_043]));
    assert_eq!(bytes.len(), 2_048);
    let table = to_table(&bytes, ROOM).unwrap();
    assert_eq!(write(&table, ROOM), Ok(bytes));
}

/// A random table with shared nodes, and the shape of its root, which is made beside it.
fn random_table(random: &mut Random) -> (Raw, Shape) {
    let mut table = Raw {
        text: "aé€𝄞".as_bytes().to_vec(),
        ..Raw::default()
    };
    let texts = ["a", "é", "€", "𝄞", "aé€𝄞", ""];
    table.names = vec![(0, 1), (1, 2), (3, 3), (6, 4), (0, 10), (10, 0)];
    let mut shapes: Vec<Shape> = Vec::new();
    for index in 0..1 + random.below(40) {
        let first = table.links.len() as u16;
        let kind = match random.below(10) {
            _ if index == 0 => *random.of(&[0, 1, 2, 3, 4, 9, 10]),
            0 => random.below(11) as u8,
            _ => *random.of(&[5, 5, 5, 6, 7, 8]),
        };
        let count = match kind {
            5 => 1,
            6 => 2,
            8 => 1 + random.below(4),
            7 | 9 => random.below(4),
            _ => 0,
        };
        let mut children = Vec::new();
        let mut names = Vec::new();
        for _ in 0..count {
            let mut target = 0;
            if kind != 9 {
                target = index - 1 - random.below(index.min(3));
                children.push(shapes[target].clone());
            }
            let mut name = 0;
            if kind == 7 || kind == 9 {
                name = random.below(6);
                names.push(texts[name].as_bytes().to_vec());
            }
            table.links.push((target as u16, name as u16));
        }
        let shape = match kind {
            5 => array(children[0].clone()),
            6 => map(children[0].clone(), children[1].clone()),
            7 => Shape::Record(names.into_iter().zip(children).collect()),
            8 => {
                let result = children.pop().unwrap();
                function(children, result)
            }
            9 => Shape::Symbol(names),
            10 => Shape::Variable(random.blank()),
            _ => model::shape::primitive(kind),
        };
        match &shape {
            Shape::Variable(number) => table.nodes.push((10, 0, *number, 0)),
            _ if kind < 5 => table.nodes.push((kind, 0, 0, 0)),
            _ => table.nodes.push((kind, 0, first, count as u16)),
        }
        let length = encoded_len(&shape);
        shapes.push(shape);
        // Enough: the trees grow too large to make.
        if length > 5_000 {
            break;
        }
    }
    (table, shapes.pop().unwrap())
}

#[test]
fn random_tables() {
    let mut random = Random(8);
    let mut seen = [0; 17];
    for _ in 0..5_000 {
        let (table, shape) = random_table(&mut random);
        let expected = if shape.depth() > 16 {
            no(15, 0)
        } else if encoded_len(&shape) > 2_048 {
            no(16, 0)
        } else {
            Ok(encode(&shape))
        };
        assert_eq!(table.write(), expected);
        seen[expected.err().map_or(0, |no| no.number) as usize] += 1;
    }
    for number in [0, 15, 16] {
        assert!(seen[number] > 100, "{seen:?}");
    }
}

/// What is written reads back, and its own table writes it again.
#[test]
fn spoiled_tables() {
    let mut random = Random(9);
    let mut seen = [0; 17];
    for _ in 0..10_000 {
        let bytes = random_table(&mut random).0.bytes();
        let bytes = random.spoiled(&bytes);
        match write(&bytes, ROOM) {
            Ok(encoding) => {
                seen[0] += 1;
                assert!(read(&encoding).is_ok());
                let own = to_table(&encoding, ROOM).unwrap();
                assert_eq!(write(&own, ROOM), Ok(encoding));
            }
            Err(refusal) => {
                seen[refusal.number as usize] += 1;
                assert!((9..=11).contains(&refusal.number) || refusal.place == 0);
            }
        }
    }
    for number in [0, 9, 10, 11] {
        assert!(seen[number] > 50, "{seen:?}");
    }
}

// ---------------------------------------------------------------------------------------------
// Nodes lent as records.

fn records(nodes: &[(u8, u16, u16)]) -> Vec<Record> {
    nodes
        .iter()
        .map(|&(kind, a, b)| Record { kind, a, b })
        .collect()
}

/// The same table as it is lent, where it can be: all its nodes are there, with zero as second
/// bytes. The rest is everything after them, right or wrong.
fn lent(table: &[u8]) -> Option<(Vec<Record>, &[u8])> {
    let count = usize::from(u16::from_le_bytes([*table.first()?, *table.get(1)?]));
    let nodes = table.get(2..2 + 6 * count)?.chunks_exact(6);
    if nodes.clone().any(|node| node[1] != 0) {
        return None;
    }
    let records = nodes
        .map(|node| Record {
            kind: node[0],
            a: u16::from_le_bytes([node[2], node[3]]),
            b: u16::from_le_bytes([node[4], node[5]]),
        })
        .collect();
    Some((records, &table[2 + 6 * count..]))
}

/// This table's nodes as records, and its rest.
fn write_lent(table: &Raw, room: usize) -> Result<Vec<u8>, Refusal> {
    let bytes = table.bytes();
    let (nodes, rest) = lent(&bytes).expect("it can be lent");
    assert_eq!(nodes.len(), table.nodes.len());
    write_records(&nodes, rest, room)
}

/// No links, no names, no text.
const NO_REST: [u8; 6] = [0; 6];

/// M4 of the bench card: its table's nodes and the rest, from byte 26 of 54.
const M4: &str = "42 07 00 02 01 61 20 01 62 62";
const M4_NODES: [(u8, u16, u16); 4] = [(0, 0, 0), (2, 0, 0), (5, 0, 1), (7, 1, 2)];
const M4_REST: &str = "03 00 01 00 00 00 00 00 00 00 02 00 01 00 \
    02 00 00 00 01 00 01 00 01 00 02 00 61 62";

#[test]
fn records_of_the_card() {
    let (nodes, rest) = (records(&M4_NODES), hex(M4_REST));
    assert_eq!(write_records(&nodes, &rest, 10), Ok(hex(M4)));
    assert_eq!(write_records(&nodes, &rest, usize::MAX), Ok(hex(M4)));
    assert_eq!(write_records(&nodes, &rest, 9), no(12, 10));
    assert_eq!(write_records(&nodes, &rest, 0), no(12, 10));
    let table = to_table(&hex(M4), ROOM).unwrap();
    assert_eq!(lent(&table), Some((nodes, &rest[..])));
    // a and b are two bytes each, low first.
    assert_eq!(
        write_records(&records(&[(10, 0x1234, 0)]), &NO_REST, ROOM),
        Ok(hex("45 02 00 34 12"))
    );
}

#[test]
fn number_of_records() {
    // None, whatever the rest: nothing, the sections of a good table, a whole table.
    let whole = to_table(&hex("20"), ROOM).unwrap();
    for rest in [&[][..], &NO_REST, &hex(M4_REST), &whole] {
        assert_eq!(write_records(&[], rest, ROOM), no(9, 0));
        assert_eq!(write_records(&[], rest, 0), no(9, 0));
    }
    // Ints, and M4's nodes over and over: good nodes for every number of them.
    let ints = vec![(0, 0, 0); 1_000_000];
    let cards: Vec<_> = M4_NODES.iter().copied().cycle().take(1_000_000).collect();
    let (ints, cards) = (records(&ints), records(&cards));
    let rest = hex(M4_REST);
    for count in [1, 4, 256, 6_143, 6_144] {
        assert_eq!(write_records(&ints[..count], &NO_REST, 1), Ok(hex("20")));
        if count % 4 == 0 {
            assert_eq!(write_records(&cards[..count], &rest, 10), Ok(hex(M4)));
        }
    }
    // Too many. From 65,537 on some wrap, in two bytes, to a number that would be good: 1, 4,
    // 6,144 and 1 again.
    let too_many = [
        6_145, 6_148, 10_000, 32_768, 65_535, 65_536, 65_537, 65_540, 71_680, 71_681, 131_072,
        131_073, 1_000_000,
    ];
    for count in too_many {
        for room in [0, ROOM, usize::MAX] {
            assert_eq!(write_records(&ints[..count], &NO_REST, room), no(9, 0));
            assert_eq!(write_records(&cards[..count], &rest, room), no(9, 0));
        }
        // This comes before every other fault: of the rest, of the nodes.
        let bad = vec![(255, 65_535, 65_535); count];
        assert_eq!(write_records(&records(&bad), &[], 0), no(9, 0));
        assert_eq!(write_records(&records(&bad), &rest, 0), no(9, 0));
        assert_eq!(write_records(&ints[..count], &[0; 7], 0), no(9, 0));
    }
    // With 65,536 x 6 bytes of nodes more, the same rest would stand at the same place, if places
    // wrapped.
    let mut wrapped = records(&M4_NODES);
    wrapped.extend(vec![ints[0]; 65_536]);
    assert_eq!(write_records(&wrapped, &rest, ROOM), no(9, 0));
    wrapped.rotate_left(4);
    assert_eq!(write_records(&wrapped, &rest, ROOM), no(9, 0));
}

#[test]
fn places_in_the_rest() {
    // Places from the start of the rest.
    let cases: &[(&str, usize)] = &[
        // Link count missing, over 6,144, entries past the end.
        ("", 0),
        ("00", 0),
        ("01 18 00 00 00 00", 0),
        ("FF FF 00 00 00 00", 0),
        ("01 00", 0),
        ("01 00 00 00 00", 0),
        // Name count.
        ("00 00", 2),
        ("00 00 00", 2),
        ("00 00 01 08 00 00", 2),
        ("00 00 01 00 00 00 00", 2),
        ("01 00 00 00 00 00", 6),
        ("02 00 00 00 00 00 00 00 00 00 01 00", 10),
        // Text count.
        ("00 00 00 00", 4),
        ("00 00 00 00 00", 4),
        ("00 00 00 00 01 00", 4),
        ("00 00 00 00 01 08", 4),
        ("00 00 01 00 00 00 00 00", 8),
        ("01 00 00 00 00 00 01 00 00 00 00 00 01 00", 12),
        // Leftover bytes: the first.
        ("00 00 00 00 00 00 00", 6),
        ("00 00 00 00 01 00 61 62 63", 7),
    ];
    for count in [1, 2, 3, 42, 43, 1_000, 6_144] {
        let start = 2 + 6 * count;
        for (rest, place) in cases {
            let place = (start + place) as u32;
            let rest = hex(rest);
            // 9 comes before 10, 11, 15, 16 and 12.
            for node in [(0, 0, 0), (11, 0, 0), (5, 0, 1)] {
                let nodes = records(&vec![node; count]);
                assert_eq!(write_records(&nodes, &rest, 0), no(9, place));
                assert_eq!(write_records(&nodes, &rest, ROOM), no(9, place));
            }
        }
        let nodes = records(&vec![(0, 0, 0); count]);
        assert_eq!(write_records(&nodes, &NO_REST, ROOM), Ok(hex("20")));
        // Much left over.
        let mut rest = NO_REST.to_vec();
        rest.resize(1_000_000, 0);
        let place = (start + 6) as u32;
        assert_eq!(write_records(&nodes, &rest, ROOM), no(9, place));
    }
    // At the limits and one over.
    let mut table = Raw {
        nodes: vec![(0, 0, 0, 0); 6_144],
        links: vec![(9, 9); 6_144],
        names: vec![(0, 2_048); 2_048],
        text: vec![b'x'; 2_048],
    };
    assert_eq!(write_lent(&table, ROOM), Ok(hex("20")));
    table.text.push(b'x');
    let place = 6 + 10 * 6_144 + 4 * 2_048;
    assert_eq!(write_lent(&table, ROOM), no(9, place));
    table.names.push((0, 0));
    assert_eq!(write_lent(&table, ROOM), no(9, 4 + 10 * 6_144));
    table.links.push((0, 0));
    assert_eq!(write_lent(&table, ROOM), no(9, 2 + 6 * 6_144));
    table.nodes.push((0, 0, 0, 0));
    assert_eq!(write_lent(&table, ROOM), no(9, 0));
}

#[test]
fn broken_records() {
    // Records 0 Int, 1 Bool, 2 under test, 3 Int; three links, two names.
    let with = |node: (u8, u16, u16), links: [(u16, u16); 3]| {
        let nodes = [(0, 0, 0), (2, 0, 0), node, (0, 0, 0)];
        let table = raw(&nodes, &links, &[(0, 1), (1, 1)], b"ab");
        write_lent(&table, ROOM)
    };
    let zero = [(0, 0); 3];
    // A kind over 10.
    for kind in 0..=255 {
        let b = match kind {
            5 | 8 => 1,
            6 => 2,
            _ => 0,
        };
        let expected = if kind > 10 { no(10, 2) } else { Ok(hex("20")) };
        assert_eq!(with((kind, 0, b), zero), expected, "{kind}");
    }
    // Numbers of links, a and b.
    let bad: &[(u8, u16, u16)] = &[
        (0, 1, 0),
        (0, 0, 1),
        (4, 256, 0),
        (4, 0, 256),
        (5, 0, 0),
        (5, 0, 2),
        (5, 3, 1),
        (6, 0, 1),
        (6, 2, 2),
        (7, 4, 0),
        (7, 65_535, 1),
        (7, 65_535, 65_535),
        (8, 0, 0),
        (8, 0, 4),
        (9, 4, 0),
        (9, 1, 3),
        (10, 0, 1),
        (10, 0, 256),
    ];
    for node in bad {
        assert_eq!(with(*node, zero), no(10, 2), "{node:?}");
    }
    // Targets and names.
    assert_eq!(with((5, 0, 1), [(1, 0), (9, 9), (9, 9)]), Ok(hex("20")));
    assert_eq!(with((5, 0, 1), [(2, 0), (0, 0), (0, 0)]), no(10, 2));
    assert_eq!(with((8, 0, 3), [(0, 0), (0, 0), (0, 1)]), no(10, 2));
    assert_eq!(with((7, 0, 3), [(0, 0), (1, 1), (0, 1)]), Ok(hex("20")));
    assert_eq!(with((7, 0, 3), [(0, 0), (1, 2), (0, 1)]), no(10, 2));
    assert_eq!(with((9, 0, 3), [(0, 0), (1, 0), (0, 1)]), no(10, 2));
    // The first broken record, up to the last of 6,144; before 11 and 12.
    for place in [0, 1, 255, 256, 6_142, 6_143] {
        let mut nodes = records(&[(0, 0, 0); 6_144]);
        nodes[place..].fill(Record {
            kind: 11,
            a: 0,
            b: 0,
        });
        let rest = hex("00 00 01 00 09 00 09 00 00 00");
        assert_eq!(write_records(&nodes, &rest, 0), no(10, place as u32));
    }
}

#[test]
fn names_beside_records() {
    let with = |names: &[(u16, u16)], text: &[u8]| {
        write_lent(&raw(&[(1, 0, 0), (0, 0, 0)], &[], names, text), 0)
    };
    // Range, then UTF-8, name by name; before 12.
    assert_eq!(with(&[(0, 2), (2, 0)], b"ab"), no(12, 1));
    assert_eq!(with(&[(0, 2), (2, 1)], b"ab"), no(11, 1));
    assert_eq!(with(&[(3, 0), (2, 1)], b"ab"), no(11, 0));
    assert_eq!(with(&[(0, 0), (65_535, 65_535)], b"ab"), no(11, 1));
    assert_eq!(with(&[(0, 0), (0, 2), (1, 1)], "é".as_bytes()), no(11, 2));
    // 10 comes before, 15 and 16 after.
    let mut deep = chain(20, (0, 0, 0, 0));
    deep.names.push((0, 1));
    assert_eq!(write_lent(&deep, 0), no(11, 0));
    deep.nodes[20].0 = 11;
    assert_eq!(write_lent(&deep, 0), no(10, 20));
}

#[test]
fn root_of_records() {
    // 15.
    let fifteen = encode(&arrays(15, Shape::Int));
    assert_eq!(write_lent(&chain(15, (0, 0, 0, 0)), 43), Ok(fifteen));
    for count in [16, 17, 6_143] {
        assert_eq!(write_lent(&chain(count, (0, 0, 0, 0)), 0), no(15, 0));
    }
    // 16: Symbols of one text of 2,042 and 2,043 letters.
    let letters = |count: u16| {
        let text = vec![b'a'; usize::from(count)];
        raw(&[(9, 0, 1)], &[(0, 0)], &[(0, count)], &text)
    };
    let made = write_lent(&letters(2_042), 2_048).unwrap();
    assert_eq!(made, encode(&symbol(&["a".repeat(2_042).as_str()])));
    assert_eq!(write_lent(&letters(2_043), 0), no(16, 0));
    assert_eq!(write_lent(&letters(2_043), ROOM), no(16, 0));
    // 15 comes before 16.
    assert_eq!(write_lent(&doubled(15, (0, 0, 0, 0)), 0), no(16, 0));
    assert_eq!(write_lent(&doubled(16, (0, 0, 0, 0)), 0), no(15, 0));
    // 12, after all the others.
    assert_eq!(write_lent(&chain(15, (0, 0, 0, 0)), 42), no(12, 43));
    assert_eq!(write_lent(&letters(2_042), 2_047), no(12, 2_048));
    assert_eq!(write_lent(&letters(2_042), 0), no(12, 2_048));
}

/// > the answer and places are those of the same table in bytes
#[test]
fn records_and_the_same_table() {
    // Answers whether it can be lent at all.
    fn agree(table: &[u8]) -> bool {
        let Some((nodes, rest)) = lent(table) else {
            return false;
        };
        let expected = write(table, ROOM);
        if let Ok(encoding) = &expected {
            for room in [0, encoding.len() - 1, encoding.len()] {
                assert_eq!(write_records(&nodes, rest, room), write(table, room));
            }
        }
        assert_eq!(write_records(&nodes, rest, ROOM), expected);
        true
    }
    let node = (0, 0, 0, 0);
    let mut tables = vec![
        raw(&[(0, 0, 0)], &[], &[], &[]),
        raw(&[(7, 0, 0)], &[], &[], &[]),
        raw(&[(10, 65_535, 0)], &[], &[], &[]),
        raw(&[(9, 0, 2)], &[(0, 1), (0, 0)], &[(0, 2), (1, 1)], b"ab"),
        raw(&[(9, 0, 2)], &[(0, 1), (0, 0)], &[(0, 2), (1, 2)], b"ab"),
        raw(&[(8, 0, 1)], &[(0, 0)], &[], &[]),
        raw(&[], &[], &[], &[]),
    ];
    tables.extend([1, 15, 16, 6_143].map(|count| chain(count, node)));
    tables.extend([1, 8, 14, 15, 16, 3_072].map(|count| doubled(count, node)));
    for count in [0, 1, 6_143, 6_144, 6_145, 10_000, 65_535] {
        tables.push(Raw {
            nodes: vec![node; count],
            ..Raw::default()
        });
    }
    for table in tables {
        assert!(agree(&table.bytes()));
    }
    // Every table that is cut short behind its nodes.
    let table = to_table(&hex(M4), ROOM).unwrap();
    for length in 26..=table.len() {
        assert!(agree(&table[..length]), "{length}");
    }
    // Tables of random shapes, with shared nodes, and spoiled.
    let mut random = Random(10);
    for _ in 0..1_000 {
        let bytes = encode(&random.fitting_shape());
        assert!(agree(&to_table(&bytes, ROOM).unwrap()));
    }
    let mut seen = [0; 17];
    for _ in 0..10_000 {
        let whole = random_table(&mut random).0.bytes();
        assert!(agree(&whole));
        let spoiled = random.spoiled(&whole);
        for table in [whole, spoiled] {
            if agree(&table) {
                seen[write(&table, ROOM).err().map_or(0, |no| no.number) as usize] += 1;
            }
        }
    }
    for number in [0, 9, 10, 11, 15, 16] {
        assert!(seen[number] > 50, "{seen:?}");
    }
}
