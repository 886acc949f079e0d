//! Node tables through the safe crate: the bench card, the sizes at their limits, every refusal, every
//! byte of the lent buffer, nodes as records, and tables as Rust values.

use shiulbart::{
    read, table, table_to_vec, write, write_records, write_records_to_vec, write_to_vec, Link,
    Node, NodeId, NodeRecord, Primitive, Refusal, RefusalKind, Table, TableError,
};
use RefusalKind::*;

/// M4 of the bench card, a Record of `a`, an Int, and `b`, an Array of Bool, and its table.
const M4: [u8; 10] = [0x42, 7, 0, 2, 1, b'a', 0x20, 1, b'b', 0x62];
const M4_TABLE: [u8; 54] = [
    0x04, 0x00, 0x00, 0x00, 0x00, 0x00, 0x00, 0x00, 0x02, 0x00, 0x00, 0x00, 0x00, 0x00, 0x05, 0x00,
    0x00, 0x00, 0x01, 0x00, 0x07, 0x00, 0x01, 0x00, 0x02, 0x00, 0x03, 0x00, 0x01, 0x00, 0x00, 0x00,
    0x00, 0x00, 0x00, 0x00, 0x02, 0x00, 0x01, 0x00, 0x02, 0x00, 0x00, 0x00, 0x01, 0x00, 0x01, 0x00,
    0x01, 0x00, 0x02, 0x00, 0x61, 0x62,
];

/// A table before it is bytes. Each part of it may be wrong.
#[derive(Clone, Default)]
struct Raw {
    /// kind, second byte, a, b
    nodes: Vec<(u8, u8, u16, u16)>,
    links: Vec<(u16, u16)>,
    names: Vec<(u16, u16)>,
    text: Vec<u8>,
}

impl Raw {
    fn new(nodes: &[(u8, u16, u16)], links: &[(u16, u16)], names: &[(u16, u16)]) -> Raw {
        Raw {
            nodes: nodes.iter().map(|&(kind, a, b)| (kind, 0, a, b)).collect(),
            links: links.to_vec(),
            names: names.to_vec(),
            text: Vec::new(),
        }
    }

    fn text(mut self, text: &[u8]) -> Raw {
        self.text = text.to_vec();
        self
    }

    /// Where the count of each section is: of nodes, links, names and text.
    fn counts(&self) -> [usize; 4] {
        let links = 2 + 6 * self.nodes.len();
        let names = links + 2 + 4 * self.links.len();
        [0, links, names, names + 2 + 4 * self.names.len()]
    }

    fn bytes(&self) -> Vec<u8> {
        let mut bytes = (self.nodes.len() as u16).to_le_bytes().to_vec();
        for (kind, second, a, b) in &self.nodes {
            bytes.extend([*kind, *second]);
            bytes.extend(a.to_le_bytes());
            bytes.extend(b.to_le_bytes());
        }
        for pairs in [&self.links, &self.names] {
            bytes.extend((pairs.len() as u16).to_le_bytes());
            for (one, other) in pairs {
                bytes.extend(one.to_le_bytes());
                bytes.extend(other.to_le_bytes());
            }
        }
        bytes.extend((self.text.len() as u16).to_le_bytes());
        bytes.extend(&self.text);
        bytes
    }

    #[track_caller]
    fn gives(&self, encoding: &[u8]) {
        gives(WRITE, &self.bytes(), encoding);
    }

    #[track_caller]
    fn refused(&self, kind: RefusalKind, place: usize) {
        refuses(WRITE, &self.bytes(), kind, place);
    }
}

/// A buffer whose bytes tell their place.
fn pattern(length: usize) -> Vec<u8> {
    (0..length)
        .map(|place| (place * 7 + place / 256 + 3) as u8)
        .collect()
}

type Call = fn(&[u8], &mut [u8]) -> Result<usize, Refusal>;
type ToVec = fn(&[u8]) -> Result<Vec<u8>, Refusal>;
const WRITE: (Call, ToVec) = (write_both_ways, write_both_ways_to_vec);
const TABLE: (Call, ToVec) = (table, table_to_vec);

/// The nodes of a table in bytes as records, and the rest of it: if all nodes are there, and have
/// second bytes of 0.
fn records(bytes: &[u8]) -> Option<(Vec<NodeRecord>, &[u8])> {
    let two = |entry: &[u8], at: usize| u16::from_le_bytes([entry[at], entry[at + 1]]);
    let count = two(bytes.get(..2)?, 0) as usize;
    let nodes = bytes.get(2..2 + 6 * count)?.chunks_exact(6);
    let record = |node: &[u8]| {
        let record = NodeRecord::new(node[0], two(node, 2), two(node, 4));
        (node[1] == 0).then_some(record)
    };
    let nodes: Option<Vec<NodeRecord>> = nodes.map(record).collect();
    Some((nodes?, &bytes[2 + 6 * count..]))
}

/// `write`, and `write_records` where the nodes can be records: it says the same, and leaves the same
/// buffer.
fn write_both_ways(bytes: &[u8], out: &mut [u8]) -> Result<usize, Refusal> {
    let mut other = out.to_vec();
    let told = write(bytes, out);
    if let Some((nodes, rest)) = records(bytes) {
        assert_eq!(write_records(&nodes, rest, &mut other), told);
        assert!(other == out, "another buffer, of {} bytes", out.len());
    }
    told
}

fn write_both_ways_to_vec(bytes: &[u8]) -> Result<Vec<u8>, Refusal> {
    let told = write_to_vec(bytes);
    if let Some((nodes, rest)) = records(bytes) {
        assert_eq!(write_records_to_vec(&nodes, rest), told);
    }
    told
}

/// The answer, with buffers of each length that matters.
#[track_caller]
fn gives((call, to_vec): (Call, ToVec), bytes: &[u8], answer: &[u8]) {
    let needed = answer.len();
    for room in [
        0,
        1,
        needed / 2,
        needed - 1,
        needed,
        needed + 1,
        needed + 5000,
    ] {
        let mut out = pattern(room);
        let told = call(bytes, &mut out);
        if room < needed {
            assert_eq!(told, Err(Refusal::new(BufferShort, needed as u32)));
            assert!(
                out == pattern(room),
                "changed by a refusal, of {room} bytes"
            );
        } else {
            assert_eq!(told, Ok(needed));
            assert!(&out[..needed] == answer, "{:02X?}", &out[..needed]);
            assert!(
                out[needed..] == pattern(room)[needed..],
                "changed past the answer"
            );
        }
    }
    assert_eq!(to_vec(bytes).as_deref(), Ok(answer));
}

/// The refusal, whatever buffer is lent; it is unchanged.
#[track_caller]
fn refuses((call, to_vec): (Call, ToVec), bytes: &[u8], kind: RefusalKind, place: usize) {
    let refusal = Refusal::new(kind, place as u32);
    for room in [0, 1, 2047, 2048, 2049, 70_000] {
        let mut out = pattern(room);
        assert_eq!(call(bytes, &mut out), Err(refusal));
        assert!(
            out == pattern(room),
            "changed by a refusal, of {room} bytes"
        );
    }
    assert_eq!(to_vec(bytes), Err(refusal));
}

fn long(first: u8, payload: &[u8]) -> Vec<u8> {
    let size = (payload.len() as u16).to_le_bytes();
    [&[first], &size[..], payload].concat()
}

/// So many Arrays round a shape that is no primitive.
fn arrays(count: usize, inner: &[u8]) -> Vec<u8> {
    (0..count).fold(inner.to_vec(), |inner, _| long(0x40, &inner))
}

/// A Symbol of one text of so many letters, 128 or more.
fn symbol(letters: usize) -> Vec<u8> {
    let head = [1, letters as u8 | 128, (letters >> 7) as u8];
    long(0x44, &[&head[..], &vec![b'a'; letters]].concat())
}

/// So many Arrays round a node.
fn chain(count: u16, inner: (u8, u8, u16, u16)) -> Raw {
    let mut raw = Raw::default();
    raw.nodes.push(inner);
    for index in 0..count {
        raw.nodes.push((5, 0, index, 1));
        raw.links.push((index, 0));
    }
    raw
}

// -------------------------------------------------------------------------------------------------
// The calls

#[test]
fn m4_both_ways() {
    gives(WRITE, &M4_TABLE, &M4);
    gives(TABLE, &M4, &M4_TABLE);
}

#[test]
fn each_kind() {
    for (kind, byte) in (0..5).zip(0x20..) {
        let raw = Raw::new(&[(kind, 0, 0)], &[], &[]);
        raw.gives(&[byte]);
        gives(TABLE, &[byte], &raw.bytes());
    }
    for number in [0, 1, 31, 32, 255, 256, 65_535] {
        let raw = Raw::new(&[(10, number, 0)], &[], &[]);
        let encoding = match number {
            0..=31 => vec![number as u8],
            _ => long(0x45, &number.to_le_bytes()),
        };
        raw.gives(&encoding);
        gives(TABLE, &encoding, &raw.bytes());
    }
    // Arrays of each primitive and of a blank, and a Map of each two
    for kind in 0..5 {
        let raw = Raw::new(&[(kind, 0, 0), (5, 0, 1)], &[(0, 0)], &[]);
        raw.gives(&[0x60 + kind]);
        gives(TABLE, &[0x60 + kind], &raw.bytes());
        for value in 0..5 {
            let nodes = [(kind, 0, 0), (value, 0, 0), (6, 0, 2)];
            let raw = Raw::new(&nodes, &[(0, 0), (1, 0)], &[]);
            raw.gives(&[101 + 5 * kind + value]);
            gives(TABLE, &[101 + 5 * kind + value], &raw.bytes());
        }
    }
    let raw = Raw::new(&[(10, 7, 0), (5, 0, 1)], &[(0, 0)], &[]);
    raw.gives(&[0x40, 1, 0, 7]);
    gives(TABLE, &[0x40, 1, 0, 7], &raw.bytes());
    // a Map of a primitive and a blank
    let raw = Raw::new(&[(0, 0, 0), (10, 7, 0), (6, 0, 2)], &[(0, 0), (1, 0)], &[]);
    raw.gives(&[0x41, 2, 0, 0x20, 7]);
    gives(TABLE, &[0x41, 2, 0, 0x20, 7], &raw.bytes());
    // Functions: no parameter, and two; the return last
    Raw::new(&[(0, 0, 0), (8, 0, 1)], &[(0, 0)], &[]).gives(&[0x43, 2, 0, 0, 0x20]);
    Raw::new(
        &[(0, 0, 0), (1, 0, 0), (8, 0, 3)],
        &[(0, 0), (0, 0), (1, 0)],
        &[],
    )
    .gives(&[0x43, 4, 0, 2, 0x20, 0x20, 0x21]);
    // empty lists
    Raw::new(&[(7, 0, 0)], &[], &[]).gives(&[0x42, 1, 0, 0]);
    Raw::new(&[(9, 0, 0)], &[], &[]).gives(&[0x44, 1, 0, 0]);
}

#[test]
fn names_share_text_and_links_share_names() {
    let raw = Raw::new(
        &[(9, 0, 3)],
        &[(0, 1), (0, 0), (0, 1)],
        &[(0, 2), (1, 1), (2, 0)],
    );
    raw.text(b"ab")
        .gives(&long(0x44, &[3, 1, b'b', 2, b'a', b'b', 1, b'b']));
    let raw = Raw::new(&[(0, 0, 0), (7, 0, 2)], &[(0, 0), (0, 0)], &[(0, 2)]);
    raw.text("é".as_bytes())
        .gives(&long(0x42, &[2, 2, 0xC3, 0xA9, 0x20, 2, 0xC3, 0xA9, 0x20]));
}

#[test]
fn nodes_share_children_and_links() {
    // a Record and a Symbol with the same links, in a Map
    let raw = Raw::new(
        &[(10, 3, 0), (7, 0, 1), (9, 0, 1), (6, 1, 2)],
        &[(0, 0), (1, 0), (2, 0)],
        &[(0, 1)],
    );
    let record = long(0x42, &[1, 1, b'n', 3]);
    let symbol = long(0x44, &[1, 1, b'n']);
    raw.text(b"n")
        .gives(&long(0x41, &[record, symbol].concat()));
}

#[test]
fn sections_broken() {
    let raw = Raw::new(
        &[(0, 0, 0), (5, 0, 1)],
        &[(0, 0), (9, 9)],
        &[(0, 1), (1, 0)],
    )
    .text(b"n");
    raw.gives(&[0x60]);
    let (bytes, counts) = (raw.bytes(), raw.counts());
    // cut at each place: the section that is not whole
    for cut in 0..bytes.len() {
        let section = counts.iter().rposition(|&count| count <= cut).unwrap();
        refuses(WRITE, &bytes[..cut], SectionBroken, counts[section]);
    }
    // left over
    for more in [1, 2, 5, 100_000] {
        let more = [&bytes[..], &vec![0xFF; more]].concat();
        refuses(WRITE, &more, SectionBroken, bytes.len());
    }
    // a count that promises too much
    for (section, &place) in counts.iter().enumerate() {
        for count in [0xFFFFu16, 0x1801, 0x1800, 0x0801, 0x00FF] {
            let mut bytes = bytes.clone();
            bytes[place..place + 2].copy_from_slice(&count.to_le_bytes());
            refuses(WRITE, &bytes, SectionBroken, counts[section]);
        }
    }
    // no nodes
    refuses(WRITE, &[0; 8], SectionBroken, 0);
    refuses(WRITE, &[0; 70_000], SectionBroken, 0);
    // before a broken node and a broken name
    let raw = Raw::new(&[(11, 0, 0)], &[], &[(9, 9)]);
    raw.refused(NodeBroken, 0);
    refuses(WRITE, &[&raw.bytes()[..], &[0]].concat(), SectionBroken, 18);
}

#[test]
fn sizes_at_their_limits() {
    let most = Raw {
        nodes: vec![(0, 0, 0, 0); 6144],
        links: vec![(9, 9); 6144],
        names: vec![(0, 2048); 2048],
        text: vec![b'x'; 2048],
    };
    assert_eq!(most.bytes().len(), 71_688);
    most.gives(&[0x20]);
    let counts = most.counts();
    let mut over = most.clone();
    over.nodes.push((0, 0, 0, 0));
    over.refused(SectionBroken, counts[0]);
    let mut over = most.clone();
    over.links.push((0, 0));
    over.refused(SectionBroken, counts[1]);
    let mut over = most.clone();
    over.names.push((0, 0));
    over.refused(SectionBroken, counts[2]);
    let mut over = most.clone();
    over.text.push(b'x');
    over.refused(SectionBroken, counts[3]);
}

/// Nodes 0 Int, 1 Bool, 2 this one, 3 Str; three links, two names.
fn with(node: (u8, u8, u16, u16), links: [(u16, u16); 3]) -> Raw {
    Raw {
        nodes: vec![(0, 0, 0, 0), (2, 0, 0, 0), node, (3, 0, 0, 0)],
        links: links.to_vec(),
        names: vec![(0, 1), (1, 1)],
        text: b"ab".to_vec(),
    }
}

#[test]
fn nodes_broken() {
    let zero = [(0, 0); 3];
    for (kind, a, b) in [
        (0, 0, 0),
        (4, 0, 0),
        (5, 2, 1),
        (6, 1, 2),
        (7, 0, 0),
        (7, 3, 0),
        (7, 0, 3),
        (8, 0, 1),
        (8, 0, 3),
        (9, 3, 0),
        (9, 0, 3),
        (10, 65_535, 0),
    ] {
        // the root does not reach it
        with((kind, 0, a, b), zero).gives(&[0x23]);
        with((kind, 1, a, b), zero).refused(NodeBroken, 2);
        with((kind, 0x80, a, b), zero).refused(NodeBroken, 2);
    }
    for (kind, a, b) in [
        (0, 1, 0),
        (0, 0, 1),
        (4, 256, 0),
        (4, 0, 256),
        (5, 0, 0),
        (5, 0, 2),
        (5, 3, 1),
        (5, 65_535, 1),
        (6, 0, 1),
        (6, 0, 3),
        (6, 2, 2),
        (7, 4, 0),
        (7, 0, 4),
        (7, 1, 3),
        (7, 65_535, 1),
        (7, 65_535, 65_535),
        (8, 0, 0),
        (8, 3, 1),
        (8, 0, 4),
        (9, 4, 0),
        (9, 0, 4),
        (9, 65_533, 3),
        (10, 0, 1),
        (10, 0, 65_535),
        (11, 0, 0),
        (255, 0, 0),
    ] {
        with((kind, 0, a, b), zero).refused(NodeBroken, 2);
    }
}

#[test]
fn links_of_a_node_broken() {
    for (kind, b, links) in [
        (5, 1, [(1, 0), (9, 9), (9, 9)]),
        (6, 2, [(1, 0), (0, 0), (9, 9)]),
        (7, 3, [(1, 1), (0, 1), (1, 0)]),
        (8, 3, [(1, 0), (0, 0), (1, 0)]),
        (9, 3, [(0, 1), (0, 1), (0, 0)]),
        (9, 0, [(9, 9), (9, 9), (9, 9)]),
    ] {
        with((kind, 0, 0, b), links).gives(&[0x23]);
    }
    for (kind, b, links) in [
        (5, 1, [(2, 0), (0, 0), (0, 0)]),
        (5, 1, [(3, 0), (0, 0), (0, 0)]),
        (5, 1, [(0, 1), (0, 0), (0, 0)]),
        (6, 2, [(0, 0), (2, 0), (0, 0)]),
        (6, 2, [(0, 0), (0, 1), (0, 0)]),
        (7, 3, [(0, 0), (0, 0), (2, 0)]),
        (7, 3, [(0, 0), (0, 0), (0, 2)]),
        (7, 3, [(0, 0), (0, 65_535), (0, 0)]),
        (8, 3, [(0, 0), (0, 0), (65_535, 0)]),
        (8, 3, [(0, 0), (0, 0), (0, 1)]),
        (9, 3, [(0, 0), (0, 0), (1, 0)]),
        (9, 3, [(0, 0), (0, 0), (0, 2)]),
    ] {
        with((kind, 0, 0, b), links).refused(NodeBroken, 2);
    }
    // node 0 has no target, but may be a Symbol
    Raw::new(&[(5, 0, 1)], &[(0, 0)], &[]).refused(NodeBroken, 0);
    Raw::new(&[(9, 0, 1)], &[(0, 0)], &[]).refused(NodeBroken, 0);
    Raw::new(&[(9, 0, 1)], &[(0, 0)], &[(0, 0)]).gives(&[0x44, 2, 0, 1, 0]);
    // the first, and before the names
    Raw::new(
        &[(0, 0, 0), (5, 0, 1), (5, 0, 0), (11, 0, 0)],
        &[(0, 0)],
        &[(9, 9)],
    )
    .refused(NodeBroken, 2);
}

#[test]
fn names_broken() {
    let with = |names: &[(u16, u16)], text: &[u8]| Raw::new(&[(0, 0, 0)], &[], names).text(text);
    with(&[(0, 0), (2, 0), (1, 1), (0, 2)], b"ab").gives(&[0x20]);
    for bad in [(0, 3), (3, 0), (2, 1), (65_535, 1), (65_535, 65_535)] {
        with(&[bad], b"ab").refused(NameBroken, 0);
        with(&[(0, 2), bad, bad], b"ab").refused(NameBroken, 1);
    }
    with(&[(0, 1)], b"\xFF").refused(NameBroken, 0);
    with(&[(0, 2), (0, 1)], "é".as_bytes()).refused(NameBroken, 1);
    with(&[(0, 2), (1, 1)], "é".as_bytes()).refused(NameBroken, 1);
    // name by name
    with(&[(0, 1), (0, 9)], b"\xFF").refused(NameBroken, 0);
    with(&[(0, 9), (0, 1)], b"\xFF").refused(NameBroken, 0);
    // text that no name covers is not looked at
    with(&[(1, 1)], b"\xFFa\xFF").gives(&[0x20]);
    // before 15
    let mut deep = chain(20, (0, 0, 0, 0));
    deep.refused(MadeTooDeep, 0);
    deep.names.push((0, 1));
    deep.refused(NameBroken, 0);
}

#[test]
fn depth_16_and_17() {
    let fifteen = arrays(14, &[0x60]);
    assert_eq!(fifteen.len(), 43);
    chain(15, (0, 0, 0, 0)).gives(&fifteen);
    gives(TABLE, &fifteen, &chain(15, (0, 0, 0, 0)).bytes());
    chain(16, (0, 0, 0, 0)).refused(MadeTooDeep, 0);
    chain(15, (10, 0, 7, 0)).gives(&arrays(15, &[7]));
    chain(16, (10, 0, 7, 0)).refused(MadeTooDeep, 0);
    chain(6143, (10, 0, 7, 0)).refused(MadeTooDeep, 0);
    // what is not reached has no depth
    let mut raw = chain(6142, (0, 0, 0, 0));
    raw.nodes.push((3, 0, 0, 0));
    raw.gives(&[0x23]);
    // an empty Record and a Symbol have depth 1
    chain(15, (7, 0, 0, 0)).gives(&arrays(15, &[0x42, 1, 0, 0]));
    chain(15, (9, 0, 0, 0)).gives(&arrays(15, &[0x44, 1, 0, 0]));
}

#[test]
fn length_2048_and_2049() {
    let of = |letters: u16| {
        Raw::new(&[(9, 0, 1)], &[(0, 0)], &[(0, letters)]).text(&vec![b'a'; letters.into()])
    };
    let longest = symbol(2042);
    assert_eq!(longest.len(), 2048);
    of(2042).gives(&longest);
    gives(TABLE, &longest, &of(2042).bytes());
    of(2043).refused(MadeTooLong, 0);
    of(2048).refused(MadeTooLong, 0);
    refuses(TABLE, &symbol(2043), InputTooLong, 2048);
    // parameters of one byte
    let wide = |count: u16| {
        let mut raw = Raw::new(&[(0, 0, 0), (8, 0, count + 1)], &[], &[]);
        raw.links = vec![(0, 0); count as usize + 1];
        raw
    };
    assert_eq!(write_to_vec(&wide(2042).bytes()).unwrap().len(), 2048);
    wide(2043).refused(MadeTooLong, 0);
    wide(6143).refused(MadeTooLong, 0);
    // 15 comes before 16
    let mut both = chain(16, (8, 0, 16, 2043));
    both.nodes.insert(0, (0, 0, 0, 0));
    both.links = (1..17).map(|target| (target, 0)).collect();
    both.links.extend([(0, 0); 2043]);
    both.refused(MadeTooDeep, 0);
    both.nodes.truncate(both.nodes.len() - 3);
    both.refused(MadeTooLong, 0);
}

/// Maps of a node with itself: what they mean doubles, and the table does not.
fn doubled(count: u16, inner: (u8, u8, u16, u16)) -> Raw {
    let mut raw = Raw::default();
    raw.nodes.push(inner);
    for index in 0..count {
        raw.nodes.push((6, 0, 2 * index, 2));
        raw.links.extend([(index, 0), (index, 0)]);
    }
    raw
}

#[test]
fn sharing_is_written_out() {
    let mut encoding = vec![3];
    for count in 0..=15 {
        let raw = doubled(count, (10, 0, 3, 0));
        match encoding.len() {
            0..=2048 => raw.gives(&encoding),
            _ => raw.refused(MadeTooLong, 0),
        }
        encoding = long(0x41, &[&encoding[..], &encoding].concat());
        encoding.truncate(5000);
    }
    doubled(16, (10, 0, 3, 0)).refused(MadeTooDeep, 0);
    // 2^39 blanks, 2^3072 blanks
    doubled(39, (10, 0, 3, 0)).refused(MadeTooDeep, 0);
    doubled(3072, (10, 0, 3, 0)).refused(MadeTooDeep, 0);
    // 15 Functions that have the one before 400 times: 400^15 Ints
    let mut raw = Raw::new(&[(0, 0, 0)], &[], &[]);
    for index in 0..15 {
        raw.nodes.push((8, 0, 400 * index, 400));
        raw.links.extend([(index, 0); 400]);
    }
    raw.refused(MadeTooLong, 0);
    // below an unused node it means nothing
    raw.nodes.push((2, 0, 0, 0));
    raw.gives(&[0x22]);
}

/// 38 million steps, and no more: each node is looked at once, with all of its links.
#[test]
fn nodes_times_links() {
    let mut raw = Raw::new(&[(0, 0, 0)], &[], &[(0, 0)]);
    raw.nodes.resize(6144, (7, 0, 0, 6144));
    raw.links = vec![(0, 0); 6144];
    let mut out = pattern(2048);
    let refusal = Refusal::new(MadeTooLong, 0);
    assert_eq!(write(&raw.bytes(), &mut out), Err(refusal));
    assert!(out == pattern(2048), "changed by a refusal");
}

/// Sums of 2^16 and 2^32 bytes and a little more are no short ones.
#[test]
fn lengths_do_not_wrap() {
    // a Symbol of 2,048 bytes, 32 times: 65,540
    let mut raw = Raw::new(&[(9, 0, 1), (8, 1, 32)], &[(0, 0)], &[(0, 2042)]);
    raw.text = vec![b'a'; 2042];
    raw.links.extend([(0, 0); 32]);
    raw.refused(MadeTooLong, 0);
    // 2^22 bytes of Symbols and blanks, 1,024 times
    let mut raw = Raw::new(&[(9, 0, 1), (10, 0, 0)], &[(0, 0)], &[(0, 2042)]);
    raw.text = vec![b'a'; 2042];
    raw.links.extend([(0, 0); 2047]);
    raw.links.extend([(1, 0); 2048 - 5]);
    raw.nodes.push((8, 0, 1, 2047 + 2043));
    raw.nodes.push((8, 0, 1 + 2047 + 2043, 1024));
    raw.links.extend([(2, 0); 1024]);
    raw.refused(MadeTooLong, 0);
}

#[test]
fn a_bad_encoding_has_no_table() {
    for (bytes, kind, place) in [
        (&[][..], CutShort, 0),
        (&[0xA0], NotAssigned, 0),
        (&[0x20, 0x20], SizeWrong, 1),
        (&[0x44, 3, 0, 0x81, 0, 0], Leb128Wrong, 3),
        (&[0x44, 3, 0, 1, 1, 0xFF], NotUtf8, 5),
        (&[0x40, 1, 0, 0x20], LongForm, 0),
        (&arrays(16, &[0]), TooDeep, 48),
        (&[0; 2049], InputTooLong, 2048),
    ] {
        assert_eq!(read(bytes).unwrap_err(), Refusal::new(kind, place as u32));
        refuses(TABLE, bytes, kind, place);
    }
}

#[test]
fn the_way_back_shares_nothing() {
    // a Map of blank 300 to itself, and an Array of it
    let blank = long(0x45, &300u16.to_le_bytes());
    let encoding = arrays(1, &long(0x41, &[&blank[..], &blank].concat()));
    let raw = Raw::new(
        &[(10, 300, 0), (10, 300, 0), (6, 0, 2), (5, 2, 1)],
        &[(0, 0), (1, 0), (2, 0)],
        &[],
    );
    gives(TABLE, &encoding, &raw.bytes());
    // an empty Record or Symbol has the number of links so far as a
    let encoding = long(0x43, &[3, 0x60, 0x42, 1, 0, 0, 0x60, 0x44, 1, 0, 0]);
    let raw = Raw::new(
        &[
            (0, 0, 0),
            (5, 0, 1),
            (7, 1, 0),
            (0, 0, 0),
            (5, 1, 1),
            (9, 2, 0),
            (8, 2, 4),
        ],
        &[(0, 0), (3, 0), (1, 0), (2, 0), (4, 0), (5, 0)],
        &[],
    );
    gives(TABLE, &encoding, &raw.bytes());
    raw.gives(&encoding);
}

/// A Record's names and texts come after everything of its children.
#[test]
fn names_come_with_their_node() {
    let texts = long(0x44, &[3, 1, b's', 0, 2, b't', b't']);
    let inner = long(0x42, &[&[1, 1, b'x'], &texts[..]].concat());
    let fields = [
        &[3, 3, b'o', b'u', b't', 0x20, 2, b'i', b'n'],
        &inner[..],
        &[3, b'o', b'u', b't', 7],
    ];
    let encoding = long(0x42, &fields.concat());
    let raw = Raw::new(
        &[(0, 0, 0), (9, 0, 3), (7, 3, 1), (10, 7, 0), (7, 4, 3)],
        &[(0, 0), (0, 1), (0, 2), (1, 3), (0, 4), (2, 5), (3, 6)],
        &[(0, 1), (1, 0), (1, 2), (3, 1), (4, 3), (7, 2), (9, 3)],
    )
    .text(b"sttxoutinout");
    gives(TABLE, &encoding, &raw.bytes());
    raw.gives(&encoding);
}

#[test]
fn the_largest_tables() {
    // packed Maps: three nodes to the byte
    let payload = [&[0xFA, 0x0F][..], &[0x76; 2043]].concat();
    let maps = long(0x43, &payload);
    assert_eq!(maps.len(), 2048);
    let made = table_to_vec(&maps).unwrap();
    assert_eq!(made.len(), 8 + 6 * (3 * 2043 + 1) + 4 * (3 * 2043));
    gives(TABLE, &maps, &made);
    gives(WRITE, &made, &maps);
    // empty texts: a link and a name to the byte
    let texts = long(0x44, &[&[0xFB, 0x0F][..], &[0; 2043]].concat());
    let made = table_to_vec(&texts).unwrap();
    assert_eq!(made.len(), 8 + 6 + 8 * 2043);
    gives(TABLE, &texts, &made);
    gives(WRITE, &made, &texts);
}

#[test]
fn parts_of_slices_and_empty_ones() {
    let bytes = [&[0xFF][..], &M4_TABLE, &M4, &[0xFF]].concat();
    let mut out = [0xEE; 12];
    assert_eq!(write(&bytes[1..55], &mut out[1..11]), Ok(10));
    assert_eq!(out[1..11], M4);
    assert_eq!((out[0], out[11]), (0xEE, 0xEE));
    assert_eq!(table_to_vec(&bytes[55..65]).unwrap(), M4_TABLE);
    refuses(WRITE, Default::default(), SectionBroken, 0);
    refuses(TABLE, Default::default(), CutShort, 0);
}

#[test]
fn many_threads_at_once() {
    let maps = long(0x43, &[&[0xFA, 0x0F][..], &[0x76; 2043]].concat());
    std::thread::scope(|scope| {
        for _ in 0..4 {
            scope.spawn(|| {
                for _ in 0..10 {
                    assert_eq!(table_to_vec(&M4).unwrap(), M4_TABLE);
                    let made = table_to_vec(&maps).unwrap();
                    assert_eq!(write_to_vec(&made).unwrap(), maps);
                }
            });
        }
    });
}

// -------------------------------------------------------------------------------------------------
// Nodes as records (and in every test of `write` above)

/// Where C has the fields of `shiulbart_node`.
#[test]
fn a_record_in_memory() {
    let nodes = [NodeRecord::new(1, 2, 3); 2];
    let place = |field: *const u8| field as usize - nodes.as_ptr() as usize;
    assert_eq!(std::mem::size_of_val(&nodes), 12);
    assert_eq!(place(&nodes[1].kind), 6);
    assert_eq!(place(&nodes[1].a as *const u16 as *const u8), 8);
    assert_eq!(place(&nodes[1].b as *const u16 as *const u8), 10);
    assert_eq!(NodeRecord::default(), NodeRecord::new(0, 0, 0));
}

#[test]
fn m4_as_records() {
    let nodes = [(0, 0, 0), (2, 0, 0), (5, 0, 1), (7, 1, 2)];
    let nodes = nodes.map(|(kind, a, b)| NodeRecord::new(kind, a, b));
    assert_eq!(records(&M4_TABLE), Some((nodes.to_vec(), &M4_TABLE[26..])));
    assert_eq!(write_records_to_vec(&nodes, &M4_TABLE[26..]).unwrap(), M4);
    // a part of more records, and of a longer buffer
    let more = [&nodes[1..], &nodes, &nodes[..1]].concat();
    let mut out = [0xEE; 12];
    let told = write_records(&more[3..7], &M4_TABLE[26..], &mut out[1..11]);
    assert_eq!(told, Ok(10));
    assert_eq!(out[1..11], M4);
    assert_eq!((out[0], out[11]), (0xEE, 0xEE));
}

/// No records, and too many: 9 at 0, whatever the rest is and however many there are.
#[test]
fn how_many_records() {
    let rest_of_int = [0; 6];
    let int = NodeRecord::default();
    for count in [1, 2, 6143, 6144] {
        assert_eq!(
            write_records_to_vec(&vec![int; count], &rest_of_int).unwrap(),
            [0x20]
        );
    }
    let broken = NodeRecord::new(11, 0, 0);
    let over = [6145, 6146, 65_535, 65_536, 65_537, 65_538, 131_073];
    for count in [0].into_iter().chain(over) {
        for node in [int, broken] {
            for rest in [&rest_of_int[..], &[], &[1, 0], &[0; 7], &M4_TABLE[26..]] {
                let mut out = pattern(40);
                let told = write_records(&vec![node; count], rest, &mut out);
                assert_eq!(told, Err(Refusal::new(SectionBroken, 0)), "{count}");
                assert!(out == pattern(40), "changed by a refusal");
            }
        }
    }
}

/// 65,536 records more than M4's four, which stand at the front or at the end: nothing wraps.
#[test]
fn more_records_than_two_bytes_count() {
    let (m4, rest) = records(&M4_TABLE).unwrap();
    let many = vec![NodeRecord::default(); 65_536];
    for nodes in [[&m4[..], &many].concat(), [&many[..], &m4].concat()] {
        let told = write_records_to_vec(&nodes, rest);
        assert_eq!(told, Err(Refusal::new(SectionBroken, 0)));
    }
}

/// The rest cut at each place, and with more behind it: the place is that of the whole table.
#[test]
fn places_in_the_rest() {
    let (nodes, rest) = records(&M4_TABLE).unwrap();
    for cut in 0..rest.len() {
        let count = [26, 40, 50].into_iter().rfind(|count| *count <= 26 + cut);
        let told = write_records_to_vec(&nodes, &rest[..cut]);
        assert_eq!(
            told,
            Err(Refusal::new(SectionBroken, count.unwrap() as u32))
        );
        assert_eq!(told, write_to_vec(&M4_TABLE[..26 + cut]));
    }
    for more in [1, 2, 100_000] {
        let more = [rest, &vec![0; more]].concat();
        let told = write_records_to_vec(&nodes, &more);
        assert_eq!(told, Err(Refusal::new(SectionBroken, 54)));
    }
    // as far behind as can be: no place is cut to two bytes
    let int = NodeRecord::default();
    let most = Raw {
        nodes: vec![],
        links: vec![(9, 9); 6144],
        names: vec![(0, 2048); 2048],
        text: vec![b'x'; 2048],
    };
    let rest = [&most.bytes()[2..], &[0]].concat();
    let told = write_records_to_vec(&vec![int; 6144], &rest);
    assert_eq!(told, Err(Refusal::new(SectionBroken, 71_688)));
}

/// A table lends its nodes, and makes the rest.
#[test]
fn lent_by_a_table() {
    let mut table = Table::decode(&M4).unwrap();
    let (nodes, rest) = records(&M4_TABLE).unwrap();
    assert_eq!(
        (table.node_records(), &table.rest()[..]),
        (&nodes[..], rest)
    );
    let again = |table: &Table| write_records_to_vec(table.node_records(), &table.rest());
    assert_eq!(again(&table).unwrap(), M4);
    // with what is not used, refused, and of nothing
    table.push_symbol(["\u{E9}", ""]).unwrap();
    table.push_map(id(3), id(3)).unwrap();
    assert_eq!(again(&table), table.encode());
    assert_eq!(records(&table.to_bytes()).unwrap().1, table.rest());
    for _ in 0..16 {
        table.push_array(table.root().unwrap()).unwrap();
    }
    assert_eq!(again(&table), Err(Refusal::new(MadeTooDeep, 0)));
    let none = Table::new();
    assert_eq!(
        (none.node_records(), &none.rest()[..]),
        (&[][..], &[0; 6][..])
    );
    assert_eq!(again(&none), Err(Refusal::new(SectionBroken, 0)));
    assert_eq!(again(&none), none.encode());
}

// -------------------------------------------------------------------------------------------------
// Tables as Rust values

/// Node k, which is there.
fn id(k: u16) -> NodeId {
    NodeId::from(k)
}

#[test]
fn m4_built_and_taken_apart() {
    let mut built = Table::new();
    let int = built.push_primitive(Primitive::Int).unwrap();
    let bool = built.push_primitive(Primitive::Bool).unwrap();
    let array = built.push_array(bool).unwrap();
    let record = built.push_record([("a", int), ("b", array)]).unwrap();
    assert_eq!([int, bool, array, record].map(NodeId::index), [0, 1, 2, 3]);
    assert_eq!(built.root(), Some(record));
    assert_eq!(built.to_bytes(), M4_TABLE);
    assert_eq!(built.encode().unwrap(), M4);
    assert_eq!(Table::parse(&M4_TABLE).unwrap(), built);
    assert_eq!(Table::decode(&M4).unwrap(), built);

    assert!(matches!(
        built.node(int),
        Some(Node::Primitive(Primitive::Int))
    ));
    assert!(matches!(built.node(array), Some(Node::Array(of)) if of == bool));
    let Some(Node::Record(fields)) = built.node(record) else {
        panic!("it is a Record");
    };
    assert_eq!(fields.len(), 2);
    assert!(fields.eq([("a", int), ("b", array)]));
    assert!(built.names().eq(["a", "b"]));
    assert_eq!(built.text(), b"ab");
    let link = |target, name| Link { target, name };
    assert!(built.links().eq([link(1, 0), link(0, 0), link(2, 1)]));
    assert!(built.node(id(4)).is_none());
}

#[test]
fn every_kind_built_and_taken_apart() {
    let mut table = Table::new();
    for primitive in Primitive::ALL {
        table.push_primitive(primitive).unwrap();
    }
    let blank = table.push_blank(65_535).unwrap();
    let map = table.push_map(blank, id(3)).unwrap();
    let function = table.push_function([map, blank, map], id(1)).unwrap();
    let thunk = table.push_function([], function).unwrap();
    let symbol = table.push_symbol(["up", "", "é"]).unwrap();
    let empty = table.push_record::<&str>([]).unwrap();
    let nothing = table.push_symbol::<String>([]).unwrap();
    let names = ["", "é", ""].map(String::from);
    let record = table
        .push_record(names.iter().zip([thunk, symbol, empty]))
        .unwrap();
    let array = table.push_array(record).unwrap();

    for (primitive, (id, node)) in Primitive::ALL.into_iter().zip(table.nodes()) {
        assert_eq!(id.index(), primitive.number() as usize);
        assert!(matches!(node, Node::Primitive(own) if own == primitive));
    }
    let node = |id| table.node(id).unwrap();
    assert!(matches!(node(blank), Node::Blank(65_535)));
    assert!(matches!(node(map), Node::Map { key, value } if key == blank && value == id(3)));
    match node(function) {
        Node::Function { parameters, result } => {
            assert!(parameters.clone().eq([map, blank, map]));
            assert!(parameters.rev().eq([map, blank, map]));
            assert_eq!(result, id(1));
        }
        other => panic!("{other:?}"),
    }
    match node(thunk) {
        Node::Function { parameters, result } => {
            assert_eq!((parameters.len(), result), (0, function));
        }
        other => panic!("{other:?}"),
    }
    match node(symbol) {
        Node::Symbol(mut texts) => {
            assert_eq!(texts.len(), 3);
            assert!(texts.clone().rev().eq(["é", "", "up"]));
            assert_eq!(texts.nth(2), Some("é"));
            assert_eq!((texts.next(), texts.next_back()), (None, None));
        }
        other => panic!("{other:?}"),
    }
    assert!(matches!(node(empty), Node::Record(fields) if fields.len() == 0));
    assert!(matches!(node(nothing), Node::Symbol(texts) if texts.len() == 0));
    match node(record) {
        Node::Record(mut fields) => {
            assert_eq!(fields.nth_back(0), Some(("", empty)));
            assert_eq!(fields.next(), Some(("", thunk)));
            assert_eq!(fields.next_back(), Some(("é", symbol)));
            assert_eq!(fields.next(), None);
        }
        other => panic!("{other:?}"),
    }
    assert!(matches!(node(array), Node::Array(element) if element == record));
    assert_eq!(table.len(), 14);
    assert_eq!(table.nodes().len(), 14);
    assert_eq!(table.nodes().next_back().map(|(id, _)| id), Some(array));
    assert_eq!(table.names().len(), 6);

    assert_eq!(Table::parse(&table.to_bytes()).unwrap(), table);
    let encoding = table.encode().unwrap();
    assert_eq!(read(&encoding).unwrap().depth, 6);
    let own = Table::decode(&encoding).unwrap();
    assert_eq!(own.encode().unwrap(), encoding);
}

#[test]
fn nodes_in_words() {
    let mut table = Table::new();
    let int = table.push_primitive(Primitive::Int).unwrap();
    let record = table.push_record([("a", int)]).unwrap();
    let function = table.push_function([int], record).unwrap();
    let words = |id| format!("{:?}", table.node(id).unwrap());
    assert_eq!(words(int), "Primitive(Int)");
    assert_eq!(words(record), r#"Record([("a", NodeId(0))])"#);
    assert_eq!(
        words(function),
        "Function { parameters: [NodeId(0)], result: NodeId(1) }"
    );
}

/// Pushed children first, without sharing, a shape has the table that the way back makes.
#[test]
fn built_as_the_way_back_does() {
    let texts = long(0x44, &[2, 1, b's', 0]);
    let inner = long(0x42, &[&[1, 1, b'x'], &texts[..]].concat());
    let encoding = long(0x43, &[&[2], &inner[..], &[0x42, 1, 0, 0, 0x76]].concat());
    let mut table = Table::new();
    let symbol = table.push_symbol(["s", ""]).unwrap();
    let record = table.push_record([("x", symbol)]).unwrap();
    let empty = table.push_record::<&str>([]).unwrap();
    let key = table.push_primitive(Primitive::Str).unwrap();
    let value = table.push_primitive(Primitive::Bool).unwrap();
    let map = table.push_map(key, value).unwrap();
    table.push_function([record, empty], map).unwrap();
    gives(TABLE, &encoding, &table.to_bytes());
    assert_eq!(table.encode().unwrap(), encoding);
}

#[test]
fn no_such_node() {
    let mut table = Table::new();
    assert_eq!(table.push_array(id(0)), Err(TableError::NoSuchNode(id(0))));
    let int = table.push_primitive(Primitive::Int).unwrap();
    let before = table.clone();
    let none = Err(TableError::NoSuchNode(id(1)));
    assert_eq!(table.push_array(id(1)), none);
    assert_eq!(table.push_map(int, id(1)), none);
    assert_eq!(table.push_map(id(1), id(2)), none);
    assert_eq!(table.push_record([("a", int), ("b", id(1))]), none);
    assert_eq!(table.push_function([int, id(1)], int), none);
    assert_eq!(table.push_function([int], id(1)), none);
    let far = id(65_535);
    assert_eq!(table.push_array(far), Err(TableError::NoSuchNode(far)));
    // nothing was added
    assert_eq!(table, before);
    table.push_record([("c", int)]).unwrap();
    assert!(table.names().eq(["c"]));
}

#[test]
fn a_full_table_says_so() {
    let mut table = Table::new();
    for _ in 0..Table::MAX_NODES {
        table.push_blank(7).unwrap();
    }
    let before = table.clone();
    let full = Err(TableError::TooManyNodes);
    assert_eq!(table.push_blank(7), full);
    assert_eq!(table.push_primitive(Primitive::Int), full);
    assert_eq!(table.push_array(id(0)), full);
    assert_eq!(table.push_array(id(9999)), full);
    assert_eq!(table.push_symbol(["a"]), full);
    assert_eq!(table, before);
    assert_eq!(table.encode().unwrap(), [7]);

    let mut table = Table::new();
    let int = table.push_primitive(Primitive::Int).unwrap();
    let ints = |count: usize| vec![int; count];
    let before = table.clone();
    let full = Err(TableError::TooManyLinks);
    assert_eq!(table.push_function(ints(Table::MAX_LINKS), int), full);
    assert_eq!(table.push_function(std::iter::repeat(int), int), full);
    assert_eq!(table, before);
    table
        .push_function(ints(Table::MAX_LINKS - 1), int)
        .unwrap();
    assert_eq!(table.push_array(int), full);
    // without links there is still room
    table.push_record::<&str>([]).unwrap();
    assert_eq!(table.encode().unwrap(), [0x42, 1, 0, 0]);

    let mut table = Table::new();
    let full = Err(TableError::TooManyNames);
    assert_eq!(table.push_symbol(std::iter::repeat("")), full);
    assert_eq!(table, Table::new());
    table.push_symbol([""; Table::MAX_NAMES]).unwrap();
    assert_eq!(table.push_symbol([""]), full);
    assert_eq!(Table::parse(&table.to_bytes()).unwrap(), table);
    assert_eq!(table.encode().unwrap_err(), Refusal::new(MadeTooLong, 0));

    let mut table = Table::new();
    let full = Err(TableError::TooMuchText);
    let text = "a".repeat(Table::MAX_TEXT + 1);
    assert_eq!(table.push_symbol([&text]), full);
    assert_eq!(table.push_symbol([&text[..2000], &text[..49]]), full);
    assert_eq!(table, Table::new());
    table.push_symbol([&text[..2000], &text[..48]]).unwrap();
    assert_eq!(table.push_symbol(["a"]), full);
    table.push_symbol([""]).unwrap();
    assert_eq!(table.encode().unwrap(), [0x44, 2, 0, 1, 0]);
}

#[test]
fn errors_in_words() {
    fn is_shared_error<T: std::error::Error + Send + Sync + 'static>() {}
    is_shared_error::<TableError>();
    for (error, words) in [
        (TableError::TooManyNodes, "table over 6,144 nodes"),
        (TableError::TooManyLinks, "table over 6,144 links"),
        (TableError::TooManyNames, "table over 2,048 names"),
        (TableError::TooMuchText, "table over 2,048 bytes of text"),
        (TableError::NoSuchNode(id(7)), "the table has no node 7"),
    ] {
        assert_eq!(error.to_string(), words);
    }
}

#[test]
fn an_empty_table_means_nothing() {
    let table = Table::new();
    assert_eq!(table, Table::default());
    assert!(table.is_empty());
    assert_eq!((table.len(), table.root()), (0, None));
    assert_eq!(table.nodes().len(), 0);
    assert_eq!(table.to_bytes(), [0; 8]);
    assert_eq!(table.encode().unwrap_err(), Refusal::new(SectionBroken, 0));
    assert!(Table::parse(&table.to_bytes()).is_err());
}

/// What no node uses stays as it is, so that the bytes do.
#[test]
fn taken_apart_and_put_together() {
    let most = Raw {
        nodes: vec![(10, 0, 9, 0); 6144],
        links: vec![(0xFFFF, 0xFFFF); 6144],
        names: vec![(3, 0); 2048],
        text: vec![0xFF; 2048],
    };
    let mut odd = with((7, 0, 1, 2), [(0xEEEE, 0xDDDD), (1, 1), (0, 0)]);
    odd.text.extend([0xC3, 0xFF]);
    for raw in [
        most,
        odd,
        chain(6143, (0, 0, 0, 0)),
        doubled(39, (10, 0, 0, 0)),
    ] {
        let bytes = raw.bytes();
        let table = Table::parse(&bytes).unwrap();
        assert_eq!(table.len(), raw.nodes.len());
        assert_eq!(table.links().len(), raw.links.len());
        assert_eq!(table.names().len(), raw.names.len());
        assert_eq!(table.text(), raw.text);
        assert!(table.to_bytes() == bytes);
        // all of it can be looked at
        assert!(table.nodes().all(|node| !format!("{node:?}").is_empty()));
        assert!(table.names().all(|name| name.len() <= 2));
    }
}

#[test]
fn broken_bytes_are_not_taken_apart() {
    for cut in 0..M4_TABLE.len() {
        let cut = &M4_TABLE[..cut];
        assert_eq!(Table::parse(cut), Err(write_to_vec(cut).unwrap_err()));
    }
    assert_eq!(
        Table::parse(&[&M4_TABLE[..], &[0]].concat()),
        Err(Refusal::new(SectionBroken, 54))
    );
    assert_eq!(
        Table::parse(&with((5, 0, 0, 1), [(2, 0); 3]).bytes()),
        Err(Refusal::new(NodeBroken, 2))
    );
    let raw = Raw::new(&[(0, 0, 0)], &[], &[(0, 0), (0, 1)]);
    assert_eq!(Table::parse(&raw.bytes()), Err(Refusal::new(NameBroken, 1)));
    // each byte of M4's table changed to each other: what is taken apart can be looked at
    for place in 0..M4_TABLE.len() {
        for byte in 0..=255 {
            let mut bytes = M4_TABLE;
            bytes[place] = byte;
            match (Table::parse(&bytes), write_to_vec(&bytes)) {
                (Ok(table), Ok(encoding)) => {
                    assert_eq!(table.to_bytes(), bytes);
                    assert_eq!(table.encode().unwrap(), encoding);
                    assert!(table.nodes().all(|node| !format!("{node:?}").is_empty()));
                }
                (Err(left), Err(right)) => assert_eq!(left, right),
                (left, right) => panic!("{left:?} and {right:?}"),
            }
        }
    }
}
