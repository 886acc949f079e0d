//! Inputs for `write_records`: those for `write`, with their nodes as records. A table that is cut in its
//! first section, or has a second byte that is not 0, has no such form; in its place comes one that has
//! no form in bytes or that bytes would hardly have: no records, too many, or a rest that does not fit.

use super::{any_leaf, cut, of_a_shape, random_bytes, shared, WriteInputs};
use crate::cases::table::{
    largest, letters, m4_table, Node, RecordTable, Table, MAX_LINKS, MAX_NAMES, MAX_NODES, MAX_TEXT,
};
use crate::random::Random;
use shiulbart::NodeRecord;

/// Two bytes cannot count so many.
const WRAPS: usize = 65_536;

/// Generated inputs for `write_records`, without end. Those for `write` with the same seed are among them,
/// each in its place.
pub struct RecordInputs {
    tables: WriteInputs,
    random: Random,
}

impl RecordInputs {
    pub fn new(seed: u64) -> RecordInputs {
        RecordInputs {
            tables: WriteInputs::new(seed),
            random: Random::new(!seed),
        }
    }
}

impl Iterator for RecordInputs {
    type Item = RecordTable;

    fn next(&mut self) -> Option<RecordTable> {
        let bytes = self.tables.next()?;
        Some(RecordTable::of(&bytes).unwrap_or_else(|| own(&mut self.random)))
    }
}

/// A node without its second byte.
fn record(node: &Node) -> NodeRecord {
    NodeRecord::new(node.kind, node.a, node.b)
}

/// A table without its count of nodes.
fn as_records(table: &Table) -> RecordTable {
    RecordTable {
        nodes: table.nodes.iter().map(record).collect(),
        rest: table.bytes()[table.places()[1]..].to_vec(),
    }
}

/// One that no input for `write` is like.
fn own(random: &mut Random) -> RecordTable {
    let good = match random.once_in(2) {
        true => of_a_shape(random),
        false => shared(random, 20),
    };
    let mut table = as_records(&good);
    if random.once_in(3) {
        table.rest = other_rest(random, &good);
    }
    let few = table.nodes.len();
    let leaf = record(&any_leaf(random));
    match random.below(8) {
        0 | 1 => table.nodes.clear(),
        2 | 3 => {
            let any = random.between(MAX_NODES + 1, WRAPS - 1);
            let over = [MAX_NODES + 1, MAX_NODES + 1, MAX_NODES + 2, WRAPS - 1, any];
            table.nodes.resize(random.pick(&over), leaf);
        }
        // a count of two bytes would be that of a table that is good
        4 => table.nodes.resize(WRAPS + few, leaf),
        5 => {
            let over = [0, 0, 1, MAX_NODES, WRAPS, WRAPS + few];
            table.nodes.resize(WRAPS + random.pick(&over), leaf);
        }
        6 => table = far_behind(random),
        _ => {
            let any = random.between(1, 30);
            table.nodes = (0..any).map(|_| any_record(random)).collect();
        }
    }
    table
}

/// Any bytes, none, or what is left of the rest of a good table.
fn other_rest(random: &mut Random, good: &Table) -> Vec<u8> {
    match random.below(4) {
        0 => vec![],
        1 => random_bytes(random),
        _ => {
            let links = good.places()[1];
            let bytes = cut(random, good.bytes(), &good.places());
            bytes.get(links..).unwrap_or(&[]).to_vec()
        }
    }
}

/// A record of numbers that are mostly small.
fn any_record(random: &mut Random) -> NodeRecord {
    let any = random.number() as u16;
    let kind = match random.once_in(8) {
        true => random.byte(),
        false => random.between(0, 11) as u8,
    };
    let a = random.pick(&[0, 0, 0, 1, 2, 256, any]);
    let b = random.pick(&[0, 0, 0, 1, 1, 2, 256]);
    NodeRecord::new(kind, a, b)
}

/// As many records as can be, and a rest that is broken behind byte 65,535 of the table, or is not.
fn far_behind(random: &mut Random) -> RecordTable {
    let mut most = largest([0; 4]);
    match random.below(4) {
        0 => most.left_over = vec![0; random.between(1, 3)],
        1 => most.counts[3] += random.pick(&[1, 2]),
        2 => most.text.truncate(random.below(MAX_TEXT)),
        _ => (),
    }
    as_records(&most)
}

/// The inputs for `write_records` that are always among the cases, beside those for `write`.
pub fn always_records() -> Vec<RecordTable> {
    let int = NodeRecord::default();
    let m4 = as_records(&m4_table());
    let mut inputs = Vec::new();
    // M4's nodes with its rest cut at each place, or with more behind it
    for cut in 0..=m4.rest.len() {
        let rest = m4.rest[..cut].to_vec();
        inputs.push(RecordTable { rest, ..m4.clone() });
    }
    for more in [1, 2, 100_000] {
        let rest = [&m4.rest[..], &vec![0; more]].concat();
        inputs.push(RecordTable { rest, ..m4.clone() });
    }
    // each number of records that matters, with a good rest and with others
    let over = [MAX_NODES + 1, WRAPS - 1, WRAPS, WRAPS + 1, 2 * WRAPS + 1];
    for count in [0, 1, 2, MAX_NODES - 1, MAX_NODES].into_iter().chain(over) {
        for rest in [&[0; 6][..], &[], &[1, 0], &[0; 7], &m4.rest] {
            inputs.push(RecordTable {
                nodes: vec![int; count],
                rest: rest.to_vec(),
            });
        }
    }
    // M4's nodes before so many more that two bytes would count four
    let mut wraps = m4.clone();
    wraps.nodes.resize(WRAPS + 4, int);
    inputs.push(wraps);
    // a rest at its limits behind one record and behind the most
    for nodes in [1, MAX_NODES] {
        let mut table = as_records(&largest([0; 4]));
        table.nodes.truncate(nodes);
        let length = 6 + 4 * MAX_LINKS + 4 * MAX_NAMES + MAX_TEXT;
        assert_eq!(table.rest.len(), length);
        inputs.push(table.clone());
        table.rest.push(0);
        inputs.push(table);
    }
    // the rest of another table
    let rest = as_records(&letters(2042)).rest;
    inputs.push(RecordTable { rest, ..m4 });
    let worst = crate::stack::worst_for_records();
    inputs.extend(worst.into_iter().map(|(_, table)| table));
    inputs
}
