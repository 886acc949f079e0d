//! The time of the proved calls beside the same work written in Rust for speed, and the peak stack
//! of each. See README.md.

use compare::cases::sheets::{equal, symbol_of, Sheet};
use compare::cases::table::{
    chain, doubled, kind, largest, letters, m4_table, records, Node, RecordTable, Table,
};
use compare::cases::{function, leb128, long, nested, record, symbol, typical};
use compare::question::{Cuts, Fed, Pair, Question, Records, Single};
use compare::random::Random;
use compare::stack::{
    peak, worst_for_fill, worst_for_join, worst_for_parts, worst_for_pieces, worst_for_read,
    worst_for_records, worst_for_sheet, worst_for_table, worst_for_write, worst_ks, Worst, LONGEST,
};
use compare::{
    child, fast, fill, join, name, pieces, read, sheet, table, write, write_records, Parts,
};
use shiulbart::Pieces;
use std::fmt::Display;
use std::hint::black_box;
use std::process::ExitCode;
use std::time::{Duration, Instant};

const USAGE: &str = "usage: bench [TABLE..]
  without a word all tables, else the times of these calls: read, pieces, child, name, sheet, fill,
  join, write, write_records, table; text is the time of a text alone, stack the peak stack of all";

/// The words for the tables.
const TABLES: [&str; 12] = [
    "read",
    "pieces",
    "child",
    "name",
    "sheet",
    "fill",
    "join",
    "write",
    "write_records",
    "table",
    "text",
    "stack",
];

/// The tables that are wanted: all, if none is named.
struct Wanted(Vec<String>);

impl Wanted {
    fn named() -> Option<Wanted> {
        let words: Vec<String> = std::env::args().skip(1).collect();
        let known = |word: &String| TABLES.contains(&word.as_str());
        words.iter().all(known).then_some(Wanted(words))
    }

    fn has(&self, table: &str) -> bool {
        self.0.is_empty() || self.0.iter().any(|word| word == table)
    }
}

/// Rounds of a case. The least time of each program counts, so that what else the machine does
/// drops out. A case that takes long has fewer.
const ROUNDS: usize = 400;
const LEAST_ROUNDS: usize = 3;
const LONG: Duration = Duration::from_secs(10);
/// The bytes that a round reads, about, and the most often that it reads an input.
const ROUND_BYTES: usize = 100_000;
const ROUND_TIMES: usize = 2000;

/// What a call is given: bytes and k where it asks for a part, or two inputs, or a table in bytes and as
/// records.
#[derive(Default)]
struct Input {
    first: Vec<u8>,
    second: Vec<u8>,
    k: u64,
    records: RecordTable,
}

impl Input {
    fn bytes(&self) -> usize {
        self.first.len() + self.second.len()
    }
}

/// Inputs that are given one after the other.
struct Case {
    name: String,
    inputs: Vec<Input>,
}

/// The bytes and part k of one input.
fn one(name: &str, bytes: &[u8], k: u64) -> Case {
    many(name, vec![bytes.to_vec()], k)
}

/// Two inputs.
fn two(name: &str, first: &[u8], second: &[u8]) -> Case {
    Case {
        name: name.to_string(),
        inputs: vec![Input {
            first: first.to_vec(),
            second: second.to_vec(),
            ..Input::default()
        }],
    }
}

/// The first part of an input, the one in the middle and the last.
fn three(name: &str, bytes: &[u8], parts: u64) -> impl Iterator<Item = Case> {
    let ks = [("first", 0), ("middle", parts / 2), ("last", parts - 1)];
    ks.map(|(which, k)| one(&format!("{name}, {which}"), bytes, k))
        .into_iter()
}

fn many(name: &str, inputs: Vec<Vec<u8>>, k: u64) -> Case {
    let input = |first| Input {
        first,
        k,
        ..Input::default()
    };
    Case {
        name: name.to_string(),
        inputs: inputs.into_iter().map(input).collect(),
    }
}

/// `a` Int, `b` Array of Bool.
const RECORD_A_B: [u8; 10] = [0x42, 7, 0, 2, 1, b'a', 0x20, 1, b'b', 0x62];

/// A Record of 200 fields with names of five letters.
fn named() -> Vec<u8> {
    let mut fields = Vec::new();
    (0..200).for_each(|i| fields.extend([5, b'f', b'i', b'e', b'l', b'd', i as u8 % 32]));
    record(200, &fields)
}

/// 15 Records round an Int.
fn deep_records() -> Vec<u8> {
    nested(15, &[0x20], |inner| {
        record(1, &[&[5, b'i', b'n', b'n', b'e', b'r'], inner].concat())
    })
}

/// 15 Functions of 128 blanks in one another.
fn deep_functions() -> Vec<u8> {
    nested(15, &[0x02], |inner| function(128, &[0x00; 128], inner))
}

/// With its last byte spoilt.
fn spoilt(bytes: &[u8]) -> Vec<u8> {
    let mut bytes = bytes.to_vec();
    *bytes.last_mut().unwrap() = 0xFF;
    bytes
}

/// Many different shapes of 40 to 160 bytes.
fn different() -> Vec<Vec<u8>> {
    let mut random = Random::new(2048);
    (0..256).map(|_| typical(&mut random)).collect()
}

fn cases_for_read() -> Vec<Case> {
    let one = |name, bytes: Vec<u8>| one(name, &bytes, 0);
    let wide = function(2040, &[0x05; 2040], &[0x20]);
    let packed = function(2040, &[0x60].repeat(2040), &[0x20]);
    let mixed = function(2040, &[0x05, 0x60, 0x21, 0x70].repeat(510), &[0x20]);
    let letters = symbol(&[b'a'; 2042]);
    let deep = nested(15, &[0x03], |inner| long(0x40, inner));
    let mut too_deep = function(480, &[0x40, 0x01, 0x00, 0x00].repeat(480), &deep);
    too_deep = long(0x40, &too_deep);
    let all_spoilt = different().iter().map(|bytes| spoilt(bytes)).collect();
    vec![
        one("short: Int", vec![0x20]),
        one("short: Variable 32", vec![0x45, 2, 0, 0x20, 0]),
        one("short: Record of two fields (M4)", RECORD_A_B.to_vec()),
        many("typical: 256 different shapes", different(), 0),
        one("wide: Function of 2,040 blanks", wide.clone()),
        one("wide: Function of 2,040 packed", packed),
        one("wide: Function of 2,040 mixed", mixed),
        one(
            "wide: Function of 500 Arrays",
            function(500, &[0x40, 1, 0, 0].repeat(500), &[0x20]),
        ),
        one(
            "wide: Record of 1,000 empty names",
            record(1000, &[0x00, 0x01].repeat(1000)),
        ),
        one("wide: Record of 200 names", named()),
        one("deep: 15 Arrays", deep),
        one("deep: 15 Records", deep_records()),
        one("deep: 15 levels of 128 blanks", deep_functions()),
        one("text: 2,042 letters", letters.clone()),
        one(
            "text: 1,021 characters of two bytes",
            symbol("é".repeat(1021).as_bytes()),
        ),
        one(
            "text: 510 characters of four bytes",
            symbol("\u{1F6A1}".repeat(510).as_bytes()),
        ),
        one(
            "text: German, 4 in 100 not ASCII",
            symbol(
                "Der Sessel 12 f\u{E4}hrt zur\u{FC}ck ins Tal. "
                    .repeat(50)
                    .as_bytes(),
            ),
        ),
        one("refused early: first byte", vec![0xFF; 2048]),
        one("refused early: 2,049 bytes", vec![0x20; 2049]),
        one("refused late: wide, last byte", spoilt(&wide)),
        one("refused late: text, last byte", spoilt(&letters)),
        one("refused late: too deep", too_deep),
        many("refused late: 256 different, last byte", all_spoilt, 0),
    ]
}

fn cases_for_child() -> Vec<Case> {
    let wide = function(2040, &[0x05; 2040], &[0x20]);
    let arrays = function(500, &[0x40, 1, 0, 0].repeat(500), &[0x20]);
    let empty_names = record(1000, &[0x00, 0x01].repeat(1000));
    let deep = nested(15, &[0x03], |inner| long(0x40, inner));
    let mut cases = vec![
        one("packed: Array", &[0x62], 0),
        one("packed: Map, value", &[0x76], 1),
        one("short: M4, child 1", &RECORD_A_B, 1),
        many("typical: 256 different shapes, child 0", different(), 0),
    ];
    cases.extend(three("wide: Function of 2,040 blanks", &wide, 2041));
    cases.extend(three("wide: Function of 500 Arrays", &arrays, 501));
    cases.extend(three("wide: Record of 1,000 fields", &empty_names, 1000));
    cases.extend(three("wide: Record of 200 names", &named(), 200));
    cases.push(one("deep: 15 Arrays", &deep, 0));
    cases.push(one("deep: 15 Records", &deep_records(), 0));
    cases.extend(three("deep: 15 levels of 129", &deep_functions(), 129));
    cases.extend([
        one("refused, 18: Int", &[0x20], 0),
        one("refused, 18: Function of 2,040 blanks", &wide, u64::MAX),
        one("refused, 18: text of 2,042", &symbol(&[b'a'; 2042]), 0),
        one("refused early: first byte", &[0xFF; 2048], 0),
        one("refused early: 2,049 bytes", &[0x20; 2049], 0),
        one("refused late: wide, last byte", &spoilt(&wide), 0),
    ]);
    cases
}

fn cases_for_name() -> Vec<Case> {
    let wide = function(2040, &[0x05; 2040], &[0x20]);
    let empty_names = record(1000, &[0x00, 0x01].repeat(1000));
    let texts = long(
        0x44,
        &[leb128(500), [3, b'a', b'b', b'c'].repeat(500)].concat(),
    );
    let letters = symbol(&[b'a'; 2042]);
    let mut cases = vec![
        one("short: M4, name 1", &RECORD_A_B, 1),
        many("typical: 256 different shapes, name 0", different(), 0),
    ];
    cases.extend(three(
        "wide: Record of 1,000 empty names",
        &empty_names,
        1000,
    ));
    cases.extend(three("wide: Record of 200 names", &named(), 200));
    cases.extend(three("wide: Symbol of 500 texts", &texts, 500));
    cases.push(one("text: 2,042 letters", &letters, 0));
    cases.push(one("deep: 15 Records", &deep_records(), 0));
    cases.extend([
        one("refused, 18: Int", &[0x20], 0),
        one("refused, 18: Function of 2,040 blanks", &wide, 0),
        one("refused, 18: Symbol of 500 texts", &texts, u64::MAX),
        one("refused early: first byte", &[0xFF; 2048], 0),
        one("refused early: 2,049 bytes", &[0x20; 2049], 0),
        one("refused late: text, last byte", &spoilt(&letters), 0),
    ]);
    cases
}

fn cases_for_sheet() -> Vec<Case> {
    let one = |name, bytes: Vec<u8>| one(name, &bytes, 0);
    let blanks = |count| function(count, &vec![0x05; count], &[0x20]);
    let typical = different();
    let typical: Vec<Vec<u8>> = typical
        .chunks(32)
        .map(|chunk| Sheet::of((0..).zip(chunk.iter().map(|own| &own[..]))).bytes())
        .collect();
    let texts = equal(32, &symbol_of(500));
    let wide = equal(8, &blanks(2042 - 2));
    let with = |sheet: &[u8], at: usize, byte: u8| {
        let mut sheet = sheet.to_vec();
        sheet[at] = byte;
        sheet
    };
    vec![
        one("short: empty", equal(0, &[])),
        one("short: one Int (M13)", equal(1, &[0x20])),
        one("short: 32 Ints", equal(32, &[0x20])),
        many("typical: 8 sheets of 32 different shapes", typical, 0),
        one("long: 32 Symbols of 500 bytes", texts.clone()),
        one(
            "long: 32 Functions of 500 bytes",
            equal(32, &blanks(500 - 6)),
        ),
        one("long: 8 Symbols of 2,048 bytes", equal(8, &symbol_of(2048))),
        one("long: 8 Functions of 2,046 bytes", wide.clone()),
        one("refused early: 33 entries", equal(33, &symbol_of(490))),
        one("refused early: entry 0", with(&texts, 5, 9)),
        one("refused early: entry 31", with(&texts, 2 + 4 * 31, 30)),
        one(
            "refused early: one byte left over",
            [&texts[..], &[0]].concat(),
        ),
        one("refused late: texts, last byte", spoilt(&texts)),
        one("refused late: wide, last byte", spoilt(&wide)),
    ]
}

/// The sheet that has these encodings for the blanks from here on.
fn sheet_from(blank: u16, encodings: &[Vec<u8>]) -> Vec<u8> {
    Sheet::of((blank..).zip(encodings.iter().map(|own| &own[..]))).bytes()
}

fn cases_for_fill() -> Vec<Case> {
    let int = equal(1, &[0x20]);
    let ints = |count| equal(count, &[0x20]);
    let blanks: Vec<u8> = (0..2040).map(|i| i as u8 % 32).collect();
    let wide = function(2040, &blanks, &[0x00]);
    let arrays = function(500, &[0x40, 1, 0, 0].repeat(500), &[0x20]);
    let long_blanks = function(400, &[0x45, 2, 0, 40, 0].repeat(400), &[0x20]);
    let few = function(40, &[0x00; 40], &[0x20]);
    let round = |inner: &[u8]| record(1, &[&[5, b'i', b'n', b'n', b'e', b'r'], inner].concat());
    // a short shape for each of 32 blanks
    let short: Vec<Vec<u8>> = (0..32)
        .map(|i| [&[0x20][..], &[0x60], &[0x05], &RECORD_A_B][i % 4].to_vec())
        .collect();
    let typical = |(i, template): (usize, Vec<u8>)| Input {
        first: template,
        second: sheet_from(0, &short[..1 + i % 32]),
        ..Input::default()
    };
    vec![
        two(
            "short: M12",
            &[0x41, 2, 0, 0, 1],
            &sheet_from(0, &[vec![1], vec![0]]),
        ),
        two("short: M13", &[0x40, 1, 0, 0], &int),
        two(
            "short: a Record, nothing to fill",
            &RECORD_A_B,
            &equal(0, &[]),
        ),
        Case {
            name: "typical: 256 different, 1 to 32 entries".to_string(),
            inputs: different().into_iter().enumerate().map(typical).collect(),
        },
        two("wide: 2,040 blanks, empty sheet", &wide, &equal(0, &[])),
        two("wide: 2,040 blanks, 1 entry", &wide, &ints(1)),
        two("wide: 2,040 blanks, 4 entries", &wide, &ints(4)),
        two("wide: 2,040 blanks, 32 entries", &wide, &ints(32)),
        two("wide: 500 Arrays, filled with Int", &arrays, &int),
        two(
            "wide: 500 Arrays, nothing to fill",
            &arrays,
            &sheet_from(40, &vec![vec![0x20]; 32]),
        ),
        two(
            "wide: 400 long blanks, 32 entries",
            &long_blanks,
            &sheet_from(30, &vec![vec![0x20]; 32]),
        ),
        two(
            "wide: Record of 1,000 fields",
            &record(1000, &[0x00, 0x01].repeat(1000)),
            &ints(2),
        ),
        two("wide: Record of 200 names", &named(), &ints(32)),
        two(
            "long: 40 blanks, each 50 bytes",
            &few,
            &equal(1, &symbol_of(50)),
        ),
        two(
            "long: one blank, 2,048 bytes",
            &[0x00],
            &equal(1, &symbol_of(2048)),
        ),
        two(
            "deep: 15 Arrays",
            &nested(15, &[0x00], |inner| long(0x40, inner)),
            &int,
        ),
        two("deep: 15 Records", &nested(15, &[0x00], round), &int),
        two("deep: 15 levels of 128 blanks", &deep_functions(), &ints(3)),
        two(
            "text: Symbol of 2,042 letters",
            &symbol(&[b'a'; 2042]),
            &int,
        ),
        two(
            "largest sheet: 32 of 512 bytes",
            &[0x00],
            &equal(32, &symbol_of(512)),
        ),
        two("refused early: first byte", &[0xFF; 2048], &ints(32)),
        two(
            "refused late: sheet, last byte",
            &arrays,
            &spoilt(&equal(32, &symbol_of(500))),
        ),
        two(
            "refused late: 15",
            &nested(15, &[0x00], |inner| function(100, &[0x01; 100], inner)),
            &equal(2, &[0x60]),
        ),
        two("refused late: 16", &arrays, &equal(1, &[0x45, 2, 0, 40, 0])),
    ]
}

fn cases_for_join() -> Vec<Case> {
    let empty = equal(0, &[]);
    let from = |blank, count: usize, own: &[u8]| sheet_from(blank, &vec![own.to_vec(); count]);
    let typical: Vec<Vec<u8>> = different()
        .chunks(16)
        .map(|some| sheet_from(0, some))
        .collect();
    let pairs = typical.chunks(2).map(|pair| Input {
        first: pair[0].clone(),
        second: pair[1].clone(),
        ..Input::default()
    });
    let wide = function(500, &[0x00; 500], &[0x20]);
    let deep = nested(15, &[0x00], |inner| long(0x40, inner));
    vec![
        two("short: empty with empty", &empty, &empty),
        two("short: M14", &from(0, 1, &[1]), &from(1, 1, &[0x20])),
        two("short: 32 Ints with empty", &from(0, 32, &[0x20]), &empty),
        two("short: empty with 32 Ints", &empty, &from(0, 32, &[0x20])),
        two(
            "short: 16 and 16 blanks, disjoint",
            &from(0, 16, &[20]),
            &from(16, 16, &[0x20]),
        ),
        two(
            "short: 32 and 32 blanks, equal",
            &from(0, 32, &[20]),
            &from(0, 32, &[0x20]),
        ),
        Case {
            name: "typical: 8 pairs of 16 different shapes".to_string(),
            inputs: pairs.collect(),
        },
        two(
            "long: 32 of 500 blanks, empty sheet",
            &from(0, 32, &wide),
            &empty,
        ),
        two(
            "long: 32 of 500 blanks, filled",
            &from(0, 32, &wide),
            &from(0, 32, &[0x21]),
        ),
        two(
            "long: 32 of 15 Arrays, filled",
            &from(0, 32, &deep),
            &from(0, 32, &[0x20]),
        ),
        two(
            "largest: 16 and 16 Symbols of 512",
            &from(0, 16, &symbol_of(512)),
            &from(16, 16, &symbol_of(512)),
        ),
        two(
            "largest: 32 and 32 Symbols of 512",
            &from(0, 32, &symbol_of(512)),
            &from(0, 32, &symbol_of(512)),
        ),
        two(
            "refused early: first sheet",
            &[0xFF; 2000],
            &from(0, 32, &wide),
        ),
        two(
            "refused: 64 entries",
            &from(0, 32, &[0x20]),
            &from(32, 32, &[0x20]),
        ),
        two(
            "refused late: second, last byte",
            &from(0, 16, &wide),
            &spoilt(&from(0, 16, &wide)),
        ),
        two(
            "refused late: 15 at the last",
            &from(0, 32, &deep),
            &from(0, 32, &[0x60]),
        ),
        two(
            "refused late: 17 bytes",
            &from(0, 16, &symbol_of(1000)),
            &from(16, 16, &symbol_of(1000)),
        ),
    ]
}

/// The table of an encoding.
fn table_of(encoding: &[u8]) -> Vec<u8> {
    table::whole(encoding).expect("it is accepted")
}

fn cases_for_write() -> Vec<Case> {
    let one = |name, table: Vec<u8>| one(name, &table, 0);
    let all = different().iter().map(|bytes| table_of(bytes)).collect();
    let changed = |mut table: Table, change: fn(&mut Table)| {
        change(&mut table);
        table.counted().bytes()
    };
    // nodes that share all but the last of their links
    let shared = |kind, links: u16| {
        let mut table = Table::new(
            &[(kind::BLANK, 0, 0)],
            &vec![(0, 0); links.into()],
            &[(0, 0)],
        );
        table.push_node(Node::new(kind, 0, links));
        table.counted().bytes()
    };
    let wide_record = record(200, &[5, b'f', b'i', b'e', b'l', b'd', 3].repeat(200));
    let packed = function(2042, &[0x76; 2042], &[0x76]);
    vec![
        one("short: Int", table_of(&[0x20])),
        one("short: M4's table", m4_table().bytes()),
        one("short: Array of Bool", table_of(&[0x62])),
        many("typical: 256 different shapes", all, 0),
        one("wide: Record of 200 names", table_of(&wide_record)),
        one(
            "wide: Record of 1,000 shared fields",
            shared(kind::RECORD, 1000),
        ),
        one(
            "wide: Function of 2,041 blanks",
            shared(kind::FUNCTION, 2042),
        ),
        one(
            "wide: Symbol of 2,043 empty texts",
            shared(kind::SYMBOL, 2043),
        ),
        one(
            "wide: Function of 500 Arrays",
            table_of(&function(500, &[0x40, 1, 0, 0].repeat(500), &[0x20])),
        ),
        one("deep: 15 Arrays", chain(15, Node::new(0, 0, 0)).bytes()),
        one("deep: 15 Records", table_of(&deep_records())),
        one("deep: 15 levels of 128 blanks", table_of(&deep_functions())),
        one("shared: 9 Maps of the same twice", doubled(9).bytes()),
        one("text: 2,042 letters", letters(2042).bytes()),
        one(
            "text: 510 characters of four bytes",
            table_of(&symbol("\u{1F6A1}".repeat(510).as_bytes())),
        ),
        one("packed: 2,043 Maps, 6,130 nodes", table_of(&packed)),
        one(
            "largest: 6,144 nodes, the root an Int",
            largest([0; 4]).bytes(),
        ),
        one(
            "largest: 6,144 nodes, all other sections",
            changed(largest([0; 4]), |table| {
                // the names' texts apart from each other, and Records of two fields
                table.names = (0..2048).map(|start| (start, 1)).collect();
                table.links = (0..6144).map(|link| (link % 2, link / 3)).collect();
                for node in 2..3000 {
                    table.nodes[node] = Node::new(kind::RECORD, 2 * node as u16, 2);
                }
            }),
        ),
        one(
            "worst: 6,143 Records of the same 6,144 links",
            records(6144, 6144).bytes(),
        ),
        one("refused early: no nodes", vec![0; 61_448]),
        one("refused early: 6,145 nodes", largest([1, 0, 0, 0]).bytes()),
        one(
            "refused late: the last node",
            changed(largest([0; 4]), |table| table.nodes[6143].kind = 11),
        ),
        one(
            "refused late: the last name",
            changed(largest([0; 4]), |table| table.names[2047].1 = 2049),
        ),
        one("refused late: 15", chain(6143, Node::new(0, 0, 0)).bytes()),
        one("refused late: 16", doubled(15).bytes()),
    ]
}

/// Those of `write`, with their nodes as records too.
fn cases_for_records() -> Vec<Case> {
    let mut cases = cases_for_write();
    for input in cases.iter_mut().flat_map(|case| &mut case.inputs) {
        input.records = RecordTable::of(&input.first).expect("its nodes can be records");
    }
    cases
}

fn cases_for_table() -> Vec<Case> {
    let one = |name, bytes: Vec<u8>| one(name, &bytes, 0);
    let wide = function(2040, &[0x05; 2040], &[0x20]);
    vec![
        one("short: Int", vec![0x20]),
        one("short: M4", RECORD_A_B.to_vec()),
        one("short: Array of Bool", vec![0x62]),
        many("typical: 256 different shapes", different(), 0),
        one("wide: Record of 200 names", named()),
        one(
            "wide: Record of 1,000 empty names",
            record(1000, &[0x00, 0x01].repeat(1000)),
        ),
        one("wide: Function of 2,040 blanks", wide.clone()),
        one(
            "wide: Function of 500 Arrays",
            function(500, &[0x40, 1, 0, 0].repeat(500), &[0x20]),
        ),
        one(
            "wide: Symbol of 2,043 empty texts",
            long(0x44, &[leb128(2043), vec![0; 2043]].concat()),
        ),
        one(
            "deep: 15 Arrays",
            nested(15, &[0x03], |inner| long(0x40, inner)),
        ),
        one("deep: 15 Records", deep_records()),
        one("deep: 15 levels of 128 blanks", deep_functions()),
        one("text: 2,042 letters", symbol(&[b'a'; 2042])),
        one(
            "packed: 2,043 Maps, 6,130 nodes",
            function(2042, &[0x76; 2042], &[0x76]),
        ),
        one(
            "packed: 1,021 Maps in a Record",
            record(1021, &[0, 0x76].repeat(1021)),
        ),
        one("refused early: first byte", vec![0xFF; 2048]),
        one("refused early: 2,049 bytes", vec![0x20; 2049]),
        one("refused late: wide, last byte", spoilt(&wide)),
    ]
}

/// What is measured: a call on an input, which is lent a buffer. None is inlined into the measurement.
type Program = fn(&Input, &mut [u8]) -> bool;

#[inline(never)]
fn proved_read(input: &Input, _: &mut [u8]) -> bool {
    black_box(shiulbart::read(&input.first)).is_ok()
}

#[inline(never)]
fn rust_read(input: &Input, _: &mut [u8]) -> bool {
    black_box(fast::read::<0>(&input.first)).is_ok()
}

/// Parts of so many bytes are the whole input.
const ALL: usize = usize::MAX;

/// The start, the parts of so many bytes and the finish.
#[inline(never)]
fn proved_pieces<const SIZE: usize>(input: &Input, _: &mut [u8]) -> bool {
    let mut reader = Pieces::new();
    for part in input.first.chunks(SIZE) {
        reader.feed(part);
    }
    black_box(reader.finish()).is_ok()
}

#[inline(never)]
fn rust_pieces<const SIZE: usize>(input: &Input, _: &mut [u8]) -> bool {
    let mut reader = fast::pieces::Reader::start(0);
    for part in input.first.chunks(SIZE) {
        reader.part(part);
    }
    black_box(reader.finish()).is_ok()
}

/// The start, as many empty parts as the input has bytes, and the finish.
#[inline(never)]
fn empty_pieces(input: &Input, _: &mut [u8]) -> bool {
    let mut reader = Pieces::new();
    for _ in &input.first {
        reader.feed(black_box(&[]));
    }
    black_box(reader.finish()).is_ok()
}

/// As large as the state of the piece reader, whose type is private.
#[repr(C)]
#[derive(Clone, Copy)]
struct State([u64; size_of::<Pieces>() / 8]);

const _: () = assert!(size_of::<State>() == size_of::<Pieces>());
const _: () = assert!(align_of::<State>() == align_of::<Pieces>());

/// Takes a state and a part as the piece reader's call does, and only gives the state back.
#[inline(never)]
extern "C" fn given_back(state: State, part: *const u8, length: usize) -> State {
    black_box((&state, part, length));
    state
}

/// Keeps a state between the calls, as [`Pieces`] does.
struct Keeper {
    state: State,
}

impl Keeper {
    #[inline]
    fn feed(&mut self, part: &[u8]) {
        self.state = given_back(self.state, part.as_ptr(), part.len());
    }
}

/// As many parts of one byte as the input has, with which nothing is done.
#[inline(never)]
fn kept_pieces(input: &Input, _: &mut [u8]) -> bool {
    let mut keeper = black_box(Keeper {
        state: State([0; size_of::<Pieces>() / 8]),
    });
    for part in input.first.chunks(1) {
        keeper.feed(part);
    }
    black_box(keeper).state.0[0] == 0
}

/// The start and the finish.
#[inline(never)]
fn no_pieces(_: &Input, _: &mut [u8]) -> bool {
    black_box(black_box(Pieces::new()).finish()).is_ok()
}

#[inline(never)]
fn proved_child(input: &Input, _: &mut [u8]) -> bool {
    black_box(shiulbart::child(&input.first, input.k)).is_ok()
}

#[inline(never)]
fn rust_child(input: &Input, _: &mut [u8]) -> bool {
    black_box(fast::parts::child(&input.first, input.k)).is_ok()
}

#[inline(never)]
fn proved_name(input: &Input, _: &mut [u8]) -> bool {
    black_box(shiulbart::name(&input.first, input.k)).is_ok()
}

#[inline(never)]
fn rust_name(input: &Input, _: &mut [u8]) -> bool {
    black_box(fast::parts::name(&input.first, input.k)).is_ok()
}

#[inline(never)]
fn proved_sheet(input: &Input, _: &mut [u8]) -> bool {
    black_box(shiulbart::sheet(&input.first)).is_ok()
}

#[inline(never)]
fn rust_sheet(input: &Input, _: &mut [u8]) -> bool {
    black_box(fast::sheet::check::<0>(&input.first)).is_ok()
}

#[inline(never)]
fn proved_fill(input: &Input, out: &mut [u8]) -> bool {
    black_box(shiulbart::fill(&input.first, &input.second, out)).is_ok()
}

#[inline(never)]
fn rust_fill(input: &Input, out: &mut [u8]) -> bool {
    black_box(fast::fill::fill::<0>(&input.first, &input.second, out)).is_ok()
}

#[inline(never)]
fn proved_join(input: &Input, out: &mut [u8]) -> bool {
    black_box(shiulbart::join(&input.first, &input.second, out)).is_ok()
}

#[inline(never)]
fn rust_join(input: &Input, out: &mut [u8]) -> bool {
    black_box(fast::fill::join::<0>(&input.first, &input.second, out)).is_ok()
}

#[inline(never)]
fn proved_write(input: &Input, out: &mut [u8]) -> bool {
    black_box(shiulbart::write(&input.first, out)).is_ok()
}

#[inline(never)]
fn rust_write(input: &Input, out: &mut [u8]) -> bool {
    black_box(fast::write::write(&input.first, out)).is_ok()
}

#[inline(never)]
fn proved_records(input: &Input, out: &mut [u8]) -> bool {
    let RecordTable { nodes, rest } = &input.records;
    black_box(shiulbart::write_records(nodes, rest, out)).is_ok()
}

#[inline(never)]
fn rust_records(input: &Input, out: &mut [u8]) -> bool {
    let RecordTable { nodes, rest } = &input.records;
    black_box(fast::write::write_records(nodes, rest, out)).is_ok()
}

#[inline(never)]
fn proved_table(input: &Input, out: &mut [u8]) -> bool {
    black_box(shiulbart::table(&input.first, out)).is_ok()
}

#[inline(never)]
fn rust_table(input: &Input, out: &mut [u8]) -> bool {
    black_box(fast::table::table(&input.first, out)).is_ok()
}

#[inline(never)]
fn std_utf8(input: &Input, _: &mut [u8]) -> bool {
    black_box(std::str::from_utf8(&input.first)).is_ok()
}

/// The least nanoseconds for all inputs, over many rounds, of programs that take turns.
fn least(programs: &[Program], inputs: &[Input]) -> Vec<f64> {
    let bytes: usize = inputs.iter().map(Input::bytes).sum();
    let times = (ROUND_BYTES / bytes).clamp(1, ROUND_TIMES);
    let mut out = vec![0; LONGEST];
    let mut least = vec![f64::INFINITY; programs.len()];
    let first = Instant::now();
    for round in 0..ROUNDS {
        if round >= LEAST_ROUNDS && first.elapsed() > LONG {
            break;
        }
        for (program, least) in programs.iter().zip(&mut least) {
            let start = Instant::now();
            for _ in 0..times {
                for input in inputs {
                    black_box(program(black_box(input), black_box(&mut out)));
                }
            }
            let taken = start.elapsed().as_nanos() as f64 / times as f64;
            *least = taken.min(*least);
        }
    }
    least
}

/// What a call is measured beside: the same work in Rust.
const RUST: &str = "Rust";

/// A table of a call's times, after a look that the programs agree. Each program but the proved call, the
/// first, has its ratio.
fn times(
    wanted: &Wanted,
    call: &str,
    proved: Program,
    others: &[(&str, Program)],
    cases: Vec<Case>,
    agree: impl Fn(&Input) -> bool,
) {
    if !wanted.has(call) {
        return;
    }
    let column = |(name, _): &(&str, Program)| format!(" {name}: ns a call | a byte | ratio |");
    let columns: String = others.iter().map(column).collect();
    println!("\n| `{call}` | bytes | proved: ns a call | a byte |{columns}");
    println!(
        "|---|---:|---:|---:|{}",
        "---:|---:|---:|".repeat(others.len())
    );
    let programs: Vec<Program> = [proved]
        .into_iter()
        .chain(others.iter().map(|other| other.1))
        .collect();
    for case in cases {
        for input in &case.inputs {
            assert!(agree(input), "{call}: {}", case.name);
        }
        let bytes: usize = case.inputs.iter().map(Input::bytes).sum();
        let taken = least(&programs, &case.inputs);
        let each = |ns: f64| {
            let (call, byte) = (ns / case.inputs.len() as f64, ns / bytes as f64);
            format!("{call:.1} | {byte:.3}")
        };
        let proved = taken[0];
        let other = |ns: &f64| format!(" {} | {:.2} |", each(*ns), proved / ns);
        let others: String = taken[1..].iter().map(other).collect();
        println!("| {} | {bytes} | {} |{others}", case.name, each(proved));
    }
}

/// The sizes of the parts that the piece reader is measured with.
const SIZES: [(&str, usize, Program); 4] = [
    ("in one part", ALL, proved_pieces::<ALL>),
    ("parts of 256", 256, proved_pieces::<256>),
    ("parts of 64", 64, proved_pieces::<64>),
    ("parts of 1", 1, proved_pieces::<1>),
];

/// A table of the times of the piece reader beside `read`, on the same inputs, after a look that both
/// agree; and one of its single calls.
fn times_of_pieces() {
    let columns = SIZES.map(|(size, ..)| format!(" {size}: ns | ratio |"));
    println!(
        "\n| `pieces`: start, parts and finish | bytes | `read`: ns a call |{} a part of 1: ns |",
        columns.concat()
    );
    println!("|---|---:|---:|{}---:|", "---:|---:|".repeat(SIZES.len()));
    let programs: Vec<Program> = std::iter::once(proved_read as Program)
        .chain(SIZES.map(|(.., program)| program))
        .collect();
    for case in cases_for_read() {
        for input in &case.inputs {
            let cuttings = SIZES.map(|(_, size, _)| Cuts::Each(size)).to_vec();
            let fed = Fed::new(input.first.clone(), cuttings, vec![]);
            let agree = fed.ask(pieces::proved) == fed.ask(pieces::by_read);
            assert!(agree, "pieces: {}", case.name);
        }
        let bytes: usize = case.inputs.iter().map(Input::bytes).sum();
        let taken = least(&programs, &case.inputs);
        let inputs = case.inputs.len() as f64;
        let read = taken[0];
        let column = |ns: &f64| format!(" {:.1} | {:.2} |", ns / inputs, ns / read);
        let columns: String = taken[1..].iter().map(column).collect();
        let (read, part) = (read / inputs, taken[SIZES.len()] / bytes as f64);
        println!(
            "| {} | {bytes} | {read:.1} |{columns} {part:.1} |",
            case.name
        );
    }
    println!("\n| a single call of `pieces` | ns |");
    println!("|---|---:|");
    let single = [
        ("in a wide list", function(2040, &[0x05; 2040], &[0x20])),
        (
            "in heads",
            function(500, &[0x40, 1, 0, 0].repeat(500), &[0x20]),
        ),
        ("in a text", symbol(&[b'a'; 2042])),
        ("after a fault", vec![0xFF; 2048]),
    ];
    for (i, (place, bytes)) in single.into_iter().enumerate() {
        let (case, bytes) = (one("", &bytes, 0), bytes.len() as f64);
        let programs = [kept_pieces, no_pieces, empty_pieces, proved_pieces::<1>];
        let [kept, none, empty, parts] = least(&programs, &case.inputs)[..] else {
            unreachable!("each program has its time");
        };
        if i == 0 {
            let back = "a call that takes a state and gives it back";
            println!("| {back} | {:.1} |", kept / bytes);
            println!("| the start and the finish | {none:.1} |");
            println!("| a part of no bytes | {:.1} |", (empty - none) / bytes);
        }
        println!(
            "| a part of one byte, {place} | {:.1} |",
            (parts - none) / bytes
        );
    }
}

/// The head of a table of the peak stack of a call.
fn stack_head(call: &str) {
    println!("\n| peak stack of `{call}` | proved, bytes | Rust, bytes |");
    println!("|---|---:|---:|");
}

/// The peak stack of both programs on an input.
fn stacks(programs: [Program; 2], input: &Input) -> [usize; 2] {
    programs.map(|program| peak(|out| _ = program(input, out)))
}

/// A table of the peak stack of a call on its worst inputs.
fn stack(call: &str, worst: Vec<(impl Display, Vec<u8>)>, programs: [Program; 2]) {
    stack_head(call);
    for (name, first) in worst {
        let [a, b] = stacks(
            programs,
            &Input {
                first,
                ..Input::default()
            },
        );
        println!("| {name} | {a} | {b} |");
    }
}

/// A table of the peak stack of `write_records`.
fn stack_of_records(programs: [Program; 2]) {
    stack_head("write_records");
    for (name, records) in worst_for_records() {
        let [a, b] = stacks(
            programs,
            &Input {
                records,
                ..Input::default()
            },
        );
        println!("| {name} | {a} | {b} |");
    }
}

/// A table of the peak stack of `child` or `name`: on each input the most of its ks.
fn stack_of_parts(call: &str, proved: Parts, programs: [Program; 2]) {
    stack_head(call);
    for (name, bytes) in worst_for_parts() {
        let ks = worst_ks(proved, &bytes);
        let [[a, b], [c, d]] = ks.map(|k| stacks(programs, &one("", &bytes, k).inputs[0]));
        println!("| {name} | {} | {} |", a.max(c), b.max(d));
    }
}

/// A table of the peak stack of `fill` or `join`: of its many worst inputs those that take the most.
fn stack_of_pairs(call: &str, worst: Vec<Worst>, programs: [Program; 2]) {
    const SHOWN: usize = 12;
    let taken = worst
        .into_iter()
        .map(|(name, first, second)| (stacks(programs, &two("", &first, &second).inputs[0]), name));
    let mut taken: Vec<([usize; 2], String)> = taken.collect();
    taken.sort_by_key(|([proved, _], _)| std::cmp::Reverse(*proved));
    stack_head(call);
    for ([a, b], name) in taken.into_iter().take(SHOWN) {
        println!("| {name} | {a} | {b} |");
    }
}

/// The processor's name, and whether it is an emulator's.
fn processor() -> (String, bool) {
    let info = std::fs::read_to_string("/proc/cpuinfo").unwrap_or_default();
    let line = |key: &str| {
        let line = info.lines().find(|line| line.starts_with(key))?;
        Some(line.split_once(':')?.1.trim().to_string())
    };
    // The program is for x86-64. On another processor an emulator runs it, and no vendor is named.
    let other = line("vendor_id").is_none();
    let told = told_by_processor();
    let emulator = other || told.contains("QEMU TCG") || told.contains("VirtualApple");
    let name = line("model name").unwrap_or_else(|| match line("CPU part") {
        Some(part) => format!("Arm, part {part}"),
        None => "unknown".to_string(),
    });
    (name, emulator)
}

/// What the processor calls itself.
#[cfg(target_arch = "x86_64")]
fn told_by_processor() -> String {
    let mut name = Vec::new();
    for leaf in 0x8000_0002..=0x8000_0004u32 {
        #[allow(unused_unsafe)] // it is a safe function of newer Rust
        let told = unsafe { std::arch::x86_64::__cpuid(leaf) };
        for part in [told.eax, told.ebx, told.ecx, told.edx] {
            name.extend(part.to_le_bytes());
        }
    }
    String::from_utf8_lossy(&name).into_owned()
}

fn main() -> ExitCode {
    let Some(wanted) = Wanted::named() else {
        eprintln!("{USAGE}");
        return ExitCode::from(2);
    };
    let (name, emulator) = processor();
    println!("Processor: {name}.");
    if emulator {
        println!("It runs under an emulator: the ratios are an estimate.");
    }
    times(
        &wanted,
        "read",
        proved_read,
        &[(RUST, rust_read)],
        cases_for_read(),
        |input| read::proved(&input.first) == read::fast::<0>(&input.first),
    );
    if wanted.has("pieces") {
        times_of_pieces();
    }
    times(
        &wanted,
        "child",
        proved_child,
        &[(RUST, rust_child)],
        cases_for_child(),
        |input| child::proved(&input.first, input.k) == child::fast(&input.first, input.k),
    );
    times(
        &wanted,
        "name",
        proved_name,
        &[(RUST, rust_name)],
        cases_for_name(),
        |input| name::proved(&input.first, input.k) == name::fast(&input.first, input.k),
    );
    times(
        &wanted,
        "sheet",
        proved_sheet,
        &[(RUST, rust_sheet)],
        cases_for_sheet(),
        |input| sheet::proved(&input.first) == sheet::fast::<0>(&input.first),
    );
    times(
        &wanted,
        "fill",
        proved_fill,
        &[(RUST, rust_fill)],
        cases_for_fill(),
        |input| {
            let pair = Pair::new(input.first.clone(), input.second.clone(), fill::whole);
            pair.ask(fill::proved) == pair.ask(fill::fast::<0>)
        },
    );
    times(
        &wanted,
        "join",
        proved_join,
        &[(RUST, rust_join)],
        cases_for_join(),
        |input| {
            let pair = Pair::new(input.first.clone(), input.second.clone(), join::whole);
            pair.ask(join::proved) == pair.ask(join::fast::<0>)
        },
    );
    times(
        &wanted,
        "write",
        proved_write,
        &[(RUST, rust_write)],
        cases_for_write(),
        |input| {
            let single = Single::new(input.first.clone(), write::whole);
            single.ask(write::proved) == single.ask(write::fast)
        },
    );
    times(
        &wanted,
        "write_records",
        proved_records,
        &[("`write`", proved_write), (RUST, rust_records)],
        cases_for_records(),
        |input| {
            let single = Single::new(input.first.clone(), write::whole);
            let records = Records::new(input.records.clone(), write_records::whole);
            let said = records.ask(write_records::proved);
            said == records.ask(write_records::fast) && said == single.ask(write::proved)
        },
    );
    times(
        &wanted,
        "table",
        proved_table,
        &[(RUST, rust_table)],
        cases_for_table(),
        |input| {
            let single = Single::new(input.first.clone(), table::whole);
            single.ask(table::proved) == single.ask(table::fast)
        },
    );
    if wanted.has("text") {
        time_of_text();
    }
    if wanted.has("stack") {
        all_stacks();
    }
    ExitCode::SUCCESS
}

/// A table of the time that a text takes by itself.
fn time_of_text() {
    println!("\n| the text alone, `std::str::from_utf8` | bytes | ns a byte |");
    println!("|---|---:|---:|");
    for (name, text) in [
        ("2,042 letters", "a".repeat(2042)),
        ("1,021 characters of two bytes", "é".repeat(1021)),
        ("510 characters of four bytes", "\u{1F6A1}".repeat(510)),
    ] {
        let case = one(name, text.as_bytes(), 0);
        let taken = least(&[std_utf8], &case.inputs);
        let bytes = text.len();
        println!("| {name} | {bytes} | {:.3} |", taken[0] / bytes as f64);
    }
}

/// The tables of the peak stack.
fn all_stacks() {
    stack("read", worst_for_read(), [proved_read, rust_read]);
    stack(
        "pieces, in one part",
        worst_for_pieces(),
        [proved_pieces::<ALL>, rust_pieces::<ALL>],
    );
    stack(
        "pieces, in parts of one byte",
        worst_for_pieces(),
        [proved_pieces::<1>, rust_pieces::<1>],
    );
    stack_of_parts("child", child::proved, [proved_child, rust_child]);
    stack_of_parts("name", name::proved, [proved_name, rust_name]);
    stack("sheet", worst_for_sheet(), [proved_sheet, rust_sheet]);
    stack_of_pairs("fill", worst_for_fill(), [proved_fill, rust_fill]);
    stack_of_pairs("join", worst_for_join(), [proved_join, rust_join]);
    stack("write", worst_for_write(), [proved_write, rust_write]);
    stack_of_records([proved_records, rust_records]);
    stack("table", worst_for_table(), [proved_table, rust_table]);
}
