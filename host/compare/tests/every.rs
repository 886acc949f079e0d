//! Small inputs without a gap: the three programs agree on all of them.

use compare::cases::fills::{FillInputs, JoinInputs};
use compare::cases::sheets::{equal, symbol_of, Sheet};
use compare::cases::table::{kind, m4_table, Node, RecordTable, Table};
use compare::cases::tables::records::RecordInputs;
use compare::cases::tables::{EncodingInputs, WriteInputs};
use compare::cases::{function, leb128, long, nested, record};
use compare::question::{feed, Cuts, Fed, Pair, Question, Records, Single};
use compare::stack::worst_for_read;
use compare::{child, fill, join, name, pieces, read, sheet, table, write, write_records};
use compare::{MakesOfRecords, Outcome};
use shiulbart::NodeRecord;

fn agree(bytes: &[u8]) {
    let right = read::model(bytes);
    assert_eq!(read::proved(bytes), right, "proved, on {bytes:02X?}");
    assert_eq!(read::fast::<0>(bytes), right, "fast, on {bytes:02X?}");
}

fn parts_agree(bytes: &[u8], k: u64) {
    let right = child::model(bytes, k);
    let on = || format!("child {k} of {bytes:02X?}");
    assert_eq!(child::proved(bytes, k), right, "proved, {}", on());
    assert_eq!(child::fast(bytes, k), right, "fast, {}", on());
    let right = name::model(bytes, k);
    let on = || format!("name {k} of {bytes:02X?}");
    assert_eq!(name::proved(bytes, k), right, "proved, {}", on());
    assert_eq!(name::fast(bytes, k), right, "fast, {}", on());
}

fn sheets_agree(bytes: &[u8]) {
    let right = sheet::model(bytes);
    assert_eq!(sheet::proved(bytes), right, "proved, on {bytes:02X?}");
    assert_eq!(sheet::fast::<0>(bytes), right, "fast, on {bytes:02X?}");
}

fn fills_agree(template: &[u8], sheet: &[u8]) {
    let pair = Pair::new(template.to_vec(), sheet.to_vec(), fill::whole);
    let right = pair.right();
    assert!(pair.ask(fill::proved) == right, "proved, on {pair}");
    assert!(pair.ask(fill::fast::<0>) == right, "fast, on {pair}");
}

fn joins_agree(first: &[u8], second: &[u8]) {
    let pair = Pair::new(first.to_vec(), second.to_vec(), join::whole);
    let right = pair.right();
    assert!(pair.ask(join::proved) == right, "proved, on {pair}");
    assert!(pair.ask(join::fast::<0>) == right, "fast, on {pair}");
}

fn writes_agree(table: &[u8]) {
    let single = Single::new(table.to_vec(), write::whole);
    let right = single.right();
    assert!(single.ask(write::proved) == right, "proved, on {single}");
    assert!(single.ask(write::fast) == right, "fast, on {single}");
    // and with the nodes as records, if they can be
    if let Some(table) = RecordTable::of(table) {
        let records = records_agree(table);
        assert!(records.right() == right, "model, on {records}");
    }
}

fn records_agree(table: RecordTable) -> Records {
    let records = Records::new(table, write_records::whole);
    let right = records.right();
    for (name, program) in [
        ("proved", write_records::proved as MakesOfRecords),
        ("fast", write_records::fast),
        ("in bytes", write_records::in_bytes),
    ] {
        assert!(records.ask(program) == right, "{name}, on {records}");
    }
    records
}

fn tables_agree(bytes: &[u8]) {
    let single = Single::new(bytes.to_vec(), table::whole);
    let right = single.right();
    assert!(single.ask(table::proved) == right, "proved, on {single}");
    assert!(single.ask(table::fast) == right, "fast, on {single}");
}

/// An input that is cut in these ways, with a part after the finish.
fn pieces_agree(bytes: &[u8], cuttings: &[Cuts], after: &[u8]) {
    fed_agrees(Fed::new(bytes.to_vec(), cuttings.to_vec(), after.to_vec()));
}

/// An input in one part, cut in two at each of its places, and into bytes.
fn pieces_agree_everywhere(bytes: &[u8], after: &[u8]) {
    let one_part = vec![Cuts::At(vec![])];
    fed_agrees(Fed::new(bytes.to_vec(), one_part, after.to_vec()).everywhere());
}

/// The finish of the model, too, must say what `right` tells of it.
fn fed_agrees(fed: Fed) {
    let right = fed.right();
    assert!(fed.ask(pieces::proved) == right, "proved, on {fed}");
    assert!(fed.ask(pieces::fast::<0>) == right, "fast, on {fed}");
    assert!(fed.ask(pieces::by_read) == right, "read, on {fed}");
    let model = feed::<model::pieces::Pieces>(&fed);
    assert!(model == right, "model, on {fed}");
}

/// Every set of the places of an input of so many bytes, in which each place is at most once.
fn all_cuts(length: usize) -> Vec<Cuts> {
    let set = |set: usize| (0..=length).filter(|place| set >> place & 1 == 1).collect();
    (0..2 << length)
        .map(|number| Cuts::At(set(number)))
        .collect()
}

/// The first parts, and numbers that are far too large.
const KS: [u64; 7] = [0, 1, 2, 3, 1 << 32, 1 << 63, u64::MAX];

#[test]
fn every_input_of_up_to_two_bytes() {
    agree(&[]);
    for first in 0..=255 {
        agree(&[first]);
        for second in 0..=255 {
            agree(&[first, second]);
        }
    }
}

#[test]
fn every_payload_of_up_to_two_bytes() {
    for first in 64..=69 {
        agree(&[first, 0, 0]);
        for a in 0..=255 {
            agree(&[first, 1, 0, a]);
            for b in 0..=255 {
                agree(&[first, 2, 0, a, b]);
            }
        }
    }
}

#[test]
fn every_text_of_two_bytes() {
    for a in 0..=255 {
        for b in 0..=255 {
            agree(&[0x44, 4, 0, 1, 2, a, b]);
        }
    }
}

/// The bytes on both sides of each border that UTF-8 has.
#[test]
fn every_text_of_four_telling_bytes() {
    const TELLING: [u8; 18] = [
        0x00, 0x7F, 0x80, 0x8F, 0x90, 0x9F, 0xA0, 0xBF, 0xC1, 0xC2, 0xDF, 0xE0, 0xED, 0xEF, 0xF0,
        0xF3, 0xF4, 0xF5,
    ];
    for a in TELLING {
        for b in TELLING {
            for c in TELLING {
                for d in TELLING {
                    agree(&[0x44, 6, 0, 1, 4, a, b, c, d]);
                    agree(&[0x44, 7, 0, 2, 3, a, b, c, 0, d]);
                }
            }
        }
    }
}

#[test]
fn the_parts_of_every_input_of_up_to_two_bytes() {
    for k in KS {
        parts_agree(&[], k);
        for first in 0..=255 {
            parts_agree(&[first], k);
            for second in 0..=255 {
                parts_agree(&[first, second], k);
            }
        }
    }
}

#[test]
fn the_parts_of_every_payload_of_up_to_two_bytes() {
    for k in KS {
        for first in 64..=69 {
            parts_agree(&[first, 0, 0], k);
            for a in 0..=255 {
                parts_agree(&[first, 1, 0, a], k);
                for b in 0..=255 {
                    parts_agree(&[first, 2, 0, a, b], k);
                }
            }
        }
    }
}

/// Payloads of four bytes that mean something in a list.
#[test]
fn the_parts_of_every_list_of_telling_bytes() {
    const TELLING: [u8; 10] = [0, 1, 2, 3, 0x20, 0x24, 0x60, 0x76, 0x61, 0xC3];
    for first in 64..=69 {
        for a in TELLING {
            for b in TELLING {
                for c in TELLING {
                    for d in TELLING {
                        for k in KS {
                            parts_agree(&[first, 4, 0, a, b, c, d], k);
                        }
                    }
                }
            }
        }
    }
}

/// Lists whose count takes one byte or two, and all of their parts.
#[test]
fn all_parts_of_lists_of_up_to_300() {
    for count in (0..4usize).chain(126..131).chain([255, 256, 300]) {
        let fields = [0, 0x60, 1, b'n', 0x21].repeat(count.div_ceil(2));
        let fields = match count % 2 {
            0 => &fields[..],
            _ => &fields[..fields.len() - 3],
        };
        let texts = [
            leb128(count),
            [0, 2, 0xC3, 0xA9].repeat(count / 2),
            vec![0; count % 2],
        ];
        for bytes in [
            function(count, &vec![0x05; count], &[0x40, 1, 0, 0x00]),
            function(count, &[0x40, 1, 0, 0x00].repeat(count), &[0x20]),
            record(count, fields),
            long(0x44, &texts.concat()),
        ] {
            assert_eq!(read::model(&bytes).number, 0);
            (0..count as u64 + 3).for_each(|k| parts_agree(&bytes, k));
        }
    }
}

/// Names and fields whose length or size takes one byte or two.
#[test]
fn parts_after_long_names_and_fields() {
    for letters in [0, 1, 126, 127, 128, 129, 255, 256, 257, 450] {
        let name = [leb128(letters), vec![b'a'; letters]].concat();
        let field = long(0x44, &[&[1], &name[..]].concat());
        let fields = [&name, &[0x20][..], &name, &field, &[0], &field].concat();
        for bytes in [
            record(3, &fields),
            function(2, &[&field[..], &[0x76]].concat(), &field),
            long(0x41, &[&field[..], &field].concat()),
            long(0x44, &[&[2], &name[..], &name].concat()),
        ] {
            assert_eq!(read::model(&bytes).number, 0);
            KS.into_iter().for_each(|k| parts_agree(&bytes, k));
        }
    }
}

/// Each count of entries, with no byte after it, one, as many as the entries take and a few more.
#[test]
fn sheets_of_every_count() {
    sheets_agree(&[]);
    for low in 0..=255u8 {
        sheets_agree(&[low]);
        for high in 0..=255u8 {
            sheets_agree(&[low, high]);
            sheets_agree(&[low, high, 0]);
            sheets_agree(&[low, high, 0, 0]);
            // the second count of an empty sheet, and that of M13's
            sheets_agree(&[0, 0, low, high]);
            sheets_agree(&[0, 0, low, high, 0x20]);
            sheets_agree(&[1, 0, 0, 0, 1, 0, low, high, 0x20]);
            // the number, the length and, of another sheet, the second number
            sheets_agree(&[1, 0, low, high, 1, 0, 1, 0, 0x20]);
            sheets_agree(&[1, 0, 0, 0, low, high, low, high, 0x20]);
            sheets_agree(&[2, 0, 0x80, 0x80, 1, 0, low, high, 1, 0, 2, 0, 0x20, 0x20]);
            // two bytes that are two encodings, or one
            sheets_agree(&[2, 0, 0, 0, 1, 0, 1, 0, 1, 0, 2, 0, low, high]);
            sheets_agree(&[1, 0, 0, 0, 2, 0, 2, 0, low, high]);
        }
    }
}

/// All that stands in a small sheet, in each mixture, cut at each place.
#[test]
fn small_sheets_in_every_mixture() {
    for count in 0..=3 {
        for blanks in [[0, 1], [1, 1], [1, 0]] {
            for first in 0..=2 {
                for second in 0..=2 {
                    for total in 0..=5 {
                        for bytes in 0..=5 {
                            for byte in [0x20, 0xFF] {
                                let head =
                                    [count, 0, blanks[0], 0, first, 0, blanks[1], 0, second, 0];
                                let mut sheet = head.to_vec();
                                sheet.extend([total, 0]);
                                sheet.resize(sheet.len() + bytes, byte);
                                (0..=sheet.len()).for_each(|cut| sheets_agree(&sheet[..cut]));
                            }
                        }
                    }
                }
            }
        }
    }
}

/// 0 to 34 entries of 1 to 2,049 bytes, whose sum may pass 16,384 and 65,535.
#[test]
fn sheets_of_every_number_of_entries() {
    for count in 0..=34 {
        sheets_agree(&equal(count, &[0x20]));
        for bytes in [5, 511, 512, 513, 1927, 1928, 2047, 2048, 2049] {
            let sheet = equal(count, &symbol_of(bytes));
            sheets_agree(&sheet);
            sheets_agree(&sheet[..sheet.len() - 1]);
            sheets_agree(&[&sheet[..], &[0]].concat());
        }
    }
}

/// The sheet that has these encodings for these blanks.
fn sheet_of(blanks: &[(u16, &[u8])]) -> Vec<u8> {
    Sheet::of(blanks.iter().copied()).bytes()
}

/// Each shape of one byte, alone and in each list, filled with each.
#[test]
fn fills_of_every_short_shape_by_every_other() {
    let short = || (0..=36u8).chain(96..=125);
    for put in short() {
        let sheet = sheet_of(&[(0, &[put]), (5, &[0x20])]);
        for byte in short() {
            fills_agree(&[byte], &sheet);
        }
        for template in [
            &[0x40, 1, 0, 0][..],
            &[0x41, 2, 0, 0, 0],
            &[0x41, 2, 0, 0, 5],
            &[0x41, 2, 0, 5, 0],
            &[0x41, 2, 0, 0, 0x24],
            &[0x41, 2, 0, 0x21, 0],
            &[0x41, 2, 0, 0x60, 0],
            &[0x42, 5, 0, 2, 0, 0, 0, 0],
            &[0x43, 4, 0, 2, 0, 0x20, 0],
            &[0x40, 4, 0, 0x40, 1, 0, 0],
            &[0x44, 3, 0, 1, 1, 0],
        ] {
            fills_agree(template, &sheet);
        }
    }
}

/// Blanks of all sizes, in a sheet that names their neighbours and those of the same low byte.
#[test]
fn fills_of_blanks_of_every_size() {
    let all = [
        0u16, 1, 30, 31, 32, 33, 255, 256, 257, 287, 288, 8192, 65_535,
    ];
    let blank = |number: u16| match number {
        0..=31 => vec![number as u8],
        _ => long(0x45, &number.to_le_bytes()),
    };
    for number in all {
        for template in [blank(number), long(0x40, &blank(number))] {
            for other in all {
                fills_agree(&template, &sheet_of(&[(other, &[0x20])]));
                fills_agree(&template, &sheet_of(&[(other, &blank(number))]));
                joins_agree(
                    &sheet_of(&[(other, &template)]),
                    &sheet_of(&[(number, &[0x24])]),
                );
            }
            let without: Vec<(u16, &[u8])> = all
                .iter()
                .filter(|other| **other != number)
                .map(|other| (*other, &[0x20][..]))
                .collect();
            fills_agree(&template, &sheet_of(&without));
        }
    }
}

/// Lists whose count takes one byte or two, and sizes that do.
#[test]
fn fills_of_lists_of_up_to_300() {
    for count in (0..4usize).chain(126..131).chain([255, 256, 300]) {
        let fields = [1, b'n', 0].repeat(count);
        for put in [
            &[0x20][..],
            &[0x60],
            &[3],
            &symbol_of(6),
            &[0x45, 2, 0, 40, 0],
        ] {
            let sheet = sheet_of(&[(0, put)]);
            fills_agree(&function(count, &vec![0; count], &[0]), &sheet);
            fills_agree(
                &function(count, &[0x40, 1, 0, 0].repeat(count), &[0]),
                &sheet,
            );
            fills_agree(&record(count, &fields), &sheet);
        }
    }
}

/// All pairs of small sheets whose shapes are blanks of the other, or broken.
#[test]
fn joins_of_small_sheets() {
    let mut sheets = vec![vec![], vec![0; 4], vec![0; 5], vec![33, 0]];
    for blanks in [
        &[0][..],
        &[1],
        &[40],
        &[0, 1],
        &[0, 40],
        &[1, 40],
        &[0, 1, 40],
    ] {
        for shift in 0..4 {
            let owns: [&[u8]; 4] = [&[1], &[0x20], &[0x40, 1, 0, 0], &[0x45, 2, 0, 40, 0]];
            let own = |i: usize| owns[(i + shift) % 4];
            let entries: Vec<(u16, &[u8])> = (0..).zip(blanks).map(|(i, b)| (*b, own(i))).collect();
            sheets.push(sheet_of(&entries));
        }
    }
    for first in &sheets {
        for second in &sheets {
            joins_agree(first, second);
        }
    }
}

/// Each number in the place of each count.
#[test]
fn tables_of_every_count() {
    writes_agree(&[]);
    let int = Table::new(&[(0, 0, 0)], &[], &[]);
    for count in (0..=300).chain((0..=65_535).step_by(61)) {
        for section in 0..4 {
            for table in [&int, &m4_table()] {
                let mut table = table.clone();
                table.counts[section] = count;
                writes_agree(&table.bytes());
            }
        }
    }
    // with entries for all of it, at and next to each limit
    for (section, most) in [6144, 6144, 2048, 2048].into_iter().enumerate() {
        for count in [most - 1, most, most + 1] {
            let mut table = int.clone();
            match section {
                0 => table.nodes.resize(count, Node::new(0, 0, 0)),
                1 => table.links.resize(count, (1, 1)),
                2 => table.names.resize(count, (0, 0)),
                _ => table.text.resize(count, 0xFF),
            }
            writes_agree(&table.counted().bytes());
        }
    }
}

/// Each byte of M4's table changed to each other.
#[test]
fn every_byte_of_a_table_changed() {
    let bytes = m4_table().bytes();
    for place in 0..bytes.len() {
        for byte in 0..=255 {
            let mut bytes = bytes.clone();
            bytes[place] = byte;
            writes_agree(&bytes);
        }
    }
}

/// A node of each kind, with each a and b and each sort of links.
#[test]
fn every_small_node() {
    let targets = [(0, 0), (1, 0), (0, 1), (2, 0), (0, 2), (3, 3)];
    for kind in 0..=11 {
        for a in [0, 1, 2, 3, 31, 32, 65_534, 65_535] {
            for b in [0, 1, 2, 3, 4, 65_535] {
                let node = (kind, a, b);
                // alone, before the root, and as the root
                writes_agree(&Table::new(&[node], &[], &[]).bytes());
                for link in targets {
                    let links = [(0, 0), link, (1, 0)];
                    for nodes in [[(0, 0, 0), node, (0, 0, 0)], [(0, 0, 0), (10, 7, 0), node]] {
                        let table = Table::new(&nodes, &links, &[(0, 1), (1, 2)]);
                        writes_agree(&table.with_text("a\u{E9}".as_bytes()).bytes());
                    }
                }
            }
        }
    }
}

/// Each range of a short text, good or not.
#[test]
fn every_name_of_a_short_text() {
    for text in ["a\u{E9}\u{20AC}\u{1F6A1}z".as_bytes(), b"a\xFFbc\xC3"] {
        for start in (0..13).chain([65_535]) {
            for length in (0..13).chain([65_535]) {
                let nodes = [(kind::SYMBOL, 0, 1)];
                let table = Table::new(&nodes, &[(0, 0)], &[(start, length)]);
                writes_agree(&table.with_text(text).bytes());
            }
        }
    }
}

/// Lists whose count takes one byte or two, of each kind.
#[test]
fn tables_of_lists_of_up_to_300() {
    for count in (0..4).chain(126..131).chain([255, 256, 300]) {
        for kind in [kind::RECORD, kind::FUNCTION, kind::SYMBOL] {
            for name in [0, 1, 127, 128] {
                let nodes = [(0, 0, 0), (kind, 0, count)];
                let table = Table::new(&nodes, &vec![(0, 0); count as usize], &[(0, name)]);
                writes_agree(&table.with_text(&vec![b'a'; name as usize]).bytes());
            }
        }
    }
}

/// Each number of records up to the first hundreds, and more by steps, before each sort of rest.
#[test]
fn records_of_every_count() {
    let int = NodeRecord::default();
    let near = |count: usize| count - 3..count + 3;
    let counts = (0..300)
        .chain((300..140_000).step_by(2999))
        .chain(near(6144))
        .chain(near(65_536))
        .chain(near(65_536 + 6144));
    for count in counts {
        for rest in [&[0; 6][..], &[], &[0], &[1, 0, 0, 0], &[0; 7]] {
            records_agree(RecordTable {
                nodes: vec![int; count],
                rest: rest.to_vec(),
            });
        }
    }
}

/// Each first count of the rest, with no records, with one and with two.
#[test]
fn the_rest_of_every_count() {
    for nodes in [&[][..], &[(0, 0, 0)], &[(10, 9, 0), (5, 0, 1)]] {
        let record = |&(kind, a, b): &(u8, u16, u16)| NodeRecord::new(kind, a, b);
        let nodes: Vec<NodeRecord> = nodes.iter().map(record).collect();
        for count in (0..=300u16).chain((0..=65_535).step_by(61)) {
            let mut rest = count.to_le_bytes().to_vec();
            rest.extend([0; 8]);
            let nodes = nodes.clone();
            records_agree(RecordTable { nodes, rest });
        }
    }
}

#[test]
fn the_tables_of_every_input_of_up_to_two_bytes() {
    tables_agree(&[]);
    for first in 0..=255 {
        tables_agree(&[first]);
        for second in [0, 1, 0x20, 0xFF] {
            tables_agree(&[first, second]);
        }
    }
}

#[test]
fn the_tables_of_every_payload_of_telling_bytes() {
    const TELLING: [u8; 12] = [0, 1, 2, 3, 31, 0x20, 0x24, 0x60, 0x76, 0x61, 0xC3, 0x7D];
    for first in 64..=69 {
        tables_agree(&[first, 0, 0]);
        for a in TELLING {
            tables_agree(&[first, 1, 0, a]);
            for b in TELLING {
                tables_agree(&[first, 2, 0, a, b]);
                for c in TELLING {
                    tables_agree(&[first, 3, 0, a, b, c]);
                }
            }
        }
    }
}

/// Lists in one another, whose counts and lengths take one byte or two.
#[test]
fn the_tables_of_lists_of_up_to_300() {
    for count in (0..4usize).chain(126..131).chain([255, 256, 300]) {
        let fields = [1, b'n', 0x76].repeat(count);
        let texts = [leb128(count), [1, b't'].repeat(count)].concat();
        for list in [
            record(count, &fields),
            function(count, &vec![0x60; count], &[0x45, 2, 0, 40, 1]),
            long(0x44, &texts),
        ] {
            tables_agree(&list);
            tables_agree(&nested(3, &list, |inner| {
                record(2, &[&[1, b'a', 0x42, 1, 0, 0, 1, b'b'], inner].concat())
            }));
        }
    }
}

/// What a table's check in the safe crate says is what the model's first refusals are.
#[test]
fn taken_apart_as_the_model_does() {
    for bytes in WriteInputs::new(1).take(1500) {
        let broken = match write::whole(&bytes) {
            Err(refusal) if (9..=11).contains(&refusal.number) => {
                Some((refusal.number, refusal.place))
            }
            _ => None,
        };
        match shiulbart::Table::parse(&bytes) {
            Ok(table) => {
                assert_eq!(broken, None);
                assert!(table.to_bytes() == bytes);
                // each part of it can be looked at
                let words: usize = table.nodes().map(|node| format!("{node:?}").len()).sum();
                assert!(words > 0 && table.names().all(|name| name.len() <= 2048));
            }
            Err(refusal) => assert_eq!(broken, Some((refusal.number(), refusal.place()))),
        }
    }
}

/// What `Pair`, `Single` and `Records` say of a short buffer is what the model itself says with that much room.
#[test]
fn twelve_is_the_models_own() {
    let says = |said: Result<Vec<u8>, model::Refusal>| match said {
        Ok(answer) => Outcome::answer(answer.len(), 0),
        Err(refusal) => Outcome::refusal(refusal.number, refusal.place),
    };
    for (first, second) in FillInputs::new(1).take(300) {
        let pair = Pair::new(first, second, fill::whole);
        for (lent, &room) in pair.right().0.iter().zip(&pair.rooms) {
            let own = says(model::sheet::fill(&pair.first, &pair.second, room));
            assert_eq!(lent.outcome, own);
        }
    }
    for (first, second) in JoinInputs::new(1).take(100) {
        let pair = Pair::new(first, second, join::whole);
        for (lent, &room) in pair.right().0.iter().zip(&pair.rooms) {
            let own = says(model::sheet::join(&pair.first, &pair.second, room));
            assert_eq!(lent.outcome, own);
        }
    }
    for bytes in WriteInputs::new(1).take(300) {
        let single = Single::new(bytes, write::whole);
        for (lent, &room) in single.right().0.iter().zip(&single.rooms) {
            assert_eq!(lent.outcome, says(model::table::write(&single.bytes, room)));
        }
    }
    for table in RecordInputs::new(1).take(300) {
        let records = Records::new(table, write_records::whole);
        let RecordTable { nodes, rest } = &records.table;
        let nodes = write_records::of_model(nodes);
        for (lent, &room) in records.right().0.iter().zip(&records.rooms) {
            let own = says(model::table::write_records(&nodes, rest, room));
            assert_eq!(lent.outcome, own);
        }
    }
    for bytes in EncodingInputs::new(1).take(300) {
        let single = Single::new(bytes, table::whole);
        for (lent, &room) in single.right().0.iter().zip(&single.rooms) {
            let own = says(model::table::to_table(&single.bytes, room));
            assert_eq!(lent.outcome, own);
        }
    }
}

#[test]
fn every_cut_of_every_input_of_up_to_two_bytes() {
    let after = [0x20];
    pieces_agree(&[], &[vec![], vec![0], vec![0, 0]].map(Cuts::At), &after);
    pieces_agree_everywhere(&[], &after);
    for first in 0..=255 {
        pieces_agree(&[first], &all_cuts(1), &after);
        for second in 0..=255 {
            pieces_agree(&[first, second], &all_cuts(2), &after);
        }
    }
}

/// Payloads of up to two bytes, and those whose size says that they are longer or shorter.
#[test]
fn every_cut_of_every_payload_of_up_to_two_bytes() {
    for first in 64..=69 {
        for size in 0..=3 {
            pieces_agree(&[first, size, 0], &all_cuts(3), &[]);
            for a in 0..=255 {
                pieces_agree(&[first, size, 0, a], &all_cuts(4), &[a]);
            }
        }
        for (a, b) in (0..=255).flat_map(|a| (0..=255).map(move |b| (a, b))) {
            pieces_agree_everywhere(&[first, 2, 0, a, b], &[b]);
        }
    }
}

/// Payloads of four bytes that mean something in a list, or in a list of lists, cut in every way.
#[test]
fn every_cut_of_every_list_of_telling_bytes() {
    const TELLING: [u8; 7] = [0, 1, 2, 0x20, 0x40, 0x60, 0xC3];
    let cuts = all_cuts(7);
    for first in 64..=69 {
        for number in 0..TELLING.len().pow(4) {
            let byte = |power| TELLING[number / TELLING.len().pow(power) % TELLING.len()];
            let bytes = [first, 4, 0, byte(0), byte(1), byte(2), byte(3)];
            pieces_agree(&bytes, &cuts, &[byte(0)]);
        }
    }
}

/// The bytes on both sides of each border that UTF-8 has, cut at each of them, and into bytes.
#[test]
fn every_cut_of_texts_of_three_telling_bytes() {
    const TELLING: [u8; 18] = [
        0x00, 0x7F, 0x80, 0x8F, 0x90, 0x9F, 0xA0, 0xBF, 0xC1, 0xC2, 0xDF, 0xE0, 0xED, 0xEF, 0xF0,
        0xF3, 0xF4, 0xF5,
    ];
    for number in 0..TELLING.len().pow(3) {
        let byte = |power| TELLING[number / TELLING.len().pow(power) % TELLING.len()];
        let [a, b, c] = [byte(0), byte(1), byte(2)];
        for d in [0x41, 0x80, 0xC2] {
            // the text is complete, ends early, and never ends
            pieces_agree_everywhere(&[0x44, 6, 0, 1, 4, a, b, c, d], &[0x80]);
            pieces_agree_everywhere(&[0x44, 7, 0, 2, 3, a, b, c, 0, d], &[0x80]);
            pieces_agree_everywhere(&[0x44, 9, 0, 1, 7, a, b, c, d], &[0x80]);
        }
    }
}

/// Each worst input, and what is left of it when it is cut off at each place, fed in one part and byte by
/// byte: every state on the way is the same, and is finished.
#[test]
fn the_worst_inputs_up_to_every_place() {
    for (_, bytes) in worst_for_read() {
        let mut reader = shiulbart::Pieces::new();
        for stop in 0..=bytes.len() {
            let right = pieces::model(&[&bytes[..stop]]);
            let mut whole = shiulbart::Pieces::new();
            whole.feed(&bytes[..stop]);
            assert!(whole == reader, "cut off at {stop}: {bytes:02X?}");
            assert_eq!(whole.count(), stop);
            let said = match whole.finish() {
                Ok(accepted) => Outcome::answer(accepted.length, accepted.depth as usize),
                Err(refusal) => Outcome::refusal(refusal.number(), refusal.place()),
            };
            assert_eq!(said, right, "cut off at {stop}: {bytes:02X?}");
            if let Some(byte) = bytes.get(stop) {
                reader.feed(&[*byte]);
            }
        }
    }
}
