//! The peak stack of a call, by painting: in a thread of its own the stack below the caller is
//! filled with a pattern, the call is made, and the lowest byte that lost the pattern says how far
//! down the call went. What an empty call takes is subtracted.

use crate::cases::sheets::{equal, symbol_of, Sheet};
use crate::cases::table::{
    chain, doubled, kind, largest, letters, m4_table, records, Node, RecordTable, Table,
};
use crate::cases::{function, leb128, long, nested, record, symbol};
use crate::Parts;

/// What a call may take. The state of the piece reader goes in and out by value, and its caller's copies
/// count. `write` notes something of each of up to 6,144 nodes, and `write_records` holds their section, of
/// 36,864 bytes, beside that.
pub const MOST_FOR_READ: usize = 4096;
pub const MOST_FOR_PIECES: usize = 4096;
pub const MOST_FOR_ANOTHER: usize = 8192;
pub const MOST_FOR_TABLES: usize = 32_768;
pub const MOST_FOR_RECORDS: usize = 65_536;

/// Painted below the caller: far more than any call may take.
const PAINTED: usize = 512 * 1024;
const THREAD: usize = 4 * PAINTED;
const PATTERN: u64 = 0xA5C3_5A3C_A5C3_5A3C;

/// The peak stack of a call, in bytes. It is lent a buffer that no answer is longer than.
pub fn peak(call: impl Fn(&mut [u8]) + Sync) -> usize {
    in_a_thread(&call).saturating_sub(in_a_thread(&|_| ()))
}

fn in_a_thread(call: &(dyn Fn(&mut [u8]) + Sync)) -> usize {
    std::thread::scope(|scope| {
        std::thread::Builder::new()
            .stack_size(THREAD)
            .spawn_scoped(scope, || {
                let mut out = vec![0; LONGEST];
                call(&mut out); // what is set up at the first call only is not the call's
                painted(call, &mut out)
            })
            .expect("a thread")
            .join()
            .expect("the call ends")
    })
}

/// The painting and the search are single instructions, so that they take no stack themselves.
#[cfg(target_arch = "x86_64")]
#[inline(never)]
fn painted(call: &(dyn Fn(&mut [u8]) + Sync), out: &mut [u8]) -> usize {
    use std::arch::asm;
    let top: usize;
    let words = PAINTED / 8;
    let left: usize;
    // Safety: the thread's stack holds the painted bytes, and nothing lives below the frame of a
    // function that makes calls.
    unsafe {
        asm!("mov {}, rsp", out(reg) top, options(nomem, nostack, preserves_flags));
        let bottom = (top & !7) - PAINTED;
        asm!("rep stosq", inout("rdi") bottom => _, inout("rcx") words => _, in("rax") PATTERN);
        call(out);
        asm!("repe scasq", inout("rdi") bottom => _, inout("rcx") words => left, in("rax") PATTERN);
    }
    8 * (left + 1) // the first word that lost the pattern, and those above it
}

/// The stored worst inputs for `read`.
pub fn worst_for_read() -> Vec<(&'static str, Vec<u8>)> {
    const EMPTY_RECORD: [u8; 4] = [0x42, 0x01, 0x00, 0x00];
    const CUT_SYMBOL: [u8; 5] = [0x44, 0x02, 0x00, 0x01, 0x05];
    vec![
        ("one byte", vec![0x20]),
        (
            "Function of 2,040 blanks",
            function(2040, &[0x00].repeat(2040), &[0x01]),
        ),
        (
            "Record of 1,000 fields",
            record(1000, &[0x00, 0x01].repeat(1000)),
        ),
        (
            "Record of 1,021 fields",
            record(1021, &[0x00, 0x01].repeat(1021)),
        ),
        (
            "Function of 500 Arrays",
            function(500, &[0x40, 0x01, 0x00, 0x00].repeat(500), &[0x20]),
        ),
        (
            "15 levels of 128 blanks",
            nested(15, &[0x02], |inner| function(128, &[0x00; 128], inner)),
        ),
        (
            "15 Arrays round a blank",
            nested(15, &[0x03], |inner| long(0x40, inner)),
        ),
        (
            "15 Arrays round an empty Record",
            nested(15, &EMPTY_RECORD, |inner| long(0x40, inner)),
        ),
        (
            "17 Arrays round an empty Record",
            nested(17, &EMPTY_RECORD, |inner| long(0x40, inner)),
        ),
        (
            "15 Records with names of four-byte characters",
            nested(15, &EMPTY_RECORD, |inner| {
                let mut field = vec![120];
                field.extend("\u{1F6A1}".repeat(30).bytes());
                field.extend(inner);
                record(1, &field)
            }),
        ),
        (
            "15 Records round 15 texts, the last cut",
            nested(15, &CUT_SYMBOL, |inner| {
                let mut field = vec![64];
                field.extend("\u{1F6A1}".repeat(16).bytes());
                field.extend(inner);
                record(1, &field)
            }),
        ),
        ("Symbol of 2,042 letters", symbol(&[b'a'; 2042])),
        (
            "Symbol of 510 characters of four bytes",
            symbol("\u{1F6A1}".repeat(510).as_bytes()),
        ),
        (
            "15 Maps round a cut Symbol",
            nested(15, &CUT_SYMBOL, |inner| {
                let mut payload = vec![0x01];
                payload.extend(inner);
                long(0x41, &payload)
            }),
        ),
        (
            "15 Functions round a Symbol with a bad text",
            nested(15, &symbol(&[0xED, 0xA0, 0x80]), |inner| {
                function(0, &[], inner)
            }),
        ),
        ("2,049 bytes", vec![0x00; 2049]),
    ]
}

/// The stored worst inputs for the piece reader: those for `read`, and more that are refused early, late,
/// inside a root that is cut short, or for their length.
pub fn worst_for_pieces() -> Vec<(&'static str, Vec<u8>)> {
    let spoilt = |mut bytes: Vec<u8>| {
        *bytes.last_mut().expect("it is not empty") = 0xFF;
        bytes
    };
    let cut = |mut bytes: Vec<u8>| {
        bytes.pop();
        bytes
    };
    let deep = nested(15, &[0x02], |inner| function(128, &[0x00; 128], inner));
    let texts = symbol("\u{1F6A1}".repeat(510).as_bytes());
    let mut inputs = worst_for_read();
    inputs.extend([
        ("no bytes", vec![]),
        ("2,048 bytes of FF", vec![0xFF; 2048]),
        ("15 levels of 128 blanks, cut short", cut(deep.clone())),
        ("15 levels of 128 blanks, spoilt at the end", spoilt(deep)),
        (
            "510 characters of four bytes, cut short",
            cut(texts.clone()),
        ),
        (
            "510 characters of four bytes, spoilt at the end",
            spoilt(texts),
        ),
        (
            "a fault in a root that is cut short",
            [&[0x43, 0xFF, 0xFF, 0x01][..], &[0xFF; 2044]].concat(),
        ),
        ("70,000 bytes", vec![0x20; 70_000]),
    ]);
    inputs
}

/// The stored worst inputs for `child` and `name`: those for `read`, and more with a long list of
/// texts or with no list at all. Each is asked for its last part and for the largest k.
pub fn worst_for_parts() -> Vec<(&'static str, Vec<u8>)> {
    let texts = [leb128(1021), vec![0; 1021]].concat();
    let pairs = [leb128(680), [2, b'a', b'b'].repeat(680)].concat();
    let mut inputs = worst_for_read();
    inputs.push(("packed Map", vec![0x76]));
    inputs.push(("Symbol of 1,021 empty texts", long(0x44, &texts)));
    inputs.push(("Symbol of 680 texts of two letters", long(0x44, &pairs)));
    inputs
}

/// The ks that a worst input is asked for: its last part, or 0, and the largest.
pub fn worst_ks(call: Parts, bytes: &[u8]) -> [u64; 2] {
    let none = call(bytes, u64::MAX);
    let parts = if none.number == 18 { none.place } else { 0 };
    [parts.saturating_sub(1).into(), u64::MAX]
}

/// The stored worst inputs for `sheet`: small ones, large ones, some that are refused early, and each
/// worst input for `read` as the last of 32 entries.
pub fn worst_for_sheet() -> Vec<(String, Vec<u8>)> {
    let mut inputs: Vec<(String, Vec<u8>)> = [
        ("no bytes", vec![]),
        ("the empty sheet", equal(0, &[])),
        ("one Int (M13)", equal(1, &[0x20])),
        ("32 Ints", equal(32, &[0x20])),
        ("33 Ints", equal(33, &[0x20])),
        ("32 of 512 bytes", equal(32, &symbol_of(512))),
        ("8 of 2,048 bytes", equal(8, &symbol_of(2048))),
        ("9 of 2,048 bytes", equal(9, &symbol_of(2048))),
        ("32 of 2,048 bytes", equal(32, &symbol_of(2048))),
        ("100,000 bytes of 0", vec![0; 100_000]),
    ]
    .map(|(name, bytes)| (name.to_string(), bytes))
    .into();
    for (name, bytes) in worst_for_read() {
        let own = |blank| if blank < 31 { &[0x20][..] } else { &bytes[..] };
        let sheet = Sheet::of((0..32).map(|blank| (blank, own(blank))));
        inputs.push((format!("31 Ints and: {name}"), sheet.bytes()));
    }
    inputs
}

/// A call's two inputs, and what they are.
pub type Worst = (String, Vec<u8>, Vec<u8>);

/// Templates of 16 levels, with lists of each kind, round blank 0, and wide ones.
fn worst_templates() -> Vec<(&'static str, Vec<u8>)> {
    let rounds: [(&str, fn(&[u8]) -> Vec<u8>); 6] = [
        ("15 Arrays", |inner| long(0x40, inner)),
        ("15 Maps, keys", |inner| long(0x41, &[inner, &[0]].concat())),
        ("15 Maps, values", |inner| {
            long(0x41, &[&[0], inner].concat())
        }),
        ("15 Records", |inner| {
            let name = "\u{1F6A1}".repeat(20);
            record(2, &[&[1, b'a', 0, 80], name.as_bytes(), inner].concat())
        }),
        ("15 Functions, parameters", |inner| function(1, inner, &[0])),
        ("15 Functions, returns", |inner| function(2, &[0, 1], inner)),
    ];
    let mut templates: Vec<(&str, Vec<u8>)> = rounds
        .map(|(name, round)| (name, nested(15, &[0], round)))
        .into();
    let mixed = (0..15).fold(vec![0], |inner, level| rounds[level % 6].1(&inner));
    templates.push(("15 levels of all kinds", mixed));
    let blanks: Vec<u8> = (0..2040).map(|i| i as u8 % 32).collect();
    templates.extend([
        ("blank 0", vec![0]),
        ("Array of blank 0", long(0x40, &[0])),
        ("Function of 2,040 blanks", function(2040, &blanks, &[0])),
        (
            "Function of 500 Arrays",
            function(500, &[0x40, 1, 0, 0].repeat(500), &[0x20]),
        ),
        ("Record of 1,000 fields", record(1000, &[0, 0].repeat(1000))),
        (
            "15 levels of 128 blanks",
            nested(15, &[0], |inner| function(128, &[0; 128], inner)),
        ),
        (
            "15 levels of 25 long blanks",
            nested(15, &[0], |inner| {
                function(25, &[0x45, 2, 0, 40, 0].repeat(25), inner)
            }),
        ),
        ("Symbol of 2,042 letters", symbol(&[b'a'; 2042])),
    ]);
    templates
}

/// Sheets that fill them: with what is short, deep (15 refuses most), long (16) or much. In the last
/// the largest sheet is read.
fn worst_fillings() -> Vec<(&'static str, Vec<u8>)> {
    let deep = nested(15, &[0x01], |inner| function(0, &[], inner));
    let wide = function(2040, &[0x00; 2040], &[0x01]);
    let of_32 = |first: &[u8], others: &[u8]| {
        let own = |blank| if blank == 0 { first } else { others };
        Sheet::of((0..32).map(|blank| (blank, own(blank)))).bytes()
    };
    vec![
        ("the empty sheet", equal(0, &[])),
        ("one Int", equal(1, &[0x20])),
        ("32 Ints", equal(32, &[0x20])),
        ("32 blanks", equal(32, &[0x45, 2, 0, 0xFF, 0xFF])),
        ("a packed Map", equal(1, &[0x76])),
        ("16 levels", of_32(&deep, &[0x20])),
        ("2,046 bytes", of_32(&wide, &[0x20])),
        ("32 of 512 bytes", equal(32, &symbol_of(512))),
    ]
}

/// The stored worst inputs for `fill`: each template with each sheet, and what is refused.
pub fn worst_for_fill() -> Vec<Worst> {
    let mut inputs = Vec::new();
    for (template, bytes) in worst_templates() {
        for (sheet, filling) in worst_fillings() {
            let name = format!("{template}, with {sheet}");
            inputs.push((name, bytes.clone(), filling));
        }
    }
    for (template, bytes) in worst_for_read() {
        let name = format!("{template}, with 32 Ints");
        inputs.push((name, bytes, equal(32, &[0x20])));
    }
    for (sheet, bytes) in worst_for_sheet() {
        inputs.push((
            format!("Array of blank 31, with {sheet}"),
            long(0x40, &[31]),
            bytes,
        ));
    }
    inputs
}

/// The stored worst inputs for `join`: first sheets with each template, alone or as the last of 32, with
/// each sheet that fills them, and what is refused.
pub fn worst_for_join() -> Vec<Worst> {
    let mut inputs = Vec::new();
    for (template, bytes) in worst_templates() {
        for (sheet, filling) in worst_fillings() {
            let own = |blank| if blank < 31 { &[0x00][..] } else { &bytes[..] };
            let last_of_32 = Sheet::of((0..32).map(|blank| (blank, own(blank)))).bytes();
            let name = format!("31 blanks and {template}, with {sheet}");
            inputs.push((name, last_of_32, filling.clone()));
            let name = format!("{template}, with {sheet}");
            inputs.push((name, equal(1, &bytes), filling));
        }
    }
    for (sheet, bytes) in worst_for_sheet() {
        inputs.push((
            format!("one Int, with {sheet}"),
            equal(1, &[0x20]),
            bytes.clone(),
        ));
        inputs.push((format!("{sheet}, with one Int"), bytes, equal(1, &[0x20])));
    }
    inputs
}

/// The stored worst inputs for `write`: tables of 16 levels of each kind, wide and large ones, and some
/// that are refused early or late.
pub fn worst_for_write() -> Vec<(String, Vec<u8>)> {
    // adds a node round the one before it, which is there: level by level
    type Round<'a> = &'a dyn Fn(&mut Table, u16, u16) -> u16;
    let levels = |name: &str, round: Round| {
        let mut table = Table::new(&[(kind::BLANK, 40, 0)], &[], &[]);
        table.push_name("\u{1F6A1}".repeat(20).as_bytes());
        let inner = (0..15).fold(0, |inner, level| round(&mut table, inner, level));
        assert_eq!(inner as usize + 1, table.nodes.len());
        (name.to_string(), table.counted().bytes())
    };
    let many = |inner| [vec![(0, 0); 20], vec![(inner, 0)]].concat();
    let rounds: [(&str, Round); 5] = [
        ("15 Arrays", &|table, inner, _| {
            table.push(kind::ARRAY, &[(inner, 0)])
        }),
        ("15 Maps", &|table, inner, _| {
            table.push(kind::MAP, &[(0, 0), (inner, 0)])
        }),
        ("15 Records", &|table, inner, _| {
            table.push(kind::RECORD, &[(inner, 0)])
        }),
        ("15 Functions of 20 blanks", &|table, inner, _| {
            table.push(kind::FUNCTION, &many(inner))
        }),
        ("15 levels of all kinds", &|table, inner, level| {
            let kind = [kind::ARRAY, kind::MAP, kind::RECORD, kind::FUNCTION][level as usize % 4];
            match kind {
                kind::MAP => table.push(kind, &[(inner, 0), (0, 0)]),
                _ => table.push(kind, &[(inner, 0)]),
            }
        }),
    ];
    let mut inputs: Vec<(String, Vec<u8>)> = Vec::new();
    for (name, round) in rounds {
        inputs.push(levels(name, round));
    }
    let wide = |kind, links: u16| {
        Table::new(
            &[(kind::BLANK, 0, 0), (kind, 0, links)],
            &vec![(0, 0); links as usize],
            &[(0, 0)],
        )
    };
    let broken = |mut table: Table, change: &dyn Fn(&mut Table)| {
        change(&mut table);
        table.bytes()
    };
    let fifteen = chain(15, Node::new(kind::BLANK, 0, 0));
    let packed = function(2042, &[0x76; 2042], &[0x76]);
    let mut packed_table = vec![0; LONGEST];
    if let Ok(length) = crate::fast::table::table(&packed, &mut packed_table) {
        packed_table.truncate(length);
    }
    let more: [(&str, Vec<u8>); 20] = [
        ("no bytes", vec![]),
        ("one Int", Table::new(&[(0, 0, 0)], &[], &[]).bytes()),
        ("M4's table", m4_table().bytes()),
        (
            "Function of 2,041 blanks",
            wide(kind::FUNCTION, 2042).bytes(),
        ),
        ("Record of 1,021 fields", wide(kind::RECORD, 1021).bytes()),
        ("Symbol of 2,043 texts", wide(kind::SYMBOL, 2043).bytes()),
        ("Symbol of 2,042 letters", letters(2042).bytes()),
        ("Symbol of 2,043 letters", letters(2043).bytes()),
        ("2,043 packed Maps", packed_table),
        ("every section at its limit", largest([0; 4]).bytes()),
        ("6,145 nodes", largest([1, 0, 0, 0]).bytes()),
        ("100,000 bytes of 0", vec![0; 100_000]),
        ("16 Arrays", chain(16, Node::new(kind::BLANK, 0, 0)).bytes()),
        (
            "6,143 Arrays",
            chain(6143, Node::new(kind::BLANK, 0, 0)).bytes(),
        ),
        ("15 Maps of the same twice", doubled(15).bytes()),
        ("39 Maps of the same twice", doubled(39).bytes()),
        (
            "200 Records of the same 2,000 links",
            records(200, 2000).bytes(),
        ),
        (
            "15 Arrays, the last broken",
            broken(fifteen.clone(), &|table| table.links[14].0 = 15),
        ),
        (
            "15 Arrays and a name that is not UTF-8",
            broken(fifteen, &|table| {
                table.push_name("\u{1F6A1}".repeat(500).as_bytes());
                table.push_name(&[0xED, 0xA0, 0x80]);
                *table = table.clone().counted();
            }),
        ),
        (
            "M4's table, a byte left over",
            broken(m4_table(), &|table| table.left_over = vec![0]),
        ),
    ];
    inputs.extend(more.map(|(name, bytes)| (name.to_string(), bytes)));
    inputs
}

/// The stored worst inputs for `write_records`: those for `write` that have this form, the deep ones with as
/// many nodes as can be, and too many nodes.
pub fn worst_for_records() -> Vec<(String, RecordTable)> {
    let as_records = |(name, bytes): (String, Vec<u8>)| Some((name, RecordTable::of(&bytes)?));
    let mut inputs: Vec<_> = worst_for_write()
        .into_iter()
        .filter_map(as_records)
        .collect();
    // the first ones have 16 levels
    let deep = inputs
        .iter()
        .take_while(|(name, _)| name.starts_with("15 "));
    for (name, mut table) in deep.cloned().collect::<Vec<_>>() {
        // what is not used stands just before the root, so that all targets stay what they are
        let root = table.nodes.len() - 1;
        let unused = vec![table.nodes[0]; 6144 - table.nodes.len()];
        table.nodes.splice(root..root, unused);
        inputs.push((format!("{name}, and 6,144 nodes"), table));
    }
    for count in [65_535, 65_537] {
        let nodes = vec![Default::default(); count];
        let rest = vec![0; 6];
        inputs.push((format!("{count} Ints"), RecordTable { nodes, rest }));
    }
    inputs
}

/// The stored worst inputs for `table`: those for `child` and `name`, the templates of 16 levels, and
/// the largest tables.
pub fn worst_for_table() -> Vec<(String, Vec<u8>)> {
    let mut inputs = worst_for_parts();
    for (name, bytes) in worst_templates() {
        if inputs.iter().all(|(other, _)| *other != name) {
            inputs.push((name, bytes));
        }
    }
    inputs.extend([
        ("2,043 packed Maps", function(2042, &[0x76; 2042], &[0x76])),
        (
            "14 levels of 128 packed Maps",
            nested(14, &[0x02], |inner| function(128, &[0x76; 128], inner)),
        ),
        (
            "Record of 1,021 packed Maps",
            record(1021, &[0, 0x76].repeat(1021)),
        ),
    ]);
    inputs
        .into_iter()
        .map(|(name, bytes)| (name.to_string(), bytes))
        .collect()
}

/// No answer of any call is longer: that of the largest table.
pub const LONGEST: usize = 61_448;

/// What a board has for its whole job, and the longest sheet and shape that it can be lent.
pub const BOARD: usize = 65_536;
pub const SHEET: usize = 16_516;
pub const SHAPE: usize = 2048;

/// Board A fills twice: a template, the workshop's sheet, the answer, the site's sheet, the answer.
pub const BUFFERS_OF_A: usize = SHAPE + SHEET + SHAPE + SHEET + SHAPE;

/// Board B joins and then fills once: both sheets and the joined one, a template, the answer.
pub const BUFFERS_OF_B: usize = SHEET + SHEET + SHEET + SHAPE + SHAPE;
