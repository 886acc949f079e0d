//! Every wrong model is told apart by a small input; the outcomes are those that 01-scope.md gives.

use compare::cases::sheets::{equal, symbol_of, Sheet};
use compare::cases::table::{
    chain, doubled, kind, largest, letters, wrapping, Node, RecordTable, Table,
};
use compare::cases::{function, long, nested, record, symbol};
use compare::question::{feed, Cuts, Fed, Pair, Question, Reader, Records, Shrink, Single};
use compare::read::{self, WRONG};
use compare::shrink::{shrink, shrink_sheet, shrink_table};
use compare::{child, fill, hex, join, name, pieces, sheet, table, write, write_records};
use compare::{Feeds, Lends, Makes, Outcome, Whole, WholeOf, WrongLends, WrongMakes};
use shiulbart::NodeRecord;

#[test]
fn each_differs_on_a_small_input() {
    let arrays = |levels, inner: &[u8]| nested(levels, inner, |inner| long(0x40, inner));
    let mut block = symbol(&[b'a'; 65]);
    *block.last_mut().unwrap() = 0xFF;
    // in the order of WRONG: an input, what is right, what the wrong model says
    let told_apart: [(Vec<u8>, &str, &str); WRONG.len()] = [
        (vec![0x20], "ok 1 1", "no 1 0"),
        (vec![0x60], "ok 1 2", "ok 1 1"),
        (arrays(15, &[0x60]), "no 7 45", "ok 46 17"),
        (arrays(16, &[0x00]), "no 7 48", "ok 49 17"),
        (symbol(&[b'a'; 2043]), "no 8 2048", "ok 2049 1"),
        (arrays(16, &[0xFF]), "no 2 48", "no 7 48"),
        (vec![0xA0], "no 2 0", "ok 1 1"),
        (vec![0x7E], "no 2 0", "ok 1 2"),
        (vec![0x40, 1, 0, 0x20], "no 6 0", "ok 4 2"),
        (vec![0x41, 2, 0, 0x20, 0x24], "no 6 0", "ok 5 2"),
        (vec![0x45, 2, 0, 0x1F, 0], "no 6 0", "ok 5 1"),
        (vec![0x40, 2, 0, 0x20, 0x20], "no 3 0", "no 6 0"),
        (vec![0x40, 2, 0, 0x00, 0x20], "no 3 0", "ok 5 2"),
        (vec![0x20, 0x20], "no 3 1", "no 3 0"),
        (vec![0x43, 2, 0, 0, 0x20], "ok 5 2", "no 3 0"),
        (vec![0x41, 2, 0, 0x60, 0x20], "ok 5 3", "ok 5 2"),
        (vec![0x43, 2, 0, 0, 0x60], "ok 5 3", "ok 5 1"),
        (vec![0x44, 0, 0], "no 4 3", "no 1 3"),
        (vec![0x44, 3, 0, 0x81, 0, 0], "no 4 3", "ok 6 1"),
        (vec![0x44, 3, 0, 0x80, 0x80, 0], "no 4 3", "ok 6 1"),
        (symbol(&[0xFF]), "no 5 5", "no 5 4"),
        (vec![0x44, 2, 0, 1, 5], "no 1 4", "no 1 5"),
        (symbol(&[0xED, 0xA0, 0x80]), "no 5 5", "ok 8 1"),
        (symbol(&[0xE0, 0x80, 0x80]), "no 5 5", "ok 8 1"),
        (symbol(&[0xF4, 0x90, 0x80, 0x80]), "no 5 5", "ok 9 1"),
        (block, "no 5 5", "ok 70 1"),
    ];
    for ((input, right, wrong), (fault, model)) in told_apart.iter().zip(WRONG) {
        assert_eq!(read::model(input).to_string(), *right, "{fault}");
        assert_eq!(read::fast::<0>(input).to_string(), *right, "{fault}");
        assert_eq!(model(input).to_string(), *wrong, "{fault}");
    }
}

/// M4 of the bench card.
const M4: [u8; 10] = [0x42, 7, 0, 2, 1, b'a', 0x20, 1, b'b', 0x62];

#[test]
fn each_of_child_differs_on_a_small_input() {
    let packed_return = vec![0x43, 3, 0, 1, 0x05, 0x60];
    let wide = function(128, &[0x05; 128], &[0x20]);
    // in the order of WRONG: an input, k, what is right, what the wrong model says
    let told_apart: [(Vec<u8>, u64, &str, &str); child::WRONG.len()] = [
        (vec![0x60], 0, "ok 0 1", "no 18 0"),
        (packed_return, 0, "ok 1 0 at 4", "ok 1 0 at 5"),
        (vec![0x43, 2, 0, 0, 0x20], 0, "ok 1 0 at 4", "no 18 0"),
        (M4.to_vec(), 1, "ok 1 0 at 9", "ok 1 0 at 7"),
        (vec![0x76], 0, "ok 0 1 at 3", "ok 0 1 at 2"),
        (vec![0x76], 0, "ok 0 1 at 3", "ok 1 0"),
        (vec![0x76], 2, "no 18 2", "no 18 0"),
        (M4.to_vec(), 0, "ok 1 0 at 6", "ok 0 1"),
        (symbol(b"a"), 0, "no 18 0", "ok 1 0 at 5"),
        (long(0x40, &[0]), 0, "ok 1 0 at 3", "ok 0 0 at 3"),
        (M4.to_vec(), 1, "ok 1 0 at 9", "ok 1 0 at 6"),
        (wide, 128, "ok 1 0 at 133", "ok 1 0 at 132"),
        (vec![0x20], 0, "no 18 0", "no 18 1"),
        (vec![0x20], 1, "no 18 0", "no 18 1"),
        (M4.to_vec(), 1 << 32, "no 18 2", "ok 1 0 at 6"),
        (vec![0x20, 0x20], 0, "no 3 1", "no 18 0"),
    ];
    for ((input, k, right, wrong), (fault, model)) in told_apart.iter().zip(child::WRONG) {
        assert_eq!(child::model(input, *k).to_string(), *right, "{fault}");
        assert_eq!(child::fast(input, *k).to_string(), *right, "{fault}");
        assert_eq!(model(input, *k).to_string(), *wrong, "{fault}");
    }
}

#[test]
fn each_of_name_differs_on_a_small_input() {
    let long_text = symbol(&[b'a'; 128]);
    let wide = record(128, &[0x00, 0x01].repeat(128));
    let equal = vec![0x42, 7, 0, 2, 1, b'a', 0x20, 1, b'a', 0x20];
    let empty = vec![0x44, 4, 0, 2, 0, 1, b'a'];
    let function = vec![0x43, 2, 0, 0, 0x20];
    // in the order of WRONG: an input, k, what is right, what the wrong model says
    let told_apart: [(Vec<u8>, u64, &str, &str); name::WRONG.len()] = [
        (M4.to_vec(), 0, "ok 1 0 at 5", "no 18 0"),
        (M4.to_vec(), 1, "ok 1 0 at 8", "ok 1 0 at 7"),
        (M4.to_vec(), 1, "ok 1 0 at 8", "ok 2 0 at 8"),
        (long_text, 0, "ok 128 0 at 6", "ok 128 0 at 5"),
        (wide, 127, "ok 0 0 at 260", "ok 0 0 at 259"),
        (M4.to_vec(), 1, "ok 1 0 at 8", "ok 1 0 at 5"),
        (function, 0, "no 18 0", "ok 1 0 at 4"),
        (symbol(b"a"), 0, "ok 1 0 at 5", "no 18 0"),
        (M4.to_vec(), 1, "ok 1 0 at 8", "ok 1 0 at 9"),
        (empty, 0, "ok 0 0 at 5", "ok 1 0 at 6"),
        (equal, 1, "ok 1 0 at 8", "ok 1 0 at 5"),
        (vec![0x20], 0, "no 18 0", "no 18 1"),
        (vec![0x20], 1, "no 18 0", "no 18 1"),
        (M4.to_vec(), 1 << 32, "no 18 2", "ok 1 0 at 5"),
        (vec![0x20, 0x20], 0, "no 3 1", "no 18 0"),
    ];
    for ((input, k, right, wrong), (fault, model)) in told_apart.iter().zip(name::WRONG) {
        assert_eq!(name::model(input, *k).to_string(), *right, "{fault}");
        assert_eq!(name::fast(input, *k).to_string(), *right, "{fault}");
        assert_eq!(model(input, *k).to_string(), *wrong, "{fault}");
    }
}

#[test]
fn each_of_sheet_differs_on_a_small_input() {
    const INT: &[u8] = &[0x20];
    let ints = |blanks: &[u16]| Sheet::of(blanks.iter().map(|&blank| (blank, INT))).bytes();
    let changed = |count: u16, change: fn(&mut Sheet)| {
        let mut sheet = Sheet::of((0..count).map(|blank| (blank, INT)));
        change(&mut sheet);
        sheet.bytes()
    };
    // two faults: the second is met by a model that does not see the first
    let length_0 = changed(1, |sheet| (sheet.entries[0].1, sheet.second_count) = (0, 1));
    let longer = changed(1, |sheet| sheet.entries[0].1 = 2049);
    let two = changed(3, |sheet| (sheet.entries[0].1, sheet.entries[2].0) = (0, 0));
    let not_the_sum = changed(1, |sheet| sheet.entries[0].1 = 2);
    let left_over = changed(1, |sheet| sheet.encodings.push(0));
    let both = changed(1, |sheet| sheet.encodings = vec![0xFF, 0]);
    let bad = |blank| if blank == 1 { &[0xFF][..] } else { INT };
    let bad_last = Sheet::of((0..2).map(|blank| (blank, bad(blank)))).bytes();
    let mut wrapped = equal(32, &symbol_of(2048));
    wrapped.truncate(132);
    // in the order of WRONG: an input, what is right, what the wrong model says
    let told_apart: [(Vec<u8>, &str, &str); sheet::WRONG.len()] = [
        (equal(0, &[]), "ok 0 0", "no 13 0"),
        (ints(&[0]), "ok 1 1", "ok 9 1"),
        (equal(33, INT), "no 13 0", "ok 33 33"),
        (ints(&[0, 1])[..6].to_vec(), "no 13 0", "no 13 1"),
        (ints(&[7, 7]), "no 13 1", "ok 2 2"),
        (ints(&[7, 6]), "no 13 1", "ok 2 2"),
        (ints(&[255, 256]), "ok 2 2", "no 13 1"),
        (length_0, "no 13 0", "no 13 6"),
        (longer, "no 13 0", "no 13 6"),
        (two, "no 13 0", "no 13 2"),
        (vec![0, 0, 0], "no 13 2", "no 13 3"),
        (equal(9, &symbol_of(2048)), "no 13 38", "ok 18432 9"),
        (not_the_sum, "no 13 6", "ok 1 1"),
        (wrapped, "no 13 130", "no 13 0"),
        (left_over.clone(), "no 13 9", "ok 1 1"),
        (left_over, "no 13 9", "no 13 6"),
        (both, "no 13 9", "no 13 0"),
        (bad_last.clone(), "no 13 1", "ok 2 2"),
        (bad_last.clone(), "no 13 1", "ok 2 2"),
        (bad_last.clone(), "no 13 1", "no 13 0"),
        (bad_last, "no 13 1", "no 13 13"),
    ];
    for ((input, right, wrong), (fault, model)) in told_apart.iter().zip(sheet::WRONG) {
        assert_eq!(sheet::proved(input).to_string(), *right, "{fault}");
        assert_eq!(sheet::model(input).to_string(), *right, "{fault}");
        assert_eq!(sheet::fast::<0>(input).to_string(), *right, "{fault}");
        assert_eq!(model(input).to_string(), *wrong, "{fault}");
    }
}

#[test]
fn a_difference_in_a_sheet_is_made_small() {
    let smallest = |fault: &str, input: &[u8]| {
        let (_, wrong) = sheet::WRONG
            .iter()
            .find(|(name, _)| *name == fault)
            .unwrap();
        let differs = |bytes: &[u8]| wrong(bytes) != sheet::model(bytes);
        assert!(differs(input));
        shrink_sheet(input, differs)
    };
    let (long, bad) = (symbol_of(700), [0xFF; 500]);
    let own = |blank| if blank == 5 { &bad[..] } else { &long[..] };
    let sheet = Sheet::of((0..20).map(|blank| (blank, own(blank)))).bytes();
    assert_eq!(smallest("does not read the encodings", &sheet).len(), 9);
    let sheet = Sheet::of((0..20).map(|blank| (blank / 2, &long[..]))).bytes();
    let smallest = smallest("takes equal numbers", &sheet);
    assert!(smallest.len() <= 14, "{smallest:02X?}");
}

#[test]
fn a_difference_is_made_small() {
    let smallest = |k: usize, input: &[u8]| {
        let (_, wrong) = WRONG[k - 1];
        let differs = |bytes: &[u8]| wrong(bytes) != read::model(bytes);
        assert!(differs(input));
        shrink(input, differs)
    };
    // a long Array of Int somewhere in a wide Function
    let mut parameters = vec![0x05; 1000];
    parameters.extend([0x40, 1, 0, 0x20]);
    parameters.extend([0x60; 500]);
    let input = function(1501, &parameters, &[0x20]);
    assert_eq!(smallest(9, &input), [0x40, 1, 0, 0x20]);
    // the last byte of a block of 64, deep down
    let mut block = symbol(&[b'b'; 200]);
    block[6 + 64] = 0xFF;
    let input = nested(9, &block, |inner| long(0x40, inner));
    assert_eq!(smallest(26, &input).len(), 70);
}

/// Each wrong model, in its order: two inputs, the length of the lent buffer, what is right, and what
/// the wrong model says. Short buffers are shown with their bytes.
fn told_apart_by<const N: usize>(
    wrong: [WrongLends; N],
    [proved, fast]: [Lends; 2],
    whole: Whole,
    cases: [(Vec<u8>, Vec<u8>, usize, &str, &str); N],
) {
    for ((first, second, room, right, said), (fault, model)) in cases.into_iter().zip(wrong) {
        let mut pair = Pair::new(first, second, whole);
        pair.rooms = vec![room];
        assert_eq!(pair.right().to_string(), right, "{fault}");
        assert_eq!(pair.ask(proved).to_string(), right, "{fault}");
        assert_eq!(pair.ask(fast).to_string(), right, "{fault}");
        assert_eq!(pair.ask(model).to_string(), said, "{fault}");
    }
}

const INT: &[u8] = &[0x20];
const EMPTY: [u8; 4] = [0; 4];

fn sheet_of(blanks: &[(u16, &[u8])]) -> Vec<u8> {
    Sheet::of(blanks.iter().copied()).bytes()
}

fn arrays(levels: usize, inner: &[u8]) -> Vec<u8> {
    nested(levels, inner, |inner| long(0x40, inner))
}

#[test]
fn each_of_fill_differs_on_a_small_input() {
    let array = || long(0x40, &[0]);
    let map = || long(0x41, &[0, 1]);
    let swap = sheet_of(&[(0, &[1]), (1, &[0])]);
    let int = || sheet_of(&[(0, INT)]);
    let forty = long(0x45, &[40, 0]);
    let ints = sheet_of(&[(0, INT), (1, &[0x21])]);
    // 2,049 bytes with blank 0 alone; but then blank 1 makes a long Array a packed one
    let stages = sheet_of(&[(0, &symbol_of(2042)), (1, INT)]);
    let array_and_blank = long(0x41, &[0x40, 1, 0, 1, 0]);
    let both = long(0x41, &[&arrays(14, &[0])[..], &[1]].concat());
    let both_put = sheet_of(&[(0, &[0x60]), (1, &symbol_of(2040))]);
    let deep_unused = sheet_of(&[(0, INT), (1, &arrays(15, &[0]))]);
    let long_map = sheet_of(&[(0, &symbol_of(2045)), (1, INT)]);
    told_apart_by(
        fill::WRONG,
        [fill::proved, fill::fast::<0>],
        fill::whole,
        [
            (vec![0x20], EMPTY.to_vec(), 1, "ok 1 0 [20]", "no 13 0 [03]"),
            (vec![0], int(), 1, "ok 1 0 [20]", "ok 1 0 [00]"),
            (
                map(),
                swap,
                5,
                "ok 5 0 [41 02 00 01 00]",
                "ok 5 0 [41 02 00 00 01]",
            ),
            (array(), int(), 1, "ok 1 0 [60]", "no 12 4 [03]"),
            (map(), ints.clone(), 1, "ok 1 0 [66]", "no 12 5 [03]"),
            (map(), ints, 1, "ok 1 0 [66]", "ok 1 0 [6A]"),
            (
                array(),
                sheet_of(&[(0, &forty)]),
                8,
                "ok 8 0 [40 05 00 45 02 00 28 00]",
                "ok 8 0 [40 01 00 45 02 00 28 00]",
            ),
            (
                forty.clone(),
                sheet_of(&[(40, INT)]),
                1,
                "ok 1 0 [20]",
                "no 12 5 [03]",
            ),
            (
                forty.clone(),
                sheet_of(&[(256 + 40, INT)]),
                5,
                "ok 5 0 [45 02 00 28 00]",
                "ok 1 0 [20 0A 11 18 1F]",
            ),
            (
                forty,
                sheet_of(&[(41, INT)]),
                5,
                "ok 5 0 [45 02 00 28 00]",
                "ok 1 0 [20 0A 11 18 1F]",
            ),
            (
                function(0, &[], &[0]),
                int(),
                5,
                "ok 5 0 [43 02 00 00 20]",
                "ok 5 0 [43 02 00 00 00]",
            ),
            (array_and_blank, stages, 0, "no 12 2046", "no 16 0"),
            (array(), deep_unused, 1, "ok 1 0 [60]", "no 15 0 [03]"),
            (
                arrays(15, &[0]),
                sheet_of(&[(0, &[0x60])]),
                0,
                "no 15 0",
                "no 12 46",
            ),
            (map(), long_map.clone(), 0, "no 16 0", "no 12 2049"),
            (both, both_put, 0, "no 15 0", "no 16 0"),
            (map(), long_map.clone(), 0, "no 16 0", "no 12 2049"),
            (vec![], vec![], 0, "no 1 0", "no 13 0"),
            (map(), long_map, 0, "no 16 0", "no 16 2049"),
            (vec![0], int(), 0, "no 12 1", "no 12 2"),
            (vec![0], int(), 1, "ok 1 0 [20]", "no 12 1 [03]"),
            (vec![0], int(), 2, "ok 1 0 [20 0A]", "ok 1 0 [20 00]"),
            (
                array(),
                sheet_of(&[(0, &[1])]),
                3,
                "no 12 4 [03 0A 11]",
                "no 12 4 [40 01 00]",
            ),
        ],
    );
}

#[test]
fn each_of_join_differs_on_a_small_input() {
    let one = |blank: u16, own: &[u8]| sheet_of(&[(blank, own)]);
    let from = |from: u16, count: u16, own: &[u8]| {
        Sheet::of((from..from + count).map(|blank| (blank, own))).bytes()
    };
    let forty = long(0x45, &[40, 0]);
    let map = long(0x41, &[8, 9]);
    let ints = sheet_of(&[(8, INT), (9, &[0x21])]);
    // blank 9 with blank 8 put in is too deep, too long, or both
    let (deep, wide) = (arrays(15, &[8]), function(20, &[9; 20], INT));
    let both = long(0x41, &[&arrays(14, &[8])[..], &wide].concat());
    let puts = sheet_of(&[(8, &[0x60]), (9, &symbol_of(200))]);
    let many = [
        &[(8, &[0x60][..])][..],
        &(100..131).map(|blank| (blank, INT)).collect::<Vec<_>>(),
    ]
    .concat();
    let long_one = one(3, &symbol_of(2048));
    let threes = from(10, 8, &[3]);
    told_apart_by(
        join::WRONG,
        [join::proved, join::fast::<0>],
        join::whole,
        [
            (EMPTY.to_vec(), EMPTY.to_vec(), 0, "no 12 4", "no 13 0"),
            (EMPTY.to_vec(), one(0, INT), 0, "no 12 9", "no 12 4"),
            (
                one(3, &[3]),
                one(3, INT),
                9,
                "ok 9 0 [01 00 03 00 01 00 01 00 20]",
                "ok 9 0 [01 00 03 00 01 00 01 00 03]",
            ),
            (
                EMPTY.to_vec(),
                one(3, &long(0x40, &[3])),
                0,
                "no 12 12",
                "no 12 15",
            ),
            (
                one(3, &[3]),
                one(3, INT),
                9,
                "ok 9 0 [01 00 03 00 01 00 01 00 20]",
                "ok 9 0 [01 00 03 00 01 00 01 00 03]",
            ),
            (
                one(3, &[5]),
                one(3, INT),
                9,
                "ok 9 0 [01 00 03 00 01 00 01 00 05]",
                "ok 9 0 [01 00 03 00 01 00 01 00 20]",
            ),
            (
                one(3, &[3]),
                one(3, &[0x40, 1, 0, 3]),
                0,
                "no 12 12",
                "no 12 15",
            ),
            (
                one(3, &[0x40, 1, 0, 3]),
                one(3, INT),
                0,
                "no 12 9",
                "no 12 12",
            ),
            (one(8, &map), ints.clone(), 0, "no 12 14", "no 12 18"),
            (
                one(8, &map),
                ints,
                14,
                "ok 14 0 [02 00 08 00 01 00 09 00 01 00 02 00 66 21]",
                "ok 14 0 [02 00 08 00 01 00 09 00 01 00 02 00 6A 21]",
            ),
            (
                one(3, &[0x40, 1, 0, 3]),
                one(3, &[0x40, 1, 0, 3]),
                15,
                "ok 15 0 [01 00 03 00 07 00 07 00 40 04 00 40 01 00 03]",
                "ok 15 0 [01 00 03 00 07 00 07 00 40 01 00 40 01 00 03]",
            ),
            (
                one(3, &[3]),
                one(3, &[0x40, 1, 0, 3]),
                12,
                "ok 12 0 [01 00 03 00 04 00 04 00 40 01 00 03]",
                "ok 12 0 [01 00 03 00 01 00 04 00 40 01 00 03]",
            ),
            (
                one(3, &[0x21]),
                one(2, INT),
                14,
                "ok 14 0 [02 00 02 00 01 00 03 00 01 00 02 00 20 21]",
                "ok 14 0 [02 00 03 00 01 00 02 00 01 00 02 00 21 20]",
            ),
            (one(40, &forty), one(40, INT), 0, "no 12 9", "no 12 13"),
            (
                one(40, &forty),
                one(256 + 40, INT),
                0,
                "no 12 18",
                "no 12 14",
            ),
            (one(40, &forty), one(41, INT), 0, "no 12 18", "no 12 14"),
            (one(9, &deep), one(8, &[0x60]), 0, "no 15 9", "no 12 59"),
            (
                one(9, &long(0x41, &[3, 3])),
                one(3, &symbol_of(1023)),
                0,
                "no 16 9",
                "no 12 3084",
            ),
            (one(7, &both), puts.clone(), 0, "no 15 7", "no 16 7"),
            (
                sheet_of(&[(6, &wide), (7, &deep)]),
                puts,
                0,
                "no 16 6",
                "no 15 7",
            ),
            (one(9, &deep), one(8, &[0x60]), 0, "no 15 9", "no 15 0"),
            (one(9, &deep), one(8, &[0x60]), 0, "no 15 9", "no 15 1"),
            (from(0, 32, INT), one(0, INT), 0, "no 12 164", "no 17 33"),
            (from(0, 32, INT), one(32, INT), 0, "no 17 33", "no 12 169"),
            (one(9, &deep), sheet_of(&many), 0, "no 17 33", "no 15 9"),
            (
                one(7, &wide),
                sheet_of(&[(9, &symbol_of(2048))]),
                0,
                "no 16 7",
                "no 17 43013",
            ),
            (
                threes.clone(),
                long_one.clone(),
                0,
                "no 17 18432",
                "no 12 18472",
            ),
            (threes, long_one, 0, "no 17 18432", "no 17 18472"),
            (
                from(10, 7, &[3]),
                sheet_of(&[(3, &symbol_of(2048)), (4, INT)]),
                0,
                "no 17 16385",
                "no 12 16425",
            ),
            (vec![], vec![0, 0], 0, "no 13 0", "no 14 2"),
            (EMPTY.to_vec(), vec![0, 0], 0, "no 14 2", "no 13 2"),
            (
                EMPTY.to_vec(),
                EMPTY.to_vec(),
                3,
                "no 12 4 [03 0A 11]",
                "no 12 5 [03 0A 11]",
            ),
            (
                EMPTY.to_vec(),
                EMPTY.to_vec(),
                5,
                "ok 4 0 [00 00 00 00 1F]",
                "ok 4 0 [00 00 00 00 00]",
            ),
            (
                EMPTY.to_vec(),
                EMPTY.to_vec(),
                3,
                "no 12 4 [03 0A 11]",
                "no 12 4 [00 00 00]",
            ),
        ],
    );
}

#[test]
fn a_difference_in_a_pair_is_made_small() {
    let smallest = |(_, wrong): WrongLends, whole: Whole, first: &[u8], second: &[u8]| {
        let differs = |pair: &Pair| pair.ask(wrong) != pair.right();
        let pair = Pair::new(first.to_vec(), second.to_vec(), whole);
        assert!(differs(&pair));
        pair.smallest(whole, &differs)
    };
    let find =
        |all: &[WrongLends], fault: &str| *all.iter().find(|(name, _)| *name == fault).unwrap();
    // a Record with a Map of two blanks in it, and a sheet that has much more than these
    let map = long(0x41, &[4, 5]);
    let fields = [
        &[1, b'a', 0x20, 5, b'n', b'a', b'm', b'e', b's'],
        &map[..],
        &[0, 0x60],
    ]
    .concat();
    let own = |blank| {
        if blank < 9 {
            INT.to_vec()
        } else {
            symbol_of(300)
        }
    };
    let owns: Vec<Vec<u8>> = (0..20).map(own).collect();
    let sheet = Sheet::of((0..).zip(owns.iter().map(|own| &own[..]))).bytes();
    let keeps = find(&fill::WRONG, "keeps the long Map");
    let small = smallest(keeps, fill::whole, &record(3, &fields), &sheet);
    assert_eq!((small.first.len(), small.second.len()), (5, 9), "{small}");
    assert_eq!(small.rooms.len(), 1);
    let writes = find(&fill::WRONG, "writes one byte more");
    let small = smallest(writes, fill::whole, &record(3, &fields), &sheet);
    assert_eq!((small.first.len(), small.second.len()), (1, 4), "{small}");
    assert_eq!(small.rooms, [2]);
    let wins = find(&join::WRONG, "takes the second's where both have");
    let small = smallest(wins, join::whole, &sheet, &equal(12, &symbol_of(100)));
    assert!(small.first.len() <= 9 && small.second.len() <= 9, "{small}");
}

/// As `told_apart_by`, for a call that takes one input.
fn made_apart_by(
    wrong: &[WrongMakes],
    [proved, fast]: [Makes; 2],
    whole: WholeOf,
    cases: Vec<(Vec<u8>, usize, String, String)>,
) {
    assert_eq!(cases.len(), wrong.len());
    for ((bytes, room, right, said), (fault, model)) in cases.into_iter().zip(wrong) {
        let mut single = Single::new(bytes, whole);
        single.rooms = vec![room];
        assert_eq!(single.right().to_string(), right, "{fault}");
        assert_eq!(single.ask(proved).to_string(), right, "{fault}");
        assert_eq!(single.ask(fast).to_string(), right, "{fault}");
        assert_eq!(single.ask(*model).to_string(), said, "{fault}");
    }
}

/// A case of it.
fn case(bytes: &[u8], room: usize, right: &str, said: &str) -> (Vec<u8>, usize, String, String) {
    (bytes.to_vec(), room, right.to_string(), said.to_string())
}

#[test]
fn each_of_write_differs_on_a_small_input() {
    type Pairs<'a> = &'a [(u16, u16)];
    let table = |nodes: &[(u8, u16, u16)], links: Pairs, names: Pairs, text: &[u8]| {
        Table::new(nodes, links, names).with_text(text).bytes()
    };
    let nodes = |nodes: &[(u8, u16, u16)]| table(nodes, &[], &[], &[]);
    let int = || Table::new(&[(0, 0, 0)], &[], &[]);
    let changed = |mut table: Table, change: fn(&mut Table)| {
        change(&mut table);
        table.counted().bytes()
    };
    let second = || {
        let mut table = int();
        table.nodes[0].second = 1;
        table.bytes()
    };
    let left_over = || [&int().bytes()[..], &[0]].concat();
    let blank = Node::new(kind::BLANK, 0, 0);
    let root_int = |table: Table| changed(table, |table| table.nodes.push(Node::new(0, 0, 0)));
    let one = [(0, 0)];
    let both = [(0, 0), (1, 0)];
    let twice = [(0, 0), (0, 0)];
    let wraps = wrapping();
    let cases = [
        (int().bytes(), 1, "ok 1 0 [20]", "no 9 0 [03]"),
        (nodes(&[(10, 0, 0)]), 1, "ok 1 0 [00]", "ok 1 0 [20]"),
        (
            nodes(&[(0, 0, 0), (2, 0, 0)]),
            1,
            "ok 1 0 [22]",
            "ok 1 0 [20]",
        ),
        (
            changed(int(), |table| table.nodes = vec![table.nodes[0]; 6145]),
            1,
            "no 9 0 [03]",
            "ok 1 0 [20]",
        ),
        (
            changed(int(), |table| table.links = vec![(0, 0); 6145]),
            1,
            "no 9 8 [03]",
            "ok 1 0 [20]",
        ),
        (
            changed(int(), |table| table.names = vec![(0, 0); 2049]),
            1,
            "no 9 10 [03]",
            "ok 1 0 [20]",
        ),
        (
            changed(int(), |table| table.text = vec![0; 2049]),
            1,
            "no 9 12 [03]",
            "ok 1 0 [20]",
        ),
        (left_over(), 1, "no 9 14 [03]", "ok 1 0 [20]"),
        (nodes(&[(11, 0, 0)]), 1, "no 10 0 [03]", "ok 1 0 [00]"),
        (second(), 1, "no 10 0 [03]", "ok 1 0 [20]"),
        (nodes(&[(0, 1, 0)]), 1, "no 10 0 [03]", "ok 1 0 [20]"),
        (nodes(&[(10, 0, 1)]), 1, "no 10 0 [03]", "ok 1 0 [00]"),
        (
            table(&[(0, 0, 0), (5, 0, 2)], &twice, &[], &[]),
            1,
            "no 10 1 [03]",
            "ok 1 0 [60]",
        ),
        (nodes(&[(8, 0, 0)]), 1, "no 10 0 [03]", "ok 1 0 [20]"),
        (nodes(&[(5, 65_535, 1)]), 1, "no 10 0 [03]", "ok 1 0 [20]"),
        (
            nodes(&[(7, 1, 0)]),
            4,
            "no 10 0 [03 0A 11 18]",
            "ok 4 0 [42 01 00 00]",
        ),
        (
            table(&[(0, 0, 0), (5, 0, 1)], &[(1, 0)], &[], &[]),
            1,
            "no 10 1 [03]",
            "ok 1 0 [60]",
        ),
        (
            table(&[(0, 0, 0), (9, 0, 1)], &[(1, 0)], &one, &[]),
            5,
            "no 10 1 [03 0A 11 18 1F]",
            "ok 5 0 [44 02 00 01 00]",
        ),
        (
            table(&[(9, 0, 1)], &one, &[], &[]),
            5,
            "no 10 0 [03 0A 11 18 1F]",
            "ok 5 0 [44 02 00 01 00]",
        ),
        (
            table(&[(0, 0, 0), (5, 0, 1)], &[(0, 1)], &[], &[]),
            1,
            "no 10 1 [03]",
            "ok 1 0 [60]",
        ),
        (
            table(&[(0, 0, 0)], &[(1, 0)], &[], &[]),
            1,
            "ok 1 0 [20]",
            "no 10 0 [03]",
        ),
        (
            nodes(&[(11, 0, 0), (0, 0, 0)]),
            1,
            "no 10 0 [03]",
            "ok 1 0 [20]",
        ),
        (
            table(&[(0, 0, 0)], &[], &[(1, 0)], &[]),
            1,
            "no 11 0 [03]",
            "ok 1 0 [20]",
        ),
        (
            table(&[(0, 0, 0)], &[], &[], &[0xFF]),
            1,
            "ok 1 0 [20]",
            "no 11 0 [03]",
        ),
        (
            table(&[(0, 0, 0)], &[], &[(0, 1)], &[0xC3, 0xA9]),
            1,
            "no 11 0 [03]",
            "ok 1 0 [20]",
        ),
        (
            table(&[(11, 0, 0)], &[], &[(1, 0)], &[]),
            0,
            "no 10 0",
            "no 11 0",
        ),
        (
            table(&[(0, 0, 0)], &[], &[(0, 1), (2, 0)], &[0xFF]),
            0,
            "no 11 0",
            "no 11 1",
        ),
        (doubled(39).bytes(), 0, "no 15 0", "no 16 0"),
        (doubled(15).bytes(), 0, "no 16 0", "no 12 131069"),
        (chain(16, blank).bytes(), 0, "no 15 0", "no 12 49"),
        (letters(2043).bytes(), 0, "no 16 0", "no 12 2049"),
        (root_int(chain(16, blank)), 1, "ok 1 0 [20]", "no 15 0 [03]"),
        (root_int(letters(2043)), 1, "ok 1 0 [20]", "no 16 0 [03]"),
        (wraps[0].bytes(), 0, "no 16 0", "no 12 4"),
        (wraps[2].bytes(), 0, "no 16 0", "no 12 5"),
        (left_over(), 0, "no 9 14", "no 9 12"),
        (vec![1, 0, 0], 0, "no 9 0", "no 9 3"),
        (vec![1], 0, "no 9 0", "no 9 1"),
        (nodes(&[(0, 0, 0), (11, 0, 0)]), 0, "no 10 1", "no 10 8"),
        (nodes(&[(5, 2, 1)]), 0, "no 10 0", "no 10 2"),
        (
            table(&[(0, 0, 0)], &[], &[(1, 0)], &[]),
            0,
            "no 11 0",
            "no 11 12",
        ),
        (chain(16, blank).bytes(), 0, "no 15 0", "no 15 16"),
        (
            table(&[(0, 0, 0), (5, 0, 1)], &one, &[], &[]),
            1,
            "ok 1 0 [60]",
            "no 12 4 [03]",
        ),
        (
            table(&[(0, 0, 0), (6, 0, 2)], &twice, &[], &[]),
            1,
            "ok 1 0 [65]",
            "no 12 5 [03]",
        ),
        (
            table(&[(0, 0, 0), (1, 0, 0), (6, 0, 2)], &both, &[], &[]),
            1,
            "ok 1 0 [66]",
            "ok 1 0 [6A]",
        ),
        (nodes(&[(10, 0, 0)]), 1, "ok 1 0 [00]", "no 12 5 [03]"),
        (
            table(&[(0, 0, 0), (1, 0, 0), (8, 0, 2)], &both, &[], &[]),
            6,
            "ok 6 0 [43 03 00 01 20 21]",
            "ok 6 0 [43 03 00 01 21 20]",
        ),
        (
            table(&[(0, 0, 0), (8, 0, 1)], &one, &[], &[]),
            5,
            "ok 5 0 [43 02 00 00 20]",
            "ok 5 0 [43 02 00 01 20]",
        ),
        (
            doubled(1).bytes(),
            5,
            "ok 5 0 [41 02 00 00 00]",
            "ok 4 0 [41 01 00 00 1F]",
        ),
        (int().bytes(), 0, "no 12 1", "no 12 2"),
        (int().bytes(), 1, "ok 1 0 [20]", "no 12 1 [03]"),
        (int().bytes(), 2, "ok 1 0 [20 0A]", "ok 1 0 [20 00]"),
        (
            doubled(1).bytes(),
            3,
            "no 12 5 [03 0A 11]",
            "no 12 5 [41 02 00]",
        ),
    ];
    let cases = cases.map(|(bytes, room, right, said)| case(&bytes, room, right, said));
    let programs = [write::proved, write::fast];
    made_apart_by(&write::WRONG, programs, write::whole, cases.into());
}

#[test]
fn each_of_table_differs_on_a_small_input() {
    let table = |nodes: &[(u8, u16, u16)], links: &[(u16, u16)]| Table::new(nodes, links, &[]);
    let int = hex(&table(&[(0, 0, 0)], &[]).bytes());
    // a Record of `a`, a Symbol of `b`
    let symbol_in_record = record(1, &[&[1, b'a'], &symbol(b"b")[..]].concat());
    let in_record = |links: &[(u16, u16)], names: &[(u16, u16)], text: &[u8]| {
        Table::new(&[(9, 0, 1), (7, 1, 1)], links, names).with_text(text)
    };
    let right_in_record = in_record(&[(0, 0), (0, 1)], &[(0, 1), (1, 1)], b"ba");
    // a Function of an Array of Int that returns an empty list
    let after_links = |list: u8| function(1, &[0x60], &[list, 1, 0, 0]);
    let with_empty = |kind: u8, a: u16| {
        let nodes = [(0, 0, 0), (5, 0, 1), (kind, a, 0), (8, 1, 2)];
        table(&nodes, &[(0, 0), (1, 0), (2, 0)])
    };
    let array = table(&[(0, 0, 0), (5, 0, 1)], &[(0, 0)]);
    // two nodes, and one that has both
    let pair = |one: u8, other: u8, kind: u8, links: &[(u16, u16)]| {
        table(&[(one, 0, 0), (other, 0, 0), (kind, 0, 2)], links)
    };
    let both = [(0, 0), (1, 0)];
    let function = || function(1, &[0x20], &[0x21]);
    let texts = |links: &[(u16, u16)], names: &[(u16, u16)], text: &[u8]| {
        Table::new(&[(9, 0, links.len() as u16)], links, names).with_text(text)
    };
    let map_to_symbol = |target: u16| {
        let nodes = [(0, 0, 0), (9, 0, 1), (6, 1, 2)];
        let links = [(target, 0), (0, 0), (1, 0)];
        Table::new(&nodes, &links, &[(0, 1)]).with_text(b"b")
    };
    // an encoding, its table, and that of the wrong model; the buffer has room for the first
    type Tables = (Vec<u8>, Table, Table);
    let made: [Tables; 15] = [
        (
            symbol_in_record.clone(),
            right_in_record.clone(),
            in_record(&[(0, 1), (0, 0)], &[(0, 1), (1, 1)], b"ab"),
        ),
        (after_links(0x42), with_empty(7, 1), with_empty(7, 0)),
        (after_links(0x44), with_empty(9, 1), with_empty(9, 0)),
        (
            vec![0x60],
            array.clone(),
            table(&[(5, 0, 1), (0, 0, 0)], &[(1, 0)]),
        ),
        (
            long(0x40, &[0x60]),
            table(&[(0, 0, 0), (5, 0, 1), (5, 1, 1)], &[(0, 0), (1, 0)]),
            table(&[(0, 0, 0), (5, 1, 1), (5, 0, 1)], &[(1, 0), (0, 0)]),
        ),
        (
            vec![0x66],
            pair(0, 1, 6, &both),
            pair(1, 0, 6, &[(1, 0), (0, 0)]),
        ),
        (
            vec![0x65],
            pair(0, 0, 6, &both),
            table(&[(0, 0, 0), (6, 0, 2)], &[(0, 0), (0, 0)]),
        ),
        (
            long(0x44, &[2, 1, b'a', 1, b'a']),
            texts(&[(0, 0), (0, 1)], &[(0, 1), (1, 1)], b"aa"),
            texts(&[(0, 0), (0, 0)], &[(0, 1)], b"a"),
        ),
        (
            long(0x41, &[&[0x20], &symbol(b"b")[..]].concat()),
            map_to_symbol(0),
            map_to_symbol(1),
        ),
        (vec![0x60], array, table(&[(5, 0, 0)], &[])),
        (vec![0x66], pair(0, 1, 6, &both), pair(1, 0, 6, &both)),
        (function(), pair(0, 1, 8, &both), pair(1, 0, 8, &both)),
        (
            function(),
            pair(0, 1, 8, &both),
            pair(0, 1, 8, &[(0, 0), (1, 1)]),
        ),
        (
            symbol_in_record,
            right_in_record,
            in_record(&[(0, 0), (0, 1)], &[(0, 1), (0, 1)], b"ba"),
        ),
        (
            symbol(b"b"),
            texts(&[(0, 0)], &[(0, 1)], b"b"),
            texts(&[(0, 0)], &[(0, 2)], &[1, b'b']),
        ),
    ];
    let said = |table: &Table, room: usize| {
        let bytes = table.bytes();
        let pattern = (0..room).map(|place| (7 * place + 3) as u8);
        let (number, front) = match bytes.len() {
            length if length > room => (format!("no 12 {length}"), &[][..]),
            length => (format!("ok {length} 0"), &bytes[..]),
        };
        let rest: Vec<u8> = pattern.skip(front.len()).collect();
        format!("{number} [{}]", hex(&[front, &rest].concat()))
    };
    let made = made.iter().map(|(bytes, right, wrong)| {
        let room = right.bytes().len();
        case(bytes, room, &said(right, room), &said(wrong, room))
    });
    let blank = |number: u16| said(&table(&[(10, number, 0)], &[]), 14);
    let mut cases = vec![
        case(&[0x20], 0, "no 12 14", "no 1 0"),
        case(&[0x60], 0, "no 12 24", "no 12 14"),
    ];
    cases.extend(made);
    cases.extend([
        case(&long(0x45, &[0, 1]), 14, &blank(256), &blank(0)),
        case(&[], 0, "no 1 0", "no 12 14"),
        case(&[], 0, "no 1 0", "no 1 1"),
        case(&[0; 2050], 0, "no 8 2048", "no 8 2050"),
        case(&[0x20], 0, "no 12 14", "no 12 15"),
        case(
            &[0x20],
            14,
            &format!("ok 14 0 [{int}]"),
            "no 12 14 [03 0A 11 18 1F 26 2D 34 3B 42 49 50 57 5E]",
        ),
        case(
            &[0x20],
            15,
            &format!("ok 14 0 [{int} 65]"),
            &format!("ok 14 0 [{int} 00]"),
        ),
        case(&[0x20], 3, "no 12 14 [03 0A 11]", "no 12 14 [01 00 00]"),
    ]);
    let programs = [table::proved, table::fast];
    made_apart_by(&table::WRONG, programs, table::whole, cases);
}

#[test]
fn each_of_write_records_differs_on_a_small_input() {
    let records = |nodes: &[(u8, u16, u16)], rest: &[u8]| {
        let record = |&(kind, a, b): &(u8, u16, u16)| NodeRecord::new(kind, a, b);
        RecordTable {
            nodes: nodes.iter().map(record).collect(),
            rest: rest.to_vec(),
        }
    };
    let of = |table: Table| RecordTable::of(&table.bytes()).unwrap();
    const NOTHING: &[u8] = &[0; 6];
    let ints = |count: usize| records(&vec![(0, 0, 0); count], NOTHING);
    let none = |rest: &[u8]| records(&[], rest);
    let cut = || records(&[(0, 0, 0)], &[0]);
    let two = |node| records(&[(0, 0, 0), node], NOTHING);
    let array = |a, b| Table::new(&[(0, 0, 0), (5, a, b)], &vec![(0, 0); a as usize + 1], &[]);
    let blank = |number| records(&[(10, number, 0)], NOTHING);
    // links enough for the Symbol's b to need two bytes, and one name for all
    let texts = of(Table::new(&[(9, 0, 256)], &[(0, 0); 256], &[(0, 0)]));
    let mut far = of(largest([0; 4]));
    far.rest.push(0);
    let doubled = |levels| of(doubled(levels));
    let cases: [(RecordTable, usize, &str, &str); write_records::WRONG.len()] = [
        (ints(1), 1, "ok 1 0 [20]", "no 9 0 [03]"),
        (blank(0), 1, "ok 1 0 [00]", "ok 1 0 [20]"),
        (ints(65_537), 1, "no 9 0 [03]", "ok 1 0 [20]"),
        (ints(6145), 1, "no 9 0 [03]", "ok 1 0 [20]"),
        (ints(70_000), 1, "no 9 0 [03]", "ok 1 0 [20]"),
        (ints(6145), 0, "no 9 0", "no 10 6144"),
        (none(NOTHING), 1, "no 9 0 [03]", "ok 1 0 [20]"),
        (none(NOTHING), 0, "no 9 0", "no 9 2"),
        (ints(6145), 0, "no 9 0", "no 9 36872"),
        (none(&[0]), 0, "no 9 0", "no 9 2"),
        (cut(), 0, "no 9 8", "no 9 0"),
        (cut(), 0, "no 9 8", "no 9 6"),
        (cut(), 0, "no 9 8", "no 9 7"),
        (far, 0, "no 9 71688", "no 9 6152"),
        (ints(1), 1, "ok 1 0 [20]", "no 10 0 [03]"),
        (blank(256), 0, "no 12 5", "no 10 0"),
        (records(&[(16, 0, 0)], NOTHING), 0, "no 10 0", "no 12 1"),
        (of(array(0, 1)), 1, "ok 1 0 [60]", "no 10 1 [03]"),
        (of(array(1, 1)), 1, "ok 1 0 [60]", "no 10 1 [03]"),
        (blank(256), 0, "no 12 5", "no 12 1"),
        (texts, 0, "no 12 261", "no 12 4"),
        (two((2, 0, 0)), 1, "ok 1 0 [22]", "ok 1 0 [20]"),
        (two((2, 0, 0)), 1, "ok 1 0 [22]", "ok 1 0 [20]"),
        (two((2, 0, 0)), 1, "ok 1 0 [22]", "ok 1 0 [20]"),
        (two((2, 0, 0)), 1, "ok 1 0 [22]", "ok 1 0 [20]"),
        (
            records(&[(0, 0, 0)], &[0; 7]),
            1,
            "no 9 14 [03]",
            "ok 1 0 [20]",
        ),
        (doubled(15), 0, "no 16 0", "no 12 131069"),
        (ints(1), 0, "no 12 1", "no 12 2"),
        (ints(1), 1, "ok 1 0 [20]", "no 12 1 [03]"),
        (ints(1), 2, "ok 1 0 [20 0A]", "ok 1 0 [20 00]"),
        (doubled(1), 3, "no 12 5 [03 0A 11]", "no 12 5 [41 02 00]"),
    ];
    for ((table, room, right, said), (fault, model)) in cases.into_iter().zip(write_records::WRONG)
    {
        let mut records = Records::new(table, write_records::whole);
        records.rooms = vec![room];
        assert_eq!(records.right().to_string(), right, "{fault}");
        for program in [
            write_records::proved,
            write_records::fast,
            write_records::in_bytes,
        ] {
            assert_eq!(records.ask(program).to_string(), right, "{fault}");
        }
        assert_eq!(records.ask(model).to_string(), said, "{fault}");
    }
}

#[test]
fn a_difference_in_records_is_made_small() {
    let smallest = |fault: &str, table: RecordTable| {
        let mut all = write_records::WRONG.into_iter();
        let (_, wrong) = all.find(|(name, _)| *name == fault).unwrap();
        let differs = |records: &Records| records.ask(wrong) != records.right();
        let records = Records::new(table, write_records::whole);
        assert!(differs(&records));
        records.smallest(write_records::whole, &differs)
    };
    let mut large = Table::new(&[(0, 0, 0)], &[(0, 0); 50], &[(0, 0); 60]);
    let array = large.push(kind::ARRAY, &[(0, 0)]);
    large.push(kind::RECORD, &[(array, 3); 100]);
    let large = RecordTable::of(&large.counted().bytes()).unwrap();
    let small = smallest("swaps a and b", large.clone());
    assert!(small.table.nodes.len() <= 2, "{small}");
    assert!(small.table.rest.len() <= 10, "{small}");
    assert_eq!(small.rooms.len(), 1);
    let mut many = large;
    many.nodes.resize(70_000, NodeRecord::default());
    let small = smallest("wraps the count at 65,536", many.clone());
    assert_eq!(small.table.nodes.len(), 65_537);
    let small = smallest("takes the first 6,144 of more", many);
    assert_eq!(small.table.nodes.len(), 6145);
    let words = small.to_string();
    assert!(words.starts_with("6145 records "), "{words}");
}

#[test]
fn a_difference_in_a_table_is_made_small() {
    let find =
        |all: &[WrongMakes], fault: &str| *all.iter().find(|(name, _)| *name == fault).unwrap();
    let smallest = |(_, wrong): WrongMakes, whole: WholeOf, shrink: Shrink, bytes: &[u8]| {
        let differs = |single: &Single| single.ask(wrong) != single.right();
        let single = Single::new(bytes.to_vec(), whole);
        assert!(differs(&single));
        single.smallest(whole, shrink, &differs)
    };
    let of_table: Shrink = |bytes, differs| shrink_table(bytes, differs);
    let of_bytes: Shrink = |bytes, differs| shrink(bytes, differs);
    // an Array of Int in a Record of a hundred fields, with much that is not used
    let mut large = Table::new(&[(0, 0, 0)], &[(9, 9); 50], &[(0, 0); 60]);
    for i in 0..100 {
        large.push_name(format!("field {i}").as_bytes());
    }
    let array = large.push(kind::ARRAY, &[(0, 0)]);
    let fields: Vec<(u16, u16)> = (0..100).map(|i| (array * (i % 2), 60 + i)).collect();
    large.push(kind::RECORD, &fields);
    let large = large.counted().bytes();
    let keeps = find(&write::WRONG, "keeps the long Array");
    let small = smallest(keeps, write::whole, of_table, &large);
    assert_eq!(small.bytes.len(), 24, "{small}");
    assert_eq!(small.rooms.len(), 1);
    // one byte too deep, and a difference in a section's count
    let deep = find(&write::WRONG, "makes level 17");
    let small = smallest(
        deep,
        write::whole,
        of_table,
        &chain(16, Node::new(10, 7, 0)).bytes(),
    );
    assert!(small.bytes.len() <= 174, "{small}");
    let over = find(&write::WRONG, "takes bytes left over");
    let long = [&large[..], &[0; 300]].concat();
    let small = smallest(over, write::whole, of_table, &long);
    assert_eq!(small.bytes.len(), 15, "{small}");
    // names of a Record round another
    let first = find(&table::WRONG, "adds a Record's names first");
    let inner = record(2, &[3, b'o', b'n', b'e', 0x20, 1, b'a', 0x60]);
    let outer = record(
        2,
        &[&[2, b'n', b'o'], &inner[..], &[1, b'z', 0x76]].concat(),
    );
    let small = smallest(first, table::whole, of_bytes, &outer);
    assert!(small.bytes.len() <= 13, "{small}");
}

/// The parts, and the part that comes after the finish.
fn fed(parts: &[&[u8]], after: &[u8]) -> Fed {
    let mut places = Vec::new();
    for part in &parts[..parts.len() - 1] {
        places.push(places.last().unwrap_or(&0) + part.len());
    }
    Fed::new(parts.concat(), vec![Cuts::At(places)], after.to_vec())
}

#[test]
fn each_of_pieces_differs_on_a_small_input() {
    let int = || fed(&[&[0x20]], &[]);
    let cut = |bytes: &[u8], place: usize| fed(&[&bytes[..place], &bytes[place..]], &[]);
    let one_more = [symbol(&[b'a'; 2042]), vec![0]].concat();
    let ints = vec![0x20; 65_537];
    let character = symbol("é".as_bytes());
    let overlong = symbol(&[0xE0, 0x80, 0x80]);
    let after_array = [0x41, 2, 0, 0x60, 0x20];
    let empty_record = arrays(15, &[0x42, 1, 0, 0]);
    // a state that other cuts do not lead to, or that something changes which must not
    let other = |outcome: &str| format!("{outcome} (its state: in one part it is another)");
    let changed = |outcome: &str, what: &str| format!("{outcome} (its state: {what} changes it)");
    let later = "ok 1 1, again ok 1 1, after a part no 3 1";
    let anew = "ok 1 1, again no 1 0, after a part no 1 0";
    // in the order of WRONG: parts, what is right, what the wrong model says
    let told_apart: [(Fed, &str, String); pieces::WRONG.len()] = [
        (int(), "ok 1 1", "no 1 0".into()),
        (fed(&[&[0x60]], &[]), "ok 1 2", "ok 1 1".into()),
        (cut(&[0x40, 5, 0, 0], 3), "no 1 0", "no 1 4".into()),
        (cut(&[0x40, 5, 0, 0x40], 3), "no 1 0", "no 1 3".into()),
        (cut(&ints[..2049], 1), "no 8 2048", "no 3 1".into()),
        (cut(&[0x40, 5, 0, 0xFF], 3), "no 1 0", "no 2 3".into()),
        (
            fed(&[&[0x20]], &[0x20]),
            "ok 1 1",
            changed(later, "a part after the finish"),
        ),
        (
            cut(&symbol(&[b'a'; 2043]), 2048),
            "no 8 2048",
            "ok 2049 1".into(),
        ),
        (cut(&one_more, 2048), "no 8 2048", "ok 2048 1".into()),
        (cut(&ints, 1), "no 8 2048", "ok 1 1".into()),
        (cut(&[0x45, 2, 0, 0x20, 0], 2), "ok 5 1", other("no 3 0")),
        (cut(&symbol(&[b'a'; 128]), 5), "ok 134 1", other("no 3 0")),
        (cut(&character, 6), "ok 7 1", other("no 5 5")),
        (cut(&overlong, 6), "no 5 5", other("ok 8 1")),
        (cut(&after_array, 4), "ok 5 3", other("ok 5 2")),
        (cut(&after_array, 4), "ok 5 3", other("no 6 0")),
        (cut(&empty_record, 30), "ok 49 16", "no 7 45".into()),
        (cut(&[0x40, 1, 0, 0xFF], 2), "no 2 3", other("no 2 1")),
        (cut(&after_array, 4), "ok 5 3", "ok 1 3".into()),
        (cut(&after_array, 4), "ok 5 3", other("ok 1 1")),
        (
            fed(&[&[], &[0x20]], &[]),
            "ok 1 1",
            changed("no 1 0", "an empty part"),
        ),
        (
            fed(&[&[0x20], &[]], &[]),
            "ok 1 1",
            changed("no 3 1", "an empty part"),
        ),
        (int(), "ok 1 1", anew.into()),
        (cut(&[0x40, 1, 0, 0], 3), "ok 4 2", other("ok 4 2")),
        (
            fed(&[&[0x20], &[]], &[]),
            "ok 1 1",
            changed("ok 1 1", "an empty part"),
        ),
        (
            fed(&[&[0x20]], &[0]),
            "ok 1 1",
            changed("ok 1 1", "a part after the finish"),
        ),
        (int(), "ok 1 1", changed("ok 1 1", "the second finish")),
    ];
    for ((fed, right, wrong), (fault, model)) in told_apart.iter().zip(pieces::WRONG) {
        assert_eq!(fed.right().to_string(), *right, "{fault}");
        assert_eq!(fed.ask(pieces::proved).to_string(), *right, "{fault}");
        assert_eq!(fed.ask(pieces::by_read).to_string(), *right, "{fault}");
        assert_eq!(fed.ask(pieces::fast::<0>).to_string(), *right, "{fault}");
        assert_eq!(fed.ask(model).to_string(), *wrong, "{fault}");
    }
}

#[test]
fn a_difference_in_parts_is_made_small() {
    let smallest = |fault: &str, bytes: &[u8], cuttings: Vec<Cuts>, after: &[u8]| {
        let mut all = pieces::WRONG.into_iter();
        let (_, wrong) = all.find(|(name, _)| *name == fault).unwrap();
        let differs = |fed: &Fed| fed.ask(wrong) != fed.right();
        let fed = Fed::new(bytes.to_vec(), cuttings, after.to_vec());
        assert!(differs(&fed));
        fed.smallest(&differs)
    };
    // a character in a wide Record, cut in two, among other cuts
    let fields = [&[0, 1].repeat(500)[..], &[2, 0xC3, 0xA9, 0x20]].concat();
    let wide = record(501, &fields);
    let cut = Cuts::At(vec![7, 100, 100, wide.len() - 2, wide.len()]);
    let cuttings = vec![Cuts::At(vec![]), Cuts::InTwo(3), cut];
    let small = smallest("refuses a character that is cut", &wide, cuttings, &[0; 70]);
    assert!(small.bytes.len() <= 9, "{small}");
    assert_eq!(small.cuttings.len(), 1);
    assert_eq!(small.cuttings[0].parts(&small.bytes).len(), 2, "{small}");
    assert!(small.after.is_empty(), "{small}");
    // too long as a whole only
    let cuttings = vec![Cuts::Each(1000), Cuts::Each(1)];
    let small = smallest("gives 8 by single parts", &[0x20; 4000], cuttings, &[]);
    assert_eq!(small.bytes.len(), 2049);
    let words = small.to_string();
    assert_eq!(words, "00x1000 / 00x1000 / 00x49");
    let cuttings = vec![Cuts::InTwo(0)];
    let small = smallest("wraps the count at 65,536", &[0x20; 66_000], cuttings, &[]);
    assert_eq!(small.bytes.len(), 65_536);
    // a part after the finish
    let cuttings = vec![Cuts::Each(3)];
    let fault = "counts a part after the finish";
    let small = smallest(fault, &wide, cuttings, &[0xFF; 3000]);
    assert_eq!(small.to_string(), "(no bytes) | 20 after the finish");
}

/// A reader that is wrong in its state alone, and only while it has so many bytes: it notes how long the last
/// part was.
#[derive(Clone, PartialEq)]
struct WrongBetween<const FROM: usize, const TO: usize> {
    right: shiulbart::Pieces,
    noted: usize,
}

impl<const FROM: usize, const TO: usize> Reader for WrongBetween<FROM, TO> {
    fn start() -> Self {
        WrongBetween {
            right: Reader::start(),
            noted: 0,
        }
    }

    fn part(&mut self, part: &[u8]) {
        self.right.part(part);
        if !part.is_empty() {
            let wrong = (FROM..=TO).contains(&self.right.count());
            self.noted = part.len() * wrong as usize;
        }
    }

    fn finish(&mut self) -> Outcome {
        Reader::finish(&mut self.right)
    }
}

/// A state that differs where an input is cut somewhere: in the end, and on the way only.
#[test]
fn a_difference_somewhere_is_made_small() {
    let found = |wrong: Feeds, bytes: &[u8], words: &str| {
        let differs = |fed: &Fed| fed.ask(wrong) != fed.right();
        let fed = || Fed::new(bytes.to_vec(), vec![Cuts::At(vec![])], vec![]);
        assert!(!differs(&fed()));
        let fed = fed().everywhere();
        assert!(fed.ask(wrong).to_string().ends_with(words));
        let small = fed.smallest(&differs);
        assert_eq!((small.cuttings.len(), small.everywhere), (1, false));
        format!("{small}: {}", small.ask(wrong))
    };
    let other = "(its state: in one part it is another)";
    let in_two = "(its state: cut in two it is another)";
    let on_the_way = "(its state: byte by byte it is another)";
    let small = found(feed::<WrongBetween<70, 70>>, &[0x60; 70], in_two);
    assert_eq!(small, format!("00 / 00x69: no 3 1 {other}"));
    let small = found(feed::<WrongBetween<70, 90>>, &[0x60; 700], on_the_way);
    assert_eq!(small, format!("00 / 00x69: no 3 1 {other}"));
}
