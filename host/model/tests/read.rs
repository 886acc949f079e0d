//! Shapes and the reader.

mod common;

use common::{array, arrays, function, hex, map, no, record, symbol, Random};
use model::read::read;
use model::shape::{encode, encoded_len, leb128, measure, primitive, Measure, Shape};

#[test]
fn every_single_byte() {
    for byte in 0..=255u8 {
        let answer = read(&[byte]);
        match byte {
            0..=31 => assert_eq!(answer, Ok(Shape::Variable(u16::from(byte)))),
            32..=36 => assert_eq!(answer, Ok(primitive(byte - 32))),
            64..=69 => assert_eq!(answer, no(1, 0)),
            96..=100 => assert_eq!(answer, Ok(array(primitive(byte - 96)))),
            101..=125 => {
                let expected = map(primitive((byte - 101) / 5), primitive((byte - 101) % 5));
                assert_eq!(answer, Ok(expected));
            }
            _ => assert_eq!(answer, no(2, 0)),
        }
    }
}

/// Cases by hand for each clause of "Reading order".
#[test]
fn reading_order() {
    // 8 comes first, whatever the bytes.
    assert_eq!(read(&[0xFF; 2_049]), no(8, 2_048));
    assert_eq!(read(&[0xFF; 2_048]), no(2, 0));
    assert_eq!(read(&[0x20; 2_048]), no(3, 1));

    let cases: &[(&str, u32, u32)] = &[
        // 1 at a shape whose window ends at its place: the input, a payload.
        ("", 1, 0),
        ("40 00 00", 1, 3),
        ("40 00 00 20", 1, 3),
        ("41 01 00 20", 1, 4),
        ("41 01 00 20 20", 1, 4),
        ("42 03 00 01 01 61", 1, 6),
        ("43 01 00 00", 1, 4),
        ("43 02 00 01 20", 1, 5),
        ("43 02 00 01 20 20", 1, 5),
        // 2
        ("25", 2, 0),
        ("3F", 2, 0),
        ("46", 2, 0),
        ("5F", 2, 0),
        ("7E", 2, 0),
        ("7F", 2, 0),
        ("80", 2, 0),
        ("FF 00", 2, 0),
        ("40 01 00 46", 2, 3),
        ("40 02 00 46 20", 2, 3),
        ("41 02 00 20 7E", 2, 4),
        // 1 at the first byte: size bytes or payload pass the window.
        ("40", 1, 0),
        ("40 01", 1, 0),
        ("40 01 00", 1, 0),
        ("40 02 00 20", 1, 0),
        ("40 00 01 20", 1, 0),
        ("45 02 00 20", 1, 0),
        ("45 03 00 20 00", 1, 0),
        ("40 03 00 40 01 00 20", 1, 3),
        ("40 02 00 40 01 00 20", 1, 3),
        ("40 01 00 40 01 00 20", 1, 3),
        ("40 03 00 45 02 00 40 00", 1, 3),
        ("41 04 00 20 40 01 00 20", 1, 4),
        // 4: missing, unfinished, over two bytes, not shortest; counts and lengths.
        ("42 00 00", 4, 3),
        ("43 00 00", 4, 3),
        ("44 00 00", 4, 3),
        ("42 00 00 00", 4, 3),
        ("42 01 00 80", 4, 3),
        ("42 01 00 80 01", 4, 3),
        ("42 02 00 80 80", 4, 3),
        ("42 03 00 80 80 01", 4, 3),
        ("42 02 00 80 00", 4, 3),
        ("42 02 00 FF 00", 4, 3),
        ("42 01 00 01", 4, 4),
        ("42 01 00 01 00", 4, 4),
        ("44 01 00 01", 4, 4),
        ("44 02 00 02 00", 4, 5),
        ("44 02 00 01 80", 4, 4),
        ("44 03 00 01 80 00", 4, 4),
        ("44 04 00 01 80 80 01", 4, 4),
        ("42 04 00 02 01 61 20", 4, 7),
        // a text that passes the payload: 1 at its length's place; before 5.
        ("44 03 00 01 02 61", 1, 4),
        ("44 03 00 01 02 FF", 1, 4),
        ("44 03 00 01 02 61 62", 1, 4),
        ("44 04 00 01 80 01 61", 1, 4),
        ("42 03 00 01 02 61", 1, 4),
        ("42 02 00 01 05", 1, 4),
        // 5 at the text's first byte.
        ("44 03 00 01 01 FF", 5, 5),
        ("44 04 00 01 02 61 C3", 5, 5),
        ("44 04 00 01 02 C0 80", 5, 5),
        ("44 05 00 01 03 ED A0 80", 5, 5),
        ("44 06 00 01 04 F4 90 80 80", 5, 5),
        ("44 05 00 02 01 C3 01 A9", 5, 5),
        ("42 04 00 01 01 80 20", 5, 5),
        // the text's fault is met before the child's.
        ("42 04 00 01 01 80 FF", 5, 5),
        // 3: a long Variable's size, before 6.
        ("45 00 00", 3, 0),
        ("45 01 00 20", 3, 0),
        ("45 03 00 20 00 00", 3, 0),
        ("45 03 00 00 00 00", 3, 0),
        ("40 04 00 45 01 00 20", 3, 3),
        // 3: payload bytes left over, before 6.
        ("40 02 00 20 20", 3, 0),
        ("40 02 00 00 00", 3, 0),
        ("41 03 00 20 20 20", 3, 0),
        ("42 02 00 00 00", 3, 0),
        ("43 03 00 00 20 20", 3, 0),
        ("44 02 00 00 00", 3, 0),
        ("40 05 00 40 02 00 00 00", 3, 3),
        // 6
        ("40 01 00 24", 6, 0),
        ("41 02 00 20 24", 6, 0),
        ("45 02 00 00 00", 6, 0),
        ("40 04 00 40 01 00 20", 6, 3),
        ("40 05 00 45 02 00 1F 00", 6, 3),
        // 6 inside comes before what is left over after it, and 6 before 3 after the root.
        ("40 06 00 45 02 00 1F 00 00", 6, 3),
        ("40 01 00 20 20", 6, 0),
        // after the root
        ("00 FF", 3, 1),
        ("40 01 00 00 00", 3, 4),
        ("45 02 00 20 00 00", 3, 5),
    ];
    for (bytes, number, place) in cases {
        assert_eq!(read(&hex(bytes)), no(*number, *place), "{bytes}");
    }

    let accepted: &[(&str, Shape)] = &[
        ("40 01 00 00", array(Shape::Variable(0))),
        ("40 01 00 60", array(array(Shape::Int))),
        ("41 02 00 20 00", map(Shape::Int, Shape::Variable(0))),
        ("41 02 00 00 20", map(Shape::Variable(0), Shape::Int)),
        ("42 01 00 00", record(&[])),
        ("42 03 00 01 00 20", record(&[("", Shape::Int)])),
        (
            "42 07 00 02 01 61 20 01 61 20",
            record(&[("a", Shape::Int), ("a", Shape::Int)]),
        ),
        (
            "43 03 00 01 20 21",
            function(vec![Shape::Int], Shape::Float),
        ),
        ("44 01 00 00", symbol(&[])),
        ("44 03 00 02 00 00", symbol(&["", ""])),
        ("44 04 00 01 02 C3 A9", symbol(&["é"])),
        ("45 02 00 FF FF", Shape::Variable(65_535)),
        ("45 02 00 00 01", Shape::Variable(256)),
        ("79", map(Shape::Bytes, Shape::Int)),
        ("7D", map(Shape::Bytes, Shape::Bytes)),
    ];
    for (bytes, shape) in accepted {
        assert_eq!(read(&hex(bytes)), Ok(shape.clone()), "{bytes}");
        assert_eq!(encode(shape), hex(bytes));
    }
}

/// `levels` long Arrays round these bytes.
fn wrapped(levels: usize, inner: &[u8]) -> Vec<u8> {
    let mut bytes = inner.to_vec();
    for _ in 0..levels {
        let mut longer = vec![0x40, (bytes.len() % 256) as u8, (bytes.len() / 256) as u8];
        longer.extend(bytes);
        bytes = longer;
    }
    bytes
}

#[test]
fn the_last_levels() {
    // On level 16: everything without children, and no packed byte ("Taking a packed byte at
    // level 16" is a slip).
    for inner in ["00", "45 02 00 20 00", "42 01 00 00", "44 03 00 01 01 61"] {
        let bytes = wrapped(15, &hex(inner));
        assert_eq!(read(&bytes).unwrap().depth(), 16, "{inner}");
    }
    for packed in 96..=125u8 {
        assert_eq!(read(&wrapped(15, &[packed])), no(7, 45));
        assert_eq!(read(&wrapped(14, &[packed])).unwrap().depth(), 16);
    }
    // At level 16, places from 45; a child on level 17 is at 48 or later.
    let cases: &[(&str, u32, u32)] = &[
        ("", 1, 45),
        ("20", 6, 42),
        ("FF", 2, 45),
        ("7E", 2, 45),
        ("40", 1, 45),
        ("40 00 00", 1, 48),
        ("40 01 00 00", 7, 48),
        ("40 01 00 20", 7, 48),
        ("40 01 00 60", 7, 48),
        ("40 01 00 40", 7, 48),
        ("40 01 00 FF", 2, 48),
        ("41 01 00 FF", 2, 48),
        ("41 01 00 20", 7, 48),
        ("42 03 00 01 00 20", 7, 50),
        ("42 02 00 01 00", 1, 50),
        ("43 02 00 00 20", 7, 49),
        ("43 02 00 80 00", 4, 48),
        ("45 01 00 00", 3, 45),
        ("45 02 00 00 00", 6, 45),
    ];
    for (inner, number, place) in cases {
        assert_eq!(
            read(&wrapped(15, &hex(inner))),
            no(*number, *place),
            "{inner}"
        );
    }
    // A packed byte on level 17 is 7 as well, and an unassigned byte there is 2.
    assert_eq!(read(&wrapped(16, &[0x60])), no(7, 48));
    assert_eq!(read(&wrapped(16, &[0x7F])), no(2, 48));
    assert_eq!(read(&wrapped(17, &[0x7F])), no(7, 48));
}

#[test]
fn depths() {
    assert_eq!(Shape::Int.depth(), 1);
    assert_eq!(Shape::Variable(7).depth(), 1);
    assert_eq!(record(&[]).depth(), 1);
    assert_eq!(symbol(&["a", "b"]).depth(), 1);
    assert_eq!(array(Shape::Int).depth(), 2);
    assert_eq!(function(vec![], Shape::Int).depth(), 2);
    assert_eq!(map(Shape::Int, array(Shape::Int)).depth(), 3);
    assert_eq!(
        record(&[("a", array(Shape::Int)), ("b", Shape::Int)]).depth(),
        3
    );
    assert_eq!(arrays(1_000, Shape::Int).depth(), 1_001);
}

#[test]
fn counts_of_two_bytes() {
    assert_eq!(leb128(0), [0]);
    assert_eq!(leb128(127), [0x7F]);
    assert_eq!(leb128(128), [0x80, 0x01]);
    assert_eq!(leb128(16_383), [0xFF, 0x7F]);
    for count in [126, 127, 128, 129, 500, 2_042] {
        let shape = function(vec![Shape::Bool; count], Shape::Int);
        assert_eq!(read(&encode(&shape)), Ok(shape));
        let shape = Shape::Symbol(vec![Vec::new(); count]);
        assert_eq!(read(&encode(&shape)), Ok(shape));
        let shape = Shape::Symbol(vec![vec![b'x'; count]]);
        assert_eq!(read(&encode(&shape)), Ok(shape));
        let shape = Shape::Record(vec![(Vec::new(), Shape::Str); count / 2]);
        assert_eq!(read(&encode(&shape)), Ok(shape));
    }
    // 2,042 parameters and a return: 3 + 2 + 2,042 + 1 = 2,048 bytes.
    assert_eq!(
        encode(&function(vec![Shape::Bool; 2_042], Shape::Int)).len(),
        2_048
    );
}

/// The measure says what the tree and the bytes say, for shapes far over the limits too.
#[test]
fn measures() {
    let mut random = Random(1);
    let mut over = 0;
    for _ in 0..5_000 {
        let shape = random.any_shape();
        let found = measure(&shape, &Measure::variable);
        assert_eq!(found.depth, shape.depth());
        assert_eq!(found.length, encode(&shape).len() as u64);
        assert_eq!(encoded_len(&shape), found.length);
        over += usize::from(found.length > 2_048 || found.depth > 16);
    }
    assert!(over > 50, "{over}");
    // Past what two bytes of size hold, and a count past two bytes.
    let huge = function(vec![symbol(&[&"x".repeat(20_000)]); 100], Shape::Int);
    assert_eq!(encoded_len(&huge), 3 + 1 + 100 * (3 + 1 + 3 + 20_000) + 1);
    assert_eq!(encoded_len(&huge), encode(&huge).len() as u64);
    let wide = function(vec![Shape::Int; 100_000], Shape::Int);
    assert_eq!(encoded_len(&wide), 3 + 3 + 100_000 + 1);
    assert_eq!(encoded_len(&wide), encode(&wide).len() as u64);
}

#[test]
fn round_trips() {
    let mut random = Random(2);
    let mut long = 0;
    for _ in 0..10_000 {
        let shape = random.any_shape();
        let bytes = encode(&shape);
        let answer = read(&bytes);
        if bytes.len() > 2_048 {
            assert_eq!(answer, no(8, 2_048));
        } else if shape.depth() > 16 {
            assert_eq!(answer.unwrap_err().number, 7);
        } else {
            assert_eq!(answer, Ok(shape));
            long += usize::from(bytes.len() > 200);
        }
    }
    assert!(long > 100, "{long}");
}

/// Whatever is accepted is the one encoding of what it was read as.
fn judge(bytes: &[u8]) -> bool {
    match read(bytes) {
        Ok(shape) => {
            assert_eq!(encode(&shape), bytes);
            assert!(shape.depth() <= 16);
            true
        }
        Err(refusal) => {
            assert!((1..=8).contains(&refusal.number));
            assert!(refusal.place as usize <= bytes.len().min(2_048));
            false
        }
    }
}

#[test]
fn spoiled_encodings() {
    let mut random = Random(3);
    let (mut accepted, mut numbers) = (0, [0; 9]);
    for _ in 0..50_000 {
        let bytes = encode(&random.fitting_shape());
        let bytes = random.spoiled(&bytes);
        accepted += usize::from(judge(&bytes));
        if let Err(refusal) = read(&bytes) {
            numbers[refusal.number as usize] += 1;
        }
    }
    assert!(accepted > 1_000, "{accepted}");
    // 7 and 8 have their cases above.
    for number in 1..=6 {
        assert!(numbers[number] > 5, "{numbers:?}");
    }
}

/// The bytes that `all_short_strings` makes its strings of.
const ALPHABET: [u8; 12] = [
    0x00, 0x01, 0x02, 0x03, 0x20, 0x40, 0x41, 0x42, 0x43, 0x44, 0x60, 0x80,
];

/// All encodings of exactly `length` bytes (at most 6) that are made of these bytes alone, built
/// up from the parts, not read.
fn language(length: usize) -> Vec<Vec<u8>> {
    if length == 1 {
        return [0x00, 0x01, 0x02, 0x03, 0x20, 0x60]
            .map(|byte| vec![byte])
            .to_vec();
    }
    if length < 4 {
        return Vec::new();
    }
    let size = length - 3;
    let mut all = Vec::new();
    let mut add = |first: u8, payload: Vec<u8>| {
        let mut bytes = vec![first, size as u8, 0];
        bytes.extend(payload);
        all.push(bytes);
    };
    for payload in sequences(1, size, &language) {
        if payload != [0x20] {
            add(0x40, payload);
        }
    }
    for payload in sequences(2, size, &language) {
        if payload != [0x20, 0x20] {
            add(0x41, payload);
        }
    }
    for count in 0..=3u8 {
        for (first, rest) in [
            (0x42, sequences(usize::from(count), size - 1, &fields)),
            (0x43, sequences(usize::from(count) + 1, size - 1, &language)),
            (0x44, sequences(usize::from(count), size - 1, &texts)),
        ] {
            for items in rest {
                let mut payload = vec![count];
                payload.extend(items);
                add(first, payload);
            }
        }
    }
    all
}

/// All that is `count` items one after the other, `length` bytes together.
fn sequences(count: usize, length: usize, item: &dyn Fn(usize) -> Vec<Vec<u8>>) -> Vec<Vec<u8>> {
    if count == 0 {
        return if length == 0 {
            vec![Vec::new()]
        } else {
            Vec::new()
        };
    }
    let mut all = Vec::new();
    for head in 1..=length {
        for first in item(head) {
            for rest in sequences(count - 1, length - head, item) {
                let mut bytes = first.clone();
                bytes.extend(rest);
                all.push(bytes);
            }
        }
    }
    all
}

/// All lengths with their texts, of exactly `length` bytes. Of the alphabet all but 80 are ASCII.
fn texts(length: usize) -> Vec<Vec<u8>> {
    let mut all = vec![vec![(length - 1) as u8]];
    for _ in 1..length {
        let mut longer = Vec::new();
        for text in &all {
            for byte in ALPHABET.iter().filter(|byte| **byte < 0x80) {
                let mut next = text.clone();
                next.push(*byte);
                longer.push(next);
            }
        }
        all = longer;
    }
    all
}

/// All fields of a Record, of exactly `length` bytes.
fn fields(length: usize) -> Vec<Vec<u8>> {
    let mut all = Vec::new();
    for name in 1..length {
        for text in texts(name) {
            for shape in language(length - name) {
                let mut bytes = text.clone();
                bytes.extend(shape);
                all.push(bytes);
            }
        }
    }
    all
}

/// Every string of up to 6 bytes over a small alphabet is accepted exactly if it is one of the
/// encodings, which are made here the other way round.
#[test]
fn all_short_strings() {
    for length in 0..=6 {
        let mut expected = if length == 0 {
            Vec::new()
        } else {
            language(length)
        };
        expected.sort();
        let mut accepted = Vec::new();
        for index in 0..ALPHABET.len().pow(length as u32) {
            let mut rest = index;
            let mut bytes = Vec::new();
            for _ in 0..length {
                bytes.push(ALPHABET[rest % ALPHABET.len()]);
                rest /= ALPHABET.len();
            }
            if judge(&bytes) {
                accepted.push(bytes);
            }
        }
        accepted.sort();
        assert_eq!(accepted, expected);
        // Records 6, Functions 6 x 6, Symbols 11 + 1.
        assert!(length < 6 || accepted.len() == 54);
    }
}
