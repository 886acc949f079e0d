//! Sheets, fill and join.

mod common;

use common::{array, arrays, function, hex, map, no, symbol, Random};
use model::read::read;
use model::shape::{encode, encoded_len, Shape};
use model::sheet::{check, fill, join, replace, Sheet};
use model::Refusal;

const ROOM: usize = 100_000;

fn bytes_of(entries: &[(u16, Shape)]) -> Vec<u8> {
    Sheet(entries.to_vec()).bytes()
}

/// A sheet of these entries and encodings, right or wrong.
fn raw(entries: &[(u16, u16)], total: u16, encodings: &[u8]) -> Vec<u8> {
    let mut bytes = (entries.len() as u16).to_le_bytes().to_vec();
    for (blank, length) in entries {
        bytes.extend(blank.to_le_bytes());
        bytes.extend(length.to_le_bytes());
    }
    bytes.extend(total.to_le_bytes());
    bytes.extend(encodings);
    bytes
}

#[test]
fn good_sheets() {
    assert_eq!(check(&hex("00 00 00 00"), 13), Ok(Sheet(vec![])));
    let one = Sheet(vec![(0, Shape::Int)]);
    assert_eq!(check(&hex("01 00 00 00 01 00 01 00 20"), 13), Ok(one));
    // The largest: 32 entries and 31 x 513 + 481 = 16,384 bytes; then one byte more.
    let part = symbol(&["x".repeat(507).as_str()]);
    let last = symbol(&["x".repeat(475).as_str()]);
    assert_eq!((encoded_len(&part), encoded_len(&last)), (513, 481));
    let mut entries: Vec<(u16, Shape)> = (0..31).map(|blank| (blank, part.clone())).collect();
    entries.push((65_535, last));
    let mut sheet = Sheet(entries);
    assert_eq!(sheet.bytes().len(), 2 + 32 * 4 + 2 + 16_384);
    assert_eq!(check(&sheet.bytes(), 13), Ok(sheet.clone()));
    sheet.0[31].1 = symbol(&["x".repeat(476).as_str()]);
    assert_eq!(check(&sheet.bytes(), 13), no(13, 130));
}

#[test]
fn broken_sheets() {
    let cases: Vec<(Vec<u8>, u32)> = vec![
        // Entry count missing, over 32, entries past the end: 0.
        (hex(""), 0),
        (hex("00"), 0),
        (hex("01"), 0),
        (hex("01 00"), 0),
        (hex("01 00 00 00 01"), 0),
        (hex("21 00"), 0),
        (hex("00 01"), 0),
        (raw(&[(0, 1); 33], 33, &[0x20; 33]), 0),
        // Entries past the end come before a bad entry.
        (hex("02 00 00 00 00 00"), 0),
        // An entry not rising or of bad length, entry by entry.
        (raw(&[(0, 0)], 0, &[]), 0),
        (raw(&[(0, 2_049)], 2_049, &[0x20; 2_049]), 0),
        (raw(&[(5, 1), (5, 1)], 2, &[0x20; 2]), 1),
        (raw(&[(5, 1), (4, 1)], 2, &[0x20; 2]), 1),
        (raw(&[(5, 1), (6, 0)], 1, &[0x20]), 1),
        (raw(&[(5, 1), (4, 1), (7, 0)], 2, &[0x20; 2]), 1),
        (raw(&[(5, 1), (6, 0), (4, 1)], 2, &[0x20; 2]), 1),
        (raw(&[(5, 0), (4, 1)], 1, &[0x20]), 0),
        (raw(&[(0, 65_535)], 65_535, &[]), 0),
        (raw(&[(65_535, 1), (0, 1)], 2, &[0x20; 2]), 1),
        // A bad entry comes before the second count.
        (hex("01 00 00 00 00 00"), 0),
        // Second count missing.
        (hex("00 00"), 2),
        (hex("00 00 00"), 2),
        (hex("01 00 00 00 01 00"), 6),
        (hex("01 00 00 00 01 00 01"), 6),
        // Not the sum.
        (hex("00 00 01 00"), 2),
        (hex("00 00 01 00 20"), 2),
        (raw(&[(0, 1)], 0, &[]), 6),
        (raw(&[(0, 1)], 2, &[0x20; 2]), 6),
        (raw(&[(0, 1), (1, 1)], 1, &[0x20; 2]), 10),
        // Bytes past the end.
        (raw(&[(0, 1)], 1, &[]), 6),
        (raw(&[(0, 1), (1, 2)], 3, &[0x20; 2]), 10),
        // Leftover bytes, before the reader.
        (hex("00 00 00 00 00"), 4),
        (raw(&[(0, 1)], 1, &[0x20, 0x20]), 9),
        (raw(&[(0, 1)], 1, &[0xFF, 0x20, 0x20]), 9),
        // An encoding the reader refuses.
        (raw(&[(7, 1)], 1, &[0xFF]), 0),
        (raw(&[(7, 1), (8, 1)], 2, &[0x20, 0xFF]), 1),
        (raw(&[(7, 2), (8, 1)], 3, &[0x20, 0x20, 0xFF]), 0),
        (raw(&[(7, 1), (8, 4)], 5, &hex("20 40 01 00 20")), 1),
    ];
    for (bytes, place) in &cases {
        assert_eq!(check(bytes, 13), no(13, *place), "{bytes:?}");
        assert_eq!(check(bytes, 14), no(14, *place), "{bytes:?}");
        assert_eq!(fill(&hex("20"), bytes, 0), no(13, *place));
        let good = hex("00 00 00 00");
        assert_eq!(join(bytes, &good, 0), no(13, *place));
        assert_eq!(join(&good, bytes, 0), no(14, *place));
        // The first is checked first.
        assert_eq!(join(bytes, &hex("05"), 0), no(13, *place));
    }
    // A sum that two bytes cannot hold: 32 x 2,048 = 65,536.
    let entries: Vec<(u16, u16)> = (0..32).map(|blank| (blank, 2_048)).collect();
    assert_eq!(check(&raw(&entries, 0, &[]), 13), no(13, 130));
    assert_eq!(check(&raw(&entries, 0, &[0x20; 65_536]), 13), no(13, 130));
    // Over 16,384, and the sum.
    let entries: Vec<(u16, u16)> = (0..9).map(|blank| (blank, 2_048)).collect();
    let bytes = raw(&entries, 9 * 2_048, &[0; 9 * 2_048]);
    assert_eq!(check(&bytes, 13), no(13, 38));
}

#[test]
fn fills() {
    let int_for_0 = bytes_of(&[(0, Shape::Int)]);
    // Template before sheet, sheet before 15, 16, 12.
    assert_eq!(fill(&hex("FF"), &hex(""), 0), no(2, 0));
    assert_eq!(fill(&[0; 2_049], &hex(""), 0), no(8, 2_048));
    assert_eq!(fill(&hex("00"), &int_for_0, 0), no(12, 1));
    assert_eq!(fill(&hex("00"), &int_for_0, 1), Ok(hex("20")));
    // Others stay.
    assert_eq!(fill(&hex("01"), &int_for_0, ROOM), Ok(hex("01")));
    assert_eq!(
        fill(&hex("41 02 00 01 00"), &int_for_0, ROOM),
        Ok(hex("41 02 00 01 20"))
    );
    // Map of two blanks becomes packed, and only with both.
    assert_eq!(
        fill(&hex("41 02 00 00 00"), &int_for_0, ROOM),
        Ok(hex("65"))
    );
    // A blank of five bytes becomes one of one, and back.
    let sheet = bytes_of(&[(31, Shape::Variable(32)), (32, Shape::Variable(31))]);
    assert_eq!(fill(&hex("45 02 00 20 00"), &sheet, ROOM), Ok(hex("1F")));
    assert_eq!(fill(&hex("1F"), &sheet, ROOM), Ok(hex("45 02 00 20 00")));
    // A blank filled with itself.
    let sheet = bytes_of(&[(0, array(Shape::Variable(0)))]);
    assert_eq!(
        fill(&hex("40 01 00 00"), &sheet, ROOM),
        Ok(hex("40 04 00 40 01 00 00"))
    );
    // 15 before 16, both before 12.
    let deep = bytes_of(&[(0, arrays(14, Shape::Int))]);
    let template = encode(&array(Shape::Variable(0)));
    assert_eq!(fill(&template, &deep, ROOM).unwrap().len(), 43);
    let template = encode(&arrays(2, Shape::Variable(0)));
    assert_eq!(fill(&template, &deep, 0), no(15, 0));
    let template = encode(&function(
        vec![arrays(2, Shape::Variable(0)); 200],
        Shape::Int,
    ));
    assert_eq!(fill(&template, &deep, 0), no(15, 0));
    let template = encode(&function(vec![Shape::Variable(0); 200], Shape::Int));
    assert_eq!(fill(&template, &deep, 0), no(16, 0));
    // A packed Array where the blank was on level 16.
    let template = encode(&arrays(15, Shape::Variable(0)));
    assert_eq!(
        fill(&template, &bytes_of(&[(0, array(Shape::Int))]), ROOM),
        no(15, 0)
    );
    assert_eq!(fill(&template, &int_for_0, ROOM).unwrap().len(), 43);
    // Exactly 2,048 bytes, and one more.
    let template = encode(&map(Shape::Variable(0), Shape::Variable(1)));
    let fits = symbol(&["x".repeat(2_038).as_str()]);
    let over = symbol(&["x".repeat(2_039).as_str()]);
    assert_eq!(encoded_len(&fits), 2_044);
    let sheet = bytes_of(&[(0, fits)]);
    assert_eq!(fill(&template, &sheet, 2_048).unwrap().len(), 2_048);
    assert_eq!(fill(&template, &sheet, 2_047), no(12, 2_048));
    assert_eq!(fill(&template, &bytes_of(&[(0, over)]), ROOM), no(16, 0));
}

#[test]
fn joins() {
    let empty = hex("00 00 00 00");
    assert_eq!(join(&empty, &empty, 4), Ok(empty.clone()));
    assert_eq!(join(&empty, &empty, 3), no(12, 4));
    let first = bytes_of(&[
        (3, map(Shape::Variable(3), Shape::Variable(9))),
        (9, Shape::Int),
    ]);
    let second = bytes_of(&[(1, Shape::Variable(3)), (3, Shape::Bool), (9, Shape::Str)]);
    assert_eq!(join(&first, &empty, ROOM), Ok(first.clone()));
    assert_eq!(join(&empty, &first, ROOM), Ok(first.clone()));
    let joined = bytes_of(&[
        (1, Shape::Variable(3)),
        (3, map(Shape::Bool, Shape::Str)),
        (9, Shape::Int),
    ]);
    assert_eq!(join(&first, &second, joined.len()), Ok(joined.clone()));
    assert_eq!(
        join(&first, &second, joined.len() - 1),
        no(12, joined.len() as u32)
    );
    // 17 for entries: before 15 and 16.
    let evens: Vec<(u16, Shape)> = (0..17).map(|k| (2 * k, arrays(15, Shape::Int))).collect();
    let odds: Vec<(u16, Shape)> = (0..16).map(|k| (2 * k + 1, Shape::Int)).collect();
    assert_eq!(join(&bytes_of(&evens), &bytes_of(&odds), 0), no(17, 33));
    assert_eq!(join(&bytes_of(&odds), &bytes_of(&evens), 0), no(17, 33));
    let all: Vec<(u16, Shape)> = (0..32).map(|k| (k, Shape::Int)).collect();
    let others: Vec<(u16, Shape)> = (100..132).map(|k| (k, Shape::Int)).collect();
    assert_eq!(join(&bytes_of(&all), &bytes_of(&others), 0), no(17, 64));
    assert_eq!(
        join(&bytes_of(&all), &bytes_of(&all), ROOM),
        Ok(bytes_of(&all))
    );
    let fewer = bytes_of(&evens[..16]);
    assert!(join(&fewer, &bytes_of(&odds), ROOM).is_ok());
}

#[test]
fn joins_by_rising_number() {
    let deep = arrays(10, Shape::Variable(0));
    let wide = function(vec![Shape::Variable(0); 100], Shape::Int);
    let both = function(vec![arrays(9, Shape::Variable(0)); 60], Shape::Int);
    let second = bytes_of(&[(0, arrays(10, Shape::Int))]);
    let answer = |first: &[(u16, Shape)]| join(&bytes_of(first), &second, 0);
    assert_eq!(answer(&[(1, deep.clone())]), no(15, 1));
    assert_eq!(answer(&[(500, wide.clone())]), no(16, 500));
    assert_eq!(answer(&[(65_535, both.clone())]), no(15, 65_535));
    assert_eq!(answer(&[(1, wide.clone()), (2, deep.clone())]), no(16, 1));
    assert_eq!(answer(&[(1, deep.clone()), (2, wide.clone())]), no(15, 1));
    let first = [(1, Shape::Int), (7, wide.clone()), (8, both)];
    assert_eq!(answer(&first), no(16, 7));
    // The second's own shapes are not filled.
    let second = bytes_of(&[(0, arrays(15, Shape::Variable(0)))]);
    assert_eq!(join(&bytes_of(&[]), &second, ROOM), Ok(second.clone()));
    let joined = join(&bytes_of(&[(5, Shape::Variable(0))]), &second, ROOM);
    // 15 Arrays round a blank are 46 bytes; here they are twice.
    assert_eq!(joined.unwrap().len(), 2 + 2 * 4 + 2 + 2 * 46);
    assert_eq!(join(&second, &second, ROOM), no(15, 0));
}

#[test]
fn joins_over_16384_bytes() {
    // 8 x 2,048 = 16,384 from the second, and one more byte from the first.
    let full = symbol(&["x".repeat(2_042).as_str()]);
    let second: Vec<(u16, Shape)> = (0..8).map(|k| (k, full.clone())).collect();
    let second = bytes_of(&second);
    assert_eq!(second.len(), 2 + 32 + 2 + 16_384);
    let empty = bytes_of(&[]);
    assert_eq!(join(&empty, &second, second.len()), Ok(second.clone()));
    assert_eq!(join(&empty, &second, 0), no(12, 16_420));
    let one = bytes_of(&[(9, Shape::Int)]);
    assert_eq!(join(&one, &second, 0), no(17, 16_385));
    assert_eq!(join(&second, &one, 0), no(17, 16_385));
    // 16 comes before 17 for bytes.
    let over = bytes_of(&[(9, map(Shape::Variable(0), Shape::Variable(1)))]);
    assert_eq!(join(&over, &second, 0), no(16, 9));
    // The largest sum there can be: 32 blanks that become 2,048 bytes each.
    let first: Vec<(u16, Shape)> = (0..32).map(|k| (k, Shape::Variable(0))).collect();
    let answer = join(&bytes_of(&first), &bytes_of(&[(0, full)]), 0);
    assert_eq!(answer, no(17, 65_536));
}

/// A random sheet: few blanks, shapes small or large.
fn random_sheet(random: &mut Random) -> Sheet {
    let mut blanks: Vec<u16> = (0..random.below(7)).map(|_| random.blank()).collect();
    blanks.sort();
    blanks.dedup();
    let mut entries = Vec::new();
    for blank in blanks {
        let shape = random.blank_shape();
        assert!(shape.depth() <= 16 && encoded_len(&shape) <= 2_048);
        entries.push((blank, shape));
    }
    Sheet(entries)
}

/// The made shape, judged after making it.
fn judged(shape: &Shape, place: u32) -> Result<Vec<u8>, Refusal> {
    let bytes = encode(shape);
    if shape.depth() > 16 {
        no(15, place)
    } else if bytes.len() > 2_048 {
        no(16, place)
    } else {
        Ok(bytes)
    }
}

#[test]
fn random_fills_and_joins() {
    let mut random = Random(5);
    // How often each number came from fill, from join; answers as 0.
    let (mut fills, mut joins) = ([0; 18], [0; 18]);
    for _ in 0..5_000 {
        let template = random.blank_shape();
        let template_bytes = encode(&template);
        let first = random_sheet(&mut random);
        let second = random_sheet(&mut random);
        let (first_bytes, second_bytes) = (first.bytes(), second.bytes());
        assert_eq!(check(&first_bytes, 13), Ok(first.clone()));

        // Fill is the replacing, judged.
        let filled = fill(&template_bytes, &first_bytes, ROOM);
        assert_eq!(filled, judged(&replace(&template, &first), 0));
        if let Ok(bytes) = &filled {
            assert_eq!(read(bytes), Ok(replace(&template, &first)));
        }

        // Join is the replacing in each, judged.
        let joined = join(&first_bytes, &second_bytes, ROOM);
        fills[filled.as_ref().err().map_or(0, |no| no.number) as usize] += 1;
        joins[joined.as_ref().err().map_or(0, |no| no.number) as usize] += 1;
        let mut expected: Vec<(u16, Shape)> = Vec::new();
        for (blank, shape) in &first.0 {
            expected.push((*blank, replace(shape, &second)));
        }
        for (blank, shape) in &second.0 {
            if first.get(*blank).is_none() {
                expected.push((*blank, shape.clone()));
            }
        }
        expected.sort_by_key(|(blank, _)| *blank);
        let fault = expected
            .iter()
            .find_map(|(blank, shape)| judged(shape, u32::from(*blank)).err());
        match fault {
            Some(refusal) => assert_eq!(joined, Err(refusal)),
            None => {
                let total: u64 = expected.iter().map(|(_, shape)| encoded_len(shape)).sum();
                assert!(total <= 16_384);
                assert_eq!(joined, Ok(Sheet(expected.clone()).bytes()));
                let sheet = check(joined.as_ref().unwrap(), 13);
                assert_eq!(sheet, Ok(Sheet(expected.clone())));
            }
        }

        // Filling in two stages is filling with the join, without limits.
        let two_stages = replace(&replace(&template, &first), &second);
        assert_eq!(two_stages, replace(&template, &Sheet(expected)));
        // And with limits, where the stages are answered.
        if let (Ok(filled), Ok(joined)) = (&filled, &joined) {
            assert_eq!(
                fill(filled, &second_bytes, ROOM),
                fill(&template_bytes, joined, ROOM)
            );
        }
    }
    for seen in [fills, joins] {
        assert!(
            seen[0] > 1_000 && seen[15] > 20 && seen[16] > 20,
            "{seen:?}"
        );
    }
}

#[test]
fn spoiled_sheets() {
    let mut random = Random(6);
    let mut good = 0;
    for _ in 0..20_000 {
        let bytes = random_sheet(&mut random).bytes();
        let bytes = random.spoiled(&bytes);
        match check(&bytes, 14) {
            Ok(sheet) => {
                assert_eq!(sheet.bytes(), bytes);
                good += 1;
            }
            Err(refusal) => {
                assert_eq!(refusal.number, 14);
                assert!(refusal.place as usize <= bytes.len());
            }
        }
    }
    assert!(good > 500, "{good}");
}
