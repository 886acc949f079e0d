//! Filling and joining through the safe crate: the bench card, the sizes at their limits, every
//! refusal, and every byte of the lent buffer.

use shiulbart::{fill, fill_to_vec, join, join_to_vec, read, sheet, Refusal, RefusalKind};
use RefusalKind::*;

const INT: &[u8] = &[0x20];
const EMPTY: [u8; 4] = [0; 4];

/// The sheet that has these encodings for these blanks.
fn sheet_of(blanks: &[(u16, &[u8])]) -> Vec<u8> {
    let mut bytes = (blanks.len() as u16).to_le_bytes().to_vec();
    for (blank, own) in blanks {
        bytes.extend(blank.to_le_bytes());
        bytes.extend((own.len() as u16).to_le_bytes());
    }
    let total: usize = blanks.iter().map(|(_, own)| own.len()).sum();
    bytes.extend((total as u16).to_le_bytes());
    blanks.iter().for_each(|(_, own)| bytes.extend(*own));
    bytes
}

/// A sheet of so many entries, from a blank on, that all have this encoding.
fn equal(from: u16, count: u16, own: &[u8]) -> Vec<u8> {
    let blanks: Vec<(u16, &[u8])> = (from..from + count).map(|blank| (blank, own)).collect();
    sheet_of(&blanks)
}

fn long(first: u8, payload: &[u8]) -> Vec<u8> {
    let size = (payload.len() as u16).to_le_bytes();
    [&[first], &size[..], payload].concat()
}

/// So many Arrays round a shape.
fn arrays(count: usize, inner: &[u8]) -> Vec<u8> {
    (0..count).fold(inner.to_vec(), |inner, _| long(0x40, &inner))
}

/// A Function of so many parameters, 128 or more, that returns an Int.
fn function(count: usize, parameter: &[u8]) -> Vec<u8> {
    let count_bytes = [count as u8 | 128, (count >> 7) as u8];
    long(
        0x43,
        &[&count_bytes, &parameter.repeat(count)[..], INT].concat(),
    )
}

/// A Symbol of one text that takes so many bytes, at least 134.
fn symbol(bytes: usize) -> Vec<u8> {
    let letters = bytes - 6;
    let head = [1, letters as u8 | 128, (letters >> 7) as u8];
    long(0x44, &[&head[..], &vec![b'a'; letters]].concat())
}

/// Function of 500 Arrays of blank 0, returning Int.
fn arrays_500() -> Vec<u8> {
    let template = function(500, &arrays(1, &[0]));
    assert_eq!(template.len(), 2006);
    template
}

/// A buffer whose bytes tell their place.
fn pattern(length: usize) -> Vec<u8> {
    (0..length)
        .map(|place| (place * 7 + place / 256 + 3) as u8)
        .collect()
}

type Call = fn(&[u8], &[u8], &mut [u8]) -> Result<usize, Refusal>;
type ToVec = fn(&[u8], &[u8]) -> Result<Vec<u8>, Refusal>;
const FILL: (Call, ToVec) = (fill, fill_to_vec);
const JOIN: (Call, ToVec) = (join, join_to_vec);

/// The answer, with buffers of each length that matters.
#[track_caller]
fn gives((call, to_vec): (Call, ToVec), first: &[u8], second: &[u8], answer: &[u8]) {
    let needed = answer.len();
    for room in [
        0,
        1,
        needed / 2,
        needed - 1,
        needed,
        needed + 1,
        needed + 5000,
    ] {
        let mut out = pattern(room);
        let told = call(first, second, &mut out);
        if room < needed {
            assert_eq!(told, Err(Refusal::new(BufferShort, needed as u32)));
            assert!(
                out == pattern(room),
                "changed by a refusal, of {room} bytes"
            );
        } else {
            assert_eq!(told, Ok(needed));
            assert!(&out[..needed] == answer, "{:02X?}", &out[..needed]);
            assert!(
                out[needed..] == pattern(room)[needed..],
                "changed past the answer"
            );
        }
    }
    assert_eq!(to_vec(first, second).as_deref(), Ok(answer));
}

/// The refusal, whatever buffer is lent; it is unchanged.
#[track_caller]
fn refuses(
    (call, to_vec): (Call, ToVec),
    first: &[u8],
    second: &[u8],
    kind: RefusalKind,
    place: u32,
) {
    let refusal = Refusal::new(kind, place);
    for room in [0, 1, 2047, 2048, 2049, 20_000] {
        let mut out = pattern(room);
        assert_eq!(call(first, second, &mut out), Err(refusal));
        assert!(
            out == pattern(room),
            "changed by a refusal, of {room} bytes"
        );
    }
    assert_eq!(to_vec(first, second), Err(refusal));
}

#[test]
fn m12_replaced_together() {
    let swap = sheet_of(&[(0, &[1]), (1, &[0])]);
    gives(FILL, &[0x41, 2, 0, 0, 1], &swap, &[0x41, 2, 0, 1, 0]);
}

#[test]
fn m13_a_long_array_becomes_packed() {
    let sheet = [0x01, 0, 0, 0, 0x01, 0, 0x01, 0, 0x20];
    assert_eq!(sheet_of(&[(0, INT)]), sheet);
    gives(FILL, &[0x40, 1, 0, 0], &sheet, &[0x60]);
}

#[test]
fn m14_joined() {
    let (first, second) = (sheet_of(&[(0, &[1])]), sheet_of(&[(1, INT)]));
    let joined = [2, 0, 0, 0, 1, 0, 1, 0, 1, 0, 2, 0, 0x20, 0x20];
    gives(JOIN, &first, &second, &joined);
}

#[test]
fn only_the_made_shape_counts() {
    let template = arrays_500();
    let first = sheet_of(&[(0, &[0x45, 2, 0, 40, 0])]);
    refuses(FILL, &template, &first, MadeTooLong, 0);
    let joined = join_to_vec(&first, &sheet_of(&[(40, INT)])).unwrap();
    assert_eq!(joined, sheet_of(&[(0, INT), (40, INT)]));
    let made = function(500, &[0x60]);
    assert_eq!(made.len(), 506);
    gives(FILL, &template, &joined, &made);
    // in two stages, with the second stage first
    let second_first = fill_to_vec(&template, &sheet_of(&[(40, INT)])).unwrap();
    assert_eq!(second_first, template);
}

#[test]
fn what_stays() {
    for template in [
        &[0x20][..],
        &[0x76],
        &[0x05],
        &[0x45, 2, 0, 40, 0],
        &arrays(15, &[3]),
        &symbol(2048),
    ] {
        gives(FILL, template, &EMPTY, template);
        // blanks of other numbers, near and with the same low byte
        gives(FILL, template, &equal(6, 32, INT), template);
        gives(
            FILL,
            template,
            &sheet_of(&[(41, INT), (256 + 5, INT), (256 + 40, INT)]),
            template,
        );
    }
}

#[test]
fn blanks_of_every_size() {
    for blank in [0u16, 1, 31, 32, 33, 255, 256, 0x2000, 65_535] {
        let encoded = match blank {
            0..=31 => vec![blank as u8],
            _ => long(0x45, &blank.to_le_bytes()),
        };
        let sheet = sheet_of(&[(blank, INT)]);
        gives(FILL, &encoded, &sheet, INT);
        gives(FILL, &long(0x40, &encoded), &sheet, &[0x60]);
        let record = |field: &[u8]| long(0x42, &[&[1, 1, b'a'], field].concat());
        gives(FILL, &record(&encoded), &sheet, &record(INT));
        // and the other way round
        gives(FILL, &[7], &sheet_of(&[(7, &encoded)]), &encoded);
        gives(
            FILL,
            &long(0x40, &[7]),
            &sheet_of(&[(7, &encoded)]),
            &long(0x40, &encoded),
        );
    }
}

#[test]
fn maps_become_packed_where_both_are_primitives() {
    let sheet = sheet_of(&[(0, &[0x23]), (1, &[0x22]), (2, &[0x62])]);
    for (template, made) in [
        (&[0x41, 2, 0, 0, 1][..], &[0x76][..]),
        (&[0x41, 2, 0, 0x23, 1], &[0x76]),
        (&[0x41, 2, 0, 0, 0x22], &[0x76]),
        (&[0x41, 2, 0, 0, 2], &[0x41, 2, 0, 0x23, 0x62]),
        (&[0x41, 2, 0, 2, 1], &[0x41, 2, 0, 0x62, 0x22]),
        (&[0x41, 2, 0, 0, 9], &[0x41, 2, 0, 0x23, 9]),
        (&[0x40, 5, 0, 0x41, 2, 0, 0, 1], &[0x40, 1, 0, 0x76]),
    ] {
        gives(FILL, template, &sheet, made);
    }
}

#[test]
fn sizes_and_names_fit() {
    // a Record of `a`, blank 0, and `b`, a Function of blank 1 that returns blank 0
    let template = [0x42, 12, 0, 2, 1, b'a', 0, 1, b'b', 0x43, 3, 0, 1, 1, 0];
    let record = [0x42, 3, 0, 1, 0, 0x24];
    let sheet = sheet_of(&[(0, &record), (1, &[0x60])]);
    let made = [
        &[0x42, 22, 0, 2, 1, b'a'][..],
        &record,
        &[1, b'b', 0x43, 8, 0, 1, 0x60],
        &record,
    ];
    gives(FILL, &template, &sheet, &made.concat());
}

#[test]
fn depth_16_and_17() {
    for levels in 0..=15 {
        let template = arrays(levels, &[3]);
        let inner = arrays(15 - levels, &[4]);
        gives(
            FILL,
            &template,
            &sheet_of(&[(3, &inner)]),
            &arrays(15, &[4]),
        );
        let deeper = arrays(16 - levels, &[4]);
        if read(&deeper).is_ok() {
            refuses(FILL, &template, &sheet_of(&[(3, &deeper)]), MadeTooDeep, 0);
            // what is not put in does not count
            gives(FILL, &template, &sheet_of(&[(4, &deeper)]), &template);
        }
        // a packed Array has two levels
        if levels < 15 {
            let packed = arrays(14 - levels, &[0x60]);
            gives(
                FILL,
                &template,
                &sheet_of(&[(3, &packed)]),
                &arrays(14, &[0x60]),
            );
        } else {
            refuses(FILL, &template, &sheet_of(&[(3, &[0x60])]), MadeTooDeep, 0);
        }
    }
}

#[test]
fn length_2048_and_2049() {
    let pair = |own: usize| sheet_of(&[(0, &symbol(own)), (1, INT)]);
    // the Map's head takes three bytes and the Int one
    gives(
        FILL,
        &[0x41, 2, 0, 0, 1],
        &pair(2044),
        &long(0x41, &[&symbol(2044)[..], INT].concat()),
    );
    refuses(FILL, &[0x41, 2, 0, 0, 1], &pair(2045), MadeTooLong, 0);
    gives(FILL, &[0], &pair(2048), &symbol(2048));
    refuses(FILL, &function(2040, &[0]), &pair(2048), MadeTooLong, 0);
    // 15 comes before 16
    let template = long(0x41, &[&arrays(14, &[0])[..], &[1]].concat());
    refuses(
        FILL,
        &template,
        &sheet_of(&[(0, &[0x60]), (1, &symbol(2048))]),
        MadeTooDeep,
        0,
    );
    refuses(
        FILL,
        &template,
        &sheet_of(&[(1, &symbol(2048))]),
        MadeTooLong,
        0,
    );
}

#[test]
fn a_bad_template_is_refused_first() {
    let sound = sheet_of(&[(0, INT)]);
    for (template, kind, place) in [
        (&[][..], CutShort, 0),
        (&[0xA0], NotAssigned, 0),
        (&[0x20, 0x20], SizeWrong, 1),
        (&[0x44, 3, 0, 0x81, 0, 0], Leb128Wrong, 3),
        (&[0x44, 3, 0, 1, 1, 0xFF], NotUtf8, 5),
        (&[0x40, 1, 0, 0x20], LongForm, 0),
        (&arrays(16, &[0]), TooDeep, 48),
        (&[0; 2049], InputTooLong, 2048),
    ] {
        for sheet in [&sound[..], &EMPTY, &[], &[0xFF; 9]] {
            refuses(FILL, template, sheet, kind, place);
        }
    }
}

/// Broken sheets, and where.
fn broken() -> Vec<(Vec<u8>, u32)> {
    let sound = sheet_of(&[(0, INT), (1, INT)]);
    let with = |at: usize, byte: u8| {
        let mut sheet = sound.clone();
        sheet[at] = byte;
        sheet
    };
    vec![
        (vec![], 0),
        (with(0, 33), 0),
        (sound[..9].to_vec(), 0),
        (with(6, 0), 1),
        (with(4, 0), 0),
        (sound[..11].to_vec(), 10),
        (with(10, 3), 10),
        (sound[..13].to_vec(), 10),
        ([&sound[..], &[0]].concat(), 14),
        (with(13, 0xFF), 1),
    ]
}

#[test]
fn a_broken_sheet_is_refused_next() {
    for (bytes, place) in broken() {
        assert_eq!(sheet(&bytes).unwrap_err(), Refusal::new(SheetBroken, place));
        refuses(FILL, &[0], &bytes, SheetBroken, place);
        refuses(FILL, &symbol(2048), &bytes, SheetBroken, place);
        refuses(JOIN, &bytes, &EMPTY, SheetBroken, place);
        refuses(JOIN, &bytes, &[], SheetBroken, place);
        refuses(JOIN, &EMPTY, &bytes, SecondBroken, place);
        refuses(JOIN, &equal(100, 32, INT), &bytes, SecondBroken, place);
    }
}

#[test]
fn joined_with_the_empty_sheet() {
    for sheet in [
        EMPTY.to_vec(),
        sheet_of(&[(0, &[0])]),
        equal(50, 32, &symbol(512)),
        equal(0, 8, &symbol(2048)),
    ] {
        gives(JOIN, &sheet, &EMPTY, &sheet);
        gives(JOIN, &EMPTY, &sheet, &sheet);
    }
}

#[test]
fn where_both_name_a_blank() {
    // the first wins, and the second fills it; what the second has alone stays as it is there
    let first = sheet_of(&[(3, &[3]), (5, &[0x21]), (300, &[0x40, 1, 0, 4])]);
    let second = sheet_of(&[(3, &[4]), (4, &[0x22]), (5, &[5])]);
    let joined = sheet_of(&[(3, &[4]), (4, &[0x22]), (5, &[0x21]), (300, &[0x62])]);
    gives(JOIN, &first, &second, &joined);
}

#[test]
fn up_to_32_entries() {
    let evens: Vec<(u16, &[u8])> = (0..16).map(|i| (2 * i, INT)).collect();
    let odds: Vec<(u16, &[u8])> = (0..17).map(|i| (2 * i + 1, INT)).collect();
    gives(
        JOIN,
        &sheet_of(&evens),
        &sheet_of(&odds[..16]),
        &equal(0, 32, INT),
    );
    refuses(
        JOIN,
        &sheet_of(&evens),
        &sheet_of(&odds),
        JoinedTooLarge,
        33,
    );
    gives(
        JOIN,
        &equal(0, 32, INT),
        &equal(0, 32, &[0x21]),
        &equal(0, 32, INT),
    );
    refuses(
        JOIN,
        &equal(0, 32, INT),
        &equal(32, 32, INT),
        JoinedTooLarge,
        64,
    );
    refuses(
        JOIN,
        &equal(0, 32, INT),
        &equal(1, 32, INT),
        JoinedTooLarge,
        33,
    );
    // before 15
    let deep = sheet_of(&[(0, &arrays(15, &[1]))]);
    refuses(JOIN, &deep, &equal(1, 32, &[0x60]), JoinedTooLarge, 33);
    refuses(JOIN, &deep, &equal(1, 31, &[0x60]), MadeTooDeep, 0);
}

#[test]
fn blank_by_blank() {
    let (deep, long_one) = (arrays(15, &[1]), function(1000, &[0]));
    let second = sheet_of(&[(0, &symbol(500)), (1, &[0x60])]);
    // 16 at a smaller blank comes before 15 at a larger one, and the other way round
    refuses(
        JOIN,
        &sheet_of(&[(7, &long_one), (40, &deep)]),
        &second,
        MadeTooLong,
        7,
    );
    refuses(
        JOIN,
        &sheet_of(&[(7, &deep), (40, &long_one)]),
        &second,
        MadeTooDeep,
        7,
    );
    refuses(
        JOIN,
        &sheet_of(&[(7, INT), (65_535, &long_one)]),
        &second,
        MadeTooLong,
        65_535,
    );
    // 15 before 16 at one blank
    let both = long(
        0x41,
        &[&arrays(14, &[1])[..], &function(1000, &[0])].concat(),
    );
    refuses(JOIN, &sheet_of(&[(9, &both)]), &second, MadeTooDeep, 9);
    // the second's own are not filled
    let own = sheet_of(&[(0, &long_one), (1, &deep)]);
    gives(JOIN, &EMPTY, &own, &own);
    // all of them come before the bytes
    let many = equal(100, 7, &symbol(2048));
    let first = sheet_of(&[(0, &symbol(2048)), (1, &symbol(1024)), (2, &long_one)]);
    refuses(
        JOIN,
        &first,
        &many,
        JoinedTooLarge,
        2048 + 1024 + 1006 + 7 * 2048,
    );
    let mut fills = vec![(0, symbol(500))];
    fills.extend((100..106).map(|blank| (blank, symbol(2048))));
    let fills: Vec<(u16, &[u8])> = fills
        .iter()
        .map(|(blank, own)| (*blank, &own[..]))
        .collect();
    let fills = sheet_of(&fills);
    refuses(JOIN, &first, &fills, MadeTooLong, 2);
}

#[test]
fn up_to_16384_bytes() {
    let half = equal(0, 4, &symbol(2048));
    let other = |last: usize| {
        let last = symbol(last);
        sheet_of(&[
            (4, &symbol(2048)),
            (5, &symbol(2048)),
            (6, &symbol(2048)),
            (7, &last),
        ])
    };
    gives(JOIN, &half, &other(2048), &equal(0, 8, &symbol(2048)));
    let one_more = sheet_of(&[(8, INT)]);
    refuses(
        JOIN,
        &equal(0, 8, &symbol(2048)),
        &one_more,
        JoinedTooLarge,
        16_385,
    );
    // the longest answer: 32 entries and 16,384 bytes
    let (first, second) = (equal(0, 16, &symbol(512)), equal(16, 16, &symbol(512)));
    let joined = equal(0, 32, &symbol(512));
    assert_eq!(joined.len(), 16_516);
    gives(JOIN, &first, &second, &joined);
    // the most that there could be: 32 shapes of 2,048 bytes
    let ones: Vec<(u16, &[u8])> = (0..31).map(|blank| (blank, &[31][..])).collect();
    let long_one = sheet_of(&[(31, &symbol(2048))]);
    refuses(JOIN, &sheet_of(&ones), &long_one, JoinedTooLarge, 65_536);
}

#[test]
fn one_filling_or_two() {
    let first = sheet_of(&[(0, &[0x41, 2, 0, 1, 2]), (1, &[0])]);
    let second = sheet_of(&[(0, &[0x21]), (1, INT), (2, &[0x23]), (9, &[0])]);
    let joined = join_to_vec(&first, &second).unwrap();
    for template in [&[0][..], &[1], &[9], &[0x41, 2, 0, 0, 1], &[0x40, 1, 0, 9]] {
        let twice = fill_to_vec(&fill_to_vec(template, &first).unwrap(), &second).unwrap();
        gives(FILL, template, &joined, &twice);
    }
    let third = sheet_of(&[(2, &[0x24]), (9, &[1])]);
    let left = join_to_vec(&joined, &third).unwrap();
    gives(JOIN, &first, &join_to_vec(&second, &third).unwrap(), &left);
}

#[test]
fn parts_of_slices_and_empty_ones() {
    let bytes = [
        &[0xFF][..],
        &sheet_of(&[(0, INT)]),
        &[0x40, 1, 0, 0],
        &[0xFF],
    ]
    .concat();
    let mut out = [0xEE; 3];
    assert_eq!(fill(&bytes[10..14], &bytes[1..10], &mut out[1..2]), Ok(1));
    assert_eq!(out, [0xEE, 0x60, 0xEE]);
    refuses(FILL, Default::default(), Default::default(), CutShort, 0);
    refuses(JOIN, Default::default(), Default::default(), SheetBroken, 0);
}

#[test]
fn many_threads_at_once() {
    let (template, sheet) = (arrays_500(), sheet_of(&[(0, INT)]));
    std::thread::scope(|scope| {
        for _ in 0..4 {
            scope.spawn(|| {
                for _ in 0..100 {
                    assert_eq!(fill_to_vec(&template, &sheet).unwrap().len(), 506);
                    assert_eq!(join_to_vec(&sheet, &sheet).unwrap(), sheet);
                }
            });
        }
    });
}
