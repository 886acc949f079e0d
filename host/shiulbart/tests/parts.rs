//! Children and names through the safe crate: the bench card, every kind of shape, and the
//! iterators.

use shiulbart::{child, children, name, names, read, Child, Name, Primitive, Refusal, RefusalKind};
use std::iter::FusedIterator;

/// M4 of the bench card: a Record of `a`, an Int, and `b`, an Array of Bool.
const M4: [u8; 10] = [0x42, 0x07, 0x00, 0x02, 0x01, 0x61, 0x20, 0x01, 0x62, 0x62];
/// A Function of an Array of Variable 0 and a Float, returning a Bool.
const FUNCTION: [u8; 10] = [0x43, 0x07, 0x00, 0x02, 0x40, 0x01, 0x00, 0x00, 0x21, 0x22];
/// A Symbol of an empty text, `é` and an empty text.
const SYMBOL: [u8; 9] = [0x44, 0x06, 0x00, 0x03, 0x00, 0x02, 0xC3, 0xA9, 0x00];

/// Numbers that no part has.
const LARGE: [u64; 6] = [2048, 1 << 16, 1 << 32, (1 << 32) + 1, 1 << 63, u64::MAX];

fn part(place: usize, length: usize) -> Result<Child, Refusal> {
    Ok(Child::Part { place, length })
}

fn primitive(primitive: Primitive) -> Result<Child, Refusal> {
    Ok(Child::Primitive(primitive))
}

fn text(place: usize, length: usize) -> Result<Name, Refusal> {
    Ok(Name { place, length })
}

fn none<T>(count: u32) -> Result<T, Refusal> {
    Err(Refusal::new(RefusalKind::NoSuchPart, count))
}

/// A Function of so many parameters, 128 to 2,040, each Variable 5, that returns Int.
fn wide(parameters: usize) -> Vec<u8> {
    let size = parameters + 3;
    let mut bytes = vec![0x43, size as u8, (size >> 8) as u8];
    bytes.extend([parameters as u8 | 128, (parameters >> 7) as u8]);
    bytes.resize(bytes.len() + parameters, 5);
    bytes.push(0x20);
    bytes
}

#[test]
fn m4_record() {
    assert_eq!(child(&M4, 0), part(6, 1));
    assert_eq!(child(&M4, 1), part(9, 1));
    assert_eq!(child(&M4, 2), none(2));
    assert_eq!(name(&M4, 0), text(5, 1));
    assert_eq!(name(&M4, 1), text(8, 1));
    assert_eq!(name(&M4, 2), none(2));
    assert_eq!(&M4[name(&M4, 1).unwrap().range()], b"b");
}

#[test]
fn m2_packed_map() {
    assert_eq!(child(&[0x76], 0), primitive(Primitive::Str));
    assert_eq!(child(&[0x76], 1), primitive(Primitive::Bool));
    assert_eq!(child(&[0x76], 2), none(2));
    assert_eq!(name(&[0x76], 0), none(0));
}

#[test]
fn every_packed_byte() {
    for byte in 96..=125u8 {
        let expected = match u32::from(byte) - 96 {
            element @ 0..=4 => vec![element],
            pair => vec![(pair - 5) / 5, pair % 5],
        };
        let bytes = [byte];
        let all = children(&bytes).unwrap();
        assert_eq!(all.len(), expected.len());
        for ((child, own), number) in all.zip(expected) {
            let primitive = Primitive::from_number(number).unwrap();
            assert_eq!(child, Child::Primitive(primitive));
            assert_eq!(child.range(), None);
            assert!(own.is_empty());
        }
    }
}

#[test]
fn m9_function_without_parameters() {
    let function = [0x43, 0x02, 0x00, 0x00, 0x20];
    assert_eq!(child(&function, 0), part(4, 1));
    assert_eq!(child(&function, 1), none(1));
    assert_eq!(name(&function, 0), none(0));
}

#[test]
fn a_function_has_its_return_last() {
    assert_eq!(child(&FUNCTION, 0), part(4, 4));
    assert_eq!(child(&FUNCTION, 1), part(8, 1));
    assert_eq!(child(&FUNCTION, 2), part(9, 1));
    assert_eq!(child(&FUNCTION, 3), none(3));
    assert_eq!(name(&FUNCTION, 0), none(0));
}

#[test]
fn long_array_and_map() {
    assert_eq!(child(&[0x40, 1, 0, 0x60], 0), part(3, 1));
    assert_eq!(child(&[0x40, 1, 0, 0x60], 1), none(1));
    let map = [0x41, 6, 0, 0x20, 0x45, 2, 0, 0x20, 0];
    assert_eq!(child(&map, 0), part(3, 1));
    assert_eq!(child(&map, 1), part(4, 5));
    assert_eq!(child(&map, 2), none(2));
}

#[test]
fn a_symbol_has_names_and_no_children() {
    assert_eq!(child(&SYMBOL, 0), none(0));
    assert_eq!(name(&SYMBOL, 0), text(5, 0));
    assert_eq!(name(&SYMBOL, 1), text(6, 2));
    assert_eq!(name(&SYMBOL, 2), text(9, 0)); // at the end of the bytes
    assert_eq!(name(&SYMBOL, 3), none(3));
}

#[test]
fn shapes_without_parts() {
    let variable: &[u8] = &[0x45, 2, 0, 0x20, 0];
    for bytes in [
        &[0x00],
        &[0x24],
        variable,
        &[0x42, 1, 0, 0],
        &[0x44, 1, 0, 0],
    ] {
        for k in [0, 1].into_iter().chain(LARGE) {
            assert_eq!(child(bytes, k), none(0));
            assert_eq!(name(bytes, k), none(0));
        }
        assert_eq!(children(bytes).unwrap().next(), None);
        assert_eq!(names(bytes).unwrap().next(), None);
    }
}

#[test]
fn large_numbers_do_not_wrap() {
    for k in LARGE {
        assert_eq!(child(&[0x76], k), none(2));
        assert_eq!(child(&M4, k), none(2));
        assert_eq!(child(&FUNCTION, k), none(3));
        assert_eq!(name(&M4, k), none(2));
        assert_eq!(name(&SYMBOL, k), none(3));
    }
}

#[test]
fn a_bad_encoding_is_refused_first() {
    let cut: &[u8] = &M4[..9];
    let not_utf8: &[u8] = &[0x44, 3, 0, 1, 1, 0xFF];
    let deep: Vec<u8> = (0..15).fold(vec![0x60], |inner, _| {
        let head = [0x40, inner.len() as u8, 0];
        [&head[..], &inner].concat()
    });
    for (bytes, number, place) in [
        (&[][..], 1, 0),
        (cut, 1, 0),
        (&[0xA0], 2, 0),
        (&[0x20, 0x20], 3, 1),
        (&[0x44, 3, 0, 0x81, 0, 0], 4, 3),
        (not_utf8, 5, 5),
        (&[0x40, 1, 0, 0x20], 6, 0),
        (&deep, 7, 45),
        (&[0x20; 2049], 8, 2048),
    ] {
        let kind = RefusalKind::from_number(number).unwrap();
        let refusal = Refusal::new(kind, place);
        assert_eq!(read(bytes), Err(refusal));
        for k in [0, 1].into_iter().chain(LARGE) {
            assert_eq!(child(bytes, k), Err(refusal));
            assert_eq!(name(bytes, k), Err(refusal));
        }
        assert_eq!(children(bytes).unwrap_err(), refusal);
        assert_eq!(names(bytes).unwrap_err(), refusal);
    }
}

#[test]
fn each_primitive_has_its_number() {
    for (number, primitive) in Primitive::ALL.into_iter().enumerate() {
        assert_eq!(primitive.number(), number as u32);
        assert_eq!(Primitive::from_number(number as u32), Some(primitive));
    }
    assert_eq!(Primitive::from_number(5), None);
    assert_eq!(Primitive::from_number(u32::MAX), None);
}

#[test]
fn the_children_of_m4() {
    let mut all = children(&M4).unwrap();
    assert_eq!(all.len(), 2);
    let a = Child::Part {
        place: 6,
        length: 1,
    };
    assert_eq!(all.next(), Some((a, &[0x20][..])));
    assert_eq!(all.size_hint(), (1, Some(1)));
    let b = Child::Part {
        place: 9,
        length: 1,
    };
    assert_eq!(all.next(), Some((b, &[0x62][..])));
    assert_eq!(all.len(), 0);
    assert_eq!(all.next(), None);
    assert_eq!(all.next(), None);
}

#[test]
fn the_names_of_m4_and_of_a_symbol() {
    let mut all = names(&M4).unwrap();
    assert_eq!(all.len(), 2);
    assert_eq!(all.next(), Some("a"));
    assert_eq!(all.size_hint(), (1, Some(1)));
    assert_eq!(all.next(), Some("b"));
    assert_eq!(all.next(), None);
    assert_eq!(all.next(), None);
    assert!(names(&SYMBOL).unwrap().eq(["", "é", ""]));
    assert!(names(&FUNCTION).unwrap().eq([""; 0]));
}

/// The parts outlive the iterator: they are borrowed from the encoding.
#[test]
fn parts_are_borrowed_from_the_encoding() {
    fn first(bytes: &[u8]) -> (&str, &[u8]) {
        let name = names(bytes).unwrap().next().unwrap();
        let (_, own) = children(bytes).unwrap().next().unwrap();
        (name, own)
    }
    let bytes = M4;
    let (name, own) = first(&bytes);
    assert!(std::ptr::eq(name.as_bytes(), &bytes[5..6]));
    assert!(std::ptr::eq(own, &bytes[6..7]));
}

#[test]
fn from_both_ends_and_with_skips() {
    let bytes = wide(2040);
    let all = children(&bytes).unwrap();
    assert_eq!(all.len(), 2041);
    let places = |all: &mut dyn Iterator<Item = (Child, &[u8])>| -> Vec<usize> {
        all.map(|(child, _)| child.range().unwrap().start).collect()
    };
    assert_eq!(places(&mut all.clone()), (5..2046).collect::<Vec<_>>());
    assert_eq!(places(&mut all.clone().rev().take(2)), [2045, 2044]);
    assert_eq!(places(&mut all.clone().step_by(1000)), [5, 1005, 2005]);
    assert_eq!(places(&mut all.clone().rev().skip(2039)), [6, 5]);
    assert_eq!(all.clone().next_back().unwrap().1, [0x20]);
    assert_eq!(all.clone().nth(2041), None);
    let mut both = names(&SYMBOL).unwrap();
    assert_eq!(
        (both.next_back(), both.next_back(), both.next()),
        (Some(""), Some("é"), Some(""))
    );
    assert_eq!((both.next(), both.next_back()), (None, None));
    assert_eq!(names(&SYMBOL).unwrap().nth(1), Some("é"));
    assert_eq!(names(&SYMBOL).unwrap().nth_back(1), Some("é"));
}

#[test]
fn the_iterators_have_the_traits_that_one_expects() {
    fn expected<T>(_: &T)
    where
        T: ExactSizeIterator + DoubleEndedIterator + FusedIterator + Clone + Send + Sync,
    {
    }
    expected(&children(&M4).unwrap());
    expected(&names(&M4).unwrap());
}

/// A shape in words, by the calls alone, but for the first byte that names the kind.
fn words(bytes: &[u8]) -> Result<String, Refusal> {
    let mut parts = Vec::new();
    for (child, own) in children(bytes)? {
        parts.push(match child {
            Child::Part { .. } => words(own)?,
            Child::Primitive(primitive) => format!("{primitive:?}"),
        });
    }
    let names: Vec<&str> = names(bytes)?.collect();
    Ok(match bytes[0] {
        number @ 0..=31 => format!("?{number}"),
        number @ 32..=36 => format!("{:?}", Primitive::ALL[number as usize - 32]),
        0x40 | 96..=100 => format!("[{}]", parts[0]),
        0x41 | 101..=125 => format!("{{{}: {}}}", parts[0], parts[1]),
        0x42 => {
            let fields = names.iter().zip(parts);
            let fields: Vec<String> = fields
                .map(|(name, part)| format!("{name} {part}"))
                .collect();
            format!("({})", fields.join(", "))
        }
        0x43 => {
            let result = parts.pop().unwrap();
            format!("({}) -> {result}", parts.join(", "))
        }
        0x44 => names.join("|"),
        _ => format!("?{}", u16::from_le_bytes([bytes[3], bytes[4]])),
    })
}

#[test]
fn a_nested_shape_is_walked() {
    assert_eq!(words(&M4).unwrap(), "(a Int, b [Bool])");
    assert_eq!(words(&FUNCTION).unwrap(), "([?0], Float) -> Bool");

    let long = |first: u8, payload: &[&[u8]]| {
        let payload = payload.concat();
        [&[first, payload.len() as u8, 0][..], &payload].concat()
    };
    let symbol = long(0x44, &[&[2, 2], b"up", &[4], b"down"]);
    let variable = [0x45, 2, 0, 0xFF, 0xFF];
    let map = long(0x41, &[&symbol, &variable]);
    let array = long(0x40, &[&map]);
    let record = long(
        0x42,
        &[
            &[3, 0],
            &array,
            &[2],
            "é".as_bytes(),
            &M4,
            &[1],
            b"m",
            &[0x76],
        ],
    );
    let function = long(0x43, &[&[1], &record, &[0x42, 1, 0, 0]]);
    assert_eq!(
        words(&function).unwrap(),
        "(( [{up|down: ?65535}], é (a Int, b [Bool]), m {Str: Bool})) -> ()"
    );
    assert!(words(&function[1..]).is_err());
}
