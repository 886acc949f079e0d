//! Children and names.

mod common;

use common::{hex, no, Random};
use model::parts::{child, name, Child};
use model::read::read;
use model::shape::{encode, primitive_number, Shape};

fn part(place: u32, length: u32) -> Result<Child, model::Refusal> {
    Ok(Child::Part { place, length })
}

#[test]
fn children() {
    // No children.
    for bytes in [
        "00",
        "20",
        "45 02 00 20 00",
        "42 01 00 00",
        "44 03 00 01 01 61",
    ] {
        for k in [0, 1, 255, u64::MAX] {
            assert_eq!(child(&hex(bytes), k), no(18, 0), "{bytes}");
        }
    }
    // Packed: Array of Bytes, Map of Str to Bool.
    assert_eq!(child(&hex("64"), 0), Ok(Child::Primitive(4)));
    assert_eq!(child(&hex("64"), 1), no(18, 1));
    assert_eq!(child(&hex("76"), 0), Ok(Child::Primitive(3)));
    assert_eq!(child(&hex("76"), 1), Ok(Child::Primitive(2)));
    assert_eq!(child(&hex("76"), 2), no(18, 2));
    // Long: a primitive child has its byte.
    assert_eq!(child(&hex("40 01 00 60"), 0), part(3, 1));
    assert_eq!(child(&hex("40 01 00 60"), 1), no(18, 1));
    let bytes = hex("41 06 00 20 45 02 00 20 00");
    assert_eq!(child(&bytes, 0), part(3, 1));
    assert_eq!(child(&bytes, 1), part(4, 5));
    assert_eq!(child(&bytes, 2), no(18, 2));
    // Record a Int, b Array of Bool.
    let bytes = hex("42 07 00 02 01 61 20 01 62 62");
    assert_eq!(child(&bytes, 0), part(6, 1));
    assert_eq!(child(&bytes, 1), part(9, 1));
    assert_eq!(child(&bytes, 2), no(18, 2));
    assert_eq!(child(&bytes, 1 << 32), no(18, 2));
    assert_eq!(child(&bytes, u64::MAX), no(18, 2));
    // Function: the parameters and then the return.
    assert_eq!(child(&hex("43 02 00 00 20"), 0), part(4, 1));
    assert_eq!(child(&hex("43 02 00 00 20"), 1), no(18, 1));
    let bytes = hex("43 07 00 02 40 01 00 00 21 22");
    assert_eq!(child(&bytes, 0), part(4, 4));
    assert_eq!(child(&bytes, 1), part(8, 1));
    assert_eq!(child(&bytes, 2), part(9, 1));
    assert_eq!(child(&bytes, 3), no(18, 3));
}

#[test]
fn names() {
    for bytes in ["00", "20", "64", "76", "40 01 00 00", "43 02 00 00 20"] {
        for k in [0, 1, u64::MAX] {
            assert_eq!(name(&hex(bytes), k), no(18, 0), "{bytes}");
        }
    }
    let bytes = hex("42 07 00 02 01 61 20 01 62 62");
    assert_eq!(name(&bytes, 0), Ok((5, 1)));
    assert_eq!(name(&bytes, 1), Ok((8, 1)));
    assert_eq!(name(&bytes, 2), no(18, 2));
    assert_eq!(name(&bytes, u64::MAX), no(18, 2));
    // Empty texts: "the byte after its length".
    let bytes = hex("44 06 00 03 00 02 C3 A9 00");
    assert_eq!(name(&bytes, 0), Ok((5, 0)));
    assert_eq!(name(&bytes, 1), Ok((6, 2)));
    assert_eq!(name(&bytes, 2), Ok((9, 0)));
    assert_eq!(name(&bytes, 3), no(18, 3));
    // A length of two bytes.
    let mut bytes = hex("44 83 00 01 80 01");
    bytes.extend([b'x'; 128]);
    assert_eq!(name(&bytes, 0), Ok((6, 128)));
}

/// "A bad encoding gives 1 to 8 first, then 18."
#[test]
fn bad_encodings() {
    for bytes in [
        "",
        "A0",
        "20 20",
        "40 01 00 20",
        "44 03 00 81 00 00",
        "44 03 00 01 01 FF",
    ] {
        let bytes = hex(bytes);
        let refusal = read(&bytes).unwrap_err();
        for k in [0, u64::MAX] {
            assert_eq!(child(&bytes, k), Err(refusal));
            assert_eq!(name(&bytes, k), Err(refusal));
        }
    }
    assert_eq!(child(&[0x20; 2_049], 0), no(8, 2_048));
    assert_eq!(name(&[0x20; 2_049], 0), no(8, 2_048));
}

/// Children and names hold the right bytes, in order, apart from each other and inside.
#[test]
fn random_shapes() {
    let mut random = Random(4);
    for _ in 0..3_000 {
        let shape = random.fitting_shape();
        let bytes = encode(&shape);
        let children = shape.children();
        let mut end = 3;
        for (k, expected) in children.iter().enumerate() {
            match child(&bytes, k as u64).unwrap() {
                Child::Primitive(number) => {
                    assert!((96..=125).contains(&bytes[0]));
                    assert_eq!(primitive_number(expected).map(u32::from), Some(number));
                }
                Child::Part { place, length } => {
                    assert!(!(96..=125).contains(&bytes[0]));
                    let (place, length) = (place as usize, length as usize);
                    assert!(end <= place && place + length <= bytes.len());
                    end = place + length;
                    assert_eq!(read(&bytes[place..end]).as_ref(), Ok(*expected));
                }
            }
        }
        let count = children.len();
        assert_eq!(child(&bytes, count as u64), no(18, count as u32));

        let texts: Vec<&Vec<u8>> = match &shape {
            Shape::Record(fields) => fields.iter().map(|(name, _)| name).collect(),
            Shape::Symbol(parts) => parts.iter().collect(),
            _ => Vec::new(),
        };
        let mut end = 3;
        for (k, expected) in texts.iter().enumerate() {
            let (place, length) = name(&bytes, k as u64).unwrap();
            let (place, length) = (place as usize, length as usize);
            assert!(end < place && place + length <= bytes.len());
            end = place + length;
            assert_eq!(&bytes[place..end], expected.as_slice());
        }
        let count = texts.len();
        assert_eq!(name(&bytes, count as u64), no(18, count as u32));
    }
}
